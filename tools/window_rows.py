#!/usr/bin/env python3
"""Writes the rows of crates/cron_test_windows/data: windows, their states at instants, rotas, and who is on duty at instants. The
fires are those of Python's zoneinfo, and each answer is read off an array with one byte a second.

usage: window_rows.py FOLDER"""
import datetime
import os
import random
import re
import sys
import zoneinfo

from day_rows import FIRST, Schedule

UTC = datetime.timezone.utc
DAY = 86400
# fires before a stretch count as far back as this
BEFORE = 40 * DAY
# what matches a run of one byte
RUNS = [re.compile(re.escape(bytes([value])) + b"+") for value in range(256)]
ZONES = {"Chicago": "America/Chicago", "Lord_Howe": "Australia/Lord_Howe", "Apia": "Pacific/Apia", "Casablanca": "Africa/Casablanca"}


def second_of(text):
    """Returns the second of an instant as text, which is in UTC."""
    return int(datetime.datetime.fromisoformat(text).replace(tzinfo=UTC).timestamp())


def offset_at(zone, second):
    """Returns the offset of a zone at a second."""
    return int(datetime.datetime.fromtimestamp(second, zone).utcoffset().total_seconds())


def offsets(zone, first, end):
    """Gives the greatest stretches of one offset between two seconds: the first second, the end, and the offset."""
    start, offset = first, offset_at(zone, first)
    for second in range(first, end, 900):
        if offset_at(zone, second) == offset:
            continue
        low, high = second - 900, second
        while high - low > 1:
            middle = (low + high) // 2
            low, high = (middle, high) if offset_at(zone, middle) == offset else (low, middle)
        yield start, high, offset
        start, offset = high, offset_at(zone, high)
    yield start, end, offset


def matches(schedule, first, end):
    """Gives the civil seconds between two that match, ascending."""
    times = sorted(schedule.times())
    for day in range(first // DAY, (end - 1) // DAY + 1):
        if schedule.has_day(day):
            yield from (day * DAY + time for time in times if first <= day * DAY + time < end)


def fires(rule, zone, text, first, end):
    """Returns the seconds at which an expression fires, ascending. By `shown` it fires each time that the clock shows a match, by
    `once` when the clock first shows a match or something later."""
    schedule, zone, found, shown = Schedule(text), zoneinfo.ZoneInfo(ZONES[zone]), [], None
    for low, high, offset in offsets(zone, first, end):
        if rule == "shown":
            found += [civil - offset for civil in matches(schedule, low + offset, high + offset)]
            continue
        start = low + offset if shown is None else shown
        found += [max(low, civil - offset) for civil in matches(schedule, start, max(start, high + offset))]
        shown = max(start, high + offset)
    return found


def open_seconds(rule, zone, opens, closing, base, end):
    """Returns a byte for each second from `base` on: whether a window is open."""
    state, kind, rest = bytearray(end - base), *closing.split(" ", 1)
    opening = fires(rule, zone, opens, base, end)
    if kind == "after":
        for fire in opening:
            size = min(int(rest), end - fire)
            state[fire - base:fire - base + size] = b"\1" * size
        return state
    closes, opens = set(fires(rule, zone, rest, base, end)), set(opening)
    now, place = 0, base
    for second in sorted(closes | opens) + [end]:
        state[place - base:second - base] = bytes([now]) * (second - place)
        now, place = (1 if second in opens else 0), second
    return state


def stretches(state, base, first, end):
    """Returns the greatest stretches of one value between two seconds: the first second, the end and the value."""
    part, place, found = bytes(state[first - base:end - base]), 0, []
    while place < len(part):
        last = RUNS[part[place]].match(part, place).end()
        found.append((first + place, first + last, part[place]))
        place = last
    return found


def around(state, base, first, at, end):
    """Returns the greatest stretch of one value around a second, cut at two others, as one cell, or `none` if it isn't between them."""
    if not first <= at < end:
        return "none"
    value = state[at - base]
    other = bytes([1 - value])
    low = max(first, base + state.rfind(other, 0, at - base) + 1)
    high = state.find(other, at - base)
    return f"{low}\t{end if high < 0 else min(end, base + high)}\t{value}"


def sum_of(found, first):
    """Returns the sum of what tells stretches apart, each times its place."""
    return sum((place + 1) % 1000 * (low - first + 3 * (high - first) + 7 * value) for place, (low, high, value) in enumerate(found)) % 2**32


def summary(found, first):
    """Returns the cells of some stretches: how many, the first and the last one, and the sum."""
    ends = [f"{low} {high} {value}" for low, high, value in (found[:1] + found[-1:] if found else [])] or ["none", "none"]
    return "\t".join([str(len(found)), *ends, str(sum_of(found, first))])


WEEKDAYS = "closed 0 0 17 * * Mon-Fri"
WINDOWS = [
    ("Chicago", "0 0 9 * * Mon-Fri", WEEKDAYS, "2024-01-01", "2025-01-01"), ("Chicago", "0 30 1 * * *", "after 5400", "2023-12-31", "2025-01-02"),
    ("Chicago", "0 0 2 * * *", "after 3600", "2024-01-01", "2025-01-01"), ("Chicago", "0 0 22 * * *", "closed 0 0 6 * * *", "2024-01-01 03:00", "2025-01-01 07:30"),
    ("Chicago", "0 0 * * * *", "closed 0 0 * * * *", "2024-02-01", "2024-04-01"), ("Chicago", "0 0 * * * *", "after 3600", "2024-02-01", "2024-12-01"),
    ("Chicago", "0 0 * * * *", "after 3599", "2024-10-01", "2024-12-01"), ("Chicago", "0 0 * * * *", "after 3601", "2024-10-01", "2024-12-01"),
    ("Chicago", "0 0 12 * * Sun", "closed 0 0 * * * *", "2024-01-01", "2025-01-01"), ("Chicago", "0 * * * * *", "closed 0 0 17 * * *", "2024-02-20", "2024-03-20"),
    ("Chicago", "* * * * * *", "after 1", "2024-03-09", "2024-03-12"), ("Chicago", "* * * * * *", "closed */7 * * * * *", "2024-03-10", "2024-03-11"),
    ("Chicago", "0 0 0 1 1 * 1999", "closed 0 0 0 1 1 * 2000", "2024-01-01", "2025-01-01"),
    ("Chicago", "0 0 12 * * *", "closed 0 0 0 1 1 * 2030", "2024-01-01", "2025-01-01"), ("Chicago", "0 0 9 * * *", "after 86400", "2024-01-01", "2025-01-01"),
    ("Chicago", "0 0,30 1-3 * * *", "closed 0 15,30 1-3 * * *", "2024-02-01", "2024-12-01"),
    ("Lord_Howe", "0 */15 1-2 * * *", "closed 0 10,40 1-2 * * *", "2024-01-01", "2025-01-01"), ("Lord_Howe", "0 45 1 * * *", "after 1800", "2024-01-01", "2025-01-01"),
    ("Lord_Howe", "0 0 2 * * *", "closed 0 30 2 * * *", "2023-06-01", "2024-12-01"), ("Apia", "0 0 0 * * *", "after 90000", "2011-06-01", "2012-06-01"),
    ("Apia", "0 0 8 * * *", "closed 0 0 20 * * *", "2011-06-01", "2012-06-01"), ("Apia", "0 0 */6 * * *", "after 7200", "2011-12-20", "2012-01-10"),
    ("Apia", "0 0 0 30 * *", "closed 0 0 12 * * *", "2011-06-01", "2012-06-01"), ("Casablanca", "0 0 2 * * *", "closed 0 30 2,3 * * *", "2024-01-01", "2026-01-01"),
    ("Casablanca", "0 30 2 * * *", "after 4000", "2024-01-01", "2026-01-01"), ("Casablanca", "0 0 8 * * Mon-Fri", WEEKDAYS, "2024-02-01", "2025-05-01"),
]
SWAPS = [
    [], [("2024-02-01", "2024-02-08", 2)], [("2024-01-01", "2025-01-01", 0), ("2024-03-01", "2024-04-01", 1), ("2024-03-10 07:00", "2024-03-10 09:30", 2)],
    [("2024-03-01", "2024-03-20", 2), ("2024-03-10", "2024-03-30", 1), ("2024-03-15", "2024-03-16", 0), ("2024-03-15 12:00", "2024-03-15 12:00:01", 2)],
    [("2024-11-03 05:00", "2024-11-03 08:00", 1), ("2024-11-03 06:30", "2024-11-03 07:30", 0), ("2023-06-01", "2023-06-02", 1)],
]
ROTAS = [
    (3, "Chicago", "0 0 9 * * Mon", "2024-01-01", "2024-01-01", "2025-01-01", 0), (3, "Chicago", "0 0 9 * * Mon", "2024-01-01 15:00", "2024-01-01", "2025-01-01", 1),
    (3, "Chicago", "0 0 9 * * Mon", "2004-01-05", "2024-01-01", "2025-01-01", 2), (3, "Chicago", "0 30 1 * * *", "2024-02-01", "2024-01-15", "2024-12-15", 3),
    (4, "Chicago", "0 0,30 1-2 * * *", "2024-03-01", "2024-02-28", "2024-11-20", 4), (1, "Chicago", "0 0 * * * *", "2024-01-10", "2024-01-01", "2024-12-01", -1),
    (2, "Chicago", "0 0 2 * * *", "2024-01-01", "2024-01-01", "2025-01-01", -1), (5, "Chicago", "0 0 0 1 1 * 1999", "2024-01-01", "2023-12-01", "2025-01-01", 3),
    (7, "Chicago", "0 0 2 * * *", "2025-01-01", "2024-01-01", "2025-01-01", 2), (200, "Chicago", "0 0 * * * *", "2024-01-01", "2024-01-01", "2025-01-01", 2),
    (3, "Lord_Howe", "0 */15 1-2 * * *", "2024-01-01", "2024-03-20", "2024-11-01", 3), (3, "Lord_Howe", "0 0 2 * * *", "2023-06-01", "2023-06-01", "2024-12-01", 4),
    (3, "Apia", "0 0 8 * * *", "2011-06-01", "2011-06-01", "2012-06-01", 0), (4, "Apia", "0 0 */6 * * *", "2011-12-20", "2011-12-25", "2012-01-10", 0),
    (3, "Casablanca", "0 0,30 2 * * *", "2024-01-01", "2024-01-01", "2026-01-01", 3), (3, "Casablanca", "0 0 9 * * Mon", "2023-01-02 10:00", "2024-02-01", "2025-05-01", 2),
]
REFUSED = [
    (0, "0 5 0"), (3, "5 5 1"), (3, "5 6 1;7 6 1"), (3, "5 6 2;7 8 3"), (1, "5 6 0"), (1, ""), (0, ""), (2, "5 6 9;6 5 9"), (3, "5 6 2;1 9 0;5 6 1"),
    (2, "1 2 0;3 4 1;9 8 0;5 6 2"), (2, "1 2 0;3 4 2;9 8 0"), (4, "-5 -4 3;-4 -5 3;0 1 0"), (0, "5 4 7"),
]


def rows_of_windows():
    """Gives a line for each rule, two sets and stretch, and lines of the states at some of its instants."""
    lines, states, random_of = [], [], random.Random(7)
    for zone, opens, closing, first, end in WINDOWS:
        for rule in ("shown", "once"):
            start, last = second_of(first), second_of(end)
            base = start - BEFORE if "* * * * * *" != opens else start - 2 * DAY
            state = open_seconds(rule, zone, opens, closing, base, last)
            found = stretches(state, base, start, last)
            given = f"{rule}\tfile {zone}\t{opens}\t{closing}"
            windows = [it for it in found if it[2]]
            lines.append(f"{given}\t{start}\t{last}\t{summary(found, start)}\t{summary(windows, start)}\t{sum(high - low for low, high, _ in windows)}")
            edges = [random_of.choice(found)[0] + random_of.choice((-1, 0, 1)) for _ in range(6)]
            for at in edges + [random_of.randrange(start, last) for _ in range(4)] + [start, last - 1, start - 1, last]:
                low, high = random_of.choice(((start, last), (max(start, at - 5000), min(last, at + 4000)), (min(at, last - 1), last)))
                states.append(f"{given}\t{low}\t{at}\t{high}\t{around(state, base, low, at, high)}")
    return lines, states


def people_of(rule, zone, people, handovers, start, end, swaps):
    """Returns a byte for each second from the start on: who is on duty."""
    if end <= start:
        return bytearray()
    duty, person, place = bytearray(end - start), 0, start
    for fire in [it for it in fires(rule, zone, handovers, start, end) if it > start] + [end]:
        duty[place - start:fire - start] = bytes([person]) * (fire - place)
        person, place = (person + 1) % people, fire
    for first, last, other in swaps:
        first, last = max(first, start), min(last, end)
        if first < last:
            duty[first - start:last - start] = bytes([other]) * (last - first)
    return duty


def rows_of_rotas():
    """Gives a line for each rule and rota: its shifts, and each person's seconds; and lines of who is on duty at some instants."""
    lines, who, random_of = [], [], random.Random(11)
    for people, zone, handovers, start, first, end, which in ROTAS:
        swaps = [(second_of(a), second_of(b), min(person, people - 1)) for a, b, person in (SWAPS[which] if which >= 0 else [])]
        for rule in ("shown", "once"):
            begin, low, high = second_of(start), second_of(first), second_of(end)
            duty = people_of(rule, zone, people, handovers, begin, high, swaps)
            found = stretches(duty, begin, max(begin, low), high) if max(begin, low) < high else []
            seconds = [0] * people
            for a, b, person in found:
                seconds[person] += b - a
            given = f"{rule}\tfile {zone}\t{people}\t{handovers}\t{begin}\t{';'.join(f'{a} {b} {person}' for a, b, person in swaps)}"
            lines.append(f"{given}\t{low}\t{high}\t{summary(found, low)}\t{' '.join(map(str, seconds))}")
            edges = [random_of.choice(found)[0] + random_of.choice((-1, 0, 1)) for _ in range(8) if found]
            for at in edges + [begin, begin - 1, low, high - 1]:
                answer = "nobody" if at < begin else str(duty[at - begin]) if at < high else None
                if answer:
                    who.append(f"{given}\t{at}\t{answer}")
    return lines, who


def refusal(people, swaps):
    """Returns why so many people and swaps are no rota, by the first swap that is wrong, or `taken`."""
    parts = [[int(it) for it in part.split()] for part in swaps.split(";") if part]
    wrong = [place for place, (first, end, person) in enumerate(parts) if end <= first or person >= people]
    return "no people" if people == 0 else f"swap {wrong[0]}" if wrong else "taken"


def zone_lines():
    """Gives the lines of zones.txt: a name and the bytes of its file."""
    for name, path in ZONES.items():
        file = next(f"{folder}/{path}" for folder in zoneinfo.TZPATH if os.path.exists(f"{folder}/{path}"))
        with open(file, "rb") as it:
            yield f"{name} | {it.read().hex()}"


def main():
    """Writes all files."""
    folder, = sys.argv[1:]
    windows, states = rows_of_windows()
    rotas, who = rows_of_rotas()
    refused = [f"{people}\t{swaps}\t{refusal(people, swaps)}" for people, swaps in REFUSED]
    files = {"windows.tsv": windows, "states.tsv": states, "rotas.tsv": rotas, "who.tsv": who, "refused.tsv": refused, "zones.txt": zone_lines()}
    for name, rows in files.items():
        with open(os.path.join(folder, name), "w", encoding="utf-8") as file:
            file.writelines(f"{row}\n" for row in rows)


if __name__ == "__main__":
    main()
