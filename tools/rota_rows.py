"""Rows of `crontool rota` against the scan of seconds of window_rows.py: the shifts between two instants, and who is on duty at the
edges of shifts. Swaps overlap, handovers come where clocks change, and some instants are before the start. Files of swaps with a
wrong line are told by the first of these."""
import datetime as dates
import functools
import json
import random
import zoneinfo

from cases import Call, Check
from ics_events import span_faults
from window_rows import ZONES, people_of, second_of, stretches

NAMES = ["ann", "bob", "Dörte K.", "o'neill \"x\"", "e", "f", "g"]
# how many people, the zone, the handovers as crontool reads them and as the scan does, the rule that is chosen and the one that holds,
# the start, the ends of the list, and swaps
ROTAS = [
    (3, "Chicago", "0 9 * * 1", "0 0 9 * * Mon", None, "once", "2024-01-01", "2024-01-01", "2024-04-20", 1),
    (3, "Chicago", "0 0 9 * * Mon", "0 0 9 * * Mon", None, "shown", "2024-01-01 15:00", "2024-01-01", "2024-04-20", 2),
    (4, "Chicago", "0 0,30 1-2 * * *", "0 0,30 1-2 * * *", "as-shown", "shown", "2024-02-28", "2024-03-08", "2024-03-14", 2),
    (4, "Chicago", "0 0,30 1-2 * * *", "0 0,30 1-2 * * *", "once", "once", "2024-02-28", "2024-03-08", "2024-03-14", 2),
    (2, "Chicago", "0 30 1 * * *", "0 30 1 * * *", "as-shown", "shown", "2024-10-20", "2024-10-30", "2024-11-08", 3),
    (2, "Chicago", "30 1 * * *", "0 30 1 * * *", None, "once", "2024-10-20", "2024-10-30", "2024-11-08", 3),
    (3, "Lord_Howe", "0 */15 1-2 * * *", "0 */15 1-2 * * *", "as-shown", "shown", "2024-03-30", "2024-04-03", "2024-04-09", 0),
    (3, "Lord_Howe", "0 */15 1-2 * * *", "0 */15 1-2 * * *", "once", "once", "2024-10-01", "2024-10-04", "2024-10-08", 0),
    (4, "Apia", "0 0 */6 * * *", "0 0 */6 * * *", "once", "once", "2011-12-20", "2011-12-25", "2012-01-10", 0),
    (3, "Casablanca", "0 0,30 2 * * *", "0 0,30 2 * * *", "as-shown", "shown", "2024-03-01", "2024-03-05", "2024-03-20", 0),
    (1, "Chicago", "0 0 * * * *", "0 0 * * * *", None, "shown", "2024-01-10", "2024-01-01", "2024-02-01", 0),
    (7, "Chicago", "0 0 2 * * *", "0 0 2 * * *", None, "shown", "2024-03-01", "2024-01-01", "2024-02-01", 1),
]
SWAPS = [
    [],
    [("2024-01-01", "2025-01-01", 0), ("2024-03-01", "2024-04-01", 1), ("2024-03-10 07:00", "2024-03-10 09:30", 2)],
    [("2024-03-01", "2024-03-20", 2), ("2024-03-10", "2024-03-30", 1), ("2024-03-15", "2024-03-16", 0), ("2024-03-15 12:00", "2024-03-15 12:00:01", 2)],
    [("2024-11-03 05:00", "2024-11-03 08:00", 1), ("2024-11-03 06:30", "2024-11-03 07:30", 0), ("2023-06-01", "2023-06-02", 1)],
]
FROM, UNTIL = "2024-03-01T00:00:00Z", "2024-03-02T00:00:00Z"
# lines of swaps of ann and bob, and what is wrong with each; nothing is wrong with the first ones
LINES = [
    (b"# a comment, no UTF-8: \xff", None), (b" \t ", None), (b"", None), (f"{FROM}\t{UNTIL}\tann\r".encode(), None),
    (f" 2024-03-01 08:00 \t2024-03-01 20:00\t bob ".encode(), None),
    (b"\xff", "the line is no UTF-8"), (f"{FROM}\t{UNTIL}".encode(), "a swap is FROM, UNTIL and NAME, with a tab between each two"),
    (f"{FROM}\t{UNTIL}\tann\t".encode(), "a swap is FROM, UNTIL and NAME, with a tab between each two"),
    (f"whenever\tnever\tnobody".encode(), "'whenever' is no instant"), (f"{FROM}\tnever\tnobody".encode(), "'never' is no instant"),
    (f"{UNTIL}\t{FROM}\tnobody".encode(), f"UNTIL '{FROM}' isn't later than FROM '{UNTIL}'"),
    (f"{FROM}\t{FROM}\tann".encode(), f"UNTIL '{FROM}' isn't later than FROM '{FROM}'"),
    (f"{FROM}\t{UNTIL}\tcarl".encode(), "'carl' is none of the people"), (f"{FROM}\t{UNTIL}\t".encode(), "'' is none of the people"),
]
PEOPLE = [
    ("", "name 1 of the people is empty"), ("ann,,bob", "name 2 of the people is empty"), ("ann, bob ,ann", "name 3 of the people is one of the names before it"),
    ("ann,b\x07b", "name 2 of the people has a control character"), ("ann,b\u0085b,", "name 2 of the people has a control character"),
]


def printed(second, zone):
    """Returns an instant as crontool prints the fire of a clock."""
    text = f"{dates.datetime.fromtimestamp(second, zoneinfo.ZoneInfo(ZONES[zone])):%Y-%m-%d %H:%M:%S %z}"
    return f"{text[:-2]}:{text[-2:]}"


def swaps_file(swaps):
    lines = [f"@{a}\t{dates.datetime.fromtimestamp(b, dates.timezone.utc):%Y-%m-%dT%H:%M:%SZ}\t{NAMES[person]}\n" for a, b, person in swaps]
    return "".join(lines).encode()


def shifts_of(people, zone, scanned, rule, begin, low, high, swaps):
    """Returns the shifts between two seconds, which begin at the start of the rota at the earliest."""
    duty = people_of(rule, zone, people, scanned, begin, high, swaps)
    return stretches(duty, begin, max(begin, low), high) if max(begin, low) < high else []


def text_rows(shifts, zone):
    return "".join(f"{printed(a, zone)}\t{printed(b, zone)}\t{NAMES[person]}\n" for a, b, person in shifts)


def faults_of(wanted, status, told):
    """Gives what differs from the rows that are wanted, of which those of JSON are compared as objects."""
    rows = told.out.decode().splitlines()
    if isinstance(wanted, list):
        rows = [json.loads(row) for row in rows]
    else:
        wanted = wanted.splitlines()
    if rows != wanted:
        place = next((at for at, (a, b) in enumerate(zip(rows, wanted)) if a != b), min(len(rows), len(wanted)))
        yield f"{len(rows)} rows, and not {len(wanted)}; row {place} is {rows[place:place + 1]}, and not {wanted[place:place + 1]}"
    if told.status != status:
        yield f"status {told.status}"


def refusal_faults(wanted, status, told):
    if told.out or told.err.decode() != f"error: {wanted}\n":
        yield f"{told.out!r} and {told.err!r}, and not {wanted}"
    if told.status != status:
        yield f"status {told.status}"


def rota_checks():
    """Gives the checks of shifts, and of who is on duty at some of their edges."""
    random_of = random.Random(5)
    for number, (people, zone, handover, scanned, chosen, rule, start, first, end, which) in enumerate(ROTAS):
        swaps = [(second_of(a), second_of(b), min(person, people - 1)) for a, b, person in SWAPS[which]]
        begin, low, high = second_of(start), second_of(first), second_of(end)
        shifts = shifts_of(people, zone, scanned, rule, begin, low, high, swaps)
        files = {f"rota_{number}.swaps": swaps_file(swaps)}
        words = ["--people", " , ".join(NAMES[:people]), "--handover", handover, "--from", f"@{begin}", "--zone", ZONES[zone]]
        words += ([f"--{chosen}"] if chosen else []) + (["--swaps", f"rota_{number}.swaps"] if swaps else [])
        span, what = ["rota", f"@{low}", f"@{high}"], f"rota {number} in {zone} by {rule}"
        yield Check(f"shifts of {what}", [Call([*span, *words], files=files)], functools.partial(faults_of, text_rows(shifts, zone), 0))
        rows = [{"from": printed(a, zone), "until": printed(b, zone), "person": NAMES[person]} for a, b, person in shifts]
        yield Check(f"the same as JSON of {what}", [Call([*span, *words, "--json"], files=files)], functools.partial(faults_of, rows, 0))
        spans = [(a, b, NAMES[person]) for a, b, person in shifts]
        series = f"rota\n{words[1]}\n{handover}\n@{begin}\n"
        call = Call([*span, *words, "--ics", "--uid-domain", "t"], files=files)
        yield Check(f"the same as events of {what}", [call], functools.partial(span_faults, series, spans))
        edges = {random_of.choice(shifts)[0] + random_of.choice((-1, 0, 1)) for _ in range(8) if shifts} | {begin, begin - 1}
        for at in sorted(edges):
            found = shifts_of(people, zone, scanned, rule, begin, at, at + 1, swaps)
            name, status = (NAMES[found[0][2]], 0) if found else (None, 1)
            call = ["rota", "--at", f"@{at}", *words]
            yield Check(f"who at {at} of {what}", [Call(call, files=files)], functools.partial(faults_of, f"{name or 'nobody'}\n", status))
            row = {"at": printed(at, zone), "person": name}
            yield Check(f"who as JSON at {at} of {what}", [Call([*call, "--json"], files=files)], functools.partial(faults_of, [row], status))


def refusal_checks():
    """Gives the checks of people and files of swaps that are refused, by the first wrong line."""
    random_of = random.Random(8)
    given = ["rota", FROM, UNTIL, "--handover", "0 9 * * 1", "--from", FROM, "--zone", "UTC"]
    for people, why in PEOPLE:
        yield Check(f"people {people!r}", [Call([*given, "--people", people])], functools.partial(refusal_faults, why, 2))
    good, bad = [it for it in LINES if it[1] is None], [it for it in LINES if it[1]]
    for number, wrong in enumerate(bad):
        before = random_of.choices(good, k=number % 4)
        name, behind = f"wrong_{number}.swaps", random_of.sample(bad, 2)
        content = b"\n".join(line for line, _ in [*before, wrong, *behind])
        call = Call([*given, "--people", "ann,bob", "--swaps", name], files={name: content})
        yield Check(f"a wrong line {wrong[0]!r}", [call], functools.partial(refusal_faults, f"{name}:{len(before) + 1}: {wrong[1]}", 4))


def checks():
    yield from rota_checks()
    yield from refusal_checks()
