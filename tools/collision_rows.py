"""Rows of `crontool collisions` against a scan of minutes by Python's zoneinfo.

Every minute of UTC is tried: an entry fires each time that the clock shows a match, or once for each match, at the first minute
at which the clock shows it or a later time. Then each fire of an entry is tried with each of another, and they collide where
they are less than the given minutes apart."""
import datetime as dates
import functools
import itertools
import json
from zoneinfo import ZoneInfo

from cases import Call, Check

MINUTE = dates.timedelta(minutes=1)

ALL = None
# of each entry its text, its minutes, hours, days of the month and days of the week (0 is Monday), of which either suffices
BACKUP = ("0 3 * * * backup", [0], [3], ALL, ALL)
HALF = ("30 2 * * * half", [30], [2], ALL, ALL)
EARLY = ("30 1 * * * early", [30], [1], ALL, ALL)
QUARTERS = ("*/15 1-3 * * * quarters", [0, 15, 30, 45], [1, 2, 3], ALL, ALL)
HOURS = ("0 * * * * hours", [0], range(24), ALL, ALL)
SUNDAYS = ("5 3 * * sun sundays", [5], [3], ALL, [6])
FIRSTS = ("59 23 1 * * firsts", [59], [23], [1], ALL)
NEVER = ("0 0 30 2 * never", [], [], ALL, ALL)
EITHER = ("0 12 13 * fri either", [0], [12], [13], [4])

CHICAGO, BERLIN, HOWE, UTC = "America/Chicago", "Europe/Berlin", "Australia/Lord_Howe", "UTC"
# START, END, zone, options, how long fires last, and the entries of each file
CASES = [
    ("2022-03-12T00:00", "2022-03-15T00:00", CHICAGO, [], 31, [[BACKUP, HALF, QUARTERS, HOURS]]),
    ("2022-03-12T00:00", "2022-03-15T00:00", CHICAGO, ["--once"], 30, [[BACKUP, HALF, QUARTERS, HOURS]]),
    ("2022-03-12T00:00", "2022-03-15T00:00", CHICAGO, ["--as-shown"], 30, [[BACKUP, HALF, QUARTERS, HOURS]]),
    ("2022-11-05T00:00", "2022-11-08T00:00", CHICAGO, [], 61, [[EARLY, QUARTERS, HOURS, BACKUP]]),
    ("2022-11-05T00:00", "2022-11-08T00:00", CHICAGO, ["--once"], 90, [[EARLY, QUARTERS], [HOURS, BACKUP]]),
    ("2022-11-05T00:00", "2022-11-08T00:00", CHICAGO, ["--as-shown"], 91, [[EARLY, QUARTERS], [HOURS, BACKUP]]),
    ("2021-04-01T00:00", "2021-04-06T00:00", HOWE, ["--as-shown"], 5, [[EARLY, QUARTERS, HOURS, BACKUP]]),
    ("2024-01-01T00:00", "2024-03-01T00:00", UTC, [], 5, [[BACKUP, SUNDAYS, FIRSTS, EITHER]]),
    ("2024-01-01T00:00", "2024-03-01T00:00", UTC, [], 6, [[BACKUP, SUNDAYS, FIRSTS, EITHER, NEVER]]),
    ("2024-01-01T03:00", "2024-01-02T03:00", UTC, [], 1, [[BACKUP, HOURS], [BACKUP]]),
    ("2024-01-01T03:00", "2024-01-02T02:59", UTC, [], 1, [[BACKUP, HOURS]]),
    ("2024-01-01T03:00", "2024-01-02T03:00", UTC, [], 0, [[BACKUP, HOURS]]),
    ("2024-03-01T00:00", "2024-05-01T00:00", BERLIN, [], 1440, [[FIRSTS, BACKUP, EITHER, HALF]]),
    ("2024-03-01T00:00", "2024-03-03T00:00", BERLIN, [], 4294967295, [[BACKUP, EARLY]]),
    ("2024-03-01T00:00", "2024-03-01T00:00", UTC, [], 10, [[BACKUP, EARLY]]),
    ("2024-03-01T00:00", "2024-03-03T00:00", UTC, [], 10, [[BACKUP]]),
]


def matches(entry, time):
    _, minutes, hours, days, weekdays = entry
    of_day = [time.day in days] if days is not ALL else []
    of_day += [time.weekday() in weekdays] if weekdays is not ALL else []
    return time.minute in minutes and time.hour in hours and (any(of_day) or not of_day)


def is_once(options, entry):
    """The rule that was chosen, or that of a crontab's expression."""
    if options:
        return options == ["--once"]
    return not any(field.startswith("*") for field in entry[0].split()[:2])


def text_of(instant, zone, second):
    local = instant.astimezone(zone)
    offset = local.strftime("%z")
    text = f"{local:%Y-%m-%d %H:%M:%S} {offset[:3]}:{offset[3:]}"
    return text if local.replace(tzinfo=None) == second else f"{text} for {second:%H:%M:%S}"


def fires(entry, zone, once, start, end):
    """The fires of an entry: instants, each with its text."""
    found, shown = [], None
    at = start - dates.timedelta(days=2)
    while at <= end:
        local = at.astimezone(zone).replace(tzinfo=None)
        times = [local]
        if once:
            times = []
            while shown is not None and shown < local:
                shown += MINUTE
                times.append(shown)
        shown = local if shown is None else max(shown, local)
        if at > start:
            found += [(at, text_of(at, zone, time)) for time in times if matches(entry, time)]
        at += MINUTE
    return found


def wanted(start, end, zone, options, minutes, entries):
    lists = [(place, fires(entry, zone, is_once(options, entry), start, end)) for place, entry in entries]
    for (place, ones), (other, others) in itertools.combinations(lists, 2):
        pairs = [(one, two) for one in ones for two in others if abs(one[0] - two[0]) < minutes * MINUTE]
        if pairs:
            # the first begins with the later of its two fires, and of two at one instant with that of the first entry
            first = min(pairs, key=lambda it: max(it[0][0], it[1][0]))
            earliest = [it for it in pairs if max(it[0][0], it[1][0]) == max(first[0][0], first[1][0])]
            one, two = min(earliest, key=lambda it: (it[0][0], it[1][0]))
            yield place, other, two if one[0] < two[0] else one, len(pairs)


def place_text(place):
    """Where an entry stands, in a row of text."""
    return ":".join(str(it) for it in place if it)


def text_row(place, other, fire, number):
    return f"{place_text(place)}\t{place_text(other)}\t{fire[1]}\t{number}\n"


def json_row(place, other, fire, number):
    members = {"line": place[1], "file": place[0], "other_line": other[1], "other_file": other[0]}
    members |= {"fire": fire[1], "epoch": int(fire[0].timestamp()), "collisions": number}
    return json.dumps({name: it for name, it in members.items() if it is not None}, separators=(",", ":")) + "\n"


def differences(bounds, zone, options, minutes, entries, row_of, told):
    rows = "".join(row_of(*row) for row in wanted(*bounds, zone, options, minutes, entries)).encode()
    if (told.out, told.err, told.status) != (rows, b"", 0 if rows else 1):
        yield f"{told.status} {told.err}{told.out} in place of {rows}"


def check_of(number, case, form, row_of):
    start, end, name, options, minutes, lists = case
    bounds = [dates.datetime.fromisoformat(it).replace(tzinfo=dates.timezone.utc) for it in (start, end)]
    files, entries = {}, []
    for place, lines in enumerate(lists):
        path = f"collisions_{number}_{place}.tab"
        files[path] = ("# fires\n" + "".join(it[0] + "\n" for it in lines)).encode()
        file = path if len(lists) > 1 else None
        entries += [((file, line + 2), it) for line, it in enumerate(lines)]
    named = [word for it in files for word in ("--file", it)]
    call = Call(["collisions", f"{start}Z", f"{end}Z", "--minutes", str(minutes), *named, "--zone", name, *options, *form], files=files)
    return Check(" ".join(call.words), [call], functools.partial(differences, bounds, ZoneInfo(name), options, minutes, entries, row_of))


def checks():
    for number, case in enumerate(CASES):
        yield check_of(number, case, [], text_row)
        yield check_of(number, case, ["--json"], json_row)
