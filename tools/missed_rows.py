"""Rows of `crontool missed` against a scan of minutes by Python's zoneinfo: how many fires each entry of a crontab missed up to now,
the first and the last. An entry at a fixed time fires at the first minute at which the clock shows its time or a later one, and
one that follows the clock at each minute that shows its time."""
import datetime as dates
import functools
import json
import time
import zoneinfo

from cases import Call, Check

MINUTE, DAY, DAYS = 60, 86_400, 400
# minutes, hours, days of the week from Monday on; none is any
ENTRIES = [
    ("30 2 * * *", ({30}, {2}, None), True),
    ("15 1 * * *", ({15}, {1}, None), True),
    ("*/20 * * * *", ({0, 20, 40}, None, None), False),
    ("10 * * * 1-5", ({10}, None, {0, 1, 2, 3, 4}), False),
    ("0 0,12 * * 7", ({0}, {0, 12}, {6}), True),
]
ZONES = ["America/Chicago", "Europe/Berlin", "Australia/Lord_Howe", "UTC"]
TAB = "".join(f"{text} entry {at}\n" for at, (text, _, _) in enumerate(ENTRIES, 1))


def matches(fields, civil):
    minutes, hours, days = fields
    return civil.minute in minutes and (hours is None or civil.hour in hours) and (days is None or civil.weekday() in days)


@functools.cache
def shown_in(zone, first, end):
    """Returns the instants of minutes with what the clock shows then, and each civil minute that it shows or passes for the first time."""
    zone, shown, passed, greatest = zoneinfo.ZoneInfo(zone), [], [], None
    for second in range(first, end, MINUTE):
        civil = dates.datetime.fromtimestamp(second, zone)
        bare = civil.replace(tzinfo=None, fold=0)
        shown.append((second, civil, bare))
        greatest = greatest or bare - dates.timedelta(minutes=1)
        while greatest < bare:
            greatest += dates.timedelta(minutes=1)
            passed.append((second, civil, greatest))
    return shown, passed


def fires_of(fields, fixed, zone, since, now):
    """Returns an entry's fires after an instant, up to and with another: each with its second, as it is printed."""
    shown, passed = shown_in(zone, since // MINUTE * MINUTE - DAY, since // MINUTE * MINUTE + (DAYS + 1) * DAY)
    for second, civil, minute in passed if fixed else shown:
        if since < second <= now and matches(fields, minute):
            text = f"{civil:%Y-%m-%d %H:%M:%S %z}"
            late = f" for {minute:%H:%M:%S}" if minute != civil.replace(tzinfo=None, fold=0) else ""
            yield second, f"{text[:-2]}:{text[-2:]}{late}"


def text_row(line):
    count, *ends, place, command = line.split("\t")
    return int(count), ends, int(place), command


def json_row(line):
    """The same of an object, which also has the seconds of the fires."""
    row = json.loads(line)
    ends = [row.pop(it, "-") for it in ("first", "last")]
    for end, name in zip(ends, ("first_epoch", "last_epoch")):
        if name in row and dates.datetime.strptime(end[:26], "%Y-%m-%d %H:%M:%S %z").timestamp() != row.pop(name):
            row[name] = end
    return row.pop("missed"), ends, row.pop("line"), row.pop("command") + "".join(row)


def faults_of(zone, since, begun, noted, row_of, told):
    """Gives what differs. Fires between the making of a case and its judging may count or not."""
    rows = [row_of(it) for it in told.out.decode().splitlines()]
    if len(rows) != len(ENTRIES):
        yield f"{len(rows)} rows"
    now = int(time.time())
    for (count, ends, line, command), (_, fields, fixed) in zip(rows, ENTRIES):
        fires = [*fires_of(fields, fixed, zone, since, now)] if line in noted else []
        least, fires = sum(second <= begun for second, _ in fires), [text for _, text in fires]
        if not least <= count <= len(fires):
            yield f"line {line} has {count} fires, and not {least} to {len(fires)}"
        elif ends != ([fires[0], fires[count - 1]] if count else ["-", "-"]) or command != f"entry {line}":
            yield f"line {line} has {' to '.join(ends)}: {command}"
    if told.status != (1 if any(row[0] for row in rows) else 0):
        yield f"status {told.status}"


def note_of(since, noted):
    lines = TAB.splitlines()
    return f"crontool state 1\n{since}\n" + "".join(f"\t{lines[it - 1]}\n" for it in noted) + ".\n"


def checks():
    now = int(time.time())
    since, every = now - DAYS * DAY, range(1, len(ENTRIES) + 1)
    tab = {"scan.tab": TAB.encode()}
    for zone in ZONES:
        words = ["missed", "--since", f"@{since}", "scan.tab", "--zone", zone]
        told = functools.partial(faults_of, zone, since, now, every)
        yield Check(f"fires that were missed in {zone}", [Call(words, files=tab)], functools.partial(told, text_row))
        yield Check(f"the same as JSON in {zone}", [Call([*words, "--json"], files=tab)], functools.partial(told, json_row))
    for noted in ([1, 3], [2, 4, 5]):
        folder = f"scan_{len(noted)}"
        files = tab | {f"{folder}/state": note_of(since, noted).encode()}
        words = ["missed", "--state", folder, "scan.tab", "--zone", ZONES[0]]
        yield Check(f"entries {noted} of a note", [Call(words, files=files)], functools.partial(faults_of, ZONES[0], since, now, noted, text_row))
