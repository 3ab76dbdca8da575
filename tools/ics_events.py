"""Events of `crontool ics` against fires by Python's zoneinfo, as a reader of RFC 5545 takes them.

The reader is written here: it unfolds lines, and takes values as they are meant. Each line that is written must have at most 75
octets, end with CRLF and be UTF-8 by itself. Where Python has `icalendar`, that reads each calendar too. Every civil minute of
the days is tried against the expressions."""
import datetime as dates
import functools
import hashlib
import re
from zoneinfo import ZoneInfo

from cases import Call, Check

try:
    import icalendar
except ImportError:
    icalendar = None

UTC, MINUTE = dates.timezone.utc, dates.timedelta(minutes=1)
HEAD = ["BEGIN:VCALENDAR", "VERSION:2.0", "PRODID:-//crontool//crontool ics//EN"]
NAMES = ["BEGIN", "UID", "DTSTAMP", "DTSTART", "DURATION", "SUMMARY", "TRANSP", "END"]
# the same of an event with an end
SPAN_NAMES = [name.replace("DURATION", "DTEND") for name in NAMES]

# zone, first day, days, options, and for each expression its minutes, hours and days
CASES = [
    ("America/Chicago", "2022-11-05", 3, ["--as-shown"], [("30 1 * * *", [30], [1], None), ("*/15 2 * * *", range(0, 60, 15), [2], None)]),
    ("America/Chicago", "2022-11-05", 3, ["--once"], [("30 1 * * *", [30], [1], None), ("*/15 1 * * *", range(0, 60, 15), [1], None)]),
    ("America/Chicago", "2022-03-12", 3, ["--once"], [("*/15 2 * * *", range(0, 60, 15), [2], None), ("0 3 * * *", [0], [3], None)]),
    ("America/Chicago", "2022-03-12", 3, [], [("*/15 2 * * *", range(0, 60, 15), [2], None), ("30 2 * * *", [30], [2], None)]),
    ("Pacific/Apia", "2011-12-28", 5, ["--once"], [("0 * 30 * *", [0], range(24), [30])]),
    ("Australia/Lord_Howe", "2021-04-03", 2, ["--as-shown"], [("*/10 * * * *", range(0, 60, 10), range(24), None)]),
    ("Asia/Kolkata", "1970-01-01", 1, [], [("0 0 * * *", [0], [0], None), ("59 23 * * *", [59], [23], None)]),
    ("UTC", "2100-12-30", 2, [], [("*/20 * * * *", range(0, 60, 20), range(24), None)]),
]


def call(*words, **how):
    return Call(["ics", *words], **how)


def lines_of(written):
    """The lines that are meant, and what is wrong with those that are written."""
    rows, wrong = written.split(b"\r\n"), []
    if rows.pop() != b"":
        wrong.append("the last line doesn't end")
    lines = []
    for row in rows:
        if len(row) > 75 or b"\n" in row or b"\r" in row:
            wrong.append(f"a line is {row}")
        text = row.decode()
        if text[:1] in (" ", "\t"):
            lines[-1] += text[1:]
        else:
            lines.append(text)
    return lines, wrong


def meant(value):
    text, at = "", 0
    while at < len(value):
        if value[at] == "\\":
            at += 1
            text += "\n" if value[at] in "nN" else value[at]
        elif value[at] in ";,":
            raise ValueError("a bare ; or ,")
        else:
            text += value[at]
        at += 1
    return text


def time_of(stamp):
    return dates.datetime.strptime(stamp, "%Y%m%dT%H%M%SZ").replace(tzinfo=UTC)


def read(written, names=NAMES):
    """The events: each its start, summary, duration or end, and UID. And what is wrong."""
    lines, wrong = lines_of(written)
    if lines[:3] != HEAD or lines[-1:] != ["END:VCALENDAR"]:
        wrong.append(f"the calendar begins with {lines[:3]} and ends with {lines[-1:]}")
    events, inner = [], [it.partition(":") for it in lines[3:-1]]
    for at in range(0, len(inner), len(names)):
        event = {name: value for name, _, value in inner[at : at + len(names)] if name != "END"}
        late = abs(dates.datetime.now(UTC) - time_of(event["DTSTAMP"]))
        if [it[0] for it in inner[at : at + len(names)]] != names or late > dates.timedelta(minutes=10) or event["BEGIN"] != "VEVENT":
            wrong.append(f"an event is {event}")
        length = event["DURATION"] if "DURATION" in event else time_of(event["DTEND"])
        events.append((time_of(event["DTSTART"]), meant(event["SUMMARY"]), length, event["UID"]))
    if len({it[3] for it in events}) != len(events):
        wrong.append("two events have one UID")
    if icalendar and events:
        found = [(it["DTSTART"].dt, str(it["SUMMARY"])) for it in icalendar.Calendar.from_ical(written).walk("VEVENT")]
        if found != [it[:2] for it in events]:
            wrong.append("icalendar reads other events")
    return events, wrong


def span_faults(series, spans, told):
    """Gives what differs from the events of spans, each its first second, its end and its summary. Another program reads them, and
    each UID is made of the series' text and the two ends."""
    events, wrong = read(told.out, SPAN_NAMES) if told.out else ([], [])
    yield from wrong
    digest = hashlib.sha256(series.encode()).hexdigest()[:32]
    found = [(int(start.timestamp()), int(end.timestamp()), summary, uid) for start, summary, end, uid in events]
    wanted = [(*it, f"{digest}-{it[0]}-{it[1]}@t") for it in spans]
    if found != wanted:
        yield f"{len(found)} events and not {len(wanted)}: {[it for it in found if it not in wanted][:2]}, {[it for it in wanted if it not in found][:2]}"
    if told.status != (0 if spans else 1) or bool(told.err) == bool(spans):
        yield f"status {told.status}, {told.err}"


def is_once(options, text):
    """The rule that was chosen, or that of a crontab's expression."""
    if options:
        return options == ["--once"]
    return not any(field.startswith("*") for field in text.split()[:2])


def fires_of(zone, start, end, once, fields):
    """By going along UTC: each minute at which the clock shows a match, or first shows that time or a later one."""
    minutes, hours, days = fields
    fires, reached = [], None
    now = start.astimezone(UTC)
    while now <= end.astimezone(UTC):
        shown = now.astimezone(zone).replace(tzinfo=None)
        times = [shown]
        if once:
            times = [] if reached is not None and shown <= reached else [shown]
            while times and reached is not None and times[0] - MINUTE > reached:
                times.insert(0, times[0] - MINUTE)
            reached = max(shown, reached or shown)
        for time in times:
            if now > start and time.minute in minutes and time.hour in hours and (days is None or time.day in days):
                fires.append(now)
        now += MINUTE
    return fires


def bounds_of(case):
    name, first, days, _, _ = case
    start = dates.datetime.fromisoformat(first).replace(tzinfo=ZoneInfo(name)) - MINUTE
    return start, start + dates.timedelta(days=days)


def call_of(case):
    name, _, _, options, expressions = case
    bounds = bounds_of(case)
    words = [f"@{int(it.timestamp())}" if it.timestamp() >= 0 else it.astimezone(UTC).strftime("%Y-%m-%dT%H:%M:%SZ") for it in bounds]
    return call(*words, *(it[0] for it in expressions), "--zone", name, *options)


def differences(case, told, again):
    name, _, _, options, expressions = case
    start, end = bounds_of(case)
    events, wrong = read(told.out)
    wanted = [(at, text) for text, *fields in expressions for at in fires_of(ZoneInfo(name), start, end, is_once(options, text), fields)]
    yield from wrong
    if told.status != 0 or [it[:2] for it in events] != wanted:
        yield f"status {told.status}, {[it for it in events if it[:2] not in wanted][:3]}, {len(events)} of {len(wanted)}"
    if {it[2] for it in events} != {"PT1M"}:
        yield f"events last {set(it[2] for it in events)}"
    if read(again.out)[0] != events:
        yield "another run gives other events"


def shown(command):
    text = command.decode("utf-8", "replace")
    return "".join("\ufffd" if (it < " " and it != "\t") or it == "\x7f" else it for it in text)


HOSTILE = [
    b"a;b,c\\d\\n:e\"f'", b"tab\there \x01\x1b[31m \x7f \r", b"\xff\xfe\x80 \xf0\x9f\x92 \xed\xa0\x80 \xc0\xaf", "\u00e4\u20ac\U0001f600".encode() * 40,
    b"END:VEVENT", b"x" * 5000, b"\x80" * 300, b",;\\" * 100, "\u2028\u0085\u00a0 \ufeff".encode() * 9, b"BEGIN:VALARM \xe2\x80",
] + [b"p" * at + "\U0001f600\u20ac".encode() * 30 for at in range(60, 76)]


def command_differences(command, told):
    events, wrong = read(told.out)
    yield from wrong
    if told.status != 0 or [it[1] for it in events] != [shown(command)]:
        yield f"status {told.status}, {[it[1] for it in events]}"


# Equal lines, zones that lines name, and a line that is refused.
FILE = b"0 9 * * * a\n0 9 * * * a\nCRON_TZ=Asia/Tokyo\n0 9 * * * a\n61 * * * * b\nCRON_TZ=No/Where\n0 9 * * * c\n"
OF_FILE = ["--file", "-", "--zone", "UTC"]


def file_differences(told):
    events, wrong = read(told.out)
    yield from wrong
    hours = [it[0].strftime("%d %H") for it in events]
    if told.status != 1 or hours != ["01 09", "01 09", "02 00"] or {it[2] for it in events} != {"PT90M"} or told.err.count(b"\n") != 2:
        yield f"status {told.status}, {hours}, {told.err}"


def quartz_differences(told):
    if told.status != 0 or [it[0].day for it in read(told.out)[0]] != [8]:
        yield f"status {told.status}, {told.out}"


def limit_differences(wanted, told):
    """As many events as may be are written, or none and a complaint."""
    count = len(read(told.out)[0]) if told.out else 0
    if (count, told.status) != wanted or bool(told.err) == (told.status == 0):
        yield f"{count}, status {told.status}, {told.err}"


def is_refused(status, told):
    """Nothing is written, with this status and a complaint."""
    if (told.out, told.status) != (b"", status) or not told.err:
        yield f"status {told.status}, {told.err}, {told.out}"


def host():
    """The machine's name as its file has it, or the program's."""
    try:
        with open("/etc/hostname", encoding="ascii") as file:
            names = [it.strip() for it in file if it.strip() and not it.startswith("#")]
    except (OSError, ValueError):
        names = []
    return names[0] if names and re.fullmatch(r"[A-Za-z0-9._-]+", names[0]) else "crontool"


def domain_differences(*all_told):
    """UIDs end with the machine's name or the one that is chosen, and no two are the same."""
    uids = [[it[3] for it in read(told.out)[0]] for told in all_told]
    if [[it.partition("@")[2] for it in of_one] for of_one in uids] != [[name or host()] * 2 for name in DOMAINS]:
        yield f"{uids}"
    if len({it for of_one in uids for it in of_one}) != 6 or len({it.partition("@")[0] for of_one in uids for it in of_one}) != 2:
        yield f"some UIDs are the same: {uids}"


DOMAINS = ["", "a.example", "B_2-c"]
NO_DOMAINS = ["", "a b", "a\nb", "a;b", "a,b", "\u00e4", "a@b"]
LIMITS = {"122": (122, 0), "121": (0, 2), "0": (0, 2), "18446744073709551615": (122, 0)}


def checks():
    for case in CASES:
        yield Check(f"{case[0]} {case[1]} {' '.join(case[3])}", [call_of(case)] * 2, functools.partial(differences, case))
    for command in HOSTILE:
        tab = b"0 3 * * * " + command + b"\n"
        one_day = call("2024-01-01T00:00:00Z", "2024-01-02T00:00:00Z", *OF_FILE, stdin=tab)
        yield Check(f"{command}", [one_day], functools.partial(command_differences, command))
    yield Check("a file", [call("2024-01-01T00:00:00Z", "2024-01-02T00:00:00Z", *OF_FILE, "--minutes", "90", stdin=FILE)], file_differences)
    yield Check("an expression of Quartz", [call("2024-01-01", "2024-01-09", "--quartz", "0 0 12 ? * MON#2", "--zone", "UTC")], quartz_differences)
    for most, wanted in LIMITS.items():
        limited = call("2024-01-01T00:00:00Z", "2024-01-01T02:00:00Z", "* * * * *", "0 * * * *", "--zone", "UTC", "--most", most)
        yield Check(f"--most {most}", [limited], functools.partial(limit_differences, wanted))
    each_second = call("2024-01-01", "2024-01-09", "* * * * * *", "--zone", "UTC")
    most = call("@0", "@600000", "* * * * *", "--zone", "UTC")
    yield Check("as many events as may be", [most], functools.partial(limit_differences, (10000, 0)))
    yield Check("more than 10000 events", [each_second], functools.partial(limit_differences, (0, 2)))
    none = call("2024-01-01", "2024-01-01", "* * * * *", "--most", "0", "--zone", "UTC")
    yield Check("no events", [none], functools.partial(is_refused, 1))
    never = call("@0", "@86400", "0 0 30 2 *", "--zone", "UTC")
    yield Check("events of what never fires", [never], functools.partial(is_refused, 1))
    twice = ["2024-01-01", "2024-01-02", "0 9 * * *", "0 9 * * *", "--zone", "UTC"]
    yield Check("UIDs", [call(*twice, *(["--uid-domain", it] if it else [])) for it in DOMAINS], domain_differences)
    for word in NO_DOMAINS:
        yield Check(f"--uid-domain {word!r}", [call(*twice, "--uid-domain", word)], functools.partial(is_refused, 2))
