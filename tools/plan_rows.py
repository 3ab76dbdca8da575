"""Rows of `crontool` by plans: rules of days, moves, and what is left out, against a scan of days by Python's datetime and zoneinfo."""
import collections
import datetime as dates
import functools
import itertools
import re
import zlib
import zoneinfo

from cases import Call, Check
from day_rows import DAYS, Schedule, allows, date_of, number_of
from kit import top

HOLIDAYS = "without 2024-01-01 2024-03-29 2024-04-01 2024-05-01 2024-12-24 2024-12-25 2024-12-26"
UNITS = {"day": "d", "week": "w", "month": "mo"}
ZONES = ["UTC", "America/Chicago", "Australia/Lord_Howe"]
# an expression, rules of days, where fires go, and what is left out
PLANS = [
    ("0 30 9 * * Mon-Fri", HOLIDAYS, None, None),
    ("0 30 9 * * Mon-Fri", HOLIDAYS, "after", None),
    ("0 30 9 * * Mon-Fri", HOLIDAYS, "before", None),
    ("0 30 1,2 * * *", "every 2 week 2024-01-01", None, None),
    ("0 0 12 * * Fri", "every 2 week 2024-01-07", None, None),
    ("0 0 12 * * Fri", "every 2 week 2024-01-08", None, None),
    ("0 0 12 15 * *", "every 3 month 2023-02-28", None, None),
    ("0 15 2 * * *", "every 10 day 2024-03-10 & span 2024-02-29 2024-11-03", None, None),
    ("0 0 0 L * *", "without 2024-01-31 2024-02-29 2024-03-31 2024-12-31", "after", None),
    ("0 0 0 1 * *", "without 2024-01-01 2024-03-01 2024-11-01 2024-12-01", "before", None),
    ("0 */20 * * * *", "span - 2024-06-30", None, "* * 12 * * Mon-Fri"),
    ("0 0 * * * *", "span 2024-06-30 -", None, "0 0 0-8,18-23 * * *"),
    ("0 0 9 * * *", "every 1 week 2024-01-01", None, "0 0 9 1 * *"),
    ("0 0 9,17 * * *", HOLIDAYS, "after", "0 0 17 * * Fri"),
    ("0 5 4 29 2 *", "span - -", None, None),
    ("0 0 12 * * *", "span 2024-01-02 2024-01-02 & every 2 day 2024-01-01", "after", None),
    ("0 0 12 * * *", "every 2 day 2024-01-01 & without 2024-01-03", None, "0 0 12 * * *"),
    ("0 45 23 * * Sat", "every 5 week 2023-12-31 & span 2024-01-01 -", "before", None),
]
FIRST, END = "2023-12-20", "2025-01-20"
MONTHS = ["2024-03", "2024-04", "2024-11", "2024-12"]
# files of holidays in crates/crontool/data, and where fires on these days go
COUNTRIES = [("usa", None), ("germany", "after"), ("england", "before")]


def dates_of(country):
    """Returns the dates of a country's file of holidays."""
    with open(f"{top()}/crates/crontool/data/holidays_{country}.txt", encoding="utf-8") as it:
        return [line.split()[0] for line in it if not line.startswith("#")]


def options_of(rule, moves, without):
    """Returns the options of a plan, and the dates of its file, if there are any."""
    words, files = [], {}
    for kind, *rest in (part.split() for part in rule.split(" & ")):
        if kind == "every":
            words += ["--every", rest[0] + UNITS[rest[1]], "--anchor", rest[2]]
        elif kind == "span":
            words += [it for option, date in zip(("--first", "--last"), rest) if date != "-" for it in (option, date)]
        else:
            name = f"days_{zlib.crc32(rule.encode())}.txt"
            files[name] = "".join(f"{it}  # closed\n" for it in rest).encode()
            words += ["--holidays", name]
    words += ["--move", moves] if moves else []
    return words + (["--except", without] if without else []), files


def times_on(schedule, without, day):
    """Returns the seconds of a day that a schedule matches, and that what is left out doesn't."""
    times = schedule.times() if schedule.has_day(day) else set()
    return times - without.times() if without and without.has_day(day) else times


@functools.cache
def civil_seconds(text, rule, moves, without, first, end):
    """Returns the civil seconds that a plan leaves on the days from one to another, this one not among them."""
    schedule, without = Schedule(text), Schedule(without) if without else None
    step, found = {"after": 1, "before": -1, None: 0}[moves], []
    for day in range(first, end):
        if not allows(rule, day):
            continue
        times, source = set(times_on(schedule, without, day)), day - step
        while step and 0 <= source < DAYS and not allows(rule, source):
            times |= times_on(schedule, without, source)
            source -= step
        found += [day * 86_400 + it for it in sorted(times)]
    return found


def fires_at(zone, second):
    """Gives the instants at which a clock shows a civil second, each as it is printed."""
    civil = dates.datetime(1970, 1, 1) + dates.timedelta(seconds=second)
    for fold in (0, 1):
        shown = civil.replace(tzinfo=zone, fold=fold)
        instant = shown.astimezone(dates.timezone.utc)
        back = instant.astimezone(zone)
        if back.replace(tzinfo=None, fold=0) == civil and back.fold == fold:
            text = f"{shown:%Y-%m-%d %H:%M:%S %z}"
            yield instant, f"{text[:-2]}:{text[-2:]}"


@functools.cache
def fires_of(plan, name):
    """Returns the fires of a plan in a zone, in order: each with its instant."""
    zone = zoneinfo.ZoneInfo(name)
    seconds = civil_seconds(*plan, number_of(FIRST) - 3, number_of(END) + 3)
    return sorted(it for second in seconds for it in fires_at(zone, second))


def rows_of_month(plan, name, month):
    """Returns the rows of a month's calendar: how many fires each day has, by the time that the clock shows."""
    zone, first = zoneinfo.ZoneInfo(name), number_of(f"{month}-01")
    days = [it for it in range(first, first + 31) if f"{date_of(it)}".startswith(month)]
    counts = collections.Counter(it // 86_400 for it in civil_seconds(*plan, first, days[-1] + 1) for _ in fires_at(zone, it))
    return [f'{{"day":"{date_of(it)}","fires":{counts[it]}}}' for it in days]


def starts_of(told):
    """Returns when the events of a calendar of RFC 5545 start."""
    return re.findall(r"^DTSTART:(.*)\r$", told.out.decode(), re.M)


def lines_of(told):
    return told.out.decode().splitlines()


def faults_of(wanted, told, read=lines_of):
    """Gives what differs."""
    lines = read(told)
    if lines != wanted:
        at = next((n for n, (a, b) in enumerate(itertools.zip_longest(lines, wanted)) if a != b))
        yield f"line {at + 1} is {lines[at:at + 1]}, and not {wanted[at:at + 1]}"
    if told.status != 0:
        yield f"status {told.status}: {told.err.decode()}"


def plans():
    """Gives all plans, each with its options and its file."""
    for text, *rest in PLANS:
        yield (text, *rest), *options_of(*rest)
    for country, moves in COUNTRIES:
        rule = f"without {' '.join(dates_of(country))}"
        words = ["--holidays", f"holidays_{country}.txt", *(["--move", moves] if moves else [])]
        yield ("0 30 9 * * Mon-Fri", rule, moves, None), words, {}


def checks():
    utc = dates.timezone.utc
    start, end = (dates.datetime.fromisoformat(it).replace(tzinfo=utc) for it in (FIRST, END))
    middle = dates.datetime(2024, 7, 4, 13, 0, tzinfo=utc)
    bounds = [f"{it:%Y-%m-%dT%H:%M:%SZ}" for it in (start, end, middle)]
    for (plan, options, files), name in itertools.product(plans(), ZONES):
        words = [plan[0], "--zone", name, *options]
        told = " ".join(words)
        fires = fires_of(plan, name)
        listed = [it for at, it in fires if start < at <= end]
        later, before = [it for at, it in fires if at > middle], [it for at, it in fires if at < middle]
        for label, call, wanted in (
            ("between", ["between", bounds[0], bounds[1], *words], listed),
            ("next", ["next", "3", *words, "--after", bounds[2]], later[:3]),
            ("next back", ["next", "3", *words, "--after", bounds[2], "--back"], before[::-1][:3]),
        ):
            # the fires of a year and a bit decide only where there are enough of them
            if label == "between" or len(wanted) == 3:
                yield Check(f"{label} {told}", [Call(call, files=files)], functools.partial(faults_of, wanted))
        for month in MONTHS:
            rows = rows_of_month(plan, name, month)
            call = Call(["calendar", month, *words, "--json"], files=files)
            yield Check(f"calendar {month} {told}", [call], functools.partial(faults_of, rows))
        starts = [f"{at:%Y%m%dT%H%M%SZ}" for at, _ in fires if start < at <= end]
        if starts:
            call = Call(["ics", bounds[0], bounds[1], *words, "--most", "20000", "--uid-domain", "plans"], files=files)
            yield Check(f"ics {told}", [call], functools.partial(faults_of, starts, read=starts_of))
