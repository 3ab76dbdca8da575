"""Calendars of `crontool calendar` against counts by Python's zoneinfo.

Each page's tables are read by html.parser, and its squares and strips by their attributes. Every civil minute of the year is tried
against the expressions, and has as many fires as it has readings, or one where each match fires once. The page must also tell what
the clock skips and repeats, hold the texts of entries escaped, ask for nothing of a network, and have no script."""
import calendar
import datetime as dates
import functools
import itertools
import re
from html.parser import HTMLParser
from zoneinfo import ZoneInfo

from cases import Call, Check
from kit import top

# year, zone, options, and for each expression its minutes, hours and days
EVERY = (range(60), range(24), None)
CASES = [
    (2022, "America/Chicago", ["--as-shown"], [("30 1 * * *", ([30], [1], None)), ("*/15 2 * * *", (range(0, 60, 15), [2], None))]),
    (2022, "America/Chicago", ["--once"], [("30 1 * * *", ([30], [1], None)), ("*/15 2 * * *", (range(0, 60, 15), [2], None))]),
    (2024, "Australia/Lord_Howe", ["--as-shown"], [("*/10 * * * *", (range(0, 60, 10), range(24), None))]),
    (2011, "Pacific/Apia", ["--as-shown"], [("0 * 30 * *", ([0], range(24), [30])), ("* * * * *", EVERY)]),
    (2010, "America/St_Johns", [], [("* * * * *", EVERY), ("5 0,23 * * *", ([5], [0, 23], None))]),
]


class Page(HTMLParser):
    """The cells of each row of each table, by the table's class."""

    def __init__(self):
        super().__init__()
        self.tables, self.kind, self.cell, self.text = {}, None, None, []

    def handle_starttag(self, tag, attributes):
        if tag == "table":
            self.kind = dict(attributes)["class"]
            self.tables[self.kind] = []
        elif tag == "tr" and self.kind:
            self.tables[self.kind].append([])
        elif tag in ("td", "th") and self.kind:
            self.cell = []

    def handle_endtag(self, tag):
        if tag in ("td", "th") and self.cell is not None:
            self.tables[self.kind][-1].append("".join(self.cell))
            self.cell = None
        elif tag == "table":
            self.kind = None

    def handle_data(self, data):
        if self.cell is not None:
            self.cell.append(data)


def readings(zone, time, once):
    first = time.replace(tzinfo=zone, fold=0).utcoffset()
    last = time.replace(tzinfo=zone, fold=1).utcoffset()
    return 1 if once or first == last else 2 if first > last else 0


def is_once(options, text):
    """The rule that was chosen, or that of a crontab's expression."""
    if options:
        return options == ["--once"]
    return not any(field.startswith("*") for field in text.split()[:2])


def minutes_of(year):
    first = dates.datetime(year, 1, 1)
    return (first + dates.timedelta(minutes=it) for it in range((dates.datetime(year + 1, 1, 1) - first).days * 1440))


def counted(year, zone, once, minutes, of_day, of_month):
    """The fires of one expression, of each day and by weekday and hour."""
    days, hours = {}, [[0] * 24 for _ in range(7)]
    for time in minutes_of(year):
        fires = 0
        if time.minute in minutes and time.hour in of_day and (of_month is None or time.day in of_month):
            fires = readings(zone, time, once)
        days[str(time.date())] = days.get(str(time.date()), 0) + fires
        hours[time.weekday()][time.hour] += fires
    return days, hours


def clock_lines(year, zone):
    """What a page tells of the clock: runs of civil minutes that it skips or repeats."""
    read = ((time, readings(zone, time, False)) for time in minutes_of(year))
    for count, run in itertools.groupby(read, lambda it: it[1]):
        if count != 1:
            times = [time for time, _ in run]
            what = "skips these times" if count == 0 else "shows these times twice"
            yield f"{times[0].isoformat()} to {(times[-1] + dates.timedelta(minutes=1)).isoformat()}: the clock {what}"


def levels_fit(told):
    """Whether levels of numbers are their quarters of the greatest, rounded up."""
    most = max(number for _, number in told) or 1
    return all(level == (4 * number + most - 1) // most for level, number in told)


def shades_of(days, each):
    """What shades the days: of one expression its fires, else how many fire on the day but not on each day."""
    if len(each) == 1:
        return list(days.values())
    some = [of for of, _ in each if min(of.values()) == 0]
    return [sum(of[day] > 0 for of in some) for day in days]


def squares_of(year, days):
    """Where the squares of days stand: a column a week from Monday on."""
    lead = dates.date(year, 1, 1).weekday()
    return [(34 + (lead + it) // 7 * 14, 20 + (lead + it) % 7 * 14) for it in range(len(days))]


def days_in_strip(strip):
    """The days of the year that a strip shows."""
    runs = re.findall(r'<rect x="(\d+)" y="0" width="(\d+)" height="10"/>', strip)
    return [int(first) + it for first, width in runs for it in range(int(width))]


def page_of(*words, **how):
    return Call(["calendar", *words], **how)


def call_of(case):
    year, zone, options, expressions = case
    return page_of(str(year), *(it for it, _ in expressions), "--zone", zone, "--html", *options)


def differences(case, told):
    year, zone, options, expressions = case
    text = told.out.decode()
    page = Page()
    page.feed(text)
    each = [counted(year, ZoneInfo(zone), is_once(options, it), *when) for it, when in expressions]
    days = {day: sum(fires[day] for fires, _ in each) for day in each[0][0]}
    hours = [[sum(of[day][hour] for _, of in each) for hour in range(24)] for day in range(7)]
    told = {row[0]: int(row[1]) for row in page.tables["days"][1:]}
    grid = [[int(it) for it in row[1:]] for row in page.tables["hours"][1:]]
    if told != days:
        wrong = [it for it in days if told.get(it) != days[it]]
        yield f"{year} {zone} {options}: {len(wrong)} days, as {wrong[:3]}"
    if grid != hours:
        yield f"{year} {zone} {options}: hours"
    rows = [row[1:3] for row in page.tables["entries"][1:]]
    if rows != [[it, str(sum(fires.values()))] for (it, _), (fires, _) in zip(expressions, each)]:
        yield f"{year} {zone}: entries {rows}"
    strips = [days_in_strip(it) for it in re.findall(r'<td class="when">(.*?)</td>', text)]
    if strips != [[place for place, fires in enumerate(of.values()) if fires] for of, _ in each]:
        yield f"{year} {zone}: strips"
    squares = [tuple(map(int, it)) for it in re.findall(r'<rect class="l(\d)" x="(\d+)" y="(\d+)"', text)]
    shades = shades_of(days, each)
    if [it[1:] for it in squares] != squares_of(year, days) or not levels_fit([(it[0], shade) for it, shade in zip(squares, shades)]):
        yield f"{year} {zone}: squares"
    if not levels_fit([tuple(map(int, it)) for it in re.findall(r'<td class="b(\d)">(\d+)<', text)]):
        yield f"{year} {zone}: levels of hours"
    unit = "" if len(each) == 1 else " entries"
    if f"up to {max(shades)}{unit} a day" not in text or f"<p>Zone: {zone}</p>" not in text or f"<title>Fires of {year}</title>" not in text:
        yield f"{year} {zone}: what the page says of itself"
    clock = re.search("<pre>(.*?)</pre>", text, re.DOTALL)[1].splitlines()
    if clock != list(clock_lines(year, ZoneInfo(zone))):
        yield f"{year} {zone}: the clock {clock}"
    for word in ("<script", "http", "src=", "url("):
        if word in text:
            yield f"{year} {zone}: the page has {word}"


# A line of a crontab that HTML would read otherwise.
HOSTILE = "0 3 * * * echo '<b>\"x\" & y</b>' <script>alert(1)</script>"


def escapes(told):
    page = Page()
    page.feed(told.out.decode())
    if [row[1] for row in page.tables["entries"][1:]] != [HOSTILE] or b"<script" in told.out:
        yield "the line of a crontab is not escaped"


def cells(line):
    return [line[at : at + 5].strip() for at in range(0, 35, 5)]


def month_differences(year, month, told):
    """The grid of a month, as Python's calendar has it, with the number of fires below each day."""
    lines = told.out.decode().splitlines()
    days = [cells(it) for it in lines[2:14:2]]
    fires = [cells(it) for it in lines[3:14:2]]
    wanted = [[str(day or "") for day in week] for week in calendar.monthcalendar(year, month)]
    wanted += [[""] * 7] * (6 - len(wanted))
    if days != wanted:
        yield f"the grid is {days}"
    if fires != [[day and "86k" for day in week] for week in wanted]:
        yield f"the fires are {fires}"


def times_on(day, zone, once, minutes, of_day, of_month):
    """The times of one expression's fires on a civil day, as a page names them."""
    times = []
    for minute in range(1440):
        time = day + dates.timedelta(minutes=minute)
        if time.minute in minutes and time.hour in of_day and (of_month is None or time.day in of_month):
            times += [f"{time:%H:%M}"] * readings(zone, time, once)
    return " ".join(times) if len(times) <= 6 else f"{' '.join(times[:3])} and {len(times) - 3} more"


def day_lists(year, month, zone, options, expressions):
    """The lines of a month's page that name what fires on each day."""
    for day in range(1, calendar.monthrange(year, month)[1] + 1):
        date = dates.datetime(year, month, day)
        told = [(times_on(date, zone, is_once(options, it), *when), it) for it, when in expressions]
        lines = [f"  {times}  {it}" for times, it in told if times]
        if lines:
            yield from [f"{date:%a %Y-%m-%d}", *lines]


NAMED = [
    (2024, 3, "America/Chicago", ["--as-shown"], [("*/15 2 * * *", (range(0, 60, 15), [2], None)), ("0 3 * * *", ([0], [3], None))]),
    (2022, 11, "America/Chicago", ["--as-shown"], [("30 1 * * *", ([30], [1], None)), ("*/10 0-1 6 * *", (range(0, 60, 10), [0, 1], [6]))]),
    (2022, 11, "America/Chicago", ["--once"], [("30 1 * * *", ([30], [1], None))]),
    (2011, 12, "Pacific/Apia", ["--as-shown"], [("0 * 29,30 * *", ([0], range(24), [29, 30])), ("0 0-20/4 31 * *", ([0], range(0, 21, 4), [31]))]),
    (2100, 12, "UTC", [], [("59 23 31 * *", ([59], [23], [31])), ("* * * * *", EVERY)]),
]


def named_call(case, *more):
    year, month, zone, options, expressions = case
    return page_of(f"{year}-{month:02}", *(it for it, _ in expressions), "--zone", zone, *options, *more)


def named_differences(case, text, html):
    """What a month's page names, as text and as HTML, against Python."""
    year, month, zone, options, expressions = case
    wanted = list(day_lists(year, month, ZoneInfo(zone), options, expressions))
    lines = text.out.decode().splitlines()
    found = [it for it in lines[15:] if not it.strip().endswith(("skips these times", "shows these times twice"))]
    if found != wanted:
        yield f"{found[:5]} and not {wanted[:5]}"
    cells = re.findall("<td><b>([0-9]+)</b>(.*?)</td>", html.out.decode())
    shown = []
    for day, items in cells:
        named = [f"  {times}  {it}" for times, it in re.findall("<p>(.*?) <code>(.*?)</code></p>", items)]
        shown += [f"{dates.datetime(year, month, int(day)):%a %Y-%m-%d}", *named] if named else []
    if shown != wanted or len(cells) != calendar.monthrange(year, month)[1]:
        yield f"in HTML {shown[:5]}"


LARGE = {12: "1.0M", 23: "1.9M", 115: "9.9M", 116: "10M"}


def is_cut(wanted, told):
    """The numbers of fires of a month's second week."""
    found = cells(told.out.decode().splitlines()[5])
    if found != [wanted] * 7:
        yield f"{found}"


def repeats(told):
    lines = told.out.decode().splitlines()
    if cells(lines[3])[6] != "8" or "2022-11-06T01:00:00 to 2022-11-06T02:00:00: the clock shows these times twice" not in lines:
        yield f"{lines}"


ZONED = b"""0 12 * * * x
CRON_TZ=Asia/Tokyo
0 13 * * * y
CRON_TZ=Mars/Phobos
0 14 * * * z
CRON_TZ=""
0 15 * * * v
"""
LEFT_OUT = b"""4: CRON_TZ names no zone, and the entries below it are left out
error: entries below CRON_TZ are left out of a calendar
"""


def leaves_out(of_file, of_entries):
    """A file in which lines name zones has the calendar of the other entries."""
    named = of_entries.out.replace(b"  0 12 * * *\n", b"  0 12 * * * x\n").replace(b"  0 15 * * *\n", b"  0 15 * * * v\n")
    if of_entries.status or (of_file.out, of_file.err, of_file.status) != (named, LEFT_OUT, 1):
        yield f"status {of_file.status}, {of_file.err}, {of_file.out}"


WIDTHS = {"1": 1, "72": 1, "73": 2, "110": 2, "111": 3, "500": 12}


def across(months, told):
    found = re.findall("[A-Z][a-z]+ 2024", told.out.decode().splitlines()[0])
    if len(found) != months:
        yield f"{found}"


def squares(text):
    """The lines of a picture that tell the squares of its days."""
    return re.findall('^<(?:rect class="l|text).*', text, re.M)


def is_pictured(told):
    with open(f"{top()}/docs/calendar.svg", encoding="utf-8") as it:
        if squares(it.read()) != squares(told.out.decode()):
            yield "other squares"


PICTURED = ["30 9 * * 1-5", "0 */4 1,15 * *", "0 6-20/2 * 6-8 0,6"]
MONTHS = [(1970, 1), (1999, 2), (2024, 2), (2024, 9), (2100, 12)]


def checks():
    for case in CASES:
        yield Check(f"{case[0]} {case[1]} {' '.join(case[2])}", [call_of(case)], functools.partial(differences, case))
    yield Check("a line that HTML would read otherwise", [page_of("2024", "--file", "-", "--html", "--zone", "UTC", stdin=f"{HOSTILE}\n".encode())], escapes)
    for year, month in MONTHS:
        call = page_of(f"{year}-{month:02}", "*/5 * 13 * *", "* * * * * *", "--zone", "UTC", "--width", "38")
        yield Check(f"{year}-{month}", [call], functools.partial(month_differences, year, month))
    for times, wanted in LARGE.items():
        call = page_of("2024-02", *["* * * * * *"] * times, "--zone", "UTC", "--width", "38")
        yield Check(f"{times * 86_400} fires a day", [call], functools.partial(is_cut, wanted))
    for case in NAMED:
        calls = [named_call(case), named_call(case, "--html")]
        yield Check(f"what is named in {case[0]}-{case[1]} {case[2]} {' '.join(case[3])}", calls, functools.partial(named_differences, case))
    repeated = page_of("2022-11", "*/15 1 6 * *", "--as-shown", "--zone", "America/Chicago", "--width", "200")
    yield Check("a repeated hour", [repeated], repeats)
    zoned = page_of("2024-03", "--file", "-", "--zone", "UTC", stdin=ZONED)
    others = page_of("2024-03", "0 12 * * *", "0 15 * * *", "--zone", "UTC")
    yield Check("a calendar of a file in which lines name zones", [zoned, others], leaves_out)
    for width, months in WIDTHS.items():
        call = page_of("2024", "@daily", "--zone", "UTC", "--width", width)
        yield Check(f"months side by side, by --width {width}", [call], functools.partial(across, months))
    picture = page_of("2024", "--html", *PICTURED, "--zone", "America/Chicago")
    yield Check("the map of days in the picture that README shows", [picture], is_pictured)
