"""Cases of `crontool windows` and `crontool inside` against an array with one byte a second, of fires by Python's zoneinfo: the
windows through transitions, and the state at instants around their edges, followed 400 days back and ahead. But for those of HOURLY
and LONG a state lasts less than BEFORE.

A window opens at a fire and closes after some minutes or at the next fire of another expression. Both expressions fire by the rule
that is chosen, or else by the opening one's own: a crontab's fixed time fires once, every other expression as the clock shows it."""
import datetime
import functools
import json
import random
import zoneinfo

from cases import Call, Check
from ics_events import span_faults
from window_rows import BEFORE, DAY, ZONES, around, open_seconds, second_of, stretches

REACH = 400 * DAY
HOURLY = "0 0 * * * *"
FLAGS = {"shown": ["--as-shown"], "once": ["--once"], None: []}
# A zone, when windows open, what closes them, and the two instants between which they are listed. An expression of five fields
# is a crontab's, whose rule stands beside it.
OWN = [
    ("Chicago", "0 0 9 * * Mon-Fri", "closed 0 0 17 * * Mon-Fri", "2024-03-06 12:00", "2024-03-13 15:30"),
    ("Chicago", "0 30 1 * * *", "after 5400", "2024-11-01", "2024-11-06"),
    ("Chicago", "0 30 1,2 * * *", "closed 0 0 2,3 * * *", "2024-03-08", "2024-03-12"),
    ("Chicago", HOURLY, "after 3600", "2024-11-02", "2024-11-04"),
    ("Chicago", HOURLY, "after 3540", "2024-11-03 04:59:30", "2024-11-03 09:00:01"),
    ("Lord_Howe", "0 */15 1-2 * * *", "closed 0 10,40 1-2 * * *", "2024-04-05", "2024-04-08"),
    ("Lord_Howe", "0 0 2 * * *", "closed 0 30 2 * * *", "2024-10-04", "2024-10-08"),
    ("Apia", "0 0 */6 * * *", "after 7200", "2011-12-28", "2012-01-02"),
    ("Apia", "0 0 8 * * *", "closed 0 0 20 * * *", "2011-12-28", "2012-01-02"),
    ("Casablanca", "0 30 2 * * *", "after 4020", "2024-03-08", "2024-03-12"),
    ("Casablanca", "0 0 2 * * *", "closed 0 30 2,3 * * *", "2024-04-12", "2024-04-16"),
]
CRONTABS = [
    ("Chicago", "0 22 * * 5", "once", "0 0 22 * * Fri", "closed 0 6 * * 1", "closed 0 0 6 * * Mon", "2024-02-28", "2024-03-20"),
    ("Chicago", "30 2 * * *", "once", "0 30 2 * * *", "after 1800", "after 1800", "2024-03-08", "2024-03-12"),
    ("Chicago", "30 1 * * *", "once", "0 30 1 * * *", "closed */20 * * * *", "closed 0 */20 * * * *", "2024-11-02", "2024-11-05"),
    ("Chicago", "*/30 * * * *", "shown", "0 */30 * * * *", "closed 45 1 * * *", "closed 0 45 1 * * *", "2024-11-03", "2024-11-04"),
    ("Lord_Howe", "45 1 * * *", "once", "0 45 1 * * *", "after 1800", "after 1800", "2024-04-05", "2024-04-08"),
]
# A zone, when windows open, what closes them, and an instant whose state isn't followed to both its ends.
LONG = [
    ("Chicago", "0 0 0 1 6 * 2023", "closed 0 0 0 1 1 * 2025", "2024-12-01"), ("Chicago", "0 0 0 1 6 * 2024", "closed 0 0 0 1 1 * 2027", "2024-12-01"),
    ("Apia", "0 0 0 1 1 * 1999", "closed 0 0 0 1 1 * 2000", "2011-12-30 10:00"), ("Casablanca", "0 0 0 1 2 * 2025", "after 86400", "2024-12-01"),
]


def stamp(second):
    """Returns the text of a second in UTC."""
    return datetime.datetime.fromtimestamp(second, datetime.timezone.utc).strftime("%Y-%m-%dT%H:%M:%SZ")


def shown(zone, second):
    """Returns what a fire at a second is printed as."""
    at = datetime.datetime.fromtimestamp(second, zoneinfo.ZoneInfo(ZONES[zone]))
    sign, size = ("-", -at.utcoffset()) if at.utcoffset() < datetime.timedelta(0) else ("+", at.utcoffset())
    hours, rest = divmod(int(size.total_seconds()), 3600)
    seconds = f":{rest % 60:02}" if rest % 60 else ""
    return f"{at:%Y-%m-%d %H:%M:%S} {sign}{hours:02}:{rest // 60:02}{seconds}"


def words_of(zone, opens, closing, chosen):
    """Returns the options of both subcommands."""
    kind, rest = closing.split(" ", 1)
    closes = ["--closes", rest] if kind == "closed" else ["--minutes", str(int(rest) // 60)]
    return ["--opens", opens, *closes, "--zone", ZONES[zone], *FLAGS[chosen]]


def rows_of(zone, found, as_json):
    """Gives the lines of windows."""
    for low, high, value in found:
        opens, closes = shown(zone, low), shown(zone, high)
        if value:
            yield json.dumps({"opens": opens, "closes": closes, "seconds": high - low}, separators=(",", ":")) if as_json else f"{opens}\t{closes}"


def state_of(zone, state, base, at, as_json):
    """Returns the line about a second, and the status."""
    low, high, value = map(int, around(state, base, at - REACH, at, at + REACH).split("\t"))
    is_open, cut = value == 1, (low == at - REACH, high == at + REACH)
    since, until = shown(zone, low), shown(zone, high)
    if as_json:
        edges = {"open": is_open, "since": None if cut[0] else since, "until": None if cut[1] else until}
        return json.dumps(edges, separators=(",", ":")), 0 if is_open else 1
    earlier, later = " or earlier" if cut[0] else "", " or later" if cut[1] else ""
    return f"{'open' if is_open else 'closed'} since {since}{earlier} until {until}{later}", 0 if is_open else 1


def faults_of(lines, status, told):
    """Gives what differs of what was printed, and of the status."""
    printed = told.out.decode().splitlines()
    if printed != lines:
        at = next((at for at, pair in enumerate(zip(printed, lines)) if pair[0] != pair[1]), min(len(printed), len(lines)))
        yield f"line {at + 1} of {len(printed)} is {printed[at:at + 1]} and not {lines[at:at + 1]} of {len(lines)}"
    if told.status != status or told.err:
        yield f"status {told.status} and not {status}: {told.err.decode()}"


def cases():
    """Gives a zone, the options of the program, the rule, the two sets for the scan, and two instants."""
    for zone, opens, closing, first, end in OWN:
        for rule, chosen in (("shown", None), ("once", "once")):
            yield zone, words_of(zone, opens, closing, chosen), rule, opens, closing, second_of(first), second_of(end)
    for zone, opens, own, scanned, closing, closes, first, end in CRONTABS:
        for rule, chosen in ((own, None), ("shown", "shown"), ("once", "once")):
            yield zone, words_of(zone, opens, closing, chosen), rule, scanned, closes, second_of(first), second_of(end)


def events_check(words, first, end, found):
    """Returns the check of the windows as events. What closes them stands in their series as expression or as seconds."""
    title = ["--summary", "Wartung; 2, \\ \u20ac"] if len(found) % 2 else []
    closes = f"{int(words[3]) * 60} s" if words[2] == "--minutes" else words[3]
    spans = [(low, high, title[1] if title else "open") for low, high, value in found if value]
    call = Call(["windows", stamp(first), stamp(end), *words, "--ics", "--uid-domain", "t", *title])
    faults = functools.partial(span_faults, f"windows\n{words[1]}\n{closes}\n", spans)
    return Check(f"events of windows {' '.join(words)}", [call], faults)


def checks():
    random_of = random.Random(5)
    for zone, words, rule, opens, closing, first, end in cases():
        side = REACH if opens == HOURLY else BEFORE
        base = first - side - BEFORE
        state = open_seconds(rule, zone, opens, closing, base, end + side)
        found = stretches(state, base, first, end)
        yield events_check(words, first, end, found)
        for more in ([], ["--json"]):
            lines = [*rows_of(zone, found, bool(more))]
            call = Call(["windows", stamp(first), stamp(end), *words, *more])
            yield Check(f"windows {' '.join([*words, *more])}", [call], functools.partial(faults_of, lines, 0))
            edges = [random_of.choice(found)[0] + it for it in (-1, 0, 1)]
            for at in [*edges, random_of.randrange(first, end)]:
                line, status = state_of(zone, state, base, at, bool(more))
                call = Call(["inside", "--at", stamp(at), *words, *more])
                yield Check(f"inside {stamp(at)} {' '.join([*words, *more])}", [call], functools.partial(faults_of, [line], status))
    for zone, opens, closing, instant in LONG:
        at = second_of(instant)
        base = at - 600 * DAY
        state = open_seconds("shown", zone, opens, closing, base, at + REACH)
        for more in ([], ["--json"]):
            line, status = state_of(zone, state, base, at, bool(more))
            call = Call(["inside", "--at", f"@{at}", *words_of(zone, opens, closing, None), *more])
            yield Check(f"inside {instant} {opens}, {closing}", [call], functools.partial(faults_of, [line], status))
