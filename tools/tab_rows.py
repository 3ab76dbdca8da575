"""Rows of `crontool check` and `crontool list` against files that others made: lines that real crons refuse, fires of crontabs that a
scan of minutes counted (crates/cron_test_tabs/data), and hostile commands as Python's reader of JSON has them."""
import datetime as dates
import functools
import json

from cases import OUT, Call, Check, Wanted
from kit import top

OF_TOOL, OF_ROWS = "crates/crontool/data", "crates/cron_test_tabs/data"
RULES = {"own": [], "once": ["--once"], "shown": ["--as-shown"]}
CHICAGO = ["chicago.tab", "--zone", "CST6CDT,M3.2.0,M11.1.0"]
DAYS = ["list", "2025-03-08T18:00:00Z", "2025-03-10T18:00:00Z", *CHICAGO]
YEARS = ["list", "2024-01-15T12:00:00Z", "2026-01-15T12:00:00Z", "berlin.tab", "--zone", "CET-1CEST,M3.5.0,M10.5.0/3"]
COMMANDS = {
    "11": "two in the gap",
    "3": "skipped by the clock",
    "4": "follows it",
    "5": "each hour",
    "6": "either kind of day",
    "9": "on Sundays",
}


def bytes_of(path):
    with open(f"{top()}/{path}", "rb") as it:
        return it.read()


def lines_of(path):
    return bytes_of(path).decode().splitlines()


def refused_lines(told):
    if [it.split(":")[0] for it in told.out.decode().splitlines()] != lines_of(f"{OF_TOOL}/crons.txt"):
        yield "other lines are refused than by the crons"


def fires_in(told):
    """Returns the fires of a list as instants, with the number of the line of each, and its command."""
    rows = [it.split("\t") for it in told.out.decode().splitlines()]
    instant = lambda text: dates.datetime.strptime(text.partition(" for ")[0], "%Y-%m-%d %H:%M:%S %z").astimezone(dates.timezone.utc)
    return [(instant(fire), line, command) for fire, line, command in rows]


def fires_of_days(rule, told):
    fires = [f"{line} {instant:%Y-%m-%dT%H:%M:%SZ}" for instant, line, _ in fires_in(told)]
    if fires != lines_of(f"{OF_ROWS}/chicago_{rule}.txt"):
        yield f"{fires[:3]} .. of {len(fires)}"


def fires_of_years(rule, told):
    """How many fires there are, and the digest of them that the rows of cron_test_tabs have."""
    digest, fires = 0, fires_in(told)
    for instant, line, _ in fires:
        digest = (digest * 1099511628211 + int(instant.timestamp()) // 60 * 1000 + int(line)) % 2**64
    if f"0 {len(fires)} {digest}" != lines_of(f"{OF_ROWS}/berlin_{rule}.txt")[0]:
        yield f"{len(fires)} fires, {digest}"


def commands_that_fire(told):
    found = {line: command for _, line, command in fires_in(told)}
    if found != COMMANDS:
        yield f"{found}"


def lists():
    tabs = {it: bytes_of(f"{OF_ROWS}/{it}") for it in ("chicago.tab", "berlin.tab")}
    for rule, words in RULES.items():
        days = Call([*DAYS, *words], files=tabs)
        yield Check(f"fires of a crontab over two days ({rule})", [days], functools.partial(fires_of_days, rule))
        years = functools.partial(fires_of_years, rule)
        yield Check(f"fires of a crontab over two years ({rule})", [Call([*YEARS, *words])], years)
    yield Check("commands of lines that fire", [Call(DAYS)], commands_that_fire)


HOSTILE = [
    b'say "x" \\ \\n / \x7f',
    b"a" + bytes(range(1, 10)) + bytes(range(11, 32)) + b".",
    "\u00e9\u20ac\U0001d11e\u2028\ufeff".encode(),
    b"a\xff",
    b"\xc3(\xe2\x82(\xf0\x9f\x98",
    b"\xed\xa0\x80\xf4\x90\x80\x80",
    b'"' * 3000,
    b"\xc0\x80\xfe" * 300,
    b"{}[],:'",
    b"\\" * 99,
]
USERS = [b"root", b'a"b\\', b"\xff\x01", "\u00fc".encode()]
ENTRIES = [(USERS[at % len(USERS)], command) for at, command in enumerate(HOSTILE)]


def row_of(number, user, command):
    """Returns what a row of JSON must hold, in its order: bytes that are no UTF-8 come as text, and in hexadecimal digits."""
    text = lambda raw: raw.decode("utf-8", "replace")
    row = {"fire": "2024-01-01 00:01:00 +00:00", "epoch": 1704067260, "line": number, "user": text(user)}
    if "\ufffd" in text(user):
        row["user_bytes"] = user.hex()
    row["command"] = text(command)
    if "\ufffd" in text(command):
        row["bytes"] = command.hex()
    return [*row.items()]


def hostile_rows(told):
    rows = [[*json.loads(line).items()] for line in told.out.split(b"\n")[:-1]]
    wanted = [row_of(number, *entry) for number, entry in enumerate(ENTRIES, 1)]
    if rows != wanted or told.status != 0:
        yield f"status {told.status}, {[it for it in rows if it not in wanted]}"


def checks():
    yield Check("lines that real crons refuse", [Call(["check", "--no-warn", "crons.tab"])], refused_lines)
    first = [(OUT, it.encode()) for it in lines_of(f"{OF_TOOL}/schedules_next.txt")]
    words = ["check", "--expressions", "--next", "2024-01-01T00:00:00Z", "--zone", "UTC", "schedules.txt"]
    yield Check("first fires of expressions", [Call(words)], Wanted(first, 1))
    yield from lists()
    tab = b"".join(b"* * * * * " + user + b" " + command + b"\n" for user, command in ENTRIES)
    words = ["list", "--count", str(len(ENTRIES)), "--after", "2024-01-01", "-", "--system", "--zone", "UTC", "--json"]
    yield Check("hostile commands in JSON", [Call(words, tab)], hostile_rows)
