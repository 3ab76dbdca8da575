"""A million calls: what the extension answers, held against the Python package.

    python3 million.py COUNT PSQL..    asks `next`, `previous` and `matches` of so many rows by this command line of psql
"""

from __future__ import annotations

import multiprocessing
import random
import subprocess
import sys
from datetime import datetime, timedelta, timezone
from typing import Iterator, List, NamedTuple, Optional
from zoneinfo import ZoneInfo

from cron_c import Schedule, library
from cron_c.zones import eras_of

ZONES = [
    "America/Chicago", "America/New_York", "Europe/Berlin", "Europe/London", "Australia/Lord_Howe", "Asia/Kolkata",
    "Pacific/Apia", "Africa/Casablanca", "America/Sao_Paulo", "Asia/Pyongyang", "Antarctica/Troll", "UTC",
]  # fmt: skip
CRONTABS = [
    "* * * * *", "*/5 * * * *", "30 2 * * *", "0,30 1-3 * * *", "*/20 2 * * sun", "0 9 * * mon-fri", "0 0 13 * 5", "5 1,2 1,8 3,11 *",
    "@hourly", "@daily", "@weekly", "@monthly", "@yearly", "0 0 29 2 *", "0 22-2 * * *", "59 23 31 12 *",
]  # fmt: skip
OWN = [
    "* * * * * *", "0 30 1 * * *", "0 */15 0-3 * Mar,Nov Sun", "30 59 1 1-14 3,11 ?", "0 0 9 1,15,L * Mon-Fri", "0 0 12 L * ? 2000/4",
    "59 59 23 31 12 * 2100", "0 0 0 1 1 * 1970", "0 0 0 30 2 *", "0 30 9,12,15 1,15 May-Aug Mon,Wed,Fri 2018/2",
]  # fmt: skip
QUARTZ = ["0 0 12 L-3 * ?", "0 30 1 ? * SUN", "0 15 2 ? 3,11 1#2", "0 0 0 LW * ?", "0 0/30 * 15W * ?", "0 0 12 ? * 6L"]
EPOCH = datetime(1970, 1, 1, tzinfo=timezone.utc)
LISTS = 400
WEEKS = range(0, 60 * 365 * 86400, 7 * 86400)


class Row(NamedTuple):
    """What is asked: an instant in microseconds since 1970, and a rule or none."""

    text: str
    micros: int
    zone: str
    rule: str


def schedule_of(text: str) -> Schedule:
    if text.startswith("quartz: "):
        return Schedule.quartz(text.removeprefix("quartz: "))
    return Schedule.crontab(text) if text in CRONTABS else Schedule(text)


def own_rule(text: str) -> str:
    """The rule of a text: a crontab's fixed times fire once."""
    fields = text.split()
    follows = text == "@hourly" or not text.startswith("@") and any(it.startswith("*") for it in fields[:2])
    return "as_shown" if text not in CRONTABS or follows else "once"


TEXTS = CRONTABS + OWN + [f"quartz: {it}" for it in QUARTZ]
SCHEDULES = {it: schedule_of(it) for it in TEXTS}
RULES = {it: own_rule(it) for it in TEXTS}
ERAS = {it: eras_of(ZoneInfo(it)) for it in ZONES}


def turns() -> List[int]:
    """Seconds since 1970 at which weeks begin in which the clock of one of these zones changes."""
    found = []
    for zone in map(ZoneInfo, ZONES):
        offsets = [datetime.fromtimestamp(second, zone).utcoffset() for second in WEEKS]
        found += [second for second, one, other in zip(WEEKS, offsets, offsets[1:]) if one != other]
    return found


def rows(count: int) -> Iterator[Row]:
    dice, near = random.Random(15), turns()
    for _ in range(count):
        second = dice.choice(near) + dice.randrange(-86400, 8 * 86400) if dice.random() < 0.6 else dice.randrange(-(10**9), 42 * 10**8)
        if dice.random() < 0.5:
            second -= second % 1800
        micros = second * 10**6 + (dice.choice((1, 500_000, 999_999)) if dice.random() < 0.3 else 0)
        yield Row(dice.choice(TEXTS), micros, dice.choice(ZONES), dice.choice(("own", "own", "as_shown", "once")))


def expected(row: Row) -> str:
    """What a row is answered by the package."""
    schedules, eras = SCHEDULES[row.text]._schedules, ERAS[row.zone]
    floor, ceiling = row.micros // 10**6, -(-row.micros // 10**6)
    if (RULES[row.text] if row.rule == "own" else row.rule) == "once":
        after, before, at = (
            library.due_after(schedules, eras, floor), library.due_by(schedules, eras, ceiling - 1), library.due_by(schedules, eras, floor)
        )  # fmt: skip
    else:
        after, before, at = (
            library.fire_after(schedules, eras, floor), library.fire_by(schedules, eras, ceiling - 1), library.fire_by(schedules, eras, floor)
        )  # fmt: skip
    matches = floor == ceiling and at is not None and at[0] == floor
    return f"{told(after)}\t{told(before)}\t{'t' if matches else 'f'}"


def told(found: Optional[tuple]) -> str:
    return "\\N" if found is None else str(found[0])


CALLS = """
create temp table asked (place serial, expression cron, micros bigint, zone text, rule text);
\\copy asked (expression, micros, zone, rule) from pstdin
set timezone = 'UTC';
copy (select extract(epoch from after)::bigint, extract(epoch from before)::bigint, is_fire from (
    select place, case rule when 'own' then next(expression, at, zone) else next(expression, at, zone, rule) end as after,
        case rule when 'own' then previous(expression, at, zone) else previous(expression, at, zone, rule) end as before,
        case rule when 'own' then matches(expression, at, zone) else matches(expression, at, zone, rule) end as is_fire
    from (select *, 'epoch'::timestamptz + micros * interval '1 microsecond' as at from asked) as it) as answered order by place) to stdout;
"""
FIRES = """
create temp table asked (place serial, expression cron, micros bigint, zone text, rule text);
\\copy asked (expression, micros, zone, rule) from pstdin
set timezone = 'UTC';
copy (select string_agg(extract(epoch from f)::bigint::text, ' ') from (
    select place, case rule when 'own' then array(select fires(expression, at, at + interval '800 days', zone) limit 300)
        else array(select fires(expression, at, at + interval '800 days', zone, rule) limit 300) end as list
    from (select *, 'epoch'::timestamptz + micros * interval '1 microsecond' as at from asked) as it) as listed
    left join lateral unnest(list) with ordinality as each(f, n) on true group by place order by place) to stdout;
"""


def expected_list(row: Row) -> str:
    rule = RULES[row.text] if row.rule == "own" else row.rule
    start = (EPOCH + timedelta(microseconds=row.micros)).astimezone(ZoneInfo(row.zone))
    found = SCHEDULES[row.text].fires(start, start.astimezone(timezone.utc) + timedelta(days=800), clock_changes=rule)
    return " ".join(f"{it.timestamp():.0f}" for it, _ in zip(found, range(300))) or "\\N"


def answers(question: str, asked: List[Row], psql: List[str]) -> List[str]:
    """Asks the server, and returns a line for each row."""
    given = "".join(f"{it.text}\t{it.micros}\t{it.zone}\t{it.rule}\n" for it in asked)
    words = [*psql, "-qAtX", "-v", "ON_ERROR_STOP=1"]
    script = [word for it in split(question) for word in ("-c", it)]
    return subprocess.run([*words, *script], input=given, stdout=subprocess.PIPE, text=True, check=True).stdout.splitlines()


def split(question: str) -> List[str]:
    """The statements of a question, of which psql takes one a word: what stands before the copy, the copy, and the rest."""
    front, behind = question.split("\\copy", 1)
    copy, rest = behind.split("\n", 1)
    return [front, "\\copy" + copy, rest]


def compare(asked: List[Row], got: List[str], wanted: Iterator[str]) -> None:
    if len(got) != len(asked):
        sys.exit(f"{len(got)} answers to {len(asked)} rows")
    for row, told_by_sql, told_here in zip(asked, got, wanted):
        if told_by_sql != told_here:
            sys.exit(f"{row}: PostgreSQL answers {told_by_sql}, and the package {told_here}")


def main() -> None:
    count, psql = int(sys.argv[1]), sys.argv[2:]
    asked = list(rows(count))
    with multiprocessing.Pool(2) as pool:
        wanted = pool.imap(expected, asked, 1000)
        compare(asked, answers(CALLS, asked, psql), wanted)
    lists = asked[:LISTS]
    compare(lists, answers(FIRES, lists, psql), map(expected_list, lists))
    print(f"{3 * count} calls, and {LISTS} lists of fires, are answered as by the Python package")


if __name__ == "__main__":
    main()
