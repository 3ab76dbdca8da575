#!/usr/bin/env python3
"""Writes the rows of crates/cron_test_days/data: rules of days by a scan of all days of 1970 to 2100, and sets by a scan of all
seconds of stretches. The dates are those of Python's datetime.

usage: day_rows.py FOLDER"""
import datetime
import os
import sys

FIRST = datetime.date(1970, 1, 1)
DAYS = (datetime.date(2101, 1, 1) - FIRST).days
NAMES = ["Sun", "Mon", "Tue", "Wed", "Thu", "Fri", "Sat"]


def date_of(day):
    """Returns the date of a day number."""
    return FIRST + datetime.timedelta(days=day)


def number_of(text):
    """Returns the day number of a date as text."""
    return (datetime.date.fromisoformat(text) - FIRST).days


def period_of(kind, date):
    """Returns the number of the day, week (Monday to Sunday) or month that a date lies in."""
    if kind == "day":
        return date.toordinal()
    if kind == "week":
        return (date - datetime.timedelta(days=date.weekday())).toordinal() // 7
    return date.year * 12 + date.month


def allows(rule, day):
    """Returns whether a rule, as text, allows a day."""
    return all(allows_one(part.split(), day) for part in rule.split(" & "))


def allows_one(words, day):
    """Returns whether a rule of one kind allows a day."""
    if words[0] == "not":
        return not allows_one(words[1:], day)
    if words[0] in ("only", "without"):
        return (date_of(day).isoformat() in words[1:]) == (words[0] == "only")
    if words[0] == "every":
        apart = period_of(words[2], date_of(day)) - period_of(words[2], datetime.date.fromisoformat(words[3]))
        return apart % int(words[1]) == 0
    date = date_of(day).isoformat()
    return (words[1] == "-" or words[1] <= date) and (words[2] == "-" or date <= words[2])


def members(text, least, greatest, names=None):
    """Returns the set of a field."""
    found = set()
    for item in text.split(","):
        item, step = item.split("/") if "/" in item else (item, None)
        ends = [names.index(it) + least if names and it in names else it for it in item.split("-")]
        if item in ("*", "?"):
            low, high = least, greatest
        elif len(ends) == 2:
            low, high = int(ends[0]), int(ends[1])
        else:
            low = int(ends[0])
            high = greatest if step else low
        found |= set(range(low, high + 1, int(step or 1)))
    return found


class Schedule:
    """The seven sets of an expression, and whether the last day is marked."""

    def __init__(self, text):
        words = text.split()
        self.seconds, self.minutes = members(words[0], 0, 59), members(words[1], 0, 59)
        self.hours = members(words[2], 0, 23)
        items = words[3].split(",")
        self.last = "L" in items
        self.days = members(",".join(it for it in items if it != "L"), 1, 31) if items != ["L"] else set()
        self.months = members(words[4], 1, 12)
        self.weekdays = members(words[5], 1, 7, NAMES)
        self.years = members(words[6] if len(words) > 6 else "*", 1970, 2100)

    def has_day(self, day):
        """Returns whether a day's date matches."""
        date = date_of(day)
        last = (date + datetime.timedelta(days=1)).month != date.month
        return (date.year in self.years and date.month in self.months and (date.day in self.days or self.last and last)
                and date.isoweekday() % 7 + 1 in self.weekdays)

    def times(self):
        """Returns the seconds of a day that match."""
        return {h * 3600 + m * 60 + s for h in self.hours for m in self.minutes for s in self.seconds}


def target(rule, day, step):
    """Returns the nearest allowed day from one on, or None."""
    while 0 <= day < DAYS:
        if allows(rule, day):
            return day
        day += step
    return None


def seconds_of(kind, text, other, first, end):
    """Returns the civil seconds of a set on the days from one to another, this one not among them."""
    schedule, times = Schedule(text), Schedule(text).times()
    if kind == "on":
        return [d * 86400 + t for d in range(first, end) if schedule.has_day(d) and allows(other, d) for t in sorted(times)]
    if kind in ("except", "walk"):
        rest, without = Schedule(other), Schedule(other).times()
        return [d * 86400 + t for d in range(first, end) if schedule.has_day(d)
                for t in sorted(times - without if rest.has_day(d) else times)]
    step = 1 if kind == "after" else -1
    taken = set()
    # a day's matches come from the row of days that aren't allowed on one side of it
    for d in range(first, end):
        if allows(other, d):
            source = d
            while 0 <= source < DAYS and (source == d or not allows(other, source)):
                if schedule.has_day(source):
                    taken |= {d * 86400 + t for t in times}
                source -= step
    return sorted(taken)


RULES = [
    "only", "without", "only 1970-01-01", "only 2100-12-31", "without 1970-01-01 2100-12-31",
    "only 2024-12-25 2024-02-29 2024-12-26 2024-12-25", "without 2024-12-24 2024-12-25 2024-12-26 2025-01-01",
    "every 1 day 2024-01-01", "every 2 day 2024-01-01", "every 3 day 1970-01-02", "every 10000 day 2100-12-31", "every 7 day 2000-02-29",
    "every 1 week 2024-01-01", "every 2 week 2024-01-01", "every 2 week 2024-01-07", "every 2 week 2024-01-08", "every 3 week 1970-01-01",
    "every 53 week 2020-12-28", "every 10000 week 1970-01-05", "every 4 week 2100-12-31",
    "every 1 month 2024-02-29", "every 2 month 2024-02-29", "every 3 month 1970-01-31", "every 12 month 2023-12-31", "every 10000 month 2100-12-01",
    "every 5 month 2100-12-31", "span 2024-01-01 2024-12-31", "span - 1970-01-01", "span 2100-12-31 -", "span - -", "span 2024-02-29 2024-02-29",
    "not every 2 week 2024-01-01", "not span 2024-01-01 2024-12-31", "not span - -", "not only 2024-02-29", "not without 2024-02-29",
    "every 2 week 2024-01-01 & span 2024-01-01 2025-12-31", "every 2 week 2024-01-01 & not every 2 month 2024-02-01 & without 2024-01-01 2024-03-04",
    "every 2 day 2024-01-01 & every 3 day 2024-01-02", "every 2 day 2024-01-01 & every 2 day 2024-01-02",
]
HOLIDAYS = "without 2024-01-01 2024-03-29 2024-04-01 2024-05-01 2024-05-09 2024-12-24 2024-12-25 2024-12-26 2024-12-31"
SETS = [
    ("on", "0 30 9 * * Mon-Fri", HOLIDAYS, "2023-12-20", "2025-01-20"), ("on", "* * * * * *", HOLIDAYS, "2024-12-22", "2025-01-03"),
    ("on", "0 0 8 * * *", "every 2 week 2020-12-28", "2010-01-01", "2030-01-01"), ("on", "0 0 8 * * Sun", "every 2 week 2020-12-28", "2010-01-01", "2030-01-01"),
    ("on", "30 15 12 L * *", "every 3 month 2024-02-01", "2023-01-01", "2027-01-01"), ("on", "0 0 0 * * *", "only", "1970-01-01", "2101-01-01"),
    ("on", "59 59 23 * * *", "only 1970-01-01 2100-12-31", "1970-01-01", "2101-01-01"), ("on", "0 0 12 29 2 *", "every 4 week 2024-02-29", "1970-01-01", "2101-01-01"),
    ("after", "0 30 9 * * *", HOLIDAYS, "2023-12-20", "2025-01-20"), ("before", "0 30 9 * * *", HOLIDAYS, "2023-12-20", "2025-01-20"),
    ("after", "0 0 9,17 * * *", "every 3 day 2024-01-01", "2024-01-01", "2024-06-01"), ("before", "0 0 9,17 * * *", "every 3 day 2024-01-01", "2024-01-01", "2024-06-01"),
    ("after", "15 10 9 1,15 * *", "every 2 week 2020-12-28", "2010-01-01", "2030-01-01"), ("before", "15 10 9 1,15 * *", "every 2 week 2020-12-28", "2010-01-01", "2030-01-01"),
    ("after", "0 0 9 * * Mon", "only 1970-01-01 2100-12-31", "1970-01-01", "2101-01-01"), ("before", "0 0 9 * * Mon", "only 1970-01-01 2100-12-31", "1970-01-01", "2101-01-01"),
    ("after", "0 0 9 L * *", "not every 2 week 2024-01-01", "2023-01-01", "2027-01-01"), ("before", "0 0 9 L * *", "not every 2 week 2024-01-01", "2023-01-01", "2027-01-01"),
    ("after", "0 0 9 * * *", "not span - -", "2023-01-01", "2024-01-01"), ("after", "0 20 9 * * Sat", "not every 1 week 2024-01-01", "2023-01-01", "2024-01-01"),
    ("after", "*/20 30 9-10 1 * *", "every 2 month 2024-01-01", "2023-01-01", "2027-01-01"), ("before", "*/20 30 9-10 1 * *", "every 2 month 2024-01-01", "2023-01-01", "2027-01-01"),
    ("except", "0 * * * * *", "* * 12 * * Mon-Fri", "2024-02-26", "2024-03-12"), ("except", "* * * * * *", "* * 12 * * Mon-Fri", "2024-02-28", "2024-03-03"),
    ("except", "0 * * * * *", "0 * * * * *", "2024-02-26", "2024-02-28"), ("except", "0 0 9 * * *", "* * * * * Sat-Sat,Sun-Sun", "2024-01-01", "2025-01-01"),
    ("except", "0 0 9 L * *", "* * * 31 * *", "2023-01-01", "2027-01-01"), ("except", "0 0 9 28-31 * *", "* * * L * *", "2023-01-01", "2027-01-01"),
    ("except", "0 0 9 L * *", "* * * 28-31 * *", "2023-01-01", "2024-01-01"), ("except", "0 0,30 9-17 * * Mon-Fri", "0 30 * * */3 * 2024", "2023-11-01", "2025-02-01"),
    ("except", "0 0 0 1 1 * 1970-2099", "0 0 0 * * Thu", "1970-01-01", "2101-01-01"), ("except", "0 0 9 * * *", "0 0 9 * * *", "2024-01-01", "2024-02-01"),
    ("walk", "0 * * * * *", "* * 12 * * Mon-Fri", "2024-02-26", "2024-03-12"), ("walk", "0 0 0 1 1 * 1970-2099", "0 0 0 * * Thu", "1970-01-01", "2101-01-01"),
    ("walk", "0 0 9 29 2 *", "0 0 9 29 2 *", "2024-01-01", "2025-01-01"),
]


def rows_of_rules():
    """Gives a line for each rule: how many days it allows, and the sums of their numbers and of the squares of these."""
    for rule in RULES:
        days = [day for day in range(DAYS) if allows(rule, day)]
        yield f"{rule}\t{len(days)}\t{sum(days)}\t{sum(day * day for day in days)}"


def rows_of_sets():
    """Gives a line for each set and stretch: how many civil seconds, the first, the last, and the sum of them from the start on."""
    for kind, text, other, first, end in SETS:
        start = number_of(first) * 86400
        last = DAYS if end == "2101-01-01" else number_of(end)
        found = seconds_of(kind, text, other, number_of(first), last)
        ends = f"{found[0]}\t{found[-1]}" if found else "none\tnone"
        sums = sum((place + 1) % 1000 * (c - start) for place, c in enumerate(found)) % 2**32
        yield f"{kind}\t{text}\t{other}\t{start}\t{last * 86400}\t{len(found)}\t{ends}\t{sums}"


def main():
    """Writes both files."""
    folder, = sys.argv[1:]
    for name, rows in (("rules.tsv", rows_of_rules()), ("sets.tsv", rows_of_sets())):
        with open(os.path.join(folder, name), "w", encoding="utf-8") as file:
            file.writelines(f"{row}\n" for row in rows)


if __name__ == "__main__":
    main()
