#!/usr/bin/env python3
"""Writes the rows of crates/cron_test_holidays/data: texts of files, and their holidays or the line that is refused. Lists of dates
are read with Python's datetime. A scan of this file finds the refused lines of calendars, and the package icalendar reads the
calendars that have none. In texts, signs stand for line feeds, carriage returns and tabs.

usage: holiday_rows.py FOLDER"""
import datetime
import os
import re
import sys

import icalendar

FIRST = datetime.date(1970, 1, 1)
LAST = datetime.date(2100, 12, 31)
DAY = datetime.timedelta(days=1)
NO_DATE = "it is not a date"
OUT = "the date is not from 1970-01-01 to 2100-12-31"
TIME = "the event is not of whole days"
TWICE = "the event has this property already"
TURNED = "the event does not end after its start"
DURATION = "durations are not read: DTEND says when an event ends"
REPEATS = "rules of repetition are not read"
NO_START = "the event has no DTSTART"
OUTSIDE = "only a calendar can begin here"
OTHER_END = "it ends another component than the open one"
OPEN = "the component is not ended"

LISTS = [
    "", "\n", "\n\n  \n\t\n", "# nothing\n", "2026-01-01", "2026-01-01\n", "2026-01-01\r\n2026-12-25\r\n",
    "  2026-01-01\t\n", "\t 2026-05-01 # May Day\n", "2026-05-01# May Day\n", "#2026-05-01\n2026-05-02\n",
    "2026-12-25\n2026-01-01\n2026-12-25\n", "2024-02-29\n", "2000-02-29\n", "1970-01-01\n2100-12-31\n",
    "\n# Holidays\n\n2027-01-01   # New Year\n\r\n2027-03-26\n  # Easter\n2027-03-29", "2026-01-01\r", "   # only a comment",
    "2026-02-29\n", "2100-02-29\n", "2026-13-01\n", "2026-00-10\n", "2026-01-00\n", "2026-04-31\n", "1969-12-31\n", "2101-01-01\n",
    "0000-01-01\n", "9999-12-31\n", "2026-1-1\n", "20260101\n", "2026/01/01\n", "2026-01-01 2026-01-02\n", "2026-01-01x\n", "x\n",
    "2026-01-01\n\n2026-02-30 # no\n2026-99-99\n", "# one\n# two\n2026-01-0a\n", "2026-01-01\n2026-01\n", "2026-01-01T00:00\n",
    "+026-01-01\n", "2026-01-01 ;\n", "2026-01-01\r\r\n", "2026-01-01\x0c\n", "END:VCALENDAR\n", "2026-06-01\n  2026-06-31",
    "2026-\u0661\u0661-01\n", " BEGIN:VTODO\n", "BEGIN:VCALENDARS\n", "2026-01-01\nBEGIN:VCALENDAR\nEND:VCALENDAR\n",
]


def calendar(*lines, end="\r\n"):
    """Returns a calendar of these lines."""
    return end.join(["BEGIN:VCALENDAR", "VERSION:2.0", "PRODID:-//x//y//EN", *lines, "END:VCALENDAR", ""])


def event(*lines):
    """Returns the lines of an event."""
    return ["BEGIN:VEVENT", "UID:1@x", "DTSTAMP:20250101T000000Z", *lines, "END:VEVENT"]


NEW_YEAR = event("DTSTART;VALUE=DATE:20260101", "DTEND;VALUE=DATE:20260102", "SUMMARY:New Year")
CALENDARS = [
    calendar(), calendar(*NEW_YEAR), calendar(*NEW_YEAR, end="\n"), "\r\n \n" + calendar(*NEW_YEAR),
    calendar(*event("DTSTART:20260101")), calendar(*event("DTSTART;VALUE=DATE:20261224", "DTEND;VALUE=DATE:20261228")),
    calendar(*event("DTEND;VALUE=DATE:20270102", "DTSTART;VALUE=DATE:20261230")),
    calendar(*event("DTSTART;VALUE=DATE:20240228", "DTEND;VALUE=DATE:20240302")),
    calendar(*event("DTSTART;VALUE=DATE:19700101")), calendar(*event("DTSTART;VALUE=DATE:21001231", "DTEND;VALUE=DATE:21010101")),
    calendar(*event("DTSTART;VALUE=DATE:20260601"), *event("DTSTART;VALUE=DATE:20260501"), *event("DTSTART;VALUE=DATE:20260601")),
    calendar(*event("dtstart;value=date:20260101", "dtend;value=date:20260103")).replace("BEGIN:V", "begin:v").replace("END:VEVENT", "End:vEvent"),
    calendar(*event("DTSTART;VAL", " UE=DATE:2026", "\t0704")), calendar(*event("DTSTART;VALUE=DATE:20260704", "SUMMARY:a long", "  one", " ")),
    calendar(*event("SUMMARY:DTSTART:20260101", "DTSTART;VALUE=DATE:20260202")),
    calendar(*event('DTSTART;X-NOTE="a:b;c";VALUE=DATE:20260303')), calendar(*event('DTSTART;X-NOTE="a:b";X-B="c:d":20260304')),
    calendar(*event("DTSTART;VALUE=DATE:20260505", "STATUS:CANCELLED")), calendar(*event("status:Cancelled", "DTSTART;VALUE=DATE:20260505")),
    calendar(*event("DTSTART;VALUE=DATE:20260505", "STATUS:CONFIRMED")),
    calendar("BEGIN:VTIMEZONE", "TZID:Europe/Paris", "BEGIN:STANDARD", "DTSTART:19701025T030000", "RRULE:FREQ=YEARLY;BYMONTH=10;BYDAY=-1SU",
             "TZOFFSETFROM:+0200", "TZOFFSETTO:+0100", "END:STANDARD", "END:VTIMEZONE", *NEW_YEAR),
    calendar(*event("DTSTART;VALUE=DATE:20260101", "BEGIN:VALARM", "ACTION:DISPLAY", "DESCRIPTION:x", "TRIGGER:-P1D", "DURATION:PT5M", "REPEAT:2",
                    "END:VALARM", "DTEND;VALUE=DATE:20260103")),
    calendar("BEGIN:VTODO", "UID:2@x", "DTSTAMP:20250101T000000Z", "DTSTART:20260101T100000", "RRULE:FREQ=DAILY", "END:VTODO", *NEW_YEAR),
    calendar(*NEW_YEAR) + "\r\n" + calendar(*event("DTSTART;VALUE=DATE:20260214")), calendar(*NEW_YEAR) + "\n \n\t\r\n",
    calendar(*NEW_YEAR, "", *event("DTSTART;VALUE=DATE:20260215")), calendar(*NEW_YEAR).rstrip(),
    # refused
    calendar(*event("DTSTART:20260101T000000")), calendar(*event("DTSTART;VALUE=DATE:20260101", "DTEND:20260102T000000Z")),
    calendar(*event("DTSTART;TZID=Europe/Paris:20260101T000000")), calendar(*event("DTSTART;VALUE=DATE:20260101", "DTEND;VALUE=DATE:20260101")),
    calendar(*event("DTSTART;VALUE=DATE:20260102", "DTEND;VALUE=DATE:20260101")),
    calendar(*event("DTEND;VALUE=DATE:20260101", "SUMMARY:x", "DTSTART;VALUE=DATE:20260102")), calendar(*event("SUMMARY:none")),
    calendar(*NEW_YEAR, *event("DTEND;VALUE=DATE:20260101")), calendar(*event("DTSTART;VALUE=DATE:20260101", "RRULE:FREQ=YEARLY")),
    calendar(*event("rdate;VALUE=DATE:20260101", "DTSTART;VALUE=DATE:20260101")), calendar(*event("DTSTART;VALUE=DATE:20260101", "EXDATE;VALUE=DATE:20260101")),
    calendar(*event("DTSTART;VALUE=DATE:20260101", "EXRULE:FREQ=YEARLY")), calendar(*event("DTSTART;VALUE=DATE:20260101", "DURATION:P1D")),
    calendar(*event("DTSTART;VALUE=DATE:20260229")), calendar(*event("DTSTART;VALUE=DATE:2026-01-01")), calendar(*event("DTSTART;VALUE=DATE:")),
    calendar(*event("DTSTART;VALUE=DATE:19691231")), calendar(*event("DTSTART;VALUE=DATE:21010101")),
    calendar(*event("DTSTART;VALUE=DATE:21001231", "DTEND;VALUE=DATE:21010102")), calendar(*event("DTSTART;VALUE=DATE:19691231", "DTEND;VALUE=DATE:19700102")),
    calendar(*event("DTSTART;VALUE=DATE:20260101", "DTSTART;VALUE=DATE:20260101")),
    calendar(*event("DTSTART;VALUE=DATE:20260101", "DTEND;VALUE=DATE:20260102", "DTEND;VALUE=DATE:20260103")),
    calendar(*event("SUMMARY:a", " b", "DTSTART:2026", " 0101T", " 000000")), calendar(*event("STATUS:CANCELLED", "RRULE:FREQ=YEARLY", "DTSTART:20260101")),
    calendar(*event("DTSTART:20260101T00", "RRULE:FREQ=YEARLY")), calendar(*event("RRULE:FREQ=YEARLY", "DTSTART:20260101T00")),
    "BEGIN:VCALENDAR\nBEGIN:VEVENT\nDTSTART:20260101\nEND:VCALENDAR\n", "BEGIN:VCALENDAR\nBEGIN:VEVENT\nDTSTART:20260101\nEND:VEVENT\n",
    "BEGIN:VCALENDAR\nBEGIN:VEVENT\nDTSTART:20260101\n", "BEGIN:VCALENDAR", "begin:vcalendar\nEND:VTODO\n",
    "BEGIN:VCALENDAR\nBEGIN:VEVENT\nBEGIN:VALARM\nEND:VEVENT\nEND:VALARM\nEND:VCALENDAR\n",
    "BEGIN:VCALENDAR\nEND:VCALENDAR\nEND:VCALENDAR\n", calendar(*NEW_YEAR) + "2026-01-01\n", calendar(*NEW_YEAR) + "\n\nBEGIN:VEVENT\nEND:VEVENT\n",
    calendar(*NEW_YEAR) + "\r\n more\r\n", calendar(*NEW_YEAR, "END:VEVENT"), "BEGIN:VCALENDAR\nEND\nEND:VCALENDAR\n",
    calendar(*event('DTSTART;X-NOTE="a:20260101')), calendar("BEGIN:VTODO", *NEW_YEAR, "END:VTODO"),
]


def list_answer(text):
    """Returns the holidays of a list of dates, or its first refused line."""
    days = []
    for number, line in enumerate(text.split("\n"), 1):
        core = line.removesuffix("\r").split("#")[0].strip(" \t")
        if not core:
            continue
        if not re.fullmatch("[0-9]{4}-[0-9]{2}-[0-9]{2}", core):
            return number, NO_DATE
        year, month, day = map(int, core.split("-"))
        reason = reason_of(year, month, day, LAST)
        if reason:
            return number, reason
        days.append(datetime.date(year, month, day))
    return days


def reason_of(year, month, day, last):
    """Returns why a day is refused, or None."""
    if year == 0:  # no year of Python's, but the calendar has it
        return OUT if 1 <= month <= 12 and 1 <= day <= 31 else NO_DATE
    try:
        date = datetime.date(year, month, day)
    except ValueError:
        return NO_DATE
    return None if FIRST <= date <= last else OUT


def package_answer(text):
    """Returns the holidays that the package icalendar reads."""
    days = []
    for one in icalendar.Calendar.from_ical(text, multiple=True):
        for part in one.subcomponents:
            if part.name == "VEVENT" and part.get("STATUS", "").upper() != "CANCELLED":
                start = part["DTSTART"].dt
                end = part["DTEND"].dt if "DTEND" in part else start + DAY
                days += [start + n * DAY for n in range((end - start).days)]
    return days


def contents_of(text):
    """Returns the unfolded lines that aren't blank, with their numbers."""
    found = []
    for number, line in enumerate(re.split("\n", text), 1):
        line = line.removesuffix("\r")
        if not line.strip(" \t"):
            continue
        if line[0] in " \t" and found:
            found[-1][1] += line[1:]
        else:
            found.append([number, line])
    return found


def refused_line(text):
    """Returns the first line of a calendar that is refused, and why, or None."""
    names, first, found = [], [], {}
    for number, line in contents_of(text):
        bare = re.sub('"[^"]*("|$)', lambda quoted: "q" * len(quoted[0]), line)
        place = bare.find(":")
        name = re.match("[^:;]*", line)[0].upper()
        value = line[place + 1:] if place >= 0 else ""
        if not names and not (name == "BEGIN" and value.upper() == "VCALENDAR"):
            return number, OUTSIDE
        if name == "BEGIN":
            names.append(value.upper())
            first.append(number)
            if len(names) == 2:
                found = {}
        elif name == "END":
            if names[-1] != value.upper():
                return number, OTHER_END
            if names == ["VCALENDAR", "VEVENT"] and "DTSTART" not in found:
                return first[-1], NO_START
            names.pop()
            first.pop()
        elif names == ["VCALENDAR", "VEVENT"]:
            reason = property_reason(found, name, value)
            if reason:
                return number, reason
    return (first[-1], OPEN) if names else None


def property_reason(found, name, value):
    """Returns why a property of an event is refused, or None."""
    if name == "DURATION":
        return DURATION
    if name in ("RRULE", "RDATE", "EXRULE", "EXDATE"):
        return REPEATS
    if name not in ("DTSTART", "DTEND"):
        return None
    if name in found:
        return TWICE
    if value[8:9] == "T":
        return TIME
    if not re.fullmatch("[0-9]{8}", value):
        return NO_DATE
    parts = int(value[:4]), int(value[4:6]), int(value[6:])
    reason = reason_of(*parts, LAST if name == "DTSTART" else LAST + DAY)
    if reason:
        return reason
    found[name] = datetime.date(*parts)
    return TURNED if len(found) == 2 and found["DTEND"] <= found["DTSTART"] else None


def answer_of(text):
    """Returns what a file says: its holidays, or the line that is refused."""
    lines = [line for line in text.split("\n") if line.strip(" \t\r")]
    if not lines or lines[0].removesuffix("\r").upper() != "BEGIN:VCALENDAR":
        answer = list_answer(text)
    else:
        answer = refused_line(text)
        if answer is None:
            answer = package_answer(text)
    if isinstance(answer, tuple):
        return "line %d: %s" % answer
    return " ".join(map(str, answer))


def main():
    """Writes the rows."""
    signs = str.maketrans("\n\r\t", "\u240a\u240d\u2409")
    for name, texts in (("lists", LISTS), ("calendars", CALENDARS)):
        with open(os.path.join(sys.argv[1], name + ".tsv"), "w", encoding="utf-8") as rows:
            rows.write("# a file, and its holidays or the line that is refused\n")
            for text in texts:
                rows.write("%s\t%s\n" % (text.translate(signs), answer_of(text) or "none"))


main()
