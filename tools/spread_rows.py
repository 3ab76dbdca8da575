#!/usr/bin/env python3
"""Writes the rows of crates/cron_test_spread/data: names, texts of crontabs with items whose number a name decides, and the texts with
those numbers, counted with Python's hashlib. In texts, signs stand for tabs, line feeds and carriage returns.

usage: spread_rows.py FOLDER"""
import hashlib
import os
import re
import sys

# the title of each field, its least number, the greatest that H stands for, and the greatest
FIELDS = [("minute", 0, 59, 59), ("hour", 0, 23, 23), ("day of month", 1, 28, 31), ("month", 1, 12, 12), ("day of week", 0, 6, 7)]
# what stands for white space in the rows
SHOWN = str.maketrans("\t\n\r", "␉␊␍")
MEANT = str.maketrans("␉␊␍", "\t\n\r")
NAMES = ["backup", "backup-2", "", "app@db1.example.org", "Zürich", "a", "jobs.tab:17"]
TEXTS = [
    "H * * * *", "H H * * *", "H H H H H", "H/15 * * * *", "H(0-29) * * * *", "H(0-29)/10 * * * *", "0~59 * * * *", "0 H(0-7) * * *",
    "H/5,H * * * * run H", "0 0 H * *", "0 0 H(1-31) * *", "0 0 H/7 * *", "0 0 1~31 * *", "0 0 * H *", "0 0 * H/3 *", "0 0 * * H",
    "0 0 * * H(1-5)", "0 0 * * 0~7", "0 0 * * H/2", "H/60 * * * *", "H/1 * * * *", "H(5-5) * * * *", "7~7 * * * *", "H(00-09) * * * *",
    "␉H  H␉*  *   *␉root  H/2 H", "H", "H H", "", "  ", "H,H,H 1,H,3 * * *", "* * * * *", "@hourly H", "  @daily run H,H", "0 0 * * H␊", "␊H␍␊H␍* * *", "0 0 * * mon", "H H(9-16)/2 * * 1-5",
    "H/61 * * * *", "H/0 * * * *", "H/ * * * *", "H/a * * * *", "h * * * *", "H() * * * *", "H(0-60) * * * *", "H(29-0) * * * *",
    "H(0-29 * * * *", "H(0-29)x * * * *", "H(0-29)/ * * * *", "H(0-29)/31 * * * *", "H(0-29)/30 * * * *", "~ * * * *", "0~ * * * *",
    "~5 * * * *", "9~3 * * * *", "0~60 * * * *", "0~59/5 * * * *", "0 0 0~5 * *", "0 0 H(0-5) * *", "HH * * * *", "H-5 * * * *",
    "1-H * * * *", "H/15/2 * * * *", "H(0-9)(1-2) * * * *", "000~5 * * * *", "H(+1-5) * * * *", "H,, * * * *", ",H * * * *", "é H ü H *",
]


def number(name, title, count):
    digest = hashlib.sha256(name.encode() + b"\0" + title.encode()).digest()
    return int.from_bytes(digest, "big") % count


def item_text(name, field, item):
    title, least, most, greatest = field
    found = re.fullmatch(r"(?:H(?:\((\d{1,2})-(\d{1,2})\))?(?:/(\d{1,2}))?|(\d{1,2})~(\d{1,2}))", item, re.A)
    if not found:
        return item
    first, last, step, low, high = (None if it is None else int(it) for it in found.groups())
    if low is not None:
        first, last = low, high
    elif first is None:
        first, last = least, most
    if not least <= first <= last <= greatest:
        return item
    if step is None:
        return str(first + number(name, title, last - first + 1))
    if not 1 <= step <= last - first + 1:
        return item
    return f"{first + number(name, title, step)}-{last}/{step}"


def spread(name, text):
    parts = re.split(r"([ \t\r\n]+)", text)
    words = [at for at, it in enumerate(parts) if it and not re.fullmatch(r"[ \t\r\n]+", it)]
    if words and parts[words[0]].startswith("@"):
        return text
    for field, at in zip(FIELDS, words):
        parts[at] = ",".join(item_text(name, field, item) for item in parts[at].split(","))
    return "".join(parts)


def main():
    if len(sys.argv) != 2:
        sys.exit(__doc__)
    rows = [(name, text) for text in TEXTS for name in (NAMES if "H" in text or "~" in text else NAMES[:1])]
    with open(os.path.join(sys.argv[1], "spreads.tsv"), "w", encoding="utf-8", newline="") as out:
        out.write("# a name, a text, and the text with its numbers\n")
        for name, text in rows:
            made = spread(name, text.translate(MEANT)).translate(SHOWN)
            out.write(f"{name}\t{text}\t{made or 'none'}\n")
    print(len(rows))


if __name__ == "__main__":
    main()
