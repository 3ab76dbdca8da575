#!/usr/bin/env python3
"""Writes schedules.tsv of crates/cron_test_kubernetes/data: 2,000 texts, and what robfig/cron 3.0.1 reads each as, by
kubernetes_rows.go. It takes Debian's golang-go and golang-github-robfig-cron-dev. Texts come from a grammar and a fixed seed; a
third of them is then changed at random. In texts, signs stand for line feeds, carriage returns and tabs.

usage: kubernetes_rows.py FOLDER"""
import os
import random
import subprocess
import sys

HEAD = ("# A text, what robfig/cron 3.0.1 reads it as (BAD, EVERY, or OK with its sets and stars), and its first fires after "
        "2024-01-15T00:00:00Z.")
TOP = os.path.dirname(os.path.abspath(__file__))
BOUNDS = [(0, 59), (0, 23), (1, 31), (1, 12), (0, 6)]
MONTHS = "jan feb mar apr may jun jul aug sep oct nov dec".split()
DAYS = "sun mon tue wed thu fri sat".split()
EDGES = ["0", "00", "000000000000000000000", "7", "31", "32", "59", "60", "24", "13", "99", "999999999", "4294967296", "+5", "+0", "-1", "-0", "05",
         "9223372036854775807", "9223372036854775808", "18446744073709551616", "1.5", "1_0", "0x5", "", "L", "l", "5L", "15W", "LW", "1#2", "fri#3", "H", "~",
         "january", "monday", "su", "mo", "sund", "x", "*5", "**", "5*", "?5", "?*", "٣"]
DURATIONS = ["1s", "90m", "1h30m", "1h30m10s", "0", "-0", "+0", "+", "-", "", "5", "1.5h", ".5h", "1.h", ".h", "1..5h", "1.5.5h", "1h1", "1 h", " 1h", "1h ", "-1h",
             "+1h", "--1h", "1d", "1w", "1H", "1ms", "1us", "1µs", "1μs", "1ns", "10000000000ns", "1hms", "h", "1mm", "1m1m", "00h", "0s", "2562047h", "2562048h",
             "9223372036854775807ns", "9223372036854775808ns", "-9223372036854775807ns", "99999999999999999999ns", "99999999999999999999h", "106751d", "1e3s",
             "1_000s", "1h-1m", "1,5h", "153722867m", "153722868m", "9223372036s854ms", "9223372036s855ms", "1.00000000000000000000000001s", "1s\t", "١s"]
DESCRIPTORS = "@yearly @annually @monthly @weekly @daily @midnight @hourly @reboot @every @Daily @HOURLY @YEARLY @ @@daily @dailyy @month @weekday".split()
HAND = ["", " ", "\t", "\n", "* * * * *", "*  *\t* * *", "*\n* * * *", " * * * * *", "* * * * * ", "\r\n* * * * *\r\n", "* * * *", "* * * * * *", "@daily ", " @daily",
        "@daily x", "@daily\n", "@every  1h", "@every\t1h", "@Every 1h", "TZ=UTC * * * * *", "CRON_TZ=UTC * * * * *", "TZ=Asia/Tokyo 0 9 * * *", "TZ=UTC",
        "CRON_TZ=Europe/Berlin @daily", "TZ= * * * * *", " TZ=UTC * * * * *", "tz=UTC * * * * *", "* TZ=UTC * * *", ", , , , ,", ",,,, * * * *", "* * , * *", "* * * * ,",
        "1,,2 ,1 1, * *", "*/1 * */1 * 1", "? ? ? ? ?", "0 0 ? * 1", "0 0 ?/1 * 1", "0 0 ?/2 * 1", "0 0 */2 * 1", "0 0 */1 * 1", "0 0 1,* * 1", "0 0 *,1 * 1", "0 0 1-31 * 1",
        "0 0 1 * 0-6", "0 0 1 * */2", "0 0 13 * fri", "0 0 31 2 *", "0 0 29 2 *", "0 0 30 2 1", "0 0 31 2 ?", "0 0 * * 7", "0 0 * * 0-7", "0 0 * * 5-7", "0 0 * * 1-0", "0 0 * * SUN-SAT",
        "0 0 * * sat-sun", "0 0 * * fRi", "0 0 * JaN-dEc/3 *", "5/10 * * * *", "59/1 * * * *", "0/60 * * * *", "*/60 * * * *", "*/0 * * * *", "*/ * * * *", "/5 * * * *", "*/5/5 * * * *",
        "*-5 * * * *", "*-5-6-x/2 * * * *", "?-x * * * *", "1-2-3 * * * *", "1- * * * *", "-1 * * * *", "- * * * *", "1--2 * * * *", "5-1 * * * *", "5-5 * * * *", "*/-5 * * * *",
        "*/+5 * * * *", "*/-0 * * * *", "+1-+5 * * * *", "*/9223372036854775807 * * * *", "*/9223372036854775808 * * * *", "1-5/18446744073709551617 * * * *", "*/4294967297 * * * *",
        "mon * * * *", "0 0 fri * *", "0 0 * fri *", "0 0 * * jan", "0 0 * jan-3 *", "0 0 * 1-mar fri-6", "0 0 1W * *", "0 0 L * *", "0 0 * * 5L", "0 0 * * 5#2", "H H * * *", "0~30 * * * *"]


def number(chance, field):
    """Returns a number of a field, or something near one."""
    low, high = BOUNDS[field]
    roll = chance.random()
    if roll < 0.02:
        return chance.choice(EDGES)
    if roll < 0.03:
        return str(chance.choice([low - 1, high + 1, high + 2]))
    if field > 2 and roll < 0.4:
        name = chance.choice(MONTHS if field == 3 else DAYS)
        return "".join(chance.choice([c, c.upper()]) for c in name)
    if roll < 0.45:
        return str(chance.choice([low, high]))
    if roll < 0.5:
        return "0" * chance.randint(1, 3) + str(chance.randint(low, high))
    return str(chance.randint(low, high))


def item(chance, field):
    """Returns an item of a field."""
    roll = chance.random()
    if roll < 0.3:
        base = chance.choice(["*", "*", "*", "?", "*-5", "?-x"])
    elif roll < 0.65:
        base = number(chance, field)
    else:
        ends = [number(chance, field), number(chance, field)]
        if all(end.isdecimal() and end.isascii() for end in ends) and chance.random() < 0.85:
            ends.sort(key=int)
        base = "-".join(ends)
    if chance.random() < 0.3:
        base += "/" + chance.choice(["1", "2", "3", "5", "7", "10", "15", "30", "60", "100", "01", number(chance, field)])
    return base


def text_of(chance):
    """Returns a text of five fields, or nearly so."""
    fields = []
    for field in range(5):
        if chance.random() < 0.3:
            fields.append("*")
            continue
        items = [item(chance, field) for _ in range(chance.choice([1, 1, 1, 1, 2, 2, 3]))]
        if chance.random() < 0.05:
            items.insert(chance.randint(0, len(items)), "")
        fields.append(",".join(items))
    if chance.random() < 0.03:
        del fields[chance.randrange(5)]
    if chance.random() < 0.03:
        fields.insert(chance.randint(0, 5), "*")
    blank = chance.choice([" "] * 12 + ["  ", "\t", " \t", "\n"])
    return blank.join(fields)


def changed(chance, text):
    """Returns a text with a letter dropped, doubled, swapped or replaced."""
    letters = list(text)
    at = chance.randrange(len(letters))
    letters[at:at + 1] = chance.choice([[], [letters[at]] * 2, [chance.choice("*?,-/ 0123456789LW#@abcJFMSu+.=~\t\n")], letters[at:at + 2][::-1]])
    return "".join(letters)


def texts():
    """Returns the texts, each once."""
    chance = random.Random(20241107)
    found = dict.fromkeys(HAND + DESCRIPTORS + ["@every " + duration for duration in DURATIONS])
    while len(found) < 2000:
        text = text_of(chance)
        if chance.random() < 0.2:
            text = changed(chance, text)
        found[text] = None
    return list(found)


def main():
    """Writes the rows."""
    shown = [text.replace("\n", "␊").replace("\r", "␍").replace("\t", "␉") for text in texts()]
    told = subprocess.run(["go", "run", os.path.join(TOP, "kubernetes_rows.go")], input="\n".join(shown) + "\n", text=True, check=True,
                          stdout=subprocess.PIPE, env=dict(os.environ, GO111MODULE="off", GOPATH="/usr/share/gocode")).stdout.split("\n")
    with open(os.path.join(sys.argv[1], "schedules.tsv"), "w", encoding="utf-8", newline="\n") as out:
        print(HEAD, file=out)
        for text, answer in zip(shown, told):
            words = answer.split(" ")
            print(text, " ".join(words[:8]), " ".join(words[8:]) or "none", sep="\t", file=out)


if __name__ == "__main__":
    main()
