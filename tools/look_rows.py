"""Rows as a terminal shows them: `next` and `list` with `--color always`, whose weekdays and waits Python counts.

A wait is counted from the present, so a row is right if its wait is that of an instant between the start of the run and the moment
when its row is looked at."""
import datetime
import time

from cases import Call, Check

BEGAN = int(time.time())
UTC = datetime.timezone.utc
BOLD, DIM, OFF = "\x1b[1m", "\x1b[2m", "\x1b[0m"
UNITS = ((86400, "d"), (3600, "h"), (60, "m"), (1, "s"))
# The civil times after which `0 0 9 * * *` is asked for, and how many fires are.
STARTS = [datetime.datetime(1980, 2, 27), datetime.datetime(2024, 2, 27), datetime.datetime(2100, 12, 20)]
MOST = 9


def span(seconds):
    at = next(it for it, (size, _) in enumerate(UNITS) if seconds >= size)
    (size, unit), (less, rest) = UNITS[at], UNITS[min(at + 1, 3)]
    told = seconds % size // less if at < 3 else 0
    return f"{seconds // size}{unit}" + (f" {told}{rest}" if told else "")


def wait(seconds):
    if seconds == 0:
        return "now"
    return f"in {span(seconds)}" if seconds > 0 else f"{span(-seconds)} ago"


def row_of(fire, now, wide):
    told = wait(int(fire.timestamp()) - now)
    return f"{fire:%a} {BOLD}{fire:%Y-%m-%d %H:%M:%S +00:00}{OFF}  {DIM}{told:11}{OFF}" if wide else (
        f"{fire:%a} {BOLD}{fire:%Y-%m-%d %H:%M:%S +00:00}{OFF}  {DIM}{told}{OFF}")


def faults_of_rows(fires, wide, rest):
    def faults(told):
        now = int(time.time())
        rows = told.out.decode().split("\n")[:-1]
        wanted = [{row_of(it, at, wide) + rest for at in range(BEGAN, now + 1)} for it in fires]
        if len(rows) != len(wanted):
            return [f"{len(rows)} rows and not {len(wanted)}"]
        return [f"{row!r} is not {min(of)!r}" for row, of in zip(rows, wanted) if row not in of]

    return faults


def checks():
    for start in STARTS:
        fires = [(start + datetime.timedelta(days=it)).replace(hour=9, tzinfo=UTC) for it in range(MOST)]
        after = ["--after", f"{start:%Y-%m-%d}", "--zone", "UTC", "--color", "always", "--count", str(MOST)]
        yield Check(f"rows of next after {start}", [Call(["next", "0 0 9 * * *", *after])], faults_of_rows(fires, False, ""))
        tab = {"looked_at": b"0 9 * * * wake up\n"}
        yield Check(f"rows of list after {start}", [Call(["list", "looked_at", *after], files=tab)], faults_of_rows(fires, True, "\t1\twake up"))
