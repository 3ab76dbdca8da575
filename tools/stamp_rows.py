"""Rows of `crontool due` over stamps: pending fires that a scan in Python's zoneinfo counted, and stamps that are cut short.

A row of crates/crontool/data/pending.tsv has the fire that the stamp notes, the words of `due`, `=` and the lines that are wanted."""
import re

from cases import ERROR, OUT, Call, Check, Wanted
from kit import top

ROWS = "crates/crontool/data/pending.tsv"
NOTED = "2022-11-06 01:30:00 -06:00"
REST = ["0 30 1 6 11 * 2022", "--zone", "America/Chicago"]


def stamp_of(fire):
    return f"crontool stamp 1: {fire};\n".encode()


def check_of_row(number, row):
    given, _, lines = row.partition("\t=")
    fire, *words = given.split("\t")
    name = f"noted_{re.sub('[^0-9]', '_', fire)}.stamp"
    wanted = [(OUT, it.encode()) for it in lines.split("\t")[1:]]
    return Check(f"pending.tsv:{number}", [Call(["due", name, *words], files={name: stamp_of(fire)})], Wanted(wanted, None))


def check_of_cut(size):
    name = f"cut_{size}.stamp"
    refused = f"error: {name} is no stamp, or one that is cut short, and is kept".encode()
    return Check(f"a stamp of {size} bytes", [Call(["due", name, *REST], files={name: stamp_of(NOTED)[:size]})], Wanted([(ERROR, refused)], 4))


def checks():
    with open(f"{top()}/{ROWS}", encoding="utf-8") as it:
        rows = it.read().splitlines()
    yield from (check_of_row(number, row) for number, row in enumerate(rows, 1))
    yield from (check_of_cut(size) for size in range(len(stamp_of(NOTED))))
