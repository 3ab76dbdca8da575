"""What `try_edits --self-test` shows, on one small crate: that a fault is told from what is none, and what a ledger vouches for."""
import os
import re
import shutil
import subprocess
import sys
from concurrent.futures import ThreadPoolExecutor

import copies
import edits as given
import ledger
from judge import Judge, temporary
from kit import build_as_ci, crates_of, prove, rt, top

# It has functions of both kinds, and no crate below it.
SMALL = "cron_bits"
# A library of one function, of which other crates see its contract alone.
LIBRARY = """//! A number.
#![tactic(auto)]
ghost use Rattle.std.specs.Prelude.{{◌≡◌}};

/// A number.
pub fn number() -> u32
    ensures {{ result ≡ {number} }}
{{
    {body}
}}
"""


def write(file, text):
    with open(file, "w", encoding="utf-8") as it:
        it.write(text)


def write_edit(file, path, old, new):
    write(file, f"file: {path}\nold: {old}\nnew: {new}\n")


def whole_edits(crate, judge):
    """Returns the crate's edits that change one function."""
    files = given.files_in(crate, "must-fail") + given.files_in(crate, "edits")
    return [it for it in (given.read(crate, judge.functions, file)[0] for file in files) if it and it.function]


def groups_in(room, crate, whole):
    """Writes edits that are none, no code and unfit into a folder, and returns groups of files for one check each, two of them
    with a fault."""
    groups = []
    for can_stand_twice, way in ((True, "copy"), (False, "in_place")):
        these = [it for it in whole if bool(copies.text_of(crate, it)) == can_stand_twice]
        harmless, fault = these[0], next(it for it in these if it.function is not these[0].function)
        path, old, _ = harmless.pairs[0]
        file = f"{room}/a-b-harmless_{way}.edit"
        write_edit(file, path, old, f"/* the same */ {old}")
        groups.append([file, fault.file])
    path, old, _ = fault.pairs[0]
    write_edit(f"{room}/a-b-no_code.edit", path, old, f"{old} )")
    write_edit(f"{room}/a-b-unfit.edit", path, f"{old} nowhere", old)
    return groups + [[f"{room}/a-b-no_code.edit", f"{room}/a-b-unfit.edit"]]


def judged_wrongly(crate):
    """Returns which of six edits are told as something else than what they are."""
    judge = Judge(crate)
    wanted = {"harmless_copy": "NOT REFUSED", "harmless_in_place": "NOT REFUSED", "no_code": "BAD EDIT", "unfit": "does not fit"}
    told = {}
    with temporary() as room:
        for files in groups_in(room, crate, whole_edits(crate, judge)):
            read = [(it, *given.read(crate, judge.functions, it)) for it in files]
            told |= {file: f"it does not fit: {why}" for file, edit, why in read if not edit}
            for way, group in judge.grouped([edit for _, edit, _ in read if edit]):
                told |= dict(judge.failures(way, group))
    told = {given.Edit(file, []).fault(): why for file, why in told.items()}
    return [it for it in wanted if wanted[it] not in told.pop(it, "")] + [*told]


class Repository:
    """A repository of the small crate alone, with two edits: `harmless`, for which a false line of the ledger vouches, and
    `fault`, which has no line."""

    def __init__(self, crate, room):
        self.root = os.path.realpath(room)
        shutil.copytree(f"{top()}/tools", f"{self.root}/tools", ignore=shutil.ignore_patterns("__pycache__"))
        shutil.copyfile(f"{top()}/HANDLES", f"{self.root}/HANDLES")
        write(f"{self.root}/crates.txt", f"{crate.name}:\n")
        for part in rt.rtlib.PARTS:
            shutil.copytree(f"{crate.folder}/{part}", f"{self.root}/crates/{crate.name}/{part}")
        self.edits = f"{self.root}/crates/{crate.name}/edits"
        os.mkdir(self.edits)
        [self.crate] = crates_of(self.root)
        whole = whole_edits(crate, Judge(crate))
        path, old, new = next(it for it in whole if copies.text_of(crate, it)).pairs[0]
        # new to this machine, whatever was tried here before
        write_edit(f"{self.edits}/a-b-fault.edit", path, old, f"/* {os.urandom(8).hex()} */ {new}")
        write_edit(f"{self.edits}/a-b-harmless.edit", path, old, f"/* the same */ {old}")
        self.files = given.files_in(self.crate, "edits")
        self.ledger().write({"a-b-harmless": (self.ledger().sum(f"{self.edits}/a-b-harmless.edit"), "")})

    def ledger(self):
        return ledger.Ledger(self.crate, rt.handles_of(self.root))

    def vouched(self):
        return [ledger.name_of(it) for it in self.ledger().vouched(self.files)]

    def tried(self, *words):
        """Returns the last lines of a run of try_edits here, and which edits it says fail."""
        ran = subprocess.run([f"{self.root}/tools/try_edits", *words], capture_output=True, text=True)
        return ran.stdout.splitlines()[-2:], re.findall(r"^  (\S+)\.edit: .*NOT REFUSED", ran.stdout, re.M)


def lines_that_fail(it):
    """Returns what is told of a ledger with a line that can't be read, one that stands twice, and one that names no edit."""
    written = rt.rtlib.text_of(it.ledger().file)
    try:
        write(it.ledger().file, f"{written}what is this\n{written}a-b-gone {'0' * 32}\n")
        return it.ledger().faults(it.files, strays=True)
    finally:
        write(it.ledger().file, written)


def lines_of_two_runs(it):
    """Returns how many lines the ledger has once two runs wrote 40 each at once, beside those that it has now."""
    before = len(it.ledger().lines()[0])

    def run(number):
        for line in range(40):
            it.ledger().write({f"a-b-{number}_{line}": ("0" * 32, "")})

    with ThreadPoolExecutor(2) as pool:
        [*pool.map(run, (1, 2))]
    return len(it.ledger().lines()[0]) - before


def sum_handed(number, body):
    """Returns a sum of what is handed on of a library whose function has this contract and this body."""
    with temporary() as room:
        os.makedirs(f"{room}/crates/number/src")
        write(f"{room}/crates.txt", "number:\n")
        write(f"{room}/crates/number/src/lib.rt", LIBRARY.format(number=number, body=body))
        [crate] = crates_of(os.path.realpath(room))
        return ledger.sum_handed(crate.rlib) if build_as_ci([crate]) else None


def ledger_faults(crate):
    """Returns which of the ledger's promises don't hold."""
    with temporary() as room:
        it = Repository(crate, room)
        written = rt.rtlib.text_of(it.ledger().file)
        gate = (["2 edits were tried now, 0 stand by the ledger", "1 passed, 1 failed"], ["a-b-harmless"])
        held = {
            "a false line fails, and an edit without a line is tried": it.vouched() == ["a-b-harmless"] and it.tried("--gate") == gate,
            "the gate writes nothing": rt.rtlib.text_of(it.ledger().file) == written,
        }
        it.tried()
        held["a refused edit gets a line"] = "a-b-fault" in it.vouched()
        it.tried("--all")
        held["an edit that fails has none"] = it.vouched() == ["a-b-fault"]
        told = " ".join(lines_that_fail(it))
        held["lines that are none fail by name"] = all(word in told for word in ("what is this", "a-b-fault stands twice", "a-b-gone names no edit"))
        held["two runs at once lose no line"] = lines_of_two_runs(it) == 80
        root = f"{it.crate.folder}/src/lib.rt"
        written = rt.rtlib.text_of(root)
        write(root, f"{written}// a comment\n")
        held["a change of a comment keeps the crate's lines"] = it.vouched() == ["a-b-fault"]
        write(root, f'{written}const PART: &str = "\n// a line\n";\n')
        in_string = ledger.code_of(root)
        held["a line of a string is no comment"] = "// a line" in in_string
        write(root, f"{written}const PART: u8 = 1;\n")
        held["a change of the crate makes its lines stale"] = it.vouched() == []
        four = sum_handed(4, "4")
        held["a change of a body keeps the lines above"] = four is not None and sum_handed(4, "2 + 2") == four
        held["a change of a contract makes the lines above stale"] = sum_handed(5, "5") not in (four, None)
        sizes = {number: [f"{number}"] * number for number in range(1, 8)}
        named = {type("Named", (), {"name": str(number)})(): files for number, files in sizes.items()}
        turns = [ledger.sample(named, number) for number in range(4)]
        held["every crate comes up"] = {it.name for chosen in turns for it in chosen} == {str(it) for it in sizes}
        return [promise for promise, holds in held.items() if not holds], len(held)


def main():
    """Returns how many of the checks passed and how many failed, and a line that tells which."""
    [crate] = crates_of(top(), [SMALL])
    if not prove([crate])[0]:
        return 0, 1, f"self test: {SMALL} is not proved"
    wrong = judged_wrongly(crate)
    broken, number = ledger_faults(crate)
    told = [f"told wrongly: {', '.join(wrong)}"] * bool(wrong) + [f"does not hold: {it}" for it in broken]
    failed = len(wrong) + len(broken)
    return 6 + number - failed, failed, f"self test: {'; '.join(told) or 'faults were told from what is none, and a false line of a ledger failed'}"
