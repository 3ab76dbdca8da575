"""What the prover says of wrong bodies, many in one check: `try_edits` tells how."""
import copy
import glob
import os
import re
import shutil
import tempfile
import threading
from dataclasses import replace

import copies
import edits as given
from kit import rt

ONE_JOB = ["--jobs", "1"]
# More in one check spare starts, fewer let more checks go side by side.
MOST_COPIES, MOST_IN_PLACE = 40, 16
# How the folders in out/ begin that checks take copies of what is kept to.
ROOM = "edits-"
PAST_WHAT_IS_REFUSED = [*ONE_JOB, "--allow-holes"]
VERDICT = re.compile(r"^fn (\S+): (.*)", re.M)
# What the kit tells of an edit that it tried by itself and that is well.
IS_REFUSED = (rt.REFUSED, rt.AT_LIMIT)
REFUSED, PROVED, WAITS, UNCLEAR = "refused", "proved", "waits", "unclear"
JUDGED = {"not proved": REFUSED, "no proof: expected answers": REFUSED, "no holes": PROVED, "proved": PROVED}
# An error that only says that a proof names what an edit took away, and how the kit tells of an edit with no other.
LOST_NAME = re.compile(r"has no field|is not in scope|has no `|was not admitted")
ONLY_LOST_NAMES = "only because a proof file names what the edit took away"
# Why a refusal says little of the contract.
BY_A_LOST_NAME, BY_A_LIMIT = "only because a proof names what it takes away", "only by a limit of the prover"


def causes_of(said):
    """Returns the modules and functions that keep a function from being proved, as its line names them."""
    stands, _, calls = said.partition("it calls ")
    return re.findall(r"`([^`]+)`", stands.partition("it stands on ")[2] + calls)


def causes_below(causes, told):
    """Returns these and what keeps those of them that are functions from being proved, and so on."""
    found, todo = set(), [*causes]
    while todo:
        cause = todo.pop()
        if cause not in found:
            found.add(cause)
            todo += causes_of(told.get(cause, ""))
    return found


def is_of(name, cause):
    """Returns whether a cause is the function of this name, or a module of its proof."""
    crate, _, path = name.partition("::")
    return cause == name or cause.startswith(f"Rattle.{crate}.proofs.{path.replace('::', '.')}.")


def weakness_of(said, path):
    """Returns why the refusal of a function of this path, or of this end of its path, says little of its contract, where all
    that a check says of it is that what is written of its proof names what is gone: it has no other error there, and the lines
    between the function before it and its own tell of no goal without a proof."""
    folder, path = re.escape(path.replace("::", "/")), re.escape(path)
    errors = re.findall(rf"^(?:note: )?(?:\./)?proofs/(?:\S*/)?{folder}/\S+: (.*(?:\n  .*)*)", said, re.M)
    above = re.search(rf"((?:^(?!fn ).*\n)*)^fn (?:\S*::)?{path}: ", said, re.M)
    tells_of_a_goal = above and re.search(r"^note: src/", above[1], re.M)
    is_weak = bool(errors) and not tells_of_a_goal and all(LOST_NAME.search(it) for it in errors)
    return BY_A_LOST_NAME if is_weak else ""


def temporary():
    """Returns a folder for a while, under a name by which `rt` removes it where this process is killed."""
    return tempfile.TemporaryDirectory(prefix=f"rt-edits-{os.getpid()}-")


class Judge:
    """Judges edits of one proved crate by checks of it, each over the proof that is kept."""

    def __init__(self, crate):
        self.crate, self.functions, self.names = crate, given.functions_of(crate), {}
        self.begin, self.has_begun = threading.Lock(), False

    def remove_left(self):
        """Removes what runs that were killed left, once."""
        with self.begin:
            for left in [] if self.has_begun else glob.glob(f"{self.crate.folder}/out/{ROOM}*"):
                shutil.rmtree(left)
            self.has_begun = True

    def over_kept(self, call):
        """Calls with the folder of a copy of what is kept. The copy shares its files, which a check replaces and does
        not change."""
        self.remove_left()
        with tempfile.TemporaryDirectory(prefix=ROOM, dir=f"{self.crate.folder}/out") as room:
            kept = f"{self.crate.folder}/out/incremental"
            if os.path.isdir(kept):
                shutil.copytree(kept, f"{room}/kept", copy_function=os.link)
            else:
                os.mkdir(f"{room}/kept")
            return call(f"{room}/kept")

    def alone(self, edit):
        """Returns why an edit fails, tried by itself, or nothing where the prover refuses the crate with it."""
        kind, said = self.over_kept(lambda kept: rt.must_fail(self.crate, edit.file, ONE_JOB, kept))
        by_a_name = BY_A_LOST_NAME if ONLY_LOST_NAMES in said else ""
        edit.weakness = BY_A_LIMIT if kind == rt.AT_LIMIT else by_a_name
        return "" if kind in IS_REFUSED else said.partition(": ")[2]

    def as_copies(self, edits):
        """Returns what one check with a copy for each edit says of it, or None where it did not get to the proofs."""
        with temporary() as room:
            copies.place_copies(self.crate, edits, room)
            crate = copy.copy(self.crate)
            crate.folder = room
            said = self.over_kept(lambda kept: rt.checked(crate, {}, ONE_JOB, kept)).stdout
        paths = {it.function.path for it in edits}
        if not re.search(r"^logic=", said, re.M) or any(rt.unread(it, paths) for it in said.split("\n")):
            return None
        told = VERDICT.findall(said)
        for edit in edits:
            edit.weakness = weakness_of(said, copies.name_of(edit))
        twins = [replace(it.function, name=copies.name_of(it)) for it in edits]
        return [self.verdict_on_copy([it for it in told if twin.fits(self.crate, it[0])]) for twin in twins]

    def verdict_on_copy(self, told):
        """Returns what the one line of a copy says of it, of the names and verdicts that were told."""
        [(name, verdict)] = told if len(told) == 1 else [("", "")]
        if any(not is_of(name, it) for it in causes_of(verdict)):
            return UNCLEAR
        return next((judged for it, judged in JUDGED.items() if verdict.startswith(it)), UNCLEAR)

    def in_place(self, edits):
        """Returns what one check says of each edit, or None where it did not get to the proofs."""
        texts = {}
        for edit in edits:
            texts = given.applied(self.crate, edit, texts)[0]
        said = self.over_kept(lambda kept: rt.checked(self.crate, texts, PAST_WHAT_IS_REFUSED, kept)).stdout
        if not re.search(r"^holes=", said, re.M) or any(rt.unread(it, texts) for it in said.split("\n")):
            return None
        told = dict(VERDICT.findall(said))
        named = given.names_of(self.crate, self.functions, told)
        self.names.update({function: name for name, function in named.items()})
        for edit in edits:
            edit.weakness = weakness_of(said, self.names.get(edit.function, "").partition("::")[2])
        return [self.verdict(it, edits, told) for it in edits]

    def verdict(self, edit, edits, told):
        name = self.names.get(edit.function)
        said = told.get(name, "")
        of_others = causes_of(said)
        if said.startswith("not proved") and any(is_of(name, it) for it in of_others):
            return REFUSED
        if not of_others:
            return next((judged for it, judged in JUDGED.items() if said.startswith(it)), UNCLEAR)
        broken = {self.names.get(it.function) for it in edits} - {name, None}
        awaited = {it for it in broken if any(is_of(it, cause) for cause in causes_below(of_others, told))}
        edit.awaited |= awaited
        return WAITS if awaited else UNCLEAR

    def go_together(self, edit, other):
        waits = self.names.get(other.function) in edit.awaited or self.names.get(edit.function) in other.awaited
        return edit.function is not other.function and not waits

    def grouped_in_place(self, edits):
        """Puts edits into groups for one check each: of one function one, none with what keeps it waiting."""
        groups = []
        for edit in edits:
            for group, texts in groups:
                fits = len(group) < MOST_IN_PLACE and all(self.go_together(edit, it) for it in group)
                applied = given.applied(self.crate, edit, texts) if fits else None
                if applied:
                    group.append(edit)
                    texts.update(applied[0])
                    break
            else:
                groups.append(([edit], given.applied(self.crate, edit, {})[0]))
        return [(self.in_place, group) for group, _ in groups]

    def grouped(self, edits):
        """Puts edits into groups for one check each, each group with the way that it is tried in."""
        twice = [it for it in edits if copies.text_of(self.crate, it)]
        once = [it for it in edits if it.function and it not in twice]
        others = [self.by_itself(it) for it in edits if not it.function]
        return self.grouped_as_copies(twice) + self.grouped_in_place(once) + others

    def grouped_as_copies(self, edits):
        """Puts edits into groups for one check each, alike in size."""
        number = -(-len(edits) // MOST_COPIES)
        return [(self.as_copies, edits[first::number]) for first in range(number)]

    def by_itself(self, edit):
        return None, [edit]

    def halved(self, way, group):
        half = len(group) // 2
        return [(way, it) if len(it) > 1 else self.by_itself(it[0]) for it in (group[:half], group[half:])]

    def judged(self, way, group):
        """Tries a group. Returns the edits that fail, with why, those that wait, and further groups to be tried."""
        if not way or way == self.in_place and len(group) == 1:
            why = self.alone(group[0])
            return ([(group[0].file, why)] if why else []), [], []
        verdicts = way(group)
        if verdicts is None:
            return [], [], self.halved(way, group) if len(group) > 1 else [self.by_itself(group[0])]
        told = lambda *wanted: [it for it, verdict in zip(group, verdicts) if verdict in wanted]
        return [], told(WAITS), [self.by_itself(it) for it in told(PROVED, UNCLEAR)]

    def failures(self, way, group):
        """Tries a group, and then by itself or in further groups what is left open. Returns the edits that fail, with why."""
        failed, groups = [], [(way, group)]
        while groups:
            fails, waiting, further = self.judged(*groups.pop())
            failed += fails
            groups += self.grouped_in_place(waiting) + further
        return failed
