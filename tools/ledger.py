"""The ledgers of refused edits: crates/NAME/edits/ledger.txt has a line for each edit of edits/ that the prover refused.

A line is the edit's name, a sum, and, where the refusal says little of the contract, why. The sum is of all that the refusal
rests on: the edit, the scripts that judge it, the kit, HANDLES, the crate's src/, specs/, proofs/ and line of crates.txt, and
what `rt` hands to it of the crates below. That is known once these are built. So a line with the right sum vouches for its edit
on every machine, and another one is stale. Lines of those files that hold a comment alone don't count."""
import contextlib
import fcntl
import functools
import hashlib
import json
import os
import re
import subprocess
import tempfile

from kit import rt

LINE = re.compile(r"([A-Za-z0-9_.-]+) ([0-9a-f]{32})(?: (\S.*))?")
# What judges an edit, beside the kit.
SCRIPTS = ("copies.py", "edits.py", "judge.py", "kit.py")
OF_KIT = ("KIT-ID", "bin/rt", "bin/rtlib.py")
# Lines that hold a comment alone, by how a file's name ends.
COMMENTS = {".rt": re.compile(r"^[ \t]*//.*\n", re.M), ".antt": re.compile(r"^[ \t]*--.*\n", re.M)}
# Where a raw string or a block comment begins, which may go on over many lines.
SPANS = re.compile(r'\br#*"|/\*')
# What has a quote that neither begins nor ends a string.
QUOTES = re.compile(r"\\.|'\"'")
# How the names of the modules begin that crates above can see, in the list of what a library hands on.
SEEN = "facade/"
# Of a function such modules say that its body meets its contract, and change with the body.
OF_BODIES = ("Met", "Statement")


def sum_of(*told):
    return hashlib.sha256(repr(told).encode()).hexdigest()


@functools.cache
def sum_of_judges():
    """Returns a sum of the kit, by its name and its scripts, and of the scripts of this folder that judge edits."""
    here = os.path.dirname(os.path.realpath(__file__))
    files = [f"{rt.KIT}/{it}" for it in OF_KIT] + [f"{here}/{it}" for it in SCRIPTS]
    return sum_of([rt.rtlib.sum_of(it) for it in files])


def code_of(path):
    """Returns the text of a file without the lines that hold a comment alone, or the whole text where such a line may be part
    of a string."""
    whole = rt.rtlib.text_of(path)
    comment = COMMENTS.get(os.path.splitext(path)[1])
    if not comment or SPANS.search(whole):
        return whole
    code = comment.sub("", whole)
    goes_on = any(QUOTES.sub("", line).count('"') % 2 for line in code.split("\n"))
    return whole if goes_on else code


def sum_of_crate(crate):
    """Returns a sum of a crate's own files and of its line of crates.txt."""
    files = [(os.path.relpath(it, crate.folder), sum_of(code_of(it))) for it in rt.rtlib.files_of(crate.folder)]
    return sum_of(crate.name, sorted(crate.said.items()), [it.name for it in crate.deps], [*crate.of_kit], files)


def lines_of(file):
    with open(file, encoding="utf-8") as it:
        return [json.loads(line) for line in it]


def modules_seen(library):
    """Returns the names of the modules that crates above can see of the library that is built in this folder, but for those that
    speak of bodies, each with what it shows, and of which module."""
    told = lines_of(f"{library}/lang/antt/made.json")
    shown = {name: how["StandsFor"] for name, how in zip(told, told[1:]) if str(name).startswith(SEEN) and "StandsFor" in how}
    return {name: how for name, how in sorted(shown.items()) if name.rpartition("/")[2] not in OF_BODIES}


@functools.cache
def sum_handed(library):
    """Returns a sum of what `rt ci` hands to crates above of the library that is built in this folder: its items, and the
    statements of its contracts, specs and proofs, each as it was checked. No body, comment or proof is among it."""
    places = {name: slice(at, at + size) for name, at, size in lines_of(f"{library}/toolchain/checked.json")}
    with open(f"{library}/toolchain/checked.a", "rb") as it:
        checked = it.read()
    seen = modules_seen(library)
    # (a module that shows none of its own names may list what is private)
    statements = [checked[places.get(f"part/{it['source']}", slice(0))] for it in seen.values() if it["names"]]
    items = [f"{at}/{it}" for at, _, names in os.walk(f"{library}/interface") for it in names]
    return sum_of(seen, statements, sorted((os.path.relpath(it, library), rt.rtlib.sum_of(it)) for it in items))


def path_of(crate):
    return f"{crate.folder}/edits/ledger.txt"


def name_of(file):
    return os.path.basename(file).removesuffix(".edit")


class Ledger:
    """The ledger of one crate, and the sum of all that its edits rest on beside themselves. The libraries below are built."""

    def __init__(self, crate, handles):
        self.crate, self.file = crate, path_of(crate)
        handed = [(it.name, sum_handed(it.rlib)) for it in crate.below()]
        self.rest = sum_of(sum_of_judges(), handles, sum_of_crate(crate), handed)

    def sum(self, file):
        """Returns the sum that the line of the edit in this file must have."""
        return sum_of(self.rest, name_of(file), rt.rtlib.sum_of(file))[:32]

    def lines(self):
        """Returns the lines by the names of their edits, each as its sum and why the refusal is weak, and those that can't be
        read or stand twice."""
        told, bad = {}, []
        for line in (rt.rtlib.text_of(self.file) or "").splitlines():
            found = LINE.fullmatch(line)
            if not found:
                bad.append(f"a line can't be read: {line[:80]}")
            elif found[1] in told:
                bad.append(f"{found[1]} stands twice")
            else:
                told[found[1]] = (found[2], found[3] or "")
        return told, bad

    def faults(self, files, strays):
        """Returns what is wrong with the ledger's lines, where the crate's edits are in these files; with strays also which
        lines name no edit."""
        told, bad = self.lines()
        known = {name_of(it) for it in files}
        return [f"{self.crate.name}: ledger: {it}" for it in bad + [f"{it} names no edit" for it in told if strays and it not in known]]

    def vouched(self, files):
        """Returns the files of these edits for which a line vouches, with why their refusals are weak."""
        told = self.lines()[0]
        found = {it: told.get(name_of(it), ("", "")) for it in files}
        return {it: weakness for it, (sum, weakness) in found.items() if sum == self.sum(it)}

    @contextlib.contextmanager
    def held(self):
        """Holds the folder of edits, so that of two runs each sees what the other wrote."""
        folder = os.open(os.path.dirname(self.file), os.O_RDONLY)
        try:
            fcntl.flock(folder, fcntl.LOCK_EX)
            yield
        finally:
            os.close(folder)

    def write(self, refused=None, failed=(), kept=None):
        """Writes lines for refused edits, given as sums and weaknesses by their names, and removes those of edits that failed
        and, where the names to be kept are given, of all others."""
        with self.held():
            told = {**self.lines()[0], **(refused or {})}
            names = sorted(it for it in told if it not in failed and (kept is None or it in kept))
            text = "".join(" ".join([it, *filter(None, told[it])]) + "\n" for it in names)
            if text == (rt.rtlib.text_of(self.file) or ""):
                return
            with tempfile.NamedTemporaryFile("w", dir=os.path.dirname(self.file), delete=False, encoding="utf-8") as it:
                it.write(text)
            os.chmod(it.name, 0o644)
            os.replace(it.name, self.file)


def turn(root):
    """Returns the number by which this commit chooses its sample: how many commits lead to it. A shallow clone doesn't know
    that, and takes a number from the commit's name."""
    git = lambda *words: subprocess.run(["git", "-C", root, *words], capture_output=True, text=True).stdout.strip()
    if git("rev-parse", "--is-shallow-repository") == "false":
        return int(git("rev-list", "--count", "HEAD") or 0)
    return int(git("rev-parse", "HEAD") or "0", 16)


def sample(files, number):
    """Returns two of the crates whose edits are in these files, in turn by a number: one of those with many edits, and one of
    those with few."""
    crates = sorted((it for it in files if files[it]), key=lambda it: (-len(files[it]), it.name))
    pairs = -(-len(crates) // 2)
    at = number % pairs if pairs else 0
    return {*crates[at : at + 1], *crates[::-1][at : at + 1]}
