r"""Cases of programs: what a program is run on, what it must print, and how a built program is run on them.

crates/NAME/cases/ has the cases of the program NAME that need arguments, files and standard input alone. A file X.cases:

    # A comment.
    file jobs:                          a file that lies where the program runs. One name is one file for all cases of a program,
      0 3 * * * backup                  and what is in the crate's data/ lies there too
      61 * * * * wrong

    a refused line                      what is tried
    input:                              standard input, where there is some
      */7 * * * * a
    $ crontool check jobs -             the words, as a shell reads them
      2> error: ..                      a line of standard error
      jobs:2: minute: ..                a line of standard output
      ...                               any lines, or none
      status 1

Indented lines have escapes, and so have words within '..': `\\`, `\t`, `\r`, `\xff`, and `\{0*1000}` for `0` a thousand times.
`\c` at the end of the last line leaves out its line feed.

A table X.tsv has a case in each row: the words, `=`, and the lines of standard output, with tabs between them. `status N` may
come last. The modules in COUNTED make further cases, and count what is wanted."""
import functools
import importlib
import os
import re
import shlex
import subprocess
import sys
import tempfile
from concurrent.futures import ThreadPoolExecutor
from dataclasses import dataclass, field, replace

from kit import rt

COUNTED = {"crontool": ["page_counts", "ics_events", "collision_rows", "tab_rows", "stamp_rows", "missed_rows", "look_rows",
                        "plan_rows", "window_cases", "rota_rows"]}
INDENT, ON_ERROR, ANY, NO_LINE_FEED = b"  ", b"2> ", b"...", rb"\c"
ESCAPE = re.compile(rb"\\(?:x(?P<byte>[0-9a-f]{2})|\{(?P<again>[^}]+)\*(?P<count>\d+)\}|(?P<letter>.))")
LETTERS = {b"\\": b"\\", b"t": b"\t", b"r": b"\r"}
STATUS = re.compile(rb"status (\d+)")
OUT, ERROR, MERGED = "standard output", "standard error", "both"
SECONDS = 10
# So much of a text is shown where a case fails.
SHOWN = 500


@dataclass
class Call:
    """What a program is run on: words, standard input, and files by their names."""

    words: list
    stdin: bytes = b""
    files: dict = field(default_factory=dict)


@dataclass
class Told:
    """What a call printed, by streams, and its status, or why it has none."""

    streams: dict
    status: object

    @property
    def out(self):
        return self.streams[OUT]

    @property
    def err(self):
        return self.streams[ERROR]


@dataclass
class Check:
    """A case: what is tried, the calls, and a function that gives the faults of what these told."""

    what: str
    calls: list
    faults: object


@dataclass
class Cases:
    """The cases of a program, and the files that lie where it runs."""

    checks: list
    files: dict

    def add_files(self, files):
        for name, content in files.items():
            if self.files.setdefault(name, content) != content:
                sys.exit(f"two files of cases are named {name}")

    def calls(self):
        return [it for check in self.checks for it in check.calls]


def shown(lines):
    text = repr(b"\n".join(lines))[1:] if lines else "nothing"
    return text if len(text) <= SHOWN else f"{text[:SHOWN]}.."


def difference(stream, wanted, printed):
    """Tells the first line that isn't the wanted one, or all where any lines are wanted."""
    if ANY in wanted:
        return f"{stream} is {shown(printed)} and not {shown(wanted)}"
    same = (left == right for left, right in zip(wanted, printed))
    at = next((at for at, it in enumerate(same) if not it), min(len(wanted), len(printed)))
    return f"line {at + 1} of {stream} is {shown(printed[at : at + 1])} and not {shown(wanted[at : at + 1])}"


class Wanted:
    """What a call must print, as pairs of a stream and a line, and its status, or None where that isn't known."""

    def __init__(self, lines, status):
        self.lines, self.status = lines, status

    def __call__(self, told):
        for stream, text in told.streams.items():
            lines = [it for of, it in self.lines if stream in (of, MERGED)]
            parts = [rb"(?:.*\n)*" if it == ANY else re.escape(it) + rb"\n" for it in lines]
            if not re.fullmatch(b"".join(parts), text):
                yield difference(stream, [*lines, b""], text.split(b"\n"))
        if self.status not in (None, told.status):
            yield f"status {told.status} and not {self.status}: {shown(told.err.splitlines())}"


def meant(text):
    """Returns the bytes that a text with escapes means."""

    def bytes_of(found):
        if found["byte"]:
            return bytes.fromhex(found["byte"].decode())
        return found["again"] * int(found["count"]) if found["again"] else LETTERS[found["letter"]]

    return ESCAPE.sub(bytes_of, text)


def content_of(lines):
    """Returns the bytes of a file or of an input that is written as these lines."""
    text = b"".join(it + b"\n" for it in lines)
    return meant(text[: -len(NO_LINE_FEED) - 1] if text.endswith(NO_LINE_FEED + b"\n") else text)


def wanted_of(lines):
    """Returns what a call must print that is written as these lines."""
    *lines, last = lines or [b""]
    pairs = []
    for line in lines:
        streams = [ERROR] if line.startswith(ON_ERROR) else [OUT, ERROR] if line == ANY else [OUT]
        line = line[len(ON_ERROR) :] if line.startswith(ON_ERROR) else line
        pairs += [(it, line if line == ANY else meant(line)) for it in streams]
    return Wanted(pairs, int(STATUS.fullmatch(last)[1]))


def parts_of(text):
    """Returns the lines that aren't indented, each with its number and the indented lines below it."""
    found, blank = [], 0
    for number, line in enumerate(text.split(b"\n"), 1):
        if line.startswith(INDENT):
            found[-1][2].extend([b""] * blank + [line[len(INDENT) :]])
            blank = 0
        elif not line:
            blank += 1
        elif not line.startswith(b"#"):
            found.append((number, line.decode(), []))
            blank = 0
    return found


def read_cases(path, cases):
    """Adds the cases of a file X.cases."""
    with open(path, "rb") as it:
        parts = parts_of(it.read())
    what, stdin = "", b""
    for number, head, lines in parts:
        try:
            if head.startswith("$ "):
                words = [meant(it.encode()).decode() for it in shlex.split(head)[2:]]
                cases.checks.append(Check(f"{os.path.basename(path)}:{number}: {what}", [Call(words, stdin)], wanted_of(lines)))
                stdin = b""
            elif head == "input:":
                stdin = content_of(lines)
            elif head.startswith("file ") and head.endswith(":"):
                cases.add_files({head[len("file ") : -1]: content_of(lines)})
            else:
                what = head
        except (KeyError, TypeError, ValueError):
            sys.exit(f"{path}:{number}: no case can be read here")


def read_table(path, cases):
    """Adds the cases of a table X.tsv."""
    with open(path, "rb") as it:
        rows = it.read().splitlines()
    for number, row in enumerate(rows, 1):
        words, _, lines = row.partition(b"\t=\t")
        printed = lines.split(b"\t") if lines else []
        status = STATUS.fullmatch(printed[-1]) if printed else None
        wanted = Wanted([(OUT, it) for it in printed[: -1 if status else None]], int(status[1]) if status else None)
        cases.checks.append(Check(f"{os.path.basename(path)}:{number}", [Call(words.decode().split("\t"))], wanted))


READERS = {".cases": read_cases, ".tsv": read_table}


def files_below(folder):
    """Returns the files below a folder, by their paths there."""
    found = {}
    for at, _, names in os.walk(folder):
        for name in names:
            path = os.path.join(at, name)
            with open(path, "rb") as it:
                found[os.path.relpath(path, folder)] = it.read()
    return found


def cases_of(crate):
    """Returns the cases of a program."""
    cases = Cases([], files_below(f"{crate.folder}/data"))
    folder = f"{crate.folder}/cases"
    for name in sorted(os.listdir(folder)) if os.path.isdir(folder) else ():
        READERS[os.path.splitext(name)[1]](f"{folder}/{name}", cases)
    for module in COUNTED.get(crate.name, ()):
        made = importlib.import_module(module).checks()
        cases.checks += [replace(it, what=f"{module}: {it.what}") for it in made]
    for call in cases.calls():
        cases.add_files(call.files)
    return cases


def write_files(folder, files):
    for name, content in files.items():
        os.makedirs(os.path.dirname(f"{folder}/{name}"), exist_ok=True)
        with open(f"{folder}/{name}", "wb") as it:
            it.write(content)


def told_by(program, room, seconds, call):
    """Runs a built program in a folder. Where both streams have lines it is run once more, with both in one."""
    how = {"cwd": room, "input": call.stdin, "timeout": seconds}
    try:
        ran = subprocess.run([program, *call.words], capture_output=True, **how)
        streams = {OUT: ran.stdout, ERROR: ran.stderr}
        if ran.stdout and ran.stderr:
            merged = subprocess.run([program, *call.words], stdout=subprocess.PIPE, stderr=subprocess.STDOUT, **how)
            streams[MERGED] = merged.stdout
        return Told(streams, ran.returncode)
    except subprocess.TimeoutExpired:
        return Told({OUT: b"", ERROR: b""}, f"none after {seconds} seconds")


def run_over(program, cases, seconds=SECONDS):
    """Runs a built program on all calls of its cases, each for so long at most, as many at once as there are processors."""
    with tempfile.TemporaryDirectory() as room, ThreadPoolExecutor(rt.processors()) as pool:
        write_files(room, cases.files)
        return [*pool.map(functools.partial(told_by, program, room, seconds), cases.calls())]


def faults_of(cases, told):
    """Gives what each case tries, and its faults, by what its calls told, in their order."""
    told = iter(told)
    for check in cases.checks:
        try:
            faults = [*check.faults(*[next(told) for _ in check.calls])]
        except Exception as error:
            # what is printed may be nothing that can be counted in
            faults = [f"what it printed can't be read: {error!r}"]
        yield check.what, faults
