"""What the scripts of this folder call of the kit: its program `rt` as a module, and proofs of chosen crates."""
import contextlib
import functools
import hashlib
import importlib.machinery
import importlib.util
import json
import os
import shutil
import subprocess
import sys
import tempfile


def loaded():
    """Loads the program `rt`, whose parts the gate is made of."""
    program = shutil.which("rt") or sys.exit("no program rt is on the PATH: it is the kit's, which proves the crates")
    loader = importlib.machinery.SourceFileLoader("rt_program", os.path.realpath(program))
    made = importlib.util.module_from_spec(importlib.util.spec_from_loader("rt_program", loader))
    loader.exec_module(made)
    # its first call sets a signal's handler, which only the main thread may
    made.rtlib.guarded()
    return made


rt = loaded()
# Over statements a check was seen to take at most so much of the memory that is planned for it.
OVER = 0.55


def top():
    """Returns the folder of the repository."""
    return os.path.dirname(os.path.dirname(os.path.realpath(__file__)))


def crates_of(root, names=()):
    """Returns all crates of the repository, lowest first, or those of these names."""
    known = sorted(rt.rtlib.crates_below(root), key=lambda it: len(it.below()))
    unknown = {*names} - {it.name for it in known}
    if unknown:
        sys.exit(f"crates.txt lists no {', '.join(sorted(unknown))}")
    return [it for it in known if not names or it.name in names]


def with_libraries(crates):
    """Returns these crates and the libraries of the repository below them, each after those that it uses."""
    found = []
    for crate in crates:
        found += [it for it in [*crate.below(), crate] if it not in found]
    return found


def link_from_ci(kept, crate, room):
    """Links the library that `rt ci` keeps as built of these files to a folder of that room, and notes its sum, which is part
    of the names of those above. Returns whether it is kept, and is whole."""
    entry = kept.place(crate, False, kept.key(crate))
    try:
        with open(f"{entry}/made.json", encoding="utf-8") as it:
            files = [(path, sum) for path, sum in json.load(it)["files"]]
        for number, (path, sum) in enumerate(files):
            to = f"{room}/{crate.name}/{path}"
            os.makedirs(os.path.dirname(to), exist_ok=True)
            rt.link_or_copy(f"{entry}/{number}", to)
            if rt.rtlib.sum_of(to) != sum:
                return False
    except (OSError, ValueError, KeyError, TypeError):
        return False
    kept.rlibs[crate.name] = hashlib.sha256(repr(files).encode()).hexdigest()
    return True


@contextlib.contextmanager
def libraries_of_ci(crates):
    """While this lasts, checks of these crates read the libraries below them as `rt ci` built them of these files, if it keeps
    all of these on this machine. Gives whether it does."""
    libraries = with_libraries([it for crate in crates for it in crate.below()])
    rt.Crate.allowed = rt.handles_of(top())
    kept, own = rt.Kept(libraries), [it.rlib for it in libraries]
    with tempfile.TemporaryDirectory(prefix=f"rt-copy-{os.getpid()}-") as room:
        are_kept = kept.at is not None and all(link_from_ci(kept, it, room) for it in libraries)
        for crate in libraries if are_kept else ():
            crate.rlib = f"{room}/{crate.name}/rlib/{crate.name}.rlib"
        try:
            yield are_kept
        finally:
            for crate, rlib in zip(libraries, own):
                crate.rlib = rlib


def proved(crate, jobs, builds, anew):
    """Proves a crate over what is kept in its out/, where the proof is kept too, or anew, and builds it if it is to and is a
    library. Returns what failed."""
    os.makedirs(f"{crate.folder}/out", exist_ok=True)
    with tempfile.TemporaryFile("w+", errors="replace") as crate.out:
        if builds and crate.makes_rlib():
            status = crate.build_rlib(["--jobs", str(jobs)], anew)
        else:
            status = crate.check(["--jobs", str(jobs)])
        crate.out.seek(0)
        return f"{crate.out.read()}status {status}: " if status else ""


def proofs_of(crates, builds, anew):
    """Returns the tasks that prove these crates, each after those below it if it is to build them. They give whether it is
    proved, and print what the prover said where it is not."""

    def work(crate, waits, given, jobs):
        if not all(given[it] for it in waits):
            return False
        said = proved(crate, jobs, builds, anew)
        if said:
            print(f"{said}{crate.name} is not proved", flush=True)
        return not said

    tasks = {}
    for crate in crates:
        waits = [(it.name, "proof") for it in crate.below()] if builds else []
        call = lambda given, jobs, it=crate, waits=waits: work(it, waits, given, jobs)
        needs = rt.need(crate) * (1 if builds else OVER)
        tasks[crate.name, "proof"] = (waits, crate.count(rb"\n"), needs, call)
    return tasks


@functools.cache
def share_work():
    rt.share_work(True)


# The folders of the crates that this process holds.
HELD = set()


def hold(crates):
    """Has checks begin with what this checkout or another one on this machine kept, as the kit's own commands do, and has
    those that lock these crates wait until this process ends."""
    share_work()
    # a folder that is locked once more would wait for itself
    rt.rtlib.lock([it for it in crates if it.folder not in HELD])
    HELD.update(it.folder for it in crates)


def side_by_side(crates, builds, others=(), anew=False):
    """Does the tasks that prove these crates, and others, and returns whether all are proved, and what each other task gave."""
    given = rt.in_lanes({**proofs_of(crates, builds, anew), **dict(others)})
    return all(given[it.name, "proof"] for it in crates), {it: given[it] for it in dict(others)}


def build(crates, others=()):
    """Proves crates and the libraries below them, and builds those of them that are libraries, those that don't wait for one
    another side by side. Other tasks, as those of rt.in_lanes, fill the processors that are idle. Returns whether all crates
    are proved, and what each other task gave."""
    whole = with_libraries(crates)
    hold(whole)
    return side_by_side(whole, True, others)


def build_as_ci(libraries):
    """Proves libraries anew and builds them over statements, as `rt ci` does. Returns whether all are proved."""
    hold(libraries)
    rt.rtlib.Crate.cuts_libraries = True
    try:
        return side_by_side(libraries, True, anew=True)[0]
    finally:
        rt.rtlib.Crate.cuts_libraries = False


@contextlib.contextmanager
def libraries_below(crates):
    """While this lasts, the libraries below these crates stand as `rt ci` builds them of these files: it keeps them on this
    machine, or they are built. Gives whether all are proved."""
    with libraries_of_ci(crates) as are_kept:
        yield are_kept or build_as_ci(with_libraries([it for crate in crates for it in crate.below()]))


def prove(crates, others=()):
    """Proves crates, all side by side, over the libraries below them, which stand. What else is done and returned is as in
    `build`."""
    hold(crates)
    return side_by_side(crates, False, others)
