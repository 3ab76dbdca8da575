"""Edits, which are wrong bodies of functions, and the functions of a crate by the names that a check gives them."""
import glob
import os
import re
from dataclasses import dataclass, field

from kit import rt

FUNCTION = re.compile(r'^( *)(?:pub(?:\([a-z]+\))? )?(?:(?:const|final|unsafe|extern "C") )*fn (\w+)')
HEAD = re.compile(r"^(?:pub(?:\([a-z]+\))? )?(?:impl|trait)\b")
AROUND = re.compile(r"(?:impl|trait) (?:(?P<trait>[\w:]+) for )?(?:&(?:'\w+ )?(?:mut )?)?(?P<type>[\w:]+)")
# A line above a function that belongs to it: an attribute or a comment, and none of the file's own.
ABOVE = re.compile(r"^ *(?:#\[|//(?!!))")


@dataclass(eq=False)
class Function:
    """A function of a source file: the first line of what belongs to it, that of its head, and its last line. The owner
    is the type and trait around it, as in OrdinalsClone."""

    path: str
    owner: str
    is_of_trait: bool
    name: str
    top: int
    first: int
    last: int

    def module(self):
        """Returns the path of the function's module below its crate, with slashes, empty for the root."""
        return re.sub(r"(?:/?mod|/?lib|/?main)?\.rt$", "", self.path[len("src/") :])

    def fits(self, crate, told):
        """Returns whether a check may give the function this name. A method stands under the module of its type, which
        may be another file's, and what its trait is given may stand after the owner."""
        path, _, name = told.rpartition("::")
        if not self.owner:
            return (path, name) == ("::".join([crate.name, *self.module().split("/")]).rstrip(":"), self.name)
        owner = path.rpartition("::")[2].partition("+")[0]
        return name == self.name and owner.lower().startswith(self.owner.lower())


@dataclass(eq=False)
class Edit:
    """A wrong body: its pairs (path, old, new), and the one function that they change, if there is one."""

    file: str
    pairs: list
    function: object = None
    # the functions that kept it waiting
    awaited: set = field(default_factory=set)
    # why its refusal says little of the contract, where it does
    weakness: str = ""

    def fault(self):
        """Returns the last part of the file's name, which is MODULE-FUNCTION-FAULT."""
        return os.path.basename(self.file).removesuffix(".edit").rpartition("-")[2]


def without_arguments(text):
    """Drops what stands between angle brackets."""
    text = text.replace("->", "")
    while re.search(r"<[^<>]*>", text):
        text = re.sub(r"<[^<>]*>", "", text)
    return text


def owner_of(head):
    """Returns the type and the trait that the head of an impl names, or the trait of a trait's, and whether there is a
    trait. A type parameter, which is one letter, is any type."""
    text = without_arguments(head)
    around = AROUND.search(text)
    owner, trait = (it.strip(":").rpartition("::")[2] for it in (around["type"], around["trait"] or ""))
    return ("Any" if len(owner) == 1 else owner) + trait, bool(trait) or not re.search(r"\bimpl\b", text)


def functions_in(path, text):
    lines, found, owner = text.split("\n"), [], ("", False)
    for at, line in enumerate(lines):
        if HEAD.match(line):
            end = next((it for it in range(at, len(lines)) if "{" in lines[it]), at)
            owner = owner_of(" ".join(it.strip() for it in lines[at : end + 1]))
        head = FUNCTION.match(line)
        if head:
            ends = (head[1] + "}", head[1] + "{}")
            last = next((it for it in range(at, len(lines)) if lines[it] in ends), at)
            top = at
            while top and ABOVE.match(lines[top - 1]):
                top -= 1
            around = owner if head[1] else ("", False)
            found.append(Function(path, *around, head[2], top, at, last))
    return found


def functions_of(crate):
    """Returns the functions of a crate by their files."""
    files = [it[len(crate.folder) + 1 :] for it in rt.rtlib.files_of(crate.folder) if it.endswith(".rt")]
    return {it: functions_in(it, rt.rtlib.text_of(f"{crate.folder}/{it}")) for it in files}


def names_of(crate, functions, told):
    """Returns the functions by the names that a check told, without those that it may have told as several names, and
    without names that may be several functions."""
    claims = {}
    for function in (it for file in functions.values() for it in file):
        fitting = [it for it in told if function.fits(crate, it)]
        exact = [it for it in fitting if it.split("::")[-2].partition("+")[0] == function.owner]
        chosen = exact or fitting
        if len(chosen) == 1:
            claims.setdefault(chosen[0], []).append(function)
    return {it: claimed[0] for it, claimed in claims.items() if len(claimed) == 1}


def pairs_of(text):
    path, old, pairs = "", "", []
    for line in text.split("\n"):
        word, _, rest = line.partition(" ")
        if word == "file:":
            path = rest.strip()
        elif word == "old:":
            old = rest
        elif word == "new:":
            pairs.append((path, old, rest))
    return pairs


def applied(crate, edit, texts):
    """Returns the texts with the edit applied to them, and the lines that it changes, or None where it does not fit."""
    texts, changed = dict(texts), []
    for path, old, new in edit.pairs:
        text = texts.get(path) or rt.rtlib.text_of(f"{crate.folder}/{path}")
        if text.count(old) != 1:
            return None
        changed.append((path, text[: text.index(old)].count("\n")))
        texts[path] = text.replace(old, new)
    return texts, changed


def function_at(functions, path, line):
    """Returns the innermost function around a line."""
    around = [it for it in functions.get(path, []) if it.first <= line <= it.last]
    return max(around, key=lambda it: it.first, default=None)


def read(crate, functions, file):
    """Returns an edit with the function that it changes, or None and why it does not fit."""
    why = rt.read_edit(file, crate.folder)[1]
    if why:
        return None, why
    edit = Edit(file, pairs_of(rt.rtlib.text_of(file)))
    changed = {function_at(functions, *it) for it in applied(crate, edit, {})[1]}
    edit.function = changed.pop() if len(changed) == 1 else None
    return edit, ""


def files_in(crate, folder):
    return sorted(glob.glob(f"{crate.folder}/{folder}/*.edit"))
