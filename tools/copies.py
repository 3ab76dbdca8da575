"""Wrong bodies as further functions: a copy of a function with the wrong body stands beside the function itself.

A copy has the contract of the function and what is written of its proof, and a name of its own: the function's, `where`,
and the fault. Nothing calls it. So no other function is broken by it, and one check can hold any number of them."""
import os
import re
import shutil

from kit import rt

# The proof of a function in a cycle of calls is one of all of them.
CYCLE = re.compile(r"^ *#\[cycle\b", re.M)


def name_of(edit):
    return f"{edit.function.name}_where_{edit.fault()}"


def text_of(crate, edit):
    """Returns the text of the copy, or None where the function cannot stand twice: it is a trait's, or in a cycle of calls,
    or the edit changes something else as well."""
    function = edit.function
    if not function or function.is_of_trait:
        return None
    lines = rt.rtlib.text_of(f"{crate.folder}/{function.path}").split("\n")
    text = "\n".join(lines[function.top : function.last + 1])
    if CYCLE.search(text):
        return None
    for _, old, new in edit.pairs:
        if text.count(old) != 1:
            return None
        text = text.replace(old, new)
    return re.sub(rf"\bfn {function.name}\b", f"fn {name_of(edit)}", text, count=1)


def proofs_of(crate, function):
    """Returns the folders, below the crate's, that may hold what is written of the function's proof."""
    below = f"{crate.folder}/proofs"
    if not function.owner:
        found = [f"{below}/{function.module()}/{function.name}".replace("//", "/")]
    else:
        # A method's stands under the module of its type, which may be another file's; behind the type may stand what it is given.
        is_owner = lambda at: os.path.basename(at).partition("+")[0] == function.owner
        found = [f"{at}/{function.name}" for at, _, _ in os.walk(below) if is_owner(at)]
    return [it[len(crate.folder) + 1 :] for it in found if os.path.isdir(it)]


def rewrite(file, text):
    file.seek(0)
    file.truncate()
    file.write(text)


def place_function(crate, edit, room):
    """Writes the copy of the edit's function behind the function."""
    with open(f"{room}/{edit.function.path}", "r+", encoding="utf-8") as it:
        lines = it.read().split("\n")
        lines[edit.function.last + 1 : edit.function.last + 1] = ["", text_of(crate, edit)]
        rewrite(it, "\n".join(lines))


def place_proofs(crate, folder, to, room):
    """Writes what stands in a folder of proofs to another, under that one's name."""
    shutil.copytree(f"{crate.folder}/{folder}", f"{room}/{to}")
    old, new = (it.replace("/", ".") for it in (folder, to))
    for name in os.listdir(f"{room}/{to}"):
        with open(f"{room}/{to}/{name}", "r+", encoding="utf-8") as it:
            rewrite(it, re.sub(rf"\b{re.escape(old)}\.", f"{new}.", it.read()))


def place_copies(crate, edits, room):
    """Writes the crate with copies of these edits' functions to a folder."""
    for part in filter(lambda it: os.path.isdir(f"{crate.folder}/{it}"), rt.rtlib.PARTS):
        shutil.copytree(f"{crate.folder}/{part}", f"{room}/{part}")
    # from the end of each file, so that the lines above stay where they are
    for edit in sorted(edits, key=lambda it: -it.function.last):
        place_function(crate, edit, room)
    for edit, folder in ((it, folder) for it in edits for folder in proofs_of(crate, it.function)):
        place_proofs(crate, folder, f"{os.path.dirname(folder)}/{name_of(edit)}", room)
