"""Manual pages for man(7): crontool(1) of what the built program tells by --help, cron_c(3) of the header, and both of pages of the
repository. A page has no text of its own but its head, so it says what these say."""
import os
import re
import subprocess
import textwrap
from datetime import datetime, timezone

TOP = os.path.dirname(os.path.dirname(os.path.realpath(__file__)))
TOOL_PAGE = f"{TOP}/crates/crontool/CALLING.md"
RUNS_PAGE = f"{TOP}/crates/crontool_runs/CALLING.md"
UNITS_PAGE = f"{TOP}/crates/crontool_units/CALLING.md"
LIBRARY_PAGE = f"{TOP}/crates/cron_c/CALLING.md"
HEADER = f"{TOP}/crates/cron_c/include/cron_c.h"
COLUMNS = 78
ESCAPES = {"\\": "\\e", "-": "\\-", "'": "\\(aq", "`": "\\(ga", "^": "\\(ha", "~": "\\(ti"}


def read(path):
    with open(path, encoding="utf-8") as it:
        return it.read()


def escaped(text):
    """The text as roff prints it."""
    return "".join(ESCAPES.get(it) or (it if it.isascii() else f"\\[u{ord(it):04X}]") for it in text)


def guarded(line):
    """A line that no macro begins."""
    return f"\\&{line}" if line.startswith(".") else line


def plain(line):
    """What a line of Markdown says, with words of code in bold."""
    line = re.sub(r"\[([^\]]*)\]\([^)]*\)", r"\1", line)
    parts = re.split(r"(`[^`]*`)", line.replace("**", ""))
    return "".join(f"\\fB{escaped(it[1:-1])}\\fR" if it.startswith("`") else escaped(it) for it in parts)


def filled(text):
    """Lines of a paragraph."""
    kept = textwrap.TextWrapper(COLUMNS, break_long_words=False, break_on_hyphens=False)
    return [guarded(it) for it in kept.wrap(text)]


def paragraph(text):
    return [".PP", *filled(text)]


def literal(lines):
    """Lines that stand as they are."""
    return [".PP", ".in +4n", ".nf", *[guarded(escaped(it.expandtabs())) for it in lines], ".fi", ".in"]


def entry(tag, text):
    """A word, and what it means."""
    return [".TP", guarded(tag), *filled(text)]


def quoted(text):
    return '"' + escaped(text).replace('"', "\\(dq") + '"'


def heading(text):
    return [f".SH {quoted(text.upper())}"]


def part(text):
    return [f".SS {quoted(text)}"]


# ---- Markdown


def cells_of(row):
    return [it.strip() for it in row.strip().strip("|").split("|")]


def is_rule(row):
    return set(row) <= set("|- ")


def table(rows):
    """A table: the words of its first column, each with what it means. Of its head what stands after a semicolon is kept."""
    (*_, head), *rest = [cells_of(it) for it in rows if not is_rule(it)]
    said = head.partition("; ")[2]
    told = paragraph(plain(said[0].upper() + said[1:]) + ".") if said else []
    for first, *others in rest:
        told += entry(plain(first), plain("; ".join(others)))
    return told


def items(lines):
    """The items of a list, which begin with a dash."""
    told = re.split(r"^- ", "\n".join(lines), flags=re.M)[1:]
    return [line for it in told for line in [".IP \\(bu 2", *filled(plain(it.replace("\n", " ")))]]


def block(lines):
    """A block of Markdown: a table, a list, or a paragraph."""
    if lines[0].startswith("|"):
        return table(lines)
    if lines[0].startswith("- "):
        return items(lines)
    return paragraph(plain(" ".join(lines)))


def from_markdown(text):
    """What a page's text says, without its headings."""
    told = []
    for at, piece in enumerate(re.split(r"^```.*$\n?", text, flags=re.M)):
        if at % 2:
            told += literal(piece.splitlines())
            continue
        for it in re.split(r"\n\s*\n", piece.strip()):
            told += block(it.splitlines()) if it else []
    return told


def sections_of(path):
    """The parts of a page by their headings, in order; what stands before the first has the heading ''."""
    pieces = re.split(r"^## (.+)$", read(path).partition("\n")[2], flags=re.M)
    return {"": pieces[0], **dict(zip(pieces[1::2], pieces[2::2]))}


def table_under(text, head):
    """The table whose first cell is this, and the text without it."""
    found = re.search(rf"^\| {head} \|.*\n(?:\|.*\n)+", text, re.M)
    return found[0], text.replace(found[0], "")


# ---- crontool(1)


def told_by(program, *words):
    return subprocess.run([program, *words, "--help"], capture_output=True, text=True, check=True).stdout


def rows_of(help_text, head):
    """The words of a part of a help, each with its line: `  WORD  LINE`."""
    _, _, rest = help_text.partition(f"\n{head}:\n")
    rows = []
    for line in rest.partition("\n\n")[0].splitlines():
        word, _, told = line.strip().partition("  ")
        if line.startswith(" " * 10) and not line.strip().startswith("-") and rows:
            rows[-1] = (rows[-1][0], f"{rows[-1][1]} {line.strip()}".strip())
        else:
            rows.append((word, told.strip()))
    return rows


def usages_of(help_text):
    """The lines of use of a help."""
    return [it.strip() for it in re.search(r"^Usage: (.*?)\n\n", help_text + "\n\n", re.S | re.M)[1].splitlines()]


def bold(text):
    return f"\\fB{escaped(text)}\\fR"


def subcommand(program, name):
    """A subcommand: its uses, its line, its words, its options and its examples."""
    told = told_by(program, name)
    lines = part(name)
    for usage in usages_of(told):
        lines += [".PP", *filled(bold(usage))]
    lines += paragraph(escaped(told.partition("\n")[0]) + ".")
    for head in ("Arguments", "Options"):
        for word, text in rows_of(told, head):
            if word != "-h, --help":
                lines += entry(bold(word), f"{escaped(text)}.")
    examples = told.partition("\nExamples:\n")[2].splitlines()
    return lines + literal([it.strip() for it in examples]) if examples else lines


def day_of(epoch):
    return datetime.fromtimestamp(epoch, timezone.utc).strftime("%Y-%m-%d")


def page(name, section, epoch, version, lines):
    """A whole page. No paragraph begins after a heading, as that begins one."""
    head = f'.TH "{escaped(name.upper())}" "{section}" "{day_of(epoch)}" "varpsilt {version}"'
    kept = [line for before, line in zip(["", *lines], lines) if line != ".PP" or not before.startswith((".SH", ".SS"))]
    return "\n".join([head, *kept]) + "\n"


def tool_manual(program, version, epoch):
    """crontool(1), of what the program tells of itself, and of its pages."""
    whole = told_by(program)
    about = whole.partition("\n")[0]
    names = [name for name, _ in rows_of(whole, "Commands") if name != "help"]
    parts = {**sections_of(TOOL_PAGE), "Run": sections_of(RUNS_PAGE)[""], "Systemd": sections_of(UNITS_PAGE)[""]}
    told = parts.pop("")
    statuses, told = table_under(told[told.index("**EXPRESSION**") :], "Status")
    parts.pop("The library", None)
    lines = heading("Name") + [f"crontool \\- {escaped(about[0].lower() + about[1:])}"]
    lines += heading("Synopsis") + [bold(it) for it in usages_of(whole)]
    lines += heading("Description") + from_markdown(told)
    lines += heading("Subcommands")
    for name in names:
        lines += subcommand(program, name)
    for name, text in parts.items():
        lines += heading(name) + from_markdown(text)
    lines += heading("Exit status") + from_markdown(statuses)
    lines += heading("See also") + ["\\fBcron_c\\fR(3), \\fBcrontab\\fR(5)"]
    return page("crontool", 1, epoch, version, lines)


# ---- cron_c(3)

# Parts of the page that a manual page has no use for, and what stands before the first of them.
NOT_FOR_CALLERS = ("", "Install", "What is proved")
GUARDS = re.compile(r"^#(ifndef|define) CRON_C_H\n|^#endif\n?|^#ifdef __cplusplus\n.*?#endif\n", re.S | re.M)


def pieces_of_header():
    """The comments of the header in order, each with the code after it."""
    text = GUARDS.sub("", read(HEADER))
    pieces = re.split(r"^/\*(.*?)\*/\n", text, flags=re.S | re.M)
    return list(zip(pieces[1::2], pieces[2::2]))


def from_comment(text):
    """What a comment says: paragraphs, lists, and tables as they stand."""
    text = textwrap.dedent(re.sub(r"^ \* ?", "", text, flags=re.M)).strip()
    told = []
    for it in re.split(r"\n\s*\n", text):
        lines = it.splitlines()
        at = next((n for n, line in enumerate(lines) if line.startswith("  ")), len(lines))
        told += paragraph(plain(" ".join(lines[:at]))) if lines[:at] else []
        rest = textwrap.dedent("\n".join(lines[at:])).splitlines()
        if rest:
            told += items([re.sub("^ +", "", line) for line in rest]) if rest[0].startswith("- ") else literal(rest)
    return told


def library_manual(version, epoch):
    """cron_c(3), of the header's comments and declarations, and of the library's page."""
    (first, _), *rest = pieces_of_header()
    parts = {name: text for name, text in sections_of(LIBRARY_PAGE).items() if name not in NOT_FOR_CALLERS}
    lines = heading("Name") + ["cron_c \\- cron expressions in time zones, proved"]
    lines += heading("Library") + ["libcron_c (\\-lcron_c)"]
    lines += heading("Synopsis") + ["\\fB#include <cron_c.h>\\fR"]
    lines += heading("Description") + from_comment(first)
    for name, text in parts.items():
        lines += heading(name) + from_markdown(text)
    lines += heading("Calls")
    for comment, code in rest:
        lines += from_comment(comment)
        lines += literal(code.strip().splitlines()) if code.strip() else []
    lines += heading("See also") + ["\\fBcrontool\\fR(1)"]
    return page("cron_c", 3, epoch, version, lines)
