#!/usr/bin/env python3
"""Writes the rows of crates/cron_test_findings/data: findings, and the reports that hold them. Python counts the columns, its
package json writes the objects, and the package jsonschema checks the logs by the parts that SARIF 2.1.0 requires. Lines of gcc's
form are matched by the patterns of Vim and of VS Code, and annotations are read back by the rules of GitHub's toolkit. In texts,
signs stand for line feeds, carriage returns, tabs and escapes.

usage: finding_rows.py FOLDER"""
import json
import os
import re
import sys
import urllib.parse

import jsonschema

RULES = [("number-outside", "A number is outside of its field", "Write a number of the field: an hour is 0 to 23."),
         ("line-nul", "A line has a NUL", 'Remove the "NUL".')]
# What SARIF 2.1.0 requires of what is written here.
MESSAGE = {"type": "object", "required": ["text"], "properties": {"text": {"type": "string"}}, "additionalProperties": False}
PLACE = {"type": "integer", "minimum": 1}
REGION = {"type": "object", "required": ["startLine", "startColumn", "endColumn"], "additionalProperties": False,
          "properties": {"startLine": PLACE, "startColumn": PLACE, "endColumn": PLACE}}
ARTIFACT = {"type": "object", "required": ["uri"], "properties": {"uri": {"type": "string", "pattern": r"^[A-Za-z0-9._~/%-]*$"}}}
LOCATION = {"type": "object", "required": ["physicalLocation"], "properties": {"physicalLocation": {
    "type": "object", "required": ["artifactLocation", "region"], "properties": {"artifactLocation": ARTIFACT, "region": REGION}}}}
RESULT = {"type": "object", "required": ["message", "ruleId", "level", "locations"], "properties": {
    "message": MESSAGE, "ruleId": {"type": "string"}, "level": {"enum": ["none", "note", "warning", "error"]},
    "locations": {"type": "array", "items": LOCATION}}}
RULE = {"type": "object", "required": ["id"], "properties": {
    "id": {"type": "string"}, "shortDescription": MESSAGE, "help": MESSAGE}, "additionalProperties": False}
DRIVER = {"type": "object", "required": ["name"], "properties": {
    "name": {"type": "string"}, "rules": {"type": "array", "uniqueItems": True, "items": RULE}}}
RUN = {"type": "object", "required": ["tool", "results"], "properties": {
    "tool": {"type": "object", "required": ["driver"], "properties": {"driver": DRIVER}},
    "columnKind": {"enum": ["utf16CodeUnits", "unicodeCodePoints"]}, "results": {"type": "array", "items": RESULT}}}
LOG = {"type": "object", "required": ["version", "runs"], "additionalProperties": False, "properties": {
    "$schema": {"type": "string", "format": "uri"}, "version": {"const": "2.1.0"}, "runs": {"type": "array", "items": RUN}}}
# Vim's errorformat `%f:%l:%c: %trror: %m` and its like, and the pattern of VS Code's `$gcc`
VIM = re.compile(r"^(.+?):(\d+):(\d+): (error|warning|note): (.*)$", re.S)
CODE = re.compile(r"^(.*?):(\d+):(\d*):?\s+(?:fatal\s+)?(warning|error|note):\s+(.*)$", re.S)

FILES = ["jobs.tab", "a b/c:d,e%.tab", "/etc/cron.d/é", "//etc/crontab", "x\x1b[31m\ny", "~/my-jobs_1.tab", "100%25\r"]
LINES = [(b"* 24 * * * run", 2, 4), (b"\t*\t24 * * * run", 3, 5), ("é ü 24 ñ".encode(), 6, 8), (b"\xff\xfe 24 \xe2\x82", 3, 5),
         ("日本 24 🕛 x".encode(), 7, 9), ("🕛 24".encode(), 0, 4), (b"a\x1bb 24", 4, 6), ("a\u009bb 24".encode(), 1, 3),
         (b"", 0, 0), (b"abc", 3, 3), (b"abc", 9, 12), (b"abc", 2, 1), (b"abc\ndef", 4, 7), (b"a\tb\tc", 0, 5),
         (b"\xf0\x9f\x95", 1, 2), (b"\xed\xa0\x80 x", 0, 3), (b"\xc3\xa9\xc3 24", 4, 6), (b"\xf4\x90\x80\x80", 0, 4), (b"\x00\x7f", 0, 2)]
MATTERS = [("error", "number-outside", "hour: '24': 24 is not one of 0 to 23", "midnight is hour 0", "* 0 * * * run"),
           ("warning", "entry-twin", "line 3 has the same times, \"command\", user and zone", "-", "-"),
           ("note", "feed-missing", "no line feed, 100%: it's\r\nodd\\", "intervals are of systemd's timers", "-"),
           ("error", "a:b,c%", "\x1b[0m\x01é", "x: y", "\t'z'\n")]


def characters(bytes_):
    """Returns the characters of bytes, each with its bytes; bytes that are no UTF-8 stand alone."""
    found, at = [], 0
    while at < len(bytes_):
        for size in (1, 2, 3, 4):
            try:
                if len(bytes_[at:at + size].decode()) == 1:
                    break
            except UnicodeDecodeError:
                pass
        else:
            size = 1
        found.append(bytes_[at:at + size])
        at += size
    return found


def columns(bytes_):
    """Counts the characters another way, by the handler of errors that puts a surrogate in place of each wrong byte."""
    return len(bytes_.decode(errors="surrogateescape"))


def in_line(bytes_):
    """Returns bytes with control characters but tabs written as `\\x1b`."""
    made, before = b"", 0
    for byte in bytes_:
        control = (byte < 32 and byte != 9) or byte == 127 or (before == 0xC2 and 0x80 <= byte <= 0x9F)
        made += b"\\x%02x" % byte if control else bytes([byte])
        before = byte
    return made


def blanks(bytes_):
    """Returns what stands below bytes."""
    made = b""
    for it in characters(bytes_):
        if it == b"\t":
            made += b"\t"
        elif len(it) == 2 and it[0] == 0xC2 and it[1] < 0xA0:
            made += b" " * 5
        else:
            made += b" " * (4 if in_line(it) != it else 1)
    return made


def percent(text, signs):
    return "".join("%%%02X" % ord(c) if c in signs else c for c in text)


def decoded(text, signs):
    """Reads a text of a workflow's command back."""
    for sign in signs:
        text = text.replace("%%%02X" % ord(sign), sign)
    return text.replace("%25", "%")


def compact(value):
    return json.dumps(value, separators=(",", ":"), ensure_ascii=False)


def uri_of(file):
    uri = urllib.parse.quote(file, safe="/")
    return "/." + uri if uri.startswith("//") else uri


def finding_text(form, f):
    """Returns a finding in a format, as bytes."""
    file, line, bytes_, start, end, severity, code, message, told, text = f
    before, span = bytes_[:start], bytes_[:end][start:]
    assert len(characters(before)) == columns(before), before
    column, width = columns(before) + 1, len(characters(span))
    advice = None if told == "-" else told + ("" if text == "-" else ": " + text)
    whole = message + ("" if advice is None else "; " + advice)
    front = "" if severity == "error" else severity + ": "
    if form in ("text", "nameless"):
        return f"{file + ':' if form == 'text' else ''}{line}: {front}{message}\n".encode()
    if form in ("underlined", "colored"):
        marks = b"^" + b"~" * max(0, len(blanks(span)) - 1)
        if form == "colored":
            marks = {"error": b"\x1b[31m", "warning": b"\x1b[33m", "note": b"\x1b[36m"}[severity] + marks + b"\x1b[0m"
        made = (in_line(file.encode()) + b":" if form == "underlined" else b"") + f"{line}: {front}".encode() + in_line(message.encode()) + b"\n"
        made += in_line(bytes_) + b"\n" + blanks(before) + marks + b"\n"
        return made + (b"" if advice is None else b"hint: " + in_line(advice.encode()) + b"\n")
    if form == "gcc":
        shown = in_line(file.encode()).decode()
        made = f"{shown}:{line}:{column}: {severity}: {in_line(whole.encode()).decode()} [{code}]\n"
        for pattern in (VIM, CODE):
            found = pattern.match(made[:-1])
            assert found and "\n" not in made[:-1], made
            if ":" not in shown:
                assert found.groups() == (shown, str(line), str(column), severity, f"{in_line(whole.encode()).decode()} [{code}]"), made
        return made.encode()
    if form == "json":
        hint = None if told == "-" else {"message": told, "text": None if text == "-" else text}
        return (compact({"file": file, "line": line, "column": column, "end": column + width, "bytes": [start, end],
                         "severity": severity, "code": code, "message": message, "hint": hint}) + "\n").encode()
    if form == "github":
        last = column + max(0, width - 1)
        properties = {"file": file, "line": str(line), "col": str(column), "endColumn": str(last), "title": code}
        made = f"::{'notice' if severity == 'note' else severity} " + ",".join(f"{k}={percent(v, '%%%s' % chr(13) + chr(10) + ':,')}" for k, v in properties.items())
        made += "::" + percent(whole, "%\r\n")
        command, rest = made[2:].split(" ", 1)
        words, data = rest.split("::", 1)
        assert {k: decoded(v, "\r\n:,") for k, v in (it.split("=", 1) for it in words.split(","))} == properties, made
        assert decoded(data, "\r\n") == whole and command in ("error", "warning", "notice"), made
        return (made + "\n").encode()
    uri = uri_of(file)
    assert urllib.parse.unquote(uri) in (file, "/." + file), uri
    return (compact({"ruleId": code, "level": severity, "message": {"text": whole}, "locations": [{"physicalLocation": {
        "artifactLocation": {"uri": uri}, "region": {"startLine": line, "startColumn": column, "endColumn": column + width}}}]}) + "\n").encode()


def report(form, findings):
    texts = [finding_text(form, f) for f in findings]
    if form != "sarif":
        return b"".join(texts)
    head = compact({"$schema": "https://json.schemastore.org/sarif-2.1.0.json", "version": "2.1.0", "runs": [{"tool": {"driver": {
        "name": "crontool", "rules": [{"id": c, "shortDescription": {"text": t}, "help": {"text": h}} for c, t, h in RULES]}},
        "columnKind": "unicodeCodePoints", "results": []}]})
    whole = head[:-4].encode() + b"\n" + b",".join(texts) + b"]}]}\n"
    jsonschema.validate(json.loads(whole), LOG)
    assert len(json.loads(whole)["runs"][0]["results"]) == len(findings)
    return whole


def cell(text):
    return text.replace("\n", "␊").replace("\r", "␍").replace("\x1b", "␛").replace("\t", "␉")


def main():
    if len(sys.argv) != 2:
        sys.exit(__doc__)
    rows = ["# a format, how often the finding is told, the finding, and the report"]
    forms = ["text", "nameless", "underlined", "colored", "gcc", "json", "github", "sarif"]
    for number, (bytes_, start, end) in enumerate(LINES):
        for at, form in enumerate(forms):
            matter = MATTERS[(number + at) % len(MATTERS)]
            file = FILES[(number + at // 2) % len(FILES)]
            finding = (file, number * 37 + 1, bytes_, start, end, *matter)
            count = (number + at) % 3
            cells = [form, str(count), cell(file), str(finding[1]), bytes_.hex(), str(start), str(end), *(cell(it) for it in matter)]
            rows.append("\t".join([*cells, cell(report(form, [finding] * count).decode(errors="replace")) or "none"]))
    with open(os.path.join(sys.argv[1], "findings.tsv"), "w", encoding="utf-8", newline="") as out:
        out.write("\n".join(rows) + "\n")
    print(len(rows) - 1)


if __name__ == "__main__":
    main()
