#!/usr/bin/env python3
"""Brings the repository's own names to today's spelling, once, after the kit's port.py: definitions, lemmas, fields and variables of
specs/ and proofs/ in snake case, facts in camel case. names.tsv, beside this script, has each name with its new spelling.

usage: python3 tools/respell.py      at the top of the repository

It reads .antt and .rt files and must-fail edits below crates/, and names between backticks in README.md and docs/. Functions of src/,
strings, inputs and outputs have none of these names: a Rust name has no dash and no capital inside."""

import os
import re

HERE = os.path.dirname(os.path.realpath(__file__))
TOKEN = re.compile(r"[A-Za-z][A-Za-z0-9'₀-₉_\-]*")
# a variable that would fall together with the definition toWrite
LOCAL = {"crates/trimmer/proofs/Finish.antt": [(r"\bto_write\b", "to_write_is")]}


def table():
    with open(os.path.join(HERE, "names.tsv"), encoding="utf-8") as f:
        return dict(line.rstrip("\n").split("\t") for line in f)


def turn(text, names, skip_made=False):
    def new(m):
        if skip_made and text[max(0, m.start() - 4):m.start()] == "tie.":
            return m[0]
        return names.get(m[0], m[0])

    return TOKEN.sub(new, text)


def ticks(text, names):
    return re.sub(r"`[^`\n]+`", lambda m: turn(m[0], names), text)


def by_line(text, names, mark, skip_made=False):
    """Code is turned, and of a comment only what stands between backticks; a string stays."""
    out = []
    for line in text.split("\n"):
        at = line.find(mark)
        while at > 0 and line[at - 1] not in " \t":
            at = line.find(mark, at + 1)
        code, rest = (line, "") if at < 0 else (line[:at], line[at:])
        parts = re.split(r'("(?:[^"\\]|\\.)*")', code)
        code = "".join(p if p.startswith('"') else turn(p, names, skip_made) for p in parts)
        out.append(code + ticks(rest, names))
    return "\n".join(out)


def edit(text, names):
    out = []
    for line in text.split("\n"):
        m = re.match(r"(old|new): ", line)
        if m:
            line = m[0] + by_line(line[m.end():], names, "//")
        else:
            line = ticks(line, names)
        out.append(line)
    return "\n".join(out)


def put(path, new, old):
    if new != old:
        with open(path, "w", encoding="utf-8") as f:
            f.write(new)


def main():
    names = table()
    for folder, dirs, files in os.walk("crates"):
        dirs[:] = sorted(d for d in dirs if d != "out")
        for f in sorted(files):
            path = os.path.join(folder, f)
            if not f.endswith((".antt", ".rt", ".edit")):
                continue
            with open(path, encoding="utf-8") as it:
                old = it.read()
            text = old
            for pattern, new in LOCAL.get(path, []):
                text = re.sub(pattern, new, text)
            if f.endswith(".edit"):
                text = edit(text, names)
            else:
                text = by_line(text, names, "--" if f.endswith(".antt") else "//", f == "Proof.antt")
            put(path, text, old)
    pages = ["README.md"] + [os.path.join("docs", f) for f in sorted(os.listdir("docs")) if f.endswith(".md")]
    for path in pages:
        with open(path, encoding="utf-8") as it:
            old = it.read()
        put(path, ticks(old, names), old)


if __name__ == "__main__":
    main()
