#!/usr/bin/env python3
"""Spells this repository's own definitions and lemmas as today's Rattle does.

tools/respell.py        after port.py, once, at the top of the repository

Functions, lemmas, fields and constructors of specs/ and proofs/ go to snake case, types and facts to upper camel case.
tools/respell.tsv has a row a name: old, new, and for a name that only some files spell so the file, below crates/. A
lemma that would have the name of a definition of its file is called `.._lem`. Functions of src/, exported names,
strings, inputs and outputs keep their names. A name that a file takes from another library stays there.
"""
import pathlib
import re
import subprocess

TOKEN = re.compile(r"[^\s(){}.;,@\"«»\[\]`]+")
USE = re.compile(r"\buse ([^\s;{]+)\{([^}]*)\}")
BORROWED = re.compile(r"Rattle\.(std|core|io|check)\b|(?!Rattle\.)")
SPAN = re.compile(r"`[^`\n]+`")
CAMEL = re.compile(r"(?<![\w'-])[a-z][a-z0-9]*(?:[A-Z][a-z0-9]*)+(?![\w'-])")
# Comments and strings of a .rt file.
QUIET = re.compile(r"//[^\n]*|\"(?:\\.|[^\"\\])*\"")

top = pathlib.Path(subprocess.run(["git", "rev-parse", "--show-toplevel"], capture_output=True, text=True,
                                  check=True).stdout.strip())
everywhere, only = {}, {}
for line in (pathlib.Path(__file__).with_suffix(".tsv")).read_text(encoding="utf-8").splitlines():
    old, new, *file = line.split("\t")
    if file:
        only.setdefault(file[0], {})[old] = new
    else:
        everywhere[old] = new


def borrowed(text):
    """The names that a file takes from other libraries."""
    taken = set()
    for path, names in USE.findall(text):
        if BORROWED.match(path):
            taken.update(name.strip() for name in names.split(","))
    return taken


def code(text, table):
    return TOKEN.sub(lambda m: table.get(m[0], m[0]), text)


def prose(text, table):
    """In prose a name with a dash is turned between backticks alone, one in camel case everywhere."""
    text = SPAN.sub(lambda m: code(m[0], table), text)
    return CAMEL.sub(lambda m: table.get(m[0], m[0]), text)


def antt(text, table):
    lines = []
    for line in text.split("\n"):
        before, dashes, after = line.partition("--")
        lines.append(code(before, table) + dashes + prose(after, table))
    return "\n".join(lines)


def rattle(text, table):
    said, end = [], 0
    for quiet in QUIET.finditer(text):
        said.append(code(text[end:quiet.start()], table))
        said.append(prose(quiet[0], table) if quiet[0].startswith("//") else quiet[0])
        end = quiet.end()
    return "".join(said) + code(text[end:], table)


def edit(text, table):
    """A must-fail edit: its texts as the file's that it changes."""
    inside = re.search(r"^file: \S+\.antt$", text, re.M)
    lines = []
    for line in text.split("\n"):
        key, colon, rest = line.partition(": ")
        if colon and key in ("old", "new"):
            lines.append(key + colon + (antt if inside else rattle)(rest, table))
        else:
            lines.append(prose(line, table))
    return "\n".join(lines)


def turn(path, by):
    text = path.read_text(encoding="utf-8")
    taken = borrowed(text)
    table = {old: new for old, new in everywhere.items() if old not in taken}
    table.update(only.get(str(path.relative_to(top / "crates")) if "crates" in path.parts else "", {}))
    new = by(text, table)
    if new != text:
        path.write_text(new, encoding="utf-8")


def main():
    for path in sorted((top / "crates").rglob("*")):
        if "out" in path.parts or not path.is_file():
            continue
        by = {".antt": antt, ".rt": rattle, ".edit": edit}.get(path.suffix)
        if by:
            turn(path, by)
    for path in [top / "README.md", *sorted((top / "docs").glob("*.md"))]:
        turn(path, prose)


if __name__ == "__main__":
    main()
