#!/usr/bin/env python3
"""Respells names of this repository's definitions and lemmas by the table respell.tsv beside this script: words in snake case, types in camel case.
Usage: respell.py, at the top of a checkout in which the toolchain's own script has run, once (docs/PORT.md).

It turns whole words in the code of .antt and .rt files and of .edit files, in code spans of comments and of Markdown, and nowhere else.
A name behind c., l., w., g. or goal. was made by the toolchain and stays, unless a row is marked as a member of a record."""

import pathlib
import re
import sys

HERE = pathlib.Path(__file__).resolve().parent
WORD = re.compile(r'[^\s(){}.;,@"«»]+')
MADE = re.compile(r"(?:c|l|w|g|h|goal)\d*'*$")
SPAN = re.compile(r"`[^`\n]+`")


def table():
    rows = [line.split("\t") for line in (HERE / "respell.tsv").read_text(encoding="utf-8").splitlines()]
    return {row[0]: row[1] for row in rows}, {row[0] for row in rows if len(row) > 2}


NAMES, MEMBERS = table()


def head(text, at):
    """The first component of the dotted name that has a component at the index."""
    start = at
    while start > 0 and not re.match(r'[\s(){},;@"«»]', text[start - 1]):
        start -= 1
    return text[start:at].split(".")[0]


def turned(text):
    def one(found):
        word = found.group(0)
        if word not in NAMES:
            return word
        at = found.start()
        if at > 0 and text[at - 1] == "." and MADE.match(head(text, at)) and word not in MEMBERS:
            return word
        return NAMES[word]

    return WORD.sub(one, text)


def spans(text):
    return SPAN.sub(lambda found: turned(found.group(0).replace("`", " ` ")).replace(" ` ", "`"), text)


def line_by(line, mark):
    """The line with its code turned, and of its comment the code spans."""
    at = line.find(mark)
    while at > 0 and not line[at - 1].isspace():
        at = line.find(mark, at + 1)
    if at < 0:
        return turned(line)
    return turned(line[:at]) + spans(line[at:])


def respelled(path):
    text = path.read_text(encoding="utf-8")
    if path.suffix == ".md":
        return spans(text)
    mark = "--" if path.suffix == ".antt" else "//"
    return "\n".join(line_by(line, mark) for line in text.split("\n"))


def main():
    files = [p for p in sorted(pathlib.Path(".").rglob("*")) if p.suffix in (".antt", ".rt", ".edit", ".md") and ".git" not in p.parts and "out" not in p.parts]
    changed = 0
    for path in files:
        if not path.is_file() or path.is_symlink():
            continue
        new = respelled(path)
        if new != path.read_text(encoding="utf-8"):
            path.write_text(new, encoding="utf-8")
            changed += 1
    print(f"respelled: {changed} files by {len(NAMES)} names")
    return 0


if __name__ == "__main__":
    sys.exit(main())
