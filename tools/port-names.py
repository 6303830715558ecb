#!/usr/bin/env python3
"""Brings the repository's own definitions and lemmas to snake case, once, after the language's own port.py. Words that are no
file of their own (port-names.tsv: old name, new name, the file that it stands for or *) are turned in the .antt files, in the
clauses of the .rt files and in the must-fail edits; text in quotation marks stays. usage: tools/port-names.py, at the top."""
import re
import sys
from pathlib import Path

rows = [line.split("\t") for line in Path(__file__).with_suffix(".tsv").read_text().splitlines()]
every = {old: new for old, new, file in rows if file == "*"}
TOKEN = re.compile(r'"[^"\n]*"|[^\s(){}\[\],;."`⌜⌝]+')


def turned(text, here):
    def one(m):
        word = m.group(0)
        if word in here and text[m.start() - 1] != ".":
            return here[word]
        return every.get(word, word)

    return TOKEN.sub(one, text)


def main():
    changed = 0
    for path in sorted(Path("crates").rglob("*")):
        if path.suffix not in (".antt", ".rt", ".edit") or "out" in path.parts:
            continue
        here = {old: new for old, new, file in rows if file == str(path)}
        text = path.read_text()
        new = turned(text, here)
        if new != text:
            path.write_text(new)
            changed += 1
    print(f"{len(rows)} names, {changed} files changed")


if __name__ == "__main__":
    sys.exit(main())
