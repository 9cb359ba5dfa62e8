#!/usr/bin/env python3
"""Spells the repository's own definitions and lemmas as the toolchain's library spells its: words in snake case, types in
camel case.

    respell.py        at the top of the repository, once, after the toolchain's own port.py

respell.txt beside this file has a line for each name: the old spelling, and the new one. A name is replaced as a whole
word: in definitions and proofs, in clauses, ghost items and planted bugs, and in backquotes in documents. Comments and
strings stay as they are, but for a comment's words that are spelled with a capital inside.
"""
import os
import re
import sys

HERE = os.path.dirname(os.path.realpath(__file__))
WORD = r"\w'·-"


def table():
    with open(os.path.join(HERE, "respell.txt"), encoding="utf-8") as lines:
        return dict(line.split() for line in lines if line.strip())


def pattern(names):
    alternatives = "|".join(re.escape(n) for n in sorted(names, key=len, reverse=True))
    return re.compile(rf"(?<![{WORD}])(?:{alternatives})(?![{WORD}])")


def files(top):
    for folder, dirs, names in os.walk(top):
        dirs[:] = sorted(d for d in dirs if d not in ("out", ".git", "target"))
        for name in sorted(names):
            if name.endswith((".antt", ".rt", ".edit", ".md")):
                yield os.path.join(folder, name)


class Speller:
    def __init__(self, names):
        self.names = names
        self.all = pattern(names)
        self.capital_inside = pattern([n for n in names if re.search("[a-z][A-Z]", n) and n[0].islower()])

    def new(self, match):
        """A step of a generated proof that has the name of a lemma goes by the name of its function."""
        old = match.group(0)
        behind_dot = match.start() and match.string[match.start() - 1] == "."
        return self.names[old].removesuffix("_lem") if behind_dot else self.names[old]

    def code(self, text):
        return self.all.sub(self.new, text)

    def comment(self, text):
        return self.capital_inside.sub(self.new, text)

    def line(self, text, mark):
        """A line of code, with a comment that the mark begins."""
        parts = re.split(r'("(?:[^"\\]|\\.)*")', text)
        out = []
        for i, part in enumerate(parts):
            if i % 2:
                out.append(part)
                continue
            code, found, comment = part.partition(mark)
            out.append(self.code(code))
            if found:
                rest = "".join(parts[i + 1 :])
                return "".join(out) + mark + self.comment(comment + rest)
        return "".join(out)

    def document(self, text):
        return re.sub(r"`[^`\n]+`", lambda quoted: self.code(quoted.group(0)), text)


def main():
    speller = Speller(table())
    changed = 0
    for path in files("."):
        with open(path, encoding="utf-8") as file:
            old = file.read()
        if path.endswith(".md"):
            new = speller.document(old)
        else:
            mark = "--" if path.endswith(".antt") else "//"
            new = "\n".join(speller.line(line, mark) for line in old.split("\n"))
        if new != old:
            with open(path, "w", encoding="utf-8") as file:
                file.write(new)
            changed += 1
    print(f"respell: {changed} files changed")


if __name__ == "__main__":
    sys.exit(main())
