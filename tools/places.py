#!/usr/bin/env python3
"""Lists the places of the design pass in the sources: python3 tools/places.py [FOLDER].

Each row is a place to look at and no verdict: docs/DESIGN-PASS.md says of each what became of it.
"""
import pathlib
import re
import sys
from collections import defaultdict

# A twin has at least so many words and signs: shorter ones are alike by their smallness alone.
SHORTEST_TWIN = 40


def sources(top):
    for path in sorted(pathlib.Path(top).glob("crates/*/src/*.rt")):
        yield str(path.relative_to(top)), path.read_text()


def without_words(text):
    """The text without comments, ghost items and clauses, its lines kept."""
    text = re.sub(r"//[^\n]*", "", text)
    text = re.sub(r"(?m)^\s*(pub )?ghost\b[^\n]*$", "", text)
    return re.sub(r"(?m)^\s*(requires|ensures)\b.*$", "", text)


def body_end(text, start):
    depth = 0
    for at in range(start, len(text)):
        depth += {"{": 1, "}": -1}.get(text[at], 0)
        if depth == 0:
            return at + 1
    return len(text)


def functions(text):
    for found in re.finditer(r"\bfn (\w+)", text):
        opening = text.find("{", found.end())
        semicolon = text.find(";", found.end())
        if opening < 0 or 0 <= semicolon < opening:
            continue
        yield found.group(1), text.count("\n", 0, found.start()) + 1, text[found.start():body_end(text, opening)]


def shape(name, text):
    """The words and signs of a function; its types, numbers, constants, methods and own name are left open."""
    words = re.findall(r"\.\w+|\w+|[^\w\s]", text)
    return ["_" if word == name or re.match(r"\.?[0-9A-Z]|\.", word) else word for word in words]


def twins(files):
    alike = defaultdict(list)
    for path, text in files:
        for name, line, body in functions(without_words(text)):
            words = shape(name, body)
            if len(words) >= SHORTEST_TWIN:
                alike[" ".join(words)].append(f"{path}:{line} {name}")
    return [" ~ ".join(group) for group in alike.values() if len(group) > 1]


def loops(files):
    """Loops whose counter is an index into a slice, counts down, or looks for a place."""
    for path, text in files:
        plain = without_words(text)
        for found in re.finditer(r"\b(for|while) ([^{;]*)\{", plain):
            body = plain[found.end() - 1:body_end(plain, found.end() - 1)]
            head = found.group(2)
            counter = re.match(r"\(?(\w+)", head).group(1)
            by_index = ".." in head and re.search(r"\[[^\]]*\b%s\b[^\]]*\]" % counter, body)
            by_hand = found.group(1) == "while" and re.search(r"[-+]= 1;", body)
            looks = ".enumerate()" in head and "return" in body
            counts = re.search(r"\+= 1;", body) and not re.search(r"\bcall|\?;", body)
            if by_index or by_hand or looks or counts:
                yield f"{path}:{plain.count(chr(10), 0, found.start()) + 1} {found.group(1)} {head.strip()}"


def lines(files, pattern):
    for path, text in files:
        for number, line in enumerate(text.split("\n"), 1):
            if re.search(pattern, line):
                yield f"{path}:{number} {line.strip()}"


def main():
    files = list(sources(sys.argv[1] if len(sys.argv) > 1 else "."))
    rows = {
        "1 numbers in place of cases, flags": lines(files, r"fn number\b|: bool,|\b256\b.*\}|fn next_level|fn carried"),
        "2 functions that differ in a type or a number alone": twins(files),
        "3 loops that count by hand": loops(files),
        "4 conversion, comparison and printing by hand": lines(files, r"^impl.* (From<|PartialEq|Ord|TryFrom)|fn (as_str|parse)\b|^const ALL|impl fmt::Display for (Reason|Name|Outcome|StoreOutcome)|as u8,?$"),
        "6 tables and lists searched by hand": lines(files, r"::ALL\b|const ALL|\bout: Vec<"),
        "7 a switch on which step to run": lines(files, r"match (combination|keyword|call)\b"),
    }
    for title, found in rows.items():
        found = list(found)
        print(f"{title}: {len(found)}")
        for row in found:
            print(f"  {row}")


if __name__ == "__main__":
    main()
