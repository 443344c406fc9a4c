#!/usr/bin/env python3
"""break_lines.py [TOP]: breaks the lines below crates/ that are wider than 110 columns.

Names grew by respelling, and the check that is today's does not break lines by itself.
An import becomes two of the same module; a comment goes on in a line of its own; any other line is broken
where its brackets are nested least, and goes on further in. No word of a file changes. Run rt fmt in each
crate that it names; it also names each must-fail edit whose text is then spread over two lines.
"""
import os
import re
import sys

WIDE = 110
# What a line may go on with, the best first; what it does not end or go on with.
BEFORE = ["→", "↔", "×", "≡", "∙", "++", "∷"]
STAY = {":", "=", ".", "in", "λ", "where", "Type", "0"}


def files(top):
    for folder, folders, names in os.walk(os.path.join(top, "crates")):
        folders[:] = sorted(f for f in folders if f != "out")
        for name in sorted(names):
            if name.endswith((".antt", ".rt")):
                yield os.path.join(folder, name)


def depths(text):
    """How deep in brackets each place stands."""
    depth, found = 0, []
    for c in text:
        depth -= c in ")]}"
        found.append(depth)
        depth += c in "([{"
    return found


def break_import(line):
    head, names, tail = re.fullmatch(r"(\s*(?:ghost )?(?:pub )?use [^{]*\{)(.*)(\};?)", line).groups()
    first, rest = names.split(", "), []
    while len(head + ", ".join(first) + tail) > WIDE:
        rest.insert(0, first.pop())
    return [head + ", ".join(first) + tail] + broken(head + ", ".join(rest) + tail)


def break_comment(line):
    mark = re.match(r"\s*(--|//) ", line).group(0)
    at = line.rindex(" ", 0, WIDE + 1)
    return [line[:at]] + broken(mark + line[at + 1 :])


def break_term(line):
    indent = len(line) - len(line.lstrip())
    inner = " " * (indent if line[indent] in "→×≡∙∷(" else indent + 4)
    deep, places = depths(line), []
    for at in range(indent + 8, min(WIDE, len(line) - 1) + 1):
        if line[at] != " " or line[at - 1] == "," or len(inner) + len(line) - at - 1 > WIDE:
            continue
        word, last = line[at + 1 :].split(" ", 1)[0], line[:at].rsplit(" ", 1)[-1]
        if word in STAY or last in STAY or last in BEFORE or last.endswith("λ"):
            continue
        rank = BEFORE.index(word) if word in BEFORE else len(BEFORE)
        places.append((deep[at], rank, -at))
    if not places:
        return [line]
    at = -min(places)[2]
    return [line[:at], inner + line[at + 1 :]]


def broken(line):
    if len(line) <= WIDE:
        return [line]
    if re.match(r"\s*(ghost )?(pub )?use ", line):
        return break_import(line)
    if re.match(r"\s*(--|//) ", line):
        return break_comment(line)
    return break_term(line)


def main(top):
    crates = set()
    for path in files(top):
        with open(path, encoding="utf-8") as it:
            old = it.read()
        lines = [part for line in old.split("\n") for part in broken(line)]
        new = "\n".join(lines)
        if new != old:
            with open(path, "w", encoding="utf-8") as it:
                it.write(new)
            crates.add(path.split("crates/", 1)[1].split("/", 1)[0])
        for number, line in enumerate(lines, 1):
            if len(line) > WIDE:
                print(f"{path}:{number}: still {len(line)} columns")
    for folder in sorted(crates):
        edits = os.path.join(top, "crates", folder, "must-fail")
        for name in sorted(os.listdir(edits)) if os.path.isdir(edits) else []:
            file = ""
            with open(os.path.join(edits, name), encoding="utf-8") as it:
                for line in it.read().split("\n"):
                    if line.startswith("file: "):
                        file = os.path.join(top, "crates", folder, line[6:])
                    elif line.startswith("old: ") and os.path.isfile(file):
                        with open(file, encoding="utf-8") as source:
                            if line[5:] not in source.read():
                                print(f"{folder}/must-fail/{name}: not found: {line[5:]}")
    print("rt fmt in:", *sorted(crates))


if __name__ == "__main__":
    main(sys.argv[1] if len(sys.argv) > 1 else ".")
