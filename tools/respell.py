#!/usr/bin/env python3
"""respell.py [TOP]: turns this repository's own names to the spelling of today's Rattle, after port.py.

Words of definitions, lemmas and places are in snake case (letterAt becomes letter_at); types and modules keep
their capitals. What is turned: every word of the proof language that begins small and has a capital inside,
in .antt and .rt files and must-fail edits below crates/, and the same words where pages and tests name them.
It says which new words the files had before, so that names which fall together are seen. Run it once.
"""
import os
import re
import sys

WORD = re.compile(r"(?<![\w'])[a-z][a-z0-9_]*[A-Z][\w]*'*(?![\w'])")


def snake(word):
    return re.sub(r"[A-Z]", lambda m: "_" + m.group(0).lower(), word)


def files(top, *endings):
    for folder, folders, names in os.walk(top):
        folders[:] = sorted(f for f in folders if f not in ("out", ".git", "target", "target-tests"))
        for name in sorted(names):
            if name.endswith(endings):
                yield os.path.join(folder, name)


def text_of(path):
    with open(path, encoding="utf-8") as it:
        return it.read()


def main(top):
    crates = os.path.join(top, "crates")
    sources = list(files(crates, ".antt", ".rt"))
    words, had = set(), set()
    for path in sources:
        text = text_of(path)
        words |= set(WORD.findall(text))
        had |= set(re.findall(r"[A-Za-z_][\w']*", text))
    names = {word: snake(word) for word in words}
    for word in sorted(names):
        if names[word] in had:
            print(f"look: {word} becomes {names[word]}, which was there")
    turned = 0
    pages = [os.path.join(top, "README.md"), os.path.join(top, "CONTRIBUTING.md")]
    pages += list(files(os.path.join(top, "docs"), ".md"))
    pages += list(files(os.path.join(top, "tests", "promises"), ""))
    for path in sources + list(files(crates, ".edit")) + pages:
        if not os.path.exists(path):
            continue
        old = text_of(path)
        new = WORD.sub(lambda m: names.get(m.group(0), m.group(0)), old)
        if new != old:
            with open(path, "w", encoding="utf-8") as it:
                it.write(new)
            turned += 1
    print(f"respell: {len(names)} words, {turned} files")


if __name__ == "__main__":
    main(sys.argv[1] if len(sys.argv) > 1 else ".")
