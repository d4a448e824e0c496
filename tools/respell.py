#!/usr/bin/env python3
"""Bring this repository's own names to the spelling of today's Rattle: words in snake case, types in camel case.

tools/respell.txt has a line for each name: the old spelling, a space, the new one. A name is turned wherever it stands as a
whole word: in specs/ and proofs/, in the sources (not inside a string), in must-fail edits, and between the back quotes of
README.md and docs/. Run once, at the top of the repository, after port.py. A second run changes nothing.
"""
import pathlib
import re
import sys

TOP = pathlib.Path(__file__).resolve().parent.parent
NAMES = dict(line.split() for line in (TOP / "tools/respell.txt").read_text().splitlines() if line)
WORD = re.compile(r"[^\s(){}.,;:λ\"`⌜⌝∗\[\]|]+")


def turned(text):
    return WORD.sub(lambda m: NAMES.get(m.group(), m.group()), text)


def turned_outside(text, quoted):
    """All but what matches `quoted`."""
    out, at = [], 0
    for m in quoted.finditer(text):
        out += [turned(text[at : m.start()]), m.group()]
        at = m.end()
    return "".join(out) + turned(text[at:])


def turned_inside(text, quoted):
    return quoted.sub(lambda m: turned(m.group()), text)


STRING = re.compile(r'"(?:[^"\\\n]|\\.)*"')
TICKED = re.compile(r"`[^`\n]*`")


def main():
    fresh = set(NAMES.values()) & set(NAMES)
    if fresh or len(set(NAMES.values())) != len(NAMES):
        sys.exit("respell: names fall together")
    ways = {".antt": turned, ".rt": lambda t: turned_outside(t, STRING), ".edit": lambda t: turned_outside(t, STRING)}
    files = [f for f in TOP.glob("crates/**/*") if f.suffix in ways and "out" not in f.parts]
    pages = [TOP / "README.md", *(TOP / "docs").glob("*.md")]
    changed = 0
    for f in [*files, *pages]:
        if f.name in ("PORT.md",):
            continue
        old = f.read_text()
        new = ways[f.suffix](old) if f.suffix in ways else turned_inside(old, TICKED)
        if new != old:
            f.write_text(new)
            changed += 1
    print(f"respell: {changed} files")


if __name__ == "__main__":
    main()
