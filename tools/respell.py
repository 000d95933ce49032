#!/usr/bin/env python3
"""Brings the repository's own definitions and lemmas to the spelling of today's Rattle: words in snake case, types in camel case.

usage: python3 tools/respell.py     once, at the top of the checkout, right after the kit's port.py

It collects the names with a dash that this repository declares in specs/ and proofs/, leaves those of the kit and those that
Rattle makes, and turns whole words alone: in .antt files, in the clauses and `ghost use` lines of .rt files, and in the code
spans of comments and pages. Functions of src/, strings, inputs and outputs keep their names.
"""
import glob
import os
import re

WORD = r'[^\s(){}.;,@"«»\[\]]+'
# a type that would fall together with the variant `NoBuild`, and an alias that stands in for the kit's own name
BY_HAND = {"No-build": "HasNoBuild"}
KEEP = {"and-true"}

ANTT = sorted(glob.glob("crates/*/specs/**/*.antt", recursive=True) + glob.glob("crates/*/proofs/**/*.antt", recursive=True))
RT = sorted(glob.glob("crates/*/src/**/*.rt", recursive=True))
PAGES = ["README.md"] + sorted(glob.glob("docs/*.md"))
SIGNATURE = re.compile(
    r"^[ \t]*(?:(?:abbrev|unfoldable|pub|private|record|data)\s+)*(" + WORD + r")(?:\s+[({][^:]*?[)}])*\s*:(?!=)\s*(\S*)", re.M
)
RECORD = re.compile(r"^\s*(?:pub\s+)?record\s+(" + WORD + r")", re.M)
ALIAS = re.compile(r"\bas\s+(" + WORD + r")")


def declared():
    names = set()
    for path in ANTT:
        text = re.sub(r"--[^\n]*", "", open(path).read())
        names |= {m.group(1) for m in SIGNATURE.finditer(text) if not m.group(2).startswith(("goal.", "Goals."))}
        names |= set(ALIAS.findall(text)) | set(RECORD.findall(text))
    for path in RT:
        names |= set(ALIAS.findall(open(path).read()))
    return {name for name in names if "-" in name and not name.startswith("-")} - KEEP


def turned(name):
    if name in BY_HAND:
        return BY_HAND[name]
    if name[0].isupper():
        return "".join(part[:1].upper() + part[1:] for part in name.split("-"))
    return name.replace("-", "_")


def main():
    table = {name: turned(name) for name in declared()}
    assert len(set(table.values())) == len(table), "names fall together"
    word = re.compile(WORD)

    def swap(text):
        return word.sub(lambda m: table.get(m.group(0), m.group(0)), text)

    span_word = re.compile(r"[^\s(){}.;,@\"«»\[\]`]+")

    def spans_of_code(text):
        return re.sub(r"`[^`\n]+`", lambda m: span_word.sub(lambda w: table.get(w.group(0), w.group(0)), m.group(0)), text)

    def antt(text):
        parts = re.split(r"(--[^\n]*)", text)
        return "".join(spans_of_code(p) if p.startswith("--") else swap(p) for p in parts)

    def rt(text):
        parts = re.split(r"(//[^\n]*|b?\"(?:\\.|[^\"\\])*\")", text)
        out = []
        for p in parts:
            if p.startswith("//"):
                out.append(spans_of_code(p))
            elif p.startswith(('"', 'b"')):
                out.append(p)
            else:
                out.append(swap(p))
        return "".join(out)

    for paths, turn in ((ANTT, antt), (RT, rt), (PAGES, spans_of_code)):
        for path in paths:
            if not os.path.isfile(path):
                continue
            old = open(path).read()
            new = turn(old)
            if new != old:
                open(path, "w").write(new)
    print(len(table), "names")


if __name__ == "__main__":
    main()
