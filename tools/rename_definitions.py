#!/usr/bin/env python3
"""Gives this repository's definitions and lemmas the spelling of today's Rattle, in place.

usage: python3 tools/rename_definitions.py [ROOT]

definition_names.txt, beside this file, has a line 'old new' for each name that the toolchain's own script leaves. A name is replaced
where it stands whole: in the .antt, .rt and .edit files below ROOT/crates, in a .rt file not in a string. It is for one run, after that
script: a new name may be another's old one.
"""
import os
import re
import sys

WORD = re.compile(r"""[A-Za-z_][A-Za-z0-9_']*(?:-[A-Za-z0-9_']+)*""")
STRING = re.compile(r'"(?:[^"\\]|\\.)*"')
PART = re.compile(r"\w")


def table():
    at = os.path.join(os.path.dirname(os.path.abspath(__file__)), "definition_names.txt")
    with open(at, encoding="utf-8") as f:
        return dict(line.split() for line in f if line.strip())


def renamed(text, names):
    def word(m):
        before, after = text[m.start() - 1 : m.start()], text[m.end() : m.end() + 1]
        whole = not (PART.match(before) or before == "-" or PART.match(after) or after in ("-", "'"))
        return names.get(m.group(), m.group()) if whole else m.group()

    return WORD.sub(word, text)


def outside_strings(text, names):
    out, at = [], 0
    for m in STRING.finditer(text):
        out += [renamed(text[at : m.start()], names), m.group()]
        at = m.end()
    return "".join(out + [renamed(text[at:], names)])


def main():
    root = sys.argv[1] if len(sys.argv) > 1 else "."
    names = table()
    changed = 0
    for folder, dirs, files in os.walk(os.path.join(root, "crates")):
        dirs[:] = sorted(d for d in dirs if d != "out")
        for name in sorted(files):
            if not name.endswith((".antt", ".rt", ".edit")):
                continue
            path = os.path.join(folder, name)
            with open(path, encoding="utf-8") as f:
                text = f.read()
            new = outside_strings(text, names) if name.endswith(".rt") else renamed(text, names)
            if new != text:
                changed += 1
                with open(path, "w", encoding="utf-8") as f:
                    f.write(new)
    print(f"{changed} files changed")


main()
