#!/usr/bin/env python3
"""Brings the repository's own definitions and lemmas to snake case, and its records and facts to camel case.

usage: python3 tools/respell.py [ROOT]

The table is respell.txt beside this script: a line for each name, old and new. Whole names are replaced in every .antt file, and in .rt files
outside strings. Run once, after port.py; a second run changes nothing.
"""

import os
import re
import sys

HERE = os.path.dirname(os.path.realpath(__file__))
NAME = re.compile(r"(?<![\w'′-])[\w'′]+(?:-[\w'′]+)+(?![\w'′-])")
STRING = re.compile(r'"(?:[^"\\\n]|\\.)*"')


def table():
    with open(os.path.join(HERE, "respell.txt"), encoding="utf-8") as f:
        return dict(line.split() for line in f)


def turned(text, names):
    return NAME.sub(lambda m: names.get(m.group(0), m.group(0)), text)


def turned_source(text, names):
    done, at = [], 0
    for m in STRING.finditer(text):
        done += [turned(text[at:m.start()], names), m.group(0)]
        at = m.end()
    return "".join(done) + turned(text[at:], names)


def main(root):
    names, changed = table(), 0
    for folder, dirs, files in os.walk(os.path.join(root, "crates")):
        dirs[:] = sorted(d for d in dirs if d != "out")
        for name in sorted(files):
            if not name.endswith((".rt", ".antt")):
                continue
            path = os.path.join(folder, name)
            with open(path, encoding="utf-8") as f:
                old = f.read()
            new = (turned_source if name.endswith(".rt") else turned)(old, names)
            if new != old:
                changed += 1
                with open(path, "w", encoding="utf-8") as f:
                    f.write(new)
    print(f"{changed} files changed")


main(sys.argv[1] if len(sys.argv) > 1 else ".")
