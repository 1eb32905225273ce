#!/usr/bin/env python3
"""Brings the repository's own definitions and lemmas to snake case, once, after the kit's port.py.

usage: port_names.py TOP [--list]

A name such as `freshVenue` becomes `fresh_venue`, and `keeps-legIn` becomes `keeps-leg_in`: each part between dashes that begins with
a small letter and has a capital inside. Types, facts and modules keep their capitals. Files of specs/, proofs/ and must-fail/ are
rewritten whole; of a .rt file the clauses, the `ghost use` lines and the comments, since no Rattle name of the sources has a capital
inside a word. With --list it writes no file and prints each name with its new spelling, and the names that fall together with one that
was there.
"""
import os
import re
import sys

PART = re.compile(r"(?<![A-Za-z0-9_'₀-₉.\"])[a-z][A-Za-z0-9_'₀-₉]*|(?<=\.)[a-z][A-Za-z0-9_'₀-₉]*")
STRING = re.compile(r'b?"(?:[^"\\\n]|\\.)*"')


def snake(part):
    if not re.search(r"[A-Z]", part) or re.search(r"_[A-Z]", part):
        return part
    part = re.sub(r"([a-z0-9'])([A-Z])", r"\1_\2", part)
    part = re.sub(r"([A-Z])([A-Z][a-z])", r"\1_\2", part)
    return part.lower()


def turn(text, names, keep_strings):
    def one(m):
        new = snake(m.group(0))
        if new != m.group(0):
            names.setdefault(m.group(0), new)
        return new

    if not keep_strings:
        return PART.sub(one, text)
    out, at = [], 0
    for m in STRING.finditer(text):
        out.append(PART.sub(one, text[at:m.start()]))
        out.append(m.group(0))
        at = m.end()
    out.append(PART.sub(one, text[at:]))
    return "".join(out)


def files(top):
    for folder, dirs, names in os.walk(os.path.join(top, "crates")):
        dirs[:] = sorted(d for d in dirs if d != "out")
        for name in sorted(names):
            if name.endswith((".rt", ".antt", ".edit")):
                yield os.path.join(folder, name)


def main():
    top, listing = sys.argv[1], "--list" in sys.argv[2:]
    names, words = {}, set()
    for path in files(top):
        with open(path, encoding="utf-8") as f:
            text = f.read()
        words.update(PART.findall(text))
        new = turn(text, names, path.endswith(".rt"))
        if new != text and not listing:
            with open(path, "w", encoding="utf-8") as f:
                f.write(new)
    if listing:
        for old, new in sorted(names.items()):
            print(old, new, "FALLS TOGETHER" if new in words else "")
    else:
        print(f"{len(names)} names respelled")


main()
