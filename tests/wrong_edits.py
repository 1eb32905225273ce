#!/usr/bin/env python3
"""Tries wrong edits of the code, one at a time, and says which of them the prover refuses.

    tests/wrong_edits.py [--seed N] [--count K] [--log FILE] [CRATE ...]

K edits (200) are drawn by the seed (1), as evenly as can be over the crates with code (all of crates.txt where none is
named), from all places of its source where a comparison can be turned, the operands of an operator exchanged, an
operator, a number or an index changed, two arguments exchanged, a returned truth value turned, or a statement or a
whole `if` dropped. Each is made in a copy of the repository, where `rt check` tries it over what is proved already. An
edit that does not compile is not counted, and another is drawn.
Contracts and proofs are never edited. An edit that means the same stands in tests/wrong_edits.txt with the reason, and
is no failure.
A line is printed for each edit; the last line has the counts. The status is 1 where an edit that is not known to mean
the same was not refused, or where the check ended without a verdict; 2 for a wrong command line.
"""
import argparse
import os
import random
import re
import shutil
import subprocess
import sys
import tempfile

OPERATORS = [(" < ", " <= "), (" <= ", " < "), (" == ", " != "), (" != ", " == "), (" < ", " > "),
             (" + ", " - "), (" - ", " + "), (" += ", " -= "), (" * ", " + ")]
TRUTH = [("return true;", "return false;"), ("return false;", "return true;")]
OPERANDS = re.compile(r"([\w.]+)( < | <= | - | / | % )([\w.]+)(?![\w.(\[:])")


def code_lines(text):
    """The numbers of the lines that are code: no contract, comment, `use`, declaration or blank.

    A function's body stands at the margin, a method's one step in."""
    margin = None
    for number, line in enumerate(text):
        if margin is None:
            begins = re.match(r"((?: {4})?)(?:\{|(?:pub )?fn .*\{)$", line)
            margin = begins[1] if begins else None
        elif line.startswith(margin + "}"):
            margin = None
        elif line.strip() and not line.strip().startswith("//"):
            yield number


def edits_of(line):
    """All wrong forms of one line."""
    for old, new in OPERATORS + TRUTH:
        start = 0
        while (at := line.find(old, start)) >= 0:
            yield line[:at] + new + line[at + len(old):]
            start = at + 1
    for found in OPERANDS.finditer(line):
        yield line[:found.start()] + found[3] + found[2] + found[1] + line[found.end():]
    for number in re.finditer(r"(?<![\w.])\d+(?![\w.])", line):
        yield line[:number.start()] + str(int(number.group()) + 1) + line[number.end():]
    for index in re.finditer(r"(?<=\[)[a-z_]\w*(?=\])", line):
        yield line[:index.end()] + " + 1" + line[index.end():]
    for pair in re.finditer(r"\(([\w.]+), ([\w.]+)\)|, ([\w.]+), ([\w.]+)(?=[,)])", line):
        first, second = [g for g in pair.groups() if g]
        if first != second:
            whole = pair.group()
            swapped = whole.replace(first, "\0", 1).replace(second, first, 1).replace("\0", second, 1)
            yield line[:pair.start()] + swapped + line[pair.end():]
    statement = line.strip()
    if statement.endswith(";") and not statement.startswith(("let ", "return", "}")):
        yield ""


def branch_end(text, number):
    """The last line of the `if` without `else` that begins on this line; None where none does."""
    line = text[number]
    if not (line.strip().startswith("if ") and line.endswith("{")):
        return None
    close = line[:len(line) - len(line.lstrip())] + "}"
    return next((n for n in range(number, len(text)) if text[n] == close), None)


def candidates(text):
    """Edits as (first line, line after the last, the lines instead)."""
    for n in code_lines(text):
        yield from ((n, n + 1, [new] if new else []) for new in edits_of(text[n]))
        if last := branch_end(text, n):
            yield n, last + 1, []


def source_of(root, crate):
    """The file of a crate's code: a library's or a program's."""
    return next(p for p in (f"{root}/crates/{crate}/src/lib.rt", f"{root}/crates/{crate}/src/main.rt") if os.path.exists(p))


def read(path):
    with open(path, encoding="utf-8") as file:
        return file.read()


def verdict(root, crate):
    """refused, compiles-not, NOT REFUSED or NO VERDICT, with the line that says why."""
    done = subprocess.run(["rt", "check"], cwd=f"{root}/crates/{crate}", capture_output=True, text=True, check=False)
    said = (done.stdout + done.stderr).split("\n")
    if done.returncode == 0:
        return "NOT REFUSED", ""
    if done.returncode == 1 and any(line.startswith("logic=not-proved") for line in said):
        return "refused", next((line for line in said if ": error" in line or line.startswith("note: ")), "not proved")
    for line in said:
        if done.returncode == 1 and re.search(r"\berror\[[\w-]+\]", line):
            return "compiles-not", line
    return "NO VERDICT", " ".join(said)[-200:]


def known(path):
    """The edits that mean the same: their lines, with the reason."""
    same, why = {}, ""
    for line in read(path).split("\n"):
        if line.startswith("# "):
            why = line[2:]
        elif line.startswith("same: "):
            same[line[6:]] = why
    return same


def one_line(lines):
    return " ".join(" ".join(lines).split())


def tried(tree, crate, seed, count, same):
    """The outcomes of so many edits of one crate, as (what, line); those that do not compile come in addition."""
    path = source_of(tree, crate)
    text = read(path).split("\n")
    edits = list(candidates(text))
    random.Random(f"{seed} {crate}").shuffle(edits)
    for first, end, new in edits:
        if count == 0:
            break
        open(path, "w", encoding="utf-8").write("\n".join(text[:first] + new + text[end:]))
        what, why = verdict(tree, crate)
        line = f"{crate}: `{one_line(text[first:end])}` -> `{one_line(new)}`"
        if what == "NOT REFUSED" and line in same:
            what, why = "means the same", same[line]
        count -= what != "compiles-not"
        yield what, f"{line} at line {first + 1} | {why[:160]}"
    open(path, "w", encoding="utf-8").write("\n".join(text))


def main():
    arguments = argparse.ArgumentParser(description=__doc__, formatter_class=argparse.RawDescriptionHelpFormatter)
    arguments.add_argument("--seed", type=int, default=1)
    arguments.add_argument("--count", type=int, default=200)
    arguments.add_argument("--log", default="")
    arguments.add_argument("crates", nargs="*")
    given = arguments.parse_args()
    root = os.path.dirname(os.path.dirname(os.path.abspath(__file__)))
    listed = re.findall(r"(?m)^(\w+)(?: staticlib)?:", read(f"{root}/crates.txt"))
    if unknown := [c for c in given.crates if c not in listed]:
        arguments.error(f"{', '.join(unknown)}: not in crates.txt")
    with_code = [c for c in given.crates or listed if any(candidates(read(source_of(root, c)).split("\n")))]
    same = known(f"{root}/tests/wrong_edits.txt")
    counts = {"refused": 0, "means the same": 0, "NOT REFUSED": 0, "NO VERDICT": 0, "compiles-not": 0}
    with tempfile.TemporaryDirectory(prefix="wrong-edits-") as copy:
        tree = f"{copy}/tree"
        shutil.copytree(root, tree, ignore=shutil.ignore_patterns(".git", "host", "target", "must-fail", "out"))
        for number, crate in enumerate(with_code):
            share = given.count * (number + 1) // len(with_code) - given.count * number // len(with_code)
            for what, line in tried(tree, crate, given.seed, share, same):
                counts[what] += 1
                print(f"{what}: {line}", flush=True)
                if given.log:
                    print(f"{what}: {line}", file=open(given.log, "a", encoding="utf-8"))
    print(f"{counts['refused']} refused, {counts['means the same']} that mean the same, {counts['NOT REFUSED']} not refused, "
          f"{counts['NO VERDICT']} without a verdict, {counts['compiles-not']} that do not compile")
    return 1 if counts["NOT REFUSED"] + counts["NO VERDICT"] else 0


if __name__ == "__main__":
    sys.exit(main())
