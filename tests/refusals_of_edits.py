#!/usr/bin/env python3
"""Says by what the prover refused each must-fail edit: by a fact, or by a proof text that no longer fits.

    rt must-fail --anew >FILE       (or rt ci: both say what they refused each edit by)
    tests/refusals_of_edits.py FILE [CRATE ...]

What rt says of an edit is one of three:

- at a fact: two types differ, a goal does not follow, or it is not proved that a contract holds. The statement asked for
  is another one with the edit, and what stood there does not prove it. An edit is also of this kind where any
  statement by computation fails (a crate's Trials or Witness): that is a refusal of its meaning.
- at a proof text: a name or a field is missing, or a text does not parse or has another number of arguments or cases.
  This says nothing of the fact that the edit turns, and the edit wants another form.
- another, as a rewriting that finds nothing to rewrite, or a limit of the prover: the goal is another one, and a reader
  must look whether it is false.

Of an edit that is refused at a fact, too, a reader says whether the statement is false, beside the edit.
The counts are printed, with the names and the first errors of the second and third kind. The status is 1 where there
are any of them, or FILE does not say that an edit is refused; 2 for a wrong command line or where it says so of none.
"""
import argparse
import glob
import os
import re
import sys

TEXT = re.compile(
    r"not in scope|has no field|does not parse|is not a constructor|explicit arguments? (?:more|fewer)|takes no argument"
    r"|was not determined|is not yet determined|both match the case|no case|write each case|cannot be unfolded|is private"
    r"|not a structural call|expected .*, found|unknown name|no such")
COMPUTED = re.compile(r"(?:specs/(?:Trials|Filing)|proofs/(?:Witness|Longer))\.antt:\d+:\d+: error.*(?:expected type|steps|the two types)")
FACT = re.compile(
    r"the two (?:types|indices)|expected type|does not follow|no proof of|steps|not proved|give a proof of that|the goal fails|did not conclude"
    r"|is not what|do not agree|refuted|differ")


def kind_of(error):
    if COMPUTED.search(error):
        return "fact"
    if TEXT.search(error):
        return "text"
    return "fact" if FACT.search(error) else "another"


# What rt says of an edit: that it is refused, perhaps only by a proof text or by a limit, and the first error.
SAID = re.compile(r"(?m)^(?:rt: )?must-fail (\w+)/(\S+)\.edit: (refused, as it must be(?: \((.*?)\))?(?:: (.*))?|.*)$")
BY_TEXT = "only because a proof file names what the edit took away"


def refusals(text):
    """What was said of each edit, by its crate and name: the kind, and the first error."""
    found = {}
    for crate, edit, said, only, error in SAID.findall(text):
        error = re.sub(r"^.*?((?:specs|proofs|src)/\S+: )", r"\1", error or only)
        kind = "not refused" if not said.startswith("refused") else "text" if only.startswith(BY_TEXT) else "another" if only else kind_of(error)
        found[crate, edit] = kind, error if said.startswith("refused") else said
    return found


def read(path):
    with open(path, encoding="utf-8") as file:
        return file.read()


def main():
    arguments = argparse.ArgumentParser(description=__doc__, formatter_class=argparse.RawDescriptionHelpFormatter)
    root = os.path.dirname(os.path.dirname(os.path.abspath(__file__)))
    arguments.add_argument("file", help="what `rt must-fail --anew` or `rt ci` said")
    arguments.add_argument("crates", nargs="*")
    given = arguments.parse_args()
    if unknown := [c for c in given.crates if not os.path.isdir(f"{root}/crates/{c}")]:
        arguments.error(f"{', '.join(unknown)}: no crate")
    if not os.path.isfile(given.file):
        arguments.error(f"{given.file}: no such file")
    edits = sorted(glob.glob(f"{root}/crates/*/must-fail/*.edit"))
    names = [(path.split("/")[-3], path.split("/")[-1][:-5]) for path in edits]
    names = [n for n in names if not given.crates or n[0] in given.crates]
    said = refusals(read(given.file))
    if not any(n in said for n in names):
        arguments.error(f"{given.file} says nothing of these edits: it is to be what `rt must-fail --anew` or `rt ci` said")
    counts = {"fact": 0, "text": 0, "another": 0, "not refused": 0}
    for name in names:
        kind, error = said.get(name, ("not refused", ""))
        counts[kind] += 1
        if kind != "fact":
            print(f"{kind}: {name[0]}/{name[1]}{': ' if error else ''}{error[:200]}")
    print(f"{counts['fact']} edits refused at a fact, {counts['text']} at a proof text, {counts['another']} at another error, "
          f"{counts['not refused']} not said to be refused")
    return 0 if counts["fact"] == len(names) else 1


if __name__ == "__main__":
    sys.exit(main())
