#!/usr/bin/env python3
"""Tries wrong definitions, one at a time, and says what refuses each.

    tests/wrong_definitions.py [--seed N] [--count K] [--skip M] [--jobs J] [--log FILE] [--list FILE] [FILE ...]
    tests/wrong_definitions.py --draw --seed N --count K

The first tries a list of wrong definitions (tests/wrong_definitions.txt, or another), and then K edits (150; 0: the list
alone) drawn by the seed (1) from all places of crates/rules/specs (or of the files named) where an operator, a number, a
name or a condition can be changed, a conjunct or a step dropped, two steps or two arguments exchanged. Definitions are
gone through in an order drawn by the seed, one edit of each in a round. With --skip the list and the first M draws are
left out, for a run in parts. Left out: Trials itself, Opened (a list of names), Lengths (bounds of what is written, for
the proofs alone), Fields (the widths of fields), and what only states a type. So are edits that tell nothing: the order
of a table's rows (`if eqb k 1 .. else if eqb k 2 ..`), the arguments of `eqb` exchanged, `leb x 0` for `eqb x 0`.

The second tries nothing: it prints K entries for the list, drawn in the same way from the definitions of sets, layer,
replay, feed and short_sessions and from those of the requests (b), (d), (e), (g) and (m) in rules and demands; in replay
and LimitedSweeps from what is claimed, too. An entry that does not type is told so when it is tried, and is left out of
the list by hand.

Each edit is tried twice at most:

1. against the trials alone, in a copy of the crate `rules` that has its types, its definitions and its trials, with
   those of the crate `trials`: no law and no function. There `trials-hold` must fail, over one part of the trials (the
   cheap lists first, then list by list), or a statement of rules' own trials, of a request's or of the filing's: that
   is a failure of the whole. These are computed, so the edit is refused by its meaning. An edit that passes all parts
   is checked against the whole from nothing.
2. against the proofs, in a copy of all crates, where the trials let it pass or where it is an edit of another crate
   (`file: sets Set` in the list). Where a statement by computation of that crate fails (its Trials or its Witness),
   the edit is refused by its meaning there, too. Else nothing tells a statement that has become false from a proof
   text that does not fit the new form: the list says by hand which statement is false and why, and the crate that has
   it is checked. Without such a line the edit is told as one that a proof text alone refuses. An edit of the list that
   means the same has a line that says why, and is not checked against the proofs.

A run begins with the definitions as they are, which must pass every part and the whole, and every crate that is asked;
where they do not, it ends there with status 2. A line is printed for each edit; on a terminal a line below them tells
how far the run is. The last line has the counts. An edit that does not compile is not counted, and another is drawn.
Edits that mean the same stand in the list with the reason, and are no failure. The status is 1 where an edit survives,
or is refused by a proof text alone, that is not known to mean the same; where a line of the list fits no definition or
does not compile; or where a check ended without a verdict. It is 2 for a wrong command line.
"""
import argparse
import itertools
import os
import queue
import random
import re
import shutil
import subprocess
import sys
import tempfile
import threading
import time

LEFT_OUT = {"Trials", "Opened", "Lengths", "Fields", "Lib"}
MORE = "MoreTrials.antt"  # the file of the crate trials, in the copy of rules
FILING = "Filing.antt"  # and the one of the filing's examples
# a statement by computation that fails, and one that is not computed to its end
TRIAL = re.compile(r"(?:Trials|Filing)\.antt:\d+:\d+: error: `(?:trials|starred|telling|reserves|units|seasons|traffic|filing)[-_][\w-]+`: expected type")
ENDLESS = re.compile(r"(?:Trials|Filing)\.antt:.*steps")
COMPUTED = re.compile(r"(?:specs/(?:Trials|Filing)|proofs/(?:Witness|Longer))\.antt:\d+:\d+: error.*(?:expected type|steps|the two types)")
TYPES = {"OneByte", "TwoBytes", "FourBytes", "FourSigned", "Fits", "ForAll"}
SIGNATURE = re.compile(r"\s*(abbrev|unfoldable|pub|use|infix|infixl|data|record|module|--)\b|\s*--")
# what a name may be mistaken for
NAMES = {
    "&&": "||", "||": "&&", "leb": "ltb", "ltb": "leb", "le_z": "lt_z", "lt_z": "le_z", "eqb": "leb", "+": "-", "-": "+",
    "*": "+", "/": "*", "%": "/", "+ℤ": "-ℤ", "-ℤ": "+ℤ", "*ℤ": "+ℤ", "true": "false", "false": "true",
    "buy": "sell", "sell": "buy", "opened": "closed", "closed": "opened", "customer": "other_class",
    "other_class": "customer", ".series1": ".series2", ".series2": ".series1", ".side1": ".side2", ".side2": ".side1",
    ".bid": ".offer", ".offer": ".bid", "best_own": "best_regular", "best_regular": "best_own",
    "market_best": "best_regular", "clear_price": "best_regular", "rests_at": "shows_at", "is_price": "is_away",
    "series1": "series2", ".ratio1": ".ratio2", ".ratio2": ".ratio1", "own_size": "best_size", "NoUnit": "Touched",
    "Worse": "Unpaired", "Unpaired": "OutOfBand", "OutOfBand": "NotOpen", "NotOpen": "Worse",
    "Executed": "Withdrawn", "Withdrawn": "Executed", "Touched": "Executed", "Replaced": "Touched",
    "≤": "<", "<": "≤", "u8": "u16", "u16": "u32", "u32": "u16", "i32": "u32", "u8At": "u16At", "u16At": "u8At", "u32At": "u16At",
}
# a function that may be forgotten: `f x` -> `x`
FORGOTTEN = {"not", "suc", "opposite", "neg_ℤ", "as_signed", "close_gaps", "nat_abs"}
# names that an edit may need, beside those that a file uses already
IMPORTS = {
    "use Rattle.std.specs.Prelude.{": ["true", "false", "not", "◌&&◌", "◌||◌", "leb", "ltb", "eqb", "◌+◌", "◌-◌", "◌*◌", "◌/◌", "◌%◌", "ℤ", "neg_ℤ", "◌+ℤ◌", "◌-ℤ◌", "◌*ℤ◌"],
    "use Rattle.std.specs.Int.Signed.{": ["le_z", "lt_z"],
    "use Rattle.rules.specs.Words.{": ["buy", "sell", "opened", "closed", "customer", "other_class"],
    "use Rattle.rules.specs.Prices.{": ["best_own", "best_regular", "shows_at"],
    "use Rattle.rules.specs.declared.Cause.TheVariants.{": ["Worse", "Unpaired", "Executed", "Withdrawn", "OutOfBand", "NotOpen", "Touched"],
    "use Rattle.rules.specs.Bytes.{": ["u8_at", "u16_at", "u32_at", "u8", "u16", "u32"],
}
# the parts of the trials in the order in which they are tried: those first that cost least for what they refuse
PARTS = [["starred", "layouts", "edges", "faults", "lefts", "numbers"], ["met", "settled", "made"], ["worked"], ["wrongs"]]
# what --draw draws from: all definitions of some files, or those named, of the requests (b), (d), (e), (g) and (m); and where claims are drawn, too
DRAWN = {
    "sets Set": "", "sets Promises": "", "layer Layer": "", "layer Promises": "", "replay Replay": "", "replay Moments": "", "feed Cursors": "",
    "feed Feed": "", "feed Sent": "", "feed Turns": "", "short_sessions Sessions": "", "short_sessions Held": "",
    "demands Ceiling": "", "demands Crosses": "", "demands Dates": "", "demands Reserve": "", "demands LimitedSweeps": "",
    "rules Settings": "",
    "rules Complex": "reversed respects_legs crosses fills_unit touch leg_in units_in leg_in_turn places_of going_round examined id_reached each_of limited_sweep",
    "rules Generation": "generations_of under_ceiling one_more counted makes make",
    "rules Order": "is_met shown_then_id price_then_id at_once first_met meet_turn",
    "rules Prices": "shown_size shows_at shows_for size_in best_size own_size weighed net near_net in_band",
    "rules Trading": "less_regular trade_at_price", "rules Standing": "shows_again show_again settle",
    "rules Refusals": "is_kind two_leg_in_range far_of in_range equal_ratios complex_in_range on_increment edition_too_low idle in_use no_edition_left refusal_of",
    "rules Messages": "length_of order_at two_leg_at message_of order_fields two_leg_fields encode_message",
    "rules Sound": "shows_fully regulars_sound complexes_sound figure_in_range edition_in_range editions_sound unfallen generations_sound sound follows",
    "rules Calls": "settings", "rules Step": "set_figure perform", "rules Words": "one_to_one is_ratio with_editions with_generations with_reached no_edition no_generations",
}
CLAIMS = {"replay Replay", "replay Moments", "demands LimitedSweeps"}
WORD = re.compile(r"\s+|--[^\n]*|[()\[\]{}]|;|[^\s()\[\]{};]+")
# a name with what is taken of it, as `c.series1`
TAKEN = re.compile(r"[^\W\d][\w']*(?:\.[^\W\d][\w']*)+")
OPEN, CLOSE = "([{", ")]}"
BREAKS = {"&&", "||", "⟫", "∷", "++", "+", "-", "*", "/", "%", "+ℤ", "-ℤ", "*ℤ", "=", ";", "|", "↦", "if", "then", "else",
          "let", "in", "elim", "record", ":", "→", "<", "×", "≡", "≢", "≤", "⊎"}
LOOSE = {"=", "if", "then", "else", "in", ";", "|", "↦", "⟫"}


class Node:
    """A word, or what stands between two brackets; at start to end of the text."""

    def __init__(self, start, end, word="", inner=None):
        self.start, self.end, self.word, self.inner = start, end, word, inner


def parsed(text, start, end):
    """The words of text[start:end], nested by brackets, without blanks and comments."""
    stack = [[]]
    opened = []
    for found in WORD.finditer(text, start, end):
        word = found.group()
        if word.isspace() or word.startswith("--"):
            continue
        if word in OPEN:
            opened.append(found.start())
            stack.append([])
        elif word in CLOSE:
            inner = stack.pop()
            stack[-1].append(Node(opened.pop(), found.end(), "", inner))
        else:
            at = found.start()
            for part in re.findall(r"\.?[^.]+", word) if TAKEN.fullmatch(word) else [word]:
                stack[-1].append(Node(at, at + len(part), part))
                at += len(part)
    return stack[0]


def clauses(text):
    """The clauses of a file's definitions: name, where its line begins, where its right side begins and ends."""
    at = 0
    found = None
    for line in text.split("\n") + [""]:
        indent = len(line) - len(line.lstrip())
        inside = found and sum(text[found[2]:at].count(c) for c in "{[") > sum(text[found[2]:at].count(c) for c in "}]")
        if found and not inside and (not line.strip() or indent <= found[3]):
            yield found[0], found[1], found[2], at - 1
            found = None
        equals = re.search(r" =(?= |$)", line)
        if not found and indent == 0 and equals and not SIGNATURE.match(line) and " : " not in line[:equals.start()]:
            name = "◌⟫◌" if " ⟫ " in line[:equals.start()] else line.split()[0]
            found = (name, at, at + equals.end(), indent)
        at += len(line) + 1


def fields(text):
    """The fields of a file's records and the constructors of its families, as what is claimed: like clauses, the type for the right side."""
    name, at, found = "", 0, None
    for line in text.split("\n") + [""]:
        field = re.match(r"  (?:pub )?(\w+) : ", line)
        if found and (field or not line.strip() or not line.startswith("    ")):
            yield found[0], found[1], found[2], at - 1
            found = None
        if head := re.match(r"pub (?:record|data) (\w+)", line):
            name = head.group(1)
        elif field and name:
            found = (f"{name}.{field.group(1)}", at, at + field.end())
        elif not line.strip():
            name = ""
        at += len(line) + 1


def levels(nodes):
    yield nodes
    for node in nodes:
        if node.inner is not None:
            yield from levels(node.inner)


def parts(nodes, breaks):
    """The runs of nodes between those words; bound names of a λ are no part of a run."""
    run = []
    bound = False
    for node in nodes:
        if node.word.startswith("λ"):
            bound = True
        if node.word in breaks or bound:
            yield run, node
            run = []
            bound = bound and not node.word.endswith(".")
        else:
            run.append(node)
    yield run, None


def atoms(run):
    """The atoms of an application, a field's name with what it is taken from."""
    found = []
    for node in run:
        if node.word.startswith(".") and len(node.word) > 1 and found:
            found[-1] = (found[-1][0], node.end)
        else:
            found.append((node.start, node.end))
    return found


def swapped(text, a, b):
    """Two spans of the text exchanged."""
    return [(a[0], b[1], text[b[0]:b[1]] + text[a[1]:b[0]] + text[a[0]:a[1]])]


def last_of(nodes):
    """The last word of the application that begins here."""
    run = next(parts(nodes, BREAKS))[0]
    return run[-1].word if run else ""


def word_edits(text, nodes):
    zero = {"0", "buy", "closed", "customer"}
    for i, node in enumerate(nodes):
        if node.word in NAMES and not (node.word == "eqb" and i + 2 < len(nodes) and last_of(nodes[i + 1:]) in zero):
            yield [(node.start, node.end, NAMES[node.word])]
        if node.word.isdigit():
            yield [(node.start, node.end, str(int(node.word) + 1))]
            if node.word != "0":
                yield [(node.start, node.end, str(int(node.word) - 1))]


def application_edits(text, nodes):
    for run, _ in parts(nodes, BREAKS):
        found = atoms(run)
        words = [text[a:b] for a, b in found]
        for i in range(1, len(found) - 1):
            if words[i] != words[i + 1] and words[0] != "eqb" and not {"v", "w"} & {words[i], words[i + 1]}:
                yield swapped(text, found[i], found[i + 1])
        if len(found) == 2 and words[0] in FORGOTTEN:
            yield [(found[0][0], found[1][1], words[1])]
        if len(found) == 3 and words[0] == "min":
            yield [(found[0][0], found[2][1], words[1])]
            yield [(found[0][0], found[2][1], words[2])]


def chain_edits(text, nodes, operators, loose):
    """A chain's operands dropped, and neighbours exchanged where the order may matter."""
    chain = []
    for run, stop in parts(nodes, operators | loose):
        if run:
            chain.append((run[0].start, run[-1].end))
        elif stop is not None and stop.word in operators:
            chain.append(None)
        if stop is None or stop.word in loose or stop.word.startswith("λ") or stop.word.endswith("."):
            yield from drops(text, [c for c in chain if c])
            chain = []


def drops(text, chain):
    for i in range(1, len(chain)):
        yield [(chain[i - 1][1], chain[i][1], "")]
    if len(chain) > 1:
        yield [(chain[0][0], chain[1][0], "")]


def conjunct_edits(text, nodes):
    yield from chain_edits(text, nodes, {"&&", "||"}, LOOSE)


def step_edits(text, nodes):
    """Steps dropped or exchanged; the first step has the venue as its last argument."""
    for operator in ("⟫", "++"):
        chain = []
        for run, stop in parts(nodes, {operator} | (LOOSE - {"⟫"})):
            if run:
                chain.append(run)
            if stop is None or stop.word != operator:
                spans = [(r[0].start, r[-1].end) for r in chain]
                for i in range(1, len(spans)):
                    yield [(spans[i - 1][1], spans[i][1], "")]
                    if i > 1 or operator == "++":
                        yield swapped(text, spans[i - 1], spans[i])
                if operator == "⟫" and len(chain) > 1 and len(chain[0]) > 1:
                    last = chain[0][-1]
                    first = text[chain[0][0].start:chain[0][-2].end]
                    second = text[spans[1][0]:spans[1][1]]
                    yield [(spans[0][0], spans[1][1], f"({second}) {text[last.start:last.end]} ⟫ {first}")]
                chain = []


def choice_edits(text, nodes):
    """`if c then a else b`: a alone, b alone, the two exchanged; neighbours of a chain exchanged."""
    for i, node in enumerate(nodes):
        if node.word != "if":
            continue
        depth, then, other = 0, None, None
        for j in range(i + 1, len(nodes)):
            word = nodes[j].word
            if word == "if":
                depth += 1
            elif word == "then" and depth == 0:
                then = j
            elif word == "else" and depth == 0:
                other = j
                break
            elif word == "else":
                depth -= 1
        if then is None or other is None:
            continue
        end = next((j for j in range(other, len(nodes)) if nodes[j].word in (";", "|")), len(nodes))
        a = (nodes[then + 1].start, nodes[other - 1].end)
        b = (nodes[other + 1].start, nodes[end - 1].end)
        condition = (nodes[i + 1].start, nodes[then - 1].end)
        yield [(node.start, b[1], text[a[0]:a[1]])]
        yield [(node.start, b[1], text[b[0]:b[1]])]
        if nodes[other + 1].word != "if":
            yield swapped(text, a, b)
            continue
        inner = next(j for j in range(other + 1, end) if nodes[j].word == "then")
        close = next(j for j in range(inner, end) if nodes[j].word == "else")
        second = (nodes[other + 2].start, nodes[inner - 1].end)
        row = r"eqb (\w+) \d+$"
        same = [re.match(row, text[x[0]:x[1]]) for x in (condition, second)]
        if all(same) and same[0].group(1) == same[1].group(1):
            continue
        here = (condition[0], a[1])
        there = (second[0], nodes[close - 1].end)
        yield swapped(text, here, there)


def field_edits(text, nodes):
    """Two neighbouring values of a record exchanged."""
    fields = []
    for run, stop in parts(nodes, {";"}):
        equals = [i for i, n in enumerate(run) if n.word == "="]
        if equals and len(run) > equals[0] + 1:
            fields.append((run[equals[0] + 1].start, run[-1].end))
    for a, b in zip(fields, fields[1:]):
        yield swapped(text, a, b)


KINDS = {
    word_edits: "another word or number", application_edits: "arguments exchanged, or a function forgotten", conjunct_edits: "a condition dropped",
    step_edits: "a step dropped or exchanged", choice_edits: "a branch dropped or exchanged", field_edits: "two fields exchanged",
}


def edits_of(text, start, end):
    """All wrong forms of what stands at start to end: what kind of edit, and the whole text anew, each once."""
    seen = {text}
    for nodes in levels(parsed(text, start, end)):
        for kind, words in KINDS.items():
            for edit in kind(text, nodes):
                new = text
                for a, b, put in edit:
                    new = new[:a] + put + new[b:]
                if new not in seen:
                    seen.add(new)
                    yield words, new


def one_line(text):
    return " ".join(text.split())


def shown(old, new):
    """What differs, as whole lines."""
    a, b = old.split("\n"), new.split("\n")
    while a and b and a[0] == b[0]:
        a, b = a[1:], b[1:]
    while a and b and a[-1] == b[-1]:
        a, b = a[:-1], b[:-1]
    return f"`{one_line(' '.join(a))}` -> `{one_line(' '.join(b))}`"


class Wrong:
    """A wrong definition of the list: of a file of a crate, what is put for what, what is wrong, and which statement is false."""

    def __init__(self, place, why):
        self.crate, self.file = place.split() if " " in place else ("rules", place)
        self.why, self.olds, self.news, self.false, self.same = why, [], [], "", ""

    def edited(self, text):
        """The file's text with the edit; None where a line of it fits nothing, or several places."""
        if not self.olds or len(self.olds) != len(self.news):
            return None
        for old, new in zip(self.olds, self.news):
            if text.count(old) != 1:
                return None
            text = text.replace(old, new)
        return text


def listed(path):
    """The wrong definitions of the list, and the edits that mean the same (line: why)."""
    fixed, same, why = [], {}, ""
    for line in read(path).split("\n"):
        if line.startswith("# "):
            why = line[2:]
        elif line.startswith("file: "):
            fixed.append(Wrong(line[6:], why))
        elif line.startswith("old: "):
            fixed[-1].olds.append(line[5:].replace("\\n", "\n"))
        elif line.startswith("new:"):
            fixed[-1].news.append(line[5:].replace("\\n", "\n"))
        elif line.startswith("false: "):
            fixed[-1].false = line[7:]
        elif line.startswith("equal: "):
            fixed[-1].same = line[7:]
        elif line.startswith("same: "):
            same[line[6:]] = why
    return fixed, same


def read(path):
    with open(path, encoding="utf-8") as file:
        return file.read()


def write(path, text):
    with open(path, "w", encoding="utf-8") as file:
        file.write(text)


def with_imports(text):
    lines = text.split("\n")
    for start, names in IMPORTS.items():
        if at := [i for i, line in enumerate(lines) if line.startswith(start)]:
            has = [n for i in at for n in lines[i][len(start):-1].split(", ")]
            lines[at[0]] = ", ".join([lines[at[0]][:-1]] + [n for n in names if n not in has]) + "}"
    return "\n".join(lines)


def said_by(command, folder):
    """Whether a crate is proved, by this command in its folder; its errors; and the end of what it said."""
    done = subprocess.run(["rt", command], cwd=folder, capture_output=True, text=True, check=False)
    said = (done.stdout + done.stderr).split("\n")
    errors = [re.sub(r"^.*?((?:specs|proofs|src)/)", r"\1", line) for line in said if ": error" in line]
    passed = done.returncode == 0 and any(line.startswith("logic=proved") for line in said)
    return passed, errors, " ".join(said)[-300:]


class Copy:
    """A copy of the crate rules with types, definitions and trials alone, those of the crate trials among them."""

    def __init__(self, root, place, files):
        self.tree = place
        self.specs = f"{place}/crates/rules/specs"
        shutil.copytree(f"{root}/crates/rules/specs", self.specs)
        shutil.copytree(f"{root}/crates/rules/src", f"{place}/crates/rules/src")
        write(f"{place}/crates.txt", "rules:\n")
        for name, text in files.items():
            self.write(f"{name}.antt", text)
        self.trials, self.filing = (read(f"{root}/crates/trials/specs/{name}") for name in ("Trials.antt", FILING))
        self.lib = files["Lib"].rstrip("\n") + "\npub mod MoreTrials\n"
        self.whole()
        names = re.search(r"(?m)^trials = (.*)$", self.trials).group(1).split(" ++ ")
        early = [[n for n in part if n in names] for part in PARTS]
        self.parts = [p for p in early if p] + [[n] for n in names if not any(n in part for part in PARTS)]

    def write(self, name, text):
        write(f"{self.specs}/{name}", text)

    def whole(self):
        """All trials, and the filing's."""
        self.write(MORE, self.trials)
        self.write(FILING, self.filing)
        self.write("Lib.antt", self.lib + "pub mod Filing\n")

    def only(self, part):
        """One statement over some of the lists in the place of that over all, which is asked list by list; and not the filing's file, which no
        line of Lib names then."""
        lists = "pub trials : List Trial\ntrials = " + " ++ ".join(part) + "\n\n"
        holds = "pub trials-hold : map outcome trials ≡ map expected trials\nunfolding opened-rules tried staged trials\ntrials-hold = refl\n\n"
        self.write(MORE, re.sub(r"(?s)-- every trial of a list comes out.*?(?=pub reserves-hold)", lambda _: lists + holds, self.trials))
        self.write("Lib.antt", self.lib)
        if os.path.exists(f"{self.specs}/{FILING}"):
            os.remove(f"{self.specs}/{FILING}")

    def checked(self, command="check"):
        """survives, refused, compiles-not or NO VERDICT, with the line that says why."""
        passed, errors, said = said_by(command, f"{self.tree}/crates/rules")
        if passed:
            return "survives", ""
        if errors and all(TRIAL.search(e) or ENDLESS.search(e) for e in errors):
            return "refused", errors[0]
        if errors:
            return "compiles-not", errors[0]
        return "NO VERDICT", said

    def tried(self, name, new, old):
        """A file with a new text, part by part and then whole from nothing; then the old text again."""
        self.write(name, new)
        for part in self.parts:
            self.only(part)
            what, why = self.checked()
            if what != "survives":
                break
        self.whole()
        if what == "survives":
            what, why = self.checked("verdict")
        self.write(name, old)
        return what, why


class Proofs:
    """A copy of all crates, in which an edit that no trial of the rules refuses is held against the proofs."""

    def __init__(self, root, place):
        self.root, self.tree, self.lock = root, place, threading.Lock()
        # What checks have kept in the crates' folders out/, rt takes from there.
        shutil.copytree(f"{root}/crates", f"{place}/crates", ignore=shutil.ignore_patterns("must-fail", "out"))
        shutil.copy(f"{root}/crates.txt", f"{place}/crates.txt")

    def unedited(self, crates):
        """Why these crates do not pass as they are; nothing where they do."""
        passed, errors, said = self.proved(crates)
        return "" if passed else (errors + [said])[0]

    def proved(self, crates):
        """Whether these crates are proved, each with all that it stands on; the errors of the first that is not; and the end of what was said."""
        passed, errors, said = True, [], ""
        for crate in crates:
            passed, errors, said = said_by("check", f"{self.tree}/crates/{crate}")
            if not passed:
                break
        return passed, errors, said

    def tried(self, wrong, name, new):
        """survives, refused, false, text, compiles-not or NO VERDICT, and why, of an edit of a file of specs/: `wrong` of the list, or None."""
        crate = wrong.crate if wrong else "rules"
        false = wrong.false if wrong else ""
        with self.lock:
            path = f"{self.tree}/crates/{crate}/specs/{name}.antt"
            old = read(path)
            write(path, new)
            found = self.checked(list(dict.fromkeys([crate] + false.split()[:1])), false)
            write(path, old)
            return found

    def checked(self, asked, false):
        passed, errors, said = self.proved(asked)
        if passed:
            return "survives", ""
        if not errors:
            return "NO VERDICT", said
        if computed := [e for e in errors if COMPUTED.search(e)]:
            return "refused", computed[0]
        if untyped := [e for e in errors if e.startswith("specs/")]:
            return "compiles-not", untyped[0]
        return ("false", f"{false}: {errors[0]}") if false else ("text", errors[0])


def in_rounds(by_definition, seed):
    """Edits as (file, definition, edit), definitions in an order by the seed, one edit of each in a round."""
    order = sorted(by_definition)
    chance = random.Random(seed)
    chance.shuffle(order)
    for place in order:
        chance.shuffle(by_definition[place])
    for turn in range(max(len(edits) for edits in by_definition.values())):
        for place in order:
            if turn < len(by_definition[place]):
                yield place[0], place[1], by_definition[place][turn]


def drawn(files, seed, wanted):
    """Edits of the files of rules as (file, definition, new text)."""
    by_definition = {}
    for name, text in files.items():
        if name in LEFT_OUT or (wanted and name not in wanted):
            continue
        for definition, _, start, end in clauses(text):
            if definition not in TYPES:
                by_definition.setdefault((name, definition), []).extend(new for _, new in edits_of(text, start, end))
    return in_rounds(by_definition, seed)


def is_claim(text, name):
    return bool(re.search(rf"(?m)^(?:\w+ )?pub {re.escape(name)} .*Type 0$", text))


def entries(root, seed, count):
    """So many entries for the list, drawn from DRAWN."""
    by_definition, texts = {}, {}
    for place, names in DRAWN.items():
        crate, file = place.split()
        text = texts[place] = with_imports(read(f"{root}/crates/{crate}/specs/{file}.antt"))
        for definition, _, start, end in itertools.chain(clauses(text), fields(text) if place in CLAIMS else []):
            if (not names or definition in names.split()) and (place in CLAIMS or not is_claim(text, definition)):
                by_definition.setdefault((place, definition), []).extend(edits_of(text, start, end))
    for number, (place, definition, (words, new)) in enumerate(itertools.islice(in_rounds(by_definition, seed), count), 1):
        old, new = differing(texts[place], new)
        yield f"# drawn {number}: {definition}: {words}\nfile: {place.removeprefix('rules ')}\nold: {old}\nnew: {new}"


def differing(old, new):
    """The lines that differ, as `old` and `new` of the list, with as many lines before them as make them fit one place."""
    a, b = old.split("\n"), new.split("\n")
    first = next(i for i, (x, y) in enumerate(zip(a, b)) if x != y)
    last = next(i for i, (x, y) in enumerate(zip(a[::-1], b[::-1])) if x != y)
    while old.count("\n".join(a[first:len(a) - last])) > 1:
        first -= 1
    return "\\n".join(a[first:len(a) - last]), "\\n".join(b[first:len(b) - last])


OUTCOMES = {
    "refused": "refused by a trial",
    "false": "refused by a statement that becomes false",
    "text": "refused by a proof text alone",
    "means the same": "that mean the same",
    "survives": "that survive",
    "compiles-not": "that do not compile",
    "NO VERDICT": "without a verdict",
    "NO PLACE": "of the list without a place",
}

FAILURES = ("text", "survives", "NO VERDICT", "NO PLACE")


class Tally:
    """The lines said and counted; how many edits are still to be drawn; and how far the run is, on a terminal."""

    def __init__(self, count, log, same):
        self.left, self.log, self.same = count, log, same
        self.counts = dict.fromkeys(OUTCOMES, 0)
        self.total, self.begun = count, time.monotonic()
        self.failed = False
        self.lock = threading.Lock()

    def told(self, fixed, what, line, why):
        with self.lock:
            self.counts[what] += 1
            self.failed |= what in FAILURES or (fixed and what == "compiles-not")
            if what == "compiles-not" and not fixed:
                self.left += 1
                self.total += 1
            said = f"{what}: {line} | {why[:160]}"
            self.progress("")
            print(said, flush=True)
            if self.log:
                with open(self.log, "a", encoding="utf-8") as file:
                    print(said, file=file)
            self.progress(self.how_far())

    def how_far(self):
        done, gone = sum(self.counts.values()), time.monotonic() - self.begun
        left = gone / max(done, 1) * max(self.total - done, 0)
        passed = sum(self.counts[k] for k in FAILURES)
        return f"{done} of {self.total} tried, {passed} not refused, {gone / 60:.0f} min gone, about {left / 60:.0f} min to go"

    def progress(self, line):
        """A line that the next one takes the place of; nothing where no one looks at it."""
        if sys.stderr.isatty():
            print(f"\r\x1b[K{line}", end="", file=sys.stderr, flush=True)

    def ended(self):
        self.progress("")
        print(", ".join(f"{self.counts[k]} {words}" for k, words in OUTCOMES.items()))
        return 1 if self.failed else 0


class Run:
    """The edits to be tried, and the copies in which they are."""

    def __init__(self, given, root, folder):
        specs = f"{root}/crates/rules/specs"
        self.root, self.folder = root, folder
        self.files = {n[:-5]: with_imports(read(f"{specs}/{n}")) for n in sorted(os.listdir(specs))}
        fixed, same = listed(given.list)
        self.wanted = [w for w in fixed if given.skip == 0 and (not given.files or w.file in given.files)]
        self.tally = Tally(given.count, given.log, same)
        self.tally.total += len(self.wanted)
        self.todo = queue.Queue()
        for wrong in self.wanted:
            self.todo.put(wrong)
        self.draws = itertools.islice(drawn(self.files, given.seed, given.files), given.skip, None)
        self.lock = threading.Lock()
        self.proofs = Proofs(root, f"{folder}/all")

    def unknown(self, names):
        return [n for n in names if n not in self.files and not any(n == w.file for w in self.wanted)]

    def unedited(self):
        """Why the definitions as they are do not pass the trials and the proofs; nothing where they do."""
        self.tally.progress("the definitions as they are ...")
        what, why = "survives", ""
        if self.tally.left or any(w.crate == "rules" for w in self.wanted):
            what, why = Copy(self.root, f"{self.folder}/unedited", self.files).tried("Base.antt", self.files["Base"], self.files["Base"])
        if what == "survives":
            why = self.proofs.unedited(sorted({c for w in self.wanted for c in [w.crate] + w.false.split()[:1]} | {"rules"}))
        self.tally.progress("")
        return why if what == "survives" else f"{what}: {why}"

    def text_of(self, wrong):
        """The file that an edit of the list is of; nothing where there is no such file."""
        if wrong.crate == "rules":
            return self.files.get(wrong.file, "")
        path = f"{self.root}/crates/{wrong.crate}/specs/{wrong.file}.antt"
        return with_imports(read(path)) if os.path.exists(path) else ""

    def next_edit(self):
        """A wrong definition of the list, or one drawn: the file, what the line says, the new text and the one of the list; None at the end."""
        with self.lock:
            if not self.todo.empty():
                wrong = self.todo.get()
                place = wrong.file if wrong.crate == "rules" else f"{wrong.crate} {wrong.file}"
                return wrong.file, f"{place}: {wrong.why}", wrong.edited(self.text_of(wrong)), wrong
            with self.tally.lock:
                if self.tally.left == 0:
                    return None
                self.tally.left -= 1
            name, definition, new = next(self.draws, (None, None, None))
            return new and (name, f"{name}.{definition}: {shown(self.files[name], new)}", new, None)

    def outcome(self, copy, name, line, new, wrong):
        if new is None:
            return "NO PLACE", ""
        what, why = "survives", ""
        if wrong is None or wrong.crate == "rules":
            what, why = copy.tried(f"{name}.antt", new, self.files[name])
        same = wrong.same if wrong else self.tally.same.get(line, "")
        if what == "survives" and same:
            return "means the same", same
        if what == "survives":
            what, why = self.proofs.tried(wrong, name, new)
        return what, why

    def work(self, number):
        copy = Copy(self.root, f"{self.folder}/{number}", self.files)
        while edit := self.next_edit():
            name, line, new, wrong = edit
            try:
                what, why = self.outcome(copy, name, line, new, wrong)
            except OSError as fault:
                what, why = "NO VERDICT", str(fault)
            self.tally.told(wrong is not None, what, line, why)


def main():
    root = os.path.dirname(os.path.dirname(os.path.abspath(__file__)))
    arguments = argparse.ArgumentParser(description=__doc__, formatter_class=argparse.RawDescriptionHelpFormatter)
    arguments.add_argument("--draw", action="store_true", help="print K entries for the list, and try nothing")
    arguments.add_argument("--list", default=f"{root}/tests/wrong_definitions.txt", help="a list in another file")
    arguments.add_argument("--seed", type=int, default=1)
    arguments.add_argument("--count", type=int, default=150)
    arguments.add_argument("--skip", type=int, default=0)
    arguments.add_argument("--jobs", type=int, default=2)
    arguments.add_argument("--log", default="")
    arguments.add_argument("files", nargs="*", help="names of files of specs/, as Complex")
    given = arguments.parse_args()
    if given.draw:
        print("\n".join(entries(root, given.seed, given.count)))
        return 0
    folder = tempfile.mkdtemp(prefix="wrong-definitions-")
    try:
        run = Run(given, root, folder)
        if unknown := run.unknown(given.files):
            arguments.error(f"{', '.join(unknown)}: no file of crates/rules/specs and of no line of the list")
        if why := run.unedited():
            print(f"wrong_definitions.py: the definitions as they are do not pass the trials: {why}", file=sys.stderr)
            return 2
        threads = [threading.Thread(target=run.work, args=(n,), daemon=True) for n in range(given.jobs)]
        for thread in threads:
            thread.start()
        for thread in threads:
            thread.join()
        return run.tally.ended()
    finally:
        shutil.rmtree(folder, ignore_errors=True)


if __name__ == "__main__":
    sys.exit(main())
