#!/usr/bin/env python3
"""Holds the papers (README.md, docs/*.md, docs/requests/*.md) to the tree.

    tests/papers.py [--names | --write]

Says each fault as FILE:LINE: what is wrong, and ends with status 1 where there is one. It asks that

- every name in backticks exists:
    "Words: `is_price`"         declared in crates/rules/specs/Words.antt (of Trials also in crates/trials/specs); the word holds to the end of the
                                sentence or cell
    "reader Head: `head_at`"    declared in crates/reader/specs/Head.antt or proofs/Head.antt
    "engine: `run`"             a function, type, definition or law of that crate
    "Type: `Venue`"             a type of crates/rules/src/lib.rt
    `Soundness.NeverNine`       declared in a file Soundness.antt; `levels::load` is a function of the crate levels
    "`judge` (settling)"        a function, type, definition or law of that crate
    `is_price`                  declared anywhere in crates/, host/ or include/
  In a table a column headed "Wrong edit" has must-fail edits after their crate, one headed "Test" functions after their file
  in host/sessions/tests/all, and one headed "Code" functions of crates/*/src alone; one headed by a crate, or by several, has
  their functions; one headed by a file has that file's names; and in one headed "File" each row begins with the file that its
  names are of. Code of more than a name is not looked at, but "step (messages)" between lines of ``` is a function of that crate;
- a number in brackets after a name or a quotation in CROSSWALK is its line. In a column headed "Definition" or "Definitions" it is the
  line that declares the name; in one headed "Trial" a line of crates/trials/specs/Trials.antt, or after a star of
  crates/rules/specs/Trials.antt, that quotes the words or begins with them, and of "Example 3" the line of crates/trials/specs/Filing.antt;
- every path beginning with crates/, host/, docs/, tests/, include/, examples/ or bin/ exists (NAME and the like stand for any);
- every definition of crates/rules/specs, but those of Trials and Opened, is named after its file in docs/CROSSWALK.md or
  docs/requests/*.md;
- every row ("W3") that the columns "01", "In 01", "Definitions", "Rule" and "Difference" name has a line under "No." or begins a quotation
  under "01", and every "Reading 14" is a number of docs/DECISIONS.md, section 2;
- in crates.txt a crate uses only crates above it and has a line that says what it is for, and README's table "Layers" has its layers and crates;
- no line outside tables and code is longer than 160 characters, and no path of a machine is told;
- docs/ without docs/requests/, PORT.md, DESIGN-PASS.md and LOOK-BACK.md is at most 105,000 bytes, and each note to a request (docs/requests/a.md and so on) at most 3,000.

--names prints what the papers may name, a line for each file or crate. --write puts the lines of the sources into CROSSWALK
first, where there is one line to put.
"""
import glob
import os
import re
import sys

MOST_BYTES = 105_000
MOST_PER_NOTE = 3_000
MOST_LINE = 160
# In these papers a name without a word before it must exist as well.
EXACT = ("README.md", "docs/CROSSWALK.md", "docs/PROMISES.md", "docs/AUDIT.md", "docs/ARCHITECTURE.md", "docs/DECISIONS.md", "docs/requests/")
# Words of the languages and of their libraries, and names of the tools.
FOREIGN = {"ensures", "requires", "main", "memcpy", "memset", "valgrind", "rt", "cargo", "cc", "unsafe", "now", "entry",
           "exit", "old", "new", "result", "match", "extern", "std", "Global", "HostRuntime", "true", "false"}
NOT_ASKED = {"Trials", "Opened", "Lib"}
MACHINE = re.compile(r"(?<![\w.~-])/(?:tmp|work|root|opt|home|usr|var|etc|mnt)\b")
PATH = re.compile(r"(?<![\w/.-])(?:crates|host|docs|tests|include|examples|bin)/[\w./+*-]*[\w*]")
SPAN = re.compile(r"`([^`]+)`")
WORD = re.compile(r"(?:\b([a-z_]+) )?\b(\w+): (?=`)")
ROW = re.compile(r"(?<![\w(])([A-Z])(\d+)\b")
READING = re.compile(r"\bReadings? (\d+(?:(?:, | to | and )\d+)*)")
OF_CRATE = re.compile(r"`\w+`(?:(?:, | and )`\w+`)* \(([a-z_]+)\)")
DRAWN = re.compile(r"\b(\w+) \(([a-z_]+)\)")
COLUMNS_WITH_LINES = ("Definition", "Definitions", "Trial")
# What a line number stands after in CROSSWALK, and the file word that says of which file a name is.
LINED = re.compile(r'(?:\b([a-z_]+) )?\b([A-Z]\w*): (?=`)|`([^`]+)` \(\d+\)|(\*?)"([^"]+)" \(\d+\)|Example (\d+) \(\d+\)')
DECLARED = re.compile(r"(\s*)((?:(?:pub|abbrev|unfoldable|opaque|private|record|data)\s+)*)([^\s:(){}\[\]]+)(?:\s+[({].*?)?\s+:(?:\s|$)")
NAME = re.compile(r"[^\W\d][\w·⟫◌'-]*|◌[^\s`.()]+◌")


def read(path):
    with open(path, encoding="utf-8") as f:
        return f.read()


def antt_names(path):
    """The names that a file of definitions or proofs declares, and those of them that are no field or constructor."""
    every, own = set(), set()
    in_type = False
    for line in read(path).split("\n"):
        if line and not line[0].isspace():
            in_type = bool(re.match(r"(?:pub\s+)?(?:record|data)\s", line))
        found = DECLARED.match(line)
        if not found or line.lstrip().startswith("--"):
            continue
        every.add(found[3])
        if not found[1] or not in_type:
            own.add(found[3])
    return every, own


def declared_at(path, name):
    """The lines of a file of definitions that declare a name."""
    lines = enumerate(read(path).split("\n"), 1) if os.path.exists(path) else ()
    return [n for n, line in lines if (found := DECLARED.match(line)) and found[3] == name]


def said_at(path, words):
    """The lines of a file whose comment says these words."""
    return [n for n, line in enumerate(read(path).split("\n"), 1) if re.match(r"\s*-- ", line) and words in line]


def code_names(path):
    """The functions and types of a source file, and its types' fields and cases."""
    text = read(path)
    names = set(re.findall(r"\b(?:fn|struct|enum|const|static|trait|mod|type) (\w+)", text))
    for body in re.findall(r"\b(?:struct|enum) \w+[^{;]*\{(.*?)\n\}", text, re.S):
        names.update(re.findall(r"^\s+(?:pub )?(\w+)\s*(?:[:({,]|$)", body, re.M))
    return names


class Tree:
    """What the papers may name."""

    def __init__(self):
        self.files = {}      # (crate, stem) -> names declared in specs/stem.antt or proofs/stem.antt
        self.specs = {}      # stem -> definitions of crates/rules/specs
        self.crates = {}     # crate -> names of its code, definitions and laws
        self.functions = {}  # crate -> names of its code
        self.edits = {}      # crate -> must-fail edits
        self.tests = {}      # stem -> functions of host/sessions/tests/all/stem.rs
        for root in sorted(glob.glob("crates/*")):
            self.read_crate(root)
        self.all = set().union(*self.crates.values(), *self.edits.values(), self.crates, *map(set, self.files))
        for path in glob.glob("host/**/*.rs", recursive=True):
            if "/target/" not in path:
                self.all |= code_names(path) | {os.path.basename(path)[:-3]}
        self.all |= {os.path.basename(p) for p in glob.glob("host/*")}
        self.all |= set(re.findall(r"\b\w+", read("include/legging.h")))
        for path in glob.glob("host/sessions/tests/all/*.rs"):
            self.tests[os.path.basename(path)[:-3]] = code_names(path)

    def read_crate(self, root):
        crate = os.path.basename(root)
        code = set().union(*map(code_names, glob.glob(root + "/src/*.rt")))
        names = set(code)
        for path in glob.glob(root + "/specs/*.antt") + glob.glob(root + "/proofs/*.antt"):
            stem = os.path.basename(path)[:-5]
            every, own = antt_names(path)
            names |= every
            self.files.setdefault((crate, stem), set()).update(every)
            if crate == "rules" and "/specs/" in path and stem not in NOT_ASKED:
                self.specs[stem] = own
        self.crates[crate], self.functions[crate] = names, code
        self.edits[crate] = {os.path.basename(p)[:-5] for p in glob.glob(root + "/must-fail/*.edit")}

    def of_stem(self, stem):
        """The names of all files of a name, or None."""
        found = [names for (_, s), names in self.files.items() if s == stem]
        return set().union(*found) if found else None

    def of_file(self, crate, stem):
        """The names of a crate's file, or None. Without a crate: of the rules' definitions and the trials, else of all files of that name."""
        if crate:
            return self.files.get((crate, stem))
        if stem in self.specs or stem in NOT_ASKED:
            return self.files[("rules", stem)] | self.files.get(("trials", stem), set())
        return self.of_stem(stem)

    def of_word(self, crate, word, column):
        """What the names after a word may be, with what to call it; None where it is no word of ours."""
        if column == "Wrong edit" and word in self.edits:
            return self.edits[word], f"no edit in crates/{word}/must-fail"
        if column == "Test" and word in self.tests:
            return self.tests[word], f"no function of host/sessions/tests/all/{word}.rs"
        if column == "Code" and word in self.functions:
            return self.functions[word], f"no function of crates/{word}/src"
        if word == "Type":
            return self.functions["rules"], "no type of crates/rules/src/lib.rt"
        if word in self.crates:
            return self.crates[word] | self.edits[word], f"not in the crate {word}"
        if not word[0].isupper():
            return None
        if crate not in self.crates:
            crate = None
        names = self.of_file(crate, word)
        where = f"{crate or 'rules'}: {word}.antt"
        return (names, f"not declared in {where}") if names is not None else (set(), f"there is no file {where} for it")


def rows_of(cell):
    """The rows that a cell of the column "No." stands for: one, several, or from one to another."""
    rows = {found[0] for found in ROW.finditer(cell)}
    for letter, low, high in re.findall(r"([A-Z])(\d+)–[A-Z](\d+)", cell):
        rows |= {f"{letter}{n}" for n in range(int(low), int(high))}
    return rows


class Papers:
    def __init__(self, tree):
        self.tree = tree
        self.faults = []
        self.named = {}  # stem -> definitions named after their file
        self.rows = set()
        self.said = []   # rows that are named: path, line, row

    def fault(self, path, line, text):
        self.faults.append(f"{path}:{line}: {text}")

    def paper(self, path):
        fenced, header, prose = False, [], []
        for number, line in enumerate(read(path).split("\n") + [""], 1):
            if found := MACHINE.search(line):
                self.fault(path, number, f"path of a machine: {found[0]}")
            # A line that is wrapped goes on with its paragraph; one that is indented by four is code unless it goes on so.
            if not prose and line.startswith("    ") or fenced or line.startswith("```"):
                fenced ^= line.startswith("```")
                for name, crate in DRAWN.findall(line) if fenced else []:
                    if name not in self.tree.functions.get(crate, [name]):
                        self.fault(path, number, f"{name}: no function of crates/{crate}/src")
                continue
            self.paths(path, number, line)
            if prose and (line.startswith("|") or not line.strip() or re.match(r"\s*(?:[-*#]|\d+\.) ", line)):
                self.text(path, prose, "", "")
                prose = []
            if not line.startswith("|"):
                header = []
                if len(line) > MOST_LINE:
                    self.fault(path, number, f"{len(line)} characters, at most {MOST_LINE} outside tables and code")
                if line.strip():
                    prose.append((number, line.strip()))
                continue
            cells = [cell.strip() for cell in re.split(r"(?<!\\)\|", line)[1:-1]]
            if not header:
                header = cells
            elif not set(line) <= set("|-: "):
                self.row(path, number, header, cells)

    def row(self, path, number, header, cells):
        if len(cells) != len(header):
            self.fault(path, number, f"{len(cells)} cells under {len(header)} headings")
        for column, cell in zip(header, cells):
            if column == "No.":
                self.rows |= rows_of(cell)
            if column == "01":
                self.rows |= {found[1] for found in re.finditer(r'(?<![\w(])([A-Z]\d+) "', cell)}
        for column, cell in zip(header, cells):
            if column in ("01", "In 01", "Definitions", "Rule", "Difference"):
                self.said += [(path, number, found[0]) for found in ROW.finditer(SPAN.sub("", cell))]
            before = cells[0] if header[0] == "File" and column != "File" else column
            self.text(path, [(number, cell)], column, before)

    def paths(self, path, number, line):
        for found in PATH.finditer(line):
            if re.search(r"[A-Z]{3,}(?!\w*\.md)", found[0]) or found[0].startswith("docs/requests"):
                continue
            if not glob.glob(found[0]) and not found[0].startswith("host/target"):
                self.fault(path, number, f"no such file: {found[0]}")

    def text(self, path, lines, column, heading):
        """The names of a cell or of a paragraph's numbered lines; `heading` is what the column or row is headed by."""
        for sentence in re.split(r"(?<=\.) (?=[A-Z(a-z`])", " ".join(line for _, line in lines)):
            self.of_crates(path, lines[0][0], sentence)
            scope, stem = self.headed(heading)
            end = 0
            for span in SPAN.finditer(sentence):
                words = list(WORD.finditer(sentence, end, span.start() + 1))
                if words and words[-1].end() == span.start():
                    crate, word = words[-1].groups()
                    if (found := self.tree.of_word(crate, word, column)) is not None:
                        scope = found
                        stem = word if crate not in self.tree.crates or crate == "rules" else None
                end = span.end()
                number = next((n for n, line in lines if span[0] in line), lines[0][0])
                self.name(path, number, span[1], scope, stem)

    def of_crates(self, path, number, sentence):
        """The names before a crate in brackets: `cause_order`, `verdict_number` (arithmetic)."""
        for found in OF_CRATE.finditer(sentence):
            for name in SPAN.findall(found[0]):
                if found[1] in self.tree.crates and name not in self.tree.crates[found[1]]:
                    self.fault(path, number, f"`{name}`: not in the crate {found[1]}")

    def headed(self, heading):
        """What the names of a column are where no word stands before them, and the file of the rules that they are then of."""
        if heading == "Code":
            return (set().union(*self.tree.functions.values()), "no function of crates/*/src"), None
        crates = heading.split(", ")
        if all(crate in self.tree.functions for crate in crates):
            names = set().union(*(self.tree.functions[crate] for crate in crates))
            return (names, "no function of " + " or ".join(f"crates/{crate}/src" for crate in crates)), None
        words = heading.split()
        if len(words) == 2 and tuple(words) in self.tree.files:
            return (self.tree.files[tuple(words)], f"not declared in {words[0]}: {words[1]}.antt"), None
        if len(words) == 1 and words[0] in self.tree.specs:
            return (self.tree.of_file(None, words[0]), f"not declared in rules: {words[0]}.antt"), words[0]
        return None, None

    def name(self, path, number, name, scope, stem):
        if parts := re.fullmatch(r"([A-Z]\w*)\.([^\s.]+)", name):
            if (names := self.tree.of_stem(parts[1])) is not None and parts[2] not in names | {"antt"}:
                self.fault(path, number, f"`{name}`: {parts[1]}.antt does not declare {parts[2]}")
            return
        if parts := re.fullmatch(r"(\w+)::(\w+)", name):
            if parts[1] in self.tree.crates and parts[2] not in self.tree.functions[parts[1]]:
                self.fault(path, number, f"`{name}`: no function of crates/{parts[1]}/src")
            return
        if not NAME.fullmatch(name):
            return
        if scope is not None:
            if name not in scope[0]:
                self.fault(path, number, f"`{name}`: {scope[1]}")
            elif stem:
                self.named.setdefault(stem, set()).add(name)
        elif path.startswith(EXACT) and name not in self.tree.all | FOREIGN:
            self.fault(path, number, f"`{name}`: no such name in crates/, host/ or include/")

    def readings(self, path):
        """That the readings are those of DECISIONS."""
        section = read("docs/DECISIONS.md").split("\n## ")[2]
        known = set(re.findall(r"^(\d+)\. ", section, re.M))
        for number, line in enumerate(read(path).split("\n"), 1):
            for found in READING.finditer(line):
                for reading in set(re.findall(r"\d+", found[1])) - known:
                    self.fault(path, number, f"reading {reading} is no number of docs/DECISIONS.md, section 2")

    def lined(self, path, write):
        """That the numbers after names and quotations are the lines of the sources; `write` puts these in."""
        header, lines = [], read(path).split("\n")
        for at, line in enumerate(lines):
            cells = re.split(r"(?<!\\)\|", line)
            if not line.startswith("|"):
                header = []
            elif not header:
                header = [cell.strip() for cell in cells]
            else:
                right = [self.with_lines(path, at + 1, cell) if column in COLUMNS_WITH_LINES else cell for column, cell in zip(header, cells)]
                if right != cells and write:
                    lines[at] = "|".join(right)
                elif right != cells:
                    self.fault(path, at + 1, f"not the lines of the sources (--write puts them in): {'|'.join(right)}")
        if write:
            with open(path, "w", encoding="utf-8") as f:
                f.write("\n".join(lines))

    def with_lines(self, path, number, cell):
        """A cell with the lines of the sources."""
        file = "crates/rules/specs/Lib.antt"

        def placed(found):
            nonlocal file
            crate, stem, name, star, words, example = found.groups()
            if stem:
                file = f"crates/{crate if crate in self.tree.crates else 'rules'}/specs/{stem}.antt"
                return found[0]
            if name:
                at = declared_at(file, name)[:1]
            elif words:
                trials = f"crates/{'rules' if star else 'trials'}/specs/Trials.antt"
                at = said_at(trials, f'"{words}') or said_at(trials, f"-- {words}")
            else:
                at = said_at("crates/trials/specs/Filing.antt", f"-- {example}. ")
            if len(at) == 1:
                return re.sub(r"\(\d+\)$", f"({at[0]})", found[0])
            if not found[0].endswith(tuple(f"({n})" for n in at)):
                self.fault(path, number, f"{found[0]}: the lines of the sources that have it: {at}")
            return found[0]

        return LINED.sub(placed, cell)

    def rows_named(self):
        for path, number, row in self.said:
            if row not in self.rows:
                self.fault(path, number, f"there is no row {row}")

    def definitions(self):
        for stem, names in sorted(self.tree.specs.items()):
            for name in sorted(names - self.named.get(stem, set())):
                self.fault("docs/CROSSWALK.md", 1, f"{stem}: `{name}` is defined in crates/rules/specs/{stem}.antt and not named")

    def layers(self):
        """That crates.txt is in order, with a line on each crate, and that README's table of layers is its layers, the last one first."""
        layers, said, known = [], None, set()
        for number, line in enumerate(read("crates.txt").split("\n"), 1):
            if found := re.fullmatch(r"# ([a-z_]+): \S.*", line):
                said = found[1]
            elif line.startswith("# "):
                layers.append((line[2:], []))
            elif found := re.fullmatch(r"([a-z_]+)(?: staticlib)?:((?: [a-z_]+)*)", line):
                crate, used = found[1], found[2].split()
                if said != crate:
                    self.fault("crates.txt", number, f"the line before does not say what {crate} is for")
                for other in set(used) - known:
                    self.fault("crates.txt", number, f"{crate} uses {other}, which is not above it")
                known.add(crate)
                layers[-1][1].append(crate)
        rows = [f"| {title} | {', '.join(crates)} |" for title, crates in reversed(layers) if crates]
        shown = re.findall(r"^\| .*", read("README.md").split("\n## Layers\n")[1].split("\n## ")[0], re.M)[1:]
        for row in [row for row in rows if row not in shown] + [row for row in shown if row not in rows]:
            self.fault("README.md", 1, f"not a row of README's layers and a layer of crates.txt: {row}")
        if sorted(rows) == sorted(shown) and rows != shown:
            self.fault("README.md", 1, "the rows of README's layers are not in the order of crates.txt, the last layer first")

    def size(self):
        total = sum(os.path.getsize(p) for p in set(glob.glob("docs/*.md")) - {"docs/PORT.md", "docs/DESIGN-PASS.md", "docs/LOOK-BACK.md"})
        if total > MOST_BYTES:
            self.fault("docs", 0, f"{total} bytes, at most {MOST_BYTES}")
        for path in sorted(glob.glob("docs/requests/[a-z].md")):
            if os.path.getsize(path) > MOST_PER_NOTE:
                self.fault(path, 1, f"{os.path.getsize(path)} bytes, at most {MOST_PER_NOTE}")
        return total


def main():
    words = sys.argv[1:]
    if words in (["--help"], ["-h"]):
        print(__doc__.strip())
        return 0
    if words not in ([], ["--names"], ["--write"]):
        print(f"papers.py: {' '.join(words)} is not known; try --help", file=sys.stderr)
        return 2
    os.chdir(os.path.join(os.path.dirname(os.path.abspath(__file__)), ".."))
    tree = Tree()
    if words == ["--names"]:
        for (crate, stem), names in sorted(tree.files.items()):
            print(f"{crate}: {stem}: {' '.join(sorted(names))}")
        for crate, names in sorted(tree.functions.items()):
            print(f"{crate}: code: {' '.join(sorted(names))}")
        return 0
    papers = Papers(tree)
    papers.lined("docs/CROSSWALK.md", bool(words))
    # CROSSWALK and the requests' pages alone count as naming a definition.
    for path in ["docs/CROSSWALK.md"] + sorted(glob.glob("docs/requests/*.md")):
        papers.paper(path)
        papers.readings(path)
    papers.definitions()
    for path in ["README.md"] + sorted(set(glob.glob("docs/*.md")) - {"docs/CROSSWALK.md"}):
        papers.paper(path)
    papers.rows_named()
    papers.layers()
    total = papers.size()
    for fault in papers.faults:
        print(fault)
    print(f"papers: {len(papers.faults)} faults, docs/ {total} bytes")
    return 1 if papers.faults else 0


if __name__ == "__main__":
    sys.exit(main())
