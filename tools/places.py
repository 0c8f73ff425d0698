#!/usr/bin/env python3
"""Lists the lines where an older form may stand, by point of docs/DESIGN-PASS.md. Run at the top: tools/places.py [POINT]"""
import re
import sys
from collections import defaultdict
from pathlib import Path

SOURCES = sorted(Path("crates").glob("*/src/**/*.rt"))
TEXT = {
    1: r"\benum \w|-> bool\b|: bool\b|-> u(8|16)\b|Result<\w*, u(8|16)>|Result<\(\), u16>|Option<Refusal>|kind [<=]",
    3: r"\bfor \w+ in [^{]*\.\.|\bloop \{|\bwhile\b",
    4: r"fn (number|word|same|zero|none|show\w*|say\w*|refusal|group_of|draw)\b|\.number\(\) ==|impl (\w+ for \w+|fmt::Display for \w+)|saturating_add\(1\);",
    6: r": \[[\w<>&\[\]; ]+; \w+\]|\[\w+ \* \w+ \+ \w+\]|\bat\.\.at \+|if page < PAGES|let at = ",
    7: r"=> self\.\w+\(|=> over_\w+\(|if server == 0|=> \w+_all\(",
}


def lines(pattern):
    for path in SOURCES:
        for number, line in enumerate(path.read_text().splitlines(), 1):
            if not line.strip().startswith(("//", "ghost use")) and re.search(pattern, line):
                yield f"{path}:{number}: {line.strip()}"


def functions():
    """Every function outside traits and their impls: its name, parameters, clauses and place."""
    head = re.compile(r"^( *)(?:pub(?:\([a-z]+\))? )?fn (\w+)(?:<[^(]*>)?\((.*?)\)((?:[^\n{]*\{|.*?\n\1\{))$", re.M | re.S)
    for path in SOURCES:
        text = path.read_text()
        for m in head.finditer(text):
            before = text[: m.start()]
            owner = re.findall(r"^(impl[^\n]*|trait[^\n]*|pub trait[^\n]*)\{", before, re.M)
            in_trait = m[1] and owner and (" for " in owner[-1] or "trait" in owner[-1])
            yield path, m[2], re.sub(r"\s+", " ", m[3]), m[4], bool(in_trait)


def twins():
    found = defaultdict(list)
    for path, name, params, _, in_trait in functions():
        if not in_trait and name not in ("main", "run", "new"):
            found[name].append(str(path))
    for name, paths in sorted(found.items()):
        if len(paths) > 1:
            yield f"{name}: {', '.join(paths)}"
    stems = defaultdict(set)
    for path, name, _, _, in_trait in functions():
        m = re.match(r"(\w+?)_(first|second|one|two|three|five|both|either|half|in_bank|pages|calls|all)$", name)
        if m and not in_trait:
            stems[m[1], str(path)].add(name)
    for (stem, path), names in sorted(stems.items()):
        if len(names) > 1:
            yield f"{', '.join(sorted(names))}: {path}"


def repeated():
    """Facts in the clauses of three functions or more, and pairs of parameters that stand in three or more."""
    facts, pairs = defaultdict(set), defaultdict(set)
    for path, name, params, clauses, _ in functions():
        where = f"{path}:{name}"
        for clause in re.findall(r"(?:requires|ensures)(?: \w+)? \{ (.*) \}\n?", clauses):
            for fact in re.split(r" × ", clause.strip()):
                fact = re.sub(r"\b(self|pager|bank|server|result|input|tables|progress|job|shape)\b(\.\w+)*", "_", fact.strip("( )"))
                if len(fact) < 70 and "≡" not in fact:
                    facts[fact].add(where)
        names = [p for p in re.findall(r"(\w+): ", params) if p not in ("self", "rt")]
        for i, a in enumerate(names):
            for b in names[i + 1:]:
                pairs[a, b].add(where)
    for fact, places in sorted(facts.items()):
        if len(places) > 2:
            yield f"{len(places)} functions: {fact}"
    for (a, b), places in sorted(pairs.items()):
        if len(places) > 2:
            yield f"{len(places)} functions: ({a}, {b})"


def proofs():
    answers = sorted(Path("crates").glob("*/proofs/**/*.antt"))
    rows = sum(len(p.read_text().splitlines()) for p in answers)
    goals = sum(len(re.findall(r"^pub [\w-]+ : goal\.", p.read_text(), re.M)) for p in answers)
    steps = sum(len(re.findall(r"requires\.[01]\b", p.read_text())) for p in answers)
    yield f"{rows} lines in {len(answers)} files of proofs/, {goals} answers, {steps} paths by number into a joined requires"


POINTS = {1: lambda: lines(TEXT[1]), 2: twins, 3: lambda: lines(TEXT[3]), 4: lambda: lines(TEXT[4]), 5: repeated,
          6: lambda: lines(TEXT[6]), 7: lambda: lines(TEXT[7]), 8: proofs}

if __name__ == "__main__":
    wanted = [int(a) for a in sys.argv[1:]] or sorted(POINTS)
    for point in wanted:
        found = list(POINTS[point]())
        print(f"point {point}: {len(found)}")
        for one in found:
            print("  " + one)
