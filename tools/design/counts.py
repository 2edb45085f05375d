#!/usr/bin/env python3
"""Candidates for the points of docs/DESIGN-PASS.md in crates/*/src, each with its count. Run at the repository's root.

    python3 tools/design/counts.py [POINT ..]
"""
import collections
import glob
import re
import sys

SOURCES = sorted(glob.glob("crates/*/src/**/*.rt", recursive=True))
TEXTS = {f: open(f).read() for f in SOURCES}


def lines(pattern):
    """Every line that matches, with its place."""
    found = []
    for f, text in TEXTS.items():
        for n, line in enumerate(text.split("\n"), 1):
            if not line.lstrip().startswith("//") and re.search(pattern, line):
                found.append(f"{f}:{n}: {line.strip()}")
    return found


def show(point, what, found):
    print(f"{point}. {what}: {len(found)}")
    for line in found:
        print(f"    {line}")


def twice(pattern):
    """Names that are declared in two places or more."""
    names = collections.defaultdict(list)
    for f, text in TEXTS.items():
        for m in re.finditer(pattern, text, re.M):
            names[m.group(1)].append(f)
    return [f"{n}: {', '.join(fs)}" for n, fs in sorted(names.items()) if len(fs) > 1]


def clauses():
    """What three or more functions require, whatever their parameter is called."""
    asked = collections.defaultdict(list)
    for f, text in TEXTS.items():
        for m in re.finditer(r"\brequires(?: \w+)? \{ (.*?) \}\n", text):
            fact = re.sub(r"\b\w+\.(now|old)\b", "_", m.group(1))
            fact = re.sub(r"\b[A-Z]\.\w+\.", "", fact)
            asked[fact].append(f)
    return [f"{len(fs)} times: {fact}" for fact, fs in sorted(asked.items(), key=lambda x: -len(x[1])) if len(fs) >= 3]


def together():
    """Pairs of parameters that stand together in six functions or more."""
    pairs = collections.Counter()
    for text in TEXTS.values():
        for m in re.finditer(r"fn \w+(?:<[^(]*?>)?\(([^)]*)\)", text):
            names = [p.split(":")[0].strip().removeprefix("mut ") for p in re.split(r",\s*", m.group(1)) if ":" in p]
            pairs.update((a, b) for i, a in enumerate(names) for b in names[i + 1:])
    return [f"{n} times: {a}, {b}" for (a, b), n in pairs.most_common() if n >= 6]


def proofs():
    found = []
    for crate in (line.split(":")[0] for line in open("crates.txt") if line.strip()):
        files = glob.glob(f"crates/{crate}/proofs/**/*.antt", recursive=True)
        answers = [f for f in files if f.endswith("Answers.antt")]
        found.append(f"{crate}: {len(files)} files, {len(answers)} of them answers, {sum(len(open(f).readlines()) for f in files)} lines")
    return found


NUMBERS = r"\b(\w*_)?(kind|unit|code|type|flags?|bits): (u8|u32)\b|fn (\w*_)?(kind|unit|code|type|flags?|bits|reason)(_\w+)?\b.*-> (u8|u32)\b|fn number\(self\)"
POINTS = {
    "1": lambda: (
        show("1", "enums", lines(r"\benum \w")),
        show("1", "results of results or options", lines(r"Result<(Option|Result)<")),
        show("1", "numbers for kinds, by their names", lines(NUMBERS)),
    ),
    "2": lambda: (
        show("2", "constants of one name", twice(r"^\s*(?:pub |pub\(crate\) )?const ([A-Z_]+)")),
        show("2", "functions of one name", twice(r"^\s*(?:pub |pub\(crate\) )?(?:final )?fn (\w+)")),
    ),
    "3": lambda: show("3", "loops", lines(r"^\s*(while|loop|for)\b.*\{$")),
    "4": lambda: (
        show("4", "equality, conversion or printing by its name", lines(r"\bfn (same|is_same|eq\b|cmp|from|to_|as_|number|width_of|type_of|bits|fmt|value\b)")),
        show("4", "types with no derive of Debug or Drop", [
            f"{f}: {m.group(2)}" for f, t in TEXTS.items()
            for m in re.finditer(r"^(?:#\[derive\(([^)]*)\)\]\n)?(?:pub )?(?:enum|struct) (\w+)", t, re.M)
            if "Debug" not in (m.group(1) or "") and "Drop" not in (m.group(1) or "")
        ]),
    ),
    "5": lambda: (
        show("5", "facts that three or more functions require", clauses()),
        show("5", "parameters that stand together six times or more", together()),
    ),
    "6": lambda: show("6", "lengths beside memory, arrays", lines(r"\bused: usize|: &'a mut \[|: \[\w+; ")),
    "7": lambda: show("7", "switches on which step to run", lines(r"\bmatch (kind|command|step|verb|code|form|begun)\b")),
    "8": lambda: show("8", "proofs", proofs()),
}

for point in sys.argv[1:] or POINTS:
    POINTS[point]()
