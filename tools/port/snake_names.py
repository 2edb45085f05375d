#!/usr/bin/env python3
"""Turns the repository's own definitions and lemmas from dashes to snake case, and types to camel case.

usage: python3 tools/port/snake_names.py        at the top of the repository, once, after the kit's port.py

A name is the repository's own if a file of specs/ or proofs/ declares or binds it. What a file imports from elsewhere keeps its
spelling, and so do the names that Rattle makes for a function's goals and steps.
"""

import os
import re

TOKEN = re.compile(r"(?<![\w'◌-])[A-Za-z][\w'₀-₉]*(?:-[\w'₀-₉]+)+(?![\w'◌-])")
USE = re.compile(r"^(?:ghost )?(?:pub )?use ([\w.'+-]+)\.\{([^}]*)\}", re.M)
FIELD = re.compile(r"^  pub ([\w'-]+) :", re.M)
OUTSIDE = ("Rattle.std", "Rattle.core", "mathlib", "base", "lib", "Prim", "native", "denote", "borrow", "logic")


def snake(name):
    parts = name.split("-")
    if name[0].isupper():
        return "".join(p[0].upper() + p[1:] for p in parts)
    return "_".join(parts)


def is_outside(path):
    return path.split(".")[0] in OUTSIDE or path.startswith(OUTSIDE[:2]) or re.search(r"\.proofs\..*\.(Goals|Given)(\.|$)", path)


def imported(text):
    """The names that a file brings in from elsewhere."""
    names = set()
    for path, items in USE.findall(text):
        if is_outside(path):
            for item in items.split(","):
                words = item.split()
                if words:
                    names.add(words[-1])
    return names


def in_function_folder(path):
    return os.path.basename(path) in ("Answers.antt", "Invariants.antt", "Choices.antt", "Proof.antt")


def code_and_comment(line):
    at = line.find("--") if not line.lstrip().startswith("--") else 0
    while at > 0 and line[at - 1] not in " \t":
        at = line.find("--", at + 2)
    return (line, "") if at < 0 else (line[:at], line[at:])


def files(ends):
    for folder, dirs, names in os.walk("crates"):
        dirs[:] = sorted(d for d in dirs if d != "out")
        for name in sorted(names):
            if name.endswith(ends):
                yield os.path.join(folder, name)


def read(path):
    with open(path, encoding="utf-8") as f:
        return f.read()


def own_names():
    own, fields = set(), set()
    for path in files(".rt"):
        own.update(n for n in re.findall(r" as ([\w'-]+)", read(path)) if "-" in n)
    for path in files(".antt"):
        if in_function_folder(path):
            continue
        text = read(path)
        outside = imported(text)
        fields.update(n for n in FIELD.findall(text) if "-" in n)
        for line in text.split("\n"):
            own.update(t for t in TOKEN.findall(code_and_comment(line)[0]) if t not in outside)
    return own, fields


def bound_in(text):
    """The lemmas and variables that an answer's file declares for itself."""
    names = set()
    for name, kind in re.findall(r"^(?:abbrev )?(?:pub )?([\w'-]+) : (goal\.)?", text, re.M):
        if not kind:
            names.add(name)
    for group in re.findall(r"[({]([\w' -]+) : ", text) + re.findall(r"λ ([\w' -]+)\.", text) + re.findall(r"\blet ([\w'-]+) [:=]", text):
        names.update(group.split())
    return {n for n in names if "-" in n}


def turn(text, names, fields, skip, comments):
    def word(m):
        name, before = m[0], m.string[: m.start()]
        if name in skip:
            return name
        if before.endswith("."):
            path = re.search(r"[\w.'-]*\.$", before)[0]
            if path.startswith("goal.") or (not path.startswith("Rattle.") and name not in fields):
                return name
        return snake(name) if name in names else name

    lines = []
    for line in text.split("\n"):
        code, comment = comments(line)
        comment = re.sub(r"`([^`]*)`", lambda m: "`" + (snake(m[1]) if m[1] in names else m[1]) + "`", comment)
        lines.append(TOKEN.sub(word, code) + comment)
    return "\n".join(lines)


def rust_comment(line):
    at = line.find("//")
    return (line, "") if at < 0 else (line[:at], line[at:])


def main():
    own, fields = own_names()
    for path in files((".antt", ".rt")):
        text = read(path)
        skip = imported(text)
        if path.endswith(".rt"):
            new = turn(text, own, fields, skip, rust_comment)
        elif in_function_folder(path):
            new = turn(text, own | bound_in(text), fields, skip, code_and_comment)
        else:
            new = turn(text, own, fields | own, skip, code_and_comment)
        if new != text:
            with open(path, "w", encoding="utf-8") as f:
                f.write(new)


main()
