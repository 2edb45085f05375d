#!/usr/bin/env python3
"""Runs random scripts through `crates/edit/out/edit` and through the model, and prints where they differ.

    (cd crates/edit && rt run < /dev/null) && python3 tools/compare.py [SCRIPTS [SEED]]
"""
import os
import random
import subprocess
import sys

import model

HERE = os.path.dirname(os.path.abspath(__file__))
EDIT = os.path.join(HERE, "..", "crates", "edit", "out", "edit")

NAMES = [b"a", b"b", b"dirty", b"", b"\xc3\xa9", b"\xe2\x82\xac", b"\xf0\x9f\x98\x80", b"\xc0\x80", b"\xed\xa0\x80", b"\xf4\x90\x80\x80", b"a\0", b"x" * 255, b"x" * 256]
EDGES = [0, 1, 255, 256, 65535, 65536, 1114111, 1114112, 2147483647, 2147483648, 4294967295]


def hexed(name):
    return "x" + name.hex() if name else "-"


def small(r):
    return r.choice(EDGES) if r.random() < 0.1 else r.randrange(300)


def begin(r, inside, count):
    mark = r.choice(["-", "-", "newline"])
    name = r.choice(NAMES) if r.random() < 0.15 else r.choice(NAMES[:3]) if inside else b""
    head = f"{mark} {hexed(name)}"
    kind = r.choice(list(model.LISTS) + list(model.TEXTS))
    choice = r.randrange(10)
    if choice < 4:
        word = r.choice(["none", "logic true", "logic false", f"char {small(r)}", f"integer {r.choice([0, -1, 10000, -2147483648, 2147483647])}", f"float {r.getrandbits(64):016x}"])
        return f"put {head} {word}"
    if choice < 6:
        points = " ".join(str(small(r)) for _ in range(r.randrange(6)))
        return f"put {head} {r.choice(list(model.TEXTS))} {small(r)} {points}".rstrip()
    if choice < 7:
        return f"open {head} {r.choice(list(model.LISTS))} {small(r)}"
    if choice < 8:
        return f"open {head} object {r.choice(['owner', '-'])} {r.choice(['self', '-'])} {small(r)} {small(r)} {small(r)}"
    target = r.randrange(count + 2)
    if r.random() < 0.3:
        return f"share {head} object {r.choice(['owner', '-'])} {target}"
    return f"share {head} {kind} {small(r)} {target}"


def script(r):
    lines = [f"memory {r.choice([0, 1, 3, 40, 20000])} {r.choice([0, 5, 100, 300000])} {r.choice([0, 9, 100, 70000])}"]
    draft = model.Draft(*[int(w) for w in lines[0].split()[1:]])
    for _ in range(r.randrange(60)):
        pick = r.random()
        if pick < 0.14:
            line = "close"
        elif pick < 0.26:
            line = "take-back"
        elif pick < 0.31:
            line = r.choice([f"save {r.choice([0, 15, 16, 40, 200, 1048576])}", "save 1048576", f"print header {r.choice([0, 30, 60, 5000])}", "print table 5000"])
        elif pick < 0.33:
            line = r.choice(["", "# note", "close ", "put - - none x", "open - - block", "put - xz none"])
        else:
            inside = bool(draft.open) and draft.values[draft.open[-1]]["sort"] == "object"
            line = begin(r, inside, len(draft.values))
        lines.append(line)
        try:
            verb, *rest = line.split(" ")
            if line == "close":
                draft.close()
            elif line == "take-back":
                draft.take_back()
            elif verb in ("put", "open", "share"):
                draft.begin(model.value_of(verb, rest))
        except (model.Refused, ValueError, IndexError):
            pass
    return lines


def report(lines):
    """Runs the lines through both, prints how they compare, and returns 1 where they differ."""
    text = "".join(line + "\n" for line in lines)
    out = subprocess.run([EDIT], input=text.encode(), stdout=subprocess.PIPE, check=True).stdout.decode().splitlines()
    expected = model.run(lines)
    wrong = [(e, o) for e, o in zip(expected, out) if e != o]
    for e, o in wrong[:10]:
        print(f"expected {e[:200]}\nanswered {o[:200]}")
    reasons = {}
    for e in expected:
        if e.startswith("refused"):
            reasons[int(e.split()[1])] = reasons.get(int(e.split()[1]), 0) + 1
    said = ", ".join(f"{n}: {k}" for n, k in sorted(reasons.items()))
    print(f"{len(expected)} answers, {sum(reasons.values())} refusals ({said}), {len(wrong)} differ, {abs(len(out) - len(expected))} missing")
    return 1 if wrong or len(out) != len(expected) else 0


def main():
    count = int(sys.argv[1]) if len(sys.argv) > 1 else 300
    r = random.Random(int(sys.argv[2]) if len(sys.argv) > 2 else 1)
    sys.exit(report([line for _ in range(count) for line in script(r)]))


if __name__ == "__main__":
    main()
