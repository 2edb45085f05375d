#!/usr/bin/env python3
"""In the proof files of functions, gives names from the source their spelling back, as in `add_close-requires` for `add-close-requires`.

usage: python3 tools/port/source_names.py [CRATE ..]        at the top of the repository, after snake_names.py
"""

import os
import re
import sys

TOKEN = re.compile(r"(?<![\w'◌-])[A-Za-z][\w'₀-₉]*(?:-[\w'₀-₉]+)+(?![\w'◌-])")
RATTLES = ["overflow_add", "overflow_sub", "overflow_mul", "overflow_cast", "overflow_shl", "overflow_shr", "overflow_step", "slice_bounds", "offset_bounds", "nonzero_div", "nonzero_rem", "invariant_of", "in_ok", "in_err", "in_default"]


def names_of(crate):
    names = set(RATTLES)
    for folder, _, files in os.walk(os.path.join(crate, "src")):
        for f in files:
            if f.endswith(".rt"):
                with open(os.path.join(folder, f), encoding="utf-8") as x:
                    for line in x:
                        if not line.lstrip().startswith(("ghost use", "//", "requires", "ensures")):
                            names.update(n for n in re.findall(r"\b[A-Za-z]\w*\b", line) if "_" in n)
    return sorted(names, key=lambda n: -len(n))


def main():
    for name in sys.argv[1:] or sorted(os.listdir("crates")):
        crate = os.path.join("crates", name)
        wanted = [(n, re.compile(r"(?<![^-])" + re.escape(n.replace("_", "-")) + r"(?![^-])")) for n in names_of(crate)]
        for folder, _, files in os.walk(os.path.join(crate, "proofs")):
            for f in files:
                if f not in ("Answers.antt", "Invariants.antt"):
                    continue
                path = os.path.join(folder, f)
                with open(path, encoding="utf-8") as x:
                    text = x.read()

                skip = set()
                for p, items in re.findall(r"^use ([\w.'+-]+)\.\{([^}]*)\}", text, re.M):
                    if not re.search(r"\.(Goals|Given)(\.|$)", p):
                        skip.update(i.split()[-1] for i in items.split(",") if i.split())

                def word(m):
                    if m[0] in skip:
                        return m[0]
                    t = m[0]
                    for n, r in wanted:
                        t = r.sub(n, t)
                    return t

                new = TOKEN.sub(word, text)
                if new != text:
                    with open(path, "w", encoding="utf-8") as x:
                        x.write(new)


main()
