#!/usr/bin/env python3
"""Runs files, sound and damaged, through `load` of `crates/edit/out/edit` and through the model, and prints where they differ.

    (cd crates/edit && rt run < /dev/null) && python3 tools/compare_files.py [FILES [SEED]]

A sound file is a random document in a random spelling: any unit that fits, padding or not, symbols in any order with
repeats and unused names, paths through shares. A damaged one is a sound one with a byte, a field or a piece changed. Where
a file is accepted, the number of its values and of its steps is compared, and the file that is saved from it.
"""
import random
import struct
import subprocess
import sys

import compare
import model

EDGES = [0, 1, 2, 3, 4, 5, 7, 12, 14, 16, 32, 255, 256, 65535, 65536, 1114111, 1114112, 16777215, 16777216, 2147483647, 2147483648, 4294967295]
TYPES = list(range(0, 60)) + [255]
BITS = [1 << n for n in range(8, 32)]


def document(r, size):
    """A random document of about this many values, with nothing open."""
    draft = model.Draft()
    while len(draft.values) < size:
        inside = bool(draft.open) and draft.values[draft.open[-1]]["sort"] == "object"
        line = "close" if r.random() < 0.18 else compare.begin(r, inside, len(draft.values))
        try:
            verb, *rest = line.split(" ")
            if line == "close":
                draft.close()
            else:
                draft.begin(model.value_of(verb, rest))
        except (model.Refused, ValueError, IndexError):
            pass
    while draft.open:
        draft.close()
    return draft


def paths_to(draft, before, target):
    """Some paths that lead to the target among the values begun before."""
    paths = [draft.path(target)]
    for n in range(before):
        value = draft.values[n]
        if value["sort"] == "share" and value["target"] == target:
            paths.append(draft.path(n))
    holder = draft.values[target]["holder"]
    if holder is not None:
        place = paths[0][-1]
        for n in range(before):
            value = draft.values[n]
            if value["sort"] == "share" and value["target"] == holder:
                paths.append(draft.path(n) + [place])
    return paths


def spelled(r, draft):
    """A file of the document, in a random spelling."""
    names = [v["name"] for v in draft.values if v["name"]]
    symbols = names + [r.choice([b"spare", b"x", b"dirty"]) for _ in range(r.randrange(3))]
    r.shuffle(symbols)
    if r.random() < 0.5:
        symbols = list(dict.fromkeys(symbols))
    strings, offsets = b"\0" * r.randrange(3), []
    for name in symbols:
        offsets.append(len(strings))
        strings += name + b"\0" + b"\0" * r.randrange(4)
    payload = b""
    for number, value in enumerate(draft.values):
        payload += record(r, draft, number, value, symbols, len(payload))
    table = model.words(len(symbols), len(strings), *offsets) + strings
    present = bool(symbols) or r.random() < 0.2
    head = b"REDBIN\x02" + (b"\x04" if present else b"\0")
    return head + model.words(len(draft.inner(None)), len(payload)) + (table if present else b"") + payload


def record(r, draft, number, value, symbols, place):
    mark = (1 << 31) if value["new_line"] else 0
    sort = value["sort"]
    if sort == "text":
        points = value["points"]
        top = max(points, default=0)
        unit = r.choice([u for u in (1, 2, 4) if top < 1 << 8 * u])
        body = b"".join(p.to_bytes(unit, "little") for p in points)
        body += b"\0" * (-len(body) % 4)
        return model.words(model.TEXTS[value["kind"]] | unit << 8 | mark, value["head"], len(points)) + body
    if sort == "object":
        indexes = [r.choice([i for i, s in enumerate(symbols) if s == draft.values[n]["name"]]) for n in draft.inner(number)]
        context = 14 | 2 << 26 | (1 << 28 if value["self"] else 0)
        header = 32 | (1 << 24 if value["owner"] else 0) | mark
        return model.words(header, value["class"], value["on_set"], value["arity"], context, len(indexes), *indexes)
    if sort == "share":
        path = r.choice(paths_to(draft, number, value["target"]))
        reference = model.words(255, len(path), *path)
        if value["family"] == "objects":
            return model.words(32 | 1 << 19 | (1 << 24 if value["owner"] else 0) | mark) + reference
        if value["family"] == "texts":
            return model.words(model.TEXTS[value["kind"]] | r.choice([1, 2, 4]) << 8 | 1 << 19 | mark, value["head"]) + reference
        return model.words(model.LISTS[value["kind"]] | 1 << 19 | mark, value["head"]) + reference
    return draft.record(number, value, symbols, place)


def damaged(r, file):
    """The file with one thing changed."""
    file = bytearray(file)
    at = r.randrange(max(len(file), 1))
    word = at & ~3
    what = r.randrange(9)
    if what == 0 and at < len(file):
        file[at] = r.randrange(256)
    elif what == 1 and word + 4 <= len(file):
        file[word : word + 4] = struct.pack("<I", r.choice(EDGES))
    elif what == 2 and word + 4 <= len(file):
        n = struct.unpack("<I", file[word : word + 4])[0]
        file[word : word + 4] = struct.pack("<I", (n + r.choice([-1, 1])) & 0xFFFFFFFF)
    elif what == 3 and word + 4 <= len(file):
        n = struct.unpack("<I", file[word : word + 4])[0]
        file[word : word + 4] = struct.pack("<I", n ^ r.choice(BITS))
    elif what == 4 and word < len(file):
        file[word] = r.choice(TYPES)
    elif what == 5:
        del file[at:]
    elif what == 6:
        del file[word : word + 4]
    elif what == 7:
        file[word:word] = struct.pack("<I", r.choice(EDGES))
    else:
        file += bytes(r.randrange(1, 9))
    return bytes(file)


def resized(file):
    """The file with the payload's size made right, if it has a header."""
    if len(file) < 16 or file[7] not in (0, 4):
        return file
    rest = len(file) - 16
    if file[7] == 4 and len(file) >= 24:
        count, size = struct.unpack("<II", file[16:24])
        rest = len(file) - 24 - 4 * count - size
    return file[:12] + struct.pack("<I", max(rest, 0)) + file[16:]


def files(r, count):
    for _ in range(count):
        file = spelled(r, document(r, r.choice([0, 1, 2, 3, 5, 8, 20])))
        for _ in range(r.choice([0, 1, 1, 1, 2, 3])):
            file = damaged(r, file)
            if r.random() < 0.5:
                file = resized(file)
        yield file


def script(r, count):
    """Each file into a draft with room, or nearly; then what its values and steps count to, and what is saved."""
    for file in files(r, count):
        if r.random() < 0.75:
            yield "memory 16384 262144 65536"
        else:
            yield f"memory {r.randrange(12)} {r.randrange(20)} {r.randrange(20)}"
        yield f"load {'x' + file.hex() if file else '-'}"
        yield "save 1048576"
        yield f"print {r.choice(['header', 'table'])} {r.choice([0, 60, 100000])}"
        yield "put - - none"
        yield "load x"
        for _ in range(8):
            yield "take-back"


def main():
    count = int(sys.argv[1]) if len(sys.argv) > 1 else 1000
    seed = int(sys.argv[2]) if len(sys.argv) > 2 else 1
    lines = list(script(random.Random(seed), count))
    sys.exit(compare.report(lines))


if __name__ == "__main__":
    main()
