#!/usr/bin/env python3
"""A second model of drafts and of the file format. It shares no code with the library.

Its author had read the library's definitions when writing it, so it finds slips in code and in definitions, and not
every rule that was misread: such a rule may be wrong here in the same way.

It runs scripts of the program `edit` and answers each command as `edit` should. `tools/compare.py` holds the two
against each other on random scripts.
"""
import struct

LIMITS = {"cells": 16384, "points": 262144, "names": 65536}
LISTS = {"block": 5, "paren": 6, "path": 25, "lit-path": 26, "set-path": 27, "get-path": 28}
TEXTS = {"string": 7, "file": 8, "url": 9}
FIELD_MAX = 2147483647
POINT_MAX = 1114111
FILE_MAX = 1048576


class Refused(Exception):
    def __init__(self, number, part="draft", place=0):
        super().__init__(number, part, place)
        self.line = f"refused {number} {part} {place}"


def lawful_name(name):
    if not 1 <= len(name) <= 255 or 0 in name:
        return False
    try:
        name.decode("utf-8", "strict")
    except UnicodeDecodeError:
        return False
    return True


def good(name, delay):
    """A pair that a listing takes if it fits."""
    letters = b"abcdefghijklmnopqrstuvwxyzABCDEFGHIJKLMNOPQRSTUVWXYZ_"
    return 1 <= len(name) <= 63 and name[0] in letters and all(c in letters + b"0123456789" for c in name) and -1 <= delay <= 3600000


def header_line(name, delay):
    return f"#define PURGE_{name} {delay}"


def table_line(name, delay):
    return f"{name}\tnever" if delay == -1 else f"{name}\t{delay} ms"


LINES = {"header": header_line, "table": table_line}


def family(value):
    """Of an opened or put value: lists, texts, objects or nothing."""
    sort = value["sort"]
    if sort == "list":
        return "lists"
    if sort == "text":
        return "texts"
    if sort == "object":
        return "objects"
    return None


class Draft:
    def __init__(self, cells=None, points=None, names=None):
        lent = {"cells": cells, "points": points, "names": names}
        self.usable = {k: LIMITS[k] if v is None else min(v, LIMITS[k]) for k, v in lent.items()}
        self.steps = []  # ("begin", value) or ("close", number of what it closed)
        self.values = []
        self.open = []  # numbers, the innermost last

    # ---- what stands

    def used(self):
        return {
            "cells": len(self.values),
            "points": sum(len(v.get("points", ())) for v in self.values),
            "names": sum(len(v["name"]) for v in self.values),
        }

    def inner(self, holder):
        return [n for n, v in enumerate(self.values) if v["holder"] == holder]

    def allowed(self, value):
        sort = value["sort"]
        if sort == "char":
            return value["point"] <= POINT_MAX
        if sort == "text":
            return value["head"] <= FIELD_MAX and all(p <= POINT_MAX for p in value["points"])
        if sort == "list":
            return value["head"] <= FIELD_MAX
        if sort == "object":
            return value["class"] <= FIELD_MAX and value["arity"] <= FIELD_MAX
        if sort == "share":
            if value.get("head", 0) > FIELD_MAX:
                return False
            target = value["target"]
            return 0 <= target < len(self.values) and family(self.values[target]) == value["family"]
        return True

    # ---- calls

    def begin(self, value):
        holder = self.open[-1] if self.open else None
        inside_object = holder is not None and self.values[holder]["sort"] == "object"
        if not (lawful_name(value["name"]) if inside_object else value["name"] == b""):
            raise Refused(18)
        if not self.allowed(value):
            raise Refused(19)
        if len(self.open) >= 32:
            raise Refused(13)
        used = self.used()
        need = {"cells": 1, "points": len(value.get("points", ())), "names": len(value["name"])}
        if any(used[k] + need[k] > self.usable[k] for k in LIMITS):
            raise Refused(14)
        number = len(self.values)
        self.values.append(dict(value, holder=holder))
        self.steps.append(("begin", number))
        if value["sort"] in ("list", "object"):
            self.open.append(number)
        return number

    def close(self):
        if not self.open:
            raise Refused(17)
        self.steps.append(("close", self.open.pop()))

    def take_back(self):
        if not self.steps:
            raise Refused(17)
        what, number = self.steps.pop()
        if what == "close":
            self.open.append(number)
        else:
            value = self.values.pop()
            if value["sort"] in ("list", "object"):
                self.open.pop()

    # ---- the canonical form

    def path(self, number):
        places = []
        while number is not None:
            holder = self.values[number]["holder"]
            places.insert(0, self.inner(holder).index(number))
            number = holder
        return places

    def canonical(self):
        symbols = []
        for number, value in enumerate(self.values):
            if value["sort"] == "object":
                for n in self.inner(number):
                    if self.values[n]["name"] not in symbols:
                        symbols.append(self.values[n]["name"])
        payload = b""
        for number, value in enumerate(self.values):
            payload += self.record(number, value, symbols, len(payload))
        table = b""
        if symbols:
            strings, offsets = b"", []
            for name in symbols:
                offsets.append(len(strings))
                strings += name + b"\0"
                strings += b"\0" * (-len(strings) % 8)
            table = words(len(symbols), len(strings), *offsets) + strings
        head = b"REDBIN\x02" + (b"\x04" if symbols else b"\0")
        return head + words(len(self.inner(None)), len(payload)) + table + payload

    def record(self, number, value, symbols, place):
        mark = (1 << 31) if value["new_line"] else 0
        sort = value["sort"]
        if sort == "none":
            return words(3 | mark)
        if sort == "logic":
            return words(4 | mark, int(value["truth"]))
        if sort == "char":
            return words(10 | mark, value["point"])
        if sort == "integer":
            return words(11 | mark, value["integer"] & 0xFFFFFFFF)
        if sort == "float":
            padding = words(0) if place % 8 == 0 else b""
            return padding + words(12 | mark) + struct.pack("<Q", value["bits"])
        if sort == "text":
            points = value["points"]
            top = max(points, default=0)
            unit = 1 if top <= 255 else 2 if top <= 65535 else 4
            body = b"".join(p.to_bytes(unit, "little") for p in points)
            body += b"\0" * (-len(body) % 4)
            return words(TEXTS[value["kind"]] | unit << 8 | mark, value["head"], len(points)) + body
        if sort == "list":
            return words(LISTS[value["kind"]] | mark, value["head"], len(self.inner(number)))
        if sort == "object":
            names = [self.values[n]["name"] for n in self.inner(number)]
            context = 14 | 2 << 26 | (1 << 28 if value["self"] else 0)
            header = 32 | (1 << 24 if value["owner"] else 0) | mark
            fields = [value["class"], value["on_set"], value["arity"], context, len(names)]
            return words(header, *fields, *[symbols.index(n) for n in names])
        path = self.path(value["target"])
        reference = words(255, len(path), *path)
        share = 1 << 19
        if value["family"] == "objects":
            return words(32 | share | (1 << 24 if value["owner"] else 0) | mark) + reference
        if value["family"] == "texts":
            return words(TEXTS[value["kind"]] | 1 << 8 | share | mark, value["head"]) + reference
        return words(LISTS[value["kind"]] | share | mark, value["head"]) + reference

    def save(self, room):
        if self.open:
            raise Refused(16)
        file = self.canonical()
        if len(file) > room or len(file) > FILE_MAX:
            raise Refused(20)
        return file

    # ---- delays

    def offender(self):
        names = set()
        for number, value in enumerate(self.values):
            if value["holder"] is None:
                if value["sort"] != "object":
                    return number
                continue
            if value["sort"] != "integer" or not good(value["name"], value["integer"]) or value["name"] in names:
                return number
            names.add(value["name"])
        return None

    def print(self, line, room):
        """The answer, and the lines that the listing has then."""
        if self.open:
            return [Refused(16).line]
        offender = self.offender()
        if offender is not None:
            return [Refused(21, place=offender).line]
        lines = []
        for value in self.values:
            if value["holder"] is not None:
                text = line(value["name"].decode(), value["integer"])
                if len(text) + 1 > room:
                    return [Refused(20).line] + lines
                room -= len(text) + 1
                lines.append(text)
        return ["accepted"] + lines

    def load(self, file):
        if self.steps:
            raise Refused(15)
        loaded = Draft(**{k: v for k, v in self.usable.items()})
        Reader(file, loaded).file_()
        self.steps, self.values, self.open = loaded.steps, loaded.values, loaded.open


def words(*numbers):
    return b"".join(struct.pack("<I", n) for n in numbers)


class Reader:
    """Reads a file into an empty draft, or raises the refusal of the first check that fails."""

    def __init__(self, file, draft):
        self.file = file
        self.draft = draft
        self.at = 0
        self.symbols = []

    def field(self, part, size=4, most=None, why=5):
        place = self.at
        if place + size > len(self.file):
            raise Refused(4, part, place)
        n = int.from_bytes(self.file[place : place + size], "little")
        if most is not None and n > most:
            raise Refused(why, part, place)
        self.at += size
        return n

    def run(self, part, count, size=4, most=None, why=5):
        if self.at + count * size > len(self.file):
            raise Refused(4, part, self.at)
        return [self.field(part, size, most, why) for _ in range(count)]

    def file_(self):
        f = self.file
        if len(f) < 16 or f[:6] != b"REDBIN":
            raise Refused(1, "header", 0)
        if f[6] != 2:
            raise Refused(2, "header", 6)
        if f[7] not in (0, 4):
            raise Refused(3, "header", 7)
        if len(f) > FILE_MAX:
            raise Refused(5, "header", 0)
        self.at = 8
        roots = self.field("header", most=FIELD_MAX)
        payload = self.field("header", most=FIELD_MAX)
        if f[7] == 4:
            self.table()
        rest = len(f) - self.at
        if payload > rest:
            raise Refused(4, "header", 12)
        if payload < rest:
            raise Refused(6, "header", 12)
        self.start = self.at
        for _ in range(roots):
            self.value(b"", 1)
        if self.at < len(f):
            raise Refused(6, "record", self.at)

    def table(self):
        count = self.field("symbols", most=FIELD_MAX)
        size = self.field("symbols", most=FIELD_MAX)
        place = self.at
        offsets = self.run("symbols", count)
        if self.at + size > len(self.file):
            raise Refused(4, "symbols", self.at)
        strings = self.file[self.at : self.at + size]
        self.at += size
        for i, offset in enumerate(offsets):
            end = strings.find(b"\0", offset) if offset < len(strings) else -1
            if end < 0 or not lawful_name(strings[offset:end]):
                raise Refused(7, "symbols", place + 4 * i)
            self.symbols.append(strings[offset:end])

    def heading(self):
        place = self.at
        h = self.field("record")
        if h & 0xFF == 0:
            following = self.file[self.at : self.at + 4]
            if len(following) < 4 or following[0] != 12:
                raise Refused(8, "record", place)
            if h != 0:
                raise Refused(9, "record", place)
            place = self.at
            h = self.field("record")
        kind, bits = h & 0xFF, h >> 8 & 0x7FFFFF
        owner, share, unit = bits >> 16 & 1, bits >> 11 & 1, bits & 0xFF
        other = bits & ~(1 << 16 | 1 << 11 | 0xFF)
        if kind in (3, 4, 10, 11, 12):
            bad = bits != 0
        elif kind in TEXTS.values():
            bad = other or owner or unit not in (1, 2, 4)
        elif kind in LISTS.values():
            bad = other or owner or unit
        elif kind == 32:
            bad = other or unit
        else:
            raise Refused(8, "record", place)
        if bad:
            raise Refused(9, "record", place)
        return place, kind, bool(h >> 31), bool(owner), bool(share), unit

    def add(self, place, value):
        try:
            return self.draft.begin(value)
        except Refused as r:
            raise Refused(int(r.line.split()[1]), "record", place) from None

    def value(self, name, depth):
        place, kind, mark, owner, share, unit = self.heading()
        if depth > 32:
            raise Refused(13, "record", place)
        value = {"new_line": mark, "name": name}
        if kind == 3:
            self.add(place, dict(value, sort="none"))
        elif kind == 4:
            self.add(place, dict(value, sort="logic", truth=bool(self.field("record", most=1, why=10))))
        elif kind == 10:
            self.add(place, dict(value, sort="char", point=self.field("record", most=POINT_MAX, why=10)))
        elif kind == 11:
            n = self.field("record")
            self.add(place, dict(value, sort="integer", integer=n - (1 << 32) if n >> 31 else n))
        elif kind == 12:
            if (self.at - self.start) % 8:
                raise Refused(10, "record", self.at)
            self.add(place, dict(value, sort="float", bits=self.field("record", size=8)))
        elif share:
            self.share(place, value, kind, owner)
        elif kind in TEXTS.values():
            self.text(place, value, kind, unit)
        elif kind in LISTS.values():
            self.list(place, value, kind, depth)
        else:
            self.object(place, value, owner, depth)

    def share(self, place, value, kind, owner):
        if kind == 32:
            value = dict(value, sort="share", family="objects", owner=owner)
        else:
            texts = kind in TEXTS.values()
            names = {v: k for k, v in (TEXTS if texts else LISTS).items()}
            head = self.field("record", most=FIELD_MAX)
            value = dict(value, sort="share", family="texts" if texts else "lists", kind=names[kind], head=head)
        start = self.at
        h = self.field("reference")
        if h & 0xFF != 255:
            raise Refused(8, "reference", start)
        if h != 255:
            raise Refused(9, "reference", start)
        count = self.field("reference", most=FIELD_MAX)
        path = self.run("reference", count, most=FIELD_MAX)
        target = self.follow(path)
        if target is None or family(self.draft.values[target]) != value["family"]:
            raise Refused(11, "reference", start)
        self.add(place, dict(value, target=target))

    def follow(self, path):
        if not path:
            return None
        holder, number = None, None
        for offset in path:
            inner = self.draft.inner(holder)
            if offset >= len(inner):
                return None
            number = inner[offset]
            if self.draft.values[number]["sort"] == "share":
                number = self.draft.values[number]["target"]
            holder = number
        return number

    def text(self, place, value, kind, unit):
        head = self.field("record", most=FIELD_MAX)
        count = self.field("record", most=16777215)
        points = self.run("record", count, size=unit, most=POINT_MAX, why=10)
        self.run("record", -(count * unit) % 4, size=1, most=0, why=10)
        names = {v: k for k, v in TEXTS.items()}
        self.add(place, dict(value, sort="text", kind=names[kind], head=head, points=points))

    def list(self, place, value, kind, depth):
        head = self.field("record", most=FIELD_MAX)
        count = self.field("record", most=FIELD_MAX)
        names = {v: k for k, v in LISTS.items()}
        self.add(place, dict(value, sort="list", kind=names[kind], head=head))
        for _ in range(count):
            self.value(b"", depth + 1)
        self.draft.close()

    def object(self, place, value, owner, depth):
        cls = self.field("record", most=FIELD_MAX)
        on_set = self.field("record")
        arity = self.field("record", most=FIELD_MAX)
        value = dict(value, sort="object", owner=owner, self=False, on_set=on_set, arity=arity)
        value["class"] = cls
        number = self.add(place, value)
        start = self.at
        h = self.field("record")
        if h & 0xFF != 14:
            raise Refused(8, "record", start)
        if h not in (14 | 2 << 26, 14 | 2 << 26 | 1 << 28):
            raise Refused(9, "record", start)
        self.draft.values[number]["self"] = bool(h >> 28 & 1)
        count = self.field("record", most=FIELD_MAX)
        indexes = self.run("record", count, most=len(self.symbols) - 1, why=12)
        for i in indexes:
            self.value(self.symbols[i], depth + 1)
        self.draft.close()


# ---- scripts of `edit`


def read_bytes(word):
    if word == "-":
        return b""
    if not word.startswith("x"):
        raise ValueError(word)
    if any(c not in "0123456789abcdefABCDEF" for c in word[1:]):
        raise ValueError(word)
    return bytes.fromhex(word[1:])


def number(word):
    if not word.isascii() or not word.isdigit() or int(word) > 0xFFFFFFFF:
        raise ValueError(word)
    return int(word)


def mark(word, name):
    if word not in (name, "-"):
        raise ValueError(word)
    return word == name


def value_of(verb, words_):
    new_line, name, sort, rest = mark(words_[0], "newline"), read_bytes(words_[1]), words_[2], words_[3:]
    value = {"new_line": new_line, "name": name}
    if verb == "put":
        if sort in TEXTS:
            head, points = number(rest[0]), [number(w) for w in rest[1:]]
            return dict(value, sort="text", kind=sort, head=head, points=points)
        if sort == "none" and not rest:
            return dict(value, sort="none")
        (word,) = rest
        if sort == "logic" and word in ("true", "false"):
            return dict(value, sort="logic", truth=word == "true")
        if sort == "char":
            return dict(value, sort="char", point=number(word))
        if sort == "integer":
            n = int(word)
            if word.startswith("+") or "_" in word or not -(1 << 31) <= n < 1 << 31:
                raise ValueError(word)
            return dict(value, sort="integer", integer=n)
        if sort == "float" and len(word) == 16:
            return dict(value, sort="float", bits=int.from_bytes(read_bytes("x" + word), "big"))
    if verb == "open":
        if sort == "object":
            owner, self_, cls, on_set, arity = rest
            value = dict(value, sort="object", owner=mark(owner, "owner"), self=mark(self_, "self"))
            value.update({"class": number(cls), "on_set": number(on_set), "arity": number(arity)})
            return value
        if sort in LISTS:
            (head,) = rest
            return dict(value, sort="list", kind=sort, head=number(head))
    if verb == "share":
        field, target = rest
        if sort == "object":
            owner = mark(field, "owner")
            return dict(value, sort="share", family="objects", owner=owner, target=number(target))
        if sort in TEXTS or sort in LISTS:
            group = "texts" if sort in TEXTS else "lists"
            return dict(value, sort="share", family=group, kind=sort, head=number(field), target=number(target))
    raise ValueError(sort)


def run(lines):
    """The answers of `edit` to the lines of a script."""
    draft, answers = Draft(), []
    for at, line in enumerate(lines):
        if line == "" or line.startswith("#"):
            continue
        verb, *rest = line.split(" ")
        try:
            if verb == "memory":
                sizes = [number(w) for w in rest]
                if len(sizes) != 3 or max(sizes) > 1000000:
                    raise ValueError(line)
                draft = Draft(*sizes)
                answers.append("accepted")
            elif verb in ("put", "open", "share"):
                answers.append(f"accepted {draft.begin(value_of(verb, rest))}")
            elif line == "close":
                draft.close()
                answers.append("accepted")
            elif line == "take-back":
                draft.take_back()
                answers.append("accepted")
            elif verb == "load" and len(rest) == 1:
                draft.load(read_bytes(rest[0]))
                answers.append("accepted")
            elif verb == "save" and len(rest) == 1 and number(rest[0]) <= FILE_MAX:
                file = draft.save(number(rest[0]))
                answers.append(f"accepted {len(file)} x{file.hex()}")
            elif verb == "print" and len(rest) == 2 and rest[0] in LINES and number(rest[1]) <= FILE_MAX:
                answers.extend(draft.print(LINES[rest[0]], number(rest[1])))
            else:
                raise ValueError(line)
        except Refused as r:
            answers.append(r.line)
        except (ValueError, IndexError):
            answers.append(f"unknown command at line {at + 1}")
    return answers
