#!/usr/bin/env python3
"""Writes record bytes, as FORMATS.md has them, for tests of the reader and the writer.

    bench/records.py SEED COUNT     prints COUNT random records, one a line: the bytes in hexadecimal, a tab, and the
                                    record as JSON: version, class, and fields as [name, kind, value]
    bench/records.py --rows         prints the worked rows in the same form

Kinds stand by their names. A rid is [cluster, position]; fields, pairs and links of maps are lists of pairs, so that
an order can be seen. A bag is a list of rids, or the root and the size of its tree. Nothing of the store is used here.
"""
import json
import random
import struct
import sys

NUMBERS = {"BOOLEAN": 0, "INTEGER": 1, "SHORT": 2, "LONG": 3, "DATETIME": 6, "STRING": 7, "BINARY": 8, "EMBEDDED": 9,
           "EMBEDDEDLIST": 10, "EMBEDDEDMAP": 12, "LINK": 13, "LINKLIST": 14, "LINKSET": 15, "LINKMAP": 16, "BYTE": 17,
           "LINKBAG": 22}
BITS = {"SHORT": 16, "INTEGER": 32, "LONG": 64, "DATETIME": 64, "BYTE": 8}


def varint(n):
    zigzag, out = (2 * n if n >= 0 else -2 * n - 1), bytearray()
    while zigzag >= 128:
        out.append(zigzag % 128 + 128)
        zigzag //= 128
    return bytes(out + bytes([zigzag]))


def counted(data):
    return varint(len(data)) + data


def text(s):
    return counted(s.encode())


def link(rid):
    return varint(rid[0]) + varint(rid[1])


def item(kind, value):
    return b"\xff" if kind == "NULL" else bytes([NUMBERS[kind]]) + value_bytes(kind, value)


def value_bytes(kind, v):
    if kind == "BOOLEAN":
        return bytes([v])
    if kind == "BYTE":
        return struct.pack("b", v)
    if kind in BITS:
        return varint(v)
    if kind == "STRING":
        return text(v)
    if kind == "BINARY":
        return counted(bytes.fromhex(v))
    if kind == "EMBEDDED":
        return headed(b"", v[0], v[1])
    if kind == "EMBEDDEDLIST":
        return varint(len(v)) + b"".join(item(k, x) for k, x in v)
    if kind == "EMBEDDEDMAP":
        return varint(len(v)) + b"".join(text(n) + item(k, x) for n, k, x in v)
    if kind == "LINK":
        return link(v)
    if kind == "LINKBAG" and isinstance(v, dict):
        return b"\x01" + struct.pack(">I", v["root"]) + varint(v["size"])
    if kind == "LINKBAG":
        return b"\0" + varint(len(v)) + b"".join(link(x) for x in v)
    if kind == "LINKMAP":
        return varint(len(v)) + b"".join(text(n) + link(x) for n, x in v)
    return varint(len(v)) + b"".join(link(x) for x in v)


def headed(start, name, fields):
    front = start + text(name)
    at = len(front) + sum(len(text(n)) + 5 for n, _, _ in fields) + 1
    entries = values = b""
    for n, kind, v in fields:
        null = kind == "NULL"
        entries += text(n) + struct.pack(">I", 0 if null else at + len(values)) + bytes([0 if null else NUMBERS[kind]])
        values += b"" if null else value_bytes(kind, v)
    return front + entries + b"\0" + values


def record(version, name, fields):
    return struct.pack(">I", version) + headed(b"\0", name, fields)


def names(draw, empty):
    pool = ["", "a", "b", "name", "B", "größe", "zz", "in", "out", "x" * 70][0 if empty else 1:]
    return sorted(draw.sample(pool, draw.randrange(4)), key=str.encode)


def rid(draw):
    return [draw.choice([-1, 1, 2, 32767, -32768]), draw.choice([0, 1, -2, 300, 2 ** 63 - 1, -2 ** 63])]


def value(draw, depth):
    flat = [*BITS, "BOOLEAN", "STRING", "BINARY", "LINK"]
    kind = draw.choice(([k for k in NUMBERS if k != "LINKBAG"] if depth else flat) + ["NULL"])
    if kind in BITS:
        limit = 2 ** (BITS[kind] - 1)
        return kind, draw.choice([0, 1, -1, limit - 1, -limit, draw.randrange(-limit, limit)])
    return kind, {
        "NULL": lambda: None, "BOOLEAN": lambda: draw.random() < 0.5,
        "STRING": lambda: draw.choice(["", "Ann", "ü", "x" * 200]),
        "BINARY": lambda: draw.randbytes(draw.randrange(5)).hex(),
        "EMBEDDED": lambda: [draw.choice(["", "Doc"]), fields(draw, depth - 1)],
        "EMBEDDEDLIST": lambda: [list(value(draw, depth - 1)) for _ in range(draw.randrange(4))],
        "EMBEDDEDMAP": lambda: [[n, *value(draw, depth - 1)] for n in names(draw, True)],
        "LINK": lambda: rid(draw), "LINKLIST": lambda: [rid(draw) for _ in range(draw.randrange(4))],
        "LINKSET": lambda: sorted(list(x) for x in {tuple(rid(draw)) for _ in range(draw.randrange(4))}),
        "LINKMAP": lambda: [[n, rid(draw)] for n in names(draw, True)],
    }[kind]()


def fields(draw, depth):
    return [[n, *value(draw, depth)] for n in names(draw, False)]


def bag(draw):
    if draw.random() < 0.3:
        return {"root": draw.randrange(2 ** 32), "size": draw.choice([0, 41, 2 ** 63 - 1])}
    return sorted(rid(draw) for _ in range(draw.randrange(4)))


def bags(draw):
    pool = ["in_", "in_Knows", "in_E", "out_E", "out_Knows", "out_größe"]
    return [[n, "LINKBAG", bag(draw)] for n in draw.sample(pool, draw.randrange(4))]


def own(draw):
    return sorted(fields(draw, 3) + bags(draw), key=lambda f: f[0].encode())


def deep(levels):
    kind, v = "EMBEDDEDLIST", []
    for _ in range(levels - 1):
        kind, v = "EMBEDDEDLIST", [[kind, v]]
    return [1, "Doc", [["a", kind, v]]]


def rows():
    yield [1, "Doc", [["a", "INTEGER", 5], ["b", "NULL", None]]]
    yield [1, "Doc", [["l", "LINK", [3, 1]]]]
    yield deep(64)
    yield deep(65)
    yield [7, "V", [["in_E", "LINKBAG", [[2, 0], [2, 0]]], ["out_E", "LINKBAG", {"root": 9, "size": 41}]]]


def main(args):
    draw = random.Random(int(args[0]) if args[0] != "--rows" else 0)
    made = rows() if args[0] == "--rows" else (
        [draw.randrange(2 ** 32), draw.choice(["Doc", "", "V"]), own(draw)] for _ in range(int(args[1])))
    for version, name, held in made:
        print(record(version, name, held).hex(), json.dumps([version, name, held], ensure_ascii=False), sep="\t")


if __name__ == "__main__":
    main(sys.argv[1:])
