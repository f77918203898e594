#!/usr/bin/env python3
"""Prints what crates/cases_listing must print (its file stdout), worked out from the rules of the listing alone; with a file's name, its listing.

A file is one version byte 1, then records, each a two-byte length, high byte first, and that many PDU bytes; k is 4,096.
"""
import sys

K = 4096


def number(b, i):
    return b[i + 1] << 16 | b[i + 2] << 8 | b[i + 3]


def line(b):
    """The line of a record with these bytes."""
    n = len(b)
    if n < 4 or n % 4:
        return "BAD 1"
    last = n - 4
    kind = b[last] & 15
    if kind == 0:
        return "BAD 2"
    if kind not in (8, 10, 11, 12):
        return "BAD 3"
    if kind == 8:
        length = last - (b[last] >> 6)
        return "BAD 1" if length < 0 or length > K else f"SD {number(b, last)} {length}"
    if kind == 10:
        return f"POLL {number(b, 0)} {number(b, 4)}" if n == 8 else "BAD 1"
    if kind == 12:
        return "USTAT %d %d %d %d" % tuple(number(b, i) for i in (8, 12, 0, 4)) if n == 16 else "BAD 1"
    if n < 12:
        return "BAD 1"
    elements = [number(b, i) for i in range(0, n - 12, 4)]
    return " ".join(map(str, ["STAT"] + [number(b, i) for i in (n - 12, n - 8, n - 4)] + [len(elements)] + elements))


def listing(f):
    if not f or f[0] != 1:
        return ["VERSION"]
    lines, at = [], 1
    while at < len(f):
        end = at + 2 + int.from_bytes(f[at:at + 2], "big")
        if at + 2 > len(f) or end > len(f):
            return lines + ["CUT", f"END {len(lines)}"]
        lines.append(line(f[at + 2:end]))
        at = end
    return lines + [f"END {len(lines)}"]


def record(b):
    return len(b).to_bytes(2, "big") + b


def file(*records):
    return b"\x01" + b"".join(map(record, records))


P1, P4 = bytes.fromhex("4142000088000005"), bytes.fromhex("000000010a000002")
P2, P5 = bytes.fromhex("08ffffff"), bytes.fromhex("000000010000000a0b000002")
P3 = bytes.fromhex("4142430048000000")
P6 = bytes.fromhex("0000000300000005000000100c000003")
ELEMENTS = b"".join((i % 10).to_bytes(4, "big") for i in range(16380))
CASES = [
    ("the example", file(P1, P4, b"AB")),
    ("no byte", b""),
    ("version 0", b"\x00" + file(P1)[1:]),
    ("version 2", b"\x02" + file(P1)[1:]),
    ("version 1 alone", file()),
    ("a length cut", b"\x01\x00"),
    ("a length cut behind a record", file(P1) + b"\x00"),
    ("a record cut by all its bytes", b"\x01\x00\x08"),
    ("a record cut by one byte", file(P1)[:-1]),
    ("a record cut behind two", file(P1, b"", P4)[:-3]),
    ("a record of length 0", file(b"")),
    ("SD", file(P1, P2, P3)),
    ("POLL", file(P4, bytes.fromhex("ffffffffffffffff")[:4] + bytes.fromhex("faffffff"))),
    ("STAT", file(P5, bytes.fromhex("00000003ff000005000000010000000a0b000002"))),
    ("USTAT", file(P6)),
    ("BAD 1", file(b"A", P4[:-1], P4 + b"\x00", P4 + P4, P5[4:], P6 + P6, bytes.fromhex("c8000000"))),
    ("BAD 2", file(bytes.fromhex("00000000"), bytes.fromhex("4142434410000005"))),
    ("BAD 3", file(*(bytes([t, 0, 0, 0]) for t in (1, 2, 3, 4, 5, 6, 7, 9, 13, 14, 15)))),
    ("the longest message", file(bytes(4096) + bytes.fromhex("08000001"))),
    ("a message over k", file(bytes(4100) + bytes.fromhex("c8000001"))),
    ("16,380 elements", file(ELEMENTS + P5)),
    ("65,535 bytes", file(bytes(65535), P4)),
]

if __name__ == "__main__":
    if len(sys.argv) > 1:
        print("\n".join(listing(open(sys.argv[1], "rb").read())))
    else:
        for name, f in CASES:
            print("\n".join([f"-- {name}"] + listing(f)))
