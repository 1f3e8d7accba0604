#!/usr/bin/env python3
"""`kept.py ARCHIVE SCRIPT` compares what an archive keeps of a station with what the station's script stored: reads the
archive's entries, and ends with 1 where a number below a front isn't there exactly once, or a record isn't as it was stored.
"""
import struct
import sys


def script_tables(path):
    tables = {}
    for line in open(path):
        words = line.split()
        if words[0] == "table":
            name, ring, interval, kind, count = words[2], *map(int, words[3:5]), words[5], int(words[6])
            tables[name] = [name, ring, interval, kind, count, 0]
        elif words[0] == "store":
            tables[words[2]][5] += int(words[3])
    return list(tables.values())


def content(n, interval, kind, count):
    seconds = n * (interval or 1)
    if kind == "fp2":
        values = b"".join(struct.pack(">H", 0x4000 + (10 * n + k) % 4000) for k in range(count))
    else:
        values = bytes(0x41 + (n + k) % 26 for k in range(count))
    return struct.pack(">iI", seconds, 0) + values


def entries(data):
    assert data[:8] == b"\xa5PBKARC1"
    at = 8
    while at < len(data) and data[at] == 0x5A:
        size = int.from_bytes(data[at + 1 : at + 5], "big")
        yield data[at + 5 : at + 5 + size]
        at += 5 + size


def compare(archive, script):
    tables = script_tables(script)
    rows = [[] for _ in tables]
    for body in entries(open(archive, "rb").read()):
        if body[:1] != b"A":
            continue
        place, form, first, count = struct.unpack(">HBIH", body[1:10])
        name, ring, interval, kind, dimension, _ = tables[place]
        kept = rows[place]
        assert first >= len(kept), "an advance begins below the front"
        kept.extend([None] * (first - len(kept)))
        size = len(content(0, interval, kind, dimension))
        at = 10
        for k in range(count):
            if form == 1 and k:
                step = k * interval
                seconds, rest = struct.unpack(">iI", body[10:18])
                kept.append(struct.pack(">iI", seconds + step, rest) + body[at : at + size - 8])
                at += size - 8
            else:
                kept.append(body[at : at + size])
                at += size
        assert at == len(body)
    for (name, ring, interval, kind, dimension, stored), kept in zip(tables, rows):
        assert len(kept) == stored, f"{name}: front {len(kept)} of {stored}"
        for n, row in enumerate(kept):
            if row is None:
                assert n < stored - ring, f"{name}: {n} is a gap, and the station has it"
            else:
                assert row == content(n, interval, kind, dimension), f"{name}: {n} isn't as it was stored"
        print(name, len(kept), "numbers,", sum(row is None for row in kept), "gaps")


if __name__ == "__main__":
    compare(*sys.argv[1:3])
