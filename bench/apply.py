#!/usr/bin/env python3
"""Times how the records of a log are applied to a live mailbox, at growing sizes side by side.

Usage: bench/apply.py PROGRAM

PROGRAM is the built binary, crates/dv_bench/out/dv_bench. Each log is made here, by the layout of
Dovecot's mail-transaction-log.h, and handed over as standard input; the program tells the time of
the first records and of the others in microseconds. The shortest of three runs counts.
"""

import struct
import subprocess
import sys

RUNS = 3

EXPUNGE = 0x01 | 0xCD90
APPEND = 0x02
FLAG_UPDATE = 0x04
EXT_INTRO = 0x40
EXT_RECORD_UPDATE = 0x200
KEYWORD_UPDATE = 0x400
EXTERNAL = 1 << 28


def record(kind, payload):
    """A record: its size times 4 in units of 7 bits a byte, its type, and the payload."""
    size = (8 + len(payload)) // 4
    code = bytes(0x80 | (size >> 7 * (3 - i)) & 0x7F for i in range(4))
    return code + struct.pack("<I", kind | EXTERNAL) + payload


def append(uid):
    return record(APPEND, struct.pack("<IB3x", uid, 0))


def appends(count):
    return [append(uid) for uid in range(1, count + 1)]


def flags(ranges):
    return record(FLAG_UPDATE, b"".join(struct.pack("<IIBB2x", a, b, 8, 0) for a, b in ranges))


def keywords(name, ranges):
    padded = name + bytes(-len(name) % 4)
    pairs = b"".join(struct.pack("<II", a, b) for a, b in ranges)
    return record(KEYWORD_UPDATE, struct.pack("<BxH", 0, len(name)) + padded + pairs)


def keyword(name, uid):
    return keywords(name, [(uid, uid)])


def expunge(uid):
    return record(EXPUNGE, struct.pack("<II", uid, uid))


def intro(name, header=0):
    fixed = struct.pack("<IIIHHHH", 0xFFFFFFFF, 0, header, 4, 4, 0, len(name))
    return record(EXT_INTRO, fixed + name + bytes(-len(name) % 4))


def row_update(uid):
    return record(EXT_RECORD_UPDATE, struct.pack("<II", uid, uid))


def name_of(k):
    return b"k%07d" % (k * 7919 % 10_000_000)


def messages(count):
    """What a Dovecot server logs for each message: an append, two introductions, two updates."""
    log = []
    for uid in range(1, count + 1):
        log += [append(uid), intro(b"cache"), row_update(uid), intro(b"modseq"), row_update(uid)]
    return log


def run(program, first, others, words=()):
    """The microseconds that the other records take behind the first."""
    text = b"".join(first + others)
    shortest = None
    for _ in range(RUNS):
        done = subprocess.run([program, str(len(first)), *words], input=text, stdout=subprocess.PIPE, check=False)
        answer = done.stdout.decode()
        if done.returncode != 0 or not answer.startswith(f"{len(first) + len(others)} records, "):
            sys.exit(f"status {done.returncode}: {answer!r}")
        took = int(answer.rsplit("others ", 1)[1].split()[0])
        shortest = took if shortest is None else min(shortest, took)
    return shortest


def table(program, title, sizes, make, words=()):
    """A line for each size, with its ratio to the line above."""
    print(title)
    before = None
    for size in sizes:
        took = run(program, *make(size), words)
        ratio = f"  {took / before:6.1f} times the line above" if before else ""
        print(f"  {size:>8}  {took / 1000:>10.2f} ms{ratio}", flush=True)
        before = max(took, 1)


def main():
    if len(sys.argv) != 2:
        sys.exit(__doc__)
    program = sys.argv[1]
    table(program, "n flag updates of one row each, over n rows", (1_000, 10_000, 30_000, 100_000),
          lambda n: (appends(n), [flags([(u, u)]) for u in range(1, n + 1)]))
    table(program, "n expunges of one row each, of n rows", (10_000, 30_000),
          lambda n: (appends(n), [expunge(u) for u in range(1, n + 1)]))
    table(program, "n keyword updates of one row each, over n rows", (1_000, 10_000, 100_000),
          lambda n: (appends(n), [keyword(b"k1", u) for u in range(1, n + 1)]))
    table(program, "n messages as a Dovecot server logs them", (1_000, 4_000, 10_000),
          lambda n: ([], messages(n)))
    table(program, "n updates of one new keyword name each, of one row each", (4_000, 16_000, 64_000),
          lambda n: (appends(n), [keyword(name_of(k), k + 1) for k in range(n)]))
    table(program, "n updates of one new keyword name each, all of one row", (4_000, 16_000),
          lambda n: (appends(1), [keyword(name_of(k), 1) for k in range(n)]))
    table(program, "one flag update of n falling ranges over n rows", (10_000, 40_000),
          lambda n: (appends(n), [flags([(u, u) for u in range(n, 0, -1)])]))
    table(program, "10,000 flag updates of one row, over so many rows", (100, 100_000),
          lambda n: (appends(n), [flags([(k % n + 1, k % n + 1)]) for k in range(10_000)]))
    names = [keyword(name_of(k), 1) for k in range(1_000)]
    table(program, "10,000 keyword updates of one row under 1,000 names, over so many rows", (100, 100_000),
          lambda n: (appends(n) + names, [keyword(name_of(k % 1_000), k % n + 1) for k in range(10_000)]))
    table(program, "the same with the touched UIDs handed out: flags", (100, 100_000),
          lambda n: (appends(n), [flags([(k % n + 1, k % n + 1)]) for k in range(10_000)]), ("touched",))
    table(program, "the same with the touched UIDs handed out: keywords", (100, 100_000),
          lambda n: (appends(n) + names, [keyword(name_of(k % 1_000), k % n + 1) for k in range(10_000)]), ("touched",))
    wide = 65_536
    table(program, "one flag update of 65,536 ranges in disorder, over so many rows", (100_000,),
          lambda n: (appends(n), [flags([(u * 40_503 % n + 1,) * 2 for u in range(wide)])]))
    table(program, "one keyword update of 65,536 equal ranges of one row, over so many rows", (100_000,),
          lambda n: (appends(n), [keywords(b"k1", [(5, 5)] * wide)]))
    rows = 100_000
    table(program, "one keyword update of so many ranges that each name all 100,000 rows", (256, wide),
          lambda n: (appends(rows), [keywords(b"k1", [(1, rows)] * n)]))
    table(program, "one flag update of so many ranges that each name all 100,000 rows", (256, wide),
          lambda n: (appends(rows), [flags([(1, rows)] * n)]))
    table(program, "one flag update of so many ranges, each inside the one before, over 200,000 rows", (256, wide),
          lambda n: (appends(2 * rows), [flags([(k + 1, 2 * rows - k) for k in range(n)])]))
    table(program, "the same with the touched UIDs handed out", (256, wide),
          lambda n: (appends(2 * rows), [flags([(k + 1, 2 * rows - k) for k in range(n)])]), ("touched",))
    table(program, "n introductions that each grow an extension's header by a byte, over 100,000 rows", (100, 400),
          lambda n: (appends(100_000) + [intro(b"cache")], [intro(b"cache", size) for size in range(1, n + 1)]))
    table(program, "one flag update of 65,536 equal ranges of one row, over so many rows", (100_000,),
          lambda n: (appends(n), [flags([(5, 5)] * wide)]))


if __name__ == "__main__":
    main()
