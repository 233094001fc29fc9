#!/usr/bin/env python3
"""Times how folders are opened, beside how long their files take to read.

Usage: bench/open.py PROGRAM [DIRECTORY]

PROGRAM is the built binary, crates/dv_opening_times/out/dv_opening_times. Each folder is made here, in
DIRECTORY or in the system's place for temporary files, by the layout of Dovecot's
mail-transaction-log.h and of the project's own snapshot. The program tells the microseconds that
reading the files takes and those of opening, which reads them too. The shortest of three runs counts.
"""

import struct
import subprocess
import sys
import tempfile
from pathlib import Path

RUNS = 3
MEBIBYTE = 1 << 20

EXPUNGE = 0x01 | 0xCD90
APPEND = 0x02
FLAG_UPDATE = 0x04
HEADER_UPDATE = 0x20
EXTERNAL = 1 << 28
LETTERS = bytes(c for c in range(0x21, 0x7F) if c not in b'(){"\\%*')


def record(kind, payload):
    """A record: its size times 4 in units of 7 bits a byte, its type, and the payload."""
    size = (8 + len(payload)) // 4
    code = bytes(0x80 | (size >> 7 * (3 - i)) & 0x7F for i in range(4))
    return code + struct.pack("<I", kind | EXTERNAL) + payload


def append(first, count=1):
    return record(APPEND, b"".join(struct.pack("<IB3x", first + k, 0) for k in range(count)))


def log(records):
    """The first log file of index 1000, closed behind its records."""
    header = struct.pack("<BBHIIIIIQB7x", 1, 3, 40, 1000, 1, 0, 0, 1000, 1, 1)
    validity = record(HEADER_UPDATE, struct.pack("<HHI", 24, 4, 1000))
    return header + validity + b"".join(records) + bytes(4)


def expunge(ranges):
    return record(EXPUNGE, b"".join(struct.pack("<II", first, last) for first, last in ranges))


def flags(ranges):
    return record(FLAG_UPDATE, b"".join(struct.pack("<IIBB2x", a, b, 8, 0) for a, b in ranges))


def index(names):
    """A snapshot at 1:56 whose table claims to have these names, and no rows."""
    table = b"".join(struct.pack("<H", len(name)) + name + bytes(-(2 + len(name)) % 4) for name in names)
    words = (120 + len(table), 16 + 4 * -(-len(names) // 32), 0, 1000, 0, 1000, 1, 0, 1, 56, len(names), 0, 0, 0, 0, 0)
    return bytes((201, 2, 120, 0)) + struct.pack("<16IQ44x", *words, 2) + table


def two_byte_names(count):
    return [bytes((LETTERS[k // len(LETTERS) % len(LETTERS)], LETTERS[k % len(LETTERS)])) for k in range(count)]


def folders():
    """The rows that are wanted, and the files of a folder."""
    millions = [append(uid) for uid in range(1, 4_194_298)]
    yield "4,194,297 appends, 64 MiB", 4_194_297, {"dovecot.index.log": log(millions)}
    many = [append(1 + 10_000 * k, 10_000) for k in range(14)]
    pairs = [(2 * k + 1, 2 * k + 1) for k in range(65_536)]
    yield "one expunge of 65,536 ranges, of 140,000 rows", 74_464, {"dovecot.index.log": log(many + [expunge(pairs)])}
    yield "one expunge of 65,536 ranges in disorder", 74_464, {
        "dovecot.index.log": log(many + [expunge([pairs[40_503 * k % 65_536] for k in range(65_536)])])}
    yield "one flag update of each of 140,000 rows", 140_000, {
        "dovecot.index.log": log(many + [flags([(k, k)]) for k in range(1, 140_001)])}
    yield "an index of all 7,569 names of two bytes", 0, {
        "dovecot.index.log": log([]), "dovecot.index": index(two_byte_names(7_569))}
    yield "an index of names of two bytes, 64 MiB", 0, {
        "dovecot.index.log": log([]), "dovecot.index": index(two_byte_names(16 * MEBIBYTE))}


def run(program, folder):
    """What the program says, with the shortest times of reading and opening in microseconds."""
    reading, opening, found = None, None, None
    for _ in range(RUNS):
        done = subprocess.run([program, folder], stdout=subprocess.PIPE, check=True)
        first, second, found = done.stdout.decode().strip().split(", ", 2)
        times = int(first.split()[1]), int(second.split()[1])
        reading = times[0] if reading is None else min(reading, times[0])
        opening = times[1] if opening is None else min(opening, times[1])
    return reading, opening, found


def main():
    if len(sys.argv) not in (2, 3):
        sys.exit(__doc__)
    directory = sys.argv[2] if len(sys.argv) == 3 else None
    for title, rows, files in folders():
        with tempfile.TemporaryDirectory(dir=directory) as folder:
            for name, data in files.items():
                Path(folder, name).write_bytes(data)
            reading, opening, found = run(sys.argv[1], folder)
        if not found.startswith(f"{rows} rows, "):
            sys.exit(f"{title}: {found}")
        size = sum(map(len, files.values())) / MEBIBYTE
        print(f"{title}, {size:.1f} MiB: read {reading / 1000:.2f} ms, opened {opening / 1000:.2f} ms, "
              f"{opening / reading:.1f} times, {found}", flush=True)


if __name__ == "__main__":
    main()
