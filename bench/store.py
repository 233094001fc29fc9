#!/usr/bin/env python3
"""Times the commands of a store over mailboxes of growing sizes, side by side.

Usage: bench/store.py PROGRAM [DIRECTORY]

PROGRAM is the built binary, crates/dv_store_times/out/dv_store_times. A mailbox is handed over as a
snapshot on standard input, made here by its second layout (dv_formats, specs/Snapshots.antt); its
folder is in memory, and has no message file. The program appends 1,000 messages, and changes one
flag of the message in the middle 1,000 times. Then folders are made in DIRECTORY, or in /dev/shm,
with a file for each message. In each of them the program appends and expunges 100 messages, one
after another, of which the expunges are timed, and ends with a CHECK. The sizes take turns, and of
the runs of a size the median counts; the shortest is printed beside it.
"""

import re
import statistics
import struct
import subprocess
import sys
import tempfile
from pathlib import Path

SIZES = (100, 10_000, 100_000)
WRITES = re.compile(rb"(\d+) rows, 1000 appends (\d+) us, as many changes (\d+) us\n")
READS = re.compile(rb"(\d+) rows, 100 expunges (\d+) us, a check (\d+) us\n")
LOG = bytes.fromhex(
    "01032800e8030000010000000000000000000000e803000001000000000000000100000000000000"
    "808080842000000018000400e803000000000000"
)
MESSAGE = b"From: a@example.org\r\nSubject: Hello\r\n\r\nHi\r\n"


def snapshot(rows):
    """The snapshot of a mailbox of so many messages without flags, at the end of a new log."""
    words = (120, 16, 0, 1000, 0, 1000, rows + 1, rows, 1, 56, 0, 0, 0, 0, 0, 0)
    header = bytes((201, 2, 120, 0)) + struct.pack("<16IQ44x", *words, rows + 2)
    return header + b"".join(struct.pack("<IB3xQ", uid, 0, uid + 2) for uid in range(1, rows + 1))


def message_file(uid):
    """The file of a message, by Dovecot's dbox format."""
    size = len(MESSAGE)
    guid = struct.pack(">IIII", 1000, 1000, uid, 1000).hex()
    return (b"2 M1e C3e8\n\x01\x02N" + b" " * 10 + b"%016X\n" % size + MESSAGE + b"\n\x01\x03\n"
            + f"G{guid}\nR3e8\nZ{size:x}\nV{size:x}\n\n".encode())


def make_folder(path, rows):
    path.joinpath("dovecot.index.log").write_bytes(LOG)
    path.joinpath("dovecot.index").write_bytes(snapshot(rows))
    for uid in range(1, rows + 1):
        path.joinpath(f"u.{uid}").write_bytes(message_file(uid))


def times_of(words, text, form):
    """The microseconds that the program says."""
    done = subprocess.run(words, input=text, stdout=subprocess.PIPE, check=False)
    times = form.fullmatch(done.stdout)
    if done.returncode != 0 or not times or times[1] != words[1].encode():
        sys.exit(f"status {done.returncode}: {done.stdout!r}")
    return [int(time) for time in times.groups()[1:]]


def writes(program, rows):
    return times_of([program, str(rows)], snapshot(rows), WRITES)


def reads(program, rows, directory):
    with tempfile.TemporaryDirectory(dir=directory) as path:
        make_folder(Path(path), rows)
        return times_of([program, str(rows), path], b"", READS)


def say(name, count, runs, place):
    """The times of a command, of which a run has so many."""
    times = {rows: sorted(times[place] / count for times in runs[rows]) for rows in SIZES}
    first = times[SIZES[0]]
    for rows in SIZES:
        median, shortest = statistics.median(times[rows]), times[rows][0]
        print(f"{name:>10} over {rows:>7} rows: median {median:>12.2f} us, "
              f"{median / statistics.median(first):.2f} times the first; "
              f"shortest {shortest:>12.2f} us, {shortest / first[0]:.2f} times", flush=True)


def runs_of(count, run):
    """So many runs of each size."""
    runs = {rows: [] for rows in SIZES}
    for _ in range(count):
        for rows in SIZES:
            runs[rows].append(run(rows))
    return runs


def main():
    if len(sys.argv) not in (2, 3):
        sys.exit(__doc__)
    program = sys.argv[1]
    directory = sys.argv[2] if len(sys.argv) == 3 else "/dev/shm"
    written = runs_of(15, lambda rows: writes(program, rows))
    say("an append", 1000, written, 0)
    say("a change", 1000, written, 1)
    read = runs_of(5, lambda rows: reads(program, rows, directory))
    say("an expunge", 100, read, 0)
    say("a check", 1, read, 1)


if __name__ == "__main__":
    main()
