#!/usr/bin/env python3
"""Times how four sessions are told of flag changes, over mailboxes of growing sizes side by side.

Usage: bench/answer.py PROGRAM

PROGRAM is the built binary, crates/dv_bench/out/dv_bench. Each of 10,000 records changes one flag of
one row; behind each record every session answers a NOOP, which tells the row's flags. The shortest
of twenty runs counts.
"""

import struct
import subprocess
import sys

from apply import FLAG_UPDATE, appends, record

RUNS = 20
SIZES = (100, 1_000, 10_000, 100_000)
CHANGES = 10_000
SESSIONS = 4
SEEN = 0x08


def change(uid, add, remove):
    return record(FLAG_UPDATE, struct.pack("<IIBB2x", uid, uid, add, remove))


def changes_of_one(rows):
    """The flag Seen of the row in the middle is set and taken back by turns."""
    uid = rows // 2 + 1
    return [change(uid, SEEN, 0) if k % 2 == 0 else change(uid, 0, SEEN) for k in range(CHANGES)]


def changes(rows, step):
    """The rows' flag Seen is set in turn, a step apart, and taken back in the next round, and so on."""
    records = []
    for k in range(CHANGES):
        add, remove = (SEEN, 0) if k // rows % 2 == 0 else (0, SEEN)
        records.append(change(k * step % rows + 1, add, remove))
    return records


def run(program, rows, text):
    """The microseconds that the changes and their telling take."""
    done = subprocess.run([program, str(rows), "sessions"], input=text, stdout=subprocess.PIPE, check=False)
    told, _, times = done.stdout.decode().partition("\n")
    # A FETCH and an OK for each session and change.
    if done.returncode != 0 or told != f"{2 * SESSIONS * CHANGES} lines told":
        sys.exit(f"status {done.returncode}: {told!r} {times!r}")
    return int(times.rsplit("others ", 1)[1].split()[0])


def shortest_times(program, changes_over):
    """The shortest time over each number of rows. The sizes take turns, so that other work meets all."""
    texts = {rows: b"".join(appends(rows) + changes_over(rows)) for rows in SIZES}
    times = {rows: [] for rows in SIZES}
    for _ in range(RUNS):
        for rows in SIZES:
            times[rows].append(run(program, rows, texts[rows]))
    return {rows: min(times[rows]) for rows in SIZES}


def main():
    if len(sys.argv) != 2:
        sys.exit(__doc__)
    # A step that shares no factor with the numbers of rows goes to each row once a round.
    for title, changes_over in (
        ("of one row", changes_of_one),
        ("row after row", lambda rows: changes(rows, 1)),
        ("rows far apart", lambda rows: changes(rows, 40_503)),
    ):
        print(f"{CHANGES} flag changes told to {SESSIONS} sessions, {title}")
        times = shortest_times(sys.argv[1], changes_over)
        for rows in SIZES:
            print(f"  over {rows:>7} rows  {times[rows] / 1000:>8.2f} ms, {times[rows] / CHANGES:.2f} us for one,"
                  f"  {times[rows] / times[SIZES[0]]:.2f} times the first", flush=True)


if __name__ == "__main__":
    main()
