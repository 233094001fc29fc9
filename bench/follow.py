#!/usr/bin/env python3
"""Times how a kept search follows flag changes, over mailboxes of growing sizes side by side.

Usage: bench/follow.py PROGRAM

PROGRAM is the built binary, crates/dv_bench/out/dv_bench. Half of the messages have the flag
Flagged, which the search asks for. Each of 10,000 records changes the flag Seen of one row, so that
none comes or leaves; behind each the search follows. The shortest of twenty runs counts.
"""

import struct
import subprocess
import sys

from answer import CHANGES, changes, changes_of_one
from apply import FLAG_UPDATE, appends, record

RUNS = 20
SIZES = (100, 1_000, 10_000, 100_000)
FLAGGED = 0x02


def flagged(rows):
    """The first half of the messages has the flag."""
    return [record(FLAG_UPDATE, struct.pack("<IIBB2x", 1, rows // 2, FLAGGED, 0))]


def run(program, rows, text):
    """The microseconds that the changes and following them take."""
    done = subprocess.run([program, str(rows + 1), "kept"], input=text, stdout=subprocess.PIPE, check=False)
    found, _, times = done.stdout.decode().partition("\n")
    if done.returncode != 0 or found != f"{rows // 2} messages found":
        sys.exit(f"status {done.returncode}: {found!r} {times!r}")
    return int(times.rsplit("others ", 1)[1].split()[0])


def shortest_times(program, changes_over):
    """The shortest time over each number of rows. The sizes take turns, so that other work meets all."""
    texts = {rows: b"".join(appends(rows) + flagged(rows) + changes_over(rows)) for rows in SIZES}
    times = {rows: [] for rows in SIZES}
    for _ in range(RUNS):
        for rows in SIZES:
            times[rows].append(run(program, rows, texts[rows]))
    return {rows: min(times[rows]) for rows in SIZES}


def main():
    if len(sys.argv) != 2:
        sys.exit(__doc__)
    for title, changes_over in (
        ("of one row", changes_of_one),
        ("row after row", lambda rows: changes(rows, 1)),
        ("rows far apart", lambda rows: changes(rows, 40_503)),
    ):
        print(f"{CHANGES} flag changes followed by a kept search, {title}")
        times = shortest_times(sys.argv[1], changes_over)
        for rows in SIZES:
            print(f"  over {rows:>7} rows  {times[rows] / 1000:>8.2f} ms, {times[rows] / CHANGES:.2f} us for one,"
                  f"  {times[rows] / times[SIZES[0]]:.2f} times the first", flush=True)


if __name__ == "__main__":
    main()
