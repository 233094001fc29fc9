#!/usr/bin/env python3
"""Times sessions over one log in memory, over mailboxes of growing sizes.

Usage: bench/world.py PROGRAM

PROGRAM is the built binary, crates/dv_bench/out/dv_bench. One session appends the messages, by five
events each. Then two sessions change one flag of one message by turns, by 1,000 events. The shortest
of three runs counts.
"""

import re
import subprocess
import sys

RUNS = 3
SIZES = (100, 1_000, 10_000)
TIMES = re.compile(r"(\d+) appends (\d+) us, 1000 events (\d+) us\n")


def run(program, rows):
    """The microseconds that the appends take, and those of the events."""
    done = subprocess.run([program, str(rows), "worlds"], stdout=subprocess.PIPE, text=True, check=False)
    times = TIMES.fullmatch(done.stdout)
    if done.returncode != 0 or not times or int(times[1]) != rows:
        sys.exit(f"status {done.returncode}: {done.stdout!r}")
    return int(times[2]), int(times[3])


def main():
    if len(sys.argv) != 2:
        sys.exit(__doc__)
    for rows in SIZES:
        runs = [run(sys.argv[1], rows) for _ in range(RUNS)]
        first, others = min(first for first, _ in runs), min(others for _, others in runs)
        print(f"{rows:>6} appends {first / 1000:>9.2f} ms, 1,000 events {others / 1000:>8.2f} ms", flush=True)


if __name__ == "__main__":
    main()
