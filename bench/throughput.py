#!/usr/bin/env python3
"""Times the built program over a new folder, by scripts of more and more APPENDs.

Usage: bench/throughput.py PROGRAM [DIRECTORY]

PROGRAM is the built binary, crates/sdbox/out/sdbox. The folders are made in DIRECTORY, which
is /dev/shm (a file system in memory) where none is given. Each run is one SELECT and n APPENDs
of no bytes and without a flag, and the shortest of five runs counts; the time for an APPEND is to stay about the
same from n to 10 n.
"""

import os
import shutil
import subprocess
import sys
import tempfile
import time

COUNTS = (1_000, 10_000, 100_000)
RUNS = 5


def last_line(path):
    with open(path, "rb") as output:
        output.seek(0, os.SEEK_END)
        output.seek(max(0, output.tell() - 200))
        return output.read().splitlines()[-1].decode()


def run(program, directory, count):
    """The seconds that a script of so many APPENDs takes."""
    place = tempfile.mkdtemp(prefix="throughput.", dir=directory)
    try:
        script = os.path.join(place, "script")
        answers = os.path.join(place, "answers")
        with open(script, "w", encoding="ascii") as text:
            text.write("a SELECT\n" + "a APPEND () {0}\n\n" * count)
        with open(script, "rb") as source, open(answers, "wb") as sink:
            start = time.perf_counter()
            done = subprocess.run(
                [program, os.path.join(place, "box"), "run"], stdin=source, stdout=sink, check=False
            )
            seconds = time.perf_counter() - start
        answer = last_line(answers)
        if done.returncode != 0 or not answer.endswith(f" GROUPS {count}"):
            sys.exit(f"{count} APPENDs: status {done.returncode}, {answer!r}")
        return seconds
    finally:
        shutil.rmtree(place)


def main():
    if len(sys.argv) not in (2, 3):
        sys.exit(__doc__)
    program = os.path.abspath(sys.argv[1])
    directory = sys.argv[2] if len(sys.argv) == 3 else "/dev/shm"
    print(f"{'APPENDs':>8} {'seconds':>9} {'us each':>9} {'ratio':>7}")
    before = None
    for count in COUNTS:
        seconds = min(run(program, directory, count) for _ in range(RUNS))
        ratio = f"{seconds / before:7.1f}" if before else f"{'':>7}"
        print(f"{count:>8} {seconds:>9.3f} {seconds / count * 1e6:>9.1f} {ratio}", flush=True)
        before = seconds


if __name__ == "__main__":
    main()
