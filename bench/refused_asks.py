#!/usr/bin/env python3
"""Refuses each allocation in turn to a program that says itself whether all is as it has to be.

Usage: bench/refused_asks.py PROGRAM [STEP]

PROGRAM is the built binary, crates/dv_tests_keeper_refusals/out/dv_tests_keeper_refusals. The library of
bench/refused_allocations.py answers the n-th allocation as one that the system refuses, of every
STEP-th one where that is given. Each run is to end with status 0; the numbers of those are told in
which a session was spent, and in which something was asked once more.
"""

import os
import subprocess
import sys
import tempfile
from concurrent.futures import ThreadPoolExecutor

from refused_allocations import REFUSING

FRONT = "answered and left as they have to be, "


def build(place):
    """The library, built in this directory."""
    source, library = os.path.join(place, "refusing.c"), os.path.join(place, "refusing.so")
    with open(source, "w", encoding="ascii") as text:
        text.write(REFUSING)
    subprocess.run(["gcc", "-shared", "-fPIC", "-O1", "-o", library, source, "-ldl"], check=True)
    return library


def run(program, library, refused, told=None):
    """The output of a run, of which the allocation of this number is refused; None of a bad one."""
    env = {**os.environ, "LD_PRELOAD": library, "REFUSED": str(refused)}
    if told:
        env["COUNTED"] = told
    done = subprocess.run([program], stdin=subprocess.DEVNULL, capture_output=True, env=env, check=False, text=True)
    return done.stdout if done.returncode == 0 and done.stdout.startswith(FRONT) else None


def allocations(program, library, place):
    """How many allocations a run makes that nothing is refused."""
    told = os.path.join(place, "told")
    with open(told, "wb") as text:
        text.write(bytes(8))
    if run(program, library, 0, told) is None:
        sys.exit("not as it has to be where nothing is refused")
    with open(told, "rb") as text:
        return int.from_bytes(text.read(8), "little")


def main():
    if len(sys.argv) not in (2, 3):
        sys.exit(__doc__.split("\n\n")[1])
    program, step = os.path.abspath(sys.argv[1]), int(sys.argv[2]) if len(sys.argv) == 3 else 1
    with tempfile.TemporaryDirectory(prefix="refused.", dir="/dev/shm") as place:
        library = build(place)
        count = allocations(program, library, place)
        numbers = range(1, count + 1, step)
        with ThreadPoolExecutor(os.cpu_count()) as pool:
            outputs = list(pool.map(lambda n: run(program, library, n), numbers))
    bad = [n for n, output in zip(numbers, outputs) if output is None]
    spent = sum(" 1 spent" in output for output in outputs if output)
    refused = sum(" 1 refused" in output for output in outputs if output)
    print(f"{count} allocations, {len(outputs)} of them refused in a run of its own: {spent} runs spent a session, "
          f"{refused} asked once more, {len(bad)} were not as they have to be {bad[:20]}")
    sys.exit(1 if bad else 0)


if __name__ == "__main__":
    main()
