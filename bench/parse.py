#!/usr/bin/env python3
"""Times how scripts are parsed, at growing sizes side by side.

Usage: bench/parse.py PROGRAM

PROGRAM is the built binary, crates/dv_timing/out/dv_timing. Each script is made here and handed over
as standard input; the program tells how many lines it has and the microseconds that parsing takes. A
script that is refused has 0 lines. The shortest of three runs counts.
"""

import subprocess
import sys

RUNS = 3
MEBIBYTE = 1 << 20


def filled(line, size):
    return (line * (size // len(line) + 1))[: size - size % len(line)]


def long_line(front, piece, behind, size=65_536):
    return front + piece * ((size - len(front) - len(behind)) // len(piece)) + behind + b"\n"


def literal(size):
    return b"a APPEND () {%d}\n" % size + b"x\n" * (size // 2) + b"\n"


SPANS = b"a FETCH " + b",".join(b"%d" % (n % 99_999 + 1) for n in range(10_000)) + b" (FLAGS)\n"

WORDS = b"a STORE 1 FLAGS (" + b" ".join(b"%04x" % (n * 40_503 % 65_536) for n in range(13_000)) + b")\n"

LINES = {
    "short lines": b"a NOOP\n",
    "lines of 64 sessions": b"".join(b"s%d NOOP\n" % n for n in range(64)),
    "FETCH of 10,000 ranges a line": SPANS,
    "STORE of 13,000 keywords a line": WORDS,
    "SEARCH of 65,536 bytes a line": long_line(b"a SEARCH ", b"NOT ALL ", b"ALL"),
    "literals of 1 KiB": literal(1024),
}

ALONE = {
    "one line of 65,536 bytes of NOT": long_line(b"a SEARCH ", b"NOT ", b""),
    "one line of 65,536 bytes of (": long_line(b"a SEARCH ", b"(", b""),
    "one line of 10,000 ranges": SPANS,
    "one line of 13,000 keywords": WORDS,
    "one literal of 32 MiB": literal(32 * MEBIBYTE),
}


def run(program, script):
    """The lines of a script, and the microseconds that it takes."""
    shortest = None
    for _ in range(RUNS):
        done = subprocess.run([program], input=script, stdout=subprocess.PIPE, check=True)
        words = done.stdout.decode().split()
        lines, time = int(words[0]), int(words[2])
        shortest = time if shortest is None else min(shortest, time)
    return lines, shortest


def main():
    program = sys.argv[1]
    for name, line in LINES.items():
        for size in (MEBIBYTE, 8 * MEBIBYTE, 64 * MEBIBYTE):
            script = filled(line, size)
            lines, time = run(program, script)
            print(f"{name}, {len(script)} bytes: {lines} lines, {time} us, {1000 * time / len(script):.2f} ns a byte")
    for name, script in ALONE.items():
        lines, time = run(program, script)
        print(f"{name}, {len(script)} bytes: {lines} lines, {time} us")


main()
