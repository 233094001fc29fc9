#!/usr/bin/env python3
"""Measures the peak of the built program's memory, beside what it is to go by.

Usage: bench/memory.py PROGRAM [DIRECTORY]

PROGRAM is the built binary, crates/sdbox/out/sdbox. Folders and scripts are made in DIRECTORY
(/dev/shm where none is given). Each line of the table is one run: the largest part of its memory that
was resident at once, the time, and what the run has: the bytes of its script, the rows of the mailbox,
the rows that its sessions are shown, and the bytes of the messages that one command reads or adds (of
generated load, the rows at its end, and those shown to each of its sessions). A row counts 65 bytes, 64
more where it has a place in the cache file (two blocks of the allocator), and a row shown 40; either
counts 32 more where it has a keyword. `sum` is what all these have together, and `times` how often it goes into the
peak beyond that of a run of no lines over a mailbox without messages; it is to be 2 at most. Where the
sum is less than a mebibyte it says little and is left out; the last lines tell the most of all others.
Mailboxes are of short messages, and then of messages with fewer bytes than mail has, told apart there.
Where the system places a program's memory changes the peak by up to 200 KiB from run to run: a run that
leaves the folder as it was is made three times, that of no lines nine times, and the middle one counts.

It needs GNU time (Debian's package `time`), since a child of this script begins with the script's own size.
"""

import os
import shutil
import subprocess
import sys
import tempfile
import time

TIME = "/usr/bin/time"
NOOPS = (1_000_000, 10_000_000, 60_000_000)
ROWS = (10_000, 100_000)
SESSIONS = (1, 16)
SIZES = (1_000_000, 30_000_000)
LOADS = (5_000, 100_000)
ROW, PLACE, KEYWORD, SHOWN = 65, 64, 32, 40
RUNS, BOUND = 3, 2
# A short message, one of the fewest bytes that RFC 5322 (section 3.6) lets a message have, and one of none.
SHORTEST = b"Date: Sun, 29 Nov 2026 00:00:00 +0000\nFrom: a@b\n\n"
SHORT = (
    b"Date: Sun, 29 Nov 2026 00:00:00 +0000\nFrom: Ann <ann@example.org>\nTo: Bob <bob@example.org>\n"
    b"Subject: Greetings\nMessage-ID: <20261129.1@example.org>\n\nHello Bob, how are you?\n"
)
NOTHING = b""
FIELDS = b"FIELD date FIELD from FIELD to FIELD subject FIELD message-id"
ITEMS = (
    ("FLAGS", b"FLAGS"),
    ("RFC822.SIZE", b"RFC822.SIZE"),
    ("FIELD subject", b"FIELD subject"),
    ("five fields", FIELDS),
    ("BODY[]", b"BODY[]"),
)
KEYS = (b"ALL", b"LARGER 100", b'HEADER subject "greet"')
QUANTITIES = ("script", "rows", "shown", "message", "sum")


class Bench:
    def __init__(self, program, place):
        self.program, self.place, self.base, self.boxes = program, place, 0, 0
        self.worst = {}
        print(f"{'run':<36} {'peak KiB':>9} {'seconds':>8} " + " ".join(f"{q:>11}" for q in QUANTITIES) + "  times")

    def box(self):
        """The path of a new folder."""
        self.boxes += 1
        return os.path.join(self.place, f"box{self.boxes}")

    def peak(self, words, script):
        """The peak in KiB and the seconds of one run, and its script's bytes. The script is given in pieces."""
        source, told = os.path.join(self.place, "script"), os.path.join(self.place, "peak")
        with open(source, "wb") as text:
            text.writelines(script)
        with open(source, "rb") as text:
            before = time.perf_counter()
            command = [TIME, "-f", "%M", "-o", told, self.program, *words]
            done = subprocess.run(command, stdin=text, stdout=subprocess.DEVNULL, check=False)
            seconds = time.perf_counter() - before
        if done.returncode != 0:
            sys.exit(f"{words}: status {done.returncode}")
        with open(told, encoding="ascii") as text:
            return int(text.read()), seconds, os.path.getsize(source)

    def run(self, name, words, script=(), row=ROW, shown_row=SHOWN, kind="mail", runs=1, **has):
        """One line of the table, by the middle one of so many runs."""
        peak, seconds, has["script"] = sorted(self.peak(words, script) for _ in range(runs))[runs // 2]
        kept = has.get("rows", 0) * row + has.get("shown", 0) * shown_row
        has["sum"] = has["script"] + kept + has.get("message", 0)
        line = f"{name:<36} {peak:>9,} {seconds:>8.2f} " + " ".join(f"{has.get(q, 0):>11,}" for q in QUANTITIES)
        if has["sum"] >= 1 << 20:
            times = (peak - self.base) * 1024 / has["sum"]
            self.worst[kind] = max(self.worst.get(kind, 0), times)
            line += f"  {times:5.2f}"
        print(line, flush=True)
        return peak


def scripts(bench):
    for size in NOOPS:
        count = size // len(b"a NOOP\n")
        pieces = [b"a SELECT\n"] + [b"a NOOP\n" * 1000] * (count // 1000) + [b"a NOOP\n" * (count % 1000)]
        bench.run(f"NOOPs, {size:,} bytes", (bench.box(), "run"), pieces)


def mailbox(bench, rows, message):
    """One mailbox of so many equal messages, and what is done to it."""
    box, size, whole = bench.box(), len(message), rows * len(message)
    words, kind = (box, "run"), "mail" if message == SHORT else "fewer bytes"

    def run(name, pieces, row=ROW + PLACE, shown_row=SHOWN, shown=rows, read=0, runs=1):
        bench.run(name, words, pieces, row, shown_row, kind, runs, rows=rows, shown=shown, message=read)

    run(f"{rows:,} APPENDs of {size} bytes", [b"a SELECT\n", (b"a APPEND () {%d}\n%s\n" % (size, message)) * rows], ROW)
    run("  SELECT", [b"a SELECT\n"], ROW, runs=RUNS)
    run("  CHECK", [b"a SELECT\na CHECK\n"], read=whole)
    run("  opened", (), shown=0, runs=RUNS)
    for sessions in SESSIONS:
        run(f"  SELECT by {sessions}", [b"s%d SELECT\n" % i for i in range(sessions)], shown=rows * sessions, runs=RUNS)
    run("  CHECK again", [b"a SELECT\na CHECK\n"], read=whole)
    for name, items in ITEMS:
        read = 0 if items == b"FLAGS" else whole
        run(f"  FETCH 1:* ({name})", [b"a SELECT\na FETCH 1:* (%s)\n" % items], read=read, runs=RUNS)
    for key in KEYS:
        read = 0 if key == b"ALL" else whole
        run(f"  SEARCH {key.decode()}", [b"a SELECT\na SEARCH %s\n" % key], read=read, runs=RUNS)
    store = b"a SELECT\nb SELECT\na STORE 1:* +FLAGS (%s)\nb NOOP\n"
    run("  STORE 1:* +FLAGS (\\Deleted), told", [store % b"\\Deleted"], shown=2 * rows)
    run("  STORE 1:* +FLAGS (work), told", [store % b"work"], ROW + PLACE + KEYWORD, SHOWN + KEYWORD, shown=2 * rows)
    run("  EXPUNGE of all", [b"a SELECT\na EXPUNGE\n"], ROW + PLACE + KEYWORD, SHOWN + KEYWORD, read=whole)
    shutil.rmtree(box)


def mailboxes(bench):
    for rows in ROWS:
        for message in (SHORT, SHORTEST, NOTHING):
            mailbox(bench, rows, message)


def messages(bench):
    for size in SIZES:
        box, has = bench.box(), {"rows": 1, "shown": 1, "message": size}
        run = (box, "run")
        pieces = [b"a SELECT\na APPEND () {%d}\n" % size, b"x" * size, b"\n"]
        bench.run(f"APPEND of {size:,} bytes", run, pieces, **has)
        has["runs"] = RUNS
        bench.run("  FETCH of BODY[]", run, [b"a SELECT\na FETCH 1 (BODY[])\n"], **has)
        bench.run("  four of them", run, [b"a SELECT\n", b"a FETCH 1 (BODY[])\n" * 4], **has)
        bench.run("  FETCH of RFC822.SIZE", run, [b"a SELECT\na FETCH 1 (RFC822.SIZE)\n"], **has)
        shutil.rmtree(box)


def loads(bench):
    for count in LOADS:
        box = bench.box()
        words = (box, "gen", "7", str(count), "8")
        told = subprocess.run([bench.program, *words], stdin=subprocess.DEVNULL, capture_output=True, check=True)
        rows = int(told.stdout.split()[told.stdout.split().index(b"EXISTS") + 1])
        shutil.rmtree(box)
        bench.run(f"gen 7 {count:,} 8", words, rows=rows, shown=8 * rows)
        shutil.rmtree(box)


def main():
    if len(sys.argv) not in (2, 3):
        sys.exit(__doc__)
    if not os.path.exists(TIME):
        sys.exit(f"{TIME} isn't there")
    directory = sys.argv[2] if len(sys.argv) == 3 else "/dev/shm"
    place = tempfile.mkdtemp(prefix="memory.", dir=directory)
    try:
        bench = Bench(os.path.abspath(sys.argv[1]), place)
        bench.base = bench.run("no lines", (bench.box(), "run"), runs=9)
        for part in (scripts, mailboxes, messages, loads):
            part(bench)
        for kind, times in bench.worst.items():
            print(f"{kind}: at most {times:.3f} times the sum; the bound is {BOUND}")
    finally:
        shutil.rmtree(place)


if __name__ == "__main__":
    main()
