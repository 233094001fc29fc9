#!/usr/bin/env python3
"""Times sessions in threads, as many as read and as many as write, beside one.

Usage: bench/threads.py PROGRAM [COUNT [DIRECTORY]]

PROGRAM is the built binary, crates/sdbox/out/sdbox. COUNT messages' flags, 4,000,000 where none is given, are shown by
FETCHes of a hundred messages each, over a mailbox of 10,000, parted among 1, 2, 4 and 8 sessions of `run --threads`;
what the same sessions take for a SELECT alone is subtracted. (A script of as many FETCHes of one message takes longer to
read than to answer, and one thread reads it.) Beside that as many threads of plain arithmetic share one piece of work, in the same
turn, which tells what the machine's processors give. A thousandth of COUNT APPENDs is parted so too, on the disk of
DIRECTORY (the system's place for temporary files) and in memory. Each number is the median of nine turns; the last
columns are how much faster it was than with one session, and than the arithmetic made possible. Peak memory is told of the
readers. Beside the readers as many processes of Dovecot's imap show the same flags over one mailbox of as many messages,
each with a script piped from a file, what they answer thrown away; where that isn't installed, or this isn't run as root,
it is left out.
"""

import os
import statistics
import subprocess
import sys
import tempfile
import time
from pathlib import Path

import dovecot

TURNS, ROWS, SESSIONS = 9, 10_000, (1, 2, 4, 8)
WORK = r"""
#include <pthread.h>
#include <stdlib.h>
static long share;
static void *work(void *from) { unsigned long n = (unsigned long)from; for (long i = 0; i < share; i++) n = n * 6364136223846793005u + 1442695040888963407u; return (void *)n; }
int main(int argc, char **argv) {
    int threads = atoi(argv[1]);
    share = 1000000000L / threads;
    pthread_t made[64];
    unsigned long sum = 0;
    for (long i = 0; i < threads; i++) pthread_create(&made[i], 0, work, (void *)i);
    for (int i = 0; i < threads; i++) { void *got; pthread_join(made[i], &got); sum += (unsigned long)got; }
    return sum == 1;
}
"""


def timed(words, **how):
    """The seconds that a command takes, and the most memory that it had, in MB."""
    start = time.perf_counter()
    process = subprocess.Popen(words, stdout=subprocess.DEVNULL, **how)
    _, status, used = os.wait4(process.pid, 0)
    if status:
        sys.exit(f"{words}: status {status}")
    return time.perf_counter() - start, used.ru_maxrss / 1024


def answered(program, folder, script, *words):
    """The same of a script over a folder."""
    with tempfile.TemporaryFile() as text:
        text.write(script)
        text.seek(0)
        return timed([program, folder, *words], stdin=text)


def script_of(sessions, line, count):
    """The SELECTs of so many sessions, and so many lines of them in turn."""
    selects = b"".join(b"s%d SELECT\n" % n for n in range(sessions))
    return selects, selects + b"".join(b"s%d %s" % (n, line) for n in range(sessions)) * (count // sessions)


def readers(program, folder, sessions, count):
    selects, whole = script_of(sessions, b"FETCH 101:200 (FLAGS)\n", count // 100)
    without, _ = answered(program, folder, selects, "run", "--threads")
    seconds, memory = answered(program, folder, whole, "run", "--threads")
    return seconds - without, memory


class Dovecot:
    """A mailbox of Dovecot's, and what as many imap processes over it take to show as many flags as sessions do."""

    def __init__(self):
        self.place = dovecot.Place("/dev/shm")
        imap = dovecot.Imap(self.place)
        for _ in range(ROWS):
            imap.command(b"a APPEND INBOX {1+}\r\nx\r\n")
        imap.end()

    def took(self, processes, script):
        with tempfile.NamedTemporaryFile() as text:
            text.write(b"s SELECT INBOX\r\n" + script + b"l LOGOUT\r\n")
            text.flush()
            start, made = time.perf_counter(), []
            for _ in range(processes):
                pipe = subprocess.Popen(["cat", text.name], stdout=subprocess.PIPE)
                words, quiet = [dovecot.IMAP, "-c", self.place.conf], subprocess.DEVNULL
                made.append(subprocess.Popen(words, stdin=pipe.stdout, stdout=quiet, stderr=quiet, **self.place.as_user))
                made.append(pipe)
                pipe.stdout.close()
            if any([process.wait() for process in made]):
                sys.exit("Dovecot's imap failed")
            return time.perf_counter() - start

    def readers(self, processes, count):
        fetches = b"f FETCH 101:200 (FLAGS)\r\n" * (count // 100 // processes)
        return self.took(processes, fetches) - self.took(processes, b"")


def writers(program, place, sessions, count):
    with tempfile.TemporaryDirectory(dir=place) as folder:
        _, whole = script_of(sessions, b"APPEND () {0}\n\n", count)
        return answered(program, folder, whole, "run", "--threads")[0]


def table(name, found, count, beside):
    one = statistics.median(found[1])
    print(f"{name:>22} {'sessions':>9} {'seconds':>9} {'us each':>9} {'faster':>7} {'of what is there':>17}")
    for n in SESSIONS:
        seconds = statistics.median(found[n])
        there = statistics.median(beside[1]) / statistics.median(beside[n])
        print(f"{'':>22} {n:>9} {seconds:>9.3f} {seconds / count * 1e6:>9.2f} {one / seconds:>7.2f} {one / seconds / there:>17.2f}")


def main():
    if not 2 <= len(sys.argv) <= 4:
        sys.exit(__doc__)
    program = Path(sys.argv[1]).resolve()
    count = int(sys.argv[2]) if len(sys.argv) > 2 else 4_000_000
    disk = sys.argv[3] if len(sys.argv) > 3 else None
    with tempfile.TemporaryDirectory(dir="/dev/shm") as made:
        place = Path(made)
        (place / "work.c").write_text(WORK)
        subprocess.run(["gcc", "-O1", "-pthread", "-o", place / "work", place / "work.c"], check=True)
        box = place / "box"
        answered(program, box, b"a SELECT\n" + b"a APPEND () {0}\n\n" * ROWS, "run")
        plain, read, written, kept, memory, theirs = ({n: [] for n in SESSIONS} for _ in range(6))
        other = Dovecot() if dovecot.is_there() else None
        for _ in range(TURNS):
            for n in SESSIONS:
                plain[n].append(timed([place / "work", str(n)])[0])
                seconds, most = readers(program, box, n, count)
                read[n].append(seconds)
                memory[n].append(most)
                if other:
                    theirs[n].append(other.readers(n, count))
                written[n].append(writers(program, place, n, count // 1000))
                kept[n].append(writers(program, disk, n, count // 1000))
        table("FETCH", read, count, plain)
        print("peak memory in MB:", ", ".join(f"{n}: {statistics.median(memory[n]):.0f}" for n in SESSIONS))
        if other:
            table("Dovecot's FETCH", theirs, count, plain)
            other.place.remove()
        table("APPEND in memory", written, count // 1000, plain)
        table("APPEND on the disk", kept, count // 1000, plain)


if __name__ == "__main__":
    main()
