#!/usr/bin/env python3
"""Times a storage that keeps messages many to a file beside a mailbox that has a file for each.

Usage: bench/storage.py PROGRAM [COUNT [DIRECTORY]]

PROGRAM is the built binary, crates/sdbox/out/sdbox. COUNT messages, 10,000 where none is given, of
5,000 bytes are saved in new folders in DIRECTORY, which is /dev/shm (a file system in memory) where
none is given: by SAVE with the word mdbox, and by APPEND with the word run. Of the storage all are
then copied, got in order, got in an order of chance, the half of them dropped twice, and purged; of
the mailbox all are fetched, in both orders, the half marked and expunged, and the files removed by
CHECK. Each step is a run of its own over what the one before left. It tells the seconds, the files
and their bytes behind each step, and, where strace is there, how often a step of an eighth of the
messages, over folders of its own, asks for a sync, a read, a write and a removal.
"""

import os
import random
import shutil
import subprocess
import sys
import tempfile
import time
from pathlib import Path

SIZE = 5_000
TRACED = ("fsync", "fdatasync", "read", "pread64", "write", "pwrite64", "unlink", "unlinkat")


def message(number):
    head = b"From: a@example.org\r\nSubject: message %d\r\n\r\n" % number
    line = b"A line of a message, which says nothing that was not said before.\r\n"
    return (head + line * (SIZE // len(line) + 1))[:SIZE]


def literals(front, count):
    return b"".join(front + b"{%d}\n%b\n" % (SIZE, message(n)) for n in range(1, count + 1))


def numbers(count, seed=None):
    found = list(range(1, count + 1))
    if seed is not None:
        random.Random(seed).shuffle(found)
    return found


def halved(count):
    return range(1, count + 1, 2)


def storage_steps(count):
    """The steps of a storage: what each is called, and its script."""
    def lines(word, ids):
        return b"".join(b"%b %d\n" % (word, n) for n in ids)

    return (
        ("save", literals(b"SAVE ", count)),
        ("copy", lines(b"COPY", numbers(count))),
        ("get in order", lines(b"GET", numbers(count))),
        ("get by chance", lines(b"GET", numbers(count, 1))),
        ("drop half twice", lines(b"DROP", halved(count)) * 2),
        ("purge", b"PURGE\n"),
    )


def mailbox_steps(count):
    """Those of a mailbox, as far as it has them."""
    def lines(ids):
        return b"a SELECT\n" + b"".join(b"a UID FETCH %d (BODY[])\n" % n for n in ids)

    marks = b"".join(b"a UID STORE %d +FLAGS (\\Deleted)\n" % n for n in halved(count))
    return (
        ("save", b"a SELECT\n" + literals(b"a APPEND () ", count)),
        ("copy", None),
        ("get in order", lines(numbers(count))),
        ("get by chance", lines(numbers(count, 1))),
        ("drop half twice", b"a SELECT\n" + marks),
        ("purge", b"a SELECT\na EXPUNGE\na CHECK\n"),
    )


def run(words, folder, word, script):
    """The seconds that a script takes."""
    with tempfile.TemporaryFile() as source, tempfile.TemporaryFile() as sink:
        source.write(script)
        source.seek(0)
        start = time.perf_counter()
        done = subprocess.run([*words, folder, word], stdin=source, stdout=sink, check=False)
        seconds = time.perf_counter() - start
        sink.seek(0, os.SEEK_END)
        sink.seek(max(0, sink.tell() - 200))
        last = sink.read().splitlines()[-1:]
    if done.returncode != 0 or not last or not last[0].startswith(b"END 0 "):
        sys.exit(f"{word}: status {done.returncode}, {last!r}")
    return seconds


def files_in(folder):
    """How many files there are, and how many bytes they have."""
    sizes = [path.stat().st_size for path in Path(folder).rglob("*") if path.is_file()]
    return len(sizes), sum(sizes)


def counted(report):
    """The calls of a summary of strace."""
    calls = dict.fromkeys(TRACED, 0)
    for line in Path(report).read_text(encoding="ascii").splitlines():
        fields = line.split()
        if len(fields) >= 5 and fields[-1] in calls:
            calls[fields[-1]] = int(fields[3])
    return calls


def timed(program, place, count):
    ways = (("mdbox", storage_steps(count)), ("run", mailbox_steps(count)))
    print(f"{count} messages of {SIZE} bytes")
    print(f"{'':16} {'word':>6} {'seconds':>9} {'us each':>9} {'files':>7} {'bytes':>12}")
    for pair in zip(*(steps for word, steps in ways)):
        for (word, _), (name, script) in zip(ways, pair):
            if script is None:
                continue
            folder = os.path.join(place, word)
            seconds = run([program], folder, word, script)
            files, size = files_in(folder)
            print(f"{name:16} {word:>6} {seconds:>9.3f} {seconds / count * 1e6:>9.1f} {files:>7} {size:>12}", flush=True)


def traced(program, place, count):
    print(f"calls of the system for {count} messages")
    print(f"{'':16} {'word':>6} " + " ".join(f"{name:>9}" for name in TRACED))
    report = os.path.join(place, "report")
    words = ["strace", "-c", "-f", "-o", report, program]
    for word, steps in (("mdbox", storage_steps(count)), ("run", mailbox_steps(count))):
        for name, script in steps:
            if script is None:
                continue
            run(words, os.path.join(place, "traced." + word), word, script)
            calls = counted(report)
            print(f"{name:16} {word:>6} " + " ".join(f"{calls[one]:>9}" for one in TRACED), flush=True)


def main():
    if len(sys.argv) not in (2, 3, 4):
        sys.exit(__doc__)
    program = os.path.abspath(sys.argv[1])
    count = int(sys.argv[2]) if len(sys.argv) > 2 else 10_000
    directory = sys.argv[3] if len(sys.argv) > 3 else "/dev/shm"
    with tempfile.TemporaryDirectory(prefix="storage.", dir=directory) as place:
        timed(program, place, count)
        if shutil.which("strace"):
            traced(program, place, max(count // 8, 1))


if __name__ == "__main__":
    main()
