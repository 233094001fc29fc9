#!/usr/bin/env python3
"""Times the built program beside Dovecot's own imap program, on APPEND and STORE.

Usage: bench/beside_dovecot.py PROGRAM [DIRECTORY..]

PROGRAM is the built binary, crates/sdbox/out/sdbox. In each DIRECTORY (/dev/shm and /var/tmp where
none is given: a file system in memory, and one on a disk) both programs in turn append 1,000 small
messages to a new mailbox and then add a flag to one message after another, 10,000 times; the median
of five such turns counts. Dovecot runs by itself, without a server, in sdbox format and with
mail_fsync=always, and its client waits for each answer. This program reads a script and syncs each
command's group before it answers. Then, in the first directory, 200,000 NOOPs, and 2,000 and 42,000
STOREs, over a mailbox of 100 messages and one of 100,000, less what SELECT alone takes, the shortest
of 25 runs of each in turn.

Where Debian's dovecot-imapd isn't installed, or this isn't run as root, Dovecot is left out.
"""

import os
import shutil
import statistics
import subprocess
import sys
import tempfile
import time

import dovecot

APPENDS = 1_000
STORES = 10_000
TURNS = 5
MESSAGE = b"Subject: x\r\n\r\nhello\r\n"


def append(session=b"a"):
    return session + b" APPEND () {%d}\n" % len(MESSAGE) + MESSAGE + b"\n"


def play(program, box, script):
    """The seconds of a script over a folder."""
    with tempfile.TemporaryFile() as source, tempfile.TemporaryFile() as sink:
        source.write(script)
        source.seek(0)
        before = time.perf_counter()
        done = subprocess.run([program, box, "run"], stdin=source, stdout=sink, check=False)
        seconds = time.perf_counter() - before
        sink.seek(0)
        if done.returncode != 0 or b" NO " in sink.read():
            sys.exit(f"status {done.returncode}, or a refusal")
        return seconds


def ours(program, directory):
    """The seconds of the appends, and of the stores in a second run."""
    place = tempfile.mkdtemp(prefix="sdbox.", dir=directory)
    box = os.path.join(place, "box")
    try:
        appends = play(program, box, b"a SELECT\n" + append() * APPENDS)
        stores = b"".join(
            b"a STORE %d %sFLAGS (\\Seen)\n" % (i % APPENDS + 1, b"+-"[i // APPENDS % 2 :][:1])
            for i in range(STORES)
        )
        return appends, play(program, box, b"a SELECT\n" + stores)
    finally:
        shutil.rmtree(place)


def theirs(directory):
    """The seconds of Dovecot's appends and stores."""
    place = dovecot.Place(directory)
    imap = dovecot.Imap(place)
    imap.command(b"s SELECT INBOX\r\n")
    before = time.perf_counter()
    for _ in range(APPENDS):
        imap.command(b"a APPEND INBOX () {%d+}\r\n%s\r\n" % (len(MESSAGE), MESSAGE))
    appends = time.perf_counter() - before
    before = time.perf_counter()
    for i in range(STORES):
        sign = b"+-"[i // APPENDS % 2 :][:1]
        imap.command(b"b STORE %d %sFLAGS (\\Seen)\r\n" % (i % APPENDS + 1, sign))
    stores = time.perf_counter() - before
    imap.end()
    place.remove()
    return appends, stores


def beside(program, directory):
    has_dovecot = dovecot.is_there()
    times = {"sdbox": [], "Dovecot": []}
    for _ in range(TURNS):
        times["sdbox"].append(ours(program, directory))
        if has_dovecot:
            times["Dovecot"].append(theirs(directory))
    medians = {}
    for name, pairs in times.items():
        if pairs:
            medians[name] = [statistics.median(seconds) for seconds in zip(*pairs)]
            appends, stores = medians[name]
            print(f"{directory} {name}: {APPENDS} APPEND {appends:.3f} s, {STORES} STORE {stores:.3f} s")
    if has_dovecot:
        ratios = [a / b for a, b in zip(medians["sdbox"], medians["Dovecot"])]
        print(f"{directory} ratio: APPEND {ratios[0]:.2f}, STORE {ratios[1]:.2f}", flush=True)


def filled(program, place, rows):
    """A folder with so many messages, and a snapshot."""
    box = os.path.join(place, f"box{rows}")
    play(program, box, b"a SELECT\n" + b"a APPEND () {0}\n\n" * rows + b"a CHECK\n")
    return box


def shortest(program, box, commands):
    """The seconds of some commands over a folder, less those of SELECT alone."""
    times = ([], [])
    for _ in range(25):
        for kept, script in zip(times, (b"", commands)):
            kept.append(play(program, box, b"a SELECT\n" + script))
    return min(times[1]) - min(times[0])


def stores(count):
    return b"".join(
        b"a STORE %d %sFLAGS (\\Seen)\n" % (i % 100 + 1, b"+-"[i // 100 % 2 :][:1]) for i in range(count)
    )


def sizes(program, directory):
    """In the shortest run of few STOREs the log isn't rotated; in each of many it is, six times."""
    place = tempfile.mkdtemp(prefix="sdbox.", dir=directory)
    try:
        boxes = [filled(program, place, rows) for rows in (100, 100_000)]
        few, many = (shortest(program, box, b"a NOOP\n" * 200_000) for box in boxes)
        print(f"200,000 NOOP over 100 messages {few:.4f} s, over 100,000 {many:.4f} s", flush=True)
        for count in (2_000, 42_000):
            few, many = (shortest(program, box, stores(count)) for box in boxes)
            print(f"{count:,} STORE over 100 messages {few:.4f} s, over 100,000 {many:.4f} s", flush=True)
    finally:
        shutil.rmtree(place)


def main():
    if len(sys.argv) < 2:
        sys.exit(__doc__)
    program = os.path.abspath(sys.argv[1])
    directories = sys.argv[2:] or ["/dev/shm", "/var/tmp"]
    for directory in directories:
        beside(program, directory)
    sizes(program, directories[0])


if __name__ == "__main__":
    main()
