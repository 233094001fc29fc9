#!/usr/bin/env python3
"""Has random scripts answered by sessions in threads, and checks each reply against the rules of sessions.

Usage: bench/stress.py PROGRAM [TIMES [SEED [DIRECTORY]]]

PROGRAM is the built binary, crates/sdbox/out/sdbox. Each time a random script of 2 to 64 sessions is answered by
`run --threads` over a new folder in DIRECTORY, or in the system's place for temporary files, on all processors and,
over another one, on a single processor; behind that a further script over the same folder, by threads again, and then
one by `run`. The replies are checked as in rules.py, which uses nothing of the program's code: the writes are put in
the order of their marks, and each session is answered by the rules at its marks. At the end eight sessions append 1,250
messages each beside eight that look, across rotations of the log: the UIDs that they are told are to be 1 to 10,000,
each once, and the next run is to show each message at its UID.
"""

import os
import re
import sys
import tempfile
from pathlib import Path

from mailboxes import SHOW, last_line, run, shown_in
from rules import LAST, Differs, Draw, Log, Mailbox, script_text, try_script

THREADS = ("run", "--threads")
WRITERS, WRITES = 8, 1_250


def on_one():
    os.sched_setaffinity(0, {min(os.sched_getaffinity(0))})


def try_once(program, seed, folder, **how):
    draw, log = Draw(seed), Log(Mailbox(), (1, 56))
    for words in (THREADS, THREADS, ("run",)):
        lines = draw.script(most=600)
        try_script(log, lines, run(program, folder, script_text(lines), *words, **how))


def try_many(program, folder):
    """So many sessions that append as many messages each, beside as many that look."""
    lines = [b"%s%d SELECT\n" % (kind, n) for kind in (b"w", b"r") for n in range(WRITERS)]
    for k in range(WRITES):
        bodies = [b"message %d of w%d" % (k, n) for n in range(WRITERS)]
        lines += [b"w%d APPEND (k%d) {%d}\n%s\n" % (n, n, len(body), body) for n, body in enumerate(bodies)]
        lines += [b"r%d NOOP\n" % n for n in range(WRITERS)]
    done = run(program, folder, b"".join(lines), *THREADS)
    last = LAST.search(done.stdout)
    if done.returncode != 0 or not last or int(last[3]) != WRITERS * WRITES:
        raise Differs(f"status {done.returncode}, {last_line(done.stdout)}")
    wrote = {}
    for n in range(WRITERS):
        told = re.findall(rb"^w%d OK \[APPENDUID \d+ (\d+)\] \[MARK (\d+):(\d+)\]" % n, done.stdout, re.MULTILINE)
        uids, marks = [int(uid) for uid, *_ in told], [(int(file), int(offset)) for _, file, offset in told]
        if len(told) != WRITES or uids != sorted(set(uids)) or marks != sorted(set(marks)):
            raise Differs(f"w{n} was told of {len(told)} messages, of which the UIDs and the marks don't rise")
        wrote.update({uid: b"message %d of w%d" % (k, n) for k, uid in enumerate(uids)})
    if sorted(wrote) != list(range(1, WRITERS * WRITES + 1)):
        raise Differs("the messages' UIDs aren't 1 to the last, each of one session")
    rows = shown_in(run(program, folder, SHOW).stdout).rows
    if {uid: body for uid, (_, body) in rows.items()} != wrote:
        raise Differs("the next run doesn't show what the sessions wrote")


def main():
    if not 2 <= len(sys.argv) <= 5:
        sys.exit(__doc__)
    program, times, first, place = (*sys.argv[1:], *("", "100", "1", None)[len(sys.argv) - 1 :])
    with tempfile.TemporaryDirectory(dir=place) as made:
        for seed in range(int(first), int(first) + int(times)):
            for name, how in (("", {}), (" on one processor", {"preexec_fn": on_one})):
                try:
                    try_once(program, seed, Path(made) / f"{seed}{name}", **how)
                except Differs as why:
                    sys.exit(f"seed {seed}{name}: {why}")
        try_many(program, Path(made) / "many")
    print(f"{times} scripts on all processors and on one, each answer is the rules' answer; {WRITERS * WRITES} groups by {WRITERS} sessions are all kept")


if __name__ == "__main__":
    main()
