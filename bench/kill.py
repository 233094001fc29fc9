#!/usr/bin/env python3
"""Kills the built program at random moments, and looks for each command that it had acknowledged.

Usage: bench/kill.py PROGRAM [TIMES [DIRECTORY]]

PROGRAM is the built binary, crates/sdbox/out/sdbox. Each run answers a script over a new folder in DIRECTORY, or in the system's
place for temporary files, until it is killed by SIGKILL. The scripts are in LOADS: APPENDs of five
bytes; and messages of up to a megabyte, flags and keywords in large groups, so that the log is rotated
again and again, EXPUNGEs and CHECKs. What the next run shows of the folder, UIDNEXT and each message with
its flags, keywords and bytes, is to be what the commands leave that a whole line of the output
acknowledges, or these and one more. It is to take a further message, too, and to make a CHECK. By `run --threads`, which
acknowledges nothing before its end, it is what the first ones of the commands leave.

A killed process loses nothing that the system has taken, so this shows the order of the program's calls
and not the disk's.
"""

import random
import subprocess
import sys
import tempfile
import time
from pathlib import Path

from mailboxes import answers_in, append, expunge, last_line, plain, remove, run, script_of, shown_in, SHOW, states, store

SYSTEM_FLAGS = (rb"\Answered", rb"\Flagged", rb"\Deleted", rb"\Seen", rb"\Draft")
KEYWORDS = tuple(b"%s%d" % (b"keyword-of-some-length-" * 8, n) for n in range(20))
SIZES = (5, 300, 3_000, 20_000) * 5 + (100_000, 100_000, 1_000_000)


def small():
    return [append((), b"hello")] * 2_000


def real():
    """Commands of all kinds, the same in each run. Each large group has some 4,000 bytes, and the log is
    rotated where it has 131,072."""
    draw, commands, uids = random.Random(1), [], 0
    for n in range(400):
        one, some = draw.randint(1, max(uids, 1)), draw.sample(range(1, max(uids, 5) + 1), 4)
        kind = draw.choice(("append", "append", "keywords", "keywords", "flags", "delete", "expunge", "remove", "check"))
        if kind == "append" or n < 5:
            size = draw.choice(SIZES)
            body = (b"Subject: message %d\n\n" % n + draw.randbytes(size))[:size]
            commands.append(append(draw.sample(SYSTEM_FLAGS[:2] + KEYWORDS[:2], 2), body))
            uids += 1
        elif kind == "keywords":
            commands.append(store(some, draw.choice((b"+", b"+", b"-", b"")), KEYWORDS))
        elif kind == "flags":
            commands.append(store(some, draw.choice((b"+", b"-", b"")), draw.sample(SYSTEM_FLAGS, 2)))
        elif kind == "delete":
            commands.append(store([one], b"+", [rb"\Deleted"]))
        elif kind == "remove":
            commands.append(remove([one]))
        else:
            commands.append(expunge() if kind == "expunge" else plain(b"CHECK"))
    return commands


LOADS = (("small messages", small), ("messages of real size", real))


def start(program, place, script, *more):
    """The program over a new folder, with its output going to a file."""
    (place / "script").write_bytes(script)
    with open(place / "script", "rb") as source, open(place / "answers", "wb") as sink:
        return subprocess.Popen([program, place / "box", "run", *more], stdin=source, stdout=sink, stderr=subprocess.DEVNULL)


def acknowledged(place):
    """How many commands behind the SELECT a whole line of the output acknowledges."""
    answers = answers_in((place / "answers").read_bytes())
    if refused := [line for line in answers if not line.startswith(b"OK ")]:
        sys.exit(f"not done: {refused[0].decode()}")
    return max(0, len(answers) - 1)


def rotations(place):
    """How many log files there were, by the number in the header of the last."""
    log = place / "box" / "dovecot.index.log"
    return int.from_bytes(log.read_bytes()[8:12], "little") - 1 if log.exists() else 0


def found(program, place):
    """What the next run finds, which then goes on."""
    done = run(program, place / "box", SHOW + b"z APPEND () {7}\nfurther\nz CHECK\n")
    answers = answers_in(done.stdout, b"z")
    if done.returncode or len(answers) != 4 or not all(line.startswith(b"OK ") for line in answers):
        sys.exit(f"status {done.returncode}, {last_line(done.stdout)}")
    return shown_in(done.stdout)


def whole_run(program, directory, load, commands, wanted):
    """How long the run takes that nothing kills."""
    with tempfile.TemporaryDirectory(dir=directory) as folder:
        before = time.perf_counter()
        start(program, Path(folder), script_of(commands)).wait()
        whole = time.perf_counter() - before
        turned = rotations(Path(folder))
        if acknowledged(Path(folder)) != len(commands) or found(program, Path(folder)) != wanted[-1]:
            sys.exit(f"{load}: a whole run doesn't leave what its commands say")
        print(f"{load}: {len(commands)} commands and {turned} rotations of the log in {whole:.2f} s")
        return whole


def kill_threads(program, times, directory, load, commands):
    wanted, counts = states(commands), []
    whole = whole_run(program, directory, load, commands, wanted)
    for _ in range(times):
        with tempfile.TemporaryDirectory(dir=directory) as folder:
            process = start(program, Path(folder), script_of(commands), "--threads")
            time.sleep(random.uniform(0, whole))
            process.kill()
            process.wait()
            told = acknowledged(Path(folder))
            kept = found(program, Path(folder))
            if kept not in wanted[told:]:
                sys.exit(f"{load}: the folder has what no front of the commands leaves")
            counts.append(wanted.index(kept))
    print(f"{load}, in a thread: {times} runs killed, each folder has the first ones of the commands, {min(counts)} to {max(counts)}")


def kill_runs(program, times, directory, load, commands):
    wanted = states(commands)
    whole = whole_run(program, directory, load, commands, wanted)
    killed = further = 0
    for _ in range(times):
        with tempfile.TemporaryDirectory(dir=directory) as folder:
            place = Path(folder)
            process = start(program, place, script_of(commands))
            time.sleep(random.uniform(0, whole))
            process.kill()
            killed += process.wait() != 0
            told = acknowledged(place)
            kept = found(program, place)
            if kept == wanted[told]:
                continue
            if kept not in wanted[told + 1 : told + 2]:
                sys.exit(f"{load}: {told} commands acknowledged, and the folder has neither these nor one more")
            further += 1
    print(f"{load}: {killed} of {times} runs killed, each command kept; {further} times one that wasn't acknowledged yet")


def main():
    if not 2 <= len(sys.argv) <= 4:
        sys.exit(__doc__)
    program = Path(sys.argv[1]).resolve()
    times = int(sys.argv[2]) if len(sys.argv) > 2 else 300
    directory = sys.argv[3] if len(sys.argv) > 3 else None
    for load, commands in LOADS:
        kill_runs(program, times, directory, load, commands())
        kill_threads(program, times, directory, load, commands())


if __name__ == "__main__":
    main()
