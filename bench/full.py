#!/usr/bin/env python3
"""Fills a small file system at every step of a script, and looks for each command that was acknowledged.

Usage: bench/full.py PROGRAM [DIRECTORY]

PROGRAM is the built binary, crates/sdbox/out/sdbox. A tmpfs is mounted in DIRECTORY, or in the system's place for temporary
files, in a mount namespace that this script makes for itself (by unshare, as root or as a user who may
make one; elsewhere nothing is done, and so it is said). It has a folder of STARTS, and first no free
block, then one, and so on, up to so many that a script of commands of all kinds is answered OK: so the
disk is full at each of its steps once. The same is done with free inodes.

Of each such run each command is to be answered OK, or NO [UNAVAILABLE] with the number of failures, and
each failure is to have a line with its reason on standard error. No temporary file is to be left. The
next run, over the disk that is still full, is to show what the acknowledged commands leave, or these and
the last one that failed; or, where it can't open the folder for want of room, nothing. Behind that, with
room, a further run is to show the same and to answer all of its commands OK. In a second run there is room
again behind half of the script: then all of the other half is to be answered OK.
"""

import itertools
import os
import re
import shutil
import subprocess
import sys
import tempfile

from mailboxes import (
    EMPTY,
    SHOW,
    answers_in,
    append,
    expunge,
    last_line,
    plain,
    remove,
    run,
    script_of,
    shown_in,
    states,
    store,
)

INSIDE = "SDBOX_FULL_INSIDE"
BLOCK = 4096
ROOM = 64 * 1024 * 1024
PIPE = 4096
SECONDS = 60
TEMPORARY = "dovecot.tmp"
KEYWORDS = [b"keyword-of-some-length-" * 8 + b"%d" % n for n in range(18)]
LINE = re.compile(rb"failure (\d+): [^:]+: (.+?)(?: \(os error \d+\))?\n")

# Longer than what stands in a pipe: a run waits in the reply that has it, while nobody reads.
LARGE = append([], b"Subject: large\n\n" + b"0123456789abcde\n" * 4 * 1024)
FIRST = [LARGE, append([rb"\Seen"], b"Subject: two\n\n"), append([b"todo"], b"three"), append([], b"four")]
HALF = [
    store([2, 3], b"+", [rb"\Answered"]),
    append([rb"\Flagged", b"todo"], b"Subject: five\n\nfive\n"),
    store([2, 3, 4], b"+", KEYWORDS),
    append([], b"Subject: six\n\n" + b"a line of text\n" * 1_500),
    store([3], b"", [rb"\Deleted", b"other"]),
    expunge(),
    plain(b"CHECK"),
    append([], b"seven"),
    remove([4]),
    store([2], b"-", KEYWORDS[:9]),
    plain(b"CHECK"),
]
BARRIER = plain(b"UID FETCH 1 (BODY[])")
AGAIN = [
    append([rb"\Draft"], b"Subject: eight\n\n" + b"a line of text\n" * 300),
    store([1, 2], b"+", [rb"\Flagged", b"again"]),
    store([2], b"+", [rb"\Deleted"]),
    expunge(),
    plain(b"CHECK"),
    append([], b"nine"),
]


class Differs(Exception):
    """What a run did isn't what is wanted."""


def enter_namespace():
    """This script once more, where it may mount."""
    if INSIDE in os.environ:
        return
    words = ["unshare", "--mount", "--propagation", "private", *(["--map-root-user"] if os.geteuid() else [])]
    if not shutil.which("unshare") or subprocess.run([*words, "true"], capture_output=True, check=False).returncode:
        sys.exit("no mount namespace can be made here: nothing is done")
    os.environ[INSIDE] = "1"
    os.execvp(words[0], [*words, sys.executable, os.path.abspath(__file__), *sys.argv[1:]])


def mount(*words):
    subprocess.run(["mount", *words], check=True)


class Disk:
    """A small file system with the folder."""

    def __init__(self, place):
        self.place, self.box, self.mounted = place, os.path.join(place, "box"), False

    def begin(self, start):
        """A new file system with a copy of this folder, or with none."""
        self.end()
        mount("-t", "tmpfs", "-o", f"size={ROOM},nr_inodes=10000,mode=0700", "tmpfs", self.place)
        self.mounted = True
        if start:
            shutil.copytree(start, self.box)

    def leave(self, blocks=None, inodes=None):
        """So many are free from now on; of what isn't said, enough."""
        now = os.statvfs(self.place)
        size = ROOM if blocks is None else (now.f_blocks - now.f_bfree + blocks) * BLOCK
        files = 10_000 if inodes is None else now.f_files - now.f_ffree + inodes
        # no size at all would be no limit
        mount("-o", f"remount,size={max(size, BLOCK)},nr_inodes={files}", self.place)
        if blocks is not None and size < BLOCK:
            with open(os.path.join(self.place, "ballast"), "wb") as ballast:
                ballast.write(bytes(BLOCK))

    def end(self):
        if self.mounted:
            subprocess.run(["umount", self.place], check=True)
            self.mounted = False


# ---- what is wanted


def kept(commands, answers, mailbox):
    """What the answered commands leave, and what may be there beside: these and the last one that failed."""
    besides = None
    for command, answer in zip(commands, answers):
        after = command.change(mailbox)
        if answer.startswith(b"OK "):
            # a group that is written settles what an earlier one left
            if after != mailbox or command.text == b"CHECK":
                besides = None
            mailbox = after
        elif answer.startswith(b"NO [UNAVAILABLE] FAULTS "):
            besides = after
        else:
            raise Differs(f"{command.text[:40]!r} is answered {answer!r}")
    return mailbox, besides


def check_reasons(said, errors):
    """Each failure has its line."""
    told = [int(n) for n in re.findall(rb"FAULTS (\d+)$", said, re.M)]
    told += [int(n) for n in re.findall(rb"^FAULT 2 DISK (\d+)$", said, re.M)]
    lines = LINE.findall(errors)
    if [int(n) for n, _ in lines] != list(range(1, max(told, default=0) + 1)):
        raise Differs(f"{max(told, default=0)} failures, and standard error has {errors.decode(errors='replace')!r}")
    if wrong := [why for _, why in lines if why != b"No space left on device"]:
        raise Differs(f"a failure's reason is {wrong[0].decode()}")


def check_answers(answers, commands):
    if len(answers) != len(commands) + 1 or not answers[0].startswith(b"OK "):
        raise Differs(f"{len(answers)} answers to {len(commands) + 1} commands")


class Start:
    """A folder with which runs begin, made by the program, and what it shows."""

    def __init__(self, program, place, name, commands):
        self.name, self.folder, self.mailbox = name, None, EMPTY
        if commands is not None:
            self.folder = os.path.join(place, "start")
            shutil.rmtree(self.folder, ignore_errors=True)
            said = run(program, self.folder, script_of(commands)).stdout
            answers = answers_in(said)
            if len(answers) != len(commands) + 1 or not all(line.startswith(b"OK ") for line in answers):
                sys.exit(f"{name}: the folder isn't made, {last_line(said)}")
            self.mailbox = states(commands)[-1]


def log_end(program, folder):
    said = run(program, folder, b"a SELECT\n").stdout
    return int(re.search(rb"\[MARK \d+:(\d+)\] SELECT", said)[1])


def up_to(program, place, end):
    """FIRST, and commands behind which the log ends at this place."""
    folder = os.path.join(place, "measured")
    shutil.rmtree(folder, ignore_errors=True)
    run(program, folder, script_of(FIRST))
    missing, commands = end - log_end(program, folder), []
    # a keyword of n bytes adds 20 bytes and n, in fours: from 24 to 272
    while missing:
        part = 272 if missing >= 272 + 24 else missing if missing <= 272 else missing - 24
        commands.append(store([1], b"+", [b"x" * (part - 20)]))
        missing -= part
    return FIRST + commands


def starts(program, place):
    """Each with a name; the log's end stands so far before a block's that groups go over it."""
    yield Start(program, place, "no folder", None)
    for before in (4, 8, 16, 24):
        yield Start(program, place, f"a log up to {before} bytes before a block", up_to(program, place, BLOCK - before))
    for before in (1_500, 8):
        commands = up_to(program, place, 131_072 - before)
        yield Start(program, place, f"{before} bytes before the log is rotated", commands)
    yield Start(program, place, "a log that is to be rotated", up_to(program, place, 131_072))


# ---- runs


class Bench:
    def __init__(self, program, disk):
        self.program, self.disk = program, disk
        self.refused = self.closed = 0

    def run(self, script):
        return run(self.program, self.disk.box, script, timeout=SECONDS)

    def check_temporary(self):
        if os.path.exists(os.path.join(self.disk.box, TEMPORARY)):
            raise Differs("a temporary file is left")

    def check_next(self, mailbox, besides):
        """The next run over the disk that is still full, and one with room. Gives what is there."""
        done = self.run(SHOW)
        check_reasons(done.stdout, done.stderr)
        if done.returncode == 2:
            self.closed += 1
        elif done.returncode or shown_in(done.stdout) not in (mailbox, besides):
            raise Differs(f"the next run shows something else: status {done.returncode}, {last_line(done.stdout)}")
        self.check_temporary()
        self.disk.leave()
        done = self.run(SHOW)
        now = shown_in(done.stdout)
        if done.returncode or now not in (mailbox, besides):
            raise Differs(f"with room it shows something else: status {done.returncode}, {last_line(done.stdout)}")
        return now

    def check_goes_on(self, mailbox):
        done = self.run(script_of(AGAIN) + SHOW)
        answers = answers_in(done.stdout)
        check_answers(answers, AGAIN)
        if done.returncode or not all(line.startswith(b"OK ") for line in answers):
            raise Differs(f"with room not all is answered OK: {answers}")
        if shown_in(done.stdout) != states(AGAIN, mailbox)[-1]:
            raise Differs("with room the commands leave something else")

    def over_full(self, start, room):
        """Half of the script over the full disk; then further runs. Says whether all of it was done."""
        self.disk.begin(start.folder)
        self.disk.leave(**room)
        done = self.run(script_of(HALF))
        check_reasons(done.stdout, done.stderr)
        self.check_temporary()
        if done.returncode == 2:
            self.refused += 1
            self.check_goes_on(self.check_next(start.mailbox, None))
            return False
        answers = answers_in(done.stdout)
        if done.returncode:
            raise Differs(f"status {done.returncode}, {last_line(done.stdout)}")
        check_answers(answers, HALF)
        self.refused += sum(line.startswith(b"NO ") for line in answers)
        self.check_goes_on(self.check_next(*kept(HALF, answers[1:], start.mailbox)))
        return all(line.startswith(b"OK ") for line in answers)

    def with_room_behind(self, start, room):
        """The whole script in one run, with room behind the first half of it."""
        self.disk.begin(start.folder)
        self.disk.leave(**room)
        commands = [*HALF, BARRIER, *AGAIN]
        with tempfile.TemporaryFile() as source, tempfile.TemporaryFile() as errors:
            source.write(script_of(commands) + SHOW)
            source.seek(0)
            words = [self.program, self.disk.box, "run"]
            process = subprocess.Popen(words, stdin=source, stdout=subprocess.PIPE, stderr=errors, pipesize=PIPE)
            said = b""
            while len(answers_in(said)) < len(HALF) + 1:
                if not (more := os.read(process.stdout.fileno(), 256)):
                    raise Differs(f"the run ends early: {last_line(said)}")
                said += more
            self.check_temporary()
            self.disk.leave()
            said += process.stdout.read()
            process.wait(timeout=SECONDS)
            errors.seek(0)
            check_reasons(said, errors.read())
        answers = answers_in(said)
        check_answers(answers, commands)
        mailbox, _ = kept(HALF, answers[1:], start.mailbox)
        if process.returncode or not all(line.startswith(b"OK ") for line in answers[len(HALF) + 1 :]):
            raise Differs(f"with room behind half of it, not all is answered OK: {answers[len(HALF) + 1 :]}")
        if shown_in(said) != states(AGAIN, mailbox)[-1] or shown_in(self.run(SHOW).stdout) != shown_in(said):
            raise Differs("with room behind half of it, the commands leave something else")

    def fill(self, start, what):
        """The number of free blocks or inodes with which all of the script is done."""
        for free in itertools.count():
            room = {what: free}
            try:
                is_done = self.over_full(start, room)
                if start.folder:
                    self.with_room_behind(start, room)
            except (Differs, subprocess.TimeoutExpired) as e:
                sys.exit(f"{start.name}, {free} {what} free: {e}")
            if is_done:
                return free


def main():
    if len(sys.argv) not in (2, 3):
        sys.exit(__doc__)
    enter_namespace()
    program = os.path.abspath(sys.argv[1])
    with tempfile.TemporaryDirectory(prefix="full.", dir=sys.argv[2] if len(sys.argv) == 3 else None) as place:
        os.mkdir(os.path.join(place, "disk"))
        disk = Disk(os.path.join(place, "disk"))
        try:
            for start in starts(program, place):
                bench = Bench(program, disk)
                blocks, inodes = bench.fill(start, "blocks"), bench.fill(start, "inodes")
                print(
                    f"{start.name}: 0 to {blocks} blocks and 0 to {inodes} inodes free, "
                    f"{bench.refused} commands refused, {bench.closed} next runs; each acknowledged command kept",
                    flush=True,
                )
        finally:
            disk.end()


if __name__ == "__main__":
    main()
