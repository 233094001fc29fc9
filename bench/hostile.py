#!/usr/bin/env python3
"""Tries the built program on folders that somebody made to harm it, or that a disk or a user spoilt.

Usage: bench/hostile.py PROGRAM [DIRECTORY]

PROGRAM is the built binary, crates/sdbox/out/sdbox. Folders are made in DIRECTORY, or in the system's place for temporary files.
Each case of CASES has a folder that is made over a mailbox, words and a script, and the status, the
answers, the last line and the lines of standard error that are wanted, with what is to be behind it. A
run has ten seconds. Beside the folder stands a directory with files of the same names: links lead there,
and nothing of it may be opened, read or changed, which the system tells (inotify) beside a comparison.

As root the program runs as a user without rights, so that the modes of files count, but for a case that
says so; devices and a mount that is only read are made as root alone, and what is left out is said.

Prints one line for each case, and ends with status 1 where one differs.
"""

import ctypes
import fcntl
import os
import re
import resource
import shutil
import signal
import socket
import stat
import subprocess
import sys
import tempfile
from collections.abc import Callable
from dataclasses import dataclass

from mailboxes import SHOW, answers_in, append, last_line, plain, replies_in, run, script_of, shown_in, states, store

SECONDS = 10
USER = 1234
TOO_LONG = 2**32
EVERY_EVENT = 0xFFF

LOG, LOG2, INDEX, CACHE = "dovecot.index.log", "dovecot.index.log.2", "dovecot.index", "dovecot.index.cache"
TEMPORARY = "dovecot.tmp"
OTHER_LAYOUT = ("storage/dovecot.map.index.log", "storage/dovecot.map.index.log.2", "storage/dovecot.map.index", "storage/m.1")

BODIES = (b"Subject: one\n\none\n", b"Subject: two\n\ntwo\n", b"Subject: three\n\nthree\n")
# The log is rotated once, and has all files of a mailbox
COMMANDS = [
    *(append([rb"\Seen"], body) for body in BODIES),
    *(store([1, 2, 3], how, [b"keyword-of-some-length-" * 9 + b"%d" % n for n in range(40)]) for how in (b"+", b"-") * 8),
    plain(b"CHECK"),
    store([2], b"+", [rb"\Flagged", b"todo"]),
]
MAILBOX = states(COMMANDS)[-1]


@dataclass
class Case:
    """A folder, what is done over it, and what is wanted."""

    name: str
    make: Callable
    script: bytes = b"a SELECT\n"
    word: str = "run"
    status: int = 0
    # of each command, how its last line begins
    answers: tuple = ()
    last: bytes = rb"END 0 MARK \d+:\d+ GROUPS \d+"
    # of each line of standard error, what it is; or None where all is good
    errors: tuple | None = ()
    behind: Callable | None = None
    # the folder's path beside the place, and how it is run
    path: str = "box"
    how: Callable | None = None
    is_left: bool = False


class Differs(Exception):
    """What a run did isn't what is wanted."""


# ---- places


class Place:
    """A directory with the folder `box`, and one outside of it."""

    def __init__(self, directory, program, mailbox):
        self.path, self.program, self.mailbox = directory, program, mailbox
        self.box, self.outside = os.path.join(directory, "box"), os.path.join(directory, "outside")

    def file(self, name):
        return os.path.join(self.box, name)

    def copy(self):
        """The folder with the mailbox."""
        shutil.copytree(self.mailbox, self.box)

    def move_out(self, name):
        """The file of this name goes out of the folder; where there is none, another is put there."""
        target = os.path.join(self.outside, name)
        if os.path.lexists(self.file(name)):
            os.rename(self.file(name), target)
        else:
            shutil.copy(os.path.join(self.mailbox, "u.3"), target)
        return target


def owned(path):
    """All of it belongs to the user as whom the program runs."""
    if os.geteuid() == 0:
        for folder, folders, files in os.walk(path):
            for name in (".", *folders, *files):
                os.lchown(os.path.join(folder, name), USER, USER)


def seen(path):
    """Each name below a directory: what it is, its mode, and a file's bytes or where a link leads."""
    found = {}
    for folder, folders, files in os.walk(path):
        for name in folders + files:
            full = os.path.join(folder, name)
            look = os.lstat(full)
            held = os.readlink(full) if stat.S_ISLNK(look.st_mode) else None
            if stat.S_ISREG(look.st_mode) and look.st_size < TOO_LONG:
                with open(full, "rb") as file:
                    held = file.read()
            found[os.path.relpath(full, path)] = (look.st_mode, look.st_size, look.st_mtime_ns, held)
    return found


class Watch:
    """Tells whether somebody opened, read or changed something of a directory."""

    libc = ctypes.CDLL(None, use_errno=True)

    def __init__(self, path):
        self.descriptor = self.libc.inotify_init1(os.O_NONBLOCK | os.O_CLOEXEC)
        if self.descriptor < 0 or self.libc.inotify_add_watch(self.descriptor, os.fsencode(path), EVERY_EVENT) < 0:
            sys.exit("the system tells no events of files")

    def end(self):
        try:
            events = os.read(self.descriptor, 4096)
        except BlockingIOError:
            events = b""
        os.close(self.descriptor)
        return bool(events)


# ---- what stands at a name in the place of a file


def link_outside(place, path):
    os.symlink(place.move_out(os.path.basename(path)), path)


def link_relative(place, path):
    os.symlink(os.path.relpath(place.move_out(os.path.basename(path)), place.box), path)


def link_missing(place, path):
    os.symlink(os.path.join(place.outside, "missing"), path)


def link_itself(_, path):
    os.symlink(os.path.basename(path), path)


def fifo(_, path):
    os.mkfifo(path, 0o600)


def bound(_, path):
    folder = os.open(os.path.dirname(path), os.O_DIRECTORY)
    with socket.socket(socket.AF_UNIX) as made:
        made.bind(f"/proc/self/fd/{folder}/{os.path.basename(path)}")
    os.close(folder)


def directory(_, path):
    os.mkdir(path)


def full_directory(_, path):
    os.mkdir(path)
    with open(os.path.join(path, "file"), "wb"):
        pass


def device(_, path):
    # reading it never ends
    os.mknod(path, 0o666 | stat.S_IFCHR, os.makedev(1, 5))


def long_file(_, path):
    with open(path, "wb"):
        os.truncate(path, TOO_LONG)


KINDS = {
    "a link to a file outside": link_outside,
    "a link by a relative path": link_relative,
    "a link to nothing": link_missing,
    "a link to itself": link_itself,
    "a FIFO": fifo,
    "a socket": bound,
    "a directory": directory,
    "a directory with a file": full_directory,
    "a device": device,
    "a file of 2^32 bytes": long_file,
}
# What no other file can take the place of
STAYS = (directory, full_directory)


def put(name, kind, alone=False):
    """A folder in which something else stands at a name: in a mailbox, or alone."""

    def make(place):
        if alone:
            os.mkdir(place.box)
        else:
            place.copy()
        path = place.file(name)
        if kind not in (link_outside, link_relative) and os.path.lexists(path):
            os.unlink(path)
        kind(place, path)

    return make


def beside_cache(kind):
    """A folder with a cache file and something else at the index's name."""

    def make(place):
        put(INDEX, kind, alone=True)(place)
        shutil.copy(os.path.join(place.mailbox, CACHE), place.file(CACHE))

    return make


# ---- cases


def failure(n, name=rb"[^:]+", why=rb"[^:].*"):
    return rb"failure %d: %s: %s( \(os error \d+\))?" % (n, name, why)


def passed_over(name):
    """What is told of a name that is no file."""
    return re.escape(os.fsencode(name)) + rb": what stands there is no regular file .*, so it counts as not there"


def refusal(n):
    return rb"NO \[UNAVAILABLE\] FAULTS %d" % n


def same_mailbox(place):
    """The next run shows the mailbox as it was."""
    done = run(place.program, place.box, SHOW)
    if done.returncode or shown_in(done.stdout) != MAILBOX:
        raise Differs(f"the next run shows another mailbox: status {done.returncode}, {last_line(done.stdout)}")


def nothing_made(place):
    if os.path.lexists(place.box):
        raise Differs("a folder is made")


def no_temporary(place):
    if os.path.lexists(place.file(TEMPORARY)):
        raise Differs("a temporary file is left")


def is_private(place):
    """The folder and its files are for their owner alone."""
    for path in (place.box, *(entry.path for entry in os.scandir(place.box))):
        mode = stat.S_IMODE(os.stat(path).st_mode)
        if mode != (0o700 if path == place.box else 0o600):
            raise Differs(f"{os.path.basename(path)} has mode {mode:o}")


EVERYTHING = b"a SELECT\na FETCH 1:3 (BODY[])\na APPEND () {4}\nfour\na CHECK\na UID FETCH 4 (BODY[])\na NOOP\n"
DONE = (b"OK ",) * 6
READING = b"a SELECT\na FETCH 1:3 (FLAGS RFC822.SIZE BODY[] FIELD subject)\na SEARCH HEADER subject \"two\"\na NOOP\n"
GOING = b"a SELECT\na STORE 2 +FLAGS (\\Deleted)\na EXPUNGE\na CHECK\n"


def with_answer(at, answer):
    return DONE[:at] + (answer,) + DONE[at + 1 :]


def run_wanted(name, stays):
    """What a run of EVERYTHING answers over a mailbox in which something else stands at the name."""
    where = os.fsencode(name)
    if name == LOG:
        return {"status": 3, "answers": (), "last": b"FAULT 3 NoLog", "errors": None, "is_left": True}
    if name == "u.2":
        return {"answers": with_answer(1, rb"NO \[CORRUPTION\] UID 2 "), "errors": (passed_over(name),)}
    if name == "u.4":
        # where it can, the new message's file takes its place before the CHECK
        return {"answers": with_answer(2, refusal(1)), "errors": (failure(1, where), passed_over(name))} if stays else {"answers": DONE}
    if stays and name in (INDEX, CACHE):
        return {"answers": with_answer(3, refusal(1)), "errors": (passed_over(name), failure(1, where))}
    if stays and name == TEMPORARY:
        return {
            "answers": (*DONE[:2], refusal(1), refusal(2), *DONE[4:]),
            "errors": (failure(1), failure(2)),
        }
    return {"answers": DONE, "errors": () if name == TEMPORARY else (passed_over(name),)}


def rebuild_wanted(name, stays):
    if stays and name in (LOG, TEMPORARY):
        told = (passed_over(name),) if name == LOG else ()
        return {"status": 2, "last": b"FAULT 2 DISK 1", "errors": (*told, failure(1))}
    return {"last": b"END 0 REBUILT kept %d skipped 0" % (2 if name == "u.2" else 3), "errors": None}


def irregular_cases():
    """Each kind at each name."""
    for kind, put_it in KINDS.items():
        stays = put_it in STAYS
        for name in (LOG, LOG2, INDEX, CACHE, "u.2", "u.4", TEMPORARY):
            behind = no_temporary if not (stays and name == TEMPORARY) else None
            make = put(name, put_it)
            wanted = run_wanted(name, stays)
            yield Case(f"{name} is {kind}: run", make, EVERYTHING, behind=None if name == LOG else behind, **wanted)
            wanted = rebuild_wanted(name, stays)
            yield Case(f"{name} is {kind}: rebuild", make, b"", "rebuild", behind=behind, **wanted)
        for name in (LOG, LOG2, INDEX, "u.1"):
            make, where = put(name, put_it, alone=True), os.fsencode(name)
            wanted = {"status": 2, "last": b"FAULT 2 DISK 1", "errors": (failure(1, where),), "is_left": True}
            yield Case(f"{name} is {kind}, alone: run", make, **wanted)
            yield Case(f"{name} is {kind}, alone: rebuild", make, b"", "rebuild", **wanted)
        for word in ("run", "rebuild"):
            yield Case(
                f"{INDEX} is {kind}, beside a cache file alone: {word}",
                beside_cache(put_it),
                word=word,
                status=2,
                last=b"FAULT 2 DISK 1",
                errors=(failure(1, os.fsencode(INDEX)),),
                is_left=True,
            )
        yield Case(
            f"u.2 is {kind}: its message is expunged",
            put("u.2", put_it),
            GOING,
            answers=(b"OK ",) * 4,
            errors=(passed_over("u.2"),),
            behind=stands("u.2"),
        )


def stands(name):
    def check(place):
        if not os.path.lexists(place.file(name)):
            raise Differs(f"{name} is removed")

    return check


def copied(change):
    """The mailbox, and a change of it."""

    def make(place):
        place.copy()
        change(place)

    return make


def mode(name, bits):
    return copied(lambda place: os.chmod(place.file(name), bits))


def all_modes(bits):
    def change(place):
        for entry in os.scandir(place.box):
            os.chmod(entry.path, bits)

    return copied(change)


DENIED = b"Permission denied"


def rights_cases():
    yield Case("a message of mode 0400", mode("u.2", 0o400), READING, answers=(b"OK ",) * 4)
    yield Case("all files of mode 0400", all_modes(0o400), READING, answers=(b"OK ",) * 4)
    yield Case(
        "all files of mode 0400: a write",
        all_modes(0o400),
        b"a SELECT\na STORE 1 +FLAGS (\\Draft)\na NOOP\n",
        answers=(b"OK ", refusal(1), b"OK "),
        errors=(failure(1, os.fsencode(LOG), DENIED),),
        behind=same_mailbox,
    )
    yield Case(
        "a message of mode 0000",
        mode("u.2", 0),
        b"a SELECT\na FETCH 2 (BODY[])\na FETCH 1,3 (BODY[])\n",
        answers=(b"OK ", refusal(1), b"OK "),
        errors=(failure(1, rb"u\.2", DENIED),),
    )
    for name in (LOG, LOG2, INDEX):
        yield Case(
            f"{name} of mode 0000",
            mode(name, 0),
            status=2,
            last=b"FAULT 2 DISK 1",
            errors=(failure(1, os.fsencode(name), DENIED),),
            is_left=True,
        )
    yield Case(
        "a folder of mode 0500",
        copied(lambda place: os.chmod(place.box, 0o500)),
        b"a SELECT\na FETCH 1:3 (BODY[])\na APPEND () {4}\nfour\na NOOP\n",
        answers=(b"OK ", b"OK ", refusal(1), b"OK "),
        errors=(failure(1, why=DENIED),),
        behind=same_mailbox,
    )
    yield Case(
        "a folder of mode 0000",
        copied(lambda place: os.chmod(place.box, 0)),
        status=2,
        last=b"FAULT 2 DISK 1",
        errors=(failure(1, why=DENIED),),
    )


def folder_cases():
    failed = {"status": 2, "last": b"FAULT 2 DISK 1", "errors": (failure(1),)}

    def missing(_):
        pass

    yield Case("a missing folder: run", missing, answers=(b"OK ",), errors=(rb".*box.*",), behind=is_private)
    yield Case("a missing folder: rebuild", missing, b"", "rebuild", behind=nothing_made, **failed)
    yield Case(
        "an empty folder: rebuild",
        lambda place: os.mkdir(place.box, 0o700),
        b"",
        "rebuild",
        last=b"END 0 REBUILT kept 0 skipped 0",
        errors=None,
        behind=is_private,
    )
    yield Case("an empty folder: run", lambda place: os.mkdir(place.box, 0o700), answers=(b"OK ",), behind=is_private)
    yield Case("a parent that may not be read: run", shut(True), EVERYTHING, answers=DONE, path="shut/box")
    yield Case(
        "a folder is made in a parent that may not be read",
        shut(False),
        status=2,
        last=b"FAULT 2 DISK 1",
        errors=(rb"sdbox: the folder .*shut/box/ is made", failure(1, rb"[^:]*shut/box/\.\.", DENIED)),
        path="shut/box",
    )
    for word in ("run", "rebuild"):
        yield Case(f"a folder whose parent is missing: {word}", missing, word=word, path="none/box", **failed)
        for what, kind in KINDS.items():
            if kind in (directory, full_directory):
                continue

            def stand(place, kind=kind):
                kind(place, place.box)

            def outward(place, kind=kind):
                with open(os.path.join(place.outside, "box"), "wb"):
                    pass
                os.symlink(os.path.join(place.outside, "box"), place.box)

            make = outward if kind in (link_outside, link_relative) else stand
            yield Case(f"the folder is {what}: {word}", make, word=word, **failed)
    yield Case(
        "the folder is a link to a folder",
        lambda place: os.symlink(shutil.copytree(place.mailbox, os.path.join(place.path, "true")), place.box),
        EVERYTHING,
        answers=DONE,
        behind=no_temporary,
    )
    yield Case(
        "another process has the folder",
        copied(lambda place: None),
        how=locked,
        status=2,
        last=b"FAULT 2 DISK 1",
        errors=(rb".*another process.*",),
        is_left=True,
    )
    yield Case("the folder is swapped for another in a run", copied(lambda place: None), how=swapped, errors=None)


def shut(has_box):
    """A parent that may be entered and written, and not read, with a folder in it or none."""

    def make(place):
        parent = os.path.join(place.path, "shut")
        os.mkdir(parent)
        if has_box:
            shutil.copytree(place.mailbox, os.path.join(parent, "box"))
        os.chmod(parent, 0o311)

    return make


def link_storage(place):
    """A link of the other layout's name, to where such files stand."""
    place.copy()
    shutil.copy(os.path.join(place.mailbox, LOG), os.path.join(place.outside, "dovecot.map.index.log"))
    os.symlink(place.outside, place.file("storage"))


def layout_cases():
    for word in ("run", "rebuild"):
        errors = () if word == "run" else None
        yield Case(f"storage is a link to a folder outside: {word}", link_storage, word=word, last=b"END 0 .*", errors=errors)
    for name in OTHER_LAYOUT:
        for alone in (True, False):

            def make(place, name=name, alone=alone):
                if alone:
                    os.mkdir(place.box)
                else:
                    place.copy()
                os.mkdir(place.file("storage"))
                shutil.copy(os.path.join(place.mailbox, LOG), place.file(name))

            for word in ("run", "rebuild"):
                yield Case(
                    f"{name}{'' if alone else ' beside a mailbox'}: {word}",
                    make,
                    word=word,
                    status=2,
                    last=b"FAULT 2 DISK 1",
                    errors=(failure(1),),
                    is_left=True,
                )


NO_TEXT = (b"\xff", b"u.\xff", b"a\xc3", b"dovecot.index\xfe", b"zz\x80\x80")


def with_names(place):
    for name in NO_TEXT:
        with open(os.path.join(os.fsencode(place.box), name), "wb"):
            pass


def only_messages(place):
    for name in (LOG, LOG2, INDEX, CACHE):
        os.unlink(place.file(name))
    with_names(place)


def left_behind(bits):
    """A temporary file that a crash left, longer than what is written anew."""

    def change(place):
        with open(place.file(TEMPORARY), "wb") as file:
            file.write(b"left " * 100_000)
        os.chmod(place.file(TEMPORARY), bits)

    return copied(change)


def appended(place):
    no_temporary(place)
    is_private(place)
    done = run(place.program, place.box, SHOW)
    if done.returncode or shown_in(done.stdout) != append([], b"four").change(MAILBOX):
        raise Differs(f"the next run shows another mailbox: status {done.returncode}, {last_line(done.stdout)}")


def name_cases():
    yield Case(
        "names that are no UTF-8: a message is expunged",
        copied(with_names),
        GOING,
        answers=(b"OK ",) * 4,
        behind=lambda place: nothing_at(place, "u.2"),
    )
    yield Case("names that are no UTF-8: rebuild", copied(with_names), b"", "rebuild", last=b"END 0 REBUILT kept 3 skipped 0", errors=None)
    yield Case(
        "names that are no UTF-8 and messages alone",
        copied(only_messages),
        status=3,
        last=b"FAULT 3 NoLog",
        errors=None,
        is_left=True,
    )
    for bits in (0o644, 0o600, 0):
        yield Case(f"a temporary file of mode {bits:04o} that was left: run", left_behind(bits), EVERYTHING, answers=DONE, behind=appended)
        yield Case(
            f"a temporary file of mode {bits:04o} that was left: rebuild",
            left_behind(bits),
            b"",
            "rebuild",
            last=b"END 0 REBUILT kept 3 skipped 0",
            errors=None,
            behind=no_temporary,
        )


def nothing_at(place, name):
    if os.path.lexists(place.file(name)):
        raise Differs(f"{name} is still there")


def damaged(place):
    """u.2 lacks its end, u.9 is empty, and u.0 has no UID; the log is damaged at its end."""
    os.truncate(place.file("u.2"), 60)
    for name in ("u.9", "u.0"):
        with open(place.file(name), "wb"):
            pass


def told_cases():
    yield Case(
        "rebuild tells what is no file",
        put("u.12", link_missing),
        b"",
        "rebuild",
        last=b"END 0 REBUILT kept 3 skipped 0",
        errors=None,
        how=tells_other,
    )
    yield Case(
        "a bad line",
        copied(lambda place: None),
        b"a SELECT\na NOOP\na NOPE \x01\xff\t" + b"x" * 300 + b"\na NOOP\n",
        status=5,
        last=b"FAULT 5 LINE 3",
        errors=(rb".*a NOPE \?\?\?x{190}(?!x).*",),
        is_left=True,
    )
    yield Case(
        "rebuild tells what it skips",
        copied(damaged),
        b"",
        "rebuild",
        last=b"END 0 REBUILT kept 2 skipped 3",
        errors=None,
        behind=None,
        how=rebuilt_report,
    )


WRITES = b"a SELECT\na APPEND () {200000}\n" + b"x" * 200_000 + b"\na APPEND () {4}\nfour\n"


def limit_cases():
    yield Case(
        "a file size limit, and its signal is ignored",
        copied(lambda place: None),
        WRITES,
        how=limited(True),
        answers=(b"OK ", refusal(1), b"OK "),
        errors=(failure(1, why=b"File too large"),),
        behind=appended,
    )
    yield Case(
        "a file size limit, and its signal ends the run",
        copied(lambda place: None),
        WRITES,
        how=limited(False),
        status=-signal.SIGXFSZ,
        answers=(b"OK ",),
        last=None,
        behind=same_mailbox,
    )
    yield Case("a mount that is only read", copied(lambda place: None), READING, how=read_only, answers=(b"OK ",) * 4, is_left=True)
    yield Case(
        "a mount that is only read: a write",
        copied(lambda place: None),
        b"a SELECT\na STORE 1 +FLAGS (\\Draft)\na APPEND () {4}\nfour\na CHECK\na NOOP\n",
        how=read_only,
        answers=(b"OK ", refusal(1), refusal(2), refusal(3), b"OK "),
        errors=tuple(failure(n, why=b"Read-only file system") for n in (1, 2, 3)),
        is_left=True,
    )
    yield Case(
        "a mount that is only read: an empty folder",
        lambda place: os.mkdir(place.box),
        how=read_only,
        status=2,
        last=b"FAULT 2 DISK 1",
        errors=(failure(1, why=b"Read-only file system"),),
        is_left=True,
    )


# ---- how a case is run


class LeftOut(Exception):
    """The case can't be made here."""


def as_user():
    return {"user": USER, "group": USER, "extra_groups": []} if os.geteuid() == 0 else {}


def plainly(case, place, folder, **how):
    return run(place.program, folder, case.script, case.word, timeout=SECONDS, **{**as_user(), **how})


def locked(case, place, folder):
    held = os.open(place.box, os.O_DIRECTORY)
    fcntl.flock(held, fcntl.LOCK_EX)
    try:
        return plainly(case, place, folder)
    finally:
        os.close(held)


def limited(is_ignored):
    """Files have 100,000 bytes at most."""

    def before():
        resource.setrlimit(resource.RLIMIT_FSIZE, (100_000, 100_000))
        resource.setrlimit(resource.RLIMIT_CORE, (0, 0))

    def how(case, place, folder):
        signal.signal(signal.SIGXFSZ, signal.SIG_IGN if is_ignored else signal.SIG_DFL)
        try:
            return plainly(case, place, folder, preexec_fn=before, restore_signals=False)
        finally:
            signal.signal(signal.SIGXFSZ, signal.SIG_IGN)

    return how


def read_only(case, place, folder):
    """Here the program runs as the one who may mount."""
    words = ["unshare", "--mount", *(["--map-root-user"] if os.geteuid() else [])]
    mounted = 'mount --bind "$2" "$2" && mount -o remount,bind,ro "$2" || exit 99; exec "$@"'
    done = subprocess.run(
        [*words, "sh", "-c", mounted, "sh", place.program, folder, case.word],
        input=case.script,
        capture_output=True,
        timeout=SECONDS,
        check=False,
    )
    if done.returncode == 99 or done.stderr.startswith(b"unshare:"):
        raise LeftOut("no mount can be made")
    return done


def swapped(case, place, folder):
    """While the program waits in a reply that nobody reads, the folder goes aside and another comes to its
    place; the rest of the commands are to be done in the folder, or not at all."""
    large = b"0123456789abcde\n" * 8 * 1024
    script = b"a SELECT\na APPEND () {%d}\n%s\na FETCH 4 (BODY[])\n" % (len(large), large)
    script += b"a APPEND () {5}\nafter\na CHECK\na EXPUNGE\n"
    aside, other = os.path.join(place.path, "aside"), os.path.join(place.path, "other")
    shutil.copytree(place.mailbox, other)
    owned(other)
    before = seen(other)
    with tempfile.TemporaryFile() as source:
        source.write(script)
        source.seek(0)
        process = subprocess.Popen(
            [place.program, folder, "run"], stdin=source, stdout=subprocess.PIPE, stderr=subprocess.PIPE, pipesize=4096, **as_user()
        )
        said = b""
        while len(answers_in(said)) < 2:
            said += os.read(process.stdout.fileno(), 256)
        os.rename(place.box, aside)
        os.rename(other, place.box)
        said, errors = said + process.stdout.read(), process.stderr.read()
        process.wait(timeout=SECONDS)
    if seen(place.box) != before:
        raise Differs("the other folder is written")
    if any(line.startswith(b"OK ") for line in answers_in(said)[3:5]) and not os.path.exists(os.path.join(aside, "u.5")):
        raise Differs("an acknowledged message isn't in the folder")
    return subprocess.CompletedProcess([], process.returncode, said, errors)


def rebuilt_report(case, place, folder):
    """Standard error is to name what is skipped and what becomes of it."""
    done = plainly(case, place, folder)
    for wanted in (rb"u\.0", rb"u\.2", rb"u\.9", rb"UIDVALIDITY", rb"CHECK", rb"dovecot\.index\.log"):
        if not re.search(wanted, done.stderr):
            raise Differs(f"standard error has no {wanted.decode()}: {done.stderr.decode(errors='replace')!r}")
    return done


def tells_other(case, place, folder):
    """Standard error is to name what is no file."""
    done = plainly(case, place, folder)
    if not any(re.fullmatch(passed_over("u.12"), line) for line in done.stderr.splitlines()):
        raise Differs(f"standard error doesn't name u.12: {done.stderr.decode(errors='replace')!r}")
    return done


def check_output(case, done):
    said = f"{last_line(done.stdout)!r}, standard error {done.stderr.decode(errors='replace')!r}"
    if done.returncode != case.status:
        raise Differs(f"status {done.returncode}, {said}")
    if case.last and not re.fullmatch(case.last, os.fsencode(last_line(done.stdout))):
        raise Differs(f"the last line is {said}")
    answers = answers_in(done.stdout)
    if case.answers and (
        len(answers) != len(case.answers) or not all(map(re.match, case.answers, answers))
    ):
        raise Differs(f"the answers are {answers}, {said}")
    errors = done.stderr.splitlines()
    if case.errors is not None and (
        len(errors) != len(case.errors) or not all(map(re.fullmatch, case.errors, errors))
    ):
        raise Differs(f"standard error is {done.stderr.decode(errors='replace')!r}")
    for line, literals in replies_in(done.stdout):
        uid = re.match(rb"\* \d+ FETCH \(UID ([123]) ", line)
        if uid and literals and BODIES[int(uid[1]) - 1] not in literals:
            raise Differs(f"message {uid[1].decode()} has other bytes")


def try_case(case, place):
    """One case in a new place."""
    os.mkdir(place.outside)
    with open(os.path.join(place.outside, "file"), "wb") as file:
        file.write(b"outside\n")
    case.make(place)
    owned(place.path)
    before, inside = seen(place.outside), seen(place.box)
    watch = Watch(place.outside)
    try:
        done = (case.how or plainly)(case, place, os.path.join(place.path, case.path))
    finally:
        is_touched = watch.end()
    if is_touched or seen(place.outside) != before:
        raise Differs("something outside is opened or changed")
    check_output(case, done)
    if case.is_left and seen(place.box) != inside:
        raise Differs("the folder isn't left as it was")
    if case.behind:
        case.behind(place)


def all_cases():
    yield from folder_cases()
    yield from irregular_cases()
    yield from rights_cases()
    yield from layout_cases()
    yield from name_cases()
    yield from told_cases()
    yield from limit_cases()


def tried(case, place):
    """What came of a case."""
    try:
        try_case(case, place)
        return "good"
    except Differs as e:
        return f"DIFFERS: {e}"
    except subprocess.TimeoutExpired:
        return "DIFFERS: it hangs"
    except (LeftOut, PermissionError) as e:
        return f"left out: {e}"


def main():
    if len(sys.argv) not in (2, 3):
        sys.exit(__doc__)
    with tempfile.TemporaryDirectory(prefix="hostile.", dir=sys.argv[2] if len(sys.argv) == 3 else None) as top:
        os.chmod(top, 0o755)
        program = shutil.copy(os.path.abspath(sys.argv[1]), os.path.join(top, "program"))
        mailbox = os.path.join(top, "mailbox")
        if run(program, mailbox, script_of(COMMANDS)).returncode:
            sys.exit("the program makes no mailbox")
        count = differing = 0
        for case in all_cases():
            with tempfile.TemporaryDirectory(prefix="case.", dir=top) as path:
                os.chmod(path, 0o755)
                came = tried(case, Place(path, program, mailbox))
                for folder, folders, _ in os.walk(path):
                    for name in folders:
                        os.chmod(os.path.join(folder, name), 0o700)
            count += 1
            differing += came.startswith("DIFFERS")
            print(f"{case.name}: {came}", flush=True)
        print(f"{count} cases, {differing} differ")
        sys.exit(differing > 0)


if __name__ == "__main__":
    main()
