"""A mailbox as commands leave it and as the program shows it, for the scripts beside this one."""

import re
import subprocess
from collections.abc import Callable
from typing import NamedTuple

LITERAL = re.compile(rb"\{(\d+)\}$")
SHOWN = re.compile(rb"\* \d+ FETCH \(UID (\d+) FLAGS \(([^)]*)\) BODY\[\] ")
ANSWER = re.compile(rb"(OK|NO|BAD) ")
SHOW = b"z SELECT\nz UID FETCH 1:* (FLAGS BODY[])\n"


class Mailbox(NamedTuple):
    """UIDNEXT, and of each UID its flags and keywords and its bytes."""

    next: int
    rows: dict


class Command(NamedTuple):
    """A line of a script without its session's name, and what it makes of a mailbox."""

    text: bytes
    change: Callable


EMPTY = Mailbox(1, {})


# ---- commands


def append(flags, body):
    def change(mailbox):
        return Mailbox(mailbox.next + 1, {**mailbox.rows, mailbox.next: (frozenset(flags), body)})

    return Command(b"APPEND (%s) {%d}\n%s" % (b" ".join(flags), len(body), body), change)


def store(uids, how, flags):
    """Flags are added (how is +), taken away (-) or set (nothing)."""

    def stored(old):
        return old | set(flags) if how == b"+" else old - set(flags) if how == b"-" else frozenset(flags)

    def change(mailbox):
        rows = {uid: (stored(row[0]), row[1]) if uid in uids else row for uid, row in mailbox.rows.items()}
        return Mailbox(mailbox.next, rows)

    text = b"UID STORE %s %sFLAGS (%s)" % (b",".join(b"%d" % uid for uid in uids), how, b" ".join(flags))
    return Command(text, change)


def without(mailbox, goes):
    return Mailbox(mailbox.next, {uid: row for uid, row in mailbox.rows.items() if not goes(uid, row)})


def expunge():
    return Command(b"EXPUNGE", lambda mailbox: without(mailbox, lambda _, row: rb"\Deleted" in row[0]))


def remove(uids):
    text = b"UID REMOVE " + b",".join(b"%d" % uid for uid in uids)
    return Command(text, lambda mailbox: without(mailbox, lambda uid, _: uid in uids))


def plain(text):
    """A command that leaves the mailbox as it is."""
    return Command(text, lambda mailbox: mailbox)


def states(commands, mailbox=EMPTY):
    """The mailbox before the commands and behind each."""
    found = [mailbox]
    for command in commands:
        found.append(command.change(found[-1]))
    return found


def script_of(commands, session=b"a"):
    return session + b" SELECT\n" + b"".join(b"%s %s\n" % (session, command.text) for command in commands)


# ---- what the program shows


def run(program, folder, script, *words, **how):
    words = words or ("run",)
    return subprocess.run([program, folder, *words], input=script, capture_output=True, check=False, **how)


def replies_in(output, session=b"a"):
    """The replies of a session: each whole line without its literals, and these."""
    at = 0
    while (end := output.find(b"\n", at)) >= 0:
        line, literals, at = output[at:end], [], end + 1
        while found := LITERAL.search(line):
            size = int(found[1])
            end = output.find(b"\n", at + size)
            if end < 0:
                return
            literals.append(output[at : at + size])
            line, at = line + output[at + size : end], end + 1
        if line.startswith(session + b" "):
            yield line[len(session) + 1 :], literals


def answers_in(output, session=b"a"):
    """The last line of each command of a session that is answered."""
    return [line for line, _ in replies_in(output, session) if ANSWER.match(line)]


def shown_in(output):
    """The mailbox that the output of SHOW shows."""
    uid_next, rows = 0, {}
    for line, literals in replies_in(output, b"z"):
        if found := re.search(rb"\[UIDNEXT (\d+)\]", line):
            uid_next = int(found[1])
        if found := SHOWN.match(line):
            rows[int(found[1])] = (frozenset(found[2].split()), literals[0])
    return Mailbox(uid_next, rows)


def last_line(output):
    return output[-200:].decode(errors="replace").rstrip("\n").split("\n")[-1]
