#!/usr/bin/env python3
"""Lets an existing POP3 client read the answers of the built program, message by message.

Usage: bench/pop3.py PROGRAM [SEED [DIRECTORY]]

PROGRAM is the built binary, crates/sdbox/out/sdbox. Mailboxes of awkward messages are made in DIRECTORY, or in the
system's place for temporary files: lone line feeds and returns, leading periods, no last line end, no bytes at all,
long lines, bytes that are no text, and random ones of such bytes (SEED). Over each the word `pop3` answers a script
with every line: it lists the messages, retrieves each, marks some, takes the marks away, marks others, and quits.

The output is parted into the answers, one for each line (RFC 1939, section 3), and these are replayed on a socket of
the loopback: whoever sends the lines in this order gets their answers. There Python's poplib asks for all of it. What
it understands is compared with what was put in: numbers, sizes and unique identifiers, each message byte for byte but
for its line ends, and which lines are refused. poplib's limit on a line's length is raised for that.

Behind it a run shows the mailbox, which is to have all messages but those that were marked. The same is done where
the sizes stand in the cache file, and where a message file is missing. The status is 1 where anything differs.
"""

import os
import poplib
import random
import shutil
import socket
import sys
import tempfile
import threading
from dataclasses import dataclass

from mailboxes import SHOW, append, last_line, plain, run, script_of, shown_in

poplib._MAXLINE = 1 << 27
SECONDS = 60
END = b"\r\n"

AWKWARD = [
    b"",
    b"\n",
    b"\r\n",
    b"\r",
    b".",
    b".\n",
    b"..",
    b".\r\n.\n..\n...\r\n.",
    b"a\r",
    b"a\r\rb\r\n\n\rc\n\r\n",
    b"Subject: a\n\nno last line end",
    b"Subject: b\r\n\r\none\r\n.two\r\n",
    b"mixed\r\nlines\nof\n\nboth\r\n\r\n",
    bytes(range(256)),
    b"+OK\n-ERR no\n.\nQUIT\n",
    "Gr\u00fc\u00dfe\n".encode(),
]
LONG = [
    b"x" * 3_000_000,
    b"." * 1_000_000 + b"\n." + b"y" * 70_000,
    b".\n" * 20_000,
    b"\n" * 50_000,
    b"a line of text\n" * 30_000,
]


class Differs(Exception):
    """What the client understands isn't what was put in."""


@dataclass
class Case:
    name: str
    bodies: list
    is_checked: bool = False
    missing: tuple = ()


@dataclass
class Listed:
    """A message of the maildrop: its UID and its bytes."""

    uid: int
    body: bytes

    def lines(self):
        """Its lines without their ends: a return before a line feed belongs to the end."""
        *whole, last = self.body.split(b"\n")
        return [line.removesuffix(b"\r") for line in whole] + ([last] if last else [])

    def size(self):
        """In octets, each line feed with a return before it."""
        return len(self.body) + self.body.count(b"\n") - self.body.count(b"\r\n")


# ---- the program's answers, replayed


def part(output, lines):
    """The greeting, the answer to each line, and what is behind them."""
    answers, at = [], 0
    for line in [None, *lines]:
        end = output.index(END, at) + len(END)
        is_long = line is not None and (line in (b"LIST", b"UIDL") or line.startswith(b"RETR "))
        if is_long and output.startswith(b"+OK", at):
            end -= len(END)
            end = output.index(END + b"." + END, end) + 2 * len(END) + 1
        answers.append(output[at:end])
        at = end
    return answers[0], answers[1:], output[at:]


class Replay(threading.Thread):
    """A server of one client, which answers these lines, in this order, so."""

    def __init__(self, greeting, lines, answers):
        super().__init__(daemon=True)
        self.greeting, self.pairs, self.trouble = greeting, list(zip(lines, answers, strict=True)), None
        self.server = socket.create_server(("127.0.0.1", 0))
        self.port = self.server.getsockname()[1]

    def run(self):
        try:
            client, _ = self.server.accept()
            with client, client.makefile("rb") as asked:
                client.settimeout(SECONDS)
                client.sendall(self.greeting)
                for line, answer in self.pairs:
                    given = asked.readline().removesuffix(END)
                    if given != line:
                        self.trouble = f"{given!r} is asked for {line!r}"
                        return
                    client.sendall(answer)
                if asked.readline():
                    self.trouble = "more is asked"
        except OSError as e:
            self.trouble = str(e)

    def end(self):
        self.join(SECONDS)
        self.server.close()
        if self.trouble or self.is_alive():
            raise Differs(self.trouble or "the client doesn't end")


# ---- what is asked, and what is to be understood


def first_marks(count):
    return list(range(1, count + 1, 3))


def last_marks(count):
    return list(range(2, count + 1, 2))


def asked_lines(count):
    """The lines of a session over so many messages, as the client asks for them."""
    yield from (b"STAT", b"LIST", b"UIDL", b"NOOP")
    for k in range(1, count + 1):
        yield from (b"LIST %d" % k, b"UIDL %d" % k, b"RETR %d" % k)
    for k in first_marks(count):
        yield from (b"DELE %d" % k, b"RETR %d" % k)
    yield from (b"STAT", b"LIST", b"UIDL", b"RSET", b"STAT", b"RETR %d" % (count + 1), b"DELE 0")
    yield from (b"DELE %d" % k for k in last_marks(count))
    yield b"QUIT"


def expect(name, found, wanted):
    if found != wanted:
        raise Differs(f"{name}: {str(found)[:200]} for {str(wanted)[:200]}")


def expect_refused(name, ask, number, reason):
    try:
        ask(number)
    except poplib.error_proto as e:
        expect(name, e.args[0], b"-ERR " + reason)
    else:
        raise Differs(f"{name} isn't refused")


def check_listing(client, validity, rows, marks):
    """STAT, LIST and UIDL have the messages that aren't marked, with their numbers."""
    left = [(k, row) for k, row in enumerate(rows, 1) if k not in marks]
    expect("STAT", client.stat(), (len(left), sum(row.size() for _, row in left)))
    expect("LIST", client.list()[1], [b"%d %d" % (k, row.size()) for k, row in left])
    expect("UIDL", client.uidl()[1], [b"%d %d.%d" % (k, validity, row.uid) for k, row in left])


def check_message(client, validity, k, row):
    expect(f"LIST {k}", client.list(k), b"+OK %d %d" % (k, row.size()))
    expect(f"UIDL {k}", client.uidl(k), b"+OK %d %d.%d" % (k, validity, row.uid))
    said, lines, octets = client.retr(k)
    expect(f"the first line of RETR {k}", said, b"+OK %d" % row.size())
    expect(f"the lines of RETR {k}", lines, row.lines())
    has_end = not row.body or row.body.endswith(b"\n")
    expect(f"the octets of RETR {k}", octets, row.size() + (0 if has_end else 2))


def check_session(client, validity, rows):
    """All of it, in the order of the lines."""
    expect("the greeting", client.getwelcome(), b"+OK")
    check_listing(client, validity, rows, ())
    expect("NOOP", client.noop(), b"+OK")
    for k, row in enumerate(rows, 1):
        check_message(client, validity, k, row)
    for k in first_marks(len(rows)):
        expect(f"DELE {k}", client.dele(k), b"+OK")
        expect_refused(f"RETR {k}, marked", client.retr, k, b"NONE")
    check_listing(client, validity, rows, first_marks(len(rows)))
    expect("RSET", client.rset(), b"+OK")
    expect("STAT behind RSET", client.stat(), (len(rows), sum(row.size() for row in rows)))
    expect_refused("RETR of no message", client.retr, len(rows) + 1, b"NONE")
    expect_refused("DELE 0", client.dele, 0, b"NONE")
    for k in last_marks(len(rows)):
        expect(f"DELE {k}", client.dele(k), b"+OK")
    expect("QUIT", client.quit(), b"+OK")


# ---- a case


def make_folder(program, folder, case):
    commands = [append([], body) for body in case.bodies]
    if case.is_checked:
        commands.append(plain(b"CHECK"))
    done = run(program, folder, script_of(commands), timeout=SECONDS)
    if done.returncode:
        raise Differs(f"the mailbox isn't made: {last_line(done.stdout)}")
    for uid in case.missing:
        os.unlink(os.path.join(folder, f"u.{uid}"))


def validity_of(program, folder):
    done = run(program, folder, b"z SELECT\n", timeout=SECONDS)
    return int(done.stdout.split(b"[UIDVALIDITY ")[1].split(b"]")[0])


def check_left(program, folder, case, rows):
    """A further run shows all messages but those that were marked."""
    gone = {rows[k - 1].uid for k in last_marks(len(rows))}
    left = [uid for uid in range(1, len(case.bodies) + 1) if uid not in gone]
    shown = run(program, folder, b"z SELECT\nz UID SEARCH ALL\n", timeout=SECONDS).stdout
    expect("the messages that are left", shown.split(b"* SEARCH")[1].split(b"\n")[0].split(), [b"%d" % uid for uid in left])
    if not case.missing:
        mailbox = shown_in(run(program, folder, SHOW, timeout=SECONDS).stdout)
        expect("their bytes", [mailbox.rows[uid][1] for uid in left], [case.bodies[uid - 1] for uid in left])


def try_case(program, folder, case, line_end):
    make_folder(program, folder, case)
    validity = validity_of(program, folder)
    rows = [Listed(uid, body) for uid, body in enumerate(case.bodies, 1) if uid not in case.missing]
    lines = list(asked_lines(len(rows)))
    done = run(program, folder, line_end.join(lines), "pop3", timeout=SECONDS)
    expect("the status", done.returncode, 0)
    greeting, answers, rest = part(done.stdout, lines)
    groups = 1 if last_marks(len(rows)) else 0
    if not (rest.startswith(b"END 0 MARK ") and rest.endswith(b" GROUPS %d\n" % groups)):
        raise Differs(f"the last line is {rest[:200]!r}")
    replay = Replay(greeting, lines, answers)
    replay.start()
    client = poplib.POP3("127.0.0.1", replay.port, SECONDS)
    try:
        check_session(client, validity, rows)
    finally:
        client.close()
    replay.end()
    check_left(program, folder, case, rows)


def random_body(source):
    pieces = (b"\n", b"\r\n", b"\r", b".", b"..", b"a", b"bc ", b"\x00", b"\xff", b"\n.", b"\n\n")
    return b"".join(source.choice(pieces) for _ in range(source.randrange(24)))


def cases_of(seed):
    source = random.Random(seed)
    yield Case("no messages", [])
    yield Case("one message", [b"Subject: one\n\none\n"])
    yield Case("awkward messages", AWKWARD)
    yield Case("awkward messages with a cache", AWKWARD, is_checked=True)
    yield Case("awkward messages, of which two are missing", AWKWARD, missing=(2, 7))
    yield Case("long lines", LONG)
    for number in range(1, 9):
        bodies = [random_body(source) for _ in range(source.randrange(1, 60))]
        yield Case(f"random messages, {number}", bodies, is_checked=number % 2 == 0)


def main():
    if len(sys.argv) not in (2, 3, 4):
        sys.exit(__doc__)
    program, differing, count = os.path.abspath(sys.argv[1]), 0, 0
    seed = int(sys.argv[2]) if len(sys.argv) > 2 else 1
    with tempfile.TemporaryDirectory(prefix="pop3.", dir=sys.argv[3] if len(sys.argv) > 3 else None) as top:
        for case in cases_of(seed):
            folder = os.path.join(top, "box")
            try:
                try_case(program, folder, case, (b"\n", END)[count % 2])
                came = "good"
            except (Differs, poplib.error_proto, ValueError, IndexError) as e:
                came, differing = f"DIFFERS: {e}", differing + 1
            shutil.rmtree(folder, ignore_errors=True)
            count += 1
            print(f"{case.name}: {came}", flush=True)
    print(f"{count} mailboxes, {differing} differ")
    sys.exit(differing > 0)


if __name__ == "__main__":
    main()
