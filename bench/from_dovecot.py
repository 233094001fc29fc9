#!/usr/bin/env python3
"""Brings mailboxes of Dovecot over to the built program, and tells what is kept of them and what is lost.

Usage: bench/from_dovecot.py PROGRAM [DIRECTORY]

PROGRAM is the built binary, crates/sdbox/out/sdbox. In DIRECTORY (/dev/shm where none is given)
Dovecot's own imap makes an sdbox mailbox: messages of different line ends and sizes, flags and
keywords, and three messages that were expunged, the last among them. What it lists is kept for
comparison, and the folder with the message files is copied. The program is to refuse the copy and
leave it alone, then to rebuild it, writing no file but the log, and then to show each message with
the bytes that Dovecot stored. This is done for a new mailbox, and for others: with a snapshot, with a
rotated log, with a damaged message file and so on (MAILBOXES, below). A line is printed for each
check, and a table at the end says what else is kept: it is checked where it stands in MAILBOXES.

The status is 1 where a check fails. Where Debian's dovecot-imapd isn't installed, or this isn't run as
root, nothing is done.
"""

import os
import re
import shutil
import subprocess
import sys
import tempfile
import time

import dovecot
from mailboxes import last_line, replies_in

# APPENDed in this order; those of the places in GOING are expunged
MESSAGES = (
    (b"", b"x"),
    (rb"\Seen", b"Subject: CRLF\r\n\r\nTwo lines\r\nof text\r\n"),
    (rb"\Flagged \Draft", b"Subject: LF\n\nTwo lines\nof text\n"),
    (b"$Forwarded", b"Subject: no line end\r\n\r\nlast"),
    (rb"\Answered NonJunk", b"Subject: goes\r\n\r\n"),
    (b"NonJunk $Label1", b"Subject: 8 bits\r\n\r\n\xe4\xff\x80 \xc3\xa4\r\n"),
    (b"", b"Subject: CR alone\r\n\r\na\rb\r\rc\r\n"),
    (b"", b"Subject: goes too\r\n\r\n"),
    (rb"\Seen \Answered", b"Subject: both\n\r\nLF\nCRLF\r\n\r\n\n"),
    (b"", b"Subject: NUL\r\n\r\na\0b\r\n"),
    (b"$Label1", b"From: a\r\nSubject: large\r\n\r\n" + b"0123456789abcdef" * 4 * 1024 * 16 + b"\r\n"),
    (rb"\Flagged", b"\r\n"),
    (b"", b"Subject: the last, goes\r\n\r\n"),
)
GOING = (4, 7, 12)
ITEMS = re.compile(rb"\* \d+ FETCH \(UID (\d+) FLAGS \(([^)]*)\) RFC822.SIZE (\d+) MODSEQ \((\d+)\) BODY\[\] ")

# settings by which a small mailbox gets a snapshot, and by which its log is rotated
SNAPSHOT = ("mail_index_rewrite_min_log_bytes = 1k",)
ROTATION = (*SNAPSHOT, "mail_index_log_rotate_min_size = 4k", "mail_index_log_rotate_max_size = 8k")
UNLIMITED = ("-o", "mail_index_log_rotate_min_size=1G", "-o", "mail_index_log_rotate_max_size=1G")


class Listing:
    """What a mailbox shows: two numbers, and of each UID flags, size, modification sequence and bytes."""

    def __init__(self, replies):
        self.numbers, self.flags, self.sizes, self.modseqs, self.bodies = {}, {}, {}, {}, {}
        for line, literals in replies:
            if found := re.search(rb"\[(UIDVALIDITY|UIDNEXT) (\d+)\]", line):
                self.numbers[found[1].decode()] = int(found[2])
            if found := ITEMS.match(line):
                uid = int(found[1])
                self.flags[uid] = set(found[2].split()) - {rb"\Recent"}
                self.sizes[uid], self.modseqs[uid] = int(found[3]), int(found[4])
                # Dovecot sends no bytes as a quoted text
                self.bodies[uid] = literals[0] if literals else b""


class Checks:
    def __init__(self):
        self.failed = 0

    def check(self, what, holds, detail=""):
        self.failed += not holds
        print(f"  {'good  ' if holds else 'FAILED'} {what}{detail and ': '}{detail}", flush=True)


# ---- Dovecot's side


def fill(place):
    """A mailbox with the messages; what Dovecot refuses is told."""
    place.doveadm("save", "-m", "INBOX")  # an empty message, which APPEND refuses
    imap = dovecot.Imap(place)
    imap.command(b"s SELECT INBOX\r\n")
    for flags, message in MESSAGES:
        literal = b"~" if b"\0" in message else b""
        last, _ = imap.ask(b"a APPEND INBOX (%s) %s{%d+}\r\n%s\r\n" % (flags, literal, len(message), message))
        if b" OK" not in last:
            print(f"  Dovecot refuses a message: {last.decode()}")
    imap.command(b"b STORE 2,4,7 +FLAGS (\\Seen Work)\r\n")
    imap.command(b"b STORE 4 -FLAGS (\\Draft)\r\n")
    imap.command(b"b STORE 3 FLAGS (\\Answered Work)\r\n")
    imap.command(b"b UID STORE %s +FLAGS (\\Deleted)\r\n" % b",".join(b"%d" % (place + 2) for place in GOING))
    imap.command(b"c EXPUNGE\r\n")
    imap.command(b"b STORE 1 +FLAGS (\\Deleted)\r\n")
    imap.end()


def change(place, times):
    """Flags of one message after another are set and taken away, and a snapshot may be written."""
    imap = dovecot.Imap(place)
    imap.command(b"s SELECT INBOX\r\n")
    for i in range(times):
        imap.command(b"b STORE %d %sFLAGS (\\Answered)\r\n" % (i % 11 + 1, b"+-"[i // 11 % 2 :][:1]))
    imap.end()


def listed(place):
    """What Dovecot lists, in a session that changes nothing."""
    imap = dovecot.Imap(place)
    replies = imap.command(b"e EXAMINE INBOX\r\n")
    replies += imap.command(b"f UID FETCH 1:* (FLAGS RFC822.SIZE MODSEQ BODY.PEEK[])\r\n")
    imap.end()
    return Listing(replies)


def new(directory):
    """A new mailbox, all of which stands in its log."""
    place = dovecot.Place(directory)
    fill(place)
    return place, place.inbox()


def with_snapshot(directory):
    place = dovecot.Place(directory, SNAPSHOT)
    fill(place)
    change(place, 40)
    return place, place.inbox()


def rotated_until(directory, sequence):
    """The log has this sequence; Dovecot's first one has 2."""
    place = dovecot.Place(directory, ROTATION)
    fill(place)
    log = os.path.join(place.inbox(), "dovecot.index.log")
    while log_sequence(log) < sequence:
        change(place, 44)
    change(place, 5)
    return place, place.inbox()


def rotated(directory):
    return rotated_until(directory, 3)


def rotated_twice(directory):
    return rotated_until(directory, 4)


def backed_up(directory):
    """The mailbox of a rotated log, copied by doveadm to a new one without limits of the log."""
    place, _ = rotated_twice(directory)
    place.doveadm(*UNLIMITED, "backup", f"sdbox:{place.path}/copy")
    return place, place.inbox("copy")


def damaged(directory):
    """The file of one message lacks its end."""
    return new(directory)


def elsewhere(directory):
    """Dovecot keeps its log in another directory than the message files."""
    place = dovecot.Place(directory, location=":INDEX={}/index")
    fill(place)
    return place, place.inbox()


def joined(directory):
    """The log of that other directory is put beside the message files."""
    place, folder = elsewhere(directory)
    shutil.copytree(place.path + "/index/mailboxes/INBOX", folder, dirs_exist_ok=True)
    return place, folder


def compressed(directory):
    """Dovecot stores messages compressed."""
    place = dovecot.Place(directory, ("mail_plugins = zlib", "plugin {", "zlib_save = gz", "}"))
    fill(place)
    return place, place.inbox()


# each with what is to be kept beside the messages' bytes and UIDs
ALL = {"UIDVALIDITY", "UIDNEXT", "flags", "keywords"}
MAILBOXES = (
    ("new", new, ALL),
    ("snapshot", with_snapshot, ALL),
    ("rotated", rotated, set()),
    ("rotated twice", rotated_twice, set()),
    ("backup of that", backed_up, ALL),
    ("damaged file", damaged, ALL),
    ("log elsewhere", elsewhere, set()),
    ("and joined", joined, ALL),
    ("compressed", compressed, ALL),
)


# ---- the program's side


def log_sequence(path):
    with open(path, "rb") as log:
        return int.from_bytes(log.read(12)[8:], "little")


def files_of(folder):
    """Each file's bytes, mode and time of change."""
    files = {}
    for entry in os.scandir(folder):
        stat = entry.stat()
        with open(entry.path, "rb") as file:
            files[entry.name] = (file.read(), stat.st_mode, stat.st_mtime_ns)
    return files


def message_numbers(folder):
    return {int(name[2:]) for name in os.listdir(folder) if name.startswith("u.")}


def stored(folder, uid):
    """A message's bytes as they stand in its file, behind the first line and a header of 30 bytes."""
    with open(os.path.join(folder, f"u.{uid}"), "rb") as file:
        _, text = file.read().split(b"\n", 1)
    return text[30:][: int(text[13:29], 16)]


def obey(program, folder, word, script=b""):
    done = subprocess.run([program, folder, word], input=script, capture_output=True, check=False)
    return done.returncode, done.stdout


SHOW = b"a SELECT\na UID FETCH 1:* (FLAGS RFC822.SIZE MODSEQ BODY[])\n"


def refuses(checks, program, box):
    before = files_of(box)
    status, said = obey(program, box, "run", SHOW)
    fault = re.fullmatch(rb"FAULT 3 [^\n]*\n", said)
    checks.check("run is refused", status == 3 and bool(fault), f"status {status}, {last_line(said)}")
    checks.check("and leaves each file as it was", files_of(box) == before)


def rebuilds(checks, program, box, numbers, skipped):
    before = files_of(box)
    status, said = obey(program, box, "rebuild")
    wanted = b"END 0 REBUILT kept %d skipped %d\n" % (len(numbers), skipped)
    checks.check("rebuild", status == 0 and said == wanted, f"status {status}, {last_line(said)}")
    after = files_of(box)
    changed = sorted(name for name in before.keys() | after.keys() if before.get(name) != after.get(name))
    checks.check("and changes the log alone", changed == ["dovecot.index.log"], ", ".join(changed))


def shows(checks, program, box, numbers, words, script=SHOW):
    """What the program lists; its messages are to have the bytes of their files."""
    status, said = obey(program, box, "run", script)
    checks.check(words, status == 0, f"status {status}, {last_line(said)}")
    shown = Listing(replies_in(said))
    checks.check("the same UIDs", shown.bodies.keys() == numbers, " ".join(map(str, sorted(shown.bodies))))
    wrong = [uid for uid, body in shown.bodies.items() if body != stored(box, uid)]
    checks.check("the bytes that Dovecot stored", not wrong, " ".join(map(str, wrong)))
    return shown


# ---- what is kept


def how_many(uids, same):
    """How many of the messages pass the test."""
    count = sum(map(same, uids))
    return "kept" if count == len(uids) else f"{count} of {len(uids)}" if count else "lost"


def is_keyword(flag):
    return not flag.startswith(b"\\")


def as_sent(body):
    """A message's bytes as Dovecot sends them: with CRLF for LF, and 0x80 for NUL."""
    return re.sub(rb"\r?\n", b"\r\n", body).replace(b"\0", b"\x80")


def kept_of(theirs, ours):
    """For each thing that a mailbox shows, whether it is kept. What a message never had isn't counted, and
    modification sequences are told to be higher where none is below one that Dovecot gave."""
    uids = ours.bodies.keys() & theirs.bodies.keys()
    kept = {"messages": f"{len(uids)} of {len(theirs.bodies)}"}
    for name in ("UIDVALIDITY", "UIDNEXT"):
        kept[name] = "kept" if ours.numbers.get(name) == theirs.numbers[name] else "lost"
    for name, test in (("flags", lambda flag: not is_keyword(flag)), ("keywords", is_keyword)):
        flagged = [uid for uid in uids if any(map(test, theirs.flags[uid] | ours.flags[uid]))]
        kept[name] = how_many(
            flagged, lambda uid: set(filter(test, theirs.flags[uid])) == set(filter(test, ours.flags[uid]))
        )
    kept["SIZE"] = how_many(uids, lambda uid: theirs.sizes[uid] == ours.sizes[uid])
    kept["MODSEQ"] = "higher" if min(ours.modseqs.values()) >= max(theirs.modseqs.values()) else "lower"
    kept["BODY[]"] = how_many(uids, lambda uid: theirs.bodies[uid] == ours.bodies[uid])
    kept["as sent"] = how_many(uids, lambda uid: theirs.bodies[uid] == as_sent(ours.bodies[uid]))
    return kept


def bring_over(checks, program, directory, make, wanted):
    """The row of a mailbox in the table."""
    place, folder = make(directory)
    copy = tempfile.mkdtemp(prefix="sdbox.", dir=directory)
    try:
        theirs = listed(place)
        box = os.path.join(copy, "box")
        shutil.copytree(folder, box)
        numbers = message_numbers(box)
        listed_all = numbers == theirs.bodies.keys()
        checks.check("Dovecot lists the message files", listed_all, f"{len(numbers)} messages")
        if make is damaged:
            gone = sorted(numbers)[4]
            os.truncate(os.path.join(box, f"u.{gone}"), 60)
            numbers.remove(gone)
        # a UIDVALIDITY that is lost is taken from the clock, and is to be seen as another
        time.sleep(max(0, theirs.numbers["UIDVALIDITY"] + 1.5 - time.time()))
        refuses(checks, program, box)
        rebuilds(checks, program, box, numbers, int(make is damaged))
        ours = shows(checks, program, box, numbers, "run shows the mailbox")
        kept = kept_of(theirs, ours)
        for name in sorted(wanted):
            checks.check(f"{name} kept", kept[name] == "kept", kept[name])
        files = set(os.listdir(box))
        shows(checks, program, box, numbers, "and behind a CHECK", b"a SELECT\na CHECK\n" + SHOW)
        for name in sorted(files - set(os.listdir(box))):
            print(f"  CHECK removed {name}")
        return kept
    finally:
        place.remove()
        shutil.rmtree(copy)


def print_table(rows):
    columns = list(next(iter(rows.values())))
    print(f"\n{'mailbox':<15}" + "".join(f" {name:>11}" for name in columns))
    for mailbox, kept in rows.items():
        print(f"{mailbox:<15}" + "".join(f" {kept[name]:>11}" for name in columns))


def main():
    if len(sys.argv) not in (2, 3):
        sys.exit(__doc__)
    if not dovecot.is_there():
        print("Dovecot's imap isn't installed, or this isn't run as root: nothing is done")
        return
    program = os.path.abspath(sys.argv[1])
    directory = sys.argv[2] if len(sys.argv) == 3 else "/dev/shm"
    checks, rows = Checks(), {}
    for name, make, wanted in MAILBOXES:
        print(f"{name}:")
        rows[name] = bring_over(checks, program, directory, make, wanted)
    print_table(rows)
    print(f"\n{checks.failed} checks failed")
    sys.exit(checks.failed > 0)


if __name__ == "__main__":
    main()
