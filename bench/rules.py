#!/usr/bin/env python3
"""Checks the program's replies to random scripts against the rules of sessions, which stand here once more.

Usage: bench/rules.py PROGRAM [TIMES [SEED [DIRECTORY]]]

PROGRAM is the built binary, crates/sdbox/out/sdbox. Each time a random script of 2 to 64 sessions is answered over a new
folder in DIRECTORY, or in the system's place for temporary files, and behind that a further one over the same folder.

Nothing of the program's code or definitions is used: the rules are those of docs/SESSIONS.md, RFC 3501, RFC
4315 and RFC 7162, and the sizes of records those of docs/FORMATS.md. From the output alone the writes are put in
the order of their marks, whoever gave them; then each session's replies, as far as it has any, are to be
byte by byte what these rules answer at the places that its marks name, and what a mark tells is to be where
the groups end. The order in which sessions were answered doesn't count, so the same holds of sessions that
are served at one time. At the end the last line has the mark and the number of groups, and the second
script's first look shows the first one's mailbox.
"""

import random
import re
import sys
import tempfile
from pathlib import Path

from mailboxes import LITERAL, last_line, run

ANSWERED, FLAGGED, DELETED, SEEN, DRAFT = SYSTEM = (rb"\Answered", rb"\Flagged", rb"\Deleted", rb"\Seen", rb"\Draft")
MARK = re.compile(rb"(?:OK|NO) .*MARK (\d+):(\d+)\]?(?: [A-Z ]+)?$")
LAST = re.compile(rb"END 0 MARK (\d+):(\d+) GROUPS (\d+)\n$")
PIECE = 65_536
FIRST_PLACE = 40


class Differs(Exception):
    """What the program said isn't what the rules say."""


# ---- a mailbox


class Row:
    """A message as a session is shown it."""

    def __init__(self, uid, flags, words, modseq):
        self.uid, self.flags, self.words, self.modseq = uid, flags, words, modseq

    def is_shown_as(self, other):
        return (self.uid, self.flags, self.words) == (other.uid, other.flags, other.words)


class Mailbox:
    """Rows by UID, the keywords in the order in which they came, and the highest modification sequence."""

    def __init__(self):
        self.rows, self.words, self.next, self.highest, self.validity = {}, [], 1, 2, None
        self.mails = {}

    def flags_text(self, row):
        words = [name for name in self.words if name in row.words]
        return b" ".join([flag for flag in SYSTEM if flag in row.flags] + words)

    def change(self, uids, changed):
        """One record that changes these messages: each one that isn't as before has its number."""
        self.highest += 1
        for uid in uids:
            if row := self.rows.get(uid):
                flags, words = changed(row.flags, row.words)
                if (flags, words) != (row.flags, row.words):
                    self.rows[uid] = Row(uid, frozenset(flags), frozenset(words), self.highest)

    def add_word(self, uids, name):
        if name not in self.words:
            self.words.append(name)
        self.change(uids, lambda flags, words: (flags, words | {name}))

    def remove(self, uids):
        self.highest += 1
        for uid in uids:
            self.rows.pop(uid, None)


def pieces(items):
    return [items[at : at + PIECE] for at in range(0, len(items), PIECE)]


def spans_of(uids):
    """As few ranges of rising UIDs as there can be."""
    found = []
    for uid in uids:
        if found and found[-1][1] + 1 == uid:
            found[-1][1] = uid
        else:
            found.append([uid, uid])
    return found


def padded(size):
    return (size + 3) // 4 * 4


def word_size(name, pairs):
    return 8 + 4 + padded(len(name)) + 8 * pairs


# ---- sets and keys


def is_named(spans, largest, number):
    ends = [[largest if end == b"*" else end for end in span] for span in spans]
    return any(min(span) <= number <= max(span) for span in ends)


def set_text(spans):
    def end_text(end):
        return end if end == b"*" else b"%d" % end

    return b",".join(b":".join(map(end_text, span)) for span in spans)


def virtual_size(message):
    return len(message) + len(re.findall(rb"(?<!\r)\n", message))


def field_of(message, name):
    head = re.split(rb"(?:^|(?<=\n))\r?\n", message, maxsplit=1)[0]
    head = re.sub(rb"\r?\n(?=[ \t])", b"", head)
    for line in head.split(b"\n"):
        before, colon, value = line.partition(b":")
        if colon and before.lower() == name.lower():
            return value.removesuffix(b"\r").strip(b" \t")
    return None


class Key:
    """A search key: its text, whether it reads messages, and its test of a row."""

    def __init__(self, text, test, reads=False):
        self.text, self.test, self.reads = text, test, reads


def flag_key(flag, has):
    name = flag[1:].upper()
    return Key(name if has else b"UN" + name, lambda view, row, mail: (flag in row.flags) == has)


def word_key(name):
    return Key(b"KEYWORD " + name, lambda view, row, mail: name in row.words)


def uid_key(spans):
    return Key(b"UID " + set_text(spans), lambda view, row, mail: is_named(spans, view.largest(), row.uid))


def larger_key(size):
    return Key(b"LARGER %d" % size, lambda view, row, mail: virtual_size(mail) > size, True)


def header_key(name, text):
    def test(view, row, mail):
        value = field_of(mail, name)
        return value is not None and text.lower() in value.lower()

    return Key(b'HEADER %s "%s"' % (name, text), test, True)


def not_key(key):
    return Key(b"NOT " + key.text, lambda view, row, mail: not key.test(view, row, mail), key.reads)


def or_key(one, other):
    def test(view, row, mail):
        return one.test(view, row, mail) or other.test(view, row, mail)

    return Key(b"OR %s %s" % (one.text, other.text), test, one.reads or other.reads)


# ---- what a session was shown


class View:
    def __init__(self, rows=(), next_uid=1):
        self.rows, self.next = list(rows), next_uid

    def largest(self):
        return max((row.uid for row in self.rows), default=0)

    def uids(self):
        return {row.uid for row in self.rows}

    def named(self, by_uid, spans):
        """Message number and row of each that is named."""
        rows = list(enumerate(self.rows, 1))
        if by_uid:
            return [(n, row) for n, row in rows if is_named(spans, self.largest(), row.uid)]
        return [(n, row) for n, row in rows if is_named(spans, len(rows), n)]

    def missing(self, spans):
        for span in spans:
            for end in (span[0], span[-1]):
                number = len(self.rows) if end == b"*" else end
                if not 1 <= number <= len(self.rows):
                    return number
        return None

    def moved(self, mailbox, keeps):
        rows = list(mailbox.rows.values())
        if keeps:
            rows = [mailbox.rows.get(row.uid, row) for row in self.rows]
            rows += [row for row in mailbox.rows.values() if row.uid >= self.next]
        return View(rows, mailbox.next)


def fetch_text(number, uid, values):
    return b"* %d FETCH (%s)" % (number, b" ".join([b"UID %d" % uid, *values]))


def changes(mailbox, old, new):
    for number, row in enumerate(new.rows, 1):
        if not any(row.is_shown_as(other) for other in old.rows if other.uid == row.uid):
            yield fetch_text(number, row.uid, [b"FLAGS (%s)" % mailbox.flags_text(row)])


def said(mailbox, old, new):
    here, were = new.uids(), old.uids()
    for number in range(len(old.rows), 0, -1):
        if old.rows[number - 1].uid not in here:
            yield b"* %d EXPUNGE" % number
    if here - were:
        yield b"* %d EXISTS" % len(new.rows)
    yield from changes(mailbox, old, new)


# ---- commands


class Command:
    """A command of a session, by the rules: its text, what it writes, and what it is answered."""

    word = b"NOOP"
    keeps = writes = reads = False

    def text(self):
        return self.word

    def refusal(self, view):
        return None

    def size(self, view, mailbox):
        """The length of its group in bytes, or 0 where it writes none."""
        return 0

    def write(self, view, mailbox):
        pass

    def data(self, view, mailbox):
        return []

    def told(self, mailbox, old, new):
        return said(mailbox, old, new)

    def looks_at(self, view):
        return []

    def code(self, view, met):
        """What stands before the mark where it is done, and what does also where a message is gone."""
        return b"", b""

    def last(self, view, met, mailbox, mark):
        done, kept = self.code(view, met)
        gone = [row.uid for _, row in self.looks_at(view) if row.uid not in mailbox.rows]
        if gone:
            return b"NO [EXPUNGEISSUED] %sUID %d MARK %d:%d" % (kept, min(gone), *mark)
        return b"OK %s%s[MARK %d:%d] %s" % (done, kept, *mark, self.word)


class Select(Command):
    word = b"SELECT"

    def told(self, mailbox, old, new):
        yield b"* %d EXISTS" % len(new.rows)
        yield b"* OK [UIDVALIDITY %d]" % mailbox.validity
        yield b"* OK [UIDNEXT %d]" % mailbox.next
        yield from changes(mailbox, old, new)


class Check(Command):
    word, writes = b"CHECK", True

    def size(self, view, mailbox):
        rows = len(mailbox.rows)
        return 8 + 20 + padded(len(b"cache")) + 16 + 8 * rows + 8 * len(pieces(range(rows)))

    def write(self, view, mailbox):
        mailbox.highest += 2 + len(pieces(range(len(mailbox.rows))))


class Append(Command):
    word, writes = b"APPEND", True

    def __init__(self, flags, words, message):
        self.flags, self.words, self.message = flags, words, message

    def text(self):
        return b"APPEND (%s) {%d}\n%s" % (b" ".join([*self.flags, *self.words]), len(self.message), self.message)

    def size(self, view, mailbox):
        return 16 + sum(word_size(name, 1) for name in self.words)

    def write(self, view, mailbox):
        uid, mailbox.highest = mailbox.next, mailbox.highest + 1
        mailbox.rows[uid] = Row(uid, frozenset(self.flags), frozenset(), mailbox.highest)
        mailbox.next, mailbox.mails[uid] = uid + 1, self.message
        for name in self.words:
            mailbox.add_word([uid], name)

    def code(self, view, met):
        return b"[APPENDUID %d %d] " % (met.validity, met.next), b""


class Removing(Command):
    """A command by which messages leave."""

    writes = True

    def goes(self, view, mailbox):
        return []

    def size(self, view, mailbox):
        uids = self.goes(view, mailbox)
        return 20 * len(uids) + 8 * len(pieces(uids))

    def write(self, view, mailbox):
        for uids in pieces(self.goes(view, mailbox)):
            mailbox.remove(uids)


class Expunge(Removing):
    word = b"EXPUNGE"

    def goes(self, view, mailbox):
        return [row.uid for row in mailbox.rows.values() if DELETED in row.flags]


class Remove(Removing):
    word = b"UID REMOVE"

    def __init__(self, spans):
        self.spans = spans

    def text(self):
        return b"UID REMOVE " + set_text(self.spans)

    def goes(self, view, mailbox):
        return [row.uid for _, row in view.named(True, self.spans) if row.uid in mailbox.rows]


class Naming(Command):
    """A command that names messages by a set, or all of the view."""

    by_uid, spans, kind = False, None, b""

    def __init__(self, by_uid, spans):
        self.by_uid, self.spans, self.keeps = by_uid, spans, not by_uid
        self.word = b"UID " * by_uid + self.kind

    def refusal(self, view):
        number = None if self.by_uid else view.missing(self.spans)
        return None if number is None else b"BAD NO MESSAGE %d" % number

    def named(self, view):
        return view.named(self.by_uid, self.spans)


class Store(Naming):
    kind, writes = b"STORE", True

    def __init__(self, by_uid, spans, how, flags, words, since):
        super().__init__(by_uid, spans)
        self.how, self.flags, self.names, self.since = how, flags, words, since

    def text(self):
        since = b"" if self.since is None else b"(UNCHANGEDSINCE %d) " % self.since
        flags = b" ".join([*self.flags, *self.names])
        return b"%s %s %s%sFLAGS (%s)" % (self.word, set_text(self.spans), since, self.how, flags)

    def may(self, row):
        return self.since is None or row.modseq <= self.since

    def stored(self, view, mailbox):
        uids = [row.uid for _, row in self.named(view)]
        return [uid for uid in uids if uid in mailbox.rows and self.may(mailbox.rows[uid])]

    def size(self, view, mailbox):
        spans = len(spans_of(self.stored(view, mailbox)))
        if not spans:
            return 0
        flags = 8 + 12 * spans if self.flags or self.how == b"" else 0
        reset = 8 + 8 * spans if self.how == b"" else 0
        return flags + reset + sum(word_size(name, spans) for name in self.names)

    def write(self, view, mailbox):
        uids, given = self.stored(view, mailbox), frozenset(self.flags)
        if self.how == b"":
            mailbox.change(uids, lambda flags, words: (given, words))
            mailbox.change(uids, lambda flags, words: (flags, frozenset()))
        elif self.flags and self.how == b"+":
            mailbox.change(uids, lambda flags, words: (flags | given, words))
        elif self.flags:
            mailbox.change(uids, lambda flags, words: (flags - given, words))
        for name in self.names:
            if self.how == b"-":
                mailbox.change(uids, lambda flags, words, name=name: (flags, words - {name}))
            else:
                mailbox.add_word(uids, name)

    def looks_at(self, view):
        return self.named(view)

    def code(self, view, met):
        kept = [
            row.uid if self.by_uid else number
            for number, row in self.named(view)
            if row.uid in met.rows and not self.may(met.rows[row.uid])
        ]
        return b"", b"[MODIFIED %s] " % b",".join(b"%d" % n for n in kept) if kept else b""


class Fetch(Naming):
    kind = b"FETCH"

    def __init__(self, by_uid, spans, items):
        super().__init__(by_uid, spans)
        self.items = items
        self.reads = any(item not in (b"FLAGS", b"MODSEQ") for item in items)

    def text(self):
        return b"%s %s (%s)" % (self.word, set_text(self.spans), b" ".join(self.items))

    def value(self, mailbox, row, item):
        mail = mailbox.mails[row.uid]
        if item == b"FLAGS":
            return b"FLAGS (%s)" % mailbox.flags_text(row)
        if item == b"MODSEQ":
            return b"MODSEQ (%d)" % row.modseq
        if item == b"RFC822.SIZE":
            return b"RFC822.SIZE %d" % virtual_size(mail)
        if item == b"BODY[]":
            return b"BODY[] {%d}\n%s" % (len(mail), mail)
        field = field_of(mail, item.removeprefix(b"FIELD "))
        return item + (b" NIL" if field is None else b" {%d}\n%s" % (len(field), field))

    def data(self, view, mailbox):
        for number, row in self.named(view):
            if not self.reads or row.uid in mailbox.rows:
                yield fetch_text(number, row.uid, [self.value(mailbox, row, item) for item in self.items])

    def looks_at(self, view):
        return self.named(view) if self.reads else []


class Search(Naming):
    kind = b"SEARCH"

    def __init__(self, by_uid, keys):
        super().__init__(by_uid, [])
        self.keys, self.reads = keys, any(key.reads for key in keys)

    def text(self):
        return b"%s %s" % (self.word, b" ".join(key.text for key in self.keys))

    def refusal(self, view):
        return None

    def data(self, view, mailbox):
        found = []
        for number, row in enumerate(view.rows, 1):
            if self.reads and row.uid not in mailbox.rows:
                continue
            mail = mailbox.mails.get(row.uid)
            if all(key.test(view, row, mail) for key in self.keys):
                found.append(row.uid if self.by_uid else number)
        yield b" ".join([b"* SEARCH", *(b"%d" % n for n in found)])

    def looks_at(self, view):
        return list(enumerate(view.rows, 1)) if self.reads else []


# ---- random scripts

NAMES = (b"todo", b"work", b"later", b"keyword-of-some-length")
ITEMS = (b"FLAGS", b"MODSEQ", b"RFC822.SIZE", b"BODY[]", b"FIELD Subject", b"FIELD x-none")
MESSAGES = (
    b"",
    b"hello",
    b"Subject: one\n\none\n",
    b"subject: two\r\n folded\r\nTo: b\r\n\r\nline\r\nline\n.\n",
    b"X: y\nSubject:   three  \n\n" + b"a line\n" * 40,
)


class Draw:
    """Random commands of sessions over a mailbox of some messages."""

    def __init__(self, seed):
        self.random, self.appended = random.Random(seed), 0

    def some(self, items, most):
        return self.random.sample(items, self.random.randint(0, min(most, len(items))))

    def end(self, by_uid):
        most = max(self.appended, 1) if by_uid else max(self.appended // 2, 2)
        return b"*" if self.random.random() < 0.1 else self.random.randint(1, most)

    def set(self, by_uid):
        return [
            [self.end(by_uid) for _ in range(self.random.randint(1, 2))] for _ in range(self.random.randint(1, 3))
        ]

    def key(self, depth=0):
        kind = self.random.randint(0, 7 if depth < 2 else 5)
        if kind <= 1:
            return flag_key(self.random.choice(SYSTEM), self.random.random() < 0.5)
        if kind == 2:
            return word_key(self.random.choice(NAMES))
        if kind == 3:
            return uid_key(self.set(True))
        if kind == 4:
            return larger_key(self.random.choice((0, 5, 30, 1000)))
        if kind == 5:
            return header_key(b"Subject", self.random.choice((b"o", b"TWO", b"three", b"zzz")))
        if kind == 6:
            return not_key(self.key(depth + 1))
        return or_key(self.key(depth + 1), self.key(depth + 1))

    def append(self):
        self.appended += 1
        return Append(self.some(SYSTEM, 2), self.some(NAMES, 2), self.random.choice(MESSAGES))

    def store(self):
        by_uid = self.random.random() < 0.6
        since = self.random.randint(0, 4 * self.appended + 4) if self.random.random() < 0.2 else None
        how = self.random.choice((b"+", b"-", b""))
        return Store(by_uid, self.set(by_uid), how, self.some(SYSTEM, 3), self.some(NAMES, 2), since)

    def command(self):
        by_uid, kind = self.random.random() < 0.5, self.random.randint(0, 99)
        if kind < 20:
            return self.append()
        if kind < 45:
            return self.store()
        if kind < 60:
            return Fetch(by_uid, self.set(by_uid), self.random.sample(ITEMS, self.random.randint(1, 4)))
        if kind < 72:
            return Search(by_uid, [self.key() for _ in range(self.random.randint(1, 2))])
        if kind < 82:
            return Command()
        if kind < 89:
            return Expunge()
        if kind < 93:
            return Remove(self.set(True))
        return Check() if kind < 95 else Select()

    def script(self, most=400):
        """Lines of sessions by name, in an order that is mixed."""
        sessions = self.random.choice((2, 3, 4, 8, 16, 64))
        names = [b"s%d" % n for n in range(sessions)]
        count = self.random.randint(20, most)
        lines = [(name, Select()) for name in names if self.random.random() < 0.95]
        lines += [(self.random.choice(names), self.command()) for _ in range(count)]
        return lines


# ---- replies


class Answer:
    """A session's command with the text of its replies, and the mark in the last one."""

    def __init__(self, command, text, last):
        found = MARK.match(last)
        self.command, self.text, self.last = command, text, last
        self.mark = found and (int(found[1]), int(found[2]))


def lines_in(output):
    """Each whole line with its literals: the session's name, and what stands behind it."""
    at = 0
    while (end := output.find(b"\n", at)) >= 0:
        begin = at
        while found := LITERAL.search(output[at:end]):
            at = end + 1
            end = output.find(b"\n", at + int(found[1]))
            at += int(found[1])
        name, _, text = output[begin:end].partition(b" ")
        yield name, text
        at = end + 1


def answers_of(lines, output):
    """The answers of each session, by its name."""
    texts = {}
    for name, text in lines_in(output):
        texts.setdefault(name, [[]])[-1].append(text)
        if not text.startswith(b"* "):
            texts[name].append([])
    sessions = {}
    for name, command in lines:
        found = texts.get(name, [[]])
        if len(found) < 2:
            raise Differs(f"{name}: {command.text()[:60]} isn't answered")
        text = found.pop(0)
        sessions.setdefault(name, []).append(Answer(command, text, text[-1]))
    return sessions


class Session:
    """A session while its answers are checked."""

    def __init__(self, name, answers):
        self.name, self.left, self.view, self.selected = name, list(answers), View(), False

    def differs(self, wanted):
        answer = self.left[0]
        raise Differs(f"{self.name}: {answer.command.text()[:80]}: {answer.text[:6]}, wanted {wanted[:6]}")

    def view_before(self):
        return View() if isinstance(self.left[0].command, Select) else self.view

    def skip_refused(self):
        """Commands that the session refuses by itself."""
        while self.left:
            command, wanted = self.left[0].command, None
            if not self.selected and not isinstance(command, Select):
                wanted = b"BAD NOT SELECTED"
            else:
                wanted = command.refusal(self.view_before())
            if (wanted is None) != (self.left[0].mark is not None):
                self.differs([wanted or b"an answer with a mark"])
            if wanted is None:
                return
            if self.left[0].text != [wanted]:
                self.differs([wanted])
            self.left.pop(0)

    def next_mark(self):
        self.skip_refused()
        return self.left[0].mark if self.left else None

    def wanted(self, met, mailbox, mark):
        """What the rules answer to the next command, and the view behind it."""
        command, old = self.left[0].command, self.view_before()
        new = old.moved(mailbox, command.keeps)
        return [*command.data(old, mailbox), *command.told(mailbox, old, new), command.last(old, met, mailbox, mark)], new

    def answer(self, met, mailbox, mark):
        wanted, new = self.wanted(met, mailbox, mark)
        if self.left[0].text != wanted:
            self.differs(wanted)
        self.view, self.selected = new, True
        self.left.pop(0)


def copy_of(mailbox):
    new = Mailbox()
    new.__dict__.update(mailbox.__dict__)
    new.rows, new.words, new.mails = dict(mailbox.rows), list(mailbox.words), dict(mailbox.mails)
    return new


class Log:
    """The one log that all sessions are answered over."""

    def __init__(self, mailbox, mark):
        self.mailbox, self.mark, self.groups = mailbox, mark, 0

    def is_behind(self, size, mark):
        if mark[0] == self.mark[0]:
            return mark[1] == self.mark[1] + size
        return mark == (self.mark[0] + 1, FIRST_PLACE + size)

    def might_write(self, session, mark):
        command = session.left[0].command
        size = command.size(session.view_before(), self.mailbox) if command.writes else 0
        return size and self.is_behind(size, mark)

    def has_written(self, session, mark):
        """Whether the session is answered as one whose group ends here."""
        behind = copy_of(self.mailbox)
        session.left[0].command.write(session.view_before(), behind)
        return session.left[0].text == session.wanted(self.mailbox, behind, mark)[0]

    def writer(self, sessions, mark):
        """The session whose group ends here. Groups of several may be as long, of which one was written."""
        able = [session for session in sessions if self.might_write(session, mark)]
        return next((session for session in able if self.has_written(session, mark)), able[0] if able else None)

    def go_on(self, sessions, mark):
        """All that is answered at this mark, first the command that wrote the group."""
        if writer := self.writer(sessions, mark):
            met = copy_of(self.mailbox)
            writer.left[0].command.write(writer.view_before(), self.mailbox)
            self.mark, self.groups = mark, self.groups + 1
            writer.answer(met, self.mailbox, mark)
        elif mark not in (self.mark, (self.mark[0] + 1, FIRST_PLACE)):
            raise Differs(f"no group ends at {mark} behind {self.mark}")
        self.mark = mark
        for session in sessions:
            while session.next_mark() == mark:
                session.answer(self.mailbox, self.mailbox, mark)

    def check(self, sessions):
        while marks := [mark for session in sessions if (mark := session.next_mark())]:
            mark = min(marks)
            self.go_on([session for session in sessions if session.next_mark() == mark], mark)


def check_output(log, lines, output):
    """The log behind these lines, whose answers are to be by the rules."""
    answers = answers_of(lines, output)
    if log.mailbox.validity is None:
        log.mailbox.validity = int(re.search(rb"\[UIDVALIDITY (\d+)\]", output)[1])
    log.check([Session(name, given) for name, given in answers.items()])
    found = LAST.search(output)
    if not found or tuple(map(int, found.groups())) != (*log.mark, log.groups):
        raise Differs(f"the last line is {last_line(output)!r}, wanted {log.mark} and {log.groups} groups")


def script_text(lines):
    return b"".join(b"%s %s\n" % (name, command.text()) for name, command in lines)


def try_script(log, lines, done):
    """What a run answered to these lines over the folder that this log is of."""
    if done.returncode != 0:
        raise Differs(f"status {done.returncode}, {last_line(done.stdout)}")
    log.groups = 0
    check_output(log, lines, done.stdout)


def try_once(program, seed, folder):
    draw, log = Draw(seed), Log(Mailbox(), (1, 56))
    for _ in range(2):
        lines = draw.script()
        try_script(log, lines, run(program, folder, script_text(lines)))


def main():
    if not 2 <= len(sys.argv) <= 5:
        sys.exit(__doc__)
    program, times, first, place = (*sys.argv[1:], *("", "100", "1", None)[len(sys.argv) - 1 :])
    with tempfile.TemporaryDirectory(dir=place) as made:
        for seed in range(int(first), int(first) + int(times)):
            try:
                try_once(program, seed, Path(made) / str(seed))
            except Differs as why:
                sys.exit(f"seed {seed}: {why}")
    print(f"{times} folders, two scripts each: each answer is the rules' answer")


if __name__ == "__main__":
    main()
