"""Dovecot's own programs by themselves, without a server, for the scripts beside this one.

Debian's dovecot-imapd has them. They run under a user of their own, so a script that uses them runs as root.
"""

import os
import re
import shutil
import subprocess
import sys
import tempfile

IMAP = "/usr/lib/dovecot/imap"
DOVEADM = "/usr/bin/doveadm"
USER = 1234
LITERAL = re.compile(rb"\{(\d+)\}$")


def is_there():
    return os.path.exists(IMAP) and os.geteuid() == 0


class Place:
    """A new directory for a user's mail in sdbox format, and the settings by which the programs find it."""

    def __init__(self, directory, settings=(), location=""):
        self.path = tempfile.mkdtemp(prefix="dovecot.", dir=directory)
        self.conf = os.path.join(self.path, "conf")
        lines = (
            f"base_dir = {self.path}/run",
            f"state_dir = {self.path}/state",
            f"log_path = {self.path}/log",
            f"mail_location = sdbox:{self.path}/mail{location.format(self.path)}",
            "mail_fsync = always",
            "first_valid_uid = 1",
            "first_valid_gid = 1",
            f"mail_uid = {USER}",
            f"mail_gid = {USER}",
            "ssl = no",
            "stats_writer_socket_path =",
            *settings,
        )
        with open(self.conf, "w", encoding="ascii") as text:
            text.write("".join(line + "\n" for line in lines))
        os.makedirs(self.path + "/run")
        subprocess.run(["chown", "-R", f"{USER}:{USER}", self.path], check=True)
        self.as_user = {
            "env": {"HOME": self.path, "USER": "root", "PATH": os.environ["PATH"]},
            "cwd": self.path,
            "user": USER,
            "group": USER,
            "extra_groups": [],
        }

    def doveadm(self, *words):
        """What doveadm does by these words, with nothing to read."""
        command = [DOVEADM, "-c", self.conf, *words]
        subprocess.run(command, stdin=subprocess.DEVNULL, check=True, **self.as_user)

    def inbox(self, mail="mail"):
        """The folder that has the message files."""
        return os.path.join(self.path, mail, "mailboxes/INBOX/dbox-Mails")

    def remove(self):
        shutil.rmtree(self.path)


class Imap:
    """The imap program with a client that waits for each answer."""

    def __init__(self, place, before=()):
        self.process = subprocess.Popen(
            [*before, IMAP, "-c", place.conf],
            stdin=subprocess.PIPE,
            stdout=subprocess.PIPE,
            stderr=subprocess.DEVNULL,
            bufsize=0,
            **place.as_user,
        )
        self.answers = b""
        self.line()

    def more(self):
        read = os.read(self.process.stdout.fileno(), 65536)
        if not read:
            sys.exit("Dovecot's imap ended")
        self.answers += read

    def line(self):
        while b"\r\n" not in self.answers:
            self.more()
        line, self.answers = self.answers.split(b"\r\n", 1)
        return line

    def reply(self):
        """A reply's line without its literals, and these."""
        line, literals = self.line(), []
        while found := LITERAL.search(line):
            size = int(found[1])
            while len(self.answers) < size:
                self.more()
            literals.append(self.answers[:size])
            self.answers = self.answers[size:]
            line += self.line()
        return line, literals

    def ask(self, text):
        """The last line that answers a command, and the replies before it."""
        os.write(self.process.stdin.fileno(), text)
        replies = []
        while True:
            line, literals = self.reply()
            if line.startswith(text[:2]):
                return line, replies
            replies.append((line, literals))

    def command(self, text):
        """The replies to a command that is to be done."""
        last, replies = self.ask(text)
        if b" OK" not in last:
            sys.exit(last.decode())
        return replies

    def end(self):
        os.write(self.process.stdin.fileno(), b"l LOGOUT\r\n")
        self.process.wait()
