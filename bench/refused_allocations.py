#!/usr/bin/env python3
"""Refuses each allocation of a run in turn, one for each run, and looks at what is left.

Usage: bench/refused_allocations.py PROGRAM [DIRECTORY]

PROGRAM is the built binary, crates/sdbox/out/sdbox. Folders are made in DIRECTORY (/dev/shm where none is
given). gcc makes a library that answers the n-th allocation as one that the system refuses; it is loaded
before the C library. The script has commands of every kind, over a mailbox of two messages: by two sessions for `run`, and by one
for `run --threads`, so that the order of its allocations is always the same; for `pop3` it has every line.

A refused run ends with status 4, behind a front of the replies of the run that nothing was refused; the
next run then shows the mailbox behind the lines that were answered, or behind one line more. A run that can do
without what was refused answers everything. Anything else is told and ends this script with status 1.
"""

import os
import shutil
import subprocess
import sys
import tempfile

REFUSING = r"""
#define _GNU_SOURCE
#include <dlfcn.h>
#include <errno.h>
#include <fcntl.h>
#include <stdlib.h>
#include <sys/mman.h>
#include <unistd.h>
static long own, at, *count = &own;
__attribute__((constructor)) static void begin(void) {
    char *n = getenv("REFUSED"), *told = getenv("COUNTED");
    at = n ? atol(n) : 0;
    int file = told ? open(told, O_RDWR) : -1;
    void *page = file < 0 ? MAP_FAILED : mmap(0, sizeof *count, PROT_READ | PROT_WRITE, MAP_SHARED, file, 0);
    if (page != MAP_FAILED) count = page;
    *count = 0;
}
static int refused(void) { if (__atomic_add_fetch(count, 1, __ATOMIC_SEQ_CST) != at) return 0; errno = ENOMEM; return 1; }
#define REAL(name, type) static __typeof__(type) *real; if (!real) real = (__typeof__(real))dlsym(RTLD_NEXT, name)
void *malloc(size_t n) { REAL("malloc", void *(size_t)); return refused() ? 0 : real(n); }
void *realloc(void *p, size_t n) { REAL("realloc", void *(void *, size_t)); return refused() ? 0 : real(p, n); }
void *aligned_alloc(size_t a, size_t n) { REAL("aligned_alloc", void *(size_t, size_t)); return refused() ? 0 : real(a, n); }
int posix_memalign(void **p, size_t a, size_t n) { REAL("posix_memalign", int(void **, size_t, size_t)); return refused() ? ENOMEM : real(p, a, n); }
"""

FIRST = [b"a SELECT\n", b"a APPEND (\\Seen) {19}\nSubject: one\n\none\n\n\n", b"a APPEND (k1) {5}\nhello\n"]
LINES = [
    b"a SELECT\n",
    b"b SELECT\n",
    b"a FETCH 1:* (FLAGS BODY[] RFC822.SIZE MODSEQ FIELD subject)\n",
    b"a STORE 1:2 +FLAGS (\\Flagged k2)\n",
    b"b SEARCH OR KEYWORD k2 HEADER subject \"one\"\n",
    b"b APPEND (k3 \\Draft) {6}\nhello!\n",
    b"a UID STORE 3 FLAGS (\\Deleted)\n",
    b"a CHECK\n",
    b"b UID FETCH 1:3 (RFC822.SIZE FIELD subject)\n",
    b"a EXPUNGE\n",
    b"b UID REMOVE 2\n",
    b"b NOOP\n",
]


ALONE = [b"a" + line[1:] for line in LINES if line != b"b SELECT\n"]
POP3 = [b"STAT\n", b"LIST\n", b"UIDL\n", b"RETR 1\n", b"DELE 1\n", b"RSET\n", b"DELE 2\n", b"LIST 1\n", b"TOP 1 0\n", b"QUIT\n"]
FORMS = ((("run",), LINES), (("run", "--threads"), ALONE), (("pop3",), POP3))


class Bench:
    def __init__(self, program, place, words, lines):
        self.program, self.place, self.words, self.lines = program, place, words, lines
        os.mkdir(place)
        source, self.library = os.path.join(place, "refusing.c"), os.path.join(place, "refusing.so")
        with open(source, "w", encoding="ascii") as text:
            text.write(REFUSING)
        subprocess.run(["gcc", "-shared", "-fPIC", "-O1", "-o", self.library, source, "-ldl"], check=True)
        self.start, self.box = os.path.join(place, "start"), os.path.join(place, "box")
        self.run(self.start, FIRST)

    def run(self, folder, lines, refused=None, words=("run",)):
        """The output and status of a run, of which the allocation of this number is refused."""
        env = {**os.environ, "LD_PRELOAD": self.library, "REFUSED": str(refused)} if refused else dict(os.environ)
        done = subprocess.run([self.program, folder, *words], input=b"".join(lines), capture_output=True, env=env, check=False)
        return done.stdout, done.returncode

    def fresh(self):
        shutil.rmtree(self.box, ignore_errors=True)
        shutil.copytree(self.start, self.box)
        return self.box

    def state(self):
        """What a further run shows of the mailbox, but for its last line."""
        output, status = self.run(self.box, [b"z SELECT\n", b"z FETCH 1:* (FLAGS BODY[] RFC822.SIZE FIELD subject)\n"])
        return (output.rsplit(b"\nEND", 1)[0], status)

    def behind(self, count):
        """The same behind so many lines, of which nothing was refused."""
        self.run(self.fresh(), self.lines[:count], words=self.words[:1])
        return self.state()

    def answered(self, front):
        """How many lines have an answer in what was printed, but for the greeting of `pop3`."""
        lines = front.split(b"\n")
        if self.words == ("pop3",):
            return max(sum(line.startswith((b"+OK", b"-ERR")) for line in lines) - 1, 0)
        return sum(line[2:4] in (b"OK", b"NO") or line[2:5] == b"BAD" for line in lines)

    def allocations(self):
        """How many allocations a run makes that nothing is refused."""
        told = os.path.join(self.place, "told")
        with open(told, "wb") as text:
            text.write(bytes(8))
        env = {**os.environ, "LD_PRELOAD": self.library, "REFUSED": "0", "COUNTED": told}
        whole = [self.program, self.fresh(), *self.words]
        subprocess.run(whole, input=b"".join(self.lines), stdout=subprocess.DEVNULL, env=env, check=True)
        with open(told, "rb") as text:
            return int.from_bytes(text.read(8), "little")


def refuse_each(bench):
    """Refuses each allocation in turn, and says how many there were and without how many the run did."""
    states = [bench.behind(count) for count in range(len(bench.lines) + 1)]
    whole, status = bench.run(bench.fresh(), bench.lines, words=bench.words)
    if status != 0:
        sys.exit(f"status {status} where nothing is refused")
    number, without = bench.allocations(), 0
    for n in range(1, number + 1):
        output, status = bench.run(bench.fresh(), bench.lines, n, bench.words)
        if status == 0 and output == whole:
            without += 1
            continue
        front = output.removesuffix(b"FAULT 4 MEMORY\n")
        if status != 4 or front == output or not whole.startswith(front):
            sys.exit(f"allocation {n}: status {status}, output {output!r}")
        answered = bench.answered(front)
        if bench.state() not in states[answered : answered + 2]:
            sys.exit(f"allocation {n}: behind {answered} lines the mailbox is neither as before nor with one line more")
    return number, without


def main():
    if len(sys.argv) not in (2, 3):
        sys.exit(__doc__.split("\n\n")[1])
    with tempfile.TemporaryDirectory(prefix="refused.", dir=sys.argv[2] if len(sys.argv) == 3 else "/dev/shm") as place:
        for words, lines in FORMS:
            bench = Bench(os.path.abspath(sys.argv[1]), os.path.join(place, "".join(words)), words, lines)
            number, without = refuse_each(bench)
            print(f"{' '.join(words)}: {number} allocations, each refused in a run of its own: {number - without} runs ended with status 4, {without} did without")


if __name__ == "__main__":
    main()
