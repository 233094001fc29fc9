#!/usr/bin/env python3
"""Times the sessions of one keeper in threads, by their own work: reading a script and writing replies are left out.

Usage: bench/thread_times.py PROGRAM [COUNT [TURNS [DIRECTORY]]]

PROGRAM is the built binary, crates/dv_thread_times/out/dv_thread_times. Its sessions have selected a mailbox of 10,000
messages before the time begins, and drop their replies. Each number is the median of TURNS turns (nine), and each bound
is told beside it:

- COUNT FETCHes of one message's flags (2,000,000), parted among 1, 2, 4 and 8 sessions, without a writer: how much
  faster than by one, beside as many threads of plain arithmetic that share one piece of work in the same turn. For four
  sessions this is to be at least 0.75 of what it is for the arithmetic; for eight it is told.
- A NOOP without news, in which a session looks for news, is told of none and gets its last line, takes less than 1 us.
- FETCHes by 1 and 3 sessions beside one that writes 10,000 groups a second: at least 0.8 times as many as without it.
- STOREs of one flag, each writer's of a message of its own, parted among 1, 2 and 4 sessions: on the disk of DIRECTORY
  (the system's place for temporary files) at most 1.1 times the time of one writer's; in memory it is told.
- From an APPEND to when a session that does nothing but look was told of its message, at 1,000 APPENDs a second. The
  message is published between the beginning of the APPEND's call and its end, and the time since both is told.
- The largest memory of the program, by sessions, by rows of the mailbox and by rows in one command's replies, is told, of
  one run each. It needs GNU time (Debian's package `time`), since a child of this script begins with the script's own size.
"""

import bisect
import re
import shutil
import statistics
import subprocess
import sys
import tempfile
from pathlib import Path

from threads import SESSIONS, WORK, timed

TIME = "/usr/bin/time"
ROWS, LINES = 10_000, 100
FETCH, FETCH_ALL, NOOP, APPEND = b"FETCH 500 (FLAGS)", b"FETCH 1:* (FLAGS)", b"NOOP", b"APPEND () {0}\n"
HOUR = 3_600_000
READERS, WRITERS, MAILBOXES = (1, 3), (1, 2, 4), (1_000, ROWS, 100_000)
ROUND = re.compile(rb"session (\d+) from (\d+) to (\d+) ns")


class Run:
    """What the program says: the moments in nanoseconds at which each session's rounds began and ended, and how many
    groups were written."""

    def __init__(self, sessions, said, rounds):
        self.rounds = [[] for _ in range(sessions)]
        for line in rounds.splitlines():
            number, began, ended = ROUND.fullmatch(line).groups()
            self.rounds[int(number) - 1].append((int(began), int(ended)))
        self.groups = int(said.split()[0])

    def seconds(self, sessions):
        """From when the first of them began to when the last of them ended."""
        return (max(self.rounds[n][-1][1] for n in sessions) - min(self.rounds[n][0][0] for n in sessions)) / 1e9


def run(program, folder, sessions, *words, before=()):
    """The program over a folder, with these lines of each session."""
    with tempfile.TemporaryFile() as script, tempfile.TemporaryFile() as out, tempfile.TemporaryFile() as err:
        script.writelines(b"s%d %s\n" % (n, line) for n, lines in enumerate(sessions) for line in lines)
        script.seek(0)
        done = subprocess.run([*before, program, folder, *map(str, words)], stdin=script, stdout=out, stderr=err, check=False)
        out.seek(0)
        err.seek(0)
        said = out.read()
        if done.returncode:
            sys.exit(f"{words}: status {done.returncode}: {said!r}")
        return Run(len(sessions), said, err.read())


def peak(program, folder, sessions):
    """The most memory that the program had, in MB."""
    with tempfile.NamedTemporaryFile() as told:
        run(program, folder, sessions, "answer", 10, HOUR, 0, before=[TIME, "-f", "%M", "-o", told.name])
        return int(told.read()) / 1024


def answered(program, folder, sessions, count):
    """The run in which sessions answer about so many lines together, and the seconds that each line took."""
    lines = sum(map(len, sessions))
    rounds = max(1, count // lines)
    found = run(program, folder, sessions, "answer", rounds, HOUR, 0)
    if any(len(kept) != rounds for kept in found.rounds):
        sys.exit(f"a session answered other than {rounds} rounds")
    return found, found.seconds(range(len(sessions))) / (rounds * lines)


def stores(writer):
    return [b"UID STORE %d +FLAGS (\\Seen)" % writer, b"UID STORE %d -FLAGS (\\Seen)" % writer]


def rate(program, folder, readers, milliseconds, groups):
    """How many FETCHes a second so many sessions answer beside one that is to write so many groups a second, if any, and
    how many it wrote."""
    writers = [stores(1)] if groups else []
    sessions = writers + [[FETCH] * LINES] * readers
    found = run(program, folder, sessions, "answer", 2**63, milliseconds, groups // 2)
    fetches = sum(len(found.rounds[n]) * LINES / found.seconds([n]) for n in range(len(writers), len(sessions)))
    return fetches, found.groups / found.seconds([0])


def writing(program, folder, writers, count):
    """The seconds that a STORE takes, of about so many."""
    found, seconds = answered(program, folder, [stores(n + 1) for n in range(writers)], count)
    stored = 2 * sum(map(len, found.rounds))
    if found.groups != stored:
        sys.exit(f"{stored} STOREs wrote {found.groups} groups")
    return seconds


def seen(program, box, milliseconds):
    """The nanoseconds from the beginning and from the end of an APPEND's call to when its message was told, by the median.
    Where several messages came in one round, those of the last one count."""
    with tempfile.TemporaryDirectory(dir="/dev/shm") as place:
        folder = shutil.copytree(box, Path(place) / "box")
        found = run(program, folder, [[APPEND], [NOOP]], "watch", 2**63, milliseconds, 1000)
    appends, told = found.rounds[0], [ended for _, ended in found.rounds[1]]
    if 2 * len(told) < len(appends):
        sys.exit(f"of {len(appends)} messages {len(told)} were told")
    began = [moment for moment, _ in appends]
    last = [(appends[at - 1], moment) for moment in told if (at := bisect.bisect_left(began, moment))]
    return [statistics.median(moment - append[end] for append, moment in last) for end in (0, 1)]


def made(program, place, rows=ROWS):
    """A folder with a mailbox."""
    folder = Path(place) / f"box{rows}"
    folder.mkdir()
    found = run(program, folder, [[APPEND] * rows], "answer", 1, HOUR, 0)
    if found.groups != rows:
        sys.exit(f"{found.groups} messages were made")
    return folder


class Found:
    """The numbers of each measurement, by turn."""

    def __init__(self):
        self.numbers = {}

    def add(self, *key_and_number):
        *key, number = key_and_number
        self.numbers.setdefault(tuple(key), []).append(number)

    def median(self, *key):
        return statistics.median(self.numbers[key])

    def ratio(self, name, n, other):
        """The median for n sessions, as a part of that for another number of them."""
        return self.median(name, n) / self.median(name, other)


def turn(found, program, work, box, disk, count):
    for n in SESSIONS:
        found.add("plain", n, timed([work, str(n)])[0])
        found.add("read", n, answered(program, box, [[FETCH] * LINES] * n, count)[1])
    found.add("noop", answered(program, box, [[NOOP] * LINES], count)[1])
    milliseconds = max(1, count // 2000)
    for n in READERS:
        alone, _ = rate(program, box, n, milliseconds, 0)
        beside, groups = rate(program, box, n, milliseconds, 10_000)
        found.add("alone", n, alone)
        found.add("beside", n, beside / alone)
        found.add("groups", n, groups)
    for n in WRITERS:
        found.add("memory", n, writing(program, box, n, count // 100))
        found.add("disk", n, writing(program, disk, n, count // 1000))
    for name, nanoseconds in zip(("since", "behind"), seen(program, box, milliseconds)):
        found.add(name, nanoseconds)


def tell(found):
    print(f"{'readers':>8} {'ns a FETCH':>11} {'faster':>7} {'arithmetic':>11} {'ratio':>6}")
    for n in SESSIONS:
        faster, there = found.ratio("read", 1, n), found.ratio("plain", 1, n)
        bound = "  (bound: 0.75 or more)" if n == 4 else ""
        print(f"{n:>8} {found.median('read', n) * 1e9:>11.0f} {faster:>7.2f} {there:>11.2f} {faster / there:>6.2f}{bound}")
    print(f"a NOOP without news: {found.median('noop') * 1e9:.0f} ns  (bound: less than 1000)")
    for n in READERS:
        print(f"{n} readers: {found.median('alone', n):.0f} FETCHes a second; beside a writer of "
              f"{found.median('groups', n):.0f} groups a second {found.median('beside', n):.2f} times as many  "
              "(bound: 0.8 or more)")
    print(f"{'writers':>8} {'us in memory':>13} {'beside one':>11} {'us on the disk':>15} {'beside one':>11}")
    for n in WRITERS:
        told = " ".join(f"{found.median(on, n) * 1e6:>{wide}.1f} {found.ratio(on, n, 1):>11.2f}"
                        for on, wide in (("memory", 13), ("disk", 15)))
        print(f"{n:>8} {told}{'  (bound: 1.1 or less on the disk)' if n > 1 else ''}")
    print(f"an APPEND's message is told {found.median('since') / 1e3:.1f} us since the beginning of its call, "
          f"{found.median('behind') / 1e3:.1f} us since the end")


def tell_memory(program, place):
    print(f"{'rows':>8} {'replies':>8} {'MB, by sessions:':>17} " + " ".join(f"{n:>6}" for n in SESSIONS))
    for rows in MAILBOXES:
        box = made(program, place, rows)
        for line, replies in ((FETCH, 1), (FETCH_ALL, rows)):
            peaks = (peak(program, box, [[line]] * n) for n in SESSIONS)
            print(f"{rows:>8} {replies:>8} {'':>17} " + " ".join(f"{peak:>6.1f}" for peak in peaks))
        shutil.rmtree(box)


def main():
    if not 2 <= len(sys.argv) <= 5:
        sys.exit(__doc__)
    program = Path(sys.argv[1]).resolve()
    count = int(sys.argv[2]) if len(sys.argv) > 2 else 2_000_000
    turns = int(sys.argv[3]) if len(sys.argv) > 3 else 9
    directory = sys.argv[4] if len(sys.argv) > 4 else None
    found = Found()
    with tempfile.TemporaryDirectory(dir="/dev/shm") as place, tempfile.TemporaryDirectory(dir=directory) as other:
        work = Path(place) / "work"
        work.with_suffix(".c").write_text(WORK)
        subprocess.run(["gcc", "-O1", "-pthread", "-o", work, work.with_suffix(".c")], check=True)
        box = made(program, place)
        disk = shutil.copytree(box, Path(other) / "box")
        for _ in range(turns):
            turn(found, program, work, box, disk, count)
        tell(found)
        shutil.rmtree(box)
        tell_memory(program, place)


if __name__ == "__main__":
    main()
