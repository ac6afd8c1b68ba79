#!/usr/bin/env python3
"""Tries the inspector's tallies: what is added and shown, bad files, and what several
inspectors leave that add at the same time, wait for each other, or are killed.

    tests/inspect/tallies.py PROGRAM FOLDER

PROGRAM is the inspector; FOLDER is made, and emptied. Last line: tallies: N checks, 0 failed."""

import fcntl
import json
import math
import os
import random
import re
import resource
import shutil
import signal
import stat
import struct
import subprocess
import sys
import time
from collections import Counter
from fractions import Fraction
from pathlib import Path
from typing import NamedTuple

ROOT = Path(__file__).resolve().parents[2]
BYTES = int(re.search(r"#define TRACKSADDLE_TALLY (\d+)", (ROOT / "c/tracksaddle.h").read_text()).group(1))
COUNTS = BYTES // 4
FULL = 2**32 - 1

# What --show-tally says of each number.
WORDS = (
    "accepted",
    "the guide book is malformed",
    "the conditions do not fit the guide book",
    "empty or too long",
    "not well-formed",
    "too many segments",
    "the tables are too short",
    "not one message from UNH to UNT",
    "UNT counts the segments wrongly",
    "UNT and UNH have different references",
    "a segment that the guide does not have",
    "a segment out of place",
    "a field is at fault",
    "the Prüfidentifikator is not in the guide",
    "a rule of the Prüfidentifikator is broken",
    "a condition that is not known decides",
)

# Messages under book K, by the number that they get.
MESSAGES = {
    0: "examples/k-accepted.edi",
    3: "examples/k-empty.edi",
    4: "examples/k-stops-early.edi",
    12: "examples/k-comma.edi",
    15: "examples/k-open.edi",
}
GOOD = MESSAGES[0]
NO_TALLY = f"this is no tally: a tally is an ordinary file of {BYTES} bytes"

# Seconds. No call here takes as long, unless it waits for something that never comes.
LONG = 60


class Checks:
    def __init__(self):
        self.made = 0
        self.failed = 0

    def check(self, name, holds, found=""):
        self.made += 1
        if not holds:
            self.failed += 1
            print(f"FAILED: {name}\n    {found}")

    def same(self, name, expected, found):
        self.check(name, expected == found, f"expected {expected!r}, found {found!r}")


class Done(NamedTuple):
    """What a call left: its exit and what it said."""

    status: int
    said: str
    complained: str


class Inspector:
    """The program under test."""

    def __init__(self, program):
        self.program = os.path.abspath(program)

    def start(self, *words, **more):
        """A call that runs on its own."""
        usual = {"stdout": subprocess.PIPE, "stderr": subprocess.PIPE, "cwd": ROOT}
        return subprocess.Popen([self.program, *words], **{**usual, **more})

    def start_k(self, *words, **more):
        """The same for messages under book K."""
        return self.start("--book", ROOT / "books/k.bin", *words, **more)

    def call(self, *words, **more):
        return finish(self.start(*words, **more))

    def call_k(self, *words, **more):
        return finish(self.start_k(*words, **more))


def finish(process):
    try:
        said, complained = process.communicate(timeout=LONG)
    except subprocess.TimeoutExpired:
        process.kill()
        said, complained = process.communicate()
    text = ["" if stream is None else stream.decode("utf-8") for stream in (said, complained)]
    return Done(process.returncode, *text)


def tally_of(counts):
    """The bytes of a tally with these counts by number; the others are 0."""
    return struct.pack(f"<{COUNTS}I", *(counts.get(number, 0) for number in range(COUNTS)))


def counts_of(file):
    """The counts above 0 by number; None if there is no tally."""
    if not file.is_file() or file.stat().st_size != BYTES:
        return None
    counts = struct.unpack(f"<{COUNTS}I", file.read_bytes())
    return {number: count for number, count in enumerate(counts) if count > 0}


def numbers_in(lines):
    """How often each number stands in lines of JSON; one that is cut off is none."""
    whole = lines[:lines.rfind("\n") + 1].splitlines()
    numbers = (json.loads(line)["number"] for line in whole)
    return dict(Counter(number for number in numbers if number is not None))


def fresh(folder, name):
    """An empty folder of this name."""
    place = folder / name
    shutil.rmtree(place, ignore_errors=True)
    place.mkdir(parents=True)
    return place


def names_in(folder):
    return sorted(os.listdir(folder))


# ---- adding


def check_adding(checks, inspector, folder):
    day = fresh(folder, "adding") / "day"
    messages = sorted(str(file.relative_to(ROOT)) for file in ROOT.glob("examples/k-*.edi"))
    done = inspector.call_k("--json", "--tally", day, *messages, folder / "none.edi")
    counts = numbers_in(done.said)
    checks.same("a file that cannot be read: the exit status", 2, done.status)
    checks.same("every message that is judged is counted", len(messages), sum(counts.values()))
    checks.check("there are messages of many numbers", len(counts) > 8, counts)
    checks.same("the tally has what the lines of JSON say", counts, counts_of(day))
    done = inspector.call_k(f"--tally={day}", *messages)
    twice = {number: 2 * count for number, count in counts.items()}
    checks.same("a second run adds to it", twice, counts_of(day))
    totals = re.findall(r"^ *(\d+) +\((\d+)\)  ", done.said, re.MULTILINE)
    checks.same("the totals say the same of their run", counts, {int(number): int(count) for count, number in totals})
    checks.same("some refused: the exit status", 1, done.status)
    checks.same("nothing is left beside it", ["day"], names_in(day.parent))


def check_ways(checks, inspector, folder):
    place = fresh(folder, "ways")
    for number, status in ((0, 0), (3, 1), (15, 3)):
        day = place / f"of-{number}"
        done = inspector.call_k("--quiet", "--tally", day, MESSAGES[number])
        checks.same(f"--quiet, number {number}", (status, "", ""), tuple(done))
        checks.same(f"--quiet, number {number}: added", {number: 1}, counts_of(day))
    with open(ROOT / GOOD, "rb") as message:
        inspector.call_k("--tally", place / "standard", "-", stdin=message)
    checks.same("standard input", {0: 1}, counts_of(place / "standard"))
    inspector.call("--tally", place / "first", "--tree", "examples/19102-accepted.edi", "--condition", "1=true")
    checks.same("the book inside, and other options", {0: 1}, counts_of(place / "first"))
    inspector.call_k("--tally", "here", ROOT / GOOD, cwd=place)
    checks.same("a name without a folder", {0: 1}, counts_of(place / "here"))
    inspector.call_k("--tally", "./-", ROOT / GOOD, cwd=place)
    checks.same("a tally named -", {0: 1}, counts_of(place / "-"))
    with open("/dev/full", "wb") as full:
        done = inspector.call_k("--tally", place / "unseen", GOOD, stdout=full)
    checks.same("an answer that cannot be written: the exit status", 2, done.status)
    checks.same("what is not shown has been added before", {0: 1}, counts_of(place / "unseen"))


def check_making(checks, inspector, folder):
    place = fresh(folder, "making")
    day, link, twin = place / "day", place / "link", place / "twin"
    inspector.call_k("--tally", day, place / "none.edi", preexec_fn=lambda: os.umask(0o027))
    checks.same("made, all zero, also if nothing is judged", bytes(BYTES), day.read_bytes())
    checks.same("with the mode of a new file", 0o640, stat.S_IMODE(day.stat().st_mode))
    day.chmod(0o604)
    os.link(day, twin)
    link.symlink_to("day")
    before = day.stat()
    done = inspector.call_k("--tally", link, GOOD)
    checks.same("a link to a tally", 0, done.status)
    checks.check("stays a link", link.is_symlink() and os.readlink(link) == "day")
    checks.same("and adds to what it leads to", {0: 1}, counts_of(day))
    checks.same("the file stays the same one", (before.st_ino, before.st_mode, 2),
                (day.stat().st_ino, day.stat().st_mode, day.stat().st_nlink))
    checks.same("by its other name too", {0: 1}, counts_of(twin))
    checks.same("nothing else lies there", ["day", "link", "twin"], names_in(place))
    for wrong in (("--book", ROOT / "books/k.txt"), ("--condition", "2=true")):
        done = inspector.call(*wrong, "--tally", place / "early", GOOD)
        checks.check(f"{wrong[0]} {wrong[1]}: no tally is made", done.status == 2 and not (place / "early").exists(), done)


# ---- showing


def rounded(share):
    """To a whole number, and halves up."""
    return math.floor(share + Fraction(1, 2))


def table_of(name, counts):
    """What a person is shown, worked out another way."""
    total, largest = sum(counts), max(counts)
    lines = [f"{name}: {total:,} {'verdict' if total == 1 else 'verdicts'}"]
    width, longest = len(f"{total:,}"), max(map(len, WORDS))
    for number, (words, count) in enumerate(zip(WORDS, counts)):
        line = f"  {f'({number})':>4}  {words:{longest}}  {count:{width},}"
        if total == 0:
            line += "     -"
        else:
            tenths = rounded(Fraction(1000 * count, total))
            line += f"  {tenths // 10:4}.{tenths % 10} %"
        if count > 0:
            eighths = max(1, rounded(Fraction(24 * 8 * count, largest)))
            line += "  " + eighths // 8 * "█" + " ▏▎▍▌▋▊▉"[eighths % 8].strip()
        lines.append(line + ("  full: no more are counted" if count == FULL else ""))
    lines.append(f"        {'sum':{longest}}  {total:,}")
    return "".join(line + "\n" for line in lines)


def json_of(name, counts):
    """The line of JSON, worked out another way."""
    total = sum(counts)
    facts = []
    for number, (words, count) in enumerate(zip(WORDS, counts)):
        parts = rounded(Fraction(10000 * count, total)) if total > 0 else 0
        share = f"{parts // 10000}.{parts % 10000:04}" if total > 0 else "null"
        facts.append(f'{{"number":{number},"verdict":"{words}","count":{count},"share":{share},'
                     f'"full":{"true" if count == FULL else "false"}}}')
    return f'{{"file":"{name}","sum":{total},"counts":[{",".join(facts)}],"error":null}}\n'


def tallies_to_show():
    yield "all zero", {}
    yield "one verdict", {4: 1}
    yield "halves of a tenth of a per cent", {0: 1999, 1: 1, 5: 0}
    yield "a little less than half", {0: 2000, 1: 1}
    yield "halves of the last place in JSON", {0: 19999, 1: 1}
    yield "a share that is rounded up to all", {0: 9999, 15: 1}
    yield "halves of the thinnest block", {0: 384, 1: 1, 2: 3, 3: 5}
    yield "every width of a block", {number: 8 + number for number in range(COUNTS)}
    yield "where 8, 16 and 24 bits end", dict(enumerate((255, 256, 65535, 65536, 16777215, 16777216)))
    yield "commas", dict(enumerate((999, 1000, 999999, 1000000, 999999999, 1000000000)))
    yield "one is full", {0: 5, 4: FULL}
    yield "one is almost full", {0: 5, 4: FULL - 1}
    yield "all are full", {number: FULL for number in range(COUNTS)}
    yield "all are full but one", {number: FULL for number in range(COUNTS - 1)}
    chance = random.Random(6)
    for i in range(8):
        yield f"by chance, {i}", {number: chance.randrange(2 ** chance.randrange(1, 33)) for number in range(COUNTS)}


def check_showing(checks, inspector, folder):
    day = fresh(folder, "showing") / "day"
    for what, given in tallies_to_show():
        counts = [given.get(number, 0) for number in range(COUNTS)]
        day.write_bytes(tally_of(given))
        done = inspector.call("--show-tally", day)
        checks.same(f"shown: {what}", (0, table_of(day, counts), ""), tuple(done))
        done = inspector.call("--json", "--show-tally", day)
        checks.same(f"as JSON: {what}", (0, json_of(day, counts), ""), tuple(done))
        json.loads(done.said)
    checks.same("--quiet shows nothing", (0, "", ""), tuple(inspector.call("--quiet", f"--show-tally={day}")))
    checks.same("showing changes nothing", tally_of(given), day.read_bytes())
    odd = day.rename(day.parent / 'o"d\\d\033')
    checks.check("a name with control characters", "\033" not in inspector.call("--show-tally", odd).said)
    shown = json.loads(inspector.call("--json", "--show-tally", odd).said)["file"]
    checks.same("the same in JSON", str(odd).replace("\033", "␛"), shown)
    with open("/dev/full", "wb") as full:
        done = inspector.call("--show-tally", odd, stdout=full)
    checks.check("a table that cannot be written", done.status == 2 and "cannot write the answer" in done.complained, done)


# ---- files that are no tally


def make_bad_files(place):
    """Names, and what is said where verdicts are to be added and where it is to be shown."""
    for name, size in (("empty", 0), ("short", BYTES - 1), ("long", BYTES + 1), ("huge", 1 << 20)):
        (place / name).write_bytes(bytes(size))
        yield name, NO_TALLY, NO_TALLY
    (place / "folder").mkdir()
    yield "folder", "Is a directory", NO_TALLY
    os.mkfifo(place / "pipe")
    yield "pipe", NO_TALLY, NO_TALLY
    (place / "nowhere").symlink_to("none")
    yield "nowhere", "a link must lead to a file", "No such file or directory"
    (place / "circle").symlink_to("circle")
    yield "circle", "Too many levels of symbolic links", "Too many levels of symbolic links"
    yield "none/day", "No such file or directory", "No such file or directory"
    yield "short/day", "Not a directory", "Not a directory"
    yield "n" * 300, "File name too long", "File name too long"
    if os.getuid() != 0:
        (place / "locked").write_bytes(bytes(BYTES))
        (place / "locked").chmod(0)
        yield "locked", "Permission denied", "Permission denied"


def facts_of(place):
    """Everything that lies there, with its bytes and when it was changed."""
    found = {}
    for file in sorted(place.iterdir()):
        facts = file.lstat()
        readable = stat.S_ISREG(facts.st_mode) and os.access(file, os.R_OK)
        found[file.name] = (facts.st_mode, facts.st_size, facts.st_mtime_ns, file.read_bytes() if readable else None)
    return found


def check_bad_files(checks, inspector, folder):
    place = fresh(folder, "bad")
    bad = [(place / name, *said) for name, *said in make_bad_files(place)]
    bad += [("", "No such file or directory", "No such file or directory"), ("/dev/null", NO_TALLY, NO_TALLY)]
    before = facts_of(place)
    for file, refused, unread in bad:
        shown = str(file)[:60]
        for way in ((), ("--json",)):
            done = inspector.call_k(*way, "--tally", file, GOOD, MESSAGES[12])
            checks.same(f"--tally {shown} {way}: nothing is judged", (2, ""), done[:2])
            checks.check(f"--tally {shown} {way}: said", done.complained.startswith(f"inspect: {file}: ") and
                         refused in done.complained and done.complained.count("\n") == 1, done.complained)
        done = inspector.call("--show-tally", file)
        checks.same(f"--show-tally {shown}", (2, "", f"inspect: {file}: {unread}\n"), tuple(done))
        done = inspector.call("--json", "--show-tally", file)
        expected = f'{{"file":"{file}","sum":null,"counts":null,"error":"{unread}"}}\n'
        checks.same(f"--json --show-tally {shown}", (2, expected, f"inspect: {file}: {unread}\n"), tuple(done))
    done = inspector.call("--quiet", "--json", "--show-tally", place / "empty")
    checks.same("--quiet --show-tally: only a complaint", (2, ""), done[:2])
    missing = place / "missing"
    checks.same("--show-tally of none", (2, "", f"inspect: {missing}: No such file or directory\n"),
                tuple(inspector.call("--show-tally", missing)))
    checks.same("bad files are left as they were, and none is made", before, facts_of(place))


# ---- counts that are full


def check_full(checks, inspector, folder):
    day = fresh(folder, "full") / "day"
    given = {0: FULL, 12: 7, 15: FULL - 1}
    day.write_bytes(tally_of(given))
    os.utime(day, (1, 1))
    why = f"inspect: {day}: the verdict on {GOOD} is not added: the count of number 0 is full at 4,294,967,295\n"
    done = inspector.call_k("--tally", day, GOOD)
    checks.same("a full count: the exit status, and why", (2, why), (done.status, done.complained))
    checks.check("the verdict is shown all the same", done.said.startswith(f"{GOOD}: accepted (0): "), done.said)
    checks.same("the file is as it was", (tally_of(given), 1), (day.read_bytes(), day.stat().st_mtime))
    done = inspector.call_k("--json", "--tally", day, GOOD, MESSAGES[12], GOOD, MESSAGES[15])
    checks.same("a line for each file that is not added", why * 2, done.complained)
    checks.same("a full count among others: the exit status", 2, done.status)
    checks.same("all are judged", {0: 2, 12: 1, 15: 1}, numbers_in(done.said))
    checks.same("the others are added", {0: FULL, 12: 8, 15: FULL}, counts_of(day))
    done = inspector.call_k("--tally", day, MESSAGES[15], MESSAGES[12])
    checks.check("what became full stays so", "the count of number 15 is full" in done.complained, done.complained)
    checks.same("and the file with it", {0: FULL, 12: 9, 15: FULL}, counts_of(day))
    checks.check("the totals count both", "\n        1  (15)  " in done.said and
                 "\n        1        not added to the tally\n" in done.said, done.said)
    done = inspector.call_k("--quiet", "--tally", day, MESSAGES[15])
    checks.check("--quiet complains too", done.status == 2 and done.said == "" and "is full" in done.complained, done)


# ---- tallies that change during a run


class Stopped:
    """An inspector that has judged a first message, and waits for its second at a pipe."""

    def __init__(self, inspector, place, day):
        self.pipe = place / "pipe.edi"
        os.mkfifo(self.pipe)
        self.process = inspector.start_k("--tally", day, GOOD, self.pipe, GOOD)
        self.message = self.open_when_read()

    def open_when_read(self):
        while self.process.poll() is None:
            try:
                return os.open(self.pipe, os.O_WRONLY | os.O_NONBLOCK)
            except OSError:
                time.sleep(0.001)
        raise SystemExit(f"the inspector has ended before it came to {self.pipe}")

    def go_on(self):
        os.write(self.message, (ROOT / GOOD).read_bytes())
        os.close(self.message)

    def finish(self):
        return finish(self.process)


def check_changes(checks, inspector, folder):
    place = fresh(folder, "moved")
    day, old = place / "day", place / "old"
    stopped = Stopped(inspector, place, day)
    day.rename(old)
    stopped.go_on()
    done = stopped.finish()
    checks.same("moved away between files", (0, ""), (done.status, done.complained))
    checks.same("the old one has what came before", {0: 1}, counts_of(old))
    checks.same("a new one has the rest", {0: 2}, counts_of(day))
    checks.same("and the same mode", old.stat().st_mode, day.exists() and day.stat().st_mode)

    place = fresh(folder, "spoilt")
    day = place / "day"
    stopped = Stopped(inspector, place, day)
    day.write_bytes(b"no tally")
    stopped.go_on()
    done = stopped.finish()
    expected = "".join(f"inspect: {day}: the verdict on {file} is not added: {NO_TALLY}\n" for file in (stopped.pipe, GOOD))
    checks.same("no tally any more: said of each file", (2, expected), (done.status, done.complained))
    checks.same("all verdicts are shown", 3, done.said.count(": accepted (0): "))
    checks.check("and the totals say so", done.said.endswith("        2        not added to the tally\n"), done.said)
    checks.same("what is there is left", b"no tally", day.read_bytes())

    place = fresh(folder, "gone")
    stopped = Stopped(inspector, place, place / "day")
    (place / "day").unlink()
    stopped.go_on()
    checks.same("removed between files", (0, {0: 2}), (stopped.finish().status, counts_of(place / "day")))


def check_partial_writes(checks, inspector, folder):
    """A system that takes a part of the bytes, or none: there is a limit on how long files get."""
    place = fresh(folder, "partial")
    day, given = place / "day", {number: 255 for number in range(COUNTS)}
    day.write_bytes(tally_of(given))

    def limit(size):
        signal.signal(signal.SIGXFSZ, signal.SIG_IGN)
        resource.setrlimit(resource.RLIMIT_FSIZE, (size, size))

    for size, why in ((2, f"only 2 of {BYTES} bytes could be written"), (0, "File too large")):
        done = inspector.call_k("--tally", day, GOOD, preexec_fn=lambda: limit(size), restore_signals=False)
        said = done.complained.endswith(f" is not added: {why}\n")
        checks.check(f"a limit of {size} bytes", done.status == 2 and said, done)
        checks.check("the verdict is shown", "accepted (0)" in done.said, done.said)
        checks.same("the old bytes are there", given, counts_of(day))
        done = inspector.call_k("--tally", place / "new", GOOD, preexec_fn=lambda: limit(size), restore_signals=False)
        checks.same("a new one is not made", (2, "", f"inspect: {place / 'new'}: {why}\n"), tuple(done))
        checks.same("and nothing is left of it", ["day"], names_in(place))


# ---- several inspectors


def check_locks(checks, inspector, folder):
    """A lock is in other hands, be it of one byte. It would go if this process opened and closed the file again."""
    place = fresh(folder, "locks")
    day, old = place / "day", place / "old"
    stopped = Stopped(inspector, place, day)
    with open(day, "r+b") as held:
        fcntl.lockf(held, fcntl.LOCK_EX, 1, BYTES - 1)
        showing = inspector.start("--show-tally", day)
        starting = inspector.start_k("--tally", day, GOOD)
        stopped.go_on()
        time.sleep(0.5)
        checks.check("one that adds waits", stopped.process.poll() is None)
        checks.check("one that shows waits", showing.poll() is None)
        checks.check("one that starts waits", starting.poll() is None)
        checks.same("nothing is added meanwhile", tally_of({0: 1}), os.pread(held.fileno(), BYTES + 1, 0))
        day.rename(old)
        moved_to = os.pread(held.fileno(), BYTES + 1, 0)
    checks.same("then they go on", [0, 0, 0], [stopped.finish().status, finish(showing).status, finish(starting).status])
    checks.same("what was moved away meanwhile is over", moved_to, old.read_bytes())
    checks.same("and nothing is lost", {0: 3}, counts_of(day))
    shared = place / "shared"
    shared.write_bytes(tally_of({0: 3}))
    with open(shared, "rb") as held:
        fcntl.lockf(held, fcntl.LOCK_SH, 1)
        checks.same("two may read", 0, inspector.call("--show-tally", shared).status)
        adding = inspector.start_k("--tally", shared, GOOD)
        time.sleep(0.2)
        checks.same("who adds waits for who reads", tally_of({0: 3}), os.pread(held.fileno(), BYTES, 0))
    checks.same("and then adds", (0, {0: 4}), (finish(adding).status, counts_of(shared)))


def check_parallel(checks, inspector, folder):
    """Many additions at once. Each inspector is asked for the same messages, in another order."""
    place, several, times = fresh(folder, "parallel"), 8, 1000
    day = place / "day"
    messages = list(MESSAGES.values()) * times
    running = []
    for i in range(several):
        random.Random(i).shuffle(messages)
        running.append(inspector.start_k("--quiet", "--tally", day, *messages))
    done = [finish(process) for process in running]
    checks.same("side by side: no complaint", [(1, "", "")] * several, [tuple(each) for each in done])
    checks.same("side by side: nothing is lost", {number: several * times for number in MESSAGES}, counts_of(day))
    checks.same("side by side: nothing is left beside it", ["day"], names_in(place))


def make_together(inspector, place, day, several):
    """They wait at pipes for their book, and get it at the same time; then each looks for the tally."""
    pipes = [place / f"book-{k}" for k in range(several)]
    running = [inspector.start("--quiet", "--book", pipe, "--tally", day, GOOD) for pipe in pipes]
    books = [os.open(pipe, os.O_WRONLY) for pipe in pipes]
    for book in books:
        os.write(book, (ROOT / "books/k.bin").read_bytes())
    for book in books:
        os.close(book)
    return [finish(process) for process in running]


def check_making_together(checks, inspector, folder):
    """Several want to make the same tally."""
    place, several, rounds = fresh(folder, "together"), 6, 25
    for k in range(several):
        os.mkfifo(place / f"book-{k}")
    days = [place / f"day-{i}" for i in range(rounds)]
    done = [done for day in days for done in make_together(inspector, place, day, several)]
    checks.same("made by several at once: no complaint", {(0, "", "")}, {tuple(each) for each in done})
    checks.same("made by several at once: nothing is lost", [{0: several}] * rounds, [counts_of(day) for day in days])
    checks.same("made by several at once: nothing is left beside", several + rounds, len(names_in(place)))


def read_alone(file):
    """What is there when nobody who adds has the lock."""
    with open(file, "rb") as tally:
        fcntl.lockf(tally, fcntl.LOCK_SH)
        return tally.read()


def check_moving(checks, inspector, folder):
    """A tally that is moved away again and again while several add. Once it has been read by its new name it is over."""
    place, several, times = fresh(folder, "moving"), 4, 1500
    day, complaints = place / "day", folder / "complaints"
    with open(complaints, "wb") as stream:
        words = ("--quiet", "--tally", day, *list(MESSAGES.values()) * times)
        running = [inspector.start_k(*words, stderr=stream) for _ in range(several)]
    read = {}
    while any(process.poll() is None for process in running):
        time.sleep(0.002)
        if day.exists():
            old = place / f"old-{len(read)}"
            day.rename(old)
            read[old] = read_alone(old)
    checks.same("moved again and again: the exit statuses", [1] * several, [finish(process).status for process in running])
    checks.same("moved again and again: no complaint", "", complaints.read_text(encoding="utf-8")[:400])
    checks.check("moved again and again: often", len(read) > 3, len(read))
    late = [old.name for old, tally in read.items() if old.read_bytes() != tally]
    checks.same("moved again and again: nothing comes late", [], late)
    total = sum((Counter(counts_of(file)) for file in place.iterdir()), Counter())
    checks.same("moved again and again: nothing is lost", {number: several * times for number in MESSAGES}, dict(total))


def check_killing(checks, inspector, folder):
    """Inspectors that are killed at any moment. Of each, at most the last verdict is added and not shown."""
    place, several, rounds = fresh(folder, "killing"), 3, 40
    messages, chance = list(MESSAGES.values()) * 600, random.Random(9)
    killed, added, torn, wrong = 0, 0, [], []
    start = time.monotonic()
    inspector.call_k("--tally", place / "one", GOOD)
    one_run = time.monotonic() - start
    for i in range(rounds):
        day = place / f"day-{i}"
        shown = [place / f"shown-{i}-{k}" for k in range(several)]
        running = [inspector.start_k("--json", "--tally", day, *messages, stdout=open(file, "wb")) for file in shown]
        for process in running:
            time.sleep(chance.random() * 3 * one_run)
            process.kill()
            killed += process.wait() == -signal.SIGKILL
            if day.exists() and len(read_alone(day)) != BYTES:
                torn.append(day.name)
        lines = sum((Counter(numbers_in(file.read_text(encoding="utf-8"))) for file in shown), Counter())
        counts = Counter(counts_of(day))
        added += sum(counts.values())
        if lines - counts or sum((counts - lines).values()) > several:
            wrong.append((dict(lines), dict(counts)))
    checks.check("killed: most did not end by themselves", killed > rounds, killed)
    checks.same("killed: the tally is whole", [], torn)
    checks.same("killed: what was shown is added, and hardly more", [], wrong)
    others = [name for name in names_in(place) if not re.fullmatch(r"one|shown-.*|day-\d+(\.\w{6})?", name)]
    checks.same("killed: beside it lies at most what was to become it", [], others)
    checks.check("killed: they came to add", added > rounds, added)


def main():
    sys.stdout.reconfigure(encoding="utf-8")
    inspector, folder = Inspector(sys.argv[1]), Path(os.path.abspath(sys.argv[2]))
    checks = Checks()
    for part in (check_adding, check_ways, check_making, check_showing, check_bad_files, check_full, check_changes,
                 check_partial_writes, check_locks, check_parallel, check_making_together, check_moving, check_killing):
        part(checks, inspector, folder)
    shutil.rmtree(folder)
    print(f"tallies: {checks.made} checks, {checks.failed} failed")
    return 1 if checks.failed else 0


if __name__ == "__main__":
    sys.exit(main())
