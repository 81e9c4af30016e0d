#!/usr/bin/env python3
"""Makes the files that a loss of power could leave of a kept session's journal, and has `restart` open them.

    trials/crash_trial.py [--program PATH] [--seed N] [--leave-out first|second] [IMAGES [FOLDER]]      1000 files, in a folder below FOLDER

`keep` and then `restart` run rounds of a made session under `strace` (Debian's package of that name), which tells each write and sync of the
journal and each write of notices, in their order. From that the trial makes files as a disk may have them at a moment in between: what was
there at the last sync, and of each range that was written since then nothing, all, a part, single sectors, or other bytes; the file's length is
any from that at the last sync to the end of these writes. Of each such file

  - the whole blocks have to be those that the session began with and the first of those that were appended in it,
  - each block of which a byte was told by that moment has to be among them,
  - `restart` with END alone has to end with 0 (with 13 where there is no block) and to print what `serial` does of these blocks from BOOKS on.

Each session after the first goes on from one of the files. `--leave-out` acts as if the program had not made the first or the second sync of each
append: then the trial has to find a file that is wrong. It tries what the proofs say of a disk that keeps its promise, and that the program
asks the system's file for just that.
"""
import argparse
import os
import random
import re
import shutil
import subprocess
import sys
import tempfile
from dataclasses import dataclass, field

HERE = os.path.dirname(os.path.dirname(os.path.realpath(__file__)))
sys.path.insert(0, f"{HERE}/tools")
sys.dont_write_bytecode = True
from reading.journal import read_journal, session_of  # noqa: E402

ROUND, SECTOR = 1 << 16, 512
IMAGES_A_SESSION = 40
CALL = re.compile(r"\d+ +(openat|pwrite64|fsync|write)\((.*)\) += (-?\d+)")


class Wrong(Exception):
    """What the trial found."""


def check(right, *told):
    if not right:
        raise Wrong(" ".join(map(str, told)))


def unescaped(text):
    return bytes.fromhex(text.replace("\\x", ""))


@dataclass
class Disk:
    """What the file reads as, what it had at the last sync, and the ranges that were written since."""

    reads: bytes
    synced: bytes
    ranges: list[tuple[int, bytes]] = field(default_factory=list)

    def write(self, at, piece):
        self.reads = self.reads[:at] + piece + self.reads[at + len(piece) :]
        self.ranges.append((at, piece))

    def sync(self):
        self.synced, self.ranges = self.reads, []

    def image(self, rng):
        """A file that a loss of power may leave now."""
        file = bytearray(self.synced)
        greatest = max([len(file), *(at + len(piece) for at, piece in self.ranges)])
        file.extend(rng.randbytes(greatest - len(file)))
        for at, piece in self.ranges:
            self.tear(file, at, piece, rng)
        return bytes(file[: rng.choice((len(self.synced), greatest, rng.randint(len(self.synced), greatest)))])

    def tear(self, file, at, piece, rng):
        """Puts some of a written range into the file."""
        how = rng.randrange(5)
        if how == 1:
            file[at : at + len(piece)] = piece
        elif how == 2:
            part = rng.randint(0, len(piece))
            file[at : at + part] = piece[:part]
        elif how == 3:
            for start in range(0, len(piece), SECTOR):
                if rng.randrange(2):
                    file[at + start : at + start + SECTOR] = piece[start : start + SECTOR]
        elif how == 4:
            file[at : at + len(piece)] = bytes(rng.choice((0, 1, 255)) for _ in piece)


@dataclass
class Moment:
    """The disk between two calls, and how many rounds were told by then."""

    disk: Disk
    told: int


def calls_of(log):
    """The calls of a log that concern the journal and standard output: a write with its place and bytes, a sync, what was told."""
    journal = None
    for line in log:
        found = CALL.match(line)
        if not found:
            continue
        name, words, result = found[1], found[2], int(found[3])
        if name == "openat" and unescaped(words.split('"')[1]) == b"fx.journal":
            journal = str(result)
        elif name == "pwrite64" and words.split(",")[0] == journal:
            check(result == len(unescaped(words.split('"')[1])), "a write was cut:", line[:80])
            yield "write", int(words.rsplit(",", 1)[1]), unescaped(words.split('"')[1])
        elif name == "fsync" and words == journal:
            yield "sync", 0, b""
        elif name == "write" and words.split(",")[0] == "1":
            yield "told", 0, unescaped(words.split('"')[1])


def moments_of(calls, start, left_out):
    """The moments of a run. `left_out` is the number of the sync of each append that is to be taken for not made: 0 or 1, or None."""
    disk, told, syncs, is_append = Disk(start, start), 0, 0, False
    yield Moment(Disk(disk.reads, disk.synced, list(disk.ranges)), told)
    for name, at, piece in calls:
        if name == "write":
            is_append = is_append or len(piece) > 1
            syncs = 0 if len(piece) > 1 else syncs
            disk.write(at, piece)
        elif name == "sync":
            if not is_append or syncs != left_out:
                disk.sync()
            syncs += 1
        elif piece.startswith(b"BOOKS\n"):
            break
        else:
            told += 1
        yield Moment(Disk(disk.reads, disk.synced, list(disk.ranges)), told)


class Trial:
    """A session that goes on from image to image, in a folder of its own."""

    def __init__(self, program, within, seed, left_out):
        self.program, self.rng, self.left_out = program, random.Random(seed), left_out
        self.path = tempfile.mkdtemp(prefix="crash-trial-", dir=within)
        text = subprocess.run([sys.executable, f"{HERE}/bench/make_session.py", "8", "3", "100000", "mixed", str(seed)], capture_output=True, check=True).stdout
        head, start, commands = text.partition(b"START\n")
        self.head, self.lines, self.at = head + start, commands.splitlines(True)[:-1], 0
        self.start, self.images, self.lacking, self.torn, self.books = b"", 0, 0, 0, {}

    def rounds(self):
        """Some rounds of random length, filled up with comments; the header in front where the journal has no block."""
        first = b"" if read_journal(self.start).places else self.head
        for _ in range(self.rng.randint(1, 6)):
            lines = self.lines[self.at : self.at + self.rng.choice((1, 3, 40))]
            self.at += len(lines)
            text = first + b"".join(lines)
            yield text + b"#" * (-(len(text) + 1) % ROUND) + b"\n"
            first = b""

    def run(self):
        """Runs the program on the journal that is there, under strace; answers the moments and the journal at the end."""
        with open(f"{self.path}/fx.journal", "wb") as file:
            file.write(self.start)
        word = "restart" if read_journal(self.start).places else "keep"
        traced = ["strace", "-f", "-qq", "-xx", "-s", "16777216", "-e", "trace=openat,pwrite64,fsync,write", "-o", f"{self.path}/log"]
        run = subprocess.run([*traced, self.program, word], input=b"".join(self.rounds()) + b"END\n", capture_output=True, cwd=self.path)
        check(run.returncode == 0, word, "ended with status", run.returncode, run.stderr)
        with open(f"{self.path}/log", encoding="ascii") as log:
            return list(moments_of(calls_of(log), self.start, self.left_out))

    def books_of(self, file):
        """What `serial` prints of a journal from BOOKS on; nothing where it has no block."""
        journal = read_journal(file)
        if not journal.places:
            return b""
        key = tuple(journal.bodies())
        if key not in self.books:
            run = subprocess.run([self.program, "serial"], input=b"".join(line + b"\n" for line in session_of(journal)), capture_output=True)
            check(run.returncode == 0, "serial ended with status", run.returncode)
            self.books = {key: run.stdout[run.stdout.index(b"\nBOOKS\n") + 1 :]}
        return self.books[key]

    def judge(self, image, moment, before, every):
        """Judges a file of a moment: `before` are the blocks that the run began with, `every` those at its end."""
        bodies = list(read_journal(image).bodies())
        check(bodies == every[: len(bodies)] and len(bodies) >= len(before), "a file has", len(bodies), "blocks that are not the first of", len(every))
        # A new session's first block is the header, of which nothing is told.
        least = len(before) + moment.told + (not before and moment.told > 0)
        check(len(bodies) >= least, "a file has", len(bodies), "blocks, and", least, "were told")
        with open(f"{self.path}/fx.journal", "wb") as file:
            file.write(image)
        run = subprocess.run([self.program, "restart"], input=b"END\n", capture_output=True, cwd=self.path)
        wanted = (0 if bodies else 13, self.books_of(image))
        check((run.returncode, run.stdout) == wanted, "restart ended with status", run.returncode, run.stderr)
        self.images += 1
        self.lacking += len(bodies) < len(every)
        self.torn += bool(moment.disk.ranges)

    def session(self, count):
        """One run, and files of so many of its moments; the next run goes on from the last one of them."""
        before = list(read_journal(self.start).bodies())
        moments = self.run()
        every = list(read_journal(moments[-1].disk.reads).bodies())
        for _ in range(count):
            # Most moments are those at which something is written and not synced.
            moment = self.rng.choice([one for one in moments if one.disk.ranges] if self.rng.randrange(4) else moments)
            image = moment.disk.image(self.rng)
            self.judge(image, moment, before, every)
        self.start = image


def parsed():
    words = argparse.ArgumentParser(description=__doc__, formatter_class=argparse.RawDescriptionHelpFormatter)
    words.add_argument("--program", default=f"{HERE}/crates/fx_cli/out/fx_cli")
    words.add_argument("--seed", type=int, default=1)
    words.add_argument("--leave-out", choices=("first", "second"))
    words.add_argument("images", nargs="?", type=int, default=1000)
    words.add_argument("folder", nargs="?")
    return words.parse_args()


def main():
    words = parsed()
    if not os.access(words.program, os.X_OK):
        sys.exit(f"crash_trial: no program at {words.program}; ./fx build makes it")
    if not shutil.which("strace"):
        sys.exit("crash_trial: Debian's package strace is not there")
    trial = Trial(os.path.abspath(words.program), words.folder, words.seed, {"first": 0, "second": 1}.get(words.leave_out))
    try:
        while trial.images < words.images:
            trial.session(min(IMAGES_A_SESSION, words.images - trial.images))
    except Wrong as fault:
        sys.exit(f"crash_trial: behind {trial.images} files: {fault}; what was tried is in {trial.path}")
    shutil.rmtree(trial.path)
    print(
        f"{trial.images} files: each had the blocks from before its run and the first of the run's, all that were told among them, and was opened by restart; "
        f"{trial.torn} were of a moment between a write and its sync, {trial.lacking} lacked blocks that came later"
    )


if __name__ == "__main__":
    main()
