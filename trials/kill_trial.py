#!/usr/bin/env python3
"""Kills the program in the middle of a kept session, again and again, and goes on with the journal that each kill left.

    trials/kill_trial.py [--program PATH] [--seed N] [KILLS [FOLDER]]      300 kills, in a new folder below FOLDER (else the system's for such)

A session of bench/make_session.py is begun by `keep` in a folder of its own, and killed after a random time; `restart` goes on with the commands
that are not kept yet, and is killed too. The commands come in rounds of random length, filled up with comments, so that there are many blocks.
After each kill

  - `restart` with END alone has to end with status 0 and to tell nothing before BOOKS;
  - the journal, as the tools read it, has to begin with what it had before the run, and each bank's commands in it have to be the first of those
    that the bank sent;
  - each notice that the run told, to the last byte that the kill left of it, has to be one that `serial` gives for the journal's session, in the
    order of the journal and with its number on the bank's desk;
  - what was not told has to be of the last block, since a round is told before the next one is kept;
  - what `restart` printed from BOOKS on has to be what `serial` prints.

After ten kills a last run gets all that is left, with END: it has to keep and tell it. Then a new session is begun. A kill loses nothing that the
kernel has, so this tries the order of writes and notices, and not the disk.
"""
import argparse
import collections
import os
import random
import shutil
import signal
import subprocess
import sys
import tempfile
import threading
import time
from dataclasses import dataclass, field

HERE = os.path.dirname(os.path.dirname(os.path.realpath(__file__)))
sys.path.insert(0, f"{HERE}/tools")
sys.dont_write_bytecode = True
from reading.journal import read_journal, session_of  # noqa: E402
from reading.session import BAD, COMMAND, Session  # noqa: E402

KILLS_A_SESSION = 10
LONGEST = 0.25  # seconds until a kill, at most
ROUND = 1 << 16
LENGTHS, LAST_LENGTHS = (1, 2, 5, 20, 60), (600,)
MOST_ROUNDS = 1000  # The program takes 1,024.
SHAPES = ((2, 1, 20000, "mixed"), (8, 4, 20000, "mixed"), (16, 8, 20000, "orders"), (8, 3, 12000, "thick"))


class Wrong(Exception):
    """What the trial found."""


def check(right, *told):
    if not right:
        raise Wrong(" ".join(map(str, told)))


def filled(lines):
    """A round with these lines, filled up with comments."""
    text = b"".join(line + b"\n" for line in lines)
    left = -len(text) % ROUND
    return text + (b"#" * 63 + b"\n") * (left // 64) + (b"#" * (left % 64 - 1) + b"\n") * (left % 64 > 0)


@dataclass
class Day:
    """A session: its header's lines, and each command with its bank, its line, and how a journal spells it."""

    head: list[bytes]
    commands: list[tuple[bytes, bytes, bytes]]

    def left(self, kept):
        """The lines of the commands that are not among the first so many of their bank."""
        seen = collections.Counter()
        for bank, line, _ in self.commands:
            seen[bank] += 1
            if seen[bank] > kept[bank]:
                yield line


def made_day(shape, rng):
    """A made session, in which each fiftieth command can't be read."""
    words = [*map(str, shape), str(rng.randrange(10**6))]
    text = subprocess.run([sys.executable, f"{HERE}/bench/make_session.py", *words], capture_output=True, check=True).stdout
    lines = [line + b" x" if line.startswith(b"B") and b" " in line[:4] and not rng.randrange(50) else line for line in text.split(b"\n")]
    session = Session(b"\n".join(lines))
    commands = [(said.fields[0], said.text, said.spelled()) for said in session.lines() if said.kind in (COMMAND, BAD)]
    return Day(session.header.lines(), commands)


@dataclass
class Kept:
    """What a journal file holds: its blocks' bodies, the entries of each as it spells them, and what `serial` gives for them: the notices on each
    bank's desk, and the text from BOOKS on."""

    bodies: list[bytes] = field(default_factory=list)
    blocks: list[list[bytes]] = field(default_factory=list)
    desks: dict[bytes, list[bytes]] = field(default_factory=dict)
    books: bytes = b""

    def entries(self):
        return [entry for block in self.blocks for entry in block]

    def counts(self):
        """How many commands each bank has."""
        return collections.Counter(entry.split(b" ", 1)[0] for entry in self.entries())


def by_sender(entries):
    """The commands of each sender, in their order."""
    streams = collections.defaultdict(list)
    for entry in entries:
        streams[entry.split(b" ", 1)[0]].append(entry)
    return streams


def desks_of(output):
    """The notices on each desk of an output, and its text from BOOKS on."""
    head, _, books = output.partition(b"\nBOOKS\n")
    lines = head.split(b"\n")
    at = lines.index(b"START") + 1
    at += 1 + int(lines[at].split()[1])
    desks = {}
    while at < len(lines):
        _, name, count = lines[at].split()
        desks[name] = lines[at + 1 : at + 1 + int(count)]
        at += 1 + int(count)
    return desks, b"BOOKS\n" + books


def read_kept(program, path):
    """What the journal file has; nothing where it has no whole block."""
    with open(path, "rb") as file:
        journal = read_journal(file.read())
    bodies = list(journal.bodies())
    if not bodies:
        return Kept()
    session = b"".join(line + b"\n" for line in session_of(journal))
    run = subprocess.run([program, "serial"], input=session, capture_output=True)
    check(run.returncode == 0, "serial ended with status", run.returncode)
    desks, books = desks_of(run.stdout)
    return Kept(bodies, [body.split(b"\n")[:-1] for body in bodies[1:]], desks, books)


def hand_over(process, texts):
    """Writes the rounds, until the process has gone."""
    try:
        for text in texts:
            process.stdin.write(text)
    except BrokenPipeError:
        pass


class Folder:
    """A session that is kept in a folder of its own, and what its journal had after the last run. `lengths` are how many commands a round
    may have, `last_lengths` in the last run; `longest` is the most seconds until a kill."""

    lengths, last_lengths, longest = LENGTHS, LAST_LENGTHS, LONGEST

    def __init__(self, program, within, rng, day):
        self.program, self.rng, self.day, self.kept = program, rng, day, Kept()
        self.path = tempfile.mkdtemp(prefix="kill-trial-", dir=within)
        self.journal = f"{self.path}/fx.journal"

    def rounds(self, last):
        """The text for the next run: the header of a new session, and the commands that are not kept; with END where it is the last one."""
        if not self.kept.bodies:
            yield filled(self.day.head)
        lines = [*self.day.left(self.kept.counts()), *[b"END"] * last]
        at = 0
        for _ in range(MOST_ROUNDS):
            count = self.rng.choice(self.last_lengths if last else self.lengths)
            yield filled(lines[at : at + count])
            at += count
            if at >= len(lines):
                break

    def pause(self, told):
        """Waits for the moment of a kill; `told` is the file of what the run has written."""
        time.sleep(self.rng.uniform(0, self.longest))

    def run(self, kills):
        """Starts the program and kills it after a random time, or lets it end; answers its status and what it wrote."""
        word = "restart" if self.kept.bodies else "keep"
        with open(f"{self.path}/told", "w+b") as told:
            process = subprocess.Popen([self.program, word], cwd=self.path, stdin=subprocess.PIPE, stdout=told, bufsize=0)
            writer = threading.Thread(target=hand_over, args=(process, self.rounds(not kills)))
            writer.start()
            if kills:
                self.pause(told)
                process.send_signal(signal.SIGKILL)
            status = process.wait()
            writer.join()
            process.stdin.close()
            told.seek(0)
            return status, told.read()

    def read_on(self):
        """Reads what the run left, and compares it with what was there and what was sent; answers what there was before."""
        before, self.kept = self.kept, read_kept(self.program, self.journal) if os.path.exists(self.journal) else Kept()
        check(self.kept.bodies[: len(before.bodies)] == before.bodies, "blocks from before the run are gone or changed")
        sent = by_sender(spelled for _, _, spelled in self.day.commands)
        for bank, entries in by_sender(self.kept.entries()).items():
            check(entries == sent[bank][: len(entries)], "the journal's commands of", bank, "are not the first that it sent")
        return before

    def judge_told(self, before, text):
        """Compares the notices that a run told with those of its entries; answers how many there were, and whether some were not told."""
        told = text.split(b"\n")
        cut = told.pop()
        at = {bank: len(desk) for bank, desk in before.desks.items()}
        replies = []
        for number, line in enumerate([*told, cut] if cut else told):
            bank, _, notice = line.partition(b" ")
            desk, place = self.kept.desks.get(bank, []), at.get(bank, 0)
            if number == len(told):  # The kill left a part of it.
                check(any(bank_name.startswith(bank) for bank_name in self.kept.desks), "a notice of no bank:", line)
                check(not notice or place < len(desk) and desk[place].startswith(notice), "a notice that the journal has not:", line)
                break
            check(place < len(desk) and desk[place] == notice, "a notice that the journal has not:", line)
            at[bank] = place + 1
            if notice.split()[1] == b"REPLY":
                replies.append((bank, int(notice.split()[2])))
        self.judge_order(before, replies)
        last = self.kept.blocks[-1] if len(self.kept.blocks) > len(before.blocks) else []
        untold = len(self.kept.entries()) - len(before.entries()) - len(replies)
        check(untold <= len(last), "told is less than all blocks but the last:", untold, "entries lack")
        return len(told), any(at.get(bank, 0) < len(desk) for bank, desk in self.kept.desks.items())

    def judge_order(self, before, replies):
        """The replies have to be those of the new entries, in the order of the journal."""
        count = before.counts()
        for entry, reply in zip(self.kept.entries()[len(before.entries()) :], replies):
            bank = entry.split(b" ", 1)[0]
            count[bank] += 1
            check(reply == (bank, count[bank]), "the reply", reply, "stands where the journal has", entry)

    def judge_restart(self):
        """`restart` with END alone has to print what `serial` prints from BOOKS on; without a whole block it says so."""
        run = subprocess.run([self.program, "restart"], input=b"END\n", cwd=self.path, capture_output=True)
        wanted = (0, self.kept.books, b"") if self.kept.bodies else (13, b"", b"journal empty\n")
        check((run.returncode, run.stdout, run.stderr) == wanted, "restart with END alone ended with status", run.returncode, run.stderr, run.stdout[:200])

    def kill(self):
        """One kill; answers how many notices were told, whether some were kept and not told, and whether bytes stood behind the last block."""
        status, text = self.run(True)
        check(status == -signal.SIGKILL, "the program ended by itself, with status", status)
        with open(self.journal, "rb") if os.path.exists(self.journal) else open(os.devnull, "rb") as file:
            behind = read_journal(file.read()).behind()
        before = self.read_on()
        told, untold = self.judge_told(before, text.partition(b"BOOKS\n")[0])
        self.judge_restart()
        return told, untold, behind > 0

    def finish(self):
        """Lets the last run end."""
        status, text = self.run(False)
        before = self.read_on()
        check(status == 0, "the last run ended with status", status)
        notices, books, rest = text.partition(b"BOOKS\n")
        told, untold = self.judge_told(before, notices)
        check(not untold and books + rest == self.kept.books, "the last run told less than all")
        check(len(self.kept.entries()) == len(self.day.commands), "the journal lacks commands at the end")
        self.judge_restart()
        shutil.rmtree(self.path)
        return told


def parsed():
    words = argparse.ArgumentParser(description=__doc__, formatter_class=argparse.RawDescriptionHelpFormatter)
    words.add_argument("--program", default=f"{HERE}/crates/fx_cli/out/fx_cli")
    words.add_argument("--seed", type=int, default=1)
    words.add_argument("kills", nargs="?", type=int, default=300)
    words.add_argument("folder", nargs="?")
    return words.parse_args()


def main():
    words = parsed()
    if not os.access(words.program, os.X_OK):
        sys.exit(f"kill_trial: no program at {words.program}; ./fx build makes it")
    rng, folder = random.Random(words.seed), None
    told_kills, told_all, untold, behind, none = 0, 0, 0, 0, 0
    for kill in range(1, words.kills + 1):
        try:
            folder = folder or Folder(os.path.abspath(words.program), words.folder, rng, made_day(rng.choice(SHAPES), rng))
            told, was_untold, was_behind = folder.kill()
            told_kills, untold, behind, none = told_kills + told, untold + was_untold, behind + was_behind, none + (not told)
            if kill % KILLS_A_SESSION == 0 or kill == words.kills:
                told_all += folder.finish()
                folder = None
        except Wrong as fault:
            sys.exit(f"kill_trial: at kill {kill}: {fault}; what it left is in {folder.path}")
    print(
        f"{words.kills} kills: each journal was opened again and had all that was told, {told_kills} notices, and {told_all} more by the runs that ended; "
        f"{untold} times a round was kept and not all of it told, {behind} times bytes stood behind the last block, {none} times nothing was told before the kill"
    )


if __name__ == "__main__":
    main()
