#!/usr/bin/env python3
"""Runs one large session of version 2 through all words that run a session, and judges everything that they write.

    trials/large_run.py [--commands N] [--plain N] [--banks N] [--pairs N] [--seed N] [--program PATH] [FOLDER]

The session has N commands (100,000 where none are given) of 16 banks in 8 pairs, as bench/make_session.py makes them with totals and settlements; each
fiftieth can't be read. `check` has to say YES of each output, and then

  - what `serial` writes has all commands in the order of their lines. Of the first 1,000 commands, or as many as --plain says, it writes byte for
    byte what the market in plain_market.py says, which takes long for more; and each desk of the whole output begins with what it has there;
  - what `run` writes on 1, 4, 16 and 64 workers has each sender's commands in their order, and no others;
  - `keep` is killed at random moments and restarted, again and again, until four fifths of the commands are kept; a last run gets the rest. After
    each kill all that trials/kill_trial.py looks at has to be right, and at the end `check` says YES of the output of what was kept;
  - `watch` does what `run` does, looks where docs/OUTPUT.md says, and sees the books of `serial`: at the end, and in ten looks before it.

It prints a line for each step, with the seconds by the clock and the most memory of its runs. At the first thing that is wrong it tells it, leaves its
folder, which is below FOLDER (else the system's for such), and ends with status 1.
"""
import argparse
import itertools
import os
import random
import shutil
import sys
import tempfile
import time
from dataclasses import dataclass

HERE = os.path.dirname(os.path.dirname(os.path.realpath(__file__)))
sys.path[:0] = [f"{HERE}/bench", f"{HERE}/tools"]
sys.dont_write_bytecode = True
from keep import Cost, cost  # noqa: E402
from kill_trial import ROUND, Day, Folder, Wrong, by_sender, check, desks_of, made_day  # noqa: E402
from plain_market import HOST, Market, Pair  # noqa: E402
from reading.session import BAD, COMMAND, Session, words_of  # noqa: E402

WORKERS = (1, 4, 16, 64)
LOOKS = 10
# So many kills there are at least, more or less: between two there is about this part of what is told.
KILLS = 20
MOST_OF_ROUND = 2000
# How long what has to be told may take, in seconds.
PATIENCE = 120


# The words that write an output


@dataclass
class Trial:
    """A program, a folder for its runs, and the day that they have."""

    program: str
    folder: str
    day: Day

    def ran(self, words: str, text: bytes) -> tuple[bytes, Cost]:
        """What a run over a text writes, and what it costs."""
        source, output = f"{self.folder}/in", f"{self.folder}/out"
        with open(source, "wb") as file:
            file.write(text)
        taken = cost(self.program, words, source, self.folder, output)
        with open(output, "rb") as file:
            return file.read(), taken

    def judge(self, output: bytes, *of: object) -> Cost:
        """`check` has to say YES of an output."""
        verdict, taken = self.ran("check", output)
        check(verdict == b"YES\n", "check says", verdict.decode().strip(), "of what is written by", *of)
        return taken

    def session(self, commands: list[bytes]) -> bytes:
        """The session with these lines behind its header."""
        return b"".join(line + b"\n" for line in [*self.day.head, *commands, b"END"])


def journal_of(output: bytes) -> list[bytes]:
    """The commands of an output's journal."""
    count, _, behind = output.partition(b"\nJOURNAL ")[2].partition(b"\n")
    commands = behind[: behind.index(b"\nDESK ")].split(b"\n")
    check(len(commands) == int(count), "the journal has", len(commands), "commands and says", count.decode())
    return commands


def judge_order(day: Day, commands: list[bytes], *of: object) -> None:
    """A history has to have each sender's commands in their order, and no others."""
    sent, stands = by_sender(spelled for _, _, spelled in day.commands), by_sender(commands)
    for sender in sent.keys() | stands.keys():
        check(sent[sender] == stands[sender], "the commands of", sender.decode(), "are not those that it sent, in what is written by", *of)


def lines_of(day: Day, entries: list[bytes]) -> list[bytes]:
    """The lines of the commands that a history begins with."""
    left = {sender: iter(lines) for sender, lines in by_sender(line for _, line, _ in day.commands).items()}
    return [next(left[entry.split(b" ", 1)[0]]) for entry in entries]


def try_serial(trial: Trial, text: bytes) -> tuple[bytes, str]:
    output, taken = trial.ran("serial", text)
    check(journal_of(output) == [spelled for _, _, spelled in trial.day.commands], "serial's journal is not the commands in the order of their lines")
    checked = trial.judge(output, "serial")
    return output, f"{taken}, {len(output) / 1e6:.1f} MB, and its check {checked}"


def try_run(trial: Trial, text: bytes, workers: int) -> Cost:
    words = f"run --workers {workers}"
    output, taken = trial.ran(words, text)
    judge_order(trial.day, journal_of(output), words)
    trial.judge(output, words)
    return taken


# The market in plain code


def told_command(header, said):
    """A command as plain_market.py takes it."""
    sender = HOST if said.bank == header.host else said.bank
    if said.kind == BAD:
        return sender, "BAD", said.code
    _, word, *fields = said.fields
    calls = {
        "pair": header.pair_at.get,
        "price": lambda price: header.pairs[header.pair_at[fields[0]]].ticks(price),
        "bank": header.bank_at.get,
        "other": header.bank_at.get,
        "life": bytes.decode,
    }
    values = [calls.get(kind, int)(text) for kind, text in zip(words_of(header, said.bank)[word], fields)]
    if word in (b"BUY", b"SELL"):
        return sender, "ORDER", values[0], word == b"BUY", *values[1:]
    return sender, word.decode(), *values


def plain_output(text: bytes) -> bytes:
    """What the market in plain code says of a session."""
    session = Session(text)
    lines = [said for said in session.lines() if said.kind in (COMMAND, BAD)]
    header = session.header
    pairs = [Pair(pair.base, pair.quote, pair.decimals, pair.lot, pair.weight) for pair in header.pairs]
    market = Market(header.banks, pairs, header.opening, header.totals)
    for said in lines:
        market.serve(*told_command(header, said))
    return market.output(session.strays).encode()


def try_plain(trial: Trial, serial: bytes, count: int) -> str:
    """Compares the output of the first commands with the plain market's, and with that of all."""
    began = time.monotonic()
    text = trial.session([line for _, line, _ in trial.day.commands[:count]])
    wanted = plain_output(text)
    check(trial.ran("serial", text)[0] == wanted, "serial does not write what the plain market says of the first", count, "commands")
    desks, whole = desks_of(wanted)[0], desks_of(serial)[0]
    for sender, notices in desks.items():
        check(whole[sender][: len(notices)] == notices, "the desk of", sender.decode(), "does not begin as for the first", count, "commands")
    return f"{sum(map(len, desks.values())):,} notices, {time.monotonic() - began:.1f} s"


# Kills


class KeptDay(Folder):
    """The session as it is kept in rounds of random length, by runs of which each is killed when it has told a random part of the `size` bytes of all
    notices, or at any moment of a whole run's seconds, so also while it reads what is kept."""

    def __init__(self, program, within, rng, day, size, seconds):
        super().__init__(program, within, rng, day)
        self.part, self.seconds, self.longest = 2 * size / KILLS, seconds, seconds / KILLS
        self.lengths = self.last_lengths = range(1, 2 + min(MOST_OF_ROUND, len(day.commands) // KILLS))

    def pause(self, told):
        if not self.rng.randrange(4):
            time.sleep(self.rng.uniform(0, self.seconds))
            return
        wanted, until = self.rng.uniform(0, self.part), time.monotonic() + PATIENCE
        while os.fstat(told.fileno()).st_size <= wanted and time.monotonic() < until:
            time.sleep(0.001)
        super().pause(told)


def try_keep(trial: Trial, rng: random.Random, size: int, seconds: float) -> str:
    began, kills, told = time.monotonic(), 0, 0
    folder = KeptDay(trial.program, trial.folder, rng, trial.day, size, seconds)
    while len(folder.kept.entries()) < 0.8 * len(trial.day.commands):
        told, kills = told + folder.kill()[0], kills + 1
    told += folder.finish()
    entries = folder.kept.entries()
    judge_order(trial.day, entries, "keep and restart")
    trial.judge(trial.ran("serial", trial.session(lines_of(trial.day, entries)))[0], "keep and restart")
    return f"{kills} kills, {len(folder.kept.blocks):,} blocks, {told:,} notices told, {time.monotonic() - began:.0f} s with all that was looked at"


# Looks


def rounds_of(day: Day) -> list[int]:
    """How many commands are read by the end of each round that has some."""
    ends = itertools.accumulate((len(line) + 1 for _, line, _ in day.commands), initial=sum(len(line) + 1 for line in day.head))
    last = {(end - 1) // ROUND: count for count, end in enumerate(ends) if count}
    return list(last.values())


def judge_looks(trial: Trial, looks: list[bytes], books: list[bytes]) -> None:
    """The looks have to be where they are said to be, in order, and at the end they see all books."""
    session = Session(b"".join(line + b"\n" for line in trial.day.head))
    list(session.lines())
    banks, pairs, rounds = [bank.encode() for bank in session.header.banks], [pair.name.encode() for pair in session.header.pairs], rounds_of(trial.day)
    places = [(bank, pairs[number % len(pairs)], before) for number, before in enumerate([0, *rounds[:-1]]) for bank in banks]
    check(len(looks) == len(places) + len(books), "watch has", len(looks), "looks, and not", len(places) + len(books))
    fields = [look.split(b" ", 3) for look in looks]
    numbers = [int(number) for number, *_ in fields]
    check(numbers == sorted(numbers), "the looks of watch go back")
    for (number, bank, pair, _), (wanted_bank, wanted_pair, before) in zip(fields, places):
        check((bank, pair) == (wanted_bank, wanted_pair) and int(number) >= before, "watch looked elsewhere:", number.decode(), bank.decode(), pair.decode())
    last = [b"%d %b" % (len(trial.day.commands), book) for book in books]
    check(looks[len(places) :] == last, "the last looks of watch do not see all books")


def books_of(output: bytes) -> list[bytes]:
    return desks_of(output)[1].partition(b"REPORT\n")[0].split(b"\n")[1:-1]


def judge_look(trial: Trial, entries: list[bytes], look: bytes) -> None:
    """A look has to see the book that `serial` has behind the same commands."""
    number, _, seen = look.partition(b" ")
    text = trial.session(lines_of(trial.day, entries[: int(number)]))
    check(seen in books_of(trial.ran("serial", text)[0]), "watch saw a book that the history does not have:", look.decode())


def try_watch(trial: Trial, rng: random.Random, text: bytes) -> str:
    written, taken = trial.ran("watch", text)
    output, _, seen = written.rpartition(b"WATCHED ")
    count, *looks = seen.removesuffix(b"\n").split(b"\n")
    check(int(count) == len(looks), "watch says", count.decode(), "looks and has", len(looks))
    trial.judge(output, "watch")
    entries = journal_of(output)
    judge_order(trial.day, entries, "watch")
    judge_looks(trial, looks, books_of(output))
    for look in rng.sample(looks, min(LOOKS, len(looks))):
        judge_look(trial, entries, look)
    return f"{taken}, {len(looks):,} looks"


def run_all(trial: Trial, said: argparse.Namespace, rng: random.Random) -> None:
    """All steps, each with its line."""
    text = trial.session([line for _, line, _ in trial.day.commands])
    print(f"session: {len(trial.day.commands):,} commands, {len(text) / 1e6:.1f} MB", flush=True)
    serial, told = try_serial(trial, text)
    size = serial.index(b"\nBOOKS\n") - serial.index(b"\nDESK ")
    print(f"serial: {told}", flush=True)
    print(f"the first {min(said.plain, len(trial.day.commands)):,} in plain code: {try_plain(trial, serial, said.plain)}", flush=True)
    for workers in WORKERS:
        taken = try_run(trial, text, workers)
        print(f"run --workers {workers}: {taken}", flush=True)
    print(f"watch: {try_watch(trial, rng, text)}", flush=True)
    print(f"keep and restart: {try_keep(trial, rng, size, taken.seconds)}", flush=True)


def main() -> None:
    words = argparse.ArgumentParser(description=__doc__, formatter_class=argparse.RawDescriptionHelpFormatter)
    words.add_argument("--commands", type=int, default=100_000)
    words.add_argument("--plain", type=int, default=1000)
    words.add_argument("--banks", type=int, default=16)
    words.add_argument("--pairs", type=int, default=8)
    words.add_argument("--seed", type=int, default=1)
    words.add_argument("--program", default=f"{HERE}/crates/fx_cli/out/fx_cli")
    words.add_argument("folder", nargs="?")
    said = words.parse_args()
    if not os.access(said.program, os.X_OK):
        sys.exit(f"large_run: no program at {said.program}; ./fx build makes it")
    rng = random.Random(said.seed)
    day = made_day((said.banks, said.pairs, said.commands, "totals"), rng)
    folder = tempfile.mkdtemp(prefix="large-run-", dir=said.folder)
    try:
        run_all(Trial(os.path.abspath(said.program), folder, day), said, rng)
    except (Wrong, SystemExit) as fault:
        sys.exit(f"large_run: {fault}; what it left is in {folder}")
    shutil.rmtree(folder)
    print("no difference")


if __name__ == "__main__":
    main()
