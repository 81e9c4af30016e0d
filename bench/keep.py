#!/usr/bin/env python3
"""Measures `keep` beside `run` of the same sessions, and `restart` with END alone of what was kept, and prints the table of the kept journal in
bench/RESULTS.md, with the machine: bench/keep.py [PROGRAM [FOLDER [COMMANDS..]]].

PROGRAM is crates/fx_cli/out/fx_cli if none is given; the journal is a file below FOLDER, the system's folder for such if none is given, which has to be on the
disk to be measured; COMMANDS are 10,000, 100,000 and 1,000,000. The best of three runs counts, in seconds by the clock, since `keep` waits for its
syncs, and beside it stands the most memory. A second table has what a sync costs there: the time of a write at the end of a file and its fsync.
"""
import os
import statistics
import subprocess
import sys
import tempfile
import time
from typing import NamedTuple

HERE = os.path.dirname(os.path.dirname(os.path.realpath(__file__)))
sys.dont_write_bytecode = True
sys.path[:0] = [f"{HERE}/bench", f"{HERE}/tools"]
from reading.journal import read_journal  # noqa: E402
from results import machine  # noqa: E402

RUNS = 3
COMMANDS = (10_000, 100_000, 1_000_000)
SYNCS = 300
# `keep` begins with a sync, one that closes the last gate, and one of the folder; each block takes two.
OPENING_SYNCS, BLOCK_SYNCS = 3, 2


class Cost(NamedTuple):
    """The seconds of a run, and its most memory, in MiB."""

    seconds: float
    memory: int

    def __str__(self):
        return f"{self.seconds:.2f} s, {self.memory} MiB"


def cost(program: str, words: str, text: str, folder: str, output: str = os.devnull) -> Cost:
    """What a run over a text costs, which writes to an output. It has to end well."""
    with open(text, "rb") as source, open(output, "wb") as sink:
        started = time.monotonic()
        run = subprocess.Popen([program, *words.split()], stdin=source, stdout=sink, cwd=folder)
        _, status, used = os.wait4(run.pid, 0)
        seconds = time.monotonic() - started
    if status != 0:
        sys.exit(f"{os.path.basename(sys.argv[0])}: {words} ended with status {os.waitstatus_to_exitcode(status)}")
    return Cost(seconds, used.ru_maxrss // 1024)


def row(program: str, memory: str, disk: str, commands: int) -> str:
    """The row of a session."""
    text, end, journal = f"{memory}/in", f"{memory}/end", f"{disk}/fx.journal"
    with open(text, "wb") as file:
        subprocess.run([sys.executable, f"{HERE}/bench/make_session.py", "16", "8", str(commands), "mixed"], stdout=file, check=True)
    with open(end, "wb") as file:
        file.write(b"END\n")
    turns = []
    for _ in range(RUNS):
        if os.path.exists(journal):
            os.remove(journal)
        turns.append([cost(program, "run", text, disk), cost(program, "keep", text, disk), cost(program, "restart", end, disk)])
    with open(journal, "rb") as file:
        kept = read_journal(file.read())
    size, blocks = len(kept.file), len(kept.places)
    told = map(str, map(min, zip(*turns)))
    return f"| {commands:,} | {' | '.join(told)} | {size / 1e6:.1f} MB, {size / commands:.1f} bytes a command | {blocks} | {OPENING_SYNCS + BLOCK_SYNCS * blocks} |"


def sync_row(disk: str, size: int) -> str:
    """What it takes to write so many bytes at the end of a file and to sync it."""
    times = []
    with open(f"{disk}/synced", "wb", buffering=0) as file:
        for _ in range(SYNCS):
            started = time.monotonic()
            file.write(bytes(size))
            os.fsync(file.fileno())
            times.append((time.monotonic() - started) * 1000)
    return f"| {size:,} | {statistics.median(times):.2f} | {statistics.quantiles(times, n=100)[98]:.2f} | {max(times):.2f} |"


def main() -> None:
    words = sys.argv[1:]
    program = os.path.abspath(words[0]) if words else f"{HERE}/crates/fx_cli/out/fx_cli"
    if not os.access(program, os.X_OK):
        sys.exit(f"bench/keep.py: no program at {program}; ./fx build makes it")
    print("| Commands | `run` | `keep` | `restart` with END alone | Journal | Blocks | Syncs |")
    print("|" + "---|" * 7, flush=True)
    with tempfile.TemporaryDirectory(dir="/dev/shm") as memory, tempfile.TemporaryDirectory(dir=words[1] if len(words) > 1 else None) as disk:
        for commands in map(int, words[2:] or COMMANDS):
            print(row(program, memory, disk, commands), flush=True)
        print("\n| Bytes written | Median, ms | 99 of 100, ms | Longest, ms |")
        print("|---|---|---|---|")
        for size in (1, 2000, 65536):
            print(sync_row(disk, size), flush=True)
    print(f"\nMachine: {machine()}.")


if __name__ == "__main__":
    main()
