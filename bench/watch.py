#!/usr/bin/env python3
"""Measures `watch` beside `run` of the same sessions, and prints the table of watched sessions in bench/RESULTS.md, with the machine:
bench/watch.py [PROGRAM [COMMANDS..]].

PROGRAM is crates/fx_cli/out/fx_cli if none is given; COMMANDS are 10,000, 100,000 and 1,000,000. Both words run by turns, each with 4 workers; the least
processor time of three runs counts, and beside it stands the most memory.
"""
import os
import subprocess
import sys
import tempfile
from typing import NamedTuple

HERE = os.path.dirname(os.path.dirname(os.path.realpath(__file__)))
sys.dont_write_bytecode = True
sys.path.insert(0, f"{HERE}/bench")
from results import machine  # noqa: E402

RUNS = 3
COMMANDS = (10_000, 100_000, 1_000_000)
KINDS = ("orders", "mixed")


class Cost(NamedTuple):
    """The seconds of processor time that a run takes, and its most memory, in MiB."""

    seconds: float
    memory: int

    def __str__(self):
        return f"{self.seconds:.2f} s, {self.memory} MiB"


def cost(program: str, word: str, text: str) -> Cost:
    """What a run over a text costs. It has to end well."""
    with open(text, "rb") as source:
        run = subprocess.Popen([program, word], stdin=source, stdout=subprocess.DEVNULL)
        _, status, used = os.wait4(run.pid, 0)
    if status != 0:
        sys.exit(f"bench/watch.py: {word} ended with status {os.waitstatus_to_exitcode(status)}")
    return Cost(used.ru_utime + used.ru_stime, used.ru_maxrss // 1024)


def row(program: str, text: str, commands: int, kind: str) -> str:
    """The row of a session."""
    with open(text, "wb") as file:
        subprocess.run([sys.executable, f"{HERE}/bench/make_session.py", "16", "8", str(commands), kind], stdout=file, check=True)
    turns = [(cost(program, "run", text), cost(program, "watch", text)) for _ in range(RUNS)]
    ran, watched = map(min, zip(*turns))
    return f"| {kind} | {commands:,} | {ran} | {watched} | {watched.seconds / ran.seconds:.1f} |"


def main() -> None:
    words = sys.argv[1:]
    program = os.path.abspath(words[0]) if words else f"{HERE}/crates/fx_cli/out/fx_cli"
    if not os.access(program, os.X_OK):
        sys.exit(f"bench/watch.py: no program at {program}; ./fx build makes it")
    print("| Session | Commands | `run` | `watch` | Ratio |")
    print("|" + "---|" * 5, flush=True)
    with tempfile.TemporaryDirectory(dir="/dev/shm") as folder:
        for commands in map(int, words[1:] or COMMANDS):
            for kind in KINDS:
                print(row(program, f"{folder}/in", commands, kind), flush=True)
    print(f"\nMachine: {machine()}.")


if __name__ == "__main__":
    main()
