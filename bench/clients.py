#!/usr/bin/env python3
"""Measures `clients` beside `serial`, and prints the table of sessions with clients in bench/RESULTS.md, with the machine: bench/clients.py [PROGRAM [COMMANDS..]].

PROGRAM is crates/fx_cli/out/fx_cli if none is given; COMMANDS are 10,000, 100,000 and 1,000,000. Each session has orders of 16 and of 1,024 clients; `serial` runs
the same orders as their banks' own. Both words run by turns; the least processor time of three runs counts, and beside it stands the most memory.
"""
import os
import subprocess
import sys
import tempfile
from typing import NamedTuple

HERE = os.path.dirname(os.path.dirname(os.path.realpath(__file__)))
sys.dont_write_bytecode = True
sys.path.insert(0, f"{HERE}/bench")
from results import machine  # noqa: E402

RUNS = 3
COMMANDS = (10_000, 100_000, 1_000_000)
CLIENTS = (16, 1024)


class Cost(NamedTuple):
    """The seconds of processor time that a run takes, and its most memory, in MiB."""

    seconds: float
    memory: int

    def __str__(self):
        return f"{self.seconds:.2f} s, {self.memory} MiB"


def cost(program: str, word: str, text: str) -> Cost:
    """What a run over a text costs. It has to end well."""
    with open(text, "rb") as source:
        run = subprocess.Popen([program, word], stdin=source, stdout=subprocess.DEVNULL)
        _, status, used = os.wait4(run.pid, 0)
    if status != 0:
        sys.exit(f"bench/clients.py: {word} ended with status {os.waitstatus_to_exitcode(status)}")
    return Cost(used.ru_utime + used.ru_stime, used.ru_maxrss // 1024)


def of_banks(line: str) -> str:
    """A line of a client as its bank's own, and nothing of a declaration."""
    first, _, rest = line.partition(" ")
    return "" if first == "CLIENT:" else f"{first.split(':')[0]} {rest}".rstrip() + "\n"


def row(program: str, folder: str, commands: int, clients: int) -> str:
    """The row of a session."""
    made = [sys.executable, f"{HERE}/bench/make_session.py", "16", "8", str(commands), "clients", "1", str(clients)]
    text = subprocess.run(made, stdout=subprocess.PIPE, check=True, text=True).stdout
    for name, written in (("clients", text), ("serial", "".join(of_banks(line.rstrip("\n")) for line in text.splitlines()))):
        with open(f"{folder}/{name}", "w", encoding="ascii") as file:
            file.write(written)
    turns = [tuple(cost(program, word, f"{folder}/{word}") for word in ("serial", "clients")) for _ in range(RUNS)]
    plain, desk = map(min, zip(*turns))
    return f"| {clients:,} | {commands:,} | {plain} | {desk} | {desk.seconds / plain.seconds:.2f} |"


def main() -> None:
    words = sys.argv[1:]
    program = os.path.abspath(words[0]) if words else f"{HERE}/crates/fx_cli/out/fx_cli"
    if not os.access(program, os.X_OK):
        sys.exit(f"bench/clients.py: no program at {program}; ./fx build makes it")
    print("| Clients | Commands | `serial` | `clients` | Ratio |")
    print("|" + "---|" * 5, flush=True)
    with tempfile.TemporaryDirectory(dir="/dev/shm") as folder:
        for commands in map(int, words[1:] or COMMANDS):
            for clients in CLIENTS:
                print(row(program, folder, commands, clients), flush=True)
    print(f"\nMachine: {machine()}.")


if __name__ == "__main__":
    main()
