#!/usr/bin/env python3
"""Measures `payments` beside `check` of the same outputs and prints the table of payments in bench/RESULTS.md, with the machine: bench/payments.py [PROGRAM].

PROGRAM is crates/fx_cli/out/fx_cli if none is given. Sessions and outputs are files in memory. The best of five runs counts, made by turns, in
seconds of processor time, which other work on the machine disturbs less than the clock's; beside it stand the most memory and, of `payments`, the share of
what `check` takes.
"""
import os
import subprocess
import sys
import tempfile
from typing import NamedTuple

HERE = os.path.dirname(os.path.dirname(os.path.realpath(__file__)))
sys.dont_write_bytecode = True
sys.path.insert(0, f"{HERE}/bench")
from results import machine  # noqa: E402

RUNS = 5
WORDS = ("check", "payments bilateral", "payments net")
# Banks, pairs, commands and the kind of bench/make_session.py.
SESSIONS = ((16, 8, 100_000, "orders"), (64, 32, 100_000, "mixed"), (16, 8, 1_000_000, "orders"), (64, 32, 1_000_000, "mixed"))


class Cost(NamedTuple):
    """The processor time of a run, in seconds, and its most memory, in MiB."""

    seconds: float
    memory: int


def cost(program: str, words: str, output: str) -> Cost:
    """What a run over an output costs. It has to find the output right."""
    with open(output, "rb") as source:
        run = subprocess.Popen([program, *words.split()], stdin=source, stdout=subprocess.DEVNULL)
        _, status, used = os.wait4(run.pid, 0)
    if status != 0:
        sys.exit(f"bench/payments.py: {words} ended with status {os.waitstatus_to_exitcode(status)}")
    return Cost(used.ru_utime + used.ru_stime, used.ru_maxrss // 1024)


def row(program: str, folder: str, session: tuple) -> str:
    """The row of a session: what each word costs on its output."""
    banks, pairs, commands, kind = session
    text, output = f"{folder}/in", f"{folder}/out"
    with open(text, "wb") as file:
        subprocess.run([sys.executable, f"{HERE}/bench/make_session.py", *map(str, session)], stdout=file, check=True)
    with open(text, "rb") as source, open(output, "wb") as sink:
        subprocess.run([program, "serial"], stdin=source, stdout=sink, check=True)
    turns = [[cost(program, words, output) for words in WORDS] for _ in range(RUNS)]
    check, *payments = map(min, zip(*turns))
    told = [f"{check.seconds:.2f} s, {check.memory} MiB", *(f"{one.seconds:.2f} s ({one.seconds / check.seconds:.2f}), {one.memory} MiB" for one in payments)]
    return f"| {kind}: {commands:,} commands of {banks} banks in {pairs} pairs, {os.path.getsize(output) / 1e6:.0f} MB | {' | '.join(told)} |"


def main() -> None:
    program = sys.argv[1] if len(sys.argv) > 1 else f"{HERE}/crates/fx_cli/out/fx_cli"
    if not os.access(program, os.X_OK):
        sys.exit(f"bench/payments.py: no program at {program}; ./fx build makes it")
    print(f"| Output | {' | '.join(f'`{words}`' for words in WORDS)} |")
    print("|" + "---|" * (len(WORDS) + 1), flush=True)
    with tempfile.TemporaryDirectory(dir="/dev/shm") as folder:
        for session in SESSIONS:
            print(row(program, folder, session), flush=True)
    print(f"\nMachine: {machine()}.")


if __name__ == "__main__":
    main()
