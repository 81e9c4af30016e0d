#!/usr/bin/env python3
"""Measures the built program and prints the table of throughput in bench/RESULTS.md, with the machine: bench/results.py [PROGRAM [COMMANDS]].

PROGRAM is crates/fx_cli/out/fx_cli if none is given, and COMMANDS 1,000,000. Sessions and outputs are files in memory. The best of three runs counts, in
seconds by the clock; each output is checked. A last line says how busy the machine was: on one that has other work the figures mean little.
"""
import hashlib
import os
import re
import subprocess
import sys
import tempfile
import time

HERE = os.path.dirname(os.path.dirname(os.path.realpath(__file__)))
RUNS = 3
WORDS = ("serial", "run --workers 1", "run --workers 4")
# A name, banks, pairs, the kind of bench/make_session.py, and what it is.
SESSIONS = (
    ("rest", 16, 8, "rest", "orders that never cross, so that books grow deep"),
    ("orders", 16, 8, "orders", "day orders around one price"),
    ("thick", 16, 8, "thick", "all kinds, every fourth a credit change"),
    ("mixed", 16, 8, "mixed", "orders of every life, cancels, credit changes, books"),
    ("wide", 64, 32, "mixed", "the same kinds, of 64 banks in 32 pairs"),
)


def first(pattern: str, path: str) -> str:
    """The first thing that a pattern finds in a file of the system."""
    try:
        with open(path, encoding="utf-8") as file:
            found = re.search(pattern, file.read(), re.M)
    except OSError:
        return "unknown"
    return found[1].strip() if found else "unknown"


def machine() -> str:
    """The machine, in words."""
    model = first(r"^model name\s*:(.*)$", "/proc/cpuinfo")
    gigabytes = os.sysconf("SC_PAGE_SIZE") * os.sysconf("SC_PHYS_PAGES") / 2**30
    virtual = ", a virtual machine" if "hypervisor" in first(r"^flags\s*:(.*)$", "/proc/cpuinfo").split() else ""
    return f"{model}, {os.cpu_count()} processors, {gigabytes:.0f} GB{virtual}, Linux {os.uname().release}"


def timed(program: str, words: str, session: str, output: str) -> float:
    """The seconds that a run took."""
    with open(session, "rb") as source, open(output, "wb") as sink:
        started = time.monotonic()
        subprocess.run([program, *words.split()], stdin=source, stdout=sink, check=True)
        return time.monotonic() - started


def row(program: str, folder: str, commands: int, session: tuple) -> str:
    """The row of a session: the times of each way to run it, of the check of the last output, and commands a second."""
    name, banks, pairs, kind, what = session
    text, output = f"{folder}/in", f"{folder}/out"
    with open(text, "wb") as file:
        subprocess.run([sys.executable, f"{HERE}/bench/make_session.py", str(banks), str(pairs), str(commands), kind], stdout=file, check=True)
    times = [min(timed(program, words, text, output) for _ in range(RUNS)) for words in WORDS]
    if os.path.getsize(output) < 2**28:
        times.append(min(timed(program, "check", output, f"{folder}/verdict") for _ in range(RUNS)))
    told = [f"{seconds:.2f}" for seconds in times] + ["too long"] * (len(WORDS) + 1 - len(times))
    return f"| {name}: {what} | {' | '.join(told)} | {commands / times[0]:,.0f} |"


def main() -> None:
    program = sys.argv[1] if len(sys.argv) > 1 else f"{HERE}/crates/fx_cli/out/fx_cli"
    commands = int(sys.argv[2]) if len(sys.argv) > 2 else 1_000_000
    if not os.access(program, os.X_OK):
        sys.exit(f"bench/results.py: no program at {program}; ./fx build makes it")
    with open(program, "rb") as file:
        digest = hashlib.file_digest(file, "sha256").hexdigest()
    busy = os.getloadavg()[0]
    print(f"| {commands:,} commands | {' | '.join(f'`{words}`' for words in (*WORDS, 'check'))} | Commands a second, `serial` |")
    print("|" + "---|" * (len(WORDS) + 3), flush=True)
    with tempfile.TemporaryDirectory(dir="/dev/shm") as folder:
        for session in SESSIONS:
            print(row(program, folder, commands, session), flush=True)
    print(f"\nMachine: {machine()}. Program: SHA-256 {digest}. Measured on {time.strftime('%Y-%m-%d', time.gmtime())}; {busy:.1f} other tasks were running at the start.")


if __name__ == "__main__":
    main()
