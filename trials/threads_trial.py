#!/usr/bin/env python3
"""Runs generated sessions on threads, and has each output judged: threads_trial.py [--sessions N | --minutes M] [--commands N].

Each session goes through `run` with 1, 2, 4, 16 or 64 workers in turn. Three kinds take turns: 64 banks and 32 pairs with
commands of all kinds; the same with credit changes so thick that they meet orders in every pair; and two banks whose one line
is raced by 32 pairs. An output is right where `check` says YES to it and its journal has just the session's commands, each
bank's in its order. The built program is wanted (./fx build), or another by --program PATH.
"""
import argparse
import os
import subprocess
import sys
import time

HERE = os.path.dirname(os.path.abspath(__file__))
WORKERS = (1, 2, 4, 16, 64)
KINDS = (("64", "32", "mixed"), ("64", "32", "thick"), ("2", "32", "raced"), ("16", "4", "thick"))


def session(banks, pairs, commands, kind, seed):
    words = [sys.executable, os.path.join(HERE, "..", "bench", "make_session.py"), banks, pairs, str(commands), kind, str(seed)]
    return subprocess.run(words, stdout=subprocess.PIPE, check=True).stdout


def by_bank(lines):
    """Each bank's lines, in order. A bad line is told by its bank alone, since the journal keeps only its reason."""
    streams = {}
    for line in lines:
        fields = line.split()
        bad = fields[1] == b"BAD" or (fields[1] == b"SHOW" and len(fields) == 2)
        streams.setdefault(fields[0], []).append(b"BAD" if bad else b" ".join(fields))
    return streams


def commands_of(text):
    lines = text.split(b"\n")
    lines = lines[lines.index(b"START") + 1 : lines.index(b"END")]
    return by_bank(line for line in lines if line and not line.startswith(b"#"))


def journal_of(output):
    lines = output.split(b"\n")
    place, count = next((at, int(line.split()[1])) for at, line in enumerate(lines) if line.startswith(b"JOURNAL "))
    return by_bank(lines[place + 1 : place + 1 + count])


def is_right(program, text, workers):
    ran = subprocess.run([program, "run", "--workers", str(workers)], input=text, stdout=subprocess.PIPE, stderr=subprocess.PIPE)
    if ran.returncode or ran.stderr:
        return f"status {ran.returncode}, {ran.stderr!r}"
    checked = subprocess.run([program, "check"], input=ran.stdout, stdout=subprocess.PIPE)
    if checked.stdout != b"YES\n":
        return f"check said {checked.stdout!r}"
    return None if journal_of(ran.stdout) == commands_of(text) else "the journal has other commands"


def main():
    words = argparse.ArgumentParser(description=__doc__, formatter_class=argparse.RawDescriptionHelpFormatter)
    words.add_argument("--program", default=os.path.join(HERE, "..", "crates", "fx_cli", "out", "fx_cli"))
    words.add_argument("--sessions", type=int, default=200)
    words.add_argument("--minutes", type=float)
    words.add_argument("--commands", type=int, default=2000)
    words.add_argument("--first", type=int, default=1, help="the first session's number")
    told = words.parse_args()
    started, number, wrong = time.monotonic(), 0, 0
    counts = {}
    while time.monotonic() < started + told.minutes * 60 if told.minutes else number < told.sessions:
        banks, pairs, kind = KINDS[number % len(KINDS)]
        workers = WORKERS[number // len(KINDS) % len(WORKERS)]
        seed = told.first + number
        fault = is_right(told.program, session(banks, pairs, told.commands, kind, seed), workers)
        if fault:
            wrong += 1
            print(f"wrong: bench/make_session.py {banks} {pairs} {told.commands} {kind} {seed}, {workers} workers: {fault}")
        counts[kind, workers] = counts.get((kind, workers), 0) + 1
        number += 1
    for (kind, workers), count in sorted(counts.items()):
        print(f"{kind:6} {workers:3} workers: {count} sessions")
    print(f"{number} sessions of {told.commands} commands in {time.monotonic() - started:.0f} s, {wrong} wrong")
    sys.exit(wrong > 0)


main()
