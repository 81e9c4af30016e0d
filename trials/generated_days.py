#!/usr/bin/env python3
"""Plays generated days of version 2 at each host: generated_days.py [--days N] [--first N] [--jobs N] [--program PATH].

So many days (100,000 where none are given), with totals and settlements, are played at the plain host, at the host over the pair books
and at both desks, by the program of host_trials, crates/host_trials/out/host_trials where none is given. The hosts have to tell each
day alike and to stand alike behind it. Each day is one of a number; the first has 0, or the one that is given. It runs at low
priority, with as many days at once as jobs. It prints how many days were played and on how many there were fills, or the first day
that is not told alike, and why, and ends with status 1 then.
"""
import argparse
import os
import re
import subprocess
import sys
from concurrent.futures import ThreadPoolExecutor

HERE = os.path.dirname(os.path.abspath(__file__))
AT_ONCE = 1000


def play(program, first, count):
    """On how many of these days there were fills, or what is wrong with one of them."""
    told = subprocess.run([program, "days", str(first), str(count)], capture_output=True, text=True)
    found = re.fullmatch(rf"{count} days, (\d+) of them with fills: no difference\n", told.stdout)
    if told.returncode == 0 and found:
        return int(found[1]), ""
    return 0, told.stdout.strip() or f"days {first} to {first + count - 1}: status {told.returncode}"


def main():
    words = argparse.ArgumentParser()
    words.add_argument("--days", type=int, default=100_000)
    words.add_argument("--first", type=int, default=0)
    words.add_argument("--jobs", type=int, default=len(os.sched_getaffinity(0)))
    words.add_argument("--program", default=f"{HERE}/../crates/host_trials/out/host_trials")
    said = words.parse_args()
    os.nice(10)
    end = said.first + said.days
    parts = [(first, min(AT_ONCE, end - first)) for first in range(said.first, end, AT_ONCE)]
    filled = 0
    with ThreadPoolExecutor(said.jobs) as pool:
        for found, fault in pool.map(lambda part: play(said.program, *part), parts):
            if fault:
                print(fault)
                pool.shutdown(cancel_futures=True)
                return 1
            filled += found
    print(f"{said.days} days, {filled} of them with fills: no difference")
    return 0


if __name__ == "__main__":
    sys.exit(main())
