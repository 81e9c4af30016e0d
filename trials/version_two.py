#!/usr/bin/env python3
"""Tries days of version 2 against a plain market: version_two.py [--days N] [--seed N] [--word WORD] [--program PATH] [--jobs N].

Each day (1,000 where none are given) is drawn from the seed: two to five banks, one to three pairs, lines and totals that run out
and grow again, settlements, lines that can't be read, strays. Its session is run by WORD (`serial` where none is given), and the
output has to be, byte for byte, what the market in plain_market.py says of the day; with `run`, whose order of commands is free, `check`
has to say YES of it. `check` has to say YES of each output, and NO of it with one command of the operator more or less. PROGRAM is the
built program, crates/fx_cli/out/fx_cli where none is given. The first day that differs is left in the folder that is named. It prints how
many days were tried, and how many fills, totals and settlements they had, and ends with status 1 where one differs.
"""
import argparse
import os
import random
import subprocess
import sys
import tempfile
from concurrent.futures import ProcessPoolExecutor

sys.dont_write_bytecode = True
from plain_market import HOST, Market, Pair

HERE = os.path.dirname(os.path.abspath(__file__))
NAMES = ["ALFA", "BETA", "GAMA", "DELT", "B2C"]
PAIRS = [Pair("EUR", "USD", 5, 1000000, 100), Pair("USD", "JPY", 3, 1000000, 92), Pair("AAA", "BBB", 0, 1, 7)]
FIRST_TICKS = 1000

# Lines that are bad, behind their sender, and the fault of each.
BAD_OF_BANK = [
    ("", 1), ("WAIT", 1), ("BAD 12", 1), ("SETTLE ALFA BETA 5", 1), ("HOST", 1), ("TOTAL", 2), ("TOTAL 1 2", 2), ("TOTAL ALFA 5", 2),
    ("TOTAL -1", 8), ("TOTAL 05", 8), ("TOTAL x", 8), ("TOTAL 1000000000000001", 8), ("LINE HOST 5", 7), ("SHOW HOST", 7),
    ("BOOK HOST", 3), ("BUY EUR/USD 0.01001 0 DAY", 6),
]
BAD_OF_HOST = [
    ("", 1), ("BUY", 1), ("BUY EUR/USD 0.01001 1 DAY", 1), ("PULL EUR/USD", 1), ("TOTAL 5", 1), ("BAD 12", 1), ("settle ALFA BETA 5", 1),
    ("SETTLE", 2), ("SETTLE ALFA BETA", 2), ("SETTLE ALFA BETA 5 5", 2), ("SETTLE ALFA ALFA 5", 7), ("SETTLE HOST ALFA 5", 7),
    ("SETTLE ALFA HOST 5", 7), ("SETTLE ALFA ZZZZ 0", 7), ("SETTLE BETA BETA 0", 7), ("SETTLE ALFA BETA 0", 12), ("SETTLE ALFA BETA 01", 12),
    ("SETTLE BETA ALFA 1000000000000001", 12), ("SETTLE BETA ALFA -5", 12),
]
LONG = "x" * 257
STRAYS = ["HOSTS SETTLE ALFA BETA 5", "ZZZZ TOTAL 5", "host SETTLE ALFA BETA 5", "END now"]


def draw_units(draw):
    return draw.choice((0, draw.randrange(500), draw.randrange(3000), draw.randrange(3000), draw.randrange(10000), 10**15))


def draw_market(draw):
    """A market that opens with lines between most banks, and with a total of about half of them."""
    banks = NAMES[: draw.choice((2, 3, 3, 4, 5))]
    pairs = PAIRS[: draw.choice((1, 2, 3))]
    places = range(len(banks))
    limits = {(a, b): draw_units(draw) if draw.random() < 0.3 else draw.choice((1000, 5000)) for a in places for b in places if a != b and draw.random() < 0.9}
    totals = {bank: draw_units(draw) for bank in places if draw.random() < 0.5}
    return Market(banks, pairs, limits, totals)


def draw_order(draw, market, bank, pair):
    life = draw.choice(("DAY", "DAY", "DAY", "IOC", "FOK"))
    return (bank, "ORDER", pair, draw.random() < 0.5, FIRST_TICKS + draw.randrange(5), draw.choice((1, 2, 3, draw.randrange(1, 30))), life)


def draw_command(draw, market):
    """A command that a line can say."""
    banks = len(market.banks)
    bank, pair = draw.randrange(banks), draw.randrange(len(market.pairs))
    other = draw.choice([place for place in range(banks) if place != bank])
    number = draw.randrange(1, market.sent[bank] + 2)
    kind = draw.random()
    if kind < 0.55:
        return draw_order(draw, market, bank, pair)
    if kind < 0.65:
        return (bank, "TOTAL", draw_units(draw))
    if kind < 0.77:
        return (HOST, "SETTLE", bank, other, max(1, draw_units(draw)))
    if kind < 0.83:
        return (bank, "LINE", other, draw_units(draw))
    rest = [(bank, "CANCEL", pair, number), (bank, "REDUCE", pair, number, draw.randrange(1, 5)), (bank, "PULL", pair), (bank, "SHOW", other), (bank, "BOOK", pair)]
    return draw.choice(rest)


def draw_bad(draw, market):
    """A line that is bad, and what it says."""
    sender = draw.choice([HOST, HOST, *range(len(market.banks))])
    if draw.random() < 0.05:
        return f"{market.name(sender)} {LONG}", (sender, "BAD", 11)
    text, fault = draw.choice(BAD_OF_HOST if sender == HOST else BAD_OF_BANK)
    return f"{market.name(sender)} {text}", (sender, "BAD", fault)


def draw_day(seed):
    """A market behind its day, and the text of the session."""
    draw = random.Random(seed)
    market = draw_market(draw)
    lines, strays = list(market.header()), 0
    for _ in range(draw.randrange(10, 60)):
        if draw.random() < 0.03:
            lines.append(draw.choice(STRAYS))
            strays += 1
            continue
        if draw.random() < 0.08:
            line, command = draw_bad(draw, market)
            market.serve(*command)
        else:
            market.serve(*draw_command(draw, market))
            line = market.journal[-1]
        lines.append(line)
    return market, "\n".join([*lines, "END", ""]), market.output(strays)


def run(program, words, text):
    return subprocess.run([program, *words], input=text.encode(), capture_output=True)


def turned(output):
    """An output with its last settlement taken out of the journal, or with one more; either is wrong."""
    lines = output.split("\n")
    places = [place for place, line in enumerate(lines) if line.startswith("HOST SETTLE ")]
    start = next(place for place, line in enumerate(lines) if line.startswith("JOURNAL "))
    count = int(lines[start].split()[1])
    if places:
        del lines[places[-1]]
    else:
        lines.insert(start + 1, "HOST SETTLE ALFA BETA 1")
    lines[start] = f"JOURNAL {count - 1 if places else count + 1}"
    return "\n".join(lines)


def fault_of(program, word, text, wanted):
    """What is wrong with what the program says of a day, or nothing."""
    told = run(program, word.split(), text)
    if told.returncode or told.stderr:
        return f"{word} ended with {told.returncode}: {told.stderr.decode()}"
    if word == "serial" and told.stdout.decode() != wanted:
        return f"{word} writes another output"
    if run(program, ["check"], told.stdout.decode()).stdout != b"YES\n":
        return f"check does not say YES of what {word} writes"
    if not run(program, ["check"], turned(told.stdout.decode())).stdout.startswith(b"NO "):
        return "check says YES of an output with another settlement"
    return ""


def try_day(job):
    """What is wrong with a day, and how many fills, totals and settlements it has."""
    program, word, seed = job
    market, text, wanted = draw_day(seed)
    fault = fault_of(program, word, text, wanted)
    words = [line.split()[1] for line in market.journal]
    return fault, seed, (len(market.fills), words.count("TOTAL"), words.count("SETTLE"))


def leave(seed):
    """Puts a day and what is wanted of it into a folder of their own."""
    _, text, wanted = draw_day(seed)
    folder = tempfile.mkdtemp(prefix="version_two_")
    for name, content in (("session.fx", text), ("wanted.out", wanted)):
        with open(f"{folder}/{name}", "w") as file:
            file.write(content)
    return folder


def main():
    words = argparse.ArgumentParser()
    words.add_argument("--days", type=int, default=1000)
    words.add_argument("--seed", type=int, default=1)
    words.add_argument("--word", default="serial")
    words.add_argument("--program", default=f"{HERE}/../crates/fx_cli/out/fx_cli")
    words.add_argument("--jobs", type=int, default=len(os.sched_getaffinity(0)))
    said = words.parse_args()
    sums, tried = (0, 0, 0), 0
    jobs = ((said.program, said.word, seed) for seed in range(said.seed, said.seed + said.days))
    with ProcessPoolExecutor(said.jobs) as pool:
        for fault, seed, counts in pool.map(try_day, jobs, chunksize=20):
            if fault:
                print(f"day {seed}: {fault}; see {leave(seed)}")
                pool.shutdown(cancel_futures=True)
                return 1
            sums, tried = tuple(map(sum, zip(sums, counts))), tried + 1
    print(f"{tried} days, {sums[0]} fills, {sums[1]} totals and {sums[2]} settlements: no difference")
    return 0


if __name__ == "__main__":
    sys.exit(main())
