#!/usr/bin/env python3
"""What a command costs in one pair's book that holds many orders: bench/pair_books.py PROGRAM [OTHER] [--places N,..].

PROGRAM is a built program, as crates/fx_cli/out/fx_cli; OTHER is another that reads the same sessions. Books of 10^3, 10^4 and 10^5
resting orders, or of --places, are made in two shapes: `deep`, two banks with an order at each price, and `wide`, 64 banks at 100
prices a side. On each come 20,000 commands of one kind, and a run without them is taken off (processor time, the least of three runs):

  rest     an order rests at a random price (the time of a resting order while the book is filled)
  replace  a random order is cancelled, and another rests at its price: two commands
  take     an order that takes one lot at the best price
  book     a local book

Printed are microseconds a command, and with OTHER its own and the ratio.
"""
import argparse
import os
import random
import resource
import subprocess
import tempfile

COMMANDS = 20_000
MID = 500_000
# How many banks have orders, and over how many prices of a side; None: a price for each order.
SHAPES = {"deep": (2, None), "wide": (64, 100)}


def bank(number):
    return f"B{number:02}"


def price(ticks):
    return f"{ticks // 100000}.{ticks % 100000:05}"


def header(banks):
    # The last bank takes and looks; it has orders of its own only where there is no bank behind those with orders.
    names = [bank(number) for number in range(min(banks + 1, 64))]
    lines = ["FXBOOK 1", *(f"BANK {name}" for name in names), "PAIR EUR/USD 5 1000000 100"]
    lines += [f"LINE {one} {other} 1000000000000000" for one in names for other in names if one != other]
    return lines + ["START"], names[-1]


class Book:
    """The orders that rest, and the commands that made them so."""

    def __init__(self, shape, places, seed=1):
        self.rng = random.Random(f"{shape} {places} {seed}")
        self.banks, self.prices = SHAPES[shape]
        self.places = places
        self.lines, self.sender = header(self.banks)
        self.sent = {}
        self.resting = []
        for _ in range(places):
            self.lines.append(self.rest())

    def count(self, name):
        self.sent[name] = self.sent.get(name, 0) + 1
        return self.sent[name]

    def rest(self, ticks=None, side=None):
        name = bank(self.rng.randrange(self.banks))
        side = side or self.rng.choice(("BUY", "SELL"))
        if ticks is None:
            far = 1 + self.rng.randrange(self.prices or self.places)
            ticks = MID - far if side == "BUY" else MID + far
        self.resting.append((name, self.count(name), side, ticks))
        return f"{name} {side} EUR/USD {price(ticks)} 1000000 DAY"

    def replace(self):
        at = self.rng.randrange(len(self.resting))
        self.resting[at], self.resting[-1] = self.resting[-1], self.resting[at]
        name, number, side, ticks = self.resting.pop()
        self.count(name)
        return [f"{name} CANCEL EUR/USD {number}", self.rest(ticks, side)]

    def take(self):
        self.count(self.sender)
        side, ticks = self.rng.choice((("BUY", 999_999), ("SELL", 1)))
        return [f"{self.sender} {side} EUR/USD {price(ticks)} 1 IOC"]

    def book(self):
        self.count(self.sender)
        return [f"{self.sender} BOOK EUR/USD"]


def seconds(program, lines, folder):
    """The least processor time of three runs."""
    path = os.path.join(folder, "in")
    with open(path, "w", encoding="ascii") as file:
        file.write("\n".join(lines + ["END", ""]))
    times = []
    for _ in range(3):
        before = resource.getrusage(resource.RUSAGE_CHILDREN)
        with open(path, "rb") as source, open(os.devnull, "wb") as sink:
            subprocess.run([program, "serial"], stdin=source, stdout=sink, check=True)
        after = resource.getrusage(resource.RUSAGE_CHILDREN)
        times.append(after.ru_utime + after.ru_stime - before.ru_utime - before.ru_stime)
    return min(times)


def costs(program, shape, places, folder):
    """Microseconds of a command of each kind."""
    empty = seconds(program, header(SHAPES[shape][0])[0], folder)
    filled = seconds(program, Book(shape, places).lines, folder)
    yield "rest", (filled - empty) / places
    for kind in ("replace", "take", "book"):
        book = Book(shape, places)
        make = getattr(book, kind)
        for _ in range(COMMANDS):
            book.lines += make()
        yield kind, (seconds(program, book.lines, folder) - filled) / COMMANDS


def main():
    reader = argparse.ArgumentParser()
    reader.add_argument("program")
    reader.add_argument("other", nargs="?")
    reader.add_argument("--places", default="1000,10000,100000")
    words = reader.parse_args()
    with tempfile.TemporaryDirectory() as folder:
        for shape in SHAPES:
            for places in map(int, words.places.split(",")):
                mine = list(costs(words.program, shape, places, folder))
                theirs = dict(costs(words.other, shape, places, folder)) if words.other else {}
                for kind, cost in mine:
                    line = f"{shape} {places:>7} {kind:<8} {cost * 1e6:8.2f}"
                    if kind in theirs:
                        other = max(theirs[kind], 1e-9)
                        line += f" {other * 1e6:8.2f} {cost / other:6.1f}"
                    print(line, flush=True)


if __name__ == "__main__":
    main()
