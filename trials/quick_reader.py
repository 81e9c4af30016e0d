#!/usr/bin/env python3
"""Tries the two readers of command lines against each other: quick_reader.py [--lines N] [--seed N] [--program PATH].

A command in its one spelling is read in one pass; any other line is cut into fields. A blank before a line changes nothing that
it says, but takes it to the second reader. So a session of N random lines (1,000,000 where none are given), most of them near to
a command, has to have the same output with a blank before each line as without. The lines are given to `serial`, 100,000 a
session; PROGRAM is the built program, crates/fx_cli/out/fx_cli where none is given. It prints how many lines were commands, bad
ones and strays, and ends with status 1 where two outputs differ.
"""
import argparse
import os
import random
import subprocess
import sys

HERE = os.path.dirname(os.path.abspath(__file__))
BANKS = ["ALFA", "BETA", "GAMA", "B2C", "LONGNAME", "BUY", "EURUSD"]
PAIRS = [("EUR/USD", 5), ("USD/JPY", 3), ("AAA/BBB", 0), ("GBP/USD", 6), ("CHF/SEK", 1)]
WORDS = ["BUY", "SELL", "CANCEL", "REDUCE", "PULL", "LINE", "SHOW", "BOOK"]
LIVES = ["DAY", "IOC", "FOK"]
A_SESSION = 100_000
BYTES = [bytes([byte]) for byte in b" \t\r#.,-+/:0123456789ABENDSUYXabz\x00\x0b\x7f\xff"]


def head():
    lines = ["FXBOOK 1", *("BANK " + bank for bank in BANKS)]
    lines += ["PAIR %s %d 1000000 100" % pair for pair in PAIRS]
    lines += ["LINE %s %s 100000000" % (a, b) for a in BANKS for b in BANKS if a != b]
    return ("\n".join([*lines, "START"]) + "\n").encode()


def price(draw, decimals):
    ticks = draw.choice((draw.randrange(1, 10**6), draw.randrange(90_000, 110_000), 0, 1, 10**9, 10**9 + 1))
    if decimals == 0:
        return str(ticks)
    whole, part = divmod(ticks, 10**decimals)
    return "%d.%0*d" % (whole, decimals, part)


def number(draw, most):
    return str(draw.choice((1, 2, draw.randrange(1, 100), most, most + 1, 0, draw.randrange(most + 2))))


def command(draw):
    """The fields of a command, near to right."""
    word = draw.choice(WORDS)
    pair, decimals = draw.choice(PAIRS)
    fields = [draw.choice(BANKS), word]
    if word in ("LINE", "SHOW"):
        return fields + [draw.choice(BANKS)] + ([number(draw, 10**15)] if word == "LINE" else [])
    fields.append(pair)
    if word in ("BUY", "SELL"):
        if draw.random() < 0.05:
            decimals = draw.randrange(7)
        fields += [price(draw, decimals), number(draw, 10**6), draw.choice(LIVES)]
    elif word in ("CANCEL", "REDUCE"):
        fields.append(number(draw, 2**32 - 1))
        if word == "REDUCE":
            fields.append(number(draw, 10**6))
    return fields


def changed(draw, text):
    """A text with one to three bytes changed, added, gone or doubled."""
    for _ in range(draw.choice((1, 1, 1, 2, 3))):
        at = draw.randrange(len(text) + 1)
        how = draw.randrange(4)
        there = text[at : at + 1]
        text = text[:at] + (draw.choice(BYTES), draw.choice(BYTES) + there, b"", there * 2)[how] + text[at + 1 :]
    return text


def line(draw):
    fields = command(draw)
    kind = draw.random()
    if kind < 0.4:
        return " ".join(fields).encode()
    if kind < 0.5:
        draw.choice((fields.pop, fields.reverse, lambda: fields.append("1"), lambda: fields.insert(2, "")))()
        return " ".join(fields).encode()
    if kind < 0.6:
        at = draw.randrange(len(fields))
        fields[at] = draw.choice(("0" + fields[at], fields[at].lower(), fields[at] + fields[at], draw.choice(WORDS), "DELT", "+1", ""))
        return " ".join(fields).encode()
    if kind < 0.62:
        return " ".join(fields).encode() + draw.choice((b" ", b"\t", b"\r", b" x", b"0")) * draw.randrange(1, 300)
    if kind < 0.64:
        return draw.choice((b"", b"#", b"END now", b" ", b"ENDING", b"FXBOOK 1", b"START"))
    return changed(draw, " ".join(fields).encode())


def outputs(program, lines):
    """The outputs of a session of these lines, without and with a blank before each."""
    told = []
    for front in (b"", b" "):
        session = head() + b"".join(front + one + b"\n" for one in lines) + b"END\n"
        ran = subprocess.run([program, "serial"], input=session, stdout=subprocess.PIPE)
        told.append((ran.returncode, ran.stdout))
    return told


def main():
    words = argparse.ArgumentParser()
    words.add_argument("--lines", type=int, default=1_000_000)
    words.add_argument("--seed", type=int, default=1)
    words.add_argument("--program", default=os.path.join(HERE, "../crates/fx_cli/out/fx_cli"))
    words = words.parse_args()
    draw = random.Random(words.seed)
    good = bad = strays = left = 0
    total = words.lines
    while total > left:
        count = min(A_SESSION, total - left)
        left += count
        # The END line is last, and a line that is long with a blank before it would say another thing.
        lines = [one for one in (line(draw).replace(b"\n", b"") for _ in range(count)) if len(one) < 256 and one.split() != [b"END"]]
        plain, blank = outputs(words.program, lines)
        if plain != blank or plain[0] != 0:
            at = next((i for i, (a, b) in enumerate(zip(plain[1], blank[1])) if a != b), min(len(plain[1]), len(blank[1])))
            print(f"quick_reader: the outputs differ at offset {at}; status {plain[0]} and {blank[0]}")
            return 1
        journal = plain[1].split(b"\nDESK ", 1)[0].split(b"\nJOURNAL ", 1)[1].split(b"\n")[1:]
        bad += sum(b" BAD " in one for one in journal)
        good += sum(b" BAD " not in one for one in journal)
        strays += int(plain[1].rsplit(b"STRAYS ", 1)[1].split()[0])
    print(f"{total} lines, seed {words.seed}: {good} commands, {bad} bad ones, {strays} strays; the readers agree")
    return 0


if __name__ == "__main__":
    sys.exit(main())
