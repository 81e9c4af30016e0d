#!/usr/bin/env python3
"""Writes a session text: make_session.py BANKS PAIRS COMMANDS [KIND [SEED [CLIENTS]]].

KIND is `orders` (DAY orders around one price; the default), `rest` (DAY orders that never cross, so that books grow deep),
`mixed` (orders of every life, cancels, credit changes, books), `thick` (commands of all kinds, every fourth a credit change
that orders are waiting for), `raced` (orders in all pairs for lines that are soon used up and raised a little at a time),
`raise` (a deep book without credit, and then one credit change between the first two banks), or `long` (such a raise with 150
fills, ten levels of a book, and then orders and a book after each thousand), `clients` (the orders of `orders`, each sent by one of
CLIENTS clients, 16 if none is given, whose limits they never meet), or `totals` (a session of version 2: what `mixed` has, every second
bank with a total that runs out, and of 16 commands one a total and one a settlement). The same arguments give the same text.
"""
import random
import sys


def name(bank):
    return f"B{bank + 1:02}"


def pair(index):
    return f"A{chr(65 + index // 26)}{chr(65 + index % 26)}/ZZZ"


def price(ticks):
    return f"{ticks // 100}.{ticks % 100:02}"


def header(out, banks, pairs, limits, totals=None):
    """Adds the header; of version 2 where there are totals, one for each bank that has one."""
    out.append("FXBOOK 1" if totals is None else "FXBOOK 2")
    out += [f"BANK {name(bank)}" for bank in range(banks)]
    out += [f"PAIR {pair(index)} 2 1000 {10 + index}" for index in range(pairs)]
    lines = ((i, j, limits(i, j)) for i in range(banks) for j in range(banks) if i != j)
    out += [f"LINE {name(i)} {name(j)} {limit}" for i, j, limit in lines if limit]
    out += [f"TOTAL {name(bank)} {total}" for bank, total in (totals or {}).items()]
    out.append("START")


def order(rng, banks, pairs, life="DAY"):
    side = rng.choice(["BUY", "SELL"])
    ticks = 9950 + rng.randrange(101)
    return f"{name(rng.randrange(banks))} {side} {pair(rng.randrange(pairs))} {price(ticks)} {1 + rng.randrange(20)} {life}"


def resting(rng, banks, pairs):
    side = rng.choice(["BUY", "SELL"])
    ticks = 9000 + rng.randrange(900) if side == "BUY" else 10100 + rng.randrange(900)
    return f"{name(rng.randrange(banks))} {side} {pair(rng.randrange(pairs))} {price(ticks)} {1 + rng.randrange(20)} DAY"


def mixed(rng, banks, pairs, number):
    kind = rng.randrange(16)
    bank = rng.randrange(banks)
    if kind < 10:
        return order(rng, banks, pairs)
    if kind < 12:
        return order(rng, banks, pairs, "IOC" if kind == 10 else "FOK")
    if kind == 12:
        return f"{name(bank)} CANCEL {pair(rng.randrange(pairs))} {1 + rng.randrange(max(1, number // banks))}"
    if kind == 13:
        other = (bank + 1 + rng.randrange(banks - 1)) % banks
        return f"{name(bank)} LINE {name(other)} {1000 * rng.randrange(21)}"
    if kind == 14:
        return f"{name(bank)} PULL {pair(rng.randrange(pairs))}"
    return f"{name(bank)} BOOK {pair(rng.randrange(pairs))}"


def with_totals(rng, banks, pairs, number):
    kind = rng.randrange(16)
    bank = rng.randrange(banks)
    if kind == 0:
        return f"{name(bank)} TOTAL {20 * number + rng.randrange(20000)}"
    if kind == 1:
        other = (bank + 1 + rng.randrange(banks - 1)) % banks
        return f"HOST SETTLE {name(bank)} {name(other)} {1 + rng.randrange(2000)}"
    return mixed(rng, banks, pairs, number)


def thick(rng, banks, pairs, number):
    bank = rng.randrange(banks)
    other = (bank + 1 + rng.randrange(banks - 1)) % banks
    kind = rng.randrange(24)
    if kind < 6:
        return f"{name(bank)} LINE {name(other)} {rng.choice([0, 200, 500, 1000, 5000])}"
    if kind < 15:
        return order(rng, banks, pairs)
    if kind < 17:
        return order(rng, banks, pairs, "IOC" if kind == 15 else "FOK")
    named = f"{pair(rng.randrange(pairs))} {1 + rng.randrange(max(1, number // banks))}"
    return [
        f"{name(bank)} CANCEL {named}",
        f"{name(bank)} REDUCE {named} {1 + rng.randrange(10)}",
        f"{name(bank)} PULL {pair(rng.randrange(pairs))}",
        f"{name(bank)} SHOW {name(other)}",
        f"{name(bank)} BOOK {pair(rng.randrange(pairs))}",
        f"{name(bank)} SHOW",
        f"# {number}",
    ][kind - 17]


def raced(rng, banks, pairs, number):
    bank = rng.randrange(banks)
    if number % 16 == 0:
        other = (bank + 1 + rng.randrange(banks - 1)) % banks
        return f"{name(bank)} LINE {name(other)} {100 + 20 * number // banks}"
    return order(rng, banks, pairs, rng.choice(["DAY", "IOC"]))


def long_day(rng, banks, pairs, commands):
    first, second = name(0), name(1)
    yield from (f"{first} SELL {pair(0)} {price(9000 + place)} 1 DAY" for place in range(150))
    yield from (f"{second} BUY {pair(0)} {price(9200)} 1 DAY" for _ in range(150))
    yield from (f"{one} LINE {other} 1000000000000" for one, other in ((first, second), (second, first)))
    yield from (f"{first} SELL {pair(0)} {price(20000 + place)} 2 DAY" for place in range(12))
    yield f"{second} BOOK {pair(0)}"
    for number in range(commands):
        yield f"{second} BOOK {pair(0)}" if number % 1000 == 999 else order(rng, banks, pairs)


def of_clients(rng, banks, pairs, commands, clients):
    owned = [f"{name(place % banks)}:C{place // banks:03}" for place in range(clients)]
    for owner in owned:
        bank, own = owner.split(":")
        yield f"CLIENT: {bank} {own} {10**15}"
    for _ in range(commands):
        bank, rest = order(rng, banks, pairs).split(" ", 1)
        mine = owned[int(bank[1:]) - 1 :: banks]
        yield f"{rng.choice(mine)} {rest}" if mine else f"{bank} {rest}"


def main():
    banks, pairs, commands = (int(word) for word in sys.argv[1:4])
    kind = sys.argv[4] if len(sys.argv) > 4 else "orders"
    rng = random.Random(int(sys.argv[5]) if len(sys.argv) > 5 else 1)
    out = []
    amounts = {(i, j): 1000 * (1 + rng.randrange(20)) for i in range(banks) for j in range(banks)}
    limits = {
        "raise": lambda i, j: 0,
        "long": lambda i, j: 0,
        "thick": lambda i, j: rng.choice([0, 300, 3000]),
        "raced": lambda i, j: 100,
    }.get(kind, lambda i, j: 100 * amounts[i, j])
    header(out, banks, pairs, limits, {bank: 10000 for bank in range(0, banks, 2)} if kind == "totals" else None)
    if kind == "orders":
        out += [order(rng, banks, pairs) for _ in range(commands)]
    elif kind == "rest":
        out += [resting(rng, banks, pairs) for _ in range(commands)]
    elif kind == "mixed":
        out += [mixed(rng, banks, pairs, number) for number in range(commands)]
    elif kind == "totals":
        out += [with_totals(rng, banks, pairs, number) for number in range(commands)]
    elif kind == "thick":
        out += [thick(rng, banks, pairs, number) for number in range(commands)]
    elif kind == "raced":
        out += [raced(rng, banks, pairs, number) for number in range(commands)]
    elif kind == "long":
        out += long_day(rng, banks, pairs, commands)
    elif kind == "clients":
        out += of_clients(rng, banks, pairs, commands, int(sys.argv[6]) if len(sys.argv) > 6 else 16)
    elif kind == "raise":
        out += [order(rng, banks, pairs) for _ in range(commands)]
        out += [f"{name(0)} LINE {name(1)} 1000000", f"{name(1)} LINE {name(0)} 1000000"]
    else:
        sys.exit(__doc__)
    out.append("END")
    print("\n".join(out))


main()
