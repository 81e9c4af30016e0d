"""The market in plain code, for trials: one list of orders, one table of what is used, and the output text of version 2.

Every command is a tuple whose first part is its sender: a bank's place in the header, or HOST.

  (bank, "ORDER", pair, buys, ticks, lots, life)   (bank, "CANCEL", pair, number)        (bank, "REDUCE", pair, number, lots)
  (bank, "PULL", pair)                             (bank, "LINE", other, limit)          (bank, "SHOW", other)
  (bank, "BOOK", pair)                             (bank, "TOTAL", limit)                (sender, "BAD", fault)
  (HOST, "SETTLE", a, b, units)
"""
from dataclasses import dataclass

HOST = 64
MOST_LEVELS = 10
WITHOUT_END = 10**18


@dataclass
class Pair:
    base: str
    quote: str
    decimals: int
    lot: int
    weight: int

    @property
    def name(self):
        return f"{self.base}/{self.quote}"

    def price(self, ticks):
        whole, part = divmod(ticks, 10**self.decimals)
        return f"{whole}.{part:0{self.decimals}}" if self.decimals else str(whole)


@dataclass
class Order:
    bank: int
    number: int
    pair: int
    buys: bool
    ticks: int
    left: int
    arrival: int


@dataclass
class Fill:
    taker: Order
    maker: Order
    lots: int
    ticks: int


class Market:
    """A day as it stands. `limits` is by two banks, `totals` by a bank that has one."""

    def __init__(self, banks, pairs, limits, totals):
        self.banks, self.pairs = banks, pairs
        self.opening = (dict(limits), dict(totals))
        self.limits, self.totals = dict(limits), dict(totals)
        self.orders, self.fills = [], []
        self.use = [[0] * len(banks) for _ in banks]
        self.sent = {sender: 0 for sender in [*range(len(banks)), HOST]}
        self.desks = {sender: [] for sender in self.sent}
        self.journal = []

    # Credit

    def limit(self, a, b):
        return self.limits.get((a, b), 0)

    def spent(self, bank):
        return sum(self.use[bank])

    def line(self, a, b):
        """What two banks can still trade on: what both limits leave, and no more than the total of either leaves."""
        rooms = [self.totals[bank] - self.spent(bank) for bank in (a, b) if bank in self.totals]
        return min(self.limit(a, b) - self.use[a][b], self.limit(b, a) - self.use[a][b], *rooms)

    def charge(self, a, b, units):
        self.use[a][b] += units
        self.use[b][a] += units

    # Sweeps

    def reach(self, a, b, pair):
        return self.line(a, b) // self.pairs[pair].weight

    def is_open(self, taker, order):
        crosses = order.ticks <= taker.ticks if taker.buys else order.ticks >= taker.ticks
        is_met = order.pair == taker.pair and order.buys != taker.buys and order.bank != taker.bank
        return is_met and crosses and order.arrival < taker.arrival and self.reach(taker.bank, order.bank, order.pair) > 0

    def sweep(self, taker):
        """The fills of a taker with the orders that rest, best price and earliest arrival first."""
        fills = []
        while taker.left:
            found = [order for order in self.orders if self.is_open(taker, order)]
            if not found:
                break
            best = min(found, key=lambda order: (order.ticks if taker.buys else -order.ticks, order.arrival))
            lots = min(taker.left, best.left, self.reach(taker.bank, best.bank, taker.pair))
            fills.append(Fill(taker, best, lots, best.ticks))
            self.charge(taker.bank, best.bank, lots * self.pairs[taker.pair].weight)
            taker.left -= lots
            best.left -= lots
            if not best.left:
                self.orders.remove(best)
        return fills

    def kept(self):
        return [(order, order.left) for order in self.orders], [list(row) for row in self.use]

    def put_back(self, kept):
        orders, self.use = kept
        self.orders = [order for order, _ in orders]
        for order, left in orders:
            order.left = left

    def levels(self, bank, pair, buys):
        """One side of a bank's local book: what an order without a limit would take, by price."""
        kept = self.kept()
        taker = Order(bank, 0, pair, buys, WITHOUT_END if buys else 0, WITHOUT_END, WITHOUT_END)
        lots = {}
        for fill in self.sweep(taker):
            lots[fill.ticks] = lots.get(fill.ticks, 0) + fill.lots
        self.put_back(kept)
        return "".join(f" {self.pairs[pair].price(ticks)} {count}" for ticks, count in list(lots.items())[:MOST_LEVELS])

    def book(self, bank, pair):
        return f"BIDS{self.levels(bank, pair, False)} ASKS{self.levels(bank, pair, True)}"

    def raise_all(self):
        """The fills of a credit change: each order that rests has its turn, pair by pair, by arrival."""
        fills = []
        for pair in range(len(self.pairs)):
            for order in [order for order in self.orders if order.pair == pair]:
                if order.left:
                    fills += self.sweep(order)
                    self.orders = [other for other in self.orders if other.left]
        return fills

    # Commands: each answers its line of the journal, the reply and the fills

    def order(self, sender, pair, buys, ticks, lots, life):
        kept = self.kept()
        taker = Order(sender, self.sent[sender], pair, buys, ticks, lots, len(self.journal))
        fills = self.sweep(taker)
        said = f"{'BUY' if buys else 'SELL'} {self.pairs[pair].name} {self.pairs[pair].price(ticks)} {lots} {life}"
        if life == "FOK" and taker.left:
            self.put_back(kept)
            return said, "KILLED", []
        if life == "DAY" and taker.left:
            self.orders.append(taker)
        return said, f"ORDERED {lots - taker.left} {taker.left if life == 'DAY' else 0}", fills

    def own(self, sender, pair, number):
        return [order for order in self.orders if (order.bank, order.pair, order.number) == (sender, pair, number)]

    def cancel(self, sender, pair, number):
        said, found = f"CANCEL {self.pairs[pair].name} {number}", self.own(sender, pair, number)
        if not found:
            return said, "NOTHING", []
        self.orders.remove(found[0])
        return said, f"CANCELLED {found[0].left}", []

    def reduce(self, sender, pair, number, lots):
        said, found = f"REDUCE {self.pairs[pair].name} {number} {lots}", self.own(sender, pair, number)
        if not found:
            return said, "NOTHING", []
        if lots >= found[0].left:
            return said, f"NOTLESS {found[0].left}", []
        found[0].left = lots
        return said, f"REDUCED {lots}", []

    def pull(self, sender, pair):
        rest = [order for order in self.orders if (order.bank, order.pair) != (sender, pair)]
        count, self.orders = len(self.orders) - len(rest), rest
        return f"PULL {self.pairs[pair].name}", f"PULLED {count}", []

    def set_line(self, sender, other, limit):
        self.limits[sender, other] = max(limit, self.use[sender][other])
        return f"LINE {self.banks[other]} {limit}", f"LIMIT {self.limits[sender, other]}", self.raise_all()

    def set_total(self, sender, limit):
        self.totals[sender] = max(limit, self.spent(sender))
        return f"TOTAL {limit}", f"TOTAL {self.totals[sender]}", self.raise_all()

    def settle(self, _sender, a, b, units):
        given = min(units, self.use[a][b])
        self.charge(a, b, -given)
        return f"SETTLE {self.banks[a]} {self.banks[b]} {units}", f"SETTLED {given}", self.raise_all()

    def show(self, sender, other):
        numbers = f"{self.limit(sender, other)} {self.use[sender][other]} {self.line(sender, other)}"
        return f"SHOW {self.banks[other]}", f"SHOWN {numbers}", []

    def ask_book(self, sender, pair):
        name = self.pairs[pair].name
        return f"BOOK {name}", f"BOOK {name} {self.book(sender, pair)}", []

    def bad(self, _sender, fault):
        return f"BAD {fault}", f"BAD {fault}", []

    def serve(self, sender, word, *fields):
        """Carries a command out."""
        calls = {
            "ORDER": self.order, "CANCEL": self.cancel, "REDUCE": self.reduce, "PULL": self.pull, "LINE": self.set_line, "TOTAL": self.set_total,
            "SETTLE": self.settle, "SHOW": self.show, "BOOK": self.ask_book, "BAD": self.bad,
        }
        self.sent[sender] += 1
        said, reply, fills = calls[word](sender, *fields)
        self.journal.append(f"{self.name(sender)} {said}")
        self.tell(sender, f"REPLY {self.sent[sender]} {reply}")
        for fill in fills:
            self.fills.append(fill)
            self.tell(fill.taker.bank, self.side_of(fill, fill.taker, fill.maker))
            self.tell(fill.maker.bank, self.side_of(fill, fill.maker, fill.taker))

    # The output

    def name(self, sender):
        return "HOST" if sender == HOST else self.banks[sender]

    def tell(self, sender, text):
        self.desks[sender].append(f"{len(self.desks[sender]) + 1} {text}")

    def amounts(self, fill):
        pair = self.pairs[fill.taker.pair]
        return fill.lots * pair.lot, fill.lots * (pair.lot // 10**pair.decimals) * fill.ticks

    def side_of(self, fill, own, other):
        pair, (base, quote) = self.pairs[own.pair], self.amounts(fill)
        side = "BUY" if own.buys else "SELL"
        return f"FILL {own.number} {side} {pair.name} {fill.lots} {pair.price(fill.ticks)} {self.banks[other.bank]} {base} {quote}"

    def header(self):
        limits, totals = self.opening
        yield "FXBOOK 2"
        yield from (f"BANK {name}" for name in self.banks)
        yield from (f"PAIR {pair.name} {pair.decimals} {pair.lot} {pair.weight}" for pair in self.pairs)
        yield from (f"LINE {self.banks[a]} {self.banks[b]} {limit}" for (a, b), limit in sorted(limits.items()) if limit)
        yield from (f"TOTAL {self.banks[bank]} {limit}" for bank, limit in sorted(totals.items()))
        yield "START"

    def nets(self):
        """Each bank's net of each currency, in the order in which the pairs first name them."""
        codes = list(dict.fromkeys(code for pair in self.pairs for code in (pair.base, pair.quote)))
        net = {(bank, code): 0 for bank in range(len(self.banks)) for code in codes}
        for fill in self.fills:
            pair, (base, quote) = self.pairs[fill.taker.pair], self.amounts(fill)
            buyer, seller = (fill.taker, fill.maker) if fill.taker.buys else (fill.maker, fill.taker)
            for bank, sign in ((buyer.bank, 1), (seller.bank, -1)):
                net[bank, pair.base] += sign * base
                net[bank, pair.quote] -= sign * quote
        return (f"NET {self.banks[bank]} {code} {amount}" for (bank, code), amount in net.items())

    def report(self):
        for place, pair in enumerate(self.pairs):
            fills = [fill for fill in self.fills if fill.taker.pair == place]
            sums = [sum(part) for part in zip(*map(self.amounts, fills))] or [0, 0]
            yield f"VOLUME {pair.name} {len(fills)} {sum(fill.lots for fill in fills)} {sums[0]} {sums[1]}"
        for a, name in enumerate(self.banks):
            for b in range(a + 1, len(self.banks)):
                yield f"USE {name} {self.banks[b]} {self.limit(a, b)} {self.limit(b, a)} {self.use[a][b]} {self.line(a, b)}"
        yield from self.nets()

    def output(self, strays):
        """The whole output of a day with so many strays."""
        lines = [*self.header(), f"JOURNAL {len(self.journal)}", *self.journal]
        for sender, notices in self.desks.items():
            lines += [f"DESK {self.name(sender)} {len(notices)}", *notices]
        places = [(bank, pair) for bank in range(len(self.banks)) for pair in range(len(self.pairs))]
        lines += ["BOOKS", *(f"{self.banks[bank]} {self.pairs[pair].name} {self.book(bank, pair)}" for bank, pair in places)]
        return "\n".join([*lines, "REPORT", *self.report(), f"STRAYS {strays}", "END", ""])
