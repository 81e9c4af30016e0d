"""Makes the rows of an output's tables while the text is read. What is held grows by some bytes for each command and fill alone."""
from array import array
from collections import defaultdict
from collections.abc import Sequence
from typing import Protocol

from reading.command_line import Failed
from reading.market import Header, Pair
from reading.output import (
    Entry, Fill, Lines, Matching, Place, Reply, read_books, read_count, read_desk, read_end, read_entries, read_header, read_nets, read_notices, read_uses, read_volumes,
)

WRONG = 1
BATCH = 4096


class Sink(Protocol):
    def write(self, table: str, rows: Sequence[Sequence]) -> None: ...


def wrong(what: str) -> Failed:
    return Failed(f"this is not a right output, as ./fx check will say: {what}", WRONG)


class Rows:
    """The rows of an output, handed on to a sink in batches."""

    def __init__(self, lines: Lines, sink: Sink):
        self.lines, self.sink, self.waiting = lines, sink, defaultdict(list)
        self.header, self.places, self.traded = Header(), [], []

    def put(self, table: str, row: Sequence) -> None:
        rows = self.waiting[table]
        rows.append(row)
        if len(rows) >= BATCH:
            self.sink.write(table, rows)
            rows.clear()

    def flush(self) -> None:
        for table, rows in self.waiting.items():
            self.sink.write(table, rows)
        self.waiting.clear()

    def take_header(self) -> None:
        self.header = header = read_header(self.lines)
        for place, bank in enumerate(header.banks, 1):
            self.put("banks", (bank, place))
        for place, sender in enumerate(header.senders, 1):
            self.put("senders", (sender, place))
        for place, code in enumerate(header.currencies, 1):
            self.put("currencies", (code, place))
        for place, pair in enumerate(header.pairs, 1):
            self.put("pairs", (pair.name, place, pair.base, pair.quote, pair.decimals, pair.lot, pair.weight))
        for (giver, taker), limit in header.opening.items():
            self.put("opening_limits", (header.banks[giver], header.banks[taker], limit))
        for bank, total in header.totals.items():
            self.put("opening_totals", (header.banks[bank], total))

    def take_journal(self) -> int:
        """Makes a row of each command, and notes the entries of each sender; answers how many there are."""
        header, self.places = self.header, [array("I") for _ in self.header.senders]
        count = read_count(self.lines)
        for place, entry in enumerate(read_entries(self.lines, header, count)):
            self.places[entry.bank].append(place)
            self.put("commands", (place + 1, header.senders[entry.bank], len(self.places[entry.bank]), *command_row(self.lines, header, entry)))
        return count

    def take_desks(self) -> None:
        """Makes a row of each notice, and one of each fill, once both of its notices were read."""
        header, matching = self.header, Matching(self.places)
        self.traded = [[0, 0, 0, 0] for _ in header.pairs]
        for bank, name in enumerate(header.senders):
            matching.open_desk()
            count = read_desk(self.lines, header, bank)
            for notice in read_notices(self.lines, header, bank, count, len(self.places[bank])):
                if isinstance(notice, Fill):
                    self.put("notices", fill_notice_row(header, name, notice))
                    self.take_fill(bank, notice, matching.told(bank, notice))
                else:
                    self.put("notices", reply_row(name, notice))
            for other, there, here in matching.close_desk(bank):
                raise wrong(f"{header.banks[other]} and {name} were told of {there} and {here} fills with each other")

    def take_fill(self, bank: int, fill: Fill, place: Place | None) -> None:
        if place is None:
            return
        self.put("fills", fill_row(self.header, bank, fill, place))
        sums = self.traded[fill.pair]
        for at, amount in enumerate((1, fill.lots, fill.base, fill.quote)):
            sums[at] += amount

    def take_books(self) -> None:
        for bank, at, bids, asks in read_books(self.lines, self.header):
            pair = self.header.pairs[at]
            for side, levels in (("BID", bids), ("ASK", asks)):
                for level, (price, lots) in enumerate(zip(levels[::2], levels[1::2]), 1):
                    self.put("book_levels", (self.header.banks[bank], pair.name, side, level, price, self.ticks(pair, price.encode()), int(lots)))

    def ticks(self, pair: Pair, price: bytes) -> int:
        ticks = pair.ticks(price) if price.count(b".") < 2 else None
        if ticks is None:
            raise self.lines.bad(f"no price with the {pair.decimals} decimals of {pair.name}")
        return ticks

    def take_report(self) -> None:
        header = self.header
        for pair, volume, traded in zip(header.pairs, read_volumes(self.lines, header), self.traded):
            if list(volume) != traded:
                raise wrong(f"the volume of {pair.name} is not what the desks' fills add up to")
            self.put("volumes", (pair.name, *volume))
        for first, second, *amounts in read_uses(self.lines, header):
            self.put("uses", (header.banks[first], header.banks[second], *amounts))
        for bank, code, amount in read_nets(self.lines, header):
            self.put("nets", (header.banks[bank], code, amount))


def command_row(lines: Lines, header: Header, entry: Entry) -> tuple:
    """The columns of a command from its kind on."""
    word, parts = entry.word.decode(), entry.parts
    pair = price = ticks = lots = life = target = other = second = amount = fault = None
    if word in ("BUY", "SELL"):
        pair, price, lots, life = parts[1].decode(), parts[2].decode(), int(parts[3]), parts[4].decode()
        ticks = header.pairs[header.pair_at[parts[1]]].ticks(parts[2]) if parts[1] in header.pair_at else None
        if ticks is None:
            raise lines.bad("no such pair, or no price with its decimals")
    elif word in ("CANCEL", "REDUCE"):
        pair, target, lots = parts[1].decode(), int(parts[2]), int(parts[3]) if word == "REDUCE" else None
    elif word in ("PULL", "BOOK"):
        pair = parts[1].decode()
    elif word in ("LINE", "SHOW"):
        other, amount = parts[1].decode(), int(parts[2]) if word == "LINE" else None
    elif word == "TOTAL":
        amount = int(parts[1])
    elif word == "SETTLE":
        other, second, amount = parts[1].decode(), parts[2].decode(), int(parts[3])
    else:
        fault = int(parts[1])
    return word, pair, price, ticks, lots, life, target, other, second, amount, fault


def reply_row(bank: str, reply: Reply) -> tuple:
    """The row of a reply."""
    filled = left = pulled = amount = used = line = fault = pair = bids = asks = None
    kind, numbers = reply.kind, reply.numbers
    if kind == "ORDERED":
        filled, left = numbers
    elif kind in ("CANCELLED", "REDUCED", "NOTLESS"):
        left = numbers[0]
    elif kind == "PULLED":
        pulled = numbers[0]
    elif kind in ("LIMIT", "TOTAL", "SETTLED"):
        amount = numbers[0]
    elif kind == "SHOWN":
        amount, used, line = numbers
    elif kind == "BAD":
        fault = numbers[0]
    elif kind == "BOOK":
        pair, bids, asks = (part.decode().strip() for part in reply.book)
    return (bank, reply.notice, kind, reply.command, filled, left, pulled, amount, used, line, fault, pair, bids, asks) + (None,) * 7


def fill_notice_row(header: Header, bank: str, fill: Fill) -> tuple:
    """The row of a fill's notice."""
    pair, side = header.pairs[fill.pair].name, "BUY" if fill.buys else "SELL"
    other, price = header.banks[fill.other], fill.price.decode()
    return (bank, fill.notice, "FILL", fill.command, *(None,) * 7, pair, None, None, side, fill.lots, price, fill.ticks, other, fill.base, fill.quote)


def fill_row(header: Header, bank: int, fill: Fill, place: Place) -> tuple:
    """The row of a fill, by the notice of the bank that stands later in the header."""
    names = header.banks[fill.other], header.banks[bank]
    buyer, seller = (names[1], names[0]) if fill.buys else names
    taker = 0 if place.first_takes else 1
    maker = 1 - taker
    return (
        place.entry + 1, place.turn, header.pairs[fill.pair].name, fill.lots, fill.price.decode(), fill.ticks, fill.base, fill.quote, buyer, seller,
        names[taker], names[maker], place.orders[taker] + 1, place.orders[maker] + 1, place.notices[taker], place.notices[maker],
    )


def export(lines: Lines, sink: Sink) -> tuple[int, int, str]:
    """Makes all rows but that of the day, and answers how many commands and strays there are, and the ending."""
    rows = Rows(lines, sink)
    rows.take_header()
    commands = rows.take_journal()
    rows.take_desks()
    rows.take_books()
    rows.take_report()
    strays, ending = read_end(lines)
    rows.flush()
    return commands, strays, ending
