"""Sums an output up for the page of a day. Of a long day no more is held than `Day` says.

What the text tells twice, once in the desks and once in the report, is compared, and each difference is kept.
"""
import heapq
from array import array
from collections import Counter, deque
from dataclasses import dataclass, field
from functools import cached_property
from typing import NamedTuple

from reading.clients import read_clients
from reading.output import (
    COMMANDS, KINDS, OF_TWO, Fill, Lines, Matching, read_books, read_count, read_desk, read_ending, read_entries, read_header, read_nets, read_notices, read_uses, read_volumes,
)

from .credit_path import CreditPath
from .scale import Scale

MOST_BINS = 240


@dataclass
class PairFills:
    """A pair's fills: of all of them sums by bin of the history, and of the last of them each."""

    bins: int
    kept: int
    count: int = 0
    lots: int = 0
    first: tuple = None
    last: tuple = None
    newest: list = field(default_factory=list)

    def __post_init__(self):
        self.fills, self.bought, self.sold, self.turnover = ([0] * self.bins for _ in range(4))
        self.low, self.high = [None] * self.bins, [None] * self.bins

    def add(self, place, fill):
        """Takes a fill: its bin, and itself as (entry, turn, ticks, lots, buyer, seller, whether the taker bought)."""
        _, _, ticks, lots, _, _, buys = fill
        self.count += 1
        self.lots += lots
        self.fills[place] += 1
        (self.bought if buys else self.sold)[place] += lots
        self.turnover[place] += lots * ticks
        low, high = self.low[place], self.high[place]
        self.low[place] = ticks if low is None or ticks < low else low
        self.high[place] = ticks if high is None or ticks > high else high
        self.first = fill if self.first is None or fill < self.first else self.first
        self.last = fill if self.last is None or fill > self.last else self.last
        if len(self.newest) < self.kept:
            heapq.heappush(self.newest, fill)
        else:
            heapq.heappushpop(self.newest, fill)


@dataclass
class Desk:
    """What one bank was told: how many replies of each kind, its last notices, its fills by pair and side (how many, lots, base, quote),
    what they use with each other bank, and what it gets from each by currency, below 0 where it owes."""

    count: int
    notices: deque
    commands: int = 0
    fills: int = 0
    kinds: dict = field(default_factory=dict)
    traded: dict = field(default_factory=dict)
    used: dict = field(default_factory=dict)
    gets: dict = field(default_factory=dict)


@dataclass
class Use:
    """The credit between two banks, in credit units: both limits, what is used, and the line that is left."""

    first: int
    second: int
    limits: tuple
    used: int
    left: int

    @property
    def share(self):
        """What part of the lesser limit is used, from 0 to 1, or None where there is no credit."""
        lesser = min(self.limits)
        return min(1.0, self.used / lesser) if lesser else (1.0 if self.used else None)


class Bad(NamedTuple):
    """A text line that could not be read: its place in the history, its bank, its number among the bank's commands, and its fault."""

    entry: int
    bank: int
    command: int
    fault: int


class Settlement(NamedTuple):
    """What the operator gave back between two banks: its command's place in the history and its number, the banks, what was asked for and what was given."""

    entry: int
    command: int
    first: int
    second: int
    asked: int
    given: int


class Day:
    """A day as it is summed up. `kept` is how many of a desk's notices, of a bank's commands, of a pair's fills and of the bad commands
    are held at most; `paid_alike` is whether `./fx payments` tells what the page finds, once it was asked; `clients` are those that stand
    behind the output, or None where nothing stands there."""

    def __init__(self, kept, header):
        self.kept, self.header = kept, header
        self.banks, self.pairs, self.currencies = header.banks, header.pairs, header.currencies
        self.opening, self.entries, self.kinds = header.opening, 0, dict.fromkeys(KINDS, 0)
        self.totals, self.settle_lines, self.settlements = dict(header.totals), {}, []
        self.places, self.sent, self.bad, self.bad_notices = [], [], [], {}
        self.credit = None
        self.desks, self.fills, self.books = [], [], []
        self.volumes, self.uses, self.nets = [], [], []
        self.strays, self.ending, self.differences, self.lines = 0, "", [], 0
        self.paid_alike, self.clients = None, None

    def differs(self, what):
        self.differences.append(what)

    def part(self, entry):
        """The part of the history in which an entry lies, counted from 0."""
        return entry * self.parts // self.entries

    @property
    def parts(self):
        """Into how many equal parts the history is cut."""
        return max(1, min(MOST_BINS, self.entries))

    @cached_property
    def used_by(self):
        """What each bank has used with all others, by the report, once that was read."""
        used = [0] * len(self.banks)
        for use in self.uses:
            used[use.first] += use.used
            used[use.second] += use.used
        return used

    @cached_property
    def given_between(self):
        """What was given back between two banks, by the set of the two, once all desks were read."""
        given = Counter()
        for one in self.settlements:
            given[frozenset((one.first, one.second))] += one.given
        return given

    @cached_property
    def scale(self):
        """The steps of how full the day's lines are, once the report was read."""
        return Scale(self.uses)


def sum_journal(lines, day):
    """Counts the commands, and notes for each sender the entries of the history that are its."""
    day.entries = read_count(lines)
    day.places = [array("I") for _ in day.header.senders]
    day.sent = [deque(maxlen=day.kept) for _ in day.header.senders]
    day.credit = CreditPath(day.parts, len(day.banks))
    counts = dict.fromkeys(COMMANDS, 0)
    for place, entry in enumerate(read_entries(lines, day.header, day.entries)):
        counts[entry.word] += 1
        day.places[entry.bank].append(place)
        day.sent[entry.bank].append(entry.line)
        if entry.word == b"LINE" and entry.parts[1] in day.header.bank_at:
            day.credit.ask(entry.bank, len(day.places[entry.bank]), day.header.bank_at[entry.parts[1]])
        elif entry.word == b"SETTLE":
            day.settle_lines[len(day.places[entry.bank])] = entry.parts[1:]
        elif entry.word == b"BAD" and len(day.bad) < day.kept:
            day.bad.append(Bad(place, entry.bank, len(day.places[entry.bank]), int(entry.parts[1])))
    day.kinds = {word.decode(): count for word, count in counts.items() if day.header.version == 2 or word not in OF_TWO}
    day.fills = [PairFills(day.parts, day.kept) for _ in day.pairs]
    day.bad_notices = {(bad.bank, bad.command): 0 for bad in day.bad}


def sum_desks(lines, day):
    """Reads what each sender was told, and sums up its fills."""
    matching = Matching(day.places)
    for bank, name in enumerate(day.header.senders):
        desk = Desk(read_desk(lines, day.header, bank), deque(maxlen=day.kept))
        day.desks.append(desk)
        matching.open_desk()
        for notice in read_notices(lines, day.header, bank, desk.count, len(day.places[bank])):
            if isinstance(notice, Fill):
                take_fill(lines, day, desk, bank, notice)
                place_fill(day, bank, notice, matching.told(bank, notice))
            else:
                take_reply(day, desk, bank, notice)
            desk.notices.append(notice.line)
        for other, there, here in matching.close_desk(bank):
            day.differs(f"{day.banks[other]} and {name} were told of {there} and {here} fills with each other")


def take_reply(day, desk, bank, reply):
    """Counts a reply, and notes what a limit or a total was set to, what was given back, and which notice tells of a bad command."""
    if reply.kind == "LIMIT":
        part = day.part(day.places[bank][reply.command - 1])
        day.credit.limit_told(bank, desk.kinds.get("LIMIT", 0), reply.command, part, reply.numbers[0])
    elif reply.kind == "TOTAL":
        day.totals[bank] = reply.numbers[0]
    elif reply.kind == "SETTLED" and bank == day.header.host:
        take_settlement(day, day.places[bank][reply.command - 1], reply)
    elif (bank, reply.command) in day.bad_notices:
        day.bad_notices[bank, reply.command] = reply.notice
    desk.commands += 1
    desk.kinds[reply.kind] = desk.kinds.get(reply.kind, 0) + 1


def take_settlement(day, entry, reply):
    """Notes what was given back between the two banks of the command."""
    names = day.settle_lines.get(reply.command)
    if names is None or not all(name in day.header.bank_at for name in names[:2]):
        day.differs(f"the operator's command {reply.command} is no settlement, and is answered as one")
        return
    first, second = (day.header.bank_at[name] for name in names[:2])
    day.settlements.append(Settlement(entry, reply.command, first, second, int(names[2]), reply.numbers[0]))
    day.credit.give_back(first, second, day.part(entry), reply.numbers[0])


def take_fill(lines, day, desk, bank, fill):
    """Adds a fill's notice to its desk's sums."""
    pair = day.pairs[fill.pair]
    if (fill.base, fill.quote) != pair.amounts(fill.lots, fill.ticks):
        day.differs(f"the amounts at line {lines.number} are not those of {fill.lots} lots at {fill.price.decode()}")
    sums = desk.traded.setdefault((fill.pair, fill.buys), [0, 0, 0, 0])
    for place, amount in enumerate((1, fill.lots, fill.base, fill.quote)):
        sums[place] += amount
    desk.used[fill.other] = desk.used.get(fill.other, 0) + fill.lots * pair.weight
    base, quote = (fill.base, -fill.quote) if fill.buys else (-fill.base, fill.quote)
    for code, amount in ((pair.base, base), (pair.quote, quote)):
        desk.gets[fill.other, code] = desk.gets.get((fill.other, code), 0) + amount
    desk.fills += 1


def place_fill(day, bank, fill, place):
    """Adds a fill to its pair's, once both of its notices were read."""
    if place is None:
        return
    sums = day.fills[fill.pair]
    buyer, seller = (bank, fill.other) if fill.buys else (fill.other, bank)
    taker_buys = fill.buys != place.first_takes
    part = day.part(place.entry)
    day.credit.fill(bank, fill.other, part, fill.lots * day.pairs[fill.pair].weight)
    sums.add(part, (place.entry, place.turn, fill.ticks, fill.lots, buyer, seller, taker_buys))


def sum_books(lines, day):
    """Keeps the local books, at most ten levels a side."""
    day.books = [(bids, asks) for _, _, bids, asks in read_books(lines, day.header)]


def sum_report(lines, day):
    """Reads the report, and compares it with the sums of the desks' fills."""
    day.volumes = list(read_volumes(lines, day.header))
    day.uses = [Use(first, second, (here, there), used, left) for first, second, here, there, used, left in read_uses(lines, day.header)]
    day.nets = [amount for _, _, amount in read_nets(lines, day.header)]
    compare_volumes(day)
    compare_uses(day)
    compare_nets(day)


def compare_volumes(day):
    """Each fill stands on two desks, so a pair's volume is half of what all desks tell."""
    for at, (pair, volume) in enumerate(zip(day.pairs, day.volumes)):
        told = [desk.traded[at, buys] for desk in day.desks for buys in (False, True) if (at, buys) in desk.traded]
        if [2 * amount for amount in volume] != [sum(column) for column in zip(*told)] and (any(volume) or told):
            day.differs(f"the volume of {pair.name} is not what the desks' fills add up to")


def compare_uses(day):
    for use in day.uses:
        names = day.banks[use.first], day.banks[use.second]
        given = day.given_between[frozenset((use.first, use.second))]
        for here, there in ((use.first, use.second), (use.second, use.first)):
            if day.desks[here].used.get(there, 0) - given != use.used:
                day.differs(f"what {names[0]} and {names[1]} have used is not what the fills on the desk of {day.banks[here]} cost")
        rooms = [day.totals[bank] - day.used_by[bank] for bank in (use.first, use.second) if bank in day.totals]
        if use.left != max(0, min([min(use.limits) - use.used, *rooms])):
            day.differs(f"the line of {names[0]} and {names[1]} is not what their limits and totals leave")


def compare_nets(day):
    nets = iter(day.nets)
    for name, desk in zip(day.banks, day.desks):
        sums = dict.fromkeys(day.currencies, 0)
        for (_, code), amount in desk.gets.items():
            sums[code] += amount
        for code in day.currencies:
            if next(nets) != sums[code]:
                day.differs(f"the net of {name} in {code} is not what its desk's fills add up to")


def sum_end(lines, day):
    day.strays, day.ending = read_ending(lines)


def sum_clients(lines, day):
    """Reads what stands behind the output, and compares the clients' fills with their banks' desks."""
    day.clients = read_clients(lines, day.header, [len(places) for places in day.places])
    day.lines = lines.number
    if day.clients is not None:
        compare_clients(day)


def compare_clients(day):
    """No bank's clients have traded more than the bank."""
    for bank, desk in enumerate(day.desks):
        own = [client for client in day.clients if client.bank == bank]
        for key in dict.fromkeys(key for client in own for key in client.traded):
            lots = sum(client.traded[key].lots for client in own if key in client.traded)
            most = desk.traded[key][1] if key in desk.traded else 0
            if lots > most:
                side = "bought" if key[1] else "sold"
                own[0].wrong.append(f"the clients of {day.banks[bank]} have {side} {lots} lots of {day.pairs[key[0]].name}, and its desk {most}")


def read_day(pieces, kept, tell=lambda part: None):
    """Sums up an output that comes in pieces of bytes; `tell` is called with the part that is read now."""
    lines = Lines(pieces)
    tell("header")
    day = Day(kept, read_header(lines))
    for part, take in (
        ("journal", sum_journal),
        ("desks", sum_desks),
        ("local books", sum_books),
        ("report", sum_report),
        ("last lines", sum_end),
        ("clients", sum_clients),
    ):
        tell(part)
        take(lines, day)
    return day
