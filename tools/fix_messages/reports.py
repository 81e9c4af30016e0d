"""The second step: what a bank was told on its desk, as ExecutionReports and OrderCancelRejects."""
from collections import Counter
from collections.abc import Iterator
from dataclasses import dataclass

from reading.command_line import Failed
from reading.market import Header, Pair
from reading.output import Fill, Lines, Reply, read_count, read_desk, read_entries, read_header, read_notices

from .message import built
from .orders import CANCEL, NEW, OTHER, REPORT, CANCEL_REJECT, SIDES, UNKNOWN_ORDER, VENUE_RULE
from .table import Row

OTHER_SESSION = 3
TOO_LATE = 0
# OrdStatus (39) and ExecType (150).
STANDS, PARTLY, FILLED, CANCELLED, REPLACED, REJECTED, TRADED = "0", "1", "2", "4", "5", "8", "F"
AVERAGE_DIGITS = 4


def decimal(value: int, digits: int) -> str:
    """A number of units of the last of so many decimals."""
    whole, parts = divmod(value, 10**digits)
    return f"{whole}.{parts:0{digits}}" if digits else str(whole)


@dataclass
class State:
    """An order as its bank knows it: its message, its present ClOrdID and OrdStatus; the lots that it is for, that it has left and that
    were filled, and these times their ticks. Behind so many lots of fills the lots that do not rest are cancelled."""

    row: Row
    pair: Pair
    side: str
    price: str
    identity: str
    lots: int
    left: int
    status: str = STANDS
    filled: int = 0
    value: int = 0
    fills_before_drop: int = 0

    def average(self) -> str:
        """AvgPx, rounded to the nearest."""
        digits = self.pair.decimals + AVERAGE_DIGITS
        scaled = self.value * 10**AVERAGE_DIGITS
        return decimal((2 * scaled + self.filled) // (2 * self.filled), digits) if self.filled else "0"

    def fields(self) -> list[tuple[int, object]]:
        """What all reports of the order tell: symbol, side, price and the quantities."""
        lot, side = self.pair.lot, next(code for code, word in SIDES.items() if word == self.side)
        named = [(55, self.pair.name), (54, side), (38, self.lots * lot), (40, 2), (44, self.price), (15, self.pair.base)]
        return named + [(151, self.left * lot), (14, self.filled * lot), (6, self.average())]


def state_of(header: Header, row: Row) -> State:
    """An order as it was asked for."""
    _, side, name, price, lots, _ = row.line.split(" ")
    return State(row, header.pairs[header.pair_at[name.encode()]], side, price, row.identity, int(lots), int(lots))


class Reports:
    """Reads an output, and makes the reports of one desk after the other."""

    def __init__(self, rows: list[Row], lines: Lines, time: str):
        self.lines, self.time, self.header = lines, time, read_header(lines)
        self.asked = {(row.bank, row.command): row for row in rows if row.command}
        self.sequence = Counter((row.sender, row.target) for row in rows if row.answer)
        self.states: dict[int, State] = {}

    def other(self, what: str) -> Failed:
        return Failed(f"the output does not belong to this table's session: line {self.lines.number}: {what}", OTHER_SESSION)

    def messages(self) -> Iterator[bytes]:
        """The reports, bank by bank, each bank's in the order of its notices."""
        sent: Counter = Counter()
        for entry in read_entries(self.lines, self.header, read_count(self.lines)):
            name = self.header.senders[entry.bank]
            sent[name] += 1
            row = self.asked.get((name, sent[name]))
            if row is None or row.line.encode() != entry.line:
                raise self.other(f"the table does not have this as {name}'s command {sent[name]}")
        for bank, name in enumerate(self.header.senders):
            self.states = {}
            count = read_desk(self.lines, self.header, bank)
            for notice in read_notices(self.lines, self.header, bank, count, sent[name]):
                yield from self.filled(name, notice) if isinstance(notice, Fill) else self.replied(name, notice)
            yield from self.not_reached(name, sent[name])

    def message(self, row: Row, kind: str, fields: list[tuple[int, object]]) -> bytes:
        self.sequence[row.sender, row.target] += 1
        return built([(35, kind), (49, row.target), (56, row.sender), (34, self.sequence[row.sender, row.target]), (52, self.time), *fields])

    def report(self, state: State, event: str, execution: str, more: list[tuple[int, object]]) -> bytes:
        """An ExecutionReport to the order's sender; the event is its ExecType."""
        row = state.row
        named = [(37, f"{row.bank}-{row.command}"), (17, execution), (150, event), (39, state.status)]
        names = [] if any(tag == 11 for tag, _ in more) else [(11, state.identity)]
        return self.message(row, REPORT, named + names + state.fields() + more)

    def reject(self, row: Row, reason: int, words: str) -> bytes:
        """An OrderCancelReject to the sender of a cancel or replace."""
        state = self.states.get(row.order)
        status = state.status if state else REJECTED
        named = [(37, f"{row.bank}-{row.order}"), (11, row.identity), (41, row.original), (39, status)]
        return self.message(row, CANCEL_REJECT, named + [(434, 1 if row.kind == CANCEL else 2), (102, reason), (58, words)])

    def replied(self, bank: str, reply: Reply) -> Iterator[bytes]:
        """What the reply to a command is as reports."""
        row = self.asked[bank, reply.command]
        if row.kind == NEW and reply.kind in ("ORDERED", "KILLED"):
            yield from self.ordered(row, reply)
        elif row.kind != NEW and reply.kind in ("CANCELLED", "REDUCED"):
            yield self.cancelled(row, reply) if row.kind == CANCEL else self.replaced(row, reply)
        elif row.kind != NEW and reply.kind == "NOTHING":
            over = row.order in self.states and self.states[row.order].status in (FILLED, CANCELLED)
            yield self.reject(row, TOO_LATE if over else UNKNOWN_ORDER, "no such order rests: it was filled or taken out before")
        elif row.kind != NEW and reply.kind == "NOTLESS":
            yield self.reject(row, VENUE_RULE, "the order has no more left than was asked for, and stays")
        else:
            raise self.other(f"{reply.kind} is not a reply to {row.line}")

    def ordered(self, row: Row, reply: Reply) -> Iterator[bytes]:
        """A new order: it is told as new, and what was not filled and does not rest is told as cancelled behind its fills."""
        state = self.states[row.command] = state_of(self.header, row)
        filled, rests = reply.numbers or (0, 0)
        yield self.report(state, STANDS, f"{row.bank}-{reply.notice}N", [])
        if filled + rests < state.lots:
            state.fills_before_drop = filled
            if not filled:
                yield self.dropped(state, reply.notice)

    def dropped(self, state: State, notice: int) -> bytes:
        state.left, state.status = 0, CANCELLED
        return self.report(state, CANCELLED, f"{state.row.bank}-{notice}C", [(58, "what could not be filled at once does not rest")])

    def filled(self, bank: str, fill: Fill) -> Iterator[bytes]:
        """The report of a fill, with the other bank as its counterparty."""
        state = self.states.get(fill.command)
        if state is None or fill.lots > state.left:
            raise self.other(f"{bank}'s order {fill.command} has no such lots left")
        state.left, state.filled, state.value = state.left - fill.lots, state.filled + fill.lots, state.value + fill.lots * fill.ticks
        state.status = PARTLY if state.left else FILLED
        traded = [(32, fill.lots * state.pair.lot), (31, fill.price.decode()), (381, fill.quote)]
        party = [(453, 1), (448, self.header.banks[fill.other]), (447, "D"), (452, 17)]
        yield self.report(state, TRADED, f"{bank}-{fill.notice}F", traded + party)
        if state.fills_before_drop:
            state.fills_before_drop -= fill.lots
            if state.fills_before_drop <= 0:
                yield self.dropped(state, fill.notice)

    def state_with(self, row: Row, left: int) -> State:
        """The order that a cancel or replace is for, which has to have so many lots left at least."""
        state = self.states.get(row.order)
        if state is None or left > state.left:
            raise self.other(f"{row.bank}'s order {row.order} has no such lots left")
        return state

    def cancelled(self, row: Row, reply: Reply) -> bytes:
        """An order that was taken out."""
        state = self.state_with(row, reply.numbers[0])
        state.left, state.status = 0, CANCELLED
        return self.report(state, CANCELLED, f"{row.bank}-{reply.notice}C", [(11, row.identity), (41, state.identity)])

    def replaced(self, row: Row, reply: Reply) -> bytes:
        """An order whose quantity was lowered, at most to what was filled; then nothing of it is left, and its line was a CANCEL. Where the session was run
        in another order than the tool took it in, another quantity can come of it, which is told in words."""
        state = self.state_with(row, reply.numbers[0])
        named, lot = [(11, row.identity), (41, state.identity)], state.pair.lot
        left = reply.numbers[0] if reply.kind == "REDUCED" else 0
        state.left, state.lots, state.identity = left, state.filled + left, row.identity
        other = state.lots != max(row.lots, state.filled)
        gone = other and not left
        state.status = CANCELLED if gone else FILLED if not left else PARTLY if state.filled else STANDS
        words = f"asked for was {row.lots * lot} in all; the session was run in another order than the one for which this replace was made a line"
        event, letter = (CANCELLED, "C") if gone else (REPLACED, "R")
        return self.report(state, event, f"{row.bank}-{reply.notice}{letter}", named + ([(58, words)] if other else []))

    def not_reached(self, bank: str, sent: int) -> Iterator[bytes]:
        """Messages whose lines the session, cut off before, did not come to."""
        number = sent + 1
        while row := self.asked.get((bank, number)):
            number += 1
            words = "the session ended before it came to this command"
            if row.kind != NEW:
                yield self.reject(row, OTHER, words)
                continue
            state = state_of(self.header, row)
            state.left, state.status = 0, REJECTED
            yield self.report(state, REJECTED, f"{bank}-{row.command}X", [(103, OTHER), (58, words)])
