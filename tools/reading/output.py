"""Reads an output text line by line, section after section, and holds no more of it than a piece.

A text that has not the form of an output ends in `BadLine`. Whether the output is a right one is not asked here: that is the word of
`./fx check`.
"""
import re
from array import array
from collections.abc import Iterable, Iterator
from typing import NamedTuple

from .market import HOST, MOST_BANKS, MOST_PAIRS, Header, Pair

LONGEST_LINE = 4096
MOST_ENTRIES = 1 << 28
PIECE = 1 << 18
CLIENTS_BEHIND = "behind the output stands what clients have and were told; sed '/^CLIENTS [0-9]/,$d' leaves the output"
ENDINGS = {
    "END": "the session's text came to its line END",
    "CUT": "the input ended before a line END",
    "READ": "a read of the input failed",
    "MUCH": "more input came than the program takes",
}

NAME = r"([A-Z][A-Z0-9]{2,7})"
CODES = r"([A-Z]{3}/[A-Z]{3})"
NUMBER = r"(0|[1-9][0-9]{0,39})"
SIGNED = r"(0|-?[1-9][0-9]{0,39})"
PRICE = r"((?:0|[1-9][0-9]{0,9})(?:\.[0-9]{1,6})?)"
LEVELS = r"((?: [0-9.]{1,18} [0-9]{1,40}){0,10})"
SIDES = rf"BIDS{LEVELS} ASKS{LEVELS}"


def form(text: str) -> re.Pattern[bytes]:
    return re.compile(text.encode())


BANK_LINE = form(f"BANK {NAME}")
PAIR_LINE = form(rf"PAIR ([A-Z]{{3}})/([A-Z]{{3}}) ([0-6]) {NUMBER} {NUMBER}")
LIMIT_LINE = form(f"LINE {NAME} {NAME} {NUMBER}")
TOTAL_LINE = form(f"TOTAL {NAME} {NUMBER}")
JOURNAL_LINE = form(f"JOURNAL {NUMBER}")
COMMANDS = {
    b"BUY": form(f"{NAME} BUY {CODES} {PRICE} {NUMBER} (DAY|IOC|FOK)"),
    b"SELL": form(f"{NAME} SELL {CODES} {PRICE} {NUMBER} (DAY|IOC|FOK)"),
    b"CANCEL": form(f"{NAME} CANCEL {CODES} {NUMBER}"),
    b"REDUCE": form(f"{NAME} REDUCE {CODES} {NUMBER} {NUMBER}"),
    b"PULL": form(f"{NAME} PULL {CODES}"),
    b"LINE": form(f"{NAME} LINE {NAME} {NUMBER}"),
    b"SHOW": form(f"{NAME} SHOW {NAME}"),
    b"BOOK": form(f"{NAME} BOOK {CODES}"),
    b"BAD": form(f"{NAME} BAD {NUMBER}"),
    b"TOTAL": form(f"{NAME} TOTAL {NUMBER}"),
    b"SETTLE": form(f"{NAME} SETTLE {NAME} {NAME} {NUMBER}"),
}
OF_TWO = (b"TOTAL", b"SETTLE")
KINDS = tuple(word.decode() for word in COMMANDS)
DESK_LINE = form(f"DESK {NAME} {NUMBER}")
FILL = form(rf"{NUMBER} FILL {NUMBER} (BUY|SELL) {CODES} {NUMBER} {PRICE} {NAME} {NUMBER} {NUMBER}")
REPLY = form(
    rf"{NUMBER} REPLY {NUMBER} (?=([A-Z]+))(?:ORDERED {NUMBER} {NUMBER}|KILLED|NOTHING|(?:CANCELLED|REDUCED|NOTLESS|PULLED|LIMIT|TOTAL|SETTLED|BAD) {NUMBER}"
    rf"|SHOWN {NUMBER} {NUMBER} {NUMBER}|BOOK {CODES} {SIDES})"
)
BOOK_LINE = form(rf"{NAME} {CODES} {SIDES}")
VOLUME_LINE = form(rf"VOLUME {CODES} {NUMBER} {NUMBER} {NUMBER} {NUMBER}")
USE_LINE = form(rf"USE {NAME} {NAME} {NUMBER} {NUMBER} {NUMBER} {NUMBER}")
NET_LINE = form(rf"NET {NAME} ([A-Z]{{3}}) {SIGNED}")
STRAYS_LINE = form(f"STRAYS {NUMBER}")
CLIENTS_LINE = form(f"CLIENTS {NUMBER}")


class BadLine(Exception):
    """The text is not an output, as the line of this number shows."""

    def __init__(self, number: int, what: str):
        super().__init__(f"line {number}: {what}")


class Lines:
    """The lines of a text that comes in pieces, without their line feeds, counted from 1; one piece is held at a time. `kept` can be
    a list, which then gets the lines that are read."""

    def __init__(self, pieces: Iterable[bytes]):
        self.number, self.source, self.kept = 0, self.cut(pieces), None

    def cut(self, pieces: Iterable[bytes]) -> Iterator[bytes]:
        rest = b""
        for piece in pieces:
            lines = (rest + piece).split(b"\n")
            rest = lines.pop()
            yield from lines
            if len(rest) > LONGEST_LINE:
                self.number += 1
                raise self.bad(f"no line of an output has more than {LONGEST_LINE} bytes")
        if rest:
            self.number += 1
            raise self.bad("the text ends without a line feed")

    def bad(self, what: str) -> BadLine:
        return BadLine(self.number, what)

    def next(self, *wanted: object) -> bytes:
        """The next line; `wanted` says, in parts that are put together only where they are told, what it should be."""
        line = self.more()
        if line is None:
            self.number += 1
            raise self.bad(f"the text ends, and {''.join(map(str, wanted))} is missing")
        return line

    def more(self) -> bytes | None:
        """The next line, or None where the text has no more."""
        for line in self.source:
            self.number += 1
            if self.kept is not None:
                self.kept.append(line)
            return line
        return None

    def take(self, shape: re.Pattern[bytes], wanted: str) -> list[str]:
        """The parts of the next line, which has to have this form."""
        found = shape.fullmatch(self.next(wanted))
        if not found:
            raise self.bad(f"expected {wanted}")
        return [part.decode() if part is not None else "" for part in found.groups()]

    def take_word(self, word: str) -> None:
        """Takes the next line, which has to be this word."""
        if self.next(f"the line {word}") != word.encode():
            raise self.bad(f"expected the line {word}")


def bank_of(lines: Lines, header: Header, name: bytes) -> int:
    at = header.bank_at.get(name)
    if at is None:
        raise lines.bad(f"the header has no bank {name.decode()}")
    return at


def sender_of(lines: Lines, header: Header, name: bytes) -> int:
    return header.host if name == HOST.encode() and header.version == 2 else bank_of(lines, header, name)


def pair_of(lines: Lines, header: Header, name: bytes) -> int:
    at = header.pair_at.get(name)
    if at is None:
        raise lines.bad(f"the header has no pair {name.decode()}")
    return at


# The header


def read_header(lines: Lines) -> Header:
    """Reads the version, the banks, the pairs, the opening limits and the totals."""
    header = Header()
    first = lines.next("the line FXBOOK 1 or FXBOOK 2")
    if first not in (b"FXBOOK 1", b"FXBOOK 2"):
        raise lines.bad("expected the line FXBOOK 1 or FXBOOK 2")
    header.version = int(first[-1:])
    line = lines.next("a line BANK")
    while found := BANK_LINE.fullmatch(line):
        header.add_bank(found[1].decode())
        line = lines.next("a line BANK or PAIR")
    while found := PAIR_LINE.fullmatch(line):
        base, quote, *numbers = (part.decode() for part in found.groups())
        header.add_pair(Pair(f"{base}/{quote}", base, quote, *map(int, numbers)))
        line = lines.next("a line PAIR, LINE or START")
    if not 2 <= len(header.banks) <= MOST_BANKS or len(header.bank_at) < len(header.banks):
        raise lines.bad("the header does not have 2 to 64 different banks")
    if not 1 <= len(header.pairs) <= MOST_PAIRS or len(header.pair_at) < len(header.pairs):
        raise lines.bad("the header does not have 1 to 32 different pairs")
    while found := LIMIT_LINE.fullmatch(line):
        of, on, limit = found.groups()
        header.opening[bank_of(lines, header, of), bank_of(lines, header, on)] = int(limit)
        line = lines.next("a line LINE or START")
    while header.version == 2 and (found := TOTAL_LINE.fullmatch(line)):
        header.totals[bank_of(lines, header, found[1])] = int(found[2])
        line = lines.next("a line TOTAL or START")
    if line != b"START":
        raise lines.bad("expected a line of the header, or START")
    return header


# The journal


class Entry(NamedTuple):
    """A command of the history: its sender, its word, its line, and the parts of the line from the bank's name on."""

    bank: int
    word: bytes
    line: bytes
    parts: tuple[bytes, ...]


def read_count(lines: Lines) -> int:
    """How many commands the journal has."""
    count = int(lines.take(JOURNAL_LINE, "a line JOURNAL with a number")[0])
    if count > MOST_ENTRIES:
        raise lines.bad("more commands than the check of an output takes")
    return count


def read_entries(lines: Lines, header: Header, count: int) -> Iterator[Entry]:
    """The commands of the history, in its order."""
    for place in range(1, count + 1):
        line = lines.next("command ", place, " of ", count)
        _, _, behind = line.partition(b" ")
        word = behind.partition(b" ")[0]
        shape = COMMANDS.get(word)
        found = shape and shape.fullmatch(line)
        if not found or word in OF_TWO and header.version != 2:
            raise lines.bad("expected a command of a bank")
        sender = sender_of(lines, header, found[1])
        if word != b"BAD" and (sender == header.host) != (word == b"SETTLE"):
            raise lines.bad(f"expected a command that {header.senders[sender]} can send")
        yield Entry(sender, word, line, found.groups())


# The desks


class Reply(NamedTuple):
    """What a bank was told of its command of that number: a kind, its numbers, and of a local book the pair with the two sides' levels."""

    notice: int
    command: int
    kind: str
    line: bytes
    numbers: tuple[int, ...]
    book: tuple[bytes, ...]


class Fill(NamedTuple):
    """What a bank was told of a fill of its order; `replied` is how many of its commands it had replies to then."""

    notice: int
    command: int
    line: bytes
    replied: int
    buys: bool
    pair: int
    lots: int
    price: bytes
    ticks: int
    other: int
    base: int
    quote: int


def read_desk(lines: Lines, header: Header, bank: int) -> int:
    """The head of a sender's desk: how many notices it has."""
    name = header.senders[bank]
    told, count = lines.take(DESK_LINE, f"the line DESK {name} with a number")
    if told != name:
        raise lines.bad(f"expected the desk of {name}")
    return int(count)


def read_notices(lines: Lines, header: Header, bank: int, count: int, sent: int) -> Iterator[Reply | Fill]:
    """The notices of a sender's desk, in order; it sent so many commands."""
    replied, name = 0, header.senders[bank]
    for number in range(1, count + 1):
        line = lines.next("notice ", number, " of ", count, " of ", name)
        shape = FILL if b" FILL " in line else REPLY
        found = shape.fullmatch(line)
        if not found or int(found[1]) != number:
            raise lines.bad(f"expected notice {number} of {name}")
        if shape is FILL:
            yield fill_told(lines, header, bank, replied, line, found)
            continue
        replied += 1
        if int(found[2]) != replied or replied > sent:
            raise lines.bad(f"expected the reply to command {replied} of {name}")
        yield reply_told(line, found)


def reply_told(line: bytes, found: re.Match[bytes]) -> Reply:
    notice, command, kind, *parts = found.groups()
    numbers = tuple([int(part) for part in parts[:6] if part is not None])
    return Reply(int(notice), int(command), kind.decode(), line, numbers, tuple(parts[6:]) if parts[6] else ())


def fill_told(lines: Lines, header: Header, bank: int, replied: int, line: bytes, found: re.Match[bytes]) -> Fill:
    notice, number, side, name, lots, price, other, base, quote = found.groups()
    at, with_bank, command = pair_of(lines, header, name), bank_of(lines, header, other), int(number)
    ticks = header.pairs[at].ticks(price)
    if ticks is None:
        raise lines.bad(f"no price with the {header.pairs[at].decimals} decimals of {header.pairs[at].name}")
    if with_bank == bank:
        raise lines.bad("a fill of a bank with itself")
    if not 1 <= command <= replied:
        raise lines.bad(f"a fill of order {command}, which was not sent before")
    return Fill(int(notice), command, line, replied, side == b"BUY", at, int(lots), price, ticks, with_bank, int(base), int(quote))


class Place(NamedTuple):
    """A fill's place in the history, counted from 0: the entry whose command made it, and its turn in it; the entries of the two orders,
    and the notices of the two banks. The first is the bank that stands earlier in the header."""

    entry: int
    turn: int
    orders: tuple[int, int]
    notices: tuple[int, int]

    @property
    def first_takes(self) -> bool:
        """Whether the earlier bank of the header is the taker: the taker's order came later."""
        return self.orders[0] > self.orders[1]


class Matching:
    """Puts the two notices of each fill together, and so each fill in its place in the history.

    Two banks' fills with one another stand in one order on both their desks. A fill's entry is one of these two banks' commands, and
    on each desk it stands behind all replies to the bank's commands up to there: so it is the later one of the two last replies. On
    the desk of the bank that sent it stand all fills of the entry, and so their turn. The taker is the order that came later.
    """

    def __init__(self, places: list[array]):
        """`places` has for each bank the entries of its commands, counted from 0."""
        self.places, self.waiting, self.taken = places, {}, {}

    def told(self, bank: int, fill: Fill) -> Place | None:
        """Takes a fill's notice, and answers the fill's place where the other bank's notice came before."""
        places, other = self.places[bank], fill.other
        entry, arrived, notice = places[fill.replied - 1], places[fill.command - 1], fill.notice
        if other > bank:
            self.waiting.setdefault((bank, other), array("I")).extend((entry, arrived, notice))
            return None
        waiting, at = self.waiting.get((other, bank)), self.taken.get(other, 0)
        self.taken[other] = at + 3
        if waiting is None or at >= len(waiting):
            return None
        entry_there, arrived_there, notice_there = waiting[at : at + 3]
        key = (entry, notice) if entry > entry_there else (entry_there, notice_there)
        return Place(*key, (arrived_there, arrived), (notice_there, notice))

    def open_desk(self) -> None:
        self.taken = {}

    def close_desk(self, bank: int) -> Iterator[tuple[int, int, int]]:
        """Drops what the desks of a bank and those before it need no more. Each earlier bank of whose fills with this one the two desks tell
        different numbers is answered, with both numbers."""
        for other in range(bank):
            waiting, taken = self.waiting.pop((other, bank), ()), self.taken.get(other, 0)
            if len(waiting) != taken:
                yield other, len(waiting) // 3, taken // 3


# The local books, the report and the end


def read_books(lines: Lines, header: Header) -> Iterator[tuple[int, int, list[str], list[str]]]:
    """The local books at the end: bank, pair, and of each side price and lots by turns."""
    lines.take_word("BOOKS")
    for bank, name in enumerate(header.banks):
        for at, pair in enumerate(header.pairs):
            parts = lines.take(BOOK_LINE, f"the local book {name} {pair.name}")
            if parts[:2] != [name, pair.name]:
                raise lines.bad(f"expected the local book {name} {pair.name}")
            yield bank, at, parts[2].split(), parts[3].split()


def read_volumes(lines: Lines, header: Header) -> Iterator[tuple[int, ...]]:
    """Of each pair fills, lots, base and quote."""
    lines.take_word("REPORT")
    for pair in header.pairs:
        name, *numbers = lines.take(VOLUME_LINE, f"the line VOLUME {pair.name}")
        if name != pair.name:
            raise lines.bad(f"expected the line VOLUME {pair.name}")
        yield tuple(map(int, numbers))


def read_uses(lines: Lines, header: Header) -> Iterator[tuple[int, ...]]:
    """Of each two banks their places, the two limits, what is used, and the line."""
    for first, name in enumerate(header.banks):
        for second in range(first + 1, len(header.banks)):
            *names, here, there, used, left = lines.take(USE_LINE, f"the line USE {name} {header.banks[second]}")
            if names != [name, header.banks[second]]:
                raise lines.bad(f"expected the line USE {name} {header.banks[second]}")
            yield first, second, int(here), int(there), int(used), int(left)


def read_nets(lines: Lines, header: Header) -> Iterator[tuple[int, str, int]]:
    """Of each bank and currency the net."""
    currencies = header.currencies
    for bank, name in enumerate(header.banks):
        for code in currencies:
            *names, amount = lines.take(NET_LINE, f"the line NET {name} {code}")
            if names != [name, code]:
                raise lines.bad(f"expected the line NET {name} {code}")
            yield bank, code, int(amount)


def read_ending(lines: Lines) -> tuple[int, str]:
    """The number of strays and the ending, which are an output's last lines."""
    strays = int(lines.take(STRAYS_LINE, "the line STRAYS with a number")[0])
    ending = lines.next("the ending").decode(errors="replace")
    if ending not in ENDINGS:
        raise lines.bad("expected one of the endings END, CUT, READ and MUCH")
    return strays, ending


def read_end(lines: Lines) -> tuple[int, str]:
    """The number of strays and the ending, where an output alone is wanted: behind them the text has nothing."""
    told = read_ending(lines)
    line = lines.more()
    if line is not None:
        raise lines.bad(CLIENTS_BEHIND if CLIENTS_LINE.fullmatch(line) else "a line after the ending")
    return told
