"""Reads a session text as the program does, and tells of each text line what it is taken for.

The whole text is held: the program takes 2^26 bytes of a session at most.
"""
import re
from collections.abc import Callable, Iterator
from dataclasses import dataclass, field

from .market import (
    FAULT_BANK, FAULT_COUNT, FAULT_LIFE, FAULT_LIMIT, FAULT_LONG, FAULT_LOTS, FAULT_NUMBER, FAULT_PAIR, FAULT_PRICE_FORM, FAULT_PRICE_RANGE, FAULT_UNITS, FAULT_WORD,
    MOST_BANKS, MOST_PAIRS, NUMERAL, Header, Pair,
)

LONGEST_LINE = 256
MOST_BYTES = 1 << 26
MOST_LIMIT, MOST_LOTS, MOST_NUMBER, MOST_TICKS = 10**15, 10**6, 4294967295, 10**9
FIELD = re.compile(rb"[^ \t]+")
NAME = re.compile(rb"[A-Z][A-Z0-9]{2,7}")
CODES = re.compile(rb"([A-Z]{3})/([A-Z]{3})")
RESERVED = (b"HOST", b"END")

# What a text line is taken for.
HEADER, PASSED, COMMAND, BAD, STRAY, END, FAULT, BEHIND, DROPPED = "header", "ignored", "command", "bad", "stray", "END", "fault", "behind", "dropped"

# Why a text line is no line of a header, by the number that the program tells.
REASONS = {
    1: "the first line is neither FXBOOK 1 nor FXBOOK 2",
    2: "the first field is none of BANK, PAIR, LINE and START, nor TOTAL in version 2",
    3: "the line has the wrong number of fields for its word",
    4: "the name does not have the form of a bank's name (3 to 8 of A to Z and 0 to 9, a letter first), is reserved, or is taken",
    5: "the pair does not have the form AAA/BBB, its two codes are equal, or it has been named already",
    6: "the decimals are not a number from 0 to 6",
    7: "the lot is not a number from 1 to 10^9 that is a multiple of 10^decimals",
    8: "the weight is not a number from 1 to 10^6",
    9: "a bank has not been named above, or the two are equal",
    10: "the limit is not a number from 0 to 10^15",
    11: "START comes with fewer than two banks or no pair",
    12: "there are 64 banks or 32 pairs already",
    13: "the line has more than 256 bytes",
}

# The fields behind the word of a command of a bank.
WORDS = {
    b"BUY": ("pair", "price", "lots", "life"),
    b"SELL": ("pair", "price", "lots", "life"),
    b"CANCEL": ("pair", "number"),
    b"REDUCE": ("pair", "number", "lots"),
    b"PULL": ("pair",),
    b"LINE": ("bank", "limit"),
    b"SHOW": ("bank",),
    b"BOOK": ("pair",),
}
# The same in version 2, for a bank and for the operator.
WORDS_OF_TWO = {**WORDS, b"TOTAL": ("limit",)}
HOST_WORDS = {b"SETTLE": ("bank", "other", "units")}
LIVES = (b"DAY", b"IOC", b"FOK")


@dataclass(slots=True)
class Said:
    """A text line: its number from 1, its bytes without the line's end, its fields, and what it is taken for. `number` counts lines that are ignored too. `code` is the fault of a bad command, or the reason of a header's fault. `order` is a command's number in its bank's stream."""

    number: int
    text: bytes
    fields: list[bytes]
    kind: str
    bank: int = -1
    code: int = 0
    order: int = 0

    def spelled(self) -> bytes:
        """A command as the journal of an output spells it."""
        return b"%b BAD %d" % (self.fields[0], self.code) if self.kind == BAD else b" ".join(self.fields)


def number_within(text: bytes, least: int, most: int) -> int | None:
    """The number from `least` to `most` that a text is the one spelling of."""
    if not NUMERAL.fullmatch(text) or len(text) > 20:
        return None
    value = int(text)
    return value if least <= value <= most else None


# The header


def version_reason(header: Header, fields: list[bytes]) -> int:
    """Takes the first line into the header, or answers its fault."""
    if fields not in ([b"FXBOOK", b"1"], [b"FXBOOK", b"2"]):
        return 1
    header.version = int(fields[1])
    return 0


def bank_reason(header: Header, fields: list[bytes]) -> int:
    """Takes a BANK line into the header, or answers its first fault."""
    if len(fields) != 2:
        return 3
    if len(header.banks) >= MOST_BANKS:
        return 12
    name = fields[1]
    if not NAME.fullmatch(name) or name in RESERVED or name in header.bank_at:
        return 4
    header.add_bank(name.decode())
    return 0


def pair_reason(header: Header, fields: list[bytes]) -> int:
    """Takes a PAIR line into the header, or answers its first fault."""
    if len(fields) != 5:
        return 3
    if len(header.pairs) >= MOST_PAIRS:
        return 12
    codes = CODES.fullmatch(fields[1])
    if not codes or codes[1] == codes[2] or fields[1] in header.pair_at:
        return 5
    if (decimals := number_within(fields[2], 0, 6)) is None:
        return 6
    lot = number_within(fields[3], 1, 10**9)
    if lot is None or lot % 10**decimals:
        return 7
    if (weight := number_within(fields[4], 1, 10**6)) is None:
        return 8
    header.add_pair(Pair(fields[1].decode(), codes[1].decode(), codes[2].decode(), decimals, lot, weight))
    return 0


def limit_reason(header: Header, fields: list[bytes]) -> int:
    """Takes a LINE line into the header, or answers its first fault."""
    if len(fields) != 4:
        return 3
    giver, taker = header.bank_at.get(fields[1]), header.bank_at.get(fields[2])
    if giver is None or taker is None or giver == taker:
        return 9
    if (limit := number_within(fields[3], 0, MOST_LIMIT)) is None:
        return 10
    header.opening[giver, taker] = limit
    return 0


def total_reason(header: Header, fields: list[bytes]) -> int:
    """Takes a TOTAL line into the header, or answers its first fault."""
    if len(fields) != 3:
        return 3
    bank = header.bank_at.get(fields[1])
    if bank is None:
        return 9
    if (limit := number_within(fields[2], 0, MOST_LIMIT)) is None:
        return 10
    header.totals[bank] = limit
    return 0


def start_reason(header: Header, fields: list[bytes]) -> int:
    if len(fields) != 1:
        return 3
    return 11 if len(header.banks) < 2 or not header.pairs else 0


STATEMENTS: dict[bytes, Callable[[Header, list[bytes]], int]] = {b"BANK": bank_reason, b"PAIR": pair_reason, b"LINE": limit_reason, b"START": start_reason}
STATEMENTS_OF_TWO = {**STATEMENTS, b"TOTAL": total_reason}


def statements_of(header: Header) -> dict[bytes, Callable[[Header, list[bytes]], int]]:
    return STATEMENTS_OF_TWO if header.version == 2 else STATEMENTS


# The commands


def pair_fault(header: Header, sender: int, fields: list[bytes], text: bytes) -> int:
    return 0 if text in header.pair_at else FAULT_PAIR


def price_fault(header: Header, sender: int, fields: list[bytes], text: bytes) -> int:
    """The fault of a price; the pair stands before it and is one of the header."""
    whole, point, digits = text.rpartition(b".")
    decimals = header.pairs[header.pair_at[fields[2]]].decimals
    if not decimals:
        whole, point, digits = text, b".", b""
    if not point or not NUMERAL.fullmatch(whole) or len(digits) != decimals or not (digits.isdigit() or not decimals):
        return FAULT_PRICE_FORM
    return 0 if len(whole) <= 10 and 1 <= int(whole + digits) <= MOST_TICKS else FAULT_PRICE_RANGE


def lots_fault(header: Header, sender: int, fields: list[bytes], text: bytes) -> int:
    return FAULT_LOTS if number_within(text, 1, MOST_LOTS) is None else 0


def number_fault(header: Header, sender: int, fields: list[bytes], text: bytes) -> int:
    return FAULT_NUMBER if number_within(text, 1, MOST_NUMBER) is None else 0


def life_fault(header: Header, sender: int, fields: list[bytes], text: bytes) -> int:
    return 0 if text in LIVES else FAULT_LIFE


def bank_fault(header: Header, sender: int, fields: list[bytes], text: bytes) -> int:
    return FAULT_BANK if header.bank_at.get(text, sender) == sender else 0


def limit_fault(header: Header, sender: int, fields: list[bytes], text: bytes) -> int:
    return FAULT_LIMIT if number_within(text, 0, MOST_LIMIT) is None else 0


def other_fault(header: Header, sender: int, fields: list[bytes], text: bytes) -> int:
    """The fault of the second bank of a settlement; the first one stands before it and is one of the header."""
    return FAULT_BANK if text not in header.bank_at or text == fields[2] else 0


def units_fault(header: Header, sender: int, fields: list[bytes], text: bytes) -> int:
    return FAULT_UNITS if number_within(text, 1, MOST_LIMIT) is None else 0


FIELDS = {"pair": pair_fault, "price": price_fault, "lots": lots_fault, "number": number_fault, "life": life_fault, "bank": bank_fault, "limit": limit_fault, "other": other_fault, "units": units_fault}


def words_of(header: Header, sender: int) -> dict[bytes, tuple[str, ...]]:
    """The words of a sender's commands, and the fields behind each."""
    return HOST_WORDS if sender == header.host else WORDS_OF_TWO if header.version == 2 else WORDS


def command_fault(header: Header, sender: int, fields: list[bytes]) -> int:
    """The first fault of a sender's line, or 0: its word, its number of fields, and then the fields from left to right."""
    shape = words_of(header, sender).get(fields[1]) if len(fields) > 1 else None
    if shape is None:
        return FAULT_WORD
    if len(fields) != 2 + len(shape):
        return FAULT_COUNT
    for kind, text in zip(shape, fields[2:]):
        if fault := FIELDS[kind](header, sender, fields, text):
            return fault
    return 0


# The text


@dataclass
class Session:
    """A session text. `begun` and `started` tell that its first line and START were read. `ending` is the last line of its output, END, CUT
    or MUCH, or nothing where it has none: then it has a fault in its header, or ends before START. `more` tells that the text has more
    bytes than the program takes; `orders` has how many commands each sender sent."""

    text: bytes
    more: bool = False
    header: Header = field(default_factory=Header)
    begun: bool = False
    started: bool = False
    fault: Said | None = None
    ending: str = ""
    strays: int = 0
    orders: list[int] = field(default_factory=list)

    def lines(self) -> Iterator[Said]:
        """Each text line in order, and the rest behind the last line feed. Reading them to the end is what finds all of the above."""
        start, number, said_end = 0, 0, False
        while (feed := self.text.find(b"\n", start)) >= 0:
            part, start, number = self.text[start:feed], feed + 1, number + 1
            text = part.removesuffix(b"\r")
            if said_end or self.fault:
                yield Said(number, text, FIELD.findall(text), BEHIND)
                continue
            said = self.said(number, text)
            said_end = said.kind == END
            yield said
        yield from self.rest(self.text[start:], number + 1, said_end)

    def rest(self, text: bytes, number: int, said_end: bool) -> Iterator[Said]:
        """What stands behind the last line feed, which counts only where it is the END line, and how the text ends."""
        fields = FIELD.findall(text)
        full = len(self.text) >= MOST_BYTES
        is_end = self.started and not said_end and not full and len(text) <= LONGEST_LINE and fields == [b"END"]
        if text:
            yield Said(number, text, fields, END if is_end else BEHIND if said_end or self.fault else DROPPED)
        if self.started:
            self.ending = "END" if said_end or is_end else "MUCH" if full else "CUT"

    def said(self, number: int, text: bytes) -> Said:
        """What a text line is taken for that is neither behind END nor behind a header's fault."""
        is_long = len(text) > LONGEST_LINE
        fields = FIELD.findall(text[:LONGEST_LINE])[:1] if is_long else FIELD.findall(text)
        said = Said(number, text, fields, PASSED)
        if fields[0].startswith(b"#") if fields else not is_long:
            return said
        if self.started:
            self.take_command(said, is_long)
        else:
            self.take_statement(said, is_long)
        return said

    def take_statement(self, said: Said, is_long: bool) -> None:
        """Takes a text line of the header."""
        said.kind, fields = HEADER, said.fields
        if is_long:
            said.code = 13
        elif not self.begun:
            said.code, self.begun = version_reason(self.header, fields), True
        else:
            statement = statements_of(self.header).get(fields[0])
            said.code = statement(self.header, fields) if statement else 2
        if said.code:
            said.kind, self.fault = FAULT, said
        elif fields == [b"START"]:
            self.started, self.orders = True, [0] * len(self.header.senders)

    def take_command(self, said: Said, is_long: bool) -> None:
        """Takes a text line behind START."""
        fields = said.fields
        bank = self.header.sender_of(fields[0]) if fields else None
        if fields == [b"END"] and not is_long:
            said.kind = END
        elif bank is None:
            said.kind = STRAY
            self.strays += 1
        else:
            said.code = FAULT_LONG if is_long else command_fault(self.header, bank, fields)
            said.kind, said.bank = BAD if said.code else COMMAND, bank
            self.orders[bank] += 1
            said.order = self.orders[bank]


def read_session(file) -> Session:
    """The session text of a file; no more bytes of it are read than the program takes, and one."""
    text = file.read(MOST_BYTES)
    return Session(text, bool(file.read(1)))


def is_output(start: bytes) -> bool:
    """Whether a text that begins so is an output: directly behind its START stands its journal."""
    return re.search(rb"\nSTART\r?\nJOURNAL [0-9]+\r?\n", start) is not None


def is_session(start: bytes) -> bool:
    """Whether a text that begins so is a session, and not an output, whose journal would stand behind START."""
    lines = (FIELD.findall(line.removesuffix(b"\r")) for line in start.split(b"\n"))
    fields = [found for found in lines if found and not found[0].startswith(b"#")]
    return fields[:1] in ([[b"FXBOOK", b"1"]], [[b"FXBOOK", b"2"]]) and [b"START"] in fields[:-1] and all(line[0] != b"JOURNAL" for line in fields)
