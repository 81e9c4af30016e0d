"""Reads a journal file as the program does: its whole blocks, its header, and the commands of its history.

The whole file is held, as the program holds it while it opens it.
"""
from collections.abc import Iterator
from dataclasses import dataclass

from .market import FAULT_UNITS, Header
from .session import FIELD, HEADER, LONGEST_LINE, PASSED, Session, command_fault, number_within

OPEN = 1
LENGTH_BYTES = 8
MOST_FAULT, MOST_HOST_FAULT = 11, FAULT_UNITS


class Damaged(Exception):
    """A block is not what it has to be; blocks are counted from 0, and begin with their gate."""

    def __init__(self, block: int, gate: int, what: str):
        super().__init__(f"block {block}, which begins at byte {gate}, is damaged: {what}")


@dataclass
class Journal:
    """The bytes of a journal file, and where the bodies of its whole blocks begin and end."""

    file: bytes
    places: list[tuple[int, int]]

    def bodies(self) -> Iterator[bytes]:
        return (self.file[start:behind] for start, behind in self.places)

    def damaged(self, block: int, what: str) -> Damaged:
        return Damaged(block, self.places[block][0] - LENGTH_BYTES - 1, what)

    def behind(self) -> int:
        """How many bytes stand behind the gate after the last whole block; they do not count."""
        return max(0, len(self.file) - (self.places[-1][1] if self.places else 0) - 1)


def read_journal(file: bytes) -> Journal:
    """Finds the whole blocks: a block's gate is 1, and the file has its body and the gate behind it."""
    places, gate = [], 0
    while file[gate : gate + 1] == bytes([OPEN]):
        start = gate + 1 + LENGTH_BYTES
        behind = start + int.from_bytes(file[gate + 1 : start], "big")
        if behind >= len(file):
            break
        places.append((start, behind))
        gate = behind
    return Journal(file, places)


def kept_header(journal: Journal) -> Header:
    """The header in the first block, which has nothing behind its START line."""
    body = next(journal.bodies())
    session = Session(body)
    for said in session.lines():
        if said.kind not in (HEADER, PASSED):
            raise journal.damaged(0, f"line {said.number} is none of a header")
    if not session.started:
        raise journal.damaged(0, "it has no START line")
    last = body.removesuffix(b"\n").rpartition(b"\n")[2].removesuffix(b"\r")
    if FIELD.findall(last) != [b"START"]:
        raise journal.damaged(0, "something stands behind its START line")
    return session.header


def kept_fault(header: Header, sender: int, fields: list[bytes]) -> int | None:
    """The fault that a kept command had where it is a bad one."""
    most = MOST_HOST_FAULT if sender == header.host else MOST_FAULT
    return number_within(fields[2], 1, most) if len(fields) == 3 and fields[1] == b"BAD" else None


def kept_lines(header: Header, journal: Journal) -> Iterator[tuple[list[bytes], bytes]]:
    """The kept commands in the order of their history: the fields and the line of each."""
    for block, body in enumerate(journal.bodies()):
        if not block:
            continue
        lines = body.split(b"\n")
        if lines.pop():
            raise journal.damaged(block, "its last line has no line feed")
        for number, line in enumerate(lines, 1):
            text = line.removesuffix(b"\r")
            fields = FIELD.findall(text)
            sender = header.sender_of(fields[0]) if fields else None
            if sender is None or len(text) > LONGEST_LINE or kept_fault(header, sender, fields) is None and command_fault(header, sender, fields):
                raise journal.damaged(block, f"line {number} is no command of a sender")
            yield fields, text


def least_price(decimals: int) -> bytes:
    """The price of one tick."""
    return b"1" if not decimals else b"0." + b"0" * (decimals - 1) + b"1"


def bad_host_line(header: Header, fault: int) -> bytes:
    """A line of the operator that has this fault; another fault than these a session of the operator can't have, and a kept one says it of no line."""
    one, other = (bank.encode() for bank in header.banks[:2])
    lines = {
        1: b"BAD",
        2: b"SETTLE",
        7: b"SETTLE %b %b 1" % (one, one),
        11: b"x" * LONGEST_LINE,
        12: b"SETTLE %b %b 0" % (one, other),
    }
    return b"HOST %b" % lines.get(fault, lines[1])


def bad_line(header: Header, name: bytes, fault: int) -> bytes:
    """A line of a sender that has this fault, since a session can't say BAD."""
    if header.sender_of(name) == header.host:
        return bad_host_line(header, fault)
    pair = header.pairs[0].name.encode()
    price = least_price(header.pairs[0].decimals)
    other = next(bank.encode() for bank in header.banks if bank.encode() != name)
    lines = {
        1: b"BAD",
        2: b"PULL",
        3: b"PULL no/pair",
        4: b"BUY %b x 1 DAY" % pair,
        5: b"BUY %b %b 1 DAY" % (pair, price.replace(b"1", b"0")),
        6: b"BUY %b %b 0 DAY" % (pair, price),
        7: b"SHOW %b" % name,
        8: b"LINE %b x" % other,
        9: b"CANCEL %b 0" % pair,
        10: b"BUY %b %b 1 x" % (pair, price),
        11: b"x" * LONGEST_LINE,
    }
    return b"%b %b" % (name, lines[fault])


def session_of(journal: Journal) -> Iterator[bytes]:
    """The lines of a session whose history, in the order of its lines, is the kept one. A bad command stands as some line with the same fault."""
    header = kept_header(journal)
    yield from header.lines()
    for fields, text in kept_lines(header, journal):
        fault = kept_fault(header, header.sender_of(fields[0]), fields)
        yield text if fault is None else bad_line(header, fields[0], fault)
    yield b"END"
