"""Reads what stands behind an output of the word `clients`: what each client has, and the sums over its lines, which alone are held.

A part that has not this form ends in `BadLine`. Where a client's numbers do not agree, a sentence says so, and the reading goes on.
"""
import re
from array import array
from dataclasses import dataclass, field
from typing import NamedTuple

from .market import Header
from .output import CLIENTS_LINE, FILL, NAME, NUMBER, REPLY, BadLine, Fill, Lines, Reply, bank_of, fill_told, form, reply_told
from .session import MOST_LIMIT

MOST_CLIENTS = 1024
CLIENT_LINE = form(f"CLIENT {NAME} {NAME} {NUMBER} {NUMBER} {NUMBER} {NUMBER}")
SHAPES = {b"SHORT": form(f"{NUMBER} SHORT {NUMBER}"), b"BARRED": form(f"{NUMBER} BARRED"), b"REPLY": REPLY, b"FILL": FILL}
# The replies to commands that a client can't send.
FOR_BANKS = ("PULLED", "LIMIT", "SHOWN")
# A bank of the name CLIENTS has lines that begin so too, but none with a number next.
BEGINNING = re.compile(rb"\nCLIENTS [0-9]")
HELD_BACK = len(b"\nCLIENTS ")


class OutputPart:
    """Cuts off what stands behind an output, in a text that comes in pieces; `size` is how many bytes the output had so far."""

    def __init__(self) -> None:
        self.held, self.over, self.size = b"", False, 0

    def of(self, piece: bytes) -> bytes:
        """What is known to be the output's, once this piece has come."""
        text = self.held + piece
        found = None if self.over else BEGINNING.search(text)
        cut = 0 if self.over else found.start() + 1 if found else max(0, len(text) - HELD_BACK)
        self.over = self.over or found is not None
        self.held = b"" if self.over else text[cut:]
        self.size += cut
        return text[:cut]

    def rest(self) -> bytes:
        """What was held back, once the text is over."""
        self.size += len(self.held)
        rest, self.held = self.held, b""
        return rest


class Traded(NamedTuple):
    """Fills of one pair and side: how many, their lots, and their amounts."""

    fills: int = 0
    lots: int = 0
    base: int = 0
    quote: int = 0

    def with_fill(self, fill: Fill) -> "Traded":
        return Traded(self.fills + 1, self.lots + fill.lots, self.base + fill.base, self.quote + fill.quote)


@dataclass
class Client:
    """A client of a bank: its limit and what it has filled and reserved, in units of credit; how many lines it has, with how many replies and
    refusals; its fills by pair and side, and what these cost; and in words what does not agree."""

    bank: int
    name: str
    limit: int
    filled: int
    reserved: int
    count: int
    replies: int = 0
    short: int = 0
    barred: int = 0
    cost: int = 0
    traded: dict[tuple[int, bool], Traded] = field(default_factory=dict)
    wrong: list[str] = field(default_factory=list)

    @property
    def free(self) -> int:
        return self.limit - self.filled - self.reserved


class Reading:
    """Reads one client after the other. `owners` has for each bank, and each of its commands from 1, the client that was answered, counted from 1."""

    def __init__(self, lines: Lines, header: Header, sent: list[int]):
        self.lines, self.header, self.names = lines, header, set()
        self.owners = [array("H", bytes(2 * (count + 1))) for count in sent]
        self.place, self.last = 0, 0

    def client(self, place: int, count: int) -> Client:
        """The client of this place, with its lines."""
        bank, name, *numbers = self.lines.take(CLIENT_LINE, f"the line CLIENT of client {place} of {count}")
        client = Client(bank_of(self.lines, self.header, bank.encode()), name, *map(int, numbers))
        if (bank, name) in self.names:
            raise self.bad(f"{bank} has a client {name} already")
        if client.limit > MOST_LIMIT:
            raise self.bad("a limit above 10^15")
        self.names.add((bank, name))
        self.place, self.last = place, 0
        for number in range(1, client.count + 1):
            self.take(client, number)
        self.compare(client)
        return client

    def bad(self, what: str) -> BadLine:
        return self.lines.bad(what)

    def called(self, client: Client) -> str:
        return f"{self.header.banks[client.bank]}'s client {client.name}"

    def take(self, client: Client, number: int) -> None:
        """Takes the client's line of this number."""
        wanted = "line ", number, " of ", client.count, " of ", self.called(client)
        line = self.lines.next(*wanted)
        word = (line.split(b" ", 2) + [b""])[1]
        found = SHAPES[word].fullmatch(line) if word in SHAPES else None
        if not found or int(found[1]) != number:
            raise self.bad(f"expected {''.join(map(str, wanted))}")
        if word == b"SHORT":
            self.take_short(client, number, int(found[2]))
        elif word == b"BARRED":
            client.barred += 1
        elif word == b"REPLY":
            self.take_reply(client, reply_told(line, found))
        else:
            self.take_fill(client, fill_told(self.lines, self.header, client.bank, self.last, line, found))

    def take_short(self, client: Client, number: int, free: int) -> None:
        client.short += 1
        if free > client.limit - client.cost:
            client.wrong.append(f"{self.called(client)} had {free} free by its line {number}, and its limit less its fills was {client.limit - client.cost}")

    def take_reply(self, client: Client, reply: Reply) -> None:
        """Notes that the command is the client's; its commands come in order, and no other client has them."""
        bank, owners = self.header.banks[client.bank], self.owners[client.bank]
        if reply.kind in FOR_BANKS:
            raise self.bad(f"a client is told no {reply.kind}")
        if not self.last < reply.command < len(owners):
            raise self.bad(f"a reply to command {reply.command} of {bank}, which has {len(owners) - 1}; the reply before was to command {self.last}")
        if owners[reply.command]:
            raise self.bad(f"command {reply.command} of {bank} was another client's")
        owners[reply.command] = self.place
        self.last = reply.command
        client.replies += 1

    def take_fill(self, client: Client, fill: Fill) -> None:
        """Adds a fill of one of the client's orders to its sums."""
        if self.owners[client.bank][fill.command] != self.place:
            raise self.bad(f"a fill of order {fill.command}, which is none of {self.called(client)}")
        pair = self.header.pairs[fill.pair]
        if (fill.base, fill.quote) != pair.amounts(fill.lots, fill.ticks):
            client.wrong.append(f"the amounts at line {self.lines.number} are not those of {fill.lots} lots at {fill.price.decode()}")
        key = fill.pair, fill.buys
        client.traded[key] = client.traded.get(key, Traded()).with_fill(fill)
        client.cost += fill.lots * pair.weight

    def compare(self, client: Client) -> None:
        """Compares what the client's line says with its fills and its limit."""
        if client.cost != client.filled:
            client.wrong.append(f"{self.called(client)} has {client.filled} filled, and its fills come to {client.cost}")
        if client.free < 0:
            client.wrong.append(f"{self.called(client)} has {client.filled} filled and {client.reserved} reserved, which is above its limit of {client.limit}")


def read_clients(lines: Lines, header: Header, sent: list[int]) -> list[Client] | None:
    """The clients behind an output, which was read up to its ending, or None where the text ends there. `sent` is how many commands each bank has."""
    line = lines.more()
    if line is None:
        return None
    found = CLIENTS_LINE.fullmatch(line)
    if not found:
        raise lines.bad("a line after the ending")
    count = int(found[1])
    if count > MOST_CLIENTS:
        raise lines.bad(f"no session has more than {MOST_CLIENTS} clients")
    reading = Reading(lines, header, sent)
    clients = [reading.client(place, count) for place in range(1, count + 1)]
    if lines.more() is not None:
        raise lines.bad(f"a line after the last of {count} clients")
    return clients
