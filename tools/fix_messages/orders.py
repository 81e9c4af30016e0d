"""The first step: what each FIX message asks for, as a line of a session, or how it is refused and in which words."""
import re
from collections import Counter
from dataclasses import dataclass, field

from reading.market import FAULT_LOTS, FAULTS, Header, Pair
from reading.session import MOST_BYTES, command_fault

from .message import Garbled, Message, built, cut, parse
from .settling import Replace, replace_line
from .table import Row

NEW, CANCEL, REPLACE = "D", "F", "G"
REPORT, CANCEL_REJECT, REJECT, BUSINESS_REJECT = "8", "9", "3", "j"
SIDES = {"1": "BUY", "2": "SELL"}
LIVES = {"0": "DAY", "3": "IOC", "4": "FOK"}

# The tags that may stand in a message; any other one asks for something that a session has no line for.
HEADER_TAGS = {8, 9, 35, 34, 43, 49, 50, 52, 56, 57, 97, 122, 142, 143}
ALLOWED = {
    NEW: HEADER_TAGS | {1, 11, 15, 21, 38, 40, 44, 54, 55, 58, 59, 60, 447, 448, 452, 453, 526},
    CANCEL: HEADER_TAGS | {1, 11, 37, 38, 41, 54, 55, 58, 60, 447, 448, 452, 453, 526},
    REPLACE: HEADER_TAGS | {1, 11, 15, 21, 37, 38, 40, 41, 44, 54, 55, 58, 59, 60, 447, 448, 452, 453, 526},
}
REQUIRED = {NEW: (52, 11, 55, 54, 60, 38, 40), CANCEL: (52, 41, 11, 55, 54, 60, 38), REPLACE: (52, 41, 11, 55, 54, 60, 38, 40)}
TIME = r"[0-9]{8}-[0-9]{2}:[0-9]{2}:[0-9]{2}(\.[0-9]{3})?"
FORMS = {
    38: r"[0-9]{1,30}(\.[0-9]{0,30})?", 44: r"-?[0-9]{1,30}(\.[0-9]{0,30})?", 52: TIME, 60: TIME, 15: r"[A-Z]{3}",
    40: r"[1-9DEGIJKLMP]", 54: r"[1-9A-G]", 59: r"[0-7]", 21: r"[123]",
}
CODES = (40, 54, 59, 21)
NAMES = {11: "ClOrdID", 15: "Currency", 21: "HandlInst", 38: "OrderQty", 40: "OrdType", 41: "OrigClOrdID", 44: "Price", 52: "SendingTime",
         54: "Side", 55: "Symbol", 59: "TimeInForce", 60: "TransactTime"}

# The reasons that FIX 4.4 has numbers for: OrdRejReason (103), CxlRejReason (102), SessionRejectReason (373), BusinessRejectReason (380).
UNKNOWN_SYMBOL, DUPLICATE_ORDER, UNSUPPORTED, WRONG_QUANTITY, OTHER = 1, 6, 11, 13, 99
UNKNOWN_ORDER, VENUE_RULE, DUPLICATE_REQUEST = 1, 2, 6
MISSING, WRONG_VALUE, WRONG_FORM, TWICE = 1, 5, 6, 13
UNKNOWN_KIND, CONDITIONALLY_MISSING, NOT_AUTHORIZED = 3, 5, 6


class Refusal(Exception):
    """A message that becomes no line: the MsgType of the answer, the reason's number there, the words, and the tag that a Reject names."""

    def __init__(self, answer: str, reason: int, words: str, tag: int = 0):
        super().__init__(words)
        self.answer, self.reason, self.words, self.tag = answer, reason, words, tag


@dataclass
class Order:
    """An order that became a line: its number in its bank's stream, its pair, side, price and life, and the lots that were last asked for, with
    those that were filled."""

    number: int
    pair: Pair
    side: str
    price: str
    life: str
    lots: int


def named(tag: int) -> str:
    return f"{NAMES[tag]} ({tag})" if tag in NAMES else f"the tag {tag}"


def lots_of(value: str, pair: Pair) -> int:
    """The whole number of lots that an OrderQty is, in units of the base currency; ValueError in words where it is none."""
    units, _, parts = value.partition(".")
    if parts.strip("0") or int(units) % pair.lot:
        raise ValueError(f"OrderQty (38) {value} is not a whole number of lots: a lot of {pair.name} is {pair.lot} {pair.base}")
    return int(units) // pair.lot


def price_of(value: str, pair: Pair) -> str:
    """A price as the session spells it, with exactly the pair's decimals; ValueError in words where it has more that are not 0."""
    if value.startswith("-"):
        raise ValueError(f"Price (44) {value} is below 0")
    whole, _, digits = value.partition(".")
    digits = digits.rstrip("0")
    if len(digits) > pair.decimals:
        raise ValueError(f"Price (44) {value} has more than the {pair.decimals} decimals of {pair.name}")
    return (whole.lstrip("0") or "0") + ("." + digits.ljust(pair.decimals, "0") if pair.decimals else "")


def check_form(message: Message) -> None:
    """Refuses a message in which a required tag is missing, or one that is read stands twice or has not its form."""
    read = {*REQUIRED[message.kind], *NAMES} & {tag for tag, _ in message.fields}
    for tag in REQUIRED[message.kind]:
        if tag not in read:
            raise Refusal(REJECT, MISSING, f"{named(tag)} is missing", tag)
    for tag in sorted(read | {34, 49, 56}):
        if message.count(tag) > 1:
            raise Refusal(REJECT, TWICE, f"{named(tag)} appears more than once", tag)
    for tag, value in message.fields:
        if not value.isascii() or not value.isprintable():
            raise Refusal(REJECT, WRONG_FORM, f"{named(tag)} has a character that is not printable ASCII", tag)
        if tag in FORMS and not re.fullmatch(FORMS[tag], value):
            raise Refusal(REJECT, WRONG_VALUE if tag in CODES else WRONG_FORM, f"{named(tag)} is malformed: {value}", tag)


@dataclass
class Desk:
    """Takes messages one by one. `senders` has the bank of each SenderCompID. `lines` gets the session's command lines, `answers` the
    messages that refuse, `told` what can't be answered by a message, `rows` the side table. `replaces` gets the replaces whose orders may have been
    filled before: their lines are yet to be settled. Where `unknown` says why what was filled can't be told, these are refused."""

    header: Header
    senders: dict[str, str]
    time: str
    unknown: str = ""
    lines: list[str] = field(default_factory=list)
    replaces: list[Replace] = field(default_factory=list)
    answers: list[bytes] = field(default_factory=list)
    told: list[str] = field(default_factory=list)
    rows: list[Row] = field(default_factory=list)
    orders: dict[tuple[str, str], Order] = field(default_factory=dict)
    used: set[tuple[str, str]] = field(default_factory=set)
    sent: Counter = field(default_factory=Counter)
    sequence: Counter = field(default_factory=Counter)
    best: dict[tuple[str, str], dict[str, int]] = field(default_factory=dict)
    size: int = 0

    def take_text(self, text: bytes) -> None:
        """Takes all messages of a text."""
        self.size = sum(len(line) + 1 for line in self.header.lines()) + len(b"END\n")
        for place, piece in enumerate(cut(text), 1):
            try:
                self.take(parse(place, piece))
            except Garbled as why:
                self.told.append(f"message {place} is refused: {why}")

    def take(self, message: Message) -> None:
        """Makes a line of a message, or refuses it; Garbled where there is nobody, or no number, that an answer could name."""
        for tag, name in ((49, "SenderCompID"), (56, "TargetCompID"), (34, "MsgSeqNum")):
            if message.get(tag) is None:
                raise Garbled(f"the {name} ({tag}) is missing, so nobody can be answered")
        if not re.fullmatch("[0-9]{1,18}", message.get(34)):
            raise Garbled("the MsgSeqNum (34) is not a number, so no answer could name it")
        row = Row(message.place, message.get(49), message.get(56), kind=message.kind, identity=message.get(11) or "", original=message.get(41) or "")
        self.rows.append(row)
        try:
            self.accept(message, row)
        except Refusal as refusal:
            self.refuse(message, row, refusal)

    def accept(self, message: Message, row: Row) -> None:
        """Makes a line of a message and adds it to its bank's stream."""
        if row.kind not in ALLOWED:
            raise Refusal(BUSINESS_REJECT, UNKNOWN_KIND, "only NewOrderSingle (D), OrderCancelRequest (F) and OrderCancelReplaceRequest (G) are taken")
        row.bank = self.senders.get(row.sender, "")
        if not row.bank:
            raise Refusal(BUSINESS_REJECT, NOT_AUTHORIZED, f"the SenderCompID (49) {row.sender} is not a bank's")
        check_form(message)
        self.check_request(message, row)
        make = {NEW: self.new_line, CANCEL: self.cancel_line, REPLACE: self.replace_line}[row.kind]
        line, order = make(message, row)
        self.check_line(line, row)
        self.sent[row.bank] += 1
        self.size += len(line) + 1
        row.command, row.line = self.sent[row.bank], line
        self.lines.append(line)
        if row.kind == NEW:
            order.number = row.command
            self.note_price(order, row.bank)
        if row.kind != CANCEL:
            self.orders[row.sender, row.identity] = order
            order.lots = row.lots
        if row.kind == REPLACE and self.may_be_filled(order, row.bank):
            self.replaces.append(Replace(len(self.lines) - 1, row, order.pair.name))
        row.order = order.number

    def check_request(self, message: Message, row: Row) -> None:
        """Refuses what holds for all three kinds: a ClOrdID that stood before, a tag that asks for more than a line can, an unknown symbol."""
        seen = (row.sender, row.identity)
        if seen in self.used:
            raise self.refused(row, DUPLICATE_ORDER, DUPLICATE_REQUEST, f"the ClOrdID (11) {row.identity} was used before")
        self.used.add(seen)
        for tag, _ in message.fields:
            if tag not in ALLOWED[row.kind]:
                raise self.refused(row, UNSUPPORTED, VENUE_RULE, f"the tag {tag} has no counterpart in a session")
        if message.get(55).encode() not in self.header.pair_at:
            raise self.refused(row, UNKNOWN_SYMBOL, OTHER, f"the Symbol (55) {message.get(55)} is not a pair of the header")
        if message.get(21) not in (None, "1"):
            raise self.refused(row, UNSUPPORTED, VENUE_RULE, "a HandlInst (21) other than 1 has no counterpart")
        pair = self.pair(message)
        if message.get(15) not in (None, pair.base):
            raise self.refused(row, UNSUPPORTED, VENUE_RULE, f"quantities are in {pair.base}, the base currency, and not in {message.get(15)}")

    def pair(self, message: Message) -> Pair:
        return self.header.pairs[self.header.pair_at[message.get(55).encode()]]

    def refused(self, row: Row, order_reason: int, request_reason: int, words: str) -> Refusal:
        """The refusal of an order by an ExecutionReport, or of a cancel or replace by an OrderCancelReject."""
        return Refusal(REPORT, order_reason, words) if row.kind == NEW else Refusal(CANCEL_REJECT, request_reason, words)

    def note_price(self, order: Order, bank: str) -> None:
        """Keeps the price of each bank's orders that the most orders of the other side cross: its greatest buy, its lowest sell."""
        ticks, prices = order.pair.ticks(order.price.encode()), self.best.setdefault((order.pair.name, order.side), {})
        prices[bank] = (max if order.side == "BUY" else min)(ticks, prices.get(bank, ticks))

    def may_be_filled(self, order: Order, bank: str) -> bool:
        """Whether another bank sent an order up to now that crosses this one; where none did, nothing was filled of it."""
        ticks, buys = order.pair.ticks(order.price.encode()), order.side == "BUY"
        others = self.best.get((order.pair.name, "SELL" if buys else "BUY"), {})
        return any(other != bank and (price <= ticks if buys else price >= ticks) for other, price in others.items())

    def check_line(self, line: str, row: Row) -> None:
        """Refuses a line that the program would not take."""
        fields = line.encode().split(b" ")
        if fault := command_fault(self.header, self.header.bank_at[fields[0]], fields):
            raise self.refused(row, WRONG_QUANTITY if fault == FAULT_LOTS else OTHER, OTHER, f"{FAULTS[fault]}: {line}")
        if self.size + len(line) + 1 > MOST_BYTES:
            raise self.refused(row, OTHER, OTHER, "the session's text is full, at 2^26 bytes")

    def limit_price(self, message: Message, row: Row) -> str:
        """The price of a message whose OrdType is a limit order, as the session spells it."""
        if message.get(40) != "2":
            raise self.refused(row, UNSUPPORTED, VENUE_RULE, f"OrdType (40) {message.get(40)} has no counterpart: only limit orders (2) have")
        if message.get(44) is None:
            raise Refusal(BUSINESS_REJECT, CONDITIONALLY_MISSING, "a limit order needs a Price (44)")
        try:
            return price_of(message.get(44), self.pair(message))
        except ValueError as fault:
            raise self.refused(row, OTHER, OTHER, str(fault)) from fault

    def whole_lots(self, message: Message, row: Row) -> int:
        try:
            return lots_of(message.get(38), self.pair(message))
        except ValueError as fault:
            raise self.refused(row, WRONG_QUANTITY, OTHER, str(fault)) from fault

    def new_line(self, message: Message, row: Row) -> tuple[str, Order]:
        """The line of a NewOrderSingle, and the order."""
        side, life = SIDES.get(message.get(54)), LIVES.get(message.get(59) or "0")
        if side is None:
            raise self.refused(row, UNSUPPORTED, VENUE_RULE, f"Side (54) {message.get(54)} has no counterpart: only 1 (buy) and 2 (sell) have")
        if life is None:
            raise self.refused(row, UNSUPPORTED, VENUE_RULE, f"TimeInForce (59) {message.get(59)} has no counterpart: only 0 (day), 3 (IOC) and 4 (FOK) have")
        price, pair = self.limit_price(message, row), self.pair(message)
        row.lots = self.whole_lots(message, row)
        return f"{row.bank} {side} {pair.name} {price} {row.lots} {life}", Order(0, pair, side, price, life, row.lots)

    def known_order(self, message: Message, row: Row) -> Order:
        """The order that a cancel or replace is for, which has to have the same symbol and side."""
        order = self.orders.get((row.sender, row.original))
        if order is None:
            raise Refusal(CANCEL_REJECT, UNKNOWN_ORDER, f"the OrigClOrdID (41) {row.original} names no order that was accepted")
        row.order = order.number
        if message.get(55) != order.pair.name or SIDES.get(message.get(54)) != order.side:
            raise Refusal(CANCEL_REJECT, OTHER, f"the order {row.original} is a {order.side} of {order.pair.name}: Symbol (55) and Side (54) can't change")
        return order

    def cancel_line(self, message: Message, row: Row) -> tuple[str, Order]:
        """The line of an OrderCancelRequest, and its order."""
        order = self.known_order(message, row)
        return f"{row.bank} CANCEL {order.pair.name} {order.number}", order

    def replace_line(self, message: Message, row: Row) -> tuple[str, Order]:
        """The line of an OrderCancelReplaceRequest, which lowers the quantity and changes nothing else, and its order. The line takes the order as not
        filled before."""
        order = self.known_order(message, row)
        if self.limit_price(message, row) != order.price:
            raise Refusal(CANCEL_REJECT, VENUE_RULE, f"a replace can't change the price, which is {order.price}: cancel the order and send a new one")
        if LIVES.get(message.get(59) or "0") != order.life:
            raise Refusal(CANCEL_REJECT, VENUE_RULE, f"a replace can't change the TimeInForce (59), which is {order.life}")
        row.lots = self.whole_lots(message, row)
        if row.lots >= order.lots:
            raise Refusal(CANCEL_REJECT, VENUE_RULE, f"a replace can only lower the quantity, and {order.lots * order.pair.lot} was asked for before")
        if not row.lots:
            raise Refusal(CANCEL_REJECT, VENUE_RULE, "a replace can't lower the quantity to nothing: send an OrderCancelRequest")
        if self.unknown and self.may_be_filled(order, row.bank):
            raise Refusal(CANCEL_REJECT, OTHER, f"OrderQty (38) counts what was filled before, and that can't be told here: {self.unknown}")
        return replace_line(row, order.pair.name, 0), order

    def refuse(self, message: Message, row: Row, refusal: Refusal) -> None:
        """Writes the message that refuses."""
        row.answer = refusal.answer
        self.sequence[row.sender, row.target] += 1
        head = [(35, refusal.answer), (49, row.target), (56, row.sender), (34, self.sequence[row.sender, row.target]), (52, self.time)]
        body = {REPORT: order_refused, CANCEL_REJECT: request_refused, REJECT: form_refused, BUSINESS_REJECT: business_refused}[refusal.answer]
        self.answers.append(built(head + body(message, row, refusal) + [(58, f"message {message.place}: {refusal.words}")]))


def order_refused(message: Message, row: Row, refusal: Refusal) -> list[tuple[int, object]]:
    echoed = [(tag, message.get(tag)) for tag in (38, 40, 44, 59) if message.get(tag) is not None]
    named_by = [(37, "NONE"), (11, row.identity), (17, f"{row.bank}-X{row.message}")]
    return named_by + [(150, 8), (39, 8), (103, refusal.reason), (55, message.get(55)), (54, message.get(54)), *echoed, (151, 0), (14, 0), (6, 0)]


def request_refused(message: Message, row: Row, refusal: Refusal) -> list[tuple[int, object]]:
    """An order that was taken is pending (A) as long as the session has not run; of one that is not known the status is rejected (8)."""
    known = [(37, f"{row.bank}-{row.order}"), (39, "A")] if row.order else [(37, "NONE"), (39, 8)]
    return [*known, (11, row.identity), (41, row.original), (434, 1 if row.kind == CANCEL else 2), (102, refusal.reason)]


def form_refused(message: Message, row: Row, refusal: Refusal) -> list[tuple[int, object]]:
    return [(45, message.get(34)), (371, refusal.tag), (372, row.kind), (373, refusal.reason)]


def business_refused(message: Message, row: Row, refusal: Refusal) -> list[tuple[int, object]]:
    reference = [(379, row.identity)] if row.identity.isascii() and row.identity else []
    return [(45, message.get(34)), (372, row.kind), *reference, (380, refusal.reason)]
