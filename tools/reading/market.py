"""What the header of a session and that of an output declare: a version, banks, pairs, opening limits and totals."""
import re
from dataclasses import dataclass, field

MOST_BANKS, MOST_PAIRS = 64, 32
# A text of digits in its one spelling; of any length in a session, of at most 40 digits in an output.
NUMERAL = re.compile(rb"0|[1-9][0-9]*")

# What a command line can have as its first fault, by the number that a BAD reply tells.
FAULT_LONG, FAULT_WORD, FAULT_COUNT, FAULT_PAIR, FAULT_PRICE_FORM, FAULT_PRICE_RANGE = 11, 1, 2, 3, 4, 5
FAULT_LOTS, FAULT_BANK, FAULT_LIMIT, FAULT_NUMBER, FAULT_LIFE, FAULT_UNITS = 6, 7, 8, 9, 10, 12

FAULTS = {
    FAULT_WORD: "the second field is missing or is not a command's word",
    FAULT_COUNT: "the line has the wrong number of fields for its word",
    FAULT_PAIR: "the header has no such pair",
    FAULT_PRICE_FORM: "this is not a price with the pair's decimals",
    FAULT_PRICE_RANGE: "the price is 0 or above 10^9 ticks",
    FAULT_LOTS: "the lots are not a number from 1 to 1000000",
    FAULT_BANK: "this is not another bank's name",
    FAULT_LIMIT: "the limit is not a number from 0 to 10^15",
    FAULT_NUMBER: "the order's number is not a number from 1 to 4294967295",
    FAULT_LIFE: "the life is not DAY, IOC or FOK",
    FAULT_LONG: "the line has more than 256 bytes",
    FAULT_UNITS: "the units are not a number from 1 to 10^15",
}


@dataclass
class Pair:
    """A currency pair. `unit` is what a lot of 1 tick comes to, in quote currency."""

    name: str
    base: str
    quote: str
    decimals: int
    lot: int
    weight: int

    def __post_init__(self) -> None:
        self.unit = self.lot // 10**self.decimals

    def ticks(self, price: bytes) -> int | None:
        """The ticks of a price's bytes, or None where it has another number of decimals."""
        return int(price.replace(b".", b"")) if len(price.partition(b".")[2]) == self.decimals else None

    def amounts(self, lots: int, ticks: int) -> tuple[int, int]:
        """What so many lots at a price come to, in base and in quote currency."""
        return lots * self.lot, lots * self.unit * ticks


HOST = "HOST"


@dataclass
class Header:
    """The version, the banks, the pairs, the limit that each bank opens with on another, by their places, where no limit is 0, and the
    total of each bank that has one. In version 2 the operator is a sender too, whose place is behind the banks."""

    version: int = 1
    banks: list[str] = field(default_factory=list)
    pairs: list[Pair] = field(default_factory=list)
    opening: dict[tuple[int, int], int] = field(default_factory=dict)
    totals: dict[int, int] = field(default_factory=dict)
    bank_at: dict[bytes, int] = field(default_factory=dict)
    pair_at: dict[bytes, int] = field(default_factory=dict)

    def add_bank(self, name: str) -> None:
        self.bank_at[name.encode()] = len(self.banks)
        self.banks.append(name)

    def add_pair(self, pair: Pair) -> None:
        self.pair_at[pair.name.encode()] = len(self.pairs)
        self.pairs.append(pair)

    @property
    def host(self) -> int | None:
        """The operator's place among the senders, where there is an operator."""
        return len(self.banks) if self.version == 2 else None

    @property
    def senders(self) -> list[str]:
        """The names of all that send commands, in the order of their desks."""
        return [*self.banks, HOST] if self.version == 2 else self.banks

    def sender_of(self, name: bytes) -> int | None:
        """The place of the sender of a name."""
        return self.host if name == HOST.encode() else self.bank_at.get(name)

    @property
    def currencies(self) -> list[str]:
        """The currencies, in the order in which the pairs first name them."""
        return list(dict.fromkeys(code for pair in self.pairs for code in (pair.base, pair.quote)))

    def lines(self) -> list[bytes]:
        """The lines of this header in the spelling of an output, up to START."""
        banks = [f"BANK {bank}" for bank in self.banks]
        pairs = [f"PAIR {pair.name} {pair.decimals} {pair.lot} {pair.weight}" for pair in self.pairs]
        granted = sorted((places, limit) for places, limit in self.opening.items() if limit)
        limits = [f"LINE {self.banks[giver]} {self.banks[taker]} {limit}" for (giver, taker), limit in granted]
        totals = [f"TOTAL {self.banks[bank]} {total}" for bank, total in sorted(self.totals.items())]
        return [line.encode() for line in [f"FXBOOK {self.version}", *banks, *pairs, *limits, *totals, "START"]]
