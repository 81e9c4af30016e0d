"""The tables that an output becomes, with each column's type and meaning."""
from dataclasses import dataclass

NEEDED, KEY = "NOT NULL", "NOT NULL PRIMARY KEY"


@dataclass
class Column:
    """A column: its type in SQLite, what it says, and its constraint."""

    name: str
    kind: str
    says: str
    rule: str = ""


@dataclass
class Table:
    """A table: what a row is, its columns, and the constraints over more than one of them."""

    name: str
    says: str
    columns: list[Column]
    rules: tuple[str, ...] = ()
    without_number: bool = False

    def schema(self, strict: str) -> str:
        parts = [f"{column.name} {column.kind} {column.rule}".rstrip() for column in self.columns]
        ends = [word for word in (strict, "WITHOUT ROWID" if self.without_number else "") if word]
        return f"CREATE TABLE {self.name} (\n  " + ",\n  ".join([*parts, *self.rules]) + f"\n) {', '.join(ends)}".rstrip()

    def insertion(self) -> str:
        return f"INSERT INTO {self.name} VALUES ({', '.join('?' * len(self.columns))})"


BANK, SENDER, PAIR = "NOT NULL REFERENCES banks", "NOT NULL REFERENCES senders", "NOT NULL REFERENCES pairs"

TABLES = [
    Table("day", "one row for the whole text", [
        Column("sha256", "TEXT", "the SHA-256 of the output's text", NEEDED),
        Column("bytes", "INTEGER", "how many bytes it has", NEEDED),
        Column("commands", "INTEGER", "how many commands the history has", NEEDED),
        Column("strays", "INTEGER", "how many text lines of the session were no bank's", NEEDED),
        Column("ending", "TEXT", "END, CUT, READ or MUCH", NEEDED),
    ]),
    Table("banks", "a bank of the header", [
        Column("bank", "TEXT", "its name", KEY),
        Column("place", "INTEGER", "its place in the header, from 1", NEEDED),
    ]),
    Table("senders", "one that sends commands: a bank, or in version 2 the operator", [
        Column("sender", "TEXT", "the bank's name, or HOST", KEY),
        Column("place", "INTEGER", "its place among the desks, from 1", NEEDED),
    ]),
    Table("currencies", "a currency of the pairs", [
        Column("currency", "TEXT", "its code", KEY),
        Column("place", "INTEGER", "its place, in the order in which the pairs first name it, from 1", NEEDED),
    ]),
    Table("pairs", "a pair of the header", [
        Column("pair", "TEXT", "its name, as EUR/USD", KEY),
        Column("place", "INTEGER", "its place in the header, from 1", NEEDED),
        Column("base", "TEXT", "the base currency", "NOT NULL REFERENCES currencies"),
        Column("quote", "TEXT", "the quote currency", "NOT NULL REFERENCES currencies"),
        Column("decimals", "INTEGER", "the decimals of its prices", NEEDED),
        Column("lot", "INTEGER", "units of base in a lot", NEEDED),
        Column("weight", "INTEGER", "credit units that a lot uses", NEEDED),
    ]),
    Table("opening_limits", "a limit above 0 at the opening", [
        Column("bank", "TEXT", "the bank that sets it", BANK),
        Column("other", "TEXT", "the bank on which it is set", BANK),
        Column("amount", "INTEGER", "credit units", NEEDED),
    ], ("PRIMARY KEY (bank, other)",)),
    Table("opening_totals", "a bank's total at the opening, in version 2", [
        Column("bank", "TEXT", "the bank", "NOT NULL PRIMARY KEY REFERENCES banks"),
        Column("amount", "INTEGER", "credit units", NEEDED),
    ]),
    Table("commands", "a command of the journal", [
        Column("entry", "INTEGER", "its place in the history, from 1", KEY),
        Column("bank", "TEXT", "the bank that sent it, or HOST", SENDER),
        Column("command", "INTEGER", "its number in the sender's stream, from 1", NEEDED),
        Column("kind", "TEXT", "BUY, SELL, CANCEL, REDUCE, PULL, LINE, SHOW, BOOK or BAD; in version 2 also TOTAL or SETTLE", NEEDED),
        Column("pair", "TEXT", "the pair, of all but LINE, SHOW, TOTAL, SETTLE and BAD", "REFERENCES pairs"),
        Column("price", "TEXT", "the price of a BUY or SELL as it is spelled"),
        Column("ticks", "INTEGER", "the same price in ticks, the last decimal of the pair"),
        Column("lots", "INTEGER", "the lots of a BUY, SELL or REDUCE"),
        Column("life", "TEXT", "the life of a BUY or SELL: DAY, IOC or FOK"),
        Column("target", "INTEGER", "the number of the bank's order that a CANCEL or REDUCE is for, whether there is one or not"),
        Column("other", "TEXT", "the other bank of a LINE or SHOW, the first one of a SETTLE", "REFERENCES banks"),
        Column("second", "TEXT", "the second bank of a SETTLE", "REFERENCES banks"),
        Column("amount", "INTEGER", "the limit that a LINE sets, the total that a TOTAL sets, the units that a SETTLE gives back, in credit units as asked"),
        Column("fault", "INTEGER", "the fault of a BAD, 1 to 11; of HOST's 1 to 12"),
    ], ("UNIQUE (bank, command)",)),
    Table("notices", "a text line of a desk: a reply to one of its sender's commands, or a fill", [
        Column("bank", "TEXT", "the bank whose desk it is on, or HOST", SENDER),
        Column("notice", "INTEGER", "the notice's number on the desk, from 1", NEEDED),
        Column("kind", "TEXT", "FILL, or the reply's word: ORDERED, KILLED, CANCELLED, REDUCED, NOTLESS, NOTHING, PULLED, LIMIT, SHOWN, BOOK, BAD, TOTAL or SETTLED", NEEDED),
        Column("command", "INTEGER", "the number of the bank's own command that it is of", NEEDED),
        Column("filled", "INTEGER", "of ORDERED: the lots that were filled"),
        Column("left_lots", "INTEGER", "of ORDERED, CANCELLED, REDUCED, NOTLESS: the lots that the order has left, or had when it was taken out"),
        Column("pulled", "INTEGER", "of PULLED: how many orders were taken out"),
        Column("amount", "INTEGER", "of LIMIT, SHOWN: the bank's limit on the other, in credit units; of TOTAL: its total; of SETTLED: what was given back"),
        Column("used", "INTEGER", "of SHOWN: what the two have used"),
        Column("line", "INTEGER", "of SHOWN: the line between the two"),
        Column("fault", "INTEGER", "of BAD: the fault, 1 to 11; of HOST's 1 to 12"),
        Column("pair", "TEXT", "of FILL, BOOK: the pair", "REFERENCES pairs"),
        Column("bids", "TEXT", "of BOOK: price and lots of each bid level by turns, the best first"),
        Column("asks", "TEXT", "of BOOK: price and lots of each ask level by turns, the best first"),
        Column("side", "TEXT", "of FILL: BUY or SELL, the side of the bank's own order"),
        Column("lots", "INTEGER", "of FILL: its lots"),
        Column("price", "TEXT", "of FILL: its price as it is spelled"),
        Column("ticks", "INTEGER", "of FILL: its price in ticks"),
        Column("other", "TEXT", "of FILL: the other bank", "REFERENCES banks"),
        Column("base_amount", "INTEGER", "of FILL: the amount in base currency"),
        Column("quote_amount", "INTEGER", "of FILL: the amount in quote currency"),
    ], ("PRIMARY KEY (bank, notice)", "FOREIGN KEY (bank, command) REFERENCES commands (bank, command)"), True),
    Table("fills", "a fill, made of its two notices", [
        Column("entry", "INTEGER", "the command that made it, an order, a LINE or a TOTAL; of a fill that a SETTLE made the last command before it of its two banks", "NOT NULL REFERENCES commands"),
        Column("turn", "INTEGER", "orders the fills of one entry: its notice's number on the desk of the entry's bank", NEEDED),
        Column("pair", "TEXT", "the pair", PAIR),
        Column("lots", "INTEGER", "its lots", NEEDED),
        Column("price", "TEXT", "its price, which is the maker's, as it is spelled", NEEDED),
        Column("ticks", "INTEGER", "its price in ticks", NEEDED),
        Column("base_amount", "INTEGER", "the amount in base currency, which the buyer gets", NEEDED),
        Column("quote_amount", "INTEGER", "the amount in quote currency, which the seller gets", NEEDED),
        Column("buyer", "TEXT", "the buyer", BANK),
        Column("seller", "TEXT", "the seller", BANK),
        Column("taker", "TEXT", "the taker's bank, whose order came later", BANK),
        Column("maker", "TEXT", "the maker's bank, whose order rested", BANK),
        Column("taker_entry", "INTEGER", "the taker's order", "NOT NULL REFERENCES commands"),
        Column("maker_entry", "INTEGER", "the maker's order", "NOT NULL REFERENCES commands"),
        Column("taker_notice", "INTEGER", "the taker's notice", NEEDED),
        Column("maker_notice", "INTEGER", "the maker's notice", NEEDED),
    ], ("PRIMARY KEY (entry, turn)", "FOREIGN KEY (taker, taker_notice) REFERENCES notices", "FOREIGN KEY (maker, maker_notice) REFERENCES notices"), True),
    Table("book_levels", "a level of a bank's local book at the end", [
        Column("bank", "TEXT", "the bank whose book it is", BANK),
        Column("pair", "TEXT", "the pair", PAIR),
        Column("side", "TEXT", "BID, what the bank could sell to, or ASK, what it could buy", NEEDED),
        Column("level", "INTEGER", "1 is the best, 10 the last that the output has", NEEDED),
        Column("price", "TEXT", "the price as it is spelled", NEEDED),
        Column("ticks", "INTEGER", "the price in ticks", NEEDED),
        Column("lots", "INTEGER", "the lots that the bank could take there", NEEDED),
    ], ("PRIMARY KEY (bank, pair, side, level)",), True),
    Table("volumes", "a pair's volume, as the report has it", [
        Column("pair", "TEXT", "the pair", "NOT NULL PRIMARY KEY REFERENCES pairs"),
        Column("fills", "INTEGER", "how many fills there were", NEEDED),
        Column("lots", "INTEGER", "their lots", NEEDED),
        Column("base_amount", "INTEGER", "their amount in base currency", NEEDED),
        Column("quote_amount", "INTEGER", "their amount in quote currency", NEEDED),
    ]),
    Table("uses", "the credit between two banks at the end", [
        Column("bank", "TEXT", "the earlier bank of the header", BANK),
        Column("other", "TEXT", "the later one", BANK),
        Column("bank_limit", "INTEGER", "the limit of `bank` on `other`, in credit units", NEEDED),
        Column("other_limit", "INTEGER", "the limit of `other` on `bank`", NEEDED),
        Column("used", "INTEGER", "what the two have used by their fills, less what was given back", NEEDED),
        Column("line", "INTEGER", "the line that is left", NEEDED),
    ], ("PRIMARY KEY (bank, other)",)),
    Table("nets", "what a bank got of a currency by its fills, less what it gave", [
        Column("bank", "TEXT", "the bank", BANK),
        Column("currency", "TEXT", "the currency", "NOT NULL REFERENCES currencies"),
        Column("amount", "INTEGER", "below 0 the bank owes", NEEDED),
    ], ("PRIMARY KEY (bank, currency)",)),
]

INDEXES = [
    "CREATE INDEX notices_of_commands ON notices (bank, command)",
    "CREATE INDEX fills_of_takers ON fills (taker_entry)",
    "CREATE INDEX fills_of_makers ON fills (maker_entry)",
]


def described() -> str:
    """The tables and their columns, as docs/TOOLS.md has them."""
    blocks = []
    for table in TABLES:
        rows = [f"| `{column.name}` | {column.kind} | {column.says} |" for column in table.columns]
        keys = [rule for rule in table.rules if "KEY" in rule or "UNIQUE" in rule] + [
            f"{column.name}: {column.rule.removeprefix('NOT NULL ')}" for column in table.columns if "KEY" in column.rule or "REFERENCES" in column.rule
        ]
        told = f"\n\nKeys: {'; '.join(f'`{key}`' for key in keys)}." if keys else ""
        blocks.append(f"**`{table.name}`**: {table.says}.\n\n| Column | Type | What it says |\n|---|---|---|\n" + "\n".join(rows) + told)
    return "\n\n".join(blocks)
