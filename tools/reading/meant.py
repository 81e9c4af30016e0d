"""Guesses what a text line of a session was meant to be. A guess is never taken for the line: it is told to people alone."""
import re
from collections.abc import Iterable

from . import market
from .command_line import printable
from .market import Header
from .session import FAULT, LIVES, LONGEST_LINE, MOST_LOTS, NUMERAL, REASONS, STRAY, WORDS_OF_TWO, Said, command_fault, statements_of, words_of

MARK = b"\xef\xbb\xbf"
WIDE_MARKS = (b"\xff\xfe", b"\xfe\xff")
SAME_WORDS = {
    b"BID": b"BUY", b"ASK": b"SELL", b"OFFER": b"SELL", b"DELETE": b"CANCEL", b"LIMIT": b"LINE", b"CREDIT": b"LINE", b"DEPTH": b"BOOK", b"AMEND": b"REDUCE",
    b"GTC": b"DAY", b"GFD": b"DAY", b"FAK": b"IOC",
}
COMMENTS = (b"//", b";", b"--", b"%", b"'")
OUTPUT_WORDS = (b"JOURNAL", b"DESK", b"BOOKS", b"REPORT", b"VOLUME", b"USE", b"NET", b"STRAYS")
NAMES = {"pair": "pair", "price": "price", "lots": "number of lots", "life": "life (DAY, IOC or FOK)", "number": "order's number", "bank": "other bank", "limit": "limit", "other": "second bank", "units": "number of units"}


def is_one_edit(one: bytes, other: bytes) -> bool:
    """Whether a letter changed, left out, put in, or two neighbours exchanged make one text the other."""
    if len(one) > len(other):
        one, other = other, one
    if len(other) - len(one) > 1:
        return False
    at = next((place for place, byte in enumerate(one) if byte != other[place]), len(one))
    if len(one) < len(other):
        return one[at:] == other[at + 1 :]
    return one[at + 1 :] == other[at + 1 :] or (one[at : at + 2] == other[at : at + 2][::-1] and one[at + 2 :] == other[at + 2 :])


def nearest(text: bytes, known: Iterable[bytes]) -> bytes | None:
    """The known word that is meant: the same in capitals and without marks around it, or the only one at one edit."""
    known, plain = list(known), text.upper().strip(b".,:;!?\"'()<>\xef\xbb\xbf")
    if plain in known:
        return plain
    if SAME_WORDS.get(plain) in known:
        return SAME_WORDS[plain]
    near = [word for word in known if is_one_edit(plain, word)]
    return near[0] if len(near) == 1 else None


def plain_number(text: bytes) -> bytes | None:
    """A number without sign, separators and leading zeros."""
    digits = re.sub(rb"[,_']", b"", text).removeprefix(b"+")
    digits = re.sub(rb"\.0*$", b"", digits)
    return (digits.lstrip(b"0") or b"0") if digits.isdigit() else None


def nearest_pair(header: Header, text: bytes) -> bytes | None:
    codes = re.sub(rb"[^A-Z]", b"", text.upper())
    for pair in (codes[:3] + b"/" + codes[3:], codes[3:] + b"/" + codes[:3]):
        if pair in header.pair_at:
            return pair
    return nearest(text, header.pair_at)


def meant_price(decimals: int, text: bytes) -> bytes | None:
    """The price with the pair's decimals, where no digit but zeros has to be put in or left out."""
    whole, _, digits = text.replace(b",", b".", 1).removeprefix(b"+").partition(b".")
    digits = digits[:decimals] + digits[decimals:].rstrip(b"0")
    if len(digits) > decimals or not (whole + digits).isdigit():
        return None
    return (whole.lstrip(b"0") or b"0") + (b"." + digits.ljust(decimals, b"0") if decimals else b"")


def meant_lots(lot: int, text: bytes) -> bytes | None:
    """The number of lots; an amount in the base currency is told in lots."""
    number = plain_number(text)
    if number and int(number) > MOST_LOTS and lot > 1 and int(number) % lot == 0:
        return b"%d" % (int(number) // lot)
    return number


def meant_field(header: Header, sender: int, fields: list[bytes], fault: int) -> tuple[int, bytes | None]:
    """The place of the field that is at fault, and what it was meant to be."""
    if fault == market.FAULT_WORD:
        return 1, nearest(fields[1], words_of(header, sender)) if len(fields) > 1 else None
    shape = words_of(header, sender)[fields[1]]
    pair = header.pairs[header.pair_at[fields[2]]] if fields[2] in header.pair_at else None
    others = [name for name, bank in header.bank_at.items() if bank != sender]
    kind, guess = {
        market.FAULT_PAIR: ("pair", lambda text: nearest_pair(header, text)),
        market.FAULT_PRICE_FORM: ("price", lambda text: meant_price(pair.decimals, text)),
        market.FAULT_PRICE_RANGE: ("price", lambda text: None),
        market.FAULT_LOTS: ("lots", lambda text: meant_lots(pair.lot, text)),
        market.FAULT_BANK: ("bank", lambda text: nearest(text, others)),
        market.FAULT_LIMIT: ("limit", plain_number),
        market.FAULT_NUMBER: ("number", plain_number),
        market.FAULT_LIFE: ("life", lambda text: nearest(text, LIVES)),
        market.FAULT_UNITS: ("units", plain_number),
    }[fault]
    if kind == "bank" and "other" in shape and fields[2] in header.bank_at:
        kind, others = "other", [name for name in header.bank_at if name != fields[2]]
    place = 2 + shape.index(kind)
    return place, guess(fields[place])


def mended(header: Header, sender: int, fields: list[bytes]) -> list[bytes] | None:
    """The fields of the command that was meant, where each fault of the line has a guess."""
    fields = list(fields)
    for _ in range(len(fields) + 1):
        fault = command_fault(header, sender, fields)
        if not fault:
            return fields
        if fault == market.FAULT_COUNT:
            shorter = [fields[:at] + fields[at + 1 :] for at in range(2, len(fields)) if not command_fault(header, sender, fields[:at] + fields[at + 1 :])]
            return shorter[0] if shorter else None
        place, guess = meant_field(header, sender, fields, fault)
        if guess is None or guess == fields[place : place + 1][0]:
            return None
        fields[place] = guess
    return None


def told_line(fields: list[bytes] | None) -> str:
    return f"probably meant: {printable(b' '.join(fields))}" if fields else ""


def count_hint(header: Header, sender: int, fields: list[bytes]) -> str:
    """Which field is missing or too many."""
    word, shape = fields[1], words_of(header, sender)[fields[1]]
    wants = f"{word.decode()} takes {', '.join(NAMES[kind] for kind in shape)}"
    if any(field.startswith(b"#") for field in fields[2:]):
        return f"{wants}; a comment stands on a line of its own"
    if len(fields) != 1 + len(shape):
        return wants
    for place in range(len(shape), -1, -1):
        tried = fields[: 2 + place] + [fitting(header, sender, fields, shape[place])] + fields[2 + place :] if place < len(shape) else None
        if tried and not command_fault(header, sender, tried):
            return f"{wants}; the {NAMES[shape[place]]} is missing"
    return wants


def fitting(header: Header, sender: int, fields: list[bytes], kind: str) -> bytes:
    """A field of that kind that has no fault, to try whether it is the missing one."""
    if kind == "pair":
        return header.pairs[0].name.encode()
    if kind in ("bank", "other"):
        return next(bank.encode() for place, bank in enumerate(header.banks) if place != sender and bank.encode() not in fields[2:3])
    if kind == "price" and fields[2] in header.pair_at:
        decimals = header.pairs[header.pair_at[fields[2]]].decimals
        return b"1" + (b"." + b"0" * decimals if decimals else b"")
    return b"DAY" if kind == "life" else b"1"


def price_hint(header: Header, fields: list[bytes]) -> str:
    pair = header.pairs[header.pair_at[fields[2]]]
    digits, decimals = fields[3].partition(b".")[2], f"{pair.decimals} decimal{'' if pair.decimals == 1 else 's'}"
    if digits.isdigit() and len(digits) != pair.decimals:
        return f"{pair.name} has {decimals}, and this price {len(digits)}"
    return f"a price of {pair.name} has {decimals} and no sign, comma or leading zero"


def lots_hint(header: Header, fields: list[bytes]) -> str:
    text = fields[WORDS_OF_TWO[fields[1]].index("lots") + 2]
    if plain_number(text) == b"0":
        return "an order has one lot at least; CANCEL takes an order out"
    lot = header.pairs[header.pair_at[fields[2]]].lot
    number = plain_number(text)
    if number and int(number) > MOST_LOTS and int(number) % lot == 0:
        return f"a quantity is given in lots, and a lot of {fields[2].decode()} is {lot}"
    return "lots are a whole number without a sign, a separator or a leading zero"


def bank_hint(header: Header, sender: int, fields: list[bytes]) -> str:
    if sender == header.host:
        return "a settlement is between two different banks"
    return "a bank sets no limit on itself and has no line with itself" if fields[2] == header.banks[sender].encode() else ""


def word_hint(fields: list[bytes]) -> str:
    if len(fields) < 2:
        return "a sender's name alone: the command after it is missing"
    if fields[1] == b"BAD":
        return "BAD is a word of an output's journal alone"
    if fields[1] == b"TOTAL":
        return "a bank sets a total in a session of version 2 alone, whose first line is FXBOOK 2"
    return "use is given back by the operator alone, in a session of version 2: HOST SETTLE" if fields[1] == b"SETTLE" else ""


def bad_hint(header: Header, said: Said) -> str:
    """What is to be said of a bad command's first fault."""
    fields, sender = said.fields, said.bank
    if said.code == market.FAULT_WORD:
        return word_hint(fields)
    if said.code == market.FAULT_COUNT:
        return count_hint(header, sender, fields)
    if said.code == market.FAULT_PAIR:
        return f"the pairs are {', '.join(pair.name for pair in header.pairs[:8])}{' ...' if len(header.pairs) > 8 else ''}"
    if said.code == market.FAULT_PRICE_FORM:
        return price_hint(header, fields)
    if said.code == market.FAULT_LOTS:
        return lots_hint(header, fields)
    if said.code == market.FAULT_BANK:
        return bank_hint(header, sender, fields)
    if said.code == market.FAULT_NUMBER:
        return "it is the number of one of the bank's own commands, counted from 1"
    return f"a text line has at most {LONGEST_LINE} bytes, and this one {len(said.text)}" if said.code == market.FAULT_LONG else ""


def stray_hint(header: Header, said: Said) -> tuple[str, list[bytes] | None]:
    """Why a line is no bank's, and what was meant."""
    first = said.fields[0] if said.fields else b""
    if len(said.text) > LONGEST_LINE:
        return f"a text line has at most {LONGEST_LINE} bytes, and this one {len(said.text)}", None
    if first in OUTPUT_WORDS:
        return f"{first.decode()} is a word of an output: is this text an output, not a session?", None
    if first.upper().strip(b".;") == b"END":
        return "only a line that has END alone ends the session", [b"END"] if len(said.fields) == 1 else None
    bank, _, client = first.partition(b":")
    if first == b"CLIENT:" or (client and bank in header.bank_at):
        return "it is a line of clients, which only the word clients reads", None
    if first.startswith(COMMENTS):
        return "a comment begins with #", None
    if first in (b"FXBOOK", b"BANK", b"PAIR", b"START"):
        return f"{first.decode()} belongs to the header, before START", None
    if first == market.HOST.encode():
        return "the operator sends commands in a session of version 2 alone, whose first line is FXBOOK 2", None
    name = nearest(first, header.bank_at)
    if name is not None:
        return f"the name is probably {name.decode()}", mended(header, header.bank_at[name], [name, *said.fields[1:]])
    if nearest(first, WORDS_OF_TWO):
        return "the bank's name is missing at the start", None
    return "the header has no bank of this name", None


def head_hint(header: Header, said: Said) -> str:
    """What was probably meant by the line with a header's first fault."""
    fields, code = said.fields, said.code
    if code == 1:
        return version_hint(said)
    if code == 2:
        word = nearest(fields[0], statements_of(header))
        if fields[0] == b"TOTAL":
            return "a header has totals in version 2 alone, whose first line is FXBOOK 2"
        if fields[0] in header.bank_at:
            return "this is a bank's command, and START has not come yet"
        return f"the word is probably {word.decode()}" if word else ""
    if code == 4:
        return name_hint(header, fields[1])
    if code == 5:
        codes = re.sub(rb"[^A-Z]", b"", fields[1].upper())
        meant = codes[:3] + b"/" + codes[3:]
        return "the pair has been named already" if fields[1] in header.pair_at else f"the pair is probably {meant.decode()}" if len(codes) == 6 and meant != fields[1] else ""
    if code == 9:
        return limit_banks_hint(header, fields[1:2] if fields[0] == b"TOTAL" else fields[1:3])
    if code in (6, 7, 8, 10):
        text = fields[-1 if code == 10 else {6: 2, 7: 3, 8: 4}[code]]
        number = plain_number(text)
        return f"the number is probably {number.decode()}" if number and not NUMERAL.fullmatch(text) else ""
    return ""


def version_hint(said: Said) -> str:
    if said.text.startswith(MARK):
        return "the text begins with a byte order mark (EF BB BF), which an editor put there: save it as UTF-8 without one"
    if said.text.startswith(WIDE_MARKS):
        return "the text is UTF-16, as its byte order mark says: save it as plain ASCII"
    if said.fields[:1] and said.fields[0] in (b"BANK", b"PAIR"):
        return "the line FXBOOK 1 is missing before it"
    return "probably meant: FXBOOK 1"


def name_hint(header: Header, name: bytes) -> str:
    if name in header.bank_at:
        return "the name is taken already"
    if name in (b"HOST", b"END"):
        return "the name is reserved"
    if name.upper() != name:
        return f"the name is probably {printable(name.upper())}: names have capital letters"
    return f"a name has 3 to 8 characters, and this one {len(name)}" if not 3 <= len(name) <= 8 else ""


def limit_banks_hint(header: Header, names: list[bytes]) -> str:
    if len(set(names)) < len(names):
        return "a bank sets no limit on itself"
    unknown = next(name for name in names if name not in header.bank_at)
    name = nearest(unknown, header.bank_at)
    shown = printable(unknown)
    return f"{shown} is probably {name.decode()}" if name else f"no BANK line above has the name {shown}"


def explained(header: Header, said: Said) -> tuple[str, str]:
    """The fault of a text line in words, and what was probably meant, or nothing."""
    if said.kind == FAULT:
        return REASONS[said.code], head_hint(header, said)
    if said.kind == STRAY:
        hint, fields = stray_hint(header, said)
        return "the first field is not a bank's name", "; ".join(part for part in (hint, told_line(fields)) if part)
    line = told_line(mended(header, said.bank, said.fields)) if said.code != market.FAULT_LONG else ""
    return market.FAULTS[said.code], "; ".join(part for part in (bad_hint(header, said), line) if part)
