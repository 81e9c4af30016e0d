"""The side table: which message of a bank became which command, or how it was answered at once. It is a text in CSV."""
import csv
import io
import os
import tempfile
from collections.abc import Iterable
from dataclasses import astuple, dataclass, fields

from reading.command_line import Failed

UNWRITABLE = 5


@dataclass
class Row:
    """A message: its place in its text, its sender and target, the bank, its MsgType, ClOrdID and OrigClOrdID. `order` is the number of the
    order that it is, or is for; `lots` is its OrderQty, of an order or a replace. `command` is its number in the bank's stream and `line` its text line, or `answer` is the MsgType of
    the message that refused it."""

    message: int
    sender: str
    target: str
    bank: str = ""
    kind: str = ""
    identity: str = ""
    original: str = ""
    order: int = 0
    lots: int = 0
    command: int = 0
    line: str = ""
    answer: str = ""


COLUMNS = [field.name for field in fields(Row)]
NUMBERS = [field.name for field in fields(Row) if field.type is int]


def written(rows: Iterable[Row]) -> bytes:
    """The table's text."""
    text = io.StringIO()
    writer = csv.writer(text, lineterminator="\n")
    writer.writerow(COLUMNS)
    writer.writerows(astuple(row) for row in rows)
    return text.getvalue().encode("latin-1")


def read(text: bytes) -> list[Row]:
    """The rows of a table's text; ValueError where it is none."""
    reader = csv.DictReader(io.StringIO(text.decode("latin-1"), newline=""), strict=True)
    if reader.fieldnames != COLUMNS:
        raise ValueError("its first line is not that of a table of tools/fix")
    rows = []
    for parts in reader:
        if None in parts or None in parts.values():
            raise ValueError(f"line {reader.line_num} has another number of columns")
        rows.append(Row(**{name: int(value) if name in NUMBERS else value for name, value in parts.items()}))
    return rows


def only_new(path: str) -> None:
    """What is there already is left as it is."""
    if os.path.lexists(path):
        raise Failed(f"{path} exists already", UNWRITABLE)


def keep(path: str, text: bytes) -> None:
    """Writes a file beside its place and moves it there once it is whole."""
    folder = os.path.dirname(os.path.abspath(path))
    try:
        with tempfile.NamedTemporaryFile(dir=folder, prefix=".fix-", delete=False) as file:
            file.write(text)
        os.chmod(file.name, 0o644)
        os.rename(file.name, path)
    except OSError as fault:
        raise Failed(f"{path} can't be written: {fault.strerror}", UNWRITABLE) from fault
