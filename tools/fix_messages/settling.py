"""What a replace leaves of its order. FIX means by OrderQty all of the order, what was filled of it before too, and a session's line what is to
be left. So what was filled has to be known, and that only a run of the session tells: `./fx serial` is asked."""
import subprocess
from collections import Counter
from collections.abc import Callable, Iterable
from typing import NamedTuple

from reading.market import Header
from reading.output import BadLine, Fill, Lines, read_count, read_desk, read_entries, read_header, read_notices

from .table import Row


class NoAnswer(Exception):
    """The program could not be asked, or came to no answer; the words say why."""


class Replace(NamedTuple):
    """A replace whose order may have been filled before: the place of its line among the session's commands, its row, and its pair's name."""

    place: int
    row: Row
    pair: str


def replace_line(row: Row, pair: str, filled: int) -> str:
    """The line of a replace of whose order so many lots were filled before. Where nothing is to be left, the rest of the order is taken out."""
    left = row.lots - filled
    return f"{row.bank} REDUCE {pair} {row.order} {left}" if left > 0 else f"{row.bank} CANCEL {pair} {row.order}"


def settle(header: Header, lines: list[str], replaces: list[Replace], ask: Callable[[bytes], bytes]) -> None:
    """Puts the right lines in the place of those that each take their order as not filled. What a run tells of the first replace is right, since
    all lines before it are; with that put in, what the next run tells of the second is right as well, and so on. A run in which
    nothing changes any more ends it, most often the second or third."""
    for _ in range(len(replaces) + 1):
        filled = filled_before(ask(session_text(header, lines)), {(it.row.bank, it.row.command): it.row.order for it in replaces})
        settled = True
        for it in replaces:
            line = replace_line(it.row, it.pair, filled[it.row.bank, it.row.command])
            settled &= lines[it.place] == line
            lines[it.place] = it.row.line = line
        if settled:
            return
    raise NoAnswer("the runs of the session do not come to rest")


def session_text(header: Header, lines: Iterable[str]) -> bytes:
    return b"\n".join([*header.lines(), *(line.encode() for line in lines), b"END", b""])


def filled_before(output: bytes, wanted: dict[tuple[str, int], int]) -> dict[tuple[str, int], int]:
    """How many lots were filled of an order before a command of its bank, by bank and command, for the orders that are wanted so."""
    try:
        lines = Lines([output])
        header = read_header(lines)
        sent = Counter(entry.bank for entry in read_entries(lines, header, read_count(lines)))
        found: dict[tuple[str, int], int] = {}
        for bank, name in enumerate(header.senders):
            filled: Counter = Counter()
            for notice in read_notices(lines, header, bank, read_desk(lines, header, bank), sent[bank]):
                if isinstance(notice, Fill):
                    filled[notice.command] += notice.lots
                elif (name, notice.command) in wanted:
                    found[name, notice.command] = filled[wanted[name, notice.command]]
    except BadLine as fault:
        raise NoAnswer(f"what the program wrote is not an output: {fault}") from fault
    if len(found) < len(wanted):
        raise NoAnswer("the program's output does not have all replies")
    return found


def asked(program: str, session: bytes) -> bytes:
    """The output of a session by the program's word `serial`."""
    try:
        run = subprocess.Popen([program, "serial"], stdin=subprocess.PIPE, stdout=subprocess.PIPE, stderr=subprocess.PIPE)
    except OSError as fault:
        raise NoAnswer(f"{program} can't be started: {fault.strerror}") from fault
    with run:
        try:
            out, err = run.communicate(session)
        except BaseException:
            run.terminate()  # Not killed: ./fx ends what it started.
            raise
    if run.returncode:
        told = err.decode(errors="replace").strip().splitlines()
        raise NoAnswer(f"{program} serial ended with status {run.returncode}{': ' + told[-1] if told else ''}")
    return out
