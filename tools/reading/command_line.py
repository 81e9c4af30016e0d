"""What the tools have in common on the command line: how they open texts, tell what went wrong, and end."""
import argparse
import hashlib
import os
import re
import signal
import sys
from collections.abc import Callable, Iterator
from typing import BinaryIO

from .output import PIECE, BadLine
from .session import is_output, is_session

UNREADABLE, WRITE_FAILED = 2, 5


class Failed(Exception):
    """The end of the run, with its exit status."""

    def __init__(self, what: str, status: int = UNREADABLE):
        super().__init__(what)
        self.status = status


class Parser(argparse.ArgumentParser):
    """Takes the words of a tool; its page of help is the tool's own text. Wrong words end with status 2."""

    def __init__(self, name: str, text: str):
        summary, _, rest = text.partition("\n\n")
        super().__init__(prog=name, description=summary, epilog=rest, formatter_class=argparse.RawDescriptionHelpFormatter)

    def error(self, message: str):
        raise Failed(f"{message}; see {self.prog} --help")

    def exit(self, status: int = 0, message: str | None = None):
        """Ends behind the page of help, which has to be written by then."""
        sys.stdout.flush()
        super().exit(status, message)


class Text:
    """A text that is read once, with its SHA-256; `-` is standard input."""

    def __init__(self, path: str):
        self.path, self.size, self.digest, self.start = path, 0, hashlib.sha256(), b""
        self.name = printable("standard input" if path == "-" else path)
        try:
            self.file: BinaryIO = sys.stdin.buffer if path == "-" else open(path, "rb")
        except OSError as fault:
            raise self.unreadable(fault) from fault

    def read(self, count: int) -> bytes:
        try:
            piece = self.file.read(count)
        except OSError as fault:
            raise self.unreadable(fault) from fault
        self.digest.update(piece)
        self.size += len(piece)
        self.start = self.start or piece[:PIECE]
        return piece

    def pieces(self) -> Iterator[bytes]:
        while piece := self.read(PIECE):
            yield piece

    def sha256(self) -> str:
        """The SHA-256 of the whole text, of which the part that nobody asked for is read now."""
        for _ in self.pieces():
            pass
        return self.digest.hexdigest()

    def unreadable(self, fault: OSError) -> Failed:
        return Failed(f"{self.name} can't be read: {fault.strerror}")

    def no_output(self, bad: BadLine) -> Failed:
        return Failed(no_output(self.name, self.start, bad))

    def is_output(self) -> bool:
        """Whether the text, of which something was read, begins as an output does."""
        return is_output(self.start)


def no_output(name: str, start: bytes, bad: BadLine) -> str:
    """Why a text with this beginning is not an output, in words."""
    if is_session(start):
        return f"{name} is a session, not an output: {bad}"
    if re.match(rb"BOOKS\n|[A-Z][A-Z0-9]{2,7} [0-9]+ (?:REPLY|FILL) ", start):
        return f"{name} is what keep or restart printed, not a whole output; tools/kept fx.journal | ./fx serial makes one"
    if start.partition(b"\n")[0].endswith(b"\r"):
        return f"{name} is not an output: its lines end with CR LF, and those of an output with LF alone"
    return f"{name} is not an output: {bad}"


def printable(text: str | bytes) -> str:
    """A text as it may stand in one line for people: bytes that are no printable ASCII as \\xNN, and a long one cut off."""
    if isinstance(text, str):
        return "".join(letter if letter.isprintable() else "?" for letter in text)
    shown = "".join(chr(byte) if 32 <= byte < 127 else "\\t" if byte == 9 else f"\\x{byte:02x}" for byte in text[:120])
    return shown + (f"... ({len(text)} bytes)" if len(text) > 120 else "")


def only_one_input(parser: Parser, paths: list[str | None]) -> None:
    """Standard input can be one of the texts, and not two."""
    if paths.count("-") > 1:
        parser.error("standard input can be one text alone")


def stop_as_by_keys() -> None:
    """Has a kill, and a terminal that is closed, end the run as Ctrl-C does: with what it started, and without what it has half made."""
    for number in (signal.SIGTERM, signal.SIGHUP):
        if signal.getsignal(number) is not signal.SIG_IGN:
            signal.signal(number, lambda number, _: sys.exit(128 + number))


def drop_output() -> None:
    """Lets what standard output still holds go nowhere: it can't be written, or who read it wanted no more."""
    os.dup2(os.open(os.devnull, os.O_WRONLY), sys.stdout.fileno())


def end(name: str, run: Callable[[list[str]], int]) -> None:
    """Runs a tool on its words and ends with its status; a fault is told in one line on standard error."""
    stop_as_by_keys()
    try:
        status = run(sys.argv[1:])
        sys.stdout.flush()
    except Failed as failed:
        print(f"{name}: {printable(str(failed))}", file=sys.stderr)
        status = failed.status
    except BrokenPipeError:
        drop_output()
        status = 141
    except OSError as fault:
        drop_output()
        print(f"{name}: standard output can't be written: {fault.strerror}", file=sys.stderr)
        status = WRITE_FAILED
    except KeyboardInterrupt:
        print(f"{name}: stopped", file=sys.stderr)
        status = 130
    sys.exit(status)
