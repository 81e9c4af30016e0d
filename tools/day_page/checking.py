"""Asks `./fx check` and `./fx payments` about a text, and tells what they said."""
import os
import re
import signal
import subprocess
import tempfile
from dataclasses import dataclass

RIGHT, WRONG, UNCHECKED = "right", "wrong", "unchecked"
# The status with which the check ends where the text is no right output.
DIFFERS = 8


class NoAnswer(Exception):
    """The check could not be asked, or came to no answer."""


@dataclass
class Verdict:
    """What was said of the text: `kind`, whether the proved program said so, and of a wrong text where it is none. `offset` is in bytes
    from the beginning; `line` is counted from 1, or 0 where the text can't be read again."""

    kind: str
    proved: bool = False
    offset: int = 0
    line: int = 0
    text: str = ""


@dataclass
class Source:
    """The text: the name to show, how many bytes it has, and their SHA-256; and how many bytes of it are the output, about which the check is asked."""

    name: str
    size: int
    digest: str
    output: int


class Asked:
    """A run of `./fx` with some words, which is handed the text as it is read, so that it is of the same bytes."""

    def __init__(self, program, *words):
        self.words = " ".join(words)
        self.out, self.err = tempfile.TemporaryFile(), tempfile.TemporaryFile()
        try:
            self.run = subprocess.Popen([program, *words], stdin=subprocess.PIPE, stdout=self.out, stderr=self.err, start_new_session=True)
        except OSError as fault:
            raise NoAnswer(f"./fx can't be started: {fault.strerror}") from fault

    def feed(self, piece):
        try:
            self.run.stdin.write(piece)
        except BrokenPipeError:
            pass  # It has ended; its answer says how.

    def slowed(self):
        """Why a run that is not over takes long: the proved program says nothing before it ends, and `./fx` says where it is not built."""
        return ", which runs the sources, since no proved program is built" if os.pread(self.err.fileno(), 1, 0) else ""

    def answer(self):
        """The exit status, and what was written on either output."""
        try:
            self.run.stdin.close()
        except BrokenPipeError:
            pass
        status = self.run.wait()
        for file in (self.out, self.err):
            file.seek(0)
        return status, self.out.read(), self.err.read()

    def no_answer(self, status, err):
        told = err.decode(errors="replace").strip().splitlines()
        return NoAnswer(f"./fx {self.words} came to no answer (status {status}{': ' + told[-1] if told else ''})")

    def stop(self):
        if self.run.poll() is None:
            os.killpg(self.run.pid, signal.SIGTERM)
            self.run.wait()


class Check(Asked):
    """A run of `./fx check`."""

    def __init__(self, program):
        super().__init__(program, "check")

    def verdict(self, path):
        """What it says of the text, which is the file of this path, or standard input for `-`. The proved program writes nothing on
        standard error beside the status' own line; the sources with run-time checks say there that they are not it."""
        status, out, err = self.answer()
        no = re.fullmatch(rb"NO (\d+)\n", out)
        if status == 0 and out == b"YES\n":
            return Verdict(RIGHT, proved=err == b"")
        if status == DIFFERS and no:
            offset = int(no[1])
            return Verdict(WRONG, err == b"output differs\n", offset, *line_at(path, offset))
        raise self.no_answer(status, err)


class Payments(Asked):
    """A run of `./fx payments`, in one of its forms."""

    def __init__(self, program, form):
        super().__init__(program, "payments", form)
        self.form = form

    def text(self):
        """What it writes of an output that is a right one."""
        status, out, err = self.answer()
        if status != 0:
            raise self.no_answer(status, err)
        return out


def line_at(path, offset):
    """The number and the beginning of the line of a file in which a byte stands; 0 and nothing where the text is no file."""
    if path == "-":
        return 0, ""
    number, before = 1, 0
    with open(path, "rb") as file:
        for line in file:
            if before + len(line) > offset:
                return number, line[:200].decode("ascii", errors="backslashreplace").rstrip("\n")
            number, before = number + 1, before + len(line)
    return number, "(the end of the text)"
