#!/usr/bin/env python3
"""Tries tools/fix with QuickFIX as the other end: it builds messages for the tool, and validates those that the tool writes.

    trials/fix_quickfix.py [FIX44.xml]

Wanted are g++ and Debian's libquickfix-dev, the program (FX_PROGRAM, else the built one), and QuickFIX's data dictionary of FIX 4.4,
which stands in Debian's source package: `apt-get source quickfix`, then spec/FIX44.xml. Without a word it is looked for below
/usr/share. Ends with status 0 where all is well, 1 where not, and 77, with a word on it, where something wanted is missing.
"""
import io
import os
import re
import subprocess
import sys
import tempfile
from collections.abc import Iterator

HERE = os.path.dirname(os.path.dirname(os.path.abspath(__file__)))
sys.dont_write_bytecode = True
sys.path[:0] = [f"{HERE}/tools"]

from fix_messages.orders import Desk  # noqa: E402
from reading.session import read_session  # noqa: E402
from tool_trials.common import PROGRAM, made, program, ran  # noqa: E402
from tool_trials.fixing import HEAD, KNOWN, REFUSALS, TIME, Day, sent  # noqa: E402

MISSING = 77
BUILT = 2000
HEADER = made(3, 1, 0)
PLACES = ("/usr/share/quickfix/FIX44.xml", "/usr/share/doc/libquickfix-doc/spec/FIX44.xml")


def missing(what: str) -> None:
    print(f"trials/fix_quickfix.py: skipped, {what}")
    sys.exit(MISSING)


def other_end(folder: str) -> str:
    """The other end's program, made here."""
    path = f"{folder}/fix_quickfix"
    words = ["g++", "-std=c++14", "-w", "-o", path, f"{HERE}/trials/fix_quickfix.cpp", "-lquickfix", "-lpthread"]
    try:
        made_it = subprocess.run(words, capture_output=True, text=True)
    except FileNotFoundError:
        missing("there is no g++")
    if made_it.returncode:
        missing(f"the other end can't be made; libquickfix-dev is wanted: {made_it.stderr.splitlines()[0]}")
    return path


def pipes(text: bytes) -> bytes:
    """Messages with SOH as text lines with `|`."""
    return re.sub(rb"(\|10=[0-9]{3}\|)(?!\n)", rb"\1\n", text.replace(b"\x01", b"|"))


def validated(end: str, dictionary: str, name: str, text: bytes) -> bool:
    """Has QuickFIX validate messages, and tells what it took."""
    run = subprocess.run([end, "validate", dictionary], input=text, capture_output=True)
    told = run.stdout.decode().splitlines()
    count, taken = text.count(b"\n"), ", ".join(line for line in told if not line.startswith("refused"))
    print(f"{name}: of {count} messages QuickFIX took {taken}")
    print("".join(f"    {line}\n" for line in told if line.startswith("refused")), end="")
    return run.returncode == 0


def there_and_back(folder: str, header: bytes, messages: bytes) -> tuple[int, bytes, bytes]:
    """The status of the first step, the messages that refuse, and the reports, both with `|`."""
    paths = [f"{folder}/{name}" for name in ("header", "messages", "table", "answers", "output")]
    for path in paths[2:4]:
        if os.path.exists(path):
            os.remove(path)
    for path, text in zip(paths, (header, messages)):
        with open(path, "wb") as file:
            file.write(text)
    status, session, _ = ran("fix", "orders", *paths[:2], "--pipes", "--table", paths[2], "--answers", paths[3], "--program", PROGRAM)
    with open(paths[4], "wb") as file:
        file.write(program("serial", session.encode())[1])
    with open(paths[3], "rb") as file:
        answers = file.read()
    return status, answers, ran("fix", "reports", paths[2], paths[4], "--pipes")[1].encode()


def refusals() -> Iterator[bytes]:
    """The message that refuses each message of the trials, behind the order that it may name."""
    session = read_session(io.BytesIO(HEAD))
    list(session.lines())
    for message, *_ in REFUSALS:
        desk = Desk(session.header, {bank: bank for bank in session.header.banks}, TIME)
        desk.take_text(sent("D", "ALFA", 1, KNOWN) + message)
        yield from desk.answers


def main() -> int:
    dictionary = next((path for path in [*sys.argv[1:], *PLACES] if os.path.exists(path)), None)
    if dictionary is None:
        missing("there is no data dictionary FIX44.xml: --help")
    if not os.access(PROGRAM, os.X_OK):
        missing(f"there is no program at {PROGRAM}")
    well = True
    with tempfile.TemporaryDirectory() as folder:
        end = other_end(folder)
        messages = subprocess.run([end, "build", str(BUILT)], capture_output=True, check=True).stdout
        status, answers, reports = there_and_back(folder, HEADER.partition(b"END\n")[0], messages)
        print(f"of {BUILT} messages that QuickFIX built the tool took {BUILT - answers.count(b'|10=')}")
        well &= status == 0 and validated(end, dictionary, "their reports", reports)
        day = Day(made(5, 3, 2000, "mixed", 7), 7)
        _, answers, reports = there_and_back(folder, day.head + b"START\n", pipes(day.text()))
        well &= validated(end, dictionary, "a made day's messages", pipes(day.text()))
        well &= validated(end, dictionary, "its reports", answers + reports)
        well &= validated(end, dictionary, "each refusal", pipes(b"".join(refusals())))
    print("all is well" if well else "something is wrong")
    return 0 if well else 1


if __name__ == "__main__":
    if sys.argv[1:] in (["--help"], ["-h"]):
        print(__doc__)
        sys.exit(0)
    sys.exit(main())
