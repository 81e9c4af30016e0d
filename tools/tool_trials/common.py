"""What all trials of the tools have in common: the program, sessions with faults, and runs of a tool."""
import os
import random
import shutil
import signal
import subprocess
import sys
import tempfile
import unittest

HERE = os.path.dirname(os.path.dirname(os.path.dirname(os.path.realpath(__file__))))
MORNING = f"{HERE}/examples/morning.fx", f"{HERE}/examples/morning.out"
PROGRAM = os.environ.get("FX_PROGRAM", f"{HERE}/crates/fx_cli/out/fx_cli")

needs_program = unittest.skipUnless(os.access(PROGRAM, os.X_OK), f"no program at {PROGRAM}: ./fx build makes it, or FX_PROGRAM names another")


def ran(name: str, *words: str, text: bytes | None = None) -> tuple[int, str, str]:
    """Runs a tool, and answers its status and what it wrote on its two outputs."""
    run = subprocess.run([sys.executable, f"{HERE}/tools/{name}", *words], input=text, capture_output=True, timeout=300)
    return run.returncode, run.stdout.decode(), run.stderr.decode()


def program(word: str, text: bytes) -> tuple[int, bytes, bytes]:
    """Runs the program on a text."""
    run = subprocess.run([PROGRAM, word], input=text, capture_output=True, timeout=300)
    return run.returncode, run.stdout, run.stderr


def made(*words: object) -> bytes:
    """A session of bench/make_session.py."""
    return subprocess.run([sys.executable, f"{HERE}/bench/make_session.py", *map(str, words)], capture_output=True, check=True).stdout


def read(path: str) -> bytes:
    with open(path, "rb") as file:
        return file.read()


def takes_stops() -> None:
    """What a shell started behind & is deaf for Ctrl-C, and what nohup started for a terminal that is closed: the tool is not."""
    for number in (signal.SIGINT, signal.SIGTERM, signal.SIGHUP):
        signal.signal(number, signal.SIG_DFL)


class Trial(unittest.TestCase):
    """A trial with a folder of its own."""

    def setUp(self) -> None:
        self.folder = tempfile.mkdtemp(prefix="fx-trial-")
        self.addCleanup(shutil.rmtree, self.folder)

    def file(self, name: str, text: bytes) -> str:
        path = f"{self.folder}/{name}"
        with open(path, "wb") as file:
            file.write(text)
        return path


# Fields and lines that stand on either side of a rule's edge.
NUMBERS = b"""0 00 01 1000000 1000001 4294967295 4294967296 1000000000000000 1000000000000001 -1 +1 1.0 99.5 99.50 099.50 0.00 0.01
10000000.00 10000000.01 .50 99. 99.5a 1e3 99,50 100 1000000000 1000000001 99999999999999999999999999 99999999999999999999.00""".split()
WORDS = b"BUY SELL LINE SHOW BOOK TOTAL SETTLE END START BANK B01 B02 B9 HOST AAA/ZZZ ZZZ/AAA AAAZZZ DAY IOC GTC # #x FXBOOK BAD".split() + [b"\xff", b"\r", b"\0", b"\x0b"]
LINES = [b"", b"  ", b"# hello", b" #", b"\t", b"END x", b"END\r\r", b"\r", b"\r\r", b"#" * 300, b"   #" + b"x" * 300, b"A" * 256, b"A" * 257, b"B01 " + b"x" * 300]
ENDS = [b"", b"\r", b"  ", b"\nEND", b"\nEND\r", b"\n END\t", b"\nEND" + b" " * 254, b"\nEND" + b" " * 253]


def changed(line: bytes, rng: random.Random) -> bytes:
    """The line with one change."""
    fields = line.split(b" ")
    at = rng.randrange(len(fields))
    kind = rng.randrange(11)
    if kind == 0:
        fields.pop(at)
    elif kind == 1:
        fields.insert(at, rng.choice(fields))
    elif kind == 2:
        fields[at] = rng.choice(NUMBERS)
    elif kind == 3:
        fields[at] = fields[at].lower()
    elif kind == 4:
        fields[at] = rng.choice(WORDS)
    elif kind == 5:
        return b"\t" + b" \t ".join(fields) + b"  "
    elif kind == 6:
        return line + b" " * (rng.choice([255, 256, 257, 258]) - len(line)) + rng.choice([b"", b"\r", b"\r\r", b" "])
    elif kind == 7:
        return b" " * rng.choice([255, 256, 257, 300]) + line
    elif kind == 8:
        return rng.choice(LINES)
    elif kind == 9:
        place = rng.randrange(len(line) + 1)
        return line[:place] + bytes([rng.randrange(256)]) + line[place:]
    else:
        fields[at], fields[0] = fields[0], fields[at]
    return b" ".join(fields)


def faulty(seed: int, commands: int = 300) -> bytes:
    """A session with many faults, the same for the same seed; every third has faults in its header too."""
    rng = random.Random(seed)
    decimals = b"PAIR AAB/ZZZ %d" % rng.choice([0, 1, 2, 3])
    lines = made(4, 3, commands, rng.choice(["mixed", "thick", "totals"]), seed).replace(b"PAIR AAB/ZZZ 2", decimals).split(b"\n")
    start = lines.index(b"START")
    out = []
    for place, line in enumerate(lines[:-1]):
        often = 0.5 if place > start else 0.05 if seed % 3 == 0 else 0
        out.append(rng.choice([b"END", b" END ", b"END\r", b"end", b"#"]) if line == b"END" else changed(line, rng) if rng.random() < often else line)
    return b"\n".join(out) + rng.choice(ENDS + [b"\n"] * 8)
