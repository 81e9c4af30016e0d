#!/usr/bin/env python3
"""Tries `check` on every small change of an output: check_changes.py OUTPUT [STEP].

OUTPUT is a file with an output that is right, of a session whose lines could all be read. At every place each byte is replaced by others, taken out, and another one
put in front of it (all 256 with STEP 1, else every STEP-th). What `check` has to say is worked out here, from the rules of
the texts alone: the lines are read, the commands of a changed journal are run by `serial`, and its output is compared with
the text. It prints how many texts were tried, and each on which the two differ.
"""
import re
import subprocess
import sys
from concurrent.futures import ThreadPoolExecutor
from itertools import islice

PROGRAM = "crates/fx_cli/out/fx_cli"
NUMBER = rb"0|[1-9][0-9]*"


def number(text, least, most):
    if not re.fullmatch(NUMBER, text):
        return None
    value = int(text)
    return value if least <= value <= most else None


def fields(line):
    return [field for field in re.split(rb"[ \t]+", line) if field]


def stripped(part):
    return part[:-1] if part.endswith(b"\r") else part


class Header:
    """A header as it is read, line by line."""

    def __init__(self):
        self.version = b""
        self.banks = []
        self.pairs = []
        self.lines = []

    def read(self, line):
        """Takes a line; answers 'more', 'start' or 'fault'."""
        words = fields(line)
        if not words or words[0].startswith(b"#"):
            return "more"
        if not self.version:
            self.version = words[-1]
            return "more" if words in ([b"FXBOOK", b"1"], [b"FXBOOK", b"2"]) else "fault"
        reads = {b"BANK": self.bank, b"PAIR": self.pair, b"LINE": self.line, b"START": self.start}
        if self.version == b"2":
            reads[b"TOTAL"] = self.total
        read = reads.get(words[0])
        return read(words[1:]) if read else "fault"

    def bank(self, words):
        if len(words) != 1 or len(self.banks) == 64:
            return "fault"
        name = words[0]
        if not re.fullmatch(rb"[A-Z][A-Z0-9]{2,7}", name) or name in (b"HOST", b"END") or name in self.banks:
            return "fault"
        self.banks.append(name)
        self.lines.append(b"BANK " + name)
        return "more"

    def pair(self, words):
        if len(words) != 4 or len(self.pairs) == 32:
            return "fault"
        codes = re.fullmatch(rb"([A-Z]{3})/([A-Z]{3})", words[0])
        if not codes or codes[1] == codes[2] or words[0] in [pair[0] for pair in self.pairs]:
            return "fault"
        decimals = number(words[1], 0, 6)
        if decimals is None:
            return "fault"
        lot = number(words[2], 1, 10**9)
        if lot is None or lot % 10**decimals:
            return "fault"
        if number(words[3], 1, 10**6) is None:
            return "fault"
        self.pairs.append((words[0], decimals))
        self.lines.append(b" ".join([b"PAIR"] + words))
        return "more"

    def line(self, words):
        if len(words) != 3:
            return "fault"
        if words[0] not in self.banks or words[1] not in self.banks or words[0] == words[1]:
            return "fault"
        if number(words[2], 0, 10**15) is None:
            return "fault"
        self.lines.append(b" ".join([b"LINE"] + words))
        return "more"

    def total(self, words):
        if len(words) != 2 or words[0] not in self.banks or number(words[1], 0, 10**15) is None:
            return "fault"
        self.lines.append(b" ".join([b"TOTAL"] + words))
        return "more"

    def start(self, words):
        if words or len(self.banks) < 2 or not self.pairs:
            return "fault"
        return "start"

    def reads_command(self, line):
        """Whether a journal's line is a command that is not bad."""
        words = fields(line)
        if self.version == b"2" and words[:2] == [b"HOST", b"SETTLE"]:
            two = set(words[2:4])
            return len(words) == 5 and len(two) == 2 and two <= set(self.banks) and number(words[4], 1, 10**15) is not None
        if len(words) < 2 or words[0] not in self.banks:
            return False
        if self.version == b"2" and words[1] == b"TOTAL":
            return len(words) == 3 and number(words[2], 0, 10**15) is not None
        decimals = dict(self.pairs)
        sizes = {b"BUY": 6, b"SELL": 6, b"CANCEL": 4, b"REDUCE": 5, b"PULL": 3, b"LINE": 4, b"SHOW": 3, b"BOOK": 3}
        if sizes.get(words[1]) != len(words):
            return False
        if words[1] in (b"LINE", b"SHOW"):
            if words[2] not in self.banks or words[2] == words[0]:
                return False
            return words[1] == b"SHOW" or number(words[3], 0, 10**15) is not None
        if words[2] not in decimals:
            return False
        if words[1] in (b"CANCEL", b"REDUCE") and number(words[3], 1, 4294967295) is None:
            return False
        if words[1] == b"REDUCE" and number(words[4], 1, 10**6) is None:
            return False
        if words[1] in (b"BUY", b"SELL"):
            places = decimals[words[2]]
            form = rb"(?:%s)\.[0-9]{%d}" % (NUMBER, places) if places else NUMBER
            if not re.fullmatch(form, words[3]) or not 1 <= int(words[3].replace(b".", b"")) <= 10**9:
                return False
            return number(words[4], 1, 10**6) is not None and words[5] in (b"DAY", b"IOC", b"FOK")
        return True


def run(word, text):
    return subprocess.run([PROGRAM, word], input=text, stdout=subprocess.PIPE, stderr=subprocess.DEVNULL).stdout


def outputs():
    """The output of a session, each run once."""
    known = {}

    def output(text):
        if text not in known:
            known[text] = run("serial", text)
        return known[text]

    return output


def wanted(text, output):
    """What `check` has to write on a text."""
    no = lambda offset: b"NO %d\n" % offset
    at = 0

    def next_part():
        end = text.find(b"\n", at)
        return None if end < 0 else text[at:end]

    header = Header()
    while True:
        part = next_part()
        if part is None:
            return no(len(text))
        step = "fault" if len(part) > 256 else header.read(stripped(part))
        if step == "fault":
            return no(at)
        at += len(part) + 1
        if step == "start":
            break
    part = next_part()
    if part is None:
        return no(len(text))
    words = fields(stripped(part))
    count = number(words[1], 0, 2**28) if len(words) == 2 and words[0] == b"JOURNAL" and len(part) <= 256 else None
    if count is None:
        return no(at)
    at += len(part) + 1
    commands = []
    for _ in range(count):
        part = next_part()
        if part is None:
            return no(len(text))
        if len(part) > 256 or not header.reads_command(stripped(part)):
            return no(at)
        commands.append(stripped(part))
        at += len(part) + 1
    session = b"\n".join([b"FXBOOK " + header.version] + header.lines + [b"START"] + commands + [b"END"]) + b"\n"
    right = output(session)
    day = right[: right.rindex(b"STRAYS ")]
    for place, byte in enumerate(day):
        if place >= len(text) or text[place] != byte:
            return no(place)
    at = len(day)
    part = next_part()
    if part is None:
        return no(len(text))
    if not part.startswith(b"STRAYS ") or number(part[7:], 0, 2**64 - 1) is None:
        return no(at)
    at += len(part) + 1
    part = next_part()
    if part is None:
        return no(len(text))
    if part not in (b"END", b"CUT", b"READ", b"MUCH"):
        return no(at)
    at += len(part) + 1
    return b"YES\n" if at == len(text) else no(at)


def changes(text, step):
    yield text
    for at in range(len(text) + 1):
        if at < len(text):
            yield text[:at] + text[at + 1 :]
            for byte in range(at % step, 256, step):
                if byte != text[at]:
                    yield text[:at] + bytes([byte]) + text[at + 1 :]
        for byte in range(at % step, 256, step):
            yield text[:at] + bytes([byte]) + text[at:]


def main():
    text = open(sys.argv[1], "rb").read()
    step = int(sys.argv[2]) if len(sys.argv) > 2 else 1
    output = outputs()
    tried = differ = 0
    texts = changes(text, step)
    with ThreadPoolExecutor(8) as pool:
        while batch := list(islice(texts, 4096)):
            tried += len(batch)
            for changed, got in zip(batch, pool.map(lambda one: run("check", one), batch)):
                want = wanted(changed, output)
                if want != got:
                    differ += 1
                    print(f"{changed!r}: wanted {want!r}, got {got!r}")
    print(f"{tried} texts tried, {differ} differ")
    sys.exit(1 if differ else 0)


main()
