"""Trials of the reading of what stands of clients behind an output, and of what the tools say of such a text."""
import os
import random
import re
import subprocess
import unittest

from day_page.summing import read_day
from reading.clients import Client, OutputPart, Traded
from reading.output import BadLine

from .common import HERE, MORNING, PROGRAM, Trial, faulty, made, program, ran, read

SESSION, TEXT = read(f"{HERE}/examples/clients.fx"), read(f"{HERE}/examples/clients.out")
OUTPUT = TEXT[: TEXT.index(b"CLIENTS 2\n")]
CUT = "sed '/^CLIENTS [0-9]/,$d'"
ANN, KITE = b"CLIENT ALFA ANN 600 400 200 7\n", b"CLIENT GAMA KITE 400 100 0 2\n"
FILLED = b"2 FILL 1 BUY EUR/USD 1 1.08440 ALFA 1000000 1084400\n"
BUY, SELL = (0, True), (0, False)

# Changed parts: what stands there, what takes its place, the line at fault, and what is said of it.
BROKEN = (
    (b"CLIENTS 2\n", b"CLIENTS two\n", 49, "a line after the ending"),
    (b"CLIENTS 2\n", b"\nCLIENTS 2\n", 49, "a line after the ending"),
    (b"CLIENTS 2\n", b"CLIENTS 1025\n", 49, "no session has more than 1024 clients"),
    (b"CLIENTS 2\n", b"CLIENTS 3\n", 61, "the text ends, and the line CLIENT of client 3 of 3 is missing"),
    (b"CLIENTS 2\n", b"CLIENTS 1\n", 58, "a line after the last of 1 clients"),
    (b"CLIENTS 2\n", b"CLIENTS 0\n", 50, "a line after the last of 0 clients"),
    (ANN, b"CLIENT ALFA ANN 600 400 200\n", 50, "expected the line CLIENT of client 1 of 2"),
    (ANN, b"CLIENT ALFA ANN 600 400 -1 7\n", 50, "expected the line CLIENT of client 1 of 2"),
    (ANN, b"CLIENT DELT ANN 600 400 200 7\n", 50, "the header has no bank DELT"),
    (ANN, b"CLIENT ALFA ANN 1000000000000001 400 200 7\n", 50, "a limit above 10^15"),
    (ANN, ANN.replace(b" 7", b" 8"), 58, "expected line 8 of 8 of ALFA's client ANN"),
    (ANN, ANN.replace(b" 7", b" 6"), 57, "expected the line CLIENT of client 2 of 2"),
    (KITE, b"CLIENT ALFA ANN 400 100 0 2\n", 58, "ALFA has a client ANN already"),
    (KITE, KITE.replace(b" 2", b" 3"), 61, "the text ends, and line 3 of 3 of GAMA's client KITE is missing"),
    (b"5 SHORT 0\n", b"6 SHORT 0\n", 55, "expected line 5 of 7 of ALFA's client ANN"),
    (b"5 SHORT 0\n", b"5 SHORT\n", 55, "expected line 5 of 7 of ALFA's client ANN"),
    (b"6 BARRED\n", b"6 BARRED 0\n", 56, "expected line 6 of 7 of ALFA's client ANN"),
    (b"6 BARRED\n", b"6\n", 56, "expected line 6 of 7 of ALFA's client ANN"),
    (b"3 REPLY 2 ORDERED 0 2\n", b"3 REPLY 1 ORDERED 0 2\n", 53, "a reply to command 1 of ALFA, which has 4; the reply before was to command 1"),
    (b"7 REPLY 4 ORDERED", b"7 REPLY 5 ORDERED", 57, "a reply to command 5 of ALFA, which has 4; the reply before was to command 2"),
    (b"7 REPLY 4 ORDERED 0 2\n", b"7 REPLY 3 PULLED 2\n", 57, "a client is told no PULLED"),
    (b"4 FILL 2 SELL EUR/USD 1", b"4 FILL 3 SELL EUR/USD 1", 54, "a fill of order 3, which was not sent before"),
    (b"4 FILL 2 SELL EUR/USD 1", b"4 FILL 2 SELL EUR/JPY 1", 54, "the header has no pair EUR/JPY"),
    (FILLED, FILLED.replace(b"ALFA", b"GAMA"), 60, "a fill of a bank with itself"),
    (KITE, b"CLIENT ALFA KITE 400 100 0 2\n", 59, "command 1 of ALFA was another client's"),
    (KITE + b"1 REPLY 1 ORDERED 0 1\n" + FILLED, b"CLIENT ALFA KITE 0 0 0 2\n1 REPLY 3 KILLED\n" + FILLED.replace(b"ALFA", b"BETA"), 60, "a fill of order 1, which is none of ALFA's client KITE"),
    (FILLED, FILLED[:-1], 60, "the text ends without a line feed"),
    (FILLED, FILLED + b"\n", 61, "a line after the last of 2 clients"),
)
# Changed parts of which the numbers do not agree, and what is said of them.
UNEVEN = (
    (ANN, b"CLIENT ALFA ANN 600 300 200 7\n", ["ALFA's client ANN has 300 filled, and its fills come to 400"]),
    (ANN, b"CLIENT ALFA ANN 500 400 200 7\n", ["ALFA's client ANN has 400 filled and 200 reserved, which is above its limit of 500"]),
    (b"5 SHORT 0\n", b"5 SHORT 201\n", ["ALFA's client ANN had 201 free by its line 5, and its limit less its fills was 200"]),
    (b"3 1.08420 BETA 3000000 3252600\n3 REPLY 2", b"3 1.08420 BETA 3000000 3252601\n3 REPLY 2", ["the amounts at line 52 are not those of 3 lots at 1.08420"]),
    (
        KITE + b"1 REPLY 1 ORDERED 0 1\n" + FILLED, KITE.replace(b"100 0", b"300 0") + b"1 REPLY 1 ORDERED 0 1\n" + FILLED.replace(b"1 1.08440 ALFA 1000000 1084400", b"3 1.08440 ALFA 3000000 3253200"),
        ["the clients of GAMA have bought 3 lots of EUR/USD, and its desk 1"],
    ),
)


def clients(text: bytes) -> list[Client] | None:
    """The clients of a whole text."""
    return read_day([text], 500).clients


def has_word() -> bool:
    """Whether the program at hand has the word `clients`."""
    return os.access(PROGRAM, os.X_OK) and b"| clients" in program("usage", b"")[2]


def with_clients(session: bytes, seed: int) -> bytes:
    """The session with three clients of each bank, who send most of the banks' commands, and some that nobody declared."""
    rng, banks = random.Random(seed), re.findall(rb"(?m)^BANK (\S+)", session)
    head, start, rest = session.partition(b"START\n")
    declared = b"".join(b"CLIENT: %s C0%d %d\n" % (bank, place, rng.choice([0, 100, 1000, 5000, 10**6])) for bank in banks for place in range(3))
    lines = (line.split(b" ") for line in rest.split(b"\n"))
    sent = [b" ".join([first + b":C0%d" % rng.randrange(4) if first in banks and rng.random() < 0.7 else first, *more]) for first, *more in lines]
    return head + start + declared + b"\n".join(sent)


def with_part(old: bytes, new: bytes) -> bytes:
    """The worked text with this in the place of that behind the output."""
    part = TEXT[len(OUTPUT) :]
    assert part.count(old) == 1, old
    return OUTPUT + part.replace(old, new)


class Reading(Trial):
    def test_the_worked_text(self) -> None:
        """The text is that of docs/OUTPUT.md, and its numbers are read."""
        page = read(f"{HERE}/docs/OUTPUT.md").partition(b"## What clients have")[2]
        self.assertEqual(re.findall(rb"^```\n(.*?)^```$", page, re.M | re.S)[:2], [SESSION, TEXT[len(OUTPUT) :]])
        ann, kite = clients(TEXT)
        self.assertEqual(ann, Client(0, "ANN", 600, 400, 200, 7, 3, 1, 1, 400, {BUY: Traded(1, 3, 3000000, 3252600), SELL: Traded(1, 1, 1000000, 1084400)}))
        self.assertEqual(kite, Client(2, "KITE", 400, 100, 0, 2, 1, 0, 0, 100, {BUY: Traded(1, 1, 1000000, 1084400)}))
        self.assertEqual((ann.free, kite.free), (0, 300))

    def test_few_clients(self) -> None:
        self.assertIsNone(clients(OUTPUT))
        self.assertEqual(clients(OUTPUT + b"CLIENTS 0\n"), [])
        self.assertEqual(clients(OUTPUT.replace(b"\nEND\n", b"\nCUT\n") + b"CLIENTS 1\nCLIENT BETA ANN 0 0 0 0\n"), [Client(1, "ANN", 0, 0, 0, 0)])

    def test_broken_parts(self) -> None:
        for old, new, line, told in BROKEN:
            with self.assertRaises(BadLine, msg=new) as found:
                clients(with_part(old, new))
            self.assertEqual(str(found.exception), f"line {line}: {told}", new)

    def test_numbers_that_do_not_agree(self) -> None:
        for old, new, told in UNEVEN:
            self.assertEqual([what for client in clients(with_part(old, new)) for what in client.wrong], told)

    def test_the_cut(self) -> None:
        """Whatever the pieces, the output is what stands before the line CLIENTS; a bank of that name does not end it."""
        odd = TEXT.replace(b"GAMA", b"CLIENTS")
        for text, wanted in ((TEXT, OUTPUT), (OUTPUT, OUTPUT), (odd, OUTPUT.replace(b"GAMA", b"CLIENTS")), (b"", b""), (b"\nCLIENTS ", b"\nCLIENTS ")):
            for size in (1, 2, 9, 10, 11, 500, 5000):
                part = OutputPart()
                found = b"".join(part.of(text[at : at + size]) for at in range(0, len(text), size)) + part.rest()
                self.assertEqual((found, part.size), (wanted, len(wanted)), size)
        self.assertEqual(clients(odd)[1].name, "KITE")


class Tools(Trial):
    def test_what_is_to_be_cut(self) -> None:
        """The tools that read an output to its end say which command leaves it, and with that they read it."""
        text, output = self.file("all", TEXT), self.file("out", subprocess.run(["bash", "-c", CUT], input=TEXT, capture_output=True, check=True).stdout)
        self.assertEqual(read(output), OUTPUT)
        for words in (("compare", text, text), ("export", text, "--csv", f"{self.folder}/tables"), ("covers", self.file("plain", self.plain()), text)):
            status, _, err = ran(*words)
            self.assertEqual((status, err.count("\n"), CUT in err), (2, 1, True), err)
            status, _, err = ran(*(output if word == text else word for word in words))
            self.assertEqual((status, err), (0, ""), words)

    def plain(self) -> bytes:
        """The worked session as a session of banks alone: what passed, and the stray."""
        lines = [line for line in SESSION.splitlines(True) if not re.match(rb"CLIENT: (ALFA|GAMA)|.*(1\.08400|CANCEL)", line)]
        return re.sub(rb"(?m)^(ALFA|GAMA):[A-Z]+", rb"\1", b"".join(lines))

    def test_what_reads_desks_alone(self) -> None:
        """The tools that read the journal and the desks alone take no notice of the part."""
        session = self.file("in", self.plain())
        told = [ran("explain", session, self.file("out", text)) for text in (OUTPUT, TEXT)]
        self.assertEqual((told[0], told[0][2]), (told[1], ""))
        rows, answers = f"{HERE}/examples/orders.csv", read(f"{HERE}/examples/orders.out")
        told = [ran("fix", "reports", rows, self.file("out", text), "--time", "20261130-07:00:00") for text in (answers, answers + b"CLIENTS 0\n")]
        self.assertEqual((told[0], told[0][0]), (told[1], 0))

    def test_lines_of_clients(self) -> None:
        """A session's lines of clients are strays for the tools, and they say so."""
        session = self.file("in", SESSION)
        _, out, _ = ran("explain", session)
        self.assertEqual(out.count("it is a line of clients, which only the word clients reads"), 9)
        status, out, _ = ran("covers", session, self.file("out", OUTPUT))
        self.assertEqual((status, "; its lines of clients are strays here" in out), (1, True), out)
        self.assertNotIn("clients", ran("covers", MORNING[0], self.file("out", OUTPUT))[1])


@unittest.skipUnless(has_word(), f"no program with the word clients at {PROGRAM}: ./fx build makes it, or FX_PROGRAM names another")
class AgainstProgram(Trial):
    def test_the_worked_session(self) -> None:
        self.assertEqual(program("clients", SESSION), (0, TEXT, b""))

    def test_days(self) -> None:
        """What the program writes of clients is read, and nothing of it contradicts itself."""
        for seed, session in ((1, faulty(1, 600)), (2, made(5, 3, 1500, "mixed", 2)), (5, faulty(5, 600))):
            status, out, err = program("clients", with_clients(session, seed))
            found = clients(out)
            self.assertEqual((status, err, [what for client in found for what in client.wrong]), (0, b"", []), seed)
            self.assertTrue(all(sum(column) for column in zip(*((client.replies, client.short, client.barred, client.cost) for client in found))), seed)
            part = OutputPart()
            self.assertEqual(program("check", part.of(out) + part.rest())[1], b"YES\n", seed)
