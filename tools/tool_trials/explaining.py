"""Trials of tools/explain, and of the reading of sessions against the program."""
import sys

from .common import HERE, MORNING, Trial, faulty, needs_program, program, ran, read

sys.path.insert(0, f"{HERE}/tools")

from reading.meant import explained, is_one_edit  # noqa: E402
from reading.session import BAD, COMMAND, FAULT, STRAY, Session  # noqa: E402

HEAD = b"FXBOOK 1\nBANK ALFA\nBANK BETA\nPAIR EUR/USD 5 1000000 100\nLINE ALFA BETA 1000\nSTART\n"
# A text line, a part of what is told of it, and the status.
CASES = [
    (b"ALFFA SHOW BETA", "probably meant: ALFA SHOW BETA"),
    (b"alfa SHOW BETA", "probably meant: ALFA SHOW BETA"),
    (b"BETA BUY EUR/USD 1.0842 2 DAY", "BAD 4: this is not a price with the pair's decimals"),
    (b"BETA BUY EUR/USD 1.0842 2 DAY", "has 5 decimals, and this price 4; probably meant: BETA BUY EUR/USD 1.08420 2 DAY"),
    (b"BETA BUY EUR/USD 0.00000 2 DAY", "BAD 5: the price is 0"),
    (b"BETA BUY EUR/USD 1.08420 0 DAY", "BAD 6: the lots are not a number from 1 to 1000000\n    BETA BUY EUR/USD 1.08420 0 DAY\n    an order has one lot at least"),
    (b"BETA BUY EUR/USD 1.08420 2000000 DAY", "probably meant: BETA BUY EUR/USD 1.08420 2 DAY"),
    (b"BETA BUY EUR/USD 1.08420 2", "the life (DAY, IOC or FOK) is missing"),
    (b"BETA BUY EUR/USD 1.08420 2 GTC", "probably meant: BETA BUY EUR/USD 1.08420 2 DAY"),
    (b"BETA BUY EURUSD 1.08420 2 DAY", "probably meant: BETA BUY EUR/USD 1.08420 2 DAY"),
    (b"BETA BYU EUR/USD 1.08420 2 DAY", "probably meant: BETA BUY EUR/USD 1.08420 2 DAY"),
    (b"BETA LINE BETA 5", "a bank sets no limit on itself"),
    (b"BETA LINE ALFA 1,000", "probably meant: BETA LINE ALFA 1000"),
    (b"BETA CANCEL EUR/USD 0", "counted from 1"),
    (b"BUY EUR/USD 1.08420 2 DAY", "a stray: the first field is not a bank's name"),
    (b"BUY EUR/USD 1.08420 2 DAY", "the bank's name is missing at the start"),
    (b"BETA SHOW ALFA" + b" " * 300, "BAD 11: the line has more than 256 bytes"),
    (b"DESK ALFA 2", "is this text an output"),
    (b"end", "only a line that has END alone ends the session"),
    (b"END\nALFA SHOW BETA", "after END, so it is not read"),
    (b"BETA TOTAL 5", "in a session of version 2 alone"),
    (b"HOST SETTLE ALFA BETA 5", "in a session of version 2 alone"),
]
# The same in version 2.
CASES_OF_TWO = [
    (b"BETA TOTAL 1,000", "BAD 8: the limit is not a number from 0 to 10^15\n    BETA TOTAL 1,000\n    probably meant: BETA TOTAL 1000"),
    (b"BETA TOTALS 5", "probably meant: BETA TOTAL 5"),
    (b"BETA SETTLE ALFA BETA 5", "use is given back by the operator alone"),
    (b"HOST SETTLE ALFA BETA 0", "HOST's command 1 gets BAD 12: the units are not a number from 1 to 10^15"),
    (b"HOST SETTLE ALFA BETTA 5", "probably meant: HOST SETTLE ALFA BETA 5"),
    (b"HOST SETTLE ALFA ALFA 5", "a settlement is between two different banks"),
    (b"HOST SETTLE ALFA BETA", "the number of units is missing"),
    (b"HOST PULL EUR/USD", "BAD 1: the second field is missing or is not a command's word"),
]
HEADS = [
    (b"\xef\xbb\xbfFXBOOK 1\n", "line 1: the header's first fault, reason 1", "byte order mark (EF BB BF)"),
    (b"BANK ALFA\n", "reason 1", "the line FXBOOK 1 is missing"),
    (b"FXBOOK 1\nBANC ALFA\n", "line 2: the header's first fault, reason 2", "the word is probably BANK"),
    (b"FXBOOK 1\n\nBANK Alfa\n", "line 3: the header's first fault, reason 4", "the name is probably ALFA"),
    (b"FXBOOK 1\nBANK ALFA\nBANK BETA\nPAIR EURUSD 5 1000000 100\n", "reason 5", "the pair is probably EUR/USD"),
    (b"FXBOOK 1\nBANK ALFA\nBANK BETA\nLINE ALFA BETTA 5\n", "reason 9", "BETTA is probably BETA"),
    (b"FXBOOK 1\nBANK ALFA\nSTART\n", "reason 11", "fewer than two banks"),
    (b"FXBOOK 1\nBANK ALFA\nTOTAL ALFA 5\n", "reason 2", "in version 2 alone"),
    (b"FXBOOK 2\nBANK ALFA\nTOTAL BETA 5\n", "reason 9", "no BANK line above has the name BETA"),
]


class Explain(Trial):
    def test_each_fault_in_words(self) -> None:
        for head, cases in ((HEAD, CASES), (HEAD.replace(b"FXBOOK 1", b"FXBOOK 2"), CASES_OF_TWO)):
            for line, told in cases:
                status, out, err = ran("explain", "-", text=head + line + b"\nEND\n")
                self.assertEqual((status, err), (1, ""), line)
                self.assertIn(told, out)

    def test_heads(self) -> None:
        for text, reason, told in HEADS:
            status, out, _ = ran("explain", "-", text=text)
            self.assertEqual(status, 1)
            self.assertIn(reason, out)
            self.assertIn(told, out)

    def test_nothing_to_tell(self) -> None:
        status, out, err = ran("explain", "-", text=(HEAD + b"# so\n\nALFA SHOW BETA\nEND\n\n# behind\n").replace(b"\n", b"\r\n"))
        self.assertEqual((status, err), (0, ""))
        self.assertIn("lines end with CR LF, which is as good as LF", out)
        self.assertIn("line 7: ignored, a comment", out)
        self.assertEqual(ran("explain", "--brief", "-", text=HEAD + b"# so\nEND\n")[1], "8 text lines: 6 of the header, 1 ignored, 1 END\n")

    def test_text_without_end(self) -> None:
        for text, told in ((HEAD + b"ALFA SHOW BETA\nALFA SHO", "no line feed ends it"), (HEAD, "there is no END line"), (b"FXBOOK 1\n", "ends before START"), (b"", "before START")):
            status, out, _ = ran("explain", "-", text=text)
            self.assertEqual(status, 1)
            self.assertIn(told, out)

    def test_replies_and_their_lines(self) -> None:
        status, out, _ = ran("explain", *MORNING)
        self.assertEqual(status, 1)
        self.assertIn("BAD 3, answers its command 5: line 33: DELT BUY EURUSD 1.08400 1 DAY\n", out)
        status, out, _ = ran("explain", "-", MORNING[1], text=HEAD + b"END\n")
        self.assertEqual(status, 3)
        self.assertIn("the output does not belong to this session", out)

    def test_an_output_in_place_of_the_session(self) -> None:
        for text in (read(MORNING[1]), read(MORNING[1]).replace(b"\n", b"\r\n")):
            status, out, _ = ran("explain", "-", text=text)
            self.assertEqual((status, out.startswith("this text is an output, not a session")), (1, True))
        self.assertNotIn("is an output", ran("explain", MORNING[0])[1])

    def test_words_and_unreadable_texts(self) -> None:
        for words in ((), ("-", "-"), ("a", "b", "c"), (f"{self.folder}/none",), (self.folder,), (MORNING[0], MORNING[0])):
            status, _, err = ran("explain", *words)
            self.assertEqual((status, err.count("\n")), (2, 1), words)
        self.assertEqual(ran("explain", "--help")[0], 0)

    def test_guesses_of_any_line(self) -> None:
        """A guess is made of any line, and what it says is meant is a command without a fault."""
        for seed in range(12):
            session = Session(faulty(seed, 150))
            for said in session.lines():
                if said.kind in (BAD, STRAY, FAULT):
                    _, meant = explained(session.header, said)
                    line = meant.partition("probably meant: ")[2].encode()
                    if said.kind == BAD and line and not line.endswith(b" bytes)"):
                        end = list(Session(b"\n".join(session.header.lines()) + b"\n" + line + b"\n").lines())[-1]
                        self.assertEqual(end.kind, COMMAND, (said.text, meant))

    def test_one_edit(self) -> None:
        self.assertTrue(all(is_one_edit(b"BETA", other) for other in (b"BETTA", b"BTA", b"BATA", b"EBTA", b"BEAT", b"ETA", b"BET", b"XBETA", b"BETAX")))
        self.assertFalse(any(is_one_edit(b"BETA", other) for other in (b"BT", b"ABET", b"ATEB", b"BETAAA", b"GAMA", b"AEBT")))


@needs_program
class AgainstProgram(Trial):
    def test_verdicts(self) -> None:
        """Each line's verdict is the program's: its journal, its strays, its ending and its statuses are what the reading makes of the text."""
        judged = 0
        for seed in range(18):
            judged += self.compare(faulty(seed))
        for text in (b"", b"FXBOOK 1\n", HEAD, HEAD + b"END", HEAD + b"END\r", HEAD + b"END\nx", b"\xef\xbb\xbf" + HEAD, HEAD.replace(b"\n", b"\r\n") + b"END\r\n"):
            self.compare(text)
        self.assertGreater(judged, 3000)

    def compare(self, text: bytes) -> int:
        """Compares one text, and answers how many text lines were judged."""
        session = Session(text)
        lines = list(session.lines())
        status, out, err = program("serial", text)
        if session.fault:
            self.assertEqual((status, out, err), (2, b"", b"header line %d reason %d\n" % (session.fault.number, session.fault.code)))
            return session.fault.number
        self.assertEqual(status, {"END": 0, "CUT": 3, "": 3}[session.ending])
        if not session.started:
            self.assertEqual(out, b"")
            return len(lines)
        commands = [said.spelled() for said in lines if said.kind in (COMMAND, BAD)]
        journal = b"\n".join([*session.header.lines(), b"JOURNAL %d" % len(commands), *commands, b"DESK "])
        self.assertTrue(out.startswith(journal), [pair for pair in zip(out.split(b"\n"), journal.split(b"\n")) if pair[0] != pair[1]][:1])
        self.assertTrue(out.endswith(b"\nSTRAYS %d\n%s\n" % (session.strays, session.ending.encode())), (out[-40:], session.strays, session.ending))
        return len(lines)

    def test_replies(self) -> None:
        """Each BAD reply of the program is told with its line."""
        text = faulty(1)
        out = program("serial", text)[1]
        status, told, _ = ran("explain", self.file("day.fx", text), self.file("day.out", out))
        self.assertEqual(status, 1)
        self.assertEqual(told.count(", answers its command "), sum(b" BAD " in line and b" REPLY " in line for line in out.split(b"\n")))
