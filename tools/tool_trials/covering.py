"""Trials of tools/covers."""
import hashlib

from .common import HERE, MORNING, Trial, faulty, made, needs_program, program, ran, read


class Covers(Trial):
    def no(self, session: bytes, output: bytes, told: str) -> None:
        status, out, err = ran("covers", self.file("in", session), self.file("out", output))
        self.assertEqual((status, err), (1, ""))
        self.assertIn(told, out.splitlines()[0])

    def test_the_morning(self) -> None:
        status, out, err = ran("covers", *MORNING)
        digests = [hashlib.sha256(read(path)).hexdigest() for path in MORNING]
        self.assertEqual((status, err), (0, ""))
        self.assertEqual(out, f"YES, the output belongs to this session\nSHA-256 of the session {digests[0]}\nSHA-256 of the output  {digests[1]}\n")

    def test_changed_texts(self) -> None:
        session, output = map(read, MORNING)
        self.no(session.replace(b"LINE ALFA DELT 200\n", b""), output, "NO, the header differs: ")
        self.no(session, output.replace(b"LINE BETA DELT 400\n", b"LINE BETA DELT 400\nLINE GAMA DELT 0\n"), "NO, the header differs: ")
        self.no(session.replace(b"DELT PULL EUR/USD\n", b""), output, "NO, DELT's command 4 is DELT BAD 3 at line 32 of the session")
        self.no(session.replace(b"1.08380 3 DAY", b"1.08380 3 IOC"), output, "NO, BETA's command 6 is BETA BUY EUR/USD 1.08380 3 IOC at line 37")
        self.no(session.replace(b"END\n", b"BETA SHOW ALFA\nEND\n"), output, "NO, the journal has 6 commands of BETA, and the session 7: the next is at line 38")
        self.no(session.replace(b"BETA BUY EUR/USD 1.08380 3 DAY\n", b""), output, "and the session has only 5 of BETA")
        self.no(session.replace(b"END\n", b"stray\nEND\n"), output, "NO, the session has 1 stray, and the output says 0")
        self.no(session.replace(b"END\n", b""), output, "ends with CUT, and this one with END")
        self.no(session.replace(b"FXBOOK 1", b"FXBOOK 3"), output, "NO, the session's header has a fault at line 1 (reason 1)")
        self.no(session.replace(b"FXBOOK 1", b"FXBOOK 2"), output, "NO, the header differs: the session's is FXBOOK 2 where the output's line 1 is FXBOOK 1")

    def test_totals_and_settlements(self) -> None:
        """The operator's commands and the totals of the header count as all others."""
        session, output = (read(f"{HERE}/examples/totals.{end}") for end in ("fx", "out"))
        self.assertEqual(ran("covers", self.file("in", session), self.file("out", output))[0], 0)
        self.no(session.replace(b"TOTAL ALFA 350", b"TOTAL ALFA 351"), output, "NO, the header differs: ")
        self.no(session.replace(b"ALFA BETA 150", b"ALFA BETA 151"), output, "NO, HOST's command 1 is HOST SETTLE ALFA BETA 151 at line 19")
        self.no(session.replace(b"HOST SETTLE ALFA BETA 0\n", b""), output, "and the session has only 2 of HOST")
        self.no(b"FXBOOK 1\n", output, "NO, the session ends before START")
        self.no(output, output, "NO, the first text is an output, not a session")

    def test_a_failed_read(self) -> None:
        """An output that ends with READ is one of a beginning of the session."""
        session, output = read(MORNING[0]).replace(b"START\n", b"START\nstray\n"), read(MORNING[1])
        told = output.replace(b"STRAYS 0\nEND\n", b"STRAYS 1\nREAD\n")
        more = session.replace(b"END\n", b"ALFA SHOW BETA\nstray\nEND\n")
        for text in (session, more):
            self.assertEqual(ran("covers", self.file("in", text), self.file("out", told))[0], 0)
        self.no(more, told.replace(b"STRAYS 1", b"STRAYS 2"), "no first lines of the session have 20 commands and 2 strays")

    def test_words_and_unreadable_texts(self) -> None:
        for words in ((), ("-",), ("-", "-"), (MORNING[0], f"{self.folder}/none"), (MORNING[0], MORNING[0]), (MORNING[0], self.file("half", read(MORNING[1])[:-1]))):
            status, _, err = ran("covers", *words)
            self.assertEqual((status, err.count("\n")), (2, 1), words)
        self.assertEqual(ran("covers", "--help")[0], 0)


@needs_program
class AgainstProgram(Trial):
    def test_outputs_of_faulty_sessions(self) -> None:
        for seed in (1, 2, 4, 5):
            text = faulty(seed)
            for word in ("serial", "run"):
                status, out, _ = ran("covers", self.file("in", text), self.file("out", program(word, text)[1]))
                self.assertEqual(status, 0, out)

    def test_outputs_of_other_sessions(self) -> None:
        outputs = [program("serial", made(4, 2, 200, "mixed", seed))[1] for seed in (1, 2)]
        self.assertEqual([ran("covers", self.file("in", made(4, 2, 200, "mixed", 1)), self.file("out", out))[0] for out in outputs], [0, 1])
