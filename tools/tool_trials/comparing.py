"""Trials of tools/compare."""
from .common import MORNING, Trial, made, needs_program, program, ran, read


class Compare(Trial):
    def differ(self, one: bytes, other: bytes, *told: str) -> None:
        status, out, err = ran("compare", self.file("one", one), self.file("other", other))
        self.assertEqual((status, err), (1, ""))
        for part in told:
            self.assertIn(part, out)

    def test_the_same(self) -> None:
        status, out, err = ran("compare", MORNING[1], "-", text=read(MORNING[1]))
        self.assertEqual((status, err), (0, ""))
        self.assertIn("journal: the same 20 commands\nfills: the same\nrefusals: the same\n", out)
        self.assertTrue(out.endswith("the two are the same, byte for byte\n"))

    def test_each_part(self) -> None:
        right = read(MORNING[1])
        for old, new, told in (
            (b"NET ALFA EUR 2000000", b"NET ALFA EUR 3", "nets: 1 difference\n    ALFA EUR: A 2000000, B 3\n"),
            (b"USE BETA GAMA 800", b"USE BETA GAMA 801", "uses: 1 difference\n    BETA GAMA limit of BETA: A 800, B 801\n"),
            (b"VOLUME EUR/USD 3", b"VOLUME EUR/USD 4", "volumes: 1 difference\n    EUR/USD fills: A 3, B 4\n"),
            (b"REPLY 3 KILLED", b"REPLY 3 NOTHING", "    GAMA KILLED: A 1, B none\n    GAMA NOTHING: A none, B 1\n"),
            (b"ORDERED 5 0", b"ORDERED 4 1", "of command 5 of the histories BETA was told in A 2 REPLY 2 ORDERED 5 0; in B 2 REPLY 2 ORDERED 4 1\nat most one"),
            (b"STRAYS 0\nEND", b"STRAYS 1\nCUT", "    strays: A 0, B 1\n    ending: A END, B CUT\n"),
            (b"LINE DELT BETA 400\n", b"", "header: 2 differences\n    16: A LINE DELT BETA 400, B START\n"),
            (b"DELT LINE ALFA 250\n", b"DELT LINE ALFA 251\n", "the histories part at command 8: A has DELT LINE ALFA 250; B has DELT LINE ALFA 251\nthe commands differ of DELT:"),
        ):
            self.assertIn(old, right)
            self.differ(right, right.replace(old, new), told)

    def test_words_and_unreadable_texts(self) -> None:
        for words in ((), (MORNING[1],), ("-", "-"), (MORNING[1], f"{self.folder}/none"), (MORNING[1], MORNING[0]), (MORNING[0], MORNING[1]), (*MORNING, "--most", "x")):
            status, _, err = ran("compare", *words)
            self.assertEqual((status, err.count("\n")), (2, 1), words)
        self.assertEqual(ran("compare", "--help")[0], 0)

    def test_a_session_is_told_as_one(self) -> None:
        for name, words in (("compare", (MORNING[1], MORNING[0])), ("covers", (MORNING[0], MORNING[0])), ("export", (MORNING[0], "--csv", f"{self.folder}/made")), ("explain", (MORNING[0], MORNING[0]))):
            self.assertIn(f"{MORNING[0]} is a session, not an output: line ", ran(name, *words)[2], name)
        windows = b"# a day\r\n\r\n" + read(MORNING[0]).replace(b"\n", b"\r\n")
        self.assertIn("standard input is a session, not an output: line 1: ", ran("compare", MORNING[1], "-", text=windows)[2])
        cut = read(MORNING[1]).partition(b"JOURNAL")[0]
        self.assertNotIn("session", ran("compare", MORNING[1], "-", text=cut)[2])
        foreign = read(MORNING[1]).replace(b"\n", b"\r\n")
        self.assertIn("its lines end with CR LF", ran("compare", MORNING[1], "-", text=foreign)[2])

    @needs_program
    def test_two_orders_of_one_session(self) -> None:
        """The same commands in another order of the banks."""
        lines = made(3, 2, 300, "mixed").split(b"\n")
        start = lines.index(b"START") + 1
        behind = lines[start:-2]
        banks = sorted({line.split()[0] for line in behind})
        sorted_lines = [line for bank in banks for line in behind if line.split()[0] == bank]
        one, other = (program("serial", b"\n".join([*lines[:start], *part, b"END", b""]))[1] for part in (behind, sorted_lines))
        self.differ(one, other, "the histories part at command ", "each bank sent the same commands in both", "fills: ")
        longer = program("serial", b"\n".join([*lines[:start], *behind, banks[0] + b" PULL AAA/ZZZ", b"END", b""]))[1]
        self.differ(one, longer, "the histories part at command 301: A has nothing, its history has 300 commands; B has B01 PULL AAA/ZZZ")
