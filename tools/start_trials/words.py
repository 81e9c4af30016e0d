"""Trials of the page of help, and of what ./fx says of wrong words."""
import os
import re
import subprocess
import unittest

from command.pages import help_page
from command.table import BOUNDS, LOAD_NUMBERS, OWN_STATUSES, STATUSES, WORDS, WORKERS
from command.words import fault_of
from reading import market, session
from tool_trials.common import HERE, PROGRAM, read

from .common import PATIENCE, CopyTrial

WRONG = {
    (): "no command given",
    ("sreial",): "unknown command 'sreial' (did you mean serial?); the commands are serial, run",
    ("serial", "day.fx"): "comes from standard input, as in ./fx serial < FILE",
    ("check", "--all"): "unexpected argument '--all'",
    ("run", "--workers"): "--workers needs a number from 1 to 64 after it",
    ("run", "--workers", "65"): "from 1 to 64, without sign or leading zeros, not '65'",
    ("run", "--workers", "08"): "not '08'",
    ("run", "--workers", "8", "9"): "unexpected argument '9'",
    ("load", "7", "8"): "PAIRS is missing (how many pairs)",
    ("load", "7", "65", "4", "10"): "BANKS must be a number from 2 to 64",
    ("load", "7", "8", "4", "20001"): "COMMANDS must be a number from 1 to 20000",
    ("payments",): "payments needs bilateral or net after it",
    ("payments", "gross"): "what follows payments is bilateral or net, not 'gross'",
    ("payments", "net", "day.out"): "comes from standard input, as in ./fx payments net < FILE",
    ("clients", "day.fx"): "comes from standard input, as in ./fx clients < FILE",
    ("build", "now"): "unexpected argument 'now'",
    ("keep", "day.fx"): "comes from standard input, as in ./fx keep < FILE",
    ("restart", "--workers", "2"): "unexpected argument '--workers'",
    ("package", "here", "there"): "unexpected argument 'there'",
    ("run\n", "\udcff"): "unknown command",
}
# Each word of these is right or just wrong at its place.
EDGES = {
    "SEED": ["0", "18446744073709551615", "18446744073709551616", "00", "+1", "-1", ""],
    "BANKS": ["2", "64", "1", "65", "02"],
    "PAIRS": ["1", "32", "0", "33", "1.0"],
    "COMMANDS": ["1", "0", "20001", "1e3", "one"],
}
RIGHT_LOAD = ["1", "2", "1", "2"]


def word_lists() -> list[list[str]]:
    """Words in all forms of the program, right and wrong, and none that makes it work for long."""
    lists = [[], ["serial"], ["check"], ["run"], ["serial", ""], ["check", "x"], ["clients"], ["clients", "x"], ["load"], ["RUN"], [" run"], ["run", "--workers=2"], ["run", "2"], ["run", "--"]]
    lists += [["payments", *rest] for rest in ([], ["net"], ["bilateral"], ["gross"], ["Net"], ["net", ""], ["net", "bilateral"], ["--workers", "2"])]
    lists += [[word, *rest] for word in ("keep", "restart") for rest in ([], [""], ["now"], ["--workers", "2"], ["keep"])]
    lists += [["run", "--workers", number] for number in ("1", "64", "0", "65", "01", "+1", "", " 1", "4294967297", "1_0", "\u0661")]
    lists += [["run", "--workers", "2", "--workers", "2"], ["--workers", "2", "run"], ["load", "--workers", "2", *RIGHT_LOAD], ["load", *RIGHT_LOAD, "2"]]
    lists += [["load", *RIGHT_LOAD, "--workers", number] for number in ("1", "64", "65")] + [["load", *RIGHT_LOAD[:count]] for count in range(1, 5)]
    for place, number in enumerate(LOAD_NUMBERS):
        lists += [["load", *RIGHT_LOAD[:place], text, *RIGHT_LOAD[place + 1 :]] for text in EDGES[number.name]]
    return lists


class Help(CopyTrial):
    def test_help(self) -> None:
        """The page comes without a toolchain and without a program."""
        for words in (("help",), ("--help",), ("serial", "--help"), ("load", "-h")):
            self.assertEqual(self.fx(*words), (0, help_page().encode(), ""))
        page = help_page()
        for text in ("2 to 64", "1 to 32", "256 bytes", "2^26 bytes", "1 to 64, and 4", "1 to 20,000", *(word.summary for word in WORDS)):
            self.assertIn(text, page)
        self.assertLessEqual(max(map(len, page.splitlines())), 130)

    def test_an_output_that_nobody_takes(self) -> None:
        """Where the page of help can't be written, ./fx ends as the program does."""
        with open("/dev/full", "wb") as full:
            run = subprocess.run([f"{self.copy}/fx", "help"], stdout=full, stderr=subprocess.PIPE)
        self.assertEqual((run.returncode, run.stderr), (5, b"write failed\n"))

    def test_wrong_words(self) -> None:
        """Each fault in words; ./fx tells it in one line, whatever bytes the words have."""
        for words, told in WRONG.items():
            self.assertIn(told, fault_of(list(words)), words)
        for words in ((), ("run\n", "\udcff"), ("load", "7", "8")):
            status, out, err = self.fx(*words)
            self.assertEqual((status, out), (1, b""), words)
            self.assertRegex(err, r"\Afx: .*\. See \./fx help\n\Z", words)

    def test_bounds(self) -> None:
        """The bounds are those of the readers of texts, and the statuses those of the page of the output."""
        bounds = dict(BOUNDS)
        self.assertTrue(bounds["banks"].endswith(f" {market.MOST_BANKS}") and bounds["pairs"].endswith(f" {market.MOST_PAIRS}"))
        self.assertIn(f" {session.LONGEST_LINE} bytes", bounds["a text line"])
        self.assertEqual((session.MOST_BYTES, "2^26" in bounds["a session"]), (1 << 26, True))
        self.assertEqual(bounds["commands of load"], f"{LOAD_NUMBERS[-1].low} to {LOAD_NUMBERS[-1].high:,}")
        page = read(f"{HERE}/docs/OUTPUT.md").decode()
        told = re.findall(r"^\| (\d+) \|", page.partition("| Exit status |")[2], re.M)
        self.assertEqual([int(status) for status in told], list(STATUSES))
        self.assertFalse(STATUSES.keys() & OWN_STATUSES.keys())

    @unittest.skipUnless(os.access(PROGRAM, os.X_OK), f"no program at {PROGRAM}: ./fx build makes it, or FX_PROGRAM names another")
    def test_as_the_program(self) -> None:
        """./fx calls words wrong exactly where the program does."""
        usage = subprocess.run([PROGRAM], stdin=subprocess.DEVNULL, capture_output=True).stderr
        for word in ("load SEED", "clients", "restart"):
            if f"| {word}" not in usage.decode():
                self.skipTest(f"the program at hand is another one, that has not the word {word.split()[0]}")
        self.assertEqual(WORKERS.name, "N")
        for words in word_lists():
            run = subprocess.run([PROGRAM, *words], stdin=subprocess.DEVNULL, capture_output=True, timeout=PATIENCE, cwd=self.folder)
            self.assertEqual(run.returncode == 1, bool(fault_of(words)), (words, run.stderr))
