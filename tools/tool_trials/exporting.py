"""Trials of tools/export."""
import csv
import os
import re
import shutil
import signal
import sqlite3
import subprocess
import sys
import time

from .common import HERE, MORNING, Trial, made, needs_program, program, ran, read, takes_stops

PAGE = f"{HERE}/docs/TOOLS.md"
# The derived tables agree with the report, and the makers' prices with the fills'.
AGREEMENTS = {
    "volumes": "SELECT * FROM volumes EXCEPT SELECT pair, count(*), sum(lots), sum(base_amount), sum(quote_amount) FROM fills GROUP BY pair",
    "nets": """SELECT bank, currency, amount FROM nets WHERE amount <> 0 EXCEPT SELECT bank, currency, sum(amount) FROM (
        SELECT buyer AS bank, base AS currency, base_amount AS amount FROM fills JOIN pairs USING (pair) UNION ALL SELECT seller, base, -base_amount FROM fills JOIN pairs USING (pair)
        UNION ALL SELECT buyer, quote, -quote_amount FROM fills JOIN pairs USING (pair) UNION ALL SELECT seller, quote, quote_amount FROM fills JOIN pairs USING (pair)) GROUP BY 1, 2""",
    "makers": """SELECT * FROM fills JOIN commands AS order_of ON order_of.entry = maker_entry
        WHERE order_of.price <> fills.price OR order_of.bank <> maker OR order_of.pair <> fills.pair OR order_of.life <> 'DAY' OR maker_entry >= taker_entry""",
    "takers": """SELECT * FROM fills JOIN commands AS order_of ON order_of.entry = taker_entry JOIN commands AS made ON made.entry = fills.entry
        WHERE order_of.bank <> taker OR (order_of.kind = 'BUY') <> (buyer = taker) OR (made.kind NOT IN ('LINE', 'TOTAL') AND fills.entry <> taker_entry)""",
    "notices": """SELECT * FROM fills JOIN notices AS one ON one.bank = taker AND one.notice = taker_notice JOIN notices AS two ON two.bank = maker AND two.notice = maker_notice
        WHERE (one.lots, one.price, one.quote_amount, one.other, one.side) <> (two.lots, two.price, two.quote_amount, two.bank, CASE two.side WHEN 'BUY' THEN 'SELL' ELSE 'BUY' END)""",
    "filled": """SELECT notices.bank, command, filled FROM notices JOIN commands USING (bank, command) WHERE notices.kind = 'ORDERED'
        EXCEPT SELECT bank, command, (SELECT coalesce(sum(lots), 0) FROM fills WHERE fills.entry = commands.entry) FROM commands""",
}


def lines_of(output: bytes) -> dict[str, int]:
    """How many rows each table has to have."""
    lines = output.decode().splitlines()
    words = [line.split() for line in lines]
    journal = next(int(line[1]) for line in words if line[0] == "JOURNAL")
    told = [line for line in words if len(line) > 1 and line[1] in ("REPLY", "FILL") and line[0].isdigit()]
    return {"commands": journal, "notices": len(told), "fills": sum(line[1] == "FILL" for line in told) // 2}


class Export(Trial):
    def base(self, output: str) -> sqlite3.Connection:
        self.assertEqual(ran("export", output, "--sqlite", f"{self.folder}/base"), (0, "", ""))
        base = sqlite3.connect(f"{self.folder}/base")
        self.addCleanup(base.close)
        return base

    def agree(self, base: sqlite3.Connection, output: bytes) -> None:
        self.assertEqual(base.execute("PRAGMA foreign_key_check").fetchall(), [])
        self.assertEqual(base.execute("PRAGMA integrity_check").fetchall(), [("ok",)])
        for name, query in AGREEMENTS.items():
            rows = [row for row in base.execute(query).fetchall() if name != "volumes" or row[1]]
            self.assertEqual(rows, [], name)
        self.assertEqual({name: base.execute(f"SELECT count(*) FROM {name}").fetchone()[0] for name in lines_of(output)}, lines_of(output))

    def test_the_morning(self) -> None:
        base = self.base(MORNING[1])
        self.agree(base, read(MORNING[1]))
        fills = base.execute("SELECT entry, pair, lots, price, taker, maker FROM fills ORDER BY entry, turn").fetchall()
        self.assertEqual(fills[:3], [(5, "EUR/USD", 4, "1.08400", "BETA", "DELT"), (5, "EUR/USD", 1, "1.08410", "BETA", "GAMA"), (8, "EUR/USD", 2, "1.08405", "DELT", "ALFA")])
        self.assertEqual(base.execute("SELECT commands, strays, ending FROM day").fetchall(), [(20, 0, "END")])

    def test_both_forms_have_the_same_rows(self) -> None:
        base = self.base(MORNING[1])
        self.assertEqual(ran("export", MORNING[1], "--csv", f"{self.folder}/tables")[0], 0)
        names = [name for name, in base.execute("SELECT name FROM sqlite_schema WHERE type = 'table'")]
        self.assertEqual(sorted(os.listdir(f"{self.folder}/tables")), sorted(f"{name}.csv" for name in names))
        for name in names:
            found = base.execute(f"SELECT * FROM {name}")
            wanted = [[column[0] for column in found.description], *(["" if value is None else str(value) for value in row] for row in found)]
            with open(f"{self.folder}/tables/{name}.csv", encoding="ascii", newline="") as file:
                self.assertEqual(sorted(csv.reader(file)), sorted(wanted), name)

    def test_the_page(self) -> None:
        """The page has the tables as the tool tells them, and its ten queries run on the morning and answer something."""
        page, base = read(PAGE).decode(), self.base(MORNING[1])
        self.assertIn(ran("export", "--tables")[1].strip(), page)
        queries = re.findall(r"```sql\n(.*?)```", page, re.S)
        self.assertEqual(len(queries), 10)
        for query in queries:
            self.assertTrue(base.execute(query).fetchall(), query)

    def test_faulty_texts_leave_nothing(self) -> None:
        right = read(MORNING[1])
        large = right.replace(b"1000000 1084100", b"1000000 99999999999999999999").replace(b"7000000 7588200", b"7000000 100000000000006504099")
        for text, status in (
            (right[:-1], 2), (b"", 2), (right.replace(b"KILLED", b"KILED"), 2), (right.replace(b"VOLUME EUR/USD 3", b"VOLUME EUR/USD 4"), 1),
            (right.replace(b"NET ALFA EUR 2000000", b"NET ALFA EUR 99999999999999999999"), 3), (large, 3),
        ):
            for word in ("--csv", "--sqlite"):
                found, _, err = ran("export", "-", word, f"{self.folder}/made", text=text)
                self.assertEqual((found, err.count("\n")), (status, 1) if status != 3 or word == "--sqlite" else (0, 0), (text[:40], err))
                self.assertEqual(os.listdir(self.folder), [] if found else ["made"])
                shutil.rmtree(f"{self.folder}/made", ignore_errors=True)
        self.file("made", b"")
        self.assertEqual(ran("export", MORNING[1], "--sqlite", f"{self.folder}/made")[0], 5)
        self.assertEqual(ran("export", MORNING[1], "--sqlite", f"{self.folder}/none/made")[0], 5)

    def test_a_stop_leaves_nothing(self) -> None:
        """A run that is stopped while it reads takes away what it has made so far."""
        for number in (signal.SIGINT, signal.SIGTERM, signal.SIGHUP):
            for form in ("--csv", "--sqlite"):
                words = [sys.executable, f"{HERE}/tools/export", "-", form, f"{self.folder}/made"]
                run = subprocess.Popen(words, stdin=subprocess.PIPE, stderr=subprocess.PIPE, preexec_fn=takes_stops)
                self.addCleanup(run.kill)
                run.stdin.write(read(MORNING[1])[:1000])
                run.stdin.flush()
                while not os.listdir(self.folder):
                    self.assertIsNone(run.poll(), run.returncode)
                    time.sleep(0.01)
                run.send_signal(number)
                run.communicate(timeout=300)
                self.assertEqual((run.returncode, os.listdir(self.folder)), (128 + number, []), (number, form))

    def test_words(self) -> None:
        for words in ((), ("-",), ("--csv", "x"), (MORNING[1], "--csv", "x", "--sqlite", "y"), (f"{self.folder}/none", "--csv", f"{self.folder}/x")):
            self.assertEqual(ran("export", *words)[0], 2, words)
        self.assertEqual(ran("export", "--help")[0], 0)

    @needs_program
    def test_days(self) -> None:
        for kind in ("mixed", "thick", "raced"):
            output = program("serial", made(6, 3, 1200, kind))[1]
            self.agree(self.base(self.file("day.out", output)), output)
            os.remove(f"{self.folder}/base")
