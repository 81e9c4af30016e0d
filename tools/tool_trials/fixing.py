"""Trials of tools/fix: each refusal, and days that go there and back."""
import csv
import io
import random
import sys
from collections import defaultdict
from fractions import Fraction

from .common import HERE, MORNING, PROGRAM, Trial, made, needs_program, program, ran, read

sys.path.insert(0, f"{HERE}/tools")

from fix_messages.message import Message, built, cut, parse  # noqa: E402
from fix_messages.orders import Desk  # noqa: E402
from reading.session import read_session  # noqa: E402

TIME = "20261130-07:00:00"
HEAD = read(f"{HERE}/examples/first.fx").partition(b"START\n")[0] + b"START\n"
KNOWN = [(11, "k1"), (55, "EUR/USD"), (54, 1), (60, TIME), (38, 5000000), (40, 2), (44, "1.08420")]


def sent(kind: str, sender: str, sequence: int, fields: list[tuple[int, object]]) -> bytes:
    return built([(35, kind), (49, sender), (56, "VENUE"), (34, sequence), (52, TIME), *fields])


def changed(fields: list[tuple[int, object]], **by_tag: object) -> list[tuple[int, object]]:
    """The fields with others in their place, as t44="1.1"; None takes one away, and new ones come last."""
    new = {int(name[1:]): value for name, value in by_tag.items()}
    kept = [(tag, new.pop(tag, value)) for tag, value in fields]
    return [(tag, value) for tag, value in [*kept, *new.items()] if value is not None]


def fresh(**by_tag: object) -> bytes:
    return sent("D", "ALFA", 2, changed(KNOWN, **{"t11": "n1", **by_tag}))


def request(kind: str, **by_tag: object) -> bytes:
    plain = {"t11": "r1", "t41": "k1"} | ({"t40": None, "t44": None} if kind == "F" else {"t38": 3000000})
    return sent(kind, "ALFA", 2, changed(KNOWN, **{**plain, **by_tag}))


def parsed(text: bytes) -> list[Message]:
    return [parse(place, piece) for place, piece in enumerate(cut(text), 1)]


# A message behind an order k1 of ALFA's that stands; the MsgType of the answer, the tag of its reason and the reason; a part of its words.
REFUSALS = [
    (fresh(t40=1, t44=None), "8", 103, "11", "OrdType (40) 1 has no counterpart"),
    (fresh(t40=3, t99="1.1"), "8", 103, "11", "the tag 99 has no counterpart"),
    (fresh(t40=3), "8", 103, "11", "OrdType (40) 3 has no counterpart"),
    (fresh(t59=1), "8", 103, "11", "TimeInForce (59) 1 has no counterpart"),
    (fresh(t59=6, t126=TIME), "8", 103, "11", "the tag 126 has no counterpart"),
    (fresh(t54=5), "8", 103, "11", "Side (54) 5 has no counterpart"),
    (fresh(t21=3), "8", 103, "11", "HandlInst (21)"),
    (fresh(t15="USD"), "8", 103, "11", "quantities are in EUR"),
    (fresh(t110=1000000), "8", 103, "11", "the tag 110 has no counterpart"),
    (fresh(t38=1500000), "8", 103, "13", "1500000 is not a whole number of lots: a lot of EUR/USD is 1000000 EUR"),
    (fresh(t38="1000000.5"), "8", 103, "13", "is not a whole number of lots"),
    (fresh(t38=0), "8", 103, "13", "the lots are not a number from 1 to 1000000"),
    (fresh(t38=1000001000000), "8", 103, "13", "the lots are not a number from 1 to 1000000"),
    (fresh(t44="1.084205"), "8", 103, "99", "has more than the 5 decimals of EUR/USD"),
    (fresh(t44="0"), "8", 103, "99", "the price is 0 or above 10^9 ticks"),
    (fresh(t44="10000.00001"), "8", 103, "99", "the price is 0 or above 10^9 ticks"),
    (fresh(t44="-1.0"), "8", 103, "99", "is below 0"),
    (fresh(t55="EUR/GBP"), "8", 103, "1", "EUR/GBP is not a pair of the header"),
    (fresh(t11="k1"), "8", 103, "6", "the ClOrdID (11) k1 was used before"),
    (fresh(t44=None), "j", 380, "5", "a limit order needs a Price (44)"),
    (sent("AE", "ALFA", 2, []), "j", 380, "3", "only NewOrderSingle (D)"),
    (sent("D", "OMEGA", 2, KNOWN), "j", 380, "6", "OMEGA is not a bank's"),
    (fresh(t38=None), "3", 373, "1", "OrderQty (38) is missing"),
    (fresh(t60=None), "3", 373, "1", "TransactTime (60) is missing"),
    (fresh(t40="Z"), "3", 373, "5", "OrdType (40) is malformed"),
    (fresh(t38="many"), "3", 373, "6", "OrderQty (38) is malformed"),
    (fresh(t44="1,1"), "3", 373, "6", "Price (44) is malformed"),
    (fresh(t58="gr\xfcn"), "3", 373, "6", "not printable ASCII"),
    (sent("D", "ALFA", 2, changed(KNOWN, t11="n1") + [(38, 1000000)]), "3", 373, "13", "OrderQty (38) appears more than once"),
    (request("G", t38=6000000), "9", 102, "2", "a replace can only lower the quantity, and 5000000 was asked for before"),
    (request("G", t38=5000000), "9", 102, "2", "a replace can only lower the quantity"),
    (request("G", t38=1500000), "9", 102, "99", "is not a whole number of lots"),
    (request("G", t38=0), "9", 102, "2", "a replace can't lower the quantity to nothing"),
    (request("G", t44="1.08410"), "9", 102, "2", "a replace can't change the price, which is 1.08420"),
    (request("G", t59=3), "9", 102, "2", "a replace can't change the TimeInForce"),
    (request("G", t40=1, t44=None), "9", 102, "2", "OrdType (40) 1 has no counterpart"),
    (request("G", t54=2), "9", 102, "99", "can't change"),
    (request("G", t41="k9"), "9", 102, "1", "the OrigClOrdID (41) k9 names no order that was accepted"),
    (request("F", t41="k9"), "9", 102, "1", "the OrigClOrdID (41) k9 names no order that was accepted"),
    (request("F", t11="k1"), "9", 102, "6", "the ClOrdID (11) k1 was used before"),
    (request("F", t55="EUR/GBP"), "9", 102, "99", "EUR/GBP is not a pair of the header"),
    (request("F", t41=None), "3", 373, "1", "OrigClOrdID (41) is missing"),
]
GARBLED = [
    (fresh().replace(b"9=1", b"9=2", 1), "no CheckSum (10) stands there"),
    (fresh().replace(b"1.08420", b"1.08421"), "and the bytes add up to"),
    (fresh().replace(b"FIX.4.4", b"FIX.4.2"), "does not begin with 8=FIX.4.4"),
    (fresh()[:-4], "no CheckSum (10) stands there"),
    (b"hello", "does not begin with 8=FIX.4.4"),
    (built([(35, "D"), (49, "ALFA"), (34, 2)]), "the TargetCompID (56) is missing"),
    (built([(35, "D"), (49, "ALFA"), (56, "VENUE")]), "the MsgSeqNum (34) is missing"),
    (built([(34, 1), (35, "D")]), "the third field is not the MsgType (35)"),
]


class Orders(Trial):
    def test_each_refusal(self) -> None:
        """Each stands for itself, behind the order that it may name."""
        first = sent("D", "ALFA", 1, KNOWN)
        for message, kind, tag, reason, words in REFUSALS:
            status, lines, answers, err = self.taken(first, message)
            self.assertEqual((status, err, lines), (1, "", b"ALFA BUY EUR/USD 1.08420 5 DAY\nEND\n"), words)
            self.assertEqual([(answer.kind, answer.get(tag)) for answer in answers], [(kind, reason)], words)
            self.assertIn(words, answers[0].get(58))
            self.assertEqual((answers[0].get(49), answers[0].get(34)), ("VENUE", "1"))

    def taken(self, *messages: bytes) -> tuple[int, bytes, list[Message], str]:
        """What the tool makes of messages, by a call and not a process."""
        session = read_session(io.BytesIO(HEAD))
        list(session.lines())
        desk = Desk(session.header, {bank: bank for bank in session.header.banks}, TIME)
        desk.take_text(b"".join(messages))
        lines = "".join(f"{line}\n" for line in [*desk.lines, "END"]).encode()
        return 1 if desk.answers or desk.told else 0, lines, parsed(b"".join(desk.answers)), "\n".join(desk.told)

    def test_garbled_messages(self) -> None:
        """Bytes that can't be relied on get a line each, and the next message is taken."""
        for message, words in GARBLED:
            status, lines, answers, err = self.taken(sent("D", "ALFA", 1, KNOWN), message, b"\n", sent("D", "BETA", 1, KNOWN))
            self.assertIn(words, err)
            self.assertEqual((status, answers, lines.count(b"\n")), (1, [], 3), words)

    def test_spellings(self) -> None:
        """Prices and quantities that mean the same come out the same; OrigClOrdID may be of any message of the order."""
        for price in ("1.0842", "1.084200000", "01.08420"):
            self.assertEqual(self.taken(fresh(t44=price, t38="5000000.00", t59=0))[1], b"ALFA BUY EUR/USD 1.08420 5 DAY\nEND\n")
        messages = [sent("D", "ALFA", 1, KNOWN), request("G", t38=4000000), request("G", t11="r2", t41="r1"), request("F", t11="r3", t41="r1")]
        told = b"ALFA BUY EUR/USD 1.08420 5 DAY\nALFA REDUCE EUR/USD 1 4\nALFA REDUCE EUR/USD 1 3\nALFA CANCEL EUR/USD 1\nEND\n"
        self.assertEqual(self.taken(*messages), (0, told, [], ""))

    def test_files(self) -> None:
        """The whole way by the command line, with another name for a bank; what is there is not touched."""
        names = self.file("names", b"# desks\nDESK-1 ALFA\nDESK-2 ALFA\n")
        text = sent("D", "DESK-1", 1, KNOWN) + sent("D", "DESK-2", 1, KNOWN) + sent("D", "ALFA", 1, KNOWN) + b"\nhello\n"
        words = ("orders", self.file("head", HEAD), self.file("in", text), "--banks", names, "--table", f"{self.folder}/t", "--answers", f"{self.folder}/a")
        status, out, err = ran("fix", *words)
        self.assertEqual((status, out.encode()), (1, HEAD + 2 * b"ALFA BUY EUR/USD 1.08420 5 DAY\n" + b"END\n"))
        self.assertEqual(err.count("\n"), 1)
        rows = list(csv.DictReader(io.StringIO(read(f"{self.folder}/t").decode())))
        self.assertEqual([(row["sender"], row["command"], row["answer"]) for row in rows], [("DESK-1", "1", ""), ("DESK-2", "2", ""), ("ALFA", "0", "j")])
        self.assertEqual(ran("fix", *words)[0], 5)

    def test_pipes_without_the_option(self) -> None:
        """Messages for people, which --pipes reads, are told as that."""
        status, out, err = ran("fix", "orders", f"{HERE}/examples/first.fx", f"{HERE}/examples/orders.fix")
        self.assertEqual((status, out), (2, ""))
        self.assertIn("--pipes reads it", err)

    def test_words_and_unreadable_texts(self) -> None:
        head = self.file("head", HEAD)
        bad = self.file("bad", b"FXBOOK 3\n")
        wrong = (("orders", head), ("orders", head, f"{self.folder}/none"), ("orders", bad, "-"), ("orders", "-", "-"), ("else", head, "-"),
                 ("orders", head, "-", "--time", "now"), ("reports", head, MORNING[1]), ("reports", head, "-", "--table", "x"), ("orders", head, "-", "--banks", head))
        for words in wrong:
            status, _, err = ran("fix", *words, text=b"")
            self.assertEqual((status, err.count("\n")), (2, 1), words)
        self.assertEqual(ran("fix", "--help")[0], 0)


class Day:
    """A made day of a generated session as FIX messages: its orders, cancels and reduces, where these name an own order that stands."""

    def __init__(self, text: bytes, seed: int):
        self.rng, self.sent, self.orders, self.messages = random.Random(seed), defaultdict(int), defaultdict(list), []
        self.head, _, behind = text.partition(b"START\n")
        for place, line in enumerate(behind.decode().splitlines()):
            self.take(f"m{place}", line.split())

    def take(self, identity: str, fields: list[str]) -> None:
        if len(fields) < 2 or fields[1] not in ("BUY", "SELL", "CANCEL", "PULL", "REDUCE"):
            return
        bank, word = fields[:2]
        mine = self.orders[bank]
        if word in ("BUY", "SELL"):
            life = {"DAY": 0, "IOC": 3, "FOK": 4}[fields[5]]
            plain = [(11, identity), (55, fields[2]), (54, 1 if word == "BUY" else 2), (60, TIME), (38, int(fields[4]) * 1000), (40, 2), (44, fields[3]), (59, life)]
            mine.append(list(plain))
            self.add("D", bank, plain)
        elif mine:
            order = self.rng.choice(mine[-8:])
            changes = {"t11": identity, "t41": dict(order)[11]}
            if word == "CANCEL" or dict(order)[38] == 1000:
                self.add("F", bank, changed(order, **changes, t40=None, t44=None, t59=None))
            else:
                self.add("G", bank, changed(order, **changes, t38=self.rng.randrange(1, dict(order)[38] // 1000) * 1000))
                order[4] = (38, dict(self.messages[-1][2])[38])

    def add(self, kind: str, bank: str, fields: list[tuple[int, object]]) -> None:
        self.sent[bank] += 1
        self.messages.append((kind, bank, fields))

    def text(self) -> bytes:
        count: dict[str, int] = defaultdict(int)
        parts = []
        for kind, bank, fields in self.messages:
            count[bank] += 1
            parts.append(sent(kind, bank, count[bank], fields))
        return b"".join(parts)


@needs_program
class RoundTrips(Trial):
    def reports_of(self, day: Day, output_of=lambda session: program("serial", session)[1]) -> tuple[bytes, list[Message]]:
        """The output of a day, and its reports."""
        table = f"{self.folder}/table{random.random()}"
        words = ("--table", table, "--time", TIME, "--program", PROGRAM)
        status, session, err = ran("fix", "orders", self.file("head", day.head + b"START\n"), self.file("day.fix", day.text()), *words)
        self.assertEqual((status, err), (0, ""))
        output = output_of(session.encode())
        status, out, err = ran("fix", "reports", table, self.file("out", output), "--time", TIME)
        self.assertEqual((status, err), (0, ""))
        return output, parsed(out.encode())

    def test_generated_days(self) -> None:
        self.replaced: list[tuple[bool, bool]] = []
        for seed, kind in ((1, "mixed"), (2, "thick"), (3, "orders"), (4, "mixed")):
            day = Day(made(5, 3, 400, kind, seed), seed)
            output, reports = self.reports_of(day)
            self.check_answers(day, reports)
            self.check_orders(day, reports)
            self.check_replaces(day, reports)
            self.check_fills(output, reports)
        self.assertGreaterEqual(set(self.replaced), {(False, True), (True, True)})

    def check_answers(self, day: Day, reports: list[Message]) -> None:
        """Each message is answered by name, sequence numbers have no gap, and no ExecID stands twice."""
        answered = {(each.get(56), each.get(11)) for each in reports}
        self.assertGreaterEqual(answered, {(bank, dict(fields)[11]) for _, bank, fields in day.messages})
        for bank in day.sent:
            numbers = [int(each.get(34)) for each in reports if each.get(56) == bank]
            self.assertEqual(numbers, list(range(1, len(numbers) + 1)))
        executions = [each.get(17) for each in reports if each.kind == "8"]
        self.assertEqual(len(set(executions)), len(executions))

    def check_orders(self, day: Day, reports: list[Message]) -> None:
        """The reports of each order add up, one after the other."""
        lives = {(bank, dict(fields)[11]): dict(fields)[59] for kind, bank, fields in day.messages if kind == "D"}
        by_order = defaultdict(list)
        for each in reports:
            if each.kind == "8":
                by_order[each.get(37)].append(each)
        for told in by_order.values():
            self.assertEqual((told[0].get(150), told[0].get(39)), ("0", "0"))
            self.check_order(told)
            if lives[told[0].get(56), told[0].get(11)] in (3, 4):
                self.assertIn(told[-1].get(39), ("2", "4"))

    def check_replaces(self, day: Day, reports: list[Message]) -> None:
        """A replace that comes through has the OrderQty that was asked for, or what was filled, where that is more."""
        asked = {(bank, dict(fields)[11]): dict(fields)[38] for kind, bank, fields in day.messages if kind == "G"}
        replaced = [each for each in reports if each.get(150) == "5"]
        for each in replaced:
            self.assertEqual(int(each.get(38)), max(asked[each.get(56), each.get(11)], int(each.get(14))))
            self.assertIsNone(each.get(58))
        self.replaced += [(each.get(14) != "0", each.get(151) != "0") for each in replaced]

    def check_order(self, told: list[Message]) -> None:
        filled, value = 0, Fraction(0)
        for each in told:
            kind, status = each.get(150), each.get(39)
            if kind == "F":
                filled += int(each.get(32))
                value += int(each.get(32)) * Fraction(each.get(31))
                self.assertEqual(Fraction(each.get(381)), int(each.get(32)) * Fraction(each.get(31)))
            quantity, left = int(each.get(38)), int(each.get(151))
            self.assertEqual(int(each.get(14)), filled)
            self.assertEqual(left, 0 if kind == "4" else quantity - filled)
            self.assertLessEqual(abs(Fraction(each.get(6)) * filled - value), Fraction(filled, 10**6))
            wanted = {"0": "0", "4": "4", "5": "2" if not left else "1" if filled else "0", "F": "1" if left else "2"}
            self.assertEqual(status, wanted[kind])

    def check_fills(self, output: bytes, reports: list[Message]) -> None:
        """Each fill's notice is one report, with its amounts, the other bank and the price; each two reports of a fill are one fill."""
        notices = [line.split() for line in output.decode().splitlines() if line.split()[1:2] == ["FILL"]]
        fills = [each for each in reports if each.get(150) == "F"]
        self.assertEqual([(note[6], note[7], note[8]) for note in notices], [(each.get(31), each.get(448), each.get(32)) for each in fills])
        sides = [sum(int(each.get(32)) for each in fills if each.get(54) == side) for side in "12"]
        self.assertEqual(sides[0], sides[1])
        self.assertTrue(fills)

    def test_endings(self) -> None:
        """Killed, partly filled and dropped, replaced after a fill, cancelled twice; and a session that is cut off answers all."""
        head = HEAD
        plain = changed(KNOWN, t54=2)
        day = Day(head, 0)
        for kind, bank, fields in (
            ("D", "BETA", changed(plain, t11="s1", t59=0)),
            ("D", "ALFA", changed(KNOWN, t11="f1", t38=6000000, t59=4)),
            ("D", "ALFA", changed(KNOWN, t11="f2", t38=1000000, t59=4)),
            ("G", "BETA", changed(plain, t11="s2", t41="s1", t38=2000000)),
            ("D", "ALFA", changed(KNOWN, t11="i1", t38=4000000, t59=3)),
            ("F", "BETA", changed(plain, t11="s3", t41="s2", t40=None, t44=None)),
        ):
            day.add(kind, bank, fields)
        _, reports = self.reports_of(day)
        told = [(each.get(56), each.get(11), each.kind, each.get(150) or each.get(102), each.get(39), each.get(38), each.get(151), each.get(14)) for each in reports]
        self.assertEqual([each[1:] for each in told if each[0] == "ALFA"], [
            ("f1", "8", "0", "0", "6000000", "6000000", "0"), ("f1", "8", "4", "4", "6000000", "0", "0"),
            ("f2", "8", "0", "0", "1000000", "1000000", "0"), ("f2", "8", "F", "2", "1000000", "0", "1000000"),
            ("i1", "8", "0", "0", "4000000", "4000000", "0"), ("i1", "8", "F", "1", "4000000", "3000000", "1000000"), ("i1", "8", "4", "4", "4000000", "0", "1000000")])
        self.assertEqual([each[1:] for each in told if each[0] == "BETA"], [
            ("s1", "8", "0", "0", "5000000", "5000000", "0"), ("s1", "8", "F", "1", "5000000", "4000000", "1000000"), ("s2", "8", "5", "1", "2000000", "1000000", "1000000"),
            ("s2", "8", "F", "2", "2000000", "0", "2000000"), ("s3", "9", "0", "2", None, None, None)])

    def filled_before_a_replace(self, quantity: int) -> Day:
        """BETA sells 5 lots, ALFA takes 2 of them, and BETA replaces its order."""
        day, sale = Day(HEAD, 0), changed(KNOWN, t54=2)
        day.add("D", "BETA", changed(sale, t11="s1"))
        day.add("D", "ALFA", changed(KNOWN, t11="b1", t38=2000000))
        day.add("G", "BETA", changed(sale, t11="s2", t41="s1", t38=quantity))
        return day

    def test_a_replace_counts_what_was_filled(self) -> None:
        """OrderQty is all of the order: what is left is it less what was filled, and nothing where it is no more."""
        for quantity, told in ((4, ("5", "1", "4000000", "2000000")), (3, ("5", "1", "3000000", "1000000")), (2, ("5", "2", "2000000", "0")), (1, ("5", "2", "2000000", "0"))):
            _, reports = self.reports_of(self.filled_before_a_replace(1000000 * quantity))
            self.assertEqual([(each.get(150), each.get(39), each.get(38), each.get(151)) for each in reports if each.get(11) == "s2"], [told])

    def test_what_was_filled_is_not_known(self) -> None:
        """Without the program such a replace is refused in words, and what builds on it too; one of an order that none crossed is taken."""
        day, sale = self.filled_before_a_replace(3000000), changed(KNOWN, t54=2)
        day.add("F", "BETA", changed(sale, t11="s3", t41="s2", t40=None, t44=None))
        day.add("D", "ALFA", changed(KNOWN, t11="b2", t44="1.08410"))
        day.add("G", "ALFA", changed(KNOWN, t11="b3", t41="b2", t44="1.08410", t38=2000000))
        status, session, err = ran("fix", "orders", self.file("head", HEAD), self.file("day.fix", day.text()), "--program", f"{self.folder}/none")
        lines = session.partition("START\n")[2].splitlines()
        self.assertEqual((status, lines[2:]), (1, ["ALFA BUY EUR/USD 1.08410 5 DAY", "ALFA REDUCE EUR/USD 2 2", "END"]))
        self.assertIn("58=message 3: OrderQty (38) counts what was filled before, and that can't be told here: ", err)
        self.assertIn("58=message 4: the OrigClOrdID (41) s2 names no order that was accepted", err)

    def test_another_order_of_the_banks(self) -> None:
        """A session that is run in another order than its own leaves another quantity, and the report says so."""
        for quantity, told in ((3, ("5", "0", "1000000", "1000000", "0")), (2, ("4", "4", "0", "0", "0"))):
            def turned(session: bytes) -> bytes:
                head, start, behind = session.partition(b"START\n")
                lines = behind.splitlines(True)
                return program("serial", head + start + b"".join([lines[0], lines[2], lines[1], lines[3]]))[1]

            _, reports = self.reports_of(self.filled_before_a_replace(1000000 * quantity), turned)
            found = next(each for each in reports if each.get(11) == "s2")
            self.assertEqual((found.get(150), found.get(39), found.get(38), found.get(151), found.get(14)), told)
            self.assertIn(f"asked for was {quantity}000000 in all; the session was run in another order", found.get(58))

    def test_a_session_that_was_cut_off(self) -> None:
        day = Day(made(3, 2, 60, "mixed", 5), 5)
        _, reports = self.reports_of(day, lambda session: program("serial", b"".join(session.splitlines(True)[:-20]))[1])
        self.check_answers(day, reports)
        refused = [each for each in reports if each.get(58) == "the session ended before it came to this command"]
        self.assertEqual(len(refused), 19)

    def test_examples(self) -> None:
        """The side table and the output among the examples are those of the messages there."""
        table = f"{self.folder}/table"
        status, session, _ = ran("fix", "orders", f"{HERE}/examples/first.fx", f"{HERE}/examples/orders.fix", "--pipes", "--table", table, "--program", PROGRAM)
        self.assertEqual((status, read(table)), (1, read(f"{HERE}/examples/orders.csv")))
        self.assertEqual(program("serial", session.encode())[1], read(f"{HERE}/examples/orders.out"))

    def test_another_session(self) -> None:
        table = f"{self.folder}/table"
        status, _, _ = ran("fix", "orders", self.file("head", HEAD), "-", "--table", table, text=sent("D", "ALFA", 1, KNOWN))
        self.assertEqual(status, 0)
        status, _, err = ran("fix", "reports", table, MORNING[1])
        self.assertEqual((status, err.count("\n")), (3, 1))
