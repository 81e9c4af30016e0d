"""Trials of tools/feed."""
import os
import random
import signal
import subprocess
import sys
import time

from reading.session import FIELD, LONGEST_LINE

from .common import HERE, MORNING, Trial, faulty, made, needs_program, program, ran, read, takes_stops

FIRST = f"{HERE}/examples/first.fx"
ROUND = 1 << 16
SHOW = b"ALFA SHOW BETA\n"
TOOL = sys.executable, f"{HERE}/tools/feed"


class Running:
    """A feeder that runs, with pipes on all sides."""

    def __init__(self, *words: str):
        self.run = subprocess.Popen(
            [*TOOL, *words], stdin=subprocess.PIPE, stdout=subprocess.PIPE, stderr=subprocess.PIPE, bufsize=0, preexec_fn=takes_stops
        )

    def send(self, text: bytes) -> None:
        self.run.stdin.write(text)

    def got(self, count: int) -> bytes:
        """The next bytes that it passes on; fewer where it has ended."""
        text = b""
        while len(text) < count and (piece := self.run.stdout.read(count - len(text))):
            text += piece
        return text

    def rest(self) -> tuple[int, bytes, str]:
        """Closes its input, and answers its status and what it still wrote on its two outputs."""
        self.run.stdin.close()
        out, err = self.run.stdout.read(), self.run.stderr.read().decode()
        self.run.stdout.close()
        self.run.stderr.close()
        return self.run.wait(300), out, err


def fed(text: bytes, *words: str) -> tuple[int, bytes, str]:
    """What it makes of a text that is there at once."""
    run = subprocess.run([*TOOL, *words], input=text, capture_output=True, timeout=300)
    return run.returncode, run.stdout, run.stderr.decode()


def halting(text: bytes, seed: int) -> bytes:
    """What it makes of a text whose first line comes, and then the rest in pieces, some of them cut in a line, with a pause behind each."""
    rng = random.Random(seed)
    first = text.find(b"\n") + 1
    ends = sorted(rng.sample(range(first, len(text)), 6)) + [len(text)]
    run = Running("--pause", "10")
    run.send(text[:first])
    padded = run.got(first)
    os.set_blocking(run.run.stdout.fileno(), False)
    for start, behind in zip([first, *ends], ends):
        try:
            run.send(text[start:behind])
        except BrokenPipeError:  # Behind an END line it takes no more.
            break
        until = time.monotonic() + 0.05
        while time.monotonic() < until:
            padded += run.run.stdout.read() or b""
            time.sleep(0.002)
    os.set_blocking(run.run.stdout.fileno(), True)
    return padded + run.rest()[1]


class Feed(Trial):
    def padded(self, text: bytes) -> None:
        """A text is lines that the program ignores."""
        lines = text.split(b"\n")
        self.assertEqual(lines.pop(), b"")
        for line in lines:
            self.assertTrue(len(line) <= LONGEST_LINE and (not FIELD.findall(line) or line.startswith(b"#")), line)

    def test_without_a_pause(self) -> None:
        """A text that comes at once is passed on as it is, up to its END line; the rest without a line feed too, but not all of a long line."""
        for path in (FIRST, MORNING[0]):
            self.assertEqual(fed(read(path), "--pause", "60000"), (0, read(path), ""))
        text = read(FIRST).removesuffix(b"END\n")
        for rest in (b"", b"END", b"ALFA SH", b"  END \r\n", b"#" * 257 + b"\nEND\n"):
            self.assertEqual(fed(text + rest, "--pause", "60000"), (0, text + rest, ""))
        self.assertEqual(fed(text + b"END\nEND\nmore", "--pause", "60000"), (0, text + b"END\n", ""))
        self.assertEqual(fed(text + b"x" * 100000 + b"\nEND\n", "--pause", "60000"), (0, text + b"x" * 258 + b"\nEND\n", ""))

    def test_a_pause(self) -> None:
        """Behind a line and a pause its round is filled up; a pause without a new line adds nothing."""
        run = Running("--pause", "30")
        head = read(FIRST).removesuffix(b"END\n")
        run.send(head)
        text = run.got(ROUND)
        self.assertEqual((len(text), text[: len(head)]), (ROUND, head))
        self.padded(text[len(head) :])
        time.sleep(0.1)
        run.send(b"# a comment waits for nothing\n\n")
        time.sleep(0.1)
        run.send(SHOW)
        text = run.got(ROUND)
        self.padded(text.replace(SHOW, b"", 1))
        run.send(SHOW + b"END\nmore\n")
        self.assertEqual(run.rest(), (0, SHOW + b"END\n", ""))

    def test_any_length(self) -> None:
        """The last byte of a round is a line feed, however few bytes are left of it."""
        head = read(FIRST).removesuffix(b"END\n")
        for left in (1, 2, 3, 63, 64, 65, 66, 257, 258):
            run = Running("--pause", "5")
            before = head + (b"#" * 63 + b"\n") * 1100
            before = before[: ROUND - left - 2 - len(SHOW)] + b"\n\n" + SHOW
            run.send(before)
            text = run.got(ROUND)
            self.assertEqual((len(text), text[: len(before)]), (ROUND, before), left)
            self.padded(text[len(before) :])
            self.assertEqual(run.rest(), (0, b"", ""))

    def test_where_nothing_may_be_added(self) -> None:
        """Up to START, and between the parts of a line, nothing is sent but what came."""
        head, start, commands = read(FIRST).partition(b"START\n")
        run = Running("--pause", "5")
        run.send(head)
        self.assertEqual(run.got(len(head)), head)
        time.sleep(0.1)
        run.send(start + b"ALFA SH")
        text = run.got(ROUND - len(head))
        self.assertTrue(text.startswith(start))
        self.padded(text.removeprefix(start))
        time.sleep(0.1)
        run.send(b"OW BETA\nEND")
        text = run.got(ROUND)
        self.assertTrue(text.startswith(SHOW))
        self.padded(text.removeprefix(SHOW))
        self.assertEqual(run.rest(), (0, b"END", ""))

    def test_command_lines_alone(self) -> None:
        """Input without a header is filled up from its first line on; a fault of a header too."""
        for text in (SHOW, b"# hello\n" + SHOW, b"nobody\n", b"FXBOOK 1\nBANK A\n", b"FXBOOK 3\n"):
            run = Running("--pause", "5")
            run.send(text)
            self.assertEqual(run.got(ROUND)[: len(text)], text)
            self.assertEqual(run.rest(), (0, b"", ""))

    def test_lines_that_keep_coming(self) -> None:
        """A line waits no longer than it may, although others keep coming."""
        run = Running("--pause", "60000", "--longest", "50")
        os.set_blocking(run.run.stdout.fileno(), False)
        until, passed = time.monotonic() + 60, 0
        while passed < ROUND and time.monotonic() < until:
            run.send(SHOW)
            time.sleep(0.005)
            passed += len(run.run.stdout.read() or b"")
        self.assertGreaterEqual(passed, ROUND)
        self.assertEqual(run.rest()[0], 0)

    def test_the_limit(self) -> None:
        """END is sent before it, where a round can't be filled up or no line has room; what is not passed on is not read either."""
        run = Running("--pause", "5", "--most", str(3 * ROUND))
        for _ in range(2):
            run.send(SHOW)
            run.got(ROUND)
        run.send(SHOW)
        self.assertEqual(run.got(ROUND), SHOW + b"END\n")
        self.assertEqual(run.rest(), (1, b"", f"feed: the limit of {3 * ROUND} bytes is near, so END was sent behind 3 lines; the rest of the input is not read\n"))
        lines = [b"ALFA SHOW BETA %s\n" % (b"x" * (number % 300)) for number in range(3000)]
        path, told, status = self.file("lines", b"".join(lines)), b"", 1
        with open(path, "rb") as source:
            while status == 1:
                ended = subprocess.run([*TOOL, "--most", str(ROUND)], stdin=source, capture_output=True, timeout=300)
                status, out = ended.returncode, ended.stdout
                self.assertEqual((len(out) <= ROUND, out.endswith(b"\nEND\n")), (True, status == 1))
                told += out.removesuffix(b"END\n") if status else out
        self.assertEqual((status, told), (0, b"".join(line[:-1][:258] + b"\n" for line in lines)))
        self.assertEqual(fed(b"FXBOOK 1\n" + b"#\n" * 40000, "--most", str(ROUND))[::2], (2, "feed: no START came in the first 65275 bytes; nothing more is passed on\n"))

    def test_the_end_near_a_line(self) -> None:
        """Where END is due between the parts of a line it waits for the rest of the line."""
        run = Running("--pause", "5", "--most", str(ROUND))
        run.send(SHOW + SHOW[:5])
        self.assertEqual(run.got(len(SHOW)), SHOW)
        time.sleep(0.1)
        run.send(SHOW[5:])
        self.assertEqual(run.got(ROUND), SHOW + b"END\n")
        self.assertEqual(run.rest()[0], 1)

    def test_words_and_streams(self) -> None:
        self.assertEqual(ran("feed", "--help")[0], 0)
        for words in (("more",), ("--pause", "0"), ("--pause", "x"), ("--longest", "01"), ("--most", "65535"), ("--most", "67108865")):
            status, out, err = ran("feed", *words, text=b"")
            self.assertEqual((status, out, err.count("\n")), (2, "", 1), words)
        with open(MORNING[0], "rb") as source, open("/dev/full", "wb") as full:
            ended = subprocess.run(TOOL, stdin=source, stdout=full, stderr=subprocess.PIPE)
        self.assertEqual((ended.returncode, ended.stderr.count(b"\n")), (5, 1))
        with open("/dev/null", "wb") as nothing:
            ended = subprocess.run(TOOL, stdin=nothing, capture_output=True)
        self.assertEqual((ended.returncode, ended.stdout, ended.stderr), (2, b"", b"feed: standard input can't be read: Bad file descriptor\n"))

    def test_stops(self) -> None:
        """It ends at once where the program has ended, without a further line; and by a signal, with its status."""
        run = Running()
        run.run.stdout.close()
        self.assertEqual((run.run.wait(300), run.run.stderr.read()), (141, b""))
        run.run.stdin.close()
        run.run.stderr.close()
        for number, status in ((signal.SIGINT, 130), (signal.SIGTERM, 143), (signal.SIGHUP, 129)):
            run = Running("--pause", "5")
            run.send(SHOW)
            self.assertEqual(len(run.got(ROUND)), ROUND)
            run.run.send_signal(number)
            self.assertEqual((run.run.wait(300), run.rest()[1]), (status, b""))


@needs_program
class AgainstProgram(Trial):
    def test_the_program_says_the_same(self) -> None:
        """Of the padded session as of the plain one: output, standard error and status, also where the header has a fault."""
        for seed in (1, 2, 3, 6):
            text = faulty(seed, 200)
            padded = halting(text, seed)
            self.assertEqual(program("serial", padded), program("serial", text), seed)
        text = made(4, 2, 200, "mixed", 1)
        padded = halting(text, 7)
        self.assertGreater(len(padded), len(text))
        self.assertEqual(program("serial", padded), program("serial", text))
