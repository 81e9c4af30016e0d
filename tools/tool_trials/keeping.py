"""Trials of tools/kept, of the reader of journal files, and of the words `keep` and `restart`."""
import os
import random
import re
import signal
import subprocess
import sys
import tempfile
import time

from reading.journal import read_journal

from .common import HERE, MORNING, PROGRAM, Trial, faulty, needs_program, program, ran, read

# How long a trial waits for something that has to come, in seconds.
PATIENCE = 120


def journal_of(output: bytes, seed: int = 0) -> bytes:
    """A journal file of an output's header and journal, with its commands in blocks of any lengths."""
    head, _, behind = output.partition(b"JOURNAL ")
    count, _, lines = behind.partition(b"\n")
    entries = lines.split(b"\n")[: int(count)]
    rng, bodies, at = random.Random(seed), [head], 0
    while at < len(entries):
        size = rng.randrange(1, 20)
        bodies.append(b"".join(line + b"\n" for line in entries[at : at + size]))
        at += size
    return b"".join(b"\1" + len(body).to_bytes(8, "big") + body for body in bodies) + b"\0"


class Kept(Trial):
    def test_the_morning(self) -> None:
        """The session of a journal is its header, its commands in the order of the history, and END."""
        output = read(MORNING[1])
        status, out, err = ran("kept", self.file("fx.journal", journal_of(output)))
        head, _, behind = output.partition(b"JOURNAL 20\n")
        commands = b"\n".join(behind.split(b"\n")[:20]).replace(b"DELT BAD 3", b"DELT PULL no/pair")
        self.assertEqual((status, out.encode(), err), (0, head + commands + b"\nEND\n", ""))

    def test_whole_blocks(self) -> None:
        """A block counts where its gate is open, and body and next gate are there; what follows the last one does not count."""
        file = journal_of(read(MORNING[1]), 1)
        places = read_journal(file).places
        self.assertEqual((file[places[-1][1] :], read_journal(file).behind()), (b"\0", 0))
        for size in range(len(file)):
            whole = [place for place in places if place[1] < size]
            self.assertEqual(read_journal(file[:size]).places, whole)
        for gate in (0, 2, 255):
            closed = bytearray(file)
            closed[places[0][1]] = gate
            journal = read_journal(bytes(closed))
            self.assertEqual((journal.places, journal.behind()), (places[:1], len(file) - places[0][1] - 1))
        status, out, _ = ran("kept", "--count", self.file("fx.journal", file + b"torn"))
        self.assertEqual((status, out), (0, f"{len(places)} blocks, 20 commands, {len(file) + 4} bytes, of which 4 behind the last block do not count\n"))

    def test_no_whole_block_and_damaged_ones(self) -> None:
        output = read(MORNING[1])
        file = journal_of(output)
        place = next(place for place in read_journal(file).places if b"DELT BAD 3" in file[slice(*place)])
        gate, line = place[0] - 9, file[place[0] : file.index(b"DELT BAD 3")].count(b"\n") + 1
        for text, told in (
            (b"", "has no whole block"),
            (b"\0", "has no whole block"),
            (b"\1\0\0", "has no whole block"),
            (b"\1" + b"\xff" * 8 + b"FXBOOK 1\n", "has no whole block"),
            (b"\1" + bytes(8) + b"\0", "block 0, which begins at byte 0, is damaged: it has no START line"),
            (file.replace(b"FXBOOK 1", b"GXBOOK 1"), "is damaged: line 1 is none of a header"),
            (file.replace(b"START\n", b"START "), "block 0, which"),
            (file.replace(b"PAIR USD/JPY", b"START \nUSD/J", 1), "block 0, which"),
            (file.replace(b"DELT BAD 3", b"DELT BAD 0"), f"which begins at byte {gate}, is damaged: line {line} is no command of a sender"),
            (file.replace(b"DELT BAD 3", b"DELTA BAD "), "is no command of a sender"),
            (file.replace(b"DELT BAD 3\n", b"DELT BAD 3 "), "is damaged"),
        ):
            status, out, err = ran("kept", self.file("fx.journal", text))
            self.assertEqual((status, out, err.count("\n"), told in err), (1, "", 1, True), (told, err))

    def test_what_was_told(self) -> None:
        """What the words print is no output, and the tools on outputs say what to do."""
        for half in ("first", "second"):
            status, out, err = ran("compare", f"{HERE}/examples/kept-{half}.out", MORNING[1])
            self.assertEqual((status, out, "kept-" in err and "tools/kept fx.journal | ./fx serial makes one" in err), (2, "", True), err)

    def test_words(self) -> None:
        for words in ((), ("a", "b"), (f"{self.folder}/none",), (self.folder,)):
            status, out, err = ran("kept", *words)
            self.assertEqual((status, out, err.count("\n")), (2, "", 1), words)
        self.assertEqual(ran("kept", "--help")[0], 0)


@needs_program
class AgainstProgram(Trial):
    def test_sessions_with_faults(self) -> None:
        """The session of a journal has the output from which the journal was made, but for strays and ending; each fault stands in it."""
        told = set()
        for seed in (1, 2, 4, 5, 7):
            output = program("serial", faulty(seed, 2000))[1]
            status, session, err = ran("kept", self.file("fx.journal", journal_of(output, seed)))
            self.assertEqual((status, err), (0, ""))
            again = program("serial", session.encode())
            self.assertEqual((again[0], again[1].rpartition(b"\nSTRAYS ")[0]), (0, output.rpartition(b"\nSTRAYS ")[0]), seed)
            told |= {line.split()[2] for line in output.split(b"\n") if line.split()[1:2] == [b"BAD"]}
        self.assertEqual(told, {b"%d" % fault for fault in range(1, 13)})


def keeps() -> bool:
    """Whether the program at hand has the words `keep` and `restart`."""
    with tempfile.TemporaryDirectory() as folder:
        return subprocess.run([PROGRAM, "keep"], stdin=subprocess.DEVNULL, capture_output=True, cwd=folder).returncode != 1


@needs_program
class KeptDay(Trial):
    """The words `keep` and `restart`, in a folder of each trial's own."""

    def setUp(self) -> None:
        super().setUp()
        if not keeps():
            self.skipTest("the program at hand is another one, that has not the word keep")
        self.journal = f"{self.folder}/fx.journal"

    def run_word(self, word: str, text: bytes) -> tuple[int, bytes, bytes]:
        run = subprocess.run([PROGRAM, word], input=text, capture_output=True, cwd=self.folder, timeout=300)
        return run.returncode, run.stdout, run.stderr

    def test_two_halves(self) -> None:
        """The example's two halves give its two outputs; the session of the journal has one that is right, and that has these notices."""
        first, second = (read(f"{HERE}/examples/kept-{half}.fx") for half in ("first", "second"))
        told = [read(f"{HERE}/examples/kept-{half}.out") for half in ("first", "second")]
        self.assertEqual(self.run_word("restart", second), (13, b"", b"journal empty\n"))
        self.assertEqual(self.run_word("keep", first), (0, told[0], b""))
        before = read(self.journal)
        self.assertEqual(self.run_word("keep", first), (12, b"", b"journal exists\n"))
        self.assertEqual((self.run_word("restart", second), read(self.journal)[: len(before) - 1]), ((0, told[1], b""), before[:-1]))
        books = told[1][told[1].index(b"BOOKS\n") :]
        self.assertEqual(self.run_word("restart", b"END\n"), (0, books, b""))
        output = program("serial", ran("kept", self.journal)[1].encode())[1]
        self.assertEqual((program("check", output)[1], output[output.index(b"BOOKS\n") :]), (b"YES\n", books))
        notices = [line.partition(b" ") for text in told for line in text.partition(b"BOOKS\n")[0].splitlines()]
        for bank in (b"ALFA", b"BETA", b"GAMA"):
            desk = [notice for name, _, notice in notices if name == bank]
            self.assertIn(b"\n".join([b"\nDESK %b %d" % (bank, len(desk)), *desk, b""]), output)

    def test_damaged_and_torn_files(self) -> None:
        """The block that the program calls damaged is the one that tools/kept names, and a 0 at its place ends the journal there."""
        first, second = (read(f"{HERE}/examples/kept-{half}.fx") for half in ("first", "second"))
        self.run_word("keep", first)
        self.run_word("restart", second)
        whole = read(self.journal)
        for block, (start, _) in enumerate(read_journal(whole).places):
            self.file("fx.journal", whole[:start] + b"#" * block + b"?" + whole[start + 1 + block :])
            self.assertEqual(self.run_word("restart", b"END\n"), (10, b"", b"journal block %d damaged\n" % block))
            place = int(re.search(rf"block {block}, which begins at byte (\d+), is damaged", ran("kept", self.journal)[2])[1])
            self.file("fx.journal", read(self.journal)[:place] + b"\0" + read(self.journal)[place + 1 :])
            self.assertEqual(self.run_word("restart", b"END\n")[0], 0 if block else 13)
        self.file("fx.journal", whole + b"torn")
        self.assertEqual(self.run_word("restart", b"END\n")[0], 0)

    def test_one_process_at_a_time(self) -> None:
        """While one has the file another ends with status 11; the first one goes on, and a kill lets go of the lock."""
        first = read(f"{HERE}/examples/kept-first.fx").removesuffix(b"END\n")
        holder = subprocess.Popen([PROGRAM, "keep"], stdin=subprocess.PIPE, stdout=subprocess.PIPE, cwd=self.folder)
        holder.stdin.write(first + b"#" * (65535 - len(first)) + b"\n")
        holder.stdin.flush()
        self.assertEqual(holder.stdout.readline(), b"GAMA 1 REPLY 1 ORDERED 0 3\n")
        for word in ("keep", "restart"):
            self.assertEqual(self.run_word(word, b"END\n"), (11, b"", b"disk failed\n"))
        holder.kill()
        holder.communicate()
        self.assertEqual(self.run_word("restart", b"END\n")[0], 0)

    def test_an_output_that_nobody_takes(self) -> None:
        """At a full standard output the round is kept, and the next call goes on behind it."""
        with open("/dev/full", "wb") as full:
            run = subprocess.run([PROGRAM, "keep"], input=read(f"{HERE}/examples/kept-first.fx"), stdout=full, stderr=subprocess.PIPE, cwd=self.folder)
        self.assertEqual((run.returncode, run.stderr), (5, b"write failed\n"))
        self.assertEqual(self.run_word("restart", read(f"{HERE}/examples/kept-second.fx"))[1], read(f"{HERE}/examples/kept-second.out"))

    def test_the_loop_of_the_page(self) -> None:
        """Lines that come one by one are answered, and the loop of docs/JOURNAL.md goes on where the feeder ends a call."""
        loop = re.search(r"^```\n(mkfifo lines\n.*?)^```$", read(f"{HERE}/docs/JOURNAL.md").decode(), re.M | re.S)[1]
        os.mkdir(f"{self.folder}/tools")
        self.file("tools/feed", f"#!/bin/sh\nexec {sys.executable} {HERE}/tools/feed --pause 20 --most 131072\n".encode())
        os.chmod(f"{self.folder}/tools/feed", 0o755)
        os.symlink(os.path.abspath(PROGRAM), f"{self.folder}/fx_cli")
        known = {**os.environ, "PATH": f"{self.folder}:{os.environ['PATH']}"}
        shell = subprocess.Popen(["bash", "-c", loop], cwd=self.folder, stderr=subprocess.DEVNULL, env=known, start_new_session=True)
        self.addCleanup(shell.wait)
        self.addCleanup(lambda: shell.poll() is None and os.killpg(shell.pid, signal.SIGKILL))
        wait_for(lambda: os.path.exists(f"{self.folder}/lines"))
        lines = read(f"{HERE}/examples/kept-first.fx").removesuffix(b"END\n").partition(b"START\n")
        with open(f"{self.folder}/lines", "wb", buffering=0) as out:
            out.write(lines[0] + lines[1])
            for number in range(1, 6):
                out.write(b"ALFA SHOW GAMA\n")
                wait_for(lambda: b"ALFA %d REPLY %d SHOWN 600 0 600\n" % (number, number) in self.told())
            out.write(b"END\n")
        self.assertEqual(shell.wait(PATIENCE), 0)
        self.assertGreater(self.told().count(b"\nEND\n"), 1)
        self.assertEqual(ran("kept", "--count", self.journal)[1].split(", ")[1], "5 commands")

    def told(self) -> bytes:
        return read(f"{self.folder}/told.txt") if os.path.exists(f"{self.folder}/told.txt") else b""


def wait_for(is_there) -> None:
    """Waits until something is there, which has to come."""
    until = time.monotonic() + PATIENCE
    while not is_there():
        if time.monotonic() > until:
            raise AssertionError("it did not come")
        time.sleep(0.01)
