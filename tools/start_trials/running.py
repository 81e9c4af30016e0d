"""Trials of how ./fx runs the program, and the sources where it is not built, with a stand-in for the toolchain."""
import os
import select
import signal
import subprocess
import sys
import time
from collections.abc import Callable

from tool_trials.common import takes_stops

from .common import PATIENCE, STAND_IN, CopyTrial

WAITS = 'echo $$ > "$RT_PID"\nexec sleep 3600\n'
ENDS = "run=ended status={} steps=1\n"


def state_of(process: int) -> str:
    """The letter by which the system tells a process' state; nothing where there is no such process."""
    try:
        with open(f"/proc/{process}/stat", encoding="utf-8") as file:
            return file.read().rpartition(") ")[2][0]
    except (FileNotFoundError, ProcessLookupError):
        return ""


def wait_until(holds: Callable[[], object], what: str) -> None:
    for _ in range(PATIENCE * 20):
        if holds():
            return
        time.sleep(0.05)
    raise AssertionError(f"it never came that {what}")


class Running(CopyTrial):
    def test_a_journal_wants_the_built_program(self) -> None:
        """`keep` and `restart` are not run from the sources; the built program runs them in the current folder."""
        self.put_toolchain("exit 0\n")
        for word in ("keep", "restart"):
            status, out, err = self.fx(word)
            self.assertEqual((status, out, err.count("\n"), f"{word} is left to the proved program" in err), (75, b"", 1, True), err)
        self.put_program(b"#!/bin/sh\npwd\n")
        run = subprocess.run([sys.executable, f"{self.copy}/fx", "keep"], stdin=subprocess.DEVNULL, capture_output=True, cwd=self.folder)
        self.assertEqual((run.returncode, run.stdout.decode()), (0, f"{os.path.realpath(self.folder)}\n"))

    def started(self, *words: str) -> subprocess.Popen:
        """Starts ./fx over a toolchain that does nothing for an hour."""
        self.put_toolchain(WAITS)
        known = {**self.known(), "RT_PID": f"{self.folder}/pid"}
        run = subprocess.Popen(
            [sys.executable, f"{self.copy}/fx", *words], env=known, stdin=subprocess.DEVNULL, stdout=subprocess.PIPE, stderr=subprocess.PIPE,
            start_new_session=True, preexec_fn=takes_stops,
        )
        self.addCleanup(run.communicate)
        self.addCleanup(run.terminate)  # Not killed: it ends the toolchain.
        return run

    def pid_of_toolchain(self) -> int:
        wait_until(lambda: os.path.exists(f"{self.folder}/pid") and os.path.getsize(f"{self.folder}/pid"), "the toolchain is started")
        with open(f"{self.folder}/pid", encoding="utf-8") as file:
            return int(file.read())

    def test_says_what_it_waits_for(self) -> None:
        """The line comes while the toolchain is still at work."""
        run = self.started("serial")
        ready, _, _ = select.select([run.stderr], [], [], PATIENCE)
        self.assertTrue(ready)
        line = run.stderr.readline().decode()
        for text in ("./fx build", "proves nothing", "25 seconds", "1 MiB", "10 minutes"):
            self.assertIn(text, line)
        self.assertIsNone(run.poll())

    def check_stopped(self, words: tuple[str, ...], whole_group: bool, number: int = signal.SIGINT) -> None:
        run = self.started(*words)
        toolchain = self.pid_of_toolchain()
        wait_until(lambda: state_of(run.pid) == "S", "./fx waits for the toolchain")
        os.killpg(run.pid, number) if whole_group else os.kill(run.pid, number)
        out, err = run.communicate(timeout=PATIENCE)
        self.assertEqual((run.returncode, out), (128 + number, b""), err)
        self.assertNotIn(b"Traceback", err)
        wait_until(lambda: state_of(toolchain) in ("", "Z"), "the toolchain has ended")

    def test_stopped(self) -> None:
        """Ctrl-C, which the whole group gets, and signals to ./fx alone."""
        for words in (("serial",), ("build",)):
            for whole_group, number in ((True, signal.SIGINT), (False, signal.SIGINT), (False, signal.SIGTERM), (False, signal.SIGHUP)):
                with self.subTest(words=words, whole_group=whole_group, number=number):
                    if os.path.exists(f"{self.folder}/pid"):
                        os.remove(f"{self.folder}/pid")
                    self.check_stopped(words, whole_group, number)

    def test_passes_on(self) -> None:
        """What the sources wrote, and their status, without the toolchain's own lines."""
        self.put_toolchain(f"cat\necho input ended before END >&2\nprintf '{ENDS.format(3)}' >&2\n")
        status, out, err = self.fx("serial", text=b"FXBOOK 1\n")
        self.assertEqual((status, out), (3, b"FXBOOK 1\n"))
        self.assertEqual(err.splitlines()[1:], ["input ended before END"])

    def test_gives_up(self) -> None:
        self.put_toolchain(f"head -c 1048576 /dev/zero\nprintf '{ENDS.format(0)}' >&2\n")
        status, out, err = self.fx("serial")
        self.assertEqual((status, out), (75, b""))
        self.assertIn("less than 1 MiB", err)

    def test_without_toolchain(self) -> None:
        status, out, err = self.fx("check")
        self.assertEqual((status, out), (70, b""))
        self.assertIn("rt is not on the PATH", err)

    def test_reads_a_terminal(self) -> None:
        """Who starts a word that reads, and gives it nothing, is told that it waits."""
        self.put_program(STAND_IN)
        here, there = os.openpty()
        self.addCleanup(os.close, here)
        run = subprocess.Popen([sys.executable, f"{self.copy}/fx", "serial"], stdin=there, stdout=subprocess.PIPE, stderr=subprocess.PIPE, env=self.known())
        os.close(there)
        os.write(here, b"x\n\x04")
        out, err = run.communicate(timeout=PATIENCE)
        self.assertEqual((run.returncode, out), (0, b"words serial\nx\n"), err)
        self.assertIn(b"reading the session from the terminal, up to Ctrl-D", err)

    def test_starts_the_program(self) -> None:
        """A program that is newer than all sources is started; with a source that is newer the sources are."""
        self.put_program(STAND_IN)
        self.assertEqual(self.fx("run", "--workers", "2", text=b"x\n"), (0, b"words run --workers 2\nx\n", ""))
        os.utime(self.built, (0, 0))
        self.assertEqual(self.fx("run")[0], 70)
