#!/usr/bin/env python3
"""Runs the program.

  ./fx WORDS..   the program with these words, as ./fx serial < examples/morning.fx. Where the proved program is not built,
                 or a source is newer, the same sources run at once with the toolchain's run-time checks.
  ./fx build     proves and builds the program with all processors; from then on ./fx starts it at once.
  ./fx package   makes a Debian package of the proved program and its pages.
  ./fx help      tells all words, with examples, bounds and exit statuses.

A run with run-time checks passes standard input, output and error and the exit status on byte for byte. What ./fx ends with
itself stands in tools/command/table.py.
"""
import signal
import sys

# Ctrl-C, a kill and a terminal that is closed end the run with its status, without a traceback, and with it what it started.
STOPS = (signal.SIGINT, signal.SIGTERM, signal.SIGHUP)
for number in STOPS:
    if signal.getsignal(number) is not signal.SIG_IGN:
        signal.signal(number, lambda number, _: sys.exit(128 + number))

import contextlib
import os
import re
import subprocess
import tempfile
import time

HERE = os.path.dirname(os.path.realpath(__file__))
sys.path.insert(0, f"{HERE}/tools")
sys.dont_write_bytecode = True
from command.table import GAVE_UP, MOST_BYTES, MOST_MINUTES, NO_PACKAGE, REFUSED, UNPROVED
from command.words import BY_WORD, asks_for_help, fault_of
from sources.crates import read_crates

TOP = "fx_cli"
PROGRAM = f"{HERE}/crates/{TOP}/out/{TOP}"
WRONG_WORDS, WRITE_FAILED = 1, 5


def say(text):
    print(f"fx: {text}", file=sys.stderr, flush=True)


def put(text):
    """Writes to standard output, and answers the exit status: where it can't be written, the program's own."""
    try:
        sys.stdout.buffer.write(text)
        sys.stdout.flush()
        return 0
    except OSError:
        os.dup2(os.open(os.devnull, os.O_WRONLY), sys.stdout.fileno())  # What is still held goes nowhere.
        print("write failed", file=sys.stderr)
        return WRITE_FAILED


def crates():
    """Each crate of the repository with those that it stands on."""
    named = read_crates()
    return {name: [it for it in below if it in named] for name, below in named.items()}


def is_current():
    """Whether the proved program is there and no source that it is made from is newer."""
    if not os.access(PROGRAM, os.X_OK):
        return False
    below, wanted, queue = crates(), {TOP}, [TOP]
    while queue:
        more = set(below[queue.pop()]) - wanted
        wanted |= more
        queue += more
    built = os.path.getmtime(PROGRAM)
    folders = [f"{HERE}/crates/{name}/{part}" for name in wanted for part in ("src", "specs", "proofs")]
    files = [f"{at}/{name}" for folder in folders for at, _, names in os.walk(folder) for name in names]
    return all(os.path.getmtime(file) <= built for file in [f"{HERE}/crates.txt", *files])


@contextlib.contextmanager
def rt(words, **how):
    """A running command of the toolchain, which is ended where this run is stopped. While it starts a stop has to wait."""
    before = signal.pthread_sigmask(signal.SIG_BLOCK, STOPS)
    try:
        run = subprocess.Popen(["rt", *words], preexec_fn=lambda: signal.pthread_sigmask(signal.SIG_SETMASK, before), **how)
    except FileNotFoundError:
        say("the Rattle toolchain's command rt is not on the PATH")
        sys.exit(REFUSED)
    try:
        signal.pthread_sigmask(signal.SIG_SETMASK, before)
        yield run
    finally:
        if run.poll() is None:
            run.terminate()
            run.wait()


def run_checked(words):
    """Runs the sources with run-time checks, and answers the exit status."""
    say(UNPROVED)
    known = {"RT_SECONDS": str(60 * MOST_MINUTES), **os.environ}
    with tempfile.TemporaryFile() as out, tempfile.TemporaryFile() as err:
        with rt(["try", "--", *words], cwd=f"{HERE}/crates/{TOP}", stdout=out, stderr=err, env=known) as run:
            run.wait()
        out.seek(0)
        err.seek(0)
        wrote, said = out.read(), err.read()
    # The toolchain's own lines stand behind what the program wrote on standard error.
    ended = re.search(rb"(?:^(?:interpreter|checked|races): .*\n)*^run=ended status=(\d+) .*\n\Z", said, re.M)
    sys.stderr.buffer.write(said[: ended.start()] if ended else said)
    sys.stderr.flush()
    if ended and len(wrote) < MOST_BYTES:
        return put(wrote) or int(ended[1])
    if ended or b"\nrun=no-answer" in said:
        say(f"the toolchain ended the run: it lets one write less than 1 MiB and take {MOST_MINUTES} minutes. Nothing of it was written; ./fx build makes the program, which has no such limit")
        return GAVE_UP
    say("the toolchain refused the sources")
    return REFUSED


def clock(started):
    seconds = int(time.monotonic() - started)
    return f"{seconds // 60}:{seconds % 60:02}"


def prove():
    """Proves all crates side by side, and answers whether it went well."""
    started, every, done, block = time.monotonic(), crates(), 0, []
    jobs, known = len(os.sched_getaffinity(0)), {**os.environ, "PYTHONUNBUFFERED": "1"}
    say(f"proving {len(every)} crates, {jobs} at a time; the first time this takes about half an hour")
    with rt(["all", "check", "--jobs", str(jobs)], cwd=HERE, stdout=subprocess.PIPE, stderr=subprocess.STDOUT, env=known) as proof:
        for line in proof.stdout:
            begins = re.match(rb"== (\w+)$", line)
            if begins and begins[1].decode() in every:
                done, block = done + 1, []
                say(f"{clock(started)}  {done} of {len(every)}  {begins[1].decode()}")
            block.append(line)
        if proof.wait() == 0:
            return True
    sys.stderr.buffer.write(b"".join(block))
    say("the program is not built: the toolchain refused the sources, as told above")
    return False


def build():
    """Proves all crates, and then builds the program; answers the exit status."""
    if is_current():
        say("the program is proved and built already")
        return 0
    started = time.monotonic()
    if os.path.exists(PROGRAM):
        os.remove(PROGRAM)
    if not prove():
        return REFUSED
    # It builds the program and runs it once, on nothing, whose status says nothing here.
    with tempfile.TemporaryFile() as log:
        with rt(["run", "--", "serial"], cwd=f"{HERE}/crates/{TOP}", stdin=subprocess.DEVNULL, stdout=log, stderr=log) as run:
            run.wait()
        if not os.access(PROGRAM, os.X_OK):
            log.seek(0)
            sys.stderr.buffer.write(log.read())
            say("the program is not built, as told above")
            return REFUSED
    os.utime(PROGRAM)
    say(f"{clock(started)}  the program is proved and built")
    return 0


def package(folder):
    """Makes the Debian package, and answers the exit status."""
    from command.package import Refused, make_package

    if not is_current():
        say("the program is not built, or a source is newer than it: no package was made. ./fx build proves and builds it")
        return NO_PACKAGE
    try:
        return put(f"{make_package(HERE, PROGRAM, folder)}\n".encode())
    except Refused as fault:
        say(f"{fault}: no package was made")
        return NO_PACKAGE


def print_help():
    from command.pages import help_page

    return put(help_page().encode())


def main(words):
    if fault := fault_of(words):
        say(f"{fault}. See ./fx help")
        return WRONG_WORDS
    if asks_for_help(words):
        return print_help()
    if words[0] == "build":
        return build()
    if words[0] == "package":
        return package(words[1] if len(words) > 1 else f"{HERE}/out")
    reads = BY_WORD[words[0]].reads.lower()
    if reads and os.isatty(0):
        say(f"reading the {reads} from the terminal, up to Ctrl-D; ./fx {' '.join(words)} < FILE reads a file")
    if is_current():
        os.execv(PROGRAM, [PROGRAM, *words])
    if BY_WORD[words[0]].journal:
        say(f"{words[0]} is left to the proved program, since a run of the sources would have its file in another folder; ./fx build makes it")
        return GAVE_UP
    return run_checked(words)


if __name__ == "__main__":
    sys.exit(main(sys.argv[1:]))
