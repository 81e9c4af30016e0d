#!/usr/bin/env python3
"""Refuses each allocation of a run in turn: refused_memory.py [--program PATH] [SESSION..].

A shim of the C library's allocator, made by `cc` in a new folder and put before it by LD_PRELOAD, answers the Nth growth of a
run with nothing. For N from 1 until a run makes fewer, the program has to end with the answer of an undisturbed run, or with
status 6, `out of memory` on standard error (or a prefix of it) and a prefix of an output. Of `run` and `watch`, on threads, the output may be
that of any history: `check` has to say YES, and behind an output of `watch` there have to be as many lines as it says. Each row of the table is a session and a word: how many allocations, and how many
of the refusals were told as out of memory. Without sessions it takes two of examples/ and two of its own, a load, and the two halves of a
kept day: `keep` in a new folder, and `restart` on what a whole run of the first half kept. After each of these `restart` with END alone has to
find a whole journal that has all that was told.

The last row is the program of host_trials, which plays a day at both desks and makes a call again that is refused: opening, each kind
of command, and the entries that a pass asks for. It writes the same whichever allocation is refused, or ends with status 6.
"""
import argparse
import os
import subprocess
import sys
import tempfile

HERE = os.path.dirname(os.path.abspath(__file__))
sys.path.insert(0, os.path.join(HERE, "..", "tools"))
sys.dont_write_bytecode = True
from reading.journal import read_journal  # noqa: E402

HEAD = b"FXBOOK 1\nBANK ALFA\nBANK BETA\nBANK GAMA\nPAIR EUR/USD 5 1000000 100\n"
OWN = [
    (
        "a credit change",
        HEAD
        + b"START\nBETA SELL EUR/USD 1.08430 1 DAY\nALFA BUY EUR/USD 1.08450 2 DAY\nBETA SELL EUR/USD 1.08410 1 DAY\n"
        + b"ALFA LINE BETA 1000\nBETA LINE ALFA 1000\nEND\n",
    ),
    (
        "two pairs",
        HEAD
        + b"PAIR GBP/USD 5 1000000 70\nLINE ALFA BETA 170\nLINE BETA ALFA 170\nSTART\n"
        + b"BETA SELL EUR/USD 1.08420 2 DAY\nBETA SELL GBP/USD 1.27000 2 DAY\nALFA BUY EUR/USD 1.08420 2 IOC\n"
        + b"ALFA BUY EUR/USD 1.08420 1 IOC\nALFA BUY GBP/USD 1.27000 2 IOC\nALFA SHOW BETA\nEND\n",
    ),
]
SHIM = r"""
#define _GNU_SOURCE
#include <errno.h>
#include <fcntl.h>
#include <stdatomic.h>
#include <stdlib.h>
#include <sys/mman.h>
#include <unistd.h>

/* Counts the allocations in a file of eight bytes that is shared, and refuses the one that REFUSE names. */
extern void *__libc_malloc(size_t);
extern void *__libc_calloc(size_t, size_t);
extern void *__libc_realloc(void *, size_t);
extern void *__libc_memalign(size_t, size_t);
static atomic_long *made;
static long refused;

__attribute__((constructor)) static void begin(void) {
    const char *name = getenv("REFUSE_COUNT"), *word = getenv("REFUSE");
    int file = name ? open(name, O_RDWR) : -1;
    void *place = file < 0 ? MAP_FAILED : mmap(NULL, 8, PROT_READ | PROT_WRITE, MAP_SHARED, file, 0);
    if (file >= 0) close(file);
    if (place == MAP_FAILED) return;
    refused = word ? atol(word) : 0;
    made = place;
}

static int refuses(void) {
    if (!made || atomic_fetch_add(made, 1) + 1 != refused) return 0;
    errno = ENOMEM;
    return 1;
}

void *malloc(size_t size) { return refuses() ? NULL : __libc_malloc(size); }
void *calloc(size_t count, size_t size) { return refuses() ? NULL : __libc_calloc(count, size); }
void *realloc(void *old, size_t size) { return refuses() ? NULL : __libc_realloc(old, size); }
void *memalign(size_t align, size_t size) { return refuses() ? NULL : __libc_memalign(align, size); }
void *aligned_alloc(size_t align, size_t size) { return refuses() ? NULL : __libc_memalign(align, size); }
int posix_memalign(void **into, size_t align, size_t size) {
    if (refuses()) return ENOMEM;
    *into = __libc_memalign(align, size);
    return *into ? 0 : ENOMEM;
}
"""


class Trial:
    """A session under a word of the program, run as often as it allocates, in a folder whose journal has these bytes at first."""

    def __init__(self, program, shim, folder, text, words, journal=b""):
        self.program, self.shim, self.folder, self.text, self.words = os.path.abspath(program), shim, folder, text, words
        self.journal, self.first, self.keeps = os.path.join(folder, "fx.journal"), journal, words in (["keep"], ["restart"])
        self.plain = self.ran(0)
        self.kept = self.read_journal()

    def ran(self, refused):
        made = os.path.join(self.folder, "made")
        with open(made, "wb") as file:
            file.write(bytes(8))
        if self.keeps:
            with open(self.journal, "wb") as file:
                file.write(self.first)
        env = {"LD_PRELOAD": self.shim, "REFUSE": str(refused), "REFUSE_COUNT": made}
        done = subprocess.run([self.program, *self.words], input=self.text, env=env, capture_output=True, timeout=120, cwd=self.folder)
        with open(made, "rb") as file:
            return done.returncode, done.stdout, done.stderr, int.from_bytes(file.read(), "little")

    def read_journal(self):
        if not self.keeps:
            return b""
        with open(self.journal, "rb") as file:
            return file.read()

    def is_kept(self, out):
        """Whether the journal is a beginning of the undisturbed run's, block by block, `restart` finds it whole, and it has all that was told."""
        file = self.read_journal()
        blocks, every = read_journal(file), read_journal(self.kept)
        told = out.partition(b"BOOKS\n")[0]
        whole = self.plain[1].partition(b"BOOKS\n")[0]
        is_beginning = blocks.places == every.places[: len(blocks.places)] and list(blocks.bodies()) == list(every.bodies())[: len(blocks.places)]
        has_told = not told or len(blocks.places) == len(every.places) and whole.startswith(told)
        again = subprocess.run([self.program, "restart"], input=b"END\n", capture_output=True, cwd=self.folder)
        return is_beginning and has_told and again.returncode == (0 if blocks.places else 13)

    def is_output(self, text):
        if self.words[:1] not in (["run"], ["watch"]):
            return text == self.plain[1]
        if self.words == ["watch"]:
            text, mark, seen = text.partition(b"WATCHED ")
            if not mark or seen.count(b"\n") != int(seen.split(b"\n")[0]) + 1:
                return False
        return subprocess.run([self.program, "check"], input=text, capture_output=True).stdout == b"YES\n"

    def is_prefix(self, text):
        # the order of the history is free on threads: the part that is the same in every order has to agree
        if self.words[:1] in (["run"], ["watch"]):
            return text[:64] == self.plain[1][: len(text[:64])]
        return self.plain[1].startswith(text)

    def judge(self, refused):
        status, out, err, made = self.ran(refused)
        if status == self.plain[0]:
            fault = None if self.is_output(out) and err == self.plain[2] else "another answer"
        elif status == 6:
            fault = None if b"out of memory\n".startswith(err) and self.is_prefix(out) else "out of memory told wrongly"
        else:
            fault = f"status {status}"
        if not fault and self.keeps and not self.is_kept(out):
            fault = "the journal is not what was told"
        return fault, status == 6, made

    def row(self):
        told, refused, wrong = 0, 0, []
        while True:
            refused += 1
            fault, memory, made = self.judge(refused)
            if made < refused:
                return refused - 1, told, wrong
            told += memory
            if fault:
                wrong.append((refused, fault))


def show(name, trial):
    made, memory, wrong = trial.row()
    print(f"{name:24} {' '.join(trial.words):24} {made:6} allocations, {memory:6} told as out of memory, {len(wrong)} wrong", flush=True)
    for refused, fault in wrong[:5]:
        print(f"    at {refused}: {fault}")
    return len(wrong)


def read(path):
    with open(path, "rb") as file:
        return os.path.basename(path), file.read()


def main():
    words = argparse.ArgumentParser(description=__doc__, formatter_class=argparse.RawDescriptionHelpFormatter)
    words.add_argument("--program", default=os.path.join(HERE, "..", "crates", "fx_cli", "out", "fx_cli"))
    words.add_argument("--desks", default=os.path.join(HERE, "..", "crates", "host_trials", "out", "host_trials"))
    words.add_argument("sessions", nargs="*")
    told = words.parse_args()
    examples = [os.path.join(HERE, "..", "examples", name) for name in ("first.fx", "morning.fx")]
    sessions = [read(path) for path in told.sessions] or [read(path) for path in examples] + OWN
    bad = 0
    with tempfile.TemporaryDirectory() as folder:
        source, shim = os.path.join(folder, "shim.c"), os.path.join(folder, "shim.so")
        with open(source, "w") as file:
            file.write(SHIM)
        subprocess.run(["cc", "-O1", "-shared", "-fPIC", source, "-o", shim], check=True)
        for name, text in sessions:
            output = subprocess.run([told.program, "serial"], input=text, capture_output=True).stdout
            rows = [(["serial"], text), (["run", "--workers", "1"], text), (["run", "--workers", "2"], text), (["watch"], text)]
            rows += [(asked, output) for asked in (["check"], ["payments", "bilateral"], ["payments", "net"])]
            for command, given in rows:
                bad += show(name, Trial(told.program, shim, folder, given, command))
        if not told.sessions:
            halves = [read(os.path.join(HERE, "..", "examples", f"kept-{half}.fx"))[1] for half in ("first", "second")]
            kept = Trial(told.program, shim, folder, halves[0], ["keep"])
            bad += show("a kept day, first half", kept)
            bad += show("a kept day, second half", Trial(told.program, shim, folder, halves[1], ["restart"], kept.kept))
            bad += show("a load", Trial(told.program, shim, folder, b"", ["load", "1", "2", "1", "2", "--workers", "1"]))
        bad += show("both desks", Trial(told.desks, shim, folder, b"", []))
    sys.exit(bad > 0)


main()
