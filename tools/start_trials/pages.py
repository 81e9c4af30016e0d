"""Trials of what is made from the table of words, of the syntax for Vim, and of the links of all pages."""
import os
import re
import shutil
import subprocess
import sys
import unittest

from command.table import WORDS
from reading import session
from tool_trials.common import HERE, Trial, read

from .common import PATIENCE, CopyTrial

SESSION = b"""# hello
FXBOOK 1
BANK ALFA
PAIR EUR/USD 5 1000000 100
LINE ALFA BETA 1000
START
CLIENT: ALFA ANN 600
ALFA SELL EUR/USD 1.08420 3 DAY
ALFA:ANN BUY EUR/USD 1.08420 3 DAY
  ALFA LINE BETA 007
ALFA TRADE EUR/USD
nobody
END
ALFA SHOW BETA
"""
# What each field is highlighted as, by its line.
SHOWN = """Comment Comment
Header Number
Header -
Header Pair Number Number Number
Header - - Number
Header
Header - - Number
Bank Command Pair Price Number Life
Bank Command Pair Price Number Life
Bank Command - BadNumber
Bank Unknown Pair
-
Header
Behind Behind Behind"""
GROUPS = """set nocompatible
set runtimepath^={share}
filetype on
syntax on
edit {file}
redir! > {out}
silent echo &filetype
for n in range(1, line('$'))
  let at = 0
  let row = []
  for field in split(getline(n))
    let at = stridx(getline(n), field, at)
    call add(row, synIDattr(synID(n, at + 1, 1), 'name'))
    let at += len(field)
  endfor
  silent echo join(map(row, 'v:val == "" ? "-" : substitute(v:val, "fxbook", "", "")'), ' ')
endfor
redir END
qall!
"""


def anchor_of(heading: str) -> str:
    """The name by which a link finds a heading."""
    text = re.sub(r"\[([^\]]*)\]\([^)]*\)", r"\1", heading.strip().lower())
    return re.sub(r"[^\w\- ]", "", text).replace(" ", "-")


def prose(path: str) -> str:
    """A page without its blocks of code."""
    return re.sub(r"^```.*?^```$", "", read(path).decode(), flags=re.M | re.S)


class Links(unittest.TestCase):
    def test_links(self) -> None:
        """Each link of a page leads to a file of the repository, and to a heading where it names one."""
        pages = [f"{HERE}/{name}" for name in os.listdir(HERE) if name.endswith(".md")]
        pages += [f"{HERE}/{folder}/{name}" for folder in ("docs", "bench", "examples", "share") for name in os.listdir(f"{HERE}/{folder}") if name.endswith(".md")]
        self.assertGreater(len(pages), 20)
        for page in pages:
            for link in re.findall(r"\]\(([^)\s]+)\)", prose(page)):
                path, _, anchor = link.partition("#")
                target = os.path.normpath(os.path.join(os.path.dirname(page), path)) if path else page
                if link.startswith("https:"):
                    continue
                self.assertTrue(os.path.exists(target), (page, link))
                if anchor:
                    self.assertIn(anchor, map(anchor_of, re.findall(r"^#+ (.*)$", prose(target), re.M)), (page, link))


class Stale(CopyTrial):
    def test_made_pages(self) -> None:
        """The files are those that the table gives."""
        run = subprocess.run([sys.executable, f"{HERE}/tools/pages", "--check"], capture_output=True, text=True)
        self.assertEqual((run.returncode, run.stdout), (0, ""))

    def test_stale_pages(self) -> None:
        """Where the table says something else, each file is named."""
        table = f"{self.copy}/tools/command/table.py"
        before = read(table)
        self.addCleanup(lambda: self.file_at(table, before))
        self.file_at(table, before.replace(b'"N", 1, 64', b'"N", 1, 128'))
        run = subprocess.run([sys.executable, f"{self.copy}/tools/pages", "--check"], capture_output=True, text=True)
        self.assertEqual(run.returncode, 1)
        self.assertEqual(len(re.findall(r"^share/\S+ is not what tools/pages writes", run.stdout, re.M)), 3)

    @staticmethod
    def file_at(path: str, text: bytes) -> None:
        with open(path, "wb") as file:
            file.write(text)


class Shells(Trial):
    def completed(self, *words: str) -> set[str]:
        """What bash offers for the last of these words."""
        script = 'source "$1"; shift; COMP_WORDS=("$@"); COMP_CWORD=$(($# - 1)); _fx; printf "%s\\n" "${COMPREPLY[@]}"'
        run = subprocess.run(["bash", "-c", script, "bash", f"{HERE}/share/completions/fx.bash", *words], capture_output=True, text=True, cwd=HERE)
        self.assertEqual((run.returncode, run.stderr), (0, ""), words)
        return set(run.stdout.split())

    def test_bash(self) -> None:
        every, shared = {word.word for word in WORDS}, {word.word for word in WORDS if not word.own}
        self.assertEqual(self.completed("./fx", ""), every)
        self.assertEqual(self.completed("fx_cli", ""), shared)
        self.assertEqual(self.completed("./fx", "se"), {"serial"})
        self.assertEqual(self.completed("./fx", "run", ""), {"--workers"})
        self.assertEqual(self.completed("./fx", "run", "--workers", "6"), {"64"})
        self.assertEqual(self.completed("./fx", "load", "7", ""), set())
        self.assertEqual(self.completed("./fx", "load", "7", "8", "4", "10", ""), {"--workers"})
        self.assertEqual(self.completed("./fx", "serial", ""), set())
        self.assertEqual(self.completed("./fx", "payments", ""), {"bilateral", "net"})
        self.assertIn("examples/morning.fx", self.completed("./fx", "serial", "<", "examples/m"))
        self.assertEqual(self.completed("./fx", "package", "exam"), {"examples"})

    def described(self, *words: str) -> list[str]:
        """What the file hands to the helpers of zsh's completion, for the last of these words."""
        stubs = "_describe() { print -rl -- ${(P)2}; }; _arguments() { print -rl -- $@; }; _message() { :; }; "
        script = stubs + 'file=$1; shift; words=("$@"); CURRENT=$#; complete() { source $file; }; complete'
        run = subprocess.run(["zsh", "-f", "-c", script, "zsh", f"{HERE}/share/completions/_fx", *words], capture_output=True, text=True)
        self.assertEqual(run.stderr, "", words)
        return run.stdout.splitlines()

    @unittest.skipUnless(shutil.which("zsh"), "zsh is not there")
    def test_zsh(self) -> None:
        every, shared = [word.word for word in WORDS], [word.word for word in WORDS if not word.own]
        self.assertEqual([line.partition(":")[0] for line in self.described("./fx", "")], every)
        self.assertEqual([line.partition(":")[0] for line in self.described("fx_cli", "")], shared)
        self.assertEqual([line.partition("[")[0] for line in self.described("./fx", "run", "")], ["--workers"])
        self.assertEqual([line.partition(":")[0] for line in self.described("./fx", "load", "7", "")][:4], ["1", "2", "3", "4"])
        self.assertEqual(self.described("./fx", "package", ""), ["1:folder:_files -/"])
        self.assertEqual(self.described("./fx", "serial", ""), [])


class Pages(Trial):
    @unittest.skipUnless(shutil.which("man"), "man is not there")
    def test_man(self) -> None:
        """The page is drawn without a warning, and has each word."""
        known = {**os.environ, "MANWIDTH": "100", "MANROFFOPT": "", "LC_ALL": "C.UTF-8"}
        run = subprocess.run(["man", "--warnings", "-l", f"{HERE}/share/man/fx.1"], capture_output=True, text=True, env=known)
        self.assertEqual((run.returncode, run.stderr), (0, ""))
        shown = re.sub(r".\x08", "", run.stdout)
        for word in WORDS:
            self.assertIn(f"./fx {word.word}", shown)
        for section in ("NAME", "SYNOPSIS", "DESCRIPTION", "COMMANDS", "OPTIONS", "BOUNDS", "EXIT STATUS", "EXAMPLES"):
            self.assertRegex(shown, rf"(?m)^{section}$")

    def test_vim_words(self) -> None:
        """The words of the syntax are those of the sessions' reader."""
        syntax = read(f"{HERE}/share/vim/syntax/fxbook.vim")
        for group, words in ((b"Command", (*session.WORDS_OF_TWO, *session.HOST_WORDS)), (b"Life", session.LIVES)):
            told = re.search(rb"^syntax keyword fxbook" + group + rb" ([A-Z ]+)", syntax, re.M)[1].split()
            self.assertEqual(told, list(words))

    @unittest.skipUnless(shutil.which("vim"), "vim is not there")
    def test_vim(self) -> None:
        """What Vim makes of each field of a session."""
        file, out = self.file("day.fx", SESSION), f"{self.folder}/groups"
        script = self.file("groups.vim", GROUPS.format(share=f"{HERE}/share/vim", file=file, out=out).encode())
        subprocess.run(["vim", "-u", "NONE", "-i", "NONE", "-n", "-es", "-S", script], stdin=subprocess.DEVNULL, capture_output=True, timeout=PATIENCE)
        told = [line for line in read(out).decode().splitlines() if line]
        if told[:1] == ["fxbook"] and set(" ".join(told[1:]).split()) == {"-"}:
            self.skipTest("this vim has no syntax highlighting")
        self.assertEqual(told, ["fxbook", *SHOWN.splitlines()])
