"""Trials of the page docs/TOOLS.md: each example is what the tools print, and each exit status stands in it."""
import os
import re
import shlex
import subprocess
import sys

from .common import HERE, MORNING, Trial, ran, read

# Runs that write to standard output, one at least of each tool.
WRITING = (
    ("explain", *MORNING), ("covers", *MORNING), ("compare", MORNING[1], MORNING[1]), ("export", "--tables"),
    ("fix", "reports", f"{HERE}/examples/orders.csv", f"{HERE}/examples/orders.out"),
)


class Page(Trial):
    def test_examples(self) -> None:
        """A block of the page that begins with `$ tools/..` has the command's whole output behind it."""
        page = read(f"{HERE}/docs/TOOLS.md").decode()
        examples = re.findall(r"^```\n\$ tools/(\S+) (.*?)\n(.*?)^```$", page, re.M | re.S)
        self.assertGreaterEqual({name for name, _, _ in examples}, {"explain", "covers", "compare", "fix"})
        before = os.getcwd()
        os.chdir(HERE)
        self.addCleanup(os.chdir, before)
        for name, words, told in examples:
            _, out, err = ran(name, *shlex.split(words))
            self.assertEqual(out + err, told, (name, words))

    def test_statuses(self) -> None:
        """Each exit status that a tool's page of help tells stands in the page's table."""
        page = read(f"{HERE}/docs/TOOLS.md").decode()
        for name in ("explain", "covers", "export", "compare", "feed", "fix", "kept"):
            told = re.findall(r"^ +(\d+)  ?\S", ran(name, "--help")[1].partition("Exit statuses:\n")[2], re.M)
            row = re.search(rf"^\| `tools/{name}` \|(.*)$", page, re.M)
            self.assertTrue(told and row, name)
            self.assertTrue(all(f"{status} " in row[1] for status in told if status != "130"), (name, told))

    def test_an_output_that_nobody_takes(self) -> None:
        """A full standard output ends with status 5 and one line, one whose reader has gone with 141 and none."""
        known = {name: value for name, value in os.environ.items() if name != "PYTHONUNBUFFERED"}
        for name, *words in (WRITING[0], *WRITING):
            run = [sys.executable, f"{HERE}/tools/{name}", *words]
            with open("/dev/full", "wb") as full:
                ended = subprocess.run(run, stdout=full, stderr=subprocess.PIPE, env=known)
            self.assertEqual((ended.returncode, ended.stderr.count(b"\n")), (5, 1), (name, ended.stderr))
            known["PYTHONUNBUFFERED"] = "1"  # The first one ends with what it held, the others at their first line.
        here, there = os.pipe()
        os.close(here)
        ended = subprocess.run(run, stdout=there, stderr=subprocess.PIPE, env=known)
        os.close(there)
        self.assertEqual((ended.returncode, ended.stderr), (141, b""))
