"""What the trials of ./fx have in common: a copy of the repository without a program, and a stand-in for the toolchain."""
import atexit
import functools
import os
import shutil
import subprocess
import sys
import tempfile

from tool_trials.common import HERE, PROGRAM, Trial

# How long a trial waits for something that has to come, in seconds: a busy machine may take its time.
PATIENCE = 300
# What stands in for the program where none is built: it answers its words.
STAND_IN = b"#!/bin/sh\necho words $*\n/bin/cat\n"


@functools.cache
def repository() -> str:
    """A copy of what ./fx and the package want of the repository, without what was built, for all trials of one run."""
    folder = tempfile.mkdtemp(prefix="fx-copy-")
    atexit.register(shutil.rmtree, folder, True)
    for name in ("docs", "examples", "share", "tools", "crates/fx_cli/src"):
        shutil.copytree(f"{HERE}/{name}", f"{folder}/{name}", ignore=shutil.ignore_patterns("out", "__pycache__"))
    os.mkdir(f"{folder}/bench")
    for name in ("fx", "crates.txt", "README.md", "CHANGELOG.md", "CONTRIBUTING.md", "bench/RESULTS.md"):
        shutil.copy2(f"{HERE}/{name}", f"{folder}/{name}")
    return folder


class CopyTrial(Trial):
    """A trial in the copy, which has no program at its beginning, with a folder in front of the PATH."""

    def setUp(self) -> None:
        super().setUp()
        self.copy = repository()
        self.built = f"{self.copy}/crates/fx_cli/out/fx_cli"
        self.addCleanup(shutil.rmtree, os.path.dirname(self.built), True)
        self.tools = f"{self.folder}/bin"
        os.mkdir(self.tools)

    def put_program(self, text: bytes | None = None) -> None:
        """Puts a program where ./fx looks for it: this text, or the built one where there is one."""
        os.makedirs(os.path.dirname(self.built), exist_ok=True)
        if text is None and os.access(PROGRAM, os.X_OK):
            shutil.copyfile(PROGRAM, self.built)
        else:
            with open(self.built, "wb") as file:
                file.write(text or STAND_IN)
        os.chmod(self.built, 0o755)

    def put_toolchain(self, script: str) -> None:
        """Puts a script in the place of the toolchain's command."""
        with open(f"{self.tools}/rt", "w", encoding="utf-8") as file:
            file.write(f"#!/bin/sh\n{script}")
        os.chmod(f"{self.tools}/rt", 0o755)

    def known(self) -> dict[str, str]:
        """The environment, with no toolchain on its PATH: where there is no stand-in, the PATH is one empty folder."""
        return {**os.environ, "PATH": f"{self.tools}:/usr/bin:/bin" if os.listdir(self.tools) else self.tools}

    def fx(self, *words: str, text: bytes = b"", **more: str) -> tuple[int, bytes, str]:
        """Runs ./fx of the copy, with more in its environment, and answers its status and what it wrote."""
        known = {**self.known(), **more}
        run = subprocess.run([sys.executable, f"{self.copy}/fx", *words], input=text, capture_output=True, timeout=PATIENCE, env=known)
        return run.returncode, run.stdout, run.stderr.decode()
