"""Trials of the package: when it is refused, what is in it, and that it can be installed and removed, in a folder of its own."""
import gzip
import hashlib
import os
import shutil
import subprocess
import unittest

from tool_trials.common import MORNING, PROGRAM, read

from .common import CopyTrial

DOCS = "usr/share/doc/pelunavosh"


@unittest.skipUnless(shutil.which("dpkg-deb"), "dpkg-deb is not there, which Debian's package dpkg has")
class Package(CopyTrial):
    def setUp(self) -> None:
        super().setUp()
        self.out = f"{self.folder}/packages"

    def known(self) -> dict[str, str]:
        return {**super().known(), "PATH": f"{self.tools}:/usr/sbin:/usr/bin:/sbin:/bin"}

    def made(self) -> str:
        """Makes the package, and answers its path."""
        status, out, err = self.fx("package", self.out)
        self.assertEqual((status, err), (0, ""))
        path, program, package = out.decode().splitlines()
        self.assertEqual(program.split()[-1], hashlib.sha256(read(self.built)).hexdigest())
        self.assertEqual(package.split()[-1], hashlib.sha256(read(path)).hexdigest())
        return path

    def check_refused(self, told: str) -> None:
        status, out, err = self.fx("package", self.out)
        self.assertEqual((status, out), (73, b""))
        self.assertRegex(err, rf"\Afx: .*{told}.*no package was made.*\n\Z")
        self.assertFalse(os.path.isdir(self.out) and os.listdir(self.out))

    def test_refused(self) -> None:
        """Without a program, with one that is older than a source, without dpkg-deb, and where there can be no file."""
        self.check_refused("the program is not built")
        self.put_program()
        os.utime(self.built, (0, 0))
        self.check_refused("a source is newer")
        os.utime(self.built)
        status, out, err = self.fx("package", self.out, PATH=self.tools)
        self.assertEqual((status, out, "is not there" in err and "Traceback" not in err), (73, b"", True), err)
        self.file("packages", b"")
        self.check_refused("packages: ")

    def test_contents(self) -> None:
        """Every file belongs to root, and is what it is made from; a second package has the same bytes."""
        self.put_program()
        path = self.made()
        listed = subprocess.run(["dpkg-deb", "-c", path], capture_output=True, text=True, check=True).stdout.splitlines()
        self.assertEqual({line.split()[1] for line in listed}, {"root/root"})
        self.assertEqual({line.split()[0] for line in listed}, {"drwxr-xr-x", "-rw-r--r--", "-rwxr-xr-x"})
        self.assertEqual([line.split()[-1] for line in listed if line.startswith("-rwx")], ["./usr/bin/fx_cli"])
        root = f"{self.folder}/root"
        subprocess.run(["dpkg-deb", "-x", path, root], check=True)
        self.assertEqual(read(f"{root}/usr/bin/fx_cli"), read(self.built))
        self.assertEqual(read(f"{root}/{DOCS}/SHA256SUMS").decode(), f"{hashlib.sha256(read(self.built)).hexdigest()}  /usr/bin/fx_cli\n")
        self.assertEqual(gzip.decompress(read(f"{root}/usr/share/man/man1/fx_cli.1.gz")), read(f"{self.copy}/share/man/fx.1"))
        self.assertEqual(read(f"{root}/usr/share/bash-completion/completions/fx_cli"), read(f"{self.copy}/share/completions/fx.bash"))
        self.assertEqual(read(f"{root}/usr/share/vim/vimfiles/syntax/fxbook.vim"), read(f"{self.copy}/share/vim/syntax/fxbook.vim"))
        for name in ("README.md", "CHANGELOG.md", "bench/RESULTS.md", *(f"{folder}/{name}" for folder in ("docs", "examples") for name in os.listdir(f"{self.copy}/{folder}"))):
            self.assertEqual(read(f"{root}/{DOCS}/{name}"), read(f"{self.copy}/{name}"), name)
        before = read(path)
        self.assertEqual(read(self.made()), before)

    def dpkg(self, root: str, *words: str) -> None:
        """Runs dpkg on a root of its own. What the package needs of the system is not there."""
        known = [f"--root={root}", f"--log={root}/dpkg.log", "--force-depends", "--force-script-chrootless", "--no-triggers"]
        run = subprocess.run(["dpkg", *known, *words], capture_output=True, text=True, env=self.known())
        self.assertEqual(run.returncode, 0, run.stderr)

    @unittest.skipUnless(os.geteuid() == 0, "only root can have dpkg install, if in a folder of its own")
    def test_installed_and_removed(self) -> None:
        """The installed program runs; removed, nothing of it is left."""
        self.put_program()
        path, root = self.made(), f"{self.folder}/root"
        for folder in ("info", "updates", "triggers"):
            os.makedirs(f"{root}/var/lib/dpkg/{folder}")
        for name in ("status", "available"):
            self.file(f"root/var/lib/dpkg/{name}", b"")
        self.dpkg(root, "--install", path)
        self.assertEqual(os.stat(f"{root}/usr/bin/fx_cli").st_mode & 0o777, 0o755)
        run = subprocess.run([f"{root}/usr/bin/fx_cli", "serial"], input=read(MORNING[0]), capture_output=True)
        wanted = read(MORNING[1]) if os.access(PROGRAM, os.X_OK) else b"words serial\n" + read(MORNING[0])
        self.assertEqual((run.returncode, run.stdout), (0, wanted))
        self.dpkg(root, "--remove", "pelunavosh")
        left = [f"{at}/{name}" for at, _, names in os.walk(root) for name in names if "/var/lib/dpkg" not in at and name != "dpkg.log"]
        self.assertEqual(left, [])
