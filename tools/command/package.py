"""Makes the Debian package: the proved program, its SHA-256, the pages, the man page, the completions and the syntax for Vim."""
import gzip
import hashlib
import os
import re
import shutil
import subprocess
import tempfile
import time

NAME, PROGRAM_PLACE = "pelunavosh", "usr/bin/fx_cli"
PAGES = f"usr/share/doc/{NAME}"
# Where the files of share/ go; the man page and the completions are found by the program's name.
PLACES = {
    "share/completions/fx.bash": "usr/share/bash-completion/completions/fx_cli",
    "share/completions/_fx": "usr/share/zsh/vendor-completions/_fx",
    "share/vim/syntax/fxbook.vim": "usr/share/vim/vimfiles/syntax/fxbook.vim",
    "share/vim/ftdetect/fxbook.vim": "usr/share/vim/vimfiles/ftdetect/fxbook.vim",
}
MAN_PAGE, MAN_PLACE = "share/man/fx.1", "usr/share/man/man1/fx_cli.1.gz"
CONTROL = """Package: {name}
Version: {version}
Section: misc
Priority: optional
Architecture: {architecture}
Maintainer: Pelunavosh maintainers <maintainers@users.noreply.pelunavosh.example>
Installed-Size: {size}
{depends}Description: matching host for interbank spot FX whose answers are proved
 Banks trade currency pairs with one another on credit, on one host. The program
 fx_cli takes a day of the market as a text, runs it, and prints what happened,
 what each bank was told, the local books at the end, and what each bank owes.
 .
 SHA-256 of the program: {digest}
"""


class Refused(Exception):
    """Why no package was made."""


def ran(*words, **how):
    """What a command printed."""
    try:
        run = subprocess.run(words, capture_output=True, text=True, **how)
    except FileNotFoundError as fault:
        raise Refused(f"{words[0]} is not there, which Debian's package dpkg has") from fault
    if run.returncode:
        raise Refused(f"{words[0]} failed: {run.stderr.strip()}")
    return run.stdout.strip()


def digest_of(path):
    with open(path, "rb") as file:
        return hashlib.file_digest(file, "sha256").hexdigest()


def source_time(here, program):
    """The time of the last commit, in seconds; where there is no history, that of the program."""
    try:
        return int(ran("git", "-C", here, "log", "-1", "--format=%ct"))
    except (Refused, ValueError):
        return int(os.path.getmtime(program))


def depends_of(program):
    """The packages whose libraries the program names: the C library from the latest version that it asks for."""
    with open(program, "rb") as file:
        text = file.read()
    versions = [tuple(map(int, found)) for found in re.findall(rb"\0GLIBC_(\d+)\.(\d+)", text)]
    wanted = ["libc6 (>= {}.{})".format(*max(versions))] if versions else []
    wanted += ["libgcc-s1"] * (b"libgcc_s.so.1\0" in text)
    return f"Depends: {', '.join(wanted)}\n" if wanted else ""


def put(source, root, place, mode=0o644):
    target = f"{root}/{place}"
    os.makedirs(os.path.dirname(target), exist_ok=True)
    shutil.copyfile(source, target)
    os.chmod(target, mode)


def write(root, place, text):
    os.makedirs(os.path.dirname(f"{root}/{place}"), exist_ok=True)
    with open(f"{root}/{place}", "wb") as file:
        file.write(text)
    os.chmod(f"{root}/{place}", 0o644)


def stage(here, program, digest, root):
    """Puts all files at their places below a root."""
    put(program, root, PROGRAM_PLACE, 0o755)
    write(root, f"{PAGES}/SHA256SUMS", f"{digest}  /{PROGRAM_PLACE}\n".encode())
    for name in ("README.md", "CHANGELOG.md", "CONTRIBUTING.md", "bench/RESULTS.md"):
        put(f"{here}/{name}", root, f"{PAGES}/{name}")
    for folder in ("docs", "examples"):
        for name in sorted(os.listdir(f"{here}/{folder}")):
            put(f"{here}/{folder}/{name}", root, f"{PAGES}/{folder}/{name}")
    for name, place in PLACES.items():
        put(f"{here}/{name}", root, place)
    with open(f"{here}/{MAN_PAGE}", "rb") as file:
        write(root, MAN_PLACE, gzip.compress(file.read(), mtime=0))


def make_package(here, program, folder):
    """Makes the package in a folder, and answers what is to be told of it. The same commit and program give the same bytes, which xz
    on several threads would not promise."""
    digest, made_at = digest_of(program), source_time(here, program)
    version = f"0~{time.strftime('%Y%m%d', time.gmtime(made_at))}.{digest[:12]}"
    architecture = ran("dpkg", "--print-architecture")
    before = os.umask(0o022)
    try:
        with tempfile.TemporaryDirectory() as root:
            os.chmod(root, 0o755)
            stage(here, program, digest, root)
            size = sum(os.path.getsize(f"{at}/{name}") for at, _, names in os.walk(root) for name in names) // 1024 + 1
            control = CONTROL.format(name=NAME, version=version, architecture=architecture, size=size, depends=depends_of(program), digest=digest)
            write(root, "DEBIAN/control", control.encode())
            os.makedirs(folder, exist_ok=True)
            path = os.path.join(folder, f"{NAME}_{version}_{architecture}.deb")
            ran("dpkg-deb", "--root-owner-group", "-Zgzip", "--build", root, f"{path}.new", env={**os.environ, "SOURCE_DATE_EPOCH": str(made_at)})
            os.replace(f"{path}.new", path)
    except OSError as fault:
        raise Refused(f"{fault.filename or folder}: {fault.strerror}") from fault
    finally:
        os.umask(before)
    return f"{path}\nSHA-256 of the program {digest}\nSHA-256 of the package {digest_of(path)}"
