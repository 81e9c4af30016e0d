"""Where the rows go: a folder of CSV files, or an SQLite file. Each is made beside its place and moved there once it is whole."""
import contextlib
import csv
import os
import shutil
import signal
import sqlite3
import tempfile
from collections.abc import Iterator, Sequence

from reading.command_line import Failed

from .tables import INDEXES, TABLES

TOO_LARGE, UNWRITABLE = 3, 5


def unwritable(path: str, fault: OSError | sqlite3.Error) -> Failed:
    return Failed(f"{path} can't be written: {getattr(fault, 'strerror', None) or fault}", UNWRITABLE)


def only_new(path: str) -> None:
    """What is there already is left as it is."""
    if os.path.lexists(path):
        raise Failed(f"{path} exists already", UNWRITABLE)


@contextlib.contextmanager
def unstopped() -> Iterator[None]:
    """A signal that stops the run waits, so that what is made here is not made without being known."""
    before = signal.pthread_sigmask(signal.SIG_BLOCK, (signal.SIGINT, signal.SIGTERM, signal.SIGHUP))
    try:
        yield
    finally:
        signal.pthread_sigmask(signal.SIG_SETMASK, before)


class CsvFolder:
    """A folder with a file for each table: a line of the column names, and then a line for each row; what is not there is empty."""

    def __init__(self, path: str):
        only_new(path)
        self.path, self.files, self.made = os.path.abspath(path), {}, ""
        try:
            with unstopped():
                self.made = tempfile.mkdtemp(prefix=".export-", dir=os.path.dirname(self.path))
            self.open()
        except OSError as fault:
            self.drop()
            raise unwritable(path, fault) from fault
        except BaseException:
            self.drop()
            raise

    def open(self) -> None:
        """Makes the files, each with its column names."""
        for table in TABLES:
            try:
                self.files[table.name] = open(f"{self.made}/{table.name}.csv", "w", encoding="ascii", newline="")
            except OSError as fault:
                raise unwritable(self.path, fault) from fault
        self.writers = {name: csv.writer(file, lineterminator="\n") for name, file in self.files.items()}
        for table in TABLES:
            self.write(table.name, [[column.name for column in table.columns]])

    def write(self, table: str, rows: Sequence[Sequence]) -> None:
        try:
            self.writers[table].writerows(rows)
        except OSError as fault:
            raise unwritable(self.path, fault) from fault

    def keep(self) -> None:
        """Closes the files and moves the folder to its place."""
        try:
            for file in self.files.values():
                file.close()
            os.chmod(self.made, 0o777 & ~mask())
            os.rename(self.made, self.path)
        except OSError as fault:
            raise unwritable(self.path, fault) from fault

    def drop(self) -> None:
        """Takes away what is not whole."""
        for file in self.files.values():
            try:
                file.close()
            except OSError:
                pass  # What it still held is dropped as well.
        shutil.rmtree(self.made, ignore_errors=True)


class SqliteFile:
    """An SQLite file. Its constraints are declared, and the keys looked at as rows come; foreign keys are not, since the rows keep them."""

    def __init__(self, path: str):
        only_new(path)
        self.path = os.path.abspath(path)
        self.base, self.made = None, ""
        self.insertions = {table.name: table.insertion() for table in TABLES}
        try:
            with unstopped():
                place, self.made = tempfile.mkstemp(prefix=".export-", dir=os.path.dirname(self.path))
            os.close(place)
            self.base = sqlite3.connect(self.made, isolation_level=None)
            self.open()
        except OSError as fault:
            self.drop()
            raise unwritable(path, fault) from fault
        except BaseException:
            self.drop()
            raise

    def open(self) -> None:
        """Makes the tables."""
        for step in ("PRAGMA journal_mode = OFF", "PRAGMA synchronous = OFF", "PRAGMA cache_size = -65536", "BEGIN"):
            self.base.execute(step)
        strict = "STRICT" if sqlite3.sqlite_version_info >= (3, 37) else ""
        for table in TABLES:
            self.base.execute(table.schema(strict))

    def write(self, table: str, rows: Sequence[Sequence]) -> None:
        try:
            self.base.executemany(self.insertions[table], rows)
        except OverflowError as fault:
            raise Failed("an amount is above 2^63 - 1, which SQLite can't hold exactly: --csv has no such limit", TOO_LARGE) from fault
        except sqlite3.IntegrityError as fault:
            raise Failed(f"this is not a right output, as ./fx check will say: {fault}", 1) from fault
        except sqlite3.Error as fault:
            raise unwritable(self.path, fault) from fault

    def keep(self) -> None:
        """Makes the indexes, closes the file and moves it to its place."""
        try:
            for step in (*INDEXES, "COMMIT"):
                self.base.execute(step)
            self.base.close()
            os.chmod(self.made, 0o666 & ~mask())
            os.rename(self.made, self.path)
        except (OSError, sqlite3.Error) as fault:
            raise unwritable(self.path, fault) from fault

    def drop(self) -> None:
        """Takes away what is not whole."""
        if self.base:
            self.base.close()
        if os.path.exists(self.made):
            os.remove(self.made)


def mask() -> int:
    now = os.umask(0)
    os.umask(now)
    return now
