"""The words of ./fx: what each does, what it takes, and within which bounds. `./fx help`, what ./fx says of wrong words, the
completions and the man page are made from this table (tools/pages writes the files)."""
from typing import NamedTuple


class Number(NamedTuple):
    """A number in the words: its name, and its bounds, both of which it may be."""

    name: str
    low: int
    high: int
    what: str


class Word(NamedTuple):
    """A word of ./fx. `reads` is the text that it takes from standard input, `forms` are the words of which one stands behind it,
    `threaded` says that `--workers N` may stand behind the numbers, `folder` that a folder may, `journal` that it has the journal file of the current
    folder, so that ./fx starts the built program alone for it; `own` marks the words that ./fx itself has, and the program has not."""

    word: str
    summary: str
    more: str
    reads: str = ""
    forms: tuple[str, ...] = ()
    numbers: tuple[Number, ...] = ()
    threaded: bool = False
    folder: bool = False
    journal: bool = False
    own: bool = False


WORKERS = Number("N", 1, 64, "workers, that is threads with some of the banks each")
DEFAULT_WORKERS = 4

LOAD_NUMBERS = (
    Number("SEED", 0, 2**64 - 1, "the number that everything is made from"),
    Number("BANKS", 2, 64, "how many banks"),
    Number("PAIRS", 1, 32, "how many pairs"),
    Number("COMMANDS", 1, 20000, "how many commands"),
)

WORDS = (
    Word(
        "serial",
        "runs a session in the order of its lines",
        "Use it where the file's order is the order in which the commands came in. The same session always gives the same output.",
        reads="SESSION",
    ),
    Word(
        "run",
        "runs a session on threads, as banks that send side by side",
        "Each bank's commands stay in their order; which bank comes first is up to the threads, so two runs may print different outputs, each of them right.",
        reads="SESSION",
        threaded=True,
    ),
    Word(
        "check",
        "says whether a text is a right output: YES, or NO and the offset of the first wrong byte",
        "It looks at the output alone; tools/covers SESSION OUTPUT says whether it belongs to a given session.",
        reads="OUTPUT",
    ),
    Word(
        "load",
        "makes up a session from a number, runs it both ways, checks it and sums it up",
        "It reads nothing. The same numbers always give the same three lines.",
        numbers=LOAD_NUMBERS,
        threaded=True,
    ),
    Word(
        "clients",
        "runs a session whose banks have clients as serial does, and prints behind its output what each has and was told",
        "A client trades in its bank's name, under a limit of its own. docs/SESSION.md has the lines of clients.",
        reads="SESSION",
    ),
    Word(
        "payments",
        "prints what the banks pay at the end of the day: each two banks one another, or netted over all banks",
        "No list that settles the day pays less. It prints NO and the offset, as check does, where the text is not a right output.",
        reads="OUTPUT",
        forms=("bilateral", "net"),
    ),
    Word(
        "watch",
        "runs a session as run does, and prints behind its output what a reader saw of the market meanwhile",
        "The reader looks at local books after each round, and at all of them at the end.",
        reads="SESSION",
    ),
    Word(
        "keep",
        "runs a session on threads and keeps it in the file fx.journal; what a bank is told is on the disk by then",
        "The file is in the current folder. Each round's notices are printed once it is kept, each behind its bank's name, and at the end the output from BOOKS on. It is refused where the file has a session already. docs/JOURNAL.md says what to do after each exit status.",
        reads="SESSION",
        journal=True,
    ),
    Word(
        "restart",
        "goes on with the session that fx.journal keeps, with command lines up to END",
        "The numbers of commands and notices go on. With END alone it changes nothing, and prints the output from BOOKS on.",
        reads="LINES",
        journal=True,
    ),
    Word(
        "build",
        "proves and builds the program once, in about half an hour",
        "From then on ./fx starts the proved program at once.",
        own=True,
    ),
    Word(
        "package",
        "makes a Debian package of the proved program and its pages, in the folder out or DIR",
        "It needs dpkg-deb. It makes none if the program is not built, or a source is newer than the program.",
        folder=True,
        own=True,
    ),
    Word("help", "prints this page", "So do --help and -h, alone or after a command.", own=True),
)

BOUNDS = (
    ("banks", "2 to 64"),
    ("pairs", "1 to 32"),
    ("a text line", "at most 256 bytes, not counting its end"),
    ("a session", "at most 2^26 bytes (64 MiB)"),
    ("an output that is read", "below 2^28 bytes (256 MiB)"),
    ("a kept session", "restart goes on from at most 2^24 commands"),
    ("workers", f"{WORKERS.low} to {WORKERS.high}, and {DEFAULT_WORKERS} if none is given"),
    ("commands of load", "1 to 20,000"),
)

# The exit statuses of the program, and those that ./fx has besides.
STATUSES = {
    0: "all went well; check says YES",
    1: "the command line is wrong",
    2: "the session's header has a fault; its line and reason are printed",
    3: "the session ended before an END line",
    4: "a read failed",
    5: "a write to standard output failed",
    6: "out of memory",
    7: "the input is too long",
    8: "check or payments says NO",
    10: "restart: a block of the journal file is damaged; its number is printed",
    11: "keep or restart: the disk failed, or another process has the journal file",
    12: "keep: the journal file holds a session already",
    13: "restart: the journal file holds no session",
    14: "restart: the journal file holds more than 2^24 commands",
}
REFUSED, NO_PACKAGE, GAVE_UP, STOPPED = 70, 73, 75, 130
OWN_STATUSES = {
    REFUSED: "the toolchain refused the sources, or there is no toolchain",
    NO_PACKAGE: "no package was made",
    GAVE_UP: "a run of the sources was given up, or keep or restart was called without the built program; nothing was written",
    STOPPED: "it was stopped by Ctrl-C",
}

EXAMPLES = (
    ("./fx serial < examples/morning.fx > morning.out", "a morning, in the order of its lines"),
    ("./fx check < morning.out", "YES: it is a right output"),
    ("./fx payments net < morning.out", "what the banks pay for that morning, netted over all of them"),
    ("./fx run --workers 8 < examples/morning.fx | ./fx check", "the same morning on eight threads, and checked"),
    ("./fx load 7 8 4 5000", "5,000 commands of 8 banks in 4 pairs, made from the number 7"),
    ("mkdir day; cd day; ../fx keep < ../examples/kept-first.fx", "the first half of a day, which is kept in day/fx.journal"),
    ("../fx restart < ../examples/kept-second.fx", "its second half, in the same folder"),
    ("../tools/feed < lines | ../fx restart >> told.txt", "and commands that come one by one, each answered after a pause"),
    ("tools/explain day.fx", "which lines of a session the program will refuse, and why"),
)

# What a run costs where the program is not built.
MOST_BYTES, MOST_MINUTES, START_SECONDS = 1 << 20, 10, 25
UNPROVED = (
    "no proved program of these sources is built (./fx build makes it, in about half an hour), so the toolchain runs the sources now, and checks "
    f"them as they run. That proves nothing, takes about {START_SECONDS} seconds to start, and gives up at 1 MiB of output or after {MOST_MINUTES} minutes"
)


def synopsis(word: Word, name: str = "./fx") -> str:
    """How a word is written, with what it reads."""
    parts = [name, word.word, *["|".join(word.forms)] * bool(word.forms), *(number.name for number in word.numbers)]
    parts += [f"[--workers {WORKERS.name}]"] * word.threaded + ["[DIR]"] * word.folder
    return " ".join(parts + [f"< {word.reads}"] * bool(word.reads))
