"""Judges the words of ./fx by the table: whether they are in one of its forms, and if not, what is wrong."""
import difflib
import re

from command.table import WORDS, WORKERS, Number, Word

HELP = ("help", "--help", "-h")
BY_WORD = {word.word: word for word in WORDS}


def number_fault(number: Number, said: str, name: str) -> str:
    """What is wrong with a number; nothing where it is one within its bounds, in its one spelling."""
    if re.fullmatch(r"0|[1-9][0-9]{0,19}", said) and number.low <= int(said) <= number.high:
        return ""
    return f"{name} must be a number from {number.low} to {number.high}, without sign or leading zeros, not {said!r}"


def workers_fault(rest: list[str], threaded: bool) -> str:
    """What is wrong with the words behind the numbers."""
    if not rest:
        return ""
    if not threaded or rest[0] != "--workers":
        return f"unexpected argument {rest[0]!r}"
    if len(rest) == 1:
        return f"--workers needs a number from {WORKERS.low} to {WORKERS.high} after it"
    return number_fault(WORKERS, rest[1], "what follows --workers") or (f"unexpected argument {rest[2]!r}" if len(rest) > 2 else "")


def asks_for_help(words: list[str]) -> bool:
    """Whether the words ask for the page of help, alone or behind a word of ./fx."""
    return words[0] in HELP or words[0] in BY_WORD and words[1:] in (["--help"], ["-h"])


def form_fault(word: Word, rest: list[str]) -> str:
    """What is wrong with the words behind one that has forms."""
    wanted = " or ".join(word.forms)
    if not rest:
        return f"{word.word} needs {wanted} after it"
    if rest[0] not in word.forms:
        return f"what follows {word.word} is {wanted}, not {rest[0]!r}"
    if len(rest) == 1:
        return ""
    fault = f"unexpected argument {rest[1]!r}"
    if len(rest) == 2 and not rest[1].startswith("-"):
        return f"{fault}: the {word.reads.lower()} comes from standard input, as in ./fx {word.word} {rest[0]} < FILE"
    return fault


def fault_of(words: list[str]) -> str:
    """What is wrong with the words; nothing where they are in one of the forms."""
    if not words:
        return f"no command given; the commands are {', '.join(BY_WORD)}"
    if asks_for_help(words):
        return ""
    word = BY_WORD.get(words[0])
    if word is None:
        near = difflib.get_close_matches(words[0].lower(), BY_WORD, 1)
        return f"unknown command {words[0]!r}{f' (did you mean {near[0]}?)' if near else ''}; the commands are {', '.join(BY_WORD)}"
    if word.forms:
        return form_fault(word, words[1:])
    said = words[1 : 1 + len(word.numbers)]
    for number, text in zip(word.numbers, said):
        if fault := number_fault(number, text, number.name):
            return fault
    if len(said) < len(word.numbers):
        return f"{word.numbers[len(said)].name} is missing ({word.numbers[len(said)].what})"
    rest = words[1 + len(said) :]
    fault = workers_fault(rest[1:] if word.folder else rest, word.threaded)
    if fault and word.reads and rest and len(rest) == 1 and not rest[0].startswith("-"):
        return f"{fault}: the {word.reads.lower()} comes from standard input, as in ./fx {word.word} < FILE"
    return fault
