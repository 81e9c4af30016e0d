"""Reads crates.txt, for all who go through the repository's crates."""
import os

HERE = os.path.dirname(os.path.dirname(os.path.dirname(os.path.realpath(__file__))))


def read_crates():
    """Each crate of the repository, in the order of the lines, with all that its line names: crates of the repository and of the kit."""
    with open(f"{HERE}/crates.txt", encoding="utf-8") as file:
        lines = [line.split("#")[0].split(":") for line in file]
    return {line[0].split()[0]: line[1].split() for line in lines if len(line) == 2}
