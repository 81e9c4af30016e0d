#!/usr/bin/env python3
"""Measures `serial` beside the order matcher of QuickFIX's examples on the same day orders, and prints the table of bench/RESULTS.md, with the
machine: bench/order_matcher.py SOURCE [PROGRAM].

SOURCE is the folder of QuickFIX's source (`apt-get source quickfix`), of whose examples/ordermatch the matcher is taken; wanted are g++ and Debian's
libquickfix-dev too. PROGRAM is crates/fx_cli/out/fx_cli if none is given. The matcher gets the orders as FIX messages and answers them by execution
reports, from a file in memory to a file in memory, with no session, socket or log; it knows no credit and no bank's own orders. The best of five
runs counts, made by turns, in seconds of processor time.
"""
import os
import subprocess
import sys
import tempfile

HERE = os.path.dirname(os.path.dirname(os.path.realpath(__file__)))
sys.dont_write_bytecode = True
sys.path.insert(0, f"{HERE}/bench")
from results import machine  # noqa: E402

RUNS = 5
# Banks, pairs, commands and the kind of bench/make_session.py: day orders alone.
SESSIONS = ((16, 8, 100_000, "orders"), (16, 8, 100_000, "rest"), (16, 8, 1_000_000, "orders"))


def built(source: str, folder: str) -> str:
    """The matcher's program, made here."""
    path, example = f"{folder}/order_matcher", f"{source}/examples/ordermatch"
    files = [f"{HERE}/bench/order_matcher.cpp", f"{example}/Market.cpp"]
    subprocess.run(["g++", "-O2", "-std=c++11", "-w", f"-I{example}", *files, "-lquickfix", "-o", path], check=True)
    return path


def message(number: int, line: str) -> str:
    """An order's line as a FIX message."""
    bank, side, pair, price, lots, _ = line.split()
    number_of_side = 1 if side == "BUY" else 2
    fields = f"35=D|49={bank}|56=HOST|34={number}|52=20260101-08:00:00|11={number}|21=1|55={pair}|54={number_of_side}|60=20260101-08:00:00|38={lots}|40=2|44={price}|59=0|"
    body = fields.replace("|", "\x01")
    text = f"8=FIX.4.2\x019={len(body)}\x01{body}"
    return f"{text}10={sum(text.encode()) % 256:03}\x01"


def seconds(command: list, source: str, sink: str) -> float:
    """The processor time of a run, in seconds. It has to end well."""
    with open(source, "rb") as text, open(sink, "wb") as out:
        run = subprocess.Popen(command, stdin=text, stdout=out, stderr=subprocess.DEVNULL)
        _, status, used = os.wait4(run.pid, 0)
    if status != 0:
        sys.exit(f"bench/order_matcher.py: {command[0]} ended with status {os.waitstatus_to_exitcode(status)}")
    return used.ru_utime + used.ru_stime


def row(program: str, matcher: str, folder: str, session: tuple) -> str:
    """The row of a session: what each takes, and how many orders a second that is."""
    banks, pairs, commands, kind = session
    text, messages, out = f"{folder}/in", f"{folder}/fix", f"{folder}/out"
    made = subprocess.run([sys.executable, f"{HERE}/bench/make_session.py", *map(str, session)], capture_output=True, text=True, check=True).stdout
    orders = made[made.index("START\n") + 6 : made.rindex("END\n")].splitlines()
    with open(text, "w") as file:
        file.write(made)
    with open(messages, "w") as file:
        file.writelines(f"{message(number, line)}\n" for number, line in enumerate(orders, 1))
    turns = [(seconds([program, "serial"], text, out), seconds([matcher], messages, out)) for _ in range(RUNS)]
    own, other = map(min, zip(*turns))
    return f"| {kind}: {commands:,} orders of {banks} banks in {pairs} pairs | {own:.2f} s, {commands / own:,.0f} | {other:.2f} s, {commands / other:,.0f} | {other / own:.1f} |"


def main() -> None:
    if len(sys.argv) < 2:
        sys.exit(__doc__)
    program = sys.argv[2] if len(sys.argv) > 2 else f"{HERE}/crates/fx_cli/out/fx_cli"
    if not os.access(program, os.X_OK):
        sys.exit(f"bench/order_matcher.py: no program at {program}; ./fx build makes it")
    print("| Session | `serial`, orders a second | QuickFIX's matcher, orders a second | Matcher to `serial` |")
    print("|---|---|---|---|", flush=True)
    with tempfile.TemporaryDirectory(dir="/dev/shm") as folder:
        matcher = built(sys.argv[1], folder)
        for session in SESSIONS:
            print(row(program, matcher, folder, session), flush=True)
    print(f"\nMachine: {machine()}.")


if __name__ == "__main__":
    main()
