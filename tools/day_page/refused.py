"""The text lines that the program could not read, in words: what the output tells of them, and, with the session, the lines themselves."""
from reading.command_line import printable
from reading.market import FAULTS
from reading.meant import explained
from reading.session import BAD

from .tables import few, grouped, table


class OtherSession(Exception):
    """The output is not one of the session."""


def words_of_faults():
    """The words of each fault, by its number."""
    return [FAULTS.get(number, "") for number in range(max(FAULTS) + 1)]


def lines_of(session, day):
    """The session's text lines that the day's bad commands are, by bank and command: the number, the text, what is at fault and what was
    probably meant. Refuses a session that has another header, or other numbers of commands, strays or faults, than the output."""
    wanted, found, strange = {(bad.bank, bad.command): bad.fault for bad in day.bad}, {}, False
    for said in session.lines():
        fault = wanted.get((said.bank, said.order)) if said.kind == BAD else None
        if fault is not None:
            strange |= said.code != fault
            found[said.bank, said.order] = (said.number, printable(said.text), *explained(session.header, said))
    if strange or not session.started or session.header.lines() != day.header.lines() or not same_counts(session, day, len(found) == len(wanted)):
        raise OtherSession
    return found


def same_counts(session, day, all_found):
    """Whether the output has as many commands of each bank, and as many strays, as the session; where a read failed, no more."""
    sent, strays = [len(places) for places in day.places], day.strays
    if day.ending == "READ":
        return all_found and strays <= session.strays and all(one <= other for one, other in zip(sent, session.orders))
    return all_found and strays == session.strays and sent == session.orders


def refused_section(day, found):
    """The list of the bad commands; `found` is what `lines_of` answered, or None where no session was given."""
    count = day.kinds["BAD"]
    if not count:
        return "<p>None: each text line of a bank could be read.</p>"
    rows = [row(day, bad, found) for bad in day.bad]
    heads = ["#Command", "Bank", "#Own command", "#Notice", "Fault", *(["#Session's line", "Its text", "Probably meant"] if found is not None else [])]
    shown = f"The first {grouped(len(rows))} of {few(count, 'text line')}" if len(rows) < count else few(count, "text line")
    where = "" if found is not None else " The output does not repeat the line itself: with --session the page shows it."
    return table("bad", f"{shown}; each is a command of its bank that changes nothing.{where}", heads, rows)


def row(day, bad, found):
    notice = day.bad_notices[bad.bank, bad.command]
    fault = f"{bad.fault}: {FAULTS.get(bad.fault, 'no such fault')}"
    told = [grouped(bad.entry + 1), day.header.senders[bad.bank], grouped(bad.command), grouped(notice) if notice else "", (fault, "wide")]
    if found is None:
        return told
    number, text, _, meant = found[bad.bank, bad.command]
    return [*told, grouped(number), (text, "wide code"), (meant.removeprefix("probably meant: "), "wide")]
