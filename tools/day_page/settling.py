"""What the banks pay at the end of a day, found from the desks' fills and the report's nets; the section that shows it; and the
comparison with the lists of `./fx payments`."""
from typing import NamedTuple

from .tables import few, grouped, table

FORMS = ("bilateral", "net")


class Payment(NamedTuple):
    """Who pays whom, by their places in the header, and what."""

    payer: int
    payee: int
    currency: str
    amount: int


def bilateral(day):
    """Each two banks one another: the one that is due less pays the other the difference."""
    paid = []
    for code in day.currencies:
        for bank, desk in enumerate(day.desks):
            for other in range(bank + 1, len(day.banks)):
                gets = desk.gets.get((other, code), 0)
                if gets:
                    paid.append(Payment(other, bank, code, gets) if gets > 0 else Payment(bank, other, code, -gets))
    return paid


def net(day):
    """Netted over all banks: the first bank that still owes pays the first that is still owed, the lesser of the two amounts."""
    paid = []
    for at, code in enumerate(day.currencies):
        nets = day.nets[at :: len(day.currencies)]
        owes, owed = [max(0, -amount) for amount in nets], [max(0, amount) for amount in nets]
        payer = payee = 0
        while payer < len(nets) and payee < len(nets):
            if not owes[payer]:
                payer += 1
            elif not owed[payee]:
                payee += 1
            else:
                amount = min(owes[payer], owed[payee])
                paid.append(Payment(payer, payee, code, amount))
                owes[payer] -= amount
                owed[payee] -= amount
    return paid


def lists(day):
    """Both lists, by their forms."""
    return {"bilateral": bilateral(day), "net": net(day)}


def text_of(day, paid):
    """A list as `./fx payments` writes it."""
    rows = [f"PAY {day.banks[one.payer]} {day.banks[one.payee]} {one.currency} {one.amount}" for one in paid]
    return "\n".join([*rows, f"PAYMENTS {len(rows)}"]) + "\n"


def compare_payments(day, told):
    """Compares the lists with the program's own text, by form."""
    other = [form for form, paid in lists(day).items() if told[form] != text_of(day, paid).encode()]
    day.paid_alike = not other
    for form in other:
        day.differs(f"what ./fx payments {form} prints is not what the fills come to")


def gross(day):
    """By currency what all fills move."""
    sums = dict.fromkeys(day.currencies, 0)
    for pair, (_, _, base, quote) in zip(day.pairs, day.volumes):
        sums[pair.base] += base
        sums[pair.quote] += quote
    return sums


def sums_table(day, paid):
    rows, whole = [], gross(day)
    for code in day.currencies:
        parts = [[one.amount for one in paid[form] if one.currency == code] for form in FORMS]
        rows.append((code, grouped(whole[code]), *(cell for part in parts for cell in (grouped(sum(part)), grouped(len(part))))))
    heads = ("Currency", "#Gross", "#Two by two", "#Payments", "#Netted", "#Payments")
    return table("settle-sums", "What all fills move of each currency, and what is paid of it in each of the two ways.", heads, rows)


def banks_table(day, paid):
    """What each bank pays and gets of each currency that it has a part in."""
    sums = {}
    for place, form in enumerate(FORMS):
        for one in paid[form]:
            for side, bank in ((0, one.payer), (1, one.payee)):
                sums.setdefault((bank, day.currencies.index(one.currency)), [0] * 4)[2 * place + side] += one.amount
    rows = [(day.banks[bank], day.currencies[at], *map(grouped, amounts)) for (bank, at), amounts in sorted(sums.items())]
    heads = ("Bank", "Currency", "#Pays two by two", "#Gets two by two", "#Pays netted", "#Gets netted")
    return table("settle-banks", "What each bank pays and gets of a currency, in both ways.", heads, rows)


def mark(day, credit, one):
    """Why a payment of the net list is marked: its banks never traded, or have no credit between them; empty if neither holds."""
    use = credit[min(one.payer, one.payee), max(one.payer, one.payee)]
    reasons = ["never traded"] * (not day.desks[one.payer].used.get(one.payee)) + ["no credit"] * (min(use.limits) == 0)
    return ", ".join(reasons)


def net_rows(day, paid):
    """The net list's rows, each with its mark."""
    credit = {(use.first, use.second): use for use in day.uses}
    for one in paid["net"]:
        told = mark(day, credit, one)
        yield day.banks[one.payer], day.banks[one.payee], one.currency, grouped(one.amount), (told, "mark" if told else "")


COMPARED = {
    True: "The lists are those of <code>./fx payments</code>, line by line.",
    False: "The lists are what this page finds, and <strong>not those of <code>./fx payments</code></strong>.",
    None: "The lists were found by this page alone and not compared with <code>./fx payments</code>.",
}


def settlement_section(day):
    """The section's text."""
    paid = lists(day)
    rows = list(net_rows(day, paid))
    marked = [row for row in rows if row[4][0]]
    heads = ("Payer", "Payee", "Currency", "#Amount", "Marked")
    told = f"<strong>{grouped(len(marked))} of {few(len(rows), 'payment')}</strong> of the net list {'is' if len(marked) == 1 else 'are'} between banks that never traded with each other or have no credit between them at the end of the day."
    parts = [
        f'<p id="settle-compared">{COMPARED[day.paid_alike]}</p><div class="scroll">{sums_table(day, paid)}</div>',
        f'<p id="settle-told"{" class=mark" if marked else ""}>{told}</p>',
    ]
    if marked:
        parts.append(f'<div class="scroll middle">{table("settle-marked", "Such a payment is an exposure that no limit covers, unless a settlement agent stands between the two.", heads, marked)}</div>')
    parts.append(f'<details><summary>What each bank pays and gets, as a table</summary><div class="scroll tall">{banks_table(day, paid)}</div></details>')
    parts.append(f'<details><summary>All payments of the net list, as a table</summary><div class="scroll tall">{table("settle-net", "In the order of the list.", heads, rows)}</div></details>')
    return "\n".join(parts)
