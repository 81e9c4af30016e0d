"""The section on the clients of the banks, where the text has them behind its output: what each has, what it was refused, and what it traded."""
from typing import NamedTuple

from .scale import Scale, percent
from .tables import contradictions, few, grouped, legend_items, mean_price, table


class Taken(NamedTuple):
    """What a client has taken of its limit, told as the credit of a line is: filled and reserved are used, and what is free is left."""

    limit: int
    used: int
    left: int

    @property
    def share(self):
        return min(1.0, self.used / self.limit) if self.limit else (1.0 if self.used else None)


def taken(client):
    return Taken(client.limit, client.filled + client.reserved, max(0, client.free))


def clients_link(day):
    """The section's place in the list of the page's parts."""
    return "" if day.clients is None else '<a href="#clients">Clients</a>'


def clients_section(day):
    """The whole section, or nothing where the text has no such part."""
    if day.clients is None:
        return ""
    wrong = [what for client in day.clients for what in client.wrong]
    return f"""<section id="clients" aria-labelledby="clients-head">
<h2 id="clients-head">What clients have</h2>
<p>A client trades in its bank's name, under a limit of its own, which counts each fill of its orders, on either side, and what its resting orders have left. A share is what of the
limit is filled or reserved. <code>./fx check</code> is not asked about this part of the text: the page adds up the clients' fills itself, and compares the sums.</p>
{contradictions("client-differences", "What stands of clients contradicts itself:", wrong)}
{tables_of(day) if day.clients else "<p>None: no client was declared.</p>"}
</section>

"""


def tables_of(day):
    scale = Scale(list(map(taken, day.clients)))
    return f"""<h3>By client</h3>
<figure><div class="scroll tall">{clients_table(day, scale)}</div>
<figcaption>{clients_legend(day, scale)}</figcaption></figure>
<h3>By bank, beside its own lines</h3>
<div class="scroll tall">{banks_table(day)}</div>
<h3>Bought and sold</h3>
<div class="scroll tall">{traded_table(day)}</div>"""


def clients_table(day, scale):
    rows = []
    for client in day.clients:
        use = taken(client)
        amounts = map(grouped, (client.limit, client.filled, client.reserved, client.free))
        rows.append((day.banks[client.bank], client.name, *amounts, (percent(use), f"shade h{scale.level(use)}"), *map(grouped, (client.replies, client.short, client.barred))))
    heads = ("Bank", "Client", "#Limit", "#Filled", "#Reserved", "#Free", "#Share", "#Commands", "#Refused as short", "#Barred")
    return table("client-table", "The text lines CLIENT, in credit units; how many of its commands were answered, and how many orders and other commands were refused.", heads, rows)


def clients_legend(day, scale):
    levels = [scale.level(taken(client)) for client in day.clients]
    return f"The colours are those of the lines; their steps follow the shares of the clients, whose number they have. {legend_items(scale, levels)}"


def banks_table(day):
    """Of each bank with clients the sums over them, beside those over its lines."""
    rows = []
    for bank, name in enumerate(day.banks):
        own = [client for client in day.clients if client.bank == bank]
        if own:
            sums = [sum(column) for column in zip(*((client.limit, client.filled, client.reserved, client.free) for client in own))]
            rows.append((name, *map(grouped, (len(own), *sums, *lines_of(day, bank)))))
    heads = ("Bank", "#Clients", "#Their limits", "#Filled", "#Reserved", "#Free", "#Its limits on others", "#Others' limits on it", "#Used of its lines", "#Left of its lines")
    caption = "In credit units. A client's limit is no part of its bank's lines: all clients of a bank together may have more than these leave."
    return table("client-banks", caption, heads, rows)


def lines_of(day, bank):
    """A bank's limits on all others, theirs on it, and what is used and left of its lines."""
    ends = [(use, use.first != bank) for use in day.uses if bank in (use.first, use.second)]
    return [sum(column) for column in zip(*((use.limits[end], use.limits[not end], use.used, use.left) for use, end in ends))]


def traded_table(day):
    """What each client bought and sold by pair; of very many no more rows than the page has of a desk's notices."""
    rows = [row for client in day.clients for row in traded_rows(day, client)]
    if not rows:
        return "<p>No order of a client was filled.</p>"
    shown = rows[: day.kept]
    counted = f"The first {grouped(len(shown))} of {few(len(rows), 'row')}" if len(shown) < len(rows) else "The sums over the clients' text lines FILL"
    heads = ("Bank", "Client", "Pair", "#Bought lots", "#At", "#Sold lots", "#At", "#Bought less sold")
    return table("client-traded", f"{counted}; the averages are by lots.", heads, shown)


def traded_rows(day, client):
    for at in sorted({pair for pair, _ in client.traded}):
        sides = [client.traded.get((at, buys)) for buys in (True, False)]
        lots = [side.lots if side else 0 for side in sides]
        means = [mean_price(day.pairs[at], side.lots, side.quote) if side else "" for side in sides]
        yield (day.banks[client.bank], client.name, day.pairs[at].name, grouped(lots[0]), means[0], grouped(lots[1]), means[1], grouped(lots[0] - lots[1]))
