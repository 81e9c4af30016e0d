"""Makes the page of a day: its tables, its texts, and the data that its choices are made from."""
import html
import json
import os
import re

from reading.output import ENDINGS

from . import charts
from .checking import RIGHT, UNCHECKED, WRONG
from .clients import clients_link, clients_section
from .credit_path import FOLLOWED
from .refused import refused_section, words_of_faults
from .scale import is_full, is_nearly_full, percent
from .settling import settlement_section
from .tables import average, contradictions, few, grouped, legend_items, mean_price, safe, table

HERE = os.path.dirname(os.path.realpath(__file__))
# How many lines the list of those nearest to the limit has, and up to how many currencies all charts of nets stand side by side.
NEAREST, CARDS = 12, 6
USE_HEADS = ("Bank", "Other", "#Bank's limit", "#Other's limit", "#Used", "#Left", "#Share")

CHIPS = {RIGHT: "\u2713 checked: a right output", WRONG: "\u2717 NOT A RIGHT OUTPUT", UNCHECKED: "? NOT CHECKED"}
MARKS = {RIGHT: "Checked: a right output", WRONG: "NOT A RIGHT OUTPUT", UNCHECKED: "NOT CHECKED"}
MARK_COLOURS = {RIGHT: "#12663a", WRONG: "#a3120a", UNCHECKED: "#7a4a00"}


def shade(day, use):
    """The part of the lesser limit that is used, in the colour that it has in the heat map."""
    return percent(use), f"shade h{day.scale.level(use)}"


def nearness(use):
    """Sorts the lines nearest to the limit first."""
    return (use.left == 0 and use.used > 0, use.share or 0, use.used)


def use_row(day, use):
    return (day.banks[use.first], day.banks[use.second], *map(grouped, (*use.limits, use.used, use.left)), shade(day, use))


def nearest_line(day):
    use = max(day.uses, key=nearness)
    return [use.first, use.second]


def nearest_table(day):
    chosen = sorted((use for use in day.uses if use.used), key=nearness, reverse=True)[:NEAREST]
    rows = [use_row(day, use) for use in chosen]
    caption = f"{len(rows)} of {few(len(day.uses), 'line')}, in credit units; the share is of the lesser limit."
    return table("nearest", caption, USE_HEADS, rows) if rows else "<p>No fill has used any line.</p>"


def uses_table(day):
    rows = [use_row(day, use) for use in day.uses]
    return table("uses", "The report's text lines USE, in credit units; the share is of the lesser limit.", USE_HEADS, rows)


def exposure_table(day):
    rows = []
    for bank, name in enumerate(day.banks):
        own = [use for use in day.uses if bank in (use.first, use.second)]
        top = max(own, key=nearness)
        other = day.banks[top.first + top.second - bank]
        full, near = sum(map(is_full, own)), sum(map(is_nearly_full, own))
        without = sum(use.share is None for use in own)
        nearest = (f"{other} {percent(top)}", f"shade h{day.scale.level(top)}") if top.used else ("none", "none")
        rows.append((name, grouped(sum(use.used for use in own)), grouped(sum(use.left for use in own)), str(full), str(near), str(without), nearest))
    heads = ("Bank", "#Used", "#Left", "#Used up", "#Over 90%", "#No credit", "Nearest")
    return table("exposure", "Credit units over all of a bank's lines; how many of them are used up, over 90% used, or without credit.", heads, rows, "sorts pin")


def totals_part(day):
    """The totals of banks at the end, and what the operator gave back; nothing in version 1."""
    if day.header.version == 1:
        return ""
    return f"<h3>Totals</h3>\n{totals_table(day)}\n<h3>Given back by the operator</h3>\n{settlements_table(day)}\n"


def totals_table(day):
    rows = []
    for bank, most in sorted(day.totals.items()):
        opened, used = day.header.totals.get(bank), day.used_by[bank]
        rows.append((day.banks[bank], "none" if opened is None else grouped(opened), grouped(most), grouped(used), grouped(most - used)))
    heads = ("Bank", "#Opening total", "#Total", "#Used with all", "#Left")
    return table("totals", "Credit units; a bank can use no more with all others than its total.", heads, rows) if rows else "<p>No bank has a total.</p>"


def settlements_table(day):
    shown = day.settlements[-day.kept :]
    rows = [(grouped(one.entry + 1), day.banks[one.first], day.banks[one.second], grouped(one.asked), grouped(one.given)) for one in shown]
    caption = f"{few(len(shown), 'settlement')} of {grouped(len(day.settlements))}, in credit units."
    heads = ("#Command", "Bank", "Other", "#Asked", "#Given back")
    return table("settlements", caption, heads, rows) if rows else "<p>Nothing was given back.</p>"


def nets_table(day):
    step = len(day.currencies)
    rows = [(name, *((grouped(amount), "owes" if amount < 0 else "") for amount in day.nets[bank * step : (bank + 1) * step])) for bank, name in enumerate(day.banks)]
    return table("nets-table", "The report's text lines NET: below zero the bank owes the currency.", ("Bank", *(f"#{code}" for code in day.currencies)), rows, "sorts pin")


def volumes_table(day):
    rows = []
    for pair, (fills, lots, base, quote) in zip(day.pairs, day.volumes):
        mean = mean_price(pair, lots, quote)
        rows.append((pair.name, grouped(fills), grouped(lots), grouped(base), grouped(quote), mean, grouped(lots * pair.weight)))
    heads = ("Pair", "#Fills", "#Lots", "#Base amount", "#Quote amount", "#Average price", "#Credit units used")
    return table("volumes", "The report's text lines VOLUME; the average is the quote amount by the base amount.", heads, rows)


def legend(day):
    """What the heat map's colours say, with how many lines have each."""
    levels = [day.scale.level(use) for use in day.uses]
    return f"The part of the lesser limit that is used, with the number of lines. The steps follow the shares of this day. {legend_items(day.scale, levels)}"


def followed(day):
    """The lines that the chart of the credit used follows: those nearest to the limit at the end, the nearest first."""
    chosen = sorted((use for use in day.uses if use.used), key=nearness, reverse=True)[:FOLLOWED]
    return [(use.first, use.second) for use in chosen]


def credit_legend(day, lines):
    items = "".join(
        f'<li><span class="swatch" style="background: var(--l{at})"></span>{day.banks[first]} and {day.banks[second]}</li>' for at, (first, second) in enumerate(lines)
    )
    cut = "" if day.parts == day.entries else f" The history is cut into {grouped(day.parts)} equal parts, and what stands is as of the end of each."
    return f'Above, the lines nearest to the limit at the end: <ul class="legend">{items}</ul>A share falls only where a limit is raised or use is given back.{cut}'


def credit_table(day, lines):
    """The same as rows: each part of the history in which the credit of the chart changed."""
    paths = [day.credit.line(first, second, day.opening) for first, second in lines]
    rows, before = [], None
    for part, whole in enumerate(day.credit.used_in_all()):
        told = [f"{grouped(used[part])} of {grouped(limits[part])}" for used, limits in paths]
        if [whole, *told] != before:
            rows.append((grouped(-(-(part + 1) * day.entries // day.parts)), grouped(whole), *told))
        before = [whole, *told]
    heads = ("#Up to command", "#Used in all", *(f"#{day.banks[first]} and {day.banks[second]}" for first, second in lines))
    return table("credit-table", "What was used in all, and what each line of the chart had used of the lesser limit, in credit units.", heads, rows)


def credit_part(day, tell):
    """The chart of the credit used over the history, and its table; nothing where no fill has used any."""
    lines = followed(day)
    if not lines:
        return "<p>No fill has used any line.</p>"
    tell("the credit used")
    drawn = f'<div class="wide">{charts.credit(day, lines)}</div><div class="narrow">{charts.credit(day, lines, charts.NARROW)}</div>'
    shown = f'<details><summary>The credit used, as a table</summary><div class="scroll tall">{credit_table(day, lines)}</div></details>'
    return f'<figure>{drawn}<figcaption>{credit_legend(day, lines)}</figcaption></figure>{shown}'


def figures(day):
    """The day in a few numbers."""
    fills, lots = sum(volume[0] for volume in day.volumes), sum(volume[1] for volume in day.volumes)
    full, near = sum(map(is_full, day.uses)), sum(map(is_nearly_full, day.uses))
    told = [
        ("Banks", grouped(len(day.banks)), ""),
        ("Pairs", grouped(len(day.pairs)), ""),
        ("Commands", grouped(day.entries), ""),
        ("Fills", grouped(fills), ""),
        ("Lots", grouped(lots), ""),
        ("Lines used up", grouped(full), "alarm" if full else ""),
        ("Lines over 90%", grouped(near), "alarm" if near else ""),
        ("Not read", grouped(day.kinds["BAD"]), ""),
        ("Strays", grouped(day.strays), ""),
        ("Ending", day.ending, "" if day.ending == "END" else "alarm"),
    ]
    if day.clients is not None:
        told.insert(1, ("Clients", grouped(len(day.clients)), "alarm" if any(client.wrong for client in day.clients) else ""))
    return "\n".join(f'<div class="{extra}"><dt>{name}</dt><dd>{value}</dd></div>' for name, value, extra in told)


def verdict_text(day, source, verdict):
    """What the check says, and of a text with clients also of what it says it."""
    told = verdict_words(verdict)
    if day.clients is None or verdict.kind == UNCHECKED:
        return told
    return f"{told} It was asked about the first {grouped(source.output)} bytes, which are the output, and not about what stands of clients behind them."


def verdict_words(verdict):
    if verdict.kind == UNCHECKED:
        return (
            "<strong>NOT CHECKED.</strong> Nobody has asked <code>./fx check</code> whether this text is a right output: the page was made with <code>--unchecked</code>."
            " Its figures may be wrong. Don't rely on them until the text has been checked."
        )
    if verdict.kind == RIGHT:
        return f"<strong>A right output.</strong> {who(verdict)} says <code>YES</code>: this text is the output of a legal history of the market."
    where = f", in text line {grouped(verdict.line)}: <code>{safe(verdict.text)}</code>" if verdict.line else ""
    return (
        f"<strong>NOT A RIGHT OUTPUT. Don't rely on any figure.</strong> {who(verdict)} says <code>NO {verdict.offset}</code>: the text is not the output of any legal history. It goes"
        f" wrong at byte {grouped(verdict.offset)}, counted from 0{where}. The page shows what the wrong text says, to help find out what happened to it."
    )


def who(verdict):
    """What answered the check."""
    return (
        "The proved program, asked by <code>./fx check</code>,"
        if verdict.proved
        else "<code>./fx check</code>, here the program's sources with run-time checks, and not the proved program that <code>./fx build</code> makes,"
    )


def desk_text(day, bank):
    desk = day.desks[bank]
    words = [f"{grouped(count)} {kind}" for kind, count in sorted(desk.kinds.items())]
    return f"{few(desk.commands, 'command')} sent, {few(desk.fills, 'fill')}; {few(desk.count, 'notice')} in all. Replies: {', '.join(words) or 'none'}."


def desk_data(day, bank):
    desk, traded = day.desks[bank], []
    for at, pair in enumerate(day.pairs):
        bought, sold = (desk.traded.get((at, buys), (0, 0, 0, 0)) for buys in (True, False))
        if bought[0] or sold[0]:
            means = [mean_price(pair, side[1], side[3]) for side in (bought, sold)]
            traded.append([pair.name, str(bought[1]), means[0], str(sold[1]), means[1], str(bought[1] - sold[1])])
    sent = [line.split(b" ", 1)[1].decode() for line in day.sent[bank]]
    return {
        "count": desk.count,
        "told": desk_text(day, bank),
        "traded": traded,
        "nets": [[code, str(amount)] for code, amount in zip(day.currencies, day.nets[bank * len(day.currencies) :]) if amount],
        "gets": gets_data(day, desk),
        "notices": b"\n".join(desk.notices).decode(),
        "sent": "\n".join(sent),
        "firstSent": len(day.places[bank]) - len(sent) + 1,
    }


def gets_data(day, desk):
    """By other bank: one behind the other, the number of a currency and what the desk's bank gets of it."""
    codes, told = {code: at for at, code in enumerate(day.currencies)}, {}
    for (other, code), amount in sorted(desk.gets.items()):
        if amount:
            told.setdefault(other, []).extend((codes[code], amount if abs(amount) < 1 << 53 else str(amount)))
    return told


def pair_data(day, at):
    pair, sums = day.pairs[at], day.fills[at]
    kept = [[entry + 1, ticks, lots, buyer, seller, int(buys)] for entry, _, ticks, lots, buyer, seller, buys in sorted(sums.newest)]
    return {
        "name": pair.name, "base": pair.base, "quote": pair.quote, "decimals": pair.decimals, "lot": pair.lot, "weight": pair.weight,
        "count": sums.count, "told": pair_text(pair, sums), "fills": kept, "bins": bins_data(day, at) if sums.count > sums.kept else [],
    }


def pair_text(pair, sums):
    if not sums.count:
        return "No fill."
    low, high = min(low for low in sums.low if low is not None), max(high for high in sums.high if high is not None)
    mean = average(pair, sum(sums.turnover), sums.lots)
    first, last = charts.price(pair, sums.first[2]), charts.price(pair, sums.last[2])
    ranged = f"from {charts.price(pair, low)} to {charts.price(pair, high)}, on average {mean} by lots"
    return f"{few(sums.count, 'fill')} of {few(sums.lots, 'lot')}, {ranged}; the first at {first}, the last at {last}."


def bins_data(day, at):
    """Each part of the history in which the pair has fills: its first and last command, and its sums."""
    pair, sums, rows = day.pairs[at], day.fills[at], []
    for place in range(sums.bins):
        if sums.fills[place]:
            first, last = -(-place * day.entries // sums.bins) + 1, -(-(place + 1) * day.entries // sums.bins)
            mean = average(pair, sums.turnover[place], sums.bought[place] + sums.sold[place])
            rows.append([first, last, sums.fills[place], sums.bought[place], sums.sold[place], sums.low[place], sums.high[place], mean])
    return rows


def data(day):
    """What the page's choices are made from. Amounts are texts, since they can be beyond what a browser counts exactly."""
    spans = {kind: {"left": charts.SPANS[width][0], "right": charts.SPANS[width][1], "width": width} for kind, width in (("wide", charts.WIDE), ("narrow", charts.NARROW))}
    told = {
        "banks": day.banks,
        "currencies": day.currencies,
        "kept": day.kept,
        "cuts": day.parts,
        "faults": words_of_faults(),
        "cards": CARDS,
        "common": max(day.currencies, key=lambda code: sum(code in (pair.base, pair.quote) for pair in day.pairs)),
        "busiest": max(zip(day.pairs, day.fills), key=lambda one: one[1].count)[0].name,
        "axis": {**spans, "most": max(2, day.entries)},
        "opening": {f"{of},{on}": str(limit) for (of, on), limit in day.opening.items()},
        "uses": [[use.first, use.second, *(str(amount) for amount in (*use.limits, use.used, use.left)), percent(use), day.scale.level(use)] for use in day.uses],
        "nearest": nearest_line(day),
        "books": [f"{' '.join(bids)}|{' '.join(asks)}" for bids, asks in day.books],
        "pairs": [pair_data(day, at) for at in range(len(day.pairs))],
        "desks": [desk_data(day, bank) for bank in range(len(day.banks))],
    }
    return json.dumps(told, separators=(",", ":")).replace("<", "\\u003c").replace("&", "\\u0026")


def net_charts(day, tell):
    cards = []
    for at, code in enumerate(day.currencies):
        tell(f"nets of {code}")
        column = day.nets[at :: len(day.currencies)]
        owed = grouped(sum(amount for amount in column if amount > 0))
        cards.append(f'<figure class="card net-card" data-currency="{code}"><h4>{code} <small>{owed} to be paid</small></h4><div class="wide">{charts.net(day, code)}</div>{net_bars(day, column)}</figure>')
    return "\n".join(cards)


def net_bars(day, column):
    """A currency's nets as bars that lie one below the other, for a narrow screen: the greatest payer first."""
    reach = max(map(abs, column)) or 1
    rows = [(name, [(grouped(amount), amount, reach)]) for amount, name in sorted(zip(column, day.banks))]
    return bars(rows, "nets")


def volume_bars(day):
    """Lots and credit by pair, as bars for a narrow screen."""
    lots = [volume[1] for volume in day.volumes]
    credit = [pair.weight * amount for pair, amount in zip(day.pairs, lots)]
    rows = [(pair.name, [(f"{few(one, 'lot')}", one, max(lots) or 1), (f"{few(other, 'credit unit')}", other, max(credit) or 1)]) for pair, one, other in zip(day.pairs, lots, credit)]
    return bars(rows, "volumes")


def bars(rows, kind):
    """A list of bars: of each row a name and, one below the other, texts with their amounts and the amount that fills the width. Amounts below
    zero go to the left of the middle, where the kind is of nets."""
    items = []
    for name, told in rows:
        parts = "".join(f'<span class="{bar_class(kind, place, amount)}" style="--part: {100 * abs(amount) / reach:.4g}%">{text}</span>' for place, (text, amount, reach) in enumerate(told))
        items.append(f"<li><b>{name}</b><span>{parts}</span></li>")
    return f'<ul class="narrow bars {kind}">{"".join(items)}</ul>'


def bar_class(kind, place, amount):
    if kind == "nets":
        return "pays" if amount < 0 else "gets"
    return ("lots", "credit")[place]


def fill_charts(day, tell):
    made = []
    for at, pair in enumerate(day.pairs):
        tell(f"fills of {pair.name}")
        drawn = day.fills[at].count
        for kind, width in (("wide", charts.WIDE), ("narrow", charts.NARROW)):
            chart = charts.fills(day, at, width) if drawn else ""
            made.append(f'<div class="fill-chart {kind}" data-pair="{pair.name}" hidden>{chart}</div>')
    return "\n".join(made)


def checked_bytes(day, source, verdict):
    """Which bytes of the text were checked."""
    if verdict.kind == UNCHECKED:
        return "These bytes were not checked."
    return "These bytes were the ones that were checked." if day.clients is None else f"The first {grouped(source.output)} of these bytes, the output, were the ones that were checked."


def made_text(day, source, verdict):
    """How each figure is got, and what a long day leaves out."""
    reduced = [f"the desk of {name}" for name, desk in zip(day.banks, day.desks) if desk.count > day.kept]
    binned = [pair.name for pair, sums in zip(day.pairs, day.fills) if sums.count > sums.kept]
    kept = (
        f"Of {few(len(reduced), 'desk')} the page has the last {grouped(day.kept)} notices alone, and of {few(len(binned), 'pair')} the last {grouped(day.kept)} fills and sums over"
        f" {few(day.fills[0].bins, 'equal part')} of the history; <code>--keep</code> takes more. All sums are over the whole day."
        if reduced or binned
        else "The page has every notice and every fill of the day."
    )
    agree = "do not all agree, as said above" if day.differences else "agree"
    return f"""<ul>
<li><strong>Not proved.</strong> <code>tools/day</code> made this page. The program that makes such texts and checks them is proved; that doesn't make the page proved.</li>
<li><strong>The text.</strong> <span id="source-name">{safe(source.name)}</span>, {grouped(source.size)} bytes in {grouped(day.lines)} text lines, SHA-256 <span class="hash" id="digest">{source.digest}</span>. {checked_bytes(day, source, verdict)}</li>
<li><strong>Limits, use, lines, nets and volumes</strong> are those of the text's report, and the local books are its section of that name. The page also adds up the fills of all desks: the sums and the report {agree}.</li>
<li><strong>What a bank is to receive from another, or owes it,</strong> is the sum over their fills on the bank's desk. There is no clearing house: banks pay one another.</li>
<li><strong>A fill</strong> is on two desks, and the page puts its two notices together. Its place in the history is the later of the last commands that the two desks had answered before it; its taker is the later of the two orders.{" A fill that a settlement made has its place there too, and not behind the settlement." if day.settlements else ""}</li>
<li><strong>What is left out.</strong> {kept}</li>
<li><strong>The ending</strong> {day.ending} says that {ENDINGS[day.ending]}.</li>
<li><strong>Whom it is for.</strong> The page shows the limits, books and desks of all banks, so it is for the venue alone. No bank may see another's.</li>
</ul>"""


def page(day, source, verdict, session=None, tell=lambda part: None):
    """The page's text; `session` has the session's own words of the bad commands, where it was given."""
    parts = {}
    for name in ("page.html", "page.css", "page.js"):
        with open(f"{HERE}/{name}", encoding="utf-8") as file:
            parts[name] = file.read()
    tell("the heat map")
    heat, (left, top, cell) = charts.heat(day)
    many = len(day.banks) > 16
    chosen = '<div class="controls"><label>Currency <select id="choose-net"><option value="">all</option></select></label></div>' if len(day.currencies) > CARDS else ""
    mark = "" if verdict.kind == RIGHT else MARKS[verdict.kind] + ": "
    put = {
        "title": safe(f"{mark}the day of {source.name}"), "name": safe(f"The day of {source.name}"), "css": parts["page.css"], "js": parts["page.js"],
        "mark": MARKS[verdict.kind], "mark_colour": MARK_COLOURS[verdict.kind], "short_hash": source.digest[:16],
        "verdict_class": verdict.kind + (" many" if many else ""), "verdict_role": "status" if verdict.kind == RIGHT else "alert",
        "chip": CHIPS[verdict.kind], "verdict": verdict_text(day, source, verdict), "differences": contradictions("differences", "The output contradicts itself:", day.differences), "figures": figures(day),
        "heat": heat, "heat_left": str(left), "heat_top": str(top), "heat_cell": str(cell), "legend": legend(day),
        "nearest": nearest_table(day), "exposure": exposure_table(day), "uses": uses_table(day), "totals": totals_part(day), "credit": credit_part(day, tell), "use_count": few(len(day.uses), "line"),
        "clients": clients_section(day), "clients_link": clients_link(day),
        "settlement": settlement_section(day), "nets": nets_table(day), "nets_controls": chosen, "nets_open": "" if many else " open", "net_charts": net_charts(day, tell),
        "volume": charts.volume(day), "volume_bars": volume_bars(day), "volumes": volumes_table(day), "refused": refused_section(day, session), "fill_charts": fill_charts(day, tell),
        "made": made_text(day, source, verdict), "data": data(day),
    }
    return re.sub(r"\{\{(\w+)\}\}", lambda found: put[found[1]], parts["page.html"])
