"""Pieces of the page's markup that several of its parts are made of."""
import html


def safe(text):
    return html.escape(str(text))


def grouped(number):
    return f"{number:,}".replace("-", "\u2212")


def few(count, one):
    return f"{grouped(count)} {one}{'' if count == 1 else 's'}"


def decimal(number, places):
    digits = f"{number:0{places + 1}}"
    return f"{digits[:-places]}.{digits[-places:]}" if places else digits


def average(pair, turnover, lots):
    """The average price of some lots, by lots, with one digit more than a price has; `turnover` is the sum of lots times ticks."""
    return decimal((10 * turnover + lots // 2) // lots, pair.decimals + 1) if lots else ""


def mean_price(pair, lots, quote):
    """The average price of some lots that came to this amount of quote currency."""
    return average(pair, quote // pair.unit, lots) if pair.unit else ""


def legend_items(scale, levels):
    """The steps of a scale, each with its colour and with how many of these levels have it."""
    items = "".join(f'<li><span class="swatch" style="background: var(--h{at})"></span>{name}: {grouped(levels.count(at))}</li>' for at, name in scale.names())
    return f'<ul class="legend">{items}</ul>'


def contradictions(name, heading, told):
    """A box with what a text tells twice and not alike; nothing where all agrees."""
    if not told:
        return ""
    shown = "".join(f"<li>{safe(what)}</li>" for what in told[:10])
    more = f"<p>and {grouped(len(told) - 10)} more.</p>" if len(told) > 10 else ""
    return f'<div class="differences" id="{name}"><p><strong>{heading}</strong></p><ul>{shown}</ul>{more}</div>'


def table(name, caption, heads, rows, classes="sorts"):
    """A table's markup. A heading that begins with # is one of numbers; a cell is a text, or a text with its classes."""
    numbers = [head.startswith("#") for head in heads]
    tops = "".join(f'<th scope="col"{" class=n" if number else ""}>{safe(head.lstrip("#"))}</th>' for head, number in zip(heads, numbers))
    body = []
    for row in rows:
        cells = []
        for place, cell in enumerate(row):
            text, extra = cell if isinstance(cell, tuple) else (cell, "")
            kinds = " ".join(filter(None, ("n" if numbers[place] else "", extra)))
            mark = f' class="{kinds}"' if kinds else ""
            cells.append(f'<th scope="row"{mark}>{safe(text)}</th>' if place == 0 else f"<td{mark}>{safe(text)}</td>")
        body.append(f"<tr>{''.join(cells)}</tr>")
    return f'<table id="{name}" class="{classes}"><caption>{safe(caption)}</caption><thead><tr>{tops}</tr></thead><tbody>\n' + "\n".join(body) + "\n</tbody></table>"
