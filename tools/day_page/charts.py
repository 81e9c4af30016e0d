"""Draws the page's charts with matplotlib, as SVG that stands in the page and takes its colours from it.

Each colour of a chart is a stand-in for a custom property of the page's style sheet, so one chart serves light, dark and paper.
"""
import io
import logging
import re

logging.getLogger("matplotlib").setLevel(logging.ERROR)  # It would tell of its cache on standard error.
import matplotlib
from matplotlib.backends.backend_svg import FigureCanvasSVG
from matplotlib.figure import Figure
from matplotlib.patches import PathPatch
from matplotlib.path import Path
from matplotlib.ticker import FuncFormatter, MaxNLocator

from .credit_path import FOLLOWED
from .scale import LEVELS, OWN, percent

matplotlib.rcParams["svg.fonttype"] = "none"
matplotlib.rcParams["svg.hashsalt"] = "day"
matplotlib.rcParams["path.simplify"] = False

NAMES = ["ink", "muted", "grid", "surface", "buy", "sell", "none", "bar"]
COLOURS = {name: f"#01010{at}" for at, name in enumerate(NAMES)}
COLOURS |= {f"h{level}": f"#02020{level}" for level in range(LEVELS)}
COLOURS |= {f"t{level}": f"#03030{level}" for level in range(LEVELS)}
COLOURS |= {f"l{line}": f"#04040{line}" for line in range(FOLLOWED)}
POINTS_PER_INCH = 72
# A chart over the page's whole width, and one over the width of a narrow screen.
WIDE, NARROW = 860, 264


class Chart:
    """A figure of so many points, in which axes stand by points from the upper left corner."""

    def __init__(self, name, width, height):
        self.name, self.width, self.height = name, width, height
        self.figure = Figure(figsize=(width / POINTS_PER_INCH, height / POINTS_PER_INCH))
        self.figure.patch.set_visible(False)
        FigureCanvasSVG(self.figure)

    def axes(self, left, top, right, bottom, spines=("bottom",), **how):
        width, height = self.width, self.height
        box = [left / width, 1 - bottom / height, (right - left) / width, (bottom - top) / height]
        axes = self.figure.add_axes(box, **how)
        axes.patch.set_visible(False)
        for side, spine in axes.spines.items():
            spine.set_visible(side in spines)
            spine.set_color(COLOURS["muted"])
            spine.set_linewidth(0.8)
        axes.tick_params(colors=COLOURS["muted"], labelcolor=COLOURS["ink"], labelsize=9, length=3, width=0.8)
        return axes

    def svg(self, label):
        """The chart's text, with names of its own, as an image of that label."""
        out = io.StringIO()
        self.figure.savefig(out, format="svg", metadata={"Date": None, "Creator": None, "Format": None, "Type": None})
        return self.embedded(out.getvalue(), label)

    def embedded(self, text, label):
        """A drawing as it may stand in a page: without a prologue and a style of its own, and with no name twice."""
        text = text[text.index("<svg") :]
        text = re.sub(r"<defs>\s*<style.*?</style>\s*</defs>|<metadata>.*?</metadata>", "", text, flags=re.S)
        used = set(re.findall(r"(?:url\(|href=\")#([^\")]+)", text))
        text = re.sub(r' id="([^"]*)"', lambda it: f' id="{self.name}-{it[1]}"' if it[1] in used else "", text)
        text = re.sub(r"(url\(|href=\")#", rf"\1#{self.name}-", text)
        text = re.sub(r"font: (?:([\w]+) )?([\d.]+)px [^;\"]*", lambda it: f"font-size: {it[2]}px" + (f"; font-weight: {it[1]}" if it[1] else ""), text)
        text = re.sub(r' transform="rotate\(-0 [^"]*"', "", text)
        for name, colour in COLOURS.items():
            text = text.replace(colour, f"var(--{name})")
        text = re.sub(r" (d|x|y)=\"([^\"]*)\"", lambda it: f' {it[1]}="{shorter(it[2])}"', text)
        head = f'<svg class="chart" role="img" aria-label="{label}" viewBox="0 0 {self.width} {self.height}" style="width: {self.width * 4 / 3:.0f}px"'
        return re.sub(r"<svg[^>]*", head, text, count=1)


def shorter(numbers):
    """Places in a path, with two decimals at most."""
    return re.sub(r"\d+\.\d+", lambda it: f"{float(it[0]):.2f}".rstrip("0").rstrip("."), " ".join(numbers.split()))


def boxes(places):
    """One path of many boxes (left, low, right, high); None where there is none."""
    points, codes = [], []
    for left, low, right, high in places:
        points += [(left, low), (right, low), (right, high), (left, high), (left, low)]
        codes += [Path.MOVETO, Path.LINETO, Path.LINETO, Path.LINETO, Path.CLOSEPOLY]
    return Path(points, codes) if points else None


def strokes(places):
    """One path of many lines (from x, from y, to x, to y); None where there is none."""
    points = [point for x, y, to_x, to_y in places for point in ((x, y), (to_x, to_y))]
    return Path(points, [Path.MOVETO, Path.LINETO] * len(places)) if points else None


def put(axes, path, colour, edge=None, width=0.0):
    if path:
        axes.add_patch(PathPatch(path, facecolor=COLOURS[colour], edgecolor=COLOURS[edge] if edge else "none", linewidth=width))


def put_strokes(axes, path, colour, width):
    if path:
        axes.add_patch(PathPatch(path, fill=False, edgecolor=COLOURS[colour], linewidth=width, capstyle="butt"))


def short(amount):
    """An amount in few digits, as 1.2M; beyond what has a name as 1.2e15."""
    size, sign = abs(amount), "\u2212" if amount < 0 else ""
    for unit, name in ((10**12, "tn"), (10**9, "bn"), (10**6, "M"), (10**3, "k")):
        if unit <= size < 1000 * unit:
            return f"{sign}{size / unit:.4g}{name}" if size >= 999.5 * unit else f"{sign}{size / unit:.3g}{name}"
    return f"{sign}{size:.2e}".replace("e+", "e") if size >= 10**15 else f"{sign}{size:g}"


def heat(day):
    """The lines used between banks: the drawing, and where its cells lie (left, top, size of a cell)."""
    count = len(day.banks)
    cell = max(12, min(76, 420 // count))
    left, top = 62, 50 if count > 12 else 26
    chart = Chart("heat", left + count * cell + 6, top + count * cell + 6)
    axes = chart.axes(left, top, left + count * cell, top + count * cell, spines=())
    axes.set_xlim(0, count)
    axes.set_ylim(count, 0)
    places = [[] for _ in range(LEVELS)]
    places[OWN] = [(at, at, at + 1, at + 1) for at in range(count)]
    for use in day.uses:
        level = day.scale.level(use)
        for row, column in ((use.first, use.second), (use.second, use.first)):
            places[level].append((column, row, column + 1, row + 1))
            if cell >= 28:
                told, size = (percent(use), 11 if cell > 40 else 9) if use.share is not None else ("no credit" if cell > 60 else "none", 9)
                axes.text(column + 0.5, row + 0.5, told, ha="center", va="center", fontsize=size, color=COLOURS[f"t{level}"])
    for at, boxed in enumerate(places):
        put(axes, boxes(boxed), f"h{at}", "surface", 1.0 if cell > 20 else 0.5)
    size = 10 if cell > 16 else 7.5
    axes.set_xticks([])
    axes.set_yticks([])
    space = 4 / cell
    for at, name in enumerate(day.banks):
        axes.text(at + 0.5, -space, name, rotation=90 if count > 12 else 0, ha="center", va="bottom", fontsize=size, color=COLOURS["ink"])
        axes.text(-space, at + 0.5, name, ha="right", va="center", fontsize=size, color=COLOURS["ink"])
    return chart.svg("Heat map: how much of the lesser limit each two banks have used"), (left, top, cell)


def net(day, currency):
    """What each bank gets and pays of a currency, the greatest payer first."""
    at, step = day.currencies.index(currency), len(day.currencies)
    amounts = sorted((day.nets[bank * step + at], name) for bank, name in enumerate(day.banks))
    count = len(amounts)
    width, height = (max(240, 50 + 48 * count), 190) if count <= 16 else (WIDE, 230)
    chart = Chart(f"net-{currency}", width, height)
    axes = chart.axes(50, 6, width - 4, height - (18 if count <= 16 else 36), spines=())
    axes.axhline(0, color=COLOURS["muted"], linewidth=1)
    for sign, colour in ((1, "buy"), (-1, "sell")):
        put(axes, boxes([(x - 0.36, 0, x + 0.36, amount) for x, (amount, _) in enumerate(amounts) if amount * sign > 0]), colour)
    reach = max(abs(amount) for amount, _ in amounts) or 1
    axes.set_xlim(-0.6, count - 0.4)
    axes.set_ylim(-1.32 * reach, 1.32 * reach)
    for x, (amount, _) in enumerate(amounts if count <= 16 else []):
        below = amount < 0
        place = {"textcoords": "offset points", "ha": "center", "va": "top" if below else "bottom"}
        axes.annotate(short(amount), (x, amount), (0, -3 if below else 3), fontsize=9, color=COLOURS["ink"], **place)
    names_along(axes, [name for _, name in amounts], count > 16, 9 if count <= 16 else 7.5)
    amounts_on(axes.yaxis)
    axes.grid(axis="y", color=COLOURS["grid"], linewidth=0.7)
    axes.set_axisbelow(True)
    return chart.svg(f"Bars: what each bank gets and pays of {currency}, net")


def names_along(axes, names, upright, size):
    """Puts a name below each whole place of the horizontal axis. As ticks of matplotlib they would take three times as long."""
    axes.set_xticks([])
    for place, name in enumerate(names):
        axes.text(place, -0.03, name, transform=axes.get_xaxis_transform(), rotation=90 if upright else 0, ha="center", va="top", fontsize=size, color=COLOURS["ink"])


def amounts_on(axis, bins=5):
    axis.set_major_locator(MaxNLocator(bins, integer=True))
    axis.set_major_formatter(FuncFormatter(lambda amount, _: short(amount)))


def volume(day):
    """Lots, and what they use of credit, by pair."""
    count, row = len(day.pairs), 20
    height = 40 + row * count
    chart = Chart("volume", WIDE, height)
    lots = [volume[1] for volume in day.volumes]
    credit = [pair.weight * amount for pair, amount in zip(day.pairs, lots)]
    for left, right, amounts, title in ((62, 446, lots, "Lots"), (476, WIDE, credit, "Credit units used")):
        axes = chart.axes(left, 24, right, height - 8, spines=("left",))
        put(axes, boxes([(0, at - 0.32, amount, at + 0.32) for at, amount in enumerate(amounts) if amount]), "bar" if left < 100 else "h4")
        axes.set_xlim(0, 1.22 * (max(amounts) or 1))
        axes.set_ylim(count - 0.5, -0.5)
        for at, amount in enumerate(amounts):
            axes.annotate(f"{amount:,}" if amount < 10**9 else short(amount), (amount, at), (4, 0), textcoords="offset points", va="center", fontsize=9, color=COLOURS["ink"])
        axes.set_yticks(range(count), [pair.name for pair in day.pairs] if left < 100 else [])
        axes.set_xticks([])
        axes.tick_params(axis="y", length=0)
        axes.set_title(title, loc="left", y=1, fontsize=10, fontweight="bold", color=COLOURS["ink"])
    return chart.svg("Bars: lots by pair, and the credit units that they used")


# Where the part of a chart over the history begins and ends, by the chart's width.
SPANS = {WIDE: (72, WIDE - 22), NARROW: (48, NARROW - 6)}


def over_history(day, name, width):
    """A chart of two parts over the history, one above the other, of so many points in width."""
    chart, (left, right) = Chart(name, width, 350), SPANS[width]
    above = chart.axes(left, 18, right, 200, spines=("left",))
    below = chart.axes(left, 226, right, 318, spines=("left",), sharex=above)
    above.set_xlim(0.5, max(2, day.entries) + 0.5)
    above.tick_params(labelbottom=False, bottom=False)
    below.xaxis.set_major_locator(MaxNLocator(10 if width == WIDE else 3, integer=True))
    below.xaxis.set_major_formatter(FuncFormatter(lambda place, _: f"{place:,.0f}" if width == WIDE else short(place)))
    below.set_xlabel(f"command of the history, of {day.entries:,}", fontsize=9, color=COLOURS["muted"])
    return chart, above, below


def titled(axes, title):
    # With its place told, the library doesn't measure all ticks to find one, which takes a third of the drawing.
    axes.set_title(title, loc="left", y=1, fontsize=9, pad=4, color=COLOURS["muted"])
    axes.grid(color=COLOURS["grid"], linewidth=0.7)
    axes.set_axisbelow(True)


def fills(day, at, width=WIDE):
    """A pair's fills over the history: prices above, lots below, those that a taker bought up and those it sold down."""
    pair, sums = day.pairs[at], day.fills[at]
    chart, prices, lots = over_history(day, f"fills-{at}-{width}", width)
    (draw_each if sums.count <= sums.kept else draw_bins)(prices, lots, sums, day.entries)
    prices.set_ylim(*prices_range(sums))
    prices.yaxis.set_major_locator(MaxNLocator(6, integer=True))
    prices.yaxis.set_major_formatter(FuncFormatter(lambda ticks, _: price(pair, round(ticks))))
    lots.axhline(0, color=COLOURS["muted"], linewidth=0.8)
    lots.yaxis.set_major_locator(MaxNLocator(4, integer=True))
    lots.yaxis.set_major_formatter(FuncFormatter(lambda amount, _: short(abs(amount))))
    titled(prices, "Price")
    titled(lots, "Lots")
    return chart.svg(f"Fills of {pair.name} over the history, by price and lots")


def credit(day, followed, width=WIDE):
    """The credit used over the history: which part of the lesser limit the followed lines have used above, what all lines have used below."""
    chart, shares, total = over_history(day, f"credit-{width}", width)
    ends = [0.5] + [(part + 1) * day.entries / day.parts + 0.5 for part in range(day.parts)]
    for colour, (first, second) in enumerate(followed):
        used, limits = day.credit.line(first, second, day.opening)
        path = [0] + [100 * amount / limit if limit else 0 for amount, limit in zip(used, limits)]
        shares.step(ends, path, where="pre", color=COLOURS[f"l{colour}"], linewidth=2.6 - 0.35 * colour)
    shares.set_ylim(-3, 104)
    shares.yaxis.set_major_locator(MaxNLocator(5, integer=True))
    shares.yaxis.set_major_formatter(FuncFormatter(lambda share, _: f"{share:.0f}%"))
    whole = [0] + day.credit.used_in_all()
    put(total, boxes([(left, 0, right, amount) for left, right, amount in zip(ends, ends[1:], whole[1:]) if amount]), "bar")
    total.set_ylim(0, 1.08 * (max(whole) or 1))
    amounts_on(total.yaxis, 4)
    titled(shares, "Used part of the lesser limit")
    titled(total, "Credit units used, all lines")
    return chart.svg("Credit used over the history: the lines nearest to the limit, and all lines together")


def prices_range(sums):
    low, high = min(filter(None, sums.low)), max(filter(None, sums.high))
    room = max(1, (high - low) * 0.08)
    return low - room, high + room


def draw_each(prices, lots, sums, entries):
    """Each fill by itself: a mark at its price, and a bar of its lots. Fills of one command share its bar, one on the other."""
    width = max(entries / 400, 0.3)
    size = 9 if sums.count < 40 else 6 if sums.count < 150 else 4
    for buys, colour, mark in ((True, "buy", "^"), (False, "sell", "v")):
        chosen = [fill for fill in sums.newest if fill[6] == buys]
        places, ticks = [fill[0] + 1 for fill in chosen], [fill[2] for fill in chosen]
        prices.plot(places, ticks, mark, color=COLOURS[colour], markersize=size, markeredgewidth=0)
        by_entry = {}
        for fill in chosen:
            by_entry[fill[0]] = by_entry.get(fill[0], 0) + fill[3] * (1 if buys else -1)
        put(lots, boxes([(entry + 1 - width, 0, entry + 1 + width, amount) for entry, amount in by_entry.items()]), colour)
    lots.autoscale(axis="y")


def draw_bins(prices, lots, sums, entries):
    """Fills by bins of the history: from the lowest to the highest price, with the average, and the lots of each bin."""
    step = entries / sums.bins
    used = [at for at in range(sums.bins) if sums.fills[at]]
    put_strokes(prices, strokes([((at + 0.5) * step + 0.5, sums.low[at] - 0.15, (at + 0.5) * step + 0.5, sums.high[at] + 0.15) for at in used]), "none", 2.2)
    average = [(at, sums.turnover[at] / (sums.bought[at] + sums.sold[at])) for at in used]
    prices.plot([(at + 0.5) * step + 0.5 for at, _ in average], [ticks for _, ticks in average], "-", color=COLOURS["ink"], linewidth=1.3)
    for amounts, sign, colour in ((sums.bought, 1, "buy"), (sums.sold, -1, "sell")):
        put(lots, boxes([((at + 0.1) * step + 0.5, 0, (at + 0.9) * step + 0.5, sign * amounts[at]) for at in used if amounts[at]]), colour)
    lots.autoscale(axis="y")


def price(pair, ticks):
    """A price's text."""
    if not pair.decimals:
        return str(ticks)
    digits = f"{abs(ticks):0{pair.decimals + 1}}"
    return f"{'-' if ticks < 0 else ''}{digits[: -pair.decimals]}.{digits[-pair.decimals :]}"
