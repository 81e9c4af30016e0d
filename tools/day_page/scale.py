"""How full the credit between two banks is: as a share in words, and as a step of a scale that follows the day's own shares."""
import math

# The steps of the colours: nothing used, five bands of shares (1 to 5), used up, no credit; and the cell of a bank with itself.
NOTHING, USED_UP, NO_CREDIT, OWN, LEVELS = 0, 6, 7, 8, 9
# Up to which parts of the day's lines, from the emptiest to the fullest, the bands go: a quarter, a half, and so on.
PARTS = (0.25, 0.5, 0.75, 0.95, 1)
# Where a band can end, in percent.
ROUND = (0.01, 0.02, 0.05, 0.1, 0.2, 0.5, 1, 2, 3, 5, 7, 10, 15, 20, 25, 30, 40, 50, 60, 70, 80, 90, 95, 99)
# A line over this share is told as nearly used up, whatever the day's scale.
NEARLY = 0.9
# In which of the five colours the bands stand where there are fewer than five, so that the fullest one always has the strongest.
COLOURS_OF = {1: (5,), 2: (2, 5), 3: (1, 3, 5), 4: (1, 2, 4, 5), 5: (1, 2, 3, 4, 5)}


def percent(use):
    """The part of the lesser limit that is used, in whole percent, which say 0 and 100 only where nothing is used or left."""
    if use.share is None:
        return "\u2013"
    if use.used and use.left and not 0.5 <= 100 * use.share < 99.5:
        return "<1%" if use.share < 0.5 else ">99%"
    return f"{100 * use.share:.0f}%"


def is_full(use):
    """Whether a line was there and nothing of it is left."""
    return use.share is not None and use.left == 0


def is_nearly_full(use):
    return use.share is not None and use.left > 0 and use.share > NEARLY


class Scale:
    """The bands of shares between nothing and all. They end at round percentages that a quarter of the day's lines, a half, and so on are
    below, so that a day on which little was used shows its differences as well as one on which much was."""

    def __init__(self, uses):
        shares = sorted(100 * use.share for use in uses if use.share is not None and use.used and use.left)
        wanted = (shares[math.ceil(part * len(shares)) - 1] for part in PARTS) if shares else ()
        ends = (next((end for end in ROUND if end >= share), 100) for share in wanted)
        self.ends = sorted(set(ends))
        self.colours = COLOURS_OF.get(len(self.ends), ())

    def level(self, use):
        """The step that the credit between two banks stands at."""
        if use.share is None:
            return NO_CREDIT
        if use.left == 0:
            return USED_UP
        if not use.used:
            return NOTHING
        return next(colour for end, colour in zip(self.ends, self.colours) if 100 * use.share <= end)

    def names(self):
        """Each step that the day's lines can stand at, with its words."""
        bands = [(colour, f"up to {end:g}%" if end < 100 else "below 100%") for end, colour in zip(self.ends, self.colours)]
        return [(NOTHING, "nothing used"), *bands, (USED_UP, "used up"), (NO_CREDIT, "no credit")]
