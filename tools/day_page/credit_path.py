"""How the credit between each two banks was used over the history, by equal parts of it."""
from array import array

# How many lines, those nearest to the limit at the end, are followed by themselves.
FOLLOWED = 5


class CreditPath:
    """What each two banks used in each part of the history, and the limits that were set in it. Parts are counted from 0; two banks stand in
    header order. What is held is bounded by the parts and the banks."""

    def __init__(self, parts, banks):
        self.parts, self.fills, self.limits = parts, {}, {}
        self.asked = [(array("I"), array("B")) for _ in range(banks)]

    def ask(self, bank, command, other):
        """Notes that a command of a bank sets its limit on another; the reply tells to what."""
        commands, others = self.asked[bank]
        commands.append(command)
        others.append(other)

    def limit_told(self, bank, at, command, part, limit):
        """Takes the reply to a bank's `at`-th LINE, which has to be the one to its command of that number."""
        commands, others = self.asked[bank]
        if at < len(commands) and commands[at] == command:
            self.limits.setdefault((bank, others[at]), {})[part] = limit

    def fill(self, first, second, part, amount):
        used = self.fills.setdefault((min(first, second), max(first, second)), [0] * self.parts)
        used[part] += amount

    def give_back(self, first, second, part, amount):
        """Takes what a settlement gave back of what two banks had used."""
        self.fill(first, second, part, -amount)

    def used_in_all(self):
        """What all lines together have used at the end of each part."""
        return running(map(sum, zip(*self.fills.values()))) if self.fills else [0] * self.parts

    def line(self, first, second, opening):
        """What two banks have used at the end of each part, and the lesser of their limits then."""
        used = running(self.fills.get((first, second), [0] * self.parts))
        here, there = (self.limit(pair, opening.get(pair, 0)) for pair in ((first, second), (second, first)))
        return used, [min(both) for both in zip(here, there)]

    def limit(self, pair, limit):
        """One bank's limit on another at the end of each part."""
        told, every = self.limits.get(pair, {}), []
        for part in range(self.parts):
            limit = told.get(part, limit)
            every.append(limit)
        return every


def running(amounts):
    """The sums up to each amount."""
    total, sums = 0, []
    for amount in amounts:
        total += amount
        sums.append(total)
    return sums
