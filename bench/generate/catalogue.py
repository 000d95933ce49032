"""Catalogues as makers have them: families of options, requirements, exclusions, compatibility tables, and a dealer's picks.

Most are made around one build that meets every rule (the planted build), so that something can be built; in some the rules are
drawn without regard to it, and there it is left open whether anything can be built.
"""

from order import Order
from table import add_table, random_tuples

TABLE_OPTIONS = 9


class Catalogue:
    def __init__(self, chance, width, planted, clauses, tables, allowed, picks):
        self.chance = chance
        self.planted = planted
        self.order = Order(width)
        self.build = [0] * width
        self.families = []
        self.add_families()
        for _ in range(clauses):
            self.add_clause()
        for _ in range(tables):
            self.add_table(allowed)
        self.add_picks(picks)

    def add_families(self):
        """Families of two to eight neighbouring options. Of each the planted build takes as many as its group lets it."""
        start = 0
        while start < self.order.width:
            size = min(self.chance.between(2, 8), self.order.width - start)
            family = list(range(start, start + size))
            start += size
            self.families.append(family)
            self.add_group(family)

    def add_group(self, family):
        chance, size = self.chance, len(family)
        kind = chance.below(10)
        if kind < 5:
            lo, hi = 1, 1
        elif kind < 7:
            lo, hi = 0, 1
        elif kind < 9:
            lo = chance.between(1, max(1, size // 2))
            hi = chance.between(lo, min(size, lo + 2))
        else:
            lo, hi = 0, size
        for option in chance.some(family, chance.between(lo, hi)):
            self.build[option] = 1
        # a family in which everything is allowed is no rule
        if (lo, hi) != (0, size):
            self.order.group(lo, hi, family)

    def add_clause(self):
        """A requirement (an option needs one of a few others) or an exclusion (two options do not go together)."""
        chance = self.chance
        while True:
            of, other = chance.some(self.families, 2)
            if chance.often(55):
                needed = chance.some(other, min(len(other), chance.between(1, 3)))
                literals = [(chance.one(of), 0)] + [(option, 1) for option in needed]
            else:
                literals = [(chance.one(of), 0), (chance.one(other), 0)]
            if not self.planted or any(self.build[option] == wanted for option, wanted in literals):
                self.order.clause(*literals)
                return

    def add_table(self, allowed):
        """A table over options of three or more families; the planted build's combination is among the allowed ones."""
        chance = self.chance
        families = chance.some(self.families, min(len(self.families), chance.between(3, 5)))
        near = [option for family in families for option in family]
        if len(near) < TABLE_OPTIONS:
            near = list(range(self.order.width))
        options = sorted(chance.some(near, TABLE_OPTIONS))
        tuples = random_tuples(chance, TABLE_OPTIONS, allowed)
        if self.planted or not tuples:
            tuples.add(tuple(self.build[option] for option in options))
        add_table(self.order, options, tuples)

    def add_picks(self, picks):
        """Mostly taken options of the planted build, and a few that are left out: a dealer rather says what he wants."""
        chance = self.chance
        for option in chance.some(range(self.order.width), picks):
            value = self.build[option]
            if not self.planted:
                value = 1 if chance.often(60) else 0
            self.order.pick(option, value)


def catalogue(chance, number):
    """The catalogue of that number: sizes, tightness and tables differ from number to number."""
    width = 60 + (number * 29) % 69
    level = number % 3
    planted = number % 7 != 6
    clauses = width * chance.between(100 + 40 * level, 160 + 60 * level) // 100
    tables = chance.between(2 + 3 * level, 5 + 3 * level)
    allowed = chance.between(45 - 12 * level, 60 - 12 * level)
    picks = chance.between(0, 6)
    return Catalogue(chance, width, planted, clauses, tables, allowed, picks).order
