"""Chance from a seed, the same on every machine and in every version of Python: splitmix64, written out."""

MASK = (1 << 64) - 1


class Chance:
    def __init__(self, seed):
        self.state = seed & MASK

    def word(self):
        self.state = (self.state + 0x9E3779B97F4A7C15) & MASK
        z = self.state
        z = ((z ^ (z >> 30)) * 0xBF58476D1CE4E5B9) & MASK
        z = ((z ^ (z >> 27)) * 0x94D049BB133111EB) & MASK
        return z ^ (z >> 31)

    def below(self, n):
        """A number from 0 to n - 1."""
        return self.word() % n

    def between(self, lo, hi):
        """A number from lo to hi, both included."""
        return lo + self.below(hi - lo + 1)

    def often(self, per_cent):
        """True in so many of a hundred cases."""
        return self.below(100) < per_cent

    def one(self, items):
        return items[self.below(len(items))]

    def some(self, items, k):
        """k different ones of the items, in the order in which they are drawn."""
        left = list(items)
        drawn = []
        for _ in range(k):
            drawn.append(left.pop(self.below(len(left))))
        return drawn
