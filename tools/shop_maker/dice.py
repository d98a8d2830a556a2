"""Numbers at random, the same from the same seed on any machine and in any version of Python (splitmix64)."""

MASK = (1 << 64) - 1


class Dice:
    def __init__(self, seed):
        self.state = seed & MASK

    def number(self):
        self.state = (self.state + 0x9E3779B97F4A7C15) & MASK
        mixed = self.state
        mixed = ((mixed ^ (mixed >> 30)) * 0xBF58476D1CE4E5B9) & MASK
        mixed = ((mixed ^ (mixed >> 27)) * 0x94D049BB133111EB) & MASK
        return mixed ^ (mixed >> 31)

    def between(self, least, most):
        """A number from least to most."""
        return least + self.number() % (most - least + 1)

    def chance(self, percent):
        return self.between(1, 100) <= percent

    def pick(self, choices):
        return choices[self.between(0, len(choices) - 1)]

    def shuffled(self, values):
        rest = list(values)
        return [rest.pop(self.between(0, len(rest) - 1)) for _ in range(len(rest))]
