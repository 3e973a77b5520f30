"""The drawn numbers of made workloads: the same on every machine and with every Python."""


class Random:
    """A linear congruence, of which the upper 15 bits are taken."""

    def __init__(self, seed):
        self.x = seed

    def draw(self, below):
        self.x = (self.x * 1103515245 + 12345) % 2**31
        return self.x // 65536 % below

    def choice(self, items):
        return items[self.draw(len(items))]

    def weighted(self, parts):
        """One of the pairs of a weight and a thing, drawn by the weights; the thing."""
        at = self.draw(sum(weight for weight, _ in parts))
        for weight, thing in parts:
            if at < weight:
                return thing
            at -= weight
        raise AssertionError
