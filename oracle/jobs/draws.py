"""Draws for the generator: SplitMix64, so that a seed gives the same jobs
with every Python."""

MASK = (1 << 64) - 1


class Draws:
    def __init__(self, seed):
        self.state = seed & MASK

    def getrandbits(self, n):
        """Up to 64 bits."""
        self.state = (self.state + 0x9E3779B97F4A7C15) & MASK
        z = self.state
        z = (z ^ z >> 30) * 0xBF58476D1CE4E5B9 & MASK
        z = (z ^ z >> 27) * 0x94D049BB133111EB & MASK
        return (z ^ z >> 31) >> (64 - n)

    def random(self):
        return self.getrandbits(53) * 2.0**-53

    def uniform(self, a, b):
        return a + (b - a) * self.random()

    def randrange(self, n):
        return self.getrandbits(64) % n

    def randint(self, a, b):
        return a + self.randrange(b - a + 1)

    def choice(self, items):
        return items[self.randrange(len(items))]

    def sample(self, items, k):
        items = list(items)
        for i in range(k):
            j = i + self.randrange(len(items) - i)
            items[i], items[j] = items[j], items[i]
        return items[:k]
