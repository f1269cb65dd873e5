"""Random choices that are the same for a seed on every machine and with every version of Python."""

MASK = 2 ** 64 - 1


class Pick:
    """The generator SplitMix64. The library's own random numbers are not used: what they give may change between versions, and
    the stored set must not."""

    def __init__(self, seed):
        self.state = seed & MASK

    def word(self):
        self.state = (self.state + 0x9E3779B97F4A7C15) & MASK
        z = self.state
        z = ((z ^ (z >> 30)) * 0xBF58476D1CE4E5B9) & MASK
        z = ((z ^ (z >> 27)) * 0x94D049BB133111EB) & MASK
        return z ^ (z >> 31)

    def below(self, count):
        return self.word() % count

    def between(self, low, high):
        return low + self.below(high - low + 1)

    def one_of(self, choices):
        return choices[self.below(len(choices))]

    def chance(self, percent):
        return self.below(100) < percent

    def bytes(self, count):
        words = b''.join(self.word().to_bytes(8, 'little') for _ in range((count + 7) // 8))
        return words[:count]

    def edge(self, low, high):
        """A number of a range, often one of its ends."""
        return [low, high, low + self.below(high - low + 1)][min(self.below(4), 2)]
