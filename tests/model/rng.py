"""A generator of pseudo-random numbers of our own (xorshift64*), so that the
vectors are the same under every version of Python."""

WIDE = (1 << 64) - 1


class Rng:
    """xorshift64* by Marsaglia and Vigna; the seed may be any number."""

    def __init__(self, seed):
        self.state = (seed * 0x9E3779B97F4A7C15 + 0x1234567890ABCDEF) & WIDE
        self.state = self.state or 1
        for _ in range(8):
            self.word()

    def word(self):
        """The next 32-bit word."""
        state = self.state
        state ^= state >> 12
        state = (state ^ state << 25) & WIDE
        state ^= state >> 27
        self.state = state
        return (state * 0x2545F4914F6CDD1D & WIDE) >> 32

    def below(self, limit):
        """A number from 0 to limit - 1."""
        return self.word() * limit >> 32

    def between(self, least, most):
        """A number from least to most, both included."""
        return least + self.below(most - least + 1)

    def chance(self, wins, of):
        """True in about `wins` of `of` cases."""
        return self.below(of) < wins

    def pick(self, choices):
        """One of a sequence."""
        return choices[self.below(len(choices))]
