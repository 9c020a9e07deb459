"""Random choices that are the same on every machine: a linear congruential generator of 64 bits."""


class Chance:
    def __init__(self, seed):
        self.state = seed

    def below(self, bound):
        """A number from 0 up to the bound, without it."""
        self.state = (self.state * 6364136223846793005 + 1442695040888963407) % 2**64
        return (self.state >> 33) % bound

    def between(self, low, high):
        """A number from low to high, both among them."""
        return low + self.below(high - low + 1)

    def one_of(self, choices):
        return choices[self.below(len(choices))]

    def once_in(self, times):
        return self.below(times) == 0
