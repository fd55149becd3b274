"""Random numbers of a node: PCG XSH RR 64/32 in the stream of the node's number."""

MULTIPLIER = 6364136223846793005
WORD = 2**64


class Draws:
    def __init__(self, seed, stream):
        self.increment = (2 * stream + 1) % WORD
        self.state = 0
        self.state = ((seed + self.increment) * MULTIPLIER + self.increment) % WORD

    def word(self):
        state = self.state
        self.state = (state * MULTIPLIER + self.increment) % WORD
        mixed = ((state >> 18 ^ state) >> 27) & 0xFFFFFFFF
        turn = state >> 59
        return (mixed >> turn | mixed << (32 - turn)) & 0xFFFFFFFF

    def below(self, bound):
        return self.word() * bound >> 32
