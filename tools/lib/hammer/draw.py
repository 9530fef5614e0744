"""A drawer of random numbers for cases: Random's choices, each by one call of `random`, which takes a third of the time."""

import random


class Draw(random.Random):
    def choice(self, seq):
        return seq[int(self.random() * len(seq))]

    def randrange(self, start, stop=None, step=1):
        least, most = (0, start) if stop is None else (start, stop)
        if least >= most or step != 1:
            return super().randrange(start, stop, step)
        return least + int(self.random() * (most - least))

    def randint(self, a, b):
        return self.randrange(a, b + 1)
