#!/usr/bin/env -S python3 -B
"""Draws rows for checks/lib/warp-rows, models and options of the Time Warp kernel at random: the same rows for the same seed.

  checks/lib/warp_words.py SEED COUNT WORKERS..     so many rows, each for one of the WORKERS: t4 is four threads, r4 four ranks of MPI
"""
import random
import sys

SAVES = [["--save", "copies"], ["--save", "place"], ["--save", "undo"], ["--save", "place", "--process", "own"]]


class Drawn:
    """Rows, one after the other. Wide ones have large states, many processes, and long batches and periods among them."""

    def __init__(self, seed, is_wide=False):
        self.random, self.is_wide = random.Random(seed), is_wide

    def one_of(self, *these):
        return self.random.choice(these)

    def either(self, narrow, wide):
        return self.one_of(*(wide if self.is_wide else narrow))

    def phold(self):
        state = self.either([64, 256, 4096], [8, 64, 256, 1000, 4096, 20000, 65536, 262144])
        # A state has at most 8192 chunks.
        chunk = max(self.either([64], [8, 64, 200, 1024, 8192]), state // 8192)
        words = ["phold", "--end", self.either([200, 600, 1500], [100, 300, 800]), "--remote", self.one_of(1, 10, 100, 250, 500, 1000),
                 "--mean", self.one_of(1, 5, 20, 100), "--lookahead", self.one_of(0, 0, 5, 50), "--population", self.one_of(1, 2, 4, 16),
                 "--state", state, "--chunk", chunk, "--changes", self.either([0, 1, 4], [0, 1, 4, 20]), "--bytes", self.one_of(0, 0, 8, 40)]
        # Room for the state, its table, and what a chunk of each class takes beside.
        return words + (["--quota", state // 65536 * 2 + 24] if self.is_wide else [])

    def cells(self):
        return ["cells", "--end", self.one_of(200, 500, 1000), "--channels", self.one_of(3, 20, 60), "--interval", self.one_of(2, 10, 50),
                "--duration", self.one_of(20, 150), "--stay", self.one_of(5, 100, 1000)]

    def queue(self):
        return ["queue", "--end", self.one_of(500, 2000), "--interval", self.one_of(2, 10, 50), "--service", self.one_of(2, 10, 20)]

    def model(self):
        return self.one_of(self.phold, self.phold, self.cells, self.cells, self.queue)()

    def kernel(self):
        return ["--seed", self.random.randrange(1 << 30), "--processes", self.either([8, 9, 16, 33, 64], [8, 9, 16, 33, 64, 200]),
                "--batch", self.either([1, 1, 2, 8, 64], [1, 1, 2, 8, 40, 200]),
                "--log-every", self.either([1, 2, 4, 16, 50, "auto"], [1, 2, 4, 7, 16, 50, 256, "auto"]),
                "--window", self.either(["auto", "auto", 20, 100, 1000], ["auto", "auto", 1, 20, 100, 1000]),
                "--bound-every", self.either([200, 500, 2048], [50, 200, 500, 2048, 20000]), "--move", self.either([0, 0, 1, 3], [0, 1, 1, 2, 5]),
                *self.either(SAVES, [*SAVES, ["--save", "place"]])]

    def words(self):
        """The words for one run, but for its workers."""
        return [str(it) for it in [*self.model(), *self.kernel()]]


def main(words):
    if len(words) < 3:
        print(__doc__, file=sys.stderr)
        return 2
    drawn = Drawn(int(words[0]))
    for _ in range(int(words[1])):
        print(drawn.one_of(*words[2:]), *drawn.words())
    return 0


if __name__ == "__main__":
    sys.exit(main(sys.argv[1:]))
