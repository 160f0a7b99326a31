#!/usr/bin/env python3
"""Scripts of brute-force sweeps (R-3): every L, every cell size, marks at the
borders of cells, blocks and heap.

Each sweep loads its tables and marks as they are: one or two blocks of a
holder wait on its unswept list, and an alloc sweeps them. In every third
script the sweeps are eager (R-8): blocks stand on an abandoned list, and a
shared release, the first and last, sweeps them. A dump after it shows every
table word, mark byte and the hash of the heap; the heap's own bytes are asked
for now and then.
"""
import random

from reference import CELL_SIZES

LOWER = range(-64, 65, 8)
SWEEPS = 100            # of one script


def list_number(set_number, bin_number):
    return 1 + 49 * set_number + bin_number


class Sweeps:
    def __init__(self, seed):
        self.rng = random.Random(seed)
        self.seed = seed
        self.eager = seed % 3 == 0
        self.lines = []

    def setup(self):
        """Parameters under which no sweep is simple."""
        rng = self.rng
        self.log = rng.choice([12, 12, 12, 12, 13, 14, 16])
        self.blocks = rng.choice([1, 2, 3, 3, 4])
        self.size = 1 << self.log
        self.base = self.size * rng.choice([1, 1, 2, 7, (1 << 46) >> self.log])
        self.lower = LOWER[self.seed % len(LOWER)]
        kinds = [(8, 8, 0, 0), (8, 8, 0, 0), (8, 16, 0, 0), (4, 8, 1, 0)]
        if self.lower == 0 and rng.random() < 0.5:
            kinds = [(8, 16, 0, 1), (8, 8, 1, 1)]
        least, most, offsets, unified = rng.choice(kinds)
        self.put('setup %d %d %d %d %d %d %d %d %d' % (
            self.base, self.log, self.blocks, least, most, offsets, unified,
            self.lower, rng.choice([0, 1 + rng.randrange(1 << 32)]))
            + (' 1' if self.eager else ''))
        self.least = least
        if not self.eager:
            self.put('b 1')
        self.used = set()

    def put(self, line):
        self.lines.append(line)

    def marks(self, cell):
        """Mark bits, by index: few, at borders, many, or all."""
        rng, bits = self.rng, self.size * self.blocks // 8
        kind = rng.random()
        if kind < 0.05:
            return set()
        if kind < 0.1:
            return set(range(bits))
        marked = set()
        borders = [0, bits] + [b * self.size // 8
                               for b in range(1, self.blocks)]
        for border in borders:
            for g in range(border - 10, border + 10):
                if rng.random() < 0.12:
                    marked.add(g)
        words = max(1, cell // 8)
        for _ in range(rng.choice([0, 1, 2, 8, 64])):
            block = rng.randrange(self.blocks) * self.size // 8
            k = rng.randrange(max(1, self.size // 8 // words))
            marked.add(block + k * words + self.lower // 8
                       + rng.choice([-1, 0, 1, words - 1, words, 7, 8,
                                     rng.randrange(words)]))
        if kind > 0.9:
            share = rng.random()
            marked |= {g for g in range(bits) if rng.random() < share}
        return {g for g in marked if 0 <= g < bits}

    def chain(self, start, cell):
        """An old chain, which the sweep does not read: its head and length."""
        rng, head = self.rng, 0
        cells = range(start, start + self.size // cell * cell, cell)
        chosen = rng.sample(cells, min(len(cells), rng.choice([0, 1, 1, 3])))
        for at in chosen:
            self.put('w %d %d' % (at, head))
            head = at
        return head, len(chosen)

    def sweep(self):
        rng = self.rng
        bins = [b for b in range(1, 49) if CELL_SIZES[b] <= self.size]
        number = rng.choice(bins if rng.random() < 0.6
                            else [1, 2, 8, bins[-1], rng.choice(bins)])
        cell = CELL_SIZES[number]
        swept = rng.sample(range(self.blocks),
                           min(self.blocks, rng.choice([1, 1, 2])))
        for old in sorted(self.used):
            self.put('F %d 0 0' % old)
        starts = [self.base + b * self.size for b in swept]
        holding = (list_number(rng.choice([24, 26]), number) if self.eager
                   else list_number(1, number))
        states = [254, 254, 254, 255] if self.eager else [254, 255]
        for b in range(self.blocks):
            if b not in swept:
                self.put('T %d 0 0 0 0 0 0 0 0' % b)
                continue
            at = swept.index(b)
            after = starts[at + 1] if at + 1 < len(starts) else 0
            before = starts[at - 1] if at else 0
            head, count = self.chain(starts[at], cell)
            self.put('T %d %d %d %d %d %d %d 1 %d' % (
                b, rng.choice(states), after, before, head, cell, holding,
                count))
        self.put('F %d %d %d' % (holding, starts[0], starts[-1]))
        self.used = {list_number(24 * self.eager + s, number)
                     for s in range(3)}
        marked = self.marks(cell)
        bits = bytearray(self.size * self.blocks // 64)
        for g in marked:
            bits[g // 8] |= 1 << g % 8
        self.put('K ' + bits.hex())
        if self.eager:
            self.put('G 1 0 0')
            self.put('s')
        else:
            self.put('a 1 %d %d 0 -' % (cell, self.least))
        self.put('D')
        if rng.random() < 0.02:
            self.put('H')

    def script(self):
        self.setup()
        for _ in range(SWEEPS):
            self.sweep()
        return self.lines


def script(seed):
    """The lines of one script: its L goes round with the seed."""
    return Sweeps(seed).script()
