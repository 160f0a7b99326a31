"""Random tables of rows for R-5 of document 02: good ones, and damaged ones.

A row is a triple of words (from, to, cell).  `good` makes rows that the
checker passes for a block of so many words; `damaged` spoils one of them, or
is none at all; `own` are 01's own sizes up to the block.
"""
from reference import CELL_SIZES, MOST_ROWS, WORD

LAST_WORD = (1 << 64) - 1
SENT_ROWS = 64          # a script can send more than set-up takes


def own(block_words):
    """01's sizes up to the block; row 1 is from 1."""
    sizes = [0] + [size // WORD for size in CELL_SIZES[1:]
                   if size // WORD <= block_words]
    return [(below + 1, size, size) for below, size in zip(sizes, sizes[1:])]


def office(block_words):
    """01's sizes with a 72-byte cell between 64 and 80 bytes. Blocks of 65,536
    bytes have 48 sizes already: there 80 bytes is left out."""
    rows = own(block_words)
    if len(rows) == MOST_ROWS:
        return rows[:8] + [(9, 9, 9), (10, 12, 12)] + rows[10:]
    return rows[:8] + [(9, 9, 9), (10, 10, 10)] + rows[9:]


def line(rows):
    return ' '.join(['k'] + ['%d %d %d' % row for row in rows])


class Rows:
    def __init__(self, rng, block_words):
        self.rng = rng
        self.words = block_words

    def good(self):
        kind = self.rng.random()
        if kind < 0.1:
            rows = own(self.words)
        elif kind < 0.2:
            rows = office(self.words)
        else:
            rows = self.cut()
        if self.rng.random() < 0.4:
            self.rng.shuffle(rows)
        return rows

    def cut(self):
        """The counts cut into rows at random borders."""
        rng = self.rng
        many = rng.choice([1, 2, 3, 5, 8, 20, 47, MOST_ROWS, MOST_ROWS])
        near = [2 ** k + d for k in range(14) for d in (-1, 0, 1)]
        borders = set()
        while len(borders) < many - 1:
            b = rng.choice([rng.randrange(1, self.words), rng.choice(near),
                            rng.randrange(1, 40)])
            if 0 < b < self.words:
                borders.add(b)
        ends = [0] + sorted(borders) + [self.words]
        return [(low + 1, high, self.cell(high))
                for low, high in zip(ends, ends[1:])]

    def cell(self, high):
        """What holds the largest count, mostly no more."""
        rng = self.rng
        return rng.choice([high, high, high, min(self.words, high + 1),
                           min(self.words, 2 * high), self.words,
                           rng.randint(high, self.words)])

    def damaged(self):
        """Rows that are mostly rejected; one word may be off, or much."""
        rng, rows = self.rng, self.good()
        for _ in range(rng.choice([1, 1, 1, 2, 3])):
            rng.choice([self.change, self.change, self.leave_out, self.twice,
                        self.empty, self.small_cell, self.large_cell,
                        self.past_the_block, self.many, self.wild])(rows)
        return rows[:SENT_ROWS]

    def change(self, rows):
        """One number off by a little."""
        if rows:
            i, k = self.rng.randrange(len(rows)), self.rng.randrange(3)
            row = list(rows[i])
            row[k] = max(0, row[k] + self.rng.choice([-2, -1, -1, 1, 1, 2]))
            rows[i] = tuple(row)

    def leave_out(self, rows):
        if len(rows) > 1:
            rows.pop(self.rng.randrange(len(rows)))

    def twice(self, rows):
        """A row again, or a part of it."""
        if rows:
            low, high, cell = self.rng.choice(rows)
            if self.rng.random() < 0.5:
                low = high
            self.put_in(rows, (low, high, cell))

    def empty(self, rows):
        """A row that covers nothing: unfit, though every count is covered."""
        at = self.rng.randint(1, self.words)
        self.put_in(rows, self.rng.choice([
            (0, 0, 0), (0, at, self.words), (at + 1, at, self.words),
            (LAST_WORD, 1, at), (0, LAST_WORD, LAST_WORD)]))

    def small_cell(self, rows):
        """A cell that holds its from and not its to."""
        wide = [i for i, (low, high, _) in enumerate(rows) if low < high]
        if wide:
            i = self.rng.choice(wide)
            low, high, _ = rows[i]
            rows[i] = (low, high, self.rng.choice([low, high - 1, 0]))

    def large_cell(self, rows):
        if rows:
            i = self.rng.randrange(len(rows))
            low, high, _ = rows[i]
            rows[i] = (low, high, self.rng.choice(
                [self.words + 1, 2 * self.words, LAST_WORD, 1 << 61]))

    def past_the_block(self, rows):
        """The last counts, and more of them than the block has."""
        ends = [i for i, row in enumerate(rows) if row[1] == self.words]
        if ends:
            low = rows[ends[0]][0]
            high = self.rng.choice([self.words + 1, 8192, LAST_WORD])
            rows[ends[0]] = (low, high, self.rng.choice([self.words, high]))

    def many(self, rows):
        """More than 48: each row of one count, or empty ones behind."""
        while len(rows) <= MOST_ROWS:
            self.put_in(rows, self.rng.choice([(0, 0, 0), (1, 1, 1)]))

    def wild(self, rows):
        some = [0, 1, 2, 9, self.words, self.words + 1, LAST_WORD]
        rows[:] = [tuple(self.rng.choice(some + [self.rng.randint(
            0, self.words)]) for _ in range(3))
            for _ in range(self.rng.choice([1, 2, 3, 48, 49, 64]))]

    def put_in(self, rows, row):
        rows.insert(self.rng.randint(0, len(rows)), row)
