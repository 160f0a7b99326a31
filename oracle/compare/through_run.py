#!/usr/bin/env python3
"""A driver that makes a driver's calls many at a time: reads a script on standard input, puts rows of calls that follow each other
behind `z` lines, runs the driver, and prints its answers as the single calls have them. So every comparison goes through `run` too:

    oracle/compare/compare.py --all --boundary --count 100 --drivers reference 'oracle/compare/through_run.py target/bin/script'

Rows are cut at random, and some calls stay single. In a `z` half of the allocs without an offer offer 2^64 - 1, which means none
there; an alloc that offers that block is made directly, where it is a block that isn't there. The same script gives the same rows.
"""
import random
import subprocess
import sys

from reference import MOST_CALLS, NO_OFFER, is_call

SIZES = (1, 1, 2, 3, 5, 8, 13, 21, 34, MOST_CALLS, MOST_CALLS)
SINGLE, HEADING, DUMP = 'single', 'heading', 'dump'


class Rows:
    """The script as it is sent, with the kind of each line that is answered."""

    def __init__(self, lines):
        self.rng = random.Random(len(lines))
        self.sent, self.kinds = [], []
        self.row = []
        self.exports = False        # whether an `x` with a length is in force
        for line in lines:
            self.take(line)
        self.close()

    def take(self, line):
        if line == '' or line.startswith('#'):
            return      # not answered, and not to stand in a row
        if is_call(line) and not self.exports and not line.endswith(' ' + NO_OFFER):
            self.row.append(line)
            return
        self.close()
        if line.startswith('x '):
            self.exports = line != 'x -'
        self.put(line, DUMP if line == 'D' else SINGLE)

    def put(self, line, kind):
        self.sent.append(line)
        self.kinds.append(kind)

    def close(self):
        """Send the row that is waiting, in parts."""
        while self.row:
            size = self.rng.choice(SIZES)
            part, self.row = self.row[:size], self.row[size:]
            if self.rng.random() < 0.1:
                for line in part:
                    self.put(line, SINGLE)
                continue
            self.put('z %d' % len(part), HEADING)
            for line in part:
                if line.startswith('a ') and line.endswith(' -') and self.rng.random() < 0.5:
                    line = line[:-1] + NO_OFFER
                self.put(line, SINGLE)

    def told(self, out):
        """The answers without the `ok` of each `z`; of a `z` that is bad that is left."""
        answers, at = [], 0
        for kind in self.kinds:
            if at >= len(out):
                break
            end = at + 1
            if kind == DUMP and out[at].startswith('phase'):
                while end < len(out) and out[end - 1] != 'end':
                    end += 1
            if kind != HEADING or out[at] != 'ok':
                answers += out[at:end]
            at = end
        return answers + out[at:]


def main():
    rows = Rows(sys.stdin.read().split('\n'))
    run = subprocess.run(sys.argv[1:], input=''.join(line + '\n' for line in rows.sent), stdout=subprocess.PIPE, text=True)
    for line in rows.told(run.stdout.splitlines()):
        print(line)
    sys.exit(run.returncode)


if __name__ == '__main__':
    main()
