#!/usr/bin/env python3
"""R-12 of document 02, of any driver's answers: from the end of a last release
to the next prepare "the swept counts of all allocs, refused ones included, add
up to at most the abandoned unswept blocks standing at that end", and to 0 if
the set-up is eager; and a block "passes from an available or unswept list to a
consumed one at most once".

The reading says where the spans are and how many blocks waited. The sum is of
the driver's own answers; what passes is seen from dump to dump, and in the
reading at each move, within a call too. A span ends early where tables or rows
are put there from elsewhere, which no run under demand 3's premises does.
"""
import reference as ref
from reference import ABANDONED, CONSUMED, UNSWEPT

FROM_ELSEWHERE = ('setup', 'T', 'F', 'G', 'K', 'k')


class Watched(ref.Space):
    """The reading; it notes each block that passes to a consumed list."""

    passed = ()

    def begin(self):
        self.passed = []
        super().begin()

    def push(self, l, b):
        before = self.list[b]
        if (before != 0 and ref.kind_of(before) != CONSUMED
                and ref.kind_of(l) == CONSUMED):
            self.passed.append(b)
        super().push(l, b)


class Span:
    def __init__(self, start, waiting, eager):
        self.start = start          # the line of the last release
        self.end = None             # the line that ends it, or None
        self.waiting = waiting      # abandoned unswept blocks at its start
        self.eager = eager
        self.passed = set()
        self.twice = None           # a block that the reading saw pass twice

    def part(self, lines, answers):
        """Its lines, each with its answer."""
        return list(zip(lines[self.start:self.end],
                        answers[self.start:self.end]))


class Spans:
    """The spans of one script, noted while the reading answers it."""

    def __init__(self):
        self.spans = []
        self.open = None

    def follow(self, at, line, answer, space):
        if answer is None or answer == 'bad':
            return      # the run has ended
        kind = line.split(' ')[0]
        if kind in FROM_ELSEWHERE or line == 'p' and answer == 'ok':
            self.close(at)
        elif (kind in ('r', 's') and answer.startswith('ok')
                and space.phase == ref.RUNNING):
            self.close(at)
            self.open = Span(at, waiting(space), space.p.eager)
            self.spans.append(self.open)
        elif kind == 'a' and self.open:
            for b in space.passed:
                if b in self.open.passed:
                    self.open.twice = b
                self.open.passed.add(b)

    def close(self, at):
        if self.open:
            self.open.end = at
            self.open = None

    def trouble(self, lines, answers):
        """What breaks R-12 in these answers, or None."""
        for span in self.spans:
            end = len(lines) if span.end is None else span.end
            part = span.part(lines, answers)
            swept = sweeps_of(part)
            twice = passed_twice(part)
            if span.twice is not None:
                twice = span.twice
            if swept > (0 if span.eager else span.waiting):
                return ('lines %d to %d: %d sweeps, and %d blocks waited%s' % (
                    span.start + 1, end, swept, span.waiting,
                    ', eager' if span.eager else ''))
            if twice is not None:
                return ('lines %d to %d: block %d passes to consumed twice' % (
                    span.start + 1, end, twice))
        return None

    def count(self, counts, lines, answers):
        """Numbers for the summary."""
        for span in self.spans:
            swept = sweeps_of(span.part(lines, answers))
            counts['spans', 'eager' if span.eager else 'lazy'] += 1
            counts['spans', 'blocks that waited'] += span.waiting
            counts['spans', 'sweeps'] += swept
            counts['spans', 'sums at their ceiling'] += (
                0 < swept == span.waiting)
            counts['spans', 'blocks that passed'] += len(span.passed)


def told(counts):
    """The numbers of `count`, taken out, as a line."""
    return 'spans between collections: ' + ', '.join(
        '%d %s' % (counts.pop(('spans', word), 0), word)
        for word in ('lazy', 'eager', 'blocks that waited', 'sweeps',
                     'sums at their ceiling', 'blocks that passed'))


def waiting(space):
    """How many blocks stand on abandoned unswept lists."""
    return sum(state != ref.UNALLOCATED and ref.owner_of(l) == ABANDONED
               and ref.kind_of(l) == UNSWEPT
               for state, l in zip(space.state, space.list))


def swept_of(line, answer):
    """The swept count of an alloc, served or exhausted; else 0."""
    words = (answer or '').split(' ')
    if line.split(' ')[0] != 'a':
        return 0
    if words[0] == 'ok' and len(words) == 5:
        return int(words[4])
    if words[:2] == ['refused', '9'] and len(words) == 3:
        return int(words[2])
    return 0


def sweeps_of(part):
    return sum(swept_of(line, answer) for line, answer in part)


def passed_twice(part):
    """A block that the dumps show to pass to a consumed list twice."""
    before, passed = {}, set()
    for line, answer in part:
        if line != 'D' or not (answer or '').startswith('phase'):
            continue
        now = kinds(answer)
        for b, kind in now.items():
            if kind == CONSUMED and before.get(b, CONSUMED) != CONSUMED:
                if b in passed:
                    return b
                passed.add(b)
        before = now
    return None


def kinds(dump):
    """The kind of list of each block in use."""
    out = {}
    for row in dump.split('\n'):
        words = row.split(' ')
        if words[0] == 'block' and words[7] != '0':
            out[int(words[1])] = ref.kind_of(int(words[7]))
    return out
