#!/usr/bin/env python3
"""Shows that the comparer finds what document 01 calls wrong.

Each mutant is the reference with one rule bent; run beside the true
reference, it must be found and shrunk.  `selftest.py --mutant NAME` is that
mutant as a driver.  Also compares the bins with the octave rule for every
size.
"""
import argparse
import signal
import subprocess
import sys
from pathlib import Path

import compare
import generate
import reference as ref
import spans
import through_run

HERE = Path(__file__).resolve()
SEEDS = 40          # scripts tried for each mutant
CALLS = 500
ARENA = 1 << 17     # small heaps, for speed
MOST_LINES = 40     # a shrunk script is no longer
SECONDS = 20        # of processor time for one script in a mutant, which may
                    # find no end


# ---- Mutants: the first eight are 01's "Wrong though tempting"

class SizeBeforeRaise(ref.Space):
    """Tests the size before raising it."""

    def alloc(self, h, size, align, offset, offer):
        true = ref.maximum_aligned_size
        self.begin()
        if size <= self.p.block_bytes < true(self.p, size, align):
            align = self.p.least
        return super().alloc(h, size, align, offset, offer)


class ZeroBeforeLink(ref.Space):
    """Zeroes a cell before its link is read."""

    def take_cell(self, b):
        self.heap.zero(self.free[b], self.size[b])
        return super().take_cell(b)


class ZeroSizeWanted(ref.Space):
    """Zeroes only the size wanted."""

    def alloc(self, h, size, align, offset, offer):
        self.wanted = size
        return super().alloc(h, size, align, offset, offer)

    def take_cell(self, b):
        cell = self.free[b]
        before = self.heap.bytes[cell - self.p.base + self.wanted:
                                 cell - self.p.base + self.size[b]]
        super().take_cell(b)
        at = cell - self.p.base + self.wanted
        self.heap.bytes[at:at + len(before)] = before
        return cell


class AscendingChain(ref.Space):
    def link_cells(self, b, cells):
        super().link_cells(b, list(reversed(cells)))


class ShortTail(ref.Space):
    """Links the short tail as a cell, where it can hold a link."""

    def whole_cells(self, b):
        whole = super().whole_cells(b)
        return range(whole.start, self.start(b) + self.p.block_bytes - 7,
                     whole.step)


class NextAfterRemoval(ref.Space):
    """Reads next after the block is removed, so the walk ends there; where the
    block is pushed elsewhere (R-8), the walk may go round."""

    def walk(self, l):
        link, steps = self.first[l], 0
        while link != 0:
            steps += 1
            assert steps <= self.p.blocks, 'a walk goes round'
            b = self.block_at(link)
            yield b
            link = self.next[b]


class MarkedAgain(ref.Space):
    """Sets Marked on a repeated mark."""

    def mark(self, place, b):
        new = super().mark(place, b)
        self.state[b] = ref.MARKED
        return new


class ConsumedTried(ref.Space):
    """Tries abandoned consumed blocks."""

    def acquire_abandoned(self, h, bin):
        b = super().acquire_abandoned(h, bin)
        while b is None:
            b = self.pop(ref.list_number(ref.ABANDONED, ref.CONSUMED, bin))
            if b is None:
                return None
            self.tls[b] = h
            if not self.keep_block(h, bin, b):
                b = None
        return b


# ---- Mutants after "What a reviewer will try" and the other sentences

class EarlyExhausted(ref.Space):
    """Says Exhausted before it looks at abandoned lists."""

    def acquire_abandoned(self, h, bin):
        return None


class FirstReleasesAll(ref.Space):
    """The first release frees for all holders."""

    def release(self, h):
        first = self.phase == ref.MARKING
        count = super().release(h)
        for other in range(1, 9):
            if first and self.phase == ref.RELEASING:
                for bin in range(1, ref.BINS):
                    self.release_blocks(
                        ref.list_number(other, ref.AVAILABLE, bin))
        return count


class UnsweptReleased(ref.Space):
    """A holder's release looks through its unswept list too."""

    def abandon_blocks(self, h, owner):
        if owner == ref.IN_GC:
            for bin in range(1, ref.BINS):
                self.release_blocks(ref.list_number(h, ref.UNSWEPT, bin))
        return super().abandon_blocks(h, owner)


class KeptHolder(ref.Space):
    """Only the block that serves gets the new tls, none passed over."""

    def acquire_abandoned(self, h, bin):
        before = list(self.tls)
        b = super().acquire_abandoned(h, bin)
        for other, holder in enumerate(before):
            if other != b:
                self.tls[other] = holder
        return b


class PushedBehind(ref.Space):
    """Pushes at the tail."""

    def push(self, l, b):
        tail = self.last[l]
        super().push(l, b)
        if tail != 0:
            self.pop(l)
            self.next[b], self.prev[b] = 0, tail
            self.next[self.block_at(tail)] = self.start(b)
            self.last[l] = self.start(b)


class ConsumedFirst(ref.Space):
    """A holder's release appends consumed before available."""

    def release(self, h):
        lists = [(ref.list_number(h, ref.AVAILABLE, bin),
                  ref.list_number(h, ref.CONSUMED, bin))
                 for bin in range(ref.BINS)]
        if self.is_sound() and self.phase != ref.RUNNING and self.is_bound(h):
            for available, consumed in lists:
                self.first[available], self.first[consumed] = (
                    self.first[consumed], self.first[available])
                self.last[available], self.last[consumed] = (
                    self.last[consumed], self.last[available])
                for l in (available, consumed):
                    for b in self.walk(l):
                        self.list[b] = l
        return super().release(h)


class WrongSign(ref.Space):
    """Adds L with the other sign in the sweep."""

    def is_kept(self, cell, size):
        return super().is_kept(cell - 2 * self.p.lower_bound, size)


class CellStartOnly(ref.Space):
    """The brute-force sweep looks at the first place only."""

    def is_kept(self, cell, size):
        return super().is_kept(cell, 8)


class LastPlaceMissed(ref.Space):
    def is_kept(self, cell, size):
        return super().is_kept(cell, max(8, size - 8))


class StaleMarks(ref.Space):
    """Prepare leaves the marks of blocks that are Unallocated."""

    def prepare(self):
        before = bytes(self.marks)
        super().prepare()
        part = self.p.block_bytes // 64
        for b in range(self.p.blocks):
            if self.state[b] == ref.UNALLOCATED:
                self.marks[b * part:(b + 1) * part] = before[
                    b * part:(b + 1) * part]


class LeavesInReleasing(ref.Space):
    """Answers destroy in Releasing too (R-10 of document 02)."""

    def destroy(self, h):
        self.begin()
        if self.phase != ref.RELEASING:
            return super().destroy(h)
        ref.refuse_unless(self.is_bound(h), ref.BAD_HOLDER)
        left = self.abandon_blocks(h, ref.ABANDONED)
        self.bound &= ~(1 << h)
        return left


class BindingKept(ref.Space):
    """A holder that leaves in Marking stays bound."""

    def destroy(self, h):
        bound = self.bound
        left = super().destroy(h)
        if self.phase == ref.MARKING:
            self.bound = bound
        return left


class ListsLeftBehind(ref.Space):
    """A holder that leaves in Marking leaves its blocks on its own lists."""

    def abandon_blocks(self, h, owner):
        if self.phase == ref.MARKING and owner == ref.ABANDONED:
            return 0
        return super().abandon_blocks(h, owner)


class SweptNotCounted(ref.Space):
    """Counts only the sweeps that freed a cell."""

    def count(self, kind):
        return sum(e[0] == kind and (kind != 'sweep' or len(e[2]) > 0)
                   for e in self.events)


class UnsweptNotCounted(ref.Space):
    """Leaves unswept blocks out of those that went over."""

    def append(self, l, other):
        blocks = super().append(l, other)
        return 0 if ref.kind_of(other) == ref.UNSWEPT else blocks


class MergedEarly(ref.Space):
    """Answers the blocks of in-gc in a release that isn't the last."""

    def end_release(self, part):
        waiting = sum(s != ref.UNALLOCATED and ref.owner_of(l) == ref.IN_GC
                      for s, l in zip(self.state, self.list))
        released, merged, swept = super().end_release(part)
        return released, merged or waiting, swept


class OneForEachList(ref.Space):
    """Counts lists in place of blocks."""

    def append(self, l, other):
        return min(1, super().append(l, other))


class OfferOnlyIfNeeded(ref.Space):
    """Tests the offer only where it is needed."""

    def alloc(self, h, size, align, offset, offer):
        self.begin()
        good = offer is None or (offer < self.p.blocks and
                                 self.state[offer] == ref.UNALLOCATED)
        return super().alloc(h, size, align, offset, offer if good else None)


class UndoneMoves(ref.Space):
    """An exhausted alloc takes its moves back."""

    def alloc(self, h, size, align, offset, offer):
        kept = {n: list(getattr(self, n)) for n in
                ('next', 'prev', 'list', 'tls', 'free', 'cells', 'first',
                 'last')}
        try:
            return super().alloc(h, size, align, offset, offer)
        except ref.Refused:
            for name, value in kept.items():
                setattr(self, name, value)
            raise


def without(clause):
    """A reference that skips one clause of sound tables."""
    class Skips(ref.Space):
        pass
    setattr(Skips, clause, lambda self, *_: True)
    Skips.__doc__ = 'skips the clause %s of sound tables' % clause
    return Skips


def with_block_clause(keep):
    """Soundness of a block that trusts some words."""
    class Trusts(ref.Space):
        def is_sound_block(self, b):
            before = (self.cells[b], self.tls[b], self.size[b])
            keep(self, b)
            try:
                return super().is_sound_block(b)
            finally:
                self.cells[b], self.tls[b], self.size[b] = before
    return Trusts


def trust_tls(space, b):
    if 1 <= space.list[b] <= ref.LISTS and space.tls[b] in range(1, 9):
        owner = ref.owner_of(space.list[b])
        if owner <= 8:
            space.tls[b] = owner


def trust_size(space, b):
    if 1 <= space.list[b] <= ref.LISTS and space.size[b] != 0:
        bin = ref.bin_of_list(space.list[b])
        space.size[b] = space.classes.cell_bytes(bin)


# ---- Mutants of R-7 of document 02: free counts. That a free head is 0 or a
# whole cell has none: the chain's clause says it too.

class CountKept(ref.Space):
    """An alloc leaves the count."""

    def take_cell(self, b):
        before = self.cells[b]
        cell = super().take_cell(b)
        self.cells[b] = before
        return cell


class CountNotSwept(ref.Space):
    """A sweep leaves the count of the old chain."""

    def sweep(self, b):
        before = self.cells[b]
        super().sweep(b)
        self.cells[b] = before


class CountNotReleased(ref.Space):
    """A released block keeps its count."""

    def release_block(self, b):
        before = self.cells[b]
        super().release_block(b)
        self.cells[b] = before


def with_chain(bent):
    """A reference that bends the clause of chains."""
    class Bent(ref.Space):
        def is_sound_chain(self, b):
            return (self.state[b] == ref.UNALLOCATED
                    or bent(self, b, self.chain_length(b)))
    Bent.__doc__ = bent.__doc__
    return Bent


def chains_not_read(space, b, length):
    """Only the free head is tested, as before R-7."""
    return True


def ring_accepted(space, b, length):
    """Counts the cells until one comes again."""
    met, cell = set(), space.free[b]
    while cell != 0 and cell not in met and space.is_whole_cell(b, cell):
        met.add(cell)
        cell = space.heap.load(cell)
    return len(met) == space.cells[b] and (cell == 0 or cell in met)


def end_not_tested(space, b, length):
    """As many whole cells as are counted, whatever follows them."""
    cell = space.free[b]
    for _ in range(min(space.cells[b], space.p.block_bytes)):
        if not space.is_whole_cell(b, cell):
            return False
        cell = space.heap.load(cell)
    return True


def neighbour_accepted(space, b, length):
    """Links to whole cells of any block of the heap pass."""
    cell, size = space.free[b], space.size[b]
    for _ in range(min(space.cells[b], space.p.block_bytes // size)):
        at = (cell - space.p.base) % space.p.block_bytes
        if (not space.p.base <= cell < space.p.end or at % size != 0
                or at + size > space.p.block_bytes):
            return False
        cell = space.heap.load(cell)
    return cell == 0 and space.cells[b] <= space.p.block_bytes // size


def shorter_accepted(space, b, length):
    """A chain of more cells than are counted passes."""
    return length is not None and space.cells[b] <= length


def trust_count(space, b):
    """An Unallocated block may have a count."""
    if space.state[b] == ref.UNALLOCATED:
        space.cells[b] = 0


class OneListOnly(ref.Space):
    """Sums over the available lists."""

    def free_cells(self, bin):
        super().free_cells(bin)
        return sum(self.cells[b] for b in range(self.p.blocks)
                   if self.state[b] != ref.UNALLOCATED
                   and ref.bin_of_list(self.list[b]) == bin
                   and ref.kind_of(self.list[b]) == ref.AVAILABLE)


class AbandonedNotSummed(ref.Space):
    """Sums over the holders' lists."""

    def free_cells(self, bin):
        super().free_cells(bin)
        return sum(self.cells[b] for b in range(self.p.blocks)
                   if self.state[b] != ref.UNALLOCATED
                   and ref.bin_of_list(self.list[b]) == bin
                   and ref.owner_of(self.list[b]) <= 8)


class AskedInRunning(ref.Space):
    """Answers the question in Running only."""

    def free_cells(self, bin):
        total = super().free_cells(bin)
        ref.refuse_unless(self.phase == ref.RUNNING, ref.WRONG_PHASE)
        return total


class BinFirst(ref.Space):
    """Tests the bin before the tables."""

    def free_cells(self, bin):
        ref.refuse_unless(1 <= bin < ref.BINS, ref.BAD_REQUEST)
        return super().free_cells(bin)


class BinZeroAnswered(ref.Space):
    """Bin 0 is a bin."""

    def free_cells(self, bin):
        return 0 if bin == 0 and not super().free_cells(1) < 0 else (
            super().free_cells(bin))


class QuestionWithoutTables(ref.Space):
    """Sums whatever the tables are."""

    def free_cells(self, bin):
        ref.test_classes(self.classes, self.p)
        ref.refuse_unless(1 <= bin < ref.BINS, ref.BAD_REQUEST)
        return sum(self.cells[b] for b in range(self.p.blocks)
                   if self.list[b] % ref.BINS == (bin + 1) % ref.BINS)


# ---- Mutants of R-8 of document 02: eager sweeping. Ascending order has none:
# a sweep reads marks and writes its own block, so no answer shows the order.
# Nor has in-gc recycled before abandoned: their lists are apart.

class AppendedUnswept(ref.Space):
    """Eager releases append to unswept lists."""

    def leave_unswept(self, l, other):
        self.append(l, other)


class NotSwept(ref.Space):
    """The last release sweeps nothing."""

    def sweep_all(self):
        pass


class SweptByKind(ref.Space):
    """Sweeps consumed blocks alone."""

    def sweep_all(self):
        for b in range(self.p.blocks):
            if (self.state[b] != ref.UNALLOCATED
                    and ref.kind_of(self.list[b]) == ref.CONSUMED):
                self.sweep(b)


class SweptByOwner(ref.Space):
    """Sweeps what stands in in-gc, and not on abandoned."""

    def sweep_all(self):
        for b in range(self.p.blocks):
            if (self.state[b] != ref.UNALLOCATED
                    and ref.owner_of(self.list[b]) == ref.IN_GC):
                self.sweep(b)


class SweptFirst(ref.Space):
    """The last release sweeps before it releases its own blocks."""

    def release(self, h):
        self.part = h
        return super().release(h)

    def shared_release(self):
        self.part = 0
        return super().shared_release()

    def release_blocks(self, l):
        if (self.p.eager and self.count('sweep') == 0
                and self.released | 1 << self.part == self.bound | 1):
            super().sweep_all()
        super().release_blocks(l)

    def sweep_all(self):
        pass


class SweptEachTime(ref.Space):
    """Every release sweeps what stands in in-gc."""

    def end_release(self, part):
        if self.p.eager and self.released | 1 << part != self.bound | 1:
            for b in range(self.p.blocks):
                if (self.state[b] != ref.UNALLOCATED
                        and ref.owner_of(self.list[b]) == ref.IN_GC):
                    self.sweep(b)
        return super().end_release(part)


class ReleasedAsSwept(ref.Space):
    """Answers the released count as the swept one."""

    def end_release(self, part):
        released, merged, swept = super().end_release(part)
        return released, merged, released if swept else 0


class MergedAsSwept(ref.Space):
    """Answers the merged count as the swept one."""

    def end_release(self, part):
        released, merged, swept = super().end_release(part)
        return released, merged, merged if swept else 0


def without_recycling(owner):
    class Left(ref.Space):
        def recycle_blocks(self, of):
            if of != owner:
                super().recycle_blocks(of)
    return Left


class RecycledAll(ref.Space):
    """Recycles consumed blocks without a free cell too."""

    def recycle_blocks(self, owner):
        for bin in range(ref.BINS):
            consumed = ref.list_number(owner, ref.CONSUMED, bin)
            for b in self.walk(consumed):
                self.remove(consumed, b)
                self.push(ref.list_number(owner, ref.AVAILABLE, bin), b)


class RecycledUntilFull(ref.Space):
    """Ends the walk at the first block without a free cell."""

    def recycle_blocks(self, owner):
        for bin in range(ref.BINS):
            consumed = ref.list_number(owner, ref.CONSUMED, bin)
            for b in self.walk(consumed):
                if not self.has_free_cells(b):
                    break
                self.remove(consumed, b)
                self.push(ref.list_number(owner, ref.AVAILABLE, bin), b)


class RecycleNextAfter(ref.Space):
    """Reads next after the block is pushed, and so goes on in available."""

    def recycle_blocks(self, owner):
        for bin in range(ref.BINS):
            consumed = ref.list_number(owner, ref.CONSUMED, bin)
            link = self.first[consumed]
            while link != 0 and self.list[self.block_at(link)] == consumed:
                b = self.block_at(link)
                if self.has_free_cells(b):
                    self.remove(consumed, b)
                    self.push(ref.list_number(owner, ref.AVAILABLE, bin), b)
                link = self.next[b]


class RecycledBehind(ref.Space):
    """Puts recycled blocks behind available, and not at its head."""

    def recycle_blocks(self, owner):
        for bin in range(ref.BINS):
            consumed = ref.list_number(owner, ref.CONSUMED, bin)
            available = ref.list_number(owner, ref.AVAILABLE, bin)
            for b in self.walk(consumed):
                if self.has_free_cells(b):
                    self.remove(consumed, b)
                    self.push(consumed, b)      # alone, as its own list
                    rest = self.next[b]
                    last = self.last[consumed]
                    self.next[b], self.last[consumed] = 0, self.start(b)
                    self.append(available, consumed)
                    if rest:
                        self.first[consumed], self.last[consumed] = rest, last
                        self.prev[self.block_at(rest)] = 0


class RecycledAfterMerge(ref.Space):
    """Merges first, and then recycles."""

    def recycle_blocks(self, owner):
        pass

    def end_release(self, part):
        answer = super().end_release(part)
        if self.p.eager and self.phase == ref.RUNNING:
            super().recycle_blocks(ref.ABANDONED)
        return answer


class UnsweptSound(ref.Space):
    """Unswept lists may have blocks."""

    def is_on_unswept(self, b):
        return False


class LocalUnsweptSound(ref.Space):
    """Holders' unswept lists may have blocks."""

    def is_on_unswept(self, b):
        return (super().is_on_unswept(b)
                and not self.is_holder(ref.owner_of(self.list[b])))


class LateInGcSound(ref.Space):
    """An Unmarked block may stand in in-gc."""

    def is_released_late(self, b):
        return (super().is_released_late(b)
                and ref.owner_of(self.list[b]) != ref.IN_GC)


class LateAbandonedSound(ref.Space):
    """An Unmarked block may stand on abandoned."""

    def is_released_late(self, b):
        return (super().is_released_late(b)
                and ref.owner_of(self.list[b]) != ref.ABANDONED)


class SharedPartNotAsked(ref.Space):
    """None may stand on abandoned, though the shared part is due."""

    def is_released_late(self, b):
        return (self.phase == ref.RELEASING and self.state[b] == ref.UNMARKED
                and ref.owner_of(self.list[b]) in (ref.ABANDONED, ref.IN_GC))


class LateInEveryPhase(ref.Space):
    """None may stand on abandoned in Running and Marking either."""

    def is_released_late(self, b):
        return super().is_released_late(b) or (
            self.phase != ref.RELEASING and self.state[b] == ref.UNMARKED
            and ref.owner_of(self.list[b]) == ref.ABANDONED)


class TestedWithoutChoice(ref.Space):
    """Tests R-8's clauses with the choice off too."""

    def is_sound(self):
        return super().is_sound() and all(
            map(self.is_left_swept, range(self.p.blocks)))


# ---- Mutants of R-12 of document 02: what Exhausted counts

class ExhaustedNone(ref.Space):
    """Exhausted answers 0 for its swept count."""

    def find_block(self, h, bin, offer):
        try:
            return super().find_block(h, bin, offer)
        except ref.Refused as refusal:
            raise ref.Refused(refusal.number, 0)


class ExhaustedBare(ref.Space):
    """Exhausted answers its number alone, as before."""

    def find_block(self, h, bin, offer):
        try:
            return super().find_block(h, bin, offer)
        except ref.Refused as refusal:
            raise ref.Refused(refusal.number)


class ExhaustedAbandoned(ref.Space):
    """Exhausted leaves the sweeps of local blocks out."""

    def find_block(self, h, bin, offer):
        try:
            return super().find_block(h, bin, offer)
        except ref.Refused as refusal:
            raise ref.Refused(refusal.number,
                              self.count('sweep') - self.local)

    def recycle_local_blocks(self, h, bin):
        b = super().recycle_local_blocks(h, bin)
        self.local = self.count('sweep')
        return b


# Readings that break R-12's ceiling. The comparer must see it where every
# driver is bent alike.

class SweepsAvailable(spans.Watched):
    """Abandoned available blocks count as swept again."""

    def acquire_abandoned(self, h, bin):
        for b in self.walk(ref.list_number(ref.ABANDONED, ref.AVAILABLE, bin)):
            self.events.append(('sweep', b, []))
        return super().acquire_abandoned(h, bin)


class ConsumedAgain(spans.Watched):
    """A search looks at a consumed block once more, on available."""

    def find_free_block(self, h, bin):
        b = super().find_free_block(h, bin)
        consumed = ref.list_number(h, ref.CONSUMED, bin)
        if b is None and self.first[consumed] != 0:
            b = self.block_at(self.first[consumed])
            self.remove(consumed, b)
            self.push(ref.list_number(h, ref.AVAILABLE, bin), b)
            return super().find_free_block(h, bin)
        return b


class SweepsEagerly(spans.Watched):
    """With the eager choice an alloc counts a sweep all the same."""

    def acquire_abandoned(self, h, bin):
        b = super().acquire_abandoned(h, bin)
        if self.p.eager and b is not None:
            self.events.append(('sweep', b, []))
        return b


SPAN_MUTANTS = {'sweeps-available': SweepsAvailable,
                'consumed-again': ConsumedAgain,
                'sweeps-eagerly': SweepsEagerly}


# ---- Drivers with a bent `run`: many calls by one

class StopsAtRefusal(ref.Driver):
    """Makes no call after one that is refused."""

    def make_calls(self):
        answers, stopped = [], None
        for line in self.calls:
            answers.append(stopped or self.answer_one(self.as_single(line)))
            if answers[-1].startswith('refused'):
                stopped = answers[-1]
        return answers


class LastNotMade(ref.Driver):
    """Leaves the last call out, and answers as if it were the one before."""

    def make_calls(self):
        last = self.calls[:-1] and self.calls.pop()
        answers = super().make_calls()
        return answers + answers[-1:] if last else answers


class Backwards(ref.Driver):
    """Answers in the other order."""

    def make_calls(self):
        return super().make_calls()[::-1]


class OfferTaken(ref.Driver):
    """Takes 2^64 - 1 for a block."""

    def as_single(self, line):
        return line


RUN_MUTANTS = {'stops-at-refusal': StopsAtRefusal,
               'last-not-made': LastNotMade, 'backwards': Backwards,
               'offer-taken': OfferTaken}


# ---- Mutants of R-5 of document 02: rows

def with_classes(bent):
    """A reference whose classes are bent."""
    class Bent(ref.Space):
        make_classes = bent
    Bent.__doc__ = bent.__doc__
    return Bent


class GreatestCount(ref.Classes):
    """Names the greatest bad count."""

    def check(self, block_words):
        named = super().check(block_words)
        if named and named[0] == 'count':
            return 'count', max(
                n for n in range(1, block_words + 1)
                if sum(self.covers(row, n) for row in self.rows) != 1)
        return named


class RowBeforeCount(ref.Classes):
    """Looks for an unfit row first."""

    def check(self, block_words):
        for n, row in enumerate(self.rows, 1):
            if not self.is_fit(row, block_words):
                return 'row', n
        return super().check(block_words)


class CoveredTwice(ref.Classes):
    """Passes a count that is in two rows."""

    def check(self, block_words):
        if not self.rows:
            return None
        for n in range(1, block_words + 1):
            if not any(self.covers(row, n) for row in self.rows):
                return 'count', n
        for n, row in enumerate(self.rows, 1):
            if not self.is_fit(row, block_words):
                return 'row', n
        return None


class FromZeroCovers(ref.Classes):
    """A row whose from is 0 covers."""

    def covers(self, row, count):
        return row[0] <= count <= row[1]


class EmptyRowFits(ref.Classes):
    """A row that covers nothing isn't unfit."""

    def is_fit(self, row, block_words):
        low, high, cell = row
        return not 0 < low <= high or high <= cell <= block_words


class HoldsFromOnly(ref.Classes):
    """A cell that holds its row's from and not its to passes."""

    def is_fit(self, row, block_words):
        low, high, cell = row
        return 0 < low <= high <= block_words and low <= cell <= block_words


class CellPastTheBlock(ref.Classes):
    """A cell may be over the block."""

    def is_fit(self, row, block_words):
        low, high, cell = row
        return 0 < low <= high <= cell


class RowsFromZero(ref.Classes):
    """Row n is bin n - 1."""

    def bin_of(self, size):
        bin = super().bin_of(size)
        return bin - 1 if self.rows and bin else bin

    def cell_bytes(self, bin):
        return super().cell_bytes(bin + 1 if self.rows else bin)


class LastRowForZero(ref.Classes):
    """A raised size of 0 doesn't use the row of one word."""

    def bin_of(self, size):
        if self.rows and size == 0:
            return len(self.rows)
        return super().bin_of(size)


class RowlessSizeZero(ref.Classes):
    """A bin without a row has cells of size 0."""

    def cell_bytes(self, bin):
        size = super().cell_bytes(bin)
        return 0 if size is None else size


class OwnSizesInTables(ref.Space):
    """Sound tables read 01's sizes, whatever the rows."""

    def is_sound_block(self, b):
        rows = self.classes
        self.classes = ref.Classes()
        try:
            return super().is_sound_block(b)
        finally:
            self.classes = rows


class TooManyRejected(ref.Classes):
    """More than 48 rows are tested by the checker, and so may be 12."""

    def too_many(self):
        return len(self.rows) > 64


class ClassesAfterTables(ref.Space):
    """Tests the tables before the rows."""

    def begin(self):
        ref.refuse_unless(self.is_sound(), ref.BAD_TABLES)
        super().begin()


class RowsOfSetUpOnly(ref.Space):
    """Only set-up tests the rows."""

    def begin(self):
        self.events = []
        ref.refuse_unless(self.is_sound(), ref.BAD_TABLES)


class PagesTestRows(ref.Space):
    """Pages used is given the rows too."""

    def pages_used(self, set):
        ref.test_classes(self.classes, self.p)
        return super().pages_used(set)


# Name: (mode that must find it, mutant); `rows` is `all` with rows in every
# section; `eager` is `rust` and `eager-all` is `all`, with every section eager.
MUTANTS = {
    'size-before-raise': ('all', SizeBeforeRaise),
    'zero-before-link': ('rust', ZeroBeforeLink),
    'zero-size-wanted': ('rust', ZeroSizeWanted),
    'ascending-chain': ('rust', AscendingChain),
    'short-tail': ('rust', ShortTail),
    'next-after-removal': ('rust', NextAfterRemoval),
    'marked-again': ('rust', MarkedAgain),
    'consumed-tried': ('rust', ConsumedTried),
    'early-exhausted': ('rust', EarlyExhausted),
    'first-releases-all': ('rust', FirstReleasesAll),
    'unswept-released': ('rust', UnsweptReleased),
    'kept-holder': ('rust', KeptHolder),
    'pushed-behind': ('rust', PushedBehind),
    'consumed-first': ('rust', ConsumedFirst),
    'wrong-sign': ('rust', WrongSign),
    'cell-start-only': ('rust', CellStartOnly),
    'last-place-missed': ('rust', LastPlaceMissed),
    'stale-marks': ('rust', StaleMarks),
    'leaves-in-releasing': ('all', LeavesInReleasing),
    'binding-kept': ('rust', BindingKept),
    'lists-left-behind': ('rust', ListsLeftBehind),
    'swept-not-counted': ('rust', SweptNotCounted),
    'unswept-not-counted': ('rust', UnsweptNotCounted),
    'merged-early': ('rust', MergedEarly),
    'one-for-each-list': ('rust', OneForEachList),
    'offer-only-if-needed': ('all', OfferOnlyIfNeeded),
    'undone-moves': ('rust', UndoneMoves),
    'sound-phase': ('all', without('is_sound_phase')),
    'sound-empty-lists': ('all', without('are_due_lists_empty')),
    'sound-holder': ('all', with_block_clause(trust_tls)),
    'sound-cell-size': ('all', with_block_clause(trust_size)),
    'count-kept': ('rust', CountKept),
    'count-not-swept': ('rust', CountNotSwept),
    'count-not-released': ('rust', CountNotReleased),
    'chains-not-read': ('all', with_chain(chains_not_read)),
    'ring-accepted': ('all', with_chain(ring_accepted)),
    'end-not-tested': ('all', with_chain(end_not_tested)),
    'neighbour-accepted': ('all', with_chain(neighbour_accepted)),
    'shorter-accepted': ('all', with_chain(shorter_accepted)),
    'unallocated-count': ('all', with_block_clause(trust_count)),
    'one-list-only': ('rust', OneListOnly),
    'abandoned-not-summed': ('rust', AbandonedNotSummed),
    'asked-in-running': ('rust', AskedInRunning),
    'bin-first': ('all', BinFirst),
    'bin-zero-answered': ('all', BinZeroAnswered),
    'question-without-tables': ('all', QuestionWithoutTables),
    'appended-unswept': ('eager', AppendedUnswept),
    'not-swept': ('eager', NotSwept),
    'swept-by-kind': ('eager', SweptByKind),
    'swept-by-owner': ('eager', SweptByOwner),
    'swept-first': ('eager', SweptFirst),
    'swept-each-time': ('eager', SweptEachTime),
    'released-as-swept': ('eager', ReleasedAsSwept),
    'merged-as-swept': ('eager', MergedAsSwept),
    'abandoned-not-recycled': ('eager', without_recycling(ref.ABANDONED)),
    'in-gc-not-recycled': ('eager', without_recycling(ref.IN_GC)),
    'recycled-all': ('eager', RecycledAll),
    'recycled-until-full': ('eager', RecycledUntilFull),
    'recycle-next-after': ('eager', RecycleNextAfter),
    'recycled-behind': ('eager', RecycledBehind),
    'recycled-after-merge': ('eager', RecycledAfterMerge),
    'unswept-sound': ('eager-all', UnsweptSound),
    'local-unswept-sound': ('eager-all', LocalUnsweptSound),
    'late-in-gc-sound': ('eager-all', LateInGcSound),
    'late-abandoned-sound': ('eager-all', LateAbandonedSound),
    'shared-part-not-asked': ('eager', SharedPartNotAsked),
    'late-in-every-phase': ('eager', LateInEveryPhase),
    'tested-without-choice': ('rust', TestedWithoutChoice),
    'exhausted-none': ('rust', ExhaustedNone),
    'exhausted-bare': ('rust', ExhaustedBare),
    'exhausted-abandoned': ('rust', ExhaustedAbandoned),
    'greatest-count': ('rows', with_classes(GreatestCount)),
    'row-before-count': ('rows', with_classes(RowBeforeCount)),
    'covered-twice': ('rows', with_classes(CoveredTwice)),
    'from-zero-covers': ('rows', with_classes(FromZeroCovers)),
    'empty-row-fits': ('rows', with_classes(EmptyRowFits)),
    'holds-from-only': ('rows', with_classes(HoldsFromOnly)),
    'cell-past-the-block': ('rows', with_classes(CellPastTheBlock)),
    'rows-from-zero': ('rows', with_classes(RowsFromZero)),
    'last-row-for-zero': ('rows', with_classes(LastRowForZero)),
    'rowless-size-zero': ('rows', with_classes(RowlessSizeZero)),
    'own-sizes-in-tables': ('rows', OwnSizesInTables),
    'too-many-rejected': ('rows', with_classes(TooManyRejected)),
    'classes-after-tables': ('rows', ClassesAfterTables),
    'rows-of-set-up-only': ('rows', RowsOfSetUpOnly),
    'pages-test-rows': ('rows', PagesTestRows),
}


# ---- The test

def octave_rule(size):
    """`mi_bin_from_size` as document 01 tells it."""
    words = -(-size // 8)
    if words <= 8:
        return max(1, words)
    top = (words - 1).bit_length() - 1
    return 4 * top + ((words - 1) >> (top - 2) & 3) - 3


def check_bins():
    for size in range(65537):
        assert ref.bin_from_size(size) == octave_rule(size), size
    assert ref.bin_from_size(65537) is None
    print('bins: the octave rule and the least class agree for 0 to 65536')


def crash(space, seed):
    raise SystemExit(3)


def no_end(*_):
    raise TimeoutError


def mutant_driver(mutant):
    """The mutant in this process; an error of its own is a difference, at the
    line where it comes."""
    def run(lines):
        signal.signal(signal.SIGVTALRM, no_end)
        signal.setitimer(signal.ITIMER_VIRTUAL, SECONDS)
        driver, told, trouble = ref.Driver(mutant), [], None
        try:
            for line in lines:
                told.append(driver.answer(line))
            told.append(driver.finish())
        except Exception as error:
            trouble = repr(error)
        finally:
            signal.setitimer(signal.ITIMER_VIRTUAL, 0)
        return compare.Run(compare.by_line(lines, told), '', trouble)
    return run


def find(name, mode):
    """The shrunk script that shows the mutant, or None."""
    driver = mutant_driver(MUTANTS[name][1])
    drivers = ['reference', driver]
    rows = 1 if mode == 'rows' else None
    eager = 1 if mode.startswith('eager') else None
    mode = 'rust' if mode in ('rust', 'eager') else 'all'
    for seed in range(1, SEEDS + 1):
        maker = generate.Maker(seed, mode, ARENA, rows=rows, eager=eager)
        maker.script(CALLS)
        runs = [compare.Run(maker.answers), driver(maker.lines)]
        at = compare.first_difference(runs, maker.lines, mode)
        if at is not None:
            shrinker = compare.Shrinker(drivers, mode)
            short = shrinker.shrink(maker.lines, at)
            assert shrinker.differs(short) is not None
            return short
    return None


def check_mutants(names):
    missed = []
    for name in names:
        short = find(name, MUTANTS[name][0])
        if short is None or len(short) > MOST_LINES:
            missed.append(name)
        print('%s: %s' % (name, 'NOT FOUND' if short is None else
                          'found, shrunk to %d lines' % len(short)))
        if short is not None:
            trouble = mutant_driver(MUTANTS[name][1])(short).trouble
            if trouble:
                print('  by its own trouble: ' + trouble)
        sys.stdout.flush()
    return missed


def check_spans():
    """A bent reading that no other driver stands beside: the sums and the
    moves of its own answers show it."""
    missed = []
    for name, mutant in SPAN_MUTANTS.items():
        for seed in range(1, SEEDS + 1):
            maker = generate.Maker(seed, 'rust', ARENA, make_space=mutant)
            maker.script(CALLS)
            trouble = maker.spans.trouble(maker.lines, maker.answers)
            if trouble:
                print('%s: found, %s' % (name, trouble))
                break
        else:
            missed.append(name)
            print('%s: NOT FOUND' % name)
    return missed


def differs_in_rows(maker, make_driver):
    """Whether the driver, sent the script in rows of calls, shows."""
    rows = through_run.Rows(maker.lines)
    driver = make_driver()
    told = [driver.answer(line) for line in rows.sent] + [driver.finish()]
    out = '\n'.join(a for a in told if a is not None).split('\n')
    answers, rest = compare.split_answers(maker.lines,
                                          '\n'.join(rows.told(out)) + '\n')
    runs = [compare.Run(maker.answers), compare.Run(answers, rest)]
    return compare.first_difference(runs, maker.lines, 'all') is not None


def check_runs():
    """A bent `run`; and the true one, which does not differ."""
    missed = list(RUN_MUTANTS)
    for seed in range(1, 6):
        maker = generate.Maker(seed, 'all', ARENA, plain=0.8)
        maker.script(CALLS)
        assert not differs_in_rows(maker, ref.Driver), seed
        missed = [name for name in missed
                  if not differs_in_rows(maker, RUN_MUTANTS[name])]
    print('run: %d bent, %d missed' % (len(RUN_MUTANTS), len(missed)))
    return missed


def check_crash():
    """A driver that stops early is a difference."""
    lines = generate.Maker(1, 'rust').script(50).lines
    run = compare.run_driver('%s %s --mutant crash' % (sys.executable, HERE),
                             lines)
    runs = [compare.Run(compare.run_reference(lines)), run]
    assert compare.first_difference(runs, lines, 'rust') == 0
    status = subprocess.run(
        [sys.executable, str(HERE.parent / 'compare.py'), '--count', '1',
         '--calls', '20', '--quiet', '--drivers', 'reference', 'false'],
        stdout=subprocess.DEVNULL).returncode
    assert status == 1, status
    print('crash: found')


def main():
    parser = argparse.ArgumentParser(description=__doc__)
    parser.add_argument('--mutant', help='be this driver')
    parser.add_argument('names', nargs='*', help='only these mutants')
    options = parser.parse_args()
    if options.mutant:
        mutant = (crash if options.mutant == 'crash'
                  else MUTANTS[options.mutant][1])
        ref.main(mutant)
        return 0
    check_bins()
    check_crash()
    tried = list(options.names or MUTANTS)
    missed = check_mutants(tried)
    if not options.names:
        tried += [*SPAN_MUTANTS, *RUN_MUTANTS]
        missed += check_spans() + check_runs()
    print('%d mutants, %d missed %s' % (
        len(tried), len(missed), ' '.join(missed)))
    return 1 if missed else 0


if __name__ == '__main__':
    sys.exit(main())
