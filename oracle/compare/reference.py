#!/usr/bin/env python3
"""Document 01 read as a program: a driver of the script language.

Reads a script on standard input and prints its answers.  It is written from
document 01, in the order of its headings; only what 01 leaves to the Rust
(the order of list moves, the list words they change) is taken from there.
It is a third opinion beside the Rust and the port, so it is plain before it
is fast.  Blocks are numbers from 0; links, heads and cells are addresses.
"""
import re
import sys
from bisect import bisect_left

WORD = 8
PAGE = 4096
LIMIT = 2 ** 64

RUNNING, MARKING, RELEASING = 0, 1, 2
UNALLOCATED, UNMARKED, MARKED = 0, 255, 254

BAD_SETUP, BAD_TABLES, WRONG_PHASE, BAD_HOLDER, BAD_REQUEST = 1, 2, 3, 4, 5
TOO_BIG, BAD_OFFER, BAD_LINK, EXHAUSTED, BAD_OBJECT = 6, 7, 8, 9, 10
BAD_CLASSES = 12    # R-5 of document 02; tested right after 1
# BAD_LINK never occurs since R-7 of document 02: chains are part of sound tables.


class Refused(Exception):
    """A refused call: its number is all that it returns; but Exhausted also
    its swept count (R-12 of document 02)."""

    def __init__(self, number, *counts):
        super().__init__(number)
        self.number = number
        self.counts = counts


def refuse_unless(fine, number, *counts):
    if not fine:
        raise Refused(number, *counts)


def is_power_of_two(n):
    return n > 0 and n & (n - 1) == 0


# ---- What must change shape: parameters and list numbers

class Parameters:
    """The VM constants and the sizes of the heap."""

    def __init__(self, base, log_block_bytes, blocks, least, most,
                 use_offset, unified, lower_bound, eager=False):
        self.base = base
        self.block_bytes = 1 << log_block_bytes
        self.blocks = blocks
        self.least = least              # MIN_ALIGNMENT
        self.most = most                # MAX_ALIGNMENT
        self.use_offset = use_offset
        self.unified = unified
        self.lower_bound = lower_bound  # L
        self.eager = eager              # R-8 of document 02
        self.end = base + blocks * self.block_bytes
        self.block_words = self.block_bytes // WORD

    def fit(self):
        """Whether set-up takes them; it answers BadSetup otherwise."""
        return (4096 <= self.block_bytes <= 65536
                and 1 <= self.blocks <= 1024
                and self.base > 0 and self.base % self.block_bytes == 0
                and self.end <= 2 ** 47
                and self.least in (4, 8)
                and is_power_of_two(self.most)
                and self.least <= self.most <= 64
                and self.lower_bound % 8 == 0
                and -64 <= self.lower_bound <= 64
                and not (self.unified and self.lower_bound != 0))

    def simple(self):
        """Whether `sweep` chooses the simple one."""
        return (not self.use_offset and self.least == self.most
                and self.unified)


BINS = 49
SETS = 30
LISTS = SETS * BINS
AVAILABLE, UNSWEPT, CONSUMED = 0, 1, 2
ABANDONED, IN_GC = 9, 10    # owners of lists after the holders 1 to 8


def set_of(owner, kind):
    return 3 * (owner - 1) + kind


def list_number(owner, kind, bin):
    return 1 + BINS * set_of(owner, kind) + bin


def owner_of(number):
    return (number - 1) // (3 * BINS) + 1


def kind_of(number):
    return (number - 1) // BINS % 3


def bin_of_list(number):
    return (number - 1) % BINS


# ---- Size classes

def class_sizes():
    """Cell sizes in bytes: 1, then 1 to 8, then fours that double."""
    words = [1] + list(range(1, 9))
    four = [10, 12, 14, 16]
    while len(words) < BINS:
        words += four
        four = [2 * w for w in four]
    return [WORD * w for w in words]


CELL_SIZES = class_sizes()


def bin_from_size(size):
    """The least bin from 1 on whose cell holds the size; None past the last.

    01 gives the octave rule of `mi_bin_from_size`; the self-test compares
    both for every size."""
    bin = bisect_left(CELL_SIZES, size, 1)
    return bin if bin < BINS else None


MOST_ROWS = 48


class Classes:
    """R-5 of document 02: the classes that a call is given.  Rows are triples
    of words (from, to, cell), numbered from 1; without any they are 01's."""

    def __init__(self, rows=()):
        self.rows = tuple(rows)
        self.verdicts = {}      # what the checker says, by the block's words

    def too_many(self):
        return len(self.rows) > MOST_ROWS

    def covers(self, row, count):
        """A row whose from is 0 or over its to covers nothing."""
        low, high, _ = row
        return 0 < low <= count <= high

    def is_fit(self, row, block_words):
        low, high, cell = row
        return 0 < low <= high <= cell <= block_words

    def check(self, block_words):
        """What the checker names: ('count', n), the least count that isn't in
        exactly one row; else ('row', n), the first that is unfit; else None."""
        if not self.rows:
            return None
        for count in range(1, block_words + 1):
            if sum(self.covers(row, count) for row in self.rows) != 1:
                return 'count', count
        for n, row in enumerate(self.rows, 1):
            if not self.is_fit(row, block_words):
                return 'row', n
        return None

    def named(self, block_words):
        """The same, kept: each call asks."""
        if block_words not in self.verdicts:
            self.verdicts[block_words] = self.check(block_words)
        return self.verdicts[block_words]

    def bin_of(self, size):
        """The row that matches, of one word for size 0; None if none does."""
        if not self.rows:
            return bin_from_size(size)
        words = max(1, -(-size // WORD))
        matching = [n for n, row in enumerate(self.rows, 1)
                    if self.covers(row, words)]
        return matching[0] if matching else None

    def cell_bytes(self, bin):
        """Row n is bin n; None for a bin without a row."""
        if not self.rows:
            return CELL_SIZES[bin]
        return (WORD * self.rows[bin - 1][2] if 1 <= bin <= len(self.rows)
                else None)


def maximum_aligned_size(p, size, align):
    return size + align - p.least if align > p.least else size


def align_allocation(region, align, offset):
    return region + -(region + offset) % align


# ---- Heap: the lent bytes

class Heap:
    """The arena, read and written by address."""

    def __init__(self, base, length, seed, block_bytes):
        self.base = base
        self.block_bytes = block_bytes
        self.chains = {}    # what was found of a block's chain, until a write
        self.bytes = filled(length, seed)
        # The hash before each page, as far as nothing was written since.
        self.hashes = [14695981039346656037]

    def touch(self, address, length):
        at = address - self.base
        del self.hashes[at // PAGE + 1:]
        for b in range(at // self.block_bytes,
                       (at + length - 1) // self.block_bytes + 1):
            self.chains.pop(b, None)

    def load(self, address):
        at = address - self.base
        return int.from_bytes(self.bytes[at:at + WORD], 'little')

    def store(self, address, value):
        at = address - self.base
        self.bytes[at:at + WORD] = value.to_bytes(WORD, 'little')
        self.touch(address, WORD)

    def zero(self, address, length):
        at = address - self.base
        self.bytes[at:at + length] = bytes(length)
        self.touch(address, length)

    def hash(self):
        """FNV-1a over all bytes."""
        for start in range(PAGE * (len(self.hashes) - 1),
                           len(self.bytes), PAGE):
            h = self.hashes[-1]
            for byte in self.bytes[start:start + PAGE]:
                h = (h ^ byte) * 1099511628211 % LIMIT
            self.hashes.append(h)
        return self.hashes[-1]


def filled(length, seed):
    if seed == 0:
        return bytearray(length)
    out = bytearray(length)
    x = seed
    for i in range(length):
        x = (x * 6364136223846793005 + 1442695040888963407) % LIMIT
        out[i] = x >> 56
    return out


# ---- Tables, block lists, blocks

def test_classes(classes, p):
    """The tests of rows: too many are BadSetup, and then BadClasses."""
    refuse_unless(not classes.too_many(), BAD_SETUP)
    refuse_unless(classes.named(p.block_words) is None, BAD_CLASSES)


class Space:
    """All tables and the heap, with the calls on them.

    `events` holds what the last call did, in order: ('init', block),
    ('sweep', block, freed cells), ('release', block), ('take', cell, size).
    The counts of the answers are counts of events."""

    make_classes = Classes

    def __init__(self, p, seed=0):
        """Set-up: zero tables and marks, Running, no holder bound."""
        self.p = p
        self.classes = self.make_classes()  # what the next call is given
        n = p.blocks
        self.state = [UNALLOCATED] * n
        self.next = [0] * n
        self.prev = [0] * n
        self.free = [0] * n
        self.size = [0] * n
        self.list = [0] * n
        self.tls = [0] * n
        self.cells = [0] * n                # the free count of a block
        self.first = [0] * (LISTS + 1)      # by list number, from 1
        self.last = [0] * (LISTS + 1)
        length = n * p.block_bytes
        self.marks = bytearray(length // 64)
        self.heap = Heap(p.base, length, seed, p.block_bytes)
        self.phase = RUNNING
        self.bound = 0                      # bit h for holder h
        self.released = 0                   # bit 0 for the shared part
        self.events = []

    # Blocks and addresses

    def start(self, b):
        return self.p.base + b * self.p.block_bytes

    def block_at(self, address):
        """The block that starts there, or None."""
        b, rest = divmod(address - self.p.base, self.p.block_bytes)
        return b if rest == 0 and 0 <= b < self.p.blocks else None

    def is_whole_cell(self, b, address):
        at = address - self.start(b)
        size = self.size[b]
        return at >= 0 and at % size == 0 and at + size <= self.p.block_bytes

    def whole_cells(self, b):
        """Starts of the whole cells, ascending; a short tail is none."""
        size = self.size[b]
        count = self.p.block_bytes // size
        return range(self.start(b), self.start(b) + count * size, size)

    def has_free_cells(self, b):
        return self.free[b] != 0

    # The four list operations, with the list words the Rust changes

    def push(self, l, b):
        head = self.first[l]
        self.next[b] = head
        self.prev[b] = 0
        if head == 0:
            self.last[l] = self.start(b)
        else:
            self.prev[self.block_at(head)] = self.start(b)
        self.first[l] = self.start(b)
        self.list[b] = l

    def pop(self, l):
        """The head, taken off, or None. It keeps its list word."""
        if self.first[l] == 0:
            return None
        b = self.block_at(self.first[l])
        if self.next[b] == 0:
            self.first[l] = self.last[l] = 0
        else:
            self.first[l] = self.next[b]
            follower = self.block_at(self.next[b])
            self.prev[follower] = 0
            self.list[follower] = l
        self.next[b] = self.prev[b] = 0
        return b

    def remove(self, l, b):
        """The block's own words stay: its release clears them."""
        before, after = self.prev[b], self.next[b]
        if before == 0:
            self.first[l] = after
        else:
            self.next[self.block_at(before)] = after
        if after == 0:
            self.last[l] = before
        else:
            self.prev[self.block_at(after)] = before
        # A neighbour that became an end gets the list word stored anew.
        if before == 0 and after != 0:
            self.list[self.block_at(after)] = l
        if before != 0 and after == 0:
            self.list[self.block_at(before)] = l

    def append(self, l, other):
        """How many blocks were appended."""
        if self.first[other] == 0:
            return 0
        if self.first[l] == 0:
            self.first[l] = self.first[other]
        else:
            self.next[self.block_at(self.last[l])] = self.first[other]
            self.prev[self.block_at(self.first[other])] = self.last[l]
        self.last[l] = self.last[other]
        blocks = 0
        for b in self.walk(other):
            self.list[b] = l
            blocks += 1
        self.first[other] = self.last[other] = 0
        return blocks

    def walk(self, l):
        """The blocks of a list; next is read before the block is used."""
        link = self.first[l]
        while link != 0:
            b = self.block_at(link)
            link = self.next[b]
            yield b

    # Marks: one bit for each 8 heap bytes

    def mark_bit(self, place):
        g = (place - self.p.base) // 8
        return g // 8, 1 << (g % 8)

    def is_marked(self, place):
        """A place outside the heap reads unmarked."""
        if not self.p.base <= place < self.p.end:
            return False
        byte, bit = self.mark_bit(place)
        return self.marks[byte] & bit != 0

    # Block: init, sweep

    def link_cells(self, b, cells):
        """Chain the cells, given ascending, so that the highest is first;
        the count is the chain's length."""
        below = 0
        for cell in cells:
            self.heap.store(cell, below)
            below = cell
        self.free[b] = below
        self.cells[b] = len(cells)

    def init_block(self, b, cell_size, h):
        self.state[b] = UNMARKED
        self.size[b] = cell_size
        self.tls[b] = h
        self.link_cells(b, self.whole_cells(b))
        self.events.append(('init', b))

    def is_kept(self, cell, size):
        """Whether the sweep chosen finds a mark for the cell."""
        if self.p.simple():
            return self.is_marked(cell)
        low = cell + self.p.lower_bound
        return any(self.is_marked(place)
                   for place in range(low, low + size, 8))

    def sweep(self, b):
        size = self.size[b]
        freed = [cell for cell in self.whole_cells(b)
                 if not self.is_kept(cell, size)]
        self.link_cells(b, freed)
        self.events.append(('sweep', b, freed))

    # Allocator

    def find_free_block(self, h, bin):
        """Skim the local available list; full blocks go to consumed."""
        available = list_number(h, AVAILABLE, bin)
        while self.first[available] != 0:
            b = self.block_at(self.first[available])
            if self.has_free_cells(b):
                return b
            self.pop(available)
            self.push(list_number(h, CONSUMED, bin), b)
        return None

    def keep_block(self, h, bin, b):
        """Push to available or consumed; whether it has a free cell."""
        kind = AVAILABLE if self.has_free_cells(b) else CONSUMED
        self.push(list_number(h, kind, bin), b)
        return kind == AVAILABLE

    def recycle_local_blocks(self, h, bin):
        while True:
            b = self.pop(list_number(h, UNSWEPT, bin))
            if b is None:
                return None
            self.sweep(b)
            if self.keep_block(h, bin, b):
                return b

    def acquire_abandoned(self, h, bin):
        """Abandoned available, then abandoned unswept; never consumed."""
        while True:
            b = self.pop(list_number(ABANDONED, AVAILABLE, bin))
            if b is None:
                b = self.pop(list_number(ABANDONED, UNSWEPT, bin))
                if b is None:
                    return None
                self.sweep(b)
            self.tls[b] = h
            if self.keep_block(h, bin, b):
                return b

    def find_block(self, h, bin, offer):
        """The block to take a cell from, and whether it is the offer."""
        for search in (self.find_free_block, self.recycle_local_blocks,
                       self.acquire_abandoned):
            b = search(h, bin)
            if b is not None:
                return b, False
        refuse_unless(offer is not None, EXHAUSTED, self.count('sweep'))
        self.push(list_number(h, AVAILABLE, bin), offer)
        self.init_block(offer, self.classes.cell_bytes(bin), h)
        return offer, True

    def take_cell(self, b):
        """The link is read before the whole cell is zeroed. It needs no test:
        the tables are sound, and so the chain is one of whole cells."""
        cell = self.free[b]
        link = self.heap.load(cell)
        self.heap.zero(cell, self.size[b])
        self.free[b] = link
        self.cells[b] -= 1
        self.events.append(('take', cell, self.size[b]))
        return cell

    def is_good_request(self, size, align, offset):
        p = self.p
        return (size % p.least == 0 and offset % p.least == 0
                and offset <= 65536 and is_power_of_two(align)
                and p.least <= align <= p.most)

    def alloc(self, h, size, align, offset, offer):
        self.begin()
        refuse_unless(self.phase == RUNNING, WRONG_PHASE)
        refuse_unless(self.is_bound(h), BAD_HOLDER)
        refuse_unless(self.is_good_request(size, align, offset), BAD_REQUEST)
        raised = maximum_aligned_size(self.p, size, align)
        refuse_unless(raised <= self.p.block_bytes, TOO_BIG)
        if offer is not None:
            refuse_unless(offer < self.p.blocks
                          and self.state[offer] == UNALLOCATED, BAD_OFFER)
        b, used = self.find_block(h, self.classes.bin_of(raised), offer)
        cell = self.take_cell(b)
        return (align_allocation(cell, align, offset), self.size[b],
                int(used), self.count('sweep'))

    # Space

    def begin(self):
        """What every call but set-up and pages used tests first."""
        self.events = []
        test_classes(self.classes, self.p)
        refuse_unless(self.is_sound(), BAD_TABLES)

    def count(self, kind):
        return sum(event[0] == kind for event in self.events)

    def is_holder(self, h):
        return 1 <= h <= 8

    def is_bound(self, h):
        return self.is_holder(h) and self.bound >> h & 1 == 1

    def bind(self, h):
        self.begin()
        refuse_unless(self.phase == RUNNING, WRONG_PHASE)
        refuse_unless(self.is_holder(h) and not self.is_bound(h), BAD_HOLDER)
        self.bound |= 1 << h

    def destroy(self, h):
        """R-10 of document 02: in Marking too, as in Running."""
        self.begin()
        refuse_unless(self.phase in (RUNNING, MARKING), WRONG_PHASE)
        refuse_unless(self.is_bound(h), BAD_HOLDER)
        left = self.abandon_blocks(h, ABANDONED)
        self.bound &= ~(1 << h)
        return left

    def abandon_blocks(self, owner, to):
        """How many blocks went over."""
        return sum(self.append(list_number(to, kind, bin),
                               list_number(owner, kind, bin))
                   for bin in range(BINS)
                   for kind in (AVAILABLE, CONSUMED, UNSWEPT))

    def prepare(self):
        self.begin()
        refuse_unless(self.phase == RUNNING, WRONG_PHASE)
        for b in range(self.p.blocks):
            if self.state[b] != UNALLOCATED:
                self.state[b] = UNMARKED
        self.marks = bytearray(len(self.marks))
        self.phase = MARKING

    def mark(self, place, b):
        """1 if the mark is new; only a new one makes the block Marked."""
        self.begin()
        p = self.p
        refuse_unless(self.phase == MARKING, WRONG_PHASE)
        refuse_unless(p.base <= place < p.end and place % 8 == 0
                      and b < p.blocks and self.state[b] != UNALLOCATED
                      and 0 <= place - p.lower_bound - self.start(b)
                      < p.block_bytes, BAD_OBJECT)
        if self.is_marked(place):
            return 0
        byte, bit = self.mark_bit(place)
        self.marks[byte] |= bit
        self.state[b] = MARKED
        return 1

    def release_block(self, b):
        self.next[b] = self.prev[b] = self.free[b] = self.cells[b] = 0
        self.size[b] = self.list[b] = self.tls[b] = 0
        self.state[b] = UNALLOCATED
        self.events.append(('release', b))

    def release_blocks(self, l):
        """Release the Unmarked blocks of a list."""
        for b in self.walk(l):
            if self.state[b] == UNMARKED:
                self.remove(self.list[b], b)
                self.release_block(b)

    def release(self, h):
        """As the Rust does, a holder's unswept list isn't looked through."""
        self.begin()
        done = self.is_holder(h) and self.released >> h & 1 == 1
        refuse_unless(self.phase != RUNNING and not done, WRONG_PHASE)
        refuse_unless(self.is_bound(h), BAD_HOLDER)
        for bin in range(BINS):
            for kind in (AVAILABLE, CONSUMED):
                l = list_number(h, kind, bin)
                self.release_blocks(l)
                self.leave_unswept(list_number(h, UNSWEPT, bin), l)
        self.abandon_blocks(h, IN_GC)
        return self.end_release(h)

    def shared_release(self):
        """`sweep_later` on abandoned."""
        self.begin()
        done = self.released & 1 == 1
        refuse_unless(self.phase != RUNNING and not done, WRONG_PHASE)
        for bin in range(BINS):
            available, unswept, consumed = (
                list_number(ABANDONED, kind, bin)
                for kind in (AVAILABLE, UNSWEPT, CONSUMED))
            for l in (available, consumed, unswept):
                self.release_blocks(l)
            self.leave_unswept(unswept, available)
            self.leave_unswept(unswept, consumed)
        return self.end_release(0)

    def leave_unswept(self, l, other):
        """R-8: eager "releases append nothing to unswept lists"."""
        if not self.p.eager:
            self.append(l, other)

    def end_release(self, part):
        """The first enters Releasing; the last merges in-gc and ends it."""
        self.phase = RELEASING
        self.released |= 1 << part
        merged = 0
        if self.released == self.bound | 1:
            if self.p.eager:
                self.sweep_all()
                self.recycle_blocks(ABANDONED)
                self.recycle_blocks(IN_GC)
            merged = self.abandon_blocks(IN_GC, ABANDONED)
            self.released = 0
            self.phase = RUNNING
        return self.count('release'), merged, self.count('sweep')

    # R-8 of document 02: eager sweeping, in the last release before the merge

    def sweep_all(self):
        """All occupied blocks, in ascending order."""
        for b in range(self.p.blocks):
            if self.state[b] != UNALLOCATED:
                self.sweep(b)

    def recycle_blocks(self, owner):
        """Consumed blocks with a free cell go to the head of available."""
        for bin in range(BINS):
            consumed = list_number(owner, CONSUMED, bin)
            for b in self.walk(consumed):
                if self.has_free_cells(b):
                    self.remove(consumed, b)
                    self.push(list_number(owner, AVAILABLE, bin), b)

    def pages_used(self, set):
        """Bins 1 to 48 of one set; walks tables that need not be sound, and
        is given no rows."""
        blocks = 0
        for bin in range(1, BINS):
            link = self.first[1 + BINS * set + bin]
            passed = 0
            while link != 0:
                b = self.block_at(link)
                passed += 1
                refuse_unless(b is not None and passed <= self.p.blocks,
                              BAD_TABLES)
                link = self.next[b]
            blocks += passed
        return blocks * (self.p.block_bytes // PAGE)

    def free_cells(self, bin):
        """R-7 of document 02: the total free cells of a bin over all lists;
        in every phase. The bin is tested after the tables."""
        self.begin()
        refuse_unless(1 <= bin < BINS, BAD_REQUEST)
        return sum(self.cells[b] for b in range(self.p.blocks)
                   if self.state[b] != UNALLOCATED
                   and bin_of_list(self.list[b]) == bin)

    # Sound tables, clause by clause

    def is_sound(self):
        return (all(map(self.is_sound_block, range(self.p.blocks)))
                and self.are_sound_lists() and self.is_sound_phase()
                and self.are_due_lists_empty()
                and (not self.p.eager
                     or all(map(self.is_left_swept, range(self.p.blocks))))
                and all(map(self.is_sound_chain, range(self.p.blocks))))

    def is_sound_block(self, b):
        """State byte and words; the walk of its list is another clause."""
        words = (self.next[b], self.prev[b], self.free[b], self.size[b],
                 self.list[b], self.tls[b], self.cells[b])
        if self.state[b] == UNALLOCATED:
            return not any(words)
        if self.state[b] not in (UNMARKED, MARKED):
            return False
        l = self.list[b]
        if not 1 <= l <= LISTS:
            return False
        bin, owner = bin_of_list(l), owner_of(l)
        return (bin >= 1 and self.size[b] == self.classes.cell_bytes(bin)
                and (self.free[b] == 0 or self.is_whole_cell(b, self.free[b]))
                and self.is_holder(self.tls[b])
                and (not self.is_holder(owner) or self.tls[b] == owner))

    def is_left_swept(self, b):
        """R-8, with the choice on: "a block on any unswept list and, in
        Releasing, an Unmarked block in in-gc or, once the shared part is
        done, on abandoned" is BadTables."""
        return self.state[b] == UNALLOCATED or not (
            self.is_on_unswept(b) or self.is_released_late(b))

    def is_on_unswept(self, b):
        return kind_of(self.list[b]) == UNSWEPT

    def is_released_late(self, b):
        owner = owner_of(self.list[b])
        return (self.phase == RELEASING and self.state[b] == UNMARKED
                and (owner == IN_GC
                     or owner == ABANDONED and self.released & 1 == 1))

    def is_sound_chain(self, b):
        """R-7: "each word equals its chain's length, with the chain in whole
        cells of its block and none repeated". Kept until the block's words
        or its heap bytes change, since each call asks."""
        if self.state[b] == UNALLOCATED:
            return True
        key = self.free[b], self.size[b], self.cells[b]
        if self.heap.chains.get(b, (None, None))[0] != key:
            self.heap.chains[b] = key, self.chain_length(b) == self.cells[b]
        return self.heap.chains[b][1]

    def chain_length(self, b):
        """None where it leaves the block's whole cells or repeats one."""
        met = set()
        cell = self.free[b]
        while cell != 0:
            if cell in met or not self.is_whole_cell(b, cell):
                return None
            met.add(cell)
            cell = self.heap.load(cell)
        return len(met)

    def are_sound_lists(self):
        """Links agree both ways; each occupied block is on its list."""
        met = 0
        for l in range(1, LISTS + 1):
            if self.first[l] == 0 and self.last[l] == 0:
                continue
            count = self.sound_list_length(l)
            if count is None:
                return False
            met += count
        return met == sum(s != UNALLOCATED for s in self.state)

    def sound_list_length(self, l):
        """How many blocks the list has, or None where it isn't sound.

        A block passed twice has two blocks before it, so its prev word
        differs from one of them: the walk ends."""
        before, link, count = 0, self.first[l], 0
        while link != 0:
            b = self.block_at(link)
            if (b is None or self.state[b] == UNALLOCATED
                    or self.list[b] != l or self.prev[b] != before):
                return None
            before, link, count = link, self.next[b], count + 1
        return count if self.last[l] == before else None

    def is_sound_phase(self):
        due = self.bound | 1
        if self.phase not in (RUNNING, MARKING, RELEASING):
            return False
        if self.phase != RELEASING:
            return self.released == 0
        return (self.released != 0 and self.released & ~due == 0
                and self.released != due)

    def are_due_lists_empty(self):
        """Lists of unbound and released holders, and in-gc lists."""
        empty = [h for h in range(1, 9)
                 if not self.is_bound(h) or self.released >> h & 1]
        if self.phase != RELEASING:
            empty.append(IN_GC)
        return not any(any(self.first[list_number(o, AVAILABLE, 0):
                                      list_number(o + 1, AVAILABLE, 0)])
                       for o in empty)


# ---- The script language

class Bad(Exception):
    """A line that ends the run."""


NUMBER = re.compile(r'(?:0|[1-9][0-9]{0,19})\Z')


def number(word):
    if not NUMBER.match(word):
        raise Bad
    n = int(word)
    if n >= LIMIT:
        raise Bad
    return n


def signed(word):
    if not word.startswith('-'):
        n = number(word)
    elif word == '-0':
        raise Bad
    else:
        n = -number(word[1:])
    bad_unless(-2 ** 63 <= n < 2 ** 63)
    return n


def bad_unless(fine):
    if not fine:
        raise Bad


# The lines of a `z`: how many words follow the letter.
CALLS = {'b': 1, 'd': 1, 'a': 5, 'p': 0, 'm': 2, 'r': 1, 's': 0}
MOST_CALLS = 64
NO_OFFER = str(LIMIT - 1)   # of an alloc in a `z`, as in an export


def is_call(line):
    """Whether the line is one of the seven calls, of good form."""
    kind, *words = line.split(' ')
    if CALLS.get(kind) != len(words):
        return False
    if kind == 'a' and words[-1] == '-':
        words.pop()
    return all(NUMBER.match(w) and int(w) < LIMIT for w in words)


class Driver:
    """Answers the lines of a script one by one."""

    def __init__(self, make_space=Space):
        self.make_space = make_space
        self.make_classes = getattr(make_space, 'make_classes', Classes)
        self.classes = self.make_classes()
        self.space = None
        self.ended = False
        self.due = 0            # how many lines a `z` still waits for
        self.calls = []         # those that it has
        self.lines = {
            'b': (1, self.do_bind), 'd': (1, self.do_destroy),
            'p': (0, self.do_prepare), 'm': (2, self.do_mark),
            'r': (1, self.do_release), 's': (0, self.do_shared_release),
            'u': (1, self.do_pages_used), 'v': (1, self.do_free_cells),
            'n': (1, self.do_bin),
            't': (1, self.do_bin_of_words),
            'q': (2, self.do_raise), 'g': (3, self.do_align),
            'w': (2, self.do_write),
            'F': (3, self.do_list_words), 'G': (3, self.do_phase_words),
            'D': (0, self.do_dump), 'H': (0, self.do_heap),
            'z': (1, self.do_many),
        }

    def answer(self, line):
        """The answer to a line: None if it is skipped, if the run ended, or
        where a `z` waits for more lines; its last gives all its answers."""
        if self.ended:
            return None
        if self.due:
            return self.gather(line)
        if line == '' or line.startswith('#'):
            return None
        return self.answer_one(line)

    def answer_one(self, line):
        try:
            return self.run(line.split(' '))
        except Refused as refusal:
            return ' '.join(map(str, ['refused', refusal.number,
                                      *refusal.counts]))
        except Bad:
            return self.end()

    def end(self):
        self.ended = True
        return 'bad'

    def finish(self):
        """The answer to the end of the input: None, or bad in a `z`."""
        return self.end() if self.due and not self.ended else None

    # `run`: many calls by one, each answered as the single call would be

    def do_many(self, count):
        bad_unless(1 <= count <= MOST_CALLS)
        self.due, self.calls = count, []

    def gather(self, line):
        if not is_call(line):
            return self.end()
        self.calls.append(line)
        self.due -= 1
        return None if self.due else '\n'.join(['ok'] + self.make_calls())

    def make_calls(self):
        return [self.answer_one(self.as_single(line)) for line in self.calls]

    def as_single(self, line):
        kind, *words = line.split(' ')
        if kind == 'a' and words[-1] == NO_OFFER:
            words[-1] = '-'
        return ' '.join([kind] + words)

    def run(self, words):
        kind, rest = words[0], words[1:]
        if kind == 'setup':
            return self.do_setup(rest)
        if kind == 'k':
            return self.do_rows(rest)
        if kind == 'c':
            return self.do_check(rest)
        bad_unless(self.space is not None)
        if kind == 'a':
            return self.do_alloc(rest)
        if kind == 'K':
            return self.do_mark_bytes(rest)
        if kind == 'T':
            return self.do_block_words(rest)
        bad_unless(kind in self.lines)
        count, action = self.lines[kind]
        bad_unless(len(rest) == count)
        return action(*map(number, rest))

    def do_setup(self, words):
        bad_unless(len(words) in (9, 10))
        base, log, blocks, least, most = map(number, words[:5])
        use_offset, unified = map(number, words[5:7])
        lower_bound, seed = signed(words[7]), number(words[8])
        eager = number(words[9]) if len(words) == 10 else 0
        bad_unless(log <= 63 and use_offset <= 1 and unified <= 1
                   and eager <= 1)
        p = Parameters(base, log, blocks, least, most, use_offset == 1,
                       unified == 1, lower_bound, eager == 1)
        self.space = None
        refuse_unless(p.fit(), BAD_SETUP)
        test_classes(self.classes, p)
        self.space = self.make_space(p, seed)
        self.space.classes = self.classes
        return 'ok'

    def do_rows(self, words):
        """R-5: what later calls are given; the tables aren't touched."""
        bad_unless(len(words) % 3 == 0 and len(words) <= 3 * 64)
        n = [number(word) for word in words]
        self.classes = self.make_classes(zip(n[0::3], n[1::3], n[2::3]))
        if self.space is not None:
            self.space.classes = self.classes
        return 'ok'

    def do_check(self, words):
        bad_unless(len(words) == 1)
        log = number(words[0])
        bad_unless(12 <= log <= 16)
        refuse_unless(not self.classes.too_many(), BAD_SETUP)
        named = self.classes.named((1 << log) // WORD)
        return 'ok' if named is None else 'ok %s %d' % named

    def do_bind(self, h):
        self.space.bind(h)
        return 'ok'

    def do_destroy(self, h):
        return 'ok %d' % self.space.destroy(h)

    def do_prepare(self):
        self.space.prepare()
        return 'ok'

    def do_alloc(self, words):
        bad_unless(len(words) == 5)
        h, size, align, offset = map(number, words[:4])
        offer = None if words[4] == '-' else number(words[4])
        answer = self.space.alloc(h, size, align, offset, offer)
        return 'ok %d %d %d %d' % answer

    def do_mark(self, place, b):
        return 'ok %d' % self.space.mark(place, b)

    def do_release(self, h):
        return 'ok %d %d %d' % self.space.release(h)

    def do_shared_release(self):
        return 'ok %d %d %d' % self.space.shared_release()

    def do_pages_used(self, set):
        bad_unless(set < SETS)
        return 'ok %d' % self.space.pages_used(set)

    def do_free_cells(self, bin):
        return 'ok %d' % self.space.free_cells(bin)

    def accepted_classes(self):
        """The rows in force; a leaf that asks for a bin needs good ones."""
        classes = self.space.classes
        bad_unless(not classes.too_many()
                   and classes.named(self.space.p.block_words) is None)
        return classes

    def do_bin(self, size):
        bin = self.accepted_classes().bin_of(size)
        return 'ok -' if bin is None else 'ok %d' % bin

    def do_bin_of_words(self, words):
        """R-1's table is of 01's classes, whatever the rows."""
        bin = bin_from_size(8 * words)
        return 'ok -' if bin is None else 'ok %d' % bin

    def do_raise(self, size, align):
        classes = self.accepted_classes()
        bad_unless(self.space.is_good_request(size, align, 0))
        raised = maximum_aligned_size(self.space.p, size, align)
        bin = classes.bin_of(raised)
        if bin is None:
            return 'ok -'
        return 'ok %d %d %d' % (raised, bin, classes.cell_bytes(bin))

    def do_align(self, region, align, offset):
        bad_unless(self.space.is_good_request(0, align, offset))
        bad_unless(region % 8 == 0 and 0 < region < 2 ** 47)
        return 'ok %d' % align_allocation(region, align, offset)

    def do_write(self, address, value):
        p = self.space.p
        bad_unless(p.base <= address and address + WORD <= p.end)
        self.space.heap.store(address, value)
        return 'ok'

    def do_block_words(self, words):
        """Without the count, its word is left as it stands."""
        bad_unless(len(words) in (8, 9))
        b, state, next, prev, free, size, list, tls, *count = map(number,
                                                                  words)
        s = self.space
        bad_unless(b < s.p.blocks and state <= 255)
        s.state[b], s.next[b], s.prev[b] = state, next, prev
        s.free[b], s.size[b], s.list[b], s.tls[b] = free, size, list, tls
        if count:
            s.cells[b] = count[0]
        return 'ok'

    def do_list_words(self, l, first, last):
        bad_unless(1 <= l <= LISTS)
        self.space.first[l], self.space.last[l] = first, last
        return 'ok'

    def do_phase_words(self, phase, bound, released):
        bad_unless(bound & ~0x1FE == 0 and released & ~0x1FF == 0)
        s = self.space
        s.phase, s.bound, s.released = phase, bound, released
        return 'ok'

    def do_mark_bytes(self, words):
        bad_unless(len(words) == 1)
        bad_unless(re.match(r'[0-9a-f]*\Z', words[0]))
        bad_unless(len(words[0]) == 2 * len(self.space.marks))
        self.space.marks = bytearray.fromhex(words[0])
        return 'ok'

    def do_dump(self):
        s = self.space
        out = ['phase %d bound %d released %d' % (s.phase, s.bound,
                                                  s.released)]
        rows = zip(s.state, s.next, s.prev, s.free, s.size, s.list, s.tls,
                   s.cells)
        for b, row in enumerate(rows):
            out.append('block %d ' % b + ' '.join(map(str, row)))
        for l in range(1, LISTS + 1):
            if s.first[l] != 0 or s.last[l] != 0:
                out.append('list %d %d %d' % (l, s.first[l], s.last[l]))
        out.append('marks ' + s.marks.hex())
        out.append('heap %016x' % s.heap.hash())
        out.append('end')
        return '\n'.join(out)

    def do_heap(self):
        return self.space.heap.bytes.hex()


def main(make_space=Space):
    driver = Driver(make_space)
    for line in sys.stdin.buffer.read().decode('latin-1').split('\n'):
        answer = driver.answer(line)
        if answer is not None:
            sys.stdout.write(answer + '\n')
    answer = driver.finish()
    if answer is not None:
        sys.stdout.write(answer + '\n')


if __name__ == '__main__':
    main()
