#!/usr/bin/env python3
"""The listing of a trace, read off document 01's census paragraph as R-4 of
document 02 amends it.

Standard input: a trace. Standard output: its listing. The calls are those of
../compare/reference.py, the reading of document 01 that the differential runs
use too; nothing here comes from the port."""
import os
import re
import sys

sys.path.insert(0, os.path.join(os.path.dirname(__file__), '..', 'compare'))
import reference as ref

MOST_BYTES, MOST_LINES = 16384, 256
BASE, BLOCK, BLOCKS = 16384, 4096, 4
SETUP = 'setup 16384 12 4 8 8 0 1 0 0'
BAD_LINE = 11
MARKING = ref.MARKING
# how many numbers follow a line's letter; an alloc has its block besides
NUMBERS = {b'b': 1, b'd': 1, b'a': 4, b'p': 0, b'm': 2, b'r': 1, b's': 0}


def lines_of(trace):
    """The lines that are read: none begins where nothing follows."""
    rest, lines = trace[:MOST_BYTES], []
    while rest and len(lines) < MOST_LINES:
        line, _, rest = rest.partition(b'\n')
        lines.append(line)
    return lines


def is_number(word):
    return (re.fullmatch(rb'0|[1-9][0-9]*', word) is not None
            and int(word) < 2 ** 64)


def is_line(line):
    """Whether the line has one of the seven forms."""
    letter, *words = line.split(b' ')
    if letter not in NUMBERS:
        return False
    if letter == b'a':
        if not words or not (words[-1] == b'-' or is_number(words[-1])):
            return False
        words = words[:-1]
    return len(words) == NUMBERS[letter] and all(map(is_number, words))


def run(trace):
    """The refused lines, each with its number, and the space after them."""
    driver = ref.Driver()
    driver.answer(SETUP)
    refused = []
    for at, line in enumerate(lines_of(trace), 1):
        answer = (driver.answer(line.decode('ascii')) if is_line(line)
                  else 'refused %d' % BAD_LINE)
        if answer.startswith('refused'):
            refused.append((at, int(answer.split()[1])))
    return refused, driver.space


def letter_of(number):
    """A U C local, a u c abandoned, g in-gc; of a list's word."""
    which = (number - 1) // 49
    if which >= 27:
        return 'g'
    return ('AUC' if which < 24 else 'auc')[which % 3]


def chain(start, size, head, load):
    """Stops at a bad link or after a block's cell count."""
    cells, at = [], head
    while (len(cells) < BLOCK // size and start <= at
           and (at - start) % size == 0 and at - start + size <= BLOCK):
        cells.append(at)
        at = load(at)
    return cells


def swept(start, size, is_marked):
    """The chain that a sweep now would build, the highest cell first."""
    cells = range(start, start + BLOCK - size + 1, size)
    return [cell for cell in reversed(cells) if not is_marked(cell)]


def sections(phase, rows, standing, sweep):
    """The block rows and free rows, of (state, free, size, list, holder).

    standing(b, size, head) gives the chain of a block as it stands, and
    sweep(b, size) the one that a sweep of it now would build."""
    blocks, free = [], []
    for b, (state, head, size, number, holder) in enumerate(rows):
        if state == 0:
            continue
        letter = letter_of(number)
        blocks.append('%d %d %d %s %d' % (b, state, size, letter, holder))
        if phase == MARKING:
            continue
        cells = (sweep(b, size) if letter in 'Uug'
                 else standing(b, size, head))
        free += ['%d %d' % (b, a) for a in cells]
    return blocks, free


def text(refused, blocks, free):
    out = []
    for name, rows in (('refused', ['%d %d' % r for r in refused]),
                       ('blocks', blocks), ('free', free)):
        out += ['%s %d' % (name, len(rows))] + rows
    return ''.join(row + '\n' for row in out).encode()


def listing(trace):
    refused, space = run(trace)
    rows = zip(space.state, space.free, space.size, space.list, space.tls)
    return text(refused, *sections(
        space.phase, rows,
        lambda b, size, head: chain(BASE + b * BLOCK, size, head,
                                    space.heap.load),
        lambda b, size: swept(BASE + b * BLOCK, size, space.is_marked)))


if __name__ == '__main__':
    sys.stdout.buffer.write(listing(sys.stdin.buffer.read()))
