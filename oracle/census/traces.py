#!/usr/bin/env python3
"""The traces that the gate replays (crates/census_samples), with listings.

    traces.py OUT    writes the program's standard input and its expected
                     output into the folder OUT

Each trace is written here by hand; its listing is that of listing.py, which
reads document 01 and not the port. `compare.py --samples` holds the same
listings to the Rust's tables and heap wherever the Rust can be asked."""
import os
import sys

import listing

NAME = 32


def joined(*lines):
    return '\n'.join(lines).encode() + b'\n'


def alloc(block, holder=1, size=1024):
    return 'a %d %d 8 0 %s' % (holder, size, block)


COLLECTED = ('b 1', alloc(0), alloc('-'), alloc('-'), alloc('-'), alloc(1),
             'p', 'm 16384 0', 'm 18432 0', 'm 18432 0')
# a number one past the last
PAST = 2 ** 64


def every_line_kind():
    return joined('b 1', 'b 2', alloc(2), alloc('-'), alloc(3, 2, 24), 'd 2',
                  'p', 'm 26624 2', 'm 28672 3', 'r 1', 's', alloc('-'))


def every_refusal():
    """3 to 7, 9, 10 and 11, in this order of lines; a trace reaches no other.

    1 and 2 need other buffers, tables or chains; 8 is said no more (02, R-7)."""
    return joined('s', 'b 9', 'b 1', 'b 1', 'd 2', 'a 1 12 8 0 0',
                  'a 1 8 16 0 0', 'a 1 8 8 4 0', 'a 1 8 8 65544 0',
                  'a 1 4104 8 0 0', 'a 1 8 8 0 4', alloc('-'), alloc(0),
                  'a 1 8 8 0 0', 'm 16384 0', 'p', 'p', 'm 16388 0',
                  'm 32768 0', 'm 16384 1', 'm 16384 4', 'm 20480 0',
                  'a 1 8 8 0 -', 'r 2', 'r 1', 'r 1', 'x')


def limits():
    return joined('b 1', 'a 1 4096 8 0 0', 'a 1 4096 16 0 1', 'a 1 0 8 0 1',
                  'a 1 4097 8 0 2', 'a 1 1280 8 0 2', 'a 1 65536 8 0 3')


def odd_numbers():
    return joined('b 01', 'b 1', 'b +2', 'b -2', 'b 2.0', 'b %d' % PAST,
                  'b %d' % (PAST - 1), 'b 00', 'b 0', 'a 1 8 8 0 00',
                  'a 1 8 8 0 %d' % (PAST - 1), 'a 1 8 8 0 %d' % PAST,
                  'a 1 %d 8 0 -' % (PAST - 8), 'a 1 8 %d 0 -' % 2 ** 63,
                  'm %d %d' % (PAST - 1, PAST - 1), 'b ' + '0' * 40,
                  'b ' + '9' * 40)


def odd_spaces():
    return joined('b  1', ' b 1', 'b 1 ', 'b\t1', 'b', 'b 1 2', 'b1', 'B 1',
                  'p ', 'p 0', 's 0', 'a 1 8 8 0', 'a 1 8 8 0 0 0', 'a - 8 8 0 0',
                  'a 1 8 8 0 --', 'a 1 8 8 0 ', 'm 1', 'm 1 -', 'bb 1', '-', 'b 1')


def not_text():
    return (b'b 1\r\nb 1\0\n\0\nb \xb9\n\xff\xfe\nb 1\na 1 8 8 0 0\x00\n'
            b'\xc3\xa9 1\na 1 8 8 0 0\n\x7f\n')


def byte_limit(after):
    """A line that begins before byte 16,384 and is cut there.

    After 64 lines of 255 bytes come b 1, and an alloc of which the limit
    leaves `a 1 8 8 0 1`; what follows is unread."""
    filler = (b'x' * 254 + b'\n') * 64
    rest = b'b 1\n' + b'y' * 47 + b'\n' + b'a 1 8 8 0 1'
    read = filler + rest
    assert len(read) == listing.MOST_BYTES - 1, len(read)
    return read + after


def many_lines(count):
    """Bind and destroy in turn; bad lines from 256 on show what is read."""
    lines = ['b %d' % (1 + i % 8) if i % 16 < 8 else 'd %d' % (1 + i % 8)
             for i in range(255)]
    return joined(*(lines + ['x'] * (count - 255)))


def taken_over():
    """A holder leaves; another takes its available, then unswept blocks."""
    return joined('b 1', 'b 2', alloc(0), alloc(1, 1, 2048),
                  alloc('-', 1, 2048), 'd 1', alloc('-', 2),
                  alloc('-', 2, 2048), 'p', 'm 20480 1', 'm 16384 0', 'r 2',
                  's', alloc('-', 2, 2048), alloc('-', 2))


def letters():
    """A and C local, a and c abandoned; U and u come with a collection."""
    return joined('b 1', 'b 2', alloc(0), alloc(1, 1, 4096), alloc('-', 1, 4096),
                  alloc(2, 2), alloc(3, 2, 4096), alloc('-', 2, 4096), 'd 2')


# two holders with a block each; holder 1's has two free cells and a mark on
# the higher of them, holder 2's two free cells and a mark on a held one
HALF = ('b 1', 'b 2', alloc(0), alloc('-'), alloc(1, 2), alloc('-', 2), 'p',
        'm 19456 0', 'm 17408 0', 'm 23552 1')


def every_letter_releasing():
    """A, a, c and g in one listing: holder 1 has released, the rest is due.

    Holder 3 leaves an available block and a consumed one; U never stands
    after a line, since a release hands that list on to g."""
    return joined('b 1', 'b 2', 'b 3', alloc(0), alloc(1, 2), alloc(2, 3),
                  alloc(3, 3, 4096), alloc('-', 3, 4096), 'd 3', 'p',
                  'm 19456 0', 'm 23552 1', 'm 27648 2', 'm 28672 3', 'r 1')


def left_in_marking():
    """R-10: holder 1 leaves while marking runs; holder 2 and the shared part
    are due then. Block 0 keeps a mark, block 2 of the departed holder none."""
    return joined(*HALF[:6], alloc(2, 1, 4096), 'p', 'm 19456 0', 'd 1',
                  'm 23552 1', 'd 1', 'b 1', 's', 'd 2', 'r 1', 'r 2',
                  alloc('-', 2))


def last_one_left():
    """The last bound holder leaves: the shared release is first and last, so
    the bind and the alloc after it are of Running, and the alloc sweeps."""
    return joined(*COLLECTED, 'd 1', 's', 's', 'b 2', alloc('-', 2))


def unswept_again():
    """A block of u that no alloc asked for, through a second collection."""
    return joined(*HALF, 'r 1', 'r 2', 's', 'p', 'm 18432 0', 'm 20480 1')


def four_blocks_of_words():
    """Four holders, since one with a free cell uses no offer."""
    return joined(*['b %d' % h for h in (1, 2, 3, 4)],
                  *[alloc(h - 1, h, 8) for h in (1, 2, 3, 4)])


TRACES = [
    ('the example of 01', b'b 1\na 1 1024 8 0 2'),
    ('nothing', b''),
    ('one newline', b'\n'),
    ('blank lines', b'\n\nb 1\n\nb 2\n\n'),
    ('no newline at the end', b'b 1\na 1 24 8 0 0\np'),
    ('every line kind', every_line_kind()),
    ('every refusal of a trace', every_refusal()),
    ('limits', limits()),
    ('odd numbers', odd_numbers()),
    ('odd spaces', odd_spaces()),
    ('not text', not_text()),
    ('lists A C a c', letters()),
    ('marking', joined(*COLLECTED)),
    ('lists g in releasing', joined(*COLLECTED, 'b 2', 'r 1')),
    ('lists u after a collection', joined(*COLLECTED, 'r 1', 's')),
    ('marks on free cells, marking', joined(*HALF)),
    ('g by marks, A by its chain', joined(*HALF, 'r 1')),
    ('every letter in releasing', every_letter_releasing()),
    ('u by marks', joined(*HALF, 'r 1', 'r 2', 's')),
    ('u by marks, one swept', joined(*HALF, 'r 1', 'r 2', 's', alloc('-'))),
    ('u in a second marking', unswept_again()),
    ('u after a second collection', unswept_again() + joined('s', 'r 2', 'r 1')),
    ('u, no cell would be free', joined('b 1', alloc(0, 1, 2048), 'p',
                                        'm 16384 0', 'm 18432 0', 'r 1', 's')),
    ('u, marks inside cells only', joined('b 1', alloc(0), 'p', 'm 19464 0',
                                          'r 1', 's')),
    ('u with a short tail', joined('b 1', alloc(3, 1, 1280), 'p', 'm 31232 3',
                                   'm 32512 3', 'r 1', 's')),
    ('u, 511 cells of a word', joined('b 1', alloc(2, 1, 8), 'p', 'm 24584 2',
                                      'r 1', 's')),
    ('kept and lost cells', joined(*COLLECTED, 'r 1', 's', alloc('-'))),
    ('shared part first', joined(*COLLECTED, 's', 'r 1', alloc('-'))),
    ('all cells lost', joined(*COLLECTED[:6], 'p', 's', 'r 1')),
    ('taken over', taken_over()),
    ('left, then collected', joined(*COLLECTED[:5], 'd 1', 'p', 's')),
    ('left, marked, collected', joined(*COLLECTED[:5], 'd 1', 'p', 'm 17408 0',
                                       's', 'b 3', alloc('-', 3))),
    ('left in marking', left_in_marking()),
    ('left in marking, not yet shared', joined(*COLLECTED, 'd 1')),
    ('the last one left in marking', last_one_left()),
    ('512 cells of a word', joined('b 8', 'a 8 8 8 0 3', 'a 8 0 8 0 2')),
    ('2,044 free cells', four_blocks_of_words()),
    ('all blocks, then none', joined('b 1', *[alloc(b, 1, 4096)
                                              for b in '0123-'])),
    ('byte limit in a line', byte_limit(b'23 and more\nb 2\n')),
    ('byte limit at a newline', byte_limit(b'\nb 2\n')),
    ('one byte below the limit', byte_limit(b'')),
    ('256 lines', many_lines(256)),
    ('257 lines', many_lines(257)),
    ('300 bad lines', b'z\n' * 300),
]


def samples():
    for name, trace in TRACES:
        yield name, trace, listing.listing(trace)


def main(out):
    with open(os.path.join(out, 'stdin'), 'wb') as cases, \
            open(os.path.join(out, 'stdout'), 'w') as wanted:
        for name, trace, text in samples():
            assert len(name) < NAME, name
            cases.write(b'%06d %06d %s\n' % (len(trace), len(text),
                                             name.ljust(NAME).encode()))
            cases.write(trace + text)
            wanted.write('%s as 01 says\n' % name.ljust(NAME))


if __name__ == '__main__':
    main(sys.argv[1])
