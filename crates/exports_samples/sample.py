#!/usr/bin/env python3
"""Makes stdout beside it anew: what the exports must give for the lines of stdin, worked out from document 01 by
oracle/compare/reference.py.

    crates/exports_samples/sample.py
"""
import pathlib
import sys

HERE = pathlib.Path(__file__).resolve().parent
sys.path.insert(0, str(HERE.parent.parent / 'oracle/compare'))
import reference  # noqa: E402

SET_UP = 'setup 16384 12 4 8 8 0 1 0 0'     # the census program's space
NO_OFFER = str(2 ** 64 - 1)
UNTOUCHED = 'a5' * 32


def given(answer):
    """A plain answer as an export gives it: `N HEX`."""
    kind, *words = answer.split()
    if kind == 'bad':
        return 'bad'
    number = '0'
    if kind == 'refused':
        number, *swept = words
        if not swept:
            return number + ' ' + UNTOUCHED
        words = ['0', '0', '0'] + swept     # Exhausted: its swept count in its place
    values = [int(x) for x in words] + [0] * (4 - len(words))
    return number + ' ' + ''.join(v.to_bytes(8, 'little').hex() for v in values)


def main():
    driver = reference.Driver()
    out = [given(driver.answer(SET_UP))]
    for line in (HERE / 'stdin').read_text().splitlines():
        words = line.split(' ')
        if words[0] == 'a' and words[-1] == NO_OFFER:   # "2^64 - 1 offers none"
            line = ' '.join(words[:-1] + ['-'])
        # a trace goes on after a bad line, a script doesn't
        out.append('bad' if reference_bad(words) else given(driver.answer(line)))
    (HERE / 'stdout').write_text('\n'.join(out) + '\n')


def reference_bad(words):
    counts = {'b': 2, 'd': 2, 'r': 2, 'a': 6, 'm': 3, 'p': 1, 's': 1}
    plain = all(w.isdigit() for w in words[1:5]) and all(w.isdigit() or w == '-' for w in words[5:])
    return counts.get(words[0]) != len(words) or not plain


if __name__ == '__main__':
    main()
