#!/usr/bin/env python3
"""Runs a driver over the hand-made scripts and says which answers differ.

An expected line that ends in `*` is compared up to there only: a heap hash
can't be worked out by hand.  Scripts with a line `# not for the Rust` are
left out with --rust; those with `# for the port alone`, which have lines that
go through the exports, with the reference too.
"""
import argparse
import pathlib
import sys

from compare import clip, run_driver

SCRIPTS = pathlib.Path(__file__).resolve().parent.parent / 'scripts'


def agrees(expected, line):
    if expected.endswith('*'):
        return line.startswith(expected[:-1])
    return line == expected


def check(driver, script):
    """What is wrong with the driver's answers, or None."""
    lines = script.read_text().split('\n')
    wanted = script.with_suffix('.answers').read_text().splitlines()
    run = run_driver(driver, lines)
    if run.trouble:
        return run.trouble
    found = '\n'.join(a for a in run.answers if a).split('\n')
    found += run.rest.split('\n') if run.rest else []
    for i, expected in enumerate(wanted):
        line = found[i] if i < len(found) else '(nothing)'
        if not agrees(expected, line):
            return 'answer line %d is `%s`, by hand `%s`' % (
                i + 1, clip(line, 90), clip(expected, 90))
    if len(found) > len(wanted):
        return 'answers too much: ' + clip(found[len(wanted)], 90)
    return None


def main():
    parser = argparse.ArgumentParser(description=__doc__)
    parser.add_argument('driver', help='a command, or `reference`')
    parser.add_argument('--rust', action='store_true')
    options = parser.parse_args()
    ran = wrong = skipped = 0
    left_out = ['# not for the Rust\n'] if options.rust else []
    if options.rust or options.driver == 'reference':
        left_out.append('# for the port alone\n')
    for script in sorted(SCRIPTS.glob('*.script')):
        text = script.read_text()
        if any(mark in text for mark in left_out):
            skipped += 1
            continue
        ran += 1
        trouble = check(options.driver, script)
        if trouble:
            wrong += 1
            print('%s: %s' % (script.name, trouble))
    print('%d hand-made scripts, %d differ, %d left out' % (ran, wrong,
                                                           skipped))
    return 1 if wrong or not ran else 0


if __name__ == '__main__':
    sys.exit(main())
