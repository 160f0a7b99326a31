#!/usr/bin/env python3
"""Makes crates/size_answers/stdout anew from the Rust's answers: checksums over bins, the table's
entries (twice, since the port looks them up in two ways), raised sizes and shifts.

    oracle/build.sh && oracle/samples/size_answers.py > crates/size_answers/stdout

The driver is target/oracle/oracle, or what ORACLE names. Each list of numbers is folded by h = (h * 1000003 + x) mod P.
"""
import os
import subprocess
import sys

P = 4294967291
DRIVER = os.environ.get('ORACLE', 'target/oracle/oracle')


def ask(lines):
    """The numbers of each answer; none for `ok -`."""
    out = subprocess.run([DRIVER], input='\n'.join(lines) + '\n', capture_output=True, text=True, check=True).stdout
    answers = out.split('\n')[:-1]
    if len(answers) != len(lines) or any(not a.startswith('ok') for a in answers):
        bad = next((i for i, a in enumerate(answers) if not a.startswith('ok')), len(answers))
        sys.exit(f'no answer to: {lines[min(bad, len(lines) - 1)]}')
    return [[] if a == 'ok -' else [int(x) for x in a.split()[1:]] for a in answers]


def folded(h, answers, width):
    for numbers in answers:
        for x in numbers or [0] * width:
            h = (h * 1000003 + x % P) % P
    return h


def setup(low, high):
    return f'setup 65536 16 1 {low} {high} 0 1 0 0'


def shifts(low, align):
    for region, first in ((8, 0), (140737488355200, 65536 - 32 * low)):
        for r in range(16):
            for k in range(33):
                yield f'g {region + 8 * r} {align} {first + low * k}'


def powers(low, high):
    return [1 << k for k in range(7) if low <= 1 << k <= high]


def main():
    print(folded(0, ask([setup(8, 8)] + [f'n {size}' for size in range(65545)])[1:], 1))
    table = folded(0, ask([setup(8, 8)] + [f't {words}' for words in range(8201)])[1:], 1)
    print(table, table)
    for low in (4, 8):
        for high in powers(low, 64):
            for align in powers(low, high):
                raised = ask([setup(low, high)] + [f'q {size} {align}' for size in range(0, 65545, low)])[1:]
                shifted = ask([setup(low, high)] + list(shifts(low, align)))[1:]
                print(low, high, align, folded(0, raised, 3), folded(0, shifted, 1))


main()
