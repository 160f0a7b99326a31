#!/usr/bin/env python3
"""Makes stdin and stdout beside it anew: one script for the port's driver, and the answers it must give.

    oracle/build.sh && crates/script/sample.py

Hand-made scripts that the Rust can be asked, and random ones: the answers are the Rust's. Hand-made scripts with refusals or rows
that the Rust does not know: the answers are those of the hand; where one is cut short by a `*`, the reference completes it. Random
scripts with rows (02, R-5), and eager ones with damaged tables (02, R-8): the reference answers. Some are told again with rows of calls
behind `z` lines, in sections of calls alone.
The oracle is target/oracle/oracle, or what ORACLE names.
"""
import os
import pathlib
import subprocess
import sys

HERE = pathlib.Path(__file__).resolve().parent
TOP = HERE.parent.parent
ORACLE = os.environ.get('ORACLE', str(TOP / 'target/oracle/oracle'))
sys.path.insert(0, str(TOP / 'oracle/compare'))
import generate  # noqa: E402
import reference  # noqa: E402
from check_hand import SCRIPTS, agrees  # noqa: E402
from through_run import Rows  # noqa: E402

# both sweeps, MIN 4 and 8, small and large blocks, L below and above 0, destroys in Marking, free cells asked in each phase
SEEDS = (1, 7, 22, 27, 33, 36, 44, 51)
# eager (02, R-8): both sweeps, holder and shared part last, several blocks recycled, on abandoned and in in-gc
EAGER_SEEDS = (3, 8, 24)
DAMAGED_SEEDS = (8,)    # eager, tables that R-8 alone calls bad, in each phase
RUN_SEEDS = (2, 5)      # calls alone, in long rows behind `z` lines; the Rust, and the reference with refused calls
CALLS = 60
ARENA = 1 << 16         # small heaps, since each dump prints every mark byte
LAST = 'no_newline'     # its last line has no newline, so it stands last
THROUGH = ('example', 'exhausted', 'bad_link', 'refused_1', 'refused_2_order', 'refused_3', 'refused_4', 'refused_5', 'refused_6',
           'refused_7', 'refused_10', 'release_walk', 'merge', 'leaves_marking', 'sweep_negative_L', 'rows', 'rows_refused',
           'rows_office', 'free_counts', 'free_counts_refused', 'eager_release', 'eager_refused', 'exhausted_swept')   # told again through the exports
ROW_SEEDS = (3, 12)     # with rows, good and damaged
VALUES = {'setup': 0, 'b': 0, 'd': 1, 'p': 0, 'a': 4, 'm': 1, 'r': 3, 's': 3}
NO_OFFER = str(2 ** 64 - 1)     # directly a block that isn't there, through an export none
EXHAUSTED = '9'
NOT_FOR_THE_RUST = '# not for the Rust'

HEAD = """\
# A fixed run of every line kind, made by sample.py; stdout has the answers.
# A part is marked `the Rust` where the given Rust gave its answers, and `document 01` where they were worked out by hand,
# since the Rust does not know the refusal. Lines that are bad end a run, so they are tried apart.
"""


def of_rust(lines):
    """The Rust's answers, as lines; a panic is none."""
    text = '\n'.join(lines) + '\n'
    out = subprocess.run([ORACLE], input=text, capture_output=True, text=True, check=True).stdout
    answers = out.split('\n')[:-1]
    if 'panic' in answers or 'bad' in answers:
        sys.exit('the Rust has no answer to:\n' + text)
    return answers


def of_document(lines):
    driver = reference.Driver()
    answers = (driver.answer(line) for line in lines)
    return '\n'.join(a for a in answers if a is not None).split('\n')


def checked(name, answers, wanted):
    """Answers that agree with those of the hand."""
    if len(answers) != len(wanted) or not all(map(agrees, wanted, answers)):
        sys.exit(name + ' differs from what was worked out by hand')
    return answers


def hand_made(path):
    """A part's heading, lines and answers; none where a line is bad."""
    lines = path.read_text().rstrip('\n').split('\n')
    wanted = path.with_suffix('.answers').read_text().splitlines()
    if 'bad' in wanted:
        return None
    for_rust = NOT_FOR_THE_RUST not in lines
    answers = of_rust(lines) if for_rust else of_document(lines)
    source = 'the Rust' if for_rust else 'document 01'
    return without_rows('# %s: %s' % (source, path.stem), lines, checked(path.stem, answers, wanted))


def without_rows(heading, lines, answers):
    """The part, and that no rows are in force behind it."""
    if any(x.split(' ')[0] == 'k' for x in lines):
        return heading, lines + ['k'], answers + ['ok']
    return heading, lines, answers


def drawn(seed, mode, rows, eager, plain=0, calls=CALLS):
    """The lines of a random script, without one that is bad."""
    maker = generate.Maker(seed, mode, ARENA, rows=rows, eager=eager, plain=plain).script(calls)
    return [x for x, answer in zip(maker.lines, maker.answers) if answer not in ('bad', None)]


def rows_part(seed):
    lines = drawn(seed, 'all', 1, 0)
    return without_rows('# document 02: random rows, seed %d' % seed, lines, of_document(lines))


def damaged_part(seed):
    lines = drawn(seed, 'all', 0, 1)
    return '# document 02: random, eager and damaged, seed %d' % seed, lines, of_document(lines)


def random_part(seed, eager=0):
    lines = drawn(seed, 'rust', 0, eager)
    return '# the Rust: random%s, seed %d' % (' and eager' if eager else '', seed), lines, of_rust(lines)


def run_parts(seed):
    rust = Rows(drawn(seed, 'rust', 0, 0.5, 1, 4 * CALLS)).sent
    refused = Rows(drawn(seed, 'all', 0, 0.5, 1, 4 * CALLS)).sent
    return [('# the Rust: random calls in rows, seed %d' % seed, rust, of_rust(rust)),
            ('# document 01: random calls in rows, refused ones too, seed %d' % seed, refused, of_document(refused))]


def as_export(line, answer):
    """A plain answer as an export gives it."""
    word, (kind, *values) = line.split(' ')[0], answer.split(' ')
    if word not in VALUES or kind == 'bad':
        return answer
    if kind == 'refused' and values[0] != EXHAUSTED:
        return values[0] + ' ' + 'a5' * 32
    if kind == 'refused':
        number, words = values[0], ['0'] * 3 + values[1:]   # 02, R-12: the swept count in its place
    else:
        number, words = '0', values + ['0'] * (4 - len(values))
    return number + ' ' + ''.join(int(v).to_bytes(8, 'little').hex() for v in words)


def through_part(name, lines):
    """Lines through the exports, answered as document 01 has it; a dump stays what it is."""
    lines = [x for x in lines if x and not x.startswith('#') and not x.endswith(' ' + NO_OFFER)]
    driver = reference.Driver()
    answers = '\n'.join(as_export(x, driver.answer(x)) for x in lines).split('\n')
    return without_rows('# document 01, through the exports: ' + name, lines, answers)


def through_parts():
    named = [through_part(name, (SCRIPTS / (name + '.script')).read_text().split('\n')) for name in THROUGH]
    rust = through_part('random, seed 51', random_part(51)[1])
    eager = through_part('random and eager, seed 24', random_part(24, 1)[1])
    rows = through_part('random rows, seed 5', rows_part(5)[1])
    off = ['x 31', 'setup 16384 12 4 8 8 0 1 0 0', 'x 0', 'setup 16384 12 4 8 8 0 1 0 0', 'x 64', 'setup 16384 12 4 8 8 0 1 0 0', 'x 32',
           'setup 16384 12 4 8 8 0 1 0 0', 'b 1', 'a 1 8 8 0 ' + NO_OFFER, 'a 1 8 8 0 1', 'x 40', 'a 1 8 8 0 -', 'x -', 'a 1 8 8 0 -']
    given = ['ok', '1 ' + 'a5' * 31, 'ok', '1 -', 'ok', '1 ' + 'a5' * 64, 'ok', '0 ' + '00' * 32, '0 ' + '00' * 32, '9 ' + '00' * 32,
             as_export('a', 'ok 24568 8 1 0'), 'ok', '1 ' + 'a5' * 40, 'ok', 'ok 24560 8 0 0']
    return [('# through the exports', ['x 32'], ['ok'])] + named + [rust, eager, rows, ('# document 02: answer slices', off, given)]


def main():
    paths = sorted(SCRIPTS.glob('*.script'), key=lambda p: (p.stem == LAST, p.stem))
    hand = [part for part in map(hand_made, paths) if part]
    drawn_parts = [random_part(seed) for seed in SEEDS] + [random_part(seed, 1) for seed in EAGER_SEEDS]
    drawn_parts += [damaged_part(seed) for seed in DAMAGED_SEEDS] + [rows_part(seed) for seed in ROW_SEEDS]
    drawn_parts += [part for seed in RUN_SEEDS for part in run_parts(seed)]
    parts = hand[:-1] + drawn_parts + through_parts() + hand[-1:]
    given, answers = [HEAD.rstrip('\n')], []
    for heading, lines, out in parts:
        given += [heading] + [x for x in lines if x and not x.startswith('#')]
        answers += out
    HERE.joinpath('stdin').write_text('\n'.join(given))
    HERE.joinpath('stdout').write_text('\n'.join(answers) + '\n')


if __name__ == '__main__':
    main()
