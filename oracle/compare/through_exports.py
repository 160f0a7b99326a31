#!/usr/bin/env python3
"""A driver that makes the port's calls through the exports: reads a script on standard input, puts `x 32` before it, runs the
port's driver, and prints its answers in the plain form. So every comparison runs through the exports too:

    oracle/compare/compare.py --all --boundary --count 100 --drivers reference 'oracle/compare/through_exports.py target/bin/script'

An answer that isn't what an export may give (numbers past the answer's own, a refusal that wrote the slice) is printed as it
came, and so differs. Exhausted alone of the refusals writes: its swept count in the fourth place, zeros before (02, R-12). An alloc that offers block 2^64 - 1 is made directly: through an export that number offers none.
"""
import subprocess
import sys

VALUES = {'setup': 0, 'b': 0, 'd': 1, 'p': 0, 'a': 4, 'm': 1, 'r': 3, 's': 3}
UNTOUCHED = 'a5' * 32
EXHAUSTED = '9'
NO_OFFER = str(2 ** 64 - 1)


def plain(kind, answer):
    """`N HEX` as `ok ..` or `refused N ..`."""
    parts = answer.split(' ')
    if len(parts) != 2 or len(parts[1]) != 64 or not parts[0].isdigit():
        return answer
    number, text = parts
    data = bytes.fromhex(text)
    words = [int.from_bytes(data[i:i + 8], 'little') for i in range(0, 32, 8)]
    if kind == 'a' and number == EXHAUSTED:
        return answer if any(words[:3]) else 'refused %s %d' % (number, words[3])
    if number != '0':
        return 'refused ' + number if text == UNTOUCHED else answer
    count = VALUES[kind]
    if any(words[count:]):
        return answer
    return ' '.join(['ok'] + [str(w) for w in words[:count]])


def main():
    lines = sys.stdin.read().split('\n')
    sent, kinds = ['x 32'], ['drop']    # each sent line that is answered has its kind
    for line in lines:
        word = line.split(' ')[0]
        direct = word == 'a' and line.endswith(' ' + NO_OFFER)
        if direct:
            sent.append('x -')
            kinds.append('drop')
        sent.append(line)
        if line and not line.startswith('#'):
            kinds.append('as it is' if direct else 'D' if line == 'D' else word)
        if direct:
            sent.append('x 32')
            kinds.append('drop')
    if lines and lines[-1] == '':
        sent.pop()
    run = subprocess.run(sys.argv[1:], input='\n'.join(sent) + '\n', stdout=subprocess.PIPE, text=True)
    out = run.stdout.split('\n')
    if out and out[-1] == '':
        out.pop()
    at = 0
    for kind in kinds:
        if at >= len(out):
            break
        end = at + 1
        if kind == 'D' and out[at].startswith('phase'):
            while end < len(out) and out[end - 1] != 'end':
                end += 1
        if kind in VALUES:
            print(plain(kind, out[at]))
        elif kind != 'drop':
            print('\n'.join(out[at:end]))
        at = end
    for line in out[at:]:
        print(line)
    sys.exit(run.returncode)


if __name__ == '__main__':
    main()
