#!/usr/bin/env python3
"""bench/tokens.py PROGRAM: times `PROGRAM tokens` on texts of 1, 2, 4 and 8 MiB, and prints a table.

The sheet has 40 literals; a text's lines are twelve of them, drawn by rule from a fixed seed, with spaces between."""
import os
import random
import sys
import tempfile

from timed import timed

WORDS = ['let', 'if', 'else', 'while', 'for', 'return', 'fn', 'struct', 'enum', 'match', 'use', 'mod', 'pub', 'impl', 'trait',
         'type', 'const', 'static', 'mut', 'ref']
MARKS = ['(', ')', '{', '}', '[', ']', ';', ',', '.', ':', '=', '==', '!=', '<', '>', '+', '-', '*', '/', ' ']
LITERALS = WORDS + MARKS


def sheet():
    tokens = ''.join("%%token TOKEN_%d '%s'\n" % pair for pair in enumerate(LITERALS))
    return tokens + '%%\ns : TOKEN_0 TOKEN_1 ;\n'


def text(size):
    draw = random.Random(size)
    lines, length = [], 0
    while length < size:
        line = ' '.join(draw.choice(LITERALS[:39]) for _ in range(12)) + '\n'
        if length + len(line) > size:
            line = '?' * (size - length - 1) + '\n'
        lines.append(line)
        length += len(line)
    return ''.join(lines)


def main():
    if len(sys.argv) != 2:
        sys.exit(__doc__)
    program = os.path.abspath(sys.argv[1])
    print('| Text | Tokens | List | Time | Peak memory |\n|---|---|---|---|---|')
    with tempfile.TemporaryDirectory() as place:
        with open(place + '/sheet', 'w') as file:
            file.write(sheet())
        for mib in (1, 2, 4, 8):
            with open('%s/text%d' % (place, mib), 'w') as file:
                file.write(text(mib << 20))
            runs = [timed('%s tokens %s/sheet %s/text%d >%s/list' % (program, place, place, mib, place)) for _ in range(3)]
            with open(place + '/list') as file:
                tokens = sum(1 for _ in file) - 1
            print('| %d MiB | %d | %d MiB | %.2f s | %d MiB |' % (
                mib, tokens, os.path.getsize(place + '/list') >> 20, min(r[0] for r in runs), max(r[1] for r in runs)))


main()
