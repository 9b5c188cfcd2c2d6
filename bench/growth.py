#!/usr/bin/env python3
"""bench/growth.py PROGRAM [ROUNDS]: times whole runs of `PROGRAM run` over texts of 1, 2, 4 and 8 MiB, and prints a table.

The sheet is a little language of declarations and sums; texts are made by rule from a fixed seed, with some six and a half bytes a token. Of each text are timed, in
turns: its translation, that by one worker, its names, and a text that is wrong at its last token, which is scanned and parsed whole, with all its nodes, and of which
nothing is written."""
import os
import statistics
import sys
import tempfile

from texts import LITTLE, little
from timed import timed


def row(program, place, mib, rounds):
    body = little(mib << 20)
    for which, content in (('right', body), ('wrong', body + '; ')):
        with open('%s/%s' % (place, which), 'w') as file:
            file.write(content)
    run = lambda which, due=0, more='': timed('%s run %s/sheet %s/%s %s >%s/out 2>%s/err' % (program, place, place, which, more, place, place), due)
    timed('%s tokens %s/sheet %s/right >%s/list' % (program, place, place, place))
    with open(place + '/list') as file:
        tokens = sum(1 for _ in file) - 1
    turns = [(run('right'), run('right', more='--workers 1'), run('right', more='--emit names'), run('wrong', 1)) for _ in range(rounds)]
    run('right')
    times = tuple(statistics.median(turn[at][0] for turn in turns) for at in range(4))
    return '| %d MiB | %d | %.1f MiB | %.3f s | %.3f s | %.3f s | %.3f s | %d MiB |' % (
        (mib, tokens, os.path.getsize(place + '/out') / (1 << 20)) + times + (max(turn[0][1] for turn in turns),))


def main():
    if len(sys.argv) not in (2, 3):
        sys.exit(__doc__)
    program = os.path.abspath(sys.argv[1])
    rounds = int(sys.argv[2]) if len(sys.argv) == 3 else 9
    print('| Text | Tokens | Translation | `run` | by one worker | names | wrong at the last token | Peak memory |\n|---|---|---|---|---|---|---|---|')
    with tempfile.TemporaryDirectory() as place:
        with open(place + '/sheet', 'w') as file:
            file.write(LITTLE)
        for mib in (1, 2, 4, 8):
            print(row(program, place, mib, rounds), flush=True)


main()
