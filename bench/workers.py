#!/usr/bin/env python3
"""bench/workers.py PROGRAM [ROUNDS [SHEET..]]: times `PROGRAM run` by one and by four workers, over texts of 8 MiB in 16, 64 and 4,096 segments, beside translators
that flex and bison make of the same sheets, in turns, and prints a table.

Sheets, texts, and the other translators are those of translate.py. Outputs are compared byte for byte. Times are of whole processes, in seconds on the clock: the
median of the rounds, and for each way to run the program the median of its ratios to the other translator's time in the same round. Last stands, for each way, the
median of the sheets, the greatest, and the greatest peak memory beside the other translator's."""
import os
import statistics
import subprocess
import sys
import tempfile

import texts
from timed import timed
from translate import SHEETS, build

# workers and segments
WAYS = ((1, 16), (4, 16), (1, 64), (1, 4096), (4, 4096))


def row(program, place, name, rounds):
    """Prints a line of the table, and answers for each way the median of the ratios and the memory's ratio."""
    with open(place + '/text', 'w') as file:
        file.write(getattr(texts, name)(8 << 20))
    other = '%s/translator %s/text >%s/other' % (place, place, place)
    ways = ['%s run %s/sheet %s/text --workers %d --cut %d >%s/ours' % (program, place, place, workers, segments, place) for workers, segments in WAYS]
    turns = []
    for _ in range(rounds):
        turn = [timed(other)]
        for way in ways:
            turn.append(timed(way))
            subprocess.run(['cmp', place + '/ours', place + '/other'], check=True)
        turns.append(turn)
    times = [statistics.median(turn[at][0] for turn in turns) for at in range(len(ways) + 1)]
    ratios = [statistics.median(turn[at + 1][0] / turn[0][0] for turn in turns) for at in range(len(ways))]
    memory = [max(turn[at][1] for turn in turns) for at in range(len(ways) + 1)]
    print('| %s | %.3f s | %s | %d MiB | %s |' % (
        name, times[0], ' | '.join('%.3f s, %.2f' % (time, ratio) for time, ratio in zip(times[1:], ratios)),
        memory[0], ', '.join('%d' % used for used in memory[1:])), flush=True)
    return list(zip(ratios, (used / memory[0] for used in memory[1:])))


def main():
    if len(sys.argv) < 2:
        sys.exit(__doc__)
    program = os.path.abspath(sys.argv[1])
    rounds = int(sys.argv[2]) if len(sys.argv) > 2 else 9
    for tool in ('flex', 'bison', 'gcc'):
        if subprocess.run(['which', tool], stdout=subprocess.DEVNULL).returncode:
            sys.exit('skipped: %s is not installed' % tool)
    heads = ' | '.join('%d by %d' % (segments, workers) for workers, segments in WAYS)
    print('| Sheet | bison | %s | Peak memory, bison | `run` |\n|---|---|%s---|---|' % (heads, '---|' * len(WAYS)))
    rows = []
    with tempfile.TemporaryDirectory() as place:
        for name in sys.argv[3:] or SHEETS:
            build(program, place, name)
            rows.append(row(program, place, name, rounds))
    print()
    for at, (workers, segments) in enumerate(WAYS):
        ratios, memory = ([line[at][which] for line in rows] for which in range(2))
        print('%d segments by %d: %.2f of its time in the median, %.2f at most; at most %.2f of its memory' % (
            segments, workers, statistics.median(ratios), max(ratios), max(memory)))


main()
