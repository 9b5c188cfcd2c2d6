#!/usr/bin/env python3
"""bench/segments.py PROGRAM [TURNS [SHEET..]]: times the parse of texts in 16 segments, each for all left contexts at once, beside the parse from left to right, by
`PROGRAM SHEET TEXT 16 TURNS` of the crate segment_bench, and prints three tables.

The sheets are a little language and those of examples/, the texts of 1 and of 8 MiB. Those of the little language, of json, tarn, query and settings are made by rule (texts.py); the others
are the texts of examples/ again and again. Both parses run in turns in one process, over the same tokens, with the same tables, and times are of its processor. The first table has the median of
each time, by token, and the median of the ratios, turn by turn; the second what makes a notation fit for segments: pieces a thousand tokens, floors a piece, starts and faults a floor.

The third has the memory, by the pages that the process takes before a parse in segments, behind it and behind a second one by the same table of maps. The second parse takes memory for its segments alone: the nodes, by
their number, and what pieces take beside them. What the first one takes beyond that is the table of maps. The sheet permuted, which is only measured where it is named, needs a new map at each token:
its table is full again and again and forgets maps, in the second parse too, so that its two numbers only show the order of size."""
import os
import statistics
import subprocess
import sys
import tempfile

import texts

HERE = os.path.dirname(os.path.abspath(__file__))
MADE = ('little', 'json', 'tarn', 'query', 'settings')
REPEATED = ('arithmetic', 'knit', 'morse', 'planner', 'stack')


def example(name, ending):
    with open('%s/../examples/%s.%s' % (HERE, name, ending), 'rb') as file:
        return file.read()


def sheet(name):
    made = {'little': texts.LITTLE, 'permuted': texts.PERMUTED}
    return made[name].encode() if name in made else example(name, 'sheet')


def text(name, size):
    if name in MADE or name == 'permuted':
        return getattr(texts, name)(size).encode()
    one = example(name, 'text')
    if not one.endswith(b'\n'):
        one += b'\n'
    later = b'/ ' + one if name == 'morse' else one
    return one + later * ((size - len(one)) // len(later))


def run(program, place, turns, **surroundings):
    """The numbers that the program writes: what the segments are parsed into, by name, and the lines of the error output."""
    done = subprocess.run([program, place + '/sheet', place + '/text', '16', str(turns)], capture_output=True, text=True, env={**os.environ, **surroundings})
    if done.returncode:
        sys.exit(done.stderr)
    output = done.stdout.split()
    return dict(zip(output[::2], map(int, output[1::2]))), [line.split() for line in done.stderr.splitlines()]


def times(program, place, turns):
    """The times of each turn, the parse from left to right first; and what the segments are parsed into."""
    counts, lines = run(program, place, turns)
    return [(int(line[1]), int(line[3])) for line in lines if line[0] == 'plain'], counts


def memory(program, place):
    """The bytes of a table of maps, and those of the segments. Memory that is free goes back to the system at once, where it is 128 KiB or more, so that none of it is taken again unseen."""
    _, lines = run(program, place, 0, MALLOC_MMAP_THRESHOLD_='131072', MALLOC_TRIM_THRESHOLD_='131072')
    before, between, behind = [tuple(map(int, line[1::2])) for line in lines if line[0] == 'pages'][0]
    page = os.sysconf('SC_PAGESIZE')
    return (between - before - (behind - between)) * page, (behind - between) * page


def bytes_of_nodes(counts):
    """A node takes 8 bytes and each kid 4, a token 16 more. Nearly all nodes and tokens are kids of one node."""
    return 12 * counts['nodes'] + 20 * counts['tokens']


def rows(program, place, name, mib, turns):
    with open(place + '/sheet', 'wb') as file:
        file.write(sheet(name))
    with open(place + '/text', 'wb') as file:
        file.write(text(name, mib << 20))
    taken, counts = times(program, place, turns)
    tokens, pieces, floors = (counts[what] for what in ('tokens', 'pieces', 'floors'))
    plain, segments = (statistics.median(turn[at] for turn in taken) * 1000 / tokens for at in range(2))
    ratio = statistics.median(turn[1] / turn[0] for turn in taken)
    speed = '| %s | %d MiB | %d | %.0f ns | %.0f ns | %.2f |' % (name, mib, tokens, plain, segments, ratio)
    shape = '| %s | %d MiB | %.2f | %.2f | %.1f | %.1f |' % (
        name, mib, pieces * 1000 / tokens, floors / pieces, counts['starts'] / floors, counts['faults'] / floors)
    table, all_segments = memory(program, place)
    nodes = bytes_of_nodes(counts)
    weight = '| %s | %d MiB | %.2f MiB | %.1f | %.1f |' % (name, mib, table / 2 ** 20, nodes / tokens, (all_segments - nodes) / tokens)
    return ratio, speed, shape, weight


def main():
    if len(sys.argv) < 2:
        sys.exit(__doc__)
    program = os.path.abspath(sys.argv[1])
    turns = int(sys.argv[2]) if len(sys.argv) > 2 else 5
    shapes, ratios, weights = [], [], []
    print('| Sheet | Text | Tokens | From left to right, a token | In 16 segments, a token | Ratio |\n|---|---|---|---|---|---|')
    with tempfile.TemporaryDirectory() as place:
        for name in sys.argv[3:] or MADE + REPEATED:
            for mib in (1, 8):
                ratio, speed, shape, weight = rows(program, place, name, mib, turns)
                print(speed, flush=True)
                shapes.append(shape)
                ratios.append(ratio)
                weights.append(weight)
    print('\nMedian of the ratios: %.2f\n\n| Sheet | Text | Pieces, a thousand tokens | Floors, a piece | Starts, a floor | Faults, a floor |\n|---|---|---|---|---|---|' % statistics.median(ratios))
    print('\n'.join(shapes))
    print('\n| Sheet | Text | Table of maps | Nodes, bytes a token | Pieces beside them, bytes a token |\n|---|---|---|---|---|')
    print('\n'.join(weights))


main()
