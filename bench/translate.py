#!/usr/bin/env python3
"""bench/translate.py PROGRAM [ROUNDS [SHEET..]]: times `PROGRAM run` beside translators that flex and bison make of the same sheets, in turns, and prints a table.

The sheets are a little language with names and some of examples/: JSON, tarn (a programming language), queries, settings. The other translator is written by
rule from the sheet's normal layout (translator.py says how): `flex -Cf`, bison with `lr.type canonical-lr`, `gcc -O2`. Both read the whole text, build its
tree, collect its names and write the translation to a file, byte for byte the same. Texts are made by rule (texts.py), of 1 and of 8 MiB. The program reads
the sheet and builds scanner and tables in each run, which the other has done before. Times are of whole processes, in seconds: the median of the rounds, and the
median of their ratios. Last stands the time of a run of a small sheet and a line of text."""
import os
import statistics
import subprocess
import sys
import tempfile

import texts
from grammar import Grammar
from timed import timed
from translator import write

HERE = os.path.dirname(os.path.abspath(__file__))
BUILDS = ('flex -Cf -o scan.c scan.l', 'bison -d -o translator.c translator.y', 'gcc -O2 -o translator scan.c translator.c')
SHEETS = ('little', 'json', 'tarn', 'query', 'settings')


def sheet(name):
    if name == 'little':
        return texts.LITTLE
    with open('%s/../examples/%s.sheet' % (HERE, name)) as file:
        return file.read()


def build(program, place, name):
    with open(place + '/sheet', 'w') as file:
        file.write(sheet(name))
    timed('%s check %s/sheet >%s/layout' % (program, place, place))
    with open(place + '/layout', 'rb') as file:
        write(Grammar(file.read()), place)
    for command in BUILDS:
        subprocess.run(command.split(), cwd=place, check=True)


def row(program, place, name, mib, rounds):
    """Prints a line of the table, and answers the median of the program's times, and that of the ratios."""
    with open(place + '/text', 'w') as file:
        file.write(getattr(texts, name)(mib << 20))
    commands = ('%s run %s/sheet %s/text >%s/ours' % (program, place, place, place), '%s/translator %s/text >%s/other' % (place, place, place))
    turns = [[timed(command) for command in commands] for _ in range(rounds)]
    subprocess.run(['cmp', place + '/ours', place + '/other'], check=True)
    ours, other = (statistics.median(turn[at][0] for turn in turns) for at in range(2))
    ratio = statistics.median(turn[0][0] / turn[1][0] for turn in turns)
    memory, its = (max(turn[at][1] for turn in turns) for at in range(2))
    print('| %s | %d MiB | %.1f MiB | %.3f s | %.3f s | %.2f | %d MiB | %d MiB | %.2f |' % (
        name, mib, os.path.getsize(place + '/ours') / (1 << 20), ours, other, ratio, memory, its, memory / its), flush=True)
    return ours, ratio


def small(program, place):
    with open(place + '/sheet', 'w') as file:
        file.write(sheet('little'))
    with open(place + '/text', 'w') as file:
        file.write('let boats = 2 + 3 * 7;\n')
    return statistics.median(timed('%s run %s/sheet %s/text >%s/ours' % (program, place, place, place))[0] for _ in range(51))


def main():
    if len(sys.argv) < 2:
        sys.exit(__doc__)
    program = os.path.abspath(sys.argv[1])
    rounds = int(sys.argv[2]) if len(sys.argv) > 2 else 9
    for tool in ('flex', 'bison', 'gcc'):
        if subprocess.run(['which', tool], stdout=subprocess.DEVNULL).returncode:
            sys.exit('skipped: %s is not installed' % tool)
    print('| Sheet | Text | Translation | `run` | bison | ratio | Peak memory | bison | ratio |\n|---|---|---|---|---|---|---|---|---|')
    grown, ratios = [], []
    with tempfile.TemporaryDirectory() as place:
        for name in sys.argv[3:] or SHEETS:
            build(program, place, name)
            first, last = (row(program, place, name, mib, rounds) for mib in (1, 8))
            grown.append(last[0] / first[0])
            ratios.append(last[1])
        print('\nat 8 MiB: the median of the ratios is %.2f, the greatest %.2f; 8 MiB take at most %.1f times as long as 1 MiB' % (
            statistics.median(ratios), max(ratios), max(grown)))
        print('a small sheet and a line of text: %.1f ms' % (small(program, place) * 1000))


if __name__ == '__main__':
    main()
