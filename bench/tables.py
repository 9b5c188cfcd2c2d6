#!/usr/bin/env python3
"""bench/tables.py PROGRAM: times `PROGRAM check` and `PROGRAM tables` beside menhir and bison on grammars with many states, in turns, and prints a table.

The grammars are that of examples/tarn.sheet, a small programming language, and some made by rule; they are written in the notations of menhir and bison by rule from the
normal layouts. `menhir --canonical` builds its automaton and is given nothing to parse, so that it makes no code; bison (`lr.type canonical-lr`) always makes its code.
Both must find as many states as the first line of `tables` says (bison counts one more, behind its end token). Times are of whole processes on the clock, in seconds:
the median of the rounds (of three for bison)."""
import os
import re
import statistics
import subprocess
import sys
import tempfile

from timed import timed

ROUNDS = 15
HERE = os.path.dirname(os.path.abspath(__file__))


def tarn():
    with open(HERE + '/../examples/tarn.sheet') as file:
        return file.read()


def chained(links, last):
    """A grammar whose states are some 8,200 that remember twelve tokens, and one for each symbol of a chain of rules."""
    lines = ['%%', "s : 'a' s | 'b' s | 'a' level1 | chain0 ;"]
    lines += ["level%d : 'a' level%d | 'b' level%d ;" % (level, level + 1, level + 1) for level in range(1, 12)]
    lines += ["level12 : 'a' | 'b' ;"]
    lines += ['chain%d : %s chain%d ;' % (link, ' '.join(["'c'"] * 19), link + 1) for link in range(links)]
    lines += ['chain%d : %s ;' % (links, ' '.join(["'c'"] * last))]
    return '\n'.join(lines) + '\n'


def doubling():
    """A grammar with more than 10,000 states, of which the program finds no more."""
    lines = ['%%', "s : 'a' s | 'b' s | 'a' p1 ;"]
    lines += ["p%d : 'a' p%d | 'b' p%d ;" % (level, level + 1, level + 1) for level in range(1, 14)]
    return '\n'.join(lines + ["p14 : 'a' | 'b' ;"]) + '\n'


ROWS = [
    ('a programming language', tarn),
    ('at the limit of states', lambda: chained(88, 20)),
]


def states_of(command, pattern, place):
    said = subprocess.run(command, cwd=place, shell=True, stdin=subprocess.DEVNULL, stdout=subprocess.PIPE, stderr=subprocess.STDOUT, text=True).stdout
    return [int(number) for number in re.findall(pattern, said)]


def row(program, what, sheet, place):
    with open(place + '/sheet', 'w') as file:
        file.write(sheet)
    timed('%s check %s/sheet >%s/layout' % (program, place, place))
    for form, name in (('menhir', 'sheet.mly'), ('bison', 'sheet.y')):
        with open('%s/%s' % (place, name), 'w') as file:
            subprocess.run([sys.executable, HERE + '/grammar.py', form, place + '/layout'], stdout=file, check=True)
    ours = 'cd %s && %s check sheet >layout' % (place, program)
    prints = 'cd %s && %s tables sheet >tables' % (place, program)
    menhir = 'cd %s && menhir --canonical --interpret sheet.mly </dev/null >said 2>&1' % place
    bison = 'cd %s && bison -o sheet.c sheet.y >said 2>&1' % place
    runs = [[timed("sh -c '%s'" % command) for command in (ours, prints, menhir)] for _ in range(ROUNDS)]
    slow = [timed("sh -c '%s'" % bison)[0] for _ in range(3)]
    with open(place + '/tables') as file:
        counts = [int(file.readline().split()[1])]
    counts += states_of('menhir --canonical --interpret -la 1 sheet.mly', r'LR\(1\) automaton with ([0-9]+) states', place)
    counts += [len(states_of('bison -o sheet.c --report=state --report-file=report sheet.y; cat report', r'(?m)^State ([0-9]+)$', place)) - 1]
    if len(set(counts)) != 1:
        sys.exit('%s: states differ: %s' % (what, counts))
    check, tables, other = (statistics.median(run[at][0] for run in runs) for at in range(3))
    memory = max(run[1][1] for run in runs)
    size = os.path.getsize(place + '/tables') >> 20
    print('| %s | %d | %.3f s | %.3f s | %.2f | %.2f s | %.3f s | %d MiB | %d MiB |' % (what, counts[0], check, other, check / other, statistics.median(slow), tables, size, memory))


def main():
    if len(sys.argv) != 2:
        sys.exit(__doc__)
    program = os.path.abspath(sys.argv[1])
    for tool in ('menhir', 'bison'):
        if subprocess.run(['which', tool], stdout=subprocess.DEVNULL).returncode:
            sys.exit('skipped: %s is not installed' % tool)
    print('| Grammar | States | `check` | menhir | ratio | bison | `tables` | its output | its peak memory |\n|---|---|---|---|---|---|---|---|---|')
    with tempfile.TemporaryDirectory() as place:
        for what, sheet in ROWS:
            row(program, what, sheet(), place)
        with open(place + '/sheet', 'w') as file:
            file.write(doubling())
        times = [timed('%s check %s/sheet 2>%s/said' % (program, place, place), 3) for _ in range(ROUNDS)]
        print('\nmore than 10,000 states, refused: %.3f s, %d MiB' % (statistics.median(time for time, _ in times), max(memory for _, memory in times)))


main()
