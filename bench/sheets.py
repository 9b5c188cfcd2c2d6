#!/usr/bin/env python3
"""bench/sheets.py PROGRAM: times `PROGRAM check` on sheets at the limits, and prints a table.

The sheets are made by rule: one has 250 tokens, 500 names, 1,000 rules and 4,000 symbols, and a comment that fills its 262,144 bytes; one is as
long, all declarations of tokens (and so passes the limit on tokens); one is as long, all rules of one name (and passes the limit on tokens by its literals)."""
import os
import sys
import tempfile

from timed import timed

BYTES = 262144
TURNS = 5


def at_the_limits():
    lines = ["%%token TOKEN_%d 't%d'" % (token, token) for token in range(250)]
    lines.append('%%')
    for name in range(500):
        after = 'name_%d' % (name + 1) if name < 499 else 'TOKEN_0'
        lines.append('name_%d : TOKEN_%d %s TOKEN_%d TOKEN_%d { $1 " " $2 #3 } %%declares 4' % (name, name % 250, after, (name + 7) % 250, (name + 13) % 250))
        lines.append('  | TOKEN_%d TOKEN_%d TOKEN_%d TOKEN_%d ;' % ((name + 1) % 250, (name + 2) % 250, (name + 3) % 250, (name + 5) % 250))
    sheet = '\n'.join(lines) + '\n'
    return sheet + '/*' + ' ' * (BYTES - len(sheet) - 4) + '*/'


def filled(head, line, tail):
    lines, length, number = [head], len(head) + len(tail), 0
    while True:
        one = line % {'n': number}
        if length + len(one) > BYTES:
            return ''.join(lines) + tail
        lines.append(one)
        length += len(one)
        number += 1


SHEETS = [
    ('250 tokens, 500 names, 1,000 rules, 4,000 symbols', at_the_limits, 0),
    ('declarations of tokens alone', lambda: filled('', "%%token T%(n)d '%(n)d'\n", '%%\ns : T0 ;\n'), 3),
    ('rules of one name alone', lambda: filled("%%\ns : 'a' ;\n", "s : s '%(n)d' ;\n", ''), 3),
]


def main():
    if len(sys.argv) != 2:
        sys.exit(__doc__)
    program = os.path.abspath(sys.argv[1])
    print('| Sheet | Bytes | Answer | Time | Peak memory |\n|---|---|---|---|---|')
    with tempfile.TemporaryDirectory() as place:
        for name, make, due in SHEETS:
            sheet = make()
            with open(place + '/sheet', 'w') as file:
                file.write(sheet)
            runs = [timed('%s check %s/sheet >%s/layout 2>%s/said' % (program, place, place, place), due) for _ in range(TURNS)]
            with open(place + '/said') as file:
                said = file.read().strip() or 'the layout'
            print('| %s | %d | %s | %.3f s | %d MiB |' % (name, len(sheet), said, min(r[0] for r in runs), max(r[1] for r in runs)))


main()
