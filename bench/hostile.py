#!/usr/bin/env python3
"""bench/hostile.py PROGRAM: times `PROGRAM tokens` on texts of one line whose scans look far ahead and find nothing, and prints a table.

Each case is a sheet and a piece that the line repeats. Where flex and gcc are installed, a scanner that flex makes (`flex -Cf`, `gcc -O2`) with the
same patterns writes the same list beside it; a run of it is ended after 60 seconds. Where it answers in time, its list has to be the program's, byte for
byte. All write to a file. Times are of whole processes, in seconds: the program's best of three runs, flex's of one run."""
import os
import subprocess
import sys
import tempfile
import time

from timed import timed

ROUNDS = 3
LIMIT = 60

# a name, the lines of the sheet's declarations and of its one rule, flex's patterns, and the piece that the line repeats
CASES = (
    ('`a` with `a*b`', r'''%token A /a/
%token B /a*b/
%%
s : A | B ;
''', r'''
a       found("A");
a*b     found("B");
''', b'a'),
    ('`a` with `(aa)*b` and `(aaa)*c`', r'''%token A /a/
%token B /(aa)*b/
%token C /(aaa)*c/
%%
s : A | B | C ;
''', r'''
a       found("A");
(aa)*b  found("B");
(aaa)*c found("C");
''', b'a'),
    ('a comment that is not closed', r'''%token OVER '/'
%token TIMES '*'
%token NAME /[a-z]+/
%skip /\/\*([^*]|\*+[^*\/])*\*+\//
%%
s : OVER | TIMES | NAME ;
''', r'''
"/"     found("OVER");
"*"     found("TIMES");
[a-z]+  found("NAME");
\/\*([^*\n]|\*+[^*\/\n])*\*+\/  column += yyleng;
''', b'/*a'),
)

SCANNER = r'''
%%top{
#include <stdio.h>
}
%%{
static unsigned long column = 1;
static void found(const char *name);
%%}
%%option noyywrap nounput noinput never-interactive 8bit
%%%%
%s
.       found("bad byte");
%%%%
static void found(const char *name) {
  printf("1 %%lu %%d %%s\n", column, (int)yyleng, name);
  column += yyleng;
}
int main(int words, char **word) {
  static char buffer[65536];
  if (words != 2 || !(yyin = fopen(word[1], "rb"))) return 2;
  setvbuf(stdout, buffer, _IOFBF, sizeof buffer);
  while (yylex()) {}
  printf("1 end of text\n");
  return fflush(stdout) != 0;
}
'''


def build(place, patterns):
    """Answers whether there is a scanner of flex beside the program."""
    with open(place + '/flex.l', 'w') as file:
        file.write(SCANNER % patterns.strip('\n'))
    try:
        subprocess.run(['flex', '-Cf', '-o', 'flex.c', 'flex.l'], cwd=place, check=True)
        subprocess.run(['gcc', '-O2', '-o', 'flex', 'flex.c'], cwd=place, check=True)
    except FileNotFoundError:
        return False
    return True


def beside(place):
    """One run of flex's scanner, ended where it takes too long."""
    begun = time.time()
    try:
        with open(place + '/flex.list', 'wb') as file:
            subprocess.run([place + '/flex', place + '/text'], stdout=file, check=True, timeout=LIMIT)
    except subprocess.TimeoutExpired:
        return 'over %d s' % LIMIT
    taken = time.time() - begun
    subprocess.run(['cmp', place + '/list', place + '/flex.list'], check=True)
    return '%.2f s' % taken


def rows(program, place, case):
    name, sheet, patterns, piece = case
    with open(place + '/sheet', 'w') as file:
        file.write(sheet)
    flex = build(place, patterns)
    before = None
    for mib in (1, 2, 4, 8):
        size = mib << 20
        with open(place + '/text', 'wb') as file:
            file.write((piece * (size // len(piece) + 1))[:size])
        runs = [timed('%s tokens %s/sheet %s/text >%s/list' % (program, place, place, place)) for _ in range(ROUNDS)]
        best = min(run[0] for run in runs)
        with open(place + '/list', 'rb') as file:
            tokens = sum(1 for _ in file) - 1
        print('| %s | %d MiB | %d | %.2f s | %s | %d MiB | %s |' % (
            name, mib, tokens, best, '%.2f' % (best / before) if before else '', max(run[1] for run in runs), beside(place) if flex else 'not installed'), flush=True)
        before = best


def main():
    if len(sys.argv) != 2:
        sys.exit(__doc__)
    print('| Sheet | Text | Tokens | `tokens` | to half the text | Peak memory | flex |\n|---|---|---|---|---|---|---|')
    with tempfile.TemporaryDirectory() as place:
        for case in CASES:
            rows(os.path.abspath(sys.argv[1]), place, case)


main()
