#!/usr/bin/env python3
"""bench/scanning.py PROGRAM: times `PROGRAM tokens` beside a scanner that flex makes, in turns, and prints a table.

The sheet is that of a little language of names, numbers and sums; the texts are made by rule from a fixed seed. The flex scanner (`flex -Cf`, `gcc -O2`)
has the sheet's patterns in their order of rank and writes the same list, through the buffered output of C: once by `printf`, and once by digits
that it makes itself. Its list has to be the program's, byte for byte. All write to a file. Times are of whole processes, in seconds: the median of the rounds."""
import os
import random
import statistics
import subprocess
import sys
import tempfile

from timed import timed

ROUNDS = 15

SHEET = r'''%token LET 'let'
%token NAME /[a-z][a-z0-9]*/
%token NUM /[0-9]+/
%skip /[ \t\r]+/
%start program
%%
program : program stmt | stmt ;
stmt : LET NAME '=' expr ';' | NAME '=' expr ';' ;
expr : expr '+' term | term ;
term : term '*' atom | atom ;
atom : NUM | NAME | '(' expr ')' ;
'''

# the literals by the numbers of their tokens, and then the patterns
RULES = r'''
"let"   found("LET");
"="     found("'='");
";"     found("';'");
"+"     found("'+'");
"*"     found("'*'");
"("     found("'('");
")"     found("')'");
[a-z][a-z0-9]*  found("NAME");
[0-9]+  found("NUM");
[ \t\r]+  column += yyleng;
\n      line++; column = 1;
.       found("bad byte");
'''

BY_PRINTF = r'''
static void found(const char *name) {
  printf("%lu %lu %d %s\n", line, column, (int)yyleng, name);
  column += yyleng;
}
static void ended(unsigned long last) { printf("%lu end of text\n", last); }
'''

BY_DIGITS = r'''
static void digits(unsigned long number) {
  char text[20];
  int at = 20;
  do text[--at] = '0' + number % 10; while (number /= 10);
  fwrite_unlocked(text + at, 1, 20 - at, stdout);
}
static void found(const char *name) {
  digits(line); putc_unlocked(' ', stdout);
  digits(column); putc_unlocked(' ', stdout);
  digits(yyleng); putc_unlocked(' ', stdout);
  fputs_unlocked(name, stdout); putc_unlocked('\n', stdout);
  column += yyleng;
}
static void ended(unsigned long last) { digits(last); fputs_unlocked(" end of text\n", stdout); }
'''

SCANNER = r'''
%%top{
#define _GNU_SOURCE
#include <stdio.h>
}
%%{
static unsigned long line = 1, column = 1;
static void found(const char *name);
%%}
%%option noyywrap nounput noinput never-interactive 8bit
%%%%
%s
%%%%
%s
int main(int words, char **word) {
  static char buffer[65536];
  if (words != 2 || !(yyin = fopen(word[1], "rb"))) return 2;
  setvbuf(stdout, buffer, _IOFBF, sizeof buffer);
  while (yylex()) {}
  ended(column == 1 && line > 1 ? line - 1 : line);
  return fflush(stdout) != 0;
}
'''


def text(size):
    draw = random.Random(size)
    names = [draw.choice('abcdefghkmnpqrstuvw') + ''.join(draw.choice('abcdefghij0123456789') for _ in range(draw.randrange(0, 9))) for _ in range(400)]
    lines, length = [], 0
    while True:
        terms = []
        for _ in range(draw.randrange(1, 5)):
            atom = draw.choice((draw.choice(names), str(draw.randrange(10 ** draw.randrange(1, 7)))))
            terms.append('(%s + %s)' % (atom, draw.choice(names)) if draw.random() < 0.2 else atom)
        line = '%s%s = %s;\n' % (draw.choice(('let ', '')), draw.choice(names), draw.choice((' + ', ' * ')).join(terms))
        if length + len(line) > size:
            return ''.join(lines) + ' ' * (size - length - 1) + '\n'
        lines.append(line)
        length += len(line)


def build(place, name, printing):
    with open('%s/%s.l' % (place, name), 'w') as file:
        file.write(SCANNER % (RULES.strip('\n'), printing))
    try:
        subprocess.run(['flex', '-Cf', '-o', name + '.c', name + '.l'], cwd=place, check=True)
        subprocess.run(['gcc', '-O2', '-o', name, name + '.c'], cwd=place, check=True)
    except FileNotFoundError as missing:
        sys.exit('skipped: %s is not installed' % missing.filename)


def rows(program, place):
    with open(place + '/sheet', 'w') as file:
        file.write(SHEET)
    for name, printing in (('by_printf', BY_PRINTF), ('by_digits', BY_DIGITS)):
        build(place, name, printing)
    for mib in (1, 2, 4, 8):
        with open(place + '/text', 'w') as file:
            file.write(text(mib << 20))
        commands = ['%s tokens %s/sheet %s/text >%s/list' % (program, place, place, place)]
        commands += ['%s/%s %s/text >%s/%s.list' % (place, name, place, place, name) for name in ('by_printf', 'by_digits')]
        runs = [[timed(command) for command in commands] for _ in range(ROUNDS)]
        for name in ('by_printf', 'by_digits'):
            subprocess.run(['cmp', place + '/list', '%s/%s.list' % (place, name)], check=True)
        with open(place + '/list', 'rb') as file:
            tokens = sum(1 for _ in file) - 1
        ours, printf, digits = (statistics.median(run[at][0] for run in runs) for at in range(3))
        print('| %d MiB | %d | %d MiB | %.3f s | %.3f s | %.3f s | %.2f | %.2f | %d MiB |' % (
            mib, tokens, os.path.getsize(place + '/list') >> 20, ours, printf, digits, ours / printf, ours / digits, max(run[0][1] for run in runs)))


def main():
    if len(sys.argv) != 2:
        sys.exit(__doc__)
    print('| Text | Tokens | List | `tokens` | flex, printf | flex, own digits | ratio to printf | ratio to own digits | Peak memory |\n|---|---|---|---|---|---|---|---|---|')
    with tempfile.TemporaryDirectory() as place:
        rows(os.path.abspath(sys.argv[1]), place)


main()
