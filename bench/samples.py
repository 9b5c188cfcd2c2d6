#!/usr/bin/env python3
"""bench/samples.py PROGRAM [ROUNDS]: what `PROGRAM gen` and `PROGRAM load` cost, in turns with a copy of the same bytes and with the writing of the same words one by
one; prints a table.

The first sheet is made by rule: each name is two of the next one, and the last is four tokens of one byte, so that the text is 8 MiB of lines of two bytes. Of each
sheet of examples/ the largest text is taken that the numbers 0 to 31 give with a million choices. The words are written by a program of C, built by `cc -O2`, that has
them in a list and writes each and then a line feed by the C library's buffered output; the time of reading them isn't counted. Times are the processor's, of whole
processes but for that one, with their output to a file, in seconds: the median of the rounds."""
import glob
import os
import statistics
import subprocess
import sys
import tempfile

EXAMPLES = os.path.dirname(os.path.abspath(__file__)) + '/../examples'
DOUBLING = '%%\n' + ''.join('a%d : a%d a%d ;\n' % (at, at + 1, at + 1) for at in range(20)) + "a20 : 'a' 'b' 'c' 'd' ;\n"

WRITER = r"""
#define _GNU_SOURCE
#include <stdio.h>
#include <stdlib.h>
#include <string.h>
#include <time.h>

struct word { const char *start; size_t length; };

int main(int count, char **words) {
    FILE *file = fopen(words[1], "rb");
    fseek(file, 0, SEEK_END);
    size_t size = ftell(file), lines = 0;
    rewind(file);
    char *text = malloc(size + 1);
    if (count < 2 || fread(text, 1, size, file) != size) return 1;
    for (size_t at = 0; at < size; at++) lines += text[at] == '\n';
    struct word *list = malloc((lines + 1) * sizeof *list);
    const char *start = text;
    for (size_t line = 0; line < lines; line++) {
        const char *end = memchr(start, '\n', text + size - start);
        list[line] = (struct word){start, end - start};
        start = end + 1;
    }
    clock_t begun = clock();
    for (size_t line = 0; line < lines; line++) {
        fwrite_unlocked(list[line].start, 1, list[line].length, stdout);
        putc_unlocked('\n', stdout);
    }
    fflush(stdout);
    fprintf(stderr, "%f\n", (double)(clock() - begun) / CLOCKS_PER_SEC);
    return 0;
}
"""


def build(place):
    """Answers the writer of words, built."""
    with open(place + '/writer.c', 'w') as file:
        file.write(WRITER)
    subprocess.run(['cc', '-O2', '-o', place + '/writer', place + '/writer.c'], check=True)
    return place + '/writer'


def written(writer, text, out):
    """Answers what it costs to write the words of a text one by one."""
    with open(out, 'wb') as file:
        done = subprocess.run([writer, text], stdout=file, stderr=subprocess.PIPE, check=True)
    return float(done.stderr)


def cost(words, out):
    """Answers the status of one run, and its processor time in seconds."""
    with open(out, 'wb') as file:
        child = os.posix_spawnp(words[0], words, os.environ, file_actions=[(os.POSIX_SPAWN_DUP2, file.fileno(), 1)])
        _, status, used = os.wait4(child, 0)
    return os.waitstatus_to_exitcode(status), used.ru_utime + used.ru_stime


def size_of(program, sheet, number, size, out):
    """Answers how many bytes the sample of a number and a size has, or -1 where there is none."""
    status, _ = cost([program, 'gen', sheet, '--from', str(number), '--size', str(size)], out)
    return os.path.getsize(out) if status == 0 else -1


def row(program, writer, place, sheet, numbers, size, rounds):
    out = place + '/out'
    number = max(numbers, key=lambda number: size_of(program, sheet, number, size, out))
    count = size_of(program, sheet, number, size, out)
    text = place + '/text'
    os.replace(out, text)
    words = [sheet, '--from', str(number), '--size', str(size)]
    turns = [[cost(command, out)[1] for command in ([program, 'gen'] + words, ['cat', text], [program, 'load'] + words)] + [written(writer, text, out)] for _ in range(rounds)]
    gen, copy, load, one_by_one = (statistics.median(turn[at] for turn in turns) for at in range(4))
    with open(text, 'rb') as file:
        tokens = file.read().count(b'\n')
    print('| %s | %d | %.2f MiB | %d | %.3f s | %.3f s | %.3f s | %.3f s |' % (
        os.path.basename(sheet)[:-len('.sheet')], number, count / (1 << 20), tokens, gen, one_by_one, copy, load), flush=True)


def main():
    program = os.path.abspath(sys.argv[1])
    rounds = int(sys.argv[2]) if len(sys.argv) > 2 else 9
    print('| Sheet | Number | Text | Tokens | `gen` | the words one by one | a copy | `load` |\n|---|---|---|---|---|---|---|---|')
    with tempfile.TemporaryDirectory() as place:
        writer = build(place)
        with open(place + '/doubling.sheet', 'w') as file:
            file.write(DOUBLING)
        row(program, writer, place, place + '/doubling.sheet', range(1), 1, rounds)
        for sheet in sorted(glob.glob(EXAMPLES + '/*.sheet')):
            row(program, writer, place, sheet, range(32), 1000000, rounds)


main()
