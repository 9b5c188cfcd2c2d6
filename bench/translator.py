#!/usr/bin/env python3
"""bench/translator.py LAYOUT FOLDER: writes a translator of a sheet for flex and bison, from the sheet's normal layout (`lrpar check` prints it).

FOLDER gets scan.l and translator.y, of which

  flex -Cf -o scan.c scan.l; bison -d -o translator.c translator.y; gcc -O2 -o translator scan.c translator.c

make a program. `translator TEXT` reads the whole text, builds its tree by canonical tables, collects the declared names, and writes the translation on
standard output; a text that is no sentence ends it with status 1. It does by hand what is usual in C: the scanner runs over the text where it lies, a token
is lent from it, nodes are taken from blocks of 1 MiB, names are found by hashing, the walks keep stacks of their own, and output goes out in blocks of 64
KiB. A sheet that declares nothing has no walk for names."""
import re
import sys

from grammar import Grammar, bytes_of

SCAN = r'''
%%top{
#include "translator.h"
}
%%{
unsigned line = 1;
#define YY_DECL int yylex(void)
#define FOUND(token) do { yylval.at = yytext; yylval.length = yyleng; yylval.line = line; return token; } while (0)
%%}
%%option noyywrap nounput noinput never-interactive 8bit
%%%%
%s
\n  line++;
.  return BAD;
%%%%
void scan(char *text, size_t length) { yy_scan_buffer(text, length + 2); }
'''

GRAMMAR = r'''
%%define lr.type canonical-lr
%%define api.value.type {struct value}
%%code requires {
#include <stddef.h>
struct value { const char *at; unsigned length, line; };
}
%%code {
#include <stdio.h>
#include <stdlib.h>
#include <string.h>
#include <fcntl.h>
#include <sys/stat.h>
#include <unistd.h>
#define YYMAXDEPTH 100000000
int yylex(void);
static void yyerror(const char *text) { (void)text; }
struct node { unsigned rule, count; struct value kids[]; };
static struct value root;
static char *block, *block_end;
static inline struct node *node_of(unsigned rule, unsigned count) {
  size_t size = sizeof(struct node) + count * sizeof(struct value);
  if ((size_t)(block_end - block) < size) {
    block = malloc(1 << 20);
    if (!block) exit(4);
    block_end = block + (1 << 20);
  }
  struct node *node = (struct node *)block;
  block += size;
  node->rule = rule;
  node->count = count;
  return node;
}
}
%%token BAD
%s
%%%%
whole: name_%d { root = $1; };
%s
%%%%
%s
'''

WALKS = r'''
enum kind { END, TEXT, TOKEN, NODE, NUMBER };
struct part { enum kind kind; unsigned place, length; const char *text; };
%(tables)s

struct frame { const struct part *part; const struct value *kids; };
static struct frame *frames;
static size_t depth, most;
static inline void begin(const struct part *const *of_rule, const struct value *value) {
  const struct node *node = (const struct node *)value->at;
  if (depth == most) {
    most = most ? most * 2 : 64;
    frames = realloc(frames, most * sizeof *frames);
    if (!frames) exit(4);
  }
  frames[depth++] = (struct frame){of_rule[node->rule], node->kids};
}

struct name { const char *at; unsigned length, hash, line, times; };
static struct name *names;
static unsigned *slots, count, slot_count;
static unsigned hash_of(const char *at, unsigned length) {
  unsigned hash = 2166136261u;
  for (unsigned i = 0; i < length; i++) hash = (hash ^ (unsigned char)at[i]) * 16777619u;
  return hash;
}
static unsigned *slot_of(const char *at, unsigned length, unsigned hash) {
  for (unsigned slot = hash & (slot_count - 1);; slot = (slot + 1) & (slot_count - 1)) {
    if (!slots[slot]) return &slots[slot];
    struct name *name = &names[slots[slot] - 1];
    if (name->hash == hash && name->length == length && !memcmp(name->at, at, length)) return &slots[slot];
  }
}
static void grow(void) {
  slot_count = slot_count ? slot_count * 2 : 64;
  free(slots);
  slots = calloc(slot_count, sizeof *slots);
  names = realloc(names, slot_count / 2 * sizeof *names);
  if (!slots || !names) exit(4);
  for (unsigned i = 0; i < count; i++) *slot_of(names[i].at, names[i].length, names[i].hash) = i + 1;
}
static void note(const struct value *value) {
  if (count >= slot_count / 2) grow();
  unsigned hash = hash_of(value->at, value->length), *slot = slot_of(value->at, value->length, hash);
  if (*slot) { names[*slot - 1].times++; return; }
  names[count] = (struct name){value->at, value->length, hash, value->line, 1};
  *slot = ++count;
}
static unsigned number_of(const struct value *value) {
  if (!slot_count) return 0;
  return *slot_of(value->at, value->length, hash_of(value->at, value->length));
}

static char out[1 << 16];
static size_t gathered;
static void pass(const char *at, size_t length) {
  while (length) {
    ssize_t done = write(1, at, length);
    if (done <= 0) exit(5);
    at += done;
    length -= done;
  }
}
static inline void put(const char *at, size_t length) {
  if (length > sizeof out - gathered) {
    pass(out, gathered);
    gathered = 0;
    if (length > sizeof out) { pass(at, length); return; }
  }
  memcpy(out + gathered, at, length);
  gathered += length;
}
static void put_number(unsigned number) {
  char digits[12];
  int at = 12;
  do digits[--at] = '0' + number %% 10; while (number /= 10);
  put(digits + at, 12 - at);
}

static void collect(void) {
  begin(marks, &root);
  while (depth) {
    struct frame *frame = &frames[depth - 1];
    const struct part *part = frame->part++;
    if (part->kind == TOKEN) note(&frame->kids[part->place]);
    else if (part->kind == NODE) begin(marks, &frame->kids[part->place]);
    else depth--;
  }
}
static void translate(void) {
  begin(templates, &root);
  while (depth) {
    struct frame *frame = &frames[depth - 1];
    const struct part *part = frame->part++;
    const struct value *kid = &frame->kids[part->place];
    switch (part->kind) {
      case TEXT: put(part->text, part->length); break;
      case TOKEN: put(kid->at, kid->length); break;
      case NODE: begin(templates, kid); break;
      case NUMBER: put_number(number_of(kid)); break;
      case END: depth--;
    }
  }
  pass(out, gathered);
}

void scan(char *text, size_t length);
int main(int words, char **word) {
  struct stat about;
  int file;
  if (words != 2 || (file = open(word[1], O_RDONLY)) < 0 || fstat(file, &about)) return 2;
  size_t length = about.st_size;
  char *text = malloc(length + 2);
  if (!text) return 4;
  for (size_t at = 0; at < length;) {
    ssize_t more = read(file, text + at, length - at);
    if (more <= 0) return 5;
    at += more;
  }
  text[length] = text[length + 1] = 0;
  scan(text, length);
  if (yyparse()) return 1;
  if (%(declares)d) collect();
  translate();
  return 0;
}
'''


def escaped(data):
    return ''.join('\\x%02x' % byte for byte in data)


def flex_pattern(pattern):
    """A pattern in its normal spelling, as flex writes it: what is no sign of patterns is written by its number."""
    parts = re.compile(rb'\[(?:[^\]\\]|\\.)*\]|\\x[0-9a-f]{2}|\\.|.', re.S).findall(pattern[1:-1])
    return ''.join(part.decode() if part[:1] == b'[' or part in (b'|', b'*', b'+', b'?', b'(', b')', b'.') or part[:2] == b'\\x'
                   else escaped(part[-1:]) for part in parts)


def scan_rules(grammar):
    rules = ['%s  FOUND(TOKEN_%d);' % (escaped(literal), number) for literal, number in grammar.literals.items()]
    for pattern, number in grammar.scanned:
        rules.append('%s  %s' % (flex_pattern(pattern), ';' if number is None else 'FOUND(TOKEN_%d);' % number))
    return '\n'.join(rules)


def symbol(kind, number):
    return ('TOKEN_%d' if kind == 'token' else 'name_%d') % number


def production(rule, left, right):
    kids = ' '.join('node->kids[%d] = $%d;' % (place, place + 1) for place in range(len(right)))
    return 'name_%d: %s { struct node *node = node_of(%d, %d); %s $$.at = (const char *)node; };' % (
        left, ' '.join(symbol(*one) for one in right), rule, len(right), kids)


def string(data):
    return '"%s"' % ''.join('\\%03o' % byte for byte in data)


def template(right, parts):
    made = []
    for kind, text in parts:
        if kind == 'string':
            made.append('{TEXT, 0, %d, %s}' % (len(bytes_of(text)), string(bytes_of(text))))
        else:
            place = int(text[1:]) - 1
            made.append('{%s, %d, 0, 0}' % ('NUMBER' if text[:1] == b'#' else 'TOKEN' if right[place][0] == 'token' else 'NODE', place))
    return made


def marked(right, marks):
    return ['{%s, %d, 0, 0}' % ('TOKEN' if kind == 'token' else 'NODE', place) for place, (kind, _) in enumerate(right) if kind == 'name' or place + 1 in marks]


def table(name, rows):
    lists = ''.join('static const struct part %s_%d[] = {%s};\n' % (name, rule, ', '.join(row + ['{END, 0, 0, 0}'])) for rule, row in enumerate(rows))
    return lists + 'static const struct part *const %ss[] = {%s};\n' % (name, ', '.join('%s_%d' % (name, rule) for rule in range(len(rows))))


def write(grammar, folder):
    with open(folder + '/scan.l', 'w') as file:
        file.write((SCAN % scan_rules(grammar)).lstrip('\n'))
    rights = [right for _, right in grammar.rules]
    tables = table('template', [template(*pair) for pair in zip(rights, grammar.templates)]) + table('mark', [marked(*pair) for pair in zip(rights, grammar.marks)])
    walks = WALKS % {'tables': tables, 'declares': any(grammar.marks)}
    tokens = '\n'.join('%%token TOKEN_%d' % number for number in range(len(grammar.tokens)))
    rules = '\n'.join(production(rule, *sides) for rule, sides in enumerate(grammar.rules))
    with open(folder + '/translator.y', 'w') as file:
        file.write((GRAMMAR % (tokens, grammar.start, rules, walks)).lstrip('\n'))


def main():
    if len(sys.argv) != 3:
        sys.exit(__doc__)
    with open(sys.argv[1], 'rb') as file:
        write(Grammar(file.read()), sys.argv[2])


if __name__ == '__main__':
    main()
