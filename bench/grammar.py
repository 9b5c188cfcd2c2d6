#!/usr/bin/env python3
"""bench/grammar.py FORM SHEET: writes the grammar of a sheet in the notation of another generator to standard output.

FORM is one of
  menhir   a grammar for menhir
  bison    a grammar for bison, with canonical tables
  rows     the rules as rows of numbers, for tests: each is its left side and its right side, a name is its number, and a token its number after
           the last name's
  counts   how many tokens, names, rules and symbols there are

Patterns, templates and marks are not written. Tokens are those of the %token lines in their order, then the unnamed literals in the order in which they
first stand in a right side; names are the left sides in the order in which they first stand before a colon. The sheet has to be one of the sheet
language; that its names have rules is looked at, the conditions on templates and on patterns are not."""
import re
import sys

BLANK = re.compile(rb'(?:[ \t\r\n]|//[^\n]*|/\*.*?\*/)*', re.S)
LEXEME = re.compile(rb'''(?P<directive>%[a-z]+)|(?P<mark>%%)|(?P<name>[A-Za-z_][A-Za-z0-9_]*)|(?P<number>[0-9]+)|(?P<place>[$\#][0-9]+)
  |(?P<quoted>'(?:[^'\\\n]|\\[^\n])*')|(?P<string>"(?:[^"\\\n]|\\[^\n])*")|(?P<pattern>/(?![*/])(?:[^/\\\n]|\\[^\n])*/)|(?P<single>[:|;{}])''', re.X)
ESCAPE = re.compile(rb'\\(x[0-9A-Fa-f]{2}|.)', re.S)


def fail(line, text):
    sys.exit('line %d: %s' % (line, text))


def bytes_of(quoted):
    """The bytes that a quoted text stands for."""
    def one(found):
        escape = found.group(1)
        if len(escape) == 3:
            return bytes([int(escape[1:], 16)])
        return {b'n': b'\n', b't': b'\t', b'r': b'\r'}.get(escape, escape)
    return ESCAPE.sub(one, quoted[1:-1])


def lexemes(sheet):
    """The lexemes of a sheet up to its second mark: kind, text, line."""
    found, at, marks = [], BLANK.match(sheet).end(), 0
    while at < len(sheet):
        line = 1 + sheet.count(b'\n', 0, at)
        lexeme = LEXEME.match(sheet, at)
        if not lexeme:
            fail(line, 'no lexeme')
        kind = lexeme.lastgroup
        marks += kind == 'mark'
        if marks == 2:
            break
        found.append((kind, lexeme.group(), line))
        at = BLANK.match(sheet, lexeme.end()).end()
    return found


class Grammar:
    """Tokens by their printed names, names, the start, and rules: a left side and a right side of ('token' or 'name', number). Of what is scanned, the
    patterns in their order, each with the number of its token, None for a skip; of each rule the parts of its template, and the places of its marks."""

    def __init__(self, sheet):
        self.read = lexemes(sheet)
        self.at = 0
        self.tokens, self.names, self.rules, self.start = [], [], [], None
        self.scanned, self.templates, self.marks = [], [], []
        self.token_numbers, self.literals, self.name_numbers = {}, {}, {}
        self.declarations()
        self.rule_lines()
        self.resolve()

    def line(self):
        return self.read[min(self.at, len(self.read) - 1)][2] if self.read else 1

    def next_is(self, kind, text=None):
        return self.at < len(self.read) and self.read[self.at][0] == kind and text in (None, self.read[self.at][1])

    def take(self, kind, text=None):
        if not self.next_is(kind, text):
            fail(self.line(), 'due: %s' % (text.decode() if text else kind))
        self.at += 1
        return self.read[self.at - 1][1]

    def declarations(self):
        while self.next_is('directive'):
            directive = self.take('directive')
            if directive == b'%token':
                name = self.take('name').decode()
                if self.next_is('quoted'):
                    self.literals[bytes_of(self.take('quoted'))] = len(self.tokens)
                else:
                    self.scanned.append((self.take('pattern'), len(self.tokens)))
                self.token_numbers[name] = len(self.tokens)
                self.tokens.append(name)
            elif directive == b'%skip':
                self.scanned.append((self.take('pattern'), None))
            elif directive == b'%start':
                self.start = self.take('name').decode()
            else:
                fail(self.line(), 'unknown directive')
        self.take('mark')

    def rule_lines(self):
        self.sides = []
        while self.at < len(self.read):
            left = self.take('name').decode()
            if left not in self.name_numbers:
                self.name_numbers[left] = len(self.names)
                self.names.append(left)
            self.take('single', b':')
            self.alternative(left)
            while self.next_is('single', b'|'):
                self.take('single')
                self.alternative(left)
            self.take('single', b';')

    def alternative(self, left):
        side = []
        while self.next_is('name') or self.next_is('quoted'):
            kind, text, line = self.read[self.at]
            self.at += 1
            side.append((kind, text, line))
        parts, marks = [('place', b'$%d' % place) for place in range(1, len(side) + 1)], []
        if self.next_is('single', b'{'):
            self.take('single')
            parts = []
            while self.next_is('string') or self.next_is('place'):
                parts.append(self.read[self.at][:2])
                self.at += 1
            self.take('single', b'}')
        while self.next_is('directive', b'%declares'):
            self.take('directive')
            marks.append(int(self.take('number')))
        self.sides.append((left, side))
        self.templates.append(parts)
        self.marks.append(marks)

    def symbol(self, kind, text, line):
        if kind == 'quoted':
            literal = bytes_of(text)
            if literal not in self.literals:
                self.literals[literal] = len(self.tokens)
                self.tokens.append(text.decode('latin-1'))
            return ('token', self.literals[literal])
        name = text.decode()
        if name in self.token_numbers:
            return ('token', self.token_numbers[name])
        if name in self.name_numbers:
            return ('name', self.name_numbers[name])
        fail(line, 'unknown symbol ' + name)

    def resolve(self):
        if not self.sides:
            sys.exit('no rules')
        for left, side in self.sides:
            self.rules.append((self.name_numbers[left], [self.symbol(*symbol) for symbol in side]))
        start = self.start or self.names[0]
        if start not in self.name_numbers:
            sys.exit('unknown start ' + start)
        self.start = self.name_numbers[start]


def spelled(symbol):
    return ('TOKEN_%d' if symbol[0] == 'token' else 'name_%d') % symbol[1]


def comment(grammar):
    """The printed names, as comments of both generators."""
    clean = [text.replace('*/', '* /').replace('"', '&quot;') for text in grammar.tokens]
    return ''.join('/* TOKEN_%d is %s */\n' % pair for pair in enumerate(clean)) + ''.join('/* name_%d is %s */\n' % pair for pair in enumerate(grammar.names))


def productions(grammar, action):
    text = ''
    for number in range(len(grammar.names)):
        sides = [' '.join(spelled(symbol) for symbol in right) + action for left, right in grammar.rules if left == number]
        text += 'name_%d:\n    %s\n  ;\n' % (number, '\n  | '.join(sides))
    return text


def menhir(grammar):
    tokens = ''.join('%%token TOKEN_%d\n' % number for number in range(len(grammar.tokens)))
    rules = productions(grammar, ' { () }').replace('\n  ;\n', '\n\n')
    return comment(grammar) + tokens + '%%start <unit> name_%d\n%%%%\n' % grammar.start + rules


def bison(grammar):
    tokens = ''.join('%%token TOKEN_%d\n' % number for number in range(len(grammar.tokens)))
    return comment(grammar) + '%define lr.type canonical-lr\n' + tokens + '%%start name_%d\n%%%%\n' % grammar.start + productions(grammar, '')


def rows(grammar):
    count = len(grammar.names)
    numbers = [[left] + [number if kind == 'name' else count + number for kind, number in right] for left, right in grammar.rules]
    return ''.join(' '.join(str(number) for number in row) + '\n' for row in numbers)


def counts(grammar):
    return '%d tokens, %d names, %d rules, %d symbols in right sides\n' % (
        len(grammar.tokens), len(grammar.names), len(grammar.rules), sum(len(right) for _, right in grammar.rules))


FORMS = {'menhir': menhir, 'bison': bison, 'rows': rows, 'counts': counts}


def main():
    if len(sys.argv) != 3 or sys.argv[1] not in FORMS:
        sys.exit(__doc__)
    with open(sys.argv[2], 'rb') as file:
        sys.stdout.write(FORMS[sys.argv[1]](Grammar(file.read())))


if __name__ == '__main__':
    main()
