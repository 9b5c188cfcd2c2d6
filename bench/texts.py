"""For the other files here: a sheet of a little language, and texts made by rule from fixed seeds, each at most so many bytes long."""
import random

LITTLE = r"""%token LET 'let'
%token NAME /[a-z][a-z0-9]*/
%token NUMBER /[0-9]+/
%skip /[ \t\r]+/
%start program
%%
program : program statement { $1 $2 } | statement ;
statement : LET NAME '=' sum ';' { "new " #2 " = " $4 "\n" } %declares 2
          | NAME '=' sum ';' { "set " #1 " = " $3 "\n" } ;
sum : sum '+' product { "(" $1 "+" $3 ")" } | product ;
product : product '*' atom { "(" $1 "*" $3 ")" } | atom ;
atom : NUMBER | NAME { "v" #1 } | '(' sum ')' { $2 } ;
"""


# A right-linear grammar: its names are ten places, 'a' moves each to the next, 'b' swaps the first two, and 'e' ends. So each word of a and b is a permutation of the places, of which there are
# 3,628,800, and what stands on top after a word, over all states that may stand below, is hardly ever the same twice.
PLACES = 10
SWAPPED = (1, 0) + tuple(range(2, PLACES))
PERMUTED = '%skip / +/\n%%\n' + ''.join("p%d : 'a' p%d | 'b' p%d | 'e' ;\n" % (at, (at + 1) % PLACES, SWAPPED[at]) for at in range(PLACES))


def filled(size, draw, piece, before='', between='', behind=''):
    """Pieces, one after another, as many as there is room for."""
    pieces, length = [], len(before) + len(behind)
    while True:
        one = piece(draw)
        if length + len(one) + len(between) > size:
            return before + between.join(pieces) + behind
        pieces.append(one)
        length += len(one) + len(between)


def little(size):
    def name(draw):
        return 'abcdefghij'[draw.randrange(10)] + 'quantity of goods'.replace(' ', '')[:draw.randrange(8, 15)] + str(draw.randrange(40))

    def atom(draw, depth):
        kind = draw.randrange(6)
        if kind == 0 and depth < 4:
            return '(' + sum_of(draw, depth + 1) + ')'
        return str(draw.randrange(10 ** 9)) if kind < 3 else name(draw)

    def sum_of(draw, depth):
        return ' + '.join(' * '.join(atom(draw, depth) for _ in range(draw.randrange(1, 3))) for _ in range(draw.randrange(1, 4)))

    def statement(draw):
        return ('let ' if draw.randrange(3) == 0 else '') + name(draw) + ' = ' + sum_of(draw, 0) + ';\n'

    return filled(size - 4, random.Random(size), statement)


def json(size):
    words = ('harbour', 'ring', 'nights', 'boat', 'owner', 'paid', 'lit', 'depth', 'berth', 'notes')

    def value(draw, depth):
        kind = draw.randrange(9)
        if kind < 2 and depth < 4:
            return '{\n%s\n%s}' % (',\n'.join('%s"%s %d": %s' % ('  ' * (depth + 1), draw.choice(words), draw.randrange(100), value(draw, depth + 1)) for _ in range(draw.randrange(1, 6))), '  ' * depth)
        if kind < 4 and depth < 4:
            return '[%s]' % ', '.join(value(draw, depth + 1) for _ in range(draw.randrange(0, 7)))
        if kind < 6:
            return '"%s"' % ' '.join(draw.choice(words) for _ in range(draw.randrange(1, 6)))
        if kind < 8:
            return draw.choice(('%d' % draw.randrange(10 ** draw.randrange(1, 9)), '-%d.%d' % (draw.randrange(100), draw.randrange(1000)), '%de%d' % (draw.randrange(10), draw.randrange(20))))
        return draw.choice(('true', 'false', 'null'))

    return filled(size, random.Random(size), lambda draw: value(draw, 0), '[', ',\n', ']\n')


def tarn(size):
    words = ('tide', 'ring', 'boat', 'night', 'owed', 'rate', 'depth', 'crew', 'rope', 'swell', 'pier', 'lamp')

    def name(draw):
        return draw.choice(words) + draw.choice(('', '', '_of_' + draw.choice(words), str(draw.randrange(60))))

    def type_of(draw, depth):
        kind = draw.randrange(7)
        if kind == 0 and depth < 2:
            return '[%s]' % type_of(draw, depth + 1)
        if kind == 1 and depth == 0:
            return '%s<[%s]>' % (draw.choice(('Book', 'List')), type_of(draw, 1))
        return draw.choice(('int', 'real', 'text', 'Boat', 'harbour::Ring'))

    def expression(draw, depth):
        kind = draw.randrange(14)
        if depth > 3 or kind < 3:
            return draw.choice((name(draw), str(draw.randrange(10 ** 4)), '%d.%d' % (draw.randrange(90), draw.randrange(100)), '"%s"' % name(draw), 'true', 'self.' + name(draw)))
        inner = lambda: expression(draw, depth + 1)
        if kind < 7:
            return '(%s %s %s)' % (inner(), draw.choice(('+', '-', '*', '/', '%', '<<', '&', '==', '<', '>=', 'and', 'or')), inner())
        if kind < 10:
            return '%s(%s)' % (name(draw), ', '.join(inner() for _ in range(draw.randrange(0, 4))))
        return draw.choice(('%s[%s]' % (name(draw), inner()), '%s.%s' % (name(draw), name(draw)), '[%s, %s]' % (inner(), inner()), '-%s' % name(draw)))

    def body(draw, depth):
        return '{\n%s%s}' % (''.join('  ' * (depth + 1) + statement(draw, depth + 1) + '\n' for _ in range(draw.randrange(1, 5))), '  ' * depth)

    def statement(draw, depth):
        kind = draw.randrange(12)
        if kind < 3 and depth < 4:
            return draw.choice(('if', 'while')) + ' %s %s' % (expression(draw, 1), body(draw, depth))
        if kind == 3 and depth < 4:
            return 'for %s in %s %s' % (name(draw), expression(draw, 1), body(draw, depth))
        if kind < 7:
            return 'let %s = %s;' % (name(draw), expression(draw, 0))
        if kind < 9:
            return '%s %s %s;' % (name(draw), draw.choice(('=', '+=', '-=')), expression(draw, 0))
        return draw.choice(('give %s;', 'check %s;', '%s;')) % expression(draw, 0)

    def item(draw):
        kind = draw.randrange(8)
        if kind == 0:
            return 'const %s : %s = %s;\n' % (name(draw).upper(), type_of(draw, 0), expression(draw, 1))
        if kind == 1:
            return 'record %s {\n%s}\n' % (name(draw).capitalize(), ''.join('  %s : %s;\n' % (name(draw), type_of(draw, 0)) for _ in range(draw.randrange(1, 6))))
        takes = ', '.join('%s: %s' % (name(draw), type_of(draw, 0)) for _ in range(draw.randrange(0, 4)))
        return 'fun %s(%s) -> %s %s\n' % (name(draw), takes, type_of(draw, 0), body(draw, 0))

    return filled(size, random.Random(size), item)


def query(size):
    words = ('stays', 'boats', 'rings', 'owners', 'nights', 'fees', 'berths')
    columns = ('number', 'name', 'boat', 'owner', 'length', 'due', 'paid')

    def expression(draw, depth):
        kind = draw.randrange(8)
        if depth > 2 or kind < 4:
            return draw.choice(('%s.%s' % (draw.choice('sbr'), draw.choice(columns)), str(draw.randrange(1000)), "'%s'" % draw.choice(words), draw.choice(columns)))
        if kind < 7:
            return '%s %s %s' % (expression(draw, depth + 1), draw.choice('+-*/'), expression(draw, 4))
        return draw.choice(('sum', 'least')) + '(%s)' % expression(draw, depth + 1)

    def condition(draw):
        return draw.choice((' and ', ' or ')).join('%s %s %s' % (expression(draw, 2), draw.choice(('==', '!=', '<', '>=')), expression(draw, 1)) for _ in range(draw.randrange(1, 4)))

    def one(draw):
        text = 'define v%d :\nfrom %s as s\n' % (draw.randrange(5000), draw.choice(words))
        text += ''.join('join %s as %s on %s\n' % (draw.choice(words), letter, condition(draw)) for letter in 'br'[:draw.randrange(3)])
        text += 'keep %s\n' % condition(draw) if draw.randrange(2) else ''
        text += 'show %s\n' % ', '.join('%s as %s' % (expression(draw, 0), draw.choice(columns)) for _ in range(draw.randrange(1, 6)))
        return text + ('sort %s down\n' % expression(draw, 2) if draw.randrange(3) == 0 else '') + ';\n'

    return filled(size, random.Random(size), one)


def settings(size):
    words = ('pump', 'well', 'door', 'lamp', 'every', 'days', 'level', 'limit', 'alarm', 'valve')

    def value(draw):
        kind = draw.randrange(8)
        if kind == 0:
            return '[%s]' % ', '.join(value(draw) for _ in range(draw.randrange(0, 5)))
        return draw.choice(('yes', 'no', '%d' % draw.randrange(10 ** 5), '%dmin' % draw.randrange(60), '12:%02d' % draw.randrange(60), '"%s %s"' % (draw.choice(words), draw.choice(words)), draw.choice(words)))

    def setting(draw, depth):
        if draw.randrange(4) == 0 and depth < 4:
            return '%s%s_%d {\n%s%s}\n' % ('  ' * depth, draw.choice(words), draw.randrange(2000), ''.join(setting(draw, depth + 1) for _ in range(draw.randrange(1, 6))), '  ' * depth)
        return '%s%s-%s = %s%s\n' % ('  ' * depth, draw.choice(words), draw.choice(words), value(draw), '' if draw.randrange(9) else '   # ' + draw.choice(words))

    return filled(size, random.Random(size), lambda draw: setting(draw, 0))


def permuted(size):
    draw = random.Random(size)
    return ''.join(draw.choice('ab') for _ in range(size - 2)) + 'e\n'
