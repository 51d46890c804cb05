#!/usr/bin/env python3
"""Makes the commands of lb_tests_pages on paragraphs and lines. They are the same each time. With the word
`long` it makes instead the one list of 64,002 items, box and glue in turn, which takes about 1 MB."""
import random
import sys

from paper import Desk
from paper_paragraphs import Paragraphs, ends_forced, legal_breaks

draw = random.Random(18)
HALF = 2 ** 30
POINT = 65536
FIL = (0, 0, 0, 0, 0, 0, POINT, 1, 0, 0)
RULES = (100, 200, 10, 50, 50, 10000, 10000, 5000, 150, 150, 100, 0)


class Whole(Paragraphs, Desk):
    pass


desk = Whole('')


def say(*words):
    """Prints a command, and follows it, so that what it stands on is known. Breaks are not searched for."""
    print(*words)
    name, *rest = map(str, words)
    if name in ('break', 'lines'):
        if not ends_forced(desk.list, desk.rules):
            raise ValueError('the list does not end in a forced break')
    elif name != 'show':
        desk.run(name, *rest)


def end_of_paragraph():
    say('penalty', 10000)
    say('glue', 0, 1, 1, 0, 0)
    say('penalty', -10000)


def shape(width, *skips):
    say('shape', width, *(skips or (0,) * 10))


def rules(**changed):
    """The starts with some numbers changed."""
    names = ('pre tol line hyphen ex adj double final club widow broken inter').split()
    say('rules', *(changed.get(name, start) for name, start in zip(names, RULES)))


# ---- rows that are worked by hand

def box(points):
    say('hpack', 0, 'to', points * POINT)


def row_of_ties():
    say('clear')
    shape(20 * POINT, *FIL)
    rules()
    for _ in range(2):
        box(10)
        say('glue', 0, 0, 0, 0, 0)
    box(10)
    say('penalty', 10000)
    say('glue', 0, POINT, 1, 0, 0)
    say('penalty', -10000)
    say('show')
    for passes in ('first', 'second', 'both'):
        say('passes', passes)
        say('break')
    say('lines')
    say('show')


def letters(count):
    say('char', 120, 5 * POINT, 15 * POINT // 2, 5 * POINT // 2)
    if count > 1:
        say('many', count - 1)


def row_of_one_long_word():
    say('clear')
    shape(345 * POINT)
    box(15)
    letters(70)
    say('penalty', 10000)
    say('glue', 0, POINT, 1, 0, 0)
    say('penalty', -10000)
    for passes in ('first', 'second', 'both'):
        say('passes', passes)
        say('break')
    say('lines')


def eighty_words():
    """80 words in the test font: letters 5pt wide, spaces 3pt plus 1pt minus 1pt, an indent of 15pt."""
    for hyphens in (False, True):
        say('clear')
        box(15)
        for number in range(80):
            if number:
                say('glue', 3 * POINT, POINT, 0, POINT, 0)
            letters(1 + draw.randrange(10) if draw.random() < 0.8 else 2)
            if hyphens and draw.random() < 0.4:
                if draw.random() < 0.7:
                    say('char', 45, 5 * POINT, 15 * POINT // 2, 5 * POINT // 2)
                    say('disc', 1, 0, 0)
                else:
                    say('disc', 0, 0, 0)
                letters(1 + draw.randrange(6))
        say('penalty', 10000)
        say('glue', 0, POINT, 1, 0, 0)
        say('penalty', -10000)
        rules()
        for width in (345, 200, 100, 60, 1000):
            for skips in ((), FIL, (5 * POINT, 2 * POINT, 0, 0, 0, 5 * POINT, 3 * POINT, 0, POINT, 0)):
                shape(width * POINT, *skips)
                for passes in ('first', 'second', 'both'):
                    say('passes', passes)
                    say('break')
        shape(150 * POINT)
        for changed in ({'pre': -1}, {'tol': 10000}, {'pre': 10000}, {'adj': 0}, {'line': 0}, {'line': 200},
                        {'hyphen': -200, 'ex': -100}, {'hyphen': 10000, 'ex': 10000}, {'double': -50000},
                        {'final': 10 ** 9}, {'hyphen': 9999, 'tol': 50}, {'ex': -10000}, {'hyphen': -10001},
                        {'adj': -10 ** 6, 'pre': -1, 'tol': 10000}, {'tol': -1, 'pre': -1}, {'tol': 12}):
            rules(**changed)
            say('break')
        rules(**({'tol': 1000, 'club': -150, 'inter': 7} if hyphens else {}))
        shape((200 if hyphens else 345) * POINT)
        say('lines')


def too_many_items():
    rules()
    say('passes', 'both')
    shape(345 * POINT)
    for count in (65536, 65537):
        # characters, and the parts of a discretionary
        say('clear')
        say('fontkern', 0)
        say('many', count - 2)
        say('penalty', -10000)
        say('break')
        say('clear')
        say('kern', 1)
        say('many', count - 3)
        say('disc', 0, 0, 2)
        say('penalty', -10000)
        say('break')
    # the parts of discretionaries inside others: 8,191 times 8 items
    say('clear')
    for _ in range(6):
        say('char', 1, 1, 0, 0)
    say('disc', 1, 2, 3)
    say('disc', 1, 0, 0)
    say('many', 8190)
    rules(hyphen=10000)
    say('penalty', -10000)
    say('many', 7)
    say('break')
    say('many', 1)
    say('break')
    # boxes and material do not count
    say('clear')
    say('kern', 1)
    say('many', 65534)
    say('adjust', 65535)
    say('kern', 0)
    say('many', 65533)
    say('penalty', -10000)
    say('break')


def many_boxes():
    """64,002 items: boxes of 10pt, 31,999 of them the third part of a discretionary."""
    rules()
    shape(200 * POINT, *FIL)
    say('clear')
    say('char', 1, 10 * POINT, 0, 0)
    say('disc', 0, 0, 1)
    say('many', 31998)
    say('char', 1, 10 * POINT, 0, 0)
    say('penalty', 10000)
    say('glue', 0, POINT, 1, 0, 0)
    say('penalty', -10000)
    say('break')
    rules(double=0, ex=0)
    say('break')
    shape(205 * POINT, 0, 0, 0, 0, 0, 0, 30 * POINT, 0, 30 * POINT, 2)
    say('break')
    # the same with penalties at which nothing can be broken, so that one line has all
    rules(ex=10000)
    say('break')


def boxes_and_glue():
    """The list of boxes and glue in turn, as it is written."""
    rules()
    shape(200 * POINT, *FIL)
    say('clear')
    for number in range(32000):
        if number:
            say('glue', 0, 0, 0, 0, 0)
        say('char', 1, 10 * POINT, 0, 0)
    say('penalty', 10000)
    say('glue', 0, POINT, 1, 0, 0)
    say('penalty', -10000)
    say('break')


# ---- lists of a few items, each of one corner

CHAR = ('char', 65, 5, 7, 2)
SPACE = ('glue', 3, 2, 0, 1, 0)
END = (('penalty', -10000),)
LAST = (('penalty', 10000), ('glue', 0, 1, 1, 0, 0), ('penalty', -10000))


def each_way(*commands, widths=(5, 9), ends=True):
    """A list: its breaks at some widths, its lines, and its lines with all ends and the last one alone."""
    def build():
        say('clear')
        for command in commands:
            say(*command)

    build()
    for width in widths:
        shape(width)
        say('break')
    say('lines')
    build()
    places = list(legal_breaks(desk.list, desk.rules))
    if ends and len(places) > 1:
        say('lines', *places)
        build()
        say('lines', places[-1])


def corners():
    say('passes', 'both')
    # a forced break alone, and with one item
    rules(ex=-10000, hyphen=-20000)
    for commands in (END, (('penalty', -10001),), (('penalty', -2147483647),), (('disc', 0, 0, 0),), (CHAR, ('disc', 1, 0, 0)),
                     (CHAR, ('disc', 0, 1, 0)), (CHAR, ('disc', 0, 0, 1)), (CHAR, CHAR, CHAR, ('disc', 1, 1, 1))):
        each_way(*commands, widths=(-1, 0, 1, 5, 6))
        shape(3, 5, 1, 0, 2, 3, 0, 0, 0, 0, 0)
        say('break')
        say('clear')
    rules()
    for one in (CHAR, SPACE, ('kern', 5), ('fontkern', 5), ('penalty', 5), ('note',), ('rule', 5, 1, 1), ('rule', 'x', 'x', 'x')):
        each_way(one, *END, widths=(0, 4, 5), ends=False)
    # where lines may end: what stands before a glue, and what behind a kern
    for before in ((), (CHAR,), (SPACE,), (('kern', 1),), (('fontkern', 1),), (('penalty', 10000),), (('penalty', 0),), (('note',),),
                   (('disc', 0, 0, 0),), (('rule', 1, 1, 1),), (('hpack', 0, 'to', 2),), (('vpack', 0, 'to', 2),),
                   (('hpack', 0, 'to', 2), ('ins',)), (('kern', 1), ('adjust', 1)), (('hpack', 0, 'to', 2), ('right',)),
                   (('hpack', 0, 'to', 2), ('hpack', 0, 'to', 3), ('both',)), (('adjust', 0),)):
        each_way(*before, SPACE, CHAR, *END, widths=(0, 1, 5), ends=False)
        each_way(CHAR, ('kern', 2), *before, SPACE, CHAR, *END, ends=False)
        each_way(CHAR, SPACE, *before, CHAR, *END)
    # what is discarded behind a break, and behind a discretionary with a second part
    loose = (('penalty', 3), ('kern', 1), SPACE, ('kern', 2))
    for breaks in ((SPACE,), (('penalty', 0),), (CHAR, CHAR, CHAR, ('disc', 1, 1, 1)), (SPACE, SPACE, ('kern', 4), ('disc', 1, 1, 1)),
                   (('kern', 3), SPACE)):
        for count in (0, 2, 4):
            each_way(CHAR, *breaks, *loose[:count], CHAR, *END)
            each_way(CHAR, *breaks, *loose[:count], *END, ends=count > 0)
        each_way(CHAR, *breaks, *loose, CHAR, ('disc', 1, 0, 0), ('fontkern', 1), *END)
    # forced breaks in the middle
    for penalty in (-9999, -10000, -10001, 9999, 10000, 10001, 2147483647, -2147483647, 0, 1, -1):
        each_way(CHAR, ('penalty', penalty), CHAR, SPACE, CHAR, *END, widths=(5, 8, 13, 20), ends=penalty in (0, -10000, 10000))
        each_way(('penalty', penalty), ('penalty', penalty), *END, widths=(0,), ends=False)
    for penalty in (-10000, -9999, 0, 9999, 10000, 2147483647, -2147483648):
        say('clear')
        for command in (CHAR, CHAR, ('disc', 1, 0, 0), CHAR, ('disc', 0, 0, 0), CHAR, ('disc', 0, 0, 1), *LAST):
            say(*command)
        for changed in ({'hyphen': penalty, 'ex': 1}, {'ex': penalty, 'tol': 10000}, {'hyphen': penalty, 'double': 0, 'final': 0}):
            rules(**changed)
            for width in (5, 11, 15):
                shape(width)
                say('break')
        say('lines')


def thresholds():
    """Badness at the tolerance, at the bounds of the classes, and shrink that is just enough."""
    say('passes', 'both')
    for stretch in (99, 100, 101, 200, 46):
        say('clear')
        for k in range(3):
            say('char', 65, 500, 0, 0)
            say('glue', 100, stretch, 0, stretch, 0)
        say('char', 65, 500, 0, 0)
        for end in LAST:
            say(*end)
        for about in (-202, -201, -200, -199, -102, -101, -100, -99, -92, -51, -50, -49, -46, -23, 0, 23, 46, 49, 50, 51, 92, 98, 99,
                      100, 101, 199, 200, 201, 202, 400, 460, 461, 500):
            shape(1100 + about)
            say('break')
    for tolerance in (11, 12, 13, 98, 99, 100, 101, 9999, 10000, 10001, 2147483647, 0, -1, -2147483648, 799, 800):
        rules(pre=tolerance, tol=tolerance, adj=77)
        for about in (0, 49, 50, 51, 99, 100, 101, 200, 460, 470):
            shape(1100 + about)
            for passes in ('first', 'second', 'both'):
                say('passes', passes)
                say('break')
    say('passes', 'both')
    for line in (-10000, -9999, -10001, -100, 0, 9899, 9900, 9999, 10000, 2147483647, -2147483648):
        rules(line=line, tol=10000, pre=-1)
        for about in (0, 100, 300):
            shape(1100 + about)
            say('break')
    rules()


def classes():
    """Lines at the bounds of the classes, where the class decides whether one break or another is chosen."""
    rules(pre=-1, tol=10000, adj=10 ** 6)
    for total, gives in ((100, range(49, 53)), (300, range(297, 304)), (-100, range(49, 53))):
        for about in (-60, 0, 60, 120):
            for give in gives:
                # a first line with a class of its own, a line that ends at one penalty or, without excess, at another, and the last line
                excess = give if total > 0 else -give
                width = 700 + excess
                say('clear')
                say('glue', 0, 100, 0, 100, 0)
                say('char', 65, width - about, 0, 0)
                say('penalty', -10000)
                say('char', 65, 600, 0, 0)
                say('glue', 100, abs(total), 0, abs(total), 0)
                say('fontkern', 0)
                say('penalty', 0)
                say('char', 65, excess, 0, 0)
                say('penalty', 500)
                say('char', 65, 400, 0, 0)
                for end in LAST:
                    say(*end)
                shape(width)
                say('break')
    rules()


def infinite():
    """Stretch and shrink of the higher orders, and totals that cancel."""
    say('passes', 'both')
    rules()
    for order in range(4):
        for amount in (0, 1, -1, 4):
            say('clear')
            for glue in ((3, amount, order, amount, order), (3, 4, 0, 4, 0), (3, -4, order, -4, 0), (3, 2, 0, 0, 3)):
                say('char', 65, 5, 0, 0)
                say('glue', *glue)
            say('char', 65, 5, 0, 0)
            say('penalty', -10000)
            for width in (9, 12, 13, 14, 20, 21, 22, 29, 34, 50):
                shape(width)
                say('break')
            for skips in (FIL, (0, 3, 1, 3, 1, 0, -3, 2, -3, 2), (1, -1, 3, 0, 0, 1, 1, 3, 0, 0), (-2, 1, 0, 1, 0, 2, 1, 0, 1, 3)):
                for width in (12, 16, 22):
                    shape(width, *skips)
                    say('break')
            say('lines')


def too_large():
    """Lines with sums of 2^30 - 1 and of 2^30 scaled points."""
    say('passes', 'both')
    rules()
    for sign in (1, -1):
        for more in (-1, 0):
            size = sign * (HALF + more)
            half = size // 2
            for commands in ((('kern', size),), (('fontkern', half), ('kern', size - half)), (('rule', size, 0, 0),),
                             (('rule', 0, size, 0),), (('rule', 0, 0, size),), (('char', 1, size, 0, 0),), (('char', 1, 0, size, 0),),
                             (('char', 1, 0, 0, size),), (('glue', half, 0, 0, 0, 0), ('glue', size - half, 0, 0, 0, 0)),
                             (('glue', 0, half, 0, 0, 0), ('glue', 0, size - half, 0, 0, 0)),
                             (('glue', 0, 0, 0, half, 0), ('glue', 0, 0, 0, size - half, 0)),
                             (('glue', 0, half, 2, 0, 0), ('glue', 0, size - half, 2, 0, 0)),
                             (('glue', 0, half, 1, 0, 0), ('glue', 0, size - half, 2, 0, 0)),
                             (('glue', 0, 0, 0, half, 3), ('glue', 0, 0, 0, size - half, 3)),
                             (('hpack', 0, 'to', 1), ('lower', size)), (('kern', size), ('disc', 0, 0, 1)),
                             (('kern', size), ('disc', 1, 0, 0)), (('kern', size), ('disc', 0, 1, 0)),
                             (('kern', size), ('adjust', 1)), (('kern', size), ('kern', -size))):
                # for some with one more from the glue of a side
                for width, skips in ((0, ()), draw.choice([(5, (1,) + (0,) * 9), (HALF - 1, (0,) * 5 + (-1,) + (0,) * 4)])):
                    say('clear')
                    for command in commands:
                        say(*command)
                    say('penalty', -10000)
                    shape(width, *skips)
                    say('lines')
    # excess and shifts
    for width, kern in ((HALF - 1, -1), (HALF - 1, 0), (HALF - 5, -4), (HALF - 5, -5), (1 - HALF, 0), (1 - HALF, 1), (5 - HALF, 5)):
        say('clear')
        say('kern', kern)
        say('glue', 0, HALF // 2, 0, HALF // 2, 0)
        say('glue', 0, 1 - HALF // 2, 0, 1 - HALF // 2, 0)
        say('penalty', -10000)
        shape(width)
        say('break')
        say('lines')
    for width in (1, 2, 3, -1, -2, -3):
        for skips in ((), (0, HALF // 2, 0, HALF // 2, 0, 0, 1 - HALF // 2, 0, 1 - HALF // 2, 0),
                      (0, HALF - 1, 1, HALF - 1, 1, 0, 2 - HALF, 1, 2 - HALF, 1), (0, HALF - 1, 1, 1, 1, 0, 1, 1, 2 - HALF, 1)):
            shape(width, *skips)
            say('penalty', -10000)
            say('break')
            say('lines')
    # the second line is too large, or the first, or what is not in a line
    for place in range(3):
        for large in (('kern', HALF - 1), ('rule', 1, 2 - HALF, HALF - 1)):
            say('clear')
            shape(10)
            for number in range(3):
                say('char', 65, 5, 7, 2)
                if number == place:
                    say(*large)
                    say('char', 65, 5, 7, 2)
                say('penalty', -10000)
            say('break')
            say('lines')
    for counts in ((1, 0, 0), (0, 1, 0), (0, 0, 1)):
        for broken in (True, False):
            say('clear')
            say('char', 65, 5, 7, 2)
            say('kern', HALF - 1)
            say('disc', *counts)
            say('kern', 1)
            say('char', 65, 5, 7, 2)
            say('penalty', -10000)
            shape(10)
            say('break')
            say('lines', *([1] if broken else []), 4)
    # a line of which the sums are far over what a box may have, and is broken all the same
    for kern in (HALF - 1, 1 - HALF):
        say('clear')
        say('kern', kern)
        say('many', 30)
        say('char', 65, 5, 7, 2)
        say('glue', kern, kern, 0, kern, 0)
        say('glue', kern, kern, 3, kern, 1)
        say('many', 9)
        say('char', 65, 5, 7, 2)
        say('penalty', -10000)
        for width in (HALF - 1, 0, 1 - HALF):
            shape(width, 1, 1, 0, HALF - 1, 0, HALF - 1, 0, 0, 0, 0)
            say('break')
        say('lines')


def deep(times):
    """A box that has boxes inside one another."""
    for _ in range(times):
        say('hpack', len(desk.list[-1:]), 'to', 1)


def nests():
    shape(10)
    rules()
    say('clear')
    deep(499)
    say('penalty', -10000)
    say('lines')
    # what is too deep in a line, also where a line behind it is too large; and what does not count: footnotes, material,
    # and parts that are not used
    for commands in ((('right',),), (('disc', 0, 0, 1),), (('many', 1), ('ins',), ('adjust', 1), ('disc', 1, 0, 1)),
                     (('char', 65, 5, 7, 2), ('penalty', -10000), ('fontkern', 1), ('kern', HALF - 1))):
        say('clear')
        deep(500)
        for command in commands:
            say(*command)
        say('penalty', -10000)
        say('lines')


# ---- lists that are drawn

class Scale:
    """How large the numbers of a list are."""

    def __init__(self, unit, most):
        self.unit, self.most = unit, most

    def size(self):
        """A length of a few units."""
        most = self.most
        if most > 20:
            return draw.choice([-1, 1, 1]) * draw.randrange(1, 2 ** draw.randrange(1, 31))
        return draw.randrange(0, most) * self.unit

    def signed(self):
        return self.size() * draw.choice([1, 1, 1, 1, -1])


SCALES = [Scale(1, 10)] * 13 + [Scale(POINT, 10)] + [Scale(1, 10 ** 9)]


def orders():
    return draw.choice([[0]] * 5 + [[0, 0, 1], [0, 1, 2, 3], [0, 3]])


def put_glue(scale, which):
    say('glue', scale.signed(), scale.signed(), draw.choice(which), scale.signed(), draw.choice(which))


PENALTIES = [0, 0, 50, 50, 100, -100, 9999, -9999, 10000, 10000, -10000, 1, -1, 500, -500]


def put_char(scale):
    say('char', draw.randrange(33, 127), scale.size(), draw.choice([0, 7]), draw.choice([0, 2]))


def put_box(scale):
    if draw.random() < 0.7:
        say('rule', scale.size(), 1, 2)
        say(draw.choice(['hpack', 'hpack', 'vpack']), 1, 'natural', 0)
    else:
        say('hpack', 0, 'to', scale.size())
    if draw.random() < 0.3:
        say('lower', scale.signed())


def put(kind, scale, which, inner=False):
    """Pushes one node."""
    if kind == 'char':
        put_char(scale)
    elif kind == 'glue':
        put_glue(scale, which)
    elif kind in ('kern', 'fontkern'):
        say(kind, scale.signed())
    elif kind == 'penalty':
        say('penalty', draw.choice(PENALTIES))
    elif kind == 'rule':
        say('rule', draw.choice(['x', scale.size()]), draw.choice(['x', 3]), draw.choice(['x', 1]))
    elif kind == 'note':
        say('note')
    elif kind == 'box':
        put_box(scale)
    elif kind == 'ins':
        put_box(scale)
        say('ins')
    elif kind == 'mark':
        say('hpack', 0, 'to', 4)
        if draw.random() < 0.3:
            say('hpack', 0, 'to', 2)
            say('both')
        else:
            say('right')
    elif kind == 'adjust':
        count = draw.randrange(3)
        for _ in range(count):
            put(draw.choice(['glue', 'penalty', 'kern', 'rule', 'box', 'ins']), scale, which)
        say('adjust', count)
    else:
        put_disc(scale, which, inner)


def put_disc(scale, which, inner):
    counts = draw.choice([(0, 0, 0), (0, 0, 0), (1, 0, 0), (1, 0, 0), (1, 0, 1), (0, 1, 0), (0, 0, 1), (1, 1, 1), (0, 1, 2), (2, 1, 1)])
    kinds = ['char'] * 6 + ['glue', 'kern', 'fontkern', 'penalty', 'ins', 'adjust', 'box', 'note'] + ([] if inner else ['disc'])
    for _ in range(sum(counts)):
        put(draw.choice(kinds), scale, which, True)
    say('disc', *counts)


FLAVOURS = [
    {'char': 6, 'glue': 5, 'disc': 1, 'penalty': 1, 'kern': 1, 'fontkern': 1},
    {'char': 4, 'glue': 3, 'disc': 4, 'fontkern': 1},
    {'char': 4, 'penalty': 3, 'glue': 2, 'kern': 1},
    {'char': 3, 'glue': 3, 'kern': 2, 'fontkern': 1, 'penalty': 1, 'disc': 2, 'rule': 1, 'box': 1, 'note': 1, 'mark': 1, 'ins': 1,
     'adjust': 1},
    {'char': 1, 'ins': 2, 'adjust': 2, 'disc': 2, 'glue': 2, 'penalty': 1},
    {'glue': 4, 'kern': 3, 'penalty': 2, 'char': 1},
]


def drawn_list(scale):
    say('clear')
    which, flavour = orders(), draw.choice(FLAVOURS[:1] * 4 + FLAVOURS)
    kinds, weights = list(flavour), list(flavour.values())
    turns = flavour is FLAVOURS[0] and draw.random() < 0.6
    for number in range(draw.randrange(1, 11)):
        kind = ('char', 'glue')[number % 2] if turns and draw.random() < 0.9 else draw.choices(kinds, weights)[0]
        put(kind, scale, which)
    ending = draw.random()
    if ending < 0.35:
        end_of_paragraph()
    elif ending < 0.9:
        say('penalty', -10000)
    elif ending < 0.95:
        say('penalty', draw.choice([-10001, -20000, -2147483647]))
    else:
        put_disc(scale, which, False)


def drawn_skip(scale):
    return draw.choice([(0, 0, 0, 0, 0)] * 3 + [(0, scale.size(), 1, 0, 0), (scale.signed(), scale.size(), 0, scale.size(), 0),
                                               (0, scale.size(), draw.randrange(4), scale.size(), draw.randrange(4))])


def drawn_shape(scale):
    """About as wide as a part of the list."""
    whole = sum(abs(node.width) for node in desk.list)
    width = whole // draw.choice([1, 1, 2, 2, 3, 4, 6]) + draw.randrange(-3, 4) * (scale.unit if scale.most <= 20 else 1)
    width = max(1 - HALF, min(HALF - 1, width))
    if draw.random() < 0.03:
        width = draw.choice([0, -5, HALF - 1, 1 - HALF])
    skips = [0] * 10 if draw.random() < 0.6 else [*drawn_skip(scale), *drawn_skip(scale)]
    shape(width, *skips)


MENUS = (
    [100, 100, -1, -1, 0, 10, 99, 10000, 9999, 20000, -100],
    [200, 200, 10000, 10000, 9999, 500, 0, -1, 12, 50, 1000, 100000],
    [10, 10, 10, 0, 1, -10, 100, -50, 1000, 9999, 10000, -9999, -10100],
    [50, 50, 0, 0, 10, -50, 100, 1000, 9999, 10000, -9999, -10000],
    [50, 50, 0, 0, 10, -50, 100, 1000, 9999, 10000, -9999, -10000],
    [10000, 10000, 0, 1, 100, -100, 3000, 1000000, -10000],
    [10000, 10000, 0, 1, 100, -100, 2500, 1000000, -10000],
    [5000, 5000, 0, 1, 100, -100, 2500, 1000000, -5000],
    [150, 150, 0, 1, -150, -50, -100, 10000, 2147483647, -2147483648],
    [150, 150, 0, 1, -150, -250, 10000, 2147483647, -2147483648],
    [100, 100, 0, 1, -150, -300, -100, 2147483647],
    [0, 0, 0, 1, 150, -150, 2147483647, -2147483648],
)


def drawn_rules():
    numbers = [draw.choice(menu) if draw.random() < 0.6 else start for menu, start in zip(MENUS, RULES)]
    if desk.list[-1].kind == 'disc':
        numbers[3 if desk.list[-1].parts[0] else 4] = draw.choice([-10000, -10001, -20000])
    say('rules', *numbers)


def drawn_ends():
    places = list(legal_breaks(desk.list, desk.rules))
    return [place for place in places[:-1] if draw.random() < 0.4] + places[-1:]


def drawn():
    for _ in range(560):
        scale = draw.choice(SCALES)
        drawn_list(scale)
        drawn_shape(scale)
        if not ends_forced(desk.list, desk.rules) or draw.random() < 0.6:
            drawn_rules()
        for turn in range(draw.choice([1, 2, 2, 3, 4, 5])):
            if turn:
                (drawn_shape if draw.random() < 0.75 else lambda _: drawn_rules())(scale)
            if draw.random() < 0.2:
                say('passes', draw.choice(['first', 'second', 'both', 'both']))
            say('break')
        what = draw.random()
        if what < 0.4:
            say('lines')
        elif what < 0.8:
            say('lines', *drawn_ends())
        if draw.random() < 0.02:
            say('show')
    say('passes', 'both')


def ties():
    """Lists with lines that are worth the same, and penalties that make up for one another."""
    say('passes', 'both')
    for number in range(70):
        say('clear')
        rules(hyphen=draw.choice([0, 50, 10]), ex=draw.choice([0, 50, 10]), double=draw.choice([0, 100, 2500, -100, 10000]),
              final=draw.choice([0, 100, 2500]), adj=draw.choice([0, 100, 10000]), line=draw.choice([0, 10, 10]),
              pre=draw.choice([100, 10000, -1]), tol=draw.choice([200, 10000]))
        for place in range(draw.randrange(3, 8)):
            if place:
                kind = draw.random() if number % 2 else 0.5 + draw.random() / 2
                if kind < 0.6:
                    say('glue', 0, draw.choice([0, 0, 1, 2]), 0, draw.choice([0, 0, 1, 2]), 0)
                elif kind < 0.8:
                    say('penalty', draw.choice([0, 0, 10, -10, 50, -50]))
                else:
                    say('disc', 0, 0, 0)
            say('char', 65, draw.choice([2, 2, 2, 3, 4]), 0, 0)
        if draw.random() < 0.7:
            end_of_paragraph()
        else:
            say('penalty', -10000)
        for _ in range(5):
            shape(draw.randrange(3, 14), *draw.choice([FIL, FIL, (0,) * 10]))
            say('break')
        if number % 2 == 0:
            say('lines')


def double_hyphens():
    """Breaks in a row at discretionaries, and one before the last line."""
    for pattern in ('ddgdd', 'dgdgd', 'gddd'):
        say('clear')
        for kind in pattern + ' ':
            say('char', 65, 2, 0, 0)
            if kind == 'd':
                say('disc', 0, 0, 0)
            elif kind == 'g':
                say('glue', 0, 0, 0, 0, 0)
        end_of_paragraph()
        for double, final in ((0, 0), (5000, 0), (0, 5000), (-5000, 9), (199, -300)):
            rules(ex=5, double=double, final=final)
            for width in (4, 5, 6):
                shape(width, 0, 0, 0, 0, 0, 0, 1, 1, 0, 0)
                say('break')


# ---- boxes that are added to a vertical list

NONE = (0, 0, 0, 0, 0)


def append(prev, baselineskip=(12, 0, 0, 0, 0), lineskip=(1, 0, 0, 0, 0), limit=0):
    say('append', prev, *baselineskip, *lineskip, limit)


def boxed(height, depth=0, axis='hpack'):
    say('clear')
    say('rule', 5, height, depth)
    say(axis, 1, 'natural', 0)


def appends():
    edge = -1000 * POINT
    for number in range(26):
        # a few boxes, each added several times, since it comes to stand at the end again
        say('clear')
        if draw.random() < 0.5:
            put(draw.choice(['glue', 'penalty', 'rule', 'note', 'box', 'disc']), SCALES[0], [0, 1])
        kind = number % 5
        if kind == 3:
            say('vpack', 0, 'to', draw.choice([-5, -1, 0, 9]))
        elif kind == 4:
            say('rule', 5, draw.choice([-3, 4]), draw.choice([-2, 3]))
            say('vpack', 1, draw.choice(['natural', 'to']), draw.choice([0, 7]))
        else:
            say('rule', 5, draw.choice([0, 1, 7]), draw.choice([0, 2]))
            say('hpack', 1, 'natural', 0)
        if draw.random() < 0.4:
            say('lower', SCALES[0].signed())
        for prev in draw.sample([edge - 1, edge, edge + 1, 0, -1, 1, 2, 5, -2 ** 31, 2 ** 31 - 1, HALF, -HALF, edge + 7], 6):
            append(prev, (draw.choice([12, 0, 5, -3]), draw.choice([0, 1]), draw.randrange(4), draw.choice([0, 2]), draw.randrange(4)),
                   (draw.choice([1, 0, -1]), draw.choice([0, 3]), draw.randrange(4), 0, 0),
                   draw.choice([0, 0, 1, -1, 3, HALF - 1, 1 - HALF]))
    # the limit: widths below it, at it, and above
    for height in (0, 3):
        for limit in (-2, 0, 7, HALF - 1, 1 - HALF):
            boxed(height)
            for about in (-1, 0, 1):
                append(12 - height - limit - about, limit=limit)
    # no glue at all from -1000pt down
    for base in (0, 12, HALF - 1, 1 - HALF):
        for prev in (edge + 1, edge, edge - 1, 2 * edge, -2 ** 31, 1 - HALF, -HALF, edge + 2):
            boxed(4, 1)
            append(prev, (base, 1, 2, 3, 1), (-7, 1, 1, 2, 2), 1 - HALF)
    # a glue of 2^30, and of one less; below the limit another one is taken, however large
    for height in (0, 1, 2, HALF - 1, HALF - 2):
        for prev in (-2, -1, 0, 1, 2, 3 - HALF, 2 - HALF, 1 - HALF, edge + 1, 2 ** 31 - 1):
            for base in (HALF - 1, draw.choice([HALF - 2, 1 - HALF, 0])):
                boxed(height)
                append(prev, (base, HALF - 1, 3, -9, 2), (HALF - 1, 8, 0, 1 - HALF, 1),
                       draw.choice([0, 0, HALF - 1, 1 - HALF]))
    # a height below 0
    for height in (-1, -2, 1 - HALF, 2 - HALF):
        for base in (HALF - 1, HALF - 2, 1, 0):
            for prev in (0, -1, 1):
                say('clear')
                say('note')
                say('vpack', 0, 'to', height)
                append(prev, (base, 0, 0, 0, 0), NONE, draw.choice([0, 1 - HALF]))
                say('show') if base > 5 else None
    # some in a row, each after the depth of the one before
    for _ in range(30):
        say('clear')
        prev = edge
        for _ in range(draw.randrange(2, 5)):
            height, depth = draw.randrange(0, 14), draw.randrange(0, 4)
            say('rule', 5, height, depth)
            say('hpack', 1, 'natural', 0)
            append(prev, (12, 1, 0, 0, 0), (1, 0, 0, 0, 0), draw.choice([0, 0, 2, -2]))
            prev = depth


def main():
    row_of_ties()
    row_of_one_long_word()
    corners()
    thresholds()
    classes()
    infinite()
    too_large()
    nests()
    ties()
    double_hyphens()
    drawn()
    appends()
    eighty_words()
    too_many_items()
    many_boxes()


if __name__ == '__main__':
    sys.setrecursionlimit(10000)
    boxes_and_glue() if sys.argv[1:] == ['long'] else main()
