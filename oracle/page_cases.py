#!/usr/bin/env python3
"""Makes the commands about pages of lb_tests_pages. They are the same each time. Each command is run here too, by paper.py
and paper_pages.py, since a page can be shipped only where one waits."""
import random
import sys

from paper import Desk
from paper_pages import NINE_POINTS, Pages

draw = random.Random(19)
HALF = 2 ** 30
STYLES = ['empty', 'plain', 'headings', 'myheadings']
MARKS = ['none', 'left', 'right', 'both']
desk = type('Whole', (Pages, Desk), {})('.')


def say(*words):
    print(*words)
    return desk.run(*map(str, words))


def rules(textheight, topskip=(0, 0, 0, 0, 0), maxdepth=0):
    say('pagerules', textheight, *topskip, maxdepth)


def fresh():
    say('emptypage')
    say('clear') if desk.list else None


def waiting():
    return len(desk.page_parts)


def give_all(command='page'):
    return say(command, len(desk.list))


# ---- drawn nodes; each of these pushes one node

def length(scale, negative=0.12):
    size = draw.choice([0, scale // 2, scale, draw.randrange(scale + 1), draw.randrange(scale + 1), draw.randrange(scale + 1)])
    return -size if draw.random() < negative else size


def one_of(scale, rare, often=0.85):
    return rare if draw.random() > often else length(scale)


def a_rule(scale):
    say('rule', one_of(scale, 'x'), one_of(scale, 'x', 0.93), one_of(scale // 3 + 1, 'x', 0.93))


def a_box(scale):
    way = draw.randrange(6)
    if way == 0:
        say('vpack', 0, 'to', length(scale))
    elif way < 4:
        a_rule(scale)
        say('hpack' if way < 3 else 'vpack', 1, 'natural', 0)
    elif way == 4:
        a_rule(scale)
        say('hpack', 1, 'natural', 0)
        say('lower', length(scale, 0.4))
        say('hpack', 1, 'natural', 0)
    else:
        a_rule(scale)
        a_glue(scale)
        a_rule(scale)
        say('vpack', 3, draw.choice(['to', 'spread']), length(scale))
    if draw.random() < 0.25:
        say('lower', length(scale, 0.4))


def a_glue(scale):
    width, stretch, shrink = length(scale // 2 + 1), one_of(scale, 0, 0.6), one_of(scale // 2 + 1, 0, 0.6)
    orders = draw.choice([[0], [0], [0], [0, 1], [0, 1, 2, 3]])
    say('glue', width, stretch, draw.choice(orders), shrink, draw.choice(orders))


def a_penalty(_):
    say('penalty', draw.choice([-10000, -10000, -10001, -9999, -5000, -300, -100, -1, 0, 0, 0, 50, 100, 150, 5000, 9999, 10000,
                                10000, 10001, draw.randrange(-200, 201), draw.choice([-2 ** 31 + 1, 2 ** 31 - 1])]))


def a_char(scale):
    say('char', draw.randrange(33, 127), length(scale), length(scale), length(scale // 3 + 1))


def an_ins(scale):
    a_box(scale)
    say('ins')


def a_mark(scale):
    say('hpack', 0, 'to', length(scale))
    if draw.random() < 0.6:
        say('hpack', 0, 'to', length(scale))
        say('both')
    else:
        say('right')


def boxed_mark(scale):
    a_rule(scale)
    a_mark(scale)
    a_mark(scale) if draw.random() < 0.4 else say('note')
    say(draw.choice(['hpack', 'vpack']), 3, 'natural', 0)
    if draw.random() < 0.3:
        say('note')
        say('vpack', 2, 'natural', 0)


def an_adjust(scale):
    draw.choice([a_rule, a_glue, a_mark, an_ins])(scale)
    say('note')
    say('adjust', 2)


def a_disc(scale):
    draw.choice([a_rule, a_mark])(scale)
    say('disc', *draw.choice([(0, 0, 1), (1, 0, 0)]))


KINDS = {'rule': a_rule, 'box': a_box, 'glue': a_glue, 'kern': lambda scale: say('kern', length(scale // 2 + 1, 0.3)),
         'penalty': a_penalty, 'note': lambda _: say('note'), 'mark': a_mark, 'boxed': boxed_mark, 'ins': an_ins,
         'fontkern': lambda scale: say('fontkern', length(scale // 2 + 1, 0.3)), 'char': a_char, 'adjust': an_adjust, 'disc': a_disc}
COMMON = {'rule': 6, 'box': 3, 'glue': 8, 'kern': 3, 'penalty': 4, 'note': 1, 'mark': 1, 'boxed': 0.3, 'ins': 0, 'fontkern': 0.6,
          'char': 0.4, 'adjust': 0.3, 'disc': 0.15}


def drawn_list(scale, **others):
    weights = {**COMMON, **others}
    for kind in draw.choices(list(weights), list(weights.values()), k=draw.randrange(2, 17)):
        KINDS[kind](scale)
        if kind == 'kern' and draw.random() < 0.5:
            a_glue(scale)


def drawn_rules(scale, more=0):
    textheight = draw.choice([1, 2, 2, 3, 4, 6]) * scale + draw.randrange(scale) + more
    if draw.random() < 0.05:
        textheight = draw.choice([0, -scale])
    skip = [draw.choice([0, scale // 2, scale]), 0, 0, 0, 0]
    if draw.random() < 0.4:
        skip[1:3] = [length(scale), draw.choice([0, 0, 0, 1, 2, 3])]
    if draw.random() < 0.3:
        skip[3:5] = [length(scale), draw.choice([0, 0, 0, 1, 2, 3])]
    rules(textheight, skip, draw.choice([0, scale // 8, scale // 8, scale, -scale // 8]))


# ---- shipping

def ship(number=1, style='plain', lengths=(99, 100, 12, 18, 25, 0, 3, 4), digits=None, marks='none'):
    """Pushes the marks and the nodes of the number, and ships the first part that waits."""
    for name, size in (('left', 31), ('right', 37)):
        if marks in (name, 'both'):
            say('rule', 1, size, 2)
            say('hpack', 1, 'to', size)
    if digits is None:
        digits = [('char', 48 + abs(number) % 10, 5, 7, 1)]
    for digit in digits:
        say(*digit)
    return say('ship', number, style, *lengths, len(digits), marks)


def drawn_ship(scale):
    lengths = [length(scale) for _ in range(8)]
    digits = [('char', 49, 5, 7, 1)] * draw.randrange(3)
    if draw.random() < 0.1:
        digits = [('note',), ('fontkern', 2), ('rule', 'x', 3, 'x')]
    ship(draw.choice([1, 2, 3, 10, 0, -1, -2, draw.randrange(65536)]), draw.choice(STYLES), lengths, digits, draw.choice(MARKS))


def ship_some(scale, most):
    for _ in range(min(most, waiting())):
        say('pagemarks') if draw.random() < 0.35 else None
        drawn_ship(scale)


# ---- cases

def worked():
    """Two places of equal least cost before an awful one, and the goal of a page with one footnote."""
    fresh()
    say('rule', 5, 655360, 0)
    say('rule', 1, 524288, 131072)
    say('vpack', 1, 'natural', 0)
    say('ins')
    say('penalty', -10000)
    give_all()
    ship(1, 'plain', (22609920, 35258368, 786432, 1179648, 1638400, 0, 3, 4))
    # at 100000 each, at 0 each by infinite stretch, at 100 each, and at 100 by a penalty
    for stretch, penalties in (((0, 0), (0, 0)), ((1, 1), (0, 0)), ((1, 1), (50, 50)), ((60, 0), (0, 100)), ((60, 0), (0, 101)),
                               ((60, 0), (0, 99)), ((1, 1), (50, 51)), ((1, 1), (51, 50))):
        for last in (40, 41):
            fresh()
            rules(100, (0, *stretch, 0, 0))
            say('rule', 5, 40, 0)
            say('penalty', penalties[0])
            say('rule', 5, 60 if stretch == (60, 0) else 30, 0)
            say('penalty', penalties[1])
            say('rule', 5, last, 0)
            say('penalty', 0)
            say('rule', 5, 60, 0)
            say('glue', 0, 0, 0, 0, 0)
            give_all()
            say('flush')
            ship()


def awful():
    """First places that are overfull, alone and behind others, forced ones too."""
    for penalty in (-10001, -10000, -9999, 0, 9999):
        for before in ((), (('penalty', 9999),), (('glue', 0, 0, 0, 0, 0),), (('penalty', 10000),), (('kern', 0), ('glue', 0, 0, 0, 0, 0))):
            for high in (99, 100, 101):
                fresh()
                rules(100)
                say('rule', 5, 50, 0)
                for node in before:
                    say(*node)
                say('rule', 5, high - 50, 0)
                say('penalty', penalty)
                say('note')
                give_all('give')
                say('ask')
                say('ask')
        say('flush')
    # exactly as much shrink as is needed, and one less and more; of each order, and below nothing
    for order in range(4):
        for amount in (0, 1, 7, -1, -7):
            for more in (-1, 0, 1):
                fresh()
                rules(100, (10, 0, 0, amount, order))
                say('rule', 5, 97 + amount + more, 3)
                say('penalty', 77)
                say('penalty', draw.choice([-10000, 0]))
                give_all('give')
                say('ask')
                say('flush') if more == 0 else None
    # shrink of two orders, which cancel or add up
    for one, other in ((5, -5), (5, 5), (-5, 6), (7, -6)):
        for high in (99, 100, 101, 102, 110, 111):
            fresh()
            rules(100, (0, 0, 0, one, 0))
            say('rule', 1, high, 0)
            say('glue', 0, 0, 0, other, draw.choice([0, 1, 2, 3]))
            say('penalty', 3)
            give_all('give')
            say('ask')


def badnesses():
    """Costs next to one another: two places, of which the better one shows the badness of the other."""
    for give, total in ((1290, 297), (1291, 297), (1000, 297), (297, 297), (298, 297), (60, 297), (7230585, 1663496), (7230585, 1663497),
                        (7230584, 1663496), (9000000, 2100000), (50, -7), (50, 0), (0, 0), (0, -3)):
        for known in (0, 1, 100, 8188, 8189, 8190, 9999):
            fresh()
            rules(give + 10, (0, total, 0, 0, 0))
            say('rule', 1, 10, 0)
            say('penalty', 0)
            say('note')
            say('glue', give, 0, 0, 0, 0)
            say('glue', 0, 0, 0, 0, 0)
            say('penalty', known)
            say('penalty', -1000000) if known == 1 else None
            say('kern', 1)
            say('penalty', 0)
            give_all('give')
            for _ in range(2):
                say('ask')


def infinite():
    """Stretch of the infinite orders that is there, is not, cancels or is below nothing; and shrink that counts as finite."""
    for order in (1, 2, 3):
        for amounts in ((1,), (-1,), (5, -5), (5, -4), (0,)):
            for other in (0, 40, -40):
                fresh()
                rules(100, (0, other, 0, 0, 0))
                say('rule', 1, 10, 4)
                say('penalty', 0 if other else 9000)
                for amount in amounts:
                    say('glue', 0, amount, order, 0, 0)
                say('note')
                say('penalty', 60)
                say('rule', 1, 100, 0)
                say('penalty', 0)
                give_all()
                say('flush')
                ship(draw.randrange(4), draw.choice(STYLES))


def forced_costs():
    """A forced place costs its penalty, whatever its badness; and infinite stretch of two orders does not cancel."""
    for stretch in ((0, 0), (60, 0), (1, 1)):
        for first in (-9999, -9990, -9900, 0, 10000):
            for last in (-10000, -10001, -9999):
                for amount in (0, -1000, 50, 51):
                    fresh()
                    rules(100, (0, *stretch, 0, 0))
                    say('rule', 1, 50, 0)
                    say('penalty', first)
                    say('kern', amount)
                    say('penalty', last)
                    give_all('give')
                    say('ask')
    for one, other in ((1, 2), (2, 3), (1, 3), (0, 1)):
        for amounts in ((5, -5), (-5, 5), (7, -5)):
            fresh()
            rules(100, (0, amounts[0], one, 0, 0))
            say('rule', 1, 10, 4)
            say('penalty', 9000)
            say('glue', 0, amounts[1], other, 0, 0)
            say('note')
            say('penalty', 60)
            say('rule', 1, 100, 0)
            say('penalty', 0)
            give_all()
            say('flush')
            ship(draw.randrange(4), draw.choice(STYLES))


def after_faults():
    """What stays on the page where a command meets a fault."""
    for before in (0, 1, 2):
        for command in ('page', 'flush'):
            fresh()
            rules(100, (HALF, 0, 0, 0, 0))
            for k in range(before):
                say('fontkern', k)
                say('penalty', -10000)
            say('note')
            say('rule', 1, 20, 3)
            say('fontkern', 77)
            say('penalty', 0)
            give_all(command) if command == 'page' else give_all('give')
            say('flush') if command == 'flush' else None
            say('ask')
            rules(100, (HALF, 0, 0, 0, 0), HALF)
            say('ask')
            rules(100, (HALF + 19, 1, 1, 0, 0))
            say('flush')
            rules(100)
            say('ask')
            say('flush')
            while waiting():
                say('pagemarks')
                ship()


def ties():
    for _ in range(90):
        fresh()
        high = draw.choice([10, 20])
        rules(draw.choice([60, 85, 100, 145]), (0, draw.choice([1, 0]), 1, 0, 0), draw.choice([0, 0, 5]))
        few = draw.choice([[0, 0, 100], [50, 50], [-20, 10000, -20, 0], [0], [9999, -9999], [100, 0, -10000]])
        for _ in range(draw.randrange(4, 9)):
            say('rule', 1, high, draw.choice([0, 0, 3]))
            kind = draw.randrange(4)
            if kind < 3:
                say('penalty', draw.choice(few))
            if kind == 2:
                say('kern', 0)
            if kind > 1:
                say('glue', 0, draw.choice([0, 0, high]), 0, 0, 0)
        give_all()
        say('flush')
        say('emptypage')


def discardable_tops():
    """What stands at a page's top, and kerns beside glue."""
    tops = [('glue', 3, 0, 0, 0, 0), ('kern', 4), ('penalty', -10000), ('penalty', 0), ('note',), ('fontkern', 5)]
    for one in tops:
        for other in tops:
            for last in (('rule', 2, 30, 7), ('note',)):
                fresh()
                rules(draw.choice([60, 40]), (20, 0, 0, 0, 0), 5)
                for node in (one, other, last, ('kern', 1), ('glue', 2, 0, 0, 0, 0), ('glue', 9, 0, 0, 0, 0)):
                    say(*node)
                say('page', 6)
                say('flush') if draw.random() < 0.7 else say('ask')
    # topskip and the height of the first box or rule, and maxdepth and the depth of the last
    for high in (-5, 0, 9, 10, 11, 'x'):
        for deep in (-5, 0, 4, 5, 6, 'x'):
            for behind in ((), ('glue', 3, 1, 1, 0, 0), ('char', 65, 1, 2, 3), ('note',), ('kern', 2)):
                if behind and draw.random() < 0.5:
                    continue
                fresh()
                rules(30, (10, 1, 0, 2, 1), draw.choice([5, 5, 0, -3]))
                say('note') if draw.random() < 0.3 else None
                say('rule', 1, high, deep)
                say(*behind) if behind else None
                say('penalty', -10000)
                give_all('give')
                say('ask')
                ship(draw.randrange(1, 3), draw.choice(STYLES))


def alone():
    """Pages without a box or rule: of notes, marks, footnotes, characters, material; and empty ones."""
    makers = [lambda: say('note'), lambda: a_mark(9), lambda: an_ins(9), lambda: a_char(9), lambda: an_adjust(9), lambda: a_disc(9),
              lambda: say('fontkern', 3)]
    for one in makers:
        for other in makers:
            fresh()
            rules(draw.choice([100, 10, NINE_POINTS + 50]), (10, 2, 1, 0, 0), 5)
            one()
            say('glue', 2, 3, 0, 0, 0) if draw.random() < 0.5 else None
            other()
            say('penalty', -10000) if draw.random() < 0.5 else None
            give_all(draw.choice(['page', 'give']))
            say('flush')
            say('pagemarks')
            ship(draw.randrange(1, 3), draw.choice(STYLES), marks=draw.choice(MARKS))


def flushes():
    """A flush in every state."""
    ends = [(), (('kern', 3),), (('glue', 1, 0, 0, 0, 0),), (('penalty', -10000),), (('penalty', 10000),), (('kern', 3), ('penalty', 0)),
            (('glue', 1, 0, 0, 0, 0), ('kern', 2))]
    for start in ((), (('rule', 1, 30, 4),), (('note',),), (('rule', 1, 30, 4), ('glue', 1, 0, 0, 0, 0), ('rule', 1, 90, 3))):
        for end in ends:
            for command in ('page', 'give'):
                for textheight in (100, 20):
                    fresh()
                    rules(textheight, (10, 0, 0, 0, 0), 2)
                    for node in start + end:
                        say(*node)
                    give_all(command) if start + end else None
                    say('flush')
                    say('flush') if draw.random() < 0.3 else None
                    say('ask') if draw.random() < 0.2 else None
    for _ in range(30):
        fresh()
        drawn_rules(30)
        for _ in range(draw.randrange(3)):
            drawn_list(30)
            say(draw.choice(['page', 'give', 'give']), draw.randrange(1, len(desk.list) + 1))
        say('flush')
        say('flush')


def styles():
    """Each style on odd and even numbers, with and without marks and footnotes."""
    for style in STYLES:
        for number in (1, 2, 0, -1, -2):
            for marks in MARKS if number in (1, 2) else ['both']:
                for feet in (0, 1, 2) if marks in ('none', 'both') else (0,):
                    fresh()
                    rules(700000 if feet else 100, (10, 0, 0, 0, 0), 2)
                    say('rule', 50, 20, 6)
                    for k in range(feet):
                        say('vpack', 0, 'to', 11 + k)
                        say('lower', 3)
                        say('ins')
                    say('penalty', -10000)
                    give_all()
                    ship(number, style, marks=marks)
    # numbers without nodes, marks of odd heights, texts that do not fit
    for style in STYLES:
        for number in (1, 2):
            for wide in (0, 99, -7):
                fresh()
                rules(100)
                say('note')
                say('penalty', -10000)
                give_all()
                say('rule', 40, wide, -3)
                say('hpack', 1, 'natural', 0)
                say('lower', -6)
                say('rule', 10, 3, 'x')
                say('hpack', 1, 'natural', 0)
                say('char', 50, 5, 7, 1)
                say('glue', 3, 0, 0, 2, 0)
                say('char', 49, 5, 8, 2)
                say('ship', number, style, wide, 100, 12, 18, 25, 7, 3, 4, 3, 'both')


def page_marks():
    """Marks on the page, in its boxes, and where they do not count."""
    for _ in range(60):
        fresh()
        rules(draw.choice([200, 60]), (10, 0, 0, 0, 0), 2)
        for _ in range(draw.randrange(1, 5)):
            way = draw.randrange(9)
            if way < 2:
                a_mark(9)
            elif way == 8:
                a_mark(9)
                say('note')
                say('vpack', 2, 'natural', 0)
                say(draw.choice(['ins', 'right']))
                say('rule', 1, 2, 3)
                say('vpack', 2, 'natural', 0)
            elif way < 4:
                boxed_mark(9)
            elif way == 4:
                boxed_mark(9)
                say('ins')
            elif way == 5:
                a_mark(9)
                say('adjust', 1)
            elif way == 6:
                boxed_mark(9)
                say('right')
            else:
                a_mark(9)
                a_mark(9)
                say('disc', *draw.choice([(1, 0, 1), (0, 1, 1), (0, 0, 2)]))
            say('penalty', draw.choice([0, 0, 50, -10000])) if draw.random() < 0.5 else None
        give_all()
        say('flush')
        while waiting():
            say('pagemarks')
            if draw.random() < 0.2:
                say('pagemarks')
            ship(1, 'empty')


def sums_of_pages():
    """Sums of 2^30 - 1, 2^30 and more, of each kind, and where they stand."""
    rule = ('rule', 0, 0, 0)
    for sign in (1, -1):
        for more in (-1, 0, 1):
            size = sign * (HALF + more)
            big = [('kern', size), ('fontkern', size), ('rule', size, 0, 0), ('rule', 0, size, 0), ('rule', 0, 0, size),
                   ('char', 65, size, 0, 0), ('char', 65, 0, size, 0), ('char', 65, 0, 0, size), ('glue', size, 0, 0, 0, 0)]
            big += [('glue', 0, size, order, 0, 0) for order in range(4)] + [('glue', 0, 0, 0, size, order) for order in range(4)]
            for node in big:
                fresh()
                rules(100, maxdepth=draw.choice([0, 5, 9]))
                say(*rule)
                say(*node)
                say('page', 2)
                say('flush') if draw.random() < 0.5 else say('ask')
            # at the top, at the place that ends, behind it, and behind one more page
            for node in (('kern', size), ('glue', size, 0, 0, 0, 0), ('glue', 0, size, 2, 0, 0), ('rule', 0, size, 0)):
                for before in ((), (('rule', 0, 101, 0),), (rule, ('penalty', -10000)), (rule, ('penalty', -10000), rule)):
                    fresh()
                    rules(100)
                    for one in (*before, node, rule):
                        say(*one)
                    give_all('give')
                    for _ in range(len(before)):
                        say('ask')
                    say(draw.choice(['ask', 'flush']))
            # the depth that is left out
            for deepest in (0, 2 ** 31 - 1, HALF - 1, HALF, -HALF, 1 - HALF):
                fresh()
                rules(100, maxdepth=deepest)
                say('rule', 0, 0, size)
                say('page', 1)
                say('flush')
            fresh()
            rules(100, maxdepth=size)
            say('rule', 0, 0, draw.choice([0, HALF - 1, HALF]))
            say('page', 1)
            # the glue of topskip
            for k in range(3):
                fresh()
                skip = [0, 0, 0, 0, 0]
                skip[(0, 1, 3)[k]] = size
                skip[2:5:2] = [draw.randrange(4), draw.randrange(4)]
                rules(100, skip)
                say('note')
                say('kern', -50)
                say('rule', 0, 50, 0)
                say('page', 2)
                say('page', 1) if desk.list else None
                rules(100)
                say('ask')
            # two that make it, and a sum that comes back
            for one, other in ((size // 2, size - size // 2), (size, -size), (-5, size + 5), (-5, size)):
                for kind in range(4):
                    fresh()
                    rules(HALF - 1 if sign > 0 else 100)
                    say('rule', 0, 3, 0)
                    for amount in (one, other):
                        if kind == 0:
                            say('kern', amount)
                        elif kind == 1:
                            say('rule', 0, amount, 0)
                        elif kind == 2:
                            say('glue', 0, amount, 1, 0, 0)
                        else:
                            say('glue', 0, 0, 0, amount, 3)
                    say('page', 3)
                    say('flush') if kind > 1 else None
            # shrink of two orders is not one sum; nor is stretch
            fresh()
            say(*rule)
            say('glue', 0, size // 2, 0, size // 2, 2)
            say('glue', 0, size - size // 2, 1, size - size // 2, 3)
            say('page', 3)
            # footnotes, alone and together
            for one, other in ((size // 2, size - size // 2), (sign * (HALF - 1), sign * (1 + more)), (sign * (HALF - 1), -sign * 7)):
                for places in ((), (('penalty', 0),)):
                    fresh()
                    rules(draw.choice([100, HALF - 1]))
                    say('rule', 1, 2, 1)
                    for amount in (one, other):
                        if draw.random() < 0.5:
                            say('vpack', 0, 'to', amount)
                        else:
                            say('rule', 0, 0, amount)
                            say('vpack', 1, 'natural', 0)
                        say('ins')
                        for place in places:
                            say(*place)
                    give_all('give')
                    say('ask')
                    say('flush')
            # the reach of a box to the right
            for wide in (3, -3):
                fresh()
                rules(100)
                say('hpack', 0, 'to', wide)
                say('lower', size - wide)
                say('page', 1)
                say('flush')
                if waiting():
                    ship()
    # the glue that a flush adds
    for amount in (HALF - 65537, HALF - 65536, HALF - 65535):
        for order in (0, 1, 2):
            fresh()
            rules(100)
            say(*rule)
            say('glue', 0, amount, order, 0, 0)
            say('page', 2)
            say('flush')
            # what was given stays where it was
            say('ask')
            say('rule', 0, 101, 0)
            say('penalty', 0)
            say('page', 2)
            say('flush')
    # a later page of a flush is too large
    for amount in (HALF - 1, HALF):
        for textheight in (100, 50):
            fresh()
            rules(textheight)
            for high in (40, 60):
                say('rule', 0, high, 0)
                say('penalty', 0)
            say('rule', amount, 40, 0)
            give_all('give')
            say('flush')
            rules(1000)
            say('flush')
            rules(10)
            say('ask')
            say('flush')


def running():
    """Lists of lengths of which one running sum is of a size and the others are small."""
    for sign in (1, -1):
        for more in (-1, 0, 1):
            size = sign * (HALF + more)
            for k in range(1, 7):
                yield k, size


def sums_of_boxes():
    """Sums of a page's box, each at 2^30 and beside it."""
    for feet in (0, 1, 2):
        for k, size in running():
            # topmargin, headheight, headsep, goal, footnotes, footskip
            lengths = [0] * 7
            fixed = NINE_POINTS if feet and k > 4 else 0
            lengths[k - 1:k + 1] = [size // 2 - fixed, size - size // 2] if k < 6 else [size - size // 2, 0]
            if k == 6:
                lengths[4 if feet else 3] = size // 2 - fixed
            if feet == 0 and (k == 4 or k == 5):
                lengths[3:6] = [size // 2, 0, size - size // 2]
            if k < 5:
                lengths[k + 1] -= size // 2
            if feet and lengths[4] and abs(lengths[4]) >= HALF - 9:
                continue
            top, head, sep, goal, foot, footskip, _ = lengths
            fresh()
            textheight = goal + (NINE_POINTS + foot if feet else 0)
            if abs(textheight) >= 2 ** 31 - 9 or max(map(abs, lengths)) >= HALF:
                continue
            rules(textheight)
            say('note')
            for part in ([foot] if feet == 1 else [foot // 2, foot - foot // 2] if feet else []):
                say('vpack', 0, 'to', part)
                say('ins')
            say('penalty', -10000)
            give_all()
            if waiting():
                ship(1, draw.choice(STYLES), (99, -head - sep - footskip, head, sep, footskip, top, 3, 4))
    # the top margin alone
    for top in (HALF - 1, HALF, 1 - HALF, -HALF):
        fresh()
        rules(0)
        say('note')
        say('penalty', -10000)
        give_all()
        ship(1, draw.choice(STYLES), (99, 0, 9 if top < 0 else -9, 0, 0, top, 3, 4))
    # the height of the page
    for sign in (1, -1):
        for more in (-1, 0, 1):
            size = sign * (HALF + more)
            for style in STYLES:
                fresh()
                rules(0)
                say('note')
                say('penalty', -10000)
                give_all()
                ship(2, style, (99, size // 2, 0, 0, size - size // 2, 0, 3, 4))
    # the packings: of the number, of a mark, of the width, of what is moved
    for style in STYLES:
        for number in (1, 2):
            for size in (HALF - 1, HALF):
                for way in range(5):
                    fresh()
                    rules(100)
                    say('note')
                    say('penalty', -10000)
                    give_all()
                    if way == 0:
                        ship(number, style, (99, 100, 1, 2, 3, 0, 3, 4), [('kern', size)])
                    elif way == 1:
                        ship(number, style, (0, 100, 1, 2, 3, 0, 3, 4), [('rule', 1, 2, size), ('glue', 0, -size, 3, 0, 0)])
                    elif way == 2 and size < HALF:
                        ship(number, style, (size, 100, 1, 2, 3, 0, size, -size), [('rule', 0, size, 0), ('glue', 0, size, 0, 0, 1)])
                    elif way == 3:
                        ship(number, style, (99, 100, 1, 2, 3, 0, 3, 4), [('glue', 0, size - 65536 * number, 1, 0, 0)])
                    elif way == 4:
                        say('hpack', 0, 'to', 50)
                        say('hpack', 0, 'to', HALF - 1)
                        say('kern', size - HALF + 1)
                        say('ship', number, style, 99, 100, 1, 2, 3, 0, 3, 4, 1, draw.choice(['both', 'left', 'right']))
    # the body: its size, its excess, and what its glue is moved by
    for textheight, foot in ((HALF - 1, 0), (1 - HALF, 0), (1 - HALF, 1 - NINE_POINTS), (1 - HALF, -NINE_POINTS), (0, HALF - 1)):
        for high in (0, -7, 7):
            fresh()
            rules(textheight)
            say('rule', 1, high, 0)
            if foot:
                say('vpack', 0, 'to', foot)
                say('ins')
            say('penalty', -10000)
            give_all()
            ship(1, draw.choice(STYLES), (99, 0, 1, 2, 3, 0, 3, 4)) if waiting() else None
    for amount in (2 ** 20, -2 ** 20):
        for textheight in (1022, 1023, 1024, 1025, -1023, -1024, -1025):
            fresh()
            rules(textheight)
            say('note')
            say('glue', 0, amount, 0, amount, 0)
            say('glue', 0, 1 - amount, 0, 2 ** 21 - amount, 0)
            say('penalty', -10000)
            give_all()
            say('flush') if not waiting() else None
            ship(1, draw.choice(STYLES)) if waiting() else None


def depths():
    """Boxes inside one another, to just within the limit of a page's box and past it."""
    fresh()
    rules(100)
    say('hpack', 0, 'natural', 0)
    for _ in range(497):
        say('hpack', 1, 'natural', 0)
    say('many', 10)

    def page(*makers):
        for maker in makers:
            say(*maker)
        say('penalty', -10000)
        say('page', 2)

    def small_page():
        say('note')
        say('penalty', -10000)
        say('page', 2)

    deeper = ('hpack', 1, 'natural', 0)
    page()                                   # 498 deep in the body
    ship()
    page(deeper)                             # 499
    ship()
    rules(NINE_POINTS)
    page(deeper, ('ins',))                   # a footnote, 499
    ship(1, 'empty')
    page(deeper, deeper, ('ins',))           # 500
    ship()
    page(deeper, ('right',))                 # a mark on the page
    ship(1, 'empty')
    page(deeper, ('adjust', 1))
    ship(1, 'empty', (99, HALF - 1, HALF - 1, 1, 0, 0, 3, 4))
    # the mark of a head and the nodes of a number
    for number, style in ((2, 'headings'), (1, 'plain'), (1, 'headings'), (1, 'myheadings')):
        small_page()
        say(*deeper) if style == 'headings' and number == 1 else None
        say('ship', number, style, 99, 100, 12, 18, 25, 0, 3, 4, 0, 'right')
    small_page()
    say(*deeper)
    say('ship', 1, 'plain', 99, 100, 12, 18, 25, 0, 3, 4, 1, 'none')
    fresh()


def drawn():
    """Drawn lists, pages and boxes."""
    for turn in range(200):
        fresh()
        feet = turn % 4 == 0
        scale = 600000 if feet else draw.choice([40, 40, 90])
        drawn_rules(scale, NINE_POINTS if feet else 0)
        drawn_list(scale, **({'ins': 4} if feet else {}))
        if turn % 9 == 0:
            a_penalty(0)
        while desk.list:
            count = draw.randrange(1, len(desk.list) + 1) if draw.random() < 0.3 else len(desk.list)
            say(draw.choice(['page', 'page', 'page', 'give']), count)
        say('flush') if draw.random() < 0.8 else None
        ship_some(scale, 3)


def asked():
    """Pages that are asked for under other rules each time."""
    for turn in range(132):
        fresh()
        feet = turn % 4 == 0
        scale = 600000 if feet else draw.choice([40, 40, 90])
        drawn_list(scale, penalty=6 if turn % 3 else 1, **({'ins': 3} if feet else {}))
        give_all('give')
        heights = sorted((draw.randrange(8 * scale) for _ in range(draw.randrange(2, 6))), reverse=draw.random() < 0.7)
        for textheight in heights:
            stretch = draw.choice([(0, 0), (0, 0), (length(scale), 0), (1, 1)])
            shrink = draw.choice([(0, 0), (0, 0), (length(scale), draw.randrange(4))])
            rules(textheight + (NINE_POINTS if feet else 0), (draw.choice([0, 0, scale // 2, length(scale)]), *stretch, *shrink),
                  draw.choice([0, scale // 8, scale]))
            say('ask')
            say('ask') if draw.random() < 0.4 else None
        if draw.random() < 0.3:
            drawn_list(scale)
            give_all(draw.choice(['give', 'page']))
        say('flush') if draw.random() < 0.6 else None
        ship_some(scale, 1)


def main():
    sys.setrecursionlimit(10000)
    worked()
    awful()
    badnesses()
    infinite()
    forced_costs()
    ties()
    discardable_tops()
    alone()
    flushes()
    after_faults()
    styles()
    page_marks()
    sums_of_pages()
    sums_of_boxes()
    depths()
    drawn()
    asked()


main()
