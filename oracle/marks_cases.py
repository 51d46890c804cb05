#!/usr/bin/env python3
"""Makes the commands about marks and DVI bytes of lb_tests_paper. They are the same each time. Each command is run here too,
by paper.py and paper_marks.py, since a page can be asked for only where the last node of the list is a box.

The parts that are named as words are printed: `drawn` where none is; `fonts`, which needs the commands `font` and `lig` of
paper_marks.py; `bytes`, which writes 2^30 bytes."""
import random
import sys

from paper import Desk
from paper_marks import BOXES, Marks, Page, marks, page_bytes

POINT = 65536
FAR = 2 ** 30 - 1
desk = type('Whole', (Marks, Desk), {})('.')
draw = random.Random(20)
fonts_too = False


def say(*words):
    print(*words)
    return desk.run(*map(str, words))


def stands():
    """Whether the last node is a box."""
    return bool(desk.list) and desk.list[-1].kind in BOXES


def ask(*more):
    """Asks for the marks of the box, and more."""
    say('marks')
    for words in more:
        say(*words.split())


def ask_all():
    ask(f'code {a_number()}', f'page {a_number()}', 'finish')


def a_number():
    """A page's number."""
    return draw.choice([1, 1, 2, 0, -1, draw.randrange(1, 1000), draw.randrange(-2 ** 31 + 1, 2 ** 31), 2 ** 31 - 1, 65536, -17])


# ---- drawn boxes

def length(scale, negative=0.15):
    size = draw.choice([0, scale, draw.randrange(scale + 1), draw.randrange(scale + 1), draw.randrange(scale + 1), scale // 2])
    return -size if draw.random() < negative else size


def a_char(scale):
    code = draw.choice([draw.randrange(33, 127), draw.randrange(33, 127), draw.randrange(256), 127, 128, 0, 255])
    name = 'lig' if fonts_too and draw.random() < 0.3 else 'char'
    say(name, code, length(scale), length(scale), length(scale // 3 + 1))


def a_rule(scale):
    say('rule', *('x' if draw.random() < 0.25 else length(scale) for _ in range(3)))


def a_glue(scale):
    order = draw.choice([0, 0, 1, 2, 3])
    say('glue', length(scale), length(scale), draw.choice([0, order]), length(scale), draw.choice([0, order]))


def a_disc(scale):
    """A discretionary whose third part holds what makes marks, and others with a discretionary in it."""
    way = draw.randrange(4)
    if way == 0:
        a_char(scale)
        a_char(scale)
        say('disc', 1, 0, 1)
    elif way == 1:
        for push in (a_rule, a_char, a_glue):
            push(scale)
        say('disc', 0, 1, 2)
    elif way == 2:
        a_char(scale)
        say('disc', 1, 0, 0)
    else:
        a_char(scale)
        say('disc', 0, 0, 1)
        a_char(scale)
        say('disc', 0, 0, 2)


def an_adjust(scale):
    a_char(scale)
    a_rule(scale)
    say('adjust', 2)


def inner_box(scale):
    """A box with one rule or character, for notes of all kinds."""
    draw.choice([a_rule, a_char])(scale)
    say(draw.choice(['hpack', 'vpack']), 1, 'natural', 0)
    return stands()


def an_ins(scale):
    if inner_box(scale):
        say('ins')
        return True
    return False


def a_mark(scale):
    if draw.random() < 0.7:
        if inner_box(scale):
            say('right')
            return True
    else:
        say('hpack', 0, 'natural', 0)
        if inner_box(scale):
            say('both')
            return True
        say('right')
        return True
    return False


def a_target(scale):
    return draw.choice([('natural', 0), ('natural', 0), ('to', length(3 * scale)), ('spread', length(scale)), ('spread', -length(scale)),
                        ('spread', length(scale)), ('spread', -length(scale)), ('to', 0)])


PUSHES = {'char': 7, 'rule': 4, 'glue': 6, 'kern': 2, 'fontkern': 1, 'box': 4, 'disc': 0.8, 'adjust': 0.3, 'ins': 0.3, 'mark': 0.3,
          'penalty': 0.4, 'note': 0.4}


def a_box(scale, deep):
    """Pushes a box, and says whether it stands."""
    count = 0
    for _ in range(draw.choice([0, 1, 2, 2, 3, 3, 4, 5])):
        kind = draw.choices(list(PUSHES), list(PUSHES.values()))[0]
        before = len(desk.list)
        if kind in ('kern', 'fontkern'):
            say(kind, length(scale, 0.4))
        elif kind == 'penalty':
            say('penalty', draw.randrange(-10000, 10001))
        elif kind == 'note':
            say('note')
        elif kind == 'box':
            if deep:
                if a_box(scale, deep - 1) and draw.random() < 0.6:
                    say('lower', length(scale, 0.5))
            else:
                a_rule(scale)
        else:
            {'char': a_char, 'rule': a_rule, 'glue': a_glue, 'disc': a_disc, 'adjust': an_adjust, 'ins': an_ins, 'mark': a_mark}[kind](scale)
        count += len(desk.list) - before
    before = len(desk.list)
    say(draw.choice(['hpack', 'vpack']), count, *a_target(scale))
    return len(desk.list) == before - count + 1


def scale_of():
    return 2 ** draw.choice([3, 5, 8, 12, 16, 16, 18, 20, 20, 22, 24, 26, 27])


def drawn_boxes(count):
    asked = 0
    for _ in range(count):
        say('clear') if desk.list else None
        scale = scale_of()
        if not a_box(scale, draw.choice([0, 1, 2, 2, 3])):
            continue
        ask(f'page {a_number()}')
        asked += 1
        if draw.random() < 0.3:
            say('code', a_number())
        if draw.random() < 0.6:
            # its own shift counts for nothing, but in the box around it, it does
            say('lower', length(scale, 0.5))
            if draw.random() < 0.2:
                say('marks')
            draw.choice([a_char, a_rule, a_glue])(scale)
            before = len(desk.list)
            say(draw.choice(['hpack', 'vpack']), 2, *a_target(scale))
            if stands() and len(desk.list) == before - 1:
                ask(f'page {a_number()}')
        if draw.random() < 0.08:
            say('pages', a_number(), draw.choice([1, 1, 2, 3, 10, 100])) if stands() else None
        if draw.random() < 0.07 and stands():
            say('finish')


# ---- rows that are worked by hand

ROW_2 = ('8b00000001' + 36 * '00' + 'ffffffff9f280000910f0000f30000000000000a0000000a00000005636d723130ab4869a00229000092009100'
         '00318c')
ROW_2_END = ('f80000002a018392c01c3b0000000003e8025100000159000000000001f30000000000000a0000000a00000005636d723130f90000008302'
             'dfdfdfdfdf')
ROW_1_END = 'f8ffffffff018392c01c3b0000000003e8000000000000000000000000f90000002a02dfdfdfdfdfdfdf'


def letter(code, name='char'):
    say(name, code, 5 * POINT, 15 * POINT // 2, 5 * POINT // 2)


def empty_file():
    say('clear')
    say('hpack', 0, 'natural', 0)
    assert say('finish') == ['finish bytes 42', ROW_1_END]
    assert len(say('page', 1)[1]) == 92
    say('finish')


def page_of_hi():
    say('clear')
    say('kern', 0)
    say('kern', 12 * POINT)
    say('kern', 18 * POINT)
    # the body: the glue at its top, one line, and the end of the page
    say('glue', 5 * POINT // 2, 0, 0, 0, 0)
    say('hpack', 0, 'to', 15 * POINT)
    letter(72)
    letter(105)
    say('penalty', 10000)
    say('glue', 0, POINT, 1, 0, 0)
    say('glue', 0, 0, 0, 0, 0)
    say('hpack', 6, 'to', 345 * POINT)
    ask('code 1', 'page 1', 'finish')
    say('glue', 0, POINT, 1, 0, 0)
    say('kern', -5 * POINT // 2)
    say('vpack', 4, 'to', 538 * POINT)
    ask('code 1', 'page 1', 'finish')
    # the foot
    say('kern', -538 * POINT)
    say('kern', 538 * POINT)
    say('kern', 25 * POINT)
    say('kern', -15 * POINT // 2)
    say('glue', 0, POINT, 1, 0, 0)
    letter(49)
    say('glue', 0, POINT, 1, 0, 0)
    say('hpack', 3, 'to', 345 * POINT)
    say('vpack', 9, 'to', 593 * POINT)
    assert say('marks')[0] == 'marks 3'
    say('code', 1)
    assert say('page', 1) == ['page 1 bytes 89', ROW_2]
    assert say('finish') == ['finish bytes 61', ROW_2_END]
    # the same page more than once: the font is defined once
    for number in (1, 2, 2, -3):
        say('page', number)
    say('pages', 7, 5)
    say('finish')


def rows_of_glue():
    """One fraction for all glue before an item: 1sp, 1sp, 2sp; and the natural places where nothing is to stretch."""
    for sign in (1, -1):
        for size in (0, 1, 2, 3, 4, 10):
            for order in (0, 2):
                say('clear')
                for code in (65, 66, 67):
                    say('glue', 5, 1, order, 1, order)
                    say('char', code, 2, 3, 1)
                say(draw.choice(['hpack', 'vpack']), 6, 'spread', sign * size)
                ask('page 3')
    say('finish')


# ---- the edges of marks

def wrapped(axis, distances, leaf):
    """A box of size 0 along its list, whose item stands at the sum of the distances. Each is below 2^30 in size."""
    say('clear')
    for distance in distances:
        say('kern', distance)
    leaf()
    while len(desk.list) > 1 and desk.list[-1].kind != 'kern':
        say('hpack' if axis == 'h' else 'vpack', 2, 'to', 0)


def chain(total):
    """Distances with this sum."""
    distances = []
    while total:
        distance = max(-FAR, min(FAR, total))
        distances.append(distance)
        total -= distance
    return distances or [0]


def rule_in(axis, *sizes):
    def leaf():
        say('rule', *sizes)
        say(axis, 1, 'to', 0)
    return leaf


def char_in(axis, *sizes):
    def leaf():
        say('char', 120, *sizes)
        say(axis, 1, 'to', 0)
    return leaf


def edges():
    for sign in (1, -1):
        for more in (0, 1):
            edge = sign * (FAR + more)
            wrapped('h', chain(edge), char_in('hpack', 0, 0, 0))
            ask_all()
            wrapped('h', chain(edge), rule_in('hpack', 5, 6, 7))
            ask_all()
            wrapped('v', chain(edge), char_in('hpack', 1, 0, 0))
            ask_all()
            # where the character ends, its beginning being near
            for start in (sign * 3, -sign * 8, FAR // 2 * sign):
                wrapped('h', chain(start), char_in('hpack' if abs(edge - start) < 2 ** 30 else 'vpack', edge - start, 2, 3))
                ask_all() if stands() else None
            # where the character begins, its end being near
            wrapped('h', chain(edge), char_in('hpack', -sign * 5, 2, 3))
            ask_all()
            # the foot of a rule; a rule goes on to the right, and up
            wrapped('v', chain(edge - 11), rule_in('vpack', 5, 6, 5))
            ask_all() if stands() else None
            wrapped('v', chain(edge - sign * 100), rule_in('hpack', 5, -3, sign * 100))
            ask_all() if stands() else None
            wrapped('h', chain(sign * FAR - sign * more), rule_in('hpack', FAR, 1, 1))
            ask_all() if stands() else None
            # rules that the file leaves out are marks all the same
            wrapped('h', chain(edge), rule_in('hpack', 0, 6, 7))
            ask('page 1') if stands() else None
            wrapped('v', chain(edge), rule_in('hpack', 4, 6, -6))
            ask('page 1') if stands() else None
    far_and_back()
    tall_rules()
    orders()


def far_and_back():
    """What stands far outside makes no mark, or comes back."""
    for axis in ('h', 'v'):
        for distances in ([FAR, FAR, -FAR, -FAR], [-FAR, -FAR, -FAR, FAR, FAR, 17], [FAR] * 5 + [-FAR] * 4, [FAR] * 6 + [-FAR] * 6 + [-3],
                          [FAR, 1, -1], [FAR, 1, 1, -2, 5], [-FAR, -1, 1]):
            wrapped(axis, distances, char_in(draw.choice(['hpack', 'vpack']), 4, 5, 6))
            ask_all()
            wrapped(axis, distances, rule_in(draw.choice(['hpack', 'vpack']), 4, 5, 6))
            ask('page 5')
        for leaf in (lambda: say('hpack', 0, 'natural', 0), lambda: (say('char', 1, 0, 0, 0), say('adjust', 1)), lambda: say('note')):
            wrapped(axis, [FAR] * 3, leaf)
            ask_all()
    # lowered and raised boxes
    for shift in (FAR, -FAR, FAR - 7, 7 - FAR):
        for axis in ('hpack', 'vpack'):
            for size in (0, 7, 8):
                say('clear')
                say('char', 33, size, 0, size)
                say('hpack', 1, 'natural', 0)
                say('lower', shift)
                say(axis, 1, 'natural', 0)
                ask('page -9') if stands() else None


def tall_rules():
    """A rule that runs has the height and the depth of its box, and both together as its mark."""
    for height, depth in ((FAR, FAR), (FAR, FAR - 1), (-FAR, FAR), (FAR, 0), (0, FAR), (FAR, -FAR)):
        for axis in ('hpack', 'vpack'):
            say('clear')
            say('kern', -FAR)
            say('rule', 3, height, depth)
            say('rule', 4, 'x', 'x')
            say('rule', 'x', 'x', 1)
            say('hpack', 3, 'natural', 0)
            if stands():
                say(axis, 2, 'to', 0)
                ask_all() if stands() else None
    # height and depth together at the ends of 32 bits, the foot of the rule being near enough
    for more in (-1, 0, 1):
        say('clear')
        say('rule', 5, 5 - 2 ** 30 + more, -2 ** 30 - 5)
        say('rule', 0, 10, 0)
        say('hpack', 2, 'natural', 0)
        ask_all()


def orders():
    """A mark that is too far away among others: the first, the last, one behind 64."""
    for first, last in ((0, 0), (FAR, 0), (0, FAR), (FAR, FAR)):
        say('clear')
        for start in (first, last):
            say('kern', start)
            say('char', 65, 1, 1, 1)
            say('hpack', 1, 'to', 0)
            say('hpack', 2, 'to', 0)
        say('vpack', 2, 'natural', 0)
        ask_all()
    say('clear')
    say('char', 65, FAR // 64, 0, 0)
    say('many', 63)
    say('char', 66, 1, 1, 1)
    say('kern', -FAR + 5)
    say('hpack', 66, 'to', 0)
    ask('code 1', 'page 1')
    say('kern', 63)
    say('hpack', 2, 'natural', 0)
    ask('code 1', 'page 1')
    for more in (62, 63):
        say('clear')
        say('kern', more)
        say('char', 65, FAR // 64, 0, 0)
        say('many', 63)
        say('kern', -FAR // 2)
        say('hpack', 66, 'natural', 0)
        ask('code 1', 'page 1')
    say('finish')


# ---- the bytes

def movements():
    """Each movement at the ends of its bytes, right and down."""
    ends = [1, 127, 128, 129, 255, 256, 32767, 32768, 32769, 65536, 2 ** 23 - 1, 2 ** 23, 2 ** 23 + 1, 2 ** 24, FAR]
    for distance in [0] + [sign * end for end in ends for sign in (1, -1)]:
        say('clear')
        say('kern', distance)
        say('char', 65, 0, 0, 0)
        say('hpack', 2, 'natural', 0)
        ask('page 1')
        say('clear')
        say('kern', distance)
        say('rule', 1, 1, 0)
        say('hpack', 1, 'natural', 0)
        say('kern', -distance)
        say('vpack', 3, 'to', 0)
        ask('page 1') if stands() else None
    # movements past 2^30, from one mark to the next
    for axis in ('h', 'v'):
        for sign in (1, -1):
            say('clear')
            for kern in ([-FAR], [FAR, FAR], [-FAR, -FAR]):
                for distance in kern:
                    say('kern', sign * distance)
                say('char', 97, 0, 0, 0)
                say('hpack', 1, 'natural', 0)
            say('hpack' if axis == 'h' else 'vpack', 8, 'to', 0)
            ask('page 1')
    # a character moves by its width, and a rule by nothing; a rule that is left out does not move
    for sizes in ((0, 5, 5), (5, 0, 0), (5, 3, -3), (5, 3, -4), (-5, 3, 3), (5, 4, -3), ('x', 3, 3), (5, 'x', 'x'), ('x', 'x', 'x')):
        for axis in ('hpack', 'vpack'):
            say('clear')
            say('char', 127, 7, 8, 9)
            say('rule', *sizes)
            say('kern', 11)
            say('rule', 3, 4, 5)
            say('char', 128, -7, 8, -9)
            say('rule', *sizes)
            say(axis, 6, 'natural', 0)
            ask('code 5', 'page 5') if stands() else None
    say('finish')


def codes():
    say('clear')
    for code in range(256):
        say('char', code, 1, 1, 1)
    say('hpack', 256, 'natural', 0)
    ask('code 1', 'page 1')
    for code in (0, 1, 126, 127, 128, 129, 254, 255):
        say('clear')
        say('char', code, code, 1, 1)
        say('vpack', 1, 'natural', 0)
        ask('page 1')
    say('finish')


def long_pages():
    """64 marks and 65; 400 bytes and 401, of a page without and with a definition of its font."""
    for count in (63, 64, 65, 66):
        say('clear')
        say('char', 65, 100, 200, 300)
        say('many', count - 2)
        say('rule', 'x', 7, 'x')
        say('vpack', count, 'spread', 5)
        ask('code 1')
    for start in range(2):
        say('clear')
        say('char', 65, 3, 4, 5)
        say('many', 400)
        say('hpack', 401, 'natural', 0)
        say('page', 0) if start else None
        at_401 = len(page_bytes(Page(1, marks(desk.list[-1]), 0, 0), desk.dvi.ends()[0], -1))
        for bytes_there in (399, 400, 401):
            count = 401 - (at_401 - bytes_there)
            say('clear')
            say('char', 65, 3, 4, 5)
            say('many', count - 1)
            say('hpack', count, 'natural', 0)
            assert say('page', start)[0].endswith(f' {bytes_there}')
            if start == 0:
                say('finish')
    say('finish')


def many_marks():
    """More marks than are shown: drawn boxes, each again and again."""
    asked = 0
    while asked < 40:
        say('clear')
        scale = 2 ** draw.choice([4, 10, 16, 20])
        if not a_box(scale, 1) or not 2 <= len(marks(desk.list[-1])) <= 9:
            continue
        say('lower', length(scale, 0.5))
        count = draw.randrange(12, 30)
        say('many', count - 1)
        a_rule(scale)
        say(draw.choice(['hpack', 'vpack']), count + 1, *a_target(scale))
        if stands():
            ask(f'page {a_number()}')
            asked += 1
    say('finish') if stands() else None


def deep_boxes():
    """Each box moves what is in it."""
    for times in (20, 120):
        say('clear')
        for k in range(times):
            say('kern', 3 * k + 1)
        say('rule', 5, 6, 7)
        letter(77)
        say('hpack', 2, 'natural', 0)
        for k in range(times):
            say('lower', (-1) ** k * (k + 2))
            say('hpack' if k % 2 else 'vpack', 2, 'natural', 0)
        ask_all()


def page_numbers():
    say('clear')
    say('hpack', 0, 'natural', 0)
    for number in (0, 1, 127, 128, 255, 256, 65535, 65536, 2 ** 24, 2 ** 31 - 1, -1, -128, -129, -65536, -2 ** 31 + 1):
        say('page', number)
        say('code', number)
    say('finish')


def sizes():
    """The largest height and width of a file: sizes below 0, and of different pages."""
    for pages in ([(-5, -6)], [(FAR, FAR)], [(3, 9), (9, 3), (4, 4)], [(-3, 5)], [(5, -3)], [(0, 0)], [(-FAR, -FAR)], [(7, 1), (-7, -1)]):
        for height, width in pages:
            say('clear')
            say('rule', width, 0, 0)
            say('hpack', 1, 'natural', 0)
            say('vpack', 1, 'to', height)
            ask('code 1', 'page 1')
            say('clear')
            say('hpack', 0, 'to', width)
            ask('code 1', 'page 1')
            if (height, width) == pages[-1]:
                say('finish')


def refused():
    """A page that is refused changes nothing: not the place, not the fonts, not the largest sizes."""
    for good_first in (True, False):
        if good_first:
            say('clear')
            letter(65)
            say('hpack', 1, 'natural', 0)
            say('page', 1)
        wrapped('h', chain(FAR + 1), char_in('hpack', 1, FAR, FAR))
        say('kern', FAR)
        say('vpack', 2, 'natural', 0)
        if stands():
            for words in ('page 2', 'pages 2 5', 'pages 2 0', 'code 2', 'marks', 'finish'):
                say(*words.split())
        wrapped('v', chain(-FAR - 1), char_in('hpack', 1, 0, 0))
        for words in ('page 2', 'pages 2 5', 'pages 2 0', 'code 2', 'marks'):
            say(*words.split())
        say('clear')
        letter(66)
        say('hpack', 1, 'natural', 0)
        for words in ('page 3', 'pages 4 3', 'page 5', 'finish'):
            say(*words.split())


def most_pages():
    say('clear')
    say('hpack', 0, 'natural', 0)
    say('finish')
    assert say('pages', 1, 65536) == ['pages 65535', 'fault PageLimit']
    say('page', 2)
    say('pages', 2, 3)
    say('pages', 2, 1)
    say('code', 2)
    say('finish')
    say('clear')
    letter(65)
    say('hpack', 1, 'natural', 0)
    for words in ('pages 1 65534', 'page 2', 'page 3', 'finish', 'page 4', 'finish'):
        say(*words.split())


# ---- parts

def drawn_part():
    empty_file()
    page_of_hi()
    rows_of_glue()
    edges()
    movements()
    codes()
    long_pages()
    many_marks()
    deep_boxes()
    page_numbers()
    sizes()
    refused()
    drawn_boxes(800)
    say('clear')
    most_pages()


def a_font():
    say('font', draw.choice(['cmr10', 'cmbx10', 'cmti10', 'f', 'n' * 255]), draw.choice([1, POINT, 655360, 2 ** 27 - 1]),
        draw.choice([0, 1, 2 ** 31, 2 ** 32 - 1]), draw.choice([POINT, 655360, 2 ** 27 - 1]))


def many_fonts(numbers):
    """A box with a character in each font of these numbers."""
    say('clear')
    for number in numbers:
        say('font', f'f{number}', POINT * (number + 1), number, POINT)
        say('char', number, 10, 20, 5)
    say('hpack', len(numbers), 'natural', 0)


def fonts_part():
    global fonts_too
    fonts_too = True
    say('clear')
    # ligatures, each with its own code; the font changes and comes back
    for name, code in (('char', 102), ('lig', 12), ('lig', 200), ('char', 102), ('lig', 45)):
        letter(code, name)
    say('disc', 0, 0, 1)
    say('hpack', 5, 'natural', 0)
    ask_all()
    # fonts that differ in one thing alone are different
    for names in (['a', 'b', 'a'], ['a', 'ab', 'a']):
        for numbers in (((5, 6, 7), (5, 6, 7)), ((5, 6, 7), (8, 6, 7)), ((5, 6, 7), (5, 8, 7)), ((5, 6, 7), (5, 6, 8))):
            say('clear')
            for name, (size, check, design) in zip(names, (numbers[0], numbers[1], numbers[0])):
                say('font', name if numbers[0] == numbers[1] else 'a', size, check, design)
                letter(65)
                letter(66)
            say('hpack', 6, 'natural', 0)
            ask('page 1', 'page 2', 'finish')
    # 60 fonts, and the 61st
    for first in (60, 30, 1):
        many_fonts(range(first))
        ask('code 1', 'page 1')
        many_fonts(range(59, -1, -1))
        ask('page 2')
        many_fonts([60])
        say('page', 3)
        say('pages', 3, 2)
        many_fonts([3, 60, 4])
        say('page', 3)
        many_fonts([59, 0])
        say('page', 4)
        say('finish')
    many_fonts(range(61))
    for words in ('page 1', 'pages 1 2', 'finish'):
        say(*words.split())
    # a 61st font in a page that is refused by its marks is none
    many_fonts(range(60))
    say('page', 1)
    say('font', 'cmr10', 655360, 0, 655360)
    wrapped('h', chain(FAR + 1), char_in('hpack', 1, 0, 0))
    say('page', 2)
    say('finish')
    # a font of 255 bytes, and drawn boxes in drawn fonts
    for _ in range(40):
        say('clear')
        a_font()
        a_char(1000)
        a_font()
        a_char(1000)
        a_char(1000)
        say(draw.choice(['hpack', 'vpack']), 3, 'natural', 0)
        ask(f'page {a_number()}')
        say('finish') if draw.random() < 0.4 else None
    for k in range(6):
        a_font()
        drawn_boxes(10)
    say('font', 'cmr10', 655360, 0, 655360)
    say('clear')
    say('hpack', 0, 'natural', 0)
    say('finish')


def room():
    """How many bytes a file may still take."""
    return 2 ** 30 - desk.dvi.ends()[2]


def rules_of_19_bytes(*counts):
    """A box of two rules, each of which takes as many bytes as a rule can; boxes of so many of it, and so on."""
    say('clear')
    for sign in (1, -1):
        say('kern', sign * 2 ** 24)
        say('rule', 1, 1, 0)
        say('hpack', 1, 'natural', 0)
        say('lower', sign * 2 ** 24)
    say('hpack', 4, 'natural', 0)
    for count in counts:
        say('many', count - 1)
        say('hpack', count, 'natural', 0)


def bytes_part():
    """A file of 2^30 bytes: pages of 190,000 bytes and of 4,000 as long as there is room, of 120, and one that fills it."""
    rules_of_19_bytes(100, 50)
    say('code', 1)
    say('page', 1)
    say('pages', 2, 65535)
    rules_of_19_bytes(100)
    say('pages', 3, 65535)
    rules_of_19_bytes(2)
    length = len(page_bytes(Page(1, marks(desk.list[-1]), 0, 0), [], -1))
    say('pages', 4, (room() - 150) // length)
    # one byte too many, and just as many as there is room for
    say('char', 65, 1, 0, 0)
    say('hpack', 1, 'natural', 0)
    start = len(page_bytes(Page(1, marks(desk.list[-1]), 0, 0), [], -1)) - 1
    for more in (1, 0):
        count = room() - start + more
        say('clear')
        say('char', 65, 1, 0, 0)
        say('many', count - 1)
        say('hpack', count, 'natural', 0)
        say('page', 5)
    assert room() == 0
    say('page', 6)
    say('pages', 6, 2)
    say('code', 6)
    say('finish')


def main():
    global draw
    sys.setrecursionlimit(10000)
    parts = {'drawn': drawn_part, 'fonts': fonts_part, 'bytes': bytes_part}
    for seed, name in enumerate(parts):
        if name in (sys.argv[1:] or ['drawn']):
            draw = random.Random(20 + seed)
            parts[name]()


main()
