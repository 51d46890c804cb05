#!/usr/bin/env python3
"""Says what lb_tests_scan has to print: reads its commands from standard input. Written from the rules alone: a reading is judged on the
whole list of what was given so far, anew after each item, and a state is a dictionary, one whole copy of it for each open group.

An item is kept as its text: `cCAT:CODE`, `wNAME`, `aCODE` are tokens, `e` is the end, all else is a quantity."""
import sys

import text
from paper import decimals

MOST_NUMBER = text.WORD
MOST_LENGTH = text.LENGTH
UNITS = {
    'pt': (1, 1), 'in': (7227, 100), 'pc': (12, 1), 'cm': (7227, 254), 'mm': (7227, 2540), 'bp': (7227, 7200), 'dd': (1238, 1157),
    'cc': (14856, 1157)}
FONT_UNITS = {'em': 'm', 'ex': 's'}
ORDERS = {'fil': 1, 'fill': 2, 'filll': 3}
DIGITS = '0123456789ABCDEF'


# ---- readings

class Wanted(Exception):
    """The list ends, and the reading goes on with this."""


class NoReading(Exception):
    """No reading can go on here; the fault where nothing was read before."""


class Fault(Exception):
    """What was read has no value."""


def character(code):
    """The token of a byte with the category at the start; one that makes no token there has category 12 here."""
    of = text.category(code)
    if of == text.ACTIVE:
        return f'a{code}'
    makes_none = of in (text.ESCAPE, text.END_OF_LINE, text.IGNORED, text.COMMENT, text.INVALID)
    return f'c{text.OTHER if makes_none else of}:{code}'


def is_space(item):
    return item.startswith('c10:')


def is_other(item, char):
    return item == f'c12:{ord(char)}'


def is_letter(item, letter):
    """A letter of a unit or a keyword: of either case and any category."""
    return item[0] == 'c' and item.partition(':')[2] in (str(ord(letter)), str(ord(letter.upper())))


def is_digit(item, digit):
    """A digit has category 12; A to F may be letters as well."""
    return is_other(item, digit) or (digit.isalpha() and item == f'c11:{ord(digit)}')


def has_quantity(item):
    """A token that can stand for a quantity: a control sequence or an active character."""
    return item[0] in 'wa'


def is_token(item):
    return item[0] in 'cwa'


def numbers_of(quantity):
    return [int(number) for number in quantity[1:].split(',')]


def times(whole, fraction, length):
    """A decimal times a length, its fraction cut toward zero."""
    size = whole * abs(length) + abs(length) * fraction // 65536
    return size if length >= 0 else -size


class Reading:
    """A cursor in the list of what was given."""

    def __init__(self, items):
        self.items = items
        self.at = 0

    def next(self, want='x'):
        if self.at == len(self.items):
            raise Wanted(want)
        return self.items[self.at]

    def take(self, want='x'):
        item = self.next(want)
        self.at += 1
        return item

    def spaces(self):
        while is_space(self.next()):
            self.at += 1

    def one_space(self):
        if is_space(self.next()):
            self.at += 1

    def sign(self):
        """Signs and spaces."""
        sign = 1
        while True:
            item = self.next()
            if is_other(item, '-'):
                sign = -sign
            elif not is_space(item) and not is_other(item, '+'):
                return sign
            self.at += 1

    def digits(self, base):
        """The digits that stand here, up to an item that is none."""
        found = []
        while True:
            item = self.next()
            value = [value for value in range(base) if is_digit(item, DIGITS[value])]
            if not value:
                return found
            found += value
            self.at += 1

    def quantity(self):
        """The quantity that begins with the token here, as its kind and its numbers."""
        self.at += 1
        quantity = self.take('q')
        return quantity[0], [] if quantity == 'q' else numbers_of(quantity)

    def keyword(self, words):
        """The longest of the words that stands here, spaces before it aside."""
        self.spaces()
        read = ''
        while True:
            letters = {word[len(read)] for word in words if word.startswith(read) and word != read}
            item = self.next() if letters else 'e'
            fits = [letter for letter in letters if is_letter(item, letter)]
            if not fits:
                break
            read += fits[0]
            self.at += 1
        if read not in words:
            raise NoReading('UnitMissing')
        return read

    # numbers

    def number(self):
        sign = self.sign()
        item = self.next()
        if has_quantity(item):
            kind, numbers = self.quantity()
            if kind != 'n':
                raise NoReading('NumberMissing')
            return sign * numbers[0]
        if is_other(item, '`'):
            self.at += 1
            value = self.code()
        else:
            value = self.whole()
        self.one_space()
        if value > MOST_NUMBER:
            raise Fault('NumberTooBig')
        return sign * value

    def code(self):
        """The code of the token behind a backquote."""
        item = self.take('p')
        if item[0] == 'c':
            return int(item.partition(':')[2])
        if item[0] == 'a':
            return int(item[1:])
        if item[0] == 'w' and len(item) == 3:
            return int(item[1:], 16)
        raise NoReading('NumberMissing')

    def whole(self):
        base = 10
        for mark, other in (("'", 8), ('"', 16)):
            if is_other(self.next(), mark):
                base = other
        self.at += base != 10
        digits = self.digits(base)
        if not digits:
            raise NoReading('NumberMissing')
        return int(''.join(DIGITS[digit] for digit in digits), base)

    # dimensions

    def dimension(self, part=False):
        """A length and its order."""
        sign = self.sign()
        if has_quantity(self.next()):
            kind, numbers = self.quantity()
            if kind != 'd':
                raise NoReading('NumberMissing')
            return sign * numbers[0], 0
        return self.measured(sign, part)

    def measured(self, sign, part):
        """A decimal and its unit."""
        whole, fraction = self.decimal()
        length, order = self.unit(whole, fraction, part)
        if abs(length) > MOST_LENGTH:
            raise Fault('DimenTooLarge')
        return sign * length, order

    def decimal(self):
        """The whole part, and the fraction in parts of 65536."""
        digits = self.digits(10)
        whole = int('0' + ''.join(map(str, digits)))
        if whole > MOST_NUMBER:
            raise Fault('NumberTooBig')
        if is_other(self.next(), '.'):
            self.at += 1
            return whole, decimals(self.digits(10))
        if not digits:
            raise NoReading('NumberMissing')
        return whole, 0

    def unit(self, whole, fraction, part):
        """The length that a decimal and the unit here make, and its order."""
        self.spaces()
        if has_quantity(self.next()):
            kind, numbers = self.quantity()
            if kind != 'd':
                raise NoReading('UnitMissing')
            return times(whole, fraction, numbers[0]), 0
        name = self.keyword([*UNITS, 'sp', *FONT_UNITS, *(ORDERS if part else ())])
        if name in FONT_UNITS:
            length = times(whole, fraction, *numbers_of(self.take(FONT_UNITS[name])))
        elif name == 'sp':
            length = whole
        else:
            over, under = UNITS.get(name, (1, 1))
            length = over * (65536 * whole + fraction) // under
        self.one_space()
        return length, ORDERS.get(name, 0)

    # glue

    def glue(self):
        sign = self.sign()
        if has_quantity(self.next()):
            kind, numbers = self.quantity()
            if kind == 'g':
                width, stretch, stretch_order, shrink, shrink_order = numbers
                return sign * width, sign * stretch, stretch_order, sign * shrink, shrink_order
            if kind != 'd':
                raise NoReading('NumberMissing')
            width = sign * numbers[0]
        else:
            width, _ = self.measured(sign, False)
        return width, *self.part('plus'), *self.part('minus')

    def part(self, word):
        """A part of glue. One that does not come, its unit included, is not read at all, nor are the spaces before it."""
        before = self.at
        try:
            self.keyword([word])
            return self.dimension(part=True)
        except NoReading:
            self.at = before
            return 0, 0

    def found(self, word):
        try:
            self.keyword([word])
        except NoReading:
            self.at = 0
            return 0
        return 1

    def value(self, kind):
        if kind == 'number':
            return f'number {self.number()}'
        if kind == 'dimen':
            return f'dimen {self.dimension()[0]}'
        if kind == 'glue':
            return 'skip ' + ','.join(map(str, self.glue()))
        return f'found {self.found(bytes.fromhex(kind[len("word:"):]).decode())}'


def judged(kind, items):
    """What a list is: still wanting something, done, or a fault; with what it wants, or its answer."""
    reading = Reading(items)
    try:
        value = reading.value(kind)
    except Wanted as wanted:
        return 'open', wanted.args[0]
    except (NoReading, Fault) as fault:
        return 'fault', 'fault ' + fault.args[0]
    return 'done', ' '.join([value, 'back', *filter(is_token, items[reading.at:])])


def items_of(words):
    for word in words:
        if word.startswith('.'):
            yield from map(character, bytes.fromhex(word[1:]))
        else:
            yield word


def scan(kind, *words):
    items = list(items_of(words))
    wants = ''
    end, answer = 'open', 'open'
    given = 0
    while given < len(items) and end == 'open':
        given += 1
        end, answer = judged(kind, items[:given])
        wants += {'open': answer, 'done': '.', 'fault': ''}[end]
    if end == 'open':
        answer = 'open'
    return f'{wants if items else "-"} {answer} left {len(items) - given}'


# ---- tests of conditionals

def test(kind, left, right):
    left, right = int(left), int(right)
    if kind == 'ifcase':
        return f'part {left}'
    holds = {
        'if': left == right, 'ifcat': left == right, 'ifodd': left % 2 == 1,
        '<': left < right, '=': left == right, '>': left > right}
    return 'then' if holds[kind if kind in holds else kind[-1]] else 'else'


# ---- assignments and groups

MOMENT = {'par:year': 1776, 'par:month': 7, 'par:day': 4, 'par:time': 720}
GLUE_ORDERS = ['finite', 'fil', 'fill', 'filll']
MOST_GROUPS = 10000
KINDS = {'simple': 's', 'semi': 'e', 'material': 'm'}


def started(cell, value):
    """A cell and its value at the start, from their texts: a meaning is its text, another value its letter and its numbers."""
    kind, name = cell.split(' ', 1)
    of, what = value.split(' ', 1)
    if kind == 'word':
        meaning = f'row:{name.encode().hex()}' if of == 'command' else f'par:{name}'
        return f'word:{name.encode().hex()}', meaning
    if of == 'category':
        return f'{kind}:{name}', ('cat', [text.CATEGORIES.index(what)])
    numbers = [GLUE_ORDERS.index(word) if word in GLUE_ORDERS else int(word) for word in what.split()]
    return f'{kind}:{name}', ({'number': 'n', 'dimension': 'd', 'glue': 'g', 'code': 'code'}[of], numbers)


AT_START = dict(
    started(cell, value) for cell, value in text.at_start().items() if cell.split()[0] in ('word', 'cat', 'lc', 'uc', 'sf', 'par'))


def kind_of(cell):
    kind, name = cell.split(':', 1)
    return text.PARAMETER_KINDS[name] if kind == 'par' else {'skip': 'glue'}.get(kind, kind)


def letter_of(cell):
    """The letter of the values of a cell."""
    return {'cat': 'cat', 'lc': 'code', 'uc': 'code', 'dimen': 'd', 'glue': 'g'}.get(kind_of(cell), 'n')


def fits(cell, numbers):
    """Whether a value is in the range of its cell; the orders of glue have no bounds of their own."""
    if kind_of(cell) == 'glue':
        width, stretch, _, shrink, _ = numbers
        return all(abs(number) <= MOST_LENGTH for number in (width, stretch, shrink))
    _, least, most = text.HELD[kind_of(cell)]
    return least <= numbers[0] <= most


def given_value(value):
    return [int(number) for number in value.split(':')[1].split(',')]


def quotient(number, by):
    size = abs(number) // abs(by)
    return size if (number < 0) == (by < 0) else -size


def sum_of_parts(one, order, other, other_order):
    """The sum of two stretches or shrinks, and its order."""
    if order == other_order:
        return one + other, order
    if order > other_order:
        return (one, order) if one != 0 else (other, other_order)
    return (other, other_order) if other != 0 else (one, order)


def advanced(numbers, by):
    if len(numbers) == 1:
        return [numbers[0] + by[0]]
    stretch = sum_of_parts(*numbers[1:3], *by[1:3])
    shrink = sum_of_parts(*numbers[3:5], *by[3:5])
    return [numbers[0] + by[0], *stretch, *shrink]


def on_each(numbers, change):
    """Changes the numbers of a value, and not its orders."""
    return [number if at in (2, 4) else change(number) for at, number in enumerate(numbers)]


class Groups:
    """The present state, and the earlier states with their kinds, one for each open group. A state holds what differs from the start."""

    def __init__(self):
        self.state = {}
        self.earlier = []

    def value(self, cell):
        if cell in self.state:
            return self.state[cell]
        if cell in MOMENT:
            return 'n', [MOMENT[cell]]
        return AT_START.get(cell)

    def put(self, cell, value, reach):
        self.state[cell] = value
        if reach == 'g':
            for _, state in self.earlier:
                state[cell] = value
        return 'ok'

    def open(self, kind):
        if len(self.earlier) == MOST_GROUPS:
            return 'DepthLimit'
        self.earlier.append((kind, dict(self.state)))
        return 'ok'

    def open_many(self, count):
        for _ in range(count):
            answer = self.open('simple')
            if answer != 'ok':
                return answer
        return 'ok'

    def close(self, kind):
        if not self.earlier or self.earlier[-1][0] != kind:
            return 'GroupExtra'
        _, self.state = self.earlier.pop()
        return 'ok'

    def set(self, cell, value, reach):
        numbers = given_value(value)
        if not fits(cell, numbers):
            return 'BadCode'
        return self.put(cell, (letter_of(cell), numbers), reach)

    def arithmetic(self, operation, cell, by, reach):
        nothing = letter_of(cell), [0] * (5 if kind_of(cell) == 'glue' else 1)
        letter, numbers = self.value(cell) or nothing
        by = given_value(by)
        if operation == 'advance':
            result = advanced(numbers, by)
        elif operation == 'multiply':
            result = on_each(numbers, lambda number: number * by[0])
        elif by[0] == 0:
            return 'Overflow'
        else:
            result = on_each(numbers, lambda number: quotient(number, by[0]))
        if not fits(cell, result):
            return 'Overflow'
        return self.put(cell, (letter, result), reach)

    def show(self, cell):
        value = self.value(cell)
        if value is None:
            return 'absent'
        if isinstance(value, str):
            return value
        letter, numbers = value
        return f'{letter}:' + ','.join(map(str, numbers))

    def step(self, words):
        if words == 'k':
            return ''.join(KINDS[kind] for kind, _ in reversed(self.earlier)) or '-'
        if words.startswith('?'):
            return self.show(words[1:])
        command, rest = words.split(':', 1)
        if command == 'o':
            return self.open(rest)
        if command == 'O':
            return self.open_many(int(rest))
        if command == 'c':
            return self.close(rest)
        return self.change(command, *rest.rsplit(':', 1))

    def change(self, command, words, reach):
        cell, value = words.split('=')
        if command == 's':
            return self.set(cell, value, reach)
        if command == 'a':
            return self.arithmetic(*cell.split(':', 1), value, reach)
        return self.put(f'word:{cell}', value if command == 'l' else f'macro:{value}', reach)


def seq(*steps):
    groups = Groups()
    return ' '.join(groups.step(step) for step in steps)


def main():
    for line in sys.stdin:
        command, *words = line.split()
        print({'scan': scan, 'test': test, 'seq': seq}[command](*words))


if __name__ == '__main__':
    main()
