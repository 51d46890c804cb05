#!/usr/bin/env python3
"""Checks scan.py against values by hand, and against a second way, on lines that are drawn from a fixed seed and on the commands on
standard input: expressions that match the longest reading, with fractions for the values; and saves of cells in place of whole states."""
import random
import re
import sys
from fractions import Fraction

import scan

draw = random.Random(1969)

BY_HAND = [
    ('number .2237462078', 'xxx. number 127 back left 1'), ("number .27313720", 'xxx. number 15 back left 0'),
    ('number .60 w41 .20', 'px. number 65 back left 0'), ('dimen .31696e20', 'xxx. dimen 4736286 back left 0'),
    ('dimen .322e35636d20', 'xxxxx. dimen 4661699 back left 0'), ('dimen .2e31707420', 'xxxx. dimen 6554 back left 0'),
    ('number .78', ' fault NumberMissing left 0'), ('number .3231343734383336343820', 'xxxxxxxxxx fault NumberTooBig left 0'),
    ('number .3231343734383336343720', 'xxxxxxxxxx. number 2147483647 back left 0'),
    ('dimen .317878', 'x fault UnitMissing left 1'), ('dimen .3136333834707420', 'xxxxxxx fault DimenTooLarge left 0'),
    ('dimen .31363338332e3939393939707420', 'xxxxxxxxxxxxx. dimen 1073741823 back left 0'),
    ('glue .31707420706c757320 .78', 'xxxxxxxxx. skip 65536,0,0,0,0 back c11:112 c11:108 c11:117 c11:115 c10:32 c11:120 left 0'),
    ('glue .3170742020 .6d .20', 'xxxxxx. skip 65536,0,0,0,0 back c10:32 c11:109 c10:32 left 0'),
    ('glue .2d w61 g1,-2,1,3,0', 'xq. skip -1,2,1,-3,0 back left 0'), ('glue .2d w61 d7 e', 'xqx. skip -7,0,0,0,0 back left 0'),
    ('glue .317074706c7573 a126 n1', 'xxxxxxxq. skip 65536,0,0,0,0 back c11:112 c11:108 c11:117 c11:115 a126 left 0'),
    ('dimen .2d312e35 w61 d-3', 'xxxxq. dimen 4 back left 0'), ('dimen .2e35656d d3 .20', 'xxxmx. dimen 1 back left 0'),
    ('number .31', 'x open left 0'), ('number', '- open left 0'), ('word:746f .20546f', 'xx. found 1 back left 0'),
    ('word:746f .2054 e', 'xx. found 0 back c10:32 c11:84 left 0')]

UNITS = {**{unit: Fraction(*over) for unit, over in scan.UNITS.items()}, 'fil': 1, 'fill': 1, 'filll': 1}
NUMBER = re.compile(r'''([-+ ]*)(?:(\d+)|'([0-7]+)|"([0-9A-F]+)|`(.)) ?''')


def length(units):
    return rf'([-+ ]*)(\d+|(?=\.))(?:\.(\d*))? *({units}) ?'


PLAIN = '[pP][tT]|[iI][nN]|[pP][cC]|[cC][mM]|[mM][mM]|[bB][pP]|[dD][dD]|[cC][cC]|[sS][pP]'
DIMEN = re.compile(length(PLAIN))
PART = length(PLAIN + '|[fF][iI][lL][lL]?[lL]?')
GLUE = re.compile(length(PLAIN) + f'(?: *[pP][lL][uU][sS]{PART})?(?: *[mM][iI][nN][uU][sS]{PART})?')


class TooBig(Exception):
    """The name of the fault."""


def signed(signs, size):
    return -size if signs.count('-') % 2 else size


def value_of(signs, whole, fraction, unit):
    """The value of a length by fractions, and its order."""
    if unit is None:
        return 0, 0
    unit = unit.lower()
    whole = int(whole or 0)
    if whole > 2 ** 31 - 1:
        raise TooBig('NumberTooBig')
    digits = (fraction or '')[:17]
    rounded = (Fraction(int(digits or 0), 10 ** len(digits)) * 65536 + Fraction(1, 2)).__floor__()
    size = whole if unit == 'sp' else (UNITS[unit] * (65536 * whole + rounded)).__floor__()
    if size >= 2 ** 30:
        raise TooBig('DimenTooLarge')
    return signed(signs, size), unit.count('l')


def number_by(match):
    signs, *digits, char = match.groups()
    value = next((int(of, base) for of, base in zip(digits, (10, 8, 16)) if of), ord(char) if char else 0)
    if value > 2 ** 31 - 1:
        raise TooBig('NumberTooBig')
    return f'number {signed(signs, value)}'


def dimen_by(match):
    return f'dimen {value_of(*match.groups())[0]}'


def glue_by(match):
    parts = match.groups()
    numbers = [value_of(*parts[at:at + 4]) for at in (0, 4, 8)]
    return 'skip ' + ','.join(map(str, (numbers[0][0], *numbers[1], *numbers[2])))


FORMS = {'number': (NUMBER, number_by), 'dimen': (DIMEN, dimen_by), 'glue': (GLUE, glue_by)}
PIECES = [*'0179.-+ ', *scan.UNITS, 'sp', 'fil', 'fill', 'filll', 'l', 'plus', 'minus', 'PLUS', 'x', '"', "'", '`', 'F', '16383', '999999999']


def some_line(kind):
    if kind == 'number':
        return ''.join(draw.choice(PIECES) for _ in range(draw.randrange(1, 6)))
    units = PIECES[8:17]
    line = draw.choice(['', '-', ' ']) + draw.choice('019') + draw.choice(['', '.5', '.00001', '2345']) + draw.choice([*units, *units, 'x'])
    for word in ['plus', 'minus'] if kind == 'glue' else []:
        if draw.random() < 0.8:
            line += draw.choice(['', ' ', '  ']) + draw.choice([word, word, word[:-1]]) + draw.choice(['', '', '-', ' '])
            line += draw.choice(['1', '.25', '3.7', '', '16384']) + draw.choice(['', ' ']) + draw.choice(PIECES[8:22]) + draw.choice(['', '', ' '])
    return line + draw.choice(['', '', *PIECES])


def check(kind, line):
    items = [scan.character(ord(char)) for char in line] + ['e']
    given = next((count for count in range(1, len(items) + 1) if scan.judged(kind, items[:count])[0] != 'open'), len(items))
    end, answer = scan.judged(kind, items[:given])
    form, by = FORMS[kind]
    match = form.match(line)
    try:
        expected = by(match) if match else None
    except TooBig as fault:
        assert answer == f'fault {fault}', (kind, line, answer)
        return
    if match is None or end == 'fault':
        assert end == 'fault' and (match is None or answer == 'fault NumberTooBig'), (kind, line, answer)
    else:
        back = [item for item in items[match.end():given] if item != 'e']
        assert answer == ' '.join([expected, 'back', *back]), (kind, line, answer, expected)


class Saves(scan.Groups):
    """One state, and saves of cells that a group changes locally."""

    def __init__(self):
        super().__init__()
        self.saves = []

    def put(self, cell, value, reach):
        if reach == 'g':
            self.saves = [save if save and save[0] != cell else None for save in self.saves]
        elif self.earlier:
            self.saves.append((cell, self.state.get(cell)))
        self.state[cell] = value
        return 'ok'

    def open(self, kind):
        if len(self.earlier) == scan.MOST_GROUPS:
            return 'DepthLimit'
        self.earlier.append((kind, len(self.saves)))
        return 'ok'

    def close(self, kind):
        if not self.earlier or self.earlier[-1][0] != kind:
            return 'GroupExtra'
        _, before = self.earlier.pop()
        while len(self.saves) > before:
            save = self.saves.pop()
            if save and save[1] is None:
                del self.state[save[0]]
            elif save:
                self.state[save[0]] = save[1]
        return 'ok'


def checked(command, words):
    """Checks a command, where there is a second way for it."""
    if command == 'seq':
        groups = Saves()
        assert scan.seq(*words) == ' '.join(groups.step(step) for step in words), words
        return True
    if command == 'scan' and words[0] in FORMS and len(words) == 2 and words[1].startswith('.'):
        line = bytes.fromhex(words[1][1:]).decode()
        if '~' not in line and not re.search('e[mx]', line.lower()):
            check(words[0], line)
            return True
    return False


def main():
    for line, answer in BY_HAND:
        assert scan.scan(*line.split()) == answer, (line, scan.scan(*line.split()))
    lines = [(kind, some_line(kind)) for kind in draw.choices(list(FORMS), k=3000)]
    for kind, line in lines:
        check(kind, line)
    commands = [checked(command, words) for command, *words in map(str.split, sys.stdin)]
    print(f'{len(BY_HAND)} values by hand, {len(lines)} drawn lines and {sum(commands)} of {len(commands)} commands agree')


if __name__ == '__main__':
    main()
