#!/usr/bin/env python3
"""Writes the commands of lb_tests_scan. What is drawn is drawn from a fixed seed. A scan is given what it wants: the oracle is asked
after each item."""
import random

import scan
import text

draw = random.Random(1978)

SCANS = 3000
TESTS = 300
SEQUENCES = 2000
UNITS = [*scan.UNITS, 'sp', *scan.FONT_UNITS]
WORD = text.WORD
LENGTH = text.LENGTH


# ---- lines of scans

def chars(line):
    return [scan.character(ord(char)) for char in line]


def is_quantity(item):
    return item[0] in 'ndgq'


def some_number():
    return draw.choice([0, 1, -1, 5, 65536, WORD, -WORD, draw.randrange(-WORD, WORD + 1)])


def some_size():
    most = draw.choice([65536, 2 ** 20, LENGTH])
    return draw.choice([0, 1, -1, 65536, -65536, 16384, LENGTH, -LENGTH, *(draw.randint(-most, most) for _ in range(8))])


def some_order():
    return draw.choice([0, 0, 1, 2, 3])


def some_glue():
    return f'g{some_size()},{some_size()},{some_order()},{some_size()},{some_order()}'


def some_quantity(kinds='ndgq'):
    kind = draw.choice(kinds)
    return {'n': f'n{some_number()}', 'd': f'd{some_size()}', 'g': some_glue(), 'q': 'q'}[kind]


def font_length():
    return f'd{draw.choice([0, 1, 65536, 655360, 655361, 282168, 327680, -327680, 2 ** 27 - 1, WORD, -WORD, draw.randrange(2 ** 21)])}'


class Line:
    """A scan under way."""

    def __init__(self, kind):
        self.kind = kind
        self.items = []
        self.end, self.want = 'open', 'x'

    def is_open(self):
        return self.end == 'open'

    def wants_quantity(self):
        return self.is_open() and self.want in 'qms'

    def give(self, item):
        self.items.append(item)
        if self.is_open():
            self.end, self.want = scan.judged(self.kind, self.items)

    def give_wanted(self):
        self.give(font_length() if self.want in 'ms' else some_quantity())


LAST = [[' '], ['x'], ['\\'], ['~'], ['{'], ['.'], ['7'], ['e'], ['l'], [' ', ' ', 'x'], [' ', 'm', 'x']]


def some_last():
    """What comes behind a reading: `\\` stands for a control sequence, `e` for the end."""
    found = []
    for char in draw.choice(LAST):
        found += {'\\': ['w72656c6178'], 'e': ['e']}.get(char) or chars(char)
    return found


def line_of(kind, script, whole=True):
    """A line that gives a script, with a quantity wherever one is wanted; a quantity of the script stands only where it is wanted."""
    line = Line(kind)
    for item in script:
        if not is_quantity(item) and line.wants_quantity():
            line.give_wanted()
        if not is_quantity(item) or line.wants_quantity():
            line.give(item)
    while whole and line.is_open():
        if line.wants_quantity():
            line.give_wanted()
        else:
            for item in some_last():
                if not line.wants_quantity():
                    line.give(item)
    return line


def words_of(items):
    """The words of items, with the tokens of bytes as they are at the start in one word."""
    words = []
    for item in items:
        code = int(item[1:] if item[0] == 'a' else item.partition(':')[2]) if item[0] in 'ca' else 0
        if not 32 <= code < 127 or chr(code) in '\\%' or scan.character(code) != item:
            words.append(item)
        elif words and words[-1].startswith('.'):
            words[-1] += f'{code:02x}'
        else:
            words.append(f'.{code:02x}')
    return words


said = {'scan': 0, 'test': 0, 'seq': 0}


def say(command, *words):
    said[command] += 1
    print(command, *words)


def say_scan(kind, script, whole=True):
    line = line_of(kind, script, whole)
    say('scan', kind, *words_of(line.items))


def cased(word):
    return ''.join(draw.choice([letter, letter.upper()]) for letter in word)


def worked():
    for kind, script in [
            ('number', chars('"7F ')), ('number', chars("'17 ")), ('number', [*chars('`'), 'w41', *chars(' ')]),
            ('dimen', chars('1in ')), ('dimen', chars('2.5cm ')), ('dimen', chars('.1pt ')),
            ('number', chars('x')), ('number', chars('2147483648 ')), ('dimen', chars('1xx')), ('dimen', chars('16384pt ')),
            ('dimen', chars('x')), ('dimen', chars('2147483648pt')), ('dimen', chars('16384ptx')), ('glue', chars('1pt plus x')),
            ('glue', chars('1pt plus 1fil minus 2pt ')), ('number', []), ('dimen', []), ('glue', [])]:
        say_scan(kind, script, False)


# ---- amounts and units

def units():
    amounts = ['1', '2.5', '.1', '.', '0', '7.', '100.99999', '0.00001', '12.34567890123', '163.8']
    for unit in UNITS:
        for amount in amounts:
            say_scan('dimen', chars(some_signs() + amount + ' ' * draw.randrange(3) + cased(unit)))
    for unit in [*UNITS, *scan.ORDERS]:
        for amount in amounts[::2]:
            first = f'1pt plus {some_signs()}{amount}{cased(unit)}{draw.choice(["", " ", "  "])}'
            say_scan('glue', chars(first + draw.choice(['', 'minus', f'MINUS {amount} {cased(unit)}'])))
    for unit in scan.ORDERS:
        say_scan('dimen', chars('1' + unit))
        say_scan('glue', chars('1' + unit))
        say_scan('glue', chars(f'0pt plus 1{unit} l'))
        say_scan('glue', chars(f'0pt plus 1{unit}lll'))


def decimal_of(scaled):
    """A decimal of this many parts of 65536."""
    return f'{scaled // 65536}.{scaled % 65536 * 10 ** 16 // 65536:016d}'


def edges():
    for unit, (over, under) in [*scan.UNITS.items(), *((unit, (1, 1)) for unit in scan.ORDERS)]:
        before, kind = ('0pt minus ', 'glue') if unit in scan.ORDERS else ('', 'dimen')
        last = (2 ** 30 * under - 1) // over
        for amount in [decimal_of(last), decimal_of(last + 1), last // 65536, last // 65536 + 1, WORD, WORD + 1]:
            for after in ['', ' ', 'e']:
                script = chars(f'{before}{some_signs()}{amount}{cased(unit)}')
                say_scan(kind, [*script, 'e'] if after == 'e' else [*script, *chars(after)])
    for amount in [LENGTH, LENGTH + 1, f'{LENGTH}.99999', WORD, WORD + 1, f'{WORD}.5', f'{WORD + 1}.5', 10 ** 25]:
        for kind, before in [('dimen', ''), ('dimen', '-'), ('glue', ''), ('glue', '1pt plus-'), ('glue', '1pt plus1fil minus ')]:
            say_scan(kind, chars(f'{before}{amount}sp'))
    for amount in [WORD, WORD + 1]:
        for after in ['w61', 'a126', 'e', 'c12:46', 'c10:32']:
            say_scan('dimen', [*chars(str(amount)), after])
            say_scan('glue', [*chars(f'1pt minus {amount}'), after])


def font_units():
    for unit in scan.FONT_UNITS:
        for amount in ['1', '0', '.5', '1.5', '2.99999', '.00001', '16383', str(WORD)]:
            for length in [0, 65536, 655361, -655361, LENGTH, WORD, -WORD]:
                if draw.random() < 0.6:
                    script = [*chars(some_signs() + amount + draw.choice(['', ' ']) + cased(unit)), f'd{length}']
                    say_scan(draw.choice(['dimen', 'glue']), [*script, *some_last()])
    for length in [LENGTH, LENGTH + 1, -LENGTH, -LENGTH - 1]:
        say_scan('dimen', [*chars('1em'), f'd{length}', *chars(' ')])
        say_scan('glue', [*chars('1pt plus 1ex'), f'd{length}', *chars(' minus1pt ')])


def fractions():
    for count in range(26):
        for kind in ['dimen', 'dimen', 'glue']:
            digits = ''.join(draw.choice('0123456789') for _ in range(count))
            say_scan(kind, chars(draw.choice(['', '0', '1', '99']) + '.' + digits + draw.choice(UNITS[:8])))
    for digits in ['00000762939453125', '00000762939453124', '000007629394531249', '000007629394531250', '99999237060546875',
                   '99999237060546874', '9' * 17, '9' * 25, '0' * 17 + '9' * 8]:
        for whole in ['', '0', '16383']:
            say_scan('dimen', chars(f'{whole}.{digits}pt'))


def numbers():
    for value in [0, 1, 9, 65535, WORD - 1, WORD, WORD + 1, 2 ** 32, 2 ** 32 + 1, 10 ** 20]:
        for form in [f'{value}', f"'{value:o}", f'"{value:X}', f'{value:030}']:
            say_scan('number', chars(some_signs() + form + draw.choice(['', ' ', '  '])))
    for line in ["'", "'8", "'9", "'78", "' 7", '"', '"G', '"a', '"Fa', '" F', '"FG', '`', '.', '1.5', '1,5', '+', '-', '--', '- -+ 1', "-'7",
                 '-"A', "''7", '""7', "1'", '1"', '1`', '%', '+-+-+-+- 3', '0', '-0', '{', '1{', '1}', '1$', '1&', '1#', '1^', '1_', '_', '^']:
        say_scan('number', chars(line.replace('%', '/')))
        say_scan('dimen', chars(line.replace('%', '/')))
        say_scan('glue', chars(line.replace('%', '/')))


# ---- readings that are cut, and what is put back

WHOLE = ['number -12 ', 'number "1F ', "number '17 ", 'number  + - 7 ', 'dimen 1pt ', 'dimen -1.25 in ', 'dimen .5mm ', 'dimen + 3 sp ',
         'glue 1pt plus 2pt minus 3pt ', 'glue 1pt minus 3fil ', 'glue - 1.5cm  plus -.5fill  minus 1filll ', 'glue 2bp plus 2 cc minus 2dd ']
TAILS = ['plus', 'plus ', 'plus x', 'plus-', 'plus - + ', 'plus -x', 'p', 'pl', 'plu', 'plux', 'p lus1pt', 'pluS+x', 'plus.', 'plus1', 'plus1x',
         'plus1 ', 'plus1.5', 'plus1.5 x', 'plus1p', 'plus1pp', 'plus1f', 'plus1fi', 'plus1fix', 'plus 1 fip', 'plus1 fil', 'plus1fillll',
         'plus1fil l', 'plus plus', 'plus1ptplus1pt', 'plus1pt plus1pt ', 'plus minus1pt', 'minus', 'minus ', 'minus x', 'minus-', 'm', 'mi',
         'min', 'minu', 'minux', 'mplus1pt', 'pminus1pt ', 'minus1pt plus1pt ', 'minus1ptminus1pt ', 'minus1', 'minus1x', 'minus1.', 'minus1c',
         'minus1cx', 'plus1ptm', 'plus1pt m', 'plus1pt  minus', 'plus1pt minus x', 'plus1pt minus1', 'plus1pt minus1x', 'plus1pt minus 1fi',
         'plus"1pt', "minus'1pt", 'plus`1pt', 'plus{', 'minus}', 'plus1ptx', 'plus1pt minus1ptx', 'minus1filx', 'plus1fillx', 'plus 2 e',
         'plus 2 em', 'plus 2 exx', 'plus,1pt']


def cuts():
    for whole in WHOLE:
        kind, line = whole.split(' ', 1)
        for at in range(len(line) + 1):
            say_scan(kind, [*chars(line[:at]), 'e'])
            say_scan(kind, chars(line[:at]), False)
    for word in ['plus', 'to']:
        for at in range(len(word)):
            say_scan('word:' + word.encode().hex(), [*chars(' ' + word[:at]), 'e'])


def put_back():
    for tail in TAILS:
        for before in ['1pt', '1pt ', '1pt  ', '-.5in   ']:
            if draw.random() < 0.6:
                say_scan('glue', chars(before + draw.choice([tail, tail, cased(tail)])))
        say_scan('glue', ['w61', 'd65536', *chars(draw.choice(['', ' ', '  ']) + tail), *draw.choice([['e'], [], ['w62'], ['a126']])])


PLACES = ['number ', 'number -', 'number  + -', 'number 1', 'number `', 'dimen ', 'dimen - ', 'dimen 1', 'dimen 1.5 ', 'dimen -2.25', 'dimen . ',
          'dimen 1p', 'dimen 16383 ', 'glue ', 'glue - ', 'glue --', 'glue 1', 'glue -1.5 ', 'glue 1pt', 'glue 1pt ', 'glue 1pt plus',
          'glue 1pt  plus -', 'glue 1pt plus 1', 'glue 1pt plus 1.5 ', 'glue 1pt plus 1fil', 'glue 1pt minus', 'glue 1pt minus - ',
          'glue 1pt minus 2', 'glue 1pt plus 1pt minus ', 'glue 1pt plus 1fil  minus -.5', 'glue 1pt plus1pt mi']


def internal():
    for place in PLACES:
        kind, line = place.split(' ', 1)
        for token in ['w636f756e74', 'a126']:
            for of in 'ndgq':
                after = chars(draw.choice(['', ' ', 'pt', ' plus 1pt', 'plus1fil minus1pt ', ' minus2pt', ' x']))
                say_scan(kind, [*chars(line), token, some_quantity(of), *after])


# ---- tokens of all kinds

def backquotes():
    tokens = [f'c{of}:{code}' for of in (1, 2, 3, 4, 6, 7, 8, 10, 11, 12) for code in (0, 65, 255)]
    tokens += ['w', 'w41', 'w00', 'wff', 'w4142', 'w20', 'a126', 'a0', 'a255', 'e', 'c12:96', 'c12:45', 'c11:46']
    for token in tokens:
        after = draw.choice([chars(' '), chars('x'), chars('  '), ['w41'], ['e'], ['c10:65'], chars('1'), ['a126']])
        say_scan('number', [*chars(some_signs() + '`'), token, *after])
    for kind in ['dimen', 'glue']:
        say_scan(kind, [*chars('`'), 'w41', *chars(' pt')])


def odd(line, categories, places):
    """A line of characters, those at the places with another category."""
    return [f'c{draw.choice(categories)}:{ord(char)}' if at in places else scan.character(ord(char)) for at, char in enumerate(line)]


LETTERS = [1, 2, 3, 4, 6, 7, 8, 11, 12]


def categories():
    for unit in UNITS:
        for _ in range(3):
            say_scan('dimen', odd(f'1{cased(unit)} ', LETTERS, {1, 2}))
        say_scan('dimen', odd(f'1{unit} ', [10], {2}))
    for line in ['1pt plus 1fil minus 2filll ', '0pt minus 1fill ', '.5in plus3em minus 4ex ']:
        for _ in range(6):
            say_scan('glue', odd(line, LETTERS, {at for at, char in enumerate(line) if char.isalpha() and draw.random() < 0.6}))
    for line in ['12 ', '-1 ', '+1 ', "'7 ", '"7 ', '`7 ', '1.5pt', '.5pt', '1p', '{1']:
        for place in range(len(line)):
            for kind in ['number', 'dimen', 'glue']:
                if not line[place].isalpha():
                    say_scan(kind, odd(line, [11, 3, 7], {place}))
    for digit in 'ABCDEFG':
        for of in [11, 12]:
            say_scan('number', [*chars('"'), f'c{of}:{ord(digit)}', *chars('1 ')])
    for line in ['1 ', ' 1 ', '- 1 ']:
        say_scan('number', ['c10:65' if char == ' ' else scan.character(ord(char)) for char in line])
    for line in ['1pt ', ' 1 pt ', '1pt  plus 1fil  minus']:
        say_scan('glue', ['c10:9' if char == ' ' else scan.character(ord(char)) for char in line])


KEYWORDS = 'plus minus to spread width height depth by at em'.split()


def keywords():
    for word in KEYWORDS:
        kind = 'word:' + word.encode().hex()
        for line in [word, ' ' + cased(word), '   ' + cased(word) + ' ', word[:-1] + 'x', ' ' + word[:-1] + ' ', 'x', '  ', word[0] * 2, word[1:],
                     word[0] + ' ' + word[1:], '1' + word]:
            say_scan(kind, chars(line))
        for at in range(len(word)):
            after = draw.choice(['e', 'w62', 'a126', 'c1:123', 'c12:49'])
            say_scan(kind, [*chars(' ' * draw.randrange(3) + cased(word[:at])), after])
        say_scan(kind, odd(word, LETTERS, set(range(len(word)))))


# ---- drawn readings

def some_signs():
    return ''.join(draw.choice('+- ') for _ in range(draw.choice([0, 0, 0, 1, 1, 2, 4])))


def some_spaces():
    return ' ' * draw.choice([0, 0, 1, 1, 2])


def some_token():
    return draw.choice([
        *chars('019.-+ pmfl{"\'`x'), 'w61', 'w6162', 'a126', 'w', f'c{draw.choice(LETTERS)}:{draw.randrange(256)}'])


def some_control(kinds):
    return [draw.choice(['w61', 'w736b6970', 'a126', 'a1']), some_quantity(kinds)]


def some_decimal():
    whole = draw.choice(['', '0', '1', '16383', '16384', '226', str(draw.randrange(100)), str(draw.randrange(20000)), str(draw.randrange(2 ** 32))])
    if draw.random() < 0.5:
        return whole or '3'
    return whole + '.' + ''.join(draw.choice('0123456789') for _ in range(draw.choice([0, 1, 2, 5, 17, 25])))


def some_length(part):
    before = chars(some_signs())
    if draw.random() < 0.15:
        return before + some_control('ddddngq')
    before += chars(some_decimal() + some_spaces())
    if draw.random() < 0.15:
        return before + some_control('ddddngq')
    return before + chars(cased(draw.choice([*UNITS, *scan.ORDERS, *scan.ORDERS] if part else UNITS)) + some_spaces())


def drawn_number():
    form = draw.choice(['digits', 'digits', 'octal', 'hexadecimal', 'code', 'control'])
    before = chars(some_signs())
    if form == 'control':
        return before + some_control('nnnndgq')
    if form == 'code':
        return [*before, *chars('`'), some_token(), *chars(some_spaces())]
    value = draw.choice([draw.randrange(10), draw.randrange(70000), draw.randrange(2 ** 32), WORD, WORD + 1])
    of = {'digits': f'{value}', 'octal': f"'{value:o}", 'hexadecimal': f'"{value:X}'}[form]
    return before + chars(of + some_spaces())


def drawn_glue():
    if draw.random() < 0.1:
        return chars(some_signs()) + some_control('gggddnq')
    script = some_length(False)
    for word in ['plus', 'minus']:
        if draw.random() < 0.75:
            script += chars(some_spaces() + cased(word) + some_spaces()) + some_length(True)
    return script


def disturbed(script):
    """A script with a token more or less, another one, or an end."""
    at = draw.randrange(len(script) + 1)
    change = draw.random()
    if change < 0.55:
        return script
    if change < 0.7:
        return [*script[:at], some_token(), *script[at:]]
    if change < 0.8:
        return script[:at] + script[at + 1:]
    if change < 0.9:
        return [*script[:at], some_token(), *script[at + 1:]]
    return [*script[:at], 'e']


def drawn():
    kind = draw.choice(['number', 'dimen', 'dimen', 'glue', 'glue', 'glue'])
    script = {'number': drawn_number, 'dimen': lambda: some_length(False), 'glue': drawn_glue}[kind]()
    say_scan(kind, disturbed(script), draw.random() < 0.8)


# ---- tests of conditionals

def tests():
    far = [2 ** 63 - 1, -2 ** 63, 2 ** 31, -2 ** 31, 2 ** 32 + 1]
    while said['test'] < TESTS:
        kind = draw.choice('if ifcat ifnum< ifnum= ifnum> ifdim< ifdim= ifdim> ifodd ifcase'.split())
        most = 256 if kind in ('if', 'ifcat') else WORD
        pool = [0, 1, -1, 2, 3, -3, 65, 256, WORD, -WORD, LENGTH, -LENGTH, *far, draw.randint(-most, most)]
        if kind in ('if', 'ifcat'):
            pool = [0, 1, 11, 12, 13, 16, 65, 66, 255, 256]
        left = draw.choice(pool)
        say('test', kind, left, draw.choice([left, left, left + 1, *pool, *pool]) if left not in far else draw.choice([left, *pool]))


# ---- assignments and groups

NUMBERS = [0, 1, -1, 2, -2, 3, -7, 15, 16, 255, 256, 32767, 32768, WORD, -WORD, WORD - 1, -2 ** 31, LENGTH, -LENGTH, 2 ** 30, -2 ** 30]
FACTORS = [0, 1, -1, 2, -2, 3, -3, 7, 10, 65536, WORD, -WORD, -2 ** 31]
CODES = [-1, 0, 1, 11, 15, 16, 254, 255, 256, 32767, 32768, WORD, -2 ** 31]
NAMES = ['61', '7a', '6e6f73756368', '706172', '68626f78', '6873697a65', '20', '5c', 'ff41']
KINDS = [*scan.KINDS]


def some_register():
    kind = draw.choice(['count', 'dimen', 'skip', 'skip', 'par', 'par', 'code'])
    if kind == 'par':
        names = draw.choice([[*text.NUMBERS], [*text.DIMENSIONS], [*text.GLUES], [*text.DATES]])
        return f'par:{draw.choice(names)}'
    if kind == 'code':
        return f'{draw.choice(["cat", "lc", "uc", "sf"])}:{draw.choice([0, 32, 46, 65, 97, 126, 255, draw.randrange(256)])}'
    return f'{kind}:{draw.choice([0, 1, 9, 255, draw.randrange(256)])}'


def is_code(cell):
    return cell.split(':')[0] in ('cat', 'lc', 'uc', 'sf')


def some_part():
    return draw.choice([0, 0, 0, 0, 1, -1, 7, -7, 65536, -65536, LENGTH, -LENGTH, *([2 ** 30, -2 ** 30, WORD, -2 ** 31] if draw.random() < 0.2 else [])])


def some_value(cell):
    kind = scan.kind_of(cell)
    if kind == 'glue':
        return f'g:{some_part()},{some_part()},{some_order()},{some_part()},{some_order()}'
    if is_code(cell):
        return f'n:{draw.choice(CODES)}'
    number = draw.choice([*NUMBERS, 100, -100, *([draw.randrange(-2 ** 31, 2 ** 31)] * 5)])
    if kind == 'dimen':
        number = draw.choice([number, draw.choice([1, -1, LENGTH, -LENGTH, 65536])])
    return f'{"d" if kind == "dimen" else "n"}:{number}'


def some_reach():
    return draw.choice('lllg')


def some_meaning():
    code = draw.choice([0, 65, 255, draw.randrange(256)])
    return draw.choice([
        f'row:{draw.choice(sorted(text.COMMANDS)).encode().hex()}', f'char:{draw.randrange(16)}:{code}', f'number:{code}', f'count:{code}',
        f'dimen:{code}', f'skip:{code}', f'toks:{code}', f'par:{draw.choice(sorted(text.PARAMETERS))}'])


class Steps:
    """The steps of a line under way: its cells, and the kinds of the groups that are open."""

    def __init__(self):
        self.cells = [some_register() for _ in range(draw.randrange(1, 4))]
        self.names = draw.sample(NAMES, 1)
        self.open = []
        self.steps = []

    def cell(self):
        return draw.choice(self.cells)

    def add(self, step):
        self.steps.append(step)

    def opening(self):
        kind = draw.choice(KINDS)
        self.open.append(kind)
        self.add(f'o:{kind}')

    def closing(self):
        if not self.open and draw.random() < 0.8:
            return self.opening()
        kind = self.open[-1] if self.open and draw.random() < 0.8 else draw.choice(KINDS)
        if self.open and self.open[-1] == kind:
            self.open.pop()
        self.add(f'c:{kind}')
        if draw.random() < 0.5:
            self.showing()

    def setting(self):
        cell = self.cell()
        self.add(f's:{cell}={some_value(cell)}:{some_reach()}')

    def arithmetic(self):
        cell = self.cell()
        if is_code(cell):
            return self.setting()
        operation = draw.choice(['advance', 'advance', 'multiply', 'divide'])
        by = some_value(cell) if operation == 'advance' else f'n:{draw.choice(FACTORS)}'
        self.add(f'a:{operation}:{cell}={by}:{some_reach()}')

    def meaning(self):
        name = draw.choice(self.names)
        if draw.random() < 0.6:
            self.add(f'l:{name}={some_meaning()}:{some_reach()}')
        else:
            self.add(f'd:{name}={draw.choice([97, 122, 65])}:{some_reach()}')

    def showing(self):
        self.add('?' + draw.choice([*self.cells, *self.cells, *(f'word:{name}' for name in self.names)]))

    def draw(self):
        steps = [self.opening, self.closing, self.setting, self.arithmetic, self.meaning, self.showing, lambda: self.add('k')]
        length = draw.randrange(3, 19)
        while len(self.steps) < length:
            draw.choices(steps, [3, 3, 6, 6, 2, 4, 0.5])[0]()
        while self.open and len(self.steps) < 20 and draw.random() < 0.9:
            self.closing()
        for cell in self.cells:
            self.add('?' + cell)
        return self.steps


def worked_steps():
    for line in [
            's:cat:65=n:16:l ?cat:65', 's:count:1=n:2147483647:l a:advance:count:1=n:1:l ?count:1', 'c:simple k', 'o:simple c:semi k c:simple k',
            's:count:1=n:-2147483648:l s:count:1=n:-2147483647:l a:advance:count:1=n:-1:l a:multiply:count:1=n:-1:l ?count:1',
            's:dimen:1=d:1073741824:l s:dimen:1=d:1073741823:l a:advance:dimen:1=d:1:l a:divide:dimen:1=n:-2:l ?dimen:1',
            'a:divide:count:0=n:0:l a:divide:skip:0=n:0:g a:multiply:dimen:0=n:0:l ?count:0 ?skip:0 ?dimen:0',
            's:count:20=n:5:l o:simple s:count:20=n:9:l ?count:20 c:simple ?count:20',
            'o:semi s:count:20=n:9:l o:simple s:count:20=n:7:g s:count:20=n:8:l c:simple ?count:20 c:semi ?count:20',
            'o:material l:61=row:706172:l d:62=97:g ?word:61 ?word:62 d:61=98:l ?word:61 c:material ?word:61 ?word:62',
            'o:simple l:706172=char:12:65:l ?word:706172 c:simple ?word:706172', 'o:simple s:par:year=n:1999:l ?par:year c:simple ?par:year',
            '?par:year ?par:month ?par:day ?par:time a:advance:par:year=n:1:l ?par:year', 'o:simple o:semi o:material k c:material c:semi c:simple k',
            's:skip:1=g:65536,65536,1,0,0:l a:advance:skip:1=g:1,5,0,7,2:l ?skip:1 a:advance:skip:1=g:1,0,3,0,3:l ?skip:1',
            's:skip:1=g:1,65536,1,65536,0:l a:advance:skip:1=g:1,-65536,1,-65536,0:l ?skip:1 a:advance:skip:1=g:0,3,0,0,2:l ?skip:1',
            's:skip:1=g:-7,7,2,-9,3:l a:divide:skip:1=n:-2:l ?skip:1 a:multiply:skip:1=n:3:g ?skip:1 a:multiply:skip:1=n:0:g ?skip:1']:
        say('seq', line)


def deep_steps():
    for line in [
            'O:10000 o:simple ?count:1', 'O:10001 s:count:1=n:5:l c:simple ?count:1', 'O:9999 o:semi o:material c:semi o:material c:material',
            'o:semi O:9999 o:semi c:semi c:simple o:material o:material',
            's:count:1=n:1:l O:5000 s:count:1=n:2:l O:5000 s:count:1=n:3:g s:count:1=n:4:l o:simple c:simple ?count:1 c:simple ?count:1',
            'O:10000 s:par:hsize=d:5:g a:advance:par:hsize=d:6:l c:simple ?par:hsize O:2 ?par:hsize',
            'O:9998 o:semi s:skip:1=g:1,2,3,4,0:l O:2 ?skip:1 c:simple c:semi ?skip:1']:
        say('seq', line)


def sequences():
    worked_steps()
    deep_steps()
    rows = said['seq']
    while said['seq'] < SEQUENCES + rows:
        say('seq', *Steps().draw())


def main():
    worked()
    rows = said['scan']
    for part in [units, edges, font_units, fractions, numbers, cuts, put_back, internal, backquotes, categories, keywords]:
        part()
    while said['scan'] < SCANS + rows:
        drawn()
    tests()
    sequences()


main()
