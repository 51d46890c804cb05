#!/usr/bin/env python3
"""Says what lb_tests_expand has to print: reads its cases from standard input, one on a line, and writes a line for each. Written from
the rules alone: commands call one another, a scan is judged anew on the whole list of what it was given, conditionals are tex.web's, and a
group keeps a whole copy of the meanings.

A token is kept as its text: `cCATEGORY:CODE` a character, `wHEX` a control sequence, `aCODE` an active character, `#N` a parameter. A
meaning is a tuple that begins with `row`, `register`, `macro`, `char` or `number`.

A case is the word `case`, set-up words, and then calls. Bytes are in hexadecimal digits; `_` is nothing. Set-up words:
  steps=N mode=V|H|R job=HEX prefix=HEX         the steps that are left (100000), the mode, the main name, what stands before font files
  file=HEXNAME:HEXBYTES                         a file of the world
  text=HEX line=N name=HEX                      the text of the piece, the number of its first line (1), the name of its file (main.tex)
  set=CELL:VALUE                                what a cell holds at the start: count.N dimen.N skip.N toks.N box.N (width, height, depth)
                                                cat.CODE lc.CODE uc.CODE sf.CODE par.NAME counter.HEX pageform style size word.HEX active.CODE
A meaning is row=HEX, macro=FLAGS;PATTERN;BODY (`-` or `l` for long, and `oTEXT` for the default of an optional first argument),
char=CATEGORY.CODE, number=CODE, reg=CELL or none. The tokens of a pattern, a body or a token register are read from one line without an
end, where `#1` to `#9` are parameters and `##` is one character.
Calls, over one feeder: `n` the next token, `N` all up to the end or a fault (400 at most); `p`, `P` the same without expansion; `f` the
next of this text; `i` `d` `g` `kHEX` a number, a dimension, glue, a keyword; `q` the quantity of the next token; `w` a text in braces,
expanded to characters; `b` an expanded text behind its brace; `o` `c` open and close a group; `v` whether a conditional is open.
An answer is ANSWER@HEXFILE:LINE/LEFT, with the place and the steps that are left behind it: a token, `end`, `number:N`, `dimen:N`,
`skip:..`, `found1`, `notone`, `word:HEX`, `body:TOKEN,..`, `o`, `c`, `v1`, or `!KIND` for a fault, behind which nothing more is called.
The lines of the log follow as `log:HEX`."""
import gc
import sys
import threading
from collections import namedtuple

import scan
import text
from paper import Bad, Font

MOST_READINGS = 10000
MOST_CONDITIONALS = 10000
MOST_GROUPS = 10000
MOST_FILES = 100
MOST_TOKENS = 1000000
MOST_ANSWERS = 400
MOST_ROMAN = 100000

SPACE = 'c10:32'
END_GROUP = 'c2:125'
BRACKET = 'c12:91'
CLOSING_BRACKET = 'c12:93'
PAR = 'w' + b'par'.hex()
RELAX = 'w' + b'relax'.hex()


class Fault(Exception):
    """A kind, and a place of its own where it has one."""

    def __init__(self, kind, place=None):
        super().__init__(kind)
        self.kind = kind
        self.place = place


# ---- tokens

def word(name):
    return 'w' + name.hex()


def character(code):
    """A printed character: category 12, a space 10."""
    return SPACE if code == 32 else f'c12:{code}'


def printed(line):
    return [character(code) for code in line.encode('latin-1')]


def is_character(token):
    return token.startswith('c')


def has_meaning(token):
    return token[0] in 'wa'


def is_space(token):
    return token.startswith('c10:')


def opens_group(token):
    return token.startswith('c1:')


def closes_group(token):
    return token.startswith('c2:')


def code_of(token):
    return int(token.partition(':')[2])


def category_of(token):
    return int(token[1:].partition(':')[0])


# ---- reading

def lower_hexadecimal(codes):
    return all(chr(code) in '0123456789abcdef' for code in codes)


def examine(codes, category):
    """Takes the next character off a line, which stands in reverse; two marks are replaced as often as they stand there."""
    while True:
        code = codes.pop()
        if category(code) != text.SUPERSCRIPT or len(codes) < 2 or codes[-1] != code:
            return code
        if len(codes) >= 3 and lower_hexadecimal(codes[-3:-1]):
            replaced = int(chr(codes[-2]) + chr(codes[-3]), 16)
            del codes[-3:]
        elif codes[-2] < 128:
            replaced = codes[-2] ^ 64
            del codes[-2:]
        else:
            return code
        codes.append(replaced)


class Line:
    """What is left of a line, in reverse, and the reader state."""

    def __init__(self, codes):
        self.codes = list(reversed(codes))
        self.state = 'N'

    def token(self, category):
        """The next token of the line, None where there is none."""
        while self.codes:
            code = examine(self.codes, category)
            of = category(code)
            if of == text.ESCAPE:
                return word(self.name(category))
            if of == text.END_OF_LINE:
                self.codes.clear()
                return {'N': PAR, 'M': SPACE, 'S': None}[self.state]
            if of == text.SPACE:
                if self.state == 'M':
                    self.state = 'S'
                    return SPACE
            elif of == text.COMMENT:
                self.codes.clear()
            elif of == text.INVALID:
                raise Fault('Invalid')
            elif of != text.IGNORED:
                self.state = 'M'
                return f'a{code}' if of == text.ACTIVE else f'c{of}:{code}'
        return None

    def name(self, category):
        """The name of a control sequence, whose escape was taken."""
        self.state = 'S'
        if not self.codes:
            return b''
        code = examine(self.codes, category)
        if category(code) != text.LETTER:
            self.state = 'S' if category(code) == text.SPACE else 'M'
            return bytes([code])
        name = [code]
        while self.codes:
            code = examine(self.codes, category)
            if category(code) != text.LETTER:
                self.codes.append(code)
                break
            name.append(code)
        return bytes(name)


class Text:
    """What is left of a file: the present line, and the lines after it."""

    def __init__(self, name, number, data):
        self.name = name
        self.number = number
        self.after = [list(line.rstrip(b' ')) + [13] for line in text.lines(data)]
        self.after.reverse()
        self.line = Line(self.after.pop() if self.after else [])

    def token(self, category):
        """The next token, None where the text ends; the line moves on where one of another line is wanted."""
        while True:
            token = self.line.token(category)
            if token is not None or not self.after:
                return token
            self.line = Line(self.after.pop())
            self.number += 1

    def end_after_line(self):
        self.after.clear()


# ---- cells

Macro = namedtuple('Macro', 'kind long first pattern body')

ORDERS = {'finite': 0, 'fil': 1}
FORMS = {'arabic', 'roman', 'Roman', 'alph', 'Alph'}
NO_GLUE = (0, 0, 0, 0, 0)
VOID = (0, 0, 0)


def start_meanings():
    meanings = {word(name.encode()): ('row', name) for name in text.COMMANDS}
    for name in text.PARAMETERS:
        meanings[word(name.encode())] = ('register', f'par {name}')
    return meanings


def start_values():
    values = {'page form': 'arabic', 'style': 0, 'size': 4}
    for code in range(256):
        letter = code < 128 and chr(code).isalpha()
        values[f'cat {code}'] = text.category(code)
        values[f'lc {code}'] = ord(chr(code).lower()) if letter else 0
        values[f'uc {code}'] = ord(chr(code).upper()) if letter else 0
        values[f'sf {code}'] = text.space_factor(code)
    for name, number in text.NUMBERS.items():
        values[f'par {name}'] = number
    for name, size in text.DIMENSIONS.items():
        values[f'par {name}'] = 65536 * size
    for name, (width, stretch, order) in text.GLUES.items():
        values[f'par {name}'] = (65536 * width, 65536 * stretch, ORDERS[order], 0, 0)
    for name, number in zip(text.DATES, (1776, 7, 4, 720)):
        values[f'par {name}'] = number
    for name in text.COUNTERS:
        values[f'counter {name.encode().hex()}'] = int(name == 'page')
    for name in ('secnumdepth', 'tocdepth'):
        values[f'counter {name.encode().hex()}'] = 2
    return values


START_MEANINGS = start_meanings()
START_VALUES = start_values()
REGISTER_KINDS = {'count': ('n', 0), 'dimen': ('d', 0), 'skip': ('g', NO_GLUE)}
REFUSED = {word(name.encode()): f'{kind}Refused' for name, kind in text.REFUSED.items()}


class Cells:
    """The world and the state; the meanings of the earlier states, one for each open group."""

    def __init__(self):
        self.meanings = dict(START_MEANINGS)
        self.values = dict(START_VALUES)
        self.earlier = []
        self.files = {}
        self.job = b'main'
        self.prefix = b''

    def category(self, code):
        return self.values[f'cat {code}']

    def open_group(self):
        if len(self.earlier) == MOST_GROUPS:
            raise Fault('DepthLimit')
        self.earlier.append(dict(self.meanings))

    def close_group(self):
        if not self.earlier:
            raise Fault('GroupExtra')
        self.meanings = self.earlier.pop()

    def quantity(self, cell):
        """The quantity of a register or parameter, None for a token register."""
        kind, name = cell.split()
        if kind == 'par':
            kind = {'count': 'count', 'dimen': 'dimen', 'glue': 'skip'}[text.PARAMETER_KINDS[name]]
        if kind == 'toks':
            return None
        letter, nothing = REGISTER_KINDS[kind]
        return letter, self.values.get(cell, nothing)


# ---- printing

def print_scaled(size):
    sign = '-' if size < 0 else ''
    whole, rest = divmod(abs(size), 65536)
    digits = ''
    rest = 10 * rest + 5
    delta = 10
    while True:
        if delta > 65536:
            rest -= 17232
        digits += str(rest // 65536)
        rest = 10 * (rest % 65536)
        delta *= 10
        if rest <= delta:
            return f'{sign}{whole}.{digits}'


def print_glue(width, stretch, stretch_order, shrink, shrink_order):
    units = ('pt', 'fil', 'fill', 'filll')
    line = print_scaled(width) + 'pt'
    if stretch != 0:
        line += ' plus ' + print_scaled(stretch) + units[stretch_order]
    if shrink != 0:
        line += ' minus ' + print_scaled(shrink) + units[shrink_order]
    return line


def print_quantity(letter, value):
    if letter == 'n':
        return str(value)
    return print_scaled(value) + 'pt' if letter == 'd' else print_glue(*value)


ROMAN = (
    (1000, 'm'), (900, 'cm'), (500, 'd'), (400, 'cd'), (100, 'c'), (90, 'xc'), (50, 'l'), (40, 'xl'), (10, 'x'), (9, 'ix'), (5, 'v'),
    (4, 'iv'), (1, 'i'))


def roman(number):
    if number > MOST_ROMAN:
        raise Fault('CounterTooLarge')
    line = ''
    for value, letters in ROMAN:
        while number >= value:
            line += letters
            number -= value
    return line


def letter(number):
    if not 0 <= number <= 26:
        raise Fault('CounterTooLarge')
    return ' abcdefghijklmnopqrstuvwxyz'[number].strip()


def in_form(number, form):
    if form == 'arabic':
        return str(number)
    line = roman(number) if form.lower() == 'roman' else letter(number)
    return line.upper() if form[0].isupper() else line


# ---- the feeder

READING, FI, ELSE, OR = range(4)
PARTS = {'fi': FI, 'else': ELSE, 'or': OR}
TESTS = {'if', 'ifcat', 'ifx', 'ifnum', 'ifdim', 'ifodd', 'ifcase', 'ifvmode', 'ifhmode', 'iftrue', 'iffalse'}
CODES = {'catcode': 'cat', 'lccode': 'lc', 'uccode': 'uc', 'sfcode': 'sf'}
SIDES = ('wd', 'ht', 'dp')


class Conditional:
    """An open conditional: the last part that can still come, or that its condition is still read."""

    def __init__(self):
        self.limit = READING


def must(token):
    """A token that a command has to take."""
    if token is None:
        raise Fault('Runaway')
    return token


class Feeder:
    def __init__(self, cells, name, number, data, steps, mode):
        self.cells = cells
        self.piece = Text(name, number, data)
        self.list = [self.piece]
        self.pending = 0
        self.texts = 1
        self.place = name, number
        self.left = steps
        self.mode = mode
        self.conditionals = []
        self.readings = 0
        self.in_body = False
        self.log = []

    # taking

    def step(self):
        if self.left == 0:
            raise Fault('StepLimit')
        self.left -= 1

    def pending_token(self):
        self.step()
        self.pending -= 1
        return self.list.pop()

    def of_text(self, file):
        """The next token of a text, None where it ends. Its place is taken before its step, and so is that of an invalid character."""
        try:
            token = file.token(self.cells.category)
        except Fault:
            self.place = file.name, file.number
            self.step()
            raise
        if token is not None:
            self.place = file.name, file.number
            self.step()
        return token

    def plain(self, skipping=False):
        """The next token as it is, None where the piece ends. A text is open until its end is found here. No text may end in an expanded
        body."""
        while self.list:
            if isinstance(self.list[-1], str):
                return self.pending_token()
            token = self.of_text(self.list[-1])
            if token is not None:
                return token
            if self.in_body and not skipping:
                raise Fault('Runaway')
            self.list.pop()
            self.texts -= 1
        return None

    def in_file(self):
        """The next token as it is, None where a text ends before it; that text stays."""
        if not self.list:
            return None
        if isinstance(self.list[-1], str):
            return self.pending_token()
        return self.of_text(self.list[-1])

    def back(self, *tokens):
        """Puts tokens before the rest."""
        if self.pending + len(tokens) > MOST_TOKENS:
            raise Fault('DepthLimit')
        self.list += reversed(tokens)
        self.pending += len(tokens)

    def innermost(self):
        return next((item for item in reversed(self.list) if not isinstance(item, str)), None)

    # readings inside one another

    def begin(self):
        if self.readings == MOST_READINGS:
            raise Fault('DepthLimit')
        self.readings += 1

    def end(self):
        self.readings -= 1

    # meanings

    def meaning(self, token):
        """A character has itself; None where there is none."""
        if is_character(token):
            return 'char', category_of(token), code_of(token)
        return self.cells.meanings.get(token) if has_meaning(token) else ('parameter', token)

    def row(self, token):
        meaning = self.meaning(token)
        return meaning[1] if meaning and meaning[0] == 'row' else None

    def can_expand(self, token):
        """Whether \\noexpand has an effect on it: a name without meaning counts."""
        meaning = self.meaning(token)
        return meaning is None or meaning[0] == 'macro' or self.row(token) in EXPANDABLE

    # expansion

    def expanded(self, body=None):
        """The next token that is not expanded, and whether it could be but for \\noexpand. The tokens of a register go to the body, where
        one is read."""
        while True:
            token = self.plain()
            if token is None:
                return None, False
            row = self.row(token)
            if row == 'noexpand':
                kept = must(self.plain())
                return kept, self.can_expand(kept)
            if not self.can_expand(token):
                return token, False
            if row == 'the' and body is not None:
                self.the(body)
            else:
                self.expand(token)

    def next(self):
        return self.expanded()[0]

    def expand(self, token):
        meaning = self.meaning(token)
        if meaning is None:
            raise Fault(REFUSED.get(token, 'Undefined'))
        if meaning[0] == 'macro':
            self.macro(meaning)
        elif meaning[1] in PARTS:
            self.part(token, meaning[1])
        elif meaning[1] in TESTS:
            self.conditional(meaning[1])
        else:
            EXPANDABLE[meaning[1]](self)

    def macro(self, macro):
        arguments = self.arguments(macro)
        tokens = []
        for token in macro.body:
            tokens += arguments[int(token[1:]) - 1] if token.startswith('#') else [token]
        self.back(*tokens)

    def expand_after(self):
        self.begin()
        first = must(self.plain())
        second = must(self.plain())
        if self.can_expand(second) and self.row(second) != 'noexpand':
            self.expand(second)
        else:
            self.back(second)
        self.end()
        self.back(first)

    def control_sequence(self):
        """\\csname: one without meaning becomes \\relax in this group."""
        self.begin()
        name = []
        while True:
            token = must(self.next())
            if self.row(token) == 'endcsname':
                break
            if not is_character(token):
                raise Fault('TokenMisplaced')
            name.append(code_of(token))
        self.end()
        token = word(bytes(name))
        if token not in self.cells.meanings:
            self.cells.meanings[token] = ('row', 'relax')
        self.back(token)

    def string(self):
        token = must(self.plain())
        if token.startswith('w'):
            codes = b'\\' + bytes.fromhex(token[1:])
        elif token.startswith('#'):
            codes = token.encode()
        else:
            codes = [int(token[1:]) if token.startswith('a') else code_of(token)]
        self.back(*map(character, codes))

    def print(self, line):
        self.back(*printed(line))

    def number_printed(self):
        self.print(str(self.number()))

    def roman_printed(self):
        self.print(roman(self.number()))

    def job_name(self):
        self.back(*map(character, self.cells.job))

    def the_page(self):
        form = self.cells.values['page form']
        self.print(in_form(self.counter(b'page'), form))

    def counter(self, name):
        number = self.cells.values.get(f'counter {name.hex()}')
        if number is None:
            raise Fault('NoCounter')
        return number

    def the(self, body=None):
        self.begin()
        token = must(self.next())
        tokens = self.register_tokens(token)
        if tokens is None:
            quantity = self.quantity(token)
            if quantity is None:
                raise Fault('TokenMisplaced')
            tokens = printed(print_quantity(*quantity))
            body = None
        self.end()
        if body is None:
            self.back(*tokens)
        else:
            put(body, doubled(tokens))

    def register_tokens(self, token):
        """The tokens of the token register that begins with this token, None where none does."""
        meaning = self.meaning(token)
        if meaning == ('row', 'toks'):
            return self.cells.values.get(f'toks {self.register_number()}', ())
        if meaning and meaning[0] == 'register' and meaning[1].startswith('toks'):
            return self.cells.values.get(meaning[1], ())
        return None

    # files

    def input(self):
        self.begin()
        name = self.file_name()
        self.end()
        if b'.' not in name.rpartition(b'/')[2]:
            name += b'.tex'
        if name not in self.cells.files:
            raise Fault('FileMissing')
        if self.texts > MOST_FILES:
            raise Fault('DepthLimit')
        self.texts += 1
        self.log.append(b'File ' + name + b'\n')
        self.list.append(Text(name, 1, self.cells.files[name]))

    def file_name(self):
        """In braces, or up to a space or before a token that is no character. The brace is looked for in tokens as they are."""
        token = must(self.plain())
        while token == SPACE:
            token = must(self.plain())
        if opens_group(token):
            return self.to_characters(self.group())
        self.back(token)
        return self.bare_name()

    def bare_name(self):
        """The name is not at its end where the piece is."""
        token = must(self.next())
        while is_space(token):
            token = must(self.next())
        name = []
        while is_character(token) and not is_space(token):
            name.append(code_of(token))
            token = must(self.next())
        if not is_character(token):
            self.back(token)
        return bytes(name)

    def end_input(self):
        if text := self.innermost():
            text.end_after_line()

    # texts expanded to characters, and expanded bodies

    def word(self):
        self.begin()
        name = self.to_characters(self.undelimited(long=True))
        self.end()
        return name

    def to_characters(self, argument):
        """Puts an argument back with an end group after it, and expands up to that."""
        self.back(*argument, END_GROUP)
        name = []
        depth = 0
        while True:
            token = must(self.next())
            if not is_character(token):
                raise Fault('TokenMisplaced')
            depth += opens_group(token) - closes_group(token)
            if depth < 0:
                return bytes(name)
            name.append(code_of(token))

    def body(self):
        """An expanded text whose opening brace was taken."""
        self.in_body = True
        body = []
        depth = 0
        while True:
            token = must(self.expanded(body)[0])
            depth += opens_group(token) - closes_group(token)
            if depth < 0:
                self.in_body = False
                return body
            put(body, [token])

    # arguments

    def arguments(self, macro):
        found = []
        if macro.first is not None:
            found.append(self.optional(macro))
        front, parameters = parts_of_pattern(macro.pattern)
        for expected in front:
            if self.in_file() != expected:
                raise Fault('UseMismatch')
        for delimiter in parameters:
            found.append(self.delimited(delimiter, macro.long) if delimiter else self.undelimited(macro.long))
        return found

    def optional(self, macro):
        """The argument in brackets, or its default where no bracket comes; a text may end before it."""
        token = self.in_file()
        while token == SPACE:
            token = self.in_file()
        if token == BRACKET:
            return self.delimited([CLOSING_BRACKET], macro.long)
        if token is not None:
            self.back(token)
        return macro.first

    def argument_token(self, long):
        token = must(self.in_file())
        if token == PAR and not long:
            raise Fault('Runaway')
        return token

    def undelimited(self, long):
        token = self.argument_token(long)
        while token == SPACE:
            token = self.argument_token(long)
        if closes_group(token):
            raise Fault('UseMismatch')
        return self.group(long) if opens_group(token) else [token]

    def group(self, long=True):
        """The tokens of a group whose opening brace was taken."""
        found = []
        depth = 0
        while True:
            token = self.argument_token(long)
            depth += opens_group(token) - closes_group(token)
            if depth < 0:
                return found
            put(found, [token])

    def delimited(self, delimiter, long):
        """The shortest balanced list that the delimiter follows."""
        found = []
        depth = 0
        while True:
            token = must(self.in_file())
            found.append(token)
            if depth == 0 and found[-len(delimiter):] == delimiter:
                return without_braces(found[:-len(delimiter)])
            depth += opens_group(token) - closes_group(token)
            if depth < 0:
                raise Fault('UseMismatch')
            begun = begun_delimiter(found, delimiter) if depth == 0 else 0
            if not long and PAR in found[-len(delimiter):] and PAR in found[:len(found) - begun]:
                raise Fault('Runaway')
            if len(found) - begun > MOST_TOKENS:
                raise Fault('DepthLimit')

    # conditionals

    def conditional(self, test):
        if len(self.conditionals) == MOST_CONDITIONALS:
            raise Fault('DepthLimit')
        mine = Conditional()
        self.conditionals.append(mine)
        if test == 'ifcase':
            self.case(mine)
        elif self.holds(test):
            mine.limit = ELSE
        else:
            self.otherwise(mine, self.next_part(mine))

    def case(self, mine):
        part = self.number()
        while part != 0:
            stopper = self.next_part(mine)
            if stopper != 'or':
                self.otherwise(mine, stopper)
                return
            part -= 1
        mine.limit = OR

    def otherwise(self, mine, stopper):
        if stopper == 'or':
            raise Fault('ExtraFi')
        if stopper == 'else':
            mine.limit = FI
        else:
            self.conditionals.pop()

    def next_part(self, mine):
        """Skips up to a part of this conditional, over the ends of those that its condition left open."""
        while True:
            stopper = self.skip()
            if self.conditionals[-1] is mine:
                return stopper
            if stopper == 'fi':
                self.conditionals.pop()

    def skip(self):
        depth = 0
        while True:
            token = self.plain(skipping=True)
            if token is None:
                raise Fault('IfOpen')
            row = self.row(token)
            if depth == 0 and row in PARTS:
                return row
            depth += (row in TESTS) - (row == 'fi')

    def part(self, token, part):
        if not self.conditionals:
            raise Fault('ExtraFi')
        mine = self.conditionals[-1]
        if mine.limit == READING:
            self.back(RELAX, token)
            return
        if PARTS[part] > mine.limit:
            raise Fault('ExtraFi')
        while part != 'fi':
            part = self.skip()
        self.conditionals.pop()

    def holds(self, test):
        if test in ('iftrue', 'iffalse'):
            return test == 'iftrue'
        if test in ('ifvmode', 'ifhmode'):
            return (self.mode == 'V') == (test == 'ifvmode')
        if test == 'ifx':
            left, right = must(self.plain()), must(self.plain())
            return self.meaning(left) == self.meaning(right)
        if test == 'ifodd':
            return self.number() % 2 == 1
        if test in ('if', 'ifcat'):
            left, right = self.compared(), self.compared()
            return left[test == 'ifcat'] == right[test == 'ifcat']
        return self.related(self.number if test == 'ifnum' else self.dimension)

    def related(self, reading):
        left = reading()
        relation = must(self.next())
        while is_space(relation):
            relation = must(self.next())
        if relation not in RELATIONS:
            raise Fault('TokenMisplaced')
        right = reading()
        return RELATIONS[relation](left, right)

    def compared(self):
        """The code and category of the next expanded token."""
        token, protected = self.expanded()
        if protected and must(token).startswith('a'):
            return int(token[1:]), text.ACTIVE
        meaning = self.meaning(must(token))
        if meaning is not None and meaning[0] == 'char':
            return meaning[2], meaning[1]
        return 256, 16

    # readings

    def scan(self, kind):
        self.begin()
        items = []
        end, answer = 'open', 'x'
        while end == 'open':
            items.append(self.given(answer, items))
            end, answer = scan.judged(kind, items)
        words = answer.split()
        if end == 'fault':
            raise Fault(words[1])
        self.back(*words[words.index('back') + 1:])
        self.end()
        return words[1]

    def given(self, want, items):
        """What a scan wants, as the texts of scan.py."""
        if want == 'x':
            return self.next() or 'e'
        if want == 'p':
            return self.plain() or 'e'
        if want == 'q':
            return quantity_text(self.quantity(items[-1]))
        x_height, quad = self.font().parameters()[4:6]
        return f'd{quad if want == "m" else x_height}'

    def number(self):
        return int(self.scan('number'))

    def dimension(self):
        return int(self.scan('dimen'))

    def code_number(self):
        number = self.number()
        if not 0 <= number <= 255:
            raise Fault('BadCode')
        return number

    register_number = code_number

    def quantity(self, token):
        """The letter and the value of the quantity that begins with this token, None where none does."""
        meaning = self.meaning(token)
        if meaning is None:
            return None
        if meaning[0] == 'register':
            return self.cells.quantity(meaning[1])
        if meaning[0] == 'number':
            return 'n', meaning[1]
        return self.quantity_of_row(meaning[1]) if meaning[0] == 'row' else None

    def quantity_of_row(self, row):
        if row in REGISTER_KINDS:
            return self.cells.quantity(f'{row} {self.register_number()}')
        if row in CODES:
            return 'n', self.cells.values[f'{CODES[row]} {self.code_number()}']
        if row in SIDES:
            return 'd', self.cells.values.get(f'box {self.register_number()}', VOID)[SIDES.index(row)]
        return ('n', self.counter(self.word())) if row == 'value' else None

    def font(self):
        name = self.cells.prefix + text.STYLES[self.cells.values['style']].encode() + b'.tfm'
        data = self.cells.files.get(name)
        if data is None:
            raise Fault('FontMissing')
        try:
            return Font(data, text.scaled(text.SIZES[self.cells.values['size']]))
        except Bad as bad:
            raise Fault('BadTfm', (name, bad.args[1])) from bad


def counter_printed(form):
    return lambda feeder: feeder.print(in_form(feeder.counter(feeder.word()), form))


EXPANDABLE = {
    'expandafter': Feeder.expand_after, 'noexpand': None, 'csname': Feeder.control_sequence, 'string': Feeder.string,
    'number': Feeder.number_printed, 'romannumeral': Feeder.roman_printed, 'the': Feeder.the, 'jobname': Feeder.job_name,
    'input': Feeder.input, 'endinput': Feeder.end_input, 'thepage': Feeder.the_page,
    **{form: counter_printed(form) for form in FORMS}, **dict.fromkeys(TESTS), **dict.fromkeys(PARTS)}
RELATIONS = {'c12:60': int.__lt__, 'c12:61': int.__eq__, 'c12:62': int.__gt__}


def put(found, tokens):
    """Adds to a token list."""
    if len(found) + len(tokens) > MOST_TOKENS:
        raise Fault('DepthLimit')
    found += tokens


def doubled(tokens):
    """A body has a parameter character that is no parameter as two."""
    return [token for token in tokens for _ in range(2 if token.startswith('c6:') else 1)]


def parts_of_pattern(pattern):
    """The tokens before the first parameter, and for each parameter the tokens of its delimiter."""
    parts = [[]]
    for token in pattern:
        if token.startswith('#'):
            parts.append([])
        else:
            parts[-1].append(token)
    return parts[0], parts[1:]


def begun_delimiter(found, delimiter):
    """The number of tokens at the end that can be the beginning of the delimiter."""
    return max((k for k in range(1, len(delimiter)) if found[-k:] == delimiter[:k]), default=0)


def without_braces(tokens):
    """Takes the braces off a list that is one group."""
    if not tokens or not opens_group(tokens[0]) or not closes_group(tokens[-1]):
        return tokens
    depth = 0
    for token in tokens[:-1]:
        depth += opens_group(token) - closes_group(token)
        if depth == 0:
            return tokens
    return tokens[1:-1]


def quantity_text(quantity):
    if quantity is None:
        return 'q'
    kind, value = quantity
    return kind + ','.join(map(str, value if kind == 'g' else [value]))


# ---- cases

def token_list(digits):
    """A text within a line, where # and a digit are a parameter and ## is one #."""
    line = Line(b'' if digits == '_' else bytes.fromhex(digits))
    found = []
    token = line.token(text.category)
    while token is not None:
        if token == 'c6:35':
            token = line.token(text.category)
            if token != 'c6:35':
                token = f'#{int(chr(code_of(token)))}'
        found.append(token)
        token = line.token(text.category)
    return found


def given_register(cell):
    return 'register', cell.replace('.', ' ', 1)


def given_macro(value):
    flags, pattern, body = value.split(';')
    first = token_list(flags[flags.index('o') + 1:]) if 'o' in flags else None
    return Macro('macro', flags[0] == 'l', first, tuple(token_list(pattern)), tuple(token_list(body)))


def given_meaning(value):
    kind, _, rest = value.partition('=')
    if kind == 'row':
        return 'row', bytes.fromhex(rest).decode('latin-1')
    if kind == 'macro':
        return given_macro(rest)
    if kind == 'char':
        category, code = rest.split('.')
        return 'char', int(category), int(code)
    return ('number', int(rest)) if kind == 'number' else given_register(rest)


def given_numbers(value):
    numbers = tuple(map(int, value.split(',')))
    return numbers if len(numbers) > 1 else numbers[0]


class Case:
    def __init__(self):
        self.cells = Cells()
        self.steps = 100000
        self.mode = 'V'
        self.name = b'main.tex'
        self.line = 1
        self.text = b''
        self.feeder = None
        self.answers = []

    # set-up

    def set_up(self, kind, value):
        if kind in ('job', 'prefix'):
            setattr(self.cells, kind, bytes.fromhex(value))
        elif kind in ('text', 'name'):
            setattr(self, kind, bytes.fromhex(value))
        elif kind in ('steps', 'line'):
            setattr(self, kind, int(value))
        elif kind == 'file':
            name, data = map(bytes.fromhex, value.split(':'))
            self.cells.files[name] = data
        elif kind == 'mode':
            self.mode = value
        else:
            self.set_cell(*value.split(':', 1))

    def set_cell(self, cell, value):
        kind, _, key = cell.partition('.')
        if kind in ('word', 'active'):
            token = ('w' if kind == 'word' else 'a') + key
            if value == 'none':
                self.cells.meanings.pop(token, None)
            else:
                self.cells.meanings[token] = given_meaning(value)
        elif kind == 'toks':
            self.cells.values[f'toks {key}'] = token_list(value)
        elif kind == 'pageform':
            self.cells.values['page form'] = value
        else:
            self.cells.values[f'{kind} {key}'.rstrip()] = given_numbers(value)

    # calls

    def show(self, answer, place=None):
        name, line = place or self.feeder.place
        self.answers.append(f'{answer}@{name.hex()}:{line}/{self.feeder.left}')

    def again(self, take):
        for _ in range(MOST_ANSWERS):
            token = take()
            self.show(token or 'end')
            if token is None:
                break

    def quantity(self):
        token = self.feeder.next()
        if token is None:
            return 'end'
        quantity = self.feeder.quantity(token)
        names = {'n': 'number', 'd': 'dimen', 'g': 'skip'}
        return names[quantity[0]] + ':' + quantity_text(quantity)[1:] if quantity else 'notone'

    def body(self):
        token = self.feeder.next()
        if token is None or not opens_group(token):
            return token or 'end'
        return 'body:' + (','.join(self.feeder.body()) or '_')

    def group(self, change, answer):
        change()
        return answer

    def call(self, name):
        feeder = self.feeder
        one = {
            'n': lambda: feeder.next() or 'end', 'p': lambda: feeder.plain() or 'end', 'f': lambda: feeder.in_file() or 'end',
            'i': lambda: 'number:' + feeder.scan('number'), 'd': lambda: 'dimen:' + feeder.scan('dimen'),
            'g': lambda: 'skip:' + feeder.scan('glue'), 'k': lambda: 'found' + feeder.scan('word:' + name[1:]),
            'q': self.quantity, 'w': lambda: 'word:' + (feeder.word().hex() or '_'), 'b': self.body,
            'o': lambda: self.group(self.cells.open_group, 'o'), 'c': lambda: self.group(self.cells.close_group, 'c'),
            'v': lambda: f'v{int(bool(feeder.conditionals))}'}
        if name in 'NP':
            self.again(feeder.next if name == 'N' else feeder.plain)
        else:
            self.show(one[name[0]]())

    def run(self, words):
        for word_of_case in words:
            kind, mark, value = word_of_case.partition('=')
            if mark:
                self.set_up(kind, value)
                continue
            if self.feeder is None:
                self.feeder = Feeder(self.cells, self.name, self.line, self.text, self.steps, self.mode)
            try:
                self.call(word_of_case)
            except Fault as fault:
                self.show(f'!{fault.kind}', fault.place)
                break
        return ' '.join([*self.answers, *(f'log:{line.hex()}' for line in self.feeder.log)])


def main():
    for line in sys.stdin:
        print(Case().run(line.split()[1:]))


def with_deep_stack(run):
    """Readings stand inside one another 10,000 deep, each in several calls, which the collector would go through again and again."""
    gc.disable()
    sys.setrecursionlimit(1000000)
    threading.stack_size(1 << 29)
    thread = threading.Thread(target=run)
    thread.start()
    thread.join()


if __name__ == '__main__':
    with_deep_stack(main)
