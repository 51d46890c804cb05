#!/usr/bin/env python3
"""Says what lb_tests_text has to print: reads its commands from standard input, and the files from the
folder that is given (crates/lb_tests_text/data). Written from the rules alone: a state is a dictionary,
groups of saves are lists, and a line is rewritten as a list of codes."""
import sys
from pathlib import Path

from paper import Bad, Font, decimals

# ---- names with a meaning at the start

COMMANDS = r'''
\ \relax \expandafter \noexpand \csname \endcsname \string \number \romannumeral \the \jobname \if \ifcat
\ifx \ifnum \ifdim \ifodd \ifcase \ifvmode \ifhmode \iftrue \iffalse \or \else \fi \newif \input \endinput
\arabic \roman \Roman \alph \Alph \value \thepage \long \global \def \gdef \edef \xdef \let \futurelet \chardef
\countdef \dimendef \skipdef \toksdef \count \dimen \skip \toks \advance \multiply \divide \catcode \lccode
\uccode \sfcode \newcount \newdimen \newskip \newlength \newtoks \newsavebox \newcommand \renewcommand
\providecommand \newenvironment \renewenvironment \begingroup \endgroup \aftergroup \uppercase \lowercase \hbox
\vbox \setbox \box \copy \wd \ht \dp \raise \lower \hrule \vrule \par \indent \noindent \leavevmode \hskip
\hfil \hfill \hss \vskip \vfil \vfill \vss \kern \penalty \unskip \ignorespaces \/ \- \discretionary \vadjust
\@ins \\ \hspace \vspace \documentclass \includeonly \begin \end \include \newcounter \setcounter \addtocounter
\stepcounter \refstepcounter \label \ref \pageref \typeout \pagestyle \thispagestyle \pagenumbering \markboth
\markright \addcontentsline \@style \@size \@matter \@plainnext \@toc \@head \contentsline \@list \item \@endlist
\char
'''.split()
COMMANDS = {name[1:] if len(name) > 1 else ' ' for name in COMMANDS}

NUMBERS = {
    'pretolerance': 100, 'tolerance': 200, 'linepenalty': 10, 'hyphenpenalty': 50, 'exhyphenpenalty': 50,
    'adjdemerits': 10000, 'doublehyphendemerits': 10000, 'finalhyphendemerits': 5000, 'clubpenalty': 150,
    'widowpenalty': 150, 'brokenpenalty': 100, 'interlinepenalty': 0}
DIMENSIONS = {
    'hsize': 345, 'textwidth': 345, 'textheight': 538, 'headheight': 12, 'headsep': 18, 'footskip': 25,
    'topmargin': 0, 'oddsidemargin': 0, 'evensidemargin': 0, 'parindent': 15, 'lineskiplimit': 0, 'maxdepth': 5}
GLUES = {
    'baselineskip': (12, 0, 'finite'), 'lineskip': (1, 0, 'finite'), 'parskip': (0, 1, 'finite'),
    'topskip': (10, 0, 'finite'), 'leftskip': (0, 0, 'finite'), 'rightskip': (0, 0, 'finite'),
    'parfillskip': (0, 1, 'fil')}
DATES = ('year', 'month', 'day', 'time')
PARAMETERS = {*NUMBERS, *DIMENSIONS, *GLUES, *DATES}

REFUSED = {}
for kind, names in (
        ('Math', r'\( \[ \ensuremath \math \displaymath \equation \eqnarray'),
        ('Align', r'\halign \valign \noalign \omit \span \cr \tabular \array \tabbing'),
        ('Package', r'\usepackage \RequirePackage'),
        ('Command', r'\part \figure \table \special \read \openin \openout \write \outer \font \accent \verb '
                    r'\verbatim \vsplit \looseness \leaders \output \shipout \hangindent \hangafter \parshape')):
    for name in names.split():
        REFUSED[name[1:]] = kind

COUNTERS = 'page equation enumi enumii enumiii enumiv footnote mpfootnote part chapter section subsection ' \
    'subsubsection paragraph subparagraph figure table'.split()
RESETS = {
    'chapter': 'section footnote equation figure table', 'section': 'subsection', 'subsection': 'subsubsection',
    'subsubsection': 'paragraph', 'paragraph': 'subparagraph'}

CATEGORIES = 'escape begingroup endgroup math alignment endofline parameter superscript subscript ignored space ' \
    'letter other active comment invalid'.split()
(ESCAPE, BEGIN_GROUP, END_GROUP, MATH, ALIGNMENT, END_OF_LINE, PARAMETER, SUPERSCRIPT, SUBSCRIPT, IGNORED, SPACE,
 LETTER, OTHER, ACTIVE, COMMENT, INVALID) = range(16)

SINGLE = {
    '\\': ESCAPE, '{': BEGIN_GROUP, '}': END_GROUP, '$': MATH, '&': ALIGNMENT, '\r': END_OF_LINE, '#': PARAMETER,
    '^': SUPERSCRIPT, '_': SUBSCRIPT, '\0': IGNORED, ' ': SPACE, '\t': SPACE, '~': ACTIVE, '\f': ACTIVE,
    '%': COMMENT, '\x7f': INVALID}


def category(code):
    char = chr(code)
    if code < 128 and char.isalpha():
        return LETTER
    return SINGLE.get(char, OTHER)


def space_factor(code):
    char = chr(code)
    if code < 128 and char.isupper():
        return 999
    if char in '.?!':
        return 3000
    if char in ")']":
        return 0
    return {':': 2000, ';': 1500, ',': 1250}.get(char, 1000)


def glue_text(width, stretch, order):
    return f'glue {width * 65536} {stretch * 65536} {order} 0 finite'


def at_start():
    """The state at the start: texts of values by texts of cells."""
    state = {}
    for name in sorted(COMMANDS):
        state[f'word {name}'] = f'command {name}'
    for name in sorted(PARAMETERS):
        state[f'word {name}'] = f'parameter {name}'
    for code in range(256):
        letter = code < 128 and chr(code).isalpha()
        state[f'cat {code}'] = f'category {CATEGORIES[category(code)]}'
        state[f'lc {code}'] = f'code {ord(chr(code).lower()) if letter else 0}'
        state[f'uc {code}'] = f'code {ord(chr(code).upper()) if letter else 0}'
        state[f'sf {code}'] = f'number {space_factor(code)}'
    for name, number in NUMBERS.items():
        state[f'par {name}'] = f'number {number}'
    for name, size in DIMENSIONS.items():
        state[f'par {name}'] = f'dimension {size * 65536}'
    for name, glue in GLUES.items():
        state[f'par {name}'] = glue_text(*glue)
    for name in COUNTERS:
        state[f'counter {name}'] = f'number {int(name == "page")}'
    state['counter secnumdepth'] = state['counter tocdepth'] = 'number 2'
    state['counters'] = 'names ' + ' '.join(COUNTERS)
    for name, list_of in RESETS.items():
        state[f'resets {name}'] = f'names {list_of}'
    for kind in ('count', 'dimen', 'skip', 'toks', 'boxed'):
        state[f'fresh {kind}'] = 'number 30'
    for cell, number in (('body', 0), ('toc', 0), ('matter', 1), ('style', 0), ('size', 4)):
        state[cell] = f'number {number}'
    state['pageform'] = 'form arabic'
    state['pagestyle'] = 'style plain'
    state['currentlabel'] = 'text of 0 bytes'
    state['env'] = 'name '
    return state


# ---- cells over a world and a state

WORLD = {'job': 'name main', 'prefix': 'name fonts/', 'steps': 'steps 50000000'}
MOMENT = {'par year': 1999, 'par month': 12, 'par day': 31, 'par time': 1439}


class Cells:
    def __init__(self, folder):
        self.folder = folder
        self.state = at_start()
        self.saves = []

    def value(self, cell):
        return self.state.get(cell, 'none')

    def get(self, cell):
        if cell in WORLD:
            return WORLD[cell]
        if cell.startswith('file '):
            file = self.folder / cell[len('file '):].replace('/', '-')
            return f'text of {file.stat().st_size} bytes' if file.is_file() else 'absent'
        if cell in MOMENT and cell not in self.state:
            return f'number {MOMENT[cell]}'
        return self.state.get(cell, 'absent')

    def put(self, cell, value):
        if value == 'absent':
            self.state.pop(cell, None)
        else:
            self.state[cell] = value

    def set(self, cell, value, reach):
        self.put(cell, value)
        if reach == 'global':
            self.saves = [save if save and save[0] != cell else None for save in self.saves]

    def save(self, cell):
        self.saves.append((cell, self.state.get(cell, 'absent')))

    def back(self):
        save = self.saves.pop()
        if save:
            self.put(*save)


# ---- tokens of a line

def examined(codes, category_of):
    """The first character once two marks are replaced, and what is behind it."""
    while True:
        first = codes[0]
        if category_of(first) != SUPERSCRIPT or len(codes) < 3 or codes[1] != first:
            return first, codes[1:]
        digits = [chr(code) for code in codes[2:4]]
        if len(digits) == 2 and all(digit in '0123456789abcdef' for digit in digits):
            codes = [int(''.join(digits), 16), *codes[4:]]
        elif codes[2] < 128:
            codes = [codes[2] + 64 if codes[2] < 64 else codes[2] - 64, *codes[3:]]
        else:
            return first, codes[1:]


def control_sequence(codes, category_of):
    name = []
    if not codes:
        return name, 'S', codes
    first, rest = examined(codes, category_of)
    if category_of(first) != LETTER:
        return [first], 'S' if category_of(first) == SPACE else 'M', rest
    while True:
        name.append(first)
        codes = rest
        if not codes:
            return name, 'S', codes
        first, rest = examined(codes, category_of)
        if category_of(first) != LETTER:
            return name, 'S', codes


def tokens(codes, state, category_of):
    """The tokens of a line, as texts, and how it ends."""
    found = []
    while codes:
        code, codes = examined(codes, category_of)
        of = category_of(code)
        if of == ESCAPE:
            name, state, codes = control_sequence(codes, category_of)
            found.append('word:' + bytes(name).hex())
        elif of == END_OF_LINE:
            found += {'N': ['word:' + b'par'.hex()], 'M': ['space:32'], 'S': []}[state]
            break
        elif of == SPACE:
            if state == 'M':
                found.append('space:32')
                state = 'S'
        elif of == COMMENT:
            break
        elif of == IGNORED:
            pass
        elif of == INVALID:
            return found, 'invalid'
        else:
            found.append(f'active:{code}' if of == ACTIVE else f'{CATEGORIES[of]}:{code}')
            state = 'M'
    return found, 'end'


def lines(text):
    parts = text.split(b'\n')
    if parts[-1] == b'':
        parts.pop()
        last = None
    else:
        last = len(parts) - 1
    for at, part in enumerate(parts):
        if at != last and part.endswith(b'\r'):
            part = part[:-1]
        yield part


# ---- fonts by style and size

STYLES = 'cmr10 cmbx10 cmti10 cmsl10 cmtt10 cmss10'.split()
SIZES = '5 7 8 9 10 12 14.4 17.28 20.74 24.88'.split()
SKIPS = '6 8 9.5 11 12 14 18 22 25 30'.split()


def scaled(points):
    whole, _, fraction = points.partition('.')
    return int(whole) * 65536 + decimals(fraction)


def parts(words):
    """The parts of a command, which stand between semicolons."""
    found = [[]]
    for word in words:
        if word == ';':
            found.append([])
        else:
            found[-1].append(word)
    return [part for part in found if part]


# ---- readings, and numbers that cells are set to

READINGS = {
    'category': ('category',), 'factor': ('number',), 'number': ('number',), 'number-if-any': ('number',),
    'code': ('code',), 'style': ('number',), 'size': ('number',), 'steps': ('steps',), 'dimension': ('dimension',),
    'glue': ('glue',), 'meaning': ('command', 'parameter'), 'tokens': (), 'text': ('text',), 'names': ('names',),
    'name': ('name',), 'boxed': (), 'label': (), 'checkpoint': (), 'form': ('form',), 'pagestyle': ('style',)}
NOTHING = {
    'category': 'category other', 'factor': 'number 1000', 'number': 'number 0', 'code': 'code 0', 'style': 'number 0',
    'size': 'number 0', 'steps': 'steps 0', 'dimension': 'dimension 0', 'glue': 'glue 0 0 finite 0 finite'}
WORD = 2 ** 31 - 1
LENGTH = 2 ** 30 - 1
HELD = {
    'cat': ('category', 0, 15), 'lc': ('code', 0, 255), 'uc': ('code', 0, 255), 'sf': ('number', 0, 32767),
    'count': ('number', -WORD, WORD), 'counter': ('number', -WORD, WORD), 'dimen': ('dimension', -LENGTH, LENGTH),
    'fresh': ('number', 30, 256), 'body': ('number', 0, 1), 'toc': ('number', 0, 1), 'matter': ('number', 0, 2),
    'style': ('number', 0, 5), 'size': ('number', 0, 9)}
PARAMETER_KINDS = {
    **dict.fromkeys([*NUMBERS, 'year', 'month', 'day', 'time'], 'count'), **dict.fromkeys(DIMENSIONS, 'dimen'),
    **dict.fromkeys(GLUES, 'glue')}


class Program:
    def __init__(self, folder):
        self.folder = folder
        self.cells = Cells(folder)

    def get(self, words):
        return [self.cells.get(' '.join(words))]

    def change(self, words):
        kind, *rest, reach = words
        if kind == 'no-dimen':
            return self.cells.set(f'dimen {rest[0]}', 'absent', reach)
        cell = 'par year' if kind == 'year' else f'{kind} {rest[0]}'
        value = {'cat': 'category', 'dimen': 'dimension'}.get(kind, 'number')
        return self.cells.set(cell, f'{value} {rest[-1]}', reach)

    def set(self, words):
        self.change(words)
        return []

    def saved(self, words):
        cells = parts(words)
        return self.undo(cells[:1], cells[1:])

    def twice(self, words):
        cells = parts(words)
        return self.undo(cells[:2], cells[2:])

    def undo(self, cells, changes):
        """Saves cells, makes changes, and shows the cells then and as each save is undone."""
        for cell in cells:
            self.cells.save(' '.join(cell))
        for change in changes:
            self.change(change)
        answers = [self.cells.get(' '.join(cell)) for cell in cells]
        for _ in cells:
            self.cells.back()
            answers += [self.cells.get(' '.join(cell)) for cell in cells]
        return answers

    def over(self, words):
        for part in parts(words):
            at = part.index('=')
            self.cells.put(' '.join(part[:at]), ' '.join(part[at + 1:]))
        return []

    def file(self, words):
        return []

    def text(self, words):
        return [' '.join(words).replace('_', ' ')]

    def value(self, words):
        return [self.cells.value(' '.join(words).replace('_', ' '))]

    def tell(self, words):
        """What a reading tells of a cell: a value of its kind as it is, and any other as nothing."""
        kind, *cell = words
        value = self.cells.get(' '.join(cell).replace('_', ' '))
        if value.split()[0] in READINGS[kind]:
            return [value]
        return [NOTHING.get(kind, 'absent')]

    def held(self, words):
        *cell, number = words
        number = int(number)
        kind = cell[0]
        if kind == 'par':
            kind = PARAMETER_KINDS[cell[1]]
        name, least, most = HELD.get(kind, ('number', 1, 0))
        if not least <= number <= most:
            return ['none']
        return [f'{name} {CATEGORIES[number] if name == "category" else number}']

    def same(self, words):
        one, other = parts(words)
        return ['the same: ' + str(self.cells.get(' '.join(one)) == self.cells.get(' '.join(other))).lower()]

    def row(self, words):
        name = bytes.fromhex(words[0]).decode('latin-1') if words else ''
        if name in COMMANDS:
            return [f'command {name}']
        if name in PARAMETERS:
            return [f'parameter {name}']
        if name in REFUSED:
            return [f'refused {REFUSED[name]}']
        return ['no row']

    def read(self, words):
        """The tokens of a line, `read STATE HEX`."""
        state, text = words[0], words[1] if len(words) > 1 else ''

        def category_of(code):
            return CATEGORIES.index(self.cells.get(f'cat {code}').split()[1])
        found, end = tokens(list(bytes.fromhex(text)), state, category_of)
        return [' '.join([*found, end])]

    def gets(self, words):
        letters = [code for code in range(256) if self.cells.get(f'cat {code}') == 'category letter']
        rounds, more = divmod(int(words[0]), 256)
        return [f'{rounds * len(letters) + sum(code < more for code in letters)} letters']

    def reads(self, words):
        found = self.read(['N', words[1]])[0].split()
        return [f'{int(words[0]) * (len(found) - 1)} tokens']

    def lines(self, words):
        text = bytes.fromhex(words[0]) if words else b''
        return [f'{part.hex()}: {part.rstrip(b" ").hex()}0d' for part in lines(text)] + ['no more']

    def select(self, words):
        style, size = map(int, words)
        if style not in range(6) or size not in range(10):
            return ['fault BadCode']
        return [f'{STYLES[style]} at {scaled(SIZES[size])}']

    def skip(self, words):
        size = int(words[0])
        return [f'skip {scaled(SKIPS[size])}' if size in range(10) else 'no size']

    def load(self, words):
        name, size = words[0], int(words[1])
        file = self.folder / f'fonts-{name}.tfm'
        if not file.is_file():
            return ['fault FontMissing']
        try:
            font = Font(file.read_bytes(), size)
        except Bad as bad:
            return [f'fault BadTfm fonts/{name}.tfm:{bad.args[1]}']
        space = font.parameters()[1]
        return [f'{name} at {size}: space {space}, characters {sum(font.exists(code) for code in range(256))}']


def main():
    program = Program(Path(sys.argv[1]))
    for line in sys.stdin:
        words = line.split()
        for answer in getattr(program, words[0])(words[1:]):
            print(answer)


if __name__ == '__main__':
    main()
