"""Headings, contents and lists for engine.py."""
import text
from engine_lists import FIL, Lists
from engine_nodes import glue_node
from engine_read import made, written
from engine_state import named
from expand import Fault, opens_group, word
from paper import LIMIT

TYPES = (b'chapter', b'section', b'subsection', b'subsubsection', b'paragraph', b'subparagraph')
NAMES = 'centering raggedright'.split()
SHAPES = {1: (6, 15, 10), 2: (5, 14, 6), 3: (4, 14, 6)}
INDENTS = (0, 15, 38, 70, 100, 120)
MARGINS = ('25', '22', '18.7', '17', '10', '10')
MOST_LISTS = 6
MOST_OF_KIND = 4
LIST_SKIP = (8 * 65536, 2 * 65536, 0, 4 * 65536, 0)
BULLETS = ('*', '-', '+', '.')
ENUMERATORS = (('enumi', r'\theenumi.'), ('enumii', r'(\theenumii)'), ('enumiii', r'\theenumiii.'), ('enumiv', r'\theenumiv.'))
NO_LENGTH = (0, 0, 0, 0, 0)


def group_of(tokens):
    return ['c1:123', *tokens, 'c2:125']


class Open:
    """An open list: its kind, its place among those of its kind, and its margin's place."""

    def __init__(self, kind, place, depth):
        self.kind, self.place, self.depth = kind, place, depth

    def margin(self):
        return text.scaled(MARGINS[self.depth])


class Parts(Lists):
    def __init__(self, *about):
        super().__init__(*about)
        self.lists = []

    # counters

    def counter_cell(self, name):
        """The cell of a counter that is there."""
        cell = named('counter', name)
        if self.cells.look(cell) is None:
            raise Fault('NoCounter')
        return cell

    def set_counter(self, name, number):
        self.cells.set(self.counter_cell(name), number)

    def step_counter(self, name, by=1, resets=True):
        cell = self.counter_cell(name)
        number = self.cells.look(cell) + by
        if abs(number) > text.WORD:
            raise Fault('Overflow')
        self.cells.set(cell, number)
        if resets:
            for inner in self.cells.look(named('resets', name)) or ():
                self.cells.set(named('counter', inner), 0)

    def label_counter(self, name):
        """The expanded printed form of a counter, which the next label has."""
        tokens = self.expanded_list([word(b'the' + name)])
        self.cells.set('currentlabel', written(tokens))
        return tokens

    # headings

    def head(self):
        n = self.number()
        if not 0 <= n <= 5:
            raise Fault('BadCode')
        star = self.star()
        short = self.bracket()
        title = self.argument()
        name = TYPES[n]
        deepest, matter = self.cells.look(named('counter', b'secnumdepth')), self.cells.look('matter')
        numbered = not star and n <= deepest and (n > 0 or matter == 1)
        if numbered:
            self.step_counter(name)
        style = self.cells.look('pagestyle')
        number = self.label_counter(name) if numbered else None
        short = title if short is None else short
        notes = [] if star else self.contents_tokens(name, number, short)
        if not star and style != 'myheadings' and n <= 1:
            notes += self.mark_tokens(n, number, short)
        heading = self.chapter_tokens if n == 0 else self.section_tokens if n <= 3 else self.paragraph_tokens
        self.back(*heading(n, name, numbered, notes, title))

    @staticmethod
    def contents_tokens(name, number, short):
        front = [] if number is None else [*made(r'\numberline'), *group_of(number)]
        return [*made(r'\addcontentsline{toc}{' + name.decode() + '}'), *group_of([*front, *short])]

    @staticmethod
    def mark_tokens(n, number, short):
        if n == 0:
            behind = [] if number is None else [*number, *made('. ')]
            return [*made(r'\markboth'), *group_of([*made(r'\@chapapp\ '), *behind, *short]), *group_of([])]
        front = [] if number is None else number
        return [*made(r'\markright'), *group_of([*front, *made(r'\ '), *short])]

    @staticmethod
    def chapter_tokens(n, name, numbered, notes, title):
        label = made(r'\@size8 \@chapapp\ \thechapter\par\vskip20pt\relax') if numbered else []
        return [
            *made(r'\clearpage\thispagestyle{plain}'), *notes, *made(r'\hbox{}\vskip50pt\relax{\parindent0pt\relax\bfseries'), *label,
            *made(r'\@size9 '), *title, *made(r'\par}\penalty10000\vskip40pt\relax\@plainnext')]

    @staticmethod
    def number_tokens(name, numbered):
        return [word(b'the' + name), *made(r'\quad')] if numbered else []

    def section_tokens(self, n, name, numbered, notes, title):
        size, before, after = SHAPES[n]
        return [
            *made(r'\par\penalty-300\vskip%dpt\relax' % before), *notes, *made(r'{\parindent0pt\relax\@size%d \bfseries' % size),
            *self.number_tokens(name, numbered), *title, *made(r'\par}\penalty10000\vskip%dpt\relax\@plainnext' % after)]

    def paragraph_tokens(self, n, name, numbered, notes, title):
        return [
            *made(r'\par\penalty-300\vskip14pt\relax'), *notes, *made(r'\noindent{\bfseries'), *self.number_tokens(name, numbered), *title,
            *made(r'}\hskip10pt\relax')]

    # contents

    def contents_line(self):
        kind = self.word()
        line, page = self.argument(), self.argument()
        self.drop_groups()
        level = TYPES.index(kind) if kind in TYPES else 9
        if level > self.cells.look(named('counter', b'tocdepth')):
            return
        indent = INDENTS[level] if level < 6 else 0
        space, bold = (made(r'\vskip10pt\relax'), made(r'\bfseries')) if level == 0 else ([], [])
        self.back(
            *made(r'\par'), *space, *made(r'{\parindent0pt\relax\leftskip%dpt\relax' % indent), *bold, *line, *made(r'\nobreak\hfil'), *page,
            *made(r'\parfillskip0pt\relax\par}'))

    def drop_groups(self):
        """Takes and drops groups that follow at once."""
        while (token := self.in_file()) is not None and opens_group(token):
            self.group()
        if token is not None:
            self.back(token)

    # lists

    def begin_list(self):
        self.not_restricted()
        kind = self.number()
        if not 0 <= kind <= 7:
            raise Fault('BadCode')
        place = sum(one.kind == kind for one in self.lists)
        if len(self.lists) == MOST_LISTS or kind <= 1 and place == MOST_OF_KIND:
            raise Fault('TooDeep')
        self.end_paragraph()
        self.append(glue_node(LIST_SKIP))
        self.lists.append(Open(kind, place, len(self.lists)))
        self.shape_list(self.lists[-1])

    def shape_list(self, one):
        if one.kind <= 4:
            self.widen('leftskip', one.margin())
            self.cells.set('par.parindent', 15 * 65536 if one.kind == 4 else 0)
        if one.kind in (3, 4):
            self.widen('rightskip', one.margin())
        if one.kind == 1:
            # set whatever it was, so it is not looked at
            self.cells.set(named('counter', ENUMERATORS[one.place][0].encode()), 0)
        if one.kind in (5, 6):
            self.back(word(NAMES[one.kind - 5].encode()))
        if one.kind == 7:
            self.cells.set('par.leftskip', FIL)
            self.cells.set('par.parfillskip', NO_LENGTH)
            self.cells.set('par.parindent', 0)

    def widen(self, name, by):
        width, *rest = self.cells.look(f'par.{name}')
        if abs(width + by) >= LIMIT:
            raise Fault('Overflow')
        self.cells.set(f'par.{name}', (width + by, *rest))

    def end_list(self):
        self.not_restricted()
        if not self.lists:
            raise Fault('ItemOutside')
        self.end_paragraph()
        self.lists.pop()
        self.append(glue_node(LIST_SKIP))

    def item(self):
        label = self.bracket()
        if not self.lists:
            raise Fault('ItemOutside')
        if self.mode != 'R':
            self.end_paragraph()
            self.begin_paragraph(False)
        # the number is stepped behind the paragraph before, which may ship a page
        self.back(*self.item_tokens(self.lists[-1], label))

    def item_tokens(self, one, label):
        if label is None:
            label = self.start_label(one)
        if one.kind == 2:
            margin = MARGINS[one.depth]
            return [*made(r'\hskip-' + margin + r'pt\relax\hbox{\bfseries'), *label, *made(r'}\hskip5pt')]
        return [*made(r'\hbox to0pt{\hss'), *label, *made(r'\hskip5pt}')]

    def start_label(self, one):
        if one.kind == 0:
            return made(BULLETS[one.place])
        if one.kind != 1:
            return []
        counter, line = ENUMERATORS[one.place]
        self.step_counter(counter.encode())
        return made(line)
