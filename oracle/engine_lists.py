"""Modes, paragraphs, boxes and pages for engine.py."""
import text
from engine_nodes import (
    chosen_breaks, glue_node, interline, lines_of, loaded, missing_width, notes_and_marks, packed, penalty, rule, word_nodes, Sized)
from engine_pages import Look, last_pages, next_page, page_box
from engine_read import Reader, written
from engine_state import PARAMETER_ORDER
from expand import END_GROUP, Fault, in_form, print_scaled
from paper import Bad
from paper_marks import Char, DimenTooLarge, marks

IGNORED_DEPTH = -1000 * 65536
THICKNESS = 26214
FIL = (0, 65536, 1, 0, 0)
FILL = (0, 65536, 2, 0, 0)
SS = (0, 65536, 1, 65536, 1)
PAGE_LENGTHS = ('topmargin', 'oddsidemargin', 'evensidemargin', 'textwidth', 'textheight', 'headheight', 'headsep', 'footskip')
STYLES = ('empty', 'plain', 'headings', 'myheadings')


class Level:
    """An open list: of the page, vertical, of a paragraph, or of an \\hbox."""

    def __init__(self, kind):
        self.kind = kind
        self.nodes = []
        self.factor = 1000
        self.prevdepth = IGNORED_DEPTH
        self.word = []
        self.font = None

    @property
    def mode(self):
        return {'page': 'V', 'vertical': 'V', 'paragraph': 'H', 'horizontal': 'R'}[self.kind]


class Page:
    """A page's code: its number, size and marks."""

    def __init__(self, number, box):
        self.number, self.height, self.width = number, box.height, box.width
        self.marks = marks(box)

    def shown(self):
        return ' '.join([f'page {self.number} {self.height} {self.width}', ','.join(self.words()) or '_'])

    def words(self):
        """The marks: `v` and `h` where they are not those behind the mark before, `f` where the font is another one."""
        h = v = font = None
        for mark in self.marks:
            if mark.v != v:
                yield f'v{mark.v}'
            if mark.h != h:
                yield f'h{mark.h}'
            h, v = mark.h, mark.v
            if isinstance(mark, Char):
                if mark.font != font:
                    font = mark.font
                    yield f'f{font.name.encode().hex()}.{font.size}.{font.check}.{font.design}'
                yield f'c{mark.code}.{mark.width}'
                h += mark.width
            else:
                yield f'r{mark.height}.{mark.width}'


class Log:
    """The lines of the log among the appends."""

    def __init__(self, appends):
        self.appends = appends

    def append(self, line):
        self.appends.append(('log', line))


class Lists(Reader):
    def __init__(self, cells, name, number, data, steps):
        super().__init__(cells, name, number, data, steps, 'V')
        self.appends = []
        self.log = Log(self.appends)
        self.levels = [Level('page')]
        self.plain_next = False
        self.skips_spaces = False

    @property
    def mode(self):
        return self.level.mode

    @mode.setter
    def mode(self, mode):
        pass

    @property
    def level(self):
        return self.levels[-1]

    def say(self, line):
        self.log.append(line.encode('latin-1') + b'\n')

    def say_at(self, line):
        name, number = self.place
        self.say(f"{line} at {name.decode('latin-1')}:{number}")

    # fonts and words

    def font(self):
        style, size = self.cells.look('style'), self.cells.look('size')
        return self.font_of(style, size)

    def font_of(self, style, size):
        name = text.STYLES[style]
        file = self.cells.prefix + name.encode() + b'.tfm'
        data = self.cells.files.get(file)
        if data is None:
            raise Fault('FontMissing')
        font = loaded(data, text.scaled(text.SIZES[size]))
        if isinstance(font, Bad):
            raise Fault('BadTfm', (file, font.args[1]))
        return Sized(font, name)

    def has(self, font, code):
        if not font.exists(code):
            self.say(f'Missing character {code} in {font.name.name}')
            return False
        return True

    def character(self, code):
        self.begin_in_vertical()
        font = self.font()
        if not self.has(font, code):
            return
        level = self.level
        level.word.append(code)
        level.font = font
        factor = self.cells.look(f'sf.{code}')
        if factor > 1000 > level.factor:
            level.factor = 1000
        elif factor != 0:
            level.factor = factor

    def finish_word(self):
        level = self.level
        if level.word:
            codes, level.word = level.word, []
            level.nodes += word_nodes(level.font, codes, self.step)

    def space(self, factor=None):
        self.level.nodes.append(self.font().space(factor or self.level.factor))

    # adding

    def append(self, node):
        if self.level.kind == 'page':
            self.contribute(node)
        else:
            self.level.nodes.append(node)

    def append_glue(self, glue):
        self.append(glue_node(glue))

    def parameters(self, *names):
        return [self.cells.look(f'par.{name}') for name in names]

    def add_box(self, box):
        """Adds a box to the list; None is a void one."""
        if box is None:
            return
        if self.mode == 'V':
            for node in interline(self.level.prevdepth, box, *self.parameters('baselineskip', 'lineskip', 'lineskiplimit')):
                self.append(node)
            self.level.prevdepth = box.depth
        self.append(box)

    def add_rule(self, *sizes):
        self.append(rule(*sizes))
        if self.mode == 'V':
            self.level.prevdepth = IGNORED_DEPTH

    # paragraphs

    def begin_in_vertical(self):
        if self.mode == 'V':
            self.begin_paragraph(True)

    def begin_paragraph(self, indented):
        skip, indent = self.parameters('parskip', 'parindent')
        if self.level.kind == 'page' or self.level.nodes:
            self.append_glue(skip)
        after_heading, self.plain_next = self.plain_next, False
        self.levels.append(Level('paragraph'))
        if indented and not after_heading:
            self.append(packed('hbox', [], 'to', indent))

    def not_restricted(self):
        if self.mode == 'R':
            raise Fault('WrongMode')

    def end_paragraph(self):
        """Ends a paragraph where one is open."""
        if self.mode != 'H':
            return
        self.finish_word()
        width, left, right, filling = self.parameters('hsize', 'leftskip', 'rightskip', 'parfillskip')
        rules = dict(zip(PARAMETER_ORDER, self.parameters(*PARAMETER_ORDER)))
        self.parameters('baselineskip', 'lineskip', 'lineskiplimit')
        nodes = self.level.nodes
        if nodes and nodes[-1].kind == 'glue':
            nodes.pop()
        nodes += [penalty(10000), glue_node(filling), penalty(-10000)]
        paragraph, ends = chosen_breaks(nodes, (width, glue_node(left), glue_node(right)), rules)
        # a line that cannot be made is a fault before any bad line is told
        made = lines_of(paragraph, [end for end, _ in ends])
        self.say_bad_lines(paragraph, ends)
        self.levels.pop()
        for is_line, node in made:
            if is_line:
                self.add_box(node)
            else:
                self.append(node)

    def say_bad_lines(self, paragraph, ends):
        start = -1
        for end, bad in ends:
            if bad:
                missing = missing_width(paragraph, start, end)
                self.say_at('Underfull' if missing is None else f'Overfull {print_scaled(missing)}pt')
            start = end

    # groups that make nodes

    def leave_group(self):
        self.back(*self.cells.close().after)

    def open_list(self, kind, use, pack=list):
        """Opens a group with a list of its own. At its end the list is packed while the group is open, and used behind the group."""
        def finish():
            self.end_paragraph()
            made = pack(self.levels.pop().nodes)
            self.leave_group()
            use(made)
        self.cells.open('material', finish)
        self.levels.append(Level(kind))

    def begin_box(self, axis, use):
        target, size = 'natural', 0
        for name in ('to', 'spread'):
            if self.keyword(name):
                target, size = name, self.dimension()
                break
        self.begin_group_token()
        self.open_list('horizontal' if axis == 'hbox' else 'vertical', use, lambda nodes: packed(axis, nodes, target, size))

    def taken_box(self, row):
        cell = f'boxed.{self.register_number()}'
        box = self.cells.look(cell)
        if row == 'box':
            self.cells.set(cell, None)
        return box

    def box(self, use):
        """Reads a box; it is used when it is made."""
        self.box_of(self.row(self.expanded_solid()), use)

    def box_of(self, row, use):
        if row in ('hbox', 'vbox'):
            self.begin_box(row, use)
        elif row in ('box', 'copy'):
            use(self.taken_box(row))
        else:
            raise Fault('TokenMisplaced')

    def from_tokens(self, kind, tokens, use, pack=list):
        """Makes a list from the tokens of an argument."""
        self.back(*tokens, END_GROUP)
        self.open_list(kind, use, pack)

    def from_each(self, kind, arguments, use, prepare=None, pack=list):
        """Makes a list from each argument in turn. The tokens of all of them are put back first: so what \\aftergroup keeps behind one list
        comes at the beginning of the next."""
        made = []
        for tokens in reversed(arguments):
            self.back(*tokens, END_GROUP)

        def one():
            self.open_list(kind, more, pack)
            if prepare:
                prepare()

        def more(packed_list):
            made.append(packed_list)
            if len(made) == len(arguments):
                use(made)
            else:
                one()
        one()

    # pages

    def contribute(self, node):
        self.level.nodes.append(node)
        self.ship_pages()

    def page_rules(self):
        return self.parameters('textheight', 'topskip', 'maxdepth')

    def ship_pages(self):
        while found := next_page(self.levels[0].nodes, *self.page_rules()):
            part, self.levels[0].nodes = found
            self.ship(part)

    def clear_page(self):
        self.end_paragraph()
        parts = last_pages(self.levels[0].nodes, *self.page_rules())
        self.levels[0].nodes = []
        for part in parts:
            self.ship(part)

    def ship(self, part):
        look = self.cells.look
        number, form, style, this_style = map(look, ('counter.' + b'page'.hex(), 'pageform', 'pagestyle', 'thisstyle'))
        style = this_style or style
        lengths = dict(zip(PAGE_LENGTHS, self.parameters(*PAGE_LENGTHS)))
        left, right = map(look, ('leftmark', 'rightmark')) if style in ('headings', 'myheadings') else (None, None)
        digits = [] if style == 'empty' else self.digits(in_form(number, form))
        lefts, rights = self.marks_of(part)
        left, right = (lefts or [left])[-1], (rights or [right])[0]
        self.ship_box(number, form, page_box(part, Look(lengths, number, style, digits, left, right)))
        self.after_page(number, lefts, rights)

    def digits(self, line):
        font = self.font_of(0, 4)
        codes = [code for code in line.encode() if self.has(font, code)]
        return word_nodes(font, codes, self.step) if codes else []

    @staticmethod
    def marks_of(part):
        found = [node for node in notes_and_marks(part.items) if node.kind != 'note']
        return [node.inside[0] for node in found if node.kind == 'both'], [node.inside[-1] for node in found]

    def ship_box(self, number, form, box):
        try:
            page = Page(number, box)
        except DimenTooLarge:
            raise Fault('DimenTooLarge') from None
        self.appends.append(('page', page))
        for node in notes_and_marks([box]):
            if node.kind == 'note':
                self.appends.append(('aux', self.note_line(node, in_form(number, form).encode())))
        self.say(f'[{number}]')

    @staticmethod
    def note_line(node, page):
        kind, *about = node.what
        if kind == 'label':
            key, line = about
            return b'\\newlabel{' + key + b'}{{' + line + b'}{' + page + b'}}\n'
        ext, type_, title = about
        return b'\\@writefile{' + ext + b'}{\\contentsline {' + type_ + b'}{' + written(title) + b'}{' + page + b'}}\n'

    def after_page(self, number, lefts, rights):
        # the number grows, the page's own style is forgotten, and then the marks are carried on
        if number == text.WORD:
            raise Fault('Overflow')
        self.cells.set('counter.' + b'page'.hex(), number + 1)
        self.cells.set('thisstyle', None)
        if lefts:
            self.cells.set('leftmark', lefts[-1])
        if rights:
            self.cells.set('rightmark', rights[-1])
