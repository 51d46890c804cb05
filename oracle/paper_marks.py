#!/usr/bin/env python3
"""Says what the commands about the marks of boxes and about DVI bytes have to print.

Written from the rules alone, and slow: a file is the whole list of its pages, and the fonts, the places and the bytes of each
page are worked out anew from the pages before it."""
import itertools
from typing import NamedTuple

from paper import LIMIT, SOLID, SPACES, Node

BOXES = ('hbox', 'vbox')
WRAP = 2 ** 32


class Font(NamedTuple):
    """What a DVI file defines: a name, the size, the check word and the design size, both sizes in scaled points."""
    name: str
    size: int
    check: int
    design: int


# The font of a character that is made by `char`: the test font at 10pt.
PLAIN = Font('cmr10', 655360, 0, 655360)


class DimenTooLarge(Exception):
    """A mark lies 2^30 scaled points or more away from the corner of the page."""


class Char(NamedTuple):
    h: int
    v: int
    code: int
    width: int
    font: Font

    def shown(self):
        return f'char {self.h} {self.v} {self.code} {self.width} {self.font.name}'

    def weight(self):
        return self.h + 3 * self.v + 5 * self.width + 7 * self.code

    def too_large(self):
        return any(abs(number) >= LIMIT for number in (self.h, self.v, self.h + self.width))


class Rule(NamedTuple):
    h: int
    v: int
    height: int
    width: int

    def shown(self):
        return f'rule {self.h} {self.v} {self.height} {self.width}'

    def weight(self):
        return self.h + 3 * self.v + 5 * self.width + 7 * self.height

    def too_large(self):
        return abs(self.h) >= LIMIT or abs(self.v) >= LIMIT or not -2 ** 31 <= self.height < 2 ** 31

    def black(self):
        return self.height > 0 and self.width > 0


# ---- marks of a box

def extent(axis, node):
    """The natural size of an item along the list."""
    if axis == 'hbox' or node.kind in SPACES:
        return node.width
    return node.height + node.depth if node.kind in SOLID else 0


def begins(box):
    """Where each item begins along the list: the natural sizes before it and the shift through the item before it."""
    before = itertools.accumulate((extent(box.kind, node) for node in box.inside), initial=0)
    return map(int.__add__, before, [0] + box.shifts)


def rule_sizes(box, rule):
    """Height, depth and width of a rule in its box: across the list a size that is not given is the box's."""
    width, height, depth = (None if size == 'x' else int(size) for size in rule.given)
    if box.kind == 'hbox':
        return (box.height if height is None else height, box.depth if depth is None else depth, width or 0)
    return (height or 0, depth or 0, box.width if width is None else width)


def marks_from(box, left, baseline):
    """The marks of a box whose reference point is there, in its order."""
    for node, begin in zip(box.inside, begins(box)):
        if box.kind == 'hbox':
            h, v = left + begin, baseline
        else:
            h, v = left, baseline - box.height + begin + node.height
        if node.kind in BOXES:
            if box.kind == 'hbox':
                yield from marks_from(node, h, v + node.shift)
            else:
                yield from marks_from(node, h + node.shift, v)
        elif node.kind == 'char':
            yield Char(h, v, int(node.code), node.width, getattr(node, 'font', PLAIN))
        elif node.kind == 'rule':
            height, depth, width = rule_sizes(box, node)
            yield Rule(h, v + depth, height + depth, width)


def marks(box):
    """The marks of a box that stands with its upper left corner at (0, 0)."""
    found = list(marks_from(box, 0, box.height))
    if any(mark.too_large() for mark in found):
        raise DimenTooLarge
    return found


# ---- pages and their bytes (the DVI format, version 2)

class Page(NamedTuple):
    number: int
    marks: list
    height: int
    width: int

    def fonts(self):
        return list(dict.fromkeys(mark.font for mark in self.marks if isinstance(mark, Char)))


PREAMBLE = 1 + 1 + 3 * 4 + 1 + len(' TeX output 1776.07.04:1200')
MOST_PAGES, MOST_FONTS, MOST_BYTES = 65535, 60, 2 ** 30
RIGHT, DOWN = 143, 157


def whole(number, count=4):
    """A number in so many bytes."""
    return (number % 256 ** count).to_bytes(count, 'big')


def move(direction, distance):
    """A movement with as few bytes as may be."""
    if distance == 0:
        return b''
    count = next(count for count in range(1, 5) if -128 * 256 ** (count - 1) <= distance < 128 * 256 ** (count - 1))
    return bytes([direction + count - 1]) + whole(distance, count)


def definition(number, font):
    name = font.name.encode()
    return bytes([243, number]) + whole(font.check) + whole(font.size) + whole(font.design) + bytes([0, len(name)]) + name


def joined(fonts, page):
    """The fonts in the order of their first use, with those of one page more."""
    return list(dict.fromkeys(fonts + page.fonts()))


def page_bytes(page, fonts, before):
    """The bytes of a page, where these fonts are defined and the page before stands at that place."""
    numbers = joined(fonts, page)
    defined, present, here = set(fonts), None, (0, 0)
    body = bytearray()
    for mark in page.marks:
        if isinstance(mark, Rule) and not mark.black():
            continue
        body += move(DOWN, mark.v - here[1]) + move(RIGHT, mark.h - here[0])
        here = mark.h, mark.v
        if isinstance(mark, Rule):
            body += bytes([137]) + whole(mark.height) + whole(mark.width)
            continue
        if mark.font != present:
            number = numbers.index(mark.font)
            body += b'' if mark.font in defined else definition(number, mark.font)
            body += bytes([171 + number])
            present = mark.font
            defined.add(present)
        body += bytes([mark.code] if mark.code < 128 else [128, mark.code])
        here = mark.h + mark.width, mark.v
    return bytes([139]) + whole(page.number) + bytes(36) + whole(before) + bytes(body) + bytes([140])


class File(NamedTuple):
    """A file up to the end of its last page. Each page comes with how often it stands there, one after the other."""
    runs: list

    def pages(self):
        return sum(count for _, count in self.runs)

    def ends(self):
        """The fonts, the place of the last page, and the place after it."""
        fonts, last, end = [], -1, PREAMBLE
        for page, count in self.runs:
            if count == 0:
                continue
            first = len(page_bytes(page, fonts, last))
            fonts = joined(fonts, page)
            second = len(page_bytes(page, fonts, end))
            last = end if count == 1 else end + first + (count - 2) * second
            end += first + (count - 1) * second
        return fonts, last, end

    def within_limits(self):
        fonts, _, end = self.ends()
        return self.pages() <= MOST_PAGES and len(fonts) <= MOST_FONTS and end <= MOST_BYTES

    def more(self, page, count):
        return File(self.runs + [(page, count)])

    def postamble(self):
        fonts, last, end = self.ends()
        heights = [0] + [page.height for page, _ in self.runs]
        widths = [0] + [page.width for page, _ in self.runs]
        text = bytes([248]) + whole(last) + whole(25400000) + whole(473628672) + whole(1000)
        text += whole(max(heights)) + whole(max(widths)) + whole(0, 2) + whole(self.pages(), 2)
        text += b''.join(definition(number, font) for number, font in enumerate(fonts))
        text += bytes([249]) + whole(end) + bytes([2])
        return text + bytes([223]) * (4 + -(end + len(text)) % 4)


# ---- what is shown

def shown_bytes(text):
    if len(text) <= 400:
        return text.hex()
    return f'sum {sum(i * byte for i, byte in enumerate(text, 1)) % WRAP}'


def shown_marks(found):
    if len(found) <= 64:
        return [mark.shown() for mark in found]
    return [f'sum {sum(i * mark.weight() for i, mark in enumerate(found, 1)) % WRAP}']


# ---- commands

class Marks:
    char_font = PLAIN
    dvi = File([])

    def last_box(self):
        if not self.list or self.list[-1].kind not in BOXES:
            raise ValueError('the last node is no box')
        return self.list[-1]

    def page_code(self, number):
        box = self.last_box()
        return Page(int(number), marks(box), box.height, box.width)

    def do_char(self, code, width, height, depth):
        super().do_char(code, width, height, depth)
        self.list[-1].font = self.char_font

    def do_marks(self):
        try:
            found = marks(self.last_box())
        except DimenTooLarge:
            return ['fault DimenTooLarge']
        return [f'marks {len(found)}'] + shown_marks(found)

    def do_code(self, number):
        try:
            page = self.page_code(number)
        except DimenTooLarge:
            return ['fault DimenTooLarge']
        return [f'code {page.number} height {page.height} width {page.width} marks {len(page.marks)}']

    def do_page(self, number):
        try:
            page = self.page_code(number)
        except DimenTooLarge:
            return ['fault DimenTooLarge']
        more = self.dvi.more(page, 1)
        if not more.within_limits():
            return ['fault PageLimit']
        text = page_bytes(page, *self.dvi.ends()[:2])
        self.dvi = more
        return [f'page {page.number} bytes {len(text)}', shown_bytes(text)]

    def do_pages(self, number, count):
        count = int(count)
        try:
            page = self.page_code(number)
        except DimenTooLarge:
            return ['pages 0', 'fault DimenTooLarge']
        # the limits are passed by the pages from some place on
        written, over = 0, count + 1
        while over - written > 1:
            middle = (written + over) // 2
            if self.dvi.more(page, middle).within_limits():
                written = middle
            else:
                over = middle
        self.dvi = self.dvi.more(page, written) if written else self.dvi
        return [f'pages {written}'] + ['fault PageLimit'] * (written < count)

    def do_finish(self):
        text = self.dvi.postamble()
        self.dvi = File([])
        return [f'finish bytes {len(text)}', shown_bytes(text)]

    # -- two commands that the test program would need for more fonts than one, and for ligatures

    def do_font(self, name, size, check, design):
        """Sets the font of the characters and ligatures that come."""
        self.char_font = Font(name, int(size), int(check), int(design))

    def do_lig(self, code, width, height, depth):
        """Pushes a ligature."""
        self.list.append(Node('char', code=code, width=int(width), height=int(height), depth=int(depth), font=self.char_font, lig=True))
