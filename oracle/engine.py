#!/usr/bin/env python3
"""Sets one piece of a book: reads cases from standard input, one on a line, and writes some lines for each. Written from the rules alone: commands
call one another, a group keeps a whole copy of what was written, and places of pages and breaks are judged on whole lists.

A case is the word `case` and words that set it up, in any order but for `set`, whose words are taken in turn; then one word of a piece. Bytes
stand in hexadecimal digits, `_` is nothing.
  steps=N job=HEX prefix=HEX                    the steps of the world (100000), the main name (main), what stands before font files (nothing)
  file=HEXNAME:HEXBYTES                         a file of the world
  fonts                                         the test font as cmr10.tfm and cmbx10.tfm, where no other word of the case gives that file
  rich richroman                                the font of engine_fonts.py as cmti10.tfm; as cmr10.tfm
  kernelstate                                   the state begins as the one behind the kernel text, not as the one at the start
  set=CELL:VALUE                                what a cell holds before the piece (after `kernelstate`, wherever that stands)
The pieces: `kernel`; `chapter=HEXNAME:LINE`, the include line (3 where `:LINE` is missing); `segment=FIRST:LAST`, lines of the main file, the last
one included, where LAST is FIRST - 1 for a segment without lines, and the piece's last line is LAST + 1; `skip=HEXNAME`.

Cells, with names in hexadecimal digits (none for a name without bytes) and codes and registers in decimal:
  word.HEX active.CODE cat.CODE lc.CODE uc.CODE sf.CODE count.N dimen.N skip.N toks.N boxed.N par.NAME (the name as it is) counter.HEX counters
  resets.HEX fresh.KIND (count, dimen, skip, toks, boxed) label.HEX checkpoint.HEX only body toc matter pageform pagestyle thisstyle leftmark
  rightmark currentlabel env style size; of the world: steps job prefix file.HEX
Values as they are shown: `-` for none; a number in decimal; glue W,STRETCH,ORDER,SHRINK,ORDER with orders 0 to 3; a form or a style by its word; a
text or name in hexadecimal digits; a list of names HEX,HEX,..; a label HEX/HEX; a checkpoint HEX=N,HEX=N,..; a token list TOKEN,TOKEN,.. A list
or a text without anything is `_`.
A token is cCATEGORY:CODE, wHEX a control sequence, aCODE an active character, #N a parameter.
A meaning is row=HEX, char=CATEGORY.CODE, number=CODE, reg=CELL, or macro=FLAGS;PATTERN;BODY with token lists, FLAGS being `-` or `l` for long and
then, for the default of an optional first argument, `o` and its token list (where the first argument is optional, the pattern begins with #2).
A box is hbox(WIDTH,HEIGHT,DEPTH,SHIFT,EXCESS,ORDER,[NODE,..]) or vbox(..), its nodes being boxes and
  char(CODE,WIDTH,HEIGHT,DEPTH,FONTNAME,FONTSIZE) lig(the same) kern(W) fontkern(W) glue(W,STRETCH,ORDER,SHRINK,ORDER) penalty(N) rule(W,H,D) with `x`
  for a size that runs, disc([..],[..],[..]) note(label,HEX,HEX) note(contents,HEX,HEX,TOKEN+TOKEN+..) both([LEFT,RIGHT]) right([RIGHT])
  ins([BOX]) adjust([..])
Where a value is given by `set`, a token list and the parts of a macro are not token lists but lines in hexadecimal digits, as in expand.py: they
are read under the categories at the start, `#1` to `#9` being parameters and `##` one character. A box is given as WIDTH,HEIGHT,DEPTH: an
\\hbox without items, set to that width. LeftMark and RightMark alike.

The lines that are written for a case: `case N`, numbered from 0; each append in order,
  page NUMBER HEIGHT WIDTH MARKS                MARKS is `_`, or words with commas between: of each mark first vN where its v is not that of the mark
                                                before, then hN where its h is not where the mark before ends (a character ends its width
                                                behind its h, a rule at its h), then fHEXNAME.SIZE.CHECK.DESIGN where a character's font is
                                                not that of the character before; then cCODE.WIDTH or rHEIGHT.WIDTH. The first mark has v and h.
  aux HEX, log HEX                              lines with their ends
then `end done STEPS` or `end KIND HEXFILE LINE STEPS` with the steps that were taken; `looks CELL CELL ..`, the cells that were looked at in the
order of first look, without looks at cells on which a write of the piece stood; and for each cell whose value behind the piece is another than
before it, in the order of the texts of cells, `cell CELL VALUE`."""
import sys
from pathlib import Path

import engine_fonts
import engine_kernel
from engine_nodes import packed
from engine_rows import Rows
from engine_state import START, Desk, World, differences, named
from expand import Fault, given_numbers, given_register, is_space, token_list, with_deep_stack, Macro

FONT = (Path(__file__).resolve().parent.parent / 'examples/plain/cmr10.tfm').read_bytes()
FIRST_INCLUDE = 3


class Engine(Rows):
    """A piece with a text, set up to its end or a fault."""

    def __init__(self, desk, name, number, data, last):
        super().__init__(desk, name, number, data, desk.look('steps'))
        self.closing = name, last

    def run(self):
        while True:
            if self.at_mark():
                self.skips_spaces = False
                self.close_environment(self.list.pop().name)
                continue
            token, protected = self.expanded()
            if token is not None and is_space(token) and self.skips_spaces:
                continue
            self.skips_spaces = False
            if token is not None:
                self.execute(token, protected)
            elif not self.at_mark():
                return

    def set(self):
        """The fault that ends the piece, with its place, or None."""
        try:
            self.run()
            if self.cells.groups:
                raise Fault('GroupOpen', self.closing)
            if self.conditionals:
                raise Fault('IfOpen', self.closing)
            self.clear_page()
        except Fault as fault:
            # text that is skipped up to the end of the piece ends there, and not where it is skipped up to the end of an environment
            place = fault.place or (self.closing if fault.kind == 'IfOpen' and not self.at_mark() else self.place)
            return fault.kind, *place
        return None


# ---- pieces

class Outcome:
    """What a piece gives; the fault is None where it is done."""

    def __init__(self, desk, appends, fault, steps):
        self.desk, self.appends, self.fault, self.steps = desk, appends, fault, steps


def lines_with_ends(data):
    return [line + b'\n' for line in data.split(b'\n')[:-1]] + [data.split(b'\n')[-1]] * (not data.endswith(b'\n') and data != b'')


def set_text(desk, name, number, data, last, before=()):
    engine = Engine(desk, name, number, data, last)
    engine.appends += before
    fault = engine.set()
    return Outcome(desk, engine.appends, fault, desk.world.steps - engine.left)


def kernel(desk):
    data = engine_kernel.TEXT
    return set_text(desk, engine_kernel.NAME, 1, data, len(lines_with_ends(data)))


def segment(desk, first, last):
    desk.looks_at('steps')
    name = desk.job + b'.tex'
    lines = lines_with_ends(desk.files.get(name) or b'')
    return set_text(desk, name, first, b''.join(lines[first - 1:last]), last + 1)


def chapter(desk, name, line=FIRST_INCLUDE):
    desk.looks_at('steps')
    file = name + b'.tex'
    data = desk.files.get(file)
    if data is None:
        return Outcome(desk, [], ('FileMissing', desk.job + b'.tex', line), 0)
    begun = [('log', b'File ' + file + b'\n')]
    outcome = set_text(desk, file, 1, data, max(1, len(lines_with_ends(data))), begun)
    if outcome.fault is None:
        outcome.appends.append(('aux', checkpoint_text(desk, name)))
    return outcome


def checkpoint_text(desk, name):
    text = b'\\@setckpt{' + name + b'}{\n'
    for counter in desk.look('counters'):
        text += b'\\setcounter{' + counter + b'}{' + str(desk.look(named('counter', counter)) or 0).encode() + b'}\n'
    return text + b'}\n'


def skip(desk, name):
    desk.looks_at('steps')
    for counter, number in desk.look(named('checkpoint', name)) or ():
        if desk.look(named('counter', counter)) is not None:
            desk.set(named('counter', counter), number)
    return Outcome(desk, [], None, 0)


KERNEL = []


def kernel_state():
    if not KERNEL:
        KERNEL.append(kernel(Desk(World(), START)).desk.behind())
    return KERNEL[0]


# ---- cases

def bare(digits):
    return b'' if digits == '_' else bytes.fromhex(digits)


def given_meaning(value):
    kind, _, rest = value.partition('=')
    if kind == 'row':
        return 'row', bytes.fromhex(rest).decode('latin-1')
    if kind == 'macro':
        flags, pattern, body = rest.split(';')
        first = tuple(token_list(flags[2:])) if flags[1:2] == 'o' else None
        return Macro('macro', flags[0] == 'l', first, tuple(token_list(pattern)), tuple(token_list(body)))
    if kind == 'char':
        return 'char', *map(int, rest.split('.'))
    return ('number', int(rest)) if kind == 'number' else given_register(rest)


def given_box(value):
    width, height, depth = map(int, value.split(','))
    box = packed('hbox', [], 'to', width)
    box.height, box.depth = height, depth
    return box


def given_pairs(value):
    return tuple((bare(name), int(number)) for name, number in (pair.split('=') for pair in value.split(',') if pair != '_'))


def given_value(kind, value):
    if value == '-':
        return None
    if kind in ('word', 'active'):
        return given_meaning(value)
    if kind == 'toks':
        return tuple(token_list(value))
    if kind in ('boxed', 'leftmark', 'rightmark'):
        return given_box(value)
    if kind in ('counters', 'resets', 'only'):
        return tuple(bare(name) for name in value.split(',')) if value != '_' else ()
    if kind == 'label':
        return tuple(map(bare, value.split('/')))
    if kind == 'checkpoint':
        return given_pairs(value)
    if kind in ('currentlabel', 'env'):
        return bare(value)
    return value if kind in ('pageform', 'pagestyle', 'thisstyle') else given_numbers(value)


class Case:
    def __init__(self, words):
        self.world = World()
        self.state = dict(kernel_state() if 'kernelstate' in words else START)
        self.outcome = None
        for word in words:
            kind, mark, value = word.partition('=')
            if mark:
                getattr(self, f'do_{kind}')(value)
            elif word != 'kernelstate':
                getattr(self, f'do_{kind}')()

    def do_steps(self, value):
        self.world.steps = int(value)

    def do_job(self, value):
        self.world.job = bare(value)

    def do_prefix(self, value):
        self.world.prefix = bare(value)

    def do_file(self, value):
        name, data = map(bare, value.split(':'))
        self.world.files[name] = data

    def do_fonts(self):
        self.world.files.setdefault(b'cmr10.tfm', FONT)
        self.world.files.setdefault(b'cmbx10.tfm', FONT)

    def do_rich(self):
        self.world.files[b'cmti10.tfm'] = engine_fonts.rich()

    def do_richroman(self):
        self.world.files[b'cmr10.tfm'] = engine_fonts.rich()

    def do_set(self, value):
        cell, _, value = value.partition(':')
        value = given_value(cell.partition('.')[0], value)
        self.state.pop(cell, None)
        if value is not None:
            self.state[cell] = value

    def desk(self):
        return Desk(self.world, self.state)

    def do_kernel(self):
        self.outcome = kernel(self.desk())

    def do_chapter(self, value):
        name, _, line = value.partition(':')
        self.outcome = chapter(self.desk(), bare(name), int(line or FIRST_INCLUDE))

    def do_segment(self, value):
        self.outcome = segment(self.desk(), *map(int, value.split(':')))

    def do_skip(self, value):
        self.outcome = skip(self.desk(), bare(value))

    def lines(self):
        outcome = self.outcome
        for kind, what in outcome.appends:
            yield what.shown() if kind == 'page' else f'{kind} {what.hex()}'
        if outcome.fault is None:
            yield f'end done {outcome.steps}'
        else:
            kind, file, line = outcome.fault
            yield f'end {kind} {file.hex() or "_"} {line} {outcome.steps}'
        yield 'looks ' + ' '.join(outcome.desk.looks)
        for cell, value in differences(self.state, outcome.desk.behind()):
            yield f'cell {cell} {value}'


def main():
    for number, line in enumerate(sys.stdin):
        print(f'case {number}')
        for answer in Case(line.split()[1:]).lines():
            print(answer)


if __name__ == '__main__':
    with_deep_stack(main)
