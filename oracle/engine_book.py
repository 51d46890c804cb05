"""A whole book over engine.py, for the checks: the pieces of the main file one after another, the files that are written, and what of a chapter
differs where it is set over a guessed state."""
import re

import aux
import engine
from engine_state import START, Desk, World, look, shown
from paper_marks import File, Page, page_bytes

PREAMBLE = bytes([247, 2]) + b''.join(n.to_bytes(4, 'big') for n in (25400000, 473628672, 1000)) + bytes([27]) + b' TeX output 1776.07.04:1200'
OWN_INCLUDE = re.compile(rb'[ \t]*\\include\{([!-~]+?)\}[ \t]*(%.*)?$')


def is_own(line, words):
    return re.fullmatch(rb'[ \t]*' + re.escape(words) + rb'[ \t]*(%.*)?', line) is not None


def pieces(data):
    """The pieces of a main file that has its three lines, after the kernel."""
    lines = [line.rstrip(b'\n') for line in engine.lines_with_ends(data)]
    begin = next(k for k, line in enumerate(lines) if is_own(line, b'\\begin{document}'))
    end = next(k for k, line in enumerate(lines) if k > begin and is_own(line, b'\\end{document}'))
    first = 1
    for k in range(begin + 1, end):
        found = OWN_INCLUDE.match(lines[k])
        if found:
            yield 'segment', first, k
            yield 'chapter', found[1], k + 1
            first = k + 2
    yield 'segment', first, end


class Book:
    def __init__(self, files, job=b'main'):
        self.world = World()
        self.world.files = {b'cmr10.tfm': engine.FONT, b'cmbx10.tfm': engine.FONT, **files}
        self.world.job = job
        self.state = START
        self.pages, self.aux, self.log = [], {job + b'.aux': b'\\relax \n'}, b'speclatex 1 ' + job + b'\n'
        self.chapters = []
        self.fault = None
        self.before = {}

    def set(self):
        self.fold(engine.kernel(Desk(self.world, self.state)))
        for kind, *about in pieces(self.world.files[self.world.job + b'.tex']):
            if self.fault is None:
                getattr(self, kind)(*about)
        if self.fault is None:
            self.finish()
        else:
            kind, file, line = self.fault
            self.log += f'! {kind} {file.decode()}:{line}\n'.encode()
        return self

    def fold(self, outcome, into=None):
        into = into or self.world.job + b'.aux'
        for kind, what in outcome.appends:
            if kind == 'page':
                self.pages.append(what)
            elif kind == 'aux':
                self.aux[into] += what
            else:
                self.log += what
        self.state = outcome.desk.behind()
        self.fault = outcome.fault
        return outcome

    def segment(self, first, last):
        self.fold(engine.segment(Desk(self.world, self.state), first, last))

    def chapter(self, name, line):
        wanted = self.state.get('only')
        is_there = name + b'.tex' in self.world.files
        if wanted is not None and name not in wanted:
            self.aux[self.world.job + b'.aux'] += b'\\@input{' + name + b'.aux}\n'
            self.chapters.append((name, None))
            self.fold(engine.skip(Desk(self.world, self.state), name))
            return
        if is_there:
            self.aux[self.world.job + b'.aux'] += b'\\@input{' + name + b'.aux}\n'
            self.aux[name + b'.aux'] = b'\\relax \n'
        self.before[name] = self.state
        self.fold(engine.chapter(Desk(self.world, self.state), name, line), name + b'.aux')
        self.chapters.append((name, line))

    def dvi(self):
        font_pages = [page_with_bytes(page) for page in self.pages]
        file = File([(page, 1) for page in font_pages])
        data, fonts, last = PREAMBLE, [], -1
        for page in font_pages:
            place = len(data)
            data += page_bytes(page, fonts, last)
            fonts = list(dict.fromkeys(fonts + page.fonts()))
            last = place
        return data + (file.postamble() if self.fault is None else b'')

    def finish(self):
        count, size = len(self.pages), len(self.dvi())
        pages = 'page' if count == 1 else 'pages'
        self.log += f'Output written on {self.world.job.decode()}.dvi ({count} {pages}, {size} bytes).\n'.encode()

    def toc(self):
        """The entries of the aux texts, None where no table of contents was made."""
        if self.state.get('toc') != 1:
            return None
        found = b''
        for name, line in self.chapters:
            data = self.aux[name + b'.aux'] if line else self.world.files.get(name + b'.aux', b'')
            found += b''.join(what[2] + b'\n' for what in aux.read(data) if what[0] == 'entry' and what[1] == b'toc')
        return found

    # guesses

    def guesses(self):
        """The guessed state before each chapter."""
        state, found = engine.kernel(Desk(self.world, START)).desk.behind(), {}
        for kind, *about in pieces(self.world.files[self.world.job + b'.tex']):
            desk = Desk(self.world, state)
            if kind == 'chapter':
                found[about[0]] = state
                engine.skip(desk, about[0])
            else:
                engine.segment(desk, *about)
            state = desk.behind()
        return found

    def report(self):
        """For each chapter the first cell that was looked at over its guess and differs before it, or `kept`."""
        guesses = self.guesses()
        for name, line in self.chapters:
            if line is None:
                yield name.decode(), 'skipped'
                continue
            desk = Desk(self.world, guesses[name])
            engine.chapter(desk, name, line)
            differs = [
                cell for cell in desk.looks
                if not World.has(cell) and shown(cell, look(self.world, self.before[name], cell)) != shown(cell,
                look(self.world, guesses[name], cell))]
            yield name.decode(), differs[0] if differs else 'kept'


def page_with_bytes(page):
    return Page(page.number, page.marks, page.height, page.width)
