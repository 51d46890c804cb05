"""Counters and labels as the steps of a command make them, written from the rules alone (source2e, files ltcounts and ltxref): a
counter is an entry of a dictionary, and Roman numerals are put together from a table of the digits of each power of ten."""
from string import ascii_lowercase

COUNTERS = ['page', 'equation', 'enumi', 'enumii', 'enumiii', 'enumiv', 'footnote', 'mpfootnote', 'part', 'chapter', 'section', 'subsection',
            'subsubsection', 'paragraph', 'subparagraph', 'figure', 'table']
WITHIN = {'chapter': ['section', 'footnote', 'equation', 'figure', 'table'], 'section': ['subsection'], 'subsection': ['subsubsection'],
          'subsubsection': ['paragraph'], 'paragraph': ['subparagraph']}
DIGITS = ['', 'a', 'aa', 'aaa', 'ab', 'b', 'ba', 'baa', 'baaa', 'ac']
POWERS = ['ivx', 'xlc', 'cdm']


class Fault(Exception):
    pass


def hexed(data):
    return '.' + data.hex()


def bare(word):
    return bytes.fromhex(word[1:])


def checkpoint(chapter, names, numbers):
    lines = [b'\\setcounter{' + name + b'}{' + str(numbers.get(name, 0)).encode() + b'}\n' for name in names]
    return b'\\@setckpt{' + chapter + b'}{\n' + b''.join(lines) + b'}\n'


def roman(number):
    if number > 100000:
        raise Fault('CounterTooLarge')
    if number < 1:
        return ''
    below = [DIGITS[number // 10 ** power % 10].translate(str.maketrans('abc', letters)) for power, letters in enumerate(POWERS)]
    return 'm' * (number // 1000) + ''.join(reversed(below))


def letter(number):
    if not 0 <= number <= 26:
        raise Fault('CounterTooLarge')
    return ascii_lowercase[number - 1:number] if number else ''


FORMS = {'arabic': str, 'roman': roman, 'Roman': lambda n: roman(n).upper(), 'alph': letter, 'Alph': lambda n: letter(n).upper()}


class Run:
    def __init__(self):
        self.names = [name.encode() for name in COUNTERS]
        self.numbers = dict.fromkeys(self.names, 0) | {b'page': 1, b'secnumdepth': 2, b'tocdepth': 2}
        self.within = {outer.encode(): [name.encode() for name in inner] for outer, inner in WITHIN.items()}
        self.text, self.labels = b'', {}

    def number(self, name):
        if name not in self.numbers:
            raise Fault('NoCounter')
        return self.numbers[name]

    def new(self, name, outer=None):
        if name in self.numbers:
            raise Fault('AlreadyDefined')
        if outer is not None:
            self.number(outer)
            self.within.setdefault(outer, []).append(name)
        self.numbers[name] = 0
        self.names.append(name)

    def add(self, name, by):
        total = self.number(name) + by
        if abs(total) >= 2 ** 31:
            raise Fault('Overflow')
        self.numbers[name] = total

    def step(self, name, by):
        self.add(name, by)
        for inner in self.within.get(name, []):
            self.numbers[inner] = 0

    def make(self, kind, args):
        if kind in ('set', 'add', 'step'):
            name, number = bare(args[0]), int(args[1])
            if kind == 'set':
                self.number(name)
                self.numbers[name] = number
            else:
                getattr(self, kind)(name, number)
            return 'ok'
        args = [bare(arg) for arg in args]
        if kind in FORMS:
            return hexed(FORMS[kind](self.number(args[0])).encode())
        return getattr(self, kind)(*args) or 'ok'

    def the(self, name):
        return hexed(b'the' + name) + hexed(b'\\arabic {' + name + b'}')

    def checkpoint(self, chapter):
        return hexed(checkpoint(chapter, self.names, self.numbers))

    def here(self, text):
        self.text = text

    def label(self, key):
        return hexed(key) + hexed(self.text)

    def old(self, key, text, page):
        self.labels[key] = hexed(text) + hexed(page)

    def ref(self, key):
        return self.labels.get(key, '-')

    def answer(self, word):
        kind, *args = word.split(':')
        try:
            return self.make(kind, args)
        except Fault as fault:
            return str(fault)


def answers(words):
    run = Run()
    return ' '.join(map(run.answer, words))
