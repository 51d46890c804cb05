#!/usr/bin/env python3
"""Writes the commands of lb_tests_aux. What is drawn is drawn from a fixed seed."""
import random

from aux_counters import COUNTERS

draw = random.Random(1964)

FILES = 2000
STEPS = 400
MARKER = '\\protected@file@percent'
PIECES = ['a', 'b', '1', ' ', '{', '}', '{}', '{a}', '\\{', '\\}', '\\\\', '\\', '\r', '%', '{{1}{2}}', '{x\\}y}', '\xff', '}{']
NUMBERS = ['0', '17', '-3', '2147483647', '2147483648', '-2147483647', '-2147483648', '007', '-0', '', '-', '+1', '1 ', '99999999999999999999', '1a', '--1']


def some(count):
    return ''.join(draw.choice(PIECES) for _ in range(draw.randrange(count)))


def group():
    """Mostly a balanced text."""
    return draw.choice(['', 'a', '1.2', 'sec:one', '\\{', '\\\\', '{a}{b}', 'x{y{z}}', '\\TeX {}', some(4)])


def line():
    kind = draw.randrange(14)
    ending = draw.choice([''] * 8 + [' ', '\r', '}', 'x', '{}'])
    if kind < 3:
        return f'\\newlabel{{{group()}}}{{{{{group()}}}{{{group()}}}{draw.choice(["", "", "{}", "{{a}}{}{b}", "x", some(3)])}}}{ending}'
    if kind < 5:
        return f'\\@input{{{group()}}}{ending}'
    if kind < 7:
        return f'\\@writefile{{{draw.choice(["toc", "lof", group()])}}}{{{group()}{draw.choice(["", "", MARKER, MARKER + " ", MARKER + "  ", MARKER * 2])}}}{ending}'
    if kind < 9:
        return f'\\@setckpt{{{group()}}}{{{ending if draw.random() < 0.3 else ""}'
    if kind < 12:
        return f'\\setcounter{{{draw.choice(["page", "chapter", group()])}}}{{{draw.choice(NUMBERS)}}}{ending if draw.random() < 0.3 else ""}'
    return draw.choice(['}', '}', '}', '\\relax ', '', some(8), '\\newlabel', '\\@setckpt{', '\\newlabel{k}{{1}}'])


def file():
    lines = []
    for _ in range(draw.choice([0, 1, 2, 4, 8, 12])):
        lines.append(line())
        if lines[-1].startswith('\\@setckpt') and draw.random() < 0.6:
            lines += [f'\\setcounter{{page}}{{{draw.choice(NUMBERS)}}}', '\\setcounter{chapter}{2}', '}']
    text = draw.choice(['\n', '\n', '\n', '\r\n']).join(lines) + draw.choice(['', '\n', '\r'])
    return text[:draw.randrange(len(text) + 1)] if draw.random() < 0.2 else text


def hexed(text):
    return '.' + text.encode('latin-1').hex()


def tokens():
    kinds = [f'w:{hexed(draw.choice(["a", "TeX", "{", "par", "1", "", "@x", "Z", "~"]))}', f'p:{draw.choice([35, 64])}', f'c:{draw.randrange(256)}', 'c:32', 'c:123', 'c:125', 'a:126']
    return '.' + ','.join(draw.choice(kinds) for _ in range(draw.randrange(6)))


NEW = ['x', 'y', 'z', '', 'a b', '#1', '\xe9', 'Chapter']
OTHERS = ['secnumdepth', 'tocdepth', 'none']
KEYS = ['k', 'l', 'sec:one', '']
SIZES = [0, 1, 2, 3, 4, 9, 14, 26, 27, 40, 49, 90, 400, 444, 999, 1987, 3888, 99999, 100000, 100001, 2147483647, -1, -2, -2147483647]


def some_number():
    return draw.choice(SIZES + [draw.randrange(100), draw.randrange(5000)] * 6)


def step(names):
    changes = ['new', 'set', 'set', 'set', 'add', 'step', 'step', 'step', 'step']
    kind = draw.choice(changes + ['arabic', 'roman', 'Roman', 'alph', 'Alph'] * 2 + ['here', 'label', 'old', 'ref'])
    name = hexed(draw.choice(names))
    if kind == 'new':
        return ':'.join([kind, hexed(draw.choice(NEW)), name][:draw.choice([2, 3])])
    if kind in ('add', 'step'):
        return f'{kind}:{name}:{draw.choice([1, 1, 1, -1, some_number(), -2147483648])}'
    if kind == 'set':
        return f'{kind}:{name}:{draw.choice([some_number(), draw.randrange(28)])}'
    if kind == 'old':
        return ':'.join([kind] + [hexed(draw.choice(texts)) for texts in (KEYS, ['1', '2.3', ''], ['4', 'iv'])])
    return f'{kind}:{hexed(draw.choice(KEYS)) if kind in ("label", "ref") else name}'


def steps():
    """Some new counters, steps, and then what each of these counters and some others are."""
    made = draw.sample(NEW, 4)
    names = made * 4 + COUNTERS + ['chapter', 'section'] * 3 + OTHERS
    begun = [':'.join(['new', hexed(name), hexed(draw.choice(made[:place] * 3 + COUNTERS))][:draw.choice([2, 3, 3])]) for place, name in enumerate(made)]
    return begun + [step(names) for _ in range(draw.choice([2, 5, 10, 30]))] + [f'arabic:{hexed(name)}' for name in made + draw.sample(COUNTERS, 4)]


def printed():
    """Each form of each size."""
    for number in SIZES + list(range(1, 120)):
        yield [f'set:{hexed("page")}:{number}'] + [f'{form}:{hexed("page")}' for form in ('arabic', 'roman', 'Roman', 'alph', 'Alph')]


BY_HAND = ['', '\\newlabel{k}{{1}{2}}\r', '\\@setckpt{a}{\n}', '\\@setckpt{a}{\n}\r', '\\@setckpt{a}{\n} ', '\\@setckpt{a}{\n\\@setckpt{b}{\n}\n}', '{' * 3000, '\\newlabel' + '{' * 3000,
           '\\newlabel{' + '{' * 1000 + '}' * 1000 + '}{{1}{2}}', '\\newlabel{k}{{\\}}{1}}', '\\newlabel{k}{{\\\\}{1}}', '\\newlabel{k}{{1}{2}\\}']

# ---- The files of books that are worked out by hand

def characters(text):
    return [f'c:{ord(c)}' for c in text]


def heading(number, title):
    return '.' + ','.join([f'w:{hexed("numberline")}'] + characters('{' + number + '}' + title))


def entry(kind, number, title, page):
    return f'\\@writefile{{toc}}{{\\contentsline {{{kind}}}{{\\numberline {{{number}}}{title}}}{{{page}}}}}\n'


def closed(file, **numbers):
    at = {'page': 1} | numbers
    return f'\\@setckpt{{{file}}}{{\n' + ''.join(f'\\setcounter{{{name}}}{{{at.get(name, 0)}}}\n' for name in COUNTERS) + '}\n'


ONE = '\\relax \n' + entry('chapter', '1', 'First', 1) + '\\newlabel{c1}{{1}{1}}\n' + closed('one', page=2, chapter=1, footnote=1)
TWO = '\\relax \n' + entry('chapter', '2', 'Second', 2) + entry('section', '2.1', 'Part', 2) + '\\newlabel{s1}{{2.1}{2}}\n' + closed('two', page=3, chapter=2, section=1)
MORE = '\\relax \n' + entry('chapter', 'A', 'More', 3) + closed('more', page=4, chapter=1)


def worked():
    """A book of one page: its two aux files. A book of three chapters: what is written of each, its files, and the second one cut at every eighth
    byte. A main aux file that names itself, with a label of its own."""
    yield 'read', hexed('\\relax \n\\@input{a.aux}\n')
    yield 'read', hexed('\\relax \n' + closed('a', page=2))
    yield 'checkpoint', hexed('a'), 'page=2'
    yield 'read', hexed('\\relax \n' + ''.join(f'\\@input{{{name}.aux}}\n' for name in ('one', 'two', 'more')))
    for kind, number, title, page in (('chapter', '1', 'First', '1'), ('chapter', '2', 'Second', '2'), ('section', '2.1', 'Part', '2'), ('chapter', 'A', 'More', '3')):
        yield 'contents', hexed('toc'), hexed(kind), heading(number, title), '.' + ','.join(characters(page))
    yield 'label', hexed('c1'), hexed('1'), hexed('1')
    yield 'label', hexed('s1'), hexed('2.1'), hexed('2')
    for text in (ONE, TWO, MORE, ONE.replace('{page}{2}', '{page}{40}'), ONE.replace('{page}{2}', '{page}{2147483647}')):
        yield 'read', hexed(text)
    for cut in range(0, len(TWO), 8):
        yield 'read', hexed(TWO[:cut])
    yield 'read', hexed('\\newlabel{k}{{1}{1}}\n\\@input{main.aux}\n')
    yield 'log', 'label', hexed('k')


if __name__ == '__main__':
    for text in BY_HAND:
        print('read', hexed(text))
    for _ in range(FILES):
        print('read', hexed(file()))
    for _ in range(60):
        print('label', hexed(group()), hexed(group()), hexed(group()))
        print('contents', hexed(draw.choice(['toc', 'lof'])), hexed(draw.choice(['chapter', 'section'])), tokens(), tokens())
        print('log', 'typeout', tokens())
    for number in (0, 1, -5, 2147483647):
        print('log', 'page', number)
    for size in (1310720, 0, 1, -98304, 6554, 2147483647, -2147483648):
        print('log', 'overfull', size, hexed('a.tex'), draw.choice([1, 18446744073709551615]))
    for words in (['start', hexed('main')], ['options', hexed('11pt')], ['options', '.'], ['file', hexed('a.tex')], ['underfull', hexed('b.tex'), 7],
                  ['missing', 0, hexed('cmr10')], ['missing', 255, hexed('cmbx10')], ['reference', hexed('k')], ['label', hexed('k')], ['fault', hexed('a.tex'), 3],
                  ['output', hexed('main'), 0, 84], ['output', hexed('main'), 1, 192], ['output', hexed('m'), 4294967295, 18446744073709551615]):
        print('log', *words)
    print('checkpoint', hexed('a'))
    print('checkpoint', hexed('a/b'), 'page=17', 'chapter=-2147483647', 'table=2147483647')
    print('counter')
    for words in printed():
        print('counter', *words)
    for name in NEW:
        key, chapter = hexed(name), hexed('chapter')
        print('counter', f'the:{key}', f'new:{key}:{chapter}', f'set:{key}:7', f'checkpoint:{hexed("a")}', f'step:{chapter}:1', f'checkpoint:{hexed("b")}')
    for _ in range(STEPS):
        print('counter', *steps())
    for words in worked():
        print(*words)
