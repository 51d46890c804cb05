#!/usr/bin/env python3
"""Writes the commands of lb_tests_text. What is drawn is drawn from a fixed seed."""
import random
import sys

import text

draw = random.Random(1982)


def say(*words):
    print(*words)


def hexed(line):
    return (line if isinstance(line, bytes) else line.encode('latin-1')).hex()


def key(cell):
    return cell.replace('word  ', 'word _')


def rows():
    names = sorted(text.COMMANDS | text.PARAMETERS | set(text.REFUSED))
    for name in names:
        say('row', hexed(name))
    for name in names:
        say('row', hexed(name[:-1]))
        say('row', hexed(name + draw.choice('\0az~')))
    for name in ['nosuch', 'Par', 'PAR', 'zzz', 'a', '\xff', ' ' * 2]:
        say('row', hexed(name))
    say('row')


def start():
    for cell in text.at_start():
        say('value', key(cell))
    for cell in ['active 126', 'active 12', 'word nosuch', 'counter none', 'resets page', 'par year', 'par month', 'par day',
                 'par time', 'count 0', 'dimen 255', 'skip 7', 'toks 1', 'boxed 0', 'label x', 'checkpoint one', 'only',
                 'thisstyle', 'leftmark', 'rightmark', 'job', 'prefix', 'steps', 'file fonts/cmr10.tfm']:
        say('value', cell)


def texts():
    for kind in 'word counter resets label checkpoint file'.split():
        for name in ['x', 'chapter', '_', '@list', 'a/b.tex']:
            say('text', kind, name)
    for kind in 'active cat lc uc sf count dimen skip toks boxed'.split():
        for code in [0, 7, 10, 99, 100, 255]:
            say('text', kind, code)
    for name in sorted(text.PARAMETERS):
        say('text', 'par', name)
    for kind in 'count dimen skip toks boxed'.split():
        say('text', 'fresh', kind)
    for kind in ('counters only body toc matter pageform pagestyle thisstyle leftmark rightmark currentlabel env style size '
                 'job prefix steps').split():
        say('text', kind)


CELLS = ['count 1', 'count 2', 'counter x', 'counter chapter', 'dimen 1', 'par year', 'cat 65', 'cat 13']


def some_change():
    reach = draw.choice(['local', 'local', 'global'])
    cell = draw.choice(CELLS)
    if cell == 'par year':
        return f'year {draw.randrange(3000)} {reach}'
    kind, name = cell.split()
    if kind == 'cat':
        return f'cat {name} {draw.choice(text.CATEGORIES)} {reach}'
    if kind == 'dimen' and draw.random() < 0.3:
        return f'no-dimen {name} {reach}'
    most = 2 ** 30 - 1 if kind == 'dimen' else 2 ** 31 - 1
    return f'{kind} {name} {draw.choice([0, 1, -1, most, -most, draw.randrange(-most, most)])} {reach}'


def cells():
    for cell in ['job', 'prefix', 'steps', 'file fonts/cmr10.tfm', 'file none.tex', 'par year', 'par month', 'par day', 'par time',
                 'par tolerance', 'cat 65', 'count 1', 'word par', 'word none', 'counter page']:
        say('get', cell)
    for _ in range(120):
        say('saved', draw.choice(CELLS), ';', ' ; '.join(some_change() for _ in range(draw.randrange(5))))
        one, other = draw.choice(CELLS), draw.choice(CELLS)
        say('twice', one, ';', other, ';', ' ; '.join(some_change() for _ in range(draw.randrange(6))))
        if draw.random() < 0.3:
            say('set', some_change())
        if draw.random() < 0.2:
            say('over', ' ; '.join(draw.choice(
                ['count 1 = absent', 'count 2 = number 7', 'counter x = absent', 'dimen 1 = dimension -9', 'par year = absent',
                 'count 1 = number 3', 'lc 65 = code 98']) for _ in range(draw.randrange(1, 5))))
        for cell in CELLS:
            say('value', cell)
            say('get', cell)
    say('over count 1 = absent ; count 2 = absent ; par year = absent')
    say('set cat 65 letter global')
    say('set cat 13 endofline global')


LINES = r'''a  b%c|^^41|^^M|a^^M|^^5e^^5e41|^^5e^^5e^^5e^^5e41|^^^41|^^|^^^|^^^^|^^?|^^@|^^4|^^4g|^^4A|^^ff|^^\xff|\par|\par x|\par  x|
\ x|\  x|\^^41b c|\a^^62c d|\a^^20x|\^^20 x|\|\^^M|\%|\\|{a}|$x$|&#_~|~ ~|^^0cx|\^^0c|a ~|%x| %|  %|a%| a|a |  |\1 2|\@x|\a@|^a|^^a|
_^^|\^^|\^^^|x^^5|x^^5e|^^5e5e|a\b c\d  e|\a1 b|^^00^^00a|a^^00 b|^^7f|^^7fx|\^^7f|x^^7f|\x^^7f|^^0d|^^0dx|a^^0dx| ^^0dx'''


def tokens():
    for line in LINES.replace('\n', '').split('|'):
        for state in 'NMS':
            say('read', state, hexed(line.replace(r'\xff', '\xff') + '\r'))
            say('read', state, hexed(line.replace(r'\xff', '\xff')))
    for category in text.CATEGORIES:
        say('set', 'cat 64', category, 'global')
        for state in 'NMS':
            for line in ['@', 'a@ b', '@@', ' @ ', '\\@x', '\\@ x', '\\a@ x', '^^40', '@@41', '\\@@41', 'a @%']:
                say('read', state, hexed(line + '\r'))
    say('set cat 64 other global')
    letters = ' ^^^\\ab%~\0{}15ef\r\x7f@M'
    for _ in range(400):
        if draw.random() < 0.2:
            code = draw.choice(letters)
            say('set', 'cat', ord(code), draw.choice(text.CATEGORIES), draw.choice(['local', 'global']))
        line = ''.join(draw.choice(letters) for _ in range(draw.randrange(14)))
        say('read', draw.choice('NMS'), hexed(line + '\r' * draw.randrange(2)))
    for _ in range(150):
        line = bytes(draw.choice([draw.randrange(256), 94]) for _ in range(draw.randrange(12)))
        say('read', draw.choice('NMS'), hexed(line))


def many():
    say('set cat 92 escape global')
    for code, category in [(32, 'space'), (13, 'endofline'), (94, 'superscript')]:
        say('set cat', code, category, 'global')
    for letter in b'abfeM':
        say('set cat', letter, 'letter', 'global')
    say('gets 1000')
    say('reads 3', hexed('a line of \\words and^^41 more\r'))


def lines():
    for whole in [b'', b'\n', b'a', b'a\n', b'a\nb', b'a\r\nb\r', b'\r\n', b'\r', b'a  \n b ', b'\n\n', b'  \n', b'a \r\n', b'a\r\r\n',
                  b'a\t\n', b'\ra\n']:
        say('lines', hexed(whole))
    for _ in range(60):
        say('lines', hexed(bytes(draw.choice(b'a \r\n\n') for _ in range(draw.randrange(12)))))


READ = ['cat 65', 'cat 37', 'lc 65', 'uc 98', 'sf 65', 'sf 46', 'count 1', 'counter page', 'counter none', 'dimen 1', 'par year',
        'par tolerance', 'par hsize', 'par parskip', 'word par', 'word hsize', 'word none', 'toks 1', 'boxed 1', 'currentlabel',
        'counters', 'resets chapter', 'env', 'job', 'label x', 'checkpoint one', 'pageform', 'pagestyle', 'thisstyle', 'style',
        'size', 'steps', 'prefix', 'file fonts/cmr10.tfm', 'file none.tex', 'skip 1']


def readings():
    say('over count 1 = number 7 ; dimen 1 = dimension -9')
    for cell in READ:
        for kind in text.READINGS:
            if (kind in ('category', 'factor', 'style', 'size', 'steps')
                    and cell.split()[0] != {'category': 'cat', 'factor': 'sf'}.get(kind, kind)):
                continue
            say('tell', kind, cell)
    for cell in ['cat 65', 'lc 1', 'uc 255', 'sf 65', 'count 0', 'counter x', 'dimen 255', 'par tolerance', 'par hsize', 'par parskip',
                 'par year', 'fresh count', 'body', 'toc', 'matter', 'style', 'size', 'word par', 'skip 1', 'toks 1', 'job', 'steps']:
        for number in [-2 ** 31, -2 ** 31 + 1, -2 ** 30, -2 ** 30 + 1, -1, 0, 1, 2, 3, 5, 6, 9, 10, *range(11, 17), 29, 30, 255, 256, 257,
                       32767, 32768, 2 ** 30 - 1, 2 ** 30, 2 ** 31 - 1]:
            say('held', cell, number)
    for cell in READ:
        for other in READ[::3]:
            say('same', cell, ';', other)


def fonts():
    for style in range(-1, 8):
        for size in range(-1, 12):
            say('select', style, size)
    for size in [-2147483648, -1, *range(12), 2147483647]:
        say('skip', size)
    for name in ['cmr10', 'cmbx10', 'broken', 'short', 'empty']:
        for size in [1, 65536, 655360, 2 ** 27 - 1]:
            say('load', name, size)


def main():
    for name in ['cmr10', 'broken', 'short', 'empty']:
        say('file', f'fonts/{name}.tfm', f'fonts-{name}.tfm')
    rows()
    start()
    texts()
    cells()
    tokens()
    many()
    lines()
    readings()
    fonts()


main()
