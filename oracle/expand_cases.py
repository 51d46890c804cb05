#!/usr/bin/env python3
"""Writes the cases of lb_tests_expand. What is drawn is drawn from a fixed seed. A name that a text uses gets its meaning from a table, so
that a case has the set-up words that it needs and no others."""
import random
import re
from pathlib import Path

import expand
import text

draw = random.Random(1984)

WORD = 2 ** 31 - 1
LENGTH = 2 ** 30 - 1
UNITS = ['pt', 'in', 'pc', 'cm', 'mm', 'bp', 'dd', 'cc', 'sp', 'em', 'ex']
FONT = (Path(__file__).resolve().parent.parent / 'examples/plain/cmr10.tfm').read_bytes()


# ---- words of a case

def hexed(line):
    return line.encode('latin-1').hex()


def tokens(line):
    return hexed(line) or '_'


def macro(pattern, body, long=False, first=None):
    flags = ('l' if long else '-') + ('' if first is None else 'o' + tokens(first))
    return f'macro={flags};{tokens(pattern)};{tokens(body)}'


def row(name):
    return 'row=' + hexed(name)


MEANINGS = {
    'b': macro('', 'x'), 'c': macro('', r'\b'), 'd': macro('', '12'), 'e': macro('', ''), 'y': macro('', r'\b y'), 'm': macro('#1', '(#1)'),
    'M': macro('#1', '(#1)', long=True), 'n': macro('#1#2', '#2#1'), 'o': macro('', '[#1]', first='q'), 'h': macro('#1.', '<#1>'),
    'H': macro('#1{', '[#1]{'), 'l': 'char=11.120', 'L': 'char=12.42', 's': 'char=10.32', 'z': 'number=42', 'C': 'reg=count.5',
    'D': 'reg=dimen.5', 'S': 'reg=skip.5', 'T': 'reg=toks.5', 'P': 'reg=par.hsize', 'G': 'reg=par.baselineskip', 'B': 'char=1.123',
    'E': 'char=2.125', 'F': row('fi'), 'I': row('iftrue'), 'J': row('iffalse'), 'X': row('expandafter'), 'N': row('noexpand'),
    'K': row('endcsname'), 'O': row('or'), 'W': row('else'), 'Q': macro('', r'\endcsname'), 'A': 'char=13.126', 'R': row('relax')}
ACTIVE = {126: macro('', 'y')}
REGISTERS = {
    'count.5': '7', 'dimen.5': '98304', 'skip.5': '65536,131072,1,-32768,0', 'toks.5': tokens(r'u\b v'), 'box.3': '655360,98304,-6554'}
NEEDS = {
    'count.5': r'\\count5|\\C(?![a-z])', 'dimen.5': r'\\dimen5|\\D(?![a-z])', 'skip.5': r'\\skip5|\\S(?![a-z])',
    'toks.5': r'\\toks5|\\T(?![a-z])', 'box.3': r'\\(?:wd|ht|dp)3'}


def body_of(meaning):
    if not meaning.startswith('macro='):
        return ''
    flags, _, body = meaning.removeprefix('macro=').split(';')
    return ''.join(bytes.fromhex(part).decode('latin-1') for part in (body.strip('_'), flags.partition('o')[2].strip('_')))


def needed(line, meanings):
    """The names of the table that a text uses, in the order of first use."""
    found = []
    waiting = [line]
    while waiting:
        for name in re.findall(r'\\([A-Za-z]+|[^A-Za-z])', waiting.pop()):
            if name in meanings and name not in found:
                found.append(name)
                waiting.append(body_of(meanings[name]))
    return found


def case(line, *calls, files=None, meanings=None, active=None, registers=None, words=()):
    """A case over a text; the names and registers that it and its files use are set."""
    files = files or {}
    meanings = {**MEANINGS, **(meanings or {})}
    active = {**ACTIVE, **(active or {})}
    registers = {**REGISTERS, **(registers or {})}
    everything = '\n'.join([line, *files.values()])
    names = needed(everything, meanings)
    everything += ''.join(body_of(meanings[name]) for name in names)
    sets = [f'word.{hexed(name)}:{meanings[name]}' for name in names]
    sets += [f'active.{code}:{meaning}' for code, meaning in active.items() if meaning and chr(code) in everything]
    sets += [f'{cell}:{value}' for cell, value in registers.items() if cell not in NEEDS or re.search(NEEDS[cell], everything)]
    return ' '.join([
        'case', *words, *(f'file={hexed(name)}:{hexed(data)}' for name, data in files.items()), *(f'set={cell}' for cell in sets),
        'text=' + hexed(line), *calls])


def spaced(line):
    """A control word at the end of a piece of text has a space behind it."""
    return line + ' ' if re.search(r'\\[A-Za-z]+$', line) else line


def joined(*parts):
    return ''.join(map(spaced, parts))


def some(choices, least, most):
    return [draw.choice(choices) for _ in range(draw.randint(least, most))]


# ---- arguments

DELIMITERS = [
    '', '', '', '.', ',', 'ab', 'aab', 'abac', 'a b', r'\\', r'\/ x', r'\par', r'\par.', ' ', '. ', '::', '~', '5', '*', '$', '&', '_']
FRONTS = ['', '', '', '', '.', 'a', 'ab', r'\-', r'\par', '$', '(']
PIECES = [
    'a', 'b', 'ab', 'aa', '.', ',', '{', '}', '{.}', '{}', '{ab}', '{{a}b}', '{,.}', ' ', '  ', r'\-', r'\/', r'\\', ':', r'\e', '~', '5',
    '\n', '%c\n']
BALANCED = [piece for piece in PIECES if piece not in '{}']


def pattern():
    """The delimiters of a pattern; the first is its front."""
    return [draw.choice(FRONTS), *some(DELIMITERS, 0, draw.choice([1, 2, 3, 4]))]


def pattern_text(parts):
    line = parts[0]
    for at, delimiter in enumerate(parts[1:], 1):
        line = spaced(line) + f'#{at}' + delimiter
    return line


def argument(delimited):
    if draw.random() < 0.03:
        return draw.choice([r'\par', '\n\n', '}', '{'])
    if not delimited:
        return draw.choice([
            'a', '{b}', '{}', ' c', ' {d e}', '\n{f}', r'\-', '{{g}}', '{{}h}', '~', '{\n\n}', r'{\par}', ' ', '{,{.}}', '1'])
    return joined(*some(BALANCED, 0, 4))


def broken(line):
    """A text that lost a character, got one more, or ends early."""
    at = draw.randrange(len(line) + 1)
    kind = draw.randrange(3)
    if kind == 0:
        return line[:at] + line[at + 1:]
    if kind == 1:
        return line[:at] + draw.choice(['}', '{', '\n\n', r'\par ', '.', 'a', ' ']) + line[at:]
    return line[:at]


def arguments():
    for _ in range(900):
        parts = pattern()
        brace = len(parts) > 1 and draw.random() < 0.12
        count = len(parts) - 1
        shown = ''.join(f'|#{at}' for at in range(1, count + 1)) or '|'
        if draw.random() < 0.2:
            shown += draw.choice(['##', '|#1' * bool(count), r'\-', '{}'])
        if parts[-1].endswith(' '):
            parts[-1] += '!'
        meaning = macro(pattern_text(parts) + '{' * brace, '[' + shown + ']' + '{' * brace, long=draw.random() < 0.4)
        line = joined(r'\k', parts[0])
        for delimiter in parts[1:]:
            line = joined(line, argument(bool(delimiter)), delimiter)
        line = spaced(line) + '{' * brace + draw.choice(['', 'z', '}', ' z'])
        if draw.random() < 0.3:
            line = broken(line)
        yield case(line, 'N', meanings={'k': meaning})
    yield from nine_arguments()
    yield from optional_arguments()
    yield from arguments_in_files()


def nine_arguments():
    nine = ''.join(f'#{at}' for at in range(1, 10))
    for line in ('123456789', '{a}b{c}d{e}f{g}h{ij}k', '12345678', '12345678}', '1 2 3 4 5 6 7 8\n9', r'{1}\par34'):
        yield case(r'\k ' + line, 'N', meanings={'k': macro(nine, '#9#8#7#6#5#4#3#2#1')})
    spread = '.'.join(f'#{at}' for at in range(1, 10)) + '.'
    yield case(r'\k 1.2.{3.}.4..{5}6.{7}.{{8}}. 9 .', 'N', meanings={'k': macro(spread, '(#9)(#7)(#8)(#5)(#3)')})


def optional_arguments():
    for _ in range(180):
        second = draw.choice(['', '', '#2', '#2#3', '#2.', '#2.#3'])
        shown = ''.join(f'|#{at}' for at in range(1, 2 + second.count('#')))
        meaning = macro(second, f'<{shown}>', long=draw.random() < 0.4, first=draw.choice(['', 'q', r'\b', '{q}', 'q]']))
        line = r'\k' + draw.choice(['', ' ', '\n', ' %\n ', '\n\n', '{}'] if draw.random() < 0.3 else [''])
        line += draw.choice([
            '[a]', '[{a}]', '[]', '[{]}]', '[a', '[a{]}b]', '[a}', '[[a]]', ' [ a ]', '', '', '{[}', r'[\par]', '[\n\n]', '*'])
        line = joined(line, *(argument(False) for _ in range(second.count('#'))), '.' * second.count('.'))
        yield case(broken(line) if draw.random() < 0.15 else line, 'N', meanings={'k': meaning})


def arguments_in_files():
    for inner in (
            r'\m', r'\m{a', r'\h a', r'\h', r'\M{a\n', r'\n a', r'\n{a}{', r'\m{a}', r'\o', r'\o[a', 'b', r'\H', r'\H a', r'\string',
            r'\e'):
        for outer in ('z}', '[z].', '{z}', ''):
            yield case(r'\input{a}' + outer, 'N', files={'a.tex': inner.replace(r'\n', '\n') if inner == r'\M{a\n' else inner})
    for inner in (r'\k', r'\k a', r'\k ab', r'\k a.'):
        yield case(r'\input{a}b.c', 'N', files={'a.tex': inner + '%'}, meanings={'k': macro('ab.', '!')})


# ---- conditionals

OPERANDS = [
    'a', 'a', 'b', 'x', '*', '1', r'\b', r'\c', r'\l', r'\L', r'\s', r'\B', r'\relax', r'\par', r'\noexpand\b', r'\noexpand~', '~', r'\A',
    r'\noexpand\l', r'\noexpand\U', r'\z', r'\C', r'\iftrue a\else b\fi', r'\number1', r'\string\b', r'\csname U\endcsname', r'\e', '{',
    '}', '$', '&', '#', '^', '_', r'\N', r'\kern', r'\iftrue', r'\fi', r'\halign', r'\U']
SMALL = [
    '0', '1', '2', '3', '-1', '5', "'7", '"A', '`b', '`\\c', r'\d', r'\z', r'\C', r'\count5', r'\value{page}', r'\iftrue1\else2\fi',
    r'\ifnum1<2 3\fi', '12', r'\number3', '1\\e ', '2147483647', '-2147483647', r'\catcode`\a', r'\e4', r'\iftrue2',
    r'\ifcase1 4\or2\or3\fi']
LENGTHS = [
    '0pt', '1pt', '-1pt', '1.5pt', '16383.99999pt', '1in', r'\D', r'\hsize', r'\dimen5', r'\wd3', '2\\D', '.5\\hsize', '3sp', '1 PT',
    '-\\dp3']
IFX = [
    'a', 'b', r'\b', r'\c', r'\U', r'\V', r'\halign', r'\l', 'x', r'\relax', r'\R', r'\z', r'\C', r'\S', r'\skip', '~', r'\A', r'\m',
    r'\M', r'\noexpand', r'\N', r'\fi', r'\F', r'\iftrue', r'\I', '{', r'\B', r'\P', r'\hsize', r'\o', ' ', '#', '*', r'\L', r'\y',
    r'\par', '\n\n']
MODES = ['V', 'H', 'R']


def condition():
    kind = draw.randrange(12)
    if kind < 2:
        return spaced(draw.choice([r'\iftrue', r'\iffalse', r'\I', r'\J', r'\ifvmode', r'\ifhmode']))
    if kind < 4:
        return joined(draw.choice([r'\if', r'\ifcat']), *(draw.choice(OPERANDS) for _ in range(2)))
    if kind < 6:
        return joined(r'\ifx', draw.choice(IFX), draw.choice(IFX))
    if kind < 9:
        return joined(r'\ifnum', draw.choice(SMALL), draw.choice(['', '', '', ' ', '  ']), draw.choice('<=>'), draw.choice(SMALL), ' ')
    if kind < 10:
        return joined(r'\ifdim', draw.choice(LENGTHS), draw.choice('<=>'), draw.choice(LENGTHS), ' ')
    return joined(r'\ifodd', draw.choice(SMALL), ' ')


def conditional(depth, letters):
    if depth == 0:
        return next(letters)
    if draw.random() < 0.25:
        parts = [conditional(draw.randrange(depth), letters) for _ in range(draw.randint(1, 4))]
        line = joined(r'\ifcase', draw.choice(SMALL), ' ')
        for at, part in enumerate(parts):
            line = joined(line, r'\or' * bool(at), part)
    else:
        line = joined(condition(), conditional(draw.randrange(depth), letters))
    if draw.random() < 0.6:
        line = joined(line, draw.choice([r'\else', r'\else', r'\W']), conditional(draw.randrange(depth), letters))
    return joined(line, draw.choice([r'\fi', r'\fi', r'\fi', r'\F']), draw.choice(['', next(letters)]))


def letters():
    while True:
        yield from 'abcdefghijklmnopqrstuvwxyz'


CONTROL = re.compile(r'\\[A-Za-z]+ ?')


def changed(line):
    """A conditional that lost a control word, or got one."""
    places = [match.span() for match in CONTROL.finditer(line)]
    start, end = draw.choice(places)
    if draw.random() < 0.5:
        return line[:start] + line[end:]
    return line[:start] + draw.choice([r'\fi ', r'\else ', r'\or ', r'\iftrue ', r'\iffalse ', r'\relax ', '\n',
        r'\ifcase ']) + line[start:]


def conditionals():
    for _ in range(1100):
        line = conditional(draw.choice([1, 1, 2, 2, 3]), letters())
        if draw.random() < 0.3:
            line = changed(line)
        words = [f'mode={draw.choice(MODES)}'] if 'mode' in line else []
        yield case(line, *draw.choice([['N', 'v'], ['N', 'v'], ['n', 'v', 'n', 'v', 'N', 'v']]), words=words)
    for test in (r'\if', r'\ifcat'):
        for left in OPERANDS:
            yield case(joined(test, left, draw.choice(OPERANDS[:30]), 'y', r'\else', 'n', r'\fi'), 'N', 'v')
    for left in IFX:
        for right in draw.sample(IFX, 5) + [left]:
            yield case(joined(r'\ifx', left, right, 'y', r'\else', 'n', r'\fi'), 'N', 'v')
    yield from one_line_conditionals()


CONDITIONALS = r'''
\fi|\else|\or|\iftrue|\iffalse|\iftrue\else|\iffalse\else|\iffalse\or\fi|\iftrue\or\fi|\iftrue a\else b\or c\else d\fi e
\iftrue a\else b\else c\fi|\iffalse a\else b\else c\fi|\iffalse a\else b\or c\fi|\ifcase0 a\or b\else c\or d\fi
\ifcase1 a\or b\else c\or d\fi|\ifcase5 a\or b\else c\or d\fi|\ifcase-1 a\or b\else c\fi|\ifcase2 a\or b\fi c|\ifcase0 a\else b\else c\fi
\ifcase1\else b\or c\fi|\ifcase0\ifcase1 a\or b\or c\fi d\or e\fi f|\ifnum1<\iftrue2 a\else b\fi c\else d\fi
\ifnum3<\iftrue2 a\else b\fi c\else d\fi e|\ifnum3<\iftrue2 a\or b\fi c\or d\fi e|\ifnum1<\iffalse a\else2 b\fi c\else d\fi|\ifnum1=1\fi
\ifnum1=1\else a\fi|\ifnum1=1\or a\fi|\ifnum1\fi|\ifnum\fi|\ifnum\else|\ifodd\or\fi|\if\fi|\if a\fi|\if a\else b\fi|\if\else\or\fi
\ifcat a\or\fi|\ifcase\fi|\ifcase1\or a\or b\fi|\ifcase0\or a\fi|\ifcase0 \or a\fi|\ifdim1pt\fi|\ifdim1pt=1pt\fi|\ifx\fi\fi\fi
\ifx\fi\else a\fi|\ifx a|\ifx|\if|\if a|\ifcat|\ifcat a|\ifnum|\ifnum1|\ifnum1=|\ifnum1<2|\ifdim|\ifdim1pt|\ifdim1pt<|\ifodd|\ifodd1
\ifcase|\ifcase1|\ifnum1x2 |\ifnum1 x2 |\ifnum1\relax<2 |\ifnum1\e\e<2 a\fi|\ifnum1  <2 a\fi|\ifnum\C  <2 a\fi|\ifnum\C\s<2 a\fi
\ifnum1\string<2 a\fi|\ifnum1{<}2 \fi|\ifdim1pt\e<2pt a\fi|\ifdim1<2pt |\ifdim1pt<2 |\ifdim\C<2pt |\ifnum\D<2 |\ifdim\S<2pt |\ifnum\T<2 
\ifnum\b<2 |\ifodd\D a\fi|\ifcase\D a\fi|\ifnum1pt|\if\iftrue aa\fi b\fi|\if\iftrue ab\else cc\fi d\else e\fi f
\if\iffalse a\else bb\fi c\fi|\ifcat\iftrue1\else a\fi2 y\else n\fi|\if\ifnum1<2 a\fi a y\else n\fi|\if\if aabc y\else n\fi z\fi
\if\if abcd\else ee\fi y\else n\fi|\iffalse\if\fi\ifx\fi\else a\fi|\iffalse\I\fi\else a\fi b|\iffalse\halign\U\fi a|\iffalse\F a
\iftrue a\F b|\iffalse a\W b\F c|\iffalse a\f b\fi c|\iftrue\f a|\ifcase2 a\O b\O c\O d\F e|\iffalse\iffalse\else\fi\fi a
\iffalse\ifcase\or\or\else\fi\else a\fi|\iftrue\iftrue\iftrue a\fi\fi\fi|\iffalse\iftrue\iffalse a\fi\fi\fi b
\iftrue\iffalse a\else b\fi\else c\fi|\expandafter a\iftrue b\fi|\expandafter a\iffalse b\fi c|\expandafter a\fi
\iftrue\expandafter a\fi b|\iftrue\expandafter\fi\b c|\iffalse\expandafter\fi a|\iftrue\expandafter\b\else c\fi d
\ifnum1=1\expandafter a\fi|\iftrue\noexpand\fi\fi|\iffalse\noexpand\fi a|\ifx\noexpand\fi\fi a\fi|\iftrue\string\fi\fi
\ifnum 0\iftrue1\fi=1 a\else b\fi|\ifnum\iffalse1\else2\fi=2 a\fi|\ifnum`\iftrue=1 a\fi|\ifnum`a\fi|\ifnum`\e=1 |\ifnum`\A=126 y\fi
\ifnum`~=126 y\else n\fi|\ifodd-1 a\else b\fi|\ifodd-2 a\else b\fi|\ifodd0 a\else b\fi|\ifodd2147483647 a\else b\fi|\ifodd2147483648 a\fi
\ifcase2147483647 a\fi b|\ifcase-2147483647 a\else b\fi|\ifvmode a\else b\fi\ifhmode c\else d\fi|\ifnum1<1\m2 a\fi|\ifnum1<\m2 a\fi
\if\m ab\fi|\ifcat\m ab a\fi|\ifnum\h1.<2 a\fi|\if\par\par y\fi|\if\relax\U|\if ab|\if{\ifnum0=`}\fi a\fi|\ifnum0=`{\fi a
\if\noexpand~\noexpand~y\else n\fi|\ifcat\noexpand~\noexpand\b y\else n\fi|\if~y z\else n\fi|\ifcat~yz\else n\fi
\ifcat\noexpand~a y\else n\fi|\ifcat\noexpand~\A y\else n\fi|\if\A\noexpand~y\else n\fi|\if\A~ y\else n\fi|\ifcat\B{y\else n\fi
\if\B{y\else n\fi|\ifcat\s\relax y\else n\fi
'''


def one_line_conditionals():
    for line in CONDITIONALS.strip().replace('\n', '|').split('|'):
        for mode in MODES if 'mode' in line else 'V':
            yield case(line, 'N', 'v', meanings={'f': macro('', r'\fi')}, words=[f'mode={mode}'])
        yield case(line + '%', 'n', 'v', 'N', 'v', meanings={'f': macro('', r'\fi')})
    for meaning in (macro('', 'r'), 'none', row('fi'), macro('', r'\fi'), 'char=11.114', 'number=3'):
        for line in (r'\ifnum1=1\fi a', r'\if\fi a', r'\ifcase1\or b\else\fi a', r'\ifnum1=\fi a'):
            yield case(line, 'N', 'v', meanings={'relax': meaning})
    for code in (126, 12):
        for meaning in (row('relax'), row('fi'), 'char=11.120', 'number=3', 'none', None, row('iftrue'), macro('', ''), macro('', 'x')):
            for line in (
                    '~', r'\if~x y\else n\fi', r'\if\noexpand~x y\else n\fi', r'\if\noexpand~\string~y\else n\fi',
                    r'\ifcat\noexpand~\relax y\else n\fi', r'\ifx~x y\else n\fi', r'\iffalse~\fi a', r'\noexpand~', r'\expandafter a~b',
                    r'\number~', r'\csname~\endcsname'):
                yield case(line.replace('~', chr(code)), 'N', 'v', active={code: meaning})


# ---- names, and what is expanded once

NAMES = [
    'b', 'a', 'zz', 'par', 'halign', 'relax', r'\b', r'\c', r'\d', r'\e', '1', '.', ' ', 'c', 'U', '{', '}', '$', '#', '~', r'\number12 ',
    r'\string\b', r'\csname b\endcsname', r'\csname zz\endcsname', r'\noexpand\b', r'\iftrue d\else e\fi', r'\thepage', r'\jobname',
    r'\the\C', r'\the\T', r'\l', r'\relax', r'\expandafter\b\b', r'\expandafter', r'\noexpand', r'\A', '\n', '\n\n', r'\fi']


def active_commands():
    """After an active character or a control symbol spaces are tokens."""
    names = [
        'input', 'arabic', 'value', 'string', 'noexpand', 'expandafter', 'csname', 'number', 'romannumeral', 'the', 'count', 'if', 'ifcat',
        'ifx', 'ifnum', 'ifcase', 'jobname', 'endinput', 'thepage', 'else', 'iffalse']
    macros = [
        macro('', 'r'), macro('#1', '(#1)'), macro('', '[#1]', first='q'), macro('#2', '[#1|#2]', first='q'), macro('#1 #2', '#2,#1')]
    lines = [
        '~ a b', '~  {page}z', '~\n{page}z', '~\n\n', '~', '~ 1 2', '~ [a]b', '~ %\n [a] {c}', r'~ \b ', r'~ \m{ a }\endcsname',
        r'~ {a}{ b}\fi', '~ =~ =']
    for meaning in [*map(row, names), *macros]:
        for line in lines:
            files = {'a.tex': 'x'} if meaning == row('input') else None
            if draw.random() < 0.6:
                yield case(line, *draw.choice([['N', 'v'], ['q', 'N'], ['w', 'N']]), files=files, active={126: meaning})
    meanings = {'k': macro('#1', '#1'), '1': macro('#2', '[#1|#2]', first='q'), 'i': macro('#1', r'\input#1')}
    for line in (
            r'\input\k{ a }', r'\i{ {a}}', r'\i{ a }', r'\i{  a b}z', r'\input\k{  a }z', r'\1 [a]b', r'\1  [a]b', '\\1\n[a]b', r'\1 b',
            r'\1  {[}', '\\1\n\nb', r'\1 %', r'\1', '\\1 \n [a', r'\i{ }', r'\i{ }%'):
        yield case(line, 'N', files={'a.tex': 'x'}, meanings=meanings)
    for line in (r'\number\noexpand\U', r'\the\noexpand\U', r'\ifnum\noexpand\U', r'\count\noexpand\U', r'\noexpand\U'):
        yield case(line, 'q', 'N')
    yield case('', 'q')
    yield case('%', 'q', 'w')


def csnames():
    for _ in range(380):
        name = joined(*some(NAMES[:30] if draw.random() < 0.8 else NAMES, 0, 3))
        end = draw.choice([r'\endcsname', r'\endcsname', r'\endcsname', r'\K', r'\Q', ''])
        line = joined(r'\csname', name, end, draw.choice(['', 'a', r'\ifx\zz\relax y\else n\fi', r'\zz']))
        calls = draw.choice([['N'], ['o', 'N', 'c'], ['n', 'N'], ['o', 'n', 'c', 'N'], ['q'], ['i'], ['w']])
        yield case(line, *calls)
    for inner, after in ((r'\csname zz\endcsname', r'\zz'), (r'\csname halign\endcsname', r'\halign'),
        (r'\csname\endcsname', r'\csname\endcsname')):
        for calls in (['n', 'n', 'N'], ['o', 'n', 'c', 'n'], ['o', 'n', 'n', 'c', 'N'], ['o', 'o', 'n', 'c', 'n', 'c', 'n'],
            ['o', 'n', 'o', 'n', 'c', 'n', 'c', 'n']):
            yield case(inner + after + ' ' + after, *calls)
            yield case(inner + after + r'\ifx' + after.replace('\\csname\\endcsname', r'\relax') + r'\relax y\else n\fi ', *calls)
    yield case(r'\endcsname', 'N')
    yield case(r'\csname a\expandafter\endcsname\b', 'N')
    yield case(r'\expandafter\csname\b\endcsname', 'N')
    yield case(r'\expandafter\string\csname a b\endcsname', 'N')
    yield case(r'\expandafter\string\csname\endcsname', 'N')
    yield case(r'\csname a\noexpand\endcsname\csname b\noexpand\endcsname', 'N')


ONCE = [
    r'\expandafter', r'\expandafter', r'\expandafter', r'\expandafter', r'\noexpand', r'\string', r'\b', r'\c', r'\y', r'\e', r'\m',
    r'\n', r'\h', 'a', '1', '{', '}', '.', ' ', '~', r'\relax', r'\number', r'\the', r'\C', r'\T', r'\csname', r'\endcsname', r'\iftrue',
    r'\iffalse', r'\else', r'\fi', r'\U', r'\o', r'\X', r'\N', r'\z', '\n\n', r'\d', r'\A']


def chains():
    for _ in range(420):
        line = joined(*some(ONCE[:4] + ONCE[:24] if draw.random() < 0.7 else ONCE, 2, 9))
        yield case(line, *draw.choice([['N', 'v'], ['n', 'v', 'N'], ['n', 'p', 'N'], ['n', 'f', 'f']]),
            active={126: draw.choice([macro('', 'y'), row('expandafter'), None])})
    for line in (
            r'\expandafter', r'\expandafter a', r'\expandafter a\U', r'\expandafter\U a', r'\noexpand', r'\noexpand\U', r'\noexpand\b\b',
            r'\expandafter a\noexpand\b\b', r'\expandafter\m\b', r'\expandafter\expandafter\expandafter\b\c',
            r'\expandafter\expandafter\expandafter\string\c', r'\expandafter\string\noexpand\b', r'\expandafter\number\noexpand\b',
            r'\expandafter\number\d x', r'\expandafter\m\expandafter{\c}', r'\expandafter\h\y.', r'\expandafter\n\y',
            r'\number1\noexpand\b', r'\number1\noexpand\U', r'\expandafter a\string', r'\expandafter a\the\T',
            r'\expandafter a\number1\b', r'\expandafter a\csname b\endcsname', r'\expandafter\noexpand\b', r'\expandafter\noexpand\c\b',
            r'\noexpand\expandafter\b', r'\noexpand\noexpand\b', r'\expandafter a\expandafter b\expandafter c\b',
            r'\expandafter a\jobname', r'\expandafter a\thepage', r'\expandafter a\roman{page}', r'\expandafter\par\par',
            r'\expandafter a\endcsname', r'\noexpand~~', r'\string~', r'\string\b', r'\string', r'\string\ ', r'\string{', r'\string ',
            r'\string #', '\\string\n\n', r'\string\par', r'\string^^41', r'\string\^^41', r'\string\^^M', r'\string%', r'\string\U',
            r'\string\number', r'\string\\', r'\string\csname', r'\string&', r'\string\string'):
        yield case(line, 'N')
        yield case(line + '%', 'n', 'p', 'N')


# ---- quantities, and what is printed

QUANTITIES = [
    r'\count5', r'\C', r'\dimen5', r'\D', r'\skip5', r'\S', r'\toks5', r'\T', r'\catcode`\a', r'\catcode 32', r'\lccode 65',
    r'\uccode`\z', r'\sfcode`\.', r'\sfcode 65', r'\wd3', r'\ht3', r'\dp3', r'\wd4', r'\value{page}', r'\value{tocdepth}', r'\value{zz}',
    r'\value x', r'\value{\b}', r'\hsize', r'\P', r'\parindent', r'\tolerance', r'\interlinepenalty', r'\baselineskip', r'\G',
    r'\parfillskip', r'\parskip', r'\z', r'\count256', r'\count-1', r'\dimen 300', r'\catcode 256', r'\sfcode-1', r'\lccode 255',
    r'\uccode 256', r'\dp 256', r'\count', r'\count x', r'\count\C', r'\count\number5', r'\count\z', r'\skip\skip', r'\count5',
    r'\catcode\catcode32', r'\count\value{page}', r'\value', r'\value}', r'\value{', r'\value{\relax}', r'\lineskiplimit', r'\maxdepth',
    r'\linepenalty', r'\count 0', r'\dimen 0', r'\skip 0', r'\toks 0', r'\toks 256', r'\toks x', r'\count255', r'\l', r'\s', r'\relax',
    r'\b', r'\U', 'x', '5', r'\char', r'\A', r'\fi', r'\kern', r'\noexpand\b', r'\noexpand\C', r'\halign', r'\par', r'\R']
CONTEXTS = [
    r'\the', r'\number', r'\romannumeral', r'\number-', r'\the\count', r'\ifnum1<', r'\ifdim1pt>', r'\number0', r'\expandafter a\the',
    r'\csname a\the', r'\ifodd']


def some_number():
    return draw.choice([
        0, 1, -1, 3, 4, 9, 14, 40, 99, 256, 1999, 3999, 100000, 100001, WORD, -WORD, draw.randrange(-WORD, WORD + 1),
        draw.randrange(5000), draw.randrange(5000)])


def some_size():
    return draw.choice([
        0, 1, -1, 65536, -65536, 32768, 6554, 98304, LENGTH, -LENGTH, draw.randint(-LENGTH, LENGTH), draw.randint(-2 ** 20, 2 ** 20)])


def some_glue():
    order = [0, 0, 1, 2, 3]
    return f'{some_size()},{some_size()},{draw.choice(order)},{some_size()},{draw.choice(order)}'


def some_registers():
    return {
        'count.5': str(some_number()), 'dimen.5': str(some_size()), 'skip.5': some_glue(),
        'box.3': f'{some_size()},{some_size()},{some_size()}',
        'toks.5': tokens(draw.choice(['', 'a', r'\b', r'{\b}', '12', 'a##b', r'\fi', '~', r'\number1', 'p}', r'\U']))}


def quantities():
    for quantity in QUANTITIES:
        for calls in (['q', 'N'], ['N'], ['i', 'n'], ['d', 'n'], ['g', 'n']):
            line = joined(quantity, draw.choice(['', ' ', 'x', r'\relax']))
            yield case(joined(r'\the', line) if calls == ['N'] else line, *calls,
                registers=some_registers() if draw.random() < 0.5 else None)
    for _ in range(330):
        line = joined(draw.choice(CONTEXTS), draw.choice(QUANTITIES[:34]), draw.choice(['', ' ', 'x', '2', r'\b', r'\fi', r'\endcsname']))
        yield case(line, 'N', 'v', registers=some_registers())
    for cell, name, value in (
            ('par.hsize', 'hsize', -1), ('par.tolerance', 'tolerance', -WORD), ('par.year', 'year', 1999), ('par.month', 'month', 12),
            ('par.day', 'day', 31), ('par.time', 'time', 1439), ('par.parskip', 'parskip', '1,2,3,4,0'), ('cat.97', 'catcode97', 13),
            ('lc.200', 'lccode200', 255), ('uc.0', 'uccode0', 1), ('sf.255', 'sfcode255', 32767), ('par.maxdepth', 'maxdepth', LENGTH),
            ('par.leftskip', 'leftskip', '0,0,1,0,2')):
        yield case(f'\\the\\{name} ', 'N', registers={cell: value})
        yield case(f'\\{name} ', 'q', registers={cell: value})
    for name in sorted(text.PARAMETERS - set(text.DATES)):
        yield case(f'\\the\\{name}.', 'N')
    for code in [*range(0, 256, 9), *map(ord, '.?!:;,)\']\\{}$&#^_~%@AZaz\r\f')]:
        yield case(''.join(f'\\the\\{kind}{code} :' for kind in ('catcode', 'lccode', 'uccode', 'sfcode')), 'N')
    for _ in range(60):
        registers = some_registers()
        yield case(draw.choice([r'\the\C:\number\C:\romannumeral\C', r'\the\D:\the\dp3', r'\the\S', r'\the\skip5', r'\the\T:\the\toks5']),
            'N', registers=registers)


COUNTER_VALUES = [0, 1, -1, 2, 4, 9, 26, 27, 14, 40, 90, 400, 900, 1994, 3888, 4999, 99999, 100000, 100001, WORD, -WORD, 25, -26, 3, 5]


def printings():
    for form in ('arabic', 'roman', 'Roman', 'alph', 'Alph'):
        for value in COUNTER_VALUES:
            if abs(value) < 5000 or value > 100000 or form == 'arabic':
                yield case(f'\\{form}{{q}}.', 'N', registers={'counter.71': value})
            if value < 1000 or draw.random() < 0.3:
                yield case(r'\thepage.', 'N', registers={'counter.' + hexed('page'): value, 'pageform': form}) 
        for name in (
                r'{page}', '{zz}', 'p', r'{\b}', '', '{}', '}', r'{\relax}', r'{\csname b\endcsname}', '{tocdepth}', '{ page}',
                r'{\jobname}', r'\b', r'\par', '{page', r'{\roman{page}}', '{~}', '{{page}}', '\n\n', r'{\m}', r'{\h}'):
            yield case(f'\\{form}' + (name if name.startswith(('{', '\\', '}', '\n')) else ' ' + name), 'N',
                registers={'counter.78': 4, 'counter.69': 2, 'counter.' + hexed('main'): 7})
    for value in COUNTER_VALUES:
        if value < 5000 or value > 100000:
            yield case(f'\\romannumeral{value} x\\number{value} ', 'N')
    for job in ('main', 'a b', 'x.y', 'ä~\\', 'UPPER'):
        yield case(r'\jobname.\expandafter\string\jobname', 'N', words=[f'job={hexed(job)}'])


# ---- files

FILES = {'a.tex': 'x\ny', 'b.tex': r'p\input a q', 'c.tex': 'u\\endinput v\nw', 'd/e.tex': 'de', 'f.g/h.tex': 'fgh', 'k.txt': 'kt',
    'm': 'never', '.tex': 'dot', 'x.tex': '', 'j.tex': '%', 'main.tex': 'main'}
INPUTS = [
    r'\input a ', r'\input{a}', r'\input{a.tex}', r'\input a.tex ', r'\input{d/e}', r'\input d/e ', r'\input{f.g/h}',
    r'\input{f.g/h.tex}', r'\input{k.txt}', r'\input k ', r'\input{m}', r'\input{}', r'\input{\b}', r'\input\b ', r'\input a\relax',
    r'\input\relax', r'\input a{b} ', r'\input {a}', r'\input  a  z', '\\input\na', r'\input{ a}', r'\input{a }', r'\input{a\relax}',
    r'\input{a', r'\input', r'\input }', r'\input a', r'\input\jobname ', r'\input{\jobname}', r'\input{\csname b\endcsname}',
    r'\input a\noexpand\b ', r'\input a\U ', r'\input{a\U}', r'\input a~ ', r'\input a\iftrue.tex\else b\fi ', r'\input{zz}',
    r'\input zz ', r'\input{x}', r'\input{j}', r'\input x z', r'\input{b}', r'\input{c}', r'\input{{a}}', r'\input a$ ',
    r'\expandafter z\input{a}', r'\expandafter\b\input{a}', r'\expandafter z\input a ', r'\m\input{a}', r'\csname a\input{j}\endcsname',
    r'\iffalse\input{a}\fi', r'\number1\input{a}', r'\number\input{n}.', r'\expandafter\endinput\input{a}z', r'\endinput',
    'a\\endinput b\nc', '\\endinput%\nc', r'\iftrue\endinput\fi', r'\expandafter a\endinput b', '\\input{c}r\nt', r'\input\s a ',
    '\\input\\e\\e a ', r'\input"a" ', r'\input a\string.tex ', r'\input a\number1 ', r'\input\csname b\endcsname ', r'\input \B a\E ',
    r'\string\input a ', r'\noexpand\input a ', r'\input{a}\input{a}', r'\input a \input a ', '\\input{a}%\nz', '\\input{a}\n\nz',
    r'\b\input{a}\b', '\\input x\ny', r'\ifx\input a']


def inputs():
    for line in INPUTS:
        for calls in (['N', 'v'], ['n', 'f', 'p', 'N']):
            used = {name: data for name, data in FILES.items() if draw.random() < 0.2 or name[0] in line or name in ('a.tex',)}
            yield case(line, *calls, files={**used, 'n.tex': '12%'} if '{n}' in line else used)
    for inner in (
            '', '%', 'a', 'a%', '\n', '\n\na', r'\iftrue', r'\iffalse', r'\fi', r'\else', r'\or', r'\number1', r'\number', r'\string',
            r'\noexpand', r'\expandafter', r'\expandafter a', r'\csname b', r'\endcsname', r'\the', r'\ifnum1<', r'\if a', r'\input a',
            r'\input{a}', r'\endinput', 'a\\endinput\nb', r'\endinput a\input{a}%', r'\e', r'\b', r'\number1%', r'\romannumeral',
            r'\input', r'\arabic', r'\arabic{page', r'\thepage', r'a^^?', r'\ifx a', r'\the\count', r'\o%', r'\o %', '\\iffalse\n\n'):
        files = {'q.tex': inner, **({'a.tex': 'x%'} if 'a' in inner else {})}
        for before, after in (('', 'z'), ('', '5 b\\endcsname\\fi c'), (r'\iffalse a\else', r'\fi'), (r'\iftrue', r'\else b\fi')):
            yield case(joined(before, r'\input{q}', after), *draw.choice([['N', 'v'], ['n', 'v', 'N'], ['n', 'p', 'f', 'N']]), files=files)
    for _ in range(150):
        yield nested_files()
    for files, line in chains_of_files():
        yield case(line, 'N', files=files)
    yield case(r'\input{a}b', 'n', 'f', 'f', 'p', files={'a.tex': 'x%'})


def nested_files():
    """Files that read one another, in the order of their names."""
    names = 'abcd'[:draw.randint(2, 4)]
    files = {}
    for at, name in enumerate(names):
        further = [rf'\input{{{other}}}' for other in names[at + 1:]] + [rf'\input {other} ' for other in names[at + 1:]]
        parts = some([
            'x', 'y', '\n', '%\n', r'\b', r'\endinput', r'\m', '{', '}', r'\iftrue', r'\fi', r'\else', r'\iffalse', '', ' ', r'\number1',
            *further, *further, *further], 1, 6)
        files[name + '.tex'] = joined(*parts)
    return case(joined(r'\input{a}', draw.choice(['z', '}', r'\fi', '\n'])),
        *draw.choice([['N', 'v'], ['n', 'p', 'N', 'v'], ['n', 'n', 'f', 'p', 'N']]), files=files)


def chains_of_files():
    yield {'a.tex': r'\input{a}'}, r'\input{a}'
    yield {'a.tex': r'\input{a}%'}, r'\input{a}'
    yield {'a.tex': 'x\\input{a}'}, r'\input{a}'
    yield {'a.tex': r'\input a'}, r'\input a'
    yield {'a.tex': r'\ifnum\C=5 \input{b}\else\fi', 'b.tex': 'x'}, r'\input{a}'
    yield {'a.tex': r'\input{zz}'}, r'\input{a}'
    for count in (99, 100, 101):
        names = [f'{number:02x}' for number in range(count)]
        files = {name + '.tex': rf'\input{{{after}}}' for name, after in zip(names, names[1:])}
        yield {**files, names[-1] + '.tex': 'e'}, rf'\input{{{names[0]}}}'


# ---- readings

SIGNS = ['', '', '', '-', '+', '- -', '--', ' + ', '  ', r'\e -', '-\n']
INTEGERS = [
    '0', '1', '12', '007', '2147483647', '2147483648', '99999999999', "'17", "'8", "'20000000000", '"7F', '"7f', '"FFFFFFFF', '"G', '`a',
    '`\\a', '`\\b', '`\\bb', '`{', '`}', '`~', '`\\~', '`^^41', '`\\^^M', '`%', '` ', '`', r'\C', r'\count5', r'\z', r'\d', r'\d\d',
    r'1\d', r'\D', r'\S', r'\T', r'\value{page}', r'\b', r'\relax', 'x', '', r'\tolerance', r'\number5', r'\romannumeral3',
    r'\iftrue4\fi', r'\hsize', '1 2', "' 7", '1.5', '-', r'\noexpand\d', r'\U', r'\l', r'\s1', r'1\s2', '1\n2', '1\n\n2', r'1\par',
    r'`\par', r'1\noexpand\b', r'\string1', r'\lccode65', r'\catcode300']
DECIMALS = [
    '0', '1', '1.5', '.5', '.', '1.', '0.00001', '16383.99999', '16384', '3.14159265358979323846', '2147483647', '2147483648', '1,5',
    r'\d', r'\d.\d', r'1\e.5', r'1.\C', '1073741823', '1073741824', '576.1', '5.', "'7", '"F', '`a']
LENGTH_UNITS = [
    *UNITS[:9], *UNITS[:9], *UNITS[:9], 'PT', 'Pt', 'pT', ' pt', '  cm', 'p', 'p t', 'true pt', 'mu', 'fil', 'x', '', r'\D', r'\hsize',
    r'\dimen5', r'\S', r'\C', r'\b', r'p\e t', 'em', 'ex', r'\wd3', r'\relax', r'\noexpand\b', r'p\b', r'\iftrue pt\fi', 'pp', 'i', 'c',
    'b', 'ptt', r'\U']
PART_UNITS = LENGTH_UNITS[:9] + [
    'fil', 'fill', 'filll', 'fillll', 'Fil', 'fi', 'FILLL', 'fil l', r'fi\e l', 'pt', 'x', '', r'\D', r'\C', r'\S', 'em']
AFTER = ['', ' ', '  ', 'x', r'\relax', ' x', '\n\n', r'\b', r'\fi', ' pt', r'\U', '.']


def some_length():
    return joined(draw.choice(SIGNS), draw.choice(DECIMALS if draw.random() < 0.5 else DECIMALS[:8]), draw.choice(LENGTH_UNITS))


def some_part(word):
    word = draw.choice([word, word, word, ' ' + word, word.upper(), word + ' ', word[:2], word[:3] + r'\e ' + word[3:], '  ' + word])
    return joined(word, draw.choice(SIGNS), draw.choice(DECIMALS[:7] if draw.random() < 0.8 else DECIMALS), draw.choice(PART_UNITS))


def some_glue_text():
    line = draw.choice([some_length(), some_length(), joined(draw.choice(SIGNS),
        draw.choice([r'\S', r'\skip5', r'\D', r'\hsize', r'\baselineskip', r'\G', r'\C', r'\T', r'\skip300']))])
    if draw.random() < 0.6:
        line = joined(line, some_part('plus'))
    if draw.random() < 0.5:
        line = joined(line, some_part('minus'))
    return line


def scans():
    for _ in range(330):
        line = joined(draw.choice(SIGNS), draw.choice(INTEGERS), draw.choice(AFTER))
        yield case(line, 'i', *draw.choice([['n'], ['N'], ['p'], ['i']]), registers=some_registers() if draw.random() < 0.4 else None)
    for _ in range(330):
        yield case(joined(some_length(), draw.choice(AFTER)), 'd', *draw.choice([['n'], ['N'], ['p'], ['d']]),
            registers=some_registers() if draw.random() < 0.4 else None)
    for _ in range(420):
        yield case(joined(some_glue_text(), draw.choice(AFTER)), 'g', *draw.choice([['n'], ['N'], ['p']]),
            registers=some_registers() if draw.random() < 0.4 else None)
    for line in (r'1pt plus\count5 x', r'1pt plus 2\count5 x', r'1pt minus\value{page}x', r'1pt plus\skip5 x',
        r'\skip5 plus\dimen5 minus\count5 x', r'1pt plus\count300 x'):
        yield case(line, 'g', 'N')
    for word in ('to', 'by', 'spread', 'width'):
        for line in (
                word, ' ' + word, word.upper(), word[:-1], word[:-1] + 'x', '', word + word, r'\e ' + word, word[0] + r'\e ' + word[1:],
                word[0] + r'\b ', word[0] + '\n' + word[1:], word[0] + '\\', '{' + word, word[0] + r'\U', word[0] + r'\fi', '\n\n' + word,
                '  ' + word[0], word[0] + '~', r'\string ' + word, r'\l'):
            if draw.random() < 0.7:
                yield case(line, 'k' + hexed(word), *draw.choice([['n'], ['N'], ['k' + hexed(word), 'N']]))
    yield from mixed_scans()
    yield from fonts()


def mixed_scans():
    for _ in range(120):
        calls = some(['i', 'd', 'g', 'k746f', 'n', 'p', 'q'], 2, 4)
        texts = {'i': ['1', '12 ', r'\C', r'\d ', "'7 "], 'd': ['1pt', '2.5cm ', r'\D', '3sp'],
            'g': ['1pt plus2fil', r'\S', '1pt minus 3pt ', '1pt'], 'k': ['to', ' to', 'TO', 'x'], 'n': [r'\b', 'x', r'\relax'],
            'p': ['x', r'\b', ' '], 'q': [r'\C', r'\skip5', 'x']}
        yield case(joined(*(draw.choice(texts[call[0]]) for call in calls)), *calls)


def fonts():
    broken = bytearray(FONT)
    broken[28] = 0x80
    datas = {'good': FONT, 'broken': bytes(broken), 'short': FONT[:203], 'empty': b''}
    styles = 'cmr10 cmbx10 cmti10 cmsl10 cmtt10 cmss10'.split()
    for size in range(10):
        yield with_font(r'1em2ex', ['d', 'd', 'n'], 'cmr10', FONT, {'size': size})
    for style, name in enumerate(styles):
        yield with_font(r'1.5ex', ['d'], name, b'' if style % 2 else FONT, {'style': style})
        yield case(r'1.5ex', 'd', registers={'style': style})
    for name, data in datas.items():
        yield with_font(r'-.3em x', ['d', 'N'], 'cmr10', data, {'size': 3})
        yield with_font('1pt plus 1ex minus2Em', ['g', 'N'], 'cmr10', data, {})
        yield with_font('1em', ['d'], 'f/cmr10', data, {}, words=['prefix=' + hexed('f/')])
        yield with_font('1em', ['d'], 'f/cmr10', data, {}, words=['prefix=' + hexed('g/')])
        yield with_font('ab\n\nc\\ifdim1em<20pt y\\else n\\fi', ['N'], 'cmr10', data, {})
    for line, call in (
            ('1em', 'd'), ('1e', 'd'), ('em', 'd'), ('1pt plus1em', 'g'), ('1pt plus1e', 'g'), (r'\ifdim1em=1em\fi', 'N'), ('x 1ex', 'i'),
            ('1pt minus1fil plus1em', 'g'), ('1ex plus1em', 'g'), ('1638em', 'd'), ('1EX', 'd'), ('1e\\e x', 'd'), ('1\nem', 'd')):
        yield case(line, call, 'N')
    yield with_font('1638.3em', ['d'], 'cmr10', FONT, {})
    yield with_font('1638.5em', ['d'], 'cmr10', FONT, {})
    yield with_font('2147483647ex', ['d'], 'cmr10', FONT, {})


def with_font(line, calls, name, data, registers, words=()):
    return case(line, *calls, registers=registers, words=[f'file={hexed(name + ".tfm")}:{data.hex()}', *words])


# ---- texts

CHARACTERS = list('abzAZ019 .,{}$&#^_~%\\\n\r\t\0\x7f\x0c\x80\xff@!') + [
    '^^', '^^4', '^^41', '^^5c', '^^M', '^^@', '^^?', '^^a', '^^5e^^', '^^^', '\n\n', '  ', r'\par', r'\ ', '%\n', '\\\n', r'\^^41',
    r'\a^^62', '^^zz', '^^\x80', r'\^^M', '\r\n', '^^0a', '^^0d', ' \n', '\\^^5ca']
CATEGORIES = [
    (97, 0), (97, 7), (94, 12), (13, 12), (13, 13), (13, 5), (32, 12), (32, 9), (32, 13), (64, 11), (64, 13), (37, 12), (65, 15),
    (46, 10), (123, 12), (125, 1), (92, 12), (126, 10), (127, 12), (0, 13), (9, 5), (65, 14), (49, 11), (13, 10), (13, 9), (13, 15),
    (13, 14), (13, 11), (255, 7), (13, 0), (13, 7)]


def texts():
    for _ in range(520):
        line = ''.join(some(CHARACTERS, 0, 12))
        registers = {f'cat.{code}': category for code, category in some(CATEGORIES, 0, 2)} if draw.random() < 0.5 else {}
        calls = draw.choice([['P'], ['P'], ['p', 'p', 'f', 'P'], ['N'], ['f', 'n', 'p', 'N']])
        words = draw.choice([[], [], [], ['line=7'], ['line=4294967296', 'name=' + hexed('x/y.tex')], ['name=' + hexed('kernel')]])
        yield case(line, *calls, active={126: None}, registers=registers, words=words)
    for line in (
            '', '\n', '\n\n', ' ', '  \n', '\r', '\r\n', 'a\r', 'a\rb', 'a\r\nb', 'a\r\r\n', '\\', '\\\n', '%', '%%\n%', 'a%', 'a %\n b',
            r'\a b', r'\a  b', r'\1 b', r'\  b', 'a \\ ', '\\^^M', '^^^^41', '^^5e^5e', '^^', '^^\n', '^^4', '^^4g', '^^A1', '^^\x7f',
            '^^\x80', '^^@', '\t a\tb', 'a  \t b', 'a\x00b', '\x7f', r'\^^?', r'\ab^^?', 'a\n\x7f', 'a\n\n^^?', '##1', '{#}', '~~',
            'a\\par\n\n\nb', '\\^^61bc', r'\^^5c', r'a^^20b', '^^20a', 'a^^20', 'a^^0d b', '^^0d b\nc', 'x^^^^0db', r'\a^^0db',
            r'\^^20 b', '\xe4\xff', '\\\xe4b', '\\a1'):
        for calls in (['P'], ['p', 'f', 'f', 'P']):
            yield case(line, *calls, active={126: None})
    yield case('ab', 'p', 'p', 'p', 'p', 'p', 'f', 'n', 'i')
    yield case('', 'n', 'p', 'f')
    yield case('', 'N', 'v')
    for line in ('', 'a', '\x7f', '% '):
        yield case(line, 'n', words=['steps=0'])
    yield case('a', 'o', 'c', 'v', 'o', 'v', 'c', 'c', 'n', words=['steps=0'])
    yield case('a', 'o', 'o', 'c', 'n', 'c', 'c', 'n')


# ---- words and bodies

WORDS = [
    '{abc}', 'a', ' b', '{}', '', '}', '{', r'{\b}', r'\b', r'{\c\c}', r'{a\relax}', r'{\noexpand\b}', '{~}', r'{\A}', '{{a}}', '{{{}}}',
    '{ a b }', r'{\number12 }', r'{\the\T}', r'{\the\C}', r'{\iftrue a\else b\fi}', r'{\iftrue a}\fi', r'{\if}', r'{\m}', r'{\m b}',
    r'{\h a}', r'{\h a.}', r'{\csname b\endcsname}', r'{\csname}b\endcsname', r'{\string{}', r'{\string}}', r'{a\par}', '{a\n\nb}',
    '{a\nb}', r'{#$&^_}', r'{\l}', r'{\U}', r'{\halign}', r'{\expandafter\b\b}', r'{\iffalse}\fi a', r'{\fi}', r'{\expandafter}',
    r'{\noexpand}', r'{\string}', r'{\ifnum1<2}a\fi', r'{\input{a}}', r'{\input a }', r'{\arabic{page}}', r'{\jobname}', r'\number1',
    r'\par', r'{\e}', r'\e', r'{\iffalse{\else b\fi}', r'{\iftrue{\else}\fi}}', r'\relax', '$', '#', '~', r'{^^?}', '{a^^41}',
    r'\input{a}', r'{\endinput}b', r'{\n a}', r'{\o}', r'{\o[a]}', r'{\o[a}', r'{\H a{b}}', r'{\romannumeral4}']


def words_and_bodies():
    for line in WORDS:
        files = {'a.tex': 'xy%'} if 'input{a}' in line or 'input a' in line else None
        for calls in (['w', 'N'], ['w', 'n', 'v']):
            yield case(joined(line, draw.choice(['', 'z', ' z', '}'])), *calls, files=files)
        body = line if line.startswith('{') else '{' + spaced(line) + '}'
        yield case(joined(body, 'z'), 'b', 'N', 'v', files=files)
    pieces = [
        'a', '1', r'\b', r'\c', r'\relax', r'\noexpand\b', r'\noexpand\c', '{x}', '{', '}', r'\the\T', r'\the\toks5', r'\the\C',
        r'\the\S', r'\number\C', r'\expandafter\e\the\T', r'\e', '~', r'\noexpand~', r'\string\b', r'\m a', r'\m{\b}',
        r'\csname zz\endcsname', r'\csname b\endcsname', r'\iftrue\b\else c\fi', r'\par', '\n\n', ' ',
        r'\expandafter\noexpand\csname b\endcsname', r'\expandafter\noexpand\c', r'\number1\noexpand\b', r'\the\hsize', r'\noexpand\U',
        r'\l', r'\B', r'\E', r'\h .', r'\thepage', r'\jobname', '$', '#', r'\fi', r'\U', r'\the\noexpand\T', r'\expandafter\the\T',
        r'\number1\the\T', r'\csname\the\T\endcsname', r'\N\the\T']
    for _ in range(330):
        line = '{' + joined(*some(pieces[:36] if draw.random() < 0.8 else pieces, 1, 5)) + draw.choice(['}', '}', '}', ''])
        yield case(line, 'b', *draw.choice([['N'], ['v', 'N', 'v'], ['P']]),
            registers={'toks.5': tokens(draw.choice([
                '', r'\b', r'{\b}', r'\b\c x', r'\noexpand\b', 'a##', '~', r'\U', r'\the\T', r'\fi']))})
    for inner in ('a', 'a%', r'\number1%', r'a}%', r'\iffalse', r'\b%', r'\csname b%', ''):
        yield case(r'{x\input{a}y\endcsname\fi}z', 'b', 'N', files={'a.tex': inner})
        yield case(r'{x\input{a}y\endcsname\fi}z', 'w', 'N', files={'a.tex': inner})


# ---- names without meaning

REFUSED = r'''
\( \[ \ensuremath \math \displaymath \equation \eqnarray \halign \valign \noalign \omit \span \cr \tabular \array \tabbing \usepackage
\RequirePackage \part \figure \table \special \read \openin \openout \write \outer \font \accent \verb \verbatim \vsplit \looseness
\leaders \output \shipout
'''.split()


def refused():
    for name in REFUSED:
        yield case(name + ' x', 'N')
        yield case(draw.choice([
            r'\noexpand', r'\expandafter a', r'\string', r'\ifx', r'\iffalse', r'\csname', r'\number', r'\if', r'\m',
            r'\the']) + name + r' \endcsname x\fi', 'N', 'v')
    for name in ('U', 'nosuch', 'bye', 'cr ', 'Cr', 'mathx', '1', '@', '^^M', '\xff', 'bgroup', 'quad', 'LaTeX'):
        for before in ('', 'a\n', r'\expandafter b', r'\number1', r'\iffalse', r'\noexpand', r'\b'):
            yield case(before + '\\' + name + ' z', 'N', 'v')
    for name in ('halign', 'usepackage', 'special', 'math'):
        for meaning in (macro('', 'r'), 'char=11.65', 'none', row('fi'), 'number=5'):
            yield case(f'\\{name} x', 'N', meanings={name: meaning})
    for name in ('relax', 'par', 'number', 'fi', 'input', 'endcsname', 'string', 'iftrue', 'hsize'):
        for meaning in (macro('', 'r'), 'none', row('number'), 'reg=count.5'):
            yield case(f'\\{name} 12 \\fi\\endcsname ', 'N', 'v', meanings={name: meaning})
    for kind in (
            '\\par', '\\hbox', '\\ ', '\\char', '\\def', '\\global', '\\begingroup', '\\newif', '\\uppercase', '\\advance', '\\include',
            '\\item', '\\\\', '\\-', '\\/', '\\@head', '\\begin', '\\value', '\\endcsname', '\\let', '\\label', '\\year'):
        yield case(kind + ' 1', 'N')


# ---- limits

def hundred(line):
    """Macros for a hundred times a text."""
    return {'k': macro('', r'\i' * 10), 'i': macro('', line * 10)}


def limits():
    yield 'case text=' + hexed('\\number' * 10000 + '1 ') + ' n n'
    yield 'case text=' + hexed('\\number' * 10001 + '1 ') + ' n n'
    yield case(r'\k{ab}.c', 'N', meanings={'k': macro('#1.#2', '[#1|#2]')})
    yield from reading_limits()
    yield from other_limits()
    for body in (
            r'\number\k', r'\csname\k', r'\iftrue\k', r'\ifnum\k', r'\if\k', r'\ifcase\k', r'\the\count\k', r'\arabic{\k}',
            r'\romannumeral\k', r'\ifdim\k', r'\input\k', r'\input{\k}', r'\the\k', r'\k', r'\k\k', r'\expandafter\k',
            r'\number\value{\k}', r'\ifnum1<\k', r'\the\catcode\k', r'\the\value{\k}', r'\expandafter\relax\k', r'x\k', r'\iffalse\k',
            r'\ifnum1=1\number\k', r'\if a\if b\number\k'):
        for call in ('n', 'i', 'w', 'q'):
            if call == 'n' or draw.random() < 0.5:
                yield case(r'\k', call, 'v', meanings={'k': macro('', body)}, words=['steps=70000'])


def reading_limits():
    """Readings of one kind inside one another, 9,999 to 10,001 deep. Macros of a hundred make the texts short."""
    for call, most in (('n', 10000), ('i', 9999), ('d', 9999), ('g', 9999), ('k746f', 9999)):
        for more in (0, 1):
            start = {'n': '', 'i': '', 'k': 't'}.get(call[0], '1')
            line = start + r'\k' * 99 + r'\number' * (most - 9900 + more) + '1 '
            if call[0] in 'dgk':
                line += 'pt'
            yield case(line, call, 'n', meanings=hundred(r'\number'))
    for more in (0, 1):
        line = r'\k' * 99 + r'\romannumeral' * (100 + more) + '1 '
        yield case(line, 'n', meanings=hundred(r'\romannumeral'), words=['steps=200000'])
        yield case(r'\k' * 99 + r'\csname' * (100 + more) + r' a\k', 'n', meanings=hundred(r'\csname'))
        for zeros, last in ((100, r'\b'), (100, r'\relax'), (99, r'\number1 '), (98, r'\the\count5 '), (99, r'\the\C'),
            (99, r'\csname b\endcsname'), (99, r'\noexpand\b'), (99, r'\arabic{page}')):
            yield case(r'\k' * 99 + '~0' * (zeros + more) + last, 'n', meanings=hundred(r'\number'), active={126: row('expandafter')})
        yield case(r'\k' * 99 + r'\number' * (99 + more) + r'\arabic{page}', 'n', meanings=hundred(r'\number'))
        yield case(r'\k' * 99 + r'\number' * (98 + more) + r'\value{\number5}', 'n', meanings=hundred(r'\number'))
        yield case(r'\k' * 99 + r'\number' * (99 + more) + r'\input{a}', 'n', meanings=hundred(r'\number'), files={'a.tex': '4 '})
        yield case(r'\k' * 99 + r'\number' * (99 + more) + r'\input a ', 'n', meanings=hundred(r'\number'), files={'a.tex': '4 '})
        yield case(r'\k' * 99 + r'\number' * (100 + more) + r'\ifnum1<2 3 \fi', 'n', 'v', meanings=hundred(r'\number'))
        yield case(r'\k' * 99 + r'\number' * (99 + more) + r'\ifnum1<2 3 \fi', 'n', 'v', meanings=hundred(r'\number'))
        yield case(r'\k' * 99 + r'\number' * (99 + more) + r'\ifdim1pt<2pt 3 \fi', 'n', 'v', meanings=hundred(r'\number'))
        yield case(r'\k' * 99 + r'\number' * (100 + more) + r'\if aa3 \fi', 'n', 'v', meanings=hundred(r'\number'))
        yield case(r'\k' * 99 + r'\number' * (100 + more) + r'\thepage ', 'n', 'v', meanings=hundred(r'\number'))


def other_limits():
    for test in (r'\iftrue', r'\ifnum\tolerance=\tolerance', r'\if aa'):
        for more in (0, 1):
            yield case(r'\k' * 99 + spaced(test * (100 + more)) + 'z', 'n', 'v', meanings=hundred(test))
    for more in (0, 1):
        yield case(r'\k' * 99 + r'\if' * (100 + more) + ' z', 'n', 'v', meanings=hundred(r'\if'))
        yield case(r'\k' * 99 + r'\ifcase' * (100 + more) + '0z', 'n', 'v', meanings=hundred(r'\ifcase'))
        yield case(r'\iffalse' + r'\k' * 99 + r'\iftrue' * (100 + more) + ' z', 'n', 'v', meanings=hundred(r'\iftrue'))
        yield case(r'\k' * 99 + r'\iftrue' * 100 + r'\fi' * more + r'\iftrue z', 'n', 'v', meanings=hundred(r'\iftrue'))
    yield from token_limits()


def million(more=''):
    """Macros that make a million times the hundredth part of an argument of a hundred tokens."""
    return {'k': macro('#1', r'\j{' + '#1' * 100 + '}'), 'j': macro('#1', '#1' * 100 + more)}


def token_limits():
    hundred_letters = '{' + 'a' * 100 + '}'
    for line in (r'\k', r'\expandafter z\k', r'\number1\k', r'\noexpand\k', r'\expandafter z\expandafter y\k', r'\number\k'):
        yield case(line + hundred_letters, 'n', 'n', meanings=million(), words=['steps=3000000'])
    yield case(r'\k' + hundred_letters, 'n', meanings=million('b'))
    yield case(r'\expandafter z\j{' + 'a' * 100 + '}', 'n', meanings={'j': macro('#1', '#1' * 100)})
    almost = {
        'k': macro('#1', r'\j{' + '#1' * 100 + '}{#1}a'), 'j': macro('#1#2#3', r'\i{' + '#1' * 99 + '#2' * 99 + '#3' * 98),
        'i': macro('#1', '!', long=True)}
    for end in ('c', 'cc', 'ccc'):
        yield case(r'\k' + hundred_letters + end + '}', 'n', 'n', meanings=almost, words=['steps=3000000'])


# ---- steps that run out

BASES = [
    (r'\m{ab}c', ['N']), (r'\h a{.}b.c', ['N']), (r'\number 12 x', ['N']), (r'\romannumeral\C x', ['N']),
    (r'\iftrue a\else b\fi c', ['N', 'v']), (r'\iffalse a\else b\fi c', ['N', 'v']), (r'\ifcase1 a\or b\or c\fi', ['N', 'v']),
    (r'\ifnum1<2 a\fi', ['n', 'v', 'N', 'v']), (r'\ifnum1=1\fi a', ['N', 'v']), (r'\if\b x y\else n\fi', ['N']),
    (r'\ifx\b\b y\fi', ['N']), (r'\ifdim1pt<2pt y\fi', ['N']), (r'\csname zz\endcsname\zz', ['N']), (r'\csname b\endcsname c', ['N']),
    (r'\expandafter a\b\c', ['N']), (r'\expandafter\m\c c', ['N']), (r'\noexpand\b\b', ['N']), (r'\string\b c', ['N']),
    (r'\the\C x', ['N']), (r'\the\S', ['n', 'n', 'n']), (r'\the\T x', ['N']), (r'\the\count5 x', ['N']), (r'\arabic{page}x', ['N']),
    (r'\thepage x', ['N']), (r'\jobname', ['N']), (r'\input{a}b', ['N']), (r'\input a b', ['N']), (r'\input \b\relax', ['N']),
    (r'\o[a]b', ['N']), (r'\o b', ['N']), (r'\o  b', ['N']), ('12pt plus 1fil x', ['g', 'n']), ('1pt plus x', ['g', 'N']),
    ('-12 x', ['i', 'n']), ("'17x", ['i', 'n']), ('`\\b x', ['i', 'N']), ('2.5cm x', ['d', 'n']), (r'2\D x', ['d', 'n']),
    ('tox', ['k746f', 'n']), ('  tx', ['k746f', 'N']), (r'\count5 x', ['q', 'n']), (r'\value{page}x', ['q', 'n']),
    (r'{a\b}c', ['w', 'n']), ('a', ['w', 'n']), (r'{a\b{c}\noexpand\b}d', ['b', 'n']), (r'{\the\T\the\C}d', ['b', 'n']),
    ('a\n\nb% c\nd', ['P']), (r'\n{a}b', ['N']), (r'\H a{b}', ['N']), (r'\iffalse\iftrue\fi', ['N']),
    (r'\ifnum1<\iftrue2 a\fi b\fi', ['N', 'v']), (r'\ifnum3<\iftrue2 a\else b\fi c\else d\fi e', ['N', 'v']), (r'\number`a x', ['N']),
    (r'\U', ['N']), (r'\m}', ['N']), (r'\m', ['N']), (r'\fi', ['N']), ('a^^?', ['N']), (r'\number x', ['N']), (r'\the x', ['N']),
    (r'\csname a', ['N']), (r'\expandafter a', ['N']), (r'\input{zz}', ['N']), (r'\count300 ', ['q']), (r'\alph{q}', ['N']),
    (r'\iffalse a', ['N']), (r'a\endinput b', ['N'])]


def run_outs():
    for line, calls in BASES:
        files = {'a.tex': 'x', 'x.tex': 'y%'} if r'\input' in line else None
        registers = {'counter.71': 30} if 'alph' in line else None
        whole = case(line, *calls, files=files, registers=registers)
        run = expand.Case()
        run.run(whole.split()[1:])
        for steps in range(100000 - run.feeder.left + 1):
            yield case(line, *calls, files=files, registers=registers, words=[f'steps={steps}'])


# ---- everything together

SOUP = [
    'a', 'b', '1', '2', '.', ' ', '{', '}', '{a}', '~', '\n', '\n\n', r'\b', r'\c', r'\d', r'\e', r'\y', r'\m', r'\n', r'\o', r'\h',
    r'\M', r'\H', r'\l', r'\s', r'\z', r'\C', r'\D', r'\S', r'\T', r'\A', r'\relax', r'\par', r'\number', r'\number', r'\romannumeral',
    r'\the', r'\the', r'\string', r'\expandafter', r'\expandafter', r'\noexpand', r'\csname', r'\endcsname', r'\iftrue', r'\iffalse',
    r'\ifnum', r'\if', r'\ifx', r'\ifcat', r'\ifcase', r'\ifodd', r'\ifdim', r'\or', r'\else', r'\else', r'\fi', r'\fi', r'\fi', '<', '=',
    r'\count5 ', r'\value{page}', r'\arabic{page}', r'\thepage', r'\jobname', r'\input{a}', r'\endinput', '1pt', '2\\D', r'\K', r'\I',
    r'\J', '`', '-', '[a]', '%\n', r'\hsize', '5 ']
CALLS = ['n', 'n', 'p', 'f', 'i', 'd', 'g', 'k746f', 'q', 'w', 'o', 'c', 'v', 'v']


def soups():
    for _ in range(900):
        line = joined(*some(SOUP, 3, 14))
        calls = ['N', 'v'] if draw.random() < 0.5 else [*some(CALLS, 1, 4), 'N', 'v']
        files = {'a.tex': joined(*some(SOUP[:60], 0, 5)).replace(r'\input', '')} if 'input{a}' in line else None
        yield case(line, *calls, files=files, active={126: draw.choice([macro('', 'y'), macro('#1', '(#1)'), row('expandafter'), None])},
            words=[f'mode={draw.choice(MODES)}', 'steps=2000'])


def main():
    """Each case once."""
    seen = set()
    for cases in (
            limits, arguments, conditionals, active_commands, csnames, chains, quantities, printings, inputs, scans, texts,
            words_and_bodies, refused,
            run_outs, soups):
        for line in cases():
            if line not in seen:
                seen.add(line)
                print(line)


if __name__ == '__main__':
    main()
