#!/usr/bin/env python3
"""Writes the cases of engine.py. What is drawn is drawn from a fixed seed. Most cases begin behind the kernel text with @ a letter, and with a
checkpoint of two counters, so that their answers stay short."""
import random
from pathlib import Path

draw = random.Random(1977)

CHECKPOINT = 'set=counters:70616765,73656374696f6e'
AT = 'set=cat.64:11'
POINT = 65536


def hexed(data):
    data = data.encode('latin-1') if isinstance(data, str) else data
    return data.hex() or '_'


def file(name, data):
    return f'file={hexed(name)}:{hexed(data)}'


def case(*words):
    print(' '.join(['case', *words]))


def chapter(data, *words, fonts='fonts'):
    case(*[fonts] * bool(fonts), 'kernelstate', CHECKPOINT, AT, *words, file('a.tex', data), 'chapter=61')


def segment(data, *words, fonts='fonts', last=None):
    count = data.count('\n') + (not data.endswith('\n'))
    case(*[fonts] * bool(fonts), 'kernelstate', AT, *words, file('main.tex', data), f'segment=1:{count if last is None else last}')


def par(**sizes):
    """Lengths of the page and the paragraph, in points."""
    return [f'set=par.{name}:{round(size * POINT)}' for name, size in sizes.items()]


def glue(name, width, stretch=0, order=0, shrink=0, shrink_order=0):
    return f'set=par.{name}:{round(width * POINT)},{round(stretch * POINT)},{order},{round(shrink * POINT)},{shrink_order}'


def number(name, value):
    return f'set=par.{name}:{value}'


def macro(name, body, pattern='', long=False, first=None):
    flags = ('l' if long else '-') + ('' if first is None else 'o' + hexed(first))
    return f'set=word.{hexed(name)}:macro={flags};{hexed(pattern)};{hexed(body)}'


def counter(name, value):
    return f'set=counter.{hexed(name)}:{value}'


# ---- each row alone

# a command, what may stand behind it, and what may not
ROWS = {
    'char': (['65 ', "'101 ", '`\\{', '"41 ', '200 '], ['256 ', '-1 ', 'x', '']), ' ': (['', ' x'], []), 'relax': ([''], []),
    'expandafter': ([r'\bfseries\relax x', r'\string\ldots'], ['']), 'noexpand': ([r'\ldots x', r'\relax', 'y'], ['', r'\nosuch']),
    'csname': ([r'ldots\endcsname', r'q\endcsname\q'], [r'\relax\endcsname', 'abc']), 'endcsname': ([], ['']),
    'string': ([r'\ldots', 'a', '~', ' '], []), 'number': (['12 ', r'\count7 ', r'`a', r'\year'], ['x', '2147483648 ']),
    'romannumeral': (['1984 ', '-3 '], ['100001 ', 'x']),
    'the': ([r'\hsize', r'\parskip', r'\tolerance', r'\toks3 ', r'\catcode65 ', r'\wd2 ', r'\value{page}'],
                                                                  [r'\relax', 'x', r'\count256 ', r'\value{zz}']),
    'jobname': ([''], []), 'if': (['aa x\\else y\\fi', r'a\relax x\else y\fi', '~~x\\fi'], ['aa x', '']),
    'ifcat': (['ab x\\else y\\fi', r'\noexpand~\noexpand~x\fi'], []),
    'ifx': ([r'\ldots\dots x\else y\fi', r'ab x\else y\fi', r'\nosuch\nosucho x\fi'], ['a']),
    'ifnum': (['1<2 x\\else y\\fi', r'\count1>3 x\else y\fi', '1 = 1 x\\fi'], ['1!2 x\\fi', 'x<1 \\fi']),
    'ifdim': (['1pt<2pt x\\else y\\fi', r'\hsize=\textwidth x\fi'], ['1pt!2pt x\\fi', '1xx<2pt \\fi']),
    'ifodd': (['3 x\\else y\\fi', r'-2 x\else y\fi'], ['x\\fi']),
    'ifcase': (['1 x\\or y\\or z\\else w\\fi', r'-1 x\or y\else w\fi', '5 x\\or y\\fi'], ['1 x']),
    'ifvmode': ([r'x\else y\fi'], []), 'ifhmode': ([r'x\else y\fi'], []), 'iftrue': ([r'x\else y\fi'], ['x']), 'iffalse': ([r'x\else y\fi'], ['x']),
    'or': ([], ['']), 'else': ([], ['', ' x\\fi']), 'fi': ([], ['']),
    'newif': ([r'\ifq\ifq x\else y\fi\qtrue\ifq x\else y\fi'], [r'\q', 'q', r'\if', '']),
    'input': (['{b}', 'b ', '{b.tex}', r'b\relax'], ['{zz}', r'{\relax}']), 'endinput': ([' x\n y'], []),
    'arabic': (['{page}'], ['{zz}', r'{\relax}']), 'roman': (['{page}', '{section}'], ['{zz}']), 'Roman': (['{page}'], ['{}']),
    'alph': (['{page}', '{chapter}'], []),
    'Alph': (['{page}'], []), 'value': ([], ['{page}']), 'thepage': ([''], []),
    'long': ([r'\def\q#1{(#1)}\q{a\par b}', r'\global\long\def\q{x}\q', r'\count1=5 '], ['x', r'\relax', r'\newcommand{\q}{}', '']),
    'global': ([r'\count1=7 \the\count1 ', r'\let\q=a\q', r'\advance\count1 by2 ', r'\setbox1=\hbox{z}\copy1 ', r'\catcode`\|=13 ', r' \hsize=50pt'],
               ['x', r'\relax', r'\newcount\q', r'\@size2 ', r'{']),
    'def': ([r'\q{x}\q', r'\q#1#2.{#2#1}\q ab.', r'\q#1#{[#1]}\q a{b}', r'~{y}~', r'\q[#1]{#1##}\show', r'\q#1{\def\p##1{##1#1}}\q a\p b'],
            ['x{}', r'\q#2{}', r'\q}', r'\q#1#1{}', r'\q{#1}', r'\q#1{#x}', r'\q#1#2#3#4#5#6#7#8#9#1{}', r'\q{', r'\q#1', '']),
    'gdef': ([r'\q{x}\q'], [r'\q']), 'edef': ([r'\q{\ldots}\q', r'\q{\the\toks3 \noexpand\ldots}\q', r'\q#1{\jobname#1}\q b'],
    [r'\q{\nosuch}', r'\q{\ldots', r'\q{#1}']),
    'xdef': ([r'\q{\thepage}\q'], [r'\q{\fi}']), 'let': ([r'\q=a\q', r'\q = =\q', r'\q\ldots\q', r'\q=\nosuch', r'~=b~'], ['x', r'\q', r'\q=']),
    'futurelet': ([r'\q\relax x\q', r'\q\string a\q'], ['a', r'\q', r'\qa']),
    'chardef': ([r'\q=65 \q', r'\q"42 \q\number\q'], [r'\q=256 ', 'x', r'\qx']),
    'countdef': ([r'\q=7 \q=5 \the\q', r'\q 3\advance\q by 1 \the\q'], [r'\q=256 ', 'x']), 'dimendef': ([r'\q=7 \q=5pt\the\q'], [r'\q=-1 ']),
    'skipdef': ([r'\q=7 \q=5pt plus 1fil\the\q'], [r'\q x']), 'toksdef': ([r'\q=7 \q={ab}\the\q'], [r'\q']),
    'count': (['1=5 \\the\\count1 ', '1 7\\number\\count1 ', r'255=-\count1 '], ['1=x', '256=1 ', '1=2147483648 ', '1=1pt', '1=\\hsize']),
    'dimen': (['1=5pt\\the\\dimen1 ', '1 .5em\\the\\dimen1 ', r'2=-2\hsize\the\dimen2 ', '3=1truept'],
    ['1=x', '1=1xx', '1=16384pt', r'1=\count1 ', r'1=\parskip']),
    'skip': (['1=5pt plus 1fil minus 2pt\\the\\skip1 ', r'1=-\parskip\the\skip1 ', '1=1pt plus x', r'1=\hsize plus1filll \the\skip1 '],
    ['1=x', '1=1fil']),
    'toks': (['1={a#b}\\the\\toks2 ', r'1=\toks3 \the\toks1 ', r'1=\bgroup c}\the\toks1 '], ['1=x', '1=', r'1=\relax{}', '1={a']),
    'advance': ([r'\count1 by 5 \the\count1 ', r'\dimen1 by 5pt\the\dimen1 ', r'\skip1 by 1pt plus 1fil\the\skip1 ', r'\hsize -5pt\the\hsize',
    r'\count1 BY\count1 '],
                ['x', r'\relax', r'\count1 by x', r'\count1 by 1pt', r'\toks1 by 1 ', r'\catcode65 by 1 ', r'\value{page} by 1 ', r'\wd1 by 1pt']),
    'multiply': ([r'\count1 by 5 ', r'\dimen2 by -2 ', r'\parskip by 3 \the\parskip'],
    [r'\dimen2 by 1pt', r'\hsize by 2147483647 ', r'\count2 by 2147483647 ']),
    'divide': ([r'\count2 by 2 \the\count2 ', r'\hsize by -7 \the\hsize', r'\skip3 by 3 \the\skip3 '], [r'\count1 by 0 ', r'\hsize by x']),
    'catcode': ([r'`\|=13 \def|{y}|', "65=12 \\the\\catcode65 "], ['65=16 ', '256=1 ', '65=-1 ', 'x=1 ']),
    'lccode': (['65=98 \\lowercase{A}'], ['65=256 ']),
    'uccode': (['97=0 \\uppercase{ab}'], ['97=-1 ']), 'sfcode': (['97=2000 a b', "97=0 a"], ['97=32768 ']),
    'newcount': ([r'\q\q=3 \the\q'], ['x', '']), 'newdimen': ([r'\q\q=3pt\the\q'], ['x']), 'newskip': ([r'\q\q=3pt plus1pt\the\q'], ['x']),
    'newlength': ([r'\q\setlength{\q}{3pt}\the\q', r'\q\hspace{\q}x'], ['x']), 'newtoks': ([r'\q\q={a}\the\q'], ['x']),
    'newsavebox': ([r'\q\setbox\q=\hbox{s}\copy\q', r'~\number~'], ['x']),
    'newcommand': ([r'{\q}{x}\q', r'\q[1]{(#1)}\q{a}', r'*{\q}[2][d]{#1#2}\q{a}\q[b]{c}', r'{\q} [1] [e] {#1} \q x', r'{~}{z}~'],
                   [r'{\ldots}{}', r'{q}{}', r'{\q}[10]{}', r'{\q}[0][x]{}', r'{\q}[1x]{}', r'{\q}[x]{}', r'{\q}{#1}', r'{\q}[1]{#}', r'{\q\p}{}',
                   r'{\q}', r'{\q}[1']),
    'renewcommand': ([r'{\ldots}{x}\ldots', r'*\quad[1]{#1}\quad z'], [r'{\q}{}', r'{\cr}{}']),
    'providecommand': ([r'{\q}{x}\q', r'{\ldots}{x}\ldots', r'{\ldots}[3]{#3}\ldots'], ['x{}']),
    'newenvironment': ([r'{e}{(}{)}\begin{e}x\end{e}', r'{e}[2][d]{#1#2}{!}\begin{e}[k]l\end{e}\begin{e}m\end{e}',
    r'{e}{\bfseries}{}\begin{e}x\end{e}y'],
                       [r'{quote}{}{}', r'{e}{}{#1}', r'{e}[1]{#2}{}', r'{\relax}{}{}', r'{e}{}']),
    'renewenvironment': ([r'{quote}{(}{)}\begin{quote}x\end{quote}'], [r'{e}{}{}']),
    'begingroup': ([r'\bfseries x\endgroup y'], ['x}', '', '{x\\endgroup']), 'endgroup': ([], ['']),
    'aftergroup': (['x', r'\ldots', '{\\aftergroup x\\aftergroup y z}w'], ['']),
    'uppercase': ([r'{ab\ldots}', r'{~}', 'c'], [r'{a', '}']), 'lowercase': (['{ABc1}'], []),
    'hbox': ([r'{x}', r' to50pt{x\hfil y}', r' spread 3pt{a b}', r'\bgroup x\egroup', r'{}'], ['x', r'\relax{x}', ' to{x}', '{x', '']),
    'vbox': ([r'{x}', r' to50pt{x\vfil}', r' spread 3pt{\hbox{a}\hbox{b}}', r'{\hsize30pt x y z w v}', r'{}'], ['x', '{x\\hbox{']),
    'setbox': ([r'1=\hbox{x}\copy1 \box1 ', r'2\vbox{y}\box2 ', r'1=\box2 \box1 ', r'1=\hbox{a\global\setbox1=\hbox{b}}\box1 '],
    ['1=x', '256=\\hbox{}', r'1=\raise1pt\hbox{}']),
    'box': (['2 \\box2 ', '9 '], ['256 ', 'x']), 'copy': (['2 \\copy2 '], ['-1 ']),
    'wd': (['2=7pt\\the\\wd2 \\copy2 ', '9=1pt'], ['2=x', '256=1pt', '']),
    'ht': (['2=20pt\\copy2 '], ['2=1xx']), 'dp': (['2=-3pt\\copy2 \\the\\dp2 '], []),
    'raise': ([r'3pt\hbox{x}', r'-2pt\copy2 ', r'1pt\box9 '], ['x', r'3pt x', r'3pt']), 'lower': ([r'3pt\hbox{x}', r'3pt\vbox{x}'], [r'3\hbox{x}']),
    'hrule': (['', ' width30pt', ' height 2pt depth1pt', 'width9pt width 5pt '], [' width x']),
    'vrule': (['', ' width3pt height4pt depth5pt', ' height-2pt'], [' depth1']),
    'par': ([''], []), 'indent': (['x'], []), 'noindent': (['x', ''], []), 'leavevmode': (['x'], []),
    'hskip': (['5pt x', '1pt plus1fil x', r'\parskip x'], ['x', '5']), 'hfil': (['x'], []), 'hfill': (['x'], []), 'hss': (['x'], []),
    'vskip': (['5pt x', '1pt minus1pt x'], ['x']), 'vfil': (['x'], []), 'vfill': (['x'], []), 'vss': (['x'], []),
    'kern': (['5pt x', '-1em x'], ['x']), 'penalty': (['100 x', '-10000 x', '10000 x'], ['x', '']), 'unskip': (['x', 'y z \\unskip'], []),
    'ignorespaces': (['  x', ' \\space x', ''], []),
    '/': (['x'], []), '-': (['x'], []), 'discretionary': (['{a}{b}{c}', r'{\kern1pt}{}{\hbox{x}}', '---'], ['{a}{b}', r'{\vskip1pt}{}{}', '']),
    'vadjust': ([r'{\vskip3pt}', r'{x y}', r'{\hbox{a}\hbox{b}}', 'z'], ['', r'{\hskip', r'{\end{x}}']),
    '@ins': ([r'{note}', r'{\hbox{n}}', r'{}'], ['']),
    '\\': (['x', '*x', '[5pt]x', '*[5pt] x', ' * [ 5pt ]x'], ['[x]x', '[5pt x]x', '[5']),
    'hspace': (['{5pt}x', '*{5pt}x', ' * {1pt plus 1fil}x'], ['{x}', '{5pt x}', '']),
    'vspace': (['{5pt}x', '*{5pt}x', r'{\baselineskip}x'], ['{x}', r'{.5\baselineskip}']),
    'documentclass': (['{book}', '[11pt,a4]{book}', '[]{book}'], ['{report}', r'{\relax}', '']), 'includeonly': (['{a, b,c}', '{}'], [r'{\relax}']),
    'begin': (['{quote}x\\end{quote}', '{document}x', r'{bfseries}x\end{bfseries}y', r'{itshape}'],
    ['{nosuch}', '{figure}', '{equation}', '{array}', r'{\relax}', '{quote}\\end{center}']),
    'end': ([], ['{document}', '{quote}', '{x}', r'{\relax}', '']), 'include': ([], ['{b}', '']),
    'newcounter': (['{q}\\theq\\stepcounter{q}\\theq', '{q}[section]\\refstepcounter{section}'], ['{page}', '{q}[zz]', r'{\relax}']),
    'setcounter': (['{section}{7}\\thesection', r'{section}{-\count2 }', r'{page}{ 3 }'], ['{zz}{1}', '{section}{x}', '{section}{1 x}', '{section}']),
    'addtocounter': (['{section}{7}\\thesection', '{section}{-9}\\thesection'], ['{zz}{1}', '{page}{2147483647}']),
    'stepcounter': (['{chapter}\\thesection'], ['{zz}']), 'refstepcounter': (['{section}\\label{k}', '{page}'], ['{zz}']),
    'label': (['{k}', r'{\jobname k}'], [r'{\relax}']), 'ref': (['{k}', '{old}', '{odd}'], [r'{\relax}', '']), 'pageref': (['{k}', '{old}'], []),
    'typeout': ([r'{a \ldots\noexpand\ldots #}', 'x', r'{\the\toks3 \string\x}'], [r'{\nosuch}', '{x']),
    'pagestyle': (['{empty}', '{headings}', '{myheadings}'], ['{none}']), 'thispagestyle': (['{empty}', '{plain}'], ['{}']),
    'pagenumbering': (['{roman}', '{Alph}', '{arabic}'], ['{none}', r'{\relax}']),
    'markboth': ([r'{l}{r}', r'{\bfseries l}{}'], ['{l}', r'{\par\vskip1pt}{}']),
    'markright': ([r'{r}'], ['']), 'addcontentsline': ([r'{toc}{section}{\numberline{1}T #1}', '{lof}{x}{y}'], [r'{\relax}{x}{}', '{toc}{x}']),
    '@style': (['1 x', '3 '], ['6 x', '-1 ', 'x']), '@size': (['2 x', '9 x\\the\\baselineskip'], ['10 ', 'x']),
    '@matter': (['0 ', '2 '], ['3 ', '-1 ']),
    '@plainnext': (['x', r'\par x\par y', r'{}\noindent x\par y', r'\vbox{x}\par y'], []), '@toc': (['', r'\par x'], []),
    '@head': (['1 {T} x', '0*{T}', '4[s]{T} x'], ['6 {T}', '-1 {T}', 'x', '1 ', '1 [s']),
    'contentsline': (['{section}{T}{3}', '{chapter}{T}{3}{x}{y} z', '{none}{T}{4}'], ['{section}{T}', r'{\relax}{T}{3}']),
    '@list': (['0 \\item x', '4 x', '7 x'], ['8 ', '-1 ', 'x']), 'item': ([], ['x', '[x]', '']), '@endlist': ([], ['']),
    'nosuch': ([], ['']), 'cr': ([], ['']), 'write': ([], ['']), 'usepackage': ([], ['{x}']), '(': ([], ['']), 'hangindent': ([], ['=1pt'])}
OWN_CELLS = [
    'set=count.2:-9', 'set=dimen.2:131072', 'set=skip.3:65536,65536,1,32768,0', 'set=toks.3:' + hexed(r'u\ldots v'),
    'set=boxed.2:655360,196608,65536',
    'set=label.' + hexed('old') + ':' + hexed('4.2') + '/' + hexed('17'), 'set=label.' + hexed('odd') + ':' + hexed(r' a\bf{}~%c') + '/_',
    counter('section', 4)]
# the meaning of a command that the test looks for is of no use where the text is not read as it stands
EXTRA_FILES = [file('b.tex', 'in b\n'), file('main.toc', '\\contentsline {section}{\\numberline {1}T}{1}\n')]


def spelled(name, rest):
    space = ' ' if name.replace('@', 'x').isalpha() and rest[:1].isalpha() else ''
    return '\\' + name + space + rest


def in_modes(line):
    """A text in vertical mode, in a paragraph, in an \\hbox and in a \\vbox."""
    return [line, 'Aa ' + line + ' b', r'\hbox{a ' + line + ' b}', r'\vbox{a\par ' + line + ' b}']


def rows_alone():
    for name, (right, wrong) in ROWS.items():
        for line in right:
            for mode in in_modes(spelled(name, line))[:4 if line == right[0] else 3]:
                segment(mode, *OWN_CELLS, *EXTRA_FILES, 'rich')
        for line in wrong:
            for mode in in_modes(spelled(name, line))[:3 if line == wrong[0] else 1]:
                segment(mode + '\n\n', *OWN_CELLS, *EXTRA_FILES, 'rich')
    for name in ('documentclass', 'includeonly'):
        segment(spelled(name, '{book}'), 'set=body:1')


# ---- faults, and the rows that are worked

FAULTS = [
    r'\nosuch', r'\renewcommand{\zz}{}', 'a}', '{a', r'\iftrue a', r'\fi', r'\count1=x', r'\count1=2147483648 ', r'\dimen1=1xx', r'\dimen1=16384pt',
    r'\hbox{\kern16000pt\hbox to0pt{\kern16000pt x}}', r'\catcode65=16 ', r'\count1=2147483647 \advance\count1 by1 ', r'\setcounter{zz}{1}',
    r'\setcounter{enumi}{27}\alph{enumi}', r'\item x', r'\begin{quote}\end{center}', r'\begin{itemize}' * 5, r'\def\m#1.{}\m x', r'\def\m a{}\m b',
    '^^?',
    r'\input{zz}', r'\newcommand{\par}{}', r'\newcounter{page}', '#', r'\hbox{\vskip1pt}', r'\includeonly{a}',
    r'\newcounter{q}\advance\count1 by1 \begin{itemize}\item x\end{itemize}', '$x$', '&', '_', '^a', r'\newcommand{\inc}{\include{b}}\inc',
    r'\vbox{\iftrue', r'\iffalse {',
    r'{\iffalse', r'\ifnum1<2', r'\ifcase1 a\or', r'\def\q#1{}\q\par', r'\def\q#1#2.{}\q a b', r'\def\q#1{}\q}',
    r'\hbox to16383.99999pt{\kern16000pt\hss\kern16383pt x}',
    r'\hbox{\hskip0pt plus16000fil\hskip0pt plus16000fil}', r'\advance\hsize by 16383pt ', r'\multiply\hsize by 1000 ', r'\divide\hsize by0 ',
    r'\pagenumbering{alph}\setcounter{page}{27}x', r'\pagenumbering{Roman}\setcounter{page}{100001}x',
    r'\pagenumbering{alph}\setcounter{page}{27}\pagestyle{empty}x',
    r'\pagenumbering{alph}\setcounter{page}{27}\pagestyle{empty}x\label{k}', r'\setcounter{page}{2147483647}x', r'\setcounter{page}{-5}x-',
    r'\setcounter{page}{0}x']


def faults():
    for line in FAULTS:
        chapter(line)
        chapter('\n' + line + '\n\n', 'set=body:1')
    chapter('Hi', fonts='')
    chapter('Hi', file('cmr10.tfm', b'\0' * 30), fonts='')
    chapter(r'\dimen1=1em', fonts='')
    chapter(r'\bfseries Hi', 'prefix=' + hexed('f/'), file('f/cmbx10.tfm', b'\x80' * 24), fonts='')
    chapter(r'\hbox{}', fonts='')
    chapter('\\hbox{}\n\n\\iftrue', 'set=body:1')
    chapter('')
    chapter('\n\n \n')
    chapter('{\n\n')
    case('fonts', 'kernelstate', 'chapter=62:7')
    case('fonts', 'kernelstate', 'job=' + hexed('bk'), 'chapter=62')


MAIN = '\\documentclass[11pt]{book}\n\\title{T}\n\\begin{document}\nText.\n\\include{a}\nMore.\n\\end{document}\n'


def pieces():
    case('kernel')
    case('kernel', 'steps=700')
    case('kernel', 'set=cat.64:11', 'set=cat.9:12')
    case('kernelstate', 'kernel', 'fonts')
    case('fonts', file('a.tex', 'Hi'), 'chapter=61')
    case('fonts', 'kernelstate', file('a.tex', 'Hi'), 'chapter=61')
    case('fonts', 'kernelstate', 'prefix=' + hexed('cm/'), file('cm/cmr10.tfm', b''), file('a.tex', 'Hi'), 'chapter=61')
    for first, last in ((1, 4), (1, 3), (1, 1), (2, 2), (5, 4), (6, 6), (4, 7), (6, 5), (8, 9), (20, 25)):
        case('fonts', 'kernelstate', file('main.tex', MAIN), f'segment={first}:{last}')
    case('fonts', 'kernelstate', 'segment=1:3')
    case('fonts', 'kernelstate', 'job=' + hexed('bk'), file('bk.tex', 'a\r\nb\r\n{c\r'), 'segment=2:3')
    case('fonts', 'kernelstate', file('main.tex', 'a\n{b\n\\include{c}\n'), 'segment=1:2')
    aux = ('\\relax \n\\newlabel{k}{{1}{2}}\n\\@input{a.aux}\n\\newlabel{k}{{3}{4}}\n\\@input{zz.aux}\n\\@setckpt{m}{\n\\setcounter{page}{4}\n}\n')
    inner = ('\\newlabel{k}{{a}{b}{c}}\n\\newlabel{l}{{\\{}{}}\n\\@writefile{toc}{x}\n\\@input{main.aux}\n'
             '\\@setckpt{a}{\n\\setcounter{page}{17}\n\\setcounter{zz}{-3}\n}\n'
             '\\@setckpt{cut}{\n\\setcounter{page}{1}\n')
    for words in ([], [file('main.aux', aux)], [file('main.aux', aux), file('a.aux', inner)],
        [file('main.aux', '\\newlabel{k}{{1}{1}}\n\\@input{main.aux}\n')]):
        case('fonts', 'kernelstate', 'set=par.textwidth:6553600', *words, file('main.tex', '\\begin{document}\n\\ref{k}\\pageref{l}'), 'segment=1:2')
    case('fonts', 'kernelstate', file('main.aux', aux), file('main.tex', '\\begin{document}{\\hsize10pt\\begin{document}}x'), 'segment=1:1')
    for words in ([], ['set=checkpoint.61:70616765=17,7a7a=3,73656374696f6e=-2'], ['set=checkpoint.61:_'], ['set=checkpoint.62:70616765=17'],
        ['set=checkpoint.61:70616765=2,70616765=3']):
        case('kernelstate', *words, 'skip=61')
    case('kernelstate', 'steps=0', 'set=checkpoint.61:7a=17', 'skip=61')


def worked():
    x = macro('x', 'A', long=True)
    chapter(r'\newcommand{\x}{A}')
    chapter(r'\providecommand{\x}{B}\x')
    chapter(r'\providecommand{\x}{B}\x', x)
    chapter(r'\count20=5')
    chapter(r'{\count20=9 }Hi')
    chapter(r'{\count20=9 }Hi', 'set=count.20:5')
    chapter(r'\the\count20')
    chapter(r'\the\count20', 'set=count.20:5')
    chapter(r'\gdef\z{1}')
    chapter('\\providecommand{\\q}{ok}\n\\q')
    chapter('\\providecommand{\\q}{ok}\n\\q', macro('q', r'\nosuch'))
    chapter('\\providecommand{\\q}{\\q}\n\\q', 'steps=3000')
    chapter('\\providecommand{\\q}{\\q}\n\\q', macro('q', 'done'))
    for count in range(60, 76, 3):
        chapter('x' * count)
    chapter('Hi\n\nHo')
    chapter('\\chapter{First}\\label{c1}\nSee \\ref{s1} on page \\pageref{s1}.\\footnote{Note.}\n')
    chapter('\\chapter{Second}\n\\section{Part}\\label{s1}\nBack to \\ref{c1}.\n', 'set=label.' + hexed('c1') + ':31/31')
    chapter('\\appendix\n\\chapter{More}\nText.\n')
    chapter('\\frontmatter\n\\maketitle\n\\tableofcontents\n\\mainmatter\n', macro('@title', 'Book'), macro('@author', 'A'),
            file('main.toc', '\\contentsline {chapter}{\\numberline {1}First}{1}\n\\contentsline {section}{\\numberline {2.1}Part}{2}\n'))


# ---- limits

STEPPED = [
    ('AVffi f-- {\\itshape AV-ffi zs\\/} x', ['rich']), ('Vo AV qQ', ['richroman']),
    ('\\section{T}x\\footnote{n}\n\n\\newpage y', []), ('\\edef\\q{\\the\\toks3 }\\setbox1=\\hbox to9pt{a\\hss}\\box1 \\ref{k}', []),
    (r'\begin{enumerate}\item a\end{enumerate}\markboth{l}{r}', ['set=pagestyle:headings'])]


def limits():
    for line, words in STEPPED:
        for steps in range(0, 60):
            chapter(line, *words, f'steps={steps}')
    for steps in range(2, 9):
        chapter('x', 'richroman', counter('page', 12), f'steps={steps}')
        chapter('x\\label{k}', 'richroman', 'set=pageform:roman', counter('page', 6), f'steps={steps + 10}')
        chapter('x', 'richroman', 'set=pagestyle:empty', counter('page', 12), f'steps={steps}')
    chapter(r'\def\b{' + 'x' * 16 + r'}\def\c{' + r'\b' * 16 + r'}\def\d{' + r'\c' * 16 + r'}\noindent' + r'\d' * 16 + r'\relax x', 'steps=200000')
    chapter(r'\def\b{' + 'x' * 16 + r'}\def\c{' + r'\b' * 16 + r'}\def\d{' + r'\c' * 16 + r'}\noindent\discretionary{}{}{' + r'\d' * 16 + '}',
        'steps=200000')
    chapter('{' * 60 + '}' * 60)
    chapter(r'\def\q{{\q}}\q', 'steps=30000')
    chapter(r'\def\q{\number\q}\q', 'steps=30000')
    chapter(r'\def\q{\iftrue\q}\q', 'steps=30000')
    chapter(r'\def\q{\input{b}}\q', file('b.tex', '\\q'))
    chapter(r'\def\q#1{\hbox{#1}}\setbox1=\hbox{}\def\r{\setbox1=\hbox{\box1}\advance\count1 by1 \ifnum\count1<%d \expandafter\r\fi}\r\box1 ' % 497)
    chapter(r'\def\q#1{\hbox{#1}}\setbox1=\hbox{}\def\r{\setbox1=\hbox{\box1}\advance\count1 by1 \ifnum\count1<%d \expandafter\r\fi}\r\box1 ' % 499)
    chapter(r'\def\r{\setbox1=\hbox{\box1}\advance\count1 by1 \ifnum\count1<%d \expandafter\r\fi}\r\box1 ' % 502)
    for kind in 'newcount newdimen newskip newlength newtoks newsavebox'.split():
        fresh = {'newcount': 'count', 'newdimen': 'dimen', 'newtoks': 'toks', 'newsavebox': 'boxed'}.get(kind, 'skip')
        for n in (254, 255, 256):
            chapter(rf'\{kind}\q \{kind}\r \string\q', f'set=fresh.{fresh}:{n}')


# ---- headings, contents, lists

HEADINGS = 'chapter section subsection subsubsection paragraph subparagraph'.split()


def headings():
    for level, name in enumerate(HEADINGS):
        for star in ('', '*'):
            for short in ('', '[S]'):
                for words in ([], [counter('secnumdepth', 5)], ['set=matter:0', 'set=pagestyle:headings'],
                    ['set=pagestyle:myheadings', counter('secnumdepth', level - 1)]):
                    if draw.random() < 0.75:
                        chapter(rf'Ab.\{name}{star}{short}{{T t}}' + '\nText \\label{k}x.\n', *words)
    for style in ('headings', 'plain', 'empty'):
        chapter('\\chapter{One}\nx\n\n\\section{Two}\ny\n\n\\newpage\\section{Three}\nz\\subsection{Four}\nw', f'set=pagestyle:{style}',
            counter('chapter', 3))
        chapter('\\chapter*{One}\nx\\newpage\\section{Two}y\\section{Three}\nz\\newpage w', f'set=pagestyle:{style}')
    for name in HEADINGS:
        chapter(rf'\{name}{{T\label{{k}} {{\bfseries b}}}}x', counter(name, 2147483647), counter('secnumdepth', 9))
        chapter(rf'\{name}{{\ldots\par}}x', macro('the' + name, r'\ldots\nosuch'), counter('secnumdepth', 9))
        chapter(rf'\{name}{{T}} x' + '\n\ny', macro('the' + name, r'\relax\#\alph{' + name + '}'), counter('secnumdepth', 9), *par(hsize=100))
        chapter(rf'\setcounter{{secnumdepth}}{{9}}\{name}  *  [s ] {{T}} x')
        chapter(rf'\{name}' + '\n\n{T}x')
        chapter(rf'\{name}[a]b]{{T}}x')
        chapter(rf'\hbox{{\{name}{{T}}x}}')
    chapter('\\appendix\\chapter{A}\\section{B}x\\chapter{C}y', counter('chapter', 7))
    chapter('\\renewcommand{\\addcontentsline}[3]{(#3)}\\renewcommand\\markboth[2]{}\\chapter{T}x')
    chapter('\\def\\addcontentsline#1#2#3{(#3)}\\section{T}x')
    for kind in (0, 1, 2):
        chapter(rf'\@matter{kind} \chapter{{T}}\section{{U}}x')


TOC = ''.join(rf'\contentsline {{{name}}}{{\numberline {{{k}}}T{k} t}}{{{k}}}' + '\n' for k, name in enumerate(HEADINGS))


def contents():
    for depth in (-1, 0, 1, 2, 5, 9):
        chapter(TOC, counter('tocdepth', depth))
    chapter('\\tableofcontents\nx', file('main.toc', TOC))
    chapter('\\tableofcontents x')
    chapter('\\tableofcontents\nx', file('main.toc', TOC + '{'))
    chapter('\\tableofcontents\nx', file('main.toc', '\\contentsline {section}{T}'))
    chapter('\\tableofcontents\nx', file('main.toc', '\\contentsline {section}{T\\@x}{1} {z}\n'), macro('@x', 'X'))
    chapter('x \\contentsline{none}{T}{1}{z} y', counter('tocdepth', 9))
    chapter('\\hbox{\\contentsline{section}{T}{1}}')
    for name in HEADINGS[:3]:
        chapter(rf'a\addcontentsline{{toc}}{{{name}}}{{X \ldots\# ##~}}b', *par(hsize=60))


def nested(kinds, items=1, close=True):
    names = ['itemize', 'enumerate', 'description', 'quote', 'quotation', 'center', 'flushleft', 'flushright']
    line = ''
    for kind in kinds:
        line += rf'\begin{{{names[kind]}}}' + '\n' + ''.join(draw.choice([r'\item ', r'\item[L] ']) + draw.choice(['ab',
            'cd ef']) + '\n' for _ in range(items))
    for kind in reversed(kinds if close else []):
        line += rf'\end{{{names[kind]}}}' + '\n'
    return line + 'z'


def lists():
    for kind in range(8):
        for items in (0, 1, 2):
            chapter(nested([kind], items))
        chapter(nested([kind], 1), *par(hsize=40))
        chapter('Text' + nested([kind], 1) + nested([kind]))
        chapter(nested([kind] * 4))
        chapter(nested([kind] * 5))
        chapter(nested([kind, 1, kind], 2))
        chapter(rf'\@list{kind} \item x\@endlist y\@endlist')
        chapter(rf'\hbox{{\@list{kind} }}')
        chapter(rf'\@list{kind} \hbox{{\item[q] x}}\item')
        chapter(rf'\vbox{{\@list{kind} \item x\@endlist}}y\item')
        chapter(rf'x {{\@list{kind} \item x}}\item y')
        chapter(rf'\@list{kind} ', *par(hsize=100), glue('leftskip', 16380), glue('rightskip', 5))
        chapter(rf'\@list{kind} \item  [a{{]}}b] plus1pt x', *par(hsize=100))
        chapter(rf'\@list{kind} \item plus1pt x' + '\n\n\\item y', *par(hsize=100))
    for _ in range(60):
        chapter(nested([draw.randrange(8) for _ in range(draw.randint(2, 7))], draw.randint(0, 2), draw.random() < 0.9),
            *par(hsize=draw.choice([150, 345])))
    for k, name in enumerate(('enumi', 'enumii', 'enumiii', 'enumiv')):
        chapter('\\begin{enumerate}' * (k + 1) + '\\item x\\item[y] z\\item w' + '\\end{enumerate}' * (k + 1),
            macro('the' + name, rf'\Roman{{{name}}}'))
        chapter('\\begin{enumerate}' * (k + 1) + rf'\setcounter{{{name}}}{{26}}\item x\item y')
        chapter('\\begin{enumerate}' * (k + 1) + rf'\setcounter{{{name}}}{{2147483647}}\item x\item y')
    chapter('\\begin{center}a\\\\b\\\\[3pt]c\\\\*d\\end{center}', *par(hsize=60))
    chapter('\\begin{flushright}a\\\\b c\\end{flushright}', *par(hsize=60))
    chapter('\\begin{quote}\\begin{itemize}\\item a\\end{quote}')
    chapter('\\begin{itemize}\\item a\\end{itemize}\\item b')
    chapter('\\begin{itemize}a\\endgroup b')


def environments():
    for line in (
            r'\newenvironment{e}{\begin{quote}}{\end{quote}}\begin{e}x\end{e}y', r'\newenvironment{e}{\begin{quote}}{\end{e}}\begin{e}x\end{e}y',
            r'\newenvironment{e}{(}{\count1}\begin{e}x\end{e}1', r'\newenvironment{e}{(}{\def\q}\begin{e}x\end{e}',
            r'\newenvironment{e}{(}{\hskip1pt}\begin{e}x\end{e}plus1pt y',
            r'\newenvironment{e}{(}{\iffalse}\begin{e}x\end{e}\fi y', r'\newenvironment{e}{(}{\iftrue}\begin{e}x\end{e}\fi y',
            r'\newenvironment{e}{(}{\endgroup}\begin{e}x\end{e}y',
            r'\newenvironment{e}{(}{\expandafter\relax}\begin{e}x\end{e}y', r'\def\endq#1{(#1)}\begin{itshape}\end{q}',
            r'\begin{bfseries}x\begin{itshape}y\end{bfseries}',
            r'\def\e{\aftergroup!}\begin{e}x\end{e}y', r'\begingroup\begin{bfseries}x\endgroup\end{bfseries}', r'\begin{bfseries}{x\end{bfseries}}',
            r'{\begin{bfseries}x}',
            r'\newenvironment{e}{\gdef\q{1}\def\r{2}}{\q\r}\begin{e}x\end{e}\q',
            r'\newenvironment{e}[1]{\setcounter{section}{#1}}{\thesection}\begin{e}{5}x\end{e}',
            r'\begin{document}x\end{document}', r'\def\document{x}\begin{document}', r'\let\enddocument\relax\begin{document}\end{document}',
            r'\begin{par}x\end{par}',
            r'\newenvironment{e}{}{\input{b}}\begin{e}x\end{e}y', r'\newenvironment{e}{}{\edef\q{}\begin{e}x\end{e}y',
            r'\newenvironment{e}{}{\string}\begin{e}x\end{e}y'):
        chapter(line, file('b.tex', 'b\\ldots'), 'rich')
        segment(line + '\n\nz\n', file('b.tex', 'b'), 'rich', *par(hsize=50))


# ---- paragraphs and pages

def words(count, letters='abcdefghiklmnoprstuvw'):
    return [''.join(draw.choice(letters) for _ in range(draw.randint(1, 6))) for _ in range(count)]


FIXED = 'In the beginning of the year-long voyage we set out, slowly; then Fred (who? Ann!) came: far-off.'


def paragraphs():
    for width in range(18, 130, 7):
        chapter(FIXED, *par(hsize=width))
        chapter(FIXED, *par(hsize=width), 'richroman', number('pretolerance', -1), number('tolerance', draw.choice([50, 400, 9999, 10000])))
    for name, values in {
            'pretolerance': (-1, 0, 5000, 10000), 'tolerance': (-5, 0, 1000, 10000, 20000), 'linepenalty': (0, 1000, -200, 20000),
            'hyphenpenalty': (-10000, -500, 10000, 3000),
            'exhyphenpenalty': (-10000, -500, 10000), 'adjdemerits': (0, 1000000, -5000), 'doublehyphendemerits': (0, 2000000000),
            'finalhyphendemerits': (0, 2000000000),
            'clubpenalty': (0, 10000, -10000, 2147483647), 'widowpenalty': (0, 10000, -10000), 'brokenpenalty': (0, 10000, -10000),
            'interlinepenalty': (50, 10000, -10000)}.items():
        for value in values:
            chapter(FIXED + r' Some\-thing el\discretionary{k}{k}{c}er to-day.', *par(hsize=draw.choice([55, 71, 90]), textheight=60),
                number(name, value))
    for left, right, fill in (((0, 1, 1), (0, 1, 1), (0,)), ((5, 2), (3, 0, 0, 1), (0, 1, 2)), ((0, 1, 3, 1, 3), (0,), (20,)),
        ((-10,), (0, 1, 1, 1, 1), (0, 5)), ((0,), (0,), (0, 0))):
        chapter(FIXED, *par(hsize=70), glue('leftskip', *left), glue('rightskip', *right), glue('parfillskip', *fill))
    for line in (
            r'a\hskip0pt b\kern3pt\hskip2pt c\penalty50 d\penalty-10000 e', r'\hskip5pt a\par\noindent\hskip5pt b', r'a \penalty10000 b \kern1pt c',
            r'\noindent\par a',
            r'\noindent', r'\indent', r'\leavevmode', r'a\\b\\*c\\[3pt]d', r'a\newline b\linebreak c\nolinebreak d', r'a\hfil\break', r'a b~c~d e',
            r'x\vrule y\vrule width2pt height9pt z',
            r'\hbox{a}\hbox{b}\raise2pt\hbox{c}\lower3pt\vbox{\hbox{d}\hbox{e}}f', r'a\vadjust{\hbox{b}\vskip2pt}c\vadjust{\penalty-10000 }d',
            r'a\hss b\hss c', r'\hss a',
            r'a\discretionary{b-}{c}{d}e\discretionary{}{}{}f\-g', r'a\discretionary{\hbox{b}}{\kern2pt\hskip1pt plus1pt}{}\hskip3pt\penalty0 e',
            r'a.  b?  c)  D.  e: F, g; h',
            r'A. b\sfcode`A=1000 A. b', r"a.'' b.] C.) d", r'a\spacefactor', r'\centering a b c d e f g', r'\raggedright a b c d e f g',
            r'a\unskip b \unskip c\hskip3pt\unskip\unskip d',
            r'a \par b \par\par c', r'{\par a}\par b', r'\parindent30pt a\par\parindent-5pt b', r'\parskip5pt plus2pt a\par b',
            r'\baselineskip5pt a\par b\par c', r'\lineskiplimit3pt\baselineskip12pt a\par b',
            r'\lineskip4pt plus1pt\baselineskip1pt a\par b', r'\hrule a\par\hrule b\hrule', r'\vbox{\hrule a\hrule}', r'a\hrule b',
            r'\vskip3pt a\vskip3pt b', r'a\vfill b',
            r'\hbox{\vrule\hbox to20pt{\hrule}}', r'a^^41^^7a^^ab^^', 'a\tb\t\tc%d\ne  f%\n  g', r'\ \ a\ b\ ', r'a\/b\ \/', r'f\/f{\itshape f\/}i',
            'ab\0cd\x7fe', 'a\x80\xffb',
            r'\char102\char102 i f{}f f\relax f', r'\chardef\q=102 \q\q\q', r'\let\q=f \q\q\q', r'\let\q= \q a\q b', r'\let\q={\let\r=}\q a\r b',
            r'\uppercase{f}\lowercase{F}f'):
        chapter(line, *par(hsize=60), 'rich')
        chapter(line, *par(hsize=33, parindent=0, textheight=40), 'richroman')


def boxes():
    for line in (
            r'\setbox1=\hbox{a\hbox{b\hbox{c}}}\copy1\copy1\box1\box1', r'\setbox1=\vbox{\hbox{a}\hbox{b}}\wd1=3pt\ht1=5pt\dp1=1pt\copy1 x',
            r'\setbox1=\hbox to30pt{a\hfil b\hfill c}\box1',
            r'\setbox1=\hbox spread-3pt{a b\hss}\box1 ', r'\hbox to5pt{a b c}', r'\hbox to90pt{a b c}',
            r'\hbox to90pt{a\hskip0pt plus1fil minus1fil b}', r'\hbox to5pt{abc\hss}',
            r'\vbox to60pt{\hbox{a}\vfil\hbox{b}\vfill\hbox{c}}', r'\vbox spread5pt{\hbox{a}\vskip0pt plus1pt\hbox{b}}',
            r'\vbox{\hsize40pt a b c d e f\par g}', r'\vbox{\vskip2pt\kern3pt}',
            r'\vbox{\hbox{a}\vskip3pt}x', r'\vbox{\hbox{a}\penalty100 \label{k}\markright{m}}', r'\hbox{a\label{k}\markboth{l}{r}b}',
            r'\setbox1=\hbox{\label{k}x}\copy1\copy1\box1', r'\setbox1=\hbox{\label{k}}',
            r'{\setbox1=\hbox{a}\global\setbox2=\hbox{b}}\copy1\copy2', r'\setbox1=\hbox{a}{\box1}\box1',
            r'\setbox1=\hbox{a}\setbox1=\hbox{\box1 b\copy1}\box1', r'\hbox{\aftergroup a b}c',
            r'\hbox{{\aftergroup a}b}\vbox{\aftergroup c}', r'\raise3pt\hbox{\lower1pt\hbox{x}}y', r'x\raise3pt\hbox{\bfseries y}z',
            r'\hbox{\vrule height5pt depth2pt width1pt}\hrule',
            r'\vbox{\hrule width10pt\hbox{a}\hrule}', r'\hbox{\vbox{a}}', r'\hbox{\vbox{\hsize10pt a\par b\vadjust{\hbox{c}}d}}',
            r'\vbox{a\footnote{n}}', r'\hbox{\footnote{n}}',
            r'\hbox\bgroup a}b', r'\vbox{a\egroup b', r'\setbox1\hbox{\count1=3 \global\count2=4 }\the\count1\the\count2',
            r'\setbox\count2=\hbox{z}\box0', r'\hbox{\par a\par\indent\noindent\leavevmode}',
            r'\hbox{a-b--c}', r'\hbox{a\-b\discretionary{x}{y}{z}}', r'\hbox{}\hbox{a}', r'\vbox{}\vbox{\hbox{a}}', r'\kern-5pt\hbox{a}\kern3pt',
            r'\penalty5\hbox{a}\penalty-10000 \hbox{b}', r'\wd9=3pt\the\wd9',
            r'\moveleft', r'\hbox{\hbox to16383pt{}\hbox to16383pt{}}', r'\hbox to-5pt{a}',
            r'\hbox to20pt{\hskip3pt plus1pt a\hskip3pt plus2pt b\hskip3pt plus4pt c}',
            r'\hbox to10pt{\hskip3pt minus1pt a\hskip3pt minus2pt b\hskip3pt minus4pt}'):
        chapter(line, *par(hsize=70), 'rich')
        chapter('Aa ' + line + ' zz', *par(hsize=45, textheight=50))


MATERIAL = (
    r'\hbox{a}\vskip2pt plus1pt\hbox{b}\penalty20 \hbox{c}\kern2pt\hbox{d}\kern1pt\vskip1pt minus1pt\hbox{e}\label{k}\vskip1pt\hbox{f}\hrule\hbox{g}'
    r'\vfil\hbox{h}\penalty-50 \hbox{i}\markright{m}\vskip0pt plus1fil\hbox{j}')
TEXT = (
    'one two three four five six seven eight nine ten eleven twelve.\\label{k} thirteen fourteen fifteen sixteen.\n\n'
    'seventeen\\footnote{n o p} eighteen nineteen twenty.\n\nxx yy.')


def pages():
    for height in range(8, 130, 5):
        chapter(MATERIAL, *par(textheight=height))
        chapter(TEXT, *par(hsize=80, textheight=height + 20))
    for height in range(20, 70, 6):
        chapter(r'\section{T}\label{s}' + '\n' + TEXT + r'\section{U}' + '\nzz', *par(hsize=90, textheight=height), 'set=pagestyle:headings')
        chapter(r'a\footnote{b c d e f g h}i\footnote{j} k' + '\n\nl\\footnote{m}', *par(hsize=60, textheight=height, textwidth=50))
        chapter(MATERIAL, *par(textheight=height), glue('topskip', 3, 2, 0, 1), *par(maxdepth=1), glue('baselineskip', 8, 1, 0, 1))
        chapter(TEXT, *par(hsize=70, textheight=height), glue('parskip', 2, 1, 1), number('clubpenalty', 10000), number('widowpenalty', 10000))
    for line in (
            r'\newpage', r'a\newpage b', r'a\newpage\newpage b', r'\clearpage\hbox{}\clearpage', r'\cleardoublepage a\cleardoublepage b',
            r'a\pagebreak b', r'a\par\pagebreak b', r'\hbox{a\pagebreak}',
            r'a\nopagebreak b\par\nopagebreak c', r'\vfill a\vfill\newpage b', r'\vspace{5pt}a\vspace{5pt}\par\vspace*{5pt}b',
            r'\vspace*{5pt}a\newpage\vspace*{5pt}b', r'\label{k}', r'\markboth{l}{r}',
            r'\addcontentsline{toc}{section}{x}', r'\label{k}\newpage a', r'a\label{k}\newpage b\label{l}', r'\label{a}\vskip5pt x',
            r'a\markboth{l}{r}b\markright{s}c\newpage d\newpage\markboth{}{t}e',
            r'\pagestyle{headings}\markboth{\label{x}l}{\label{y}r}a\newpage b', r'\thispagestyle{empty}a\newpage b',
            r'\pagestyle{empty}a\newpage\thispagestyle{plain}b', r'\pagenumbering{roman}a\newpage b\label{k}',
            r'\pagenumbering{Alph}a\label{k}\newpage b', r'a\footnote{b\label{f}}\label{g}', r'a\footnote{b}\par\vskip5pt\newpage c\footnote{d}',
            r'a\@ins{\hbox{b}\hrule}c', r'a\@ins{}c', r'a\@ins{b\@ins{c}}d',
            r'a\vadjust{b\@ins{c}}d', r'\vbox{a\@ins{b}}c', r'\penalty-10000 a\penalty-10000 b\par\penalty-10000 ', r'a\par\penalty-20000 b',
            r'a\par\penalty-9999 b', r'\hbox{a}\kern5pt', r'\hbox{a}\kern5pt\penalty0 \hbox{b}',
            r'\hrule height3pt\hbox{a}', r'a\par\hrule b', r'\topmargin10pt\oddsidemargin5pt\evensidemargin-3pt a\newpage b',
            r'\headheight3pt\headsep4pt\footskip7pt\textwidth100pt a', r'\textheight-5pt a', r'\textheight1pt a\par b',
            r'\hbox{\kern10pt\label{k}}\newpage', r'a\unskip\unskip\unskip b', r'\vskip5pt\unskip a', r'a\par\unskip\unskip b',
            r'\textheight16383pt\topmargin16383pt a', r'\headheight16383pt a', r'\maxdepth-10pt a', r'\maxdepth0pt a',
            r'\setcounter{page}{9}\pagestyle{headings}\markright{r}a\newpage b', r'\pagestyle{myheadings}\markboth{l}{r}a\newpage b',
            r'\topskip50pt a', r'\topskip0pt plus1fil a', r'a\par\textheight20pt b\par c', r'\vskip-100pt a',
            r'\hbox{a}\vskip0pt minus100pt\hbox{b}\hbox{c}\newpage', r'\hbox{a}\vskip0pt plus16000fil\vskip0pt plus16000fil\hbox{b}',
            r'\vbox to70pt{a\vfil b}c', r'\raise5pt\hbox{a}', r'\leavevmode\raise5pt\hbox{a}\vrule depth9pt'):
        chapter(line, *par(hsize=60, textheight=60), 'rich')
        chapter('x\n\n' + line + '\n\ny', *par(hsize=60, textheight=40), 'richroman', 'set=leftmark:131072,65536,0', 'set=rightmark:196608,65536,0',
            'set=pagestyle:' + draw.choice(['headings', 'plain', 'myheadings']))


# ---- expansion among the rest

def expansion():
    for line in (
            r'\def\q#1.#2{#2#1}\q ab.c', r'\newcommand{\q}[2][x]{(#1|#2)}\q{a}\q[b]{c}\q [d] e',
            r'\def\q{\futurelet\r\s}\def\s{\ifx\r*y\else n\fi}\q*\q a', r'{\def\q{a}\q}\ifx\q\undefined b\fi',
            r'{\gdef\q{a}\def\q{b}\q}\q', r'{\global\count1=5 {\count1=6 \global\advance\count1 by1 }\the\count1 }\the\count1',
            r'{\aftergroup a\aftergroup b{\aftergroup c}d}e', r'\begingroup\aftergroup\bfseries a\endgroup b',
            r'\edef\q{\noexpand\ldots\ifvmode v\else h\fi}\q', r'\expandafter\def\csname a b\endcsname{x}\csname a b\endcsname',
            r'\toks1={a\ldots}\edef\q{\the\toks1}\q\the\toks1', r'\toks1={#}\edef\q#1{\the\toks1 ##}\q x',
            r'\iftrue a\else b\fi\iffalse a\else b\fi', r'\ifnum\value{page}=1 a\else b\fi', r'\ifdim\wd1=0pt a\fi', r'\ifx\par\relax a\else b\fi',
            r'\newif\ifq\qtrue\ifq a\fi{\qfalse\ifq a\else b\fi}\ifq c\fi',
            r'\ifcase\count1 a\or b\else c\fi', r'\ifodd\count1 a\else b\fi', r'\if\noexpand~\noexpand~a\fi\ifcat\noexpand~!a\else b\fi',
            r'\ifhmode a\fi b\ifhmode c\fi\hbox{\ifhmode d\fi}\vbox{\ifvmode e\fi}',
            r'\input b c', r'\input{b}c\input b.tex d', r'\input{e}x', r'x\input{sub/f}y',
            r'\number\count1\romannumeral\value{page}\Roman{page}\alph{page}\jobname', r'\string\a\string~\string{\string}',
            r'\uppercase{abc\ldots}\lowercase{ABC}',
            r'\lccode`a=`z \lowercase{a}\uccode`b=0 \uppercase{b}', r'\catcode`\|=0 |bfseries a', r'\catcode`\[=1 \catcode`\]=2 [\bfseries a]b',
            r'\catcode`a=13 \def a{x}ab', r'\catcode`\%=12 a%b', r'\catcode`\^=12 a^^41',
            r'\catcode32=12 a b', r'\catcode13=12 a', r'\catcode`a=9 abab', r'\catcode`a=14 bab', r'\let\q\nosuch\q', r'\let\q\bfseries{\q a}',
            r'\let~=x~', r'\def~{y}~', r'\typeout{a\ldots~\count1 #}', r'\message',
            r'\long\def\q#1{(#1)}\q{a\par b}', r'\def\q#1{(#1)}\q{a' + '\n\nb}', r'\def\q#1\par{(#1)}\q a' + '\n\nb',
            r'\def\q #1 #2{(#1)(#2)}\q a b c', r'\def\q#1#{\hbox to#1}\q30pt{x\hfil}', r'\advance\count1 by\count1 \the\count1',
            r'\dimen1=2\dimen1 \dimen1=1.5\dimen1 \the\dimen1', r'\skip1=1pt plus2pt minus3fil \advance\skip1 by 1pt plus1fil \the\skip1',
            r'\hskip\skip1 a', r'\hsize=.5\hsize a b c d e', r'\parindent=2em a', r'\hskip1ex\hskip-1em a',
            r'\setlength{\parindent}{3pt}\addtolength{\parindent}{2pt}a', r'\newlength{\q}\setlength{\q}{3pt plus 1fil}\hspace{\q}a',
            r'\newcount\q\q=5 \the\q{\newcount\r\r=6 }\r', r'{\newcounter{x}\stepcounter{x}\thex}\arabic{x}\thex',
            r'\newcounter{x}[section]\setcounter{x}{5}\stepcounter{section}\thex',
            r'\refstepcounter{section}\label{a}{\refstepcounter{section}\label{b}}\label{c}\ref{a}',
            r'\setcounter{page}{7}\thepage\pagenumbering{roman}\thepage',
            r'\markboth{\thepage}{\bfseries x}\pagestyle{headings}a', r'\today', r'\month=2 \year=1999 \day=31 \today', r'\the\time\the\year',
            r'\maketitle', r'\title{X}\author{Y\and Z}\date{D}\maketitle', r'\include{b}', r'\endinput a' + '\nb',
            r'\textbf{a}\textit{b}\emph{c}\texttt{d}\textrm{e}', r'{\tiny a}{\Huge b}\large c\par d', r'\large a b c' + '\n\n' + r'\normalsize d',
            r'{\large a\par}b', r'\ttfamily a', r'\sffamily a', r'{\bf a}{\it b}{\em c}', r'\$\&\%\#\_\{\}\textbackslash',
            r'\ldots\dots a\quad b\qquad c\space d\nobreak e', r'a~b', r'\smallskip a\medskip b\bigskip', r'\ignorespaces  a', r'\newline',
            r'\def\q{\q}\q', r'\char' + '\n65 a', r'\ifx\q', r'\iffalse' + '\n' + r'\iftrue\else' + '\n' + r'\fi' + '\n' + r'\fi a'):
        chapter(line, *par(hsize=100, textheight=80), 'rich', file('b.tex', 'bb\n'), file('e.tex', '\\endinput e\nee'), file('sub/f.tex', 'f%'),
            'set=count.1:3', 'set=dimen.1:98304', 'set=skip.1:131072,65536,1,0,0')


# ---- drawn chapters

ACTIONS = {
    'word': lambda: ''.join(words(1)) + ' ', 'words': lambda: ' '.join(words(draw.randint(1, 9))) + draw.choice(['. ', ', ', '; ', ' ', '-']),
    'par': lambda: '\n\n',
    'group': lambda: '{' + part(2) + '}',
    'style': lambda: draw.choice([r'\bfseries ', r'\itshape ', r'\large ', r'\small ', r'\normalsize ', r'\rmfamily ', r'\tiny ']),
    'box': lambda: r'\hbox{' + inner(2) + '}', 'vbox': lambda: r'\vbox{\hsize40pt ' + part(2) + '}',
    'to': lambda: rf'\hbox to{draw.randint(0, 60)}pt{{' + inner(2) + draw.choice(['', r'\hfil', r'\hss']) + '}',
    'set': lambda: rf'\setbox{draw.randrange(3)}=\hbox{{' + inner(2) + '}', 'use': lambda: draw.choice([r'\copy', r'\box']) + f'{draw.randrange(3)} ',
    'raise': lambda: rf'\leavevmode\raise{draw.randint(-5, 9)}pt\hbox{{' + inner(1) + '}',
    'hskip': lambda: rf'\hskip{draw.randint(0, 9)}pt plus{draw.randint(0, 3)}pt minus1pt ',
    'hfil': lambda: draw.choice([r'\hfil ', r'\hfill ', r'\hss ']), 'kern': lambda: rf'\kern{draw.randint(-3, 9)}pt ',
    'penalty': lambda: rf'\penalty{draw.choice([-10000, -100, 0, 50, 9999, 10000])} ',
    'disc': lambda: draw.choice([r'\-', r'\discretionary{a-}{b}{c}', '-']), 'rule': lambda: draw.choice([r'\vrule ', r'\vrule height5pt width2pt ']),
    'vadjust': lambda: r'\leavevmode\vadjust{' + draw.choice([r'\vskip3pt', r'\penalty-200 ', r'\hbox{v}']) + '}',
    'note': lambda: r'\footnote{' + inner(1) + '}',
    'mark': lambda: draw.choice([r'\markboth{L}{R}', r'\markright{S}', r'\pagestyle{headings}', r'\thispagestyle{empty}']),
    'label': lambda: rf'\label{{k{draw.randrange(3)}}}', 'ref': lambda: draw.choice([r'\ref', r'\pageref']) + rf'{{k{draw.randrange(4)}}}',
    'step': lambda: draw.choice([r'\stepcounter{section}\thesection ', r'\refstepcounter{section}', r'\thepage ', r'\setcounter{section}{5}']),
    'typeout': lambda: r'\typeout{\thepage:\thesection}', 'input': lambda: r'\input{b}',
    'if': lambda: r'\ifodd\value{page}' + part(1) + r'\else ' + part(1) + r'\fi ', 'ifmode': lambda: r'\ifvmode v\else h\fi ',
    'def': lambda: draw.choice([r'\def\q#1{(#1)}\q{', r'\gdef\r#1{[#1]}\r{', r'\def\q#1{#1\aftergroup!}{\q{']) + inner(1) + '}',
    'global': lambda: draw.choice([r'\global\count1=4 ', r'{\count1=9 \global\advance\count1 by1 }\the\count1 ', r'{\parindent0pt\par x\par}']),
    'vskip': lambda: draw.choice([r'\vskip3pt plus2pt ', r'\vfil ', r'\smallskip ', r'\hrule ', r'\newpage ', r'\pagebreak ', r'\vspace{4pt}',
    r'\vspace*{4pt}', r'\par\penalty-100 ']),
    'break': lambda: draw.choice([r'\leavevmode\\', r'\leavevmode\\[3pt]', r'\newline ', r'\linebreak ', '~']),
    'head': lambda: draw.choice([r'\section{', r'\section*{', r'\subsection[s]{', r'\paragraph{', r'\chapter{']) + inner(1) + '}',
    'list': lambda: list_of(draw.choice(['itemize', 'enumerate', 'quote', 'center', 'flushright', 'description'])),
    'length': lambda: draw.choice([r'\hsize70pt ', r'\parindent5pt ', r'\baselineskip9pt ', r'\tolerance5000 ', r'\parskip1pt ', r'\textheight70pt ',
    r'\leftskip3pt ', r'\rightskip0pt plus1fil '])}
INNER = ['word', 'word', 'words', 'style', 'box', 'hskip', 'kern', 'rule', 'disc', 'use', 'hfil', 'group', 'label', 'step', 'ifmode']


def list_of(name):
    return rf'\begin{{{name}}}' + ''.join(r'\item ' + part(1) for _ in range(draw.randint(0, 2))) + rf'\end{{{name}}}'


def inner(count):
    return ''.join(ACTIONS[draw.choice(INNER)]() if draw.random() < 0.6 else ACTIONS['word']() for _ in range(draw.randint(1, count)))


DEPTH = [0]


def part(count):
    DEPTH[0] += 1
    names = list(ACTIONS) if DEPTH[0] < 3 else ['word', 'words', 'par', 'kern', 'style']
    made = ''.join(ACTIONS[draw.choice(names)]() if draw.random() < 0.7 else ACTIONS['words']() for _ in range(draw.randint(1, count)))
    DEPTH[0] -= 1
    return made


def drawn(count):
    old = [f'set=label.{hexed("k0")}:{hexed("1.2")}/{hexed("7")}', f'set=label.{hexed("k1")}:{hexed(chr(92) + "ldots")}/{hexed("xi")}']
    for _ in range(count):
        sizes = par(hsize=draw.choice([50, 80, 120, 345]), textheight=draw.choice([40, 60, 100, 200]))
        more = draw.choice([[], [], ['richroman'], [glue('baselineskip', 11, 1), number('pretolerance', -1)], [glue('parskip', 3, 1, 0, 1)],
            ['set=pagestyle:headings', *old], old, [counter('page', draw.choice([2, 9, 99]))]])
        chapter(part(9), *sizes, *more, 'rich', file('b.tex', 'in {\\bfseries b}\n'))


# ---- commands in any order

SOUP = [
    'a', 'b ', ' ', '\n\n', '{', '}', '{', '}', '1', '=', '[', ']', '*', '#', '~', '5pt', '1 ', '{page}', '{x}', r'\q', r'\q{a}', r'\def\q',
    r'\def\q#1{(#1)}', r'\hbox', r'\vbox', r'\hbox{', r'\vbox{', r'\setbox1', r'\box1 ',
    r'\begingroup ', r'\endgroup ', r'\begin{bfseries}', r'\end{bfseries}', r'\iftrue ', r'\iffalse ', r'\else ', r'\fi ', r'\par ', r'\noexpand',
    r'\expandafter', r'\global', r'\count1', r'\dimen1', r'\advance', r'\the', r'\hskip1pt ', r'\kern',
    r'\raise1pt', r'\discretionary', r'\vadjust{', r'\@ins{', r'\markright{', r'\unskip', r'\\\\', r'\aftergroup', r'\relax', r'\edef\q{',
    r'\csname ', r'\endcsname', r'\string', r'\number', r'\item', r'\@list1 ', r'\@endlist ', r'\section', r'\label',
    r'\ref{k}', r'\let\q', r'\uppercase', r'\penalty', r'\vskip1pt ', r'\char', r'\-', r'\/', r'\typeout', r'\newcommand\r', r'\ifnum', r'\ifx',
    r'\hrule ', r'\vrule ', r'\large ']


def soup(count):
    for _ in range(count):
        line = ''.join(draw.choice(SOUP) for _ in range(draw.randint(3, 14)))
        chapter(line, *par(hsize=60, textheight=40), 'rich', macro('q', 'Q'), 'set=boxed.1:655360,196608,65536')


# ---- corners that are met by these alone

KEPT = (
    r'\setbox1=\vbox{\hsize30pt a\penalty3 \vrule\-\markboth{a}{b}\@ins{x}\vadjust{\kern2pt}\label{k}b--c{\itshape ffi}'
    r'\hrule\hskip1pt plus1fill minus1filll\discretionary{a}{\kern1pt}{\vrule}\addcontentsline{toc}{x}{\y#~}}')


def font_with(place, parameter):
    """The test font with another parameter, counted from the end."""
    data = bytearray((Path(__file__).resolve().parent.parent / 'examples/plain/cmr10.tfm').read_bytes())
    end = len(data) - 4 * place
    data[end:end + 4] = parameter.to_bytes(4, 'big')
    return file('cmr10.tfm', bytes(data))


def corners():
    deep = r'\def\r{\setbox1=\hbox{\box1}\advance\count1 by1 \ifnum\count1<%d \expandafter\r\fi}\r'
    for count in (497, 498, 499, 500):
        chapter(deep % count + r'\box1 ')
        chapter(deep % count + r'\leavevmode\box1 ')
        chapter(deep % count + r'\pagestyle{headings}\markright{\box1}a')
        chapter(deep % count + r'\leavevmode\@ins{\box1}a')
        chapter(deep % count + r'\hbox{\box1\hskip16000pt\hskip16000pt}')
        chapter(deep % count + r'\leftskip16000pt\rightskip16000pt\leavevmode\box1 ')
    chapter(r'\Huge\sfcode`a=1 a b', font_with(4, 1 << 20), fonts='')
    chapter(r'\Huge\sfcode`a=1 a\ b', font_with(4, 1 << 20), fonts='')
    chapter(r'\leftskip16000pt\rightskip16000pt a')
    chapter(r'\leftskip16000pt\rightskip16000pt\hsize16383pt a b')
    chapter(r'\baselineskip16383pt\setbox1\hbox{}\dp1=-999pt\box1\hbox{}')
    chapter(r'\baselineskip16383pt a\par\dimen1=5pt b')
    chapter(r'\topmargin10000pt\headheight10000pt a')
    chapter(r'\topmargin16000pt\textheight500pt\footskip16000pt\topmargin-16000pt a')
    chapter(r'\oddsidemargin16383pt a')
    chapter(r'\hbox{\kern16383pt\vrule width1pt}')
    chapter(r'\newenvironment{e}{}{\edef\q{\iffalse}\fi}\begin{e}x\end{e}y')
    chapter(r'\newenvironment{e}{}{\def\q{\iffalse}\fi}\begin{e}x\end{e}y')
    chapter(r'\global\noexpand\ldots')
    chapter(r'\global\noexpand\nosuch')
    chapter(r'\expandafter\let\expandafter\q\space= a\q')
    chapter(r'\toksdef\q=3 \advance\q by 1 ')
    chapter(r'\advance\noexpand\nosuch')
    chapter(r'\@toc', file('main.toc', '\\@toc'))
    chapter(KEPT, *par(textheight=50), 'rich')
    chapter(KEPT + r'\copy1 \copy1 ', *par(textheight=50), 'rich')
    chapter(r'\let\q\nosuch\let\r=~\let\s=\hsize\let\t=\par\chardef\u=7 \let\v={\let\w=\count\newcommand{\x}[2][a\#]{#2\y#1##}\count3=4 \toks3={}',
        'set=toks.4:61')
    for meaning in ('char=11.65', 'char=1.123', 'char=10.32', 'char=13.126', 'number=65', 'reg=par.hsize', 'reg=toks.5', 'row=' + hexed('par')):
        chapter(r'a\q=5pt b', f'set=word.{hexed("q")}:{meaning}')
    chapter(r'\begin{b}\end{a}', macro('b', ''), 'set=env:61')
    chapter(r'\end{a}', 'set=env:61')
    chapter(r'\label{k}', 'set=currentlabel:' + hexed('2.3'))
    chapter(r'\skip1=16383pt\advance\skip1 by 1pt ')
    chapter(r'\multiply\parskip by 16384 ')
    chapter(r'\hbox{\hskip16383pt}\hbox spread16383pt{\kern2pt}')
    chapter(r'\kern16000pt\kern16000pt')
    chapter('\\hbox{a}\\kern16000pt\n\\kern16000pt\n\\hbox{b}')
    chapter(r'\vbox{\kern16000pt\kern16000pt}')
    chapter('\\indent\\indent a\\noindent\\leavevmode b')
    chapter(r'\hbox{\vrule width16383pt}\hrule height16383pt \hrule height16383pt ')


# ---- the order in which a row does its parts, and what it looks at

def orders():
    lines = [
        r'\pagenumbering{roman}x', r'\begin{enumerate}\item x\end{enumerate}', r'\begin{enumerate}x\item y\item z\end{enumerate}',
        r'\setcounter{enumi}{2147483647}\@list1 \setcounter{enumi}{2147483647}x\item y', r'\hspace{x}', r'\hspace*{1pt\ifhmode plus1pt\fi}x',
        r'\hspace{\ifhmode1pt\else x\fi}y', r'\ignorespaces  \noexpand\ldots x', '\\ignorespaces \n \\bfseries x', r'{\ignorespaces }x',
        r'\newenvironment{e}{}{\ignorespaces}\begin{e}\end{e} x', r'\noexpand\ldots x', r'\edef\q{\noexpand\ldots}x', r'\edef\q{\noexpand\nosuch}x',
        r'\if\noexpand~\noexpand~x\fi', '\\def\\q{#x\n}', '\\def\\q{#x\n', '\\edef\\q#1{#\\ldots\n}', r'\toks0={1}\edef\q#1{#\the\toks0 }\q x',
        r'\let\z= \global\z\count1=5 ', r'\ifx\ldots\dots x\fi', r'\typeout{\thepage}', r'\section{x}', r'\chapter{x}',
        r'\hbox{\count1=5 \kern16000pt\kern16000pt}', r'x\@ins{\count1=5 \kern16000pt\kern16000pt}',
        r'\discretionary{\aftergroup z a}{b}{c}', r'\markboth{\aftergroup z a}{b}x', r'\markboth{\kern16000pt\kern16000pt}{\typeout{x}}',
        '\\newenvironment{e}{}{\\iffalse}\\begin{e}\n\\end{e}\n\nx', 'x\\iffalse\n\ny']
    for line in lines:
        chapter(line)
        chapter(line, *par(hsize=20))
    for hsize in (20, 60):
        chapter(r'xxxxxxxxxxx \hbox to0pt{\kern16000pt\hss}\hbox{\kern16000pt\kern383pt}\penalty-10000 \kern16000pt\kern16000pt y', *par(hsize=hsize))
    chapter(r'\markboth{a}{b}x', counter('page', 2147483647), 'set=pagestyle:headings')


def main():
    for section in (corners, pieces, worked, faults, rows_alone, limits, headings, contents, lists, environments, paragraphs, boxes, pages,
        expansion, orders):
        section()
    drawn(440)
    soup(450)


if __name__ == '__main__':
    main()
