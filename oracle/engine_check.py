#!/usr/bin/env python3
"""Checks engine.py: answers that were worked out by hand, whole books, and its boxes and pages against those of
paper.py and paper_pages.py on lists that are drawn."""
import contextlib
import io
import random

import engine
import engine_cases
import engine_state
import paper
import paper_pages
from engine_book import Book
from engine_nodes import discretionary, glue_node, kern, pack, penalty, rule
from engine_pages import Look, Part, last_pages, next_page, page_box
from expand import Fault, with_deep_stack
from paper import Node
from paper_marks import DimenTooLarge, marks

draw = random.Random(1969)


# ---- by hand

def hexed(line):
    return line.encode('latin-1').hex() or '_'


def answers(line, *words):
    given = ['fonts', 'rich', 'kernelstate', 'set=counters:_', f'file={hexed("a.tex")}:{hexed(line)}', f'file={hexed("b.tex")}:{hexed("bb")}', *words]
    return engine.Case([*given, 'chapter=61'])


def points(size):
    return f'{size / 65536:.2f}'.rstrip('0').rstrip('.')


def laid(page):
    """The runs of a page, in points: v,h and the characters that follow one another; a rule is [height x width]."""
    found, end = [], None
    for mark in page.marks:
        here = (mark.v, mark.h)
        if hasattr(mark, 'code'):
            if here != end:
                found.append(f'{points(mark.v)},{points(mark.h)} ')
            found[-1] += chr(mark.code)
            end = mark.v, mark.h + mark.width
        else:
            found.append(f'{points(mark.v)},{points(mark.h)} [{points(mark.height)} x {points(mark.width)}]')
            end = None
    return f'{page.number}: ' + '; '.join(found)


def told(outcome):
    found = []
    for kind, what in outcome.appends:
        line = laid(what) if kind == 'page' else what.decode('latin-1').rstrip('\n')
        if not line.startswith(('File a.tex', '[', '\\@setckpt')):
            found.append(line)
    if outcome.fault:
        kind, file, line = outcome.fault
        found.append(f'! {kind} {file.decode()}:{line}')
    return found


FOOT = '; 593,170 1'
SMALL = ['set=par.hsize:3932160']                                  # 60pt
HEADINGS = ['set=pagestyle:headings']
PAGES = [
    ('', []), ('Hi', ['1: 40,15 Hi' + FOOT]), ('Hi\n\nHo', ['1: 40,15 Hi; 52,15 Ho' + FOOT]), ('a b', ['1: 40,15 a; 40,23 b' + FOOT]),
    (r'\noindent\par a', ['1: 52,15 a' + FOOT]), (r'a\\b', ['1: 40,15 a; 52,0 b' + FOOT]), (r'a\\[3pt]b', ['1: 40,15 a; 55,0 b' + FOOT]),
    (r'\leavevmode\raise3pt\hbox{x}', ['1: 37.5,15 x' + FOOT]), (r'\raise3pt\hbox{x}', ['! WrongMode a.tex:1']),
    (r'\hbox{a}\hbox{b}', ['1: 40,0 a; 52,0 b' + FOOT]),
    (r'\vskip5pt a', ['1: 40,15 a' + FOOT]), (r'\label{k}\vskip5pt x', ['1: 45,15 x' + FOOT, r'\newlabel{k}{{}{1}}']),
    (r'\vspace*{5pt}x', ['1: 40,0 [0 x 345]; 52.5,15 x' + FOOT]),
    (r'a\footnote{b}', ['1: 40,15 a; 36.4,20 1; 556.65,0 [0.4 x 138]; 563,10 1; 566,12.5 b' + FOOT]),
    (r'\hbox to20pt{\hskip3pt plus1pt a\hskip3pt plus2pt b\hskip3pt plus4pt c}', ['1: 40,3 a; 40,11 b; 40,19 c' + FOOT]),
    (r'\hbox to31pt{\hskip3pt plus1pt a\hskip3pt plus2pt b\hskip3pt plus4pt c}', ['1: 40,4 a; 40,14 b; 40,26 c' + FOOT]),
    (r'\baselineskip1pt\lineskip4pt a\par b', ['1: 40,15 a; 54,15 b' + FOOT]), (r'\hrule a', ['1: 40,0 [0.4 x 345]; 47.5,15 a' + FOOT]),
    (r'a\newpage b', ['1: 40,15 a' + FOOT, '2: 40,15 b; 593,170 2']),
    (r'\section{T}x', ['1: 40.8,0 0.1; 40.8,36 T; 62.8,0 x' + FOOT, r'\@writefile{toc}{\contentsline {section}{\numberline {0.1}T}{1}}']),
    (r'\section*{T}x', ['1: 40.8,0 T; 62.8,0 x' + FOOT]), (r'\begin{itemize}\item x\end{itemize}', ['1: 40,15 *; 40,25 x' + FOOT]),
    (r'\begin{enumerate}\item x\end{enumerate}', ['1: 40,10 1.; 40,25 x' + FOOT]),
    (r'\begin{description}\item[L] x\end{description}', ['1: 40,0 L; 40,10 x' + FOOT]),
    (r'\chapter{T}x', ['1: 115,0 Chapter; 115,78.81 1; 165,0 T; 219.72,0 x' + FOOT,
    r'\@writefile{toc}{\contentsline {chapter}{\numberline {1}T}{1}}']),
    ('x' * 70, ['Overfull 20.0pt at a.tex:1', '1: 40,15 ' + 'x' * 70 + FOOT]), (r'\ref{k}', ['Reference k undefined', '1: 40,15 ??' + FOOT]),
    (r'\input{b}c', ['File b.tex', '1: 40,15 bb; 40,28 c' + FOOT]),
    (r'\pagestyle{empty}a\label{k}', ['1: 40,15 a', r'\newlabel{k}{{}{1}}']), ('a%b\nc', ['1: 40,15 ac' + FOOT]),
    (r'a~b', ['1: 40,15 a; 40,23 b' + FOOT]), (r'a\char200 b', ['Missing character 200 in cmr10', '1: 40,15 ab' + FOOT]),
    (r'\vrule height9pt depth3pt width2pt', ['1: 43,15 [12 x 2]' + FOOT]), (r'\typeout{\bfseries\string\x ##\thepage}', [r'\@style 1 \x####1']),
    (r'\setbox1=\hbox{a}\copy1\box1\box1', ['1: 40,0 a; 52,0 a' + FOOT]), (r'{\setbox1=\hbox{a}}\box1', []),
    (r'\setbox1=\hbox{a}{\box1}\box1', ['1: 40,0 a; 52,0 a' + FOOT]),
    (r'\pagenumbering{roman}\setcounter{page}{4}a', ['4: 40,15 a; 593,167.5 iv']), (r'{\aftergroup a\aftergroup b}c', ['1: 40,15 abc' + FOOT]),
    (r'\newcommand{\q}[2][d]{#1#2}\q{a}\q[b]c', ['1: 40,15 dabc' + FOOT]), (r'\hskip1pt plus x', ['1: 40,16 plus; 40,39 x' + FOOT]),
    (r'a\par\vskip10pt\hbox{b}', ['1: 40,15 a; 62,0 b' + FOOT]),
    (r'\vbox{\hbox{a}\hbox{b}}', ['1: 37.5,0 a; 49.5,0 b' + FOOT]), (r'\newif\ifq\qtrue\ifq a\else b\fi', ['1: 40,15 a' + FOOT])]
SMALL_PAGES = [
    (r'\centering a b', ['1: 40,23.5 a; 40,31.5 b' + FOOT]), (r'\raggedright aaaa bbbb', ['1: 40,0 aaaa; 40,23 bbbb' + FOOT]),
    ('\\noindent aaaa bbbb cccc', ['Overfull 4.0pt at a.tex:1', '1: 40,0 aaaa; 40,22 bbbb; 40,44 cccc' + FOOT]),
    (r'\noindent aaaaaaaaaaa\-bbbbbbbb', ['1: 40,0 aaaaaaaaaaa-; 52,0 bbbbbbbb' + FOOT]),
    (r'\noindent aaaaaaaa\-bbbbbbbb', ['Overfull 20.0pt at a.tex:1', '1: 40,0 aaaaaaaabbbbbbbb' + FOOT])]
MARKED = [
    (r'\markboth{l}{r}a\newpage b', ['1: 12,0 r; 12,340 1; 40,15 a', '2: 12,0 2; 12,340 l; 40,15 b']),
    (r'\markboth{}{r}a\markright{s}\newpage b\newpage c', ['1: 12,0 r; 12,340 1; 40,15 a', '2: 12,0 2; 40,15 b', '3: 12,0 s; 12,340 3; 40,15 c'])]
FAULTS = [
    (r'\nosuch', 'Undefined'), (r'\renewcommand{\zz}{}', 'Undefined'), ('a}', 'GroupExtra'), ('{a', 'GroupOpen'), (r'\iftrue a', 'IfOpen'),
    (r'\fi', 'ExtraFi'), (r'\count1=x', 'NumberMissing'),
    (r'\count1=2147483648 ', 'NumberTooBig'), (r'\dimen1=1xx', 'UnitMissing'), (r'\dimen1=16384pt', 'DimenTooLarge'),
    (r'\hbox{\kern16000pt\hbox to0pt{\kern16000pt x}}', 'DimenTooLarge'),
    (r'\catcode65=16 ', 'BadCode'), (r'\count1=2147483647 \advance\count1 by1 ', 'Overflow'), (r'\setcounter{zz}{1}', 'NoCounter'),
    (r'\setcounter{enumi}{27}\alph{enumi}', 'CounterTooLarge'),
    (r'\item x', 'ItemOutside'), (r'\begin{quote}\end{center}', 'EnvironmentMismatch'), (r'\begin{itemize}' * 5, 'TooDeep'),
    (r'\def\m#1.{}\m x', 'Runaway'), (r'\def\m a{}\m b', 'UseMismatch'), ('^^?', 'Invalid'),
    (r'\input{zz}', 'FileMissing'), (r'\newcommand{\par}{}', 'AlreadyDefined'), (r'\newcounter{page}', 'AlreadyDefined'), ('#', 'TokenMisplaced'),
    (r'\hbox{\vskip1pt}', 'WrongMode'), ('$x$', 'MathRefused'), ('&', 'AlignRefused')]
STEPS = [('Hi', 3), ('', 0), ('{}', 3), (r'\relax', 1), (r'\count1=5 ', 6), (r'\csname relax\endcsname', 8), (r'\hbox{}', 6),
    (r'\begin{bfseries}x\end{bfseries}', 46)]
BOOK_LOOKS = (
    'steps file.612e746578 cat.72 par.parskip par.parindent par.textheight par.topskip par.maxdepth style size prefix '
    'file.636d7231302e74666d sf.72 cat.105 sf.105 cat.13 par.hsize par.leftskip par.rightskip par.parfillskip par.pretolerance '
    'par.tolerance par.linepenalty par.hyphenpenalty par.exhyphenpenalty par.adjdemerits par.doublehyphendemerits '
    'par.finalhyphendemerits par.clubpenalty par.widowpenalty par.brokenpenalty par.interlinepenalty par.baselineskip par.lineskip '
    'par.lineskiplimit counter.70616765 pageform pagestyle thisstyle par.topmargin par.oddsidemargin par.evensidemargin par.textwidth '
    'par.headheight par.headsep par.footskip counters')
LOOKS = [
    ('Hi', BOOK_LOOKS), (r'\count1=\count2 ',
    'steps file.612e746578 cat.92 cat.99 cat.111 cat.117 cat.110 cat.116 cat.49 word.636f756e74 cat.61 cat.50 cat.13 count.2'),
    (r'{\def\q{}}\q', 'word.71')]


def check_by_hand():
    for cases, words in ((PAGES, []), (SMALL_PAGES, SMALL), (MARKED, HEADINGS)):
        for line, expected in cases:
            found = told(answers(line, *words).outcome)
            assert found == expected, (line, found, expected)
    for line, kind in FAULTS:
        assert told(answers(line).outcome)[-1] == f'! {kind} a.tex:1', (line, told(answers(line).outcome))
    assert told(answers(r'\includeonly{a}', 'set=body:1').outcome) == ['! NotPreamble a.tex:1']
    for line, steps in STEPS:
        assert answers(line).outcome.steps == steps, (line, answers(line).outcome.steps)
    for line, looks in LOOKS:
        found = ' '.join(answers(line).outcome.desk.looks)
        assert looks in found, (line, found)
    return len(PAGES) + len(SMALL_PAGES) + len(MARKED) + len(FAULTS) + len(STEPS) + len(LOOKS)


# ---- whole books

ROW_2 = bytes.fromhex('''
    f7 02 018392c0 1c3b0000 000003e8 1b 20546558206f757470757420313737362e30372e30343a31323030 8b 00000001''' + ' 00' * 36 + ''' ffffffff
    9f 280000 91 0f0000 f3 00 00000000 000a0000 000a0000 00 05 636d723130 ab 48 69 a0 02290000 92 00910000 31 8c
    f8 0000002a 018392c0 1c3b0000 000003e8 02510000 01590000 0000 0001
    f3 00 00000000 000a0000 000a0000 00 05 636d723130 f9 00000083 02 df df df df df''')


def main_of(names, before=b''):
    lines = [b'\\documentclass{book}', *([before] if before else []), b'\\begin{document}', *(b'\\include{%s}' % name for name in names),
        b'\\end{document}']
    return b'\n'.join(lines) + b'\n'


def book(chapters, before=b'', **files):
    names = [name.encode() for name in chapters]
    texts = {name.encode() + b'.tex': line.encode() for name, line in chapters.items() if line is not None}
    return Book({b'main.tex': main_of(names, before), **texts, **{name.replace('_', '.').encode(): data for name, data in files.items()}}).set()


def first_cells(made):
    return [cell for _, cell in made.report()]


def check_rows():
    made = book({})
    assert made.log == b'speclatex 1 main\nOutput written on main.dvi (0 pages, 84 bytes).\n' and len(made.dvi()) == 84
    made = book({'a': 'Hi'})
    assert made.dvi() == ROW_2 and made.log.split(b'\n')[1:3] == [b'File a.tex', b'[1]']
    made = book({'a': None, 'b': 'Hi'})
    assert made.fault == ('FileMissing', b'main.tex', 3) and made.aux == {b'main.aux': b'\\relax \n'}
    made = book({'a': r'\newcommand{\x}{A}', 'b': r'\providecommand{\x}{B}\x'})
    assert [laid(page) for page in made.pages] == ['1: 40,15 A' + FOOT] and first_cells(made) == ['kept', 'word.78']
    made = book({'a': r'\count20=5', 'b': r'{\count20=9 }Hi', 'c': r'\the\count20'})
    assert laid(made.pages[1]) == '2: 40,15 5; 593,170 2' and first_cells(made) == ['kept', 'kept', 'count.20']
    assert first_cells(book({'a': r'\gdef\z{1}', 'b': 'Hi'})) == ['kept', 'kept']
    made = book({'a': r'\def\q{\nosuch}', 'b': '\\providecommand{\\q}{ok}\n\\q', 'c': r'\alsono'})
    assert made.fault == ('Undefined', b'b.tex', 2)
    made = book({'a': r'\def\q{done}', 'b': '\\providecommand{\\q}{\\q}\n\\q'})
    assert [laid(page) for page in made.pages] == ['1: 40,15 done' + FOOT]
    assert book({'b': '\\providecommand{\\q}{\\q}\n\\q'}).fault == ('StepLimit', b'b.tex', 2)
    old = {'main_aux': b'\\@input{a.aux}\n', 'a_aux': b'\\@setckpt{a}{\n\\setcounter{page}{17}\n}\n'}
    made = book({'a': 'Ho', 'b': 'Hi'}, b'\\includeonly{b}', **old)
    assert [page.number for page in made.pages] == [17] and first_cells(made) == ['skipped', 'kept'] and b'a.aux' not in made.aux
    assert [page.number for page in book({'a': 'Ho', 'b': 'Hi'}, b'\\includeonly{b}').pages] == [1]
    made = book({'a': r'\tableofcontents', 'b': r'\chapter{X}'})
    assert len(made.pages) == 2 and made.toc() == b'\\contentsline {chapter}{\\numberline {1}X}{2}\n'
    made = book({'a': r'\ref{k}'}, main_aux=b'\\newlabel{k}{{1}{1}}\n\\@input{main.aux}\n')
    assert laid(made.pages[0]) == '1: 40,15 1' + FOOT and made.log.split(b'\n')[1] == b'Label k multiply defined' and made.log.count(b'multiply') == 1
    for line, kind, at in ((b'{', 'GroupOpen', 4), (rb'\newcommand{\inc}{\include{b}}' + b'\n\\inc', 'IncludeInside', 4)):
        data = b'\\documentclass{book}\n\\begin{document}\n' + line + b'\n\\include{a}\n\\end{document}\n'
        assert Book({b'main.tex': data, b'a.tex': b'x'}).set().fault == (kind, b'main.tex', at)
    for line, kind in ((b'\\usepackage{x}', 'PackageRefused'),):
        assert Book({b'main.tex': main_of([], line)}).set().fault == (kind, b'main.tex', 2)
    assert Book({b'main.tex': main_of([]).replace(b'book', b'report')}).set().fault == ('ClassRefused', b'main.tex', 1)


BOOK = {
    b'bk.tex': rb'''\documentclass[11pt]{book}
\title{Book}\author{A}
\begin{document}
\frontmatter
\maketitle
\tableofcontents
\mainmatter
\include{one}
\include{two}
\appendix
\include{more}
\end{document}
''', b'one.tex': b'\\chapter{First}\\label{c1}\nSee \\ref{s1} on page \\pageref{s1}.\\footnote{Note.}\n',
    b'two.tex': b'\\chapter{Second}\n\\section{Part}\\label{s1}\nBack to \\ref{c1}.\n', b'more.tex': b'\\chapter{More}\nText.\n'}
TOC = b'''\\contentsline {chapter}{\\numberline {1}First}{1}
\\contentsline {chapter}{\\numberline {2}Second}{2}
\\contentsline {section}{\\numberline {2.1}Part}{2}
\\contentsline {chapter}{\\numberline {A}More}{3}
'''


def check_book():
    first = Book(BOOK, b'bk').set()
    assert first.fault is None and len(first.pages) == 5 and first.toc() == TOC
    assert first_cells(first) == ['kept', 'counter.' + hexed('chapter'), 'counter.' + hexed('page')]
    assert first.aux[b'one.aux'].split(b'\n')[:3] == [b'\\relax ', rb'\@writefile{toc}{\contentsline {chapter}{\numberline {1}First}{1}}',
        rb'\newlabel{c1}{{1}{1}}']
    second = Book({**BOOK, **first.aux, b'bk.toc': first.toc()}, b'bk').set()
    assert len(second.pages) == 5 and first_cells(second) == ['kept'] * 3
    lying = {**BOOK, **first.aux, b'bk.toc': first.toc()}
    for page in (b'40', b'2147483647'):
        lying[b'one.aux'] = first.aux[b'one.aux'].replace(b'{page}{2}', b'{page}{' + page + b'}')
        third = Book(lying, b'bk').set()
        assert first_cells(third) == ['kept', 'counter.' + hexed('page'), 'kept'] and third.dvi() == second.dvi()


# ---- against the programs of boxes and pages

def drawn_size():
    return draw.choice([0, 65536, draw.randrange(-655360, 2000000), draw.randrange(0, 900000)] + [2 ** 29] * (draw.random() < 0.08))


def drawn_glue():
    return glue_node((drawn_size(), drawn_size(), draw.choice([0, 0, 0, 1, 2, 3]), drawn_size(), draw.choice([0, 0, 0, 1])))


def drawn_box():
    box = Node(draw.choice(['hbox', 'vbox']), width=drawn_size(), height=drawn_size(), depth=drawn_size(), excess=0, used=0, shifts=[], nest=1)
    box.shift = draw.choice([0, 0, drawn_size()])
    return box


def drawn_node(kinds):
    kind = draw.choice(kinds)
    made = {
        'box': drawn_box, 'glue': drawn_glue, 'kern': lambda: kern(drawn_size()),
        'penalty': lambda: penalty(draw.choice([-10000, -50, 0, 300, 9999, 10000])),
        'rule': lambda: rule(draw.choice(['x', drawn_size()]), drawn_size(), drawn_size()), 'note': lambda: Node('note', what=()),
        'disc': lambda: discretionary([[], [], [drawn_box()]]), 'ins': lambda: Node('ins', inside=[drawn_box()]),
        'adjust': lambda: Node('adjust', inside=[])}
    return made[kind]()


def same_box(one, other):
    if isinstance(one, str) or isinstance(other, str):
        return one == other
    names = ('width', 'height', 'depth', 'excess', 'used', 'shifts')
    return all(getattr(one, name) == getattr(other, name) for name in names)


def check_boxes():
    for _ in range(3000):
        nodes = [drawn_node(['box', 'glue', 'glue', 'kern', 'rule', 'penalty', 'note', 'disc']) for _ in range(draw.randint(0, 8))]
        axis, target, size = draw.choice(['hbox', 'vbox']), draw.choice(['natural', 'to', 'spread']), drawn_size()
        assert same_box(pack(axis, nodes, target, size), paper.pack(axis, nodes, target, size)), [node.__dict__ for node in nodes]
    return 3000


def part_of(found):
    return [(node.kind, node.width, node.height, getattr(node, 'stretch', None)) for node in found.items], found.goal


def by_paper(nodes, rules):
    try:
        found = paper_pages.next_page(rules, nodes)
    except paper_pages.DimenTooLarge:
        return 'DimenTooLarge'
    return None if found is None else (part_of(found[0]), len(found[1]), [node.inside[0] for node in found[0].feet])


def by_engine(nodes, *rules):
    try:
        found = next_page(nodes, *rules)
    except Fault as fault:
        return fault.kind
    return None if found is None else (part_of(found[0]), len(found[1]), found[0].feet)


def check_pages():
    counts = [0, 0, 0]
    for _ in range(6000):
        nodes = [drawn_node(['box', 'box', 'glue', 'glue', 'kern', 'penalty', 'rule', 'note', 'ins', 'adjust']) for _ in range(draw.randint(0, 12))]
        topskip = (draw.choice([0, 655360]), draw.choice([0, 65536]), draw.choice([0, 1]), 0, 0)
        height, depth = draw.choice([655360, 3000000, 6000000, drawn_size()]), draw.choice([0, 327680, drawn_size()])
        found = by_engine(nodes, height, topskip, depth)
        assert found == by_paper(nodes, paper_pages.Rules(height, *topskip, depth)), [node.__dict__ for node in nodes]
        counts[0 if found is None else 1 if isinstance(found, str) else 2] += 1
        check_page_box(nodes, height, topskip, depth)
    return counts


def marks_or_fault(make):
    try:
        box = make()
        if not isinstance(box, str):
            box.shifts = [0] * len(box.inside)
        return box if isinstance(box, str) else (marks(box), box.height, box.width)
    except Fault as fault:
        return fault.kind
    except DimenTooLarge:
        return 'too large'


def check_page_box(nodes, *rules):
    try:
        parts = last_pages(nodes, *rules)
    except Fault:
        return
    lengths = dict(zip(('textwidth', 'textheight', 'headheight', 'headsep', 'footskip', 'topmargin', 'oddsidemargin', 'evensidemargin'),
        (drawn_size() for _ in range(8))))
    number, style = draw.randint(1, 2), draw.choice(['empty', 'plain', 'headings'])
    digits, left, right = [drawn_box()], draw.choice([None, drawn_box()]), draw.choice([None, drawn_box()])
    for part in parts:
        feet = [Node('ins', inside=[box]) for box in part.feet]
        by_paper_ = paper_pages.Look(number, style, list(lengths.values()), digits, right, left)
        one = marks_or_fault(lambda: paper_pages.page_box(paper_pages.Part(part.items, feet, part.goal), by_paper_))
        other = marks_or_fault(lambda: page_box(Part(part.items, part.feet, part.goal), Look(lengths, number, style, digits, left, right)))
        assert one == other, (one, other)


# ---- looks: a piece does the same where no cell is the same but those that it looks at

def other_value(cell, value):
    kind = cell.partition('.')[0]
    if kind in ('word', 'active'):
        return ('char', 12, 33) if value is None or value[0] != 'char' else None
    if kind == 'cat':
        return 12 if value != 12 else 11
    if isinstance(value, int):
        return value + 1 if kind not in ('body', 'toc', 'matter', 'style', 'lc', 'uc') else 1 - min(value, 1)
    if kind in ('pageform', 'pagestyle', 'thisstyle'):
        return 'roman' if kind == 'pageform' else 'empty'
    if isinstance(value, tuple) and kind in ('par', 'skip'):
        return (value[0] + 99, *value[1:])
    return None if kind in ('toks', 'boxed', 'only', 'leftmark', 'rightmark', 'label', 'checkpoint') else value


MORE_CELLS = ['count.0', 'count.1', 'count.2', 'dimen.1', 'word.71', 'label.6b', 'boxed.1', 'toks.1', 'thisstyle', 'only']


def told_and_written(case):
    """The appends, the end, the looks and the writes of a case."""
    outcome = case.outcome
    appends = [(kind, what.shown() if kind == 'page' else what) for kind, what in outcome.appends]
    written = {cell: engine_state.shown(cell, value) for cell, value in outcome.desk.writes.items()}
    return appends, outcome.fault, outcome.steps, list(outcome.desk.looks), written


def check_looks(lines):
    for line in lines:
        words = line.split()[1:]
        one = engine.Case(words)
        looks = one.outcome.desk.looks
        other = engine.Case([*words[:-1]])
        for cell in [*other.state, *MORE_CELLS]:
            if cell not in looks:
                value = other_value(cell, other.state.get(cell))
                other.state.pop(cell, None)
                if value is not None:
                    other.state[cell] = value
        kind, _, value = words[-1].partition('=')
        getattr(other, f'do_{kind}')(*([value] if value else []))
        assert told_and_written(one) == told_and_written(other), (line, told_and_written(one), told_and_written(other))
    return len(lines)


def lines_of_cases():
    """One in seven of the cases that are short."""
    made = io.StringIO()
    with contextlib.redirect_stdout(made):
        engine_cases.main()
    return [line for line in made.getvalue().splitlines() if len(line) < 2000][::7]


def main():
    print(f'{check_by_hand()} by hand')
    print(f'{check_looks(lines_of_cases())} with other cells than those that are looked at')
    check_rows()
    check_book()
    print('whole books')
    print(f'{check_boxes()} boxes; pages without an end, too large and ended: {check_pages()}')


if __name__ == '__main__':
    with_deep_stack(main)
