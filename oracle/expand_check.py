#!/usr/bin/env python3
"""Checks expand.py against values by hand, and against second ways: the reader of text.py on the texts of standard input; arguments as a
relation on whole token lists, on the macro cases of standard input; and conditionals that are drawn as trees, whose visible letters are
known before their text is written."""
import random
import sys

import expand
import text

draw = random.Random(1962)


def case(line, *calls, sets=()):
    return ['case', *(f'set={one}' for one in sets), 'text=' + line.encode('latin-1').hex(), *calls]


def answers(words):
    return expand.Case().run(words[1:]).split()


def shown(words):
    """The answers without their places and steps."""
    return [answer.partition('@')[0] for answer in answers(words)]


def steps_of(words):
    return 100000 - int(answers(words)[-1].rpartition('/')[2])


# ---- by hand

X = 'word.62:macro=-;_;78'                                           # \b is x
C = 'word.63:macro=-;_;5c62'                                         # \c is \b
DOTS = 'word.6d:macro=-;23312e2332;5b23317c23325d'                    # \m#1.#2 is [#1|#2]
BY_HAND = [
    (case(r'\m{ab}.c', 'N', sets=[DOTS]), '[ab|c] ', 14), (case(r'\number\number1 x', 'n', 'n'), '1x', 8),
    (case(r'\expandafter\string\c', 'N', sets=[X, C]), r'\b', 7), (case(r'\expandafter a\c', 'n', 'n', sets=[X, C]), 'ax', 6),
    (case(r'\romannumeral1984 ', 'N'), 'mcmlxxxiv', 15), (case(r'\the\parfillskip', 'N'), '0.0pt plus 1.0fil', 19),
    (case(r'\number`\{', 'N'), '123', 7), (case(r'\number"7F ', 'N'), '127', 8), (case(r"\number'17 ", 'N'), '15', 7),
    (case(r'\the\maxdepth', 'N'), '5.0pt', 7), (case(r'\the\catcode`\%', 'N'), '14', 7), (case(r'\ifnum1<2 a\else b\fi c', 'N'), 'ac ', 12),
    (case(r'\csname b\endcsname', 'N', sets=[X]), 'x', 5), (case(r'\jobname', 'N'), 'main', 5), (case(r'\arabic{page}', 'N'), '1 ', 14),
    (case(r'\ifcase2 a\or b\or c\else d\fi', 'N'), 'c', 11), (case(r'\string\b\string a', 'N'), r'\ba ', 8), (case('a\n\nb', 'P'), None, 5),
    (case(r'\iffalse\iftrue\else\fi a\fi', 'N'), '', 6), (case(r'\if\c x y\fi', 'N', sets=[X, C]), ' y', 8),
    (case(r'\fi', 'N'), '!ExtraFi', 1)]


def line_of(tokens):
    """Characters as they are, and a fault by its name."""
    return ''.join(chr(expand.code_of(token)) if token[0] == 'c' else token for token in tokens if token != 'end')


def check_by_hand():
    for words, line, steps in BY_HAND:
        found = shown(words)
        assert line is None or line_of(found) == line, (words, found, line)
        assert steps_of(words) == steps, (words, steps_of(words), steps)
    return len(BY_HAND)


# ---- readings of text

NAMES = {'space': 10, **{name: category for category, name in enumerate(text.CATEGORIES)}}


def token_of(item):
    """A token of text.py in the form of a case."""
    kind, _, rest = item.partition(':')
    if kind == 'word':
        return 'w' + rest
    return 'a' + rest if kind == 'active' else f'c{NAMES[kind]}:{rest}'


def read_by_text(data, category):
    found = []
    for line in text.lines(data):
        items, end = text.tokens([*line.rstrip(b' '), 13], 'N', category)
        found += map(token_of, items)
        if end == 'invalid':
            return [*found, '!Invalid']
    return found


def given(words):
    """The text, the other set-up words, and the calls."""
    sets = [word.partition('=')[2] for word in words if word.startswith('set=')]
    data = next((bytes.fromhex(word[5:]) for word in words if word.startswith('text=')), b'')
    return data, sets, [word for word in words[1:] if '=' not in word]


def categories(sets):
    changed = {}
    for one in sets:
        if one.startswith('cat.'):
            code, category = one[4:].split(':')
            changed[int(code)] = int(category)
    return lambda code: changed.get(code, text.category(code))


def check_reading(words):
    data, sets, calls = given(words)
    if calls != ['P'] or any(word.startswith('steps=') for word in words):
        return 0
    found = shown(words)
    expected = [*read_by_text(data, categories(sets)), 'end']
    if '!Invalid' in expected:
        expected = expected[:expected.index('!Invalid') + 1]
    assert found == expected[:expand.MOST_ANSWERS], (words, found, expected)
    return 1


# ---- arguments as a relation

def depth_of(tokens):
    """The depth at the end of a list, None where an end group stands alone in it."""
    depth = 0
    for token in tokens:
        depth += token.startswith('c1:') - token.startswith('c2:')
        if depth < 0:
            return None
    return depth


def related(rest, delimiter):
    """The shortest balanced list that the delimiter follows, None where there is none."""
    for length in range(len(rest) - len(delimiter) + 1):
        if rest[length:length + len(delimiter)] == delimiter and depth_of(rest[:length]) == 0:
            return rest[:length]
    return None


def without_argument(rest, long):
    """The fault where no list is related: what comes first, a \\par, an end group alone, or the end."""
    length = next((length for length in range(len(rest)) if depth_of(rest[:length + 1]) is None), None)
    if not long and expand.PAR in rest[:length]:
        return '!Runaway'
    return '!Runaway' if length is None else '!UseMismatch'


def one_argument(rest, delimiter, long):
    if not delimiter:
        while rest[:1] == [expand.SPACE]:
            rest = rest[1:]
        lengths = [length for length in range(1, len(rest) + 1) if depth_of(rest[:length]) == 0]
        found = rest[:lengths[0]] if lengths else None
    else:
        found = related(rest, delimiter)
    if found is None:
        return without_argument(rest, long), rest
    if not long and expand.PAR in found:
        return '!Runaway', rest
    rest = rest[len(found) + len(delimiter):]
    one_group = found[:1] and found[0].startswith('c1:') and found[-1].startswith('c2:') and depth_of(found[1:-1]) == 0
    return found[1:-1] if one_group else found, rest


def by_relation(macro, rest):
    """What the macro makes of a list: tokens, or a fault."""
    front, delimiters = expand.parts_of_pattern(macro.pattern)
    for at, token in enumerate(front):
        if rest[at:at + 1] != [token]:
            return ['!UseMismatch']
    rest = rest[len(front):]
    found = []
    for delimiter in delimiters:
        argument, rest = one_argument(rest, delimiter, macro.long)
        if isinstance(argument, str):
            return [argument]
        found.append(argument)
    body = []
    for token in macro.body:
        body += found[int(token[1:]) - 1] if token.startswith('#') else [token]
    return body + rest


def check_arguments(words):
    """Where no other token of the case is expanded but those that make nothing or one letter."""
    data, sets, calls = given(words)
    macros = [one for one in sets if one.startswith('word.6b:macro=')]
    if calls != ['N'] or not macros or not data.startswith(b'\\k') or any(word[:5] in ('file=', 'steps') for word in words):
        return 0
    macro = expand.given_meaning(macros[0][8:])
    others = [one for one in sets if one != macros[0] and not one.startswith(('word.65:', 'active.126:macro=-;_;79'))]
    tokens = read_by_text(data, text.category)
    if macro.first is not None or others or tokens[0] != 'w6b' or '!Invalid' in tokens or 'w6b' in tokens[1:]:
        return 0
    expected = ['c11:121' if token == 'a126' else token for token in by_relation(macro, tokens[1:]) if token != 'w65']
    found = shown(words)
    if found[-1] == '!Undefined':
        return 0
    assert found == expected + ['end'] * (not expected or expected[-1][0] != '!'), (words, found, expected)
    return 1


# ---- conditionals as trees

TRUE = [r'\iftrue ', r'\ifnum1<2 ', r'\ifx aa', r'\if aa', r'\ifcat ab', r'\ifodd3 ', r'\ifdim1pt<2pt ', r'\ifvmode ',
    r'\ifnum0\iffalse1\fi=0 ', r'\ifx\zz\yy ']
FALSE = [r'\iffalse ', r'\ifnum2<2 ', r'\ifx ab', r'\if ab', r'\ifcat a1', r'\ifodd4 ', r'\ifdim1pt>2pt ', r'\ifhmode ',
    r'\ifnum0\iftrue1\fi=0 ']


def tree(depth):
    """A text of conditionals, and its visible letters."""
    parts = [draw.choice('abcdefgh') if depth == 0 or draw.random() < 0.3 else conditional(depth - 1) for _ in range(draw.randint(1, 3))]
    pairs = [(part, part) if isinstance(part, str) else part for part in parts]
    return ''.join(line for line, _ in pairs), ''.join(visible for _, visible in pairs)


def conditional(depth):
    branches = [tree(depth) for _ in range(draw.randint(1, 4))]
    other = tree(depth) if draw.random() < 0.6 else None
    end = r'\fi ' if other is None else r'\else ' + other[0] + r'\fi '
    otherwise = '' if other is None else other[1]
    if draw.random() < 0.4:
        part = draw.randint(-1, len(branches))
        line = f'\\ifcase{part} ' + r'\or '.join(branch for branch, _ in branches)
        return line + end, branches[part][1] if 0 <= part < len(branches) else otherwise
    holds = draw.random() < 0.5
    return draw.choice(TRUE if holds else FALSE) + branches[0][0] + end, branches[0][1] if holds else otherwise


def check_trees(count):
    for _ in range(count):
        line, visible = tree(draw.randint(1, 4))
        words = case(line + '%', 'N', 'v')
        expected = [f'c11:{ord(letter)}' for letter in visible][:expand.MOST_ANSWERS]
        found = shown(words)
        assert found == expected + ['end', 'v0'] or len(visible) >= expand.MOST_ANSWERS, (line, found, visible)
    return count


def main():
    counts = [check_by_hand(), check_trees(2000), 0, 0]
    for line in sys.stdin:
        if len(line) < 20000:
            counts[2] += check_reading(line.split())
            counts[3] += check_arguments(line.split())
    print('by hand {}, conditionals {}, readings {}, arguments {}: all agree'.format(*counts))


if __name__ == '__main__':
    expand.with_deep_stack(main)
