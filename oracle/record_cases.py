#!/usr/bin/env python3
"""Writes the commands of lb_tests_record. What is drawn is drawn from a fixed seed."""
import random

draw = random.Random(2041)

SEQUENCES = 1500


def hexed(name):
    return name.encode().hex()


# what may be set, each with values that it may have
CELLS = {
    f'word:{hexed("x")}': ['-', '65', '66'], f'word:{hexed("par")}': ['-', '67'],
    f'word:{hexed("averylongcommandname")}': ['-', '68', '69'], 'count:20': ['-', '5', '9', '0'], 'count:0': ['-', '1', '-2147483647'],
    'cat:64': ['11', '12'], 'cat:37': ['12', '14'], 'sf:46': ['1000', '3000'], 'lc:65': ['97', '0'], 'par:year': ['1999', '0'],
    'par:tolerance': ['200', '500'], f'counter:{hexed("page")}': ['1', '2', '40'], f'counter:{hexed("mine")}': ['0', '7'],
    'style': ['0', '1', '2']}

# what may only be asked
ASKED = ['job', 'prefix', 'steps', f'file:{hexed("a.tex")}', f'file:{hexed("b.tex")}', 'par:month', 'cat:65']


def some_change(cells):
    cell = draw.choice(cells)
    return f'{cell}={draw.choice(CELLS[cell])}'


def some_steps(cells):
    steps = []
    saves = 0
    for _ in range(draw.choice([0, 1, 2, 4, 8, 16, 16])):
        kind = draw.random()
        if kind < 0.35:
            steps.append('?' + (draw.choice(cells) if draw.random() < 0.8 else draw.choice(ASKED)))
        elif kind < 0.55:
            steps.append('s:' + some_change(cells))
        elif kind < 0.63:
            steps.append('g:' + some_change(cells))
        elif kind < 0.83 or saves == 0:
            steps.append(f'k:{draw.choice(cells)}')
            saves += 1
        else:
            steps.append('b')
            saves -= 1
    if draw.random() < 0.7:
        steps += ['b'] * saves
    return steps


def some_changes(cells):
    return [some_change(cells) for _ in range(draw.choice([0, 0, 1, 2, 4]))]


# a look at a cell that is not there; a group that takes a change back; a global change below a save; an overlay that takes a value away
BY_HAND = [
    f'?word:{hexed("x")} s:word:{hexed("x")}=65 ?word:{hexed("x")} / word:{hexed("x")}=66', 'k:count:20 s:count:20=9 b ?count:20 / count:20=5',
    'k:count:20 s:count:20=9 ?count:20 b / count:20=5', 'k:count:20 g:count:20=9 b ?count:20 / count:20=5',
    's:count:20=- ?count:20 / count:20=5', f'?file:{hexed("a.tex")} ?file:{hexed("b.tex")} ?job ?prefix ?steps /',
    '?par:year s:par:year=1999 ?par:year ?par:month / par:year=1776', 's:count:0=1 k:count:0 g:count:0=9 k:count:0 s:count:0=0 b ?count:0 b ?count:0 /']


def main():
    for steps in BY_HAND:
        print(f'seq / {steps}'.rstrip())
    for _ in range(SEQUENCES):
        cells = draw.sample([*CELLS], draw.choice([1, 2, 3, 5]))
        parts = [['seq', *some_changes(cells)], some_steps(cells), some_changes(cells)]
        print(' / '.join(' '.join(part) for part in parts))
    print('record 1000')
    print('direct 1000')


if __name__ == '__main__':
    main()
