#!/usr/bin/env python3
"""Writes the commands of lb_tests_board. What is drawn is drawn from a fixed seed. Most steps meet the conditions of their calls, for which
the oracle's board is asked."""
import random

import board

draw = random.Random(1983)

SEQUENCES = 400
WORD = 2 ** 32


def by_hand():
    """Two chapters by one seat; a halted board; boards without chapters; and one whose seats are split as often as can be."""
    print('board 2 d:0 t:0:0 p:0:5 t:0:0 t:0:0 d:0 p:0:6 d:0 t:0:1')
    print('board 2 h:0 d:0')
    print('board 2 s:0 h:0 d:1 j:0:1')
    print('board 2 d:0 h:0 p:0:7 d:0 t:0:0 t:0:1')
    print('board 2 d:0 d:0 s:0 j:0:0 p:0:1 p:0:1 h:1 t:0:2 t:1:0 j:0:1 j:1:0 s:1')
    print('board 2 s:0 d:0 d:1 j:0:1 j:1:0 p:1:8 j:0:1 p:0:9 j:1:0 t:0:0 t:0:1')
    print('board 3 d:0 s:0 p:0:4294967295 s:0 d:1 p:1:0 d:0 p:0:3 j:1:0 t:0:0 t:0:2 t:0:1 t:0:2')
    print('board 0', *['d:0', 't:0:0', 'd:0', 's:0', 'd:1', 'h:1', 'd:1', 'j:1:0', 'd:0'])
    print('board 0')
    print('board 1', *['s:0'] * 17)
    print('board 1', *[f's:{seat}' for seat in range(17)], *['d:16', 'd:15', 'p:16:2', 't:3:0', *(f'j:{seat}:{seat + 1}' for seat in range(15, -1, -1))])


def some_value():
    return draw.choice([0, 1, WORD - 1, draw.randrange(1000), draw.randrange(WORD)])


def some_step(state):
    """A step of any kind, on any seat."""
    seats = range(len(state.seats))
    seat = draw.choice(seats)
    return draw.choice([f'd:{seat}', f'p:{seat}:{some_value()}', f't:{seat}:{draw.randrange(state.chapters + 1)}', f's:{seat}', f'j:{seat}:{draw.choice(seats)}'])


def met_step(state):
    """A step that meets the conditions of its call."""
    holding = [seat for seat, of in enumerate(state.seats) if of.held is not None]
    free = [seat for seat, of in enumerate(state.seats) if of.held is None]
    drawing = [seat for seat in free if not state.seats[seat].is_done()]
    posted = [chapter for chapter, mark in enumerate(state.marks) if mark == board.POSTED]
    steps = [f't:{draw.randrange(len(state.seats))}:{draw.randrange(state.chapters)}']
    if holding:
        steps += [f'p:{draw.choice(holding)}:{some_value()}'] * 3
    if drawing:
        steps += [f'd:{draw.choice(drawing)}'] * 4
    if posted:
        steps += [f't:{draw.randrange(len(state.seats))}:{draw.choice(posted)}'] * 2
    if free and len(state.seats) < 12:
        steps.append(f's:{draw.choice(free)}')
    if len(free) > 1:
        steps += ['j:{}:{}'.format(*draw.sample(free, 2))] * (len(state.seats) // 6 + 1)
    return draw.choice(steps)


def ending(state):
    """Posts what is held, joins all seats to one, draws what is left, and takes all."""
    for seat, of in enumerate(state.seats):
        if of.held is not None:
            yield f'p:{seat}:{some_value()}'
    while len(state.seats) > 1:
        first, other = draw.sample(range(len(state.seats)), 2)
        yield f'j:{first}:{other}'
    while not state.seats[0].is_done():
        yield 'd:0'
        if state.seats[0].held is not None:
            yield f'p:0:{some_value()}'
    for chapter in draw.sample(range(state.chapters), state.chapters):
        yield f't:0:{chapter}'


def some_sequence():
    state = board.Board(draw.choice([1, 2, 3, 5, 8, 12]))
    words = []

    def step(word):
        words.append(word)
        state.step(word)
        state.check()

    halts = draw.randrange(40) if draw.random() < 0.3 else None
    for turn in range(draw.randrange(5, 40)):
        step(f'h:{draw.randrange(len(state.seats))}' if turn == halts else met_step(state) if draw.random() < 0.93 else some_step(state))
    if draw.random() < 0.6:
        for word in ending(state):
            step(word)
    print('board', state.chapters, *words)


def main():
    by_hand()
    for _ in range(SEQUENCES):
        some_sequence()
    print('many 0')
    print('many 1000')


if __name__ == '__main__':
    main()
