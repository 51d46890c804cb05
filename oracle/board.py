#!/usr/bin/env python3
"""Says what lb_tests_board has to print: reads its commands from standard input. Written from the rules alone. A board is a counter of
draws, a halt bit, and for each chapter a mark with what is posted; a seat is what it did. After each step the rule of a board is
checked on the whole of it, in sets of numbers."""
import sys

NOT_POSTED, POSTED, TAKEN = range(3)
WHOLE = 2 ** 16


class Seat:
    """What a seat did, and its part of the whole."""

    def __init__(self, allowance, no_more=False, halted=False):
        self.drawn = []
        self.taken = []
        self.held = None
        self.no_more = no_more
        self.halted = halted
        self.called = False
        self.allowance = allowance

    def is_done(self):
        return self.no_more or self.halted


class Board:
    """A board with its seats, in the order of their ages."""

    def __init__(self, chapters):
        self.chapters = chapters
        self.draws = 0
        self.halt = 0
        self.marks = [NOT_POSTED] * chapters
        self.posted = [None] * chapters
        self.seats = [Seat(WHOLE)]

    def draw(self, seat):
        if seat.held is not None or seat.is_done():
            return '!'
        if self.halt:
            seat.halted = True
            return 'halted'
        number = self.draws
        self.draws += 1
        if number >= self.chapters:
            seat.no_more = True
            return 'none'
        seat.drawn.append(number)
        seat.held = number
        return str(number)

    def post(self, seat, more):
        if seat.held is None:
            return '!'
        self.posted[seat.held] = more
        self.marks[seat.held] = POSTED
        seat.held = None
        return 'ok'

    def take(self, seat, chapter):
        if chapter >= self.chapters:
            return '!'
        if self.marks[chapter] != POSTED:
            return '-'
        self.marks[chapter] = TAKEN
        seat.taken.append(chapter)
        return str(self.posted[chapter])

    def halt_all(self, seat):
        self.halt = 1
        seat.called = True
        return 'ok'

    def split(self, seat):
        if seat.held is not None or seat.allowance < 2:
            return '!'
        half = seat.allowance // 2
        seat.allowance -= half
        self.seats.append(Seat(half, seat.no_more, seat.halted))
        return str(len(self.seats) - 1)

    def join(self, seat, other):
        if seat is other or seat.held is not None or other.held is not None:
            return '!'
        seat.drawn += other.drawn
        seat.taken += other.taken
        seat.no_more |= other.no_more
        seat.halted |= other.halted
        seat.called |= other.called
        seat.allowance += other.allowance
        self.seats.remove(other)
        return 'ok'

    def step(self, word):
        kind, *numbers = word.split(':')
        of, *numbers = map(int, numbers)
        if of >= len(self.seats) or kind == 'j' and numbers[0] >= len(self.seats):
            return '!'
        seat = self.seats[of]
        if kind == 'j':
            return self.join(seat, self.seats[numbers[0]])
        return {'d': self.draw, 'p': self.post, 't': self.take, 'h': self.halt_all, 's': self.split}[kind](seat, *numbers)

    def check(self):
        """The rule, and what follows where one seat is left."""
        drawn = [number for seat in self.seats for number in seat.drawn]
        taken = [number for seat in self.seats for number in seat.taken]
        held = [seat.held for seat in self.seats if seat.held is not None]
        assert sorted(drawn) == list(range(min(self.draws, self.chapters)))
        assert len(set(taken)) == len(taken)
        assert max(self.draws, self.chapters) + sum(seat.allowance for seat in self.seats if not seat.is_done()) <= self.chapters + WHOLE
        assert sum(seat.allowance for seat in self.seats) == WHOLE and all(seat.allowance for seat in self.seats)
        assert not (self.halt or any(seat.halted for seat in self.seats)) or any(seat.called for seat in self.seats)
        assert all(self.draws >= self.chapters and seat.held is None for seat in self.seats if seat.no_more)
        for chapter, mark in enumerate(self.marks):
            assert (mark == NOT_POSTED) == (chapter not in drawn or chapter in held)
            assert (mark == TAKEN) == (chapter in taken)
        if len(self.seats) == 1 and self.seats[0].no_more:
            assert all(mark == TAKEN or mark == POSTED for mark in self.marks)


def board(count, *words):
    made = Board(int(count))
    answers = []
    for word in words:
        answers.append(made.step(word))
        made.check()
    return ' '.join(answers)


def many(count):
    count = int(count)
    return f'{count} {count} {count * (count - 1) // 2}'


def main():
    for line in sys.stdin:
        command, *words = line.split()
        print({'board': board, 'many': many}[command](*words))


if __name__ == '__main__':
    main()
