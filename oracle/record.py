#!/usr/bin/env python3
"""Says what lb_tests_record has to print: reads its commands from standard input. Written from the rules alone: a state is a dictionary from
the cells that have a value; what a world and a state tell is looked up in both; a recorder keeps the writes that stand in a dictionary of
their own, and a save is a whole copy of what stood on its cell."""
import sys

import text

NAMES = ('word', 'counter', 'file')
WORLD = {'job': 'name:6d61696e', 'prefix': 'name:702f', 'steps': 'steps:50000000', 'file:a.tex': 'text:4869'}
MOMENT = {'par:year': 'n:1776', 'par:month': 'n:7', 'par:day': 'n:4', 'par:time': 'n:720'}


def shown(of, what):
    """A value at the start, from its text."""
    if of == 'category':
        return f'cat:{text.CATEGORIES.index(what)}'
    return {'number': f'n:{what}', 'code': f'code:{what}'}.get(of, 'other')


def at_start():
    """The state at the start, with cells and values as this program shows them."""
    state = {}
    for cell, value in text.at_start().items():
        of, _, what = value.partition(' ')
        if of == 'dimension':
            state[cell.replace(' ', ':', 1)] = f'd:{what}'
        else:
            state[cell.replace(' ', ':', 1)] = shown(of, what)
    return state


def cell_of(word):
    """A cell as it is shown, from a command."""
    kind, _, key = word.partition(':')
    return f'{kind}:{bytes.fromhex(key).decode()}' if kind in NAMES else word


def value_of(cell, word):
    """What a cell is given by a word."""
    kind = cell.partition(':')[0]
    if word == '-':
        return 'absent'
    return f"{ {'word': 'char', 'cat': 'cat', 'lc': 'code'}.get(kind, 'n') }:{word}"


def change_of(word):
    cell, value = word.split('=')
    return cell_of(cell), value_of(cell_of(cell), value)


def look(state, cell):
    """What a cell tells in the world and a state."""
    if cell.startswith('file:') or cell in WORLD:
        return WORLD.get(cell, 'absent')
    return state.get(cell, MOMENT.get(cell, 'absent'))


def put(state, cell, value):
    state.pop(cell, None)
    if value != 'absent':
        state[cell] = value


class Saves:
    """Saves of cells, each with what it would put back."""

    def __init__(self):
        self.saves = []

    def save(self, cell, held):
        self.saves.append((cell, held))

    def void(self, cell):
        self.saves = [None if save and save[0] == cell else save for save in self.saves]

    def last(self):
        return self.saves.pop()


class Recorder:
    def __init__(self, guess):
        self.guess = guess
        self.reads = {}
        self.writes = {}
        self.saves = Saves()

    def tell(self, cell):
        if cell in self.writes:
            return self.writes[cell]
        return self.reads.setdefault(cell, look(self.guess, cell))

    def set(self, cell, value, everywhere):
        self.writes[cell] = value
        if everywhere:
            self.saves.void(cell)

    def save(self, cell):
        self.saves.save(cell, dict(self.writes).get(cell))

    def back(self):
        save = self.saves.last()
        if save is not None:
            cell, written = save
            self.writes.pop(cell, None)
            if written is not None:
                self.writes[cell] = written


class Direct:
    def __init__(self, state):
        self.state = dict(state)
        self.saves = Saves()

    def tell(self, cell):
        return look(self.state, cell)

    def set(self, cell, value, everywhere):
        put(self.state, cell, value)
        if everywhere:
            self.saves.void(cell)

    def save(self, cell):
        self.saves.save(cell, self.state.get(cell, 'absent'))

    def back(self):
        save = self.saves.last()
        if save is not None:
            put(self.state, *save)


def told(cells, steps):
    """What the steps tell."""
    answers = []
    for step in steps:
        if step == 'b':
            cells.back()
        elif step[0] == '?':
            answers.append(cells.tell(cell_of(step[1:])))
        elif step.startswith('k:'):
            cells.save(cell_of(step[2:]))
        else:
            cells.set(*change_of(step[2:]), step[0] == 'g')
    return answers


def joined(words):
    return ''.join(f' {word}' for word in words)


def seq(words):
    before, steps, later = (part.split() for part in ' '.join(['', *words, '']).split('/'))
    guess = at_start()
    for change in before:
        put(guess, *change_of(change))
    recorder = Recorder(guess)
    answers = told(recorder, steps)
    targets = [change_of(step[2:])[0] for step in steps if step[:2] in ('s:', 'g:')]
    other = dict(guess)
    for change in later:
        put(other, *change_of(change))
    direct = Direct(other)
    parts = [
        joined(answers), joined(f'{cell}={value}' for cell, value in recorder.reads.items()),
        joined(f'{cell}={recorder.writes[cell]}' if cell in recorder.writes else 'none' for cell in targets),
        joined(told(direct, steps)), joined(f'{cell}={look(direct.state, cell)}' for cell in targets)]
    differing = [place for place, (cell, value) in enumerate(recorder.reads.items()) if look(other, cell) != value]
    if differing:
        parts.append(f' differs {differing[0]}')
    else:
        if answers != told(Direct(other), steps):
            raise AssertionError('a setting that agrees tells something else')
        for cell, value in recorder.writes.items():
            put(other, cell, value)
        if other != direct.state:
            raise AssertionError('the writes are not what the steps leave')
        parts.append(' agrees' + joined(f'{cell}={look(other, cell)}' for cell in targets))
    return ' /'.join(parts)


def letters(count):
    return f'{sum(text.category(code % 256) == text.LETTER for code in range(int(count)))} letters'


def main():
    for line in sys.stdin:
        command, *words = line.split()
        print(seq(words) if command == 'seq' else letters(*words))


if __name__ == '__main__':
    main()
