#!/usr/bin/env python3
"""Says what lb_tests_aux has to print: reads its commands from standard input. Written from the rules alone: a line of an old aux file is
split by searching for the brace that belongs to the first one, in the line with each backslash and the byte behind it blanked out; a whole
file is a list of lines, in which a checkpoint is a slice up to the first line that closes it."""
import re
import sys

from aux_counters import COUNTERS, answers, bare, checkpoint, hexed

MARKER = b'\\protected@file@percent'


def blanked(line):
    """The line with each byte behind a backslash, and the backslash, replaced."""
    return re.sub(rb'\\(.)', b'__', line, flags=re.S)


def groups(text):
    """The contents of groups that make up a text, one behind another; None where anything else is in it."""
    plain, found, at = blanked(text), [], 0
    while at < len(text):
        if plain[at:at + 1] != b'{':
            return None
        depth, end = 0, None
        for place in range(at, len(text)):
            depth += {123: 1, 125: -1}.get(plain[place], 0)
            if depth == 0:
                end = place
                break
        if end is None:
            return None
        found.append(text[at + 1:end])
        at = end + 1
    return found


def arguments(word, line, count):
    found = groups(line[len(word):]) if line.startswith(word) else None
    return found if found is not None and len(found) == count else None


def entry_text(text):
    for ending in (MARKER + b' ', MARKER):
        if text.endswith(ending):
            return text[:-len(ending)]
    return text


def says(line):
    """What a line says outside of a checkpoint, or None."""
    found = arguments(b'\\newlabel', line, 2)
    if found:
        values = groups(found[1])
        if values is not None and len(values) >= 2:
            return 'label', found[0], values[0], values[1]
        return None
    found = arguments(b'\\@input', line, 1)
    if found:
        return 'input', found[0]
    found = arguments(b'\\@writefile', line, 2)
    if found:
        return 'entry', found[0], entry_text(found[1])
    return None


def opens(line):
    if line.startswith(b'\\@setckpt') and line.endswith(b'{'):
        found = groups(line[len(b'\\@setckpt'):-1])
        if found is not None and len(found) == 1:
            return found[0]
    return None


def counter(line):
    found = arguments(b'\\setcounter', line, 2)
    if found and re.fullmatch(rb'-?[0-9]+', found[1]) and abs(int(found[1])) < 2 ** 31:
        return found[0], int(found[1])
    return None


def read(data):
    lines = [line[:-1] if line.endswith(b'\r') else line for line in data.split(b'\n')]
    said, at = [], 0
    while at < len(lines):
        chapter = opens(lines[at])
        if chapter is not None:
            if b'}' not in lines[at + 1:]:
                break
            close = lines.index(b'}', at + 1)
            said.append(('checkpoint', chapter, [c for c in map(counter, lines[at + 1:close]) if c]))
            at = close
        elif says(lines[at]):
            said.append(says(lines[at]))
        at += 1
    return said


def shown(what):
    if what[0] == 'checkpoint':
        return ' '.join(['checkpoint', hexed(what[1])] + [f'{hexed(name)}={number}' for name, number in what[2]])
    return ' '.join([what[0]] + [hexed(part) for part in what[1:]])


def token(word):
    kind, _, rest = word.partition(':')
    if kind == 'w':
        name = bare(rest)
        return b'\\' + name if len(name) == 1 and not (name.isalpha() and name < b'\x80') else b'\\' + name + b' '
    if kind == 'p':
        return bytes([int(rest)]) * 2
    return bytes([int(rest)])


def written(word):
    return b''.join(map(token, filter(None, word[1:].split(','))))


def scaled(size):
    sign, size, digits = ('-' if size < 0 else ''), abs(size), ''
    whole, rest, delta = size // 65536, 10 * (size % 65536) + 5, 10
    while True:
        if delta > 65536:
            rest += 32768 - 50000
        digits += str(rest // 65536)
        rest, delta = 10 * (rest % 65536), 10 * delta
        if rest <= delta:
            return f'{sign}{whole}.{digits}'.encode()


def event(words):
    kind, args = words[0], words[1:]
    place = lambda file, line: bare(file) + b':' + line.encode()
    return {
        'start': lambda: b'speclatex 1 ' + bare(args[0]), 'options': lambda: b'Class options: ' + bare(args[0]), 'file': lambda: b'File ' + bare(args[0]),
        'page': lambda: b'[' + args[0].encode() + b']', 'overfull': lambda: b'Overfull ' + scaled(int(args[0])) + b'pt at ' + place(args[1], args[2]),
        'underfull': lambda: b'Underfull at ' + place(args[0], args[1]), 'missing': lambda: b'Missing character ' + args[0].encode() + b' in ' + bare(args[1]),
        'reference': lambda: b'Reference ' + bare(args[0]) + b' undefined', 'label': lambda: b'Label ' + bare(args[0]) + b' multiply defined',
        'typeout': lambda: written(args[0]), 'fault': lambda: b'! Undefined ' + place(args[0], args[1]),
        'output': lambda: b'Output written on ' + bare(args[0]) + b'.dvi (' + args[1].encode() + (b' page, ' if args[1] == '1' else b' pages, ') + args[2].encode() + b' bytes).',
    }[kind]() + b'\n'


def answer(words):
    if words[0] == 'read':
        return '; '.join(map(shown, read(bare(words[1]))))
    if words[0] == 'label':
        return hexed(b'\\newlabel{' + bare(words[1]) + b'}{{' + bare(words[2]) + b'}{' + bare(words[3]) + b'}}\n')
    if words[0] == 'contents':
        return hexed(b'\\@writefile{' + bare(words[1]) + b'}{\\contentsline {' + bare(words[2]) + b'}{' + written(words[3]) + b'}{' + written(words[4]) + b'}}\n')
    if words[0] == 'log':
        return hexed(event(words[1:]))
    if words[0] == 'counter':
        return answers(words[1:])
    numbers = {b'page': 1} | {name.encode(): int(number) for name, number in (word.split('=') for word in words[2:])}
    return hexed(checkpoint(bare(words[1]), [name.encode() for name in COUNTERS], numbers))


if __name__ == '__main__':
    for command in sys.stdin:
        print(answer(command.split()))
