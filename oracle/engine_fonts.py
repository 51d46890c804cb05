#!/usr/bin/env python3
"""The font of engine.py's cases that has more than the test font: widths, heights, depths and italics that differ, ligatures of ff, fi and ffi and of
two hyphens, kerns, and programs of both edges. Writes it as `rich.tfm` into the folder that is given."""
import struct
import sys
from pathlib import Path

ONE = 2 ** 20
CODES = [*range(33, 123), 174, 175, 176]
WIDTHS = [0, ONE // 4, ONE // 2, ONE // 3, 3 * ONE // 4, ONE // 8]
HEIGHTS = [0, ONE // 2, 3 * ONE // 4, ONE // 5]
DEPTHS = [0, ONE // 4, -ONE // 16]
ITALICS = [0, ONE // 20, ONE // 7]
KERNS = [-ONE // 36, ONE // 18]
PARAMETERS = [ONE // 4, ONE // 3, ONE // 6, ONE // 9, ONE // 2, ONE, ONE // 9]
# the right edge is 127; programs by their first character: (following, operation, remainder)
RIGHT_EDGE = 127
LIGATURE, KERN = 0, 128
PROGRAMS = {
    'f': [('f', LIGATURE, 174), ('i', LIGATURE, 175), ('l', KERN, 0)], chr(174): [('i', LIGATURE, 176), ('f', KERN, 1)],
    '-': [('-', LIGATURE, 45)], 'A': [('V', KERN, 0), ('a', 1, 66), ('b', 2, 67), ('c', 3, 68), ('d', 5, 69), ('e', 7, 70), ('f', 11, 71)],
    'V': [('A', KERN, 0), ('o', KERN, 1)], 'z': [(chr(RIGHT_EDGE), LIGATURE, 122), ('a', KERN, 1)], 's': [(chr(RIGHT_EDGE), KERN, 1)],
    '1': [('2', KERN, 0), ('0', LIGATURE, 49)], '2': [(chr(RIGHT_EDGE), KERN, 1)], 'v': [('i', KERN, 1)]}
LEFT_EDGE = [('Q', 2, 81), ('q', KERN, 0)]


def program(steps):
    made = []
    for place, (following, operation, remainder) in enumerate(steps):
        made.append(bytes([128 if place + 1 == len(steps) else 0, ord(following), operation, remainder]))
    return made


def tables():
    """The steps, and where the program of each code begins."""
    steps, starts = [bytes([255, RIGHT_EDGE, 0, 0])], {}
    for first, lines in PROGRAMS.items():
        starts[ord(first)] = len(steps)
        steps += program(lines)
    left = len(steps)
    return [*steps, *program(LEFT_EDGE), bytes([255, 0, left // 256, left % 256])], starts


def info(code, starts):
    if code not in CODES:
        return bytes(4)
    tag = [1, starts[code]] if code in starts else [0, 0]
    sizes = 16 * (1 + code % 3) + (code % 5) % 3
    return bytes([1 + code % 5, sizes, 4 * (code % 3) + tag[0], tag[1]])


def rich():
    steps, starts = tables()
    infos = [info(code, starts) for code in range(CODES[0], CODES[-1] + 1)]
    numbers = [*WIDTHS, *HEIGHTS, *DEPTHS, *ITALICS]
    body = struct.pack('>II', 7, 10 * ONE) + b''.join(infos) + struct.pack(f'>{len(numbers)}i', *numbers) + b''.join(steps)
    body += struct.pack('>2i', *KERNS) + struct.pack('>7i', *PARAMETERS)
    counts = [
        6 + len(body) // 4, 2, CODES[0], CODES[-1], len(WIDTHS), len(HEIGHTS), len(DEPTHS), len(ITALICS), len(steps), len(KERNS), 0,
        len(PARAMETERS)]
    return struct.pack('>12H', *counts) + body


if __name__ == '__main__':
    (Path(sys.argv[1]) / 'rich.tfm').write_bytes(rich())
