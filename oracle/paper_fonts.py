#!/usr/bin/env python3
"""Makes the fonts of lb_tests_paper in the folder that is given: files with ligature and kerning
programs of every kind. They are the same each time."""
import random
import struct
import sys
from pathlib import Path

ONE = 2 ** 20
OPS = [0, 1, 2, 3, 5, 6, 7, 11]


def font(codes, programs, steps, kerns, seed, parameters=7):
    """The bytes of a font of these codes. A program begins at a place of the table for its code."""
    draw = random.Random(seed)
    first, last = min(codes), max(codes)
    widths = [0] + [draw.randrange(-ONE, 2 * ONE) for _ in range(9)]
    heights = [0] + [draw.randrange(-ONE, ONE) for _ in range(15)]
    depths = [0] + [draw.randrange(-ONE, ONE) for _ in range(15)]
    italics = [0] + [draw.randrange(-ONE, ONE) for _ in range(20)]
    infos = []
    for code in range(first, last + 1):
        if code not in codes:
            infos.append(bytes(4))
            continue
        tag, remainder = (1, programs[code]) if code in programs else (draw.choice([0, 2, 3]), draw.randrange(256))
        infos.append(bytes([draw.randrange(1, len(widths)), draw.randrange(256), 4 * draw.randrange(len(italics)) + tag, remainder]))
    given = [draw.randrange(-2 ** 31, 2 ** 31)] + [draw.randrange(-8 * ONE, 8 * ONE) for _ in range(6)] + [5] * 9
    given = given[:parameters]
    body = struct.pack('>II', draw.randrange(2 ** 32), 10 * ONE) + b''.join(infos)
    for table in (widths, heights, depths, italics):
        body += b''.join(struct.pack('>i', fix) for fix in table)
    body += b''.join(bytes(step) for step in steps) + b''.join(struct.pack('>i', fix) for fix in kerns)
    body += b''.join(struct.pack('>i', fix) for fix in given)
    counts = [6 + len(body) // 4, 2, first, last, len(widths), len(heights), len(depths), len(italics),
              len(steps), len(kerns), 0, parameters]
    return struct.pack('>12H', *counts) + body


def kern(index):
    return [128 + index // 256, index % 256]


def every_kind():
    """All operations with a following pair that goes on, kerns of both signs, chains of ligatures, a
    restart, skips, both edges, unknown operations, hyphens and ligatures that end in one."""
    steps = [[255, 90, 0, 0]]
    programs = {}

    def program(code, *made):
        programs[code] = len(steps)
        for k, step in enumerate(made):
            skip, following, action = step
            steps.append([skip if k + 1 < len(made) else 128, following] + action)

    # each operation between two letters, where the ligature has a program itself
    program(65, *[(0, 66 + k, [op, 72 + k % 4]) for k, op in enumerate(OPS)])
    program(66, (0, 65, kern(0)), (0, 66, kern(1)), (0, 72, [3, 73]), (0, 45, [0, 45]), (0, 69, kern(3)), (0, 90, [2, 74]))
    program(67, (1, 65, [0, 66]), (0, 65, kern(2)), (0, 66, [4, 72]), (0, 67, [12, 73]), (0, 68, [127, 74]), (0, 69, [8, 75]))
    program(72, (0, 66, [0, 73]), (0, 65, [0, 74]), (0, 45, [1, 73]), (0, 73, [5, 75]), (0, 90, kern(1)))
    program(73, (0, 67, [0, 74]), (0, 66, [6, 75]), (0, 45, kern(0)), (0, 72, [7, 45]), (0, 90, [0, 45]))
    program(74, (2, 65, [11, 72]), (0, 1, kern(0)), (0, 66, kern(0)), (0, 66, [7, 73]), (0, 45, [0, 73]))
    program(45, (0, 45, [0, 75]), (0, 65, [2, 45]), (0, 72, kern(2)), (0, 90, [1, 65]))
    program(75, (0, 45, [0, 45]), (0, 75, [3, 45]), (0, 90, kern(0)))
    # a program that is named by another place, and one that ends at once
    far = len(steps)
    steps.append([0, 65, 0, 73])
    steps.append([130, 66, 0, 0])
    restart = len(steps)
    steps.append([200, 0, far // 256, far % 256])
    programs[68] = restart
    stop = len(steps)
    steps.append([129, 65, 0, restart])
    programs[69] = stop
    # the left edge
    left = len(steps)
    steps.append([0, 65, 2, 72])
    steps.append([0, 66, *kern(2)])
    steps.append([0, 67, 0, 74])
    steps.append([0, 90, *kern(1)])
    steps.append([128, 45, 6, 75])
    steps.append([255, 0, left // 256, left % 256])
    codes = [45, *range(65, 76), 90]
    return font(codes, programs, steps, [ONE // 3, -ONE // 7, 5 * ONE, 0], 1)


def endless():
    """A pair that makes itself again and again, and an edge that does."""
    steps = [[255, 67, 0, 0], [0, 66, 2, 66], [128, 67, 2, 66], [128, 65, 3, 65], [255, 0, 0, 3]]
    return font([45, 65, 66], {65: 1, 66: 2}, steps, [], 2, parameters=3)


def many_kerns():
    """Kerns with the largest index that a file has room for."""
    count = 32767 - 6 - 2 - 3 - 10 - 16 - 16 - 21 - 5 - 7
    kerns = [k % 1000 - 500 for k in range(count)]
    last = count - 1
    steps = [[0, 65, *kern(0)], [0, 66, *kern(255)], [0, 67, *kern(256)], [128, 66, *kern(last)], [128, 67, *kern(last)]]
    return font([65, 66, 67], {65: 0, 66: 1, 67: 4}, steps, kerns, 3)


def drawn(seed):
    """A font with programs that are drawn."""
    draw = random.Random(seed)
    codes = [45, 65, 66, 67, 68, 69]
    count = 40
    steps = []
    for place in range(count):
        following = draw.choice(codes + [90, 90])
        action = kern(draw.randrange(300)) if draw.random() < 0.4 else [draw.choice(OPS + [0, 0, 1, 5, 4, 63]), draw.choice(codes)]
        skip = draw.choice([0, 0, 0, 1, 2, 5, 128, 128, 129, 254, 255])
        if skip < 128 and place + skip + 1 >= count:
            skip = 128
        steps.append([skip, following, 0, draw.randrange(count)] if skip > 128 else [skip, following] + action)
    if draw.random() < 0.8:
        steps[0] = [255, 90, 0, 0]
    if draw.random() < 0.8:
        steps[-1] = [255, 0, 0, draw.randrange(count)]
    kerns = [draw.randrange(-16 * ONE, 16 * ONE) for _ in range(300)]
    programs = {code: draw.randrange(count) for code in codes if draw.random() < 0.9}
    return font(codes, programs, steps, kerns, seed, parameters=draw.choice([0, 1, 6, 7, 9]))


def edges(skip, named):
    """Edges where the first and the last step skip so many, and the last names a place. The program at
    place 1 begins with a step that names a place, and that at place 5 with one that names place 1."""
    steps = [[skip, 90, 0, 0], [200, 0, 0, 2], [0, 65, *kern(0)], [0, 66, 0, 67], [128, 90, 1, 67], [130, 0, 0, 1], [skip, 0, 0, named]]
    return font([65, 66, 67, 90], {65: 1, 66: 5, 67: 2}, steps, [ONE], 6)


def full():
    """A font with all 256 characters, each of which has a program, and one with none."""
    steps = [[128, code, *kern(0)] for code in range(256)]
    return font(list(range(256)), {code: code for code in range(256)}, steps, [ONE], 5)


def empty():
    counts = [6 + 2 + 4 + 1, 2, 1, 0, 1, 1, 1, 1, 0, 0, 0, 1]
    return struct.pack('>12H', *counts) + struct.pack('>Ii5i', 7, 2 * ONE, 0, 0, 0, 0, -1)


def main():
    folder = Path(sys.argv[1])
    plain = (folder / 'cmr10.tfm').read_bytes()
    fonts = {'kinds.tfm': every_kind(), 'endless.tfm': endless(), 'kerns.tfm': many_kerns(), 'edges.tfm': edges(255, 1),
             'inner.tfm': edges(254, 2)}
    for k in range(6):
        fonts[f'drawn{k}.tfm'] = drawn(100 + k)
    # bytes behind the last word count for nothing, and so do those of a word that is not whole
    fonts |= {'full.tfm': full(), 'empty.tfm': empty(), 'padded.tfm': plain + bytes(5), 'short.tfm': plain[:463],
              'tiny.tfm': plain[:23], 'none.tfm': b''}
    for name, data in fonts.items():
        (folder / name).write_bytes(data)


main()
