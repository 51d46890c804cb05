#!/usr/bin/env python3
"""Makes the commands of lb_tests_paper, its standard input. They are the same each time. The folder
with the fonts is given, since words are set with exactly the steps that they need, and with one
less."""
import random
import sys
from pathlib import Path

from paper import Font, StepLimit, set_word

draw = random.Random(20)
SIZES = [1, 2, 655360, 2 ** 23 - 1, 2 ** 23, 2 ** 23 + 1, 2 ** 24 - 1, 2 ** 24, 2 ** 24 + 1, 2 ** 25 - 1, 2 ** 25,
         2 ** 25 + 3, 2 ** 26 - 1, 2 ** 26, 2 ** 26 + 1, 2 ** 27 - 2, 2 ** 27 - 1, 12345677, 99999999]
FONTS = ['kinds', 'endless', 'edges', 'inner', 'drawn0', 'drawn1', 'drawn2', 'drawn3', 'drawn4', 'drawn5']
HALF = 2 ** 30


def say(*words):
    print(*words)


def arithmetic():
    for give in (0, 1, 7230583, 7230584, 7230585, 2 ** 30 - 1, 2 ** 31, 2 ** 62):
        for total in (-2 ** 63, -1, 0, 1, 296, 297, 1663496, 1663497, 7230584, 7230585, 2 ** 30 - 1, 2 ** 63 - 1):
            say('badness', give, total)
    for _ in range(200):
        give = draw.randrange(1, 2 ** draw.randrange(1, 63))
        say('badness', give, max(1, int(give * draw.choice([0.2, 0.22, 0.227, 0.23, 0.25, 0.5, 0.9, 1, 3, 10]))))
    for size in [0, 1, -1, 4661699, 65535, 65536, 65537, -65536, 2 ** 30 - 1, -2 ** 30, 2 ** 31 - 1, -2 ** 31 + 1]:
        say('scaled', size)
    for _ in range(200):
        say('scaled', draw.randrange(-2 ** draw.randrange(1, 32) + 1, 2 ** draw.randrange(1, 32)))
    say('decimals')
    for digits in ['0', '9', '99999', '9' * 17, '9' * 18, '5', '50', '00000762939453125', '000007629394531249', '0' * 16 + '9',
                   '0' * 17 + '9', '999992370605468', '99999237060546875', '99999237060546874', '1' * 30]:
        say('decimals', digits)
    for _ in range(200):
        say('decimals', ''.join(draw.choice('0123456789') for _ in range(draw.randrange(1, 21))))


def flips(length, places, size):
    for place in places:
        if place < length:
            for mask in (128, 1, 255):
                say('flip', place, mask, size)


def fonts():
    say('open', 'cmr10.tfm')
    for words in range(117):
        say('cut', words, 655360)
    flips(464, range(32), 655360)
    for size in SIZES:
        say('read', size)
        say('metrics', 72)
        say('metrics', 32)
    for name in FONTS:
        say('open', name + '.tfm')
        for size in SIZES:
            say('read', size)
        say('read', 655360)
        for code in (45, 65, 66, 75, 90, 200):
            say('metrics', code)
        if name in ('kinds', 'endless', 'drawn0'):
            say('pairs')
        length = (Path(sys.argv[1]) / (name + '.tfm')).stat().st_size
        flips(length, range(24), 655360) if name == 'kinds' else None
        for _ in range(60):
            say('flip', draw.randrange(length), draw.choice([1, 2, 4, 8, 16, 32, 64, 128, 255]), draw.choice(SIZES))
    for name in ('kerns', 'full'):
        say('open', name + '.tfm')
        say('read', 655360)
        say('pairs')
    for name in ('empty', 'padded', 'short', 'tiny', 'none'):
        say('open', name + '.tfm')
        say('read', 655360)
    spoilt()
    for name in ('cmr10', 'kinds'):
        limits(name)
    headers()


def spoilt():
    """Fonts with several bytes changed, so that more rules than one are broken."""
    for name in ('kinds', 'drawn0', 'cmr10'):
        for _ in range(40):
            say('open', name + '.tfm')
            for _ in range(draw.randrange(2, 5)):
                say('spoil', draw.randrange(draw.choice([32, 404])), draw.choice([1, 2, 16, 128, 255]))
            say('read', draw.choice(SIZES))


def put(name, bytes_there):
    """Reads a font with these bytes at these places."""
    data = (Path(sys.argv[1]) / (name + '.tfm')).read_bytes()
    say('open', name + '.tfm')
    for place, byte in bytes_there.items():
        if data[place] != byte:
            say('spoil', place, data[place] ^ byte)
    say('read', 655360)


def limits(name):
    """Indices and places that are just within what they lead to, and just outside."""
    font = Font((Path(sys.argv[1]) / (name + '.tfm')).read_bytes(), 655360)
    infos = [4 * word for word, _ in font.sections['infos']]
    steps = [4 * word for word, _ in font.sections['steps']]
    for info in (infos[0], infos[len(infos) // 2], infos[-1]):
        for less in (0, 1):
            put(name, {info: font.nw - less})
            put(name, {info + 1: (font.nh - less) % 16 * 16})
            put(name, {info + 1: (font.nd - less) % 16})
            put(name, {info + 2: (font.ni - less) % 64 * 4})
            if font.nl:
                put(name, {info: 1, info + 2: 1, info + 3: font.nl - less})
    for step in steps:
        place = steps.index(step)
        for skip in (font.nl - place - 1, font.nl - place - 2, 127, 128):
            if 0 <= skip <= 128:
                put(name, {step: skip, step + 2: 0, step + 3: font.bc})
        put(name, {step: 128, step + 2: 127, step + 3: font.bc - 1})
        for less in (0, 1):
            named = font.nl - less
            put(name, {step: 129, step + 2: named // 256, step + 3: named % 256})
            if font.nk:
                index = font.nk - less
                put(name, {step: 128, step + 2: 128 + index // 256, step + 3: index % 256})
    for section in ('widths', 'heights', 'depths', 'italics', 'kerns', 'parameters'):
        for word, _ in font.sections[section][:2] + font.sections[section][-1:]:
            for byte in (0, 1, 254, 255):
                put(name, {4 * word: byte})
            put(name, {4 * word: 255, 4 * word + 1: 255})


def headers():
    """Design sizes about a point, and counts that go together."""
    for design in (0, 15, 2 ** 20 - 1, 2 ** 20, 2 ** 20 + 1, 2 ** 31 - 1, 2 ** 31):
        put('cmr10', dict(zip(range(28, 32), design.to_bytes(4, 'big'))))
    # bc and ec: none, one more than none, and too far apart
    for first, last in ((1, 0), (0, 0), (2, 0), (0, 255), (0, 256), (127, 126), (128, 126)):
        put('cmr10', {4: first // 256, 5: first % 256, 6: last // 256, 7: last % 256})
    # a section that is one shorter, and the next one longer
    for place in range(3, 23, 2):
        data = (Path(sys.argv[1]) / 'kinds.tfm').read_bytes()
        put('kinds', {place: data[place] - 1, place + 2: data[place + 2] + 1} if data[place] else {})
        put('kinds', {place: data[place] + 1, place + 2: data[place + 2] - 1} if data[place + 2] else {})


def small(bits):
    return draw.randrange(-2 ** bits + 1, 2 ** bits)


def node(bits, orders):
    """Pushes a node that takes nothing from the list."""
    kind = draw.choice(['char', 'kern', 'fontkern', 'glue', 'glue', 'glue', 'glue', 'rule', 'penalty', 'note'])
    if kind == 'char':
        say('char', draw.randrange(256), small(bits), small(bits), small(bits))
    elif kind in ('kern', 'fontkern'):
        say(kind, small(bits))
    elif kind == 'glue':
        say('glue', small(bits), small(bits), draw.choice(orders), small(bits), draw.choice(orders))
    elif kind == 'rule':
        say('rule', *(draw.choice(['x', small(bits)]) for _ in range(3)))
    elif kind == 'penalty':
        say('penalty', small(14))
    else:
        say('note')


def target(bits):
    return draw.choice([('natural', 0), ('to', small(bits + 2)), ('to', small(bits + 2)), ('spread', small(bits + 1)),
                        ('spread', small(bits + 1))])


def random_list(bits, orders):
    """Pushes some nodes, those that take others from the list too."""
    count = 0
    for _ in range(draw.randrange(0, 9)):
        kind = draw.choice(['one', 'one', 'one', 'one', 'disc', 'box', 'adjust', 'ins', 'mark'])
        if kind == 'one':
            node(bits, orders)
        elif kind == 'disc':
            parts = [draw.randrange(3) for _ in range(3)]
            for _ in range(sum(parts)):
                node(bits, orders)
            if draw.random() < 0.4:
                say('disc', *parts)
                node(bits, orders)
                say('disc', 0, 0, 2)
            else:
                say('disc', *parts)
        elif kind == 'adjust':
            node(bits, orders)
            node(bits, orders)
            say('adjust', 2)
        else:
            for _ in range(3):
                say('rule', *(abs(small(bits)) for _ in range(3)))
            say(draw.choice(['hpack', 'vpack']), 3, 'natural', 0)
            if kind == 'box' and draw.random() < 0.7:
                say('lower', small(bits))
            elif kind in ('ins', 'mark'):
                say('ins' if kind == 'ins' else 'right')
        count += 1
    return count


def boxes():
    say('clear')
    for _ in range(3):
        say('glue', 0, 1, 0, 0, 0)
    say('hpack', 3, 'spread', 2)
    for _ in range(220):
        say('clear')
        bits = draw.choice([3, 8, 16, 24, 26])
        orders = draw.choice([[0], [0], [0, 1], [0, 1, 2, 3], [2, 3]])
        count = random_list(bits, orders)
        say(draw.choice(['hpack', 'vpack']), count, *target(bits))
    fits()
    edges()
    nests()
    equalities()


def fits():
    """Glue that fits, is overfull, or has nothing to give, of each order."""
    for pack in ('hpack', 'vpack'):
        for stretch, shrink in ((0, 0), (10, 10), (-10, -10), (7, 3)):
            for order in range(4):
                for size in (-31, -30, -29, -7, -1, 0, 1, 7, 29, 30, 31, 200):
                    say('clear')
                    for _ in range(3):
                        say('glue', 5, stretch, order, shrink, order)
                    say(pack, 3, 'spread', size)
    # amounts that cancel, so that a lower order is used
    for order in (1, 2, 3):
        say('clear')
        say('glue', 0, 10, 0, 10, 0)
        say('glue', 0, 5, order, 5, order)
        say('glue', 0, -5, order, -5, order)
        say('hpack', 3, 'spread', 7)
        say('clear')
        say('glue', 0, 10, 0, 10, 0)
        say('glue', 0, 5, order, 5, order)
        say('glue', 0, -5, order, -5, order)
        say('hpack', 3, 'spread', -20)


def edges():
    """Sums of 2^30 - 1 and of 2^30 scaled points, of each kind."""
    for sign in (1, -1):
        for more in (-1, 0, 1):
            size = sign * (HALF + more)
            for pack in ('hpack', 'vpack'):
                for wide in (('kern', size), ('rule', size, 0, 0), ('rule', 0, size, 0), ('rule', 0, 0, size),
                             ('char', 1, size, 0, 0), ('char', 1, 0, size, 0), ('char', 1, 0, 0, size),
                             ('glue', size, 0, 0, 0, 0), ('glue', 0, size, 0, 0, 0), ('glue', 0, 0, 0, size, 0),
                             ('glue', 0, size, 3, 0, 0), ('glue', 0, 0, 0, size, 2)):
                    say('clear')
                    say(*wide)
                    say(pack, 1, 'natural', 0)
                say('clear')
                say(pack, 0, 'to', size)
                say('clear')
                say(pack, 0, 'spread', size)
                # a sum that is too large and comes back, for some of the items
                say('clear')
                say('kern', size)
                say('kern', -size)
                say(pack, 2, 'natural', 0)
                # one that the last item makes too large
                say('clear')
                say('kern', size // 2)
                say('kern', size - size // 2)
                say(pack, 2, 'natural', 0)
                # what hangs below a list counts once something stands behind it
                say('clear')
                say('rule', 0, size // 2, size - size // 2)
                say('kern', 0)
                say(pack, 2, 'natural', 0)
                # the size that is asked for, where the natural size and the excess are small
                for target in (('to', size), ('spread', size - size // 2)):
                    say('clear')
                    say('kern', size // 2)
                    say(pack, 1, *target)
                # the excess
                say('clear')
                say('kern', size // 2)
                say(pack, 1, 'to', size // 2 - size)
                # a box that is moved
                say('clear')
                say('rule', 3, 4, 5)
                say('hpack', 1, 'natural', 0)
                say('lower', size)
                say(pack, 1, 'natural', 0)
                # shifts that are too large
                say('clear')
                say('glue', 0, HALF // 2, 0, HALF // 2, 0)
                say('glue', 0, -HALF // 2 + 1, 0, -HALF // 2 + 1, 0)
                say(pack, 2, 'spread', sign * (1 + more))
                say('clear')
                say('glue', 0, HALF // 2, 0, HALF // 2, 0)
                say('glue', 0, -HALF // 2 + 1, 0, -HALF // 2 + 1, 0)
                say(pack, 2, 'spread', sign * 2 * (2 + more))
    # shifts of exactly 2^30 - 1, 2^30 and halves
    for more in (-1, 0, 1):
        for sign in (1, -1):
            for amount in (1, 2, -1, -2):
                say('clear')
                say('glue', 0, HALF - 1, 1, HALF - 1, 1)
                say('glue', 0, amount - HALF + 1 if amount > 0 else amount - HALF + 3, 1, amount - HALF + 1 if amount > 0 else amount - HALF + 3, 1)
                say('hpack', 2, 'spread', sign * (abs(amount) + more))


def nests():
    for times in (1, 2, 499, 500, 501, 600):
        for start in ((), ('rule', 1, 2, 3)):
            say('clear')
            if start:
                say(*start)
            say('nest', times)
    # a box inside a list, a footnote, a mark and vertical material counts as well
    for inner in ('ins', 'right', 'adjust 1', 'disc 0 0 1', 'disc 1 0 0'):
        for times in (498, 499, 500):
            say('clear')
            say('rule', 1, 2, 3)
            say('hpack', 1, 'natural', 0)
            say(*inner.split())
            say('nest', times)
    # both marks, and a list that is too large and too deep
    say('clear')
    say('hpack', 0, 'natural', 0)
    say('hpack', 0, 'natural', 0)
    say('both')
    say('nest', 499)
    say('clear')
    for _ in range(3):
        say('kern', 1)
    say('many', 97)
    say('hpack', 100, 'spread', 7)
    say('nest', 10)


def say_word(font, codes):
    """Commands with steps enough, with exactly enough, and with one too few."""
    try:
        _, left = set_word(font, 100, codes)
    except StepLimit:
        say('word', 100, *codes)
        return
    say('word', 100 - left, *codes)
    if left < 100:
        say('word', 99 - left, *codes)


def equalities():
    """Nodes beside one another, of the same form and with one number turned at most."""
    singles = [('char', [65, 1, 2, 3]), ('kern', [5]), ('fontkern', [5]), ('glue', [1, 2, 0, 3, 1]), ('rule', [1, 0, 0]),
               ('rule', ['x', 0, 0]), ('rule', [1, 'x', 'x']), ('penalty', [7])]
    wholes = [('hpack', 1, 'natural', 0), ('vpack', 1, 'natural', 0), ('hpack', 1, 'to', 9), ('disc', 0, 0, 1), ('disc', 0, 1, 0),
              ('disc', 1, 0, 0), ('adjust', 1)]
    boxed = [('lower', 0), ('lower', 4), ('ins',), ('right',)]
    for name, numbers in singles:
        for other, its_numbers in singles:
            say(name, *numbers)
            say(other, *its_numbers)
            say('same')
        for k, number in enumerate(numbers):
            if number != 'x':
                say(name, *numbers)
                say(name, *numbers[:k], (number + 1) % 4, *numbers[k + 1:])
                say('same')
    for one in wholes:
        for other in wholes:
            for last in (5, 6):
                say('kern', 5)
                say(*one)
                say('kern', last)
                say(*other)
                say('same')
    for one in boxed:
        for other in boxed:
            for last in (5, 6):
                for kern, make in ((5, one), (last, other)):
                    say('kern', kern)
                    say('hpack', 1, 'natural', 0)
                    say(*make)
                say('same')
    for kerns in ((1, 2, 1, 2), (1, 2, 2, 1), (1, 2, 1, 3)):
        for k in (0, 2):
            for kern in kerns[k:k + 2]:
                say('kern', kern)
                say('hpack', 1, 'natural', 0)
            say('both')
        say('same')
    # one list is the beginning of the other
    for counts in ((1, 2), (2, 1), (0, 1), (0, 0), (2, 2)):
        for count in counts:
            for _ in range(count):
                say('kern', 3)
            say('adjust', count)
        say('same')
    say('note')
    say('note')
    say('same')


def words():
    for name in FONTS:
        say('open', name + '.tfm')
        say('read', 655360)
        font = Font((Path(sys.argv[1]) / (name + '.tfm')).read_bytes(), 655360)
        codes = {'kinds': [45, *range(65, 76), 90], 'endless': [45, 65, 66], 'edges': [65, 66, 67, 90], 'inner': [65, 66, 67, 90]}.get(
            name, [45, 65, 66, 67, 68, 69])
        say('word', 9)
        for left in codes:
            say_word(font, [left])
            for right in codes:
                say_word(font, [left, right])
        for _ in range(80):
            say_word(font, [draw.choice(codes) for _ in range(draw.randrange(3, 14))])
        say('word', 50, 65, 200, 66)
        say('words', 3, 66, 65) if name == 'kinds' else None
    for name in ['cmr10', *FONTS]:
        for size in (1, 655360, 2 ** 26 - 1, 2 ** 27 - 1):
            say('open', name + '.tfm')
            say('read', size)
            for factor in (1, 2, 3, 7, 999, 1000, 1001, 1500, 1999, 2000, 2001, 3000, 8191, 32766, 32767):
                say('space', factor)


def made():
    """Fonts that are made, read at each size, with words of their ligatures."""
    say('make')
    for size in SIZES:
        say('read', size)
    for count, widths in ((0, 1), (1, 1), (1, 2), (2, 2), (3, 2), (254, 255), (255, 255), (256, 255), (256, 256), (256, 300),
                          (255, 256), (200, 7)):
        say('make', count, widths)
        say('read', 655360)
    say('make', 175, 9, 102, 105, 0, 174)
    say('read', 655360)
    for steps in (0, 1):
        say('word', steps, 102, 105)
    for step in ((65, 66, 128, 66), (200, 66, 0, 66), (65, 66, 0, 200)):
        say('make', 100, 3, *step)
    for count in (1, 2, 10, 60, 255, 256, 257, 1000):
        pairs = [draw.randrange(100) for _ in range(count) for _ in range(2)]
        steps = [n for k in range(count) for n in (pairs[2 * k], pairs[2 * k + 1], draw.randrange(128), draw.randrange(100))]
        say('make', 100, 11, *steps)
        say('read', draw.choice(SIZES))
        say('read', 655360)
        say('pairs') if count < 100 else None
    numbers = [n for left in range(256) for n in (left, left, left % 12, 255 - left)]
    say('make', 256, 200, *numbers)
    say('read', 655360)
    say('pairs')


def main():
    arithmetic()
    fonts()
    boxes()
    words()
    made()


main()
