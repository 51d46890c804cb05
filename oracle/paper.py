#!/usr/bin/env python3
"""Says what lb_tests_paper has to print: reads its commands from standard input, and the fonts from
the folder that is given (crates/lb_tests_paper/data). Written from the rules alone, and slow: whole
lists are rewritten, files are read rule by rule, and numbers are exact."""
import copy
import sys
from pathlib import Path

LIMIT = 2 ** 30
MASK = 2 ** 64 - 1


# ---- numbers: TeX's own loops (tex.web, sections 102, 103 and 108)

def badness(give, total):
    if give == 0:
        return 0
    if total <= 0:
        return 10000
    if give <= 7230584:
        ratio = give * 297 // total
    elif total >= 1663497:
        ratio = give // (total // 297)
    else:
        ratio = give
    return 10000 if ratio > 1290 else (ratio ** 3 + 131072) // 262144


def scaled_text(size):
    text = '-' if size < 0 else ''
    size = abs(size)
    text += str(size // 65536) + '.'
    size = 10 * (size % 65536) + 5
    delta = 10
    while True:
        if delta > 65536:
            size -= 17232
        text += str(size // 65536)
        size = 10 * (size % 65536)
        delta *= 10
        if size <= delta:
            return text


def decimals(digits):
    twice = 0
    for digit in reversed(digits[:17]):
        twice = (twice + 131072 * int(digit)) // 10
    return (twice + 1) // 2


# ---- fonts (the TFM format)

class Bad(Exception):
    """A rule of the format is broken at a word."""


COUNTS = 'lf lh bc ec nw nh nd ni nl nk ne np'.split()


class Font:
    def __init__(self, data, size):
        self.size = size
        words = [data[k:k + 4] for k in range(0, len(data) - 3, 4)]
        if len(words) < 6:
            raise Bad(1, len(words))
        for k in range(6):
            if words[k][0] >= 128 or words[k][2] >= 128:
                raise Bad(2, k)
        halves = [256 * w[k] + w[k + 1] for w in words[:6] for k in (0, 2)]
        self.__dict__.update(zip(COUNTS, halves))
        self.rule_three()
        if len(words) < self.lf:
            raise Bad(4, len(words))
        if words[7][0] >= 128 or int.from_bytes(words[7], 'big') // 16 < 65536:
            raise Bad(5, 7)
        self.check = int.from_bytes(words[6], 'big')
        self.design = int.from_bytes(words[7], 'big') // 16
        place = 6 + self.lh
        sections = {}
        for name, length in [('infos', self.ec - self.bc + 1), ('widths', self.nw), ('heights', self.nh),
                             ('depths', self.nd), ('italics', self.ni), ('steps', self.nl), ('kerns', self.nk),
                             ('extensibles', self.ne), ('parameters', self.np)]:
            sections[name] = [(place + k, words[place + k]) for k in range(length)]
            place += length
        self.sections = sections
        self.infos = {self.bc + k: info for k, (_, info) in enumerate(sections['infos'])}
        self.steps = [step for _, step in sections['steps']]
        self.rule_six()
        self.rule_seven()
        self.rule_eight()
        for word, fix in sections['kerns'] + sections['parameters'][1:]:
            if fix[0] not in (0, 255):
                raise Bad(9, word)

    def rule_three(self):
        if self.lh < 2:
            raise Bad(3, 0)
        if self.bc > self.ec + 1 or self.ec > 255:
            raise Bad(3, 1)
        if self.nw < 1 or self.nh < 1:
            raise Bad(3, 2)
        if self.nd < 1 or self.ni < 1:
            raise Bad(3, 3)
        total = 6 + self.lh + (self.ec - self.bc + 1) + self.nw + self.nh + self.nd + self.ni
        if self.lf != total + self.nl + self.nk + self.ne + self.np:
            raise Bad(3, 0)

    def rule_six(self):
        for word, (width, sizes, rest, remainder) in self.sections['infos']:
            if width >= self.nw or sizes >> 4 >= self.nh or sizes & 15 >= self.nd or rest >> 2 >= self.ni:
                raise Bad(6, word)
            if rest & 3 == 1 and remainder >= self.nl:
                raise Bad(6, word)

    def rule_seven(self):
        for name in ('widths', 'heights', 'depths', 'italics'):
            for k, (word, fix) in enumerate(self.sections[name]):
                if fix[0] not in (0, 255) or (k == 0 and fix != bytes(4)):
                    raise Bad(7, word)

    def rule_eight(self):
        for place, (word, (skip, _, op, remainder)) in enumerate(self.sections['steps']):
            if skip > 128:
                if 256 * op + remainder >= self.nl:
                    raise Bad(8, word)
                continue
            if op < 128 and not self.exists(remainder):
                raise Bad(8, word)
            if op >= 128 and 256 * (op - 128) + remainder >= self.nk:
                raise Bad(8, word)
            if skip < 128 and place + skip + 1 >= self.nl:
                raise Bad(8, word)

    def exists(self, code):
        return code in self.infos and self.infos[code][0] != 0

    def length(self, fix):
        a, b, c, d = fix
        z, alpha = self.size, 16
        while z >= 2 ** 23:
            z //= 2
            alpha *= 2
        beta = 256 // alpha
        value = ((d * z // 256 + c * z) // 256 + b * z) // beta
        return value - alpha * z if a == 255 else value

    def parameters(self):
        all_seven = [0] * 7
        for k, (_, fix) in enumerate(self.sections['parameters'][:7]):
            all_seven[k] = self.length(fix) if k else int.from_bytes(fix, 'big', signed=True) // 16
        return all_seven

    def metrics(self, code):
        if not self.exists(code):
            return None
        width, sizes, rest, _ = self.infos[code]
        places = [('widths', width), ('heights', sizes >> 4), ('depths', sizes & 15), ('italics', rest >> 2)]
        return [self.length(self.sections[name][k][1]) for name, k in places]

    def first_step(self, left):
        """Where the program of a side begins."""
        if left == EDGE:
            if self.steps and self.steps[-1][0] == 255:
                return 256 * self.steps[-1][2] + self.steps[-1][3]
            return None
        if not self.exists(left) or self.infos[left][2] & 3 != 1:
            return None
        start = self.infos[left][3]
        skip, _, op, remainder = self.steps[start]
        return 256 * op + remainder if skip > 128 else start

    def step(self, left, right):
        """None, ('kern', width) or ('lig', code, keep_left, keep_right, pass)."""
        place = self.first_step(left)
        if place is None:
            return None
        if right == EDGE:
            if self.steps[0][0] != 255:
                return None
            right = self.steps[0][1]
        while True:
            skip, following, op, remainder = self.steps[place]
            if skip > 128:
                return None
            if following == right:
                break
            if skip == 128:
                return None
            place += skip + 1
        if op >= 128:
            return ('kern', self.length(self.sections['kerns'][256 * (op - 128) + remainder][1]))
        if op not in (0, 1, 2, 3, 5, 6, 7, 11):
            op = 0
        return ('lig', remainder, op >> 1 & 1, op & 1, op >> 2)


EDGE = 256


def mixed(digest, number):
    return (digest * 31 + number) & MASK


def show_font(font):
    codes = [code for code in range(256) if font.exists(code)]
    digest = 0
    for code in codes:
        for length in font.metrics(code):
            digest = mixed(digest, length)
    pairs = 0
    for left in codes + [EDGE]:
        for right in codes + [EDGE]:
            step = font.step(left, right)
            if step is None:
                pairs = mixed(pairs, 1)
            elif step[0] == 'kern':
                pairs = mixed(mixed(pairs, 2), step[1])
            else:
                _, code, keep_left, keep_right, passed = step
                for number in (keep_left, keep_right, code, passed):
                    pairs = mixed(pairs, number)
    parameters = ' '.join(map(str, font.parameters()))
    return (f'font at {font.size} check {font.check} design {font.design} parameters {parameters} '
            f'characters {len(codes)} metrics {digest} pairs {pairs}')


def show_pairs(font):
    lines = []
    for left in range(257):
        for right in range(257):
            step = font.step(left, right)
            if step is None:
                continue
            if step[0] == 'kern':
                lines.append(f'{left} {right} kern {step[1]}')
            else:
                _, code, keep_left, keep_right, passed = step
                flags = f'{bool(keep_left)} {bool(keep_right)}'.lower()
                lines.append(f'{left} {right} lig {code} {flags} {passed}')
    return lines + ['no more pairs']


# ---- words: the whole list is rewritten (The TeXbook, appendix F)

class StepLimit(Exception):
    pass


def set_word(font, steps, codes):
    """The nodes of a word, as texts, and the steps left."""
    if not codes:
        return [], steps
    items = [('edge',)] + [('letter', code) for code in codes] + [('edge',)]
    cursor = 0

    def side(item):
        return EDGE if item[0] == 'edge' else item[1]

    def letters(item):
        return {'edge': [], 'letter': list(item[1:2]), 'lig': list(item[2]) if item[0] == 'lig' else []}[item[0]]

    while cursor + 1 < len(items):
        left, right = items[cursor], items[cursor + 1]
        step = font.step(side(left), side(right))
        if step is None:
            cursor += 1
            continue
        if steps == 0:
            raise StepLimit
        steps -= 1
        if step[0] == 'kern':
            items.insert(cursor + 1, ('kern', step[1]))
            cursor += 2
            continue
        _, code, keep_left, keep_right, passed = step
        gone = ([] if keep_left else letters(left)) + ([] if keep_right else letters(right))
        put = ([left] if keep_left else []) + [('lig', code, gone)] + ([right] if keep_right else [])
        items[cursor:cursor + 2] = put
        cursor += passed
    return [node for item in items for node in shown_item(font, item)], steps


def shown_item(font, item):
    if item[0] == 'edge':
        return []
    if item[0] == 'kern':
        return [f'fontkern {item[1]}']
    width = font.metrics(item[1])[0]
    if item[0] == 'letter':
        return [f'char {item[1]} wide {width}'] + (['disc 0 0 0'] if item[1] == 45 else [])
    ends = item[2][-1:] == [45]
    return [f'lig {item[1]} wide {width} for ' + str(item[2])] + (['disc 0 0 0'] if ends else [])


def toward_zero(n, d):
    return n // d if n >= 0 else -(-n // d)


def space(font, factor):
    _, width, stretch, shrink, _, _, extra = font.parameters()
    lengths = [width + (extra if factor >= 2000 else 0), toward_zero(stretch * factor, 1000),
               toward_zero(shrink * 1000, factor)]
    if any(abs(length) >= LIMIT for length in lengths):
        return 'fault DimenTooLarge'
    return 'glue {} plus {} minus {} finite true'.format(*lengths)


# ---- boxes (The TeXbook, chapter 12)

class Node:
    """A node: its kind, its numbers, and the nodes inside it (one list, or three of a discretionary)."""

    def __init__(self, kind, **fields):
        self.kind = kind
        self.width = self.height = self.depth = self.shift = 0
        self.inside = []
        self.__dict__.update(fields)


def nesting(node):
    own = 1 if node.kind in ('hbox', 'vbox') else 0
    return own + max([nesting(inner) for inner in node.inside] or [0])


def same(one, other):
    """Whether two nodes have the same value: of a box, its items, size, shift and the set of its glue."""
    def own(node):
        return {name: field for name, field in node.__dict__.items() if name not in ('inside', 'parts', 'shifts')}

    def lists(node):
        return getattr(node, 'parts', [node.inside])

    return own(one) == own(other) and all(
        len(left) == len(right) and all(same(a, b) for a, b in zip(left, right))
        for left, right in zip(lists(one), lists(other)))


def flattened(nodes):
    flat = []
    for node in nodes:
        flat += flattened(node.parts[2]) if node.kind == 'disc' else [node]
    return flat


SPACES = ('kern', 'fontkern', 'glue')
SOLID = ('char', 'rule', 'hbox', 'vbox')


def natural(axis, nodes):
    size, hanging = 0, 0
    for node in nodes:
        if axis == 'hbox':
            size += node.width
        elif node.kind in SPACES:
            size += hanging + node.width
            hanging = 0
        elif node.kind in SOLID:
            size += hanging + node.height
            hanging = node.depth
    return size, hanging


def rounded(n, d):
    """The quotient to the nearest whole number, halves away from 0."""
    sign = -1 if (n < 0) != (d < 0) else 1
    whole, rest = divmod(abs(n), abs(d))
    return sign * (whole + (1 if 2 * rest >= abs(d) else 0))


def amounts(nodes, kind):
    sums = [0, 0, 0, 0]
    for node in nodes:
        if node.kind == 'glue':
            amount, order = getattr(node, kind)
            sums[order] += amount
    return sums


def pack(axis, nodes, target, size):
    """A box, the order that is used and the shift through each item, or the name of a fault."""
    nodes = flattened(nodes)
    prefixes = [nodes[:k] for k in range(len(nodes) + 1)]
    sums = [natural(axis, prefix)[0] for prefix in prefixes]
    for prefix in prefixes:
        sums += amounts(prefix, 'stretch') + amounts(prefix, 'shrink')
    along, hanging = natural(axis, nodes)
    asked = {'natural': along, 'to': size, 'spread': along + size}[target]
    excess = asked - along
    if axis == 'hbox':
        height = max([0] + [node.height - node.shift for node in nodes if node.kind in SOLID])
        depth = max([0] + [node.depth + node.shift for node in nodes if node.kind in SOLID])
        box = Node(axis, width=asked, height=height, depth=depth, inside=nodes)
        sums += [height, depth]
    else:
        width = max([0] + [node.width + node.shift for node in nodes if node.kind in SOLID])
        box = Node(axis, width=width, height=asked, depth=hanging, inside=nodes)
        sums += [width]
    kind = 'shrink' if excess < 0 else 'stretch'
    totals = amounts(nodes, kind)
    used = max([order for order in range(4) if totals[order] != 0] or [0]) if excess else 0
    total = totals[used]
    shifts = []
    for prefix in prefixes[1:]:
        part = amounts(prefix, kind)[used]
        if excess == 0 or total == 0:
            shifts.append(0)
        elif kind == 'shrink' and used == 0 and -excess > total:
            shifts.append(-part)
        else:
            shifts.append(rounded(part * excess, total))
    sums += [asked, excess] + shifts
    if any(abs(one) >= LIMIT for one in sums):
        return 'DimenTooLarge'
    if nesting(box) > 500:
        return 'DepthLimit'
    box.excess, box.used, box.shifts = excess, used, shifts
    return box


def show_box(box):
    text = (f'{box.kind} {box.width} {box.height} {box.depth} down {box.shift} '
            f'excess {box.excess} order {box.used} items {len(box.inside)}')
    if len(box.inside) > 64:
        return text + f' last {box.shifts[-1]}'
    shifts = ''.join(f' {shift}' for shift in box.shifts)
    return text + ' at' + shifts + ' going' + shifts


# ---- fonts that are made

class TooManyWidths(Exception):
    """A description has more than 255 distinct widths."""


def fix(number):
    return (number % 2 ** 32).to_bytes(4, 'big')


def made_font(check, design, height, depth, parameters, rows, pairs):
    """The file of a font: rows are codes with widths, and pairs are left, right, op and rem."""
    widths = list(dict.fromkeys(width for _, width in rows))
    if len(widths) > 255:
        raise TooManyWidths
    lefts = sorted({left for left, _, _, _ in pairs})
    programs, starts = [], []
    for left in lefts:
        starts.append(len(lefts) + len(programs))
        own = [pair for pair in pairs if pair[0] == left]
        programs += [bytes([128 if k == len(own) - 1 else 0, *pair[1:]]) for k, pair in enumerate(own)]
    steps = [bytes([254, 0, start // 256, start % 256]) for start in starts] + programs
    first, last = rows[0][0], rows[-1][0]
    infos = []
    for code in range(first, last + 1):
        if code not in dict(rows):
            infos.append(bytes(4))
        else:
            tag = [1, lefts.index(code)] if code in lefts else [0, 0]
            infos.append(bytes([1 + widths.index(dict(rows)[code]), 17, *tag]))
    body = [fix(check), fix(design), *infos, fix(0), *map(fix, widths), fix(0), fix(height), fix(0), fix(depth), fix(0),
            *steps, *map(fix, parameters)]
    counts = [6 + len(body), 2, first, last, 1 + len(widths), 2, 2, 1, len(steps), 0, 0, 7]
    return b''.join(count.to_bytes(2, 'big') for count in counts) + b''.join(body)


def may_be_made(rows, pairs):
    codes = [code for code, _ in rows]
    return bool(codes) and all(left in codes and rem in codes and op < 128 for left, _, op, rem in pairs)


# ---- commands

class Desk:
    def __init__(self, folder):
        self.folder, self.data, self.font, self.list = Path(folder), b'', None, []

    def try_font(self, data, size, keep):
        try:
            font = Font(data, size)
        except Bad as bad:
            font, text = None, 'rule {} is broken at word {}'.format(*bad.args)
        else:
            text = show_font(font)
        if keep:
            self.font = font
        return [text]

    def take(self, count):
        if count > len(self.list):
            raise ValueError('too few nodes')
        taken = self.list[len(self.list) - count:]
        del self.list[len(self.list) - count:]
        return taken

    def packed(self, axis, nodes, target, size):
        box = pack(axis, nodes, target, size)
        if isinstance(box, str):
            return [f'fault {box}']
        self.list.append(box)
        return [show_box(box)]

    def nest(self, times):
        for _ in range(times):
            box = pack('hbox', self.take(len(self.list)), 'natural', 0)
            if isinstance(box, str):
                return [f'fault {box}']
            self.list.append(box)
        self.list = []
        return [f'{times} times, and the copy is the same: true']

    def word(self, steps, codes):
        lacking = [code for code in codes if not self.font.exists(code)]
        start = ''.join(f'lacks {code} ' for code in lacking)
        try:
            nodes, left = set_word(self.font, steps, [code for code in codes if code not in lacking])
        except StepLimit:
            return [start + 'fault StepLimit']
        return [start + ''.join(node + ', ' for node in nodes) + f'steps left {left}']

    def run(self, name, *words):
        method = getattr(self, 'do_' + name)
        return method(*words) or []

    def do_badness(self, give, total):
        return [f'badness of {give} by {total}: {badness(int(give), int(total))}']

    def do_scaled(self, size):
        return [f'{size}sp is {scaled_text(int(size))}pt']

    def do_decimals(self, digits=''):
        return [f'0.{digits}pt is {decimals(digits)}sp']

    def do_open(self, file):
        self.data = (self.folder / file).read_bytes()
        return [f'{file}: {len(self.data)} bytes']

    def do_read(self, size):
        return self.try_font(self.data, int(size), True)

    def do_cut(self, words, size):
        return self.try_font(self.data[:4 * int(words)], int(size), False)

    def do_flip(self, place, mask, size):
        data = bytearray(self.data)
        data[int(place)] ^= int(mask)
        return self.try_font(bytes(data), int(size), False)

    def do_spoil(self, place, mask):
        data = bytearray(self.data)
        if int(place) < len(data):
            data[int(place)] ^= int(mask)
        self.data = bytes(data)

    def do_metrics(self, code):
        found = self.font.metrics(int(code))
        if found is None:
            return [f'{code} is missing']
        return ['{} is {} wide, {} high, {} deep, with {}'.format(code, *found)]

    def do_make(self, *words):
        if words:
            count, widths, *numbers = map(int, words)
            rows = [(code, (code % widths - 1) * 4099) for code in range(min(count, 256))]
            pairs = [tuple(numbers[k:k + 4]) for k in range(0, len(numbers) - 3, 4)]
            about = 3000000000, 10485760, 786432, -262144, [-5, 314573, 104858, -104858, 16777215, -16777215, 0]
        else:
            rows, pairs = [(code, 524288) for code in range(33, 127)], []
            about = 0, 10485760, 786432, 262144, [0, 314573, 104858, 104858, 524288, 1048576, 104858]
            if made_font(*about, rows, pairs) != (self.folder / 'cmr10.tfm').read_bytes():
                raise ValueError('the test font is another one')
        if not may_be_made(rows, pairs):
            return ['such a font is not to be made']
        try:
            self.data = made_font(*about, rows, pairs)
        except TooManyWidths:
            return ['fault TooManyWidths']
        digest = 0
        for byte in self.data:
            digest = (digest * 31 + byte) & MASK
        return [f'made {len(self.data)} bytes of {digest}']

    def do_pairs(self):
        return show_pairs(self.font)

    def do_word(self, steps, *codes):
        return self.word(int(steps), [int(code) for code in codes])

    def do_words(self, times, *codes):
        nodes, left = set_word(self.font, 10 ** 6, [int(code) for code in codes])
        return [f'{int(times) * (len(nodes) + 1)} nodes in {int(times) * (10 ** 6 - left)} steps']

    def do_space(self, factor):
        return [space(self.font, int(factor))]

    def do_char(self, code, width, height, depth):
        self.list.append(Node('char', code=code, width=int(width), height=int(height), depth=int(depth)))

    def do_kern(self, width):
        self.list.append(Node('kern', width=int(width)))

    def do_fontkern(self, width):
        self.list.append(Node('fontkern', width=int(width)))

    def do_glue(self, width, stretch, stretch_order, shrink, shrink_order):
        self.list.append(Node('glue', width=int(width), stretch=(int(stretch), int(stretch_order)),
                              shrink=(int(shrink), int(shrink_order))))

    def do_rule(self, *sizes):
        width, height, depth = (0 if size == 'x' else int(size) for size in sizes)
        self.list.append(Node('rule', given=sizes, width=width, height=height, depth=depth))

    def do_penalty(self, penalty):
        self.list.append(Node('penalty', penalty=penalty))

    def do_note(self):
        self.list.append(Node('note'))

    def do_disc(self, *counts):
        parts = [self.take(int(count)) for count in reversed(counts)][::-1]
        self.list.append(Node('disc', parts=parts, inside=[node for part in parts for node in part]))

    def do_adjust(self, count):
        self.list.append(Node('adjust', inside=self.take(int(count))))

    def do_lower(self, shift):
        self.list[-1] = copy.copy(self.list[-1])
        self.list[-1].shift = int(shift)

    def do_ins(self):
        self.list.append(Node('ins', inside=self.take(1)))

    def do_right(self):
        self.list.append(Node('right', inside=self.take(1)))

    def do_both(self):
        self.list.append(Node('both', inside=self.take(2)))

    def do_same(self):
        return [f'the same: {same(*self.take(2))}'.lower()]

    def do_many(self, count):
        self.list += [self.list[-1]] * int(count)

    def do_clear(self):
        self.list = []

    def do_hpack(self, count, target, size):
        return self.packed('hbox', self.take(int(count)), target, int(size))

    def do_vpack(self, count, target, size):
        return self.packed('vbox', self.take(int(count)), target, int(size))

    def do_nest(self, count):
        return self.nest(int(count))


def main():
    from paper_marks import Marks
    sys.setrecursionlimit(10000)
    desk = type('Whole', (Marks, Desk), {})(sys.argv[1])
    for line in sys.stdin:
        for answer in desk.run(*line.split()):
            print(answer)


if __name__ == '__main__':
    main()
