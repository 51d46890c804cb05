"""Nodes, words, boxes and lines for engine.py. A box is packed in one pass over its items; engine_check.py compares it with paper.py."""
import copy

from expand import Fault
from paper import EDGE, LIMIT, SOLID, SPACES, Bad, Font, Node, amounts, flattened, rounded, toward_zero
from paper_marks import Font as FontName
from paper_paragraphs import Paragraph, between, items

MOST_BOXES = 500
MOST_ITEMS = 65536
BOXES = ('hbox', 'vbox')


# ---- nodes

def glue_node(glue):
    width, stretch, stretch_order, shrink, shrink_order = glue
    return Node('glue', width=width, stretch=(stretch, stretch_order), shrink=(shrink, shrink_order))


def fil():
    return glue_node((0, 65536, 1, 0, 0))


def kern(width):
    return Node('kern', width=width)


def penalty(number):
    return Node('penalty', penalty=number)


def rule(width, height, depth):
    """A rule; `x` for a size that runs to its box."""
    given = (width, height, depth)
    sizes = [0 if size == 'x' else size for size in given]
    return Node('rule', given=given, width=sizes[0], height=sizes[1], depth=sizes[2])


def discretionary(parts):
    return Node('disc', parts=parts, inside=[node for part in parts for node in part])


def lowered(node, shift):
    node = copy.copy(node)
    node.shift = shift
    return node


# ---- fonts

FONTS = {}


def loaded(data, size):
    """A font at a size; Bad where the file breaks a rule."""
    if (data, size) not in FONTS:
        try:
            FONTS[data, size] = Font(data, size)
        except Bad as bad:
            FONTS[data, size] = bad
    return FONTS[data, size]


class Sized:
    """A font of a style and a size, with its name."""

    def __init__(self, font, name):
        self.font = font
        self.name = FontName(name, font.size, font.check, font.design)

    def parameters(self):
        return self.font.parameters()

    def exists(self, code):
        return self.font.exists(code)

    def character(self, code):
        width, height, depth, italic = self.font.metrics(code)
        return Node('char', code=code, width=width, height=height, depth=depth, italic=italic, font=self.name)

    def space(self, factor):
        """The glue of a space."""
        _, width, stretch, shrink, _, _, extra = self.parameters()
        width += extra if factor >= 2000 else 0
        if factor != 1000:
            stretch, shrink = toward_zero(stretch * factor, 1000), toward_zero(shrink * 1000, factor)
        if any(abs(length) >= LIMIT for length in (width, stretch, shrink)):
            raise Fault('DimenTooLarge')
        return glue_node((width, stretch, 0, shrink, 0))


# ---- words

def letters(item):
    kind, value, *rest = item
    return [value] if kind == 'letter' else list(rest[0]) if kind == 'lig' else []


def side(item):
    return EDGE if item[0] == 'edge' else item[1]


def word_nodes(sized, codes, step):
    """The nodes of a word; `step` is called before each ligature and kern that is made."""
    line = [('edge', None), *(('letter', code) for code in codes), ('edge', None)]
    at = 0
    while at + 1 < len(line):
        left, right = line[at], line[at + 1]
        found = sized.font.step(side(left), side(right))
        if found is None:
            at += 1
            continue
        step()
        if found[0] == 'kern':
            line.insert(at + 1, ('kern', found[1]))
            at += 2
            continue
        _, code, keep_left, keep_right, passed = found
        gone = ([] if keep_left else letters(left)) + ([] if keep_right else letters(right))
        line[at:at + 2] = [left] * keep_left + [('lig', code, gone)] + [right] * keep_right
        at += passed
    return [node for item in line for node in nodes_of(sized, item)]


def nodes_of(sized, item):
    if item[0] == 'edge':
        return []
    if item[0] == 'kern':
        return [Node('fontkern', width=item[1])]
    node = sized.character(item[1])
    if item[0] == 'lig':
        node.lig = True
    return [node] + [discretionary([[], [], []])] * (letters(item)[-1:] == [45])


# ---- boxes

def nesting(node):
    if node.kind in BOXES:
        return node.nest
    return max((nesting(inner) for inner in node.inside), default=0)


class Sums:
    """The natural size along a list, the size across, and the stretch and shrink of each order, item by item. None may be too large."""

    def __init__(self, axis):
        self.axis = axis
        self.along = self.hanging = 0
        self.above = self.below = 0
        self.totals = {'stretch': [0] * 4, 'shrink': [0] * 4}
        self.large = False

    def add(self, node):
        if self.axis == 'hbox':
            self.along += node.width
            if node.kind in SOLID:
                self.above = max(self.above, node.height - node.shift)
                self.below = max(self.below, node.depth + node.shift)
        elif node.kind in SPACES:
            self.along += self.hanging + node.width
            self.hanging = 0
        elif node.kind in SOLID:
            self.along += self.hanging + node.height
            self.hanging = node.depth
            self.above = max(self.above, node.width + node.shift)
        if node.kind == 'glue':
            for kind in self.totals:
                amount, order = getattr(node, kind)
                self.totals[kind][order] += amount
                self.large |= abs(self.totals[kind][order]) >= LIMIT
        self.large |= abs(self.along) >= LIMIT or abs(self.above) >= LIMIT or abs(self.below) >= LIMIT


def set_shifts(nodes, kind, used, total, excess):
    """The shift through each item."""
    shifts, part = [], 0
    for node in nodes:
        if node.kind == 'glue' and getattr(node, kind)[1] == used:
            part += getattr(node, kind)[0]
        if excess == 0 or total == 0:
            shifts.append(0)
        elif kind == 'shrink' and used == 0 and -excess > total:
            shifts.append(-part)
        else:
            shifts.append(rounded(part * excess, total))
    return shifts


def pack(axis, nodes, target='natural', size=0):
    """A box, or the name of a fault."""
    nodes = flattened(nodes)
    sums = Sums(axis)
    for node in nodes:
        sums.add(node)
    asked = {'natural': sums.along, 'to': size, 'spread': sums.along + size}[target]
    excess = asked - sums.along
    if axis == 'hbox':
        box = Node(axis, width=asked, height=sums.above, depth=sums.below, inside=nodes)
    else:
        box = Node(axis, width=sums.above, height=asked, depth=sums.hanging, inside=nodes)
    kind = 'shrink' if excess < 0 else 'stretch'
    totals = sums.totals[kind]
    box.excess = excess
    box.used = max((order for order in range(4) if totals[order] != 0), default=0) if excess else 0
    box.shifts = set_shifts(nodes, kind, box.used, totals[box.used], excess)
    if sums.large or any(abs(one) >= LIMIT for one in [asked, excess, *box.shifts]):
        return 'DimenTooLarge'
    box.nest = 1 + max(map(nesting, nodes), default=0)
    return 'DepthLimit' if box.nest > MOST_BOXES else box


def packed(axis, nodes, target='natural', size=0):
    """A box."""
    box = pack(axis, nodes, target, size)
    if isinstance(box, str):
        raise Fault(box)
    return box


# ---- paragraphs

class Whole(Paragraph):
    """A paragraph that is judged by its breaks alone."""

    def best(self, tolerance, bad_lines):
        return self.best_by_breaks(tolerance, bad_lines)


def chosen_breaks(nodes, shape, rules):
    """The paragraph and its ends, each with whether its line is bad."""
    if items(nodes) > MOST_ITEMS:
        raise Fault('ParagraphLimit')
    paragraph = Whole(nodes, shape, rules)
    return paragraph, paragraph.chosen('both')[1]


def missing_width(paragraph, start, end):
    """How much an overfull line lacks; None where it is not overfull."""
    if not paragraph.line(start, end).overfull:
        return None
    width, left, right = paragraph.shape
    nodes = [left, *between(paragraph.nodes, start, end), right]
    return sum(node.width for node in nodes) - width - sum(amounts(nodes, 'shrink'))


def parted(nodes):
    """What stays in a line, and what comes behind it."""
    stays, leaves = [], []
    for node in nodes:
        if node.kind == 'ins':
            leaves.append(node)
        elif node.kind == 'adjust':
            leaves += node.inside
        else:
            stays.append(node)
    return stays, leaves


def penalty_between(rules, number, count, at_disc):
    """What stands behind line `number`, from 0, of `count` lines."""
    found = rules['interlinepenalty'] + rules['clubpenalty'] * (number == 0) + rules['widowpenalty'] * (number == count - 2)
    found += rules['brokenpenalty'] * at_disc
    return max(-2 ** 31, min(2 ** 31 - 1, found))


def lines_of(paragraph, ends):
    """The lines and what stands between them; each item with whether it is a line."""
    width, left, right = paragraph.shape
    made, faults, start = [], set(), -1
    for number, end in enumerate(ends):
        stays, leaves = parted(between(paragraph.nodes, start, end))
        box = pack('hbox', [left, *stays, right], 'to', width)
        if isinstance(box, str):
            faults.add(box)
        made += [(True, box), *((False, node) for node in leaves)]
        between_lines = penalty_between(paragraph.rules, number, len(ends), paragraph.is_disc(end))
        if end != ends[-1] and between_lines != 0:
            made.append((False, penalty(between_lines)))
        start = end
    for fault in ('DimenTooLarge', 'DepthLimit'):
        if fault in faults:
            raise Fault(fault)
    return made


# ---- vertical lists

def interline(prevdepth, box, baselineskip, lineskip, limit):
    """The glue before a box of a vertical list, as a list."""
    if prevdepth <= -1000 * 65536:
        return []
    width = baselineskip[0] - prevdepth - box.height
    glue = lineskip if width < limit else (width, *baselineskip[1:])
    if abs(glue[0]) >= LIMIT:
        raise Fault('DimenTooLarge')
    return [glue_node(glue)]


def notes_and_marks(nodes):
    """The notes and marks of a vertical list in order, and those of the boxes in it."""
    for node in nodes:
        if node.kind in ('note', 'right', 'both'):
            yield node
        elif node.kind in BOXES:
            yield from notes_and_marks(node.inside)
