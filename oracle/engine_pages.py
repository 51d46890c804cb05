"""Pages for engine.py: where a page ends, and its box. The places are judged in one pass; engine_check.py compares it with paper_pages.py."""
from engine_nodes import fil, glue_node, kern, lowered, nesting, pack, packed, penalty, rule
from expand import Fault
from paper import LIMIT, SOLID, SPACES, Node, badness

FORCED = -10000
NINE_POINTS = 9 * 65536
MOST_BOXES = 500
DISCARDABLES = ('glue', 'kern', 'penalty')


class Part:
    """A page: its items, the boxes of its footnotes, and its goal."""

    def __init__(self, items, feet, goal):
        self.items, self.feet, self.goal = items, feet, goal


def is_solid(node):
    return node.kind in ('hbox', 'vbox', 'rule')


class Front:
    """What stands before a place, as sums; where one was too large at some place, `large` is set."""

    def __init__(self, textheight, topskip, maxdepth):
        self.textheight, self.topskip, self.maxdepth = textheight, topskip, maxdepth
        self.room = self.feet = self.across = 0
        self.last = None
        self.with_feet = self.large = False
        self.stretch, self.shrink = [0] * 4, [0] * 4

    def add(self, node):
        if is_solid(node) and self.last is None:
            width, *rest = self.topskip
            self.count(glue_node((max(0, width - node.height), *rest)))
        self.count(node)

    def count(self, node):
        if node.kind in SPACES:
            self.room += node.width
        elif node.kind in SOLID:
            self.room += node.height + node.depth
            self.across = max(self.across, node.width + node.shift)
        elif node.kind == 'ins':
            self.feet += node.inside[0].height + node.inside[0].depth
            self.with_feet = True
        if is_solid(node):
            self.last = node
        if node.kind == 'glue':
            for sums, (amount, order) in ((self.stretch, node.stretch), (self.shrink, node.shrink)):
                sums[order] += amount
        sums = [self.total(), self.left_out(), self.feet, *self.stretch, *self.shrink, self.across]
        self.large |= any(abs(one) >= LIMIT for one in sums)

    def left_out(self):
        return min(self.last.depth, self.maxdepth) if self.last else 0

    def total(self):
        return self.room - self.left_out()

    def goal(self):
        return self.textheight - (NINE_POINTS + self.feet if self.with_feet else 0)

    def cost(self, at):
        """The cost of a place with this penalty here, None where it is awful."""
        excess, shrink = self.goal() - self.total(), sum(self.shrink)
        if excess < 0 and -excess > shrink:
            return None
        if at <= FORCED:
            return at
        if excess < 0:
            bad = badness(-excess, shrink)
        else:
            bad = 0 if any(self.stretch[1:]) else badness(excess, self.stretch[0])
        return bad + at if bad < 10000 else 100000


def place_at(nodes, k):
    """The penalty of the place before item k, None where none is there."""
    node = nodes[k]
    if node.kind == 'penalty':
        return node.penalty if node.penalty < 10000 else None
    if node.kind == 'glue':
        return 0 if nodes[k - 1].kind not in DISCARDABLES else None
    return 0 if node.kind == 'kern' and k + 1 < len(nodes) and nodes[k + 1].kind == 'glue' else None


def next_page(nodes, textheight, topskip, maxdepth):
    """The next page and what is left, or None where nothing ends the search."""
    first = next((k for k, node in enumerate(nodes) if node.kind not in DISCARDABLES), len(nodes))
    nodes = nodes[first:]
    front = Front(textheight, topskip, maxdepth)
    best = None
    for k, node in enumerate(nodes):
        at = place_at(nodes, k)
        ends = False
        if at is not None:
            cost = front.cost(at)
            ends = cost is None or at <= FORCED
            cost = float('inf') if cost is None else cost
            if best is None or cost <= best[0]:
                best = cost, k, front.goal(), front.left_out()
        front.add(node)
        if front.large:
            raise Fault('DimenTooLarge')
        if ends:
            return part_of(nodes[:best[1]], topskip, *best[2:]), nodes[best[1]:]
    return None


def part_of(front, topskip, goal, left_out):
    feet = [node.inside[0] for node in front if node.kind == 'ins']
    body = []
    solid = False
    for node in front:
        if is_solid(node) and not solid:
            width, *rest = topskip
            body.append(glue_node((max(0, width - node.height), *rest)))
            solid = True
        if node.kind != 'ins':
            body.append(node)
    return Part(body + [kern(-left_out)] * solid, feet, goal)


def last_pages(nodes, *rules):
    """All pages that are left, once the page is filled and ended."""
    nodes = [*nodes, fil(), penalty(FORCED)]
    parts = []
    while found := next_page(nodes, *rules):
        parts.append(found[0])
        nodes = found[1]
    return parts


# ---- the box of a page

class Look:
    """What the box of a page needs besides the page: its lengths by name, its style, the nodes of its number, and its marks."""

    def __init__(self, lengths, number, style, digits, left, right):
        self.__dict__.update(lengths)
        self.style, self.digits, self.left, self.right = style, digits, left, right
        self.odd = number % 2 == 1
        self.side = self.oddsidemargin if self.odd else self.evensidemargin

    def head(self):
        if self.style in ('empty', 'plain'):
            return None
        mark = self.right if self.odd else self.left
        marked = [] if mark is None else [mark]
        return [*marked, fil(), *self.digits] if self.odd else [*self.digits, fil(), *marked]

    def foot(self):
        return [fil(), *self.digits, fil()] if self.style == 'plain' else None


def check_sums(part, look):
    down = [look.topmargin, look.headheight, look.headsep, part.goal]
    down += [NINE_POINTS] + [box.height + box.depth for box in part.feet] if part.feet else []
    down.append(look.footskip)
    sums = [look.headheight + look.headsep + look.textheight + look.footskip]
    sums += [sum(down[:k]) for k in range(1, len(down) + 1)]
    if any(abs(one) >= LIMIT for one in sums):
        raise Fault('DimenTooLarge')


def parts_of_page(part, look):
    """The boxes of head, body and foot, each None where there is none."""
    made = [None if look.head() is None else pack('hbox', look.head(), 'to', look.textwidth), pack('vbox', part.items, 'to', part.goal),
            None if look.foot() is None else pack('hbox', look.foot(), 'to', look.textwidth)]
    if 'DimenTooLarge' in made:
        raise Fault('DimenTooLarge')
    check_sums(part, look)
    if 'DepthLimit' in made:
        raise Fault('DepthLimit')
    return made


def page_box(part, look):
    head, body, foot = parts_of_page(part, look)
    items = [kern(look.topmargin + look.headheight)]
    if head:
        items += [kern(-head.height), lowered(head, look.side), kern(-head.depth)]
    items += [kern(look.headsep), lowered(body, look.side)]
    used = part.goal
    if part.feet:
        line = packed('hbox', [rule(138 * 65536, 26214, 0)])
        items += [kern(6 * 65536), lowered(line, look.side), kern(3 * 65536 - 26214)]
        items += [lowered(box, look.side) for box in part.feet]
        used += NINE_POINTS + sum(box.height + box.depth for box in part.feet)
    if foot:
        items += [kern(look.textheight - used + look.footskip - foot.height), lowered(foot, look.side)]
    height = look.headheight + look.headsep + look.textheight + look.footskip
    box = Node('vbox', width=look.textwidth, height=height, inside=items, excess=0, used=0, shifts=[0] * len(items))
    if 1 + max(map(nesting, items)) > MOST_BOXES:
        raise Fault('DepthLimit')
    return box
