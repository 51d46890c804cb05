#!/usr/bin/env python3
"""Says what the commands about pages have to print. Written from the rules alone, and slow: each place of a page is judged
by itself, by sums over all that stands before it, and no total is carried from one place to the next."""
import copy
import math

from paper import LIMIT, SOLID, SPACES, Node, amounts, badness, nesting, pack

AWFUL = math.inf
FORCED = -10000
NINE_POINTS = 9 * 65536
BOXES = ('hbox', 'vbox')
DISCARDABLES = ('glue', 'kern', 'penalty')


class DimenTooLarge(Exception):
    """A sum is 2^30 or more in size."""


class Rules:
    """The page rules: \\textheight, \\topskip and \\maxdepth."""

    def __init__(self, textheight, width, stretch, stretch_order, shrink, shrink_order, maxdepth):
        self.textheight, self.maxdepth = textheight, maxdepth
        self.topskip = Node('glue', width=width, stretch=(stretch, stretch_order), shrink=(shrink, shrink_order))


class Part:
    """A page that was given: its items, its footnotes and its goal."""

    def __init__(self, items, feet, goal):
        self.items, self.feet, self.goal = items, feet, goal


def kern(width):
    return Node('kern', width=width)


def fil():
    return Node('glue', width=0, stretch=(65536, 1), shrink=(0, 0))


def forced():
    return Node('penalty', penalty=FORCED)


# ---- nodes in their printed form

def several(nodes):
    return ''.join(' ' + shown(node) for node in nodes)


def shown(node):
    if node.kind in BOXES:
        return (f'({node.kind} {node.width} {node.height} {node.depth} down {node.shift} '
                f'excess {node.excess} order {node.used}{several(node.inside)})')
    if node.kind == 'char':
        return f'(char {node.code} {node.width} {node.height} {node.depth})'
    if node.kind in ('kern', 'fontkern'):
        return f'({node.kind} {node.width})'
    if node.kind == 'glue':
        return '(glue {} {} {} {} {})'.format(node.width, *node.stretch, *node.shrink)
    if node.kind == 'penalty':
        return f'(penalty {node.penalty})'
    if node.kind == 'rule':
        return '(rule {} {} {})'.format(*node.given)
    if node.kind == 'disc':
        return '(disc' + ''.join(f' ({several(part)[1:]})' for part in node.parts) + ')'
    return f'({node.kind}{several(node.inside)})'


def shown_part(part):
    return f'part goal {part.goal} items{several(part.items)} feet{several(part.feet)}'


# ---- what is judged: a front of the page, that is, all that stands before a place

def is_solid(node):
    """Whether it is a box or a rule."""
    return node.kind in BOXES or node.kind == 'rule'


def without_top(nodes):
    """The nodes without the discardables at their start."""
    kept = [k for k, node in enumerate(nodes) if node.kind not in DISCARDABLES]
    return nodes[kept[0]:] if kept else []


def with_topskip(rules, nodes):
    """The nodes with the glue of \\topskip before the first box or rule."""
    solid = [k for k, node in enumerate(nodes) if is_solid(node)]
    if not solid:
        return nodes
    glue = copy.copy(rules.topskip)
    glue.width = max(0, rules.topskip.width - nodes[solid[0]].height)
    return nodes[:solid[0]] + [glue] + nodes[solid[0]:]


def room(node):
    if node.kind in SPACES:
        return node.width
    return node.height + node.depth if node.kind in SOLID else 0


def left_out(rules, nodes):
    """What the total leaves out of the depth of the last box or rule."""
    depths = [node.depth for node in nodes if is_solid(node)]
    return min(depths[-1], rules.maxdepth) if depths else 0


def total(rules, nodes):
    return sum(room(node) for node in nodes) - left_out(rules, nodes)


def footnotes(nodes):
    return [node for node in nodes if node.kind == 'ins']


def room_of_feet(feet):
    return sum(node.inside[0].height + node.inside[0].depth for node in feet)


def goal(rules, nodes):
    feet = footnotes(nodes)
    return rules.textheight - (NINE_POINTS + room_of_feet(feet) if feet else 0)


def page_sums(rules, nodes):
    """The sums of a page whose nodes have the glue of \\topskip among them."""
    sums = []
    for front in [nodes[:k] for k in range(len(nodes) + 1)]:
        sums += [total(rules, front), left_out(rules, front), room_of_feet(footnotes(front))]
        sums += amounts(front, 'stretch') + amounts(front, 'shrink')
        sums.append(max([0] + [node.width + node.shift for node in front if node.kind in SOLID]))
    return sums


def are_small(sums):
    return all(abs(one) < LIMIT for one in sums)


# ---- places and their costs (The TeXbook, chapter 15)

def penalty_at(nodes, k):
    return int(nodes[k].penalty) if nodes[k].kind == 'penalty' else 0


def is_place(nodes, k):
    """Whether a page may end before node k of nodes that do not begin with a discardable."""
    kind = nodes[k].kind
    if kind == 'glue':
        return nodes[k - 1].kind not in DISCARDABLES
    if kind == 'kern':
        return k + 1 < len(nodes) and nodes[k + 1].kind == 'glue'
    return kind == 'penalty' and penalty_at(nodes, k) < 10000


def cost(rules, nodes, k):
    front = with_topskip(rules, nodes[:k])
    excess = goal(rules, front) - total(rules, front)
    finite, *infinite = amounts(front, 'stretch')
    shrink = sum(amounts(front, 'shrink'))
    penalty = penalty_at(nodes, k)
    if excess < 0 and -excess > shrink:
        return AWFUL
    if penalty <= FORCED:
        return penalty
    if excess < 0:
        bad = badness(-excess, shrink)
    else:
        bad = 0 if any(infinite) else badness(excess, finite)
    return bad + penalty if bad < 10000 else 100000


def next_page(rules, contributed):
    """The next page and the nodes behind it, or None where nothing ends the search."""
    nodes = without_top(contributed)
    places = [k for k in range(len(nodes)) if is_place(nodes, k)]
    costs = {k: cost(rules, nodes, k) for k in places}
    ends = [k for k in places if costs[k] == AWFUL or penalty_at(nodes, k) <= FORCED]
    judged = [k for k in places if k <= ends[0]] if ends else places
    through = nodes[:ends[0] + 1] if ends else nodes
    if not are_small(page_sums(rules, with_topskip(rules, through))):
        raise DimenTooLarge
    if not ends:
        return None
    least = min(costs[k] for k in judged)
    place = max(k for k in judged if costs[k] == least)
    return made_part(rules, nodes[:place]), nodes[place:]


def made_part(rules, front):
    items = with_topskip(rules, [node for node in front if node.kind != 'ins'])
    if any(is_solid(node) for node in front):
        items = items + [kern(-left_out(rules, front))]
    return Part(items, footnotes(front), goal(rules, front))


def all_pages(rules, nodes):
    """All pages of a list in turn; with what is left behind them no page can be made."""
    parts = []
    while True:
        found = next_page(rules, nodes)
        if found is None:
            return parts
        part, nodes = found
        parts.append(part)


# ---- the box of a page

class Look:
    """What a page's box needs besides the page: numbers, style, lengths, the nodes of its number and its marks."""

    def __init__(self, number, style, lengths, digits, right, left):
        names = 'textwidth textheight headheight headsep footskip topmargin oddside evenside'.split()
        self.__dict__.update(zip(names, lengths))
        self.style, self.digits, self.right, self.left = style, digits, right, left
        self.odd = number % 2 == 1
        self.side = self.oddside if self.odd else self.evenside

    def head(self):
        """The nodes of the head, or None."""
        if self.style in ('empty', 'plain'):
            return None
        mark = self.right if self.odd else self.left
        marked = [] if mark is None else [mark]
        return marked + [fil()] + self.digits if self.odd else self.digits + [fil()] + marked

    def foot(self):
        return [fil()] + self.digits + [fil()] if self.style == 'plain' else None

    def aside(self, box):
        """The box at the margin of the page."""
        box = copy.copy(box)
        box.shift = self.side
        return box


def page_box(part, look):
    """The box of the page, or the name of a fault."""
    feet = [node.inside[0] for node in part.feet]
    body = pack('vbox', part.items, 'to', part.goal)
    head, foot = [None if nodes is None else pack('hbox', nodes, 'to', look.textwidth) for nodes in (look.head(), look.foot())]
    height = look.headheight + look.headsep + look.textheight + look.footskip
    down = [look.topmargin, look.headheight, look.headsep, part.goal]
    down += [NINE_POINTS] + [box.height + box.depth for box in feet] if feet else []
    down += [look.footskip]
    if 'DimenTooLarge' in (body, head, foot) or not are_small([height] + [sum(down[:k]) for k in range(1, len(down) + 1)]):
        return 'DimenTooLarge'
    if 'DepthLimit' in (body, head, foot):
        return 'DepthLimit'
    items = [kern(look.topmargin), kern(look.headheight)]
    if head:
        items += [kern(-head.height), look.aside(head), kern(-head.depth)]
    items += [kern(look.headsep), look.aside(body)]
    if feet:
        rule = Node('rule', given=(138 * 65536, 26214, 0), width=138 * 65536, height=26214)
        items += [kern(6 * 65536), look.aside(pack('hbox', [rule], 'natural', 0)), kern(3 * 65536 - 26214)]
        items += [look.aside(box) for box in feet]
    if foot:
        used = part.goal + (NINE_POINTS + room_of_feet(part.feet) if feet else 0)
        items += [kern(-used), kern(look.textheight), kern(look.footskip), kern(-foot.height), look.aside(foot)]
    box = Node('vbox', width=look.textwidth, height=height, inside=items, excess=0, used=0)
    return 'DepthLimit' if nesting(box) > 500 else box


def marks(nodes):
    """The marks of a list in order, and those of the boxes in it."""
    found = []
    for node in nodes:
        if node.kind in ('right', 'both'):
            found.append(node)
        elif node.kind in BOXES:
            found += marks(node.inside)
        elif node.kind == 'disc':
            found += marks(node.parts[2])
    return found


# ---- commands

class Pages:
    """The page that is built, its rules, and the parts that wait; these lists are replaced and never changed."""
    page_rules = Rules(35258368, 655360, 0, 0, 0, 0, 327680)
    page_nodes = []
    page_parts = []

    def contribute(self, node):
        self.page_nodes = self.page_nodes + [node]

    def keep_parts(self, parts):
        self.page_parts = self.page_parts + parts
        return [shown_part(part) for part in parts]

    def next_part(self):
        """The line of the next page, or None."""
        found = next_page(self.page_rules, self.page_nodes)
        if found is None:
            return None
        part, self.page_nodes = found
        return self.keep_parts([part])[0]

    def do_pagerules(self, *numbers):
        self.page_rules = Rules(*map(int, numbers))

    def do_page(self, count):
        lines = []
        for node in self.take(int(count)):
            self.contribute(node)
            try:
                line = self.next_part()
                while line is not None:
                    lines.append(line)
                    line = self.next_part()
            except DimenTooLarge:
                return lines + ['fault DimenTooLarge']
        return lines + [f'pages {len(lines)}']

    def do_give(self, count):
        for node in self.take(int(count)):
            self.contribute(node)

    def do_ask(self):
        try:
            return [self.next_part() or 'none']
        except DimenTooLarge:
            return ['fault DimenTooLarge']

    def do_flush(self):
        try:
            parts = all_pages(self.page_rules, self.page_nodes + [fil(), forced()])
        except DimenTooLarge:
            return ['fault DimenTooLarge']
        self.page_nodes = []
        return self.keep_parts(parts) + [f'pages {len(parts)}']

    def do_emptypage(self):
        self.page_nodes, self.page_parts = [], []

    def do_ship(self, number, style, *words):
        *lengths, count, given = words
        digits = self.take(int(count))
        right = self.take(1)[0] if given in ('right', 'both') else None
        left = self.take(1)[0] if given in ('left', 'both') else None
        part, self.page_parts = self.page_parts[0], self.page_parts[1:]
        box = page_box(part, Look(int(number), style, [int(length) for length in lengths], digits, right, left))
        return [f'fault {box}' if isinstance(box, str) else shown(box)]

    def do_pagemarks(self):
        found = marks(self.page_parts[0].items)
        rights = [shown(node.inside[-1]) for node in found]
        lefts = [shown(node.inside[0]) for node in found if node.kind == 'both']
        first, last_left, last = (rights + ['-'])[0], (['-'] + lefts)[-1], (['-'] + rights)[-1]
        return [f'marks first-right {first} last-left {last_left} last-right {last}']
