#!/usr/bin/env python3
"""What lb_tests_pages has to print about paragraphs and lines.

Written from the rules alone. All lists of breaks of a short paragraph are judged, one by one, with exact
numbers. A long paragraph has a second program, which keeps the best list up to each break and fitness; the
two are compared wherever both can be run."""
import itertools

from paper import LIMIT, Node, amounts, badness, flattened, natural, pack

ITEMS = 65536
FEW = 12
EJECT, NEVER = -10000, 10000
NAMES = ('pretolerance tolerance linepenalty hyphenpenalty exhyphenpenalty adjdemerits doublehyphendemerits '
         'finalhyphendemerits clubpenalty widowpenalty brokenpenalty interlinepenalty').split()
STARTS = dict(zip(NAMES, (100, 200, 10, 50, 50, 10000, 10000, 5000, 150, 150, 100, 0)))
VERY_LOOSE, LOOSE, DECENT, TIGHT = range(4)


def glue(width, stretch, stretch_order, shrink, shrink_order):
    return Node('glue', width=width, stretch=(stretch, stretch_order), shrink=(shrink, shrink_order))


# ---- breaks

def discardable(node):
    return node.kind in ('glue', 'penalty', 'kern')


def penalty_at(nodes, rules, place):
    """The penalty of the legal break at an item, or None where no line may end there."""
    node = nodes[place]
    if node.kind == 'glue':
        return 0 if place > 0 and not discardable(nodes[place - 1]) else None
    if node.kind == 'kern':
        return 0 if place + 1 < len(nodes) and nodes[place + 1].kind == 'glue' else None
    if node.kind == 'penalty':
        penalty = int(node.penalty)
    elif node.kind == 'disc':
        penalty = rules['hyphenpenalty' if node.parts[0] else 'exhyphenpenalty']
    else:
        return None
    return penalty if penalty < NEVER else None


def legal_breaks(nodes, rules):
    """The places of the legal breaks, each with its penalty."""
    found = {}
    for place in range(len(nodes)):
        penalty = penalty_at(nodes, rules, place)
        if penalty is not None:
            found[place] = penalty
    return found


def ends_forced(nodes, rules):
    penalty = penalty_at(nodes, rules, len(nodes) - 1) if nodes else None
    return penalty is not None and penalty <= EJECT


def items(nodes):
    """How many items a list has, with those of the parts of its discretionaries."""
    return sum(1 + (sum(items(part) for part in node.parts) if node.kind == 'disc' else 0) for node in nodes)


def between(nodes, start, end):
    """What stands in the line from break `start` (-1 is the paragraph's start) to break `end`."""
    inner = nodes[start + 1:end]
    if start >= 0:
        inner = list(itertools.dropwhile(discardable, inner))
        if nodes[start].kind == 'disc':
            inner = nodes[start].parts[1] + inner
    if nodes[end].kind == 'disc':
        inner = inner + nodes[end].parts[0]
    return flattened(inner)


class Line:
    """A line is judged by its excess, the stretch of each order and the whole of its shrink."""

    def __init__(self, excess, stretch, shrink):
        need = abs(excess)
        self.overfull = excess < 0 and need > shrink
        if excess == 0:
            self.badness = 0
        elif excess < 0:
            self.badness = 10000 if self.overfull else badness(need, shrink)
        elif any(stretch[1:]):
            self.badness = 0
        else:
            self.badness = badness(need, stretch[0])
        if excess < 0 and self.badness > 12:
            self.fitness = TIGHT
        elif excess > 0 and self.badness > 99:
            self.fitness = VERY_LOOSE
        elif excess > 0 and self.badness > 12:
            self.fitness = LOOSE
        else:
            self.fitness = DECENT


class Paragraph:
    def __init__(self, nodes, shape, rules):
        self.nodes, self.shape, self.rules = nodes, shape, rules
        self.legal = legal_breaks(nodes, rules)
        self.places = list(self.legal)
        self.judged = {}

    def line(self, start, end):
        if (start, end) not in self.judged:
            width, left, right = self.shape
            nodes = [left] + between(self.nodes, start, end) + [right]
            self.judged[start, end] = Line(width - natural('hbox', nodes)[0], amounts(nodes, 'stretch'),
                                           sum(amounts(nodes, 'shrink')))
        return self.judged[start, end]

    def admitted(self, start, end, tolerance):
        """None where no list may have this line, 0 where it is feasible, 1 where it is bad."""
        line = self.line(start, end)
        for place in self.places:
            if start < place < end and (self.legal[place] <= EJECT or self.line(start, place).overfull):
                return None
        return self.kind(line, end, tolerance)

    def kind(self, line, end, tolerance):
        tolerance = min(tolerance, 10000)
        if line.overfull or self.legal[end] <= EJECT and line.badness > tolerance:
            return 1
        return 0 if line.badness <= tolerance else None

    def is_disc(self, place):
        return place >= 0 and self.nodes[place].kind == 'disc'

    def demerits(self, start, end, line, before):
        """Those of a line, where the line before it had the given fitness."""
        rules = self.rules
        about = rules['linepenalty'] + line.badness
        sum_ = 10 ** 8 if abs(about) >= 10000 else about ** 2
        penalty = self.legal[end]
        if penalty >= 0:
            sum_ += penalty ** 2
        elif penalty > EJECT:
            sum_ -= penalty ** 2
        if self.is_disc(start) and self.is_disc(end):
            sum_ += rules['doublehyphendemerits']
        if self.is_disc(start) and end == len(self.nodes) - 1:
            sum_ += rules['finalhyphendemerits']
        if abs(line.fitness - before) > 1:
            sum_ += rules['adjdemerits']
        return sum_

    # -- all lists

    def all_lists(self):
        last = self.places[-1]
        for count in range(len(self.places)):
            for chosen in itertools.combinations(self.places[:-1], count):
                yield chosen + (last,)

    def worth(self, ends, tolerance, bad_lines):
        """Bad lines, demerits and the list from its end, of a list that may be chosen, and its bad ends."""
        start, fitness, demerits, bad = -1, DECENT, 0, []
        for end in ends:
            kind = self.admitted(start, end, tolerance)
            if kind is None or kind == 1 and not bad_lines:
                return None
            line = self.line(start, end)
            demerits += self.demerits(start, end, line, fitness)
            start, fitness = end, line.fitness
            bad += [end] * kind
        return (len(bad), demerits, ends[::-1] + (-1,)), bad

    def best_of_all(self, tolerance, bad_lines):
        """The ends of the best list, each with whether its line is bad, or None."""
        worths = [self.worth(ends, tolerance, bad_lines) for ends in self.all_lists()]
        worths = [worth for worth in worths if worth is not None]
        if not worths:
            return None
        (_, _, back), bad = min(worths)
        return [(end, end in bad) for end in back[-2::-1]]

    # -- the best list up to each break and fitness

    def running(self):
        """Sums before each item: width, the stretches, and the shrink; and the first item that is not discarded after each."""
        sums, here = [(0, 0, 0, 0, 0, 0)], (0, 0, 0, 0, 0, 0)
        for node in self.nodes:
            here = added(here, totals(flattened([node])))
            sums.append(here)
        solid, firsts = len(self.nodes), [0] * len(self.nodes)
        for place in range(len(self.nodes) - 1, -1, -1):
            firsts[place] = solid
            if not discardable(self.nodes[place]):
                solid = place
        return sums, firsts

    def best_by_breaks(self, tolerance, bad_lines):
        """The same as `best_of_all`."""
        sums, firsts = self.running()
        width, left, right = self.shape
        skips = added((width, 0, 0, 0, 0, 0), negative(totals([left, right])))
        best = {(-1, DECENT): (0, 0, None)}
        starts = {-1: [DECENT]}
        for number, start in enumerate([-1] + self.places[:-1]):
            if start not in starts:
                continue
            origin = skips
            if self.is_disc(start):
                origin = added(origin, negative(totals(flattened(self.nodes[start].parts[1]))))
            for end in self.places[number:]:
                first = min(firsts[start], end) if start >= 0 else 0
                have = added(origin, added(sums[first], negative(sums[end])))
                if self.is_disc(end):
                    have = added(have, negative(totals(flattened(self.nodes[end].parts[0]))))
                line = Line(have[0], [-amount for amount in have[1:5]], -have[5])
                kind = self.kind(line, end, tolerance)
                if kind == 0 or kind == 1 and bad_lines:
                    for fitness in starts[start]:
                        bad, demerits, chain = best[start, fitness]
                        better = (bad + kind, demerits + self.demerits(start, end, line, fitness), (end, kind, chain))
                        self.put(best, starts, end, line.fitness, better)
                if line.overfull or self.legal[end] <= EJECT:
                    break
        last = self.places[-1]
        found = [best[last, fitness] for fitness in starts.get(last, [])]
        if not found:
            return None
        winner = found[0]
        for other in found[1:]:
            winner = other if goes_before(other, winner) else winner
        ends, chain = [], winner[2]
        while chain:
            ends.append((chain[0], chain[1] == 1))
            chain = chain[2]
        return ends[::-1]

    @staticmethod
    def put(best, starts, end, fitness, new):
        if (end, fitness) not in best:
            starts.setdefault(end, []).append(fitness)
            best[end, fitness] = new
        elif goes_before(new, best[end, fitness]):
            best[end, fitness] = new

    def best(self, tolerance, bad_lines):
        by_breaks = self.best_by_breaks(tolerance, bad_lines)
        if len(self.places) <= FEW and by_breaks != self.best_of_all(tolerance, bad_lines):
            raise ValueError('the two programs differ')
        return by_breaks

    def chosen(self, passes):
        """The pass that gives the breaks, or 0, and the breaks."""
        if passes != 'second' and self.rules['pretolerance'] >= 0:
            ends = self.best(self.rules['pretolerance'], False)
            if ends is not None:
                return 1, ends
        if passes != 'first':
            ends = self.best(self.rules['tolerance'], True)
            if ends is not None:
                return 2, ends
        return 0, []


def added(one, other):
    return tuple(map(int.__add__, one, other))


def negative(one):
    return tuple(-amount for amount in one)


def totals(nodes):
    width, stretch, shrink = 0, [0, 0, 0, 0], 0
    for node in nodes:
        width += node.width
        if node.kind == 'glue':
            stretch[node.stretch[1]] += node.stretch[0]
            shrink += node.shrink[0]
    return (width, *stretch, shrink)


def goes_before(one, other):
    """Whether a list is better, by bad lines, demerits, and the earlier break at the last place where they differ."""
    if one[:2] != other[:2]:
        return one[:2] < other[:2]
    one, other = one[2], other[2]
    while one is not other:
        here, there = (chain[0] if chain else -1 for chain in (one, other))
        if here != there:
            return here < there
        one, other = one[2], other[2]
    return False


# ---- lines

def set_lines(nodes, ends, shape, rules):
    """The vertical list of the lines, or the name of a fault."""
    width, left, right = shape
    made, faults, start = [], [], -1
    for number, end in enumerate(ends):
        stays, leaves = [], []
        for node in between(nodes, start, end):
            if node.kind == 'ins':
                leaves.append(node)
            elif node.kind == 'adjust':
                leaves += node.inside
            else:
                stays.append(node)
        box = pack('hbox', [left] + stays + [right], 'to', width)
        if isinstance(box, str):
            faults.append(box)
        made += [box] + leaves
        if end != ends[-1]:
            penalty = rules['interlinepenalty']
            if number == 0:
                penalty += rules['clubpenalty']
            if number == len(ends) - 2:
                penalty += rules['widowpenalty']
            if nodes[end].kind == 'disc':
                penalty += rules['brokenpenalty']
            if penalty != 0:
                made.append(Node('penalty', penalty=max(-2 ** 31, min(2 ** 31 - 1, penalty))))
        start = end
    return min(faults, key=['DimenTooLarge', 'DepthLimit'].index) if faults else made


def interline(prev, height, baselineskip, lineskip, limit):
    """The glue before a box of this height, as a list, or the name of a fault."""
    if prev <= -1000 * 65536:
        return []
    width = baselineskip.width - prev - height
    if width < limit:
        chosen = lineskip
    else:
        chosen = glue(width, *baselineskip.stretch, *baselineskip.shrink)
    return 'DimenTooLarge' if abs(chosen.width) >= LIMIT else [chosen]


# ---- what is shown

def shown(node):
    kind = node.kind
    if kind == 'char':
        about = (node.code, node.width, node.height, node.depth)
    elif kind in ('kern', 'fontkern'):
        about = (node.width,)
    elif kind == 'glue':
        about = (node.width, *node.stretch, *node.shrink)
    elif kind == 'penalty':
        about = (node.penalty,)
    elif kind == 'rule':
        about = node.given
    elif kind == 'disc':
        about = map(shown_list, node.parts)
    elif kind in ('hbox', 'vbox'):
        about = (node.width, node.height, node.depth, 'down', node.shift, 'excess', node.excess, 'order', node.used,
                 shown_list(node.inside))
    elif kind == 'adjust':
        about = (shown_list(node.inside),)
    elif kind in ('ins', 'right', 'both'):
        about = map(shown, node.inside)
    else:
        return kind
    return kind + '(' + ' '.join(map(str, about)) + ')'


def shown_list(nodes):
    return '[' + ' '.join(map(shown, nodes)) + ']'


# ---- commands

class Paragraphs:
    shape = (22609920, glue(0, 0, 0, 0, 0), glue(0, 0, 0, 0, 0))
    rules = STARTS
    passes = 'both'

    def do_shape(self, *numbers):
        width, *skips = map(int, numbers)
        self.shape = (width, glue(*skips[:5]), glue(*skips[5:]))
        if any(abs(size) >= LIMIT for size in (width, *skips)) or len(numbers) != 11:
            raise ValueError('no shape')

    def do_rules(self, *numbers):
        if len(numbers) != 12:
            raise ValueError('no rules')
        self.rules = dict(zip(NAMES, map(int, numbers)))

    def do_passes(self, which):
        self.passes = which

    def paragraph(self):
        if not ends_forced(self.list, self.rules):
            raise ValueError('the list does not end in a forced break')
        return Paragraph(self.list, self.shape, self.rules)

    def do_break(self):
        if not ends_forced(self.list, self.rules):
            raise ValueError('the list does not end in a forced break')
        if items(self.list) > ITEMS:
            return ['fault ParagraphLimit']
        number, ends = self.paragraph().chosen(self.passes)
        return [f'pass {number} ends' + ''.join(f' {end}' + '!' * bad for end, bad in ends)]

    def do_lines(self, *ends):
        if items(self.list) > ITEMS:
            raise ValueError('too many items')
        ends = [int(end) for end in ends]
        legal = legal_breaks(self.list, self.rules)
        if ends and (ends != sorted(set(ends)) or ends[-1] != len(self.list) - 1 or not set(ends) <= set(legal)):
            raise ValueError('these are no ends')
        if not ends:
            ends = [end for end, _ in self.paragraph().chosen(self.passes)[1]]
            if not ends:
                return ['no breaks']
        made = set_lines(self.list, ends, self.shape, self.rules)
        self.list = []
        return ['fault ' + made if isinstance(made, str) else shown_list(made)]

    def do_append(self, prev, *numbers):
        numbers = [int(number) for number in numbers]
        box = self.list[-1]
        if box.kind not in ('hbox', 'vbox') or len(numbers) != 11 or any(abs(size) >= LIMIT for size in numbers):
            raise ValueError('nothing to append')
        self.list = self.list[:-1]
        space = interline(int(prev), box.height, glue(*numbers[:5]), glue(*numbers[5:10]), numbers[10])
        if isinstance(space, str):
            return ['fault ' + space]
        self.list += space + [box]
        return [f'prevdepth {box.depth} ' + shown_list(self.list)]

    def do_show(self):
        return [shown_list(self.list)]
