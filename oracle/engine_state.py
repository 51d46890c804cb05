"""Cells for engine.py: a world, a state, and what a piece wrote and looked at. A state is the one before the piece with the piece's writes laid
over; an open group keeps a whole copy of the writes. A cell is looked at where it is asked for and no write of the piece stands on it."""
import text
from expand import NO_GLUE, ORDERS, START_MEANINGS, Fault

MOST_GROUPS = 10000
MOMENT = dict(zip(text.DATES, (1776, 7, 4, 720)))
FRESH = ('count', 'dimen', 'skip', 'toks', 'boxed')
ALWAYS_GLOBAL = {
    'counter', 'counters', 'resets', 'fresh', 'label', 'checkpoint', 'only', 'body', 'toc', 'matter', 'pageform', 'pagestyle', 'thisstyle',
    'leftmark', 'rightmark'}
PARAMETER_ORDER = tuple(text.NUMBERS)


def word_cell(name):
    return 'word.' + name.hex()


def named(kind, name):
    return f'{kind}.{name.hex()}'


def cell_of(token):
    """The cell of the meaning of a control sequence or an active character."""
    return ('word.' if token[0] == 'w' else 'active.') + token[1:]


def start_state():
    state = {cell_of(token): meaning for token, meaning in START_MEANINGS.items()}
    for code in range(256):
        letter = code < 128 and chr(code).isalpha()
        state[f'cat.{code}'] = text.category(code)
        state[f'lc.{code}'] = ord(chr(code).lower()) if letter else 0
        state[f'uc.{code}'] = ord(chr(code).upper()) if letter else 0
        state[f'sf.{code}'] = text.space_factor(code)
    state.update({f'par.{name}': number for name, number in text.NUMBERS.items()})
    state.update({f'par.{name}': 65536 * size for name, size in text.DIMENSIONS.items()})
    for name, (width, stretch, order) in text.GLUES.items():
        state[f'par.{name}'] = (65536 * width, 65536 * stretch, ORDERS[order], 0, 0)
    counters = [name.encode() for name in text.COUNTERS]
    state.update({named('counter', name): int(name == b'page') for name in counters})
    state[named('counter', b'secnumdepth')] = state[named('counter', b'tocdepth')] = 2
    state['counters'] = tuple(counters)
    for name, within in text.RESETS.items():
        state[named('resets', name.encode())] = tuple(inner.encode() for inner in within.split())
    state.update({f'fresh.{kind}': 30 for kind in FRESH})
    state.update({'body': 0, 'toc': 0, 'matter': 1, 'style': 0, 'size': 4, 'pageform': 'arabic', 'pagestyle': 'plain'})
    state.update({'currentlabel': b'', 'env': b''})
    return state


START = start_state()


class World:
    def __init__(self):
        self.files = {}
        self.job = b'main'
        self.prefix = b''
        self.steps = 100000

    def tells(self, cell):
        if cell.startswith('file.'):
            return self.files.get(bytes.fromhex(cell[len('file.'):]))
        return {'job': self.job, 'prefix': self.prefix, 'steps': self.steps}[cell]

    @staticmethod
    def has(cell):
        return cell.startswith('file.') or cell in ('job', 'prefix', 'steps')


def look(world, state, cell):
    """What a cell tells in a world and a state, None where it is absent."""
    if world.has(cell):
        return world.tells(cell)
    if cell.startswith('par.') and cell not in state:
        return MOMENT[cell[len('par.'):]]
    return state.get(cell)


class Group:
    """An open group: its kind, the writes before it, the tokens that come after it, and what is done at its end."""

    def __init__(self, kind, writes, finish):
        self.kind = kind
        self.writes = writes
        self.after = []
        self.finish = finish


class Desk:
    """The cells as a piece has them. The feeder of expand.py asks for them by `meanings`, `values`, `files`, `job` and `prefix`."""

    def __init__(self, world, state):
        self.world = world
        self.state = state
        self.writes = {}
        self.groups = []
        self.looks = {}
        self.meanings = Meanings(self)
        self.values = Values(self)
        self.files = Files(self)

    def look(self, cell):
        if cell in self.writes:
            return self.writes[cell]
        self.looks[cell] = None
        return look(self.world, self.state, cell)

    def looks_at(self, *cells):
        for cell in cells:
            self.look(cell)

    def set(self, cell, value, everywhere=False):
        self.writes[cell] = value
        if everywhere or cell.partition('.')[0] in ALWAYS_GLOBAL:
            for group in self.groups:
                group.writes[cell] = value

    def open(self, kind, finish=None):
        if len(self.groups) == MOST_GROUPS:
            raise Fault('DepthLimit')
        self.groups.append(Group(kind, dict(self.writes), finish))

    def innermost(self):
        return self.groups[-1].kind if self.groups else None

    def close(self):
        group = self.groups.pop()
        self.writes = group.writes
        return group

    def behind(self):
        """The state behind the piece."""
        state = dict(self.state)
        for cell, value in self.writes.items():
            if value is None:
                state.pop(cell, None)
            else:
                state[cell] = value
        return state

    # as the feeder asks

    @property
    def job(self):
        return self.look('job')

    @property
    def prefix(self):
        return self.look('prefix')

    def category(self, code):
        return self.look(f'cat.{code}')

    def quantity(self, cell):
        """The quantity of a register or parameter, None for a token register."""
        kind, name = cell.split()
        if kind == 'toks':
            return None
        if kind == 'par':
            kind = {'count': 'count', 'dimen': 'dimen', 'glue': 'skip'}[text.PARAMETER_KINDS[name]]
        value = self.look(cell.replace(' ', '.'))
        letter, nothing = {'count': ('n', 0), 'dimen': ('d', 0), 'skip': ('g', NO_GLUE)}[kind]
        return letter, nothing if value is None else value


class Meanings:
    def __init__(self, desk):
        self.desk = desk

    def get(self, token):
        return self.desk.look(cell_of(token))

    def __contains__(self, token):
        return self.get(token) is not None

    def __setitem__(self, token, meaning):
        self.desk.set(cell_of(token), meaning)


class Values:
    """A cell by the name that expand.py has for it; of a box its three sizes."""

    def __init__(self, desk):
        self.desk = desk

    def get(self, name, nothing=None):
        cell = {'page form': 'pageform'}.get(name, name.replace(' ', '.'))
        if cell.startswith('box.'):
            box = self.desk.look('boxed' + cell[len('box'):])
            return nothing if box is None else (box.width, box.height, box.depth)
        value = self.desk.look(cell)
        return nothing if value is None else value

    __getitem__ = get


class Files:
    def __init__(self, desk):
        self.desk = desk

    def get(self, name):
        return self.desk.look(named('file', name))

    def __contains__(self, name):
        return self.get(name) is not None

    __getitem__ = get


# ---- what is shown

def hexed(data):
    return data.hex() or '_'


def token_list(tokens):
    return ','.join(tokens) or '_'


def shown_glue(glue):
    return ','.join(map(str, glue))


def shown_meaning(meaning):
    kind = meaning[0]
    if kind == 'row':
        return 'row=' + meaning[1].encode('latin-1').hex()
    if kind == 'macro':
        flags = ('l' if meaning.long else '-') + ('' if meaning.first is None else 'o' + token_list(meaning.first))
        return f'macro={flags};{token_list(meaning.pattern)};{token_list(meaning.body)}'
    if kind == 'register':
        return 'reg=' + meaning[1].replace(' ', '.')
    return f'{kind}=' + '.'.join(map(str, meaning[1:]))


def shown_node(node):
    kind = node.kind
    if kind in ('hbox', 'vbox'):
        about = [node.width, node.height, node.depth, node.shift, node.excess, node.used, shown_nodes(node.inside)]
    elif kind == 'char':
        name = 'lig' if getattr(node, 'lig', False) else 'char'
        return f'{name}({node.code},{node.width},{node.height},{node.depth},{node.font.name},{node.font.size})'
    elif kind in ('kern', 'fontkern'):
        about = [node.width]
    elif kind == 'glue':
        about = [node.width, *node.stretch, *node.shrink]
    elif kind == 'penalty':
        about = [node.penalty]
    elif kind == 'rule':
        about = node.given
    elif kind == 'disc':
        about = map(shown_nodes, node.parts)
    elif kind == 'note':
        about = [part if isinstance(part, str) else hexed(part) if isinstance(part, bytes) else shown_tokens(part) for part in node.what]
    else:
        about = [shown_nodes(node.inside)]
    return f'{kind}(' + ','.join(map(str, about)) + ')'


def shown_tokens(tokens):
    return '+'.join(tokens) or '_'


def shown_nodes(nodes):
    return '[' + ','.join(map(shown_node, nodes)) + ']'


def shown(cell, value):
    """A value in its printed form; `-` for none."""
    kind = cell.partition('.')[0]
    if value is None:
        return '-'
    if kind in ('word', 'active'):
        return shown_meaning(value)
    if kind == 'toks':
        return token_list(value)
    if kind in ('counters', 'resets', 'only'):
        return ','.join(map(hexed, value)) or '_'
    if kind == 'label':
        return '/'.join(map(hexed, value))
    if kind == 'checkpoint':
        return ','.join(f'{hexed(name)}={number}' for name, number in value) or '_'
    if kind in ('boxed', 'leftmark', 'rightmark'):
        return shown_node(value)
    if isinstance(value, bytes):
        return hexed(value)
    return shown_glue(value) if isinstance(value, tuple) else str(value)


def differences(before, after):
    """The cells that differ, with their values behind the piece."""
    for cell in sorted(before.keys() | after.keys()):
        value = shown(cell, after.get(cell))
        if before.get(cell) is not after.get(cell) and value != shown(cell, before.get(cell)):
            yield cell, value
