"""The commands of engine.py, each by its name: what it reads, and what it does."""
import aux
import text
from engine_lists import FIL, FILL, SS, STYLES, THICKNESS
from engine_nodes import discretionary, glue_node, lowered, packed, penalty, rule
from engine_parts import NO_LENGTH, Parts
from engine_read import Mark, made, written
from engine_state import cell_of, named, word_cell
from expand import CODES, FORMS, MOST_TOKENS, REFUSED, SIDES, Fault, Macro, Text, code_of, is_space, must, word
from paper import LIMIT, Node
from scan import advanced, on_each, quotient

CODE_RANGES = {'catcode': 15, 'lccode': 255, 'uccode': 255, 'sfcode': 32767}
DEFINITIONS = {'countdef': 'count', 'dimendef': 'dimen', 'skipdef': 'skip', 'toksdef': 'toks'}
REGISTERS = ('count', 'dimen', 'skip', 'toks')
FRESH_OF = {'newcount': 'count', 'newdimen': 'dimen', 'newskip': 'skip', 'newlength': 'skip', 'newtoks': 'toks', 'newsavebox': 'boxed'}
HORIZONTAL = {'hfil': FIL, 'hfill': FILL, 'hss': SS}
VERTICAL = {'vfil': FIL, 'vfill': FILL, 'vss': SS}
MACROS = ('def', 'gdef', 'edef', 'xdef')
ARITHMETIC = ('advance', 'multiply', 'divide')
ASSIGNMENTS = {*MACROS, 'let', 'futurelet', 'chardef', *DEFINITIONS, *REGISTERS, *ARITHMETIC, *CODES, 'setbox', *SIDES}
REFUSED_CATEGORIES = {3: 'MathRefused', 7: 'MathRefused', 8: 'MathRefused', 4: 'AlignRefused', 6: 'TokenMisplaced'}
HYPHEN = 45


def kind_of(cell):
    """The kind of a register or a parameter."""
    kind, name = cell.split('.')
    return {'glue': 'skip'}.get(text.PARAMETER_KINDS[name], text.PARAMETER_KINDS[name]) if kind == 'par' else kind


def numbers_of(value):
    return list(value) if isinstance(value, tuple) else [value]


def letters_of(name):
    """A name as characters."""
    return [f'c{11 if chr(code).isalpha() and code < 128 else 10 if code == 32 else 12}:{code}' for code in name]


class Rows(Parts):
    # a token that is not expanded

    def execute(self, token, protected):
        meaning = self.meaning(token)
        if meaning is not None and self.adds_character(meaning):
            return
        self.finish_word()
        if protected and self.can_expand(token):
            if meaning is None:
                raise Fault(REFUSED.get(token, 'Undefined'))
        elif meaning[0] == 'char':
            self.category(meaning[1])
        elif self.is_assignment(meaning):
            self.assign(meaning, False, False)
        else:
            self.row_of(meaning[1])

    def adds_character(self, meaning):
        """Characters belong to the word that is open."""
        if meaning[0] == 'char' and meaning[1] in (text.LETTER, text.OTHER):
            self.character(meaning[2])
        elif meaning[0] == 'number':
            self.character(meaning[1])
        elif meaning == ('row', 'char'):
            self.begin_in_vertical()
            self.character(self.code_number())
        else:
            return False
        return True

    def category(self, category):
        if category == text.BEGIN_GROUP:
            self.cells.open('simple')
        elif category == text.END_GROUP:
            self.end_group()
        elif category != text.SPACE:
            raise Fault(REFUSED_CATEGORIES.get(category, 'TokenMisplaced'))
        elif self.mode != 'V':
            self.space()

    def row_of(self, name):
        row = ROWS.get(name)
        if row is None:
            raise Fault('TokenMisplaced')
        row(self, name)

    def only_in_paragraph(self):
        if self.mode != 'H':
            raise Fault('WrongMode')

    def not_vertical(self):
        if self.mode == 'V':
            raise Fault('WrongMode')

    def to_vertical(self):
        self.not_restricted()
        self.end_paragraph()

    # groups

    def end_group(self):
        kind = self.cells.innermost()
        if kind == 'simple':
            self.leave_group()
        elif kind == 'material':
            self.cells.groups[-1].finish()
        else:
            raise Fault('GroupExtra')

    def end_semi(self, name=None):
        if self.cells.innermost() != 'semi':
            raise Fault('GroupExtra')
        self.leave_group()

    def begin_semi(self, name):
        self.cells.open('semi')

    def after_group(self, name):
        token = must(self.plain())
        if self.cells.groups:
            after = self.cells.groups[-1].after
            if len(after) == MOST_TOKENS:
                raise Fault('DepthLimit')
            after.append(token)

    # assignments

    @staticmethod
    def is_assignment(meaning):
        return meaning[0] == 'register' or meaning[0] == 'row' and meaning[1] in ASSIGNMENTS

    def prefix(self, name):
        long, everywhere = name == 'long', name == 'global'
        while True:
            token, protected = self.expanded()
            meaning = self.meaning(must(token))
            if protected and self.can_expand(token):
                raise Fault('TokenMisplaced')
            if is_space(token):
                continue
            if meaning in (('row', 'long'), ('row', 'global')):
                long |= meaning[1] == 'long'
                everywhere |= meaning[1] == 'global'
            elif self.is_assignment(meaning):
                return self.assign(meaning, everywhere, long)
            else:
                raise Fault('TokenMisplaced')

    def assign(self, meaning, everywhere, long):
        kind, name = meaning
        if kind == 'register':
            self.assign_register(name.replace(' ', '.'), everywhere)
        elif name in MACROS:
            self.define(name, everywhere, long)
        elif name in REGISTERS:
            self.assign_register(f'{name}.{self.register_number()}', everywhere)
        elif name in ARITHMETIC:
            self.arithmetic(name, everywhere)
        elif name in CODES:
            self.assign_code(name, everywhere)
        elif name in SIDES:
            self.assign_side(name, everywhere)
        elif name in DEFINITIONS or name == 'chardef':
            self.define_register(name, everywhere)
        else:
            {'let': self.let, 'futurelet': self.future_let, 'setbox': self.set_box}[name](everywhere)

    def define(self, name, everywhere, long):
        token = self.name_token()
        pattern, count, brace = self.parameter_text()
        body = self.expanded_body(count) if name[0] in 'ex' else self.plain_body(count)
        body += [brace] if brace else []
        macro = Macro('macro', long, None, tuple(pattern), tuple(body))
        self.cells.set(cell_of(token), macro, everywhere or name[0] in 'gx')

    def let(self, everywhere):
        token = self.name_token()
        other = must(self.plain())
        while other.startswith('c10:'):
            other = must(self.plain())
        if other == 'c12:61':
            other = must(self.plain())
            if other.startswith('c10:'):
                other = must(self.plain())
        self.cells.set(cell_of(token), self.meaning(other), everywhere)

    def future_let(self, everywhere):
        token = self.name_token()
        first, second = must(self.plain()), must(self.plain())
        self.cells.set(cell_of(token), self.meaning(second), everywhere)
        self.back(first, second)

    def define_register(self, name, everywhere):
        token = self.name_token()
        self.equals()
        number = self.code_number()
        meaning = ('number', number) if name == 'chardef' else ('register', f'{DEFINITIONS[name]} {number}')
        self.cells.set(cell_of(token), meaning, everywhere)

    def value_of(self, kind):
        readings = {'count': self.number, 'dimen': self.dimension, 'skip': self.glue, 'toks': self.tokens_value}
        return readings[kind]()

    def tokens_value(self):
        token = self.expanded_solid()
        if self.begins(token):
            return tuple(self.group())
        tokens = self.register_tokens(token)
        if tokens is None:
            raise Fault('TokenMisplaced')
        return tuple(tokens)

    def assign_register(self, cell, everywhere):
        self.equals()
        self.cells.set(cell, self.value_of(kind_of(cell)), everywhere)

    def target(self):
        """The cell of the quantity that comes next."""
        meaning = self.meaning(must(self.next())) or ('none',)
        if meaning[0] == 'register':
            cell = meaning[1].replace(' ', '.')
        elif meaning[0] == 'row' and meaning[1] in REGISTERS[:3]:
            cell = f'{meaning[1]}.{self.register_number()}'
        else:
            raise Fault('TokenMisplaced')
        if kind_of(cell) == 'toks':
            raise Fault('TokenMisplaced')
        return cell

    def arithmetic(self, operation, everywhere):
        cell = self.target()
        kind = kind_of(cell)
        self.keyword('by')
        by = numbers_of(self.value_of(kind if operation == 'advance' else 'count'))
        old = self.cells.look(cell)
        old = numbers_of((NO_LENGTH if kind == 'skip' else 0) if old is None else old)
        if operation == 'advance':
            new = advanced(old, by)
        elif operation == 'multiply':
            new = on_each(old, lambda number: number * by[0])
        elif by[0] == 0:
            raise Fault('Overflow')
        else:
            new = on_each(old, lambda number: quotient(number, by[0]))
        most = text.WORD if kind == 'count' else LIMIT - 1
        if any(abs(number) > most for number in new):
            raise Fault('Overflow')
        self.cells.set(cell, tuple(new) if kind == 'skip' else new[0], everywhere)

    def assign_code(self, name, everywhere):
        cell = f'{CODES[name]}.{self.code_number()}'
        self.equals()
        value = self.number()
        if not 0 <= value <= CODE_RANGES[name]:
            raise Fault('BadCode')
        self.cells.set(cell, value, everywhere)

    def assign_side(self, name, everywhere):
        cell = f'boxed.{self.register_number()}'
        self.equals()
        size = self.dimension()
        box = self.cells.look(cell)
        if box is not None:
            box = lowered(box, box.shift)
            setattr(box, {'wd': 'width', 'ht': 'height', 'dp': 'depth'}[name], size)
            self.cells.set(cell, box, everywhere)

    def set_box(self, everywhere):
        cell = f'boxed.{self.register_number()}'
        self.equals()
        self.box(lambda box: self.cells.set(cell, box, everywhere))

    def new_register(self, name):
        token = self.name_token()
        kind = FRESH_OF[name]
        number = self.cells.look(f'fresh.{kind}')
        if number == 256:
            raise Fault('Overflow')
        self.cells.set(f'fresh.{kind}', number + 1)
        self.cells.set(cell_of(token), ('number', number) if kind == 'boxed' else ('register', f'{kind} {number}'))

    def new_if(self, name):
        token = self.name_token()
        whole = bytes.fromhex(token[1:]) if token[0] == 'w' else b''
        if not whole.startswith(b'if') or whole == b'if':
            raise Fault('TokenMisplaced')
        self.cells.set(cell_of(token), ('row', 'iffalse'))
        for value in (b'true', b'false'):
            body = (word(b'let'), token, word(b'if' + value))
            self.cells.set(word_cell(whole[2:] + value), Macro('macro', False, None, (), body))

    # commands and environments

    def parameters_of_command(self):
        """The number of parameters, and the default of an optional first one."""
        brackets = self.bracket()
        if brackets is None:
            return 0, None
        count = self.within(brackets, self.number)
        return count, self.bracket()

    def command_macro(self, long, count, first, body):
        if not 0 <= count <= 9 or count == 0 and first is not None:
            raise Fault('BadCode')
        pattern = tuple(f'#{k}' for k in range(1 if first is None else 2, count + 1))
        return Macro('macro', long, None if first is None else tuple(first), pattern, tuple(self.given_body(body, count)))

    def check_new(self, name, cell):
        """Whether a command or an environment is to be defined."""
        there = self.cells.look(cell) is not None
        if name.startswith('new') and there:
            raise Fault('AlreadyDefined')
        if name.startswith('renew') and not there:
            raise Fault('Undefined')
        return not (name.startswith('provide') and there)

    def new_command(self, name):
        long = not self.star()
        tokens = self.argument()
        if len(tokens) != 1 or tokens[0][0] not in 'wa':
            raise Fault('TokenMisplaced')
        count, first = self.parameters_of_command()
        macro = self.command_macro(long, count, first, self.argument())
        if self.check_new(name, cell_of(tokens[0])):
            self.cells.set(cell_of(tokens[0]), macro)

    def new_environment(self, name):
        environment = self.word()
        count, first = self.parameters_of_command()
        begin, end = self.argument(), self.argument()
        begin = self.command_macro(True, count, first, begin)
        end = Macro('macro', True, None, (), tuple(self.given_body(end, 0)))
        self.check_new(name, word_cell(environment))
        self.cells.set(word_cell(environment), begin)
        self.cells.set(word_cell(b'end' + environment), end)

    def change_case(self, name):
        kind = 'uc' if name == 'uppercase' else 'lc'
        self.back(*[self.other_case(token, kind) for token in self.argument()])

    def other_case(self, token, kind):
        if token[0] == 'w':
            return token
        code = int(token[1:]) if token[0] == 'a' else code_of(token)
        other = self.cells.look(f'{kind}.{code}') or code
        return token[:len(token) - len(str(code))] + str(other)

    # boxes, rules, glue

    def plain_box(self, name):
        self.box_of(name, self.add_box)

    def shifted_box(self, name):
        self.not_vertical()
        size = self.dimension()
        shift = -size if name == 'raise' else size
        self.box(lambda box: self.add_box(None if box is None else lowered(box, shift)))

    def rule_row(self, name):
        if name == 'hrule':
            self.to_vertical()
            sizes = {'width': 'x', 'height': THICKNESS, 'depth': 0}
        else:
            self.begin_in_vertical()
            sizes = {'width': THICKNESS, 'height': 'x', 'depth': 'x'}
        while word_found := next((word_ for word_ in sizes if self.keyword(word_)), None):
            sizes[word_found] = self.dimension()
        self.add_rule(*sizes.values())

    def horizontal_glue(self, name):
        self.begin_in_vertical()
        self.append_glue(self.glue() if name == 'hskip' else HORIZONTAL[name])

    def vertical_glue(self, name):
        self.to_vertical()
        self.append_glue(self.glue() if name == 'vskip' else VERTICAL[name])

    def kern_row(self, name):
        self.append(Node('kern', width=self.dimension()))

    def penalty_row(self, name):
        self.append(penalty(self.number()))

    def unskip(self, name=None):
        nodes = self.level.nodes
        if nodes and nodes[-1].kind == 'glue':
            nodes.pop()

    def ignore_spaces(self, name):
        """The spaces go that come before the next token; that one is executed as it was taken, and is not put back."""
        self.skips_spaces = True

    def italic(self, name):
        self.not_vertical()
        nodes = self.level.nodes
        if nodes and nodes[-1].kind == 'char':
            nodes.append(Node('kern', width=nodes[-1].italic))

    def control_space(self, name):
        self.begin_in_vertical()
        self.space(1000)

    def hyphen(self, name):
        self.begin_in_vertical()
        font = self.font()
        first = [font.character(HYPHEN)] if self.has(font, HYPHEN) else []
        self.append(discretionary([first, [], []]))

    def discretionary_row(self, name):
        self.begin_in_vertical()
        arguments = [self.argument() for _ in range(3)]
        self.from_each('horizontal', arguments, lambda parts: self.append(discretionary(parts)))

    def adjust(self, name):
        self.only_in_paragraph()
        self.from_tokens('vertical', self.argument(), self.add_adjust)

    def add_adjust(self, nodes):
        self.append(Node('adjust', inside=nodes))

    def footnote(self, name):
        self.only_in_paragraph()
        self.from_tokens('vertical', self.argument(), lambda box: self.append(Node('ins', inside=[box])), pack=lambda nodes: packed('vbox', nodes))

    def new_line(self, name):
        self.only_in_paragraph()
        star = self.star()
        brackets = self.bracket()
        size = None if brackets is None else self.within(brackets, self.dimension)
        self.unskip()
        material = [penalty(10000)] * star + [glue_node((size, 0, 0, 0, 0))] * (size is not None)
        if material:
            self.add_adjust(material)
        for node in (penalty(10000), glue_node(FIL), penalty(-10000)):
            self.append(node)

    def horizontal_space(self, name):
        # the argument is taken, a paragraph begins, and only then the glue is read: as by \hskip, which stands before the argument's tokens
        star = self.star()
        tokens = self.argument()
        self.begin_in_vertical()
        glue = self.within(tokens, self.glue)
        if star:
            self.append(rule(0, 'x', 'x'))
            self.append(penalty(10000))
        self.append_glue(glue)
        if star:
            self.append_glue(NO_LENGTH)

    def vertical_space(self, name):
        self.not_restricted()
        star = self.star()
        glue = glue_node(self.within(self.argument(), self.glue))
        nodes = [rule('x', 0, 0), penalty(10000), glue, glue_node(NO_LENGTH)] if star else [glue]
        if self.mode == 'H':
            self.add_adjust(nodes)
        else:
            for node in nodes:
                self.append(node)

    def indent(self, name):
        if self.mode == 'V':
            self.begin_paragraph(name != 'noindent')
        elif self.mode == 'H' and name == 'indent':
            _, indent = self.parameters('parskip', 'parindent')
            self.append(packed('hbox', [], 'to', indent))

    # the document

    def before_document(self):
        if self.cells.look('body') == 1:
            raise Fault('NotPreamble')

    def document_class(self, name):
        self.before_document()
        brackets = self.bracket()
        options = None if brackets is None else self.characters_of(brackets)
        if self.word() != b'book':
            raise Fault('ClassRefused')
        if options is not None:
            self.log.append(b'Class options: ' + options + b'\n')

    def characters_of(self, tokens):
        self.begin()
        found = self.to_characters(tokens)
        self.end()
        return found

    def include_only(self, name):
        self.before_document()
        self.cells.set('only', tuple(self.word().replace(b' ', b'').split(b',')))

    def include(self, name):
        raise Fault('IncludeInside')

    def begin_environment(self, name):
        environment = self.word()
        if environment == b'document':
            self.begin_document()
            return
        self.cells.open('semi')
        self.cells.set('env', environment)
        self.back(word(environment))

    def begin_document(self):
        self.cells.set('body', 1)
        job = self.cells.job
        self.cells.set('par.hsize', self.cells.look('par.textwidth'))
        told = aux.read(self.cells.files.get(job + b'.aux') or b'')
        seen = set()
        for what in told:
            self.read_aux(what, seen)
            if what[0] == 'input':
                for inner in aux.read(self.cells.files.get(what[1]) or b''):
                    self.read_aux(inner, seen)

    def read_aux(self, what, seen):
        kind, name, *rest = what
        if kind == 'label':
            if name in seen:
                self.log.append(b'Label ' + name + b' multiply defined\n')
            seen.add(name)
            self.cells.set(named('label', name), tuple(rest))
        elif kind == 'checkpoint':
            self.cells.set(named('checkpoint', name), tuple(rest[0]))

    def end_of_environment(self, name):
        environment = self.word()
        token = word(b'end' + environment)
        has_meaning = self.meaning(token) is not None
        self.list.append(Mark(environment))
        if has_meaning:
            self.back(token)

    def close_environment(self, environment):
        self.finish_word()
        if self.cells.look('env') != environment:
            raise Fault('EnvironmentMismatch')
        self.end_semi()

    # counters and labels

    def new_counter(self, name):
        counter = self.word()
        brackets = self.bracket()
        within = None if brackets is None else self.characters_of(brackets)
        if self.cells.look(named('counter', counter)) is not None:
            raise Fault('AlreadyDefined')
        counters = self.cells.look('counters')
        if within is not None:
            self.counter_cell(within)
            inner = self.cells.look(named('resets', within)) or ()
            self.cells.set(named('resets', within), (*inner, counter))
        self.cells.set(named('counter', counter), 0)
        self.cells.set('counters', (*counters, counter))
        body = (word(b'arabic'), 'c1:123', *letters_of(counter), 'c2:125')
        self.cells.set(word_cell(b'the' + counter), Macro('macro', False, None, (), body))

    def change_counter(self, name):
        counter = self.word()
        number = self.number_in_braces()
        if name == 'setcounter':
            self.set_counter(counter, number)
        else:
            self.step_counter(counter, number, resets=False)

    def count_on(self, name):
        counter = self.word()
        self.step_counter(counter)
        if name == 'refstepcounter':
            self.label_counter(counter)

    def label(self, name):
        key = self.word()
        self.append(Node('note', what=('label', key, self.cells.look('currentlabel'))))

    def reference(self, name):
        self.begin_in_vertical()
        key = self.word()
        pair = self.cells.look(named('label', key))
        if pair is None:
            self.log.append(b'Reference ' + key + b' undefined\n')
            self.back(*made(r'{\bfseries ??}'))
        else:
            self.back(*made(pair[name == 'pageref']))

    def type_out(self, name):
        self.log.append(written(self.expanded_list(self.argument())) + b'\n')

    def page_style(self, name):
        style = self.word().decode('latin-1')
        if style not in STYLES:
            raise Fault('BadCode')
        self.cells.set('pagestyle' if name == 'pagestyle' else 'thisstyle', style)

    def page_numbering(self, name):
        form = self.word().decode('latin-1')
        if form not in FORMS:
            raise Fault('BadCode')
        self.cells.set('pageform', form)
        # this counter is not named by the row, and what it was before does not matter: it is not looked at
        self.cells.set(named('counter', b'page'), 1)

    def mark(self, name):
        arguments = [self.argument() for _ in range(2 if name == 'markboth' else 1)]
        kind = 'both' if name == 'markboth' else 'right'
        add = lambda boxes: self.append(Node(kind, inside=boxes))
        self.from_each('horizontal', arguments, add, self.mark_font, lambda nodes: packed('hbox', nodes))

    def mark_font(self):
        self.cells.set('size', 4)
        self.cells.set('style', 0)

    def contents_entry(self, name):
        ext, kind = self.word(), self.word()
        self.append(Node('note', what=('contents', ext, kind, tuple(self.argument()))))

    def style_row(self, name):
        number = self.number()
        if not 0 <= number <= 5:
            raise Fault('BadCode')
        self.cells.set('style', number)

    def size_row(self, name):
        number = self.number()
        if not 0 <= number <= 9:
            raise Fault('BadCode')
        self.cells.set('size', number)
        self.cells.set('par.baselineskip', (text.scaled(text.SKIPS[number]), 0, 0, 0, 0))

    def matter(self, name):
        number = self.number()
        if not 0 <= number <= 2:
            raise Fault('BadCode')
        self.cells.set('matter', number)

    def wait_plain(self, name):
        self.plain_next = True

    def toc(self, name):
        self.cells.set('toc', 1)
        file = self.cells.job + b'.toc'
        data = self.cells.files.get(file)
        if data is not None:
            if self.texts > 100:
                raise Fault('DepthLimit')
            self.texts += 1
            self.list.append(Text(file, 1, data))


def several(names, row):
    return dict.fromkeys(names.split(), row)


def alone(method):
    """A command that needs no name."""
    return lambda self, name: method(self)


ROWS = {
    'relax': lambda self, name: None, ' ': Rows.control_space, 'par': alone(Rows.end_paragraph), 'begingroup': Rows.begin_semi,
    'endgroup': Rows.end_semi, 'aftergroup': Rows.after_group, 'newif': Rows.new_if, 'unskip': Rows.unskip,
    'ignorespaces': Rows.ignore_spaces, '/': Rows.italic, '-': Rows.hyphen, 'discretionary': Rows.discretionary_row, 'vadjust': Rows.adjust,
    '@ins': Rows.footnote, '\\': Rows.new_line, 'hspace': Rows.horizontal_space, 'vspace': Rows.vertical_space,
    'documentclass': Rows.document_class, 'includeonly': Rows.include_only, 'begin': Rows.begin_environment, 'end': Rows.end_of_environment,
    'include': Rows.include, 'newcounter': Rows.new_counter, 'label': Rows.label, 'typeout': Rows.type_out,
    'pagenumbering': Rows.page_numbering, 'addcontentsline': Rows.contents_entry, '@style': Rows.style_row, '@size': Rows.size_row,
    '@matter': Rows.matter, '@plainnext': Rows.wait_plain, '@toc': Rows.toc, '@head': alone(Rows.head),
    'contentsline': alone(Rows.contents_line), '@list': alone(Rows.begin_list), 'item': alone(Rows.item), '@endlist': alone(Rows.end_list),
    'kern': Rows.kern_row, 'penalty': Rows.penalty_row,
    **several('long global', Rows.prefix), **several('newcommand renewcommand providecommand', Rows.new_command),
    **several('newenvironment renewenvironment', Rows.new_environment), **several(' '.join(FRESH_OF), Rows.new_register),
    **several('uppercase lowercase', Rows.change_case), **several('hbox vbox box copy', Rows.plain_box),
    **several('raise lower', Rows.shifted_box), **several('hrule vrule', Rows.rule_row), **several('indent noindent leavevmode', Rows.indent),
    **several('hskip hfil hfill hss', Rows.horizontal_glue), **several('vskip vfil vfill vss', Rows.vertical_glue),
    **several('setcounter addtocounter', Rows.change_counter), **several('stepcounter refstepcounter', Rows.count_on),
    **several('ref pageref', Rows.reference), **several('pagestyle thispagestyle', Rows.page_style), **several('markboth markright', Rows.mark)}
