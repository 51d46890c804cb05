"""What the commands of engine.py read, over the feeder of expand.py: tokens up to a mark, stars, brackets, values in braces, bodies of macros."""
import expand
from expand import (
    BRACKET, CLOSING_BRACKET, END_GROUP, SPACE, Fault, Feeder, Line, closes_group, code_of, is_character, is_space, must, opens_group, put)

STAR = 'c12:42'
EQUALS = 'c12:61'


class Mark:
    """Stands in the list of tokens where the end of an environment is to be done. Nothing is read over it."""

    def __init__(self, name):
        self.name = name


def parameter_number(token):
    """The number of a digit from 1 to 9 as a character of category 12, or 0."""
    return code_of(token) - 48 if token.startswith('c12:') and 49 <= code_of(token) <= 57 else 0


def is_parameter(token):
    return token.startswith('c6:')


def can_be_named(token):
    return token[0] in 'wa'


def made(line, with_at=True):
    """The tokens of a line under the categories at the start, with @ a letter, without an end of line."""
    def category(code):
        return expand.text.LETTER if code == 64 and with_at else expand.text.category(code)
    line = Line(line.encode('latin-1') if isinstance(line, str) else line)
    found = []
    while (token := line.token(category)) is not None:
        found.append(token)
    return found


def written(tokens):
    """A token list as it is written to a file."""
    return b''.join(map(written_token, tokens))


def written_token(token):
    if token[0] == 'w':
        name = bytes.fromhex(token[1:])
        symbol = len(name) == 1 and not (name.isalpha() and name[0] < 128)
        return b'\\' + name + (b'' if symbol else b' ')
    if token[0] == 'a':
        return bytes([int(token[1:])])
    return bytes([code_of(token)]) * (2 if is_parameter(token) else 1)


class Reader(Feeder):
    """The feeder with marks. A token behind \\noexpand tells its meaning as soon as it is taken."""

    def at_mark(self):
        return bool(self.list) and isinstance(self.list[-1], Mark)

    def plain(self, skipping=False):
        if self.at_mark():
            if self.in_body and not skipping:
                raise Fault('Runaway')
            return None
        while self.list:
            if isinstance(self.list[-1], str):
                return self.pending_token()
            token = self.of_text(self.list[-1])
            if token is not None:
                return token
            if self.in_body and not skipping:
                raise Fault('Runaway')
            self.list.pop()
            self.texts -= 1
            if self.at_mark():
                return self.plain(skipping)
        return None

    def in_file(self):
        return None if self.at_mark() else super().in_file()

    def innermost(self):
        return next((item for item in reversed(self.list) if isinstance(item, expand.Text)), None)

    def expanded(self, body=None):
        while True:
            token = self.plain()
            if token is None:
                return None, False
            row = self.row(token)
            if row == 'noexpand':
                kept = must(self.plain())
                self.meaning(kept)
                return kept, True
            if not self.can_expand(token):
                return token, False
            if row == 'the' and body is not None:
                self.the(body)
            else:
                self.expand(token)

    def compared(self):
        token, protected = self.expanded()
        token = must(token)
        meaning = self.meaning(token)
        if protected and token.startswith('a') and self.can_expand(token):
            return int(token[1:]), expand.text.ACTIVE
        if meaning is not None and meaning[0] == 'char':
            return meaning[2], meaning[1]
        return 256, 16

    # what a row takes

    def expanded_solid(self):
        """The next expanded token that is no space."""
        token = must(self.next())
        while is_space(token):
            token = must(self.next())
        return token

    def name_token(self):
        """A token that a meaning can be given to."""
        token = must(self.plain())
        if not can_be_named(token):
            raise Fault('TokenMisplaced')
        return token

    def argument(self):
        return self.undelimited(long=True)

    def peeked(self, wanted):
        """Whether this token comes next in the text, spaces aside; it is taken, and what came in its place is put back."""
        token = self.in_file()
        while token == SPACE:
            token = self.in_file()
        if token == wanted:
            return True
        if token is not None:
            self.back(token)
        return False

    def star(self):
        return self.peeked(STAR)

    def bracket(self):
        """What stands in brackets, None where no bracket comes."""
        return self.delimited([CLOSING_BRACKET], long=True) if self.peeked(BRACKET) else None

    def equals(self):
        """An equals sign that may come."""
        token = self.next()
        while token is not None and is_space(token):
            token = self.next()
        if token is not None and token != EQUALS:
            self.back(token)

    def within(self, tokens, reading):
        """A value that these tokens are, spaces behind it aside."""
        self.back(*tokens, END_GROUP)
        value = reading()
        token = self.expanded_solid()
        if not closes_group(token):
            raise Fault('TokenMisplaced')
        return value

    def number_in_braces(self):
        return self.within(self.argument(), self.number)

    def glue(self):
        return tuple(map(int, self.scan('glue').split(',')))

    def keyword(self, name):
        return self.scan('word:' + name.encode().hex()) == '1'

    def begin_group_token(self):
        """A begin group, explicit or not."""
        token = self.expanded_solid()
        if not self.begins(token):
            raise Fault('TokenMisplaced')

    def begins(self, token):
        meaning = self.meaning(token)
        return meaning is not None and meaning[:2] == ('char', 1)

    def expanded_list(self, tokens):
        """A text in braces, expanded as far as it goes."""
        self.back(*tokens, END_GROUP)
        found, depth = [], 0
        while True:
            token = must(self.next())
            if is_character(token):
                depth += opens_group(token) - closes_group(token)
            if depth < 0:
                return found
            put(found, [token])

    # macros

    def parameter_text(self):
        """The tokens before a body, how many parameters are among them, and the brace that ends them and belongs to them, if any."""
        found, count = [], 0
        while True:
            token = must(self.in_file())
            if opens_group(token):
                return found, count, None
            if closes_group(token):
                raise Fault('TokenMisplaced')
            if is_parameter(token):
                token = must(self.in_file())
                if opens_group(token):
                    put(found, [token])
                    return found, count, token
                if count == 9 or parameter_number(token) != count + 1:
                    raise Fault('TokenMisplaced')
                count += 1
                token = f'#{count}'
            put(found, [token])

    def of_body(self, token, following, count):
        """What a token of a body stands for: a parameter with the token behind it."""
        if not is_parameter(token):
            return token
        token = following()
        if is_parameter(token):
            return token
        if not 1 <= parameter_number(token) <= count:
            raise Fault('TokenMisplaced')
        return f'#{parameter_number(token)}'

    # A body whose opening brace was taken is read up to its end before its parameters are looked for: a parameter that is wrong is a fault
    # behind its closing brace.

    def plain_body(self, count):
        return self.given_body(self.group(), count)

    def expanded_body(self, count):
        return self.given_body(self.body(), count)

    def given_body(self, tokens, count):
        """The body of a macro, from the tokens between its braces."""
        rest = list(reversed(tokens))
        found = []

        def following():
            if not rest:
                raise Fault('TokenMisplaced')
            return rest.pop()
        while rest:
            found.append(self.of_body(rest.pop(), following, count))
        return found
