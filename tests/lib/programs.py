"""Random programs of the source language, well typed or with slips, damage to their texts, and odd texts."""
import collections
import json

OPERATORS = '+ - * / % & | ^ << >>'.split()
COMPARISONS = '== != < <= > >='.split()
NUMBERS = (0, 1, 2, 3, 5, 7, 8, 9, 63, 64, 65, 100, 1 << 31, 1 << 62, (1 << 63) - 1)
LENGTHS = (1, 2, 3, 4, 7, 8, 9, 16, 17, 20, 64, 100, 512, 513, 1000)
WORDS = (0, 1, -1, 2, 7, 8, 64, 1000, -(1 << 63), (1 << 63) - 1)

Variable = collections.namedtuple('Variable', 'name secret length')
"""A variable; its length is None where it is a scalar."""

Set = collections.namedtuple('Set', 'name index value')
"""An assignment; its index is None where it is to a scalar. Expressions are lists of pieces of text and of expressions."""

Branch = collections.namedtuple('Branch', 'guard first second')
"""A choice; its second block is None where there is no `else`."""

Loop = collections.namedtuple('Loop', 'guard body')


class Maker:
    """Makes one program. With slips, some names are taken that don't fit."""

    def __init__(self, rng, slips=0.0):
        self.rng, self.slips = rng, slips
        self.variables = [Variable(f'{rng.choice("xyzvw")}{number}', rng.random() < 0.5, None) for number in range(rng.randint(2, 7))]
        self.variables += [Variable(f'{rng.choice("abcde")}{number}', rng.random() < 0.75, rng.choice(LENGTHS))
                           for number in range(rng.choice((0, 1, 2, 4, 6, 12)))]
        rng.shuffle(self.variables)
        # arrays that may have a secret index, so that others stay out of the oblivious banks
        self.hidden = {variable.name for variable in self.variables if rng.random() < 0.4}
        self.left = rng.choice((3, 8, 8, 20, 20, 40, 40, 150))

    def variable(self, fits):
        """One of the variables that fit, if there is one; a slip takes any, or a name that isn't declared."""
        if self.rng.random() < self.slips:
            return self.rng.choice(self.variables + [Variable('none', False, None)])
        found = [variable for variable in self.variables if fits(variable)]
        return self.rng.choice(found) if found else None

    def element(self, secret, depth):
        """An element of an array; of a public one, or of one that isn't hidden, the index is public."""
        array = self.variable(lambda one: one.length is not None and (secret or not one.secret))
        if array is None:
            return str(self.rng.choice(NUMBERS))
        hidden = array.secret and array.name in self.hidden and self.rng.random() < 0.5
        return [array.name, '[', self.expression(hidden, depth - 1), ']']

    def expression(self, secret, depth):
        """An expression without secrets, or one that may have some."""
        kind = self.rng.random()
        if depth <= 0 or kind < 0.2:
            scalar = self.variable(lambda one: one.length is None and (secret or not one.secret))
            return str(self.rng.choice(NUMBERS)) if scalar is None or self.rng.random() < 0.3 else scalar.name
        if kind < 0.45:
            return self.element(secret, depth)
        if kind < 0.52:
            return ['-', self.expression(secret, depth - 1)]
        made = [self.expression(secret, depth - 1), f' {self.rng.choice(OPERATORS)} ', self.expression(secret, depth - 1)]
        # without brackets the operators group otherwise, which changes no type
        return ['(', made, ')'] if self.rng.random() < 0.6 else made

    def guard(self, secret):
        depth = self.rng.choice((0, 0, 1, 2))
        return [self.expression(secret, depth), f' {self.rng.choice(COMPARISONS)} ', self.expression(secret, self.rng.choice((0, 0, 1)))]

    def assignment(self, code):
        """An assignment in secret code or not."""
        secret = code or self.rng.random() < 0.6
        wants_array = self.rng.random() < 0.4
        target = self.variable(lambda one: one.secret == secret and (one.length is not None) == wants_array)
        if target is None:
            target = self.variable(lambda one: one.secret or not code)
        if target is None:
            return None
        index = None
        if target.length is not None:
            hidden = target.secret and target.name in self.hidden and self.rng.random() < 0.5
            index = self.expression(hidden, self.rng.choice((0, 1, 2)))
        return Set(target.name, index, self.expression(target.secret, self.rng.choice((0, 1, 2, 2, 3, 4))))

    def varied(self, block):
        """A block that shows much the same as another: some numbers, scalars and arrays are others."""
        text = lambda piece: [text(one) for one in piece] if isinstance(piece, list) else self.varied_piece(piece)
        made = [one._replace(value=text(one.value)) if isinstance(one, Set) else one for one in block]
        if made and self.rng.random() < 0.3:
            del made[self.rng.randrange(len(made))]
        return made

    def varied_piece(self, piece):
        if self.rng.random() < 0.8:
            return piece
        if piece.isdecimal():
            return str(self.rng.choice(NUMBERS))
        return f' {self.rng.choice(OPERATORS)} ' if piece.strip() in OPERATORS and piece != '-' else piece

    def block(self, code, depth):
        made = []
        for _ in range(self.rng.choice((0, 1, 1, 2, 3, 4))):
            if self.left <= 0:
                break
            self.left -= 1
            made.append(self.statement(code, depth))
        return [one for one in made if one is not None]

    def statement(self, code, depth):
        kind = self.rng.random()
        if depth > 0 and kind < 0.3:
            secret = code or self.rng.random() < 0.6
            guard = self.guard(secret)
            first = self.block(secret, depth - 1)
            pick = self.rng.random()
            second = None if pick < 0.3 else self.varied(first) if pick < 0.65 else self.block(secret, depth - 1)
            return Branch(guard, first, second)
        if depth > 0 and kind < 0.45 and (not code or self.rng.random() < self.slips):
            return self.loop(code, depth)
        return self.assignment(code)

    def loop(self, code, depth):
        """A loop that mostly counts up to some number."""
        body = self.block(code, depth - 1)
        counter = self.variable(lambda one: one.length is None and not one.secret)
        if counter is None or self.rng.random() < 0.2:
            return Loop(self.guard(self.rng.random() < self.slips), body)
        body.append(Set(counter.name, None, [counter.name, ' + ', self.rng.choice('1112357')]))
        return Loop([counter.name, self.rng.choice((' < ', ' <= ', ' != ')), self.rng.choice('012355')], body)

    def text(self):
        lines = [f'{"secret" if one.secret else "public"} int {one.name}{"" if one.length is None else f"[{one.length}]"};'
                 for one in self.variables]
        while self.left > 0:
            self.left -= 1
            lines.extend(shown(self.statement(False, self.rng.choice((1, 2, 3, 5)))))
        return '\n'.join(lines) + '\n'

    def inputs(self):
        """Words for some of the variables."""
        word = lambda: self.rng.choice(WORDS)
        given = {one.name: word() if one.length is None else [word() for _ in range(one.length)]
                 for one in self.variables if self.rng.random() < 0.6}
        return json.dumps(given)


def joined(pieces):
    return pieces if isinstance(pieces, str) else ''.join(joined(piece) for piece in pieces)


def shown(statement):
    """The lines of a statement."""
    if statement is None:
        return
    if isinstance(statement, Set):
        index = '' if statement.index is None else f'[{joined(statement.index)}]'
        yield f'{statement.name}{index} = {joined(statement.value)};'
        return
    blocks = [statement.body] if isinstance(statement, Loop) else [statement.first, statement.second]
    yield f'{"while" if isinstance(statement, Loop) else "if"} ({joined(statement.guard)}) {{'
    for number, block in enumerate(blocks):
        if block is not None:
            if number == 1:
                yield '} else {'
            for inner in block:
                yield from shown(inner)
    yield '}'


def any_program(rng, slips=0.0):
    """The text of a program and inputs for it."""
    maker = Maker(rng, slips)
    text = maker.text()
    return text.encode(), maker.inputs().encode()


PIECES = (b'( ) [ ] { } ; = == != < <= > >= + - * / % & | ^ << >> ! !! // /* if else while public secret int x0 a1 none 0 1 007 12ab '
          b'9223372036854775807 9223372036854775808 99999999999999999999x \xff @ name_of_thirty_two_bytes_in_all_ '
          b'name_of_thirty_three_bytes_in_all').split()


def damaged_source(rng, text):
    """Some pieces of a text left out, put in, doubled or changed, or the text cut off."""
    text = bytearray(text)
    for _ in range(rng.choice((1, 1, 2, 3))):
        at = rng.randrange(len(text) + 1)
        size = rng.choice((0, 1, 1, 2, 5))
        kind = rng.randrange(6)
        if kind == 0:
            del text[at:at + size]
        elif kind == 1:
            text[at:at + size] = rng.choice(PIECES)
        elif kind == 2:
            text[at:at] = b' ' + rng.choice(PIECES) + b' '
        elif kind == 3:
            text[at:at] = text[at:at + rng.randrange(60)]
        elif kind == 4:
            text[at:at + 1] = bytes([rng.choice((9, 10, 13, 32, 95, rng.randrange(256)))])
        elif rng.random() < 0.3:
            del text[at:]
    return bytes(text)


def nested(before, opening, middle, closing, count, behind):
    return before + opening * count + middle + closing * count + behind


def odd_sources():
    """Texts at and behind each limit, and some that end early."""
    one, two = 'public int x; ', 'public int a[9]; secret int s; public int x; '
    texts = ['', ' ', '// no end', one, one + one, 'public int n[0];', 'public int n[01]; n[1] = 007;', 'public int n[-1];', 'x = 1;',
             one + 'x = y;', one + 'x[0] = 1;', two + 'a = 1;', two + 'x = a;', two + 'x = a[s];', two + 'a[s] = 1;', two + 'a[s] = y;',
             two + 'x = s;', two + 'if (a[s] > 0) { }', two + 'while (s > 0) { }', two + 'if (s > 0) { while (x > 0) { } }',
             two + 'if (s > 0) { x = 1; }', two + 'if (s > 0) { } else { s = 1; }', two + 'if (x > 0) { } else { }',
             two + 'while (x > 0) { }', two + 'while (x < 3) { x = x + 1; }', two + 'while (x < 9) { a[x] = a[x - 1] + 1; x = x + 1; }',
             'secret int o[4]; secret int s; o[s] = o[o[s]];', one + 'x = 9223372036854775807 + 1;', one + 'x = 9223372036854775808;',
             one + 'x = 1 @ 2;', one + 'x = 12ab;', one + 'x = 1!;', one + 'x = 1 ! = 2;', one + 'if (x =! 1) { }', one + 'x = 1; }',
             one + 'if (x > 0) { x = 1;', one + 'if (x > 0) { } else if', one + 'x += 1;', one + 'x = 1;;', 'secret', 'public int', 'int x;']
    for count in (15, 16, 17):
        texts.append(one + 'x = ' + '1 + ' * count + '1;')
        texts.append('public int a[2]; ' + nested('a[0] = ', 'a[', '0', ']', count, ';'))
    for count in (31, 32, 33):
        texts.append(nested(one + 'x = ', '(', '1', ')', count, ';'))
        texts.append(nested(one + 'x = ', '-', '1', '', count, ';'))
        texts.append(nested(one + 'x = ', '-(', '1', ')', count // 2, ';'))
        texts.append(nested('public int a[2]; a[', '(', '1', ')', count, '] = 1;'))
        texts.append(nested('public int a[2]; a[1] = ', 'a[', '1', ']', count, ';'))
        texts.append(nested(one + 'if (', '(', '1', ')', count, ' < ' + '(' * count + '1' + ')' * count + ') { }'))
        texts.append(nested(one, 'if (x < 1) { ', '', '} ', count, ''))
        texts.append(nested(one, 'while (x < 0) { ', 'x = 1; ', '} ', count, ''))
        texts.append(nested(one, 'if (x < 1) { } else { ', '', '} ', count, ''))
    for count in (255, 256, 257):
        texts.append(one + 'x = ' + '1 + ' * count + '1;')
        texts.append(one + 'x = ' + '- 1 | ' * (count // 2) + '1;')
        texts.append('public int a[2]; a[' + '1 + ' * 100 + '1] = ' + '1 + ' * (count - 100) + '1;')
        texts.append(one + 'if (' + '1 + ' * 100 + '1 < ' + '1 + ' * (count - 100) + '1) { }')
        texts.append(''.join(f'public int x{number}; ' for number in range(count)) + 'x0 = 1;')
        texts.append(''.join(f'secret int x{number}; ' for number in range(count)) + 'x0 = 1;')
    for count in (4096, 4097):
        texts.append(one + 'x = 1;' * count)
    for depth in (9, 10, 11):
        texts.append('secret int s; ' + nested('', 'if (s > 0) { ', 's = 1; ', '} ', depth, ''))
        texts.append('secret int s; ' + nested('if (s > 0) { ', 'if (0 > 1) { ', 's = 1; ', '} ', depth, '}'))
    for words in (1048575, 1048576, 1048577):
        texts.append(f'public int a[{words}]; a[x] = 1;')
        texts.append(f'public int a[{words}]; a[5] = 1;')
    texts.append('public int a[1048576]; public int b[1048576]; public int c[1048576]; public int d[1048575]; public int x;')
    texts.append('public int a[1048576]; public int b[1048576]; public int c[1048576]; public int d[1048576]; public int x;')
    for words in (524280, 524281):
        texts.append(f'public int a[{words}];')
        texts.append(f'secret int a[{words}];')
        texts.append(f'public int a[{words}]; secret int s; secret int e[{words}]; s = e[s];')
    for words in (32768, 32769):
        texts.append(f'secret int s; secret int e[{words}]; s = e[s];')
    oblivious = ''.join(f'secret int o{number}[{number + 1}]; ' for number in range(19))
    texts.append(oblivious + 'secret int s; ' + ''.join(f's = o{number}[s]; ' for number in range(19)))
    texts.append(oblivious + 'secret int s; if (s > 0) { s = o0[s]; o1[s] = 1; } else { s = o8[s]; o9[s] = 2; }')
    texts.append('x' * 1048577)
    return [text.encode() for text in texts]
