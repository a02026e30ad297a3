"""Random programs for `compile --fast`: arrays of all sizes around that of a block, loops that count through them, branches
on secrets, and numbers that operations treat differently."""
import json

OPERATORS = '+ - * / % & | ^ << >>'.split()
COMPARISONS = '== != < <= > >='.split()
SMALL_NUMBERS = (0, 1, 2, 3, 4, 7, 8, 10, 12, 15, 16, 31, 33, 63, 64, 100, 255, 256, 1000)
EDGES = (0, 1, -1, 2**63 - 1, -2**63, 2**32, 63, 64)
MOST_TEXT = 60000
MOST_TURNS = 60


class Maker:
    """Makes one program for blocks of 2^block_log words. Expressions are public or secret; an element of an encrypted array
    has a public index, and one of an indexed array may have a secret one."""

    def __init__(self, rng):
        self.rng = rng
        self.block_log = rng.choice((3, 3, 4, 4, 5, 6, 7, 8, 9))
        words = 2 ** self.block_log
        many = rng.random() < 0.3
        self.public = [f'p{k}' for k in range(rng.randrange(1, min(words - 4, 12) if many else 4))]
        self.secret = [f's{k}' for k in range(rng.randrange(1, min(words, 30) if many else 6))]
        self.counters = [f'c{k}' for k in range(3)]
        self.plain, self.encrypted, self.indexed = (
            {f'{letter}{k}': self.length() for k in range(rng.choice(counts))}
            for letter, counts in (('a', (0, 1, 2, 3, 4)), ('e', (0, 1, 2, 3, 5)), ('o', (0, 1, 2, 3, 4, 12))))
        self.lengths = {**self.plain, **self.encrypted, **self.indexed}
        self.open = []
        self.turns = 1

    def length(self):
        """The words of an array, often near the words of a block or of a part of one."""
        words, pick = 2 ** self.block_log, self.rng.random()
        if pick < 0.3:
            return self.rng.choice((1, 2, 3, 5, 7, 8, 10))
        if pick < 0.55:
            return max(1, words + self.rng.choice((-3, -1, 0, 0, 1)))
        if pick < 0.8:
            return self.rng.choice((words // 2, words // 4 or 1, words // 2 + 1, words // 2 - 1))
        if pick < 0.95 and self.block_log < 8:
            return self.rng.choice((2 * words, 2 * words + 1, 3 * words - 2, 4 * words, 7 * words))
        return self.rng.randrange(1, 3 * words)

    def number(self):
        pick = self.rng.random()
        if pick < 0.5:
            return str(self.rng.choice(SMALL_NUMBERS))
        if pick < 0.7:
            return str(2 ** self.rng.randrange(63) - (pick > 0.6))
        if pick < 0.8:
            return f'(-{self.rng.choice((1, 2, 3, 8, 9, 2**40))})'
        return str(self.rng.randrange(2 ** self.rng.randrange(1, 63)))

    def operation(self, one, depth):
        """An operation whose operands are numbers, or expressions that `one` makes."""
        pick, operator = self.rng.random(), self.rng.choice(OPERATORS)
        first = self.number() if pick < 0.1 else one(depth - 1)
        second = self.number() if 0.1 <= pick < 0.45 else one(depth - 1)
        return f'({first} {operator} {second})'

    def public_expression(self, depth):
        pick = self.rng.random()
        if depth <= 0 or self.rng.random() < 0.25:
            if pick < 0.4 and self.open:
                return self.rng.choice(self.open)
            return self.rng.choice(self.public + self.counters) if pick < 0.7 else self.number()
        if pick < 0.2 and self.plain:
            return self.element(self.plain, self.public_index, depth - 1)
        return self.operation(self.public_expression, depth)

    def secret_expression(self, depth):
        pick = self.rng.random()
        if depth <= 0 or self.rng.random() < 0.2:
            return self.rng.choice(self.secret) if pick < 0.7 else self.public_expression(0)
        if pick < 0.2 and self.encrypted:
            return self.element(self.encrypted, self.public_index, depth - 1)
        if pick < 0.4 and self.indexed:
            return self.element(self.indexed, self.any_index, depth - 1)
        if pick < 0.5 and self.plain:
            return self.element(self.plain, self.public_index, depth - 1)
        if pick < 0.55:
            return f'(-{self.secret_expression(depth - 1)})'
        return self.operation(self.secret_expression, depth)

    def element(self, arrays, index, depth):
        return f'{self.rng.choice(list(arrays))}[{index(depth)}]'

    def public_index(self, depth):
        pick = self.rng.random()
        if pick < 0.45 and self.open:
            form = self.rng.choice(('@', '@', '@ + 1', '@ - 1', '2 * @ + 1', '@ & 3', '@ % 4', '@ / 2', '@ >> 1'))
            return form.replace('@', self.rng.choice(self.open))
        return self.number() if pick < 0.6 else self.public_expression(depth)

    def any_index(self, depth):
        pick = self.rng.random()
        if pick < 0.3:
            return self.rng.choice(self.secret)
        if pick < 0.5:
            return f'{self.rng.choice(self.secret)} & {self.rng.choice((1, 3, 7, 15, 31, *self.lengths.values()))}'
        return self.public_index(depth) if pick < 0.65 else self.secret_expression(depth)

    def depth(self):
        return self.rng.choice((0, 1, 1, 2, 2, 3, 4, 6)) if self.rng.random() < 0.97 else 13

    def assignment(self, in_secret):
        pick, depth = self.rng.random(), self.depth()
        if not in_secret and pick < 0.15:
            return f'{self.rng.choice(self.public)} = {self.public_expression(depth)};'
        if not in_secret and pick < 0.3 and self.plain:
            return f'{self.element(self.plain, self.public_index, 2)} = {self.public_expression(depth)};'
        if pick < 0.75 and (self.encrypted or self.indexed):
            is_encrypted = self.encrypted and (pick < 0.5 or not self.indexed)
            target = self.element(self.encrypted, self.public_index, 2) if is_encrypted else \
                self.element(self.indexed, self.any_index, 2)
            value = f'{target} + {self.secret_expression(1)}' if self.rng.random() < 0.3 else self.secret_expression(depth)
            return f'{target} = {value};'
        return f'{self.rng.choice(self.secret)} = {self.secret_expression(depth)};'

    def block(self, nesting, in_secret, count=None):
        count = self.rng.randrange(0, 4) if count is None else count
        return ' '.join(self.statement(nesting, in_secret) for _ in range(count))

    def statement(self, nesting, in_secret):
        pick = self.rng.random()
        if nesting > 0 and pick < 0.1:
            return self.branch(self.public_expression, 1, nesting, in_secret)
        if nesting > 0 and pick < 0.4:
            depth = self.depth() if self.rng.random() < 0.5 else 1
            return self.branch(self.secret_expression, depth, nesting, True)
        if nesting > 0 and pick < 0.6 and not in_secret and len(self.open) < 2 and self.turns <= MOST_TURNS:
            return self.loop(nesting)
        return self.assignment(in_secret)

    def branch(self, one, depth, nesting, in_secret):
        guard = f'{one(depth)} {self.rng.choice(COMPARISONS)} {one(1)}'
        first = self.block(nesting - 1, in_secret)
        pick = self.rng.random()
        if pick < 0.3:
            return f'if ({guard}) {{ {first} }}'
        second = first if pick < 0.4 else self.block(nesting - 1, in_secret)
        return f'if ({guard}) {{ {first} }} else {{ {second} }}'

    def loop(self, nesting):
        """A loop that counts, often through an array."""
        counter = self.rng.choice([name for name in self.counters if name not in self.open])
        count = min(self.rng.choice((0, 1, 2, 5, 8, *self.lengths.values())), MOST_TURNS // self.turns + 1)
        guard = self.rng.choice((f'{counter} < {count}', f'{counter} <= {count}', f'{count} > {counter}'))
        self.open.append(counter)
        self.turns *= max(count, 1)
        body = self.block(nesting - 1, False)
        self.turns //= max(count, 1)
        self.open.pop()
        start, step = self.rng.choice((0, 0, 0, 1, 2, -2)), self.rng.choice((1, 1, 1, 2, 3))
        return f'{counter} = {start}; while ({guard}) {{ {body} {counter} = {counter} + {step}; }}'

    def text(self):
        declarations = [f'public int {name};' for name in self.public + self.counters]
        declarations += [f'secret int {name};' for name in self.secret]
        declarations += [f'public int {name}[{length}];' for name, length in self.plain.items()]
        declarations += [f'secret int {name}[{length}];' for name, length in {**self.encrypted, **self.indexed}.items()]
        self.rng.shuffle(declarations)
        body = self.block(self.rng.choice((1, 2, 3, 4, 5)), False, self.rng.randrange(1, 9))
        return '\n'.join(declarations) + '\n' + body.replace('; ', ';\n') + '\n'

    def word(self):
        pick = self.rng.random()
        if pick < 0.6:
            return self.rng.randrange(-3, 20)
        return self.rng.choice(EDGES) if pick < 0.8 else self.rng.randrange(-2**63, 2**63)

    def values(self, scalars, arrays):
        return {**{name: self.word() for name in scalars},
                **{name: [self.word() for _ in range(length)] for name, length in arrays.items()}}

    def inputs(self):
        """Two inputs that agree on what is public."""
        public = self.values(self.public + self.counters, self.plain)
        return [json.dumps({**public, **self.values(self.secret, {**self.encrypted, **self.indexed})}).encode()
                for _ in range(2)]


def resident_program(rng):
    """The text of a program, the logarithm of its block size, and two inputs that agree on what is public."""
    while True:
        maker = Maker(rng)
        text = maker.text()
        if len(text) < MOST_TEXT:
            return text.encode(), maker.block_log, maker.inputs()
