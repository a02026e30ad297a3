"""Follows the run of an object's assembly text on inputs, and says how many cycles go into padding: into instructions
that do nothing, and into the mirrored parts of branches on secrets, with the accesses that these make.

A branch on a secret is one with an instruction that does nothing behind it; no other code has any
(branch_padding/specs: Padded). In an arm each statement ends with its store of a word, and with that of its block
where it has one. A mirrored statement writes back the word that it has read to r2, any other writes r0
(block_cache_gen/specs: Codes). So a way of a branch that has no mirrored part, as the only part of one without
`else`, costs no padding but what does nothing.
"""
import json
import operator

WORDS = 2 ** 64
SUMS = {'add': operator.add, 'sub': operator.sub, 'and': operator.and_, 'or': operator.or_, 'xor': operator.xor,
        'shl': lambda a, b: a << b % 64, 'shr': lambda a, b: a >> b % 64}
COMPARED = {'eq': operator.eq, 'ne': operator.ne, 'lt': operator.lt, 'le': operator.le, 'gt': operator.gt,
            'ge': operator.ge}


def quotient(a, b):
    """The quotient rounded towards 0, which is -1 where the divisor is 0."""
    return -1 if b == 0 else abs(a) // abs(b) * (1 if (a < 0) == (b < 0) else -1)


PRODUCTS = {'mul': operator.mul, 'div': quotient, 'rem': lambda a, b: a - b * quotient(a, b) if b else a,
            'remu': lambda a, b: a % WORDS % (b % WORDS) if b else a}


def signed(word):
    """A number modulo 2^64, from -2^63 on."""
    return (word + WORDS // 2) % WORDS - WORDS // 2


def register(word):
    return int(word[1:])


def bank_number(word):
    return {'D': 0, 'E': 1}.get(word) if word in 'DE' else int(word[1:])


class Text:
    """An object's assembly text: its cycles, banks, symbols, and its instructions as words, with targets as places."""

    def __init__(self, text):
        self.code, self.banks, self.symbols, labels = [], [], [], {}
        for line in text.splitlines():
            words = line.split(';')[0].split()
            if not words or words[0] == '.note':
                continue
            if words[0] == '.object':
                self.log, self.alu, self.mul, self.word, self.taken = (int(word) for word in words[2:7])
            elif words[0] == '.bank':
                self.banks.append((int(words[1]), int(words[2])))
            elif words[0] == '.symbol':
                self.symbols.append((words[1], *(int(word) for word in words[4:8])))
            elif words[0].endswith(':'):
                labels[words[0][:-1]] = len(self.code)
            else:
                self.code.append(words)
        for place, words in enumerate(self.code):
            if words[0] in ('jmp', 'br'):
                target = words[-1]
                if target in labels:
                    words[-1] = labels[target]
                else:
                    words[-1] = int(target) + (place if target[0] in '+-' else 0)

    def is_idle(self, place):
        return self.code[place][0] == 'nop'

    def mirrored(self):
        """The places of the parts of arms that are mirrored."""
        marked, place = set(), 0
        while place < len(self.code):
            if self.is_region(place):
                place = self.mark_region(place, marked)
            else:
                place += 1
        return marked

    def is_region(self, place):
        return self.code[place][0] == 'br' and self.is_idle(place + 1)

    def mark_region(self, place, marked):
        second = self.code[place][-1]
        end = self.code[second - 1][-1]
        self.mark_arm(place + 1, second - 1, marked)
        self.mark_arm(second, end, marked)
        return end

    def mark_arm(self, place, end, marked):
        first = place
        while place < end:
            name = self.code[place][0]
            if name == 'nop':
                place += 1
                first = place
            elif name == 'stw' or self.is_region(place):
                behind = self.behind(place)
                if self.is_mirrored(place, behind):
                    marked.update(range(first, behind))
                elif name == 'br':
                    self.mark_region(place, marked)
                place = first = behind
            else:
                place += 1

    def behind(self, place):
        """The place behind the statement whose store, or whose branch, stands at a place."""
        if self.code[place][0] == 'br':
            return self.code[self.code[place][-1] - 1][-1]
        return place + (2 if self.code[place + 1][0] == 'stb' else 1)

    def is_mirrored(self, first, behind):
        stored = [words[1] for words in self.code[first:behind] if words[0] == 'stw']
        return bool(stored) and all(word == 'r2' for word in stored)


class Followed:
    """A run of a text on inputs, by name, to its halt: its cycles, those of instructions that do nothing outside
    mirrored parts, and those of mirrored parts."""

    def __init__(self, text, inputs):
        self.text, self.registers, self.slots = text, [0] * 32, [None] * 8
        self.words = 2 ** text.log
        self.memory = [{} for _ in text.banks]
        for name, bank, block, word, length in text.symbols:
            values = inputs.get(name, 0)
            for i, value in enumerate(values if isinstance(values, list) else [values]):
                at = block * self.words + word + i
                self.block(bank, at // self.words)[at % self.words] = value
        self.cycles = self.idle = self.mirrored = 0
        self.follow()

    def block(self, bank, number):
        return self.memory[bank].setdefault(number, [0] * self.words)

    def follow(self):
        marked, place = self.text.mirrored(), 0
        while self.text.code[place][0] != 'halt':
            cost, target = self.step(place)
            self.cycles += cost
            if place in marked:
                self.mirrored += cost
            elif self.text.is_idle(place):
                self.idle += cost
            place = target

    def step(self, place):
        """The cycles of the instruction at a place, and where the run goes on."""
        name, *words = self.text.code[place]
        if name == 'jmp':
            return self.text.taken, words[-1]
        if name == 'br':
            left, right = (self.registers[register(word)] for word in words[1:3])
            return (self.text.taken, words[-1]) if COMPARED[words[0]](left, right) else (1, place + 1)
        return self.done(name, words), place + 1

    def done(self, name, words):
        text, held = self.text, self.registers
        if name in SUMS or name in PRODUCTS:
            rule = SUMS.get(name) or PRODUCTS[name]
            held[register(words[0])] = signed(rule(held[register(words[1])], held[register(words[2])]))
            return text.alu if name in SUMS else text.mul
        if name == 'li':
            held[register(words[0])] = int(words[1])
        elif name == 'idb':
            held[register(words[0])] = self.slots[int(words[1])][1]
        elif name in ('ldw', 'stw'):
            at = held[register(words[2])] % self.words
            block = self.slots[int(words[1])][2]
            if name == 'ldw':
                held[register(words[0])] = block[at]
            else:
                block[at] = held[register(words[0])]
            return text.word
        elif name == 'ldb':
            bank = bank_number(words[1])
            number = held[register(words[2])] % WORDS % text.banks[bank][0]
            self.slots[int(words[0])] = (bank, number, list(self.block(bank, number)))
            return text.banks[bank][1]
        elif name == 'stb':
            bank, number, block = self.slots[int(words[0])]
            self.memory[bank][number] = list(block)
            return text.banks[bank][1]
        return 1


def followed(text, input_text):
    """The run of an assembly text on inputs as JSON."""
    return Followed(Text(text), json.loads(input_text))
