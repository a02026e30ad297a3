"""The work of tests/against_c. Words: how many cases of each kind, and the seed; PROGRAM names the program.

Objects are damaged by bytes, by cuts and by whole instructions in the place of others, which come deeper into the
check; others are made of branches on secrets with arms that are mostly alike. Texts are damaged by words, lines and
bytes, and inputs by bytes. Sources are made well typed or with slips, also for `--fast`, and damaged.
"""
import glob
import os
import random
import shutil
import subprocess
import sys
import tempfile

ROOT = os.path.dirname(os.path.dirname(os.path.dirname(os.path.abspath(__file__))))
sys.path.insert(0, os.path.join(ROOT, 'bench', 'lib'))
import many  # noqa: E402
from beside import OPCODES, c_programs, contents, instruction as do, object_bytes  # noqa: E402
from many import place, write  # noqa: E402
from programs import any_program, damaged_source, odd_sources  # noqa: E402
from resident_programs import resident_program  # noqa: E402

PROGRAM = os.environ['PROGRAM']
COUNT, SEED = int(sys.argv[1]), int(sys.argv[2])
CYCLES, TURNS = '30000', '300'
HEAD_BYTES = 24

# An object with a scalar x and an array a of two words, and inputs that a reader of JSON may get wrong.
ODD_TEXT = (b'.object 1 3 1 70 2 3\n.bank 4 634\n.bank 4 662\n.symbol x public scalar 0 0 0 1\n'
            b'.symbol a public array 0 0 1 2\nhalt\n')
ODD_INPUTS = [
    b'', b' ', b'{', b'{}x', b'[]', b'1', b'null', b'\xef\xbb\xbf{}', b'\t\r\n {} ', b'{"x":1,}', b'{,}', b"{'x':1}", b'{"x" : 1 }',
    b'{"x":-0}', b'{"x":0}', b'{"x":00}', b'{"x":01}', b'{"x":-}', b'{"x":+1}', b'{"x":1.}', b'{"x":.5}', b'{"x":1.0}', b'{"x":1e2}',
    b'{"x":1E+2}', b'{"x":1e}', b'{"x":1e400}', b'{"x":-1e400}', b'{"x":1e-400}', b'{"x":9223372036854775807}',
    b'{"x":9223372036854775808}', b'{"x":-9223372036854775808}', b'{"x":-9223372036854775809}',
    b'{"x":18446744073709551616}', b'{"x":1,"x":2}', b'{"x":[],"x":2}', b'{"x":1,"x":null}', b'{"x":true}', b'{"x":nul}',
    b'{"x":"1"}', b'{"x":{}}', b'{"a":1}', b'{"a":[1]}', b'{"a":[1,2]}', b'{"a":[1,2,3]}', b'{"a":[1,2.5]}', b'{"a":[null,1]}',
    b'{"a":[1,2,]}', b'{"a":[[],1]}', b'{"b":1,"a":[]}', b'{"y":1,"B":2}', b'{"\\u0078":5}', b'{"\\u00zz":5}', b'{"\\ud83d\\ude00":1}',
    b'{"\\ud83d":1}', b'{"\\ude00":1}', b'{"\\u0000":1}', b'{"\\b\\f\\n\\r\\t\\/\\\\\\"":1}', b'{"\\u001f\\u007f":1}', b'{"\x1f":1}',
    b'{"\x7f":1}', b'{"\xc3\xa9":1}', b'{"\xc3":1}', b'{"\xc0\x80":1}', b'{"\xed\xa0\x80":1}', b'{"\xf0\x9f\x98\x80":1}',
    b'{"\xf4\x90\x80\x80":1}', b'{"":1}', b'{"\\v":1}', b'{"x', b'{"x"', b'{"x":', b'{"x":1', b'{"x":1}}',
    b'{"y":' + b'[' * 126 + b']' * 126 + b'}', b'{"y":' + b'[' * 127 + b']' * 127 + b'}',
    b'[' * 127 + b']' * 127, b'[' * 128 + b']' * 128, b'[' * 129 + b']' * 129, b'[' * 100000,
]

# Calls with words that ask for no work, and with files that can't be read or written.
ODD_WORDS = [line.split() for line in (
    'eval', 'eval source in', 'eval source in out more', 'eval source in out --turns', 'eval source in out --turns 0',
    'eval source in out --turns 4294967295', 'eval source in out --turns 4294967296', 'eval source in out --turns=5',
    'eval none in out', 'eval source none out', 'eval source in none/out', 'eval in in out', 'eval source source out',
    'compile', 'compile source', 'compile source out more', 'compile source out --block-log', 'compile source out --block-log 2',
    'compile source out --block-log 10', 'compile source out --block-log=3', 'compile --block-log 9 source out',
    'compile source out --block-log 03', 'compile source out --fast', 'compile --fast source out --block-log 5',
    'compile source out --fast=1', 'compile source --fast', 'eval source in out --fast',
    'compile none out', 'compile source none/out', 'compile in out')]


class Differs(Exception):
    """The two programs answer otherwise."""


def answer(program, words):
    """The status, the text, what stands on standard error, and the file that is written, of a call in a case's folder."""
    if os.path.exists(place('out')):
        os.remove(place('out'))
    done = subprocess.run([program, *words], stdout=subprocess.PIPE, stderr=subprocess.PIPE, cwd=many.FOLDER, timeout=120)
    return done.returncode, done.stdout, done.stderr, contents(place('out')) if os.path.exists(place('out')) else None


class Case:
    """The answers of both programs to some calls."""

    def __init__(self):
        self.answers = 0

    def same(self, *words):
        """The status that both answer; `Differs` where they answer otherwise."""
        ours, theirs = answer(PROGRAM, words), answer(C_PROGRAMS[words[0]], words)
        if ours != theirs:
            kept = tempfile.mkdtemp(prefix='against_c-')
            shutil.copytree(many.FOLDER, kept, dirs_exist_ok=True)
            raise Differs(f'{" ".join(words)} in {kept}:\n  ours {shown(ours)}\n  C    {shown(theirs)}')
        self.answers += 1
        return ours[0]

    def runs(self, inputs, cycles):
        """Runs and traces the object, with a seed and the paths too."""
        write('in', inputs)
        self.same('run', 'object', 'in', 'out', '--cycles', cycles)
        self.same('trace', 'object', 'in', '--paths', '--seed', '7', '--cycles', cycles)

    def reads(self, text, inputs, block_log):
        """Compiles a source, with `--fast` too, and evaluates it on inputs; returns whether it was compiled."""
        write('source', text)
        write('in', inputs)
        status = self.same('compile', 'source', 'out', '--block-log', str(block_log))
        self.same('compile', 'source', 'out', '--block-log', str(block_log), '--fast')
        self.same('eval', 'source', 'in', 'out', '--turns', TURNS)
        return status == 0

    def judge(self, made, inputs, cycles=CYCLES):
        """Checks an object, and where it is accepted runs it on these inputs; answers whether it was."""
        write('object', made)
        if self.same('check', 'object') != 0:
            return False
        for given in inputs:
            self.runs(given, cycles)
        return True


def shown(answered):
    status, text, complaint, output = answered
    return f'{status} {text[-300:]!r} {complaint[:200]!r} {str(output)[:300]}'


def damaged_bytes(rng, made):
    """Some bytes changed, or the end cut off or grown."""
    made = bytearray(made)
    kind = rng.randrange(8)
    if kind == 0:
        return bytes(made[:rng.randrange(len(made))])
    if kind == 1:
        return bytes(made) + rng.randbytes(rng.randint(1, 3))
    for _ in range(rng.randint(1, 3)):
        at = rng.randrange(min(len(made), HEAD_BYTES)) if rng.random() < 0.2 else rng.randrange(len(made))
        made[at] = rng.choice((0, 1, 2, 3, 4, 7, 8, 9, 31, 32, 33, 127, 128, 255, rng.randrange(256)))
    return bytes(made)


def code_of(made):
    """The number of the code's first byte and of its instructions, from the file's end backwards."""
    for count in range(1, len(made) // 16 + 1):
        start = len(made) - 16 * count
        if int.from_bytes(made[start - 4:start], 'little') == count:
            return start, count
    raise ValueError('no code')


def any_instruction(rng, count):
    """An instruction in the ranges of its fields, where code has so many."""
    name = rng.choice(list(OPCODES))
    offset = rng.choice((1, 2, 3, 4, 5, 6, -1, 0, rng.randint(-count, count)))
    reg = lambda: rng.randrange(12)
    slot, bank = rng.randrange(8), rng.choice((0, 0, 1, 1, 2))
    fields = {'nop': (0, 0, 0), 'halt': (0, 0, 0), 'li': (reg(), 0, 0), 'ldb': (slot, bank, reg()), 'stb': (slot, 0, 0),
              'idb': (reg(), slot, 0), 'ldw': (reg(), slot, reg()), 'stw': (reg(), slot, reg()), 'jmp': (0, 0, 0)}
    has_offset = name == 'jmp' or OPCODES[name] >= 32
    a, b, c = fields.get(name, (reg(), reg(), 0 if has_offset else reg()))
    constant = rng.choice((0, 1, -1, 5, 1 << 62)) if name == 'li' else 0
    return (bytes([OPCODES[name], a, b, c]) + (offset if has_offset else 0).to_bytes(4, 'little', signed=True)
            + constant.to_bytes(8, 'little', signed=True))


def damaged_code(rng, made):
    """Some instructions in the place of others, or two that changed places."""
    start, count = code_of(made)
    made = bytearray(made)
    for _ in range(rng.randint(1, 3)):
        at = start + 16 * rng.randrange(count)
        if rng.random() < 0.3:
            other = start + 16 * rng.randrange(count)
            made[at:at + 16], made[other:other + 16] = made[other:other + 16], made[at:at + 16]
        elif rng.random() < 0.3:
            made[at + rng.randrange(1, 4)] = rng.randrange(8)
        else:
            made[at:at + 16] = any_instruction(rng, count)
    return bytes(made)


def any_arm(rng, depth):
    """Some instructions of an arm, and regions within it."""
    made = b''
    for _ in range(rng.randint(0, 5)):
        if depth < 4 and rng.random() < 0.15:
            made += any_region(rng, depth + 1)
        else:
            reg, slot = rng.choice((3, 4, 5, 6, 7, 7, rng.randrange(8))), rng.choice((0, 1, 1, 3, 6))
            made += rng.choice((
                do('nop'), do('li', reg, constant=rng.randrange(4)), do(rng.choice(('add', 'mul', 'remu')), reg, rng.randrange(8), 1),
                do('ldb', slot, rng.choice((0, 1, 1, 2)), rng.choice((0, 1, 1, 1, reg))), do('stb', rng.choice((1, 3, 6, slot))),
                do('idb', reg, slot), do('ldw', reg, slot, rng.choice((1, reg))), do('stw', reg, rng.choice((1, 3, 6)), rng.randrange(8))))
    return made


def any_region(rng, depth):
    """A branch on r2 or another register with two arms, mostly alike and padded to take the same cycles."""
    first = second = any_arm(rng, depth)
    if rng.random() < 0.3:
        second = any_arm(rng, depth)
    elif rng.random() < 0.3 and first:
        at = 16 * rng.randrange(len(first) // 16)
        second = second[:at] + do('nop') + second[at + 16:]
    first = do('nop') * 2 + first
    second += do('nop') * 3
    branch = do(rng.choice(('eq', 'lt', 'ge')), 2 if depth == 0 else rng.randrange(8), rng.randrange(8), offset=len(first) // 16 + 2)
    return branch + first + do('jmp', offset=len(second) // 16 + 1) + second


def any_regions(rng):
    """An object with some regions, whose r2 holds a secret, and what uses registers and slots behind them."""
    code = do('li', 1, constant=rng.randrange(5)) + do('ldb', 1, 1, 1) + do('ldw', 2, 1, 1)
    for load in do('ldb', 0, 0, 1), do('ldb', 6, 2, 1), do('ldb', 3, 1, 1):
        code += load if rng.random() < 0.9 else b''
    for _ in range(rng.randint(1, 3)):
        code += any_region(rng, 0)
        for _ in range(rng.randint(0, 2)):
            reg = rng.randrange(1, 8)
            code += rng.choice((do('ldb', 2, 0, reg), do('ldb', 2, 1, reg), do('stb', rng.choice((0, 1, 6))), do('idb', reg, 1),
                                do('add', reg, reg, 1), do('ldw', reg, rng.choice((0, 1, 6)), 1), do('li', reg, constant=2)))
    return object_bytes(code + do('halt'), banks=((4, 634), (5, 662), (3, 4262)))


def damaged_text(rng, text):
    """Words or lines of a text left out, doubled, changed or in another order, or bytes changed."""
    lines = text.split(b'\n')
    for _ in range(rng.randint(1, 2)):
        at = rng.randrange(len(lines))
        words = lines[at].split(b' ')
        kind = rng.randrange(8)
        if kind == 0:
            del lines[at]
        elif kind == 1:
            lines.insert(at, rng.choice(lines))
        elif kind == 2:
            words[rng.randrange(len(words))] = rng.choice(rng.choice(lines).split(b' '))
        elif kind == 3:
            words.insert(rng.randrange(len(words) + 1), rng.choice((b'', b'\t', b'x', b'0', b'r32', b'-> 5', b';', b'9')))
        elif kind == 4:
            words[rng.randrange(len(words))] = rng.choice((b'-0', b'00', b'+', b'->', b'O2', b'O10', b'18446744073709551616',
                                                           b'-9223372036854775808', b'2147483648', b'ffffffff', b'label:'))
        elif kind == 5:
            lines.insert(at, b'.note 0000000f - - - - - - - -')
        else:
            line = bytearray(lines[at] + b' ')
            line[rng.randrange(len(line))] = rng.choice((9, 13, 32, 48, 57, 58, 59, 97, 127, 128, rng.randrange(256)))
            words = [bytes(line)]
        if kind in (2, 3, 4, 6, 7):
            lines[at] = b' '.join(words)
        lines = lines or [b'']
    return b'\n'.join(lines)


def damaged_input(rng, text):
    text = bytearray(text or b'{}')
    for _ in range(rng.randint(1, 3)):
        at = rng.randrange(len(text) + 1)
        piece = rng.choice((b'', b'0', b'-', b'1', b'.5', b'e1', b',', b'[', b']', b'{', b'}', b'"', b'"x":1,', b' ', b'\n', b'null',
                            b'\\u00e9', b'\\', b'\xc3', b'\xc3\xa9', b'\x01', b'99999999999', b'true', b':', bytes([rng.randrange(256)])))
        text[at:at + rng.randrange(3)] = piece
    return bytes(text)


def example_objects():
    """The objects of the examples' texts and programs, each with its inputs and its text, none where it was compiled."""
    found = []
    examples = os.path.join(ROOT, 'examples')
    for path in sorted(glob.glob(os.path.join(examples, '*.asm')) + glob.glob(os.path.join(examples, 'by_hand', '*.asm'))):
        folder = os.path.join(examples, '*') if 'by_hand' in path else examples
        inputs = sorted(glob.glob(os.path.join(folder, os.path.basename(path)[:-4] + '-*.json')))
        found.append((made_of(C_PROGRAMS['asm'], ['asm', path]), [contents(name) for name in inputs], contents(path)))
    for path in sorted(glob.glob(os.path.join(examples, 'programs', '*.gr'))):
        inputs = [contents(name) for name in sorted(glob.glob(path[:-3] + '-*.json'))]
        found.append((made_of(PROGRAM, ['compile', path], '--block-log', '4'), inputs, None))
        found.append((made_of(PROGRAM, ['compile', path], '--block-log', '7', '--fast'), inputs, None))
    return found


def example_sources():
    """The programs of the examples, each with its inputs."""
    paths = sorted(glob.glob(os.path.join(ROOT, 'examples', 'programs', '*.gr')))
    paths += sorted(glob.glob(os.path.join(ROOT, 'examples', 'suite', '*.gr')))
    return [(contents(path), [contents(name) for name in sorted(glob.glob(path[:-3] + '-*.json'))]) for path in paths]


def made_of(program, words, *options):
    """The file that a call writes, which must succeed."""
    with tempfile.TemporaryDirectory() as folder:
        out = os.path.join(folder, 'out')
        done = subprocess.run([program, *words, out, *options], stdout=subprocess.PIPE)
        if done.returncode != 0 or not os.path.exists(out):
            print(f'FAILED: {" ".join(words)}: status {done.returncode}, {done.stdout[:200]!r}')
            sys.exit(many.closes(0, 1))
        return contents(out)


def attempt_source(case, rng, kind, number):
    """Compares what comes of a source; answers whether it was compiled."""
    block_log = rng.randrange(3, 10)
    if kind == 'example source':
        text, inputs = SOURCES[number]
        return all([case.reads(text, inputs[0], log) for log in range(3, 10)] + [case.reads(text, given, 9) for given in inputs[1:]])
    if kind == 'odd source':
        return all([case.reads(ODD_SOURCES[number], b'{}', log) for log in (3, 9)])
    if kind == 'words':
        write('source', SOURCES[0][0])
        write('in', SOURCES[0][1][0])
        case.same(*ODD_WORDS[number])
        return False
    if kind == 'resident':
        text, block_log, inputs = resident_program(rng)
        return case.reads(text, inputs[0], block_log)
    text, inputs = any_program(rng, 0.05 if kind == 'slips' else 0)
    if kind == 'source':
        if rng.random() < 0.3:
            text, inputs = rng.choice(SOURCES)[0], b'{}'
        text = damaged_source(rng, text)
    elif rng.random() < 0.1:
        inputs = damaged_input(rng, inputs)
    return case.reads(text, inputs, block_log)


def attempt(named):
    """The answers that were compared in a case, whether its object was accepted, and the first difference, if any."""
    kind, number = named
    rng = random.Random(f'{SEED} {kind} {number}')
    case, accepted = Case(), False
    try:
        if kind == 'example':
            made, inputs, text = EXAMPLES[number]
            if text:
                write('text', text)
                case.same('asm', 'text', 'out')
                case.same('asm', 'text', 'none/out')
            accepted = case.judge(made, inputs, '1000000000')
        elif kind in ('bytes', 'code'):
            made, inputs, _ = rng.choice(EXAMPLES)
            damage = damaged_bytes if kind == 'bytes' else damaged_code
            accepted = case.judge(damage(rng, made), [rng.choice(inputs or [b'{}'])])
        elif kind == 'regions':
            accepted = case.judge(any_regions(rng), [b'{}'])
        elif kind == 'text':
            write('text', damaged_text(rng, rng.choice([text for _, _, text in EXAMPLES if text])))
            case.same('asm', 'text', 'out')
        elif kind == 'odd':
            write('text', ODD_TEXT)
            case.same('asm', 'text', 'out')
            shutil.move(place('out'), place('object'))
            case.runs(ODD_INPUTS[number], CYCLES)
        elif kind == 'input':
            made, inputs, _ = rng.choice([example for example in EXAMPLES if example[1]])
            write('object', made)
            write('in', damaged_input(rng, rng.choice(inputs)))
            case.same('run', 'object', 'in', 'out', '--cycles', CYCLES)
        else:
            accepted = attempt_source(case, rng, kind, number)
    except (Differs, subprocess.TimeoutExpired) as difference:
        return kind, case.answers, accepted, str(difference)
    return kind, case.answers, accepted, None


def main():
    counts = {'example': len(EXAMPLES), 'bytes': COUNT, 'code': COUNT, 'regions': COUNT, 'text': COUNT,
              'odd': len(ODD_INPUTS), 'input': COUNT // 2, 'example source': len(SOURCES), 'odd source': len(ODD_SOURCES),
              'words': len(ODD_WORDS), 'program': COUNT, 'resident': COUNT, 'slips': COUNT, 'source': COUNT}
    cases = [(kind, number) for kind in counts for number in range(counts[kind])]
    passed, met = 0, dict.fromkeys(counts, 0)
    for kind, answers, accepted, difference in many.tried(attempt, cases):
        passed += answers
        met[kind] += accepted
        if difference:
            print(f'FAILED: {difference}', flush=True)
            return many.closes(passed, 1)
    print(f'accepted and run: {met["bytes"]} of {COUNT} objects with damaged bytes, {met["code"]} of {COUNT} with damaged code, '
          f'{met["regions"]} of {COUNT} with branches on secrets')
    print(f'compiled: {met["program"]} and {met["resident"]} of {COUNT} programs each, {met["slips"]} of {COUNT} with slips, {met["source"]} of {COUNT} damaged '
          f'sources')
    return many.closes(passed, 0)


if __name__ == '__main__':
    made = c_programs('check', 'run', 'asm', 'eval', 'compile')
    C_PROGRAMS = {'check': made['check'], 'trace': made['run'], 'run': made['run'], 'asm': made['asm'], 'eval': made['eval'],
                  'compile': made['compile']}
    EXAMPLES, SOURCES, ODD_SOURCES = example_objects(), example_sources(), odd_sources()
    sys.exit(main())
