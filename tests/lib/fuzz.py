"""The work of tests/fuzz. Words: the program, the folder of examples, how many files of each kind, and the seed."""
import collections
import glob
import os
import random
import re
import resource
import subprocess
import sys
import tempfile

import heavy
import heavy_sources
import large_inputs
import many
import wide_calls
from many import place, read, write

PROGRAM, EXAMPLES = sys.argv[1:3]
COUNT, SEED = int(sys.argv[3]), int(sys.argv[4])

# Each source of wide_calls takes less than a second on a machine with nothing else to do.
WIDE_SECONDS = 15

# What a process of the program takes without a file, with the pages of its libraries.
PROGRAM_BYTES = 16 << 20

# Two looping cores take about as long on a bus as in separate runs. The check of a large region takes up to twelve bytes
# of address space for each byte of the object (its table grows by moving to one of twice the size), beside the program's
# own code.
BUS_RATIO, REGION_BYTES, CODE_BYTES = 2, 12, 1 << 23

STATUSES = {
    'check': (0, 6, 7), 'trace': (0, 6, 7, 9, 10), 'run': (0, 6, 7, 9, 10), 'asm': (0, 12), 'dis': (0, 6),
    'eval': (0, 8, 9, 10), 'compile': (0, 8),
}
EVENTS = rb'([0-9]+ (D [rw] [0-9]+( -?[0-9]+)+|E [rw] [0-9]+|O[2-9]|H)\n)*'
DONE = {
    'check': rb'accepted\n', 'trace': EVENTS + rb'end halted\n', 'run': rb'halted [0-9]+\n', 'asm': rb'assembled\n',
    'dis': rb'disassembled\n', 'eval': rb'done\n', 'compile': rb'compiled\n',
}

# What damage puts in, by the kind of file.
PIECES = {
    'object': [bytes(16), bytes([255] * 8), b'GRLT'],
    'text': b'9223372036854775807|-9223372036854775808|4294967295|-1|00|-> +2147483647|halt\n|nop\n|ldb 0 E r1\n|stb 0\n|\n|;|a:\n'
            b'|.note 00000000 - - - - - - - -\n|.bank 1 1\n|jmp -> a\n|br eq r1 r2 -> +2\n|\xff'.split(b'|'),
    'source': b'9223372036854775807 9223372036854775808 ( [ { } ] ) ; = == - + % // if else while public secret int a[ i x \xff'.split(),
    'input': b'9223372036854775807 -9223372036854775808 1e400 0.5 -0 null true "a" "s" {} [] [[[[ }} , : \\ud800 \xff'.split(),
}


def limited(memory):
    """Limits the memory of a process to so many bytes, before it starts."""
    return lambda: resource.setrlimit(resource.RLIMIT_AS, (memory, memory))


class Case:
    """One damaged file: the answers that were seen, and what was wrong with them."""

    def __init__(self, chance):
        self.chance, self.seen, self.wrong = chance, collections.Counter(), []

    def complain(self, words, data, why):
        """Notes what went wrong, and keeps the damaged file."""
        descriptor, kept = tempfile.mkstemp(prefix='fuzz-')
        with os.fdopen(descriptor, 'wb') as file:
            file.write(data)
        self.wrong.append(f'FAILED: {" ".join(words)}: {why}; the file is kept as {kept}')

    def call(self, words, data, writes=None, seconds=60, memory=None):
        """Calls the program on a damaged file, with so many bytes of memory, and judges its answer; returns the status and
        the text."""
        if writes and os.path.exists(writes):
            os.remove(writes)
        try:
            ran = subprocess.run([PROGRAM, *words], stdin=subprocess.DEVNULL, stdout=subprocess.PIPE, stderr=subprocess.PIPE,
                                 timeout=seconds, preexec_fn=memory and limited(memory))
        except subprocess.TimeoutExpired:
            self.complain(words, data, f'no end within {seconds} seconds')
            return None, b''
        verb, status, text = words[0], ran.returncode, ran.stdout
        self.seen[verb, status] += 1
        line = DONE[verb] if status == 0 else rb'fault %d [^\n]*\n' % status
        if verb == 'trace' and status == 10:
            line = EVENTS + rb'end spent\n'
        if status not in STATUSES[verb] or not re.fullmatch(line, text) or ran.stderr:
            self.complain(words, data, f'status {status}, {text[-80:]!r}, {ran.stderr[:200]!r}')
        elif writes and os.path.exists(writes) != (status == 0):
            self.complain(words, data, f'status {status}, and OUT is {"there" if os.path.exists(writes) else "not there"}')
        return status, text

    def try_object(self, data):
        write('file', data)
        file, given, out, again = (place(name) for name in ('file', 'input', 'out', 'again'))
        checked, _ = self.call(['check', file], data)
        traced, shown = self.call(['trace', file, given, '--cycles', '20000'], data)
        ran, told = self.call(['run', file, given, out, '--cycles', '20000'], data, out)
        if traced != ran or checked != 0 and traced != checked or checked == 0 and traced not in (0, 9, 10):
            self.complain(['check, trace, run'], data, f'statuses {checked}, {traced}, {ran}')
        elif traced == 0 and shown.splitlines()[-2] != told.split()[1] + b' H':
            self.complain(['trace, run'], data, f'{shown[-80:]!r}, {told!r}')
        written, _ = self.call(['dis', file, out], data, out)
        if (written == 0) != (checked != 6):
            self.complain(['check, dis'], data, f'statuses {checked}, {written}')
        if written == 0 and os.path.exists(out):
            assembled, _ = self.call(['asm', out, again], data, again)
            if assembled != 0 or not os.path.exists(again) or read(again) != data:
                self.complain(['dis, asm'], data, 'another file')

    def try_text(self, data):
        write('file', data)
        out = place('out')
        status, _ = self.call(['asm', place('file'), out], data, out)
        if status == 0 and os.path.exists(out):
            self.try_object(read(out))

    def try_source(self, data):
        write('file', data)
        write('input', b'{}')
        file, given, out, again = (place(name) for name in ('file', 'input', 'out', 'again'))
        options = ['--block-log', str(self.chance.randrange(3, 10)), *self.chance.choice(([], ['--fast']))]
        compiled, said = self.call(['compile', file, out, *options], data, out)
        evaluated, refused = self.call(['eval', file, given, again, '--turns', '1000'], data, again)
        if (compiled == 8 or evaluated == 8) and said != refused and b' scalars ' not in said and b' bank ' not in said:
            self.complain(['compile, eval'], data, f'{said!r}, {refused!r}')
        if compiled != 0:
            return
        if self.call(['check', out], data)[0] != 0:
            self.complain(['compile, check'], data, 'a compiled object is refused')
        left = read(again) if evaluated == 0 and os.path.exists(again) else None
        ran, _ = self.call(['run', out, given, again, '--cycles', '4000000'], data, again)
        if ran == 0 and left is not None and (not os.path.exists(again) or read(again) != left):
            self.complain(['compile, run'], data, 'the run leaves other values than the evaluation')

    def try_whole(self, name):
        """A program that isn't damaged leaves the values that are noted beside it, evaluated and compiled."""
        source, given, wanted = (f'{EXAMPLES}/programs/{it}' for it in (f'{name[:-2]}.gr', f'{name}.json', f'{name}.out'))
        data, made, out = read(source), place('file'), place('out')
        self.call(['eval', source, given, out], data, out)
        left = [read(out) if os.path.exists(out) else None]
        self.call(['compile', source, made], data, made)
        unwritten = subprocess.run([PROGRAM, 'compile', source, f'{out}/none'], stdout=subprocess.PIPE)
        if unwritten.returncode != 4 or unwritten.stdout != f'fault 4 write {out}/none\n'.encode():
            self.complain(['compile'], data, f'status {unwritten.returncode}, {unwritten.stdout!r} where OUT is no file')
        self.call(['run', made, given, out], data, out)
        left.append(read(out) if os.path.exists(out) else None)
        if left != [read(wanted)] * 2:
            self.complain([f'eval, run of {name}'], data, f'other values than the noted ones: {left}')

    def try_wide(self, shape):
        """A source whose calls pass many arrays is compiled, or rejected, within some seconds."""
        data = shape()
        write('file', data)
        out = place('out')
        self.call(['compile', place('file'), out, '--procs'], data, out, WIDE_SECONDS)

    def try_heavy(self, shape):
        """A source that takes much memory for its size is compiled, or rejected, with a limited number of bytes for each byte."""
        data = shape()
        write('file', data)
        out = place('out')
        for more in [], ['--procs']:
            self.call(['compile', place('file'), out, *more], data, out,
                      memory=PROGRAM_BYTES + heavy_sources.MOST_BYTES * len(data))

    def try_large(self, shape):
        """A large input takes a limited number of bytes for each byte, also if an explanation is printed."""
        data = large_inputs.SHAPES[shape]
        write('input', data)
        words = ['trace', f'{EXAMPLES}/sum.obj', place('input')]
        answer = self.call(words, data)
        most = PROGRAM_BYTES + large_inputs.MOST * len(data)
        for explain in '01':
            ran = subprocess.run([PROGRAM, *words], env={**os.environ, 'GHOSTRIDER_EXPLAIN': explain}, stdin=subprocess.DEVNULL,
                                 stdout=subprocess.PIPE, stderr=subprocess.DEVNULL, preexec_fn=limited(most))
            if (ran.returncode, ran.stdout) != answer:
                self.complain(words, data, f'{ran.stdout[-80:]!r} with {most} bytes of memory')

    def seconds(self, words, data):
        """The processor seconds of a call whose cycles are spent."""
        with subprocess.Popen([PROGRAM, *words], stdin=subprocess.DEVNULL, stdout=subprocess.DEVNULL) as process:
            _, ended, used = os.wait4(process.pid, 0)
            process.returncode = os.waitstatus_to_exitcode(ended)
        if process.returncode != 10:
            self.complain(words, data, f'status {process.returncode}')
        return used.ru_utime + used.ru_stime

    def assembled(self, name, text):
        write('file', text)
        self.call(['asm', place('file'), place(name)], text, place(name))
        return place(name)

    def try_looping(self):
        """Two cores that loop without an access take about as long on a bus as alone."""
        write('input', b'{}')
        texts = [heavy.looping(opens) for opens in (0, 1)]
        pairs = [(self.assembled(f'core{core}', text), place('input')) for core, text in enumerate(texts)]
        end = ['--cycles', '60000000']
        alone = sum(self.seconds(['trace', *pair, *end], text) for pair, text in zip(pairs, texts))
        shared = self.seconds(['bus', *pairs[0], *pairs[1], *end], texts[0])
        if shared > BUS_RATIO * alone:
            self.complain(['bus'], texts[0], f'{shared:.2f} seconds, and {alone:.2f} for both cores alone')

    def try_region(self, shape):
        """The check of one large region takes only so many bytes for each byte of the object."""
        text = shape()
        made = self.assembled('region', text)
        most = REGION_BYTES * os.path.getsize(made) + CODE_BYTES
        ran = subprocess.run([PROGRAM, 'check', made], stdin=subprocess.DEVNULL, stdout=subprocess.PIPE, stderr=subprocess.PIPE,
                             preexec_fn=lambda: resource.setrlimit(resource.RLIMIT_AS, (most, most)))
        if ran.stdout != b'accepted\n':
            self.complain(['check'], text, f'{ran.stdout!r} with {most} bytes of memory')

    def try_input(self, data):
        write('input', data)
        given, out = place('input'), place('out')
        self.call(['trace', f'{EXAMPLES}/sum.obj', given, '--cycles', '20000'], data)
        self.call(['eval', f'{EXAMPLES}/programs/findmax.gr', given, out, '--turns', '1000'], data, out)


def damaged(chance, data, pieces):
    """Some changes of a file: bytes, numbers at their ends, parts that are left out, doubled, moved or put in, and pieces."""
    data = bytearray(data)
    for _ in range(chance.choice((1, 1, 1, 2, 3, 8))):
        at = chance.randrange(len(data) + 1)
        length = chance.choice((1, 1, 2, 4, 8, 16, chance.randrange(1, 200)))
        kind = chance.randrange(8)
        if kind == 0 and at < len(data):
            data[at] ^= 1 << chance.randrange(8)
        elif kind == 1 and at < len(data):
            data[at] = chance.randrange(256)
        elif kind == 2:
            size = chance.choice((1, 2, 4, 8))
            data[at:at + size] = (chance.choice((0, 1, -1, 1 << 8 * size - 1)) % (1 << 8 * size)).to_bytes(size, 'little')
        elif kind == 3:
            del data[at:at + length]
        elif kind == 4:
            data[at:at] = data[at:at + length] * chance.choice((1, 1, 2, 50))
        elif kind == 5:
            other = chance.randrange(len(data) + 1)
            data[at:at] = data[other:other + length]
        elif kind == 6:
            data[at:at] = chance.choice(pieces)
        elif chance.randrange(20) == 0:
            del data[at:]
    return bytes(data)


def found(*patterns):
    return [read(path) for pattern in patterns for path in sorted(glob.glob(os.path.join(EXAMPLES, pattern)))]


def compiled(sources):
    """The objects of sources, which must compile."""
    made = []
    with tempfile.TemporaryDirectory() as folder:
        source, output = os.path.join(folder, 'source'), os.path.join(folder, 'object')
        for text in sources:
            with open(source, 'wb') as file:
                file.write(text)
            ran = subprocess.run([PROGRAM, 'compile', source, output], stdout=subprocess.DEVNULL)
            if ran.returncode != 0 or not os.path.exists(output):
                print(f'FAILED: an example is not compiled: status {ran.returncode}')
                sys.exit(many.closes(0, 1))
            made.append(read(output))
    return made


WHOLE = {
    'text': found('*.asm', 'by_hand/*.asm'),
    'source': found('programs/*.gr'),
    'input': found('programs/*.json', '*.json'),
}
WHOLE['object'] = found('*.obj') + compiled(WHOLE['source'])


NOTED = sorted(os.path.basename(path)[:-len('.out')] for path in glob.glob(f'{EXAMPLES}/programs/*.out'))


def attempt(named):
    kind, number = named
    case = Case(random.Random(f'{SEED} {kind} {number}'))
    if kind == 'whole':
        case.try_whole(NOTED[number])
        return kind, case.seen, case.wrong
    if kind == 'wide':
        case.try_wide(wide_calls.SHAPES[number])
        return kind, case.seen, case.wrong
    if kind == 'heavy':
        case.try_heavy(heavy_sources.SHAPES[number])
        return kind, case.seen, case.wrong
    if kind == 'large':
        case.try_large(list(large_inputs.SHAPES)[number])
        return kind, case.seen, case.wrong
    if kind == 'looping':
        case.try_looping()
        return kind, case.seen, case.wrong
    if kind == 'region':
        case.try_region(heavy.REGIONS[number])
        return kind, case.seen, case.wrong
    chance = case.chance
    write('input', chance.choice(WHOLE['input']) if chance.randrange(2) else b'{}')
    getattr(case, f'try_{kind}')(damaged(chance, chance.choice(WHOLE[kind]), PIECES[kind]))
    return kind, case.seen, case.wrong


def main():
    seen, passed, failed = collections.Counter(), 0, 0
    kinds = ('object', 'text', 'source', 'input')
    whole = (('whole', NOTED), ('wide', wide_calls.SHAPES), ('heavy', heavy_sources.SHAPES),
             ('large', large_inputs.SHAPES), ('looping', '1'), ('region', heavy.REGIONS))
    cases = [(kind, number) for kind, some in whole for number in range(len(some))]
    cases += [(kind, number) for kind in kinds for number in range(COUNT)]
    for _, answers, wrong in many.tried(attempt, cases):
        seen.update(answers)
        failed += bool(wrong)
        passed += not wrong
        for complaint in wrong[:3] if failed <= 20 else ():
            print(complaint, flush=True)
    for verb in STATUSES:
        counts = sorted((it for it in seen.items() if it[0][0] == verb), key=lambda it: str(it[0][1]))
        print(f'{verb}: ' + ', '.join(f'{count} times status {status}' for (_, status), count in counts))
    return many.closes(passed, failed)


if __name__ == '__main__':
    sys.exit(main())
