"""What the scripts of bench/ share: the program and the plain C programs of c/ beside it, objects, and tables.

A work is run by both in turn, and each answer of ours must be that of the C program: the same line, status and file.
The time is processor time, the best of some runs. A ratio is the C program's seconds by ours: 1 is as fast as C. With
COUNTS in the environment the instructions of one run are counted by valgrind in place of seconds, in thousands of
millions, which other work on the machine doesn't change.
"""
import collections
import os
import re
import shutil
import struct
import subprocess
import sys
import tempfile

BENCH = os.path.dirname(os.path.dirname(os.path.abspath(__file__)))
ROOT = os.path.dirname(BENCH)
EXAMPLES = os.path.join(ROOT, 'examples')
MADE = os.path.join(BENCH, 'out')
OBJECTS = ['files', 'object', 'checking', 'regions']
MACHINE = OBJECTS + ['chacha', 'path_oram', 'recursive_oram', 'json', 'inputs', 'machine']
SOURCES = ['files', 'tokens', 'parsing', 'typing']
C_PROGRAMS = {
    'check': ['check'] + OBJECTS,
    'run': ['run', 'options'] + MACHINE,
    'asm': ['asm', 'spelling', 'files', 'object'],
    'eval': ['eval', 'options', 'json', 'inputs', 'object'] + SOURCES,
    'compile': ['compile', 'options', 'layout', 'residents', 'spreading', 'folding', 'reducing', 'holding', 'selecting',
                'ranges', 'emitting', 'object'] + SOURCES,
    'oram': ['oram', 'recursive_oram', 'path_oram', 'chacha', 'files'],
    'crafted': ['crafted'],
    'measure': ['measure'],
}


def sources_of(name):
    return [os.path.join(BENCH, 'c', part + '.c') for part in C_PROGRAMS[name]]


def is_made(program):
    """Whether a C program is there and newer than all that C programs are made of."""
    folder = os.path.join(BENCH, 'c')
    newest = max(os.path.getmtime(os.path.join(folder, name)) for name in os.listdir(folder))
    return os.path.exists(program) and os.path.getmtime(program) > newest


def c_programs(*names):
    """The C programs of these names, made by cc -O2 side by side where they aren't. A warning ends the script."""
    os.makedirs(MADE, exist_ok=True)
    made, makers = {name: os.path.join(MADE, name) for name in names}, []
    for name, program in made.items():
        if not is_made(program):
            fresh = f'{program}.{os.getpid()}'
            makers.append((subprocess.Popen(['cc', '-std=c11', '-O2', '-Wall', '-Wextra', '-Werror', '-o', fresh,
                                             *sources_of(name), '-lm']), fresh, program))
    for maker, fresh, program in makers:
        if maker.wait() != 0:
            sys.exit(f'{program} is not made')
        os.replace(fresh, program)
    return made


def c_program(name):
    return c_programs(name)[name]


def our_program():
    """The program that the environment's PROGRAM names, or else the one that ./ghostrider runs, which builds it where it
    must."""
    given = os.environ.get('PROGRAM')
    if given:
        return os.path.abspath(given)
    said = subprocess.run([os.path.join(ROOT, 'ghostrider'), '--which'], stdout=subprocess.PIPE, check=True)
    return said.stdout.decode().rstrip('\n')


def help_or_go_on(text):
    """Prints what a script is for, where --help asks for it."""
    if any(word in ('-h', '--help') for word in sys.argv[1:]):
        print(text.strip())
        sys.exit(0)


# ---- objects

OPCODES = {name: number for number, name in enumerate('nop halt li ldb stb idb ldw stw jmp'.split())}
OPCODES.update((name, 16 + number) for number, name in enumerate('add sub mul div rem remu and or xor shl shr'.split()))
OPCODES.update((name, 32 + number) for number, name in enumerate('eq ne lt le gt ge'.split()))
ANY = 255
LARGEST_CODE = 1 << 20
USUAL_BANKS = ((4, 634), (4, 662))


def instruction(name, a=0, b=0, c=0, offset=0, constant=0):
    """An instruction's bytes; a branch is named by its comparison."""
    return struct.pack('<BBBBiq', OPCODES[name], a, b, c, offset, constant)


def note(place, secrets=0, banks=(ANY,) * 8):
    return struct.pack('<II', place, secrets) + bytes(banks)


def symbol(name, secret, array, bank, block, word, length):
    name = name.encode()
    return bytes([len(name)]) + name + struct.pack('<BBBIHI', secret, array, bank, block, word, length)


def object_bytes(code, notes=(), symbols=(), banks=USUAL_BANKS, block_log=3, cycles=(1, 70, 2, 3)):
    """An object's file; `code` is the bytes of its instructions, `cycles` are alu, mul, word and taken."""
    head = b'GRLT' + struct.pack('<H', 1) + bytes([block_log, *cycles, len(banks)])
    head += b''.join(struct.pack('<II', *bank) for bank in banks)
    head += struct.pack('<H', len(symbols)) + b''.join(symbols)
    head += struct.pack('<I', len(notes)) + b''.join(notes)
    return head + struct.pack('<I', len(code) // 16) + code


# ---- measuring

COUNTS = 'COUNTS' in os.environ
COUNTER = ['valgrind', '--tool=callgrind', '--callgrind-out-file=/dev/null']

Taken = collections.namedtuple('Taken', 'seconds bytes status text output')


def folder_in_memory(least=1 << 29):
    """A folder whose files are held in memory, so that no disk is waited for, where there is one with room."""
    shared = '/dev/shm'
    return shared if os.path.isdir(shared) and shutil.disk_usage(shared).free >= least else None


def written(folder, name, text):
    """The path of a file that is written."""
    path = os.path.join(folder, name)
    with open(path, 'wb') as file:
        file.write(text)
    return path


def best_of(times, command, given=None):
    """The best of some runs of a command: the least processor time and the most memory, with the last line and status.
    `given` is the name of a file as standard input."""
    taken = []
    for _ in range(times):
        with open(given or os.devnull, 'rb') as file:
            process = subprocess.Popen(command, stdin=file, stdout=subprocess.PIPE)
            text = process.stdout.read().decode().strip()
            _, status, usage = os.wait4(process.pid, 0)
        taken.append(Taken(usage.ru_utime + usage.ru_stime, usage.ru_maxrss * 1024, os.waitstatus_to_exitcode(status), text, None))
    return best(taken)


class Bench:
    """A folder for the files of works, and the two programs that do them."""

    def __init__(self, c_name):
        made = c_programs(c_name, 'measure')
        self.ours, self.theirs, self.measure = our_program(), made[c_name], made['measure']
        self.folder = tempfile.TemporaryDirectory(dir=folder_in_memory())

    def path(self, name):
        return os.path.join(self.folder.name, name)

    def write(self, name, contents):
        with open(self.path(name), 'wb') as file:
            file.write(contents)
        return self.path(name)

    def once(self, program, words, output, times):
        """Runs a program some times; the seconds are those of one run, the output is that of its file, if it has one."""
        if output and os.path.exists(output):
            os.remove(output)
        if COUNTS:
            return self.counted(program, words, output)
        text = self.path('said')
        told = subprocess.run([self.measure, text, str(times), program, *words], stdout=subprocess.PIPE, check=True)
        seconds, held, status = told.stdout.split()
        left = None
        if output and os.path.exists(output):
            left = contents(output)
        return Taken(float(seconds) / times, int(held), int(status), contents(text), left)

    def counted(self, program, words, output):
        """Runs a program once; its instructions stand in the place of seconds, and no memory is told."""
        done = subprocess.run([*COUNTER, program, *words], capture_output=True, check=False)
        count = re.search(rb'Collected : (\d+)', done.stderr)
        if count is None:
            sys.exit(done.stderr.decode(errors='replace'))
        left = contents(output) if output and os.path.exists(output) else None
        return Taken(int(count[1]) / 1e9, 0, done.returncode, done.stdout, left)

    def both(self, words, output=None, times=1, rounds=3):
        """The best of some runs of both, in turn. A difference of their answers, or a status but 0, ends the script."""
        ours, theirs = [], []
        for _ in range(1 if COUNTS else rounds):
            ours.append(self.once(self.ours, words, output, times))
            theirs.append(self.once(self.theirs, words, output, times))
            one, other = ours[-1], theirs[-1]
            if (one.status, one.text, one.output) != (other.status, other.text, other.output) or one.status != 0:
                sys.exit(f'wrong answers at {" ".join(words)}:\n  {shown(one)}\n  {shown(other)}')
        return best(ours), best(theirs)


def best(runs):
    """The least time and the most memory of some runs."""
    return min(runs)._replace(bytes=max(run.bytes for run in runs))


def contents(path):
    with open(path, 'rb') as file:
        return file.read()


def shown(taken):
    return f'status {taken.status}: {taken.text[:200]!r}, output {taken.output[:100] if taken.output else None!r}'


class Table:
    """Rows of works: seconds of ours, of C, the ratio, and the peaks of memory. Each is printed as soon as it is there."""

    def __init__(self):
        self.ratios = {}
        unit = 'G' if COUNTS else 's'
        print(f'{"work":<34}{"ours, " + unit:>10}{"C, " + unit:>10}{"C/ours":>8}{"ours, MB":>10}{"C, MB":>8}', flush=True)

    def row(self, name, ours, theirs, behind=''):
        ratio = theirs.seconds / max(ours.seconds, 1e-9)
        self.ratios[name] = ratio
        print(f'{name:<34}{ours.seconds:>10.4f}{theirs.seconds:>10.4f}{ratio:>8.2f}{ours.bytes / 1e6:>10.1f}'
              f'{theirs.bytes / 1e6:>8.1f}{"  " + behind if behind else ""}', flush=True)

    def mean(self, names):
        return sum(self.ratios[name] for name in names) / len(names)
