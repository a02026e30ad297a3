"""The work of tests/explain. Words: the program, the root, how many damaged files of each kind, and the seed."""
import os
import random
import re
import shutil
import subprocess
import sys
import tempfile

PROGRAM, ROOT = sys.argv[1:3]
COUNT, SEED = int(sys.argv[3]), int(sys.argv[4])
sys.argv[1:] = [PROGRAM, f'{ROOT}/examples', '0', str(SEED)]
import fuzz  # noqa: E402  which reads the words above
import explained  # noqa: E402
import many  # noqa: E402
from explained import SECONDS, Failed, agree, make_file, rows_of  # noqa: E402
from many import place, read, write  # noqa: E402
from places import misplaced  # noqa: E402

with open(f'{ROOT}/program/version', 'rb') as number:
    VERSION = b'ghostrider ' + number.read()


def called(words, folder):
    return explained.called(PROGRAM, words, folder)


# ---- cases

def play(lines, folder):
    """Plays the lines of a case."""
    words = None
    for line in lines:
        verb, _, rest = line.partition(' ')
        parts = rest.split()
        if make_file(PROGRAM, ROOT, line, folder):
            continue
        if verb == 'call':
            status, text, words = called(parts[1:], folder)
            if status != int(parts[0]):
                raise Failed(f'the program ends with {status}, {text!r}')
        elif verb == 'has':
            if rest.encode() not in words:
                raise Failed(f'{rest!r} is not in {words.decode("latin-1")!r}')
        elif verb == 'lines':
            rows = rows_of(words)
            if len(rows) != int(rest):
                raise Failed(f'{len(rows)} lines: {words!r}')
        elif verb == 'none':
            if words:
                raise Failed(f'something is said: {words!r}')
        else:
            raise Failed(f'no such line: {line}')


def cases():
    """The cases of the folder: their titles and lines."""
    for name in sorted(os.listdir(f'{ROOT}/tests/explained')):
        if name.endswith('.cases'):
            with open(f'{ROOT}/tests/explained/{name}') as file:
                lines = [line.rstrip('\n') for line in file if not line.startswith('#')]
            title, rows = None, []
            for line in [*lines, 'case ']:
                if line.startswith('case '):
                    if title is not None:
                        yield f'{name[:-6]}: {title}', rows
                    title, rows = line[5:], []
                elif line:
                    rows.append(line)


# ---- damaged files

PLACES = re.compile(rb'^\S*file:([0-9]+):([0-9]+)[:,] |^\S*file:byte ([0-9]+): |^\S*file:place ([0-9]+): ')


def lies_within(words, data):
    """Whether the place that is named lies within the file; one that is named by none does."""
    found = PLACES.match(words)
    if not found:
        return True
    line, column, byte, number = found.groups()
    if byte is not None:
        return int(byte) <= len(data)
    if number is not None:
        return int(number) * 16 < len(data)
    lines = data.split(b'\n')
    return 1 <= int(line) <= len(lines) and 1 <= int(column) <= len(lines[int(line) - 1]) + 1


CALLS = {
    'object': [['check', 'file'], ['trace', 'file', 'input', '--cycles', '20000']],
    'text': [['asm', 'file', 'out']],
    'source': [['compile', 'file', 'out'], ['eval', 'file', 'input', 'out', '--turns', '1000']],
    'input': [['eval', f'{ROOT}/examples/programs/findmax.gr', 'file', 'out', '--turns', '1000'],
              ['trace', f'{ROOT}/examples/sum.obj', 'file', '--cycles', '20000']],
}


MORE = re.compile(rb'and [0-9]+ more warnings?')


def are_said(status, words):
    """Whether a call that ended so may have these words: a fault has some, and otherwise they are warnings."""
    return bool(words) if status else all(b': warning: ' in line or MORE.fullmatch(line) for line in words.splitlines())


def is_misplaced(status, text, data, words):
    """Whether an explanation names another place of the damaged file than the line of its fault."""
    line = text.decode('latin-1').rstrip('\n')
    return status in (6, 7, 8, 9, 12) and misplaced(line, 'file', data, words) is not None


def attempt(named):
    kind, number = named
    chance = random.Random(f'{SEED} {kind} {number}')
    data = fuzz.damaged(chance, chance.choice(fuzz.WHOLE[kind]), fuzz.PIECES[kind])
    write('input', b'{}')
    write('file', data)
    folder, wrong = os.path.dirname(place('file')), []
    for call in CALLS[kind]:
        try:
            status, line, words = called(call, folder)
            *same, lines = called(['--json', *call], folder)
            agrees = same == [status, line] and agree(status, words, lines)
        except (subprocess.TimeoutExpired, Failed, ValueError) as why:
            wrong.append(f'{call}: {why}')
            continue
        holds = are_said(status, words) and lies_within(words, data) and agrees
        if not holds or is_misplaced(status, line, data, words):
            wrong.append(f'{call}: {line[-80:]!r}: {words[:200]!r}: {lines[:200]!r}')
    if wrong:
        descriptor, kept = tempfile.mkstemp(prefix='explain-')
        with os.fdopen(descriptor, 'wb') as file:
            file.write(data)
        wrong = [f'FAILED: {it}; the file is kept as {kept}' for it in wrong]
    return wrong


# ---- calls in a shell

SHELL = [  # a title, a line of the shell, its status, standard output, and what standard error contains (None: nothing)
    ('a source', './gr compile bad.gr out', 8, b'fault 8 source undeclared 0\n', b'bad.gr:2:5: y is not declared'),
    ('GHOSTRIDER_EXPLAIN=0', 'GHOSTRIDER_EXPLAIN=0 ./gr compile bad.gr out', 8, b'fault 8 source undeclared 0\n', None),
    ('standard input', './gr compile - out <bad.gr', 8, b'fault 8 source undeclared 0\n', b'standard input:2:5: y is not declared'),
    ('a pipe', 'cat bad.gr | ./gr compile - out', 8, b'fault 8 source undeclared 0\n', b'standard input:2:5: y is not declared'),
    ('a named pipe is read once', 'mkfifo p && { cat bad.gr >p & } && ./gr compile p out', 8,
     b'fault 8 source undeclared 0\n', b'p:2:5: y is not declared'),
    ('- as OUT', './gr compile bad.gr -', 8, b'', b'y is not declared'),
    ('- as OUT of a good source', './gr compile good.gr - 2>line | cmp - good.obj && cat line', 0, b'compiled\n', None),
    ('standard input and output', './gr eval - good.json - <good.gr 2>&1', 0, b'{"x":1}done\n', None),
    ('a file named -', 'cp bad.gr ./- && ./gr compile ./- out', 8, b'fault 8 source undeclared 0\n', b'./-:2:5: y is not'),
    ('standard input as two files', './gr trace - - <good.obj', 2, b'fault 2 usage\n', b'read as only one file'),
    ('a closed standard input', './gr compile - out <&-', 3, b'fault 3 read -\n',
     b'ghostrider: standard input: Bad file descriptor\n'),
    ('- in the place of a number', './gr sample - x', 2, b'fault 2 usage\n', b'not `-`'),
    ('OUT is the source', 'cp good.gr own.gr && ./gr compile own.gr own.gr; cmp own.gr good.obj; echo $?', 0,
     b'compiled\n0\n', b'ghostrider: warning: own.gr was the source; the output has replaced it\n'),
    ('OUT is the source by another path', 'cp good.gr own.gr && ./gr compile own.gr .//./own.gr; cmp own.gr good.obj; echo $?', 0,
     b'compiled\n0\n', b'ghostrider: warning: own.gr was the source; the output has replaced it\n'),
    ('OUT is a file in another folder', 'cp good.gr own.gr && ./gr compile own.gr tmp/own.gr; rm tmp/own.gr', 0, b'compiled\n', None),
    ('OUT is the source of an evaluation', 'cp good.gr own.gr && ./gr eval own.gr good.json own.gr; cat own.gr', 0,
     b'done\n{"x":1}', b'warning: own.gr was the source'),
    ('OUT is the source, as JSON', 'cp good.gr own.gr && ./gr --json compile own.gr own.gr 2>&1', 0,
     b'compiled\n{"status":0,"file":null,"line":null,"column":null,'
     b'"reason":"own.gr was the source; the output has replaced it","hint":null}\n', None),
    ('OUT is a link to the source', 'cp good.gr own.gr && ln -sf own.gr link && ./gr compile own.gr link && cmp own.gr good.obj', 0,
     b'compiled\n', None),
    ('OUT is the input', 'cp good.json own.json && ./gr eval good.gr own.json own.json && cat own.json', 0,
     b'done\n{"x":1}', None),
    ('OUT is the object', 'cp good.obj own.obj && ./gr run own.obj good.json own.obj >h && cat own.obj', 0, b'{"x":1}', None),
    ('OUT is the text', './gr dis good.obj own.asm >h && ./gr asm own.asm own.asm && cmp own.asm good.obj', 0,
     b'assembled\n', None),
    ('- as OUT, as JSON', './gr --json compile good.gr - 2>lines | cmp - good.obj && cat lines', 0,
     b'{"status":0,"result":"compiled"}\n', None),
    ('- as OUT of a bad source, as JSON', './gr --json compile bad.gr -', 8, b'',
     b'{"status":8,"result":"fault 8 source undeclared 0"}\n{"status":8,"file":"bad.gr","line":2,'),
    ('- as OUT of a missing file, as JSON', "./gr --json asm $'a\"\\\n' -", 3, b'', b'{"status":3,"result":"fault 3 read a\\"'),
    ('- as OUT to a full device', './gr compile good.gr - 2>&1 >/dev/full', 4,
     b'ghostrider: standard output: No space left on device\n', None),
    ('- as OUT to a full device, as JSON', './gr --json compile good.gr - 2>&1 >/dev/full', 4,
     b'{"status":4,"file":null,"line":null,"column":null,"reason":"standard output: No space left on device","hint":null}\n', None),
    ('an object', './gr check bad.gr', 6, b'fault 6 object magic\n', b'It is a source'),
    ('a refused object', './gr check examples/leaks.obj', 7, b'fault 7 refused 4 2\n', b'stw r2 0 r1'),
    ('usage', './gr run x', 2, b'fault 2 usage\n', b'run: missing argument INPUT\nusage: ghostrider run OBJ INPUT OUT '),
    ('no verb', './gr frob', 2, b'fault 2 usage\n', b'frob is not a verb\nThe verbs are compile, check, run, '),
    ('an option of other verbs', './gr run good.obj good.json out --fast', 2, b'fault 2 usage\n',
     b'ghostrider: run: --fast is not an option of this verb\nIt is an option of compile, test, layout, listing, profile and '
     b'sample.\nusage: ghostrider run OBJ INPUT OUT '),
    ('no words', './gr', 2, b'fault 2 usage\n', b'no verb is given'),
    ('a success', './gr check examples/first.obj', 0, b'accepted\n', None),
    ('a fault as JSON', './gr --json compile bad.gr out', 8, b'fault 8 source undeclared 0\n',
     b'{"status":8,"file":"bad.gr","line":2,"column":5,"reason":"y is not declared"'),
    ('a missing file as JSON', './gr --json check none.obj', 3, b'fault 3 read none.obj\n',
     b'{"status":3,"file":null,"line":null,"column":null,"reason":"none.obj: No such file or directory'),
    ('no verb as JSON', './gr --json frob', 2, b'fault 2 usage\n', b'"reason":"frob is not a verb'),
    ('a success as JSON', './gr --json check examples/first.obj', 0, b'accepted\n', None),
    ('traces that differ, as JSON', "echo '{\"n\":1}' >a && echo '{\"n\":2}' >b && ./gr --json diff examples/sum.obj a b >h", 1, b'',
     b'{"status":1,"file":null,"line":null,"column":null,"reason":null,"hint":null}\n'),
    ('failed cases of standard input, as JSON', "echo '{\"in\":{\"y\":1}}' | ./gr --json test good.gr - >h", 1, b'',
     b'{"status":1,"file":"standard input","line":1,"column":null,"reason":"in: no variable'),
    ('failed cases to a full device, as JSON', "echo '{\"in\":{\"y\":1}}' | ./gr --json test good.gr - >/dev/full", 4, b'',
     b'{"status":4,"file":null,"line":null,"column":null,"reason":"standard output: No space left on device","hint":null}\n'),
    ('failed cases as JSON with GHOSTRIDER_EXPLAIN=0',
     "echo '{\"in\":{\"y\":1}}' | GHOSTRIDER_EXPLAIN=0 ./gr --json test good.gr - >h", 1, b'', None),
    ('a name with other letters, as JSON', "cp bad.gr $'\u00e9\"\\\U0001f600' && ./gr --json compile $'\u00e9\"\\\U0001f600' out", 8,
     None, b'"file":"\\u00e9\\"\\\\\\ud83d\\ude00","line":2'),
    ('--quiet', './gr --quiet compile bad.gr out', 8, b'fault 8 source undeclared 0\n', None),
    ('--quiet after the verb', './gr compile --quiet bad.gr out', 2, b'fault 2 usage\n', b'--quiet'),
    ('--quiet without a verb', './gr --quiet', 2, b'fault 2 usage\n', None),
    ('--quiet and --json', './gr --quiet --json check x', 2, b'fault 2 usage\n',
     b'"reason":"only one of --quiet and --json may precede the verb"'),
    ('--json and --quiet', './gr --json --quiet check x', 2, b'fault 2 usage\n', b'"reason":"only one of --quiet and --json'),
    ('--quiet twice', './gr --quiet --quiet check x', 2, b'fault 2 usage\n', b'ghostrider: only one of --quiet and --json'),
    ('help after --json', './gr --json help >h; head -n 1 h', 0,
     b'ghostrider compile SRC OUT [--fast] [--block-log W] [--window P:O:C] [--procs]\n', None),
    ('spent', './gr run examples/sum.obj good.json out --cycles 5', 10, b'fault 10 spent 5\n', b'--cycles'),
    ('a missing file', './gr check none.obj', 3, b'fault 3 read none.obj\n', b'No such file or directory'),
    ('a missing second file', './gr trace examples/sum.obj none.json', 3, b'fault 3 read none.json\n', b'none.json'),
    ('a folder to read', './gr check .', 3, b'fault 3 read .\n', b'Is a directory'),
    ('a folder as OUT', './gr compile good.gr examples', 4, b'fault 4 write examples\n', b'Is a directory'),
    ('a missing folder', './gr compile good.gr none/out', 4, b'fault 4 write none/out\n', b'No such file or directory'),
    ('a full device', './gr compile good.gr - >/dev/full', 4, b'', b'standard output: No space left on device'),
    ('a file that is too long', 'head -c 1048577 /dev/zero >long && ./gr compile long out', 11,
     b'fault 11 long long 1048576\n', b'more than 1048576 bytes'),
    ('a name with an escape', "./gr check $'a\\e[31m\\rb'", 3, None, b'a\\x1b[31m\\x0db: '),
    ('a name that turns its text', "./gr check $'a\\u202eb'", 3, None, b'a\\u{202e}b: '),
    ('a name that is no UTF-8', "./gr check $'a\\xff'", 2, b'', b'ghostrider: an argument is not valid UTF-8'),
    ('a name that is no UTF-8, as JSON', "./gr --json check $'a\\xff'", 2, b'',
     b'{"status":2,"file":null,"line":null,"column":null,"reason":"an argument is not valid UTF-8'),
    ('a name that is no UTF-8 after --quiet', "./gr --quiet check $'a\\xff'", 2, b'', None),
    ('help of a verb', './gr compile x.gr --help >h; head -n 1 h', 0,
     b'ghostrider compile SRC OUT [--fast] [--block-log W] [--window P:O:C] [--procs]\n', None),
    ('help is a file after --', './gr check -- --help', 3, b'fault 3 read --help\n', b'--help'),
    ('help of a verb has its own options and statuses', "./gr help check >h; grep -c -e --cycles -e '^    1[0123] ' h", 0,
     b'1\n', None),
    ('help of a verb names no option of others', "./gr help run >h; grep -c -e --paths -e '(' h", 1, b'0\n', None),
    ('help of --paths for each verb', "for verb in trace diff count; do ./gr help $verb | grep -A1 -e '^    --paths'; done >h; sort -u h | wc -l",
     0, b'4\n', None),
    ('help of a limit', "./gr help eval | grep '^    10 '; ./gr help run | grep '^    10 '", 0,
     b'    10  limit of iterations reached\n    10  limit of cycles reached\n', None),
    ('help of the version', './gr help version >h; head -n 1 h', 0, b'ghostrider version\n', None),
    ('help of the version, asked after it', './gr --version --help >h; head -n 1 h', 0, b'ghostrider version\n', None),
    ('help of an option before the verb', './gr help --json >h; head -n 1 h', 0, b'ghostrider --json VERB ..\n', None),
    ('help of help', './gr help help >h; head -n 1 h', 0, b'ghostrider help [VERB]\n', None),
    ('help of no verb', './gr help frob', 2, b'fault 2 usage\n', b'frob is not a verb\nThe verbs are compile, check, run, '),
    ('help with a word too many', './gr help check x', 2, b'fault 2 usage\n', b'unexpected word x'),
    ('help to a full device', './gr help >/dev/full', 4, b'', b'standard output: No space left on device'),
    ('help to a closed output', './gr help >&-', 4, b'', b'standard output: '),
    ('the version to a full device', './gr version >/dev/full', 4, b'', b'standard output: No space left on device'),
    ('the version', './gr --version >h; head -n 1 h', 0, VERSION, None),
    ('what it was made of', "echo 'sources 0123' >made && ./gr -V | tail -n 1", 0, b'sources 0123\n', None),
    ('its path', '[ "$(./gr --which)" -ef ./gr ]', 0, b'', None),
    ('nothing is left', 'ls -A tmp', 0, b'', None),
]


def try_shell(folder):
    """Calls from a shell, of a copy of the program with some files beside it."""
    shutil.copy(PROGRAM, f'{folder}/gr')
    shutil.copytree(f'{ROOT}/examples', f'{folder}/examples')
    os.mkdir(f'{folder}/tmp')
    for name, data in (('bad.gr', b'public int x;\nx = y;\n'), ('good.gr', b'public int x;\nx = 1;\n'), ('good.json', b'{}')):
        with open(os.path.join(folder, name), 'wb') as file:
            file.write(data)
    called(['compile', 'good.gr', 'good.obj'], folder)
    for title, line, status, text, words in SHELL:
        ran = subprocess.run(['bash', '-c', line], cwd=folder, stdin=subprocess.DEVNULL, stdout=subprocess.PIPE,
                             stderr=subprocess.PIPE, timeout=SECONDS,
                             env={**os.environ, 'GHOSTRIDER_EXPLAIN': '', 'TMPDIR': f'{folder}/tmp'})
        holds = ran.returncode == status and text in (None, ran.stdout)
        holds = holds and (words in ran.stderr if words is not None else ran.stderr == b'')
        yield f'a call in a shell: {title}', None if holds else f'{ran.returncode}, {ran.stdout!r}, {ran.stderr!r}'


# ---- all of it

def try_cases():
    for title, lines in cases():
        with tempfile.TemporaryDirectory() as folder:
            try:
                play(lines, folder)
                yield title, None
            except (Failed, subprocess.TimeoutExpired, OSError) as why:
                yield title, why


def main():
    passed, failed = 0, 0
    with tempfile.TemporaryDirectory() as folder:
        for title, wrong in (*try_cases(), *try_shell(folder)):
            print(f'ok: {title}' if wrong is None else f'FAILED: {title}: {wrong}', flush=True)
            passed += wrong is None
            failed += wrong is not None
    damaged = [(kind, number) for kind in CALLS for number in range(COUNT)]
    for wrong in many.tried(attempt, damaged):
        failed += bool(wrong)
        passed += not wrong
        for complaint in wrong[:3] if failed <= 20 else ():
            print(complaint, flush=True)
    return many.closes(passed, failed)


if __name__ == '__main__':
    sys.exit(main())
