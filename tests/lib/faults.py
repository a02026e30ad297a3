"""The work of tests/faults. Words: the program, the root."""
import os
import re
import subprocess
import sys
import tempfile
from collections import namedtuple

PROGRAM, ROOT = sys.argv[1:3]
import explained  # noqa: E402
import many  # noqa: E402
from explained import Failed, agree, make_file, write  # noqa: E402
from places import misplaced  # noqa: E402

ROWS = f'{ROOT}/tests/explained/faults.rows'
READ = {'SRC': ('good.gr', 'text'), 'OBJ': ('good.obj', 'object'), 'INPUT': ('good.json', 'input'),
        'CASES': ('good.cases', 'input'), 'TEXT': ('good.asm', 'asm')}
"""The good file for an argument, and the name of the file of a row."""
MOST = {'SRC': 1 << 20, 'OBJ': 1 << 25, 'INPUT': 1 << 26, 'CASES': 1 << 26, 'TEXT': 1 << 26}

Verb = namedtuple('Verb', 'name arguments options statuses')
Row = namedtuple('Row', 'title argument line lines options words verbs other at has')
Case = namedtuple('Case', 'verb words line row file alone')
"""A call of a verb, the line that it must print, its row, the file with the fault, and whether no option was added."""


# ---- what the program says of itself

def printed(*words):
    return subprocess.run([PROGRAM, *words], capture_output=True, check=True, text=True).stdout


def verbs():
    """The verbs with their arguments, options and statuses, as help prints them."""
    usages = re.findall(r'^ghostrider (\w+)(.*)', printed('help'), re.MULTILINE)
    return [verb_of(name, rest) for name, rest in usages]


def verb_of(name, rest):
    arguments = re.sub(r'\[.*', '', rest).split()
    options = [option.split()[0] for option in re.findall(r'\[(.*?)\]', rest)]
    statuses = re.findall(r'^    ([0-9]+) ', printed('help', name).partition('Exit status:')[2], re.MULTILINE)
    return Verb(name, ['OBJ', 'INPUT'] * 2 if '..' in arguments else arguments, options, set(map(int, statuses)))


def lines_of_formats(known):
    """The lines of faults in the table of docs/FORMATS.md, each up to its first variable."""
    with open(f'{ROOT}/docs/FORMATS.md') as file:
        rows = re.findall(r'^\| ([0-9]+) \| (`fault .*?) \| ', file.read(), re.MULTILINE)
    other_words = {'end spent', *(verb.name for verb in known), *(option for verb in known for option in verb.options)}
    for status, cell in rows:
        first, *others = re.findall(r'`(.*?)`', cell)
        yield plain(first)
        head = f'fault {status}' if status in ('6', '7', '9') else ' '.join(first.split()[:3])
        yield from (plain(f'{head} {other}') for other in others if other not in other_words)


def plain(line):
    return re.sub(r' <.*', '', line)


# ---- the rows

def rows_and_options():
    """The rows, a value for each option, and the statuses of verbs for which no row can be."""
    rows, options, unreached, lines = [], {}, set(), []
    with open(ROWS) as file:
        text = [line.rstrip('\n') for line in file if not line.startswith('#')]
    for line in [*text, 'row ']:
        verb, _, rest = line.partition(' ')
        if verb == 'option':
            options[rest.split()[0]] = rest.split()
        elif verb == 'unreached':
            unreached.add((rest.split()[0], int(rest.split()[1])))
        elif verb == 'row':
            if lines:
                rows.append(row_of(lines))
            lines = [line]
        elif line:
            lines.append(line)
    return rows, options, unreached


def row_of(lines):
    argument, _, line = lines[0][4:].partition(' ')
    files, said = [], {'with': [], 'words': [], 'verbs': [], 'but': [], 'at': [], 'has': [], 'rule': []}
    for each in lines[1:]:
        verb, _, rest = each.partition(' ')
        if verb in said:
            said[verb].append(rest)
        else:
            files.append(each)
    other = dict(rest.partition(': ')[::2] for rest in said['but'])
    first = {name: ' '.join(said[name]).split() for name in ('with', 'words', 'verbs')}
    return Row(line, argument, line, files, first['with'], first['words'], first['verbs'], other,
               said['at'][0] if said['at'] else None, said['has'])


def make_files(row, folder):
    """Makes the files of a row."""
    for line in row.lines:
        if not make_file(PROGRAM, ROOT, line, folder):
            raise Failed(f'no such line: {line}')


def words_of(verb, place=None, name=None):
    """The words of a call of a verb with good files, but for the one at a place."""
    words = [verb.name]
    for at, argument in enumerate(verb.arguments):
        good = {'ITEMS': '2', 'OUT': 'out'}.get(argument) or READ[argument][0]
        if verb.name == 'bus' and at == 2:
            good = 'second.obj'
        words.append(name if at == place else good)
    return words


# ---- the calls of the rows

def cases_of(row, verb, values):
    """The calls of a verb in which a row's fault is, alone and with each option of the verb."""
    given = [word for word in row.options if word.startswith('--')]
    if row.verbs and verb.name not in row.verbs or not set(given) <= set(verb.options):
        return
    if status_of(row.line) not in verb.statuses or row.words and row.words[0] != verb.name:
        return
    places = [at for at, argument in enumerate(verb.arguments) if argument == row.argument]
    for at in [None] if row.words else places:
        name = None if row.words else READ[row.argument][1]
        words = (row.words or words_of(verb, at, name)) + row.options
        yield Case(verb, words, row.line, row, name, True)
        for option in verb.options:
            if option not in words and row.other.get(option) != '':
                line = row.other.get(option, row.line)
                yield Case(verb, words + values[option], line, row, name, False)


def status_of(line):
    """The status of the line of a row: a fault, or a status and a text that standard output contains."""
    words = line.split()
    return int(words[1] if words[0] == 'fault' else words[0])


def has_line(text, line):
    if line.startswith('fault '):
        return text == f'{line}\n'
    return line.partition(' ')[2] in text


def fault(case, folder):
    """What is wrong with the call of a case: None if nothing."""
    row = case.row
    status, text, words = explained.called(PROGRAM, case.words, folder)
    wanted = status_of(case.line)
    if status != wanted or not has_line(text.decode(), case.line):
        return f'{status}, {text[-200:]!r}'
    if wanted != 1 and not words:
        return 'nothing is explained'
    for wants in row.has:
        if wants.encode() not in words:
            return f'{wants!r} is not in {words!r}'
    if case.file and (wrong := place_fault(case, folder, words)):
        return f'{wrong}: {words!r}'
    if not case.alone:
        return None
    status, _, lines = explained.called(PROGRAM, ['--json', *case.words], folder)
    if status != wanted or not says_the_same(status, words, lines):
        return f'{words!r} is not {lines!r}'
    quiet = explained.called(PROGRAM, ['--quiet', *case.words], folder)
    return None if quiet == (wanted, text, b'') else f'--quiet: {quiet}'


def says_the_same(status, words, lines):
    """Whether lines of JSON say what the words do. A call that ends with 1 has no words, and lines of its own."""
    if status == 1:
        return words == b'' and all(row['status'] == 1 for row in explained.rows_of(lines))
    return agree(status, words, lines)


def place_fault(case, folder, words):
    if case.row.at:
        holds = words.startswith(f'{case.file}:{case.row.at}: '.encode())
        return None if holds else f'place {case.row.at} is not named'
    with open(f'{folder}/{case.file}', 'rb') as file:
        return misplaced(case.line, case.file, file.read(), words)


def attempt(cases):
    """Tries calls on the files of one row. Returns what is wrong with each of them."""
    with tempfile.TemporaryDirectory(dir=many.FOLDER) as folder:
        try:
            for name, data in FILES.items():
                write(folder, name, data)
            make_files(cases[0].row, folder)
        except (Failed, OSError) as why:
            return [f'{case.row.title}: {why}' for case in cases]
        return [wrong and f'{case.row.title}: {" ".join(case.words)}: {wrong}' for case in cases
                for wrong in [fault(case, folder)]]


# ---- faults that don't depend on what a file says

def row_for(verb, line, words, has, files=()):
    """The row of one call of a verb."""
    no_option = dict.fromkeys(verb.options, '')
    return Row(f'{verb.name}: {line}', 'CALL', line, list(files), [], words, [verb.name], no_option, None, has)


def rows_of(verb, values):
    """The rows of a verb's usage errors, and of files that can't be read or written, or that are too long."""
    good, read = words_of(verb), [at for at, argument in enumerate(verb.arguments) if argument in READ]

    def usage(words, *has):
        return row_for(verb, 'fault 2 usage', words, [f'{verb.name}: {has[0]}', *has[1:]])

    yield usage([verb.name], f'missing argument {verb.arguments[0]}', f'usage: ghostrider {verb.name} ')
    yield usage([*good, '--nothing'], 'unknown option --nothing')
    if verb.name != 'bus':
        yield usage([*good, 'more'], 'unexpected argument more')
    for option in verb.options:
        yield usage([*good, *values[option], *values[option]], f'{option} is given twice')
        if len(values[option]) == 1:
            yield usage([*good, f'{option}=1'], f'{option} takes no value')
        else:
            yield usage([*good, option], f'{option} takes ', 'but its value is missing')
            for bad in ('x', '-1', '99999999999999999999'):
                yield usage([*good, option, bad], f'{option} takes {numbers_of(option)}', f', not `{bad}`')
    for option in values:
        if option not in verb.options:
            yield usage([*good, *values[option]], f'{option} is not an option of this verb')
    if len(read) > 1:
        twice = ['-' if at - 1 in read else word for at, word in enumerate(good)]
        yield row_for(verb, 'fault 2 usage', twice, ['standard input can be read as only one file'])
    for at in read:
        kind = verb.arguments[at]
        missing, long = words_of(verb, at, 'none'), words_of(verb, at, 'long')
        yield row_for(verb, 'fault 3 read none', missing, ['ghostrider: none: No such file or directory'])
        yield row_for(verb, 'fault 3 read .', words_of(verb, at, '.'), ['ghostrider: .: Is a directory'])
        yield row_for(verb, f'fault 11 long long {MOST[kind]}', long, [f'long has more than {MOST[kind]} bytes'],
                      [f'size long {MOST[kind] + 1}'])
    if 'OUT' in verb.arguments:
        words = words_of(verb, verb.arguments.index('OUT'), 'none/out')
        yield row_for(verb, 'fault 4 write none/out', words, ['ghostrider: none/out: No such file or directory'])


def numbers_of(option):
    """The numbers that an option takes, as help says."""
    if option == '--window':
        return 'three numbers P:O:C'
    text = printed('help').partition('Options:')[2].partition(f'    {option} ')[2].split('\n    -')[0]
    found = re.search(r'from ([0-9]+) to ([0-9]+)', ' '.join(text.split()))
    return f'a number from {found[1]} to {found[2]}'


# ---- output that can't be printed, and memory

def called_by(line, words, folder):
    """A call from a shell: its status, standard output and standard error."""
    ran = subprocess.run(['bash', '-c', line, 'sh', PROGRAM, *words], cwd=folder, stdin=subprocess.DEVNULL,
                         capture_output=True)
    return ran.returncode, ran.stdout, ran.stderr


def least_memory(folder):
    """The least address space, in KiB, in which the program can check a small object."""
    low, high = 0, 1 << 20
    while high - low > 64:
        middle = (low + high) // 2
        ends = called_by(f'ulimit -v {middle}; "$@" 2>&1', ['check', 'good.obj'], folder)
        low, high = (low, middle) if ends[0] == 0 else (middle, high)
    return high


def starved(verb, limit, folder):
    """What is wrong with a call for which memory runs out: None if nothing."""
    kind = verb.arguments[0]
    if kind in READ:
        write(folder, 'long', b' ' * (MOST[kind] - 1) + b'\n')
    words = [verb.name, '65536', 'out'] if kind == 'ITEMS' else words_of(verb, 0, 'long')
    ends = called_by(f'ulimit -v {limit}; exec "$@"', words, folder)
    return None if ends == (5, b'fault 5 memory\n', b'') else f'{verb.name}: memory: {ends}'


def unprinted(words, folder):
    """What is wrong with a call whose output can't be printed: None if nothing."""
    wanted = (4, b'', b'ghostrider: standard output: No space left on device\n')
    ends = called_by('exec "$@" >/dev/full', words, folder)
    return None if ends == wanted else f'{" ".join(words)} to a full device: {ends}'


def outsides(known, values):
    """What is wrong with the calls for which the outside fails."""
    with tempfile.TemporaryDirectory() as folder:
        for name, data in FILES.items():
            write(folder, name, data)
        limit = least_memory(folder)
        for verb in known:
            yield starved(verb, limit, folder)
            for added in [[], *(values[option] for option in verb.options)]:
                yield unprinted(words_of(verb) + added, folder)


# ---- what has no row

def without_row(known, unreached, cases):
    """The statuses of verbs and the lines of docs/FORMATS.md that no call has."""
    lines = [case.line for case in cases]
    tried = {(case.verb.name, status_of(case.line)) for case in cases}
    for line in lines_of_formats(known):
        yield None if any(each.startswith(line) for each in lines) or line in OUTSIDE else f'no row: {line}'
    for verb in known:
        for status in verb.statuses - {0, 4, 5}:
            holds = ((verb.name, status) in tried) != ((verb.name, status) in unreached)
            yield None if holds else f'no row: {verb.name}, status {status}'


# ---- all of it

OUTSIDE = {'fault 4 write', 'fault 5 memory'}
FILES = explained.good_files(PROGRAM)


def chunks(lists, most=40):
    """The lists, cut into lists of at most that many cases, so that no process gets far more than another."""
    return [cases[at:at + most] for cases in lists for at in range(0, len(cases), most)]


def main():
    rows, values, unreached = rows_and_options()
    passed, failed = 0, 0

    def says(holds, what):
        nonlocal passed, failed
        passed += bool(holds)
        failed += not holds
        if not holds:
            print(f'FAILED: {what}', flush=True)

    known, tried = verbs(), {}
    if wrong := {option for verb in known for option in verb.options} ^ set(values):
        says(False, f'not both an option and a row: {" ".join(sorted(wrong))}')
        return many.closes(passed, failed)
    for row in [*rows, *(row for verb in known for row in rows_of(verb, values))]:
        cases = [case for verb in known for case in cases_of(row, verb, values)]
        says(cases, f'{row.title}: no verb reads such a file')
        tried.setdefault(tuple(row.lines), []).extend(cases)
    for wrong in many.tried(attempt, chunks(tried.values())):
        for one in wrong:
            says(one is None, one)
    for one in (*outsides(known, values), *without_row(known, unreached, sum(tried.values(), []))):
        says(one is None, one)
    return many.closes(passed, failed)


if __name__ == '__main__':
    sys.exit(main())
