"""Where a line of a fault says that the fault is, and where its explanation says so."""
import re

NAMED = re.compile(rb'^(?P<file>.+?):(?:(?P<line>[0-9]+):(?P<column>[0-9]+)|byte (?P<byte>[0-9]+)|'
                   rb'place (?P<place>[0-9]+)): ')
TOKEN = re.compile(rb'//[^\n]*|\s+|[A-Za-z_]\w*|[0-9]+|.', re.DOTALL)
BYTES = ('byte', 'number', 'name', 'unexpected', 'deep')
DECLARATIONS = ('twice', 'limit length', 'limit words')
EARLIER = (b'expected `;` after', b'is not a keyword', b'is never closed')
"""What an explanation says that names a token before the one that the line names, since it is the cause."""
STATEMENTS = ('undeclared', 'shape', 'flow', 'index', 'guard', 'loop', 'limit height')


def tokens_of(text):
    """The tokens of a source with their places, without white space and comments."""
    return [(found.start(), found.group()) for found in TOKEN.finditer(text)
            if not found.group().isspace() and not found.group().startswith(b'//')]


def starts_of(text):
    """Where the declarations of a source without procedures begin, and where its statements do."""
    declarations, statements, begins = [], [], True
    for at, token in tokens_of(text):
        if begins and token in (b'public', b'secret'):
            declarations.append(at)
        elif begins and token not in (b'}', b'else', b'{'):
            statements.append(at)
        begins = token in (b';', b'{', b'}') or token == b'else'
    return declarations, statements


def procedures_of(text):
    """Where the procedures of a source begin, and where its calls do."""
    tokens, procedures, calls = tokens_of(text), [], []
    for number, (at, token) in enumerate(tokens[:-1]):
        if token == b'proc':
            procedures.append(at)
        elif (tokens[number + 1][1] == b'(' and re.match(rb'[A-Za-z_]', token) and token not in (b'if', b'while')
              and (number == 0 or tokens[number - 1][1] in (b';', b'{', b'}'))):
            calls.append(at)
    return procedures, calls


def extent(starts, number, end):
    """The bytes from one start to the next, or to the end."""
    return (starts[number], starts[number + 1] if number + 1 < len(starts) else end)


def source_extent(words, text):
    """The bytes in which a fault of a source lies, as its line says; None if the line names no place."""
    kind, _, last = words.rpartition(' ')
    if kind in BYTES:
        return int(last), int(last) + 1
    declarations, statements = starts_of(text)
    end = len(text)
    first = statements[0] if statements else end
    if kind in DECLARATIONS:
        return extent(declarations, int(last), first)
    if kind in STATEMENTS:
        return extent(statements, int(last), end)
    if kind in ('procs twice', 'procs undeclared'):
        return extent(procedures_of(text)[0], int(last), end)
    if kind in ('procs unknown', 'procs count', 'procs array'):
        return extent(procedures_of(text)[1], int(last), end)
    return None


def offset_of(data, line, column):
    """The byte of a line and a column, both counted from 1."""
    lines = data.split(b'\n')
    return sum(len(before) + 1 for before in lines[:line - 1]) + column - 1


def source_fault(about, data, found, words):
    wanted = source_extent(about, data)
    if wanted is None:
        return None
    if not found or found['line'] is None:
        return 'no line is named'
    at = offset_of(data, int(found['line']), int(found['column']))
    if about.startswith('unexpected') and any(each in words for each in EARLIER):
        return None if at <= wanted[0] else f'byte {at} is after {wanted[0]}'
    return None if wanted[0] <= at < wanted[1] else f'byte {at} is not in {wanted}'


def misplaced(fault, name, data, words):
    """What is wrong with the place or the name in an explanation, by the line of the fault: None if nothing."""
    found = NAMED.match(words)
    if found and found['file'].decode() != name:
        return f'the file is {found["file"]!r}'
    _, _, kind, about = fault.split(' ', 3)
    first, last = about.split(' ', 1)[0], about.rsplit(' ', 1)[-1]
    if kind == 'source':
        return source_fault(about, data, found, words)
    if kind == 'object':
        at = {'magic': '0', 'version': '4'}.get(first, last).encode()
        return None if found and found['byte'] == at else f'byte {at!r} is not named'
    if kind == 'dead' or kind == 'refused' and last != '13':
        return None if found and found['place'] == first.encode() else f'place {first} is not named'
    if kind == 'assembly':
        # the line after the last one is shown as the end of the text
        line = str(min(int(last), data.count(b'\n') + 1)).encode()
        return None if found and found['line'] == line else f'line {last} is not named'
    if kind == 'input' and re.fullmatch(r'"\w+"', last):
        return None if f'`{last[1:-1]}'.encode() in words else f'{last} is not named'
    return None
