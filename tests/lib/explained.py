"""Calls of the program, the lines of JSON that it prints, and the files of cases: what tests/explain and tests/faults
share."""
import json
import os
import pathlib
import re
import shutil
import subprocess
import tempfile

SECONDS = 60


class Failed(Exception):
    """A case that doesn't hold."""


def called(program, words, folder):
    """A call of the program: its status, and what standard output and standard error got."""
    ran = subprocess.run([program, *words], cwd=folder, stdin=subprocess.DEVNULL, stdout=subprocess.PIPE,
                         stderr=subprocess.PIPE, timeout=SECONDS)
    return ran.returncode, ran.stdout, ran.stderr


# ---- lines of JSON

MEMBERS = ['status', 'file', 'line', 'column', 'reason', 'hint']


def rows_of(words):
    """The objects of the lines of JSON that standard error got."""
    rows = [json.loads(line) for line in words.decode('ascii').split('\n')[:-1]]
    for row in rows:
        if list(row) != MEMBERS or (row['file'] is None) != (row['line'] is None) or row['reason'] == '':
            raise Failed(f'{row}')
    return rows


def shown(row):
    """The first line of the words of which a line of JSON was made."""
    place = '' if row['file'] is None else f"{row['file']}:{row['line']}:{row['column']}: "
    return place + ('warning: ' if row['status'] == 0 else '') + row['reason']


def agree(status, words, lines):
    """Whether lines of JSON say what the words say."""
    rows, first = rows_of(lines), words.decode('ascii').splitlines()
    if any(row['status'] != status for row in rows):
        return False
    if status == 0:
        return [shown(row) for row in rows] == [line for line in first if ': warning: ' in line]
    return len(rows) == 1 and (rows[0]['reason'] is None or shown(rows[0]) == first[0].removeprefix('ghostrider: '))


# ---- files

ESCAPE = re.compile(r'\\(x[0-9a-f]{2}|.)')
PLAIN = {'t': b'\t', 'r': b'\r', '\\': b'\\', 'c': b''}


def bytes_of(line):
    """The bytes of a line of a file."""
    out, at = b'', 0
    for found in ESCAPE.finditer(line):
        out += line[at:found.start()].encode()
        name = found.group(1)
        out += bytes([int(name[1:], 16)]) if name[0] == 'x' and len(name) > 1 else PLAIN[name]
        at = found.end()
    return out + line[at:].encode() + (b'' if line.endswith('\\c') else b'\n')


def change(folder, name, how):
    path = os.path.join(folder, name)
    with open(path, 'rb') as file:
        data = bytearray(file.read())
    with open(path, 'wb') as file:
        file.write(how(data))


def with_byte(data, at, byte):
    data[at] = byte
    return data


def make_file(program, root, line, folder):
    """Does what a line says that makes or changes a file. Returns whether the line is such a line."""
    verb, _, rest = line.partition(' ')
    parts = rest.split()
    if verb in ('text', 'input', 'asm'):
        with open(os.path.join(folder, verb), 'ab') as file:
            file.write(bytes_of(rest))
    elif verb == 'make':
        if called(program, ['asm', 'asm', parts[0]], folder)[0] != 0:
            raise Failed('the text is not assembled')
    elif verb == 'take':
        shutil.copy(f'{root}/examples/{parts[1]}', os.path.join(folder, parts[0]))
    elif verb == 'cut':
        change(folder, parts[0], lambda data: data[:int(parts[1])])
    elif verb == 'put':
        change(folder, parts[0], lambda data: with_byte(data, int(parts[1]), int(parts[2])))
    elif verb == 'many':
        name, count, text = rest.split(' ', 2)
        with open(os.path.join(folder, name), 'ab') as file:
            before, hash_, after = bytes_of(text).partition(b'#')
            file.writelines(before + (str(number).encode() if hash_ else b'') + after for number in range(int(count)))
    elif verb == 'size':
        with open(os.path.join(folder, parts[0]), 'wb') as file:
            file.truncate(int(parts[1]))
    elif verb == 'more':
        with open(os.path.join(folder, parts[0]), 'ab') as file:
            file.write(bytes(int(parts[1])))
    else:
        return False
    return True


# ---- good files

GOOD = b'public int n; secret int a[4]; secret int s; public int i;\n' \
       b'i = 0;\nwhile (i < n) { s = s + a[i]; i = i + 1; }\n'


def write(folder, name, data):
    with open(os.path.join(folder, name), 'wb') as file:
        file.write(data)


def good_files(program):
    """The bytes of a good file of each kind, and of a second object that has a place on a bus beside the first."""
    with tempfile.TemporaryDirectory() as folder:
        for name, data in (('good.gr', GOOD), ('good.json', b'{"n":3}'), ('good.cases', b'{"in":{"n":3}}\n')):
            write(folder, name, data)
        for words in (['compile', 'good.gr', 'good.obj', '--window', '20000:0:8000'],
                      ['compile', 'good.gr', 'second.obj', '--window', '20000:10000:18000'],
                      ['dis', 'good.obj', 'good.asm']):
            called(program, words, folder)
        return {path.name: pathlib.Path(path).read_bytes() for path in os.scandir(folder)}
