"""The work of tests/expand. Words: the program, the root, how many made sources, and the seed."""
import json
import os
import random
import re
import subprocess
import sys
import tempfile

PROGRAM, ROOT = sys.argv[1:3]
COUNT, SEED = int(sys.argv[3]), int(sys.argv[4])
os.environ['GHOSTRIDER_EXPLAIN'] = '0'


def call(folder, *words):
    """A call of the program: its status, and what it prints."""
    ran = subprocess.run([PROGRAM, *words], cwd=folder, stdin=subprocess.DEVNULL, stdout=subprocess.PIPE,
                         stderr=subprocess.DEVNULL, timeout=60)
    return ran.returncode, ran.stdout


def read(folder, name):
    with open(os.path.join(folder, name), 'rb') as file:
        return file.read()


def write(folder, name, data):
    with open(os.path.join(folder, name), 'wb') as file:
        file.write(data)


def nameless(assembly):
    """An assembly text without the names of its variables."""
    return re.sub(rb'^(\.symbol) \S+', rb'\1', assembly, flags=re.M)


def wrong(folder, source):
    """What is wrong with the expansion of a source, '' if nothing is, and None if the source isn't accepted."""
    write(folder, 'own.gr', source)
    if call(folder, 'compile', '--procs', 'own.gr', 'own.obj')[0] != 0:
        return None
    status, text = call(folder, 'expand', 'own.gr')
    if status != 0:
        return f'expand ends with {status}'
    write(folder, 'made.gr', text)
    status, line = call(folder, 'compile', 'made.gr', 'made.obj')
    if status != 0:
        return f'compile rejects the expansion: {line!r}'
    for name in 'own', 'made':
        call(folder, 'dis', f'{name}.obj', f'{name}.asm')
    if nameless(read(folder, 'own.asm')) != nameless(read(folder, 'made.asm')):
        return 'the expansion is compiled to another object'
    names = re.findall(rb'(?:public|secret) int ([A-Za-z_0-9]+)', text)
    if len(set(names)) != len(names) or any(name.startswith(b'__') or len(name) > 32 for name in names):
        return f'names: {names}'
    write(folder, 'in.json', b'{}')
    left = []
    for name, *option in ('own', '--procs'), ('made',):
        status, _ = call(folder, 'eval', *option, f'{name}.gr', 'in.json', f'{name}.json', '--turns', '10000')
        left.append(json.loads(read(folder, f'{name}.json')) if status == 0 else status)
    if isinstance(left[0], dict) and isinstance(left[1], dict):
        for own, value in left[0].items():
            if not own.startswith('__') and left[1].get(own) != value:
                return f'{own} is {value} and {left[1].get(own)}'
    elif left[0] != left[1]:
        return f'eval: {left}'
    return other_names(folder)


def other_names(folder):
    """What is wrong with the names and the places that `layout` and `profile` print of a source, '' if nothing is."""
    own, made = (call(folder, 'layout', *words)[1] for words in (('own.gr', '--procs'), ('made.gr',)))
    if own.replace(b' of the program without calls', b'') != made:
        return f'layout --procs differs from layout of the expansion: {own!r}'
    _, table = call(folder, 'profile', '--procs', 'own.gr', 'in.json', '--cycles', '10000')
    if re.search(rb'\b__[0-9]', table):
        return f'profile: {table!r}'
    return ''


def written():
    """The sources with procedures of the examples and of the cases."""
    folder = f'{ROOT}/examples/procedures'
    for name in sorted(os.listdir(folder)):
        if name.endswith('.gr'):
            yield name, read(folder, name)
    rows = read(f'{ROOT}/crates/ghost_rows/data', 'procs.rows')
    for number, found in enumerate(re.finditer(rb'(?:`[^`]*`\s*)+', rows)):
        texts = re.findall(rb'`([^`]*)`', found.group())
        for text in {b''.join(texts), *texts}:
            if b'proc ' in text:
                yield f'procs.rows {number}', text
    for name in sorted(os.listdir(f'{ROOT}/tests/explained')):
        if name.endswith('.cases'):
            for case in read(f'{ROOT}/tests/explained', name).split(b'\n\n'):
                yield f'{name} {case[:60]!r}', b'\n'.join(re.findall(rb'^text (.*)', case, flags=re.M))


NAMES = ['a', 'b', 'a_b', 'a_b_2', 'f_a', 'f_a_2', '_', 'x' * 32, 'x' * 31 + 'y', 'call', 'call_2', 'proc']


def made(chance):
    """A source with procedures and calls, whose names clash with those that an expansion makes."""
    own = chance.sample(NAMES, 4)
    lines = [f'secret int {own[0]}; secret int {own[1]}; secret int {own[2]}[4]; public int {own[3]};']
    procedures = []
    for name in chance.sample(['f', 'a', 'x' * 32, '_', 'call', 'proc', 'a_b'], 3):
        scalars = chance.sample(NAMES, chance.randint(0, 3))
        local = chance.choice([n for n in NAMES + ['q'] if n not in scalars and n != 'o'])
        params = [f'secret int {scalar}' for scalar in scalars] + ['int o[]']
        body = [f'secret int {local};'] if chance.random() < 0.5 else []
        known = scalars + ([local] if body else [])
        for _ in range(chance.randint(0, 3)):
            body.append(statement(chance, known or ['o[0]'], 'o', procedures))
        lines.append(f'proc {name}({"; ".join(params)}) {{ {" ".join(body)} }}')
        procedures.append((name, len(scalars)))
    lines += [statement(chance, own[:2], own[2], procedures) for _ in range(chance.randint(1, 5))]
    return '\n'.join(lines).encode()


def statement(chance, scalars, array, procedures):
    value = f'{chance.choice(scalars)} + {chance.randint(0, 9)}'
    kind = chance.random()
    if procedures and kind < 0.5:
        name, count = chance.choice(procedures)
        values = [f'{chance.choice(scalars)} * {chance.randint(0, 9)}' for _ in range(count)]
        return f'{name}({"; ".join(values + [array])});'
    if kind < 0.7:
        return f'{array}[{chance.randint(0, 5)}] = {value};'
    if kind < 0.8:
        inner = statement(chance, scalars, array, procedures)
        return f'if ({value} > {chance.choice(scalars)}) {{ {inner} }} else {{ {array}[1] = {value}; }}'
    return f'{array}[0] = {value};'


def main():
    passed = failed = 0
    sources = list(written())
    chance = random.Random(SEED)
    sources += [(f'made source {number}', made(chance)) for number in range(COUNT)]
    with tempfile.TemporaryDirectory() as folder:
        for title, source in sources:
            fault = wrong(folder, source)
            if fault == '':
                passed += 1
            elif fault is not None:
                failed += 1
                print(f'no: {title}: {fault}\n{source.decode()}')
    print(f'{passed} passed, {failed} failed')
    return failed != 0


sys.exit(main())
