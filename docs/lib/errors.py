"""Makes docs/ERRORS.md of docs/errors.txt and of the faults that tests/faults tries.

In docs/errors.txt a line `@RULE WHEN`, which indented lines continue, is a row of a table: it says when the error of
this rule is reported. The example, the line that is printed and the explanation are those of the first row of
tests/explained/faults.rows that has the rule. A line `[RULE ..]` stands for a table of the cases of tests/explained
with these rules in their titles.
"""
import functools
import glob
import json
import os
import re
import sys
import tempfile

ROOT = os.path.dirname(os.path.dirname(os.path.dirname(os.path.abspath(__file__))))
sys.path.insert(0, os.path.join(ROOT, 'tests', 'lib'))
import explained  # noqa: E402
from commands import Stale, cell  # noqa: E402

CALLS = {'OBJ': ['check', 'object'], 'SRC': ['compile', 'text', 'out'], 'INPUT': ['eval', 'good.gr', 'input', 'out'],
         'TEXT': ['asm', 'asm', 'out']}
HEAD = ['.object 1 3 1 70 2 3', '.bank 4 634', '.bank 4 662']
SYMBOL = '.symbol s secret scalar 1 0 0 1'
SECRET = ['li r1 0', 'ldb 1 E r1', 'ldw r2 1 r1']
MOST_SHOWN = 60


def blocks(path):
    """The blocks of lines of a file of rows or cases, without comments."""
    with open(path, encoding='utf-8') as file:
        lines = [line.rstrip('\n') for line in file if not line.startswith('#')]
    found = []
    for line in lines:
        if line.startswith(('row ', 'case ')):
            found.append([])
        if line and found:
            found[-1].append(line)
    return found


def value_of(block, name):
    return next((line.partition(' ')[2] for line in block if line.split()[0] == name), '')


def call_of(block):
    """The words of a call that shows the error of a row or a case."""
    if block[0].startswith('case '):
        return value_of(block, 'call').split()[1:]
    words = value_of(block, 'words').split()
    if not words:
        words = CALLS[block[0].split()[1]]
        if value_of(block, 'verbs').split()[:1] == ['infer']:
            words = ['infer', 'object', 'out']
    return words + value_of(block, 'with').split()


@functools.cache
def good_files(program):
    return explained.good_files(program)


def prints(program, block):
    """The line that a call of a block prints, and the explanation as an object of JSON."""
    with tempfile.TemporaryDirectory() as folder:
        for name, data in good_files(program).items():
            explained.write(folder, name, data)
        for line in block[1:]:
            explained.make_file(program, ROOT, line, folder)
        _, text, words = explained.called(program, ['--json', *call_of(block)], folder)
        if not words:
            raise Stale(f'nothing is explained for {" ".join(call_of(block))}: {text.decode()}')
        return text.decode(), json.loads(words.decode().splitlines()[-1])


# ---- examples

def code(text):
    text = text if len(text) <= 2 * MOST_SHOWN else f'{text[:MOST_SHOWN]}..'
    return f'`` {text} ``' if '`' in text else f'`{text}`'


def assembly(lines):
    """A text in code spans. `..` stands for the lines that the page names."""
    for head in (HEAD + [SYMBOL] + SECRET, HEAD + [SYMBOL], HEAD):
        if lines[:len(head)] == head:
            return (['..'] if head[-1] == SECRET[-1] else []) + lines[len(head):]
    return lines


def example(block):
    """What a row shows of its files: the lines of a text, or what was changed; and its options or its call."""
    lines, parts = [], []
    for line in block[1:]:
        verb, _, rest = line.partition(' ')
        words = rest.split()
        if verb in ('text', 'input', 'asm') and not value_of(block, 'words'):
            lines.append(rest.removesuffix('\\c'))
        elif verb == 'many':
            parts.append(f'{code(rest.split(" ", 2)[2].replace("#", "0"))} {words[1]} times')
        elif verb == 'take' and words[1].endswith('.asm'):
            parts.append(code(f'examples/{words[1]}'))
        elif verb in ('cut', 'put', 'more'):
            parts.append({'cut': f'the first {words[1]} bytes', 'put': f'byte {words[1]} is {words[-1]}',
                          'more': f'{words[1]} bytes more'}[verb])
    lines = assembly(lines) if lines[:1] == HEAD[:1] else lines
    shown = [code(line) for line in lines]
    text = ' '.join(shown if len(shown) < 9 else [*shown[:2], '..', shown[-1]])
    given = value_of(block, 'with') or value_of(block, 'words') * (not parts)
    return ', '.join([*([text] if text else []), *parts, *([code(given)] if given and not text else [])]), given


def explanation(said):
    """The reason and the hint of an explanation."""
    lines = [line for text in (said['reason'], said['hint']) if text for line in text.splitlines()]
    return cell(' '.join(line if line[-1] in '.:;?!' else f'{line}.' for line in lines))


# ---- the page

def rules(program, wanted):
    """The table of some rules: pairs of a rule and when it applies."""
    rows = blocks(os.path.join(ROOT, 'tests', 'explained', 'faults.rows'))
    yield from ('| Rule | When | Example | Line | Explanation |', '|---|---|---|---|---|')
    for rule, when in wanted:
        block = next((row for row in rows if value_of(row, 'rule') == rule), None)
        if not block:
            raise Stale(f'no row of tests/explained/faults.rows has the rule {rule}')
        text, said = prints(program, block)
        yield f'| `{rule}` | {cell(when)} | {cell(example(block)[0])} | `{text.strip()}` | {explanation(said)} |'


def cases(program, wanted):
    """The table of the cases with these rules."""
    yield from ('| Mistake | Example | Line | Explanation |', '|---|---|---|---|')
    for path in sorted(glob.glob(os.path.join(ROOT, 'tests', 'explained', '*.cases'))):
        for block in blocks(path):
            rule, _, title = block[0].partition(' ')[2].partition(': ')
            if rule in wanted:
                text, said = prints(program, block)
                yield f'| {cell(title)} | {cell(example(block)[0])} | `{text.strip()}` | {explanation(said)} |'


def page(program, root):
    with open(os.path.join(root, 'docs', 'errors.txt'), encoding='utf-8') as file:
        lines = file.read().splitlines()
    wanted = []
    for line in [*lines, '']:
        if line.startswith('@'):
            wanted.append(line[1:].split(maxsplit=1))
            continue
        if wanted and line.startswith('  '):
            wanted[-1][1] += f' {line.strip()}'
            continue
        if wanted:
            yield from rules(program, wanted)
            wanted = []
        named = re.fullmatch(r'\[([a-z-]+/[a-z/ -]+)\]', line)
        if named:
            yield from cases(program, named.group(1).split())
        else:
            yield line
