"""Makes docs/COMMANDS.md of what `ghostrider help` prints, of docs/commands.txt, and of what its examples print.

In docs/commands.txt a heading with the name of a command is followed by the command's usage, what it does, its options
and its statuses. Lines that begin with `$ ` are commands of a shell, followed by what they print. `[commands]` stands
for the table of all commands, `[others]` for that of the words that may be in the place of a command.
"""
import os
import re
import shlex
import subprocess
import tempfile
import textwrap

OTHERS = ['help', 'version', '--which', '--quiet', '--json']
SECONDS = 60
MOST_SHOWN = 165


class Stale(Exception):
    """The hand-written text doesn't fit what the program prints."""


def brief(text):
    """A text, or its first sentence if it is long."""
    return text if len(text) <= MOST_SHOWN else re.match(r'.*?[.](?= [A-Z]|$)', text).group()


def cell(text):
    return text.replace('|', '\\|')


class Help:
    """What `help NAME` prints: the usage, the text, the options and the statuses with their texts."""

    def __init__(self, said):
        parts = said.strip().split('\n\n')
        self.usage, *text = parts[0].splitlines()
        self.text = ' '.join(line.strip() for line in text)
        self.options, self.statuses = [], []
        for part in parts[1:]:
            head, *lines = part.splitlines()
            if head == 'Options:':
                for line in lines:
                    if line.startswith('    -'):
                        self.options.append([line.strip(), ''])
                    else:
                        self.options[-1][1] = f'{self.options[-1][1]} {line.strip()}'.strip()
            elif head == 'Exit status:':
                self.statuses = [re.sub(r' \([a-z, ]+\)$', '', line).split(maxsplit=1) for line in lines]

    def page(self):
        yield from ('```', self.usage, '```', '', textwrap.fill(self.text, 100), '')
        if self.options:
            yield from ('| Option | What it does |', '|---|---|')
            yield from (f'| `{option}` | {cell(text)} |' for option, text in self.options)
            yield ''
        if self.statuses:
            yield from ('| Exit status | Meaning |', '|---|---|')
            yield from (f'| {number} | {cell(text)} |' for number, text in self.statuses)
            yield ''


class Shell:
    """A folder in which the commands of the page are called, with the program and the examples in it."""

    def __init__(self, program, root, folder):
        self.folder = folder
        os.symlink(os.path.join(root, 'examples'), os.path.join(folder, 'examples'))
        path = os.path.join(folder, 'ghostrider')
        with open(path, 'w', encoding='utf-8') as file:
            file.write(f'#!/bin/sh\nexec {shlex.quote(program)} "$@"\n')
        os.chmod(path, 0o755)

    def prints(self, command):
        ran = subprocess.run(['bash', '-c', command], cwd=self.folder, stdin=subprocess.DEVNULL, stdout=subprocess.PIPE,
                             stderr=subprocess.STDOUT, timeout=SECONDS, check=False, text=True)
        return ran.stdout.splitlines()


def sessions(text, shell):
    """The text, in which each group of commands is a block with what they print."""
    inside = False
    for line in text.splitlines():
        if line.startswith('$ '):
            yield from ([] if inside else ['```']) + [line] + shell.prints(line[2:])
        elif inside:
            yield from ('```', line)
        else:
            yield line
        inside = line.startswith('$ ')


def table(head, helps):
    yield from (f'| {head} | What it does |', '|---|---|')
    for name, told in helps.items():
        words = told.usage.split(' [-')[0].removeprefix('ghostrider ')
        shown = f'[`{words}`](#{name})' if re.match(r'[a-z]', name) and head == 'Command' else f'`{words}`'
        yield f'| {shown} | {cell(brief(told.text))} |'


def page(program, root):
    def call(*words):
        return Help(subprocess.run([program, 'help', *words], stdout=subprocess.PIPE, check=True, text=True).stdout)
    listed = subprocess.run([program, 'help'], stdout=subprocess.PIPE, check=True, text=True).stdout
    names = re.findall(r'^ghostrider (\w+)', listed.split('\nOptions:')[0], re.M)
    helps, others = ({name: call(name) for name in which} for which in (names, OTHERS))
    with open(os.path.join(root, 'docs', 'commands.txt'), encoding='utf-8') as file:
        text = file.read()
    headings = [name for name in re.findall(r'^## (.*)$', text, re.M) if re.fullmatch('[a-z]+', name)]
    if headings != names:
        raise Stale(f'docs/commands.txt has the commands {headings}, and the program {names}')
    with tempfile.TemporaryDirectory() as folder:
        shell = Shell(program, root, folder)
        for line in sessions(text, shell):
            told = helps.get(line.removeprefix('## ')) if line.startswith('## ') else None
            if line == '[commands]':
                yield from table('Command', helps)
            elif line == '[others]':
                yield from table('Words', others)
            else:
                yield line
            if told:
                yield ''
                yield from told.page()
