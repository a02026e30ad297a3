"""The work of tests/editors. Words: the program and the root."""
import glob
import itertools
import json
import os
import re
import shutil
import subprocess
import sys
import tempfile

PROGRAM, ROOT = sys.argv[1:3]
WORK = tempfile.mkdtemp()
SECONDS = 60
counts = {True: 0, False: 0, None: 0}


def says(holds, what, shown=''):
    """Counts a test; what is shown beside a failure is why."""
    counts[bool(holds)] += 1
    print(f'ok: {what}' if holds else f'FAILED: {what}: {shown}', flush=True)


def skipped(what):
    counts[None] += 1
    print(f'skipped: {what}')


def read(path):
    with open(path, encoding='utf-8') as file:
        return file.read()


def loaded(name):
    return json.loads(read(f'{ROOT}/editors/vscode/{name}'))


def call(*words, explain='0'):
    """A call of the program in the folder: its status, and what it prints on standard output and standard error."""
    ran = subprocess.run([PROGRAM, *words], cwd=WORK, stdin=subprocess.DEVNULL, capture_output=True, text=True,
                         env={**os.environ, 'GHOSTRIDER_EXPLAIN': explain}, timeout=SECONDS, check=False)
    return ran.returncode, ran.stdout, ran.stderr


def write(name, text):
    with open(f'{WORK}/{name}', 'w', encoding='utf-8') as file:
        file.write(text)


# ---- what a grammar of VS Code makes of a text, as VS Code does it: at each place the first rule that matches first

def first_match(line, at, rules, end):
    best = None
    for rule in rules:
        match = re.compile(rule['match']).search(line, at, end)
        if match and match.end() > match.start() and (best is None or match.start() < best[0].start()):
            best = (match, rule)
    return best


def scopes_of(line, rules, at=0, end=None):
    """The scope of each character of a line, None where no rule matches."""
    end = len(line) if end is None else end
    scopes = [None] * len(line)
    while True:
        found = first_match(line, at, rules, end)
        if not found:
            return scopes
        match, rule = found
        captures = rule.get('captures', {})
        if 'name' in rule:
            scopes[match.start():match.end()] = [rule['name']] * (match.end() - match.start())
        elif '1' in captures:
            scopes[match.start(1):match.end(1)] = [captures['1']['name']] * (match.end(1) - match.start(1))
        else:
            inner = scopes_of(line, captures['0']['patterns'], *match.span())
            scopes[match.start():match.end()] = inner[match.start():match.end()]
        at = match.end()


GRAMMARS = {'gr': loaded('syntaxes/ghostrider.tmLanguage.json'),
            'asm': loaded('syntaxes/ghostrider-asm.tmLanguage.json')}


def painted(text, kind):
    """The scopes of each line, which VS Code reads with a line feed."""
    return [scopes_of(line + '\n', GRAMMARS[kind]['patterns'])[:-1] for line in text.split('\n')]


def is_wrong(scope):
    return bool(scope) and scope.startswith('invalid')


def first_wrong(text, kind):
    """The byte at which a text is painted as wrong, or None."""
    flat = list(itertools.chain.from_iterable([*line, None] for line in painted(text, kind)))
    return next((at for at, scope in enumerate(flat) if is_wrong(scope)), None)


# ---- the files beside the tables, and the grammars beside the program

def made():
    ran = subprocess.run([f'{ROOT}/editors/make', 'check'], capture_output=True, text=True, check=False)
    wrong = [line for line in (ran.stdout + ran.stderr).splitlines() if not line.startswith('ok: ')]
    says(ran.returncode == 0, 'the files of editors/ are made of the tables of the code', wrong[:3])


def examples():
    for pattern in '*.asm', '*/*.asm', '*/*.gr':
        yield from sorted(glob.glob(f'{ROOT}/examples/{pattern}'))


def nothing_wrong():
    files = list(examples())
    bad = [os.path.relpath(file, ROOT) for file in files if first_wrong(read(file), file.rsplit('.', 1)[1]) is not None]
    says(files and not bad, f'nothing in {len(files)} examples is painted as wrong', bad[:3])
    for name in 'findmax', 'permutation':
        call('compile', f'{ROOT}/examples/programs/{name}.gr', 'made.obj')
        call('dis', 'made.obj', 'made.asm')
        text = read(f'{WORK}/made.asm')
        says('.note' in text and first_wrong(text, 'asm') is None, f'nor in what dis writes of {name}')


def wrong_bytes():
    """A byte is painted as wrong exactly where the lexer finds none of its tokens."""
    visible = [chr(byte) for byte in range(33, 127)]
    signs = [one for one in visible if not one.isalnum()]
    texts = visible + [one + other for one in signs for other in signs] + ['1a', 'x1', '12_', 'a' * 32, 'a' * 33]
    differ = []
    for text in texts:
        write('text.gr', text)
        found = re.match(r'fault 8 source (?:byte|name) (\d+)', call('compile', 'text.gr', 'text.obj')[1])
        at = int(found.group(1)) if found else None
        # the lexer names the letter after a number, and the whole run is painted
        if first_wrong(text, 'gr') != (0 if text[0].isdigit() and found else at):
            differ.append(text)
    says(not differ, f'of {len(texts)} texts the same are painted as wrong that the lexer rejects', differ[:5])


HEAD = '.object 1 3 1 70 2 3\n.bank 4 634\n.bank 4 662\n'


def mnemonics():
    """The mnemonics of the grammar are those that the program lists where a line has none."""
    write('text.asm', f'{HEAD}other\n')
    listed = re.search(r'an instruction: ([a-z ]+)\.', call('asm', 'text.asm', 'text.obj', explain='1')[2])
    rule = next(one['match'] for one in GRAMMARS['asm']['patterns'] if 'mnemonic' in json.dumps(one))
    named = re.search(r'\(\?:([a-z|]+)\)', rule).group(1).split('|')
    says(listed and sorted(named) == sorted(listed.group(1).split()),
         f'the {len(named)} mnemonics are those that the program lists')
    says(first_wrong(f'{HEAD}other\n', 'asm') == len(HEAD), 'a line without a mnemonic is painted as wrong')


# ---- places

FAULTS = [
    ('compile', 'flow.gr', 'public int n;\nsecret int s;\n  n = s;\n', 3, 3),
    ('compile', 'token.gr', 'public int n;\n// a.gr:7:7: none\nn = ; // b.gr:8:8: none\n', 3, 5),
    ('asm', 'line.asm', f'{HEAD}\tnop\n\tother r1\n', 5, 2),
    ('compile', 'warned.gr', 'public int n;\nsecret int other;\nn = 1;\n', 2, 12),
]


def explained():
    for verb, name, text, line, column in FAULTS:
        write(name, text)
        yield name, call(verb, name, 'out.obj', explain='1')[2], line, column


def matcher():
    pattern = loaded('package.json')['contributes']['problemMatchers'][0]['pattern']
    for name, shown, line, column in explained():
        matches = [match for match in (re.match(pattern['regexp'], one) for one in shown.splitlines()) if match]
        places = [':'.join(match[pattern[key]] for key in ('file', 'line', 'column')) for match in matches]
        place = f'{name}:{line}:{column}'
        says(places == [place], f'the problem matcher finds {place}, and no other', places)
        severities = [match[pattern['severity']] for match in matches]
        says(severities == ['warning' if name == 'warned.gr' else None], f'and how severe {place} is', severities)


# ---- Vim

DUMP = '''
function! Dump(to)
  let lines = [&filetype . ' ' . get(b:, 'current_syntax', '') . ' ' . &makeprg]
  for number in range(1, line('$'))
    let row = []
    for column in range(1, len(getline(number)))
      call add(row, synIDattr(synID(number, column, 1), 'name'))
    endfor
    call add(lines, join(row, ','))
  endfor
  call writefile(lines, a:to)
endfunction
function! Places(to)
  silent make!
  let places = filter(getqflist(), 'v:val.valid')
  call writefile(map(places, 'bufname(v:val.bufnr) . ":" . v:val.lnum . ":" . v:val.col'), a:to)
endfunction
'''


def vim(*commands):
    """Runs commands in a vim whose home is the folder: the status and what it prints."""
    calls = itertools.chain.from_iterable(('-c', command) for command in (*commands, 'qall!'))
    set_to = {'HOME': WORK, 'TERM': 'dumb', 'GHOSTRIDER_EXPLAIN': '1', 'PATH': f"{WORK}/bin:{os.environ['PATH']}"}
    ran = subprocess.run(['vim', '-N', '-u', f'{WORK}/.vimrc', '-i', 'NONE', '-n', '-es', *calls], cwd=WORK,
                         stdin=subprocess.DEVNULL, capture_output=True, text=True, timeout=SECONDS, check=False,
                         env={**os.environ, **set_to})
    return ran.returncode, ran.stdout + ran.stderr


WRONG = {
    'wrong.gr': 'n = 1a ! 2; // é ! fine\nif (ifs << 2 <= "x") { order(v; 1); }\nproc order(int v[]) { proc = 1; }\n',
    'wrong.asm': f'; a comment\n{HEAD}.note 0000006f 1 - - - - - - 2\nnext: ; é\n br lt r1 r32 -> r1\n other -> +2\n'
                 ' br lt r3 r4 -> next\n jmp -> 07 ; -> 3\n ldb 0 O2 r1\n',
}
LANGUAGES = {'gr': 'ghostrider', 'asm': 'ghostriderasm'}


def vim_paints():
    """Vim loads the files as the README installs them, and paints each character as VS Code does."""
    packs = f'{WORK}/.vim/pack/ghostrider/start'
    os.makedirs(packs)
    os.symlink(f'{ROOT}/editors/vim', f'{packs}/ghostrider')
    write('.vimrc', 'filetype plugin on\nsyntax on\nset encoding=utf-8\n' + DUMP)
    for name, text in WRONG.items():
        write(name, text)
    files = [f'{ROOT}/examples/{name}' for name in (
        'sum.asm', 'counts.asm', 'bus/lookup.asm', 'programs/findmax.gr', 'procedures/bitonic.gr')]
    for file in files + [f'{WORK}/{name}' for name in WRONG]:
        title, kind = os.path.basename(file), file.rsplit('.', 1)[1]
        status, shown = vim(f'edit {file}', 'call Dump("dumped")')
        head, *rows = read(f'{WORK}/dumped').split('\n')
        loads = status == 0 and not shown and head.startswith(f'{LANGUAGES[kind]} {LANGUAGES[kind]} ghostrider ')
        says(loads, f'vim loads its files for {title}', f'{head} {shown[:200]}')
        says(*same_paint(read(file), kind, rows, title))
    write('other.asm', 'section .text\n')
    vim('edit other.asm', 'call Dump("dumped")')
    says(not read(f'{WORK}/dumped').startswith('ghostrider'), "vim leaves another assembler's text alone")


def vim_finds():
    os.makedirs(f'{WORK}/bin')
    os.symlink(PROGRAM, f'{WORK}/bin/ghostrider')
    for name, _, line, column in explained():
        vim(f'edit {name}', 'call Places("places")')
        places = read(f'{WORK}/places')
        says(places == f'{name}:{line}:{column}\n', f':make in vim finds {name}:{line}:{column}, and no other', places)


# the beginnings of scopes, and the group of Vim that is the same
GROUPS = {
    'invalid': 'Error', 'comment': 'Comment', 'constant.numeric': 'Number', 'storage.modifier': 'StorageClass',
    'entity.name.label': 'Label', 'keyword.mnemonic': 'Statement', 'keyword.control.ghostrider': 'Statement',
    'keyword.control.directive': 'PreProc', 'entity.name.function': 'Function', 'keyword.operator': 'Operator',
    'variable.language': 'Identifier', 'storage.type.procedure': 'Keyword', 'storage.type.ghostrider': 'Type',
    'support': 'Constant', 'constant.language': 'Constant', 'punctuation': 'Delimiter'}


def same_paint(text, kind, rows, title):
    """Whether Vim has the group of each character's scope, and what differs first."""
    syntax = read(f'{ROOT}/editors/vim/syntax/{LANGUAGES[kind]}.vim')
    links = dict(re.findall(r'highlight default link (\w+) (\w+)', syntax))
    what = f'vim and VS Code paint {title} alike'
    for line, scopes, row in zip(text.split('\n'), painted(text, kind), rows):
        names, at = row.split(','), 0
        for one, scope in zip(line, scopes):
            wanted = next((group for key, group in GROUPS.items() if scope and scope.startswith(key)), None)
            if links.get(names[at]) != wanted and one not in ' \t':
                return False, what, f'{one!r} of {line!r} is {scope} and {names[at]}'
            at += len(one.encode())
    return True, what


def main():
    made()
    nothing_wrong()
    wrong_bytes()
    mnemonics()
    matcher()
    if not shutil.which('vim'):
        skipped('the files of Vim, without vim')
    elif '+syntax' not in subprocess.run(['vim', '--version'], capture_output=True, text=True, check=False).stdout:
        skipped('the files of Vim: this vim has no syntax highlighting')
    else:
        vim_paints()
        vim_finds()
    print(f'{counts[True]} passed, {counts[False]} failed' + (f', {counts[None]} skipped' if counts[None] else ''))
    return 1 if counts[False] else 0


try:
    sys.exit(main())
finally:
    shutil.rmtree(WORK)
