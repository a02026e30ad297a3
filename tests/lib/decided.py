"""What DECISIONS and the reference pages say of results, for docs/tried, which is the tool that makes the calls.

Each try has some words of the sentence that says so, what came, and what should come.
"""
import json


def nested(depth):
    """A region with so many around its innermost one, the arms of each filled up."""
    code = []
    for around in range(depth):
        code = [f'br eq r2 r1 -> +{len(code) + 2}', *code, f'jmp -> +{4 * around + 2}', *(4 * around + 1) * ['nop']]
    return ''.join(line + '\n' for line in code)


def evaluated(tool, text, variable):
    tool.write('made.gr', text)
    tool.write('made.json', '{}')
    said = tool.call('eval', 'made.gr', 'made.json', 'made.out', '--procs')
    return tool.left('made.out', variable) if said == 'done' else said


def objects(tool):
    checked, inferred, start = tool.checked, tool.inferred, tool.HEAD
    head, note = start + '.symbol s secret scalar 1 0 0 1\n' + tool.SECRET, '.note 00000000 - - - - - - - -\n'
    banks = '.object 1 3 1 70 2 3\n' + 2 * '.bank 4 634\n' + 8 * '.bank 4 4262\n'
    eight = 'ldb 2 E r0\nbr eq r0 r0 -> {}\nldb 2 D r0\nbr gt r3 r0 -> 6\nidb r3 2\njmp -> 7\nidb r3 2\njmp -> 0\n'
    yield 'a place before the code is read as one to', checked(start + 'jmp -> -9\nhalt\n'), 'fault 7 refused 0 4'
    for later, fault in ('frob', 'line 5'), ('li r1 x', 'number 6'):
        said = checked(f'{start}halt\n{note}{later}\n')
        yield 'A note that no instruction follows', said, f'fault 12 assembly {fault}'
    for line, fault in (('stb x', 'number 4'), ('li r1 12345678901234567890', 'number 4'), ('add r1 r2 r99', 'line 4'),
                        ('ldb 0 D1 r1', 'line 4'), ('.note 0 - - - - - - - -', 'line 4')):
        yield "in a number's position", checked(f'{start}{line}\nhalt\n'), f'fault 12 assembly {fault}'
    for bank, fault in ('5000 4262', 'number'), ('4 0', 'number'), ('4 4262', 'limit'):
        yield 'An eleventh bank', checked(f'{banks}.bank {bank}\nhalt\n'), f'fault 12 assembly {fault} 12'
    for depth, line in (64, 'accepted'), (65, 'fault 7 refused 67 11'):
        yield 'a branch that is nested in 64 is refused', checked(f'{head}{nested(depth)}halt\n'), line
    empty = checked(head + 'br eq r2 r1 -> +2\njmp -> +1\nhalt\n')
    yield 'for its unequal arms (reason 10)', empty, 'fault 7 refused 3 10'
    for target, reason in (4, 5), (6, 6):
        yield 'the check refuses it with reason 5, or 6 if another jump', inferred(start + eight.format(target)), f'fault 7 refused 3 {reason}'
    into = 'br eq r1 r1 -> 6\nbr eq r2 r1 -> 7\nnop\njmp -> 8\nnop\nhalt\n'
    yield 'the check refuses the region for this note (reason 11)', inferred(head + into), 'fault 7 refused 4 11'
    wrong = 'li r1 0\n' + note.replace('00000000', 'ffffffff') + 'ldb 0 D r1\nhalt\n'
    yield 'ignores those that the object has', inferred(start + wrong), 'inferred 0'
    unit = start.replace('.object 1 3 1 70 2 3', '.object 2 3 1 70 2 3 1 0 1')
    yield 'only version 1 of the object file can encode it', checked(unit + 'halt\n'), 'fault 12 assembly number 1'
    checked(start + 'halt\n')
    said = tool.call('bus', 'made.obj', 'none.json')
    yield 'A core is rejected before its inputs are read', said, 'fault 13 bus window 0'


def sources(tool):
    many = ''.join(f'public int v{k}; ' for k in range(256))
    high = ''.join(f'public int v{k}[1048576]; ' for k in range(5))
    tall = 'public int x; x = ' + 16 * '(x + ' + 'x' + 16 * ')' + ';'
    opened = 'public int x; ' + 32 * 'if (x > 0) { '
    proc = 'public int x; proc f(public int y; public int z) { '
    shared = f"{proc}}} f(x{128 * ' + x'}; x{129 * ' + x'});"
    for words, text, line in (
            ('If too many braces are open, the error names the last one', opened + 'if (x > 0) { ', f'deep {len(opened) + 11}'),
            ('the leading digits are examined first', 'public int x; x = 12a;', 'byte 20'),
            ('the leading digits are examined first', 'public int x; x = 99999999999999999999a;', 'number 18'),
            ('The error for such a loop comes before', 'secret int s; public int p; while (s > 0) { p = s; }', 'guard 0'),
            ('A program is first typed completely', 'public int a[0]; x = 1;', 'undeclared 0'),
            ('the number of variables first', many + 'public int a[0];', 'limit variables 257'),
            ("then each array's length", high + 'public int a[0];', 'limit length 5'),
            ('then the words of all variables together', high + tall, 'limit words 4'),
            ('the weight is last', tall.replace('x =', 4096 * 'x = 1; ' + 'x =', 1), 'limit height 4096'),
            ('are read from left to right', 'public int x; x[u] = 1;', 'shape 0'),
            ('are read from left to right', 'public int a[3]; a[u] = a;', 'undeclared 0'),
            ('are read from left to right', 'public int a[3]; a[0] = a + u;', 'shape 0'),
            ('in a file they are unexpected', 'public int __a;', 'unexpected 11'),
            ('they share its limit of operators', shared, f"deep {shared.rindex('+')}"),
            ('names of procedures, then calls', 'proc f() { } proc f() { } h();', 'procs twice 1'),
            ('is counted over the whole file', 'proc f() { } proc g() { f(); } f(); h();', 'procs unknown 2'),
            ('The brace of a procedure counts', proc + 32 * 'if (y > 0) { ', f'deep {len(proc) + 31 * 13 + 11}')):
        said = tool.compiled(text, '9', *(['--procs'] if 'proc ' in text or '__' in text else []))
        yield words, said, f'fault 8 source {line}'
    local = 'public int r[2]; proc f(int o[]; public int k) { public int l; l = l + 1; o[k] = l; } f(r; 0); f(r; 1);'
    yield 'with all locals set to 0', evaluated(tool, local, 'r'), [1, 1]
    alias = evaluated(tool, 'public int r[2]; proc f(int o[]) { o[0] = 5; } f(r);', 'r')
    yield 'is another name for a variable of the caller', alias, [5, 0]
    for depth, line in (11, 'compiled'), (12, 'fault 8 source limit weight 12285'):
        said = tool.compiled('secret int s; ' + depth * 'if (s > 0) { ' + depth * '} ', '9')
        yield 'at most 11 can be nested', said, line
    made = []
    for more in [], ['--procs']:
        tool.compiled('public int x; secret int a[8]; a[x] = x;', '9', *more)
        with open('made.obj', 'rb') as file:
            made.append(file.read())
    yield 'is read the same with the flag and without', made[0], made[1]


def calls(tool):
    tool.compiled('public int x; x = 1;', '9', '--window', '2000:0:1')
    tool.write('made.json', '{}')
    said = tool.call('bus', 'made.obj', 'made.json', '--cycles', '9').split('\n')
    yield 'its status is 10 if one of them is spent', said[-1], 'core 0 spent'
    tool.call('dis', 'made.obj', 'made.asm')
    with open('made.asm', encoding='utf-8') as file:
        yield 'The object has the window in its profile', next(file), '.object 2 9 1 70 2 3 2000 0 1\n'
    tool.compiled('secret int s; secret int a[2048]; a[s] = 1;', '9')
    tool.write('made.json', '{}')
    lines = tool.call('trace', 'made.obj', 'made.json', '--paths').split('\n')
    yield 'after the last line, in order of banks', (lines[-2], lines[-1][:9]), ('end halted', 'levels 2 ')
    lines = tool.call('trace', 'made.obj', 'made.json', '--paths', '--recursive').split('\n')
    yield 'prints no levels of recursive banks', lines[-1], 'end halted'
    for name, told in (('\x7f', '\\u007f'), ('\x9f', '\\u009f'), ('\xa0', '\xa0'), ('\u200b', '\\u200b'),
                       ('a\u202eb', 'a\\u202eb'), ('\U000e0041', '\\udb40\\udc41'), ('\u00e9', '\u00e9')):
        tool.write('made.json', json.dumps({name: 1}, ensure_ascii=False))
        said = tool.call('run', 'made.obj', 'made.json', 'made.out')
        yield 'are printed as JSON strings', said, f'fault 9 input unknown "{told}"'
    for words, asked, line in (
            ('`--paths=true` is a usage error', ['trace', 'x', 'y', '--paths=true'], 'fault 2 usage'),
            ('`--paths` and `--recursive` take no value', ['run', 'x', 'y', 'z', '--recursive=true'], 'fault 2 usage'),
            ('Giving an option twice is an error', ['run', 'x', 'y', 'z', '--seed', '1', '--seed', '1'], 'fault 2 usage'),
            ('help and version after a verb are usage errors', ['check', '--version'], 'fault 2 usage'),
            ('After `--` each argument is the name of a file', ['check', '--', '-x'], 'fault 3 read -x'),
            ('is rejected with status 4', ['dis', 'made.obj', '/dev/stdout'], 'fault 4 write /dev/stdout'),
            ('The null device may be both', ['dis', 'made.obj', '/dev/null'], 'disassembled'),
            ("prints no line if an argument isn't valid UTF-8", ['check', b'\xff'], '')):
        yield words, tool.call(*asked), line
