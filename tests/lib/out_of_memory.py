"""The work of tests/out-of-memory. Words: the program, the repository's folder, and the most refusals of one call."""
import os
import subprocess
import sys
import tempfile

import many
from many import place, read, write

PROGRAM, ROOT, MOST = sys.argv[1], sys.argv[2], int(sys.argv[3])
EXAMPLES = f'{ROOT}/examples'
PROGRAMS = f'{EXAMPLES}/programs'
LINE, OLD = b'fault 5 memory\n', b'what stood here before'
OUT = 'OUT'
"""Stands for the file that a call writes."""


def calls(folder):
    """The calls that are tried, on the examples and on the objects that are made in the folder."""
    made, choice = f'{folder}/sum.obj', f'{folder}/choice.obj'
    cores = [word for core in ('choose', 'lookup') for word in (f'{folder}/{core}.obj', f'{EXAMPLES}/bus/{core}-1.json')]
    for words in (['asm', f'{EXAMPLES}/sum.asm', made], ['compile', f'{PROGRAMS}/findmax.gr', choice],
                  ['asm', f'{EXAMPLES}/bus/choose.asm', cores[0]], ['asm', f'{EXAMPLES}/bus/lookup.asm', cores[2]]):
        if subprocess.run([PROGRAM, *words], stdout=subprocess.DEVNULL).returncode != 0:
            print(f'FAILED: {" ".join(words)} with all the memory')
            sys.exit(many.closes(0, 1))
    return [
        ['check', made],
        ['check', choice],
        ['check', f'{EXAMPLES}/leaks.obj'],
        ['trace', made, f'{EXAMPLES}/sum-1.json'],
        ['trace', choice, f'{PROGRAMS}/findmax-1.json', '--cycles', '5000', '--paths', '--seed', '7'],
        ['run', made, f'{EXAMPLES}/sum-1.json', OUT],
        ['asm', f'{EXAMPLES}/counts.asm', OUT],
        ['asm', f'{PROGRAMS}/findmax.gr', OUT],
        ['dis', choice, OUT],
        ['eval', f'{PROGRAMS}/findmax.gr', f'{PROGRAMS}/findmax-1.json', OUT],
        ['eval', f'{PROGRAMS}/dijkstra.gr', f'{PROGRAMS}/dijkstra-1.json', OUT],
        ['compile', f'{PROGRAMS}/findmax.gr', OUT],
        ['compile', f'{PROGRAMS}/dijkstra.gr', OUT],
        ['compile', '--procs', f'{EXAMPLES}/procedures/bitonic.gr', OUT],
        ['eval', '--procs', f'{EXAMPLES}/procedures/max3.gr', f'{EXAMPLES}/procedures/max3-1.json', OUT],
        ['infer', choice, OUT],
        ['sample', '4', OUT],
        ['bus', made, f'{EXAMPLES}/sum-1.json'],
        ['bus', *cores],
        ['check', f'{folder}/none'],
        ['nothing'],
    ]


def call(words, number=0, goes_on=False):
    """The status, the text, the bytes of OUT and what stands on standard error, with this growth refused."""
    write('out', OLD)
    extra = {'LD_PRELOAD': LIBRARY, 'REFUSE': str(number), 'REFUSE_TOLD': place('told')}
    if goes_on:
        extra['REFUSE_ON'] = '1'
    words = [place('out') if word == OUT else word for word in words]
    ran = subprocess.run([PROGRAM, *words], stdin=subprocess.DEVNULL, stdout=subprocess.PIPE, stderr=subprocess.PIPE,
                         env={**os.environ, **extra}, timeout=120)
    return ran.returncode, ran.stdout, read(place('out')), ran.stderr


def whole_call(words):
    """What a call comes to with all the memory, and how many growths it asks for."""
    found = call(words)
    return found, int(read(place('told'))) if os.path.exists(place('told')) else 0


def judged(found, whole):
    """What a call came to: refused, refused without a line, as with the memory, or none of these."""
    status, text, out, complaint = found
    if found == whole:
        return 'whole'
    if status != 5 or out != OLD or complaint:
        return None
    return {LINE: 'refused', b'': 'silent'}.get(text)


def refused_call(case):
    """What a call with one refusal came to, and how it went where that is wrong."""
    words, number, goes_on, whole = case
    try:
        found = call(words, number, goes_on)
    except subprocess.TimeoutExpired:
        return None, 'no end within two minutes'
    kind = judged(found, whole)
    if kind:
        return kind, ''
    return None, f'status {found[0]}, {found[1][:60]!r}, {found[3][:60]!r}, OUT {"old" if found[2] == OLD else found[2][:40]}'


def try_call(words, whole, growths):
    """Refuses growths of a call, and gives how many refusals were taken well, and how many not."""
    step = max(1, -(-growths // MOST))
    cases = [(words, number, goes_on, whole) for number in range(1, growths + 1, step) for goes_on in (False, True)]
    counts, failed = {'refused': 0, 'silent': 0, 'whole': 0}, 0
    for case, (kind, why) in zip(cases, many.tried(refused_call, cases)):
        if kind:
            counts[kind] += 1
        else:
            failed += 1
            print(f'FAILED: {" ".join(words)}: growth {case[1]}{" and on" if case[2] else ""}: {why}', flush=True)
    print(f'{" ".join(os.path.basename(word) for word in words)}: {growths} growths, every {step}. refused, alone and with the '
          f'rest: {counts["refused"]} times 5 and its line, {counts["silent"]} times 5 before there is an output, '
          f'{counts["whole"]} times as with the memory', flush=True)
    return len(cases) - failed, failed


def main(folder):
    passed = failed = 0
    for words in calls(folder):
        whole, growths = next(many.tried(whole_call, [words]))
        if whole[0] not in (0, 2, 3, 7, 10, 12, 13):
            print(f'FAILED: {" ".join(words)}: status {whole[0]} with all the memory')
            failed += 1
        elif growths == 0:
            print('skipped: the library that refuses memory is not loaded (a static program?)')
            print(f'{passed} passed, {failed} failed, 1 skipped')
            return 1 if failed else 0
        else:
            well, badly = try_call(words, whole, growths)
            passed, failed = passed + well, failed + badly
    return many.closes(passed, failed)


if __name__ == '__main__':
    with tempfile.TemporaryDirectory() as made:
        LIBRARY = f'{made}/refuse.so'
        subprocess.run(['cc', '-O2', '-fPIC', '-shared', '-fno-builtin', '-o', LIBRARY, f'{ROOT}/tests/lib/refuse.c'], check=True)
        sys.exit(main(made))
