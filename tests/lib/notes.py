"""The work of tests/notes. Words: the program and the repository's folder."""
import glob
import os
import subprocess
import sys
import tempfile

PROGRAM, ROOT = sys.argv[1], sys.argv[2]


def answer(*words):
    """The status and the text of a call."""
    ran = subprocess.run([PROGRAM, *words], stdin=subprocess.DEVNULL, stdout=subprocess.PIPE, timeout=120)
    return ran.returncode, ran.stdout.decode()


def lines_of(path):
    with open(path, encoding='ascii') as it:
        return it.read().splitlines()


def placed(lines):
    """The notes of a text by the place that each stands at."""
    found, place = {}, 0
    for line in lines:
        if line.startswith('.note '):
            found[place] = line
        elif line and not line.startswith('.'):
            place += 1
    return found


def compared(source, folder):
    """What is wrong with an example, if anything, and in how many notes the found ones differ from the compiler's."""
    made, bare, text, found, again = (f'{folder}/{it}' for it in ('made.obj', 'bare.obj', 'text', 'found.obj', 'again'))
    flags = ['--procs'] if '/procedures/' in source else []
    if answer('compile', *flags, source, made) != (0, 'compiled\n') or answer('dis', made, text)[0]:
        return 'it is not compiled', ''
    lines = lines_of(text)
    with open(text, 'w', encoding='ascii') as it:
        it.writelines(f'{line}\n' for line in lines if not line.startswith('.note '))
    if answer('asm', text, bare)[0]:
        return 'its text without notes is not assembled', ''
    status, said = answer('infer', bare, found)
    if status or answer('dis', found, again)[0]:
        return f'infer: {said.strip()}', ''
    ours, theirs = placed(lines_of(again)), placed(lines)
    if said != f'inferred {len(ours)}\n':
        return f'{said.strip()}, and its text has {len(ours)} notes', ''
    if answer('check', found) != (0, 'accepted\n'):
        return 'the object with the notes that were found is refused', ''
    for inputs in sorted(glob.glob(source.replace('.gr', '-*.json'))):
        told = []
        for number, made_of in enumerate((made, found)):
            out = f'{folder}/out{number}'
            status, said = answer('run', made_of, inputs, out)
            if status:
                return f'run: {said.strip()}', ''
            with open(out, 'rb') as it:
                told.append((said, it.read()))
        if told[0] != told[1]:
            return f'{os.path.basename(inputs)}: other outputs, or another cycle', ''
    differ = sum(1 for place in {*ours, *theirs} if ours.get(place) != theirs.get(place))
    return '', f'{len(ours)} notes found, {len(theirs)} of the compiler, {differ} places differ'


def entered(regions):
    """A text of regions into each of which a branch leads, in a loop that makes one more register secret each time."""
    lines = ['.object 1 3 1 70 2 3', '.bank 4 1', '.bank 4 1', 'ldb 7 E r0', 'ldw r31 7 r0', 'top:']
    lines += [f'add r{it} r{it - 1} r{it}' for it in range(19, 1, -1)]
    for it in range(regions):
        lines += [f'br eq r0 r0 -> way{it}', f'br eq r31 r0 -> second{it}', 'nop', f'way{it}:', 'li r20 1',
                  f'jmp -> join{it}', f'second{it}:', 'li r20 2', f'join{it}:']
    return [*lines, 'add r1 r20 r0', 'br eq r0 r0 -> top', 'halt']


def quick(folder):
    """What is wrong with `infer` on many regions into which branches lead, which it must decide quickly."""
    text, bare, found = (f'{folder}/{it}' for it in ('text', 'bare.obj', 'found.obj'))
    with open(text, 'w', encoding='ascii') as it:
        it.writelines(f'{line}\n' for line in entered(20000))
    if answer('asm', text, bare)[0]:
        return 'it is not assembled'
    try:
        status, said = answer('infer', bare, found)
    except subprocess.TimeoutExpired as late:
        return f'infer takes more than {late.timeout} seconds'
    return '' if (status, said) == (7, 'fault 7 refused 21 11\n') else f'infer: {said.strip()}'


def main(folder):
    why = quick(folder)
    passed, failed = (0, 1) if why else (1, 0)
    print(f'FAILED: 20,000 regions into which branches lead: {why}' if why else 'ok: 20,000 regions into which branches lead')
    for source in sorted(glob.glob(f'{ROOT}/examples/programs/*.gr') + glob.glob(f'{ROOT}/examples/procedures/*.gr')):
        why, said = compared(source, folder)
        passed, failed = (passed, failed + 1) if why else (passed + 1, failed)
        print(f'FAILED: {os.path.basename(source)}: {why}' if why else f'ok: {os.path.basename(source)}: {said}')
    print(f'{passed} passed, {failed} failed')
    return 1 if failed or not passed else 0


if __name__ == '__main__':
    with tempfile.TemporaryDirectory() as made_here:
        sys.exit(main(made_here))
