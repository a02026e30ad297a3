"""Compares the answers of the page's program with those of the program, on damaged files. Words: the program, the
folder of examples, how many files of each kind, and the seed. The page's program answers by tests/lib/page_program.
"""
import os
import random
import subprocess
import sys
import tempfile

sys.path.insert(0, os.path.dirname(os.path.abspath(__file__)))
import fuzz  # noqa: E402  (it reads the words)
import many  # noqa: E402

PAGE = os.path.join(os.path.dirname(os.path.abspath(__file__)), 'page_program')
CALLS = {
    'object': [['check', 'file'], ['dis', 'file', 'out'], ['trace', 'file', 'input', '--cycles', '20000', '--paths'],
               ['run', 'file', 'input', 'out', '--cycles', '20000', '--seed', '7']],
    'text': [['asm', 'file', 'out']],
    'source': [['compile', 'file', 'out', '--block-log', '5'], ['eval', 'file', 'input', 'out', '--turns', '1000']],
    'input': [['trace', f'{fuzz.EXAMPLES}/sum.obj', 'file', '--cycles', '20000'],
              ['eval', f'{fuzz.EXAMPLES}/programs/findmax.gr', 'file', 'out', '--turns', '1000']],
}


def write(name, data):
    with open(name, 'wb') as file:
        file.write(data)


def answer(program, words):
    """What a call comes to: its status, its text, and the file `out`, if it wrote one."""
    if os.path.exists('out'):
        os.remove('out')
    ran = subprocess.run([program, *words], stdin=subprocess.DEVNULL, stdout=subprocess.PIPE, check=False)
    return ran.returncode, ran.stdout, many.read('out') if os.path.exists('out') else None


def main():
    passed, failed = 0, 0
    with tempfile.TemporaryDirectory(dir=many.files_folder()) as folder:
        os.chdir(folder)
        for kind, calls in CALLS.items():
            for number in range(fuzz.COUNT):
                chance = random.Random(f'{fuzz.SEED} page {kind} {number}')
                write('file', fuzz.damaged(chance, chance.choice(fuzz.WHOLE[kind]), fuzz.PIECES[kind]))
                write('input', chance.choice(fuzz.WHOLE['input']) if chance.randrange(2) else b'{}')
                for words in calls:
                    ours, theirs = answer(fuzz.PROGRAM, words), answer(PAGE, words)
                    passed += ours == theirs
                    failed += ours != theirs
                    if ours != theirs and failed <= 5:
                        print(f'FAILED: {kind} {number}, {words}: {ours[:2]}, and on the page {theirs[:2]}', flush=True)
        os.chdir('/')
    return many.closes(passed, failed)


sys.exit(main())
