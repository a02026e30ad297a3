"""The work of tests/fast. Words: the program, how many sources, and the seed."""
import collections
import os
import random
import subprocess
import sys
import tempfile

import many
from many import place, read, write
from resident_programs import resident_program

PROGRAM = sys.argv[1]
COUNT, SEED = int(sys.argv[2]), int(sys.argv[3])
CYCLES = '4294967295'


class Wrong(Exception):
    """A call has another result than it should."""


def call(*words):
    """The text of a call in the folder of a case, which must succeed."""
    done = subprocess.run([PROGRAM, *words], stdin=subprocess.DEVNULL, stdout=subprocess.PIPE, stderr=subprocess.PIPE,
                          cwd=many.FOLDER, timeout=600)
    if done.returncode != 0 or done.stderr:
        raise Wrong(f'{" ".join(words)}: status {done.returncode}, {done.stdout[-80:]!r}, {done.stderr[:200]!r}')
    return done.stdout


def is_refused(words):
    """Whether the source is within no limit: `compile` and `eval` then print the same line."""
    answers = [subprocess.run([PROGRAM, *line], stdout=subprocess.PIPE, cwd=many.FOLDER, timeout=600)
               for line in (words, ('eval', 'source', 'input-1', 'out'))]
    lines = {answer.stdout for answer in answers}
    return all(answer.returncode == 8 for answer in answers) and len(lines) == 1 and b' limit ' in lines.pop()


def window_of(rng):
    """A window for half of the cases."""
    if rng.random() < 0.5:
        return []
    period = rng.choice((2, 10, 1000, 20000))
    opens = rng.randrange(period)
    return ['--window', f'{period}:{opens}:{rng.randint(opens + 1, period)}']


def compare(words):
    """Compares the two runs of a source with its evaluation and with each other."""
    call(*words)
    call('check', 'object')
    traces = []
    for number in '12':
        call('eval', 'source', f'input-{number}', 'evaluated')
        call('run', 'object', f'input-{number}', 'left', '--cycles', CYCLES)
        if read(place('evaluated')) != read(place('left')):
            raise Wrong(f'input-{number}: the run leaves other values than the evaluation')
        traces.append(call('trace', 'object', f'input-{number}', '--cycles', CYCLES))
    if traces[0] != traces[1]:
        raise Wrong('the traces of two inputs differ that agree on what is public')


def attempt(number):
    """What came of a case: compiled, refused, or what is wrong."""
    rng = random.Random(f'{SEED} {number}')
    text, block_log, inputs = resident_program(rng)
    words = ['compile', 'source', 'object', '--fast', '--block-log', str(block_log), *window_of(rng)]
    write('source', text)
    for k, given in enumerate(inputs, 1):
        write(f'input-{k}', given)
    try:
        if is_refused(words):
            return 'refused', None
        compare(words)
    except (Wrong, subprocess.TimeoutExpired) as wrong:
        kept = tempfile.mkdtemp(prefix='fast-')
        for name in os.listdir(many.FOLDER):
            with open(os.path.join(kept, name), 'wb') as file:
                file.write(read(place(name)))
        return 'wrong', f'FAILED: {" ".join(words)}: {wrong}; the files are kept in {kept}'
    return 'compiled', None


def main():
    met = collections.Counter()
    for kind, complaint in many.tried(attempt, range(COUNT)):
        met[kind] += 1
        if complaint and met['wrong'] <= 20:
            print(complaint, flush=True)
    print(f'{met["compiled"]} sources were compiled and run, and {met["refused"]} exceed a limit')
    return many.closes(met['compiled'] + met['refused'], met['wrong'])


if __name__ == '__main__':
    sys.exit(main())
