"""Compares the library's answers with those of the program, on damaged objects. Words: the program, the folder of
examples, how many objects, the seed, the shared library, and a folder in which 200 of the objects are left.
"""
import collections
import ctypes
import os
import random
import subprocess
import sys

LIBRARY, LEFT = sys.argv[5:7]
sys.path.insert(0, os.path.dirname(os.path.abspath(__file__)))
import fuzz  # noqa: E402  (it reads the first four words)
import many  # noqa: E402

KEPT = 200


def load_check():
    library = ctypes.CDLL(LIBRARY)
    number = ctypes.POINTER(ctypes.c_uint32)
    library.gr_check.restype = ctypes.c_uint32
    library.gr_check.argtypes = [ctypes.c_char_p, ctypes.c_size_t, number, number]
    return library.gr_check


CHECK = load_check()
UNTOUCHED = 0xdeadbeef


def answer(data):
    """What the library says: the status, and the place and the reason, which are written where it refuses alone."""
    place, reason = ctypes.c_uint32(UNTOUCHED), ctypes.c_uint32(UNTOUCHED)
    status = CHECK(data, len(data), ctypes.byref(place), ctypes.byref(reason))
    if status != 7 and (place.value, reason.value) != (UNTOUCHED, UNTOUCHED):
        return status, 'place and reason are written'
    return status, f'fault 7 refused {place.value} {reason.value}\n' if status == 7 else ''


def object_of(number):
    chance = random.Random(f'{fuzz.SEED} embed {number}')
    return fuzz.damaged(chance, chance.choice(fuzz.WHOLE['object']), fuzz.PIECES['object'])


def attempt(number):
    data = object_of(number)
    many.write('object', data)
    words = [fuzz.PROGRAM, 'check', many.place('object')]
    ran = subprocess.run(words, stdin=subprocess.DEVNULL, stdout=subprocess.PIPE)
    status, line = answer(data)
    same = ran.returncode == status and (status != 7 or ran.stdout.decode() == line) and (status == 7 or not line)
    return status, None if same else f'FAILED: object {number}: {ran.returncode} {ran.stdout!r}, and {status} {line!r}'


def main():
    os.makedirs(LEFT)
    for number in range(min(KEPT, fuzz.COUNT)):
        with open(os.path.join(LEFT, f'{number}.obj'), 'wb') as file:
            file.write(object_of(number))
    seen, failed = collections.Counter(), 0
    for status, complaint in many.tried(attempt, range(fuzz.COUNT)):
        seen[status] += 1
        failed += complaint is not None
        if complaint and failed <= 20:
            print(complaint, flush=True)
    print('gr_check: ' + ', '.join(f'{seen[status]} times status {status}' for status in sorted(seen)))
    return many.closes(fuzz.COUNT - failed, failed)


sys.exit(main())
