#!/usr/bin/env python3
"""A loader that runs no object that isn't accepted: load.py OBJ

It reads the file, asks gr_check of the library libghostrider.so, and refuses it or would go on with the very bytes that
were checked. The library is GHOSTRIDER_LIBRARY=FILE, or the one that the system's loader finds. The status is that of
the check, 3 where the file can't be read, 2 for other words.
"""
import ctypes
import os
import sys

ACCEPTED, NO_MEMORY, NO_OBJECT, REFUSED, TOO_LONG = 0, 5, 6, 7, 11
SAID = {ACCEPTED: 'accepted', NO_MEMORY: 'not checked: memory ran out', NO_OBJECT: 'no object', TOO_LONG: 'too long'}


def load_check():
    """The function gr_check of the library, with the types of its words."""
    library = ctypes.CDLL(os.environ.get('GHOSTRIDER_LIBRARY', 'libghostrider.so'))
    number = ctypes.POINTER(ctypes.c_uint32)
    library.gr_check.restype = ctypes.c_uint32
    library.gr_check.argtypes = [ctypes.c_char_p, ctypes.c_size_t, number, number]
    return library.gr_check


def check(gr_check, data):
    """The answer to these bytes: the status, and the place and the reason where they are refused."""
    place, reason = ctypes.c_uint32(), ctypes.c_uint32()
    status = gr_check(data, len(data), ctypes.byref(place), ctypes.byref(reason))
    return (status, place.value, reason.value) if status == REFUSED else (status, None, None)


def main():
    if len(sys.argv) != 2:
        print('usage: load.py OBJ', file=sys.stderr)
        return 2
    try:
        with open(sys.argv[1], 'rb') as file:
            data = file.read()
    except OSError as error:
        print(f'load.py: {error}', file=sys.stderr)
        return 3
    status, place, reason = check(load_check(), data)
    print(f'refused at place {place} for reason {reason}' if status == REFUSED else SAID[status])
    return status


if __name__ == '__main__':
    sys.exit(main())
