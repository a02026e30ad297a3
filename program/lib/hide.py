"""Hides the global symbols of object files, but for those whose name begins with gr_: hide.py FILE.o ..

A shared library that links such a file doesn't export what is hidden. Only the visibility of defined symbols is written,
one byte each, in 64-bit ELF files.
"""
import struct
import sys

SYMTAB, GLOBAL, HIDDEN = 2, 1, 2


def sections(data):
    start, = struct.unpack_from('<Q', data, 0x28)
    size, count = struct.unpack_from('<HH', data, 0x3a)
    for number in range(count):
        _, kind, _, _, offset, length, link, _, _, entry = struct.unpack_from('<IIQQQQIIQQ', data, start + number * size)
        yield kind, offset, length, link, entry


def hide(data):
    found = list(sections(data))
    for kind, offset, length, link, entry in found:
        if kind != SYMTAB:
            continue
        names = found[link][1]
        for at in range(offset, offset + length, entry):
            name, info, other, section = struct.unpack_from('<IBBH', data, at)
            begin = names + name
            if info >> 4 == GLOBAL and section and not data[begin:data.index(b'\0', begin)].startswith(b'gr_'):
                data[at + 5] = other & ~3 | HIDDEN


for path in sys.argv[1:]:
    with open(path, 'r+b') as file:
        changed = bytearray(file.read())
        if changed[:6] != b'\x7fELF\x02\x01':
            sys.exit(f'{path} is no 64-bit ELF file')
        hide(changed)
        file.seek(0)
        file.write(changed)
