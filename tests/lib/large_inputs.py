"""Inputs that took the most memory for their size: objects within objects, many small values, many names, many numbers."""
BYTES = 2 << 20

# The most memory for each byte of an input.
MOST = 10


def filled(begin, piece, end):
    return (begin + piece * ((BYTES - len(begin) - len(end)) // len(piece)) + end).encode()


def names(value):
    return ('{' + ','.join(f'"{number:x}":{value}' for number in range(BYTES // (9 + len(value)))) + '}').encode()


SHAPES = {
    'objects within objects': filled('[', '{"":' * 100 + '0' + '}' * 100 + ',', '0]'),
    'lists within lists': filled('[', '[' * 120 + ']' * 120 + ',', '0]'),
    'objects of one member': filled('[', '{"":0},', '0]'),
    'objects of one member in a member': filled('{"q":[', '{"":0},', '0]}'),
    'objects of one member for an array': filled('{"a":[', '{"":0},', '0]}'),
    'numbers': filled('{"q":[', '0,', '0]}'),
    'numbers of one name': filled('{', '"q":[0,0,0,0],', '"q":0}'),
    'names of numbers': names('0'),
    'names of lists': names('[0]'),
    'names of objects': names('{"":0}'),
}
