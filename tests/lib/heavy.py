"""Objects that may cost much for their size: cores that loop without an access, and objects whose code is one region.
Each function makes assembly texts.
"""
BANKS = '.bank 1 1\n.bank 1 1\n.symbol s secret scalar 1 0 0 1\n'

# Instructions in each arm of a region.
ARM = 300000


def looping(opens):
    """A core that loops and makes no access; its window is one cycle of a period of two."""
    loop = 'li r2 1\n.note 00000000 - - - - - - - -\nadd r1 r1 r2\nbr ne r2 r0 -> -1\nhalt\n'
    return f'.object 2 3 1 1 1 1 2 {opens} {opens + 1}\n{BANKS}{loop}'.encode()


def region(first, second):
    """A branch on a secret, and its arms of these lines, each of which takes as long in both arms."""
    over = f'-> +{len(first) + 2}'
    lines = ['li r1 0', 'ldb 1 E r1', 'ldw r2 1 r1', f'br eq r2 r1 {over}', *first, f'jmp {over}', *second, 'nop', 'halt']
    return ('.object 1 3 1 1 1 1\n' + BANKS + '\n'.join(lines) + '\n').encode()


def constants(start):
    return [f'li r3 {start + number}' for number in range(ARM)]


def same_events():
    return region(['ldb 2 D r1'] * ARM, ['ldb 2 D r1'] * ARM)


def same_values():
    return region(constants(1), constants(1))


def other_values():
    return region(constants(1), constants(ARM + 1))


def other_words():
    """Each instruction makes two values: the place of a word, and the word."""
    return region(*([f'li r3 {start}', 'ldb 2 D r1'] + ['ldw r3 2 r3'] * ARM for start in (1, 2)))


REGIONS = (same_events, same_values, other_values, other_words)
