"""Sources of the greatest size that take the most memory for it: many tokens, many small trees, many short blocks, or
sums that a call copies."""

SIZE = 1 << 20
MOST_BYTES = 70  # of memory for each byte of a source


def filled(statement, declared='public int x;', behind=''):
    return (declared + statement * ((SIZE - len(declared) - len(behind)) // len(statement)) + behind).encode()


def sums():
    return filled('x=x' + '+x' * 250 + ';')


def sums_in_a_procedure():
    return filled('y=y' + '+y' * 250 + ';', 'proc f(public int y){', '} f(1);')


def sums_as_arguments():
    return filled('f(x' + '+x' * 250 + ');', 'public int x; proc f(public int y){y=1;}')


def signs():
    return filled('x=' + '-' * 32 + 'x;')


def nested_choices():
    return filled('if(x<1){' * 32 + '}' * 32)


def short_blocks():
    return filled('if(x<x){x=x;}else{x=x;}')


def new_names():
    """Each use is of another name."""
    letters = 'abcdefghijklmnopqrstuvwxyzABCDEFGHIJKLMNOPQRSTUVWXYZ_'
    some = [a + b + c for a in letters for b in letters for c in letters if a + b + c != 'int']
    lines = ''.join(f'x={"+".join(some[k:k + 100])};' for k in range(0, len(some), 100))
    return ('public int x;' + lines)[:SIZE].rsplit(';', 1)[0].encode() + b';'


SHAPES = (sums, sums_in_a_procedure, sums_as_arguments, signs, nested_choices, short_blocks, new_names)
