"""Sources with calls that pass many arrays: few bytes, but much work for a program that binds or searches all of them."""
import itertools

LETTERS = 'abcdefghijklmnopqrstuvwxyz'
KEYWORDS = {'if', 'int', 'else', 'while', 'proc', 'public', 'secret'}


def names(count):
    made = (''.join(it) for length in (1, 2, 3, 4) for it in itertools.product(LETTERS, repeat=length))
    return list(itertools.islice((name for name in made if name not in KEYWORDS), count))


def arrays(some):
    return ';'.join(f'int {name}[]' for name in some)


def called_often(inner, times):
    """Procedures of one array, each of which calls the one before twice, and a call of the last: 2^times calls of `inner`."""
    text, last = '', inner
    for i in range(times):
        text += f'proc Twice{i}(int x[]){{{last}(x);{last}(x);}}'
        last = f'Twice{i}'
    return text + f'{last}(v);'


def source(procedures, inner, times):
    return f'secret int v[4];{procedures}{called_often(inner, times)}'.encode()


def wide(count, statements):
    """A procedure Inner of many arrays with these statements, and One, which passes one array for all of them."""
    some = names(count)
    return (f'proc Inner({arrays(some)}){{{statements(some)}}}'
            f'proc One(int x[]){{Inner({";".join(["x"] * count)});}}')


def unused():
    """Most arrays aren't used."""
    return source(wide(50000, lambda some: 'a[0]=1;'), 'One', 13)


def late_names():
    """Statements name the last of many arrays."""
    def statements(some):
        return ''.join(f'a[0]={"^".join(f"{name}[0]" for name in some[-12 * k - 12:-12 * k or None])};' for k in range(64))
    return source(wide(40000, statements), 'One', 7)


def reversed_once():
    """A call passes many arrays in another order."""
    some = names(30000)
    return (f'secret int v[4];proc Inner({arrays(some)}){{a[0]=1;}}proc Back({arrays(some)}){{Inner({";".join(reversed(some))});}}'
            f'Back({";".join(["v"] * len(some))});').encode()


def levels():
    """Each of some procedures passes all its arrays to the one before twice; the first uses one of them."""
    some = names(2500)
    text = f'proc Level0({arrays(some)}){{a[0]=1;}}'
    for i in range(12):
        call = f'Level{i}({";".join(some)});'
        text += f'proc Level{i + 1}({arrays(some)}){{{call}{call}}}'
    return f'secret int v[4];{text}Level12({";".join(["v"] * len(some))});'.encode()


SHAPES = (unused, late_names, reversed_once, levels)
