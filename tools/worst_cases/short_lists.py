"""Families over lists of at most 255 types, which no tree of ends takes in."""
from ..encoding import EMPTY, function_type, signed, unsigned, vector
from .shared import DEAD, I32, I64, LIVE, at_random, of_code


def short_lists(code):
    """Code over functions that give, and take and give, a list of 255 types: too short for the tree of ends."""
    def make(size, dead, chance):
        many = [chance.choice([I32, I64]) for _ in range(255)]
        types = [EMPTY, function_type([], many), function_type(many, many), function_type(many[1:]), function_type(many[:1])]
        return b'\x10\x01' + code(size) + b'\x00', {'types': types, 'others': [(k, b'\x00\x00\x0B') for k in range(1, 5)]}
    return of_code(make)


def tables_of_short_lists(size, dead, chance):
    # Branch tables with labels of types of 255 results, all the same lists at different places.
    many = [chance.choice([I32, I64]) for _ in range(255)]
    count = max(1, min(2_000, size // 2_000))
    labels = [unsigned(k) for k in range(count)]
    code, tables = b''.join(b'\x02' + signed(k + 1) for k in range(count)) + b'\x10\x01\x41\x00', b''
    while not tables or len(code) + len(tables) < size - 300 * count:
        tables += b'\x0E' + vector(chance.choices(labels, k=min(100_000, size // 16))) + b'\x00'
    types = [EMPTY] + [function_type([], many)] * count
    return code + tables + b'\x0B' * count + b'\x00', {'types': types, 'others': [(1, b'\x00\x00\x0B')]}


def ifs_of_lists(size, dead, chance):
    # Ifs of types that take and give lists of i32 of other lengths, the last of which is their condition.
    lengths = [chance.randrange(30, 256) for _ in range(40)] + [5, 6, 7, 8] * 5
    types = [EMPTY] + [function_type([I32] * length, [I32] * length) for length in lengths]
    pieces = [b'\x04' + signed(k) + b'\x0B' for k in range(1, len(types))]
    return at_random(pieces, max(size - sum(map(len, types)), size // 4), chance) + b'\x00', {'types': types}


def ifs_of_many_lists(size, dead, chance):
    # The same, of more types than a near cache holds lists of.
    count = size // 2_000
    lengths = [chance.randrange(200, 256) for _ in range(count)]
    types = [EMPTY] + [function_type([I32] * length, [I32] * length) for length in lengths]
    pieces = [b'\x04' + signed(k) + b'\x0B' for k in range(min(64, count), count + 1)]
    return at_random(pieces, size - sum(map(len, types)), chance) + b'\x00', {'types': types}


# What each family is called, its forms, and what makes it of a size, a form and a source of chance.
FAMILIES = {
    'blocks of 255 types': (LIVE, short_lists(lambda n: b'\x02\x02\x0B' * (n // 3))),
    'blocks of 255 types, left': (LIVE, short_lists(lambda n: b'\x02\x02\x00\x0B' * (n // 4))),
    'ifs of 255 types': (LIVE, short_lists(lambda n: b'\x41\x00\x04\x02\x0B' * (n // 5))),
    'ifs of lists of i32': (DEAD, of_code(ifs_of_lists)),
    'ifs of many lists of i32': (DEAD, of_code(ifs_of_many_lists)),
    'loops of 255 types, nested': (LIVE, short_lists(lambda n: b'\x03\x02' * (n // 3) + b'\x0B' * (n // 3))),
    'calls of 255 types': (LIVE, short_lists(lambda n: b'\x10\x02' * (n // 2))),
    'calls of 255 types, shifted': (LIVE, short_lists(lambda n: b'\x10\x03\x10\x04\x10\x01' * (n // 6))),
    'branch tables of 255 types': (LIVE, of_code(tables_of_short_lists)),
}
