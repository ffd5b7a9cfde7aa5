"""Families of code over locals, globals, blocks, calls and single instructions."""
from ..encoding import EMPTY, function_type, signed, unsigned, vector, whole
from .shared import ANYWHERE, DEAD, F32, F64, I32, I64, LIVE, WRONG, at_random, of_code


def looks(places, dead):
    # At locals at these places, every second of type i32 from the second on; in dead code no operand is wanted.
    return [b'\x21' + unsigned(k) if dead else b'\x41\x00\x21' + unsigned(k) for k in places if dead or k % 2]


def far_locals(size, dead, chance):
    # Runs of one local of types in turn, of which those are looked at that no short list holds.
    count = min(99_999, size // 8)
    runs = vector([b'\x01' + (I32 if k % 2 else I64) for k in range(count)])
    return at_random(looks(range(min(1_000, count // 2), count), dead), size - len(runs), chance), {'locals_of': runs}


def among_empty_runs(most):
    def make(size, dead, chance):
        # The same, at most `most`, at random places among runs of no local, which take half of the bytes.
        places = size // 4
        count = min(most, places // 2)
        runs = [b'\x00' + chance.choice([I32, I64]) for _ in range(places)]
        for k, place in enumerate(sorted(chance.sample(range(places), count))):
            runs[place] = b'\x01' + (I32 if k % 2 else I64)
        return at_random(looks(range(min(1_000, count // 2), count), dead), size // 2, chance), {'locals_of': vector(runs)}
    return make


def empty_runs(size, dead, chance):
    runs = [b'\x00' + chance.choice([I32, I64]) for _ in range(size // 4)] + [b'\x01' + I32]
    return looks([0], True)[0] * (size // 4) if dead else b'\x41\x00\x21\x00' * (size // 8), {'locals_of': vector(runs)}


def open_blocks(size, form, chance):
    # Blocks, loops and ifs, one in the other, and then their ends.
    dead = b'\x00' if form.startswith('dead') else b''
    unended = form.endswith('open')
    begins = [b'\x02\x40', b'\x03\x40'] + ([] if unended else [b'\x41\x00\x04\x40'])
    code = at_random(begins, size if unended else size * 8 // 11, chance)
    count = code.count(b'\x40')
    if unended:
        return whole(dead + code)[:-1] + b'\x01'
    return whole(dead + code + b'\x0B' * count + (WRONG if form.endswith('refused') else b''))


def branches(size, dead, chance):
    # To labels at random, out of many open blocks.
    depth = min(100_000, size // 8)
    pieces = [(b'\x0D' if dead else b'\x41\x00\x0D') + unsigned(k) for k in range(depth)]
    code = b'\x02\x40' * depth + (b'\x00' if dead else b'') + at_random(pieces, size - 3 * depth, chance)
    return code + b'\x0B' * depth, {}


def branch_tables(size, dead, chance):
    depth = min(10_000, size // 64)
    labels = [unsigned(k) for k in range(depth)]
    tables = []
    while sum(map(len, tables)) < size - 3 * depth:
        count = min(100_000, size // 16)
        tables.append((b'' if dead else b'\x41\x00') + b'\x0E' + vector(chance.choices(labels, k=count)) + chance.choice(labels))
    return b'\x02\x40' * depth + (b'\x00' if dead else b'') + b''.join(tables) + b'\x0B' * depth, {}


def selects(size, dead, chance):
    return b'\x1B' * size + b'\x1A', {}


def binary_operators(size, dead, chance):
    return b'\x6A' * size + b'\x1A', {}


def rare_tokens(size, dead, chance):
    return at_random([b'\x1B', b'\x01', b'\x00', b'\x0F'], size, chance) + b'\x00', {}


def drops(size, dead, chance):
    return at_random([b'\x41\x00\x1A', b'\x42\x00\x1A', b'\x43\x00\x00\x00\x00\x1A'], size, chance), {}


def globals_at_random(size, dead, chance):
    count = size // 20
    held = [chance.choice([I32 + b'\x01\x41\x00\x0B', I64 + b'\x01\x42\x00\x0B']) for _ in range(count)]
    pieces = [b'\x24' + unsigned(k) if dead else b'\x23' + unsigned(k) + b'\x1A' for k in range(count)]
    return at_random(pieces, size - 5 * count, chance), {'sections': {6: vector(held)}}


def some_types(count, chance):
    # Types of up to four parameters and no results, in dead code taken from nothing.
    return [EMPTY] + [function_type(chance.choices([I32, I64, F32, F64], k=chance.randrange(5))) for _ in range(count - 1)]


def calls_at_random(size, dead, chance):
    count = size // 30
    types = some_types(count, chance) if dead else [EMPTY] * count
    pieces = [b'\x10' + unsigned(k) for k in range(count)]
    return at_random(pieces, size // 2, chance), {'types': types, 'others': [(k, b'\x00\x0B') for k in range(1, count)]}


def indirect_calls(size, dead, chance):
    count = size // 16
    types = some_types(count, chance) if dead else [EMPTY] * count
    pieces = [(b'' if dead else b'\x41\x00') + b'\x11' + unsigned(k) + b'\x00' for k in range(count)]
    return at_random(pieces, size // 2, chance), {'types': types, 'sections': {4: b'\x01\x70\x00\x01'}}


def blocks_at_random(size, dead, chance):
    count = size // 16
    types = [EMPTY] + [function_type([], chance.choices([I32, I64, F32, F64], k=chance.randrange(5))) for _ in range(count - 1)]
    return at_random([b'\x02' + signed(k) + b'\x00\x0B' for k in range(count)], size // 2, chance) + b'\x00', {'types': types}


def over_a_run(token):
    """Tokens that take operands off one long list, which a call has given, a type at a time."""
    def make(size, dead, chance):
        types = [EMPTY, function_type([], [I32] * (size // 4))]
        return (b'\x10\x01' + token * (size // 5)) * 3 + b'\x00', {'types': types, 'others': [(1, b'\x00\x00\x0B')]}
    return of_code(make)


def over_nine(size, dead, chance):
    # Operators over lists of nine types, each of which a call has given.
    types = [EMPTY, function_type([], [I32] * 9)]
    return (b'\x10\x01' + b'\x6A' * 8) * (size // 10) + b'\x00', {'types': types, 'others': [(1, b'\x00\x00\x0B')]}


# What each family is called, its forms, and what makes it of a size, a form and a source of chance.
FAMILIES = {
    'far locals': (ANYWHERE, of_code(far_locals)),
    'far locals among empty runs': (ANYWHERE, of_code(among_empty_runs(99_999))),
    '49,000 locals among empty runs': (ANYWHERE, of_code(among_empty_runs(49_000))),
    'runs of no locals': (ANYWHERE, of_code(empty_runs)),
    'open blocks': (ANYWHERE + ('open', 'dead open'), open_blocks),
    'branches out of open blocks': (ANYWHERE, of_code(branches)),
    'branch tables': (ANYWHERE, of_code(branch_tables)),
    'select': (DEAD, of_code(selects)),
    'binary operators': (DEAD, of_code(binary_operators)),
    'rare tokens': (DEAD, of_code(rare_tokens)),
    'constants dropped': (ANYWHERE, of_code(drops)),
    'globals at random': (ANYWHERE, of_code(globals_at_random)),
    'calls at random': (ANYWHERE, of_code(calls_at_random)),
    'indirect calls at random': (ANYWHERE, of_code(indirect_calls)),
    'blocks of types at random': (DEAD, of_code(blocks_at_random)),
    'operators over a run': (LIVE, over_a_run(b'\x6A')),
    'operators over nine types': (LIVE, of_code(over_nine)),
    'drops over a run': (LIVE, over_a_run(b'\x1A')),
}
