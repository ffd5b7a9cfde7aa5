"""Families over long lists of parameters and results: compared, taken into the tree of ends, or cut."""
import itertools

from ..encoding import EMPTY, function_type, signed, unsigned, vector, whole
from .shared import DEAD, F32, F64, I32, I64, LIVE, WRONG, at_random, of_code

# How many types may be compared for each of all long lists before they are taken into a tree (`crates/wcontext`).
COMPARED = 128


def bytes_for_the_tree(types, longest):
    # So many bytes of bodies are just enough for the tree of ends to take in lists of that length.
    return types * COMPARED / longest


def pairs_of_lists(shapes, asked, enough=True, far=False):
    """Pairs of lists of types at random: one that is given, and the same without its first type, which is taken; or, `far`, without
    as many of its first types as chance says, up to half of them.

    `shapes` has their lengths and of each its share of all types. The code gives and takes pairs of `asked` types in an order at
    random. It is just long enough for the tree of ends to take in the longest lists, or just too short.
    """
    def make(size, dead, chance):
        longest = min(max(shapes), size // 5)
        needed = bytes_for_the_tree(1.05 if enough else 0.95, longest)
        types, calls = [EMPTY], []
        for length, share in shapes.items():
            for _ in range(max(1, int(size / (1 + needed) * share / 2 / length))):
                many = chance.choices([I32, I64, F32, F64], k=min(length, size // 5))
                if length == asked:
                    calls.append(b'\x10' + unsigned(len(types)) + b'\x10' + unsigned(len(types) + 1))
                types += [function_type([], many), function_type(many[chance.randrange(1, len(many) // 2) if far else 1:])]
        code = at_random(calls, needed * sum(map(len, types)) - 3 * len(types), chance)
        return code + b'\x00', {'types': types, 'others': [(k, b'\x00\x00\x0B') for k in range(1, len(types))]}
    return of_code(make)


def two_lists(size, dead, chance):
    # Blocks over two lists that are the same, which have nearly all bytes, in code that is just too short for the tree.
    many = [chance.choice([I32, I64]) for _ in range(size * 99 // 200)]
    types = [EMPTY, function_type(many, many)]
    return b'\x02\x01\x0B' * int(bytes_for_the_tree(2 * len(many), len(many)) * 0.95 / 3) + b'\x00', {'types': types}


def tables_of_lists(length):
    """A branch table of labels of long lists, all the same at different places, which is just too short for the tree of ends: each
    of its bytes has two of these lists compared."""
    def make(size, dead, chance):
        many = chance.choices([I32, I64, F32, F64], k=min(length, size // 5))
        needed = bytes_for_the_tree(0.95, len(many))
        count = max(1, int(size / (1 + needed) / len(many)))
        labels = [unsigned(k) for k in range(min(count, 127))]
        code = b''.join(b'\x02' + signed(k + 1) for k in range(len(labels))) + b'\x10\x01\x41\x00'
        table = vector(chance.choices(labels, k=max(1, int(needed * count * len(many)) - 2 * len(code)))) + labels[0]
        types = [EMPTY] + [function_type([], many)] * count
        return code + b'\x0E' + table + b'\x0B' * len(labels) + b'\x00', {'types': types, 'others': [(1, b'\x00\x00\x0B')]}
    return of_code(make)


def of_lists(make):
    """A family of functions that give or take the lists which `make` gives, with groups of their calls, in an order at random
    and over and over, in code that is not reached."""
    def module(size, form, chance):
        lists, groups = make(size, chance)
        groups = [b''.join(b'\x10' + unsigned(call) for call in group) for group in groups]
        chance.shuffle(groups)
        types = [EMPTY] + [function_type([], types) if gives else function_type(types) for gives, types in lists]
        calls, room = [], max(size - sum(map(len, types)), size // 4)
        for group in itertools.cycle(groups):
            if room <= 0:
                break
            calls.append(group)
            room -= len(group)
        return whole(b'\x00' + b''.join(calls) + b'\x00' + (WRONG if form.endswith('refused') else b''), types=types,
                     others=[(k, b'\x00\x00\x0B') for k in range(1, len(types))])
    return module


def long_list(of_parameters, code):
    """Functions of a type of an eighth of the bytes as results, and as parameters too or not, and code of its calls or blocks."""
    def make(size, dead, chance):
        many = [chance.choice([I32, I64]) for _ in range(size // 8)]
        types = [EMPTY, function_type(many if of_parameters else [], many)]
        return code(size // 2) + b'\x00', {'types': types, 'others': [(1, b'\x00\x00\x0B')]}
    return of_code(make)


def branches_in_a_block(size):
    return b'\x02\x40\x00\x02\x01' + b'\x41\x00\x0D\x00' * (size // 4) + b'\x0B\x00\x0B'


def ends_of_lists(size, chance):
    # A list of an eighth of the bytes is given, and the same without its first type is taken.
    many = [I32] * (size // 8)
    return [(True, many), (False, many[1:])], [[1, 2]]


def cuts_of_lists(size, chance):
    # A list of a quarter of the bytes is given, cut in many places, and then its half is taken.
    many = [I32, I64] * (size // 8)
    few = [2 * k for k in range(1, 41)] + [82 * k for k in range(1, 41)]
    lists = [(True, many), (False, many[:size // 16 * 2])] + [(False, many[:length]) for length in few]
    return lists, [(1, 3 + k % 40, 43 + k // 40, 2) for k in range(1600)]


def cuts_of_broken_lists(size, chance):
    # The same with a list of 131,000 types that repeats but for its first, which the longest sample has in it, and more places.
    length = min(131_000, size // 4)
    many = [I64] + [I32] * (length - 1)
    few = list(range(1, 101)) + [100 * k for k in range(1, 141)]
    few = [min(k, length // 16) for k in few]
    lists = [(True, many), (False, many[1:length * 11 // 13])] + [(False, many[1:k + 1]) for k in few]
    return lists, [(1, 3 + k % 100, 103 + k // 100, 2) for k in range(14_000)]


def lists_put_back(size, chance):
    # A list that does not repeat is given, some of its last types are taken and given again, in 30,720 ways, and then the same
    # list without its first type is taken.
    most = min(1024, size // 2_000)
    ends_of = [F64] * (32 + 32 * 32 + 30 * most)
    many = [chance.choice([I32, I64]) for _ in range(size // 8 - len(ends_of))] + ends_of
    few = [list(range(1, 33)), [32 * k for k in range(1, 33)], [most * k for k in range(1, 31)]]
    lists, taken = [(True, [F32] + many), (False, many)], {}
    for length in sorted({length for lengths in few for length in lengths}):
        taken[length] = len(lists) + 1
        lists += [(False, [F64] * length), (True, [F64] * length)]
    calls = []
    for k in range(32 * 32 * 30):
        ends = [taken[few[0][k % 32]], taken[few[1][k // 32 % 32]], taken[few[2][k // 1024]]]
        calls.append([1] + ends + [end + 1 for end in reversed(ends)] + [2])
    return lists, calls


def ends_of_many_lists(size, chance):
    # Of 160 lists that end alike each is given, and the end of one of 160 others is taken: more pairs than are kept.
    length = size // 640
    many = [chance.choice([I32, I64]) for _ in range(length + 320)]
    lists = [(True, many[k:]) for k in range(160)] + [(False, many[k:]) for k in range(160, 320)]
    return lists, [(1 + k, 161 + other) for k in range(160) for other in range(160)]


def cuts_of_patterns(size, chance):
    # A list that repeats by 2,500 types is cut in up to 144 places, and then its half is taken.
    pattern = [chance.choice([I32, I64]) for _ in range(min(2_500, size // 200))]
    count = size // 8 // len(pattern)
    few = [(k, 12 * j) for j in range(1, 13) for k in range(1, 13) if k + 12 * j <= count - count // 2] or [(1, 1)]
    lists, taken = [(True, pattern * count), (False, pattern * (count // 2))], {}
    for times in sorted({times for pair in few for times in pair}):
        taken[times] = len(lists) + 1
        lists.append((False, pattern * times))
    return lists, [(1, taken[k], taken[j], 2) for k, j in few]


# What each family is called, its forms, and what makes it of a size, a form and a source of chance.
FAMILIES = {
    'calls of long results': (DEAD, long_list(False, lambda n: b'\x10\x01' * (n // 2))),
    'calls of long lists': (DEAD, long_list(True, lambda n: b'\x10\x01' * (n // 2))),
    'pairs of lists of 256 types': (DEAD, pairs_of_lists({256: 1.0}, 256)),
    'pairs of lists of 2,000 types': (DEAD, pairs_of_lists({2_000: 1.0}, 2_000)),
    'pairs of lists of 8,000 types': (DEAD, pairs_of_lists({8_000: 1.0}, 8_000)),
    'pairs of lists of 17,000 types': (DEAD, pairs_of_lists({17_000: 1.0}, 17_000)),
    'pairs of lists that lie far apart': (DEAD, pairs_of_lists({8_000: 1.0}, 8_000, far=True)),
    'short lists beside the longest': (DEAD, pairs_of_lists({300: 0.85, 1_000_000: 0.15}, 1_000_000)),
    'lists too short for the tree': (DEAD, pairs_of_lists({2_000: 0.9, 1_900: 0.1}, 1_900)),
    'branch tables of 2,000 types': (LIVE, tables_of_lists(2_000)),
    'branch tables of 16,000 types': (LIVE, tables_of_lists(16_000)),
    'branch tables of 100,000 types': (LIVE, tables_of_lists(100_000)),
    'blocks of two lists': (DEAD, of_code(two_lists)),
    'blocks of long lists': (DEAD, long_list(True, lambda n: b'\x02\x01\x0B' * (n // 3))),
    'branches over long lists': (DEAD, long_list(True, branches_in_a_block)),
    'ends of long lists': (DEAD, of_lists(ends_of_lists)),
    'long lists cut anywhere': (DEAD, of_lists(cuts_of_lists)),
    'broken lists cut anywhere': (DEAD, of_lists(cuts_of_broken_lists)),
    'patterns cut anywhere': (DEAD, of_lists(cuts_of_patterns)),
    'long lists put back': (DEAD, of_lists(lists_put_back)),
    'ends of many lists': (DEAD, of_lists(ends_of_many_lists)),
}
