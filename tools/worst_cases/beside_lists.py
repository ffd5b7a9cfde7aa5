"""Families over lists that are just too short for the tree of ends, beside longer ones in shapes that it bears worst."""
import itertools

from ..encoding import EMPTY, function_type, signed, sized, vector
from .lists import COMPARED, bytes_for_the_tree
from .shared import DEAD, F32, F64, FOUR, I32, I64, at_random, of_code
from .short_lists import ifs_of_lists


def in_chains(size, length, gaps, chance):
    # Types of about `size` bytes that take and give lists of that length, of four types, each of which begins inside the one
    # before, in an order at random.
    lists, count = [], max(2, size // (length + 4) // 2 * 2)
    while len(lists) < count:
        begins = list(itertools.accumulate([0] + [chance.randrange(*gaps) for _ in range(63)]))
        many = chance.randbytes(begins[-1] + length).translate(FOUR)
        lists += [many[begin:begin + length] for begin in begins]
    lists = lists[:count]
    chance.shuffle(lists)
    return [b'\x60' + sized(taken) + sized(given) for taken, given in zip(lists[::2], lists[1::2])]


def chains_of_lists(size, dead, chance):
    # The same, just as much as the tree asks for, beside lists of 3,000 types in chains.
    code, parts = ifs_of_lists(max(60_000, size * 7 // 100), dead, chance)
    room = size - len(code) - sum(map(len, parts['types'])) - 3_000
    return code, {'types': parts['types'] + in_chains(room, 3_000, (50, 1_200), chance)}


def types_of_all(size, longest):
    # How many bytes of types a module may have beside which lists of `longest` types are compared, and longer ones taken in.
    return int((size - 600) / (1 + COMPARED / longest))


def bytes_to_compare(types, longest):
    # So many bytes of bodies have lists of `longest` types compared, and those taken in that are longer by an 80th.
    return int(bytes_for_the_tree(types, longest) * 160 / 161) - 10


def types_in(encoded):
    # How many types these function types of long lists have.
    return sum(len(one) - 7 for one in encoded)


def beside_chains(size, longest, others, chance):
    # Function types of long lists, and chains of lists that are a little longer.
    length = longest + longest // 80
    return others + in_chains(types_of_all(size, longest) - sum(map(len, others)), length, (10, max(11, length // 4)), chance)


def ifs_beside(most, beside):
    """Ifs over lists of i32 of at most `most` types, just too short for the tree, so that each compares its list; and longer lists."""
    def make(size, dead, chance):
        longest = min(most, size // 15)
        lengths = [chance.randrange(longest * 98 // 100, longest) for _ in range(8)]
        types = beside(size, longest, [function_type([I32] * length, [I32] * length) for length in lengths], chance)
        pieces = [b'\x04' + signed(k) + b'\x0B' for k in range(1, 9)]
        return at_random(pieces, bytes_to_compare(types_in(types), longest), chance) + b'\x00', {'types': [EMPTY] + types}
    return of_code(make)


def tables_beside_chains(size, dead, chance):
    # A branch table with labels of one such list at several places, of which each is compared, beside chains of longer ones.
    longest = min(4_940, size // 15)
    labels = max(2, min(127, size // 130_000))
    types = beside_chains(size, longest, [function_type([], chance.choices([I32, I64, F32, F64], k=longest))] * labels, chance)
    code = bytes_to_compare(types_in(types), longest) - 5 * labels
    table = vector([b'%c' % chance.randrange(labels) for _ in range(code)]) + b'\x00'
    opens = b''.join(b'\x02' + signed(k) for k in range(1, labels + 1))
    return opens + b'\x00\x0E' + table + b'\x0B' * labels + b'\x00', {'types': [EMPTY] + types}


def that_turn(size, length, turns, fronts, chance):
    # Types of about `size` bytes that take and give lists of that length, in an order at random. `turns` of the lists are parts of a
    # word that repeats, each a type later, so that the link of each node of the tree leads to another list. The others begin with a
    # front of another such word, and go on in the first, so that their links lead far. Near the end of each list one type is
    # another: there all links are gone through one by one, as many as the list has types.
    count = max(2, size // length // 2 * 2)
    turns = min(turns, count)
    words = [chance.randbytes(many).translate(FOUR) * (length // many + 3) for many in (turns, max(1, count - turns))]
    lists = []
    for k in range(count):
        begin, front = (k, 0) if k < turns else (chance.randrange(turns), chance.randrange(*fronts))
        many = bytearray(words[1][k - turns:k - turns + front] if front else b'') + words[0][begin:begin + length - front]
        many[-3] = chance.choice([one for one in b'\x7F\x7E\x7D\x7C' if one != many[-3]])
        lists.append(bytes(many))
    chance.shuffle(lists)
    return [b'\x60' + sized(taken) + sized(given) for taken, given in zip(lists[::2], lists[1::2])]


def lists_that_turn(size, dead, chance):
    # With the code of `ifs of lists of i32`, just as much as the tree asks for.
    length = 8_000
    code, parts = ifs_of_lists(max(30_000, size * 2 // 100), dead, chance)
    room = size - len(code) - sum(map(len, parts['types'])) - 200
    return code, {'types': parts['types'] + that_turn(room, length, max(2, size // 65_000), (length // 80, length * 3 // 4), chance)}


def beside_lists_that_turn(size, longest, others, chance):
    # Function types of long lists, and lists that turn and are a little longer.
    length = longest + longest // 80
    room = types_of_all(size, longest) - sum(map(len, others)) - 7 * size // length
    return others + that_turn(room, length, max(2, size // 65_000), (length // 50, length * 3 // 4), chance)


def tables_beside_lists_that_turn(size, dead, chance):
    # A branch table with labels of one list at many places, which is just compared, beside lists that turn. With a few more bytes it
    # would be taken in too.
    longest = min(4_940, size // 15)
    labels = max(2, min(24, size // 260_000))
    types = beside_lists_that_turn(size, longest, [function_type([], chance.choices([I32, I64, F32, F64], k=longest))] * labels, chance)
    code = bytes_to_compare(types_in(types), longest) - 5 * labels
    table = vector([b'%c' % (k % labels) for k in range(code)]) + b'\x00'
    opens = b''.join(b'\x02' + signed(k) for k in range(1, labels + 1))
    return opens + b'\x00\x0E' + table + b'\x0B' * labels + b'\x00', {'types': [EMPTY] + types}


def that_go_on(size, length, most, chance):
    # Types of about `size` bytes that take and give lists of that length, in an order at random. Each list is a front at random, of
    # at most `most` types, and then the beginning of any list before it, so that the links of its nodes lead far.
    lists, count = [chance.randbytes(length).translate(FOUR)], max(2, size // (length + 4) // 2 * 2)
    while len(lists) < count:
        front = chance.randrange(length // 100, most)
        lists.append(chance.randbytes(front).translate(FOUR) + chance.choice(lists)[:length - front])
    chance.shuffle(lists)
    return [b'\x60' + sized(taken) + sized(given) for taken, given in zip(lists[::2], lists[1::2])]


def lists_that_go_on(size, dead, chance):
    # With the code of `ifs of lists of i32`, just as much as the tree asks for.
    code, parts = ifs_of_lists(12_000 + size * 62 // 1_000, dead, chance)
    room = size - len(code) - sum(map(len, parts['types'])) - 2_000
    return code, {'types': parts['types'] + that_go_on(room, 2_000, 1_900, chance)}


def beside_lists_that_go_on(size, longest, others, chance):
    # Function types of long lists, and lists that go on as others begin and are a little longer.
    length = longest + longest // 80
    return others + that_go_on(types_of_all(size, longest) - sum(map(len, others)), length, max(1, length * 3 // 5), chance)


# What each family is called, its forms, and what makes it of a size, a form and a source of chance.
FAMILIES = {
    'chains of lists': (DEAD, of_code(chains_of_lists)),
    'ifs of lists beside chains': (DEAD, ifs_beside(4_940, beside_chains)),
    'branch tables beside chains': (DEAD, of_code(tables_beside_chains)),
    'lists that turn': (DEAD, of_code(lists_that_turn)),
    'ifs beside lists that turn': (DEAD, ifs_beside(4_940, beside_lists_that_turn)),
    'branch tables beside lists that turn': (DEAD, of_code(tables_beside_lists_that_turn)),
    'lists that go on as others begin': (DEAD, of_code(lists_that_go_on)),
    'ifs beside lists that go on': (DEAD, ifs_beside(3_000, beside_lists_that_go_on)),
}
