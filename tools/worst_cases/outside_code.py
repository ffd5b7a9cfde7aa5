"""Families of types, imports, exports, segments and the like: what stands outside of code."""
from ..encoding import EMPTY, HEADER, function_type, section, sized, unsigned, vector, whole
from .shared import F32, F64, I32, I64, SECTIONS, at_random, of_sections


def names(size, front, chance):
    # Of a front that they share and four letters at random, in an order at random.
    letters = b'abcdefghijklmnopqrstuvwxyzABCDEFGHIJKLMNOPQRSTUVWXYZ0123456789_.'
    count = size // (len(front) + 7)
    return [front + bytes(letters[number >> shift & 63] for shift in (18, 12, 6, 0)) for number in chance.sample(range(2 ** 24), count)]


def exports(length):
    def module(size, form, chance):
        many = names(size, b'a' * length, chance)
        many += [many[chance.randrange(len(many))]] if form == 'refused' else []
        return whole(b'', sections={7: vector([sized(name) + b'\x00\x00' for name in many])})
    return module


def imports_without_names(size, chance):
    return {'types': [EMPTY], 'sections': {2: vector([b'\x00\x00\x00\x00'] * (size // 4))}}


def exports_of_one_name(size, chance):
    return {'sections': {7: vector([b'\x00\x00\x00'] * (size // 3))}}


def imports(size, chance):
    return {'sections': {2: vector([sized(name) + sized(name) + b'\x03\x7F\x00' for name in names(size // 2, b'a', chance)])}}


def types_of(lengths, results=False):
    def make(size, chance):
        # Lists of these lengths at random; of the longer ones all are different, but by chance.
        types, total = [EMPTY], 0
        while total < size:
            many = chance.choices([I32, I64, F32, F64], k=chance.choice(lengths))
            types.append(function_type([], many) if results else function_type(many))
            total += len(types[-1])
        return {'types': types}
    return make


def one_list(size, chance):
    return types_of([size])(size, chance)


def same_types(one):
    return lambda size, chance: {'types': [EMPTY] + [one] * (size // len(one))}


def bodies(body):
    # Functions of this body; the module is refused where it spells none.
    return lambda size, chance: {'others': [(0, body)] * (size // (len(body) + 2))}


def element_segments(size, chance):
    return {'sections': {4: b'\x01\x70\x00\x01', 9: vector([b'\x00\x41\x00\x0B\x00'] * (size // 5))}}


def element_segments_of_one(size, chance):
    count = size // 30
    pieces = [b'\x00\x41\x00\x0B\x01' + unsigned(k) for k in range(count)]
    segments = vector(chance.choices(pieces, k=size * 5 // 6 // 8))
    return {'others': [(0, b'\x00\x0B')] * (count - 1), 'sections': {4: b'\x01\x70\x00\x01', 9: segments}}


def data_segments(size, chance):
    return {'sections': {5: b'\x01\x00\x01', 11: vector([b'\x00\x41\x00\x0B\x00'] * (size // 5))}}


def globals_of_no_constant(size, chance):
    return {'sections': {6: vector([I32 + b'\x00\x01\x0B'] * (size // 4))}}


def offsets_of_no_constant(size, chance):
    return {'sections': {4: b'\x01\x70\x00\x01', 9: vector([b'\x00\x01\x0B\x00'] * (size // 4))}}


def bodies_without_functions(size, form, chance):
    return HEADER + section(10, vector([b'\x00'] * size))


def custom_sections(size, form, chance):
    sections = at_random([b'\x00\x01\x00', b'\x00\x02\x01a', b'\x00\x03\x01ab'], size, chance)
    return HEADER + sections + (b'\x00' if form == 'refused' else b'')


# What each family is called, its forms, and what makes it of a size, a form and a source of chance.
FAMILIES = {
    'exports of short names': (SECTIONS, exports(1)),
    'exports of long fronts': (SECTIONS, exports(56)),
    'exports of one name': (('refused',), of_sections(exports_of_one_name)),
    'imports': (SECTIONS, of_sections(imports)),
    'imports without names': (SECTIONS, of_sections(imports_without_names)),
    'types of 9 to 16 parameters': (SECTIONS, of_sections(types_of(range(9, 17)))),
    'types of 9 to 16 results': (SECTIONS, of_sections(types_of(range(9, 17), True))),
    'types of 256 parameters': (SECTIONS, of_sections(types_of([256]))),
    'one list of types': (SECTIONS, of_sections(one_list)),
    'types of 1 to 3 parameters': (SECTIONS, of_sections(types_of(range(1, 4)))),
    'types of one parameter': (SECTIONS, of_sections(same_types(function_type([I32])))),
    'types of nothing': (SECTIONS, of_sections(same_types(EMPTY))),
    'bodies of no bytes': (('refused',), of_sections(bodies(b''))),
    'functions of two bytes': (SECTIONS, of_sections(bodies(b'\x00\x0B'))),
    'bodies without functions': (('refused',), bodies_without_functions),
    'globals of no constant': (('refused',), of_sections(globals_of_no_constant)),
    'offsets of no constant': (('refused',), of_sections(offsets_of_no_constant)),
    'element segments': (SECTIONS, of_sections(element_segments)),
    'segments of a function': (SECTIONS, of_sections(element_segments_of_one)),
    'data segments': (SECTIONS, of_sections(data_segments)),
    'custom sections': (SECTIONS, custom_sections),
}
