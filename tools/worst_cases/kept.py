"""What costs little to check, and much to keep."""
from ..encoding import EMPTY, function_type, whole
from .outside_code import bodies
from .shared import I32, of_code, of_sections


def branches_of_256_types(size, form, chance):
    code = b'\x02\x01\x00' + b'\x0C\x00' * (size // 2) + b'\x0B' + b'\x1A' * 256
    return whole(code, types=[EMPTY, function_type([], [I32] * 256)])


def else_parts(size, dead, chance):
    # Ifs that begin in the else of the one before.
    return b'\x04\x40\x05\x00' * (size // 5) + b'\x0B' * (size // 5), {}


def small_after_large(size, chance):
    # Functions of two bytes after one whose check frees much memory.
    blocks = size // 56
    body = b'\x00\x00' + b'\x02\x40' * blocks + b'\x0B' * (blocks + 1)
    return {'others': [(0, body)] + [(0, b'\x00\x0B')] * ((size - len(body)) // 4)}


def of_one(instruction):
    return of_code(lambda size, dead, chance: (instruction * (size // len(instruction)), {}))


KEPT = {
    'functions that declare a local': (('accepted',), of_sections(bodies(b'\x01\x01\x7F\x0B'))),
    'functions of two bytes after a large one': (('accepted',), of_sections(small_after_large)),
    'nops': (('accepted',), of_one(b'\x01')),
    'open else parts': (('dead accepted',), of_code(else_parts)),
    'branches': (('accepted',), of_one(b'\x0C\x00')),
    'branches of 256 types': (('accepted',), branches_of_256_types),
    'branch tables of no label': (('dead accepted',), of_one(b'\x0E\x00\x00')),
}
