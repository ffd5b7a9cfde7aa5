"""Writes a valid module to standard output, made from a seed.

KIND   many   many functions of some 200 bytes of integer code
       tiny   functions of ten bytes
       large  functions of some 100,000 bytes
       one    one function
       lists  one function type of half as many parameters, and functions of it that call one another where nothing
              can be reached
       labels one function of branch tables, each of half as many labels as bytes are left
"""
import random
import sys

from tools import arguments
from tools.encoding import HEADER, function_type, section, signed, sized, unsigned, vector

# Statements leave the operand stack as they found it. Every function is [i32 i32] -> [i32] with four locals more.
LOCALS = 6
KINDS = ['many', 'tiny', 'large', 'one', 'lists', 'labels']
BINARY = [0x6A, 0x6B, 0x6C, 0x71, 0x72, 0x73, 0x74, 0x75, 0x76, 0x77, 0x78]
TESTS = [0x46, 0x47, 0x48, 0x49, 0x4A, 0x4B, 0x4C, 0x4D, 0x4E, 0x4F]


def value(r, depth):
    pick = r.random()
    if depth == 0 or pick < 0.35:
        if r.random() < 0.68:
            return b'\x20' + unsigned(r.randrange(LOCALS))
        return b'\x41' + signed(r.choice([0, 1, -1, 4, 16, 255, r.randrange(-2 ** 31, 2 ** 31)]))
    if pick < 0.75:
        return value(r, depth - 1) + value(r, depth - 1) + bytes([r.choice(BINARY)])
    if pick < 0.87:
        return value(r, depth - 1) + r.choice([b'\x28\x02', b'\x2D\x00', b'\x2E\x01']) + unsigned(r.choice([0, 4, 8, 64, 1024]))
    if pick < 0.95:
        return value(r, depth - 1) + value(r, depth - 1) + bytes([r.choice(TESTS)])
    return value(r, depth - 1) + b'\x45'


def statement(r, labels):
    pick = r.random()
    if pick < 0.45:
        return value(r, 2) + b'\x21' + unsigned(r.randrange(LOCALS))
    if pick < 0.6:
        return value(r, 2) + b'\x22' + unsigned(r.randrange(LOCALS)) + b'\x1A'
    if pick < 0.75:
        return value(r, 1) + value(r, 2) + b'\x36\x02' + unsigned(r.choice([0, 8, 400]))
    if pick < 0.82 and labels:
        return value(r, 1) + b'\x0D' + unsigned(r.randrange(labels))
    if pick < 0.88 and labels < 6:
        return b'\x02\x40' + b''.join(statement(r, labels + 1) for _ in range(r.randrange(1, 5))) + b'\x0B'
    if pick < 0.92 and labels < 6:
        return b'\x03\x40' + b''.join(statement(r, labels + 1) for _ in range(r.randrange(1, 4))) + b'\x0B'
    if pick < 0.97 and labels < 6:
        return value(r, 1) + b'\x04\x40' + statement(r, labels + 1) + b'\x05' + statement(r, labels + 1) + b'\x0B'
    return value(r, 1) + value(r, 1) + b'\x10\x00' + b'\x1A'


def body(r, size):
    parts, total = [], 0
    while total < size:
        part = statement(r, 0)
        parts.append(part)
        total += len(part)
    code = b'\x01\x04\x7F' + b''.join(parts) + value(r, 1) + b'\x0B'
    return sized(code)


def lists(size):
    count = size // 12
    bodies = vector([sized(b'\x00\x00' + b'\x10\x00' * 2 + b'\x0B')] * count)
    return HEADER + section(1, vector([function_type([b'\x7F'] * (size // 4))])) + section(3, vector([b'\0'] * count)) + section(10, bodies)


def labels(size):
    table = b'\x02\x40\x41\x00\x0E' + vector([b'\x00'] * (size // 4)) + b'\x01' + b'\x0B'
    code = b'\x00' + table * 4 + b'\x0B'
    return HEADER + section(1, b'\x01\x60\x00\x00') + section(3, b'\x01\x00') + section(10, b'\x01' + sized(code))


def module(kind, size, seed):
    if kind == 'lists':
        return lists(size)
    if kind == 'labels':
        return labels(size)
    r = random.Random(seed)
    each = {'many': 200, 'tiny': 4, 'large': 100_000, 'one': size}[kind]
    pool = [body(r, each) for _ in range(min(4000, max(1, size // max(each, 1)))) ] if kind != 'one' else [body(r, size)]
    bodies, total = [], 0
    while total < size - (each if kind == 'large' else 0) or not bodies:
        one = pool[len(bodies) % len(pool)] if kind != 'one' else pool[0]
        bodies.append(one)
        total += len(one) + 1
        if kind == 'one':
            break
    parts = {1: b'\x01\x60\x02\x7F\x7F\x01\x7F', 3: vector([b'\0'] * len(bodies)), 5: b'\x01\x00\x01', 7: b'\x01\x01f\x00\x00',
             10: vector(bodies)}
    return HEADER + b''.join(section(number, contents) for number, contents in parts.items())


if __name__ == '__main__':
    parser = arguments.parser(__doc__)
    parser.add_argument('kind', metavar='KIND', choices=KINDS, help=', '.join(KINDS))
    parser.add_argument('bytes', metavar='BYTES', type=int, help='about how many the module has')
    parser.add_argument('seed', metavar='SEED', type=int)
    words = parser.parse_args()
    sys.stdout.buffer.write(module(words.kind, words.bytes, words.seed))
