"""Valid modules of types at random, for the soak: several results, block types by index, every numeric instruction of Core 1.0
and the sign extensions, tables, memories, globals and a start function. Floats stand in some of them alone."""
from .encoding import HEADER, function_type, section, signed, sized, unsigned, vector

I32, I64, F32, F64 = b'\x7F', b'\x7E', b'\x7D', b'\x7C'


def numeric(first, last, takes, gives):
    return [(bytes([opcode]), takes, gives) for opcode in range(first, last + 1)]


# The opcodes of numeric instructions with what they take and give, in the order of the standard (5.4.6).
NUMERIC = (numeric(0x45, 0x45, [I32], I32) + numeric(0x46, 0x4F, [I32, I32], I32)
           + numeric(0x50, 0x50, [I64], I32) + numeric(0x51, 0x5A, [I64, I64], I32)
           + numeric(0x5B, 0x60, [F32, F32], I32) + numeric(0x61, 0x66, [F64, F64], I32)
           + numeric(0x67, 0x69, [I32], I32) + numeric(0x6A, 0x78, [I32, I32], I32)
           + numeric(0x79, 0x7B, [I64], I64) + numeric(0x7C, 0x8A, [I64, I64], I64)
           + numeric(0x8B, 0x91, [F32], F32) + numeric(0x92, 0x98, [F32, F32], F32)
           + numeric(0x99, 0x9F, [F64], F64) + numeric(0xA0, 0xA6, [F64, F64], F64)
           + numeric(0xA7, 0xA7, [I64], I32) + numeric(0xA8, 0xA9, [F32], I32) + numeric(0xAA, 0xAB, [F64], I32)
           + numeric(0xAC, 0xAD, [I32], I64) + numeric(0xAE, 0xAF, [F32], I64) + numeric(0xB0, 0xB1, [F64], I64)
           + numeric(0xB2, 0xB3, [I32], F32) + numeric(0xB4, 0xB5, [I64], F32) + numeric(0xB6, 0xB6, [F64], F32)
           + numeric(0xB7, 0xB8, [I32], F64) + numeric(0xB9, 0xBA, [I64], F64) + numeric(0xBB, 0xBB, [F32], F64)
           + numeric(0xBC, 0xBC, [F32], I32) + numeric(0xBD, 0xBD, [F64], I64)
           + numeric(0xBE, 0xBE, [I32], F32) + numeric(0xBF, 0xBF, [I64], F64)
           + numeric(0xC0, 0xC1, [I32], I32) + numeric(0xC2, 0xC4, [I64], I64))
# Of each type the opcodes that load and store it, with the greatest alignment of each.
LOADS = {I32: [(0x28, 2), (0x2C, 0), (0x2D, 0), (0x2E, 1), (0x2F, 1)], F32: [(0x2A, 2)], F64: [(0x2B, 3)],
         I64: [(0x29, 3), (0x30, 0), (0x31, 0), (0x32, 1), (0x33, 1), (0x34, 2), (0x35, 2)]}
STORES = {I32: [(0x36, 2), (0x3A, 0), (0x3B, 1)], I64: [(0x37, 3), (0x3C, 0), (0x3D, 1), (0x3E, 2)], F32: [(0x38, 2)], F64: [(0x39, 3)]}
NUMBERS = {I32: [0, 1, -1, 7, 31, 32, 255, 65535, 65536, -2 ** 31, 2 ** 31 - 1], I64: [0, 1, -1, 63, 64, 2 ** 32, -2 ** 63, 2 ** 63 - 1]}


class Maker:
    """Makes one module; `functions` and `types` are pairs of parameters and results."""

    def __init__(self, r):
        self.r = r
        self.values = [I32, I64, F32, F64] if r.random() < 0.15 else [I32, I64]
        self.numeric = [row for row in NUMERIC if {*row[1], row[2]} <= {*self.values}]
        self.types = [([], [])] + [(self.some(3), self.some(3)) for _ in range(r.randrange(2, 7))]
        self.functions = [r.choice(self.types) for _ in range(r.randrange(1, 6))]
        self.globals = [(r.choice(self.values), r.random() < 0.7) for _ in range(r.randrange(4))]
        self.has_memory, self.has_table = r.random() < 0.8, r.random() < 0.7

    def some(self, most):
        return self.r.choices(self.values, k=self.r.randrange(most + 1))

    def constant(self, of):
        if of in NUMBERS:
            return (b'\x41' if of == I32 else b'\x42') + signed(self.r.choice(NUMBERS[of]))
        return b'\x43' + self.r.randbytes(4) if of == F32 else b'\x44' + self.r.randbytes(8)

    def values_of(self, types, depth, labels):
        return b''.join(self.value(of, depth, labels) for of in types)

    def address(self, of, rows):
        opcode, most = self.r.choice(rows[of])
        offset = self.r.choice([0, 1, 8, 400]) if self.r.random() < 0.95 else self.r.choice([65532, 2 ** 32 - 1])
        return bytes([opcode]) + unsigned(self.r.randrange(most + 1)) + unsigned(offset)

    def near(self, most, depth, labels):
        # An i32 that seldom lies above a power of two less one.
        masked = b'\x41' + signed(most) + b'\x71' if self.r.random() < 0.97 else b''
        return self.value(I32, depth, labels) + masked

    def place(self, of, opcode):
        # An instruction on a local of this type; where there is none, nothing.
        places = [k for k, other in enumerate(self.locals) if other == of]
        return opcode + unsigned(self.r.choice(places)) if places else b''

    def called(self, depth, labels, first=None):
        # A call, or one through the table, and what it gives; of a function that gives this type first, where one is named.
        callees = [(b'\x10' + unsigned(k), it) for k, it in enumerate(self.functions)]
        if self.has_table:
            callees += [(self.near(7, 0, labels) + b'\x11' + unsigned(k) + b'\x00', it) for k, it in enumerate(self.types)]
        callees = [it for it in callees if first is None or it[1][1][:1] == [first]]
        if not callees:
            return b'', None
        call, (takes, gives) = self.r.choice(callees)
        return self.values_of(takes, depth, labels) + call, gives

    def block(self, takes, gives, index, depth, labels):
        # A block, loop or if of that type, by its index where it has one, and else by what it gives.
        kind = b'\x40' if index is None and not gives else gives[0] if index is None else signed(index)
        begin = self.r.choice([b'\x02', b'\x03', b'\x04'])
        inner = labels + [takes if begin == b'\x03' else gives]

        def body():
            # What the block takes is put away first.
            front = b''.join(self.place(of, b'\x21') or b'\x1A' for of in reversed(takes))
            return front + self.statements(depth - 1, inner) + self.values_of(gives, depth - 1, inner)

        code = self.values_of(takes, depth - 1, labels) + (self.value(I32, depth - 1, labels) if begin == b'\x04' else b'')
        code += begin + kind + body()
        if begin == b'\x04' and (takes != gives or self.r.random() < 0.7):
            code += b'\x05' + body()
        return code + b'\x0B'

    def value(self, of, depth, labels):
        # Code that gives one value of this type.
        r, depth = self.r, depth - 1
        pick = r.random()
        if depth < 0 or pick < 0.2:
            pick = r.random()
            held = [unsigned(k) for k, (other, _) in enumerate(self.globals) if other == of]
            look = b'\x23' + r.choice(held) if held and pick < 0.2 else self.place(of, b'\x20') if pick < 0.7 else b''
            return look or self.constant(of)
        if pick < 0.55:
            opcode, takes, _ = r.choice([row for row in self.numeric if row[2] == of])
            return self.values_of(takes, depth, labels) + opcode
        if pick < 0.65 and self.has_memory:
            return self.near(4095, depth, labels) + self.address(of, LOADS)
        if pick < 0.70 and self.has_memory and of == I32:
            return b'\x3F\x00' if r.random() < 0.5 else self.value(I32, depth, labels) + b'\x40\x00'
        if pick < 0.76:
            return self.values_of([of, of, I32], depth, labels) + b'\x1B'
        if pick < 0.84:
            code, gives = self.called(depth, labels, of)
            return code + b'\x1A' * (len(gives) - 1) if code else self.constant(of)
        if pick < 0.90:
            fitting = [k for k, (_, gives) in enumerate(self.types) if gives == [of]]
            index = r.choice(fitting) if fitting and r.random() < 0.6 else None
            return self.block(self.types[index][0] if index is not None else [], [of], index, depth, labels)
        if pick < 0.95:
            fitting = [k for k, types in enumerate(reversed(labels)) if types == [of]]
            return self.values_of([of, I32], depth, labels) + b'\x0D' + unsigned(r.choice(fitting)) if fitting else self.constant(of)
        return self.value(of, depth, labels) + self.place(of, b'\x22')

    def branch(self, depth, labels):
        # To a label or out of the function, with what it wants; of a table all labels want the same.
        r, near = self.r, labels[::-1]
        at = r.randrange(len(near))
        same = [unsigned(k) for k, types in enumerate(near) if types == near[at]]
        front, pick = self.values_of(near[at], depth, labels), r.random()
        if pick < 0.2:
            return front + b'\x0C' + unsigned(at)
        if pick < 0.4:
            return front + self.value(I32, depth, labels) + b'\x0E' + vector(r.choices(same, k=r.randrange(4))) + r.choice(same)
        if pick < 0.5:
            return self.values_of(labels[0], depth, labels) + b'\x0F'
        return front + self.value(I32, depth, labels) + b'\x0D' + unsigned(at) + b'\x1A' * len(near[at])

    def statement(self, depth, labels):
        # Code that leaves the operands as it found them.
        r, of = self.r, self.r.choice(self.values)
        pick = r.random()
        if pick < 0.3:
            return self.value(of, depth, labels) + (self.place(of, b'\x21') or b'\x1A')
        if pick < 0.4:
            held = [(unsigned(k), other) for k, (other, varies) in enumerate(self.globals) if varies]
            at, of = r.choice(held) if held else (b'', of)
            return self.value(of, depth, labels) + (b'\x24' + at if held else b'\x1A')
        if pick < 0.5 and self.has_memory:
            return self.near(4095, depth, labels) + self.value(of, depth, labels) + self.address(of, STORES)
        if pick < 0.6:
            code, gives = self.called(depth, labels)
            return code + b'\x1A' * len(gives)
        if pick < 0.8 and depth > 0:
            index = r.randrange(len(self.types))
            return self.block(*self.types[index], index, depth, labels) + b'\x1A' * len(self.types[index][1])
        if pick < 0.92:
            return self.branch(depth, labels)
        return b'\x00' if pick > 0.995 else b'\x01'

    def statements(self, depth, labels):
        return b''.join(self.statement(depth, labels) for _ in range(self.r.randrange(3)))

    def body(self, takes, gives):
        more = self.some(4)
        self.locals = takes + more
        code = self.statements(3, [gives]) + self.statements(3, [gives]) + self.values_of(gives, 3, [gives])
        return sized(vector([b'\x01' + of for of in more]) + code + b'\x0B')

    def module(self):
        r, count = self.r, len(self.functions)
        plain = [k for k, types in enumerate(self.functions) if types == ([], [])]
        exports = [b'\x01' + bytes([97 + k]) + b'\x00' + bytes([k]) for k in range(count)]
        held = [of + bytes([varies]) + self.constant(of) + b'\x0B' for of, varies in self.globals]
        parts = {1: vector([function_type(*types) for types in self.types]),
                 3: vector([unsigned(self.types.index(types)) for types in self.functions]), 7: vector(exports)}
        if self.has_table:
            entries = vector([unsigned(r.randrange(count)) for _ in range(r.randrange(9))])
            parts[4] = b'\x01\x70\x00' + unsigned(8 if r.random() < 0.95 else 2)
            parts[9] = b'\x01\x00\x41' + signed(0 if r.random() < 0.95 else 3) + b'\x0B' + entries
        if self.has_memory:
            parts[5] = b'\x01\x01\x01' + unsigned(r.choice([1, 2, 40]))
            offset = signed(r.choice([0, 8]) if r.random() < 0.95 else 65535)
            parts[11] = b'\x01\x00\x41' + offset + b'\x0B' + sized(r.randbytes(r.randrange(4)))
        if held:
            parts[6] = vector(held)
        if plain and r.random() < 0.5:
            parts[8] = unsigned(r.choice(plain))
        parts[10] = vector([self.body(*types) for types in self.functions])
        return HEADER + b''.join(section(number, parts[number]) for number in sorted(parts))


def typed_module(r):
    """A module that is valid, and of each exported function `a`, `b` and so on the types of its parameters."""
    maker = Maker(r)
    return maker.module(), [takes for takes, _ in maker.functions]
