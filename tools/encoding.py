"""The binary format, as scripts write it and cut it: numbers, vectors, sections (Core 1.0, chapter 5)."""
HEADER = b'\0asm\1\0\0\0'


def unsigned(n):
    out = bytearray()
    while True:
        out.append(n & 127 | (128 if n > 127 else 0))
        n >>= 7
        if not n:
            return bytes(out)


def signed(n):
    out = bytearray()
    while True:
        b, n = n & 127, n >> 7
        last = (n == 0 and not b & 64) or (n == -1 and b & 64)
        out.append(b if last else b | 128)
        if last:
            return bytes(out)


def vector(items):
    return unsigned(len(items)) + b''.join(items)


def sized(contents):
    return unsigned(len(contents)) + contents


def section(number, contents):
    return bytes([number]) + sized(contents)


# Of a module of several functions the first has the type `[] -> []`, which stands first.
EMPTY = b'\x60\x00\x00'


def function_type(parameters, results=()):
    """A type, from lists of value types, a byte each."""
    return b'\x60' + vector(parameters) + vector(results)


def whole(code, locals_of=b'\x00', types=(EMPTY,), others=(), sections=None):
    """A module whose first function, of the first type, has this `code`, to which the last `end` is added, and the name `f`.
    `others` are pairs of a type's index and a body without its size; `sections` has the contents of other sections by their
    numbers."""
    parts = {1: vector(types), 3: vector([b'\0'] + [unsigned(index) for index, _ in others]),
             7: b'\x01\x01f\x00\x00', 10: vector([sized(locals_of + code + b'\x0B')] + [sized(body) for _, body in others])}
    parts.update(sections or {})
    return HEADER + b''.join(section(number, parts[number]) for number in sorted(parts))


def number_at(bytes_of, at):
    """The unsigned number that is spelled there, and where it ends."""
    n = shift = 0
    while True:
        n, shift, at = n | (bytes_of[at] & 127) << shift, shift + 7, at + 1
        if bytes_of[at - 1] < 128:
            return n, at


def sections(module):
    """The sections of a module as pairs of number and contents, up to where none is spelled."""
    at, found = 8, []
    try:
        while at < len(module):
            size, start = number_at(module, at + 1)
            found.append((module[at], module[start:start + size]))
            at = start + size
    except IndexError:
        pass
    return found
