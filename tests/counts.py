"""Short modules that spell a count, an index or a size of 2^32 - 1, and their verdicts by Core 1.0: a vector whose items do not
follow is malformed (5.1.3), in a body it is the body that is; a name or an index that is not there breaks its rule (chapter 3)."""
from tools.encoding import EMPTY, HEADER, section, sized, vector, whole

MOST = b'\xFF\xFF\xFF\xFF\x0F'
BODY = 'refused body 0 '
# Of each section that is a vector: what its items are, its number, one item, and what has to stand before it.
VECTORS = [('types', 1, EMPTY, b''), ('imports', 2, b'\x01a\x01b\x03\x7F\x00', b''), ('functions', 3, b'\x00', section(1, vector([EMPTY]))),
           ('tables', 4, b'\x70\x00\x01', b''), ('memories', 5, b'\x00\x01', b''), ('globals', 6, b'\x7F\x00\x41\x00\x0B', b''),
           ('exports', 7, b'\x01f\x03\x00', b''), ('element segments', 9, b'\x00\x41\x00\x0B\x00', b''),
           ('bodies', 10, b'\x02\x00\x0B', b''), ('data segments', 11, b'\x00\x41\x00\x0B\x00', b'')]
# What else is counted within a section: its number, and its contents up to that count.
WITHIN = [('parameters', 1, b'\x01\x60'), ('results', 1, b'\x01\x60\x00'), ("bytes of a module's name", 2, b'\x01'),
          ("bytes of an import's name", 2, b'\x01\x01a'), ("bytes of an export's name", 7, b'\x01'),
          ("functions of a segment", 9, b'\x01\x00\x41\x00\x0B'), ('bytes of a segment', 11, b'\x01\x00\x41\x00\x0B'),
          ("bytes of a section's name", 0, b''), ('bytes of a body', 10, b'\x01')]
# Bodies that spell that number, by their locals and code.
BODIES = [('runs of locals', MOST, b'', 'malformed'), ('locals in a run', b'\x01' + MOST + b'\x7F', b'', 'too-many-locals'),
          ('locals in two runs, more than there may be (5.4.4)', b'\x02' + (MOST + b'\x7F') * 2, b'', 'malformed'),
          ('labels', b'\x00', b'\x41\x00\x0E' + MOST, 'malformed'), ('a label', b'\x00', b'\x0C' + MOST, 'ill-typed at 0'),
          ('the place of a local', b'\x00', b'\x20' + MOST + b'\x1A', 'ill-typed at 0'),
          ('the function of a call', b'\x00', b'\x10' + MOST, 'ill-typed at 0'),
          ('the type of a block', b'\x00', b'\x02' + MOST + b'\x0B', 'ill-typed at 0'),
          ('a global', b'\x00', b'\x23' + MOST + b'\x1A', 'ill-typed at 0')]
# Sections that spell it where no item is counted.
OTHERS = [("a function's type", 3, b'\x01' + MOST, 'refused rule 3'),
          ("an import's type", 2, b'\x01\x01a\x01b\x00' + MOST, 'refused rule 2'),
          ('the least of a table', 4, b'\x01\x70\x00' + MOST, 'accepted'),
          ('the least of a memory', 5, b'\x01\x00' + MOST, 'refused rule 5'),
          ('what is exported', 7, b'\x01\x01f\x00' + MOST, 'refused rule 9'), ('the start function', 8, MOST, 'refused rule 11')]


def modules():
    """Their names, bytes and verdicts."""
    for name, number, item, before in VECTORS:
        for items in (0, 3, 20_000):
            contents = before + section(number, MOST + item * items)
            yield f'2^32 - 1 {name}, of which {items} are there', HEADER + contents, 'refused malformed'
    for name, number, front in WITHIN:
        for rest in (b'', b'\x60' * 3, b'\x60' * 20_000):
            yield f'2^32 - 1 {name}, {len(rest)} bytes left', HEADER + section(number, front + MOST + rest), 'refused malformed'
    yield '2^32 - 1 bytes of a section', HEADER + b'\x01' + MOST, 'refused malformed'
    for name, locals_of, code, why in BODIES:
        yield f'2^32 - 1: {name}', whole(code, locals_of), BODY + why
    for name, number, contents, verdict in OTHERS:
        before = section(1, vector([EMPTY])) if number == 3 else b''
        after = section(10, vector([sized(b'\x00\x0B')])) if number == 3 else b''
        yield f'2^32 - 1: {name}', HEADER + before + section(number, contents) + after, verdict
