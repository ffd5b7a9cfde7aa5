"""What the families share: how code and sections become a module of a form."""
from ..encoding import whole

I32, I64, F32, F64 = b'\x7F', b'\x7E', b'\x7D', b'\x7C'
FOUR = bytes(b'\x7F\x7E\x7D\x7C'[k % 4] for k in range(256))
WRONG = b'\x42\x00\x45'
ANYWHERE = ('accepted', 'refused', 'dead accepted', 'dead refused')
DEAD = ('dead accepted', 'dead refused')
LIVE = ('accepted', 'refused')
SECTIONS = ('accepted', 'refused')


def at_random(pieces, size, chance):
    # About `size` bytes of these pieces.
    mean = sum(map(len, pieces)) / len(pieces)
    return b''.join(chance.choices(pieces, k=max(1, int(size / mean))))


def of_code(make):
    """A family whose code, which `make` gives with the other arguments of `whole`, leaves the operands as it found them."""
    def module(size, form, chance):
        dead = form.startswith('dead')
        code, others = make(size, dead, chance)
        return whole((b'\x00' if dead else b'') + code + (WRONG if form.endswith('refused') else b''), **others)
    return module


def of_sections(make):
    """A family whose sections and functions are given by `make`; where it is refused, a last function is added that is wrong."""
    def module(size, form, chance):
        parts = make(size, chance)
        if form == 'refused':
            parts['others'] = parts.get('others', []) + [(0, b'\x00' + WRONG + b'\x0B')]
        return whole(b'', **parts)
    return module
