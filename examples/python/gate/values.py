"""Arguments, results, and the line of a call."""
from __future__ import annotations

import operator
import re
from dataclasses import dataclass
from typing import ClassVar, SupportsIndex, TypeGuard, Union

WORD = re.compile(r'(i32|i64):(0|-?[1-9][0-9]*)')


def is_whole(given: object) -> TypeGuard[SupportsIndex]:
    """Whether it is a whole number. `True` is not."""
    return hasattr(given, '__index__') and not isinstance(given, bool)


@dataclass(frozen=True)
class _Word:
    number: int
    width: ClassVar[int]

    def __post_init__(self) -> None:
        if not is_whole(self.number):
            raise TypeError(f'an i{self.width} is a whole number, and not {self.number!r}')
        number, half = operator.index(self.number), 1 << (self.width - 1)
        if not -half <= number < 2 * half:
            raise ValueError(f'an i{self.width} is from {-half} to {2 * half - 1}, and not {number}')
        # Read with its sign: frozen, but not yet made.
        object.__setattr__(self, 'number', number - 2 * half if number >= half else number)

    @property
    def bits(self) -> int:
        """The number read without its sign."""
        return self.number % (1 << self.width)

    def __int__(self) -> int:
        return self.number

    def __str__(self) -> str:
        return f'i{self.width}:{self.number}'


@dataclass(frozen=True)
class I32(_Word):
    """A number of 32 bits, read with its sign. It is made of one with a sign or without: from -2^31 to 2^32 - 1."""

    width: ClassVar[int] = 32


@dataclass(frozen=True)
class I64(_Word):
    """A number of 64 bits, read with its sign. It is made of one with a sign or without: from -2^63 to 2^64 - 1."""

    width: ClassVar[int] = 64


Value = Union[I32, I64]
KINDS: dict[int, type[I32] | type[I64]] = {32: I32, 64: I64}


def value_of_bits(width: int, bits: int) -> Value:
    """The value of that width whose number, read without sign, is `bits`."""
    # PERF: what the library writes is in its range.
    value: Value = object.__new__(I32) if width == 32 else object.__new__(I64)
    vars(value)['number'] = bits - (1 << width) if bits >> (width - 1) else bits
    return value


def value_of(word: str) -> Value:
    """The value of a word such as `i32:-5`, as a text of calls has it."""
    spelled = WORD.fullmatch(word)
    if spelled is None:
        raise ValueError(f'neither i32:NUMBER nor i64:NUMBER: {word!r}')
    value = KINDS[int(spelled[1][1:])](int(spelled[2]))
    if str(value) != word:
        raise ValueError(f'a text of calls has numbers with their signs: {word!r}')
    return value


def name_bytes(name: str | bytes) -> bytes:
    """The bytes of an export's name."""
    return name.encode() if isinstance(name, str) else name


def call_line(name: str | bytes, *values: Value) -> bytes:
    """A line of a text of calls. A name with a tab or a newline has none, and is a `ValueError`."""
    for value in values:
        if not isinstance(value, (I32, I64)):
            raise TypeError(f'an argument is gate.I32(N) or gate.I64(N), and not {value!r}')
    data = name_bytes(name)
    if b'\t' in data or b'\n' in data:
        raise ValueError(f'no line can name {name!r}')
    return b'\t'.join([data, *(str(value).encode() for value in values)]) + b'\n'
