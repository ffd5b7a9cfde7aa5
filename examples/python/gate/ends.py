"""How a call ends."""
from __future__ import annotations

import enum
from collections.abc import Sequence
from typing import NamedTuple, TypeVar

from gate._library import CCall, CValue
from gate.values import Value, value_of, value_of_bits


Named = TypeVar('Named', bound='_Named')


class _Named(enum.Enum):
    @property
    def word(self) -> str:
        """Its name in a report."""
        return self.name.lower().replace('_', '-')

    @classmethod
    def of_word(cls: type[Named], word: str) -> Named:
        """The one of that name in a report."""
        return cls[word.upper().replace('-', '_')]


class EndKind(_Named):
    """What the end is, in the order of `gate_end`."""

    VALUES = 0
    TRAP = 1
    OUT_OF_FUEL = 2
    OUT_OF_FRAMES = 3
    NO_EXPORT = 4
    NOT_A_FUNCTION = 5
    BAD_ARGUMENTS = 6
    NOT_STARTED = 7
    NO_MEMORY = 8


class Trap(_Named):
    """Why a call trapped, in the order of `gate_trap`."""

    UNREACHABLE = 0
    OUT_OF_BOUNDS = 1
    UNDEFINED_ELEMENT = 2
    UNINITIALIZED_ELEMENT = 3
    TYPE_MISMATCH = 4
    DIVIDE_BY_ZERO = 5
    INTEGER_OVERFLOW = 6


class NotStarted(_Named):
    """Why no instance can be made, in the order of `gate_not_started`."""

    IMPORTS = 0
    FLOATS = 1
    TABLE_LIMIT = 2
    MEMORY_LIMIT = 3
    ELEMENT_OUTSIDE = 4
    DATA_OUTSIDE = 5


# PERF: quicker than `EndKind(0)`.
ENDS = tuple(EndKind)
RAN = (EndKind.VALUES, EndKind.TRAP, EndKind.OUT_OF_FUEL, EndKind.OUT_OF_FRAMES)
OUTSIDE = (NotStarted.ELEMENT_OUTSIDE, NotStarted.DATA_OUTSIDE)


class End(NamedTuple):
    """The end of a call. Its text is what the line of a report says after its number."""

    kind: EndKind
    values: tuple[Value, ...] = ()
    """The results, the lowest first."""
    reason: Trap | NotStarted | None = None
    """Why it trapped, or why it was not started."""
    place: int | None = None
    """The number of the segment that lies outside."""
    fuel: int | None = None
    """What the call cost, the start function included; None where nothing ran."""

    def value(self) -> Value:
        """The one value of a call that gave one. A `CallError` for each other end."""
        if len(self.values) != 1:
            raise CallError(self)
        return self.values[0]

    def no_value(self) -> None:
        """That a function without results came to its end. A `CallError` for each other end, and for results."""
        if self.kind is not EndKind.VALUES or self.values:
            raise CallError(self)

    def __str__(self) -> str:
        words = [self.kind.word]
        if self.values:
            words.append(','.join(map(str, self.values)))
        if self.reason is not None:
            words.append(self.reason.word)
        if self.place is not None:
            words.append(str(self.place))
        if self.fuel is not None:
            words.append(f'fuel {self.fuel}')
        return ' '.join(words)


class CallError(RuntimeError):
    """A call did not give what is asked for: one value, or none. `end` says how it ended, and so does the text: `trap unreachable fuel 1`."""

    def __init__(self, end: End) -> None:
        super().__init__(f'not what is asked for: {end}' if end.kind is EndKind.VALUES else str(end))
        self.end = end


def end_of(ended: CCall, results: Sequence[CValue] = ()) -> End:
    """The end of the numbers that the library wrote."""
    kind = ENDS[ended.end]
    if kind is EndKind.VALUES:
        values = tuple([value_of_bits(it.width, it.bits) for it in results[:ended.results]]) if results else ()
        return End(kind, values, None, None, ended.fuel)
    reason: Trap | NotStarted | None = None
    if kind is EndKind.TRAP:
        reason = Trap(ended.reason)
    elif kind is EndKind.NOT_STARTED:
        reason = NotStarted(ended.reason)
    return End(kind, (), reason, ended.place if reason in OUTSIDE else None, ended.fuel if kind in RAN else None)


def end_of_text(text: str) -> End:
    """The end that a line of a report tells after its number."""
    told, _, fuel = text.rpartition(' fuel ') if ' fuel ' in text else (text, '', '')
    word, *rest = told.split(' ')
    kind = EndKind.of_word(word)
    cost = int(fuel) if fuel else None
    if kind == EndKind.VALUES:
        return End(kind, tuple(map(value_of, rest[0].split(','))) if rest else (), fuel=cost)
    if kind == EndKind.TRAP:
        return End(kind, reason=Trap.of_word(rest[0]), fuel=cost)
    if kind == EndKind.NOT_STARTED:
        return End(kind, reason=NotStarted.of_word(rest[0]), place=int(rest[1]) if rest[1:] else None)
    return End(kind, fuel=cost)
