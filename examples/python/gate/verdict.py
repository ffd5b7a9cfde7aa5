"""Judging a module."""
from __future__ import annotations

import ctypes
import enum
from dataclasses import dataclass

from gate._library import MODULE_REFUSED, OK, Bytes, CVerdict, expect, library, whole, whole_number

# As gate.h says, enough for every line, and for the text of a build.
LINE_ROOM = 64
# How wide the numbers of a verdict are.
BITS = {'rule': 32, 'function': 32, 'token': 64}


class Refusal(enum.Enum):
    """Why a module is refused, in the order of judging."""

    TOO_LARGE = 1
    MALFORMED = 2
    RULE = 3
    BODY_MALFORMED = 4
    BODY_TOO_MANY_LOCALS = 5
    BODY_ILL_TYPED = 6


@dataclass(frozen=True)
class Verdict:
    """What the judge says: the first refusal, or None of an accepted module. Numbers that do not belong to it are 0.

    A verdict is true exactly where the module is accepted; its text is the line of `gate check`. A number that has no place in
    the struct of `gate.h` is a `ValueError`.
    """

    refusal: Refusal | None = None
    rule: int = 0
    """The least broken rule, 2 to 13."""
    function: int = 0
    """The function whose body is refused, imported ones counted first."""
    token: int = 0
    """The first token that no completion can save, from 0."""

    def __post_init__(self) -> None:
        for name, bits in BITS.items():
            whole_number(name, getattr(self, name), 0, (1 << bits) - 1)

    @property
    def accepted(self) -> bool:
        return self.refusal is None

    def __bool__(self) -> bool:
        return self.accepted

    def __str__(self) -> str:
        verdict = CVerdict(self.refusal.value if self.refusal else 0, self.rule, self.function, self.token)
        out, length = ctypes.create_string_buffer(LINE_ROOM), ctypes.c_size_t()
        expect(library.gate_verdict_line(verdict, out, LINE_ROOM, length), OK)
        return ctypes.string_at(out, length.value).decode().rstrip('\n')


def build() -> str:
    """Which build the library is: `gate 0.2.0 (commit 0123456789ab, rattle-kit-13f)`."""
    out, length = ctypes.create_string_buffer(LINE_ROOM), ctypes.c_size_t()
    expect(library.gate_build(out, LINE_ROOM, length), OK)
    return ctypes.string_at(out, length.value).decode()


def verdict_of(said: CVerdict) -> Verdict:
    """The verdict of the numbers that the library wrote."""
    return Verdict(Refusal(said.kind) if said.kind else None, said.rule, said.function, said.token)


def check(module: Bytes) -> Verdict:
    """Judges a module."""
    data, said = whole(module), CVerdict()
    expect(library.gate_check(data, len(data), said), OK, MODULE_REFUSED)
    return verdict_of(said)
