"""Where and why a module is refused."""
from __future__ import annotations

import ctypes
from collections.abc import Callable
from dataclasses import dataclass, field
from typing import Any

from gate._library import MODULE_REFUSED, OK, SHORT_BUFFER, Bytes, CExplanation, expect, library, whole
from gate.verdict import Verdict, verdict_of

# Most texts have room; a longer one is asked for once more.
ROOM = 1024
# Where the text of a line begins, after its key and blanks.
COLUMN = 10


def told(number: int, bits: int = 64) -> int | None:
    """A number of the library; None where it is not told."""
    return None if number == (1 << bits) - 1 else number


def span(begin: int, end: int) -> range | None:
    return None if told(begin) is None else range(begin, end)


@dataclass(frozen=True)
class Explanation:
    """What is said of a module. Its text is what `gate explain` prints; numbers that are not told are None.

    The bytes of a `range` are those of the module from its start up to its stop. `place` are the bytes of the token or the item that is
    refused, and empty where reading stopped.
    """

    verdict: Verdict
    text: str
    why: int
    """A number of `gate_why` in `gate.h`; its hundreds are the kind of the verdict."""
    section: int | None = None
    """The id of the section in which it stands."""
    item: int | None = None
    """The place in that section, from 0; of a body the verdict has the function."""
    opcode: int | None = None
    """The first byte of the token."""
    body: range | None = None
    """The bytes of the refused body."""
    place: range | None = None
    lines: dict[str, str] = field(default_factory=dict)
    """The texts of the lines by their keys; lines on instructions have none."""

    @property
    def offset(self) -> int | None:
        """The offset of the first byte that is refused, or where reading stopped."""
        return self.place.start if self.place is not None else None

    @property
    def because(self) -> str | None:
        """Why, in words."""
        return self.lines.get('because')

    def __str__(self) -> str:
        """The sentence: the verdict, and why."""
        return f'{self.verdict}: {self.because}' if self.because else str(self.verdict)


def lines_of(text: str) -> dict[str, str]:
    """The lines after that of the verdict by their keys; of two with one key the first, and none without a key."""
    found: dict[str, str] = {}
    for line in text.splitlines()[1:]:
        if not line.startswith(' '):
            found.setdefault(line[:COLUMN].rstrip(), line[COLUMN:])
    return found


def whole_text(write: Callable[..., int]) -> str:
    """The text that `write` makes on a module. It takes a buffer, its room and the length."""
    room, length = ROOM, ctypes.c_size_t()
    while True:
        out = ctypes.create_string_buffer(room)
        status = expect(write(out, room, length), OK, MODULE_REFUSED, SHORT_BUFFER)
        if status != SHORT_BUFFER:
            return ctypes.string_at(out, length.value).decode()
        room = length.value


def explain(module: Bytes) -> Explanation:
    """Judges a module, and says of a refusal where and why."""
    data, said = whole(module), CExplanation()
    expect(library.gate_explain(data, len(data), said), OK, MODULE_REFUSED)

    def write(*out: Any) -> int:
        status: int = library.gate_explain_text(data, len(data), *out)
        return status

    text = whole_text(write)
    return Explanation(verdict_of(said.verdict), text, said.why, told(said.section, 32), told(said.item), told(said.opcode, 32),
                       span(said.body_from, said.body_to), span(said.begin, said.end), lines_of(text))


class ModuleRefused(ValueError):
    """A module that was to be called is refused. Its text is the sentence that says why."""

    def __init__(self, explanation: Explanation) -> None:
        super().__init__(explanation)
        self.explanation = explanation

    @property
    def verdict(self) -> Verdict:
        return self.explanation.verdict

    @property
    def offset(self) -> int | None:
        return self.explanation.offset

    @property
    def because(self) -> str | None:
        return self.explanation.because
