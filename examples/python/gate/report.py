"""Running a text of calls."""
from __future__ import annotations

import ctypes
import enum
from collections.abc import Callable
from dataclasses import dataclass
from typing import Any

from gate._library import CALLS_REFUSED, MODULE_REFUSED, OK, SHORT_BUFFER, Bytes, CReport, expect, library, whole
from gate.ends import End, end_of_text
from gate.settings import DEFAULT, Settings

# Reports that have more bytes are kept by the library, and read in a second call.
ROOM = 4096


class Status(enum.IntEnum):
    """What the text of an answer is; the exit status of `gate run`."""

    REPORTED = 0
    MODULE_REFUSED = 2
    CALLS_REFUSED = 3


@dataclass(frozen=True)
class Report:
    """The answer of a run: `text` is what `gate run` prints."""

    status: Status
    text: bytes

    def ends(self) -> list[End]:
        """How each call ended, in their order; none where the module or the calls are refused."""
        lines = self.text.decode().splitlines()[:-1] if self.status == Status.REPORTED else []
        return [end_of_text(line.partition(' ')[2]) for line in lines]


def fetch(write: Callable[..., int]) -> Report:
    """The answer that `write` makes. It takes a buffer, its room, the length and the kept answer, as `gate_run` does."""
    length, kept = ctypes.c_size_t(), CReport()
    out = ctypes.create_string_buffer(ROOM)
    status = write(out, ROOM, length, kept)
    if status == SHORT_BUFFER:
        try:
            out = ctypes.create_string_buffer(length.value)
            status = library.gate_report_read(kept, out, length.value, length)
        finally:
            library.gate_report_free(kept)
    expect(status, OK, MODULE_REFUSED, CALLS_REFUSED)
    return Report(Status(status), ctypes.string_at(out, length.value))


def run(module: Bytes, calls: Bytes, settings: Settings = DEFAULT) -> Report:
    """Judges a module, and runs the calls of a text, each on an instance of its own."""
    data, text = whole(module), whole(calls)

    def write(*out: Any) -> int:
        status: int = library.gate_run(data, len(data), text, len(text), settings.in_c, *out)
        return status

    return fetch(write)
