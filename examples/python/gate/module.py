"""A module that is judged once and called often."""
from __future__ import annotations

import ctypes
from typing import Any

from gate._library import MODULE_REFUSED, OK, Bytes, CCall, CModule, CVerdict, expect, library, whole
from gate.ends import End, end_of
from gate.explanation import ModuleRefused, explain
from gate.exports import Export, Import, Measures, exports_of, exports_text, find, imports_of, measures_of
from gate.function import Functions
from gate.handle import Handle
from gate.instance import Instance
from gate.report import Report, fetch
from gate.settings import DEFAULT, Settings
from gate.values import Value, name_bytes


class Module(Handle[CModule]):
    """An accepted module. A refused one raises `ModuleRefused`, which says where and why.

    The object keeps a copy of the bytes. It is used by one thread at a time: a lock makes the others wait. For calls side by
    side each thread has a `Module` of its own, by `share`. `close`, or leaving a `with`, frees it; later uses raise `Closed`.
    """

    NAME = 'module'
    INSTEAD = '`share` it, or hand on its bytes'

    def __init__(self, module: Bytes) -> None:
        data = whole(module)
        held = ctypes.create_string_buffer(data, len(data))
        said, handle = CVerdict(), CModule()
        if expect(library.gate_module_new(held, len(data), said, handle), OK, MODULE_REFUSED) == MODULE_REFUSED:
            raise ModuleRefused(explain(data))
        self._hold(handle, held)

    def _hold(self, handle: CModule, held: ctypes.Array[ctypes.c_char]) -> None:
        """Owns the handle, and keeps the bytes for as long."""
        self._own(handle, library.gate_module_free, held)
        self._bytes = held
        self._functions = Functions()

    @property
    def size(self) -> int:
        """How many bytes its lists take, its own bytes apart."""
        with self._lock:
            size: int = library.gate_module_size(self._open())
            return size

    @property
    def exports(self) -> tuple[Export, ...]:
        """What the module exports, in its order."""
        with self._lock:
            return exports_of(self._open())

    @property
    def imports(self) -> tuple[Import, ...]:
        """What the module imports, in its order. No call of a module with imports runs."""
        with self._lock:
            return imports_of(self._open())

    @property
    def measures(self) -> Measures:
        """Numbers by which a host may refuse the module."""
        with self._lock:
            return measures_of(self._open())

    def exports_text(self, settings: Settings = DEFAULT) -> str:
        """What `gate exports` prints of it within these limits. It is judged anew."""
        with self._lock:
            self._open()
        return exports_text(memoryview(self._bytes), settings)

    def find(self, name: str | bytes) -> Export | None:
        """The export of that name."""
        with self._lock:
            return find(self._open(), name_bytes(name))

    def call(self, name: str | bytes, *values: Value | int, settings: Settings = DEFAULT) -> End:
        """Calls the export of that name on an instance of its own.

        A plain number is an argument of its parameter's type, with a sign or without. Wrong ones raise, and nothing runs: `BadArguments`,
        a `TypeError`, where one is missing, one is too many, or one is no number of its type; `ValueError`, where one is out of its range.
        """
        with self._lock:
            handle = self._open()
            return self._functions.of(handle, name).call(library.gate_module_call, handle, values, settings)

    def instance(self, settings: Settings = DEFAULT) -> Instance:
        """An instance that goes on from call to call, once its start function has run. `NoInstance` where there is none."""
        return Instance(self, settings)

    def starts(self, settings: Settings = DEFAULT) -> End:
        """Whether a call would have an instance: an end in no values, where there would be one, and else why not. Nothing runs."""
        ended = CCall()
        with self._lock:
            expect(library.gate_module_starts(self._open(), settings.in_c, ended), OK)
        return end_of(ended)

    def run(self, calls: Bytes, settings: Settings = DEFAULT) -> Report:
        """Runs the calls of a text, each on an instance of its own."""
        text = whole(calls)
        with self._lock:
            handle = self._open()

            def write(*out: Any) -> int:
                status: int = library.gate_module_run(handle, text, len(text), settings.in_c, *out)
                return status

            return fetch(write)

    def share(self) -> Module:
        """Another object of the same module, for another thread. Each is closed by itself."""
        handle = CModule()
        with self._lock:
            expect(library.gate_module_share(self._open(), handle), OK)
        other = object.__new__(Module)
        other._hold(handle, self._bytes)
        return other
