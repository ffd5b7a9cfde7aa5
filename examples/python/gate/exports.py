"""What a module imports and exports, and the numbers by which a host may refuse it."""
from __future__ import annotations

import ctypes
import enum
from collections.abc import Callable
from dataclasses import dataclass
from typing import Any

from gate._library import NOTHING, OK, SHORT_BUFFER, Bytes, CExport, CImport, CMeasures, CModule, expect, library, whole
from gate.explanation import whole_text
from gate.settings import DEFAULT, Settings
from gate.values import I32, I64

# Names that have more bytes are read in a second call.
NAME_ROOM = 256


class ExportKind(enum.Enum):
    """What is exported, in the order of `gate_export_kind`."""

    FUNCTION = 0
    TABLE = 1
    MEMORY = 2
    GLOBAL = 3


class ValueType(enum.Enum):
    """The type of a value, by the byte that spells it in a module. No module with floats is run."""

    I32 = 0x7F
    I64 = 0x7E
    F32 = 0x7D
    F64 = 0x7C

    def __str__(self) -> str:
        return self.name.lower()


KINDS_OF: dict[ValueType, type[I32] | type[I64]] = {ValueType.I32: I32, ValueType.I64: I64}


@dataclass(frozen=True)
class FunctionType:
    """The types of a function's parameters and results, in their order. Its text is like `(i32, i32) -> (i64)`."""

    params: tuple[ValueType, ...]
    results: tuple[ValueType, ...]

    def __str__(self) -> str:
        params, results = (', '.join(map(str, types)) for types in (self.params, self.results))
        return f'({params}) -> ({results})'


@dataclass(frozen=True)
class Export:
    """What is exported under a name."""

    name: str
    kind: ExportKind
    index: int
    """Its number among those of its kind, imported ones counted first."""
    type: FunctionType | None = None
    """Of a function."""

    def __str__(self) -> str:
        return f'{self.name}: {self.kind.name.lower()} {self.type or self.index}'


@dataclass(frozen=True)
class Import:
    """What a module imports: the item of that name of another module."""

    module: str
    name: str
    kind: ExportKind
    type: FunctionType | None = None
    """Of a function."""

    def __str__(self) -> str:
        return f'{self.module} {self.name}: {self.kind.name.lower()}' + (f' {self.type}' if self.type else '')


@dataclass(frozen=True)
class Measures:
    """Numbers by which a host may refuse a module: L, D and V of the formula in SECURITY, "Time of a run"."""

    tokens: int
    """Of the longest body."""
    locals: int
    """The most of a function: its parameters, and those that it declares."""
    values: int
    """The longest list of types: the parameters or the results of a function type."""


def _types(written: bytes) -> tuple[ValueType, ...]:
    return tuple(map(ValueType, written))


def _type_of(handle: CModule, function: int, told: CExport | CImport) -> FunctionType:
    params, results = (ctypes.create_string_buffer(max(1, count)) for count in (told.params, told.results))
    expect(library.gate_module_types(handle, function, params, told.params, results, told.results), OK)
    return FunctionType(_types(params.raw[:told.params]), _types(results.raw[:told.results]))


def _export(handle: CModule, name: str, told: CExport) -> Export:
    kind = ExportKind(told.kind)
    return Export(name, kind, told.index, _type_of(handle, told.index, told) if kind == ExportKind.FUNCTION else None)


def _name_of(write: Callable[..., int], handle: CModule, number: int) -> str:
    length, room = ctypes.c_size_t(), NAME_ROOM
    while True:
        out = ctypes.create_string_buffer(room)
        if expect(write(handle, number, out, room, length), OK, SHORT_BUFFER) == OK:
            return ctypes.string_at(out, length.value).decode()
        room = length.value


def exports_of(handle: CModule) -> tuple[Export, ...]:
    """All exports, in the order of the module."""
    found = []
    for number in range(library.gate_module_export_count(handle)):
        told = CExport()
        expect(library.gate_module_export(handle, number, told), OK)
        found.append(_export(handle, _name_of(library.gate_module_export_name, handle, number), told))
    return tuple(found)


def find(handle: CModule, name: bytes) -> Export | None:
    """The export of that name."""
    told = CExport()
    if expect(library.gate_module_find(handle, name, len(name), told), OK, NOTHING) == NOTHING:
        return None
    return _export(handle, name.decode(), told)


def imports_of(handle: CModule) -> tuple[Import, ...]:
    """All imports, in the order of the module. Imported functions have the first indices."""
    found: list[Import] = []
    functions = 0
    for number in range(library.gate_module_import_count(handle)):
        told = CImport()
        expect(library.gate_module_import(handle, number, told), OK)
        module, name = (_name_of(write, handle, number) for write in (library.gate_module_import_module, library.gate_module_import_name))
        kind = ExportKind(told.kind)
        found.append(Import(module, name, kind, _type_of(handle, functions, told) if kind == ExportKind.FUNCTION else None))
        functions += kind == ExportKind.FUNCTION
    return tuple(found)


def measures_of(handle: CModule) -> Measures:
    told = CMeasures()
    expect(library.gate_module_measures(handle, told), OK)
    return Measures(told.tokens, told.locals, told.values)


def exports_text(module: Bytes, settings: Settings = DEFAULT) -> str:
    """Judges a module, and gives what `gate exports` prints: its imports, exports and custom sections, and whether an instance starts
    within these limits, and if not, why and where. Of a refused module it is the line of the verdict."""
    data = whole(module)

    def write(*out: Any) -> int:
        status: int = library.gate_exports_text(data, len(data), settings.in_c, *out)
        return status

    return whole_text(write)
