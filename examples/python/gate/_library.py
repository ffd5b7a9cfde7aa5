"""Finds libgate, and declares its functions as `gate.h` does.

The library is `libgate.so.1` beside this file, as a wheel has it; else the file that the environment names as `GATE_LIBRARY`; else that of
the release in which this file lies; else the one that the linker finds as `gate`.
"""
from __future__ import annotations

import ctypes.util
import os
from ctypes import CDLL, POINTER, Structure, c_char_p, c_size_t, c_uint32, c_uint64, c_void_p
from typing import Any, Union

INTERFACE = 1
# The least revision of the library.
REVISION = 2
FOLDER, NAME = os.path.dirname(os.path.abspath(__file__)), f'libgate.so.{INTERFACE}'
BESIDE = os.path.join(FOLDER, NAME)
OF_RELEASE = os.path.join(FOLDER, '..', '..', '..', 'lib', NAME)

OK = 0
MODULE_REFUSED = 2
CALLS_REFUSED = 3
NOTHING = 4
BAD_ARGUMENT = 64
NO_MEMORY = 70
SHORT_BUFFER = 75
OUTSIDE = 80
NO_INSTANCE = 81
NO_GLOBAL = 82

Bytes = Union[bytes, bytearray, memoryview]


class CVerdict(Structure):
    _fields_ = [('kind', c_uint32), ('rule', c_uint32), ('function', c_uint32), ('token', c_uint64)]


class CExplanation(Structure):
    # `from` is a word of Python.
    _fields_ = [('verdict', CVerdict), ('why', c_uint32), ('section', c_uint32), ('opcode', c_uint32), ('item', c_uint64),
                ('body_from', c_uint64), ('body_to', c_uint64), ('begin', c_uint64), ('end', c_uint64)]


class CSettings(Structure):
    _fields_ = [('fuel', c_uint32), ('frames', c_uint32), ('pages', c_uint32)]


class CReport(Structure):
    _fields_ = [('at', c_void_p)]


class CModule(Structure):
    _fields_ = [('at', c_void_p)]


class CInstance(Structure):
    _fields_ = [('at', c_void_p)]


class CValue(Structure):
    _fields_ = [('width', c_uint32), ('bits', c_uint64)]


class CCall(Structure):
    _fields_ = [('end', c_uint32), ('reason', c_uint32), ('place', c_uint32), ('fuel', c_uint32), ('results', c_uint64)]


class CExport(Structure):
    _fields_ = [('kind', c_uint32), ('index', c_uint32), ('params', c_uint32), ('results', c_uint32)]


class CImport(Structure):
    _fields_ = [('kind', c_uint32), ('params', c_uint32), ('results', c_uint32)]


class CMeasures(Structure):
    _fields_ = [('tokens', c_uint64), ('locals', c_uint64), ('values', c_uint64)]


TEXT = [c_char_p, c_size_t]
WRITTEN = [c_char_p, c_size_t, POINTER(c_size_t)]

# The result and the parameters of each function, in the order of gate.h. PERF: of the three without parameters each argument is made of its
# type once (function.py), which takes half the time.
FUNCTIONS: dict[str, tuple[Any, list[Any] | None]] = {
    'gate_version': (c_uint32, []),
    'gate_check': (c_uint32, TEXT + [POINTER(CVerdict)]),
    'gate_verdict_line': (c_uint32, [POINTER(CVerdict)] + WRITTEN),
    'gate_explain': (c_uint32, TEXT + [POINTER(CExplanation)]),
    'gate_explain_text': (c_uint32, TEXT + WRITTEN),
    'gate_exports_text': (c_uint32, TEXT + [POINTER(CSettings)] + WRITTEN),
    'gate_run': (c_uint32, TEXT + TEXT + [POINTER(CSettings)] + WRITTEN + [POINTER(CReport)]),
    'gate_report_read': (c_uint32, [CReport] + WRITTEN),
    'gate_report_free': (None, [CReport]),
    'gate_module_new': (c_uint32, TEXT + [POINTER(CVerdict), POINTER(CModule)]),
    'gate_module_run': (c_uint32, [CModule] + TEXT + [POINTER(CSettings)] + WRITTEN + [POINTER(CReport)]),
    'gate_module_call': (c_uint32, None),
    'gate_module_share': (c_uint32, [CModule, POINTER(CModule)]),
    'gate_module_free': (None, [CModule]),
    'gate_revision': (c_uint32, []),
    'gate_build': (c_uint32, WRITTEN),
    'gate_module_size': (c_uint64, [CModule]),
    'gate_module_export_count': (c_uint64, [CModule]),
    'gate_module_measures': (c_uint32, [CModule, POINTER(CMeasures)]),
    'gate_module_export': (c_uint32, [CModule, c_uint64, POINTER(CExport)]),
    'gate_module_export_name': (c_uint32, [CModule, c_uint64] + WRITTEN),
    'gate_module_find': (c_uint32, [CModule] + TEXT + [POINTER(CExport)]),
    'gate_module_types': (c_uint32, [CModule, c_uint32, c_char_p, c_size_t, c_char_p, c_size_t]),
    'gate_module_import_count': (c_uint64, [CModule]),
    'gate_module_import': (c_uint32, [CModule, c_uint64, POINTER(CImport)]),
    'gate_module_import_module': (c_uint32, [CModule, c_uint64] + WRITTEN),
    'gate_module_import_name': (c_uint32, [CModule, c_uint64] + WRITTEN),
    'gate_module_starts': (c_uint32, [CModule, POINTER(CSettings), POINTER(CCall)]),
    'gate_instance_new': (c_uint32, [CModule, POINTER(CSettings), POINTER(CInstance), POINTER(CCall)]),
    'gate_instance_call': (c_uint32, None),
    'gate_instance_find': (c_uint32, [CInstance] + TEXT + [POINTER(c_uint64)]),
    'gate_instance_call_at': (c_uint32, None),
    'gate_instance_memory_size': (c_uint32, [CInstance, POINTER(c_uint64)]),
    'gate_instance_read': (c_uint32, [CInstance, c_uint64, c_char_p, c_size_t]),
    'gate_instance_write': (c_uint32, [CInstance, c_uint64, c_char_p, c_size_t]),
    'gate_instance_global': (c_uint32, [CInstance] + TEXT + [POINTER(CValue)]),
    'gate_instance_reset': (c_uint32, [CInstance, POINTER(CCall)]),
    'gate_instance_free': (None, [CInstance]),
}


def find() -> str | None:
    """The path or the name of the library."""
    if os.path.exists(BESIDE):
        return BESIDE
    return os.environ.get('GATE_LIBRARY') or (OF_RELEASE if os.path.exists(OF_RELEASE) else ctypes.util.find_library('gate'))


def load() -> CDLL:
    """The library; an `ImportError` where there is none, or one of another interface."""
    name = find()
    if name is None:
        raise ImportError('libgate is not found: install it, or set GATE_LIBRARY to the path of libgate.so.1')
    try:
        library = CDLL(name)
        for function, (result, parameters) in FUNCTIONS.items():
            declared = getattr(library, function)
            declared.restype, declared.argtypes = result, parameters
    except (OSError, AttributeError) as fault:
        raise ImportError(f'{name} is no libgate: {fault}') from fault
    if library.gate_version() != INTERFACE:
        raise ImportError(f'{name} has interface {library.gate_version()}, and this package is for {INTERFACE}')
    if library.gate_revision() < REVISION:
        raise ImportError(f'{name} has revision {library.gate_revision()}, and this package wants {REVISION}')
    return library


library = load()


def expect(status: int, *expected: int) -> int:
    """The status, where it is one of those expected, else the exception that it means."""
    if status in expected:
        return status
    if status == NO_MEMORY:
        raise MemoryError('gate: no memory')
    if status == BAD_ARGUMENT:
        raise ValueError('gate: an argument is out of its range')
    raise RuntimeError(f'gate: unexpected status {status}')


def whole_number(name: str, number: int, least: int, greatest: int) -> None:
    """Raises where it is no whole number, or out of its range: ctypes would cut it, or refuse it later."""
    if not isinstance(number, int) or isinstance(number, bool):
        raise TypeError(f'{name} is a whole number, and not {number!r}')
    if not least <= number <= greatest:
        raise ValueError(f'{name} is from {least} to {greatest}, and not {number}')


def whole(data: Bytes) -> bytes:
    """The bytes themselves, or a copy that nobody else can write during a call."""
    return data if isinstance(data, bytes) else bytes(memoryview(data))
