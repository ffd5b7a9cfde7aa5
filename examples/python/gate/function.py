"""A function that is looked up once, and called often."""
from __future__ import annotations

import operator
from collections.abc import Callable, Sequence
from ctypes import byref, c_char_p, c_size_t, c_uint64

from gate._library import OK, CCall, CModule, CValue, expect
from gate.ends import End, end_of
from gate.exports import KINDS_OF, FunctionType, ValueType, find
from gate.settings import Settings
from gate.values import I32, I64, Value, is_whole, name_bytes

NO_TYPE = FunctionType((), ())


class BadArguments(TypeError):
    """Arguments are not of the function's type: too few, too many, or one that is no number of its type. Nothing ran."""


class Function:
    """What stays from call to call of one name, and room for one call. Who calls it holds the lock of the `Module` or the `Instance`."""

    def __init__(self, module: CModule, name: str | bytes, number: int | None = None) -> None:
        """It is called by its number, where there is one, and else by its name."""
        data = name_bytes(name)
        found = find(module, data)
        # Where it names no function, the library says so, whatever the arguments.
        self.is_function = found is not None and found.type is not None
        self._name, self._type = found.name if found else '', found.type if found and found.type else NO_TYPE
        args, results = ((CValue * len(types))() for types in (self._type.params, self._type.results))
        # PERF: an array makes an object for each look at one of its own.
        self._results, self._ended = list(results), CCall()
        which = (c_char_p(data), c_size_t(len(data))) if number is None else (c_uint64(number),)
        self._given = (*which, byref(args), c_size_t(len(args)))
        self._written = (byref(results), c_size_t(len(results)), byref(self._ended))
        # PERF: all that C is given beside the handle, which stays while the settings do.
        self._settings: Settings | None = None
        self._all: tuple[object, ...] = ()
        self._params = [self._param(arg, *param) for arg, param in zip(args, enumerate(self._type.params))]

    @staticmethod
    def _param(arg: CValue, place: int, of_type: ValueType) -> tuple[CValue, int, int, ValueType]:
        """Where C finds an argument, what its bits are below, its place and its type."""
        arg.width = KINDS_OF[of_type].width if of_type in KINDS_OF else 0
        return arg, 1 << arg.width if arg.width else 0, place, of_type

    def call(self, gate_call: Callable[..., int], handle: object, values: Sequence[Value | int], settings: Settings) -> End:
        """Calls it by that function of the library."""
        if self.is_function:
            self._take(values)
        if settings is not self._settings:
            self._settings, self._all = settings, (*self._given, byref(settings.in_c), *self._written)
        status = gate_call(handle, *self._all)
        if status:
            expect(status, OK)
        return end_of(self._ended, self._results)

    def _take(self, values: Sequence[Value | int]) -> None:
        """Writes the arguments where C finds them; raises where they are not of the type."""
        wanted = len(self._params)
        if len(values) != wanted:
            raise BadArguments(f'{self._name} is {self._type}: it takes {wanted} number{"s" * (wanted != 1)}, and not {len(values)}')
        for (arg, most, place, of_type), given in zip(self._params, values):
            # PERF: most arguments are plain numbers that are their own bits.
            plain = type(given) is int and 0 <= given < most
            arg.bits = given if plain else self._argument(place, of_type, given).bits

    def _argument(self, place: int, of_type: ValueType, given: object) -> Value:
        """The argument of that type."""
        kind, named = KINDS_OF.get(of_type), f'number {place} of {self._name}'
        if isinstance(given, (I32, I64)) and type(given) is kind:
            return given
        if kind is None or isinstance(given, (I32, I64)) or not is_whole(given):
            raise BadArguments(f'{named} is an {of_type}, and not {given!r}')
        try:
            return kind(operator.index(given))
        except ValueError as fault:
            raise ValueError(f'{named}: {fault}') from None


class Functions:
    """What was called of a module, by its names."""

    def __init__(self) -> None:
        self._found: dict[str | bytes, Function] = {}

    def of(self, module: CModule, name: str | bytes) -> Function:
        """The function of that name. Names of none are not kept: a caller may try any."""
        found = self._found.get(name)
        if found is None:
            found = Function(module, name)
            if found.is_function:
                self._found[name] = found
        return found
