"""An instance that goes on from call to call."""
from __future__ import annotations

import ctypes
from collections.abc import Sequence
from typing import TYPE_CHECKING

from gate._library import (
    NO_GLOBAL, NO_INSTANCE, NOTHING, OK, OUTSIDE, Bytes, CCall, CInstance, CValue, expect, library, whole, whole_number,
)
from gate.ends import End, EndKind, end_of
from gate.function import Function, Functions
from gate.handle import Handle
from gate.settings import Settings
from gate.values import Value, name_bytes, value_of_bits

if TYPE_CHECKING:
    from gate.module import Module

# What has more bytes is read into room of its own.
ROOM = 4096
# The greatest place and the greatest length that the library takes.
MOST_PLACE, MOST_LENGTH = 2 ** 64 - 1, 2 ** 63 - 1


class NoInstance(RuntimeError):
    """There is no instance; `end` says why: it was not started, memory was refused, or how the start function ended. Of one that was not
    started `place` says more, as `gate exports` does: `function 0 "half" token 0 f32.const 0x00000000, byte 0x1d`."""

    def __init__(self, end: End, place: str = '') -> None:
        super().__init__(f'no instance: {end}: {place}' if place else f'no instance: {end}')
        self.end, self.place = end, place


class OutsideMemory(IndexError):
    """Bytes from `at` on, `length` of them, do not lie in a memory of `size` bytes."""

    def __init__(self, at: int, length: int, size: int) -> None:
        super().__init__(f'{length} bytes at {at} do not lie in a memory of {size} bytes')
        self.at, self.length, self.size = at, length, size


class NoGlobal(LookupError):
    """No global is exported as `name`."""

    def __init__(self, name: str | bytes) -> None:
        super().__init__(f'no global is exported as {name!r}')
        self.name = name


class NoFunction(LookupError):
    """No function is exported as `name`."""

    def __init__(self, name: str | bytes) -> None:
        super().__init__(f'no function is exported as {name!r}')
        self.name = name


class InstanceFunction:
    """A function that an instance exports, from `Instance.function`: `f(40, 2)` is `instance.call('add', 40, 2)`, and looks up nothing."""

    def __init__(self, instance: Instance, function: Function) -> None:
        self._instance, self._function = instance, function

    def __call__(self, *values: Value | int, settings: Settings | None = None) -> End:
        """As `Instance.call`."""
        instance = self._instance
        with instance._lock:
            return self._function.call(library.gate_instance_call_at, instance._live(), values, settings or instance._settings)


class Instance(Handle[CInstance]):
    """An instance of a module, from `Module.instance`: what one call leaves in memory, globals and table, the next one finds.

    It is used by one thread at a time: a lock makes the others wait. `close`, or leaving a `with`, frees it; later uses raise `Closed`.
    The module may be closed before it.
    """

    NAME = 'instance'
    INSTEAD = 'make another one by `Module.instance`'

    def __init__(self, module: Module, settings: Settings) -> None:
        """As `module.instance(settings)`."""
        # A module of its own, so that no other thread's calls keep this one waiting; it has the bytes, too.
        own = module.share()
        self._module, self._settings = own, settings
        handle, ended = CInstance(), CCall()
        made = library.gate_instance_new(own._open(), settings.in_c, handle, ended)
        try:
            self._tell_start(expect(made, OK, NO_INSTANCE), ended)
        except BaseException:
            own.close()
            raise
        self._own(handle, library.gate_instance_free, own._held)
        self._functions, self._ended = Functions(), ended
        # PERF: room for what is read, since a type of an array for each length is costly.
        self._room = ctypes.create_string_buffer(ROOM)

    def _tell_start(self, status: int, ended: CCall) -> None:
        self._started = end_of(ended)
        if status == NO_INSTANCE:
            raise NoInstance(self._started, self._place())

    def _place(self) -> str:
        """The first cause of a refused start."""
        if self._started.kind is not EndKind.NOT_STARTED:
            return ''
        return self._module.exports_text(self._settings).splitlines()[-1].partition(': ')[2]

    def _live(self) -> CInstance:
        """The handle, where the last reset made an instance, for who holds the lock."""
        handle = self._open()
        if self._started.kind is not EndKind.VALUES:
            raise NoInstance(self._started)
        return handle

    @property
    def started(self) -> End:
        """How making it, or its last reset, ended: with no values, and with what the start function cost; or why there is no instance."""
        return self._started

    def call(self, name: str | bytes, *values: Value | int, settings: Settings | None = None) -> End:
        """Calls the export of that name on this instance as it is.

        Numbers and answers are as those of `Module.call`. Without `settings`, fuel and frames are those that the instance was made
        with; its pages always are. After a trap, or where fuel or frames ran out, the instance is as the call left it, and goes on.
        After an end in `NO_MEMORY` each further call ends so, until a `reset`.
        """
        with self._lock:
            return self._call(name, values, settings)

    def _call(self, name: str | bytes, values: Sequence[Value | int], settings: Settings | None) -> End:
        handle, function = self._live(), self._functions.of(self._module._open(), name)
        return function.call(library.gate_instance_call, handle, values, settings or self._settings)

    def function(self, name: str | bytes) -> InstanceFunction:
        """The function that is exported under that name, for who calls it often. `NoFunction` where there is none."""
        data, number = name_bytes(name), ctypes.c_uint64()
        with self._lock:
            status = expect(library.gate_instance_find(self._open(), data, len(data), number), OK, NOTHING)
            function = Function(self._module._open(), name, number.value)
        if status == NOTHING or not function.is_function:
            raise NoFunction(name)
        return InstanceFunction(self, function)

    def call_or_reset(self, name: str | bytes, *values: Value | int, settings: Settings | None = None) -> End:
        """As `call`, and after each end but values a `reset`: what a trap leaves of a plug-in in C or Rust is its stack half way up."""
        with self._lock:
            end = self._call(name, values, settings)
            if end.kind is not EndKind.VALUES:
                self._reset()
        return end

    @property
    def memory_size(self) -> int:
        """How many bytes its memory has; 0 where it has none."""
        with self._lock:
            return self._size()

    def read(self, at: int, length: int) -> bytes:
        """So many bytes of its memory, from place `at` on. `OutsideMemory` where they do not lie in it."""
        whole_number('at', at, 0, MOST_PLACE)
        whole_number('length', length, 0, MOST_LENGTH)
        with self._lock:
            handle = self._live()
            if length > len(self._room) and length > self._size():
                raise OutsideMemory(at, length, self._size())
            out = self._room if length <= len(self._room) else ctypes.create_string_buffer(length)
            if expect(library.gate_instance_read(handle, at, out, length), OK, OUTSIDE) == OUTSIDE:
                raise OutsideMemory(at, length, self._size())
            return out.raw[:length]

    def write(self, at: int, data: Bytes) -> None:
        """Writes bytes to its memory, from place `at` on. `OutsideMemory` where they would not lie in it; then nothing is written."""
        whole_number('at', at, 0, MOST_PLACE)
        held = whole(data)
        with self._lock:
            if expect(library.gate_instance_write(self._live(), at, held, len(held)), OK, OUTSIDE) == OUTSIDE:
                raise OutsideMemory(at, len(held), self._size())

    def global_value(self, name: str | bytes) -> Value:
        """The value of the global that is exported under that name. `NoGlobal` where there is none."""
        data, value = name_bytes(name), CValue()
        with self._lock:
            if expect(library.gate_instance_global(self._live(), data, len(data), value), OK, NO_GLOBAL) == NO_GLOBAL:
                raise NoGlobal(name)
        return value_of_bits(value.width, value.bits)

    def reset(self) -> None:
        """Makes it anew, by the module and the settings that it was made with.

        `NoInstance` where there is none then, as for want of memory: each use raises it, until a reset makes one.
        """
        with self._lock:
            self._reset()

    def _reset(self) -> None:
        self._tell_start(expect(library.gate_instance_reset(self._open(), self._ended), OK, NO_INSTANCE), self._ended)

    def close(self) -> None:
        super().close()
        self._module.close()

    def _size(self) -> int:
        size = ctypes.c_uint64()
        expect(library.gate_instance_memory_size(self._live(), size), OK)
        return size.value
