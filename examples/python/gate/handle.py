"""What a `Module` and an `Instance` have in common: a handle that one thread uses at a time, and that is freed once."""
from __future__ import annotations

import threading
import weakref
from collections.abc import Callable
from types import TracebackType
from typing import Any, ClassVar, Generic, NoReturn, TypeVar

CHandle = TypeVar('CHandle')
Self = TypeVar('Self', bound='Handle[Any]')


class Closed(ValueError):
    """A closed `Module` or `Instance` is used."""


def _free(free: Callable[[Any], None], handle: Any, _held: object) -> None:
    # `_held` is what has to stay until here.
    free(handle)


class Handle(Generic[CHandle]):
    """A handle of the library. `close`, or leaving a `with`, frees it; later uses raise `Closed`. A forgotten one is freed with its
    object."""

    NAME: ClassVar[str]
    """What it is of, in messages."""
    INSTEAD: ClassVar[str]
    """What a caller does who wants to copy it."""

    def _own(self, handle: CHandle, free: Callable[[CHandle], None], held: object) -> None:
        self._lock = threading.Lock()
        self._handle, self._held = handle, held
        self._freed = weakref.finalize(self, _free, free, handle, held)
        # A thread that outlives the main one may still be in a call.
        self._freed.atexit = False
        self._closed = False

    def _open(self) -> CHandle:
        """The handle, for who holds the lock."""
        if self._closed:
            raise Closed(f'the {self.NAME} is closed')
        return self._handle

    def close(self) -> None:
        """Frees it, once a call that still runs is over. Closing again does nothing."""
        # Said before the lock is had: threads that call in a loop may keep a waiting one from it for ever.
        self._closed = True
        with self._lock:
            self._freed()

    def __enter__(self: Self) -> Self:
        return self

    def __exit__(self, kind: type[BaseException] | None, fault: BaseException | None, trace: TracebackType | None) -> None:
        self.close()

    def __reduce__(self) -> NoReturn:
        raise TypeError(f'{type(self).__name__}: neither copied nor pickled: {self.INSTEAD}')
