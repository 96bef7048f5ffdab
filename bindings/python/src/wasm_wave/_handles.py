"""Types and functions that are open in the library. Each thread opens its own, since a handle may be used on its thread alone."""
from __future__ import annotations

import threading
import weakref
from ctypes import byref
from functools import lru_cache
from typing import Any, NamedTuple

from ._library import OK, Parts, Refusal, Report, library, refusal_of

MOST_OPEN = 256


class Calls(NamedTuple):
    """The library's functions for types, or for functions, by their names."""

    open: str
    close: str
    text: str
    tape: str
    read: str
    explain: str


TYPE = Calls("wave_type_open", "wave_type_close", "wave_type_text", "wave_type_tape", "wave_read", "wave_explain")
FUNC = Calls("wave_func_open", "wave_func_close", "wave_func_text", "wave_func_tape", "wave_call", "wave_call_explain")


class NotOpened(Exception):
    """The text spells nothing that can be opened."""

    def __init__(self, said: Refusal) -> None:
        super().__init__(said)
        self.said = said


class Handle:
    """What a text spells, open on this thread. It is closed when nothing refers to it any more."""

    def __init__(self, calls: Calls, text: bytes) -> None:
        parts, report = Parts(), Report()
        status = getattr(library(), calls.open)(text, len(text), 0, byref(parts), byref(report))
        if status != OK:
            raise NotOpened(refusal_of(status, report))
        self._parts = parts
        closing = weakref.finalize(self, _close, getattr(library(), calls.close), parts, threading.get_ident())
        closing.atexit = False

    @property
    def reference(self) -> Any:
        """What the functions of the library take. Who hands it over refers to the handle itself meanwhile."""
        return byref(self._parts)


def _close(close: Any, parts: Parts, thread: int) -> None:
    """Closes a handle; but not from another thread, as where an error that refers to it was handed on: then it stays open."""
    if threading.get_ident() == thread:
        close(byref(parts))


class _OfThread(threading.local):
    """The handles of a thread that were used last, by the text."""

    def __init__(self) -> None:
        self.handle = lru_cache(maxsize=MOST_OPEN)(Handle)


_of_thread = _OfThread()


def handle_of(calls: Calls, text: bytes) -> Handle:
    """The handle of this thread for the text; it is opened where there is none. NotOpened where that can't be."""
    return _of_thread.handle(calls, text)
