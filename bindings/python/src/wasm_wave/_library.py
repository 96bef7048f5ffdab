"""The C library: where it is found, and how it is called. `include/wave.h` of the repository declares its functions."""
from __future__ import annotations

import ctypes.util
import os
from ctypes import CDLL, POINTER, Structure, byref, c_bool, c_char, c_char_p, c_size_t, c_uint32, c_void_p
from functools import lru_cache
from typing import Any, NamedTuple, Union

FILES = ("libwave.so.0", "libwave.so")
FOLDER_VARIABLE = "WAVE_LIB_DIR"

OK, TOO_SMALL, NO_MEMORY, NOT_UTF8, NO_TYPE, REFUSED, NO_TAPE, CLOSED = range(8)

# how many bytes an answer has at first for each that is handed in, and beside these
ROOM_EACH = 4
ROOM_BESIDE = 512


class Report(Structure):
    """What a call tells beside its status."""

    _fields_ = [("length", c_size_t), ("start", c_size_t), ("end", c_size_t), ("kind", c_uint32)]


class Parts(Structure):
    """What C keeps of a type or a function that is open. It begins closed, as zeros, and is never copied."""

    _fields_ = [("at", c_void_p), ("full", c_bool)]


class Refusal(NamedTuple):
    """What a call tells that has no answer. (It is no exception, since the frames of one would keep a handle for other threads.)"""

    status: int
    kind: int
    start: int
    end: int


_HANDLE = [POINTER(Parts)]
_BYTES = [c_char_p, c_size_t]
_LEVELS = [c_uint32]
_REPORT = [POINTER(Report)]
_OUT = [c_void_p, c_size_t] + _REPORT

# the functions that are used, and what each takes; each returns a status, but for the last three
_FUNCTIONS: dict[str, list[Any]] = {
    "wave_untyped": _BYTES + _LEVELS + _OUT,
    "wave_untyped_explain": _BYTES + _LEVELS + _OUT,
    "wave_type_open": _BYTES + _LEVELS + _HANDLE + _REPORT,
    "wave_type_text": _HANDLE + _OUT,
    "wave_type_tape": _HANDLE + _OUT,
    "wave_read": _HANDLE + _BYTES + _LEVELS + _OUT,
    "wave_write": _HANDLE + _BYTES + _OUT,
    "wave_explain": _HANDLE + _BYTES + _LEVELS + _OUT,
    "wave_explain_at": _BYTES + _BYTES + _LEVELS + _OUT,
    "wave_func_open": _BYTES + _LEVELS + _HANDLE + _REPORT,
    "wave_func_text": _HANDLE + _OUT,
    "wave_func_tape": _HANDLE + _OUT,
    "wave_func_explain_at": _BYTES + _LEVELS + _OUT,
    "wave_call": _HANDLE + _BYTES + _LEVELS + _OUT,
    "wave_call_explain": _HANDLE + _BYTES + _LEVELS + _OUT,
    "wave_version": [],
    "wave_type_close": _HANDLE,
    "wave_func_close": _HANDLE,
}
_WITHOUT_STATUS = ("wave_type_close", "wave_func_close")


@lru_cache(maxsize=None)
def library() -> Any:
    """The library, which the first call finds and opens. While one of its functions runs, other threads do too."""
    path = _find()
    try:
        opened = CDLL(path)
    except OSError as error:
        raise ImportError(f"{path} can't be opened: {error}") from error
    for name, takes in _FUNCTIONS.items():
        function = getattr(opened, name, None)
        if function is None:
            raise ImportError(f"{path} has no {name}: it is another library, or another version than this package needs")
        function.argtypes = takes
        function.restype = None if name in _WITHOUT_STATUS else c_uint32
    return opened


def _find() -> str:
    """The path of the library, or the name that the system's loader knows it by."""
    named = os.environ.get(FOLDER_VARIABLE)
    folder = named or os.path.dirname(os.path.abspath(__file__))
    for name in FILES:
        path = os.path.join(folder, name)
        if os.path.exists(path):
            return path
    if named:
        raise ImportError(f"no {FILES[0]} is in {named}, which {FOLDER_VARIABLE} names")
    found = ctypes.util.find_library("wave")
    if found is None:
        raise ImportError(f"{FILES[0]} is neither in {folder} nor among the system's libraries: let {FOLDER_VARIABLE} name its folder")
    return found


def ask(name: str, *arguments: Any, length: int) -> Union[bytes, Refusal]:
    """What the function answers to what has this length. Where that is more than there was room for it is called once more."""
    function = getattr(library(), name)
    report, out = Report(), _buffer(ROOM_EACH * length + ROOM_BESIDE)
    status = function(*arguments, out, len(out), byref(report))
    if status == TOO_SMALL:
        out = _buffer(report.length)
        status = function(*arguments, out, len(out), byref(report))
    return out[: report.length] if status == OK else refusal_of(status, report)


def told(name: str, *arguments: Any, length: int) -> bytes:
    """So of a function that refuses nothing of what it is handed."""
    said = ask(name, *arguments, length=length)
    if isinstance(said, Refusal):
        raise RuntimeError(f"libwave is of another version than this package: {name} tells {said}")
    return said


def refusal_of(status: int, report: Report) -> Refusal:
    """The refusal that a call tells. MemoryError where it had no memory."""
    if status == NO_MEMORY:
        raise MemoryError("libwave: out of memory")
    return Refusal(status, report.kind, report.start, report.end)


def _buffer(room: int) -> Any:
    """Zeros, at least so many bytes. Each call has its own, since a signal's handler may call before this one's answer is copied."""
    return _buffer_kind(1 << (room - 1).bit_length())()


@lru_cache(maxsize=None)
def _buffer_kind(size: int) -> Any:
    """The class of buffers of this size, a power of two, which takes far longer to make than such a buffer."""
    return c_char * size
