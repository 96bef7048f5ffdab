"""What is raised of a text that is refused, and of an object that is none of a type's."""
from __future__ import annotations

import re
from enum import Enum
from typing import Any, Union

from ._library import Refusal


class Kind(Enum):
    """Why a text is refused. No number is ever given to another kind; one that this package doesn't know stays a plain int."""

    NOT_UTF8 = 0
    EMPTY_TUPLE = 1
    MULTIPLE_CHARS = 2
    INVALID_ESCAPE = 3
    INVALID_MULTILINE_STRING = 4
    INVALID_PARAMS = 5
    INVALID_TOKEN = 6
    INVALID_TYPE = 7
    INVALID_VALUE = 8
    TRAILING_CHARACTERS = 9
    UNEXPECTED_END = 10
    UNEXPECTED_TOKEN = 11
    DUPLICATE_FIELD = 12
    DUPLICATE_FLAG = 13
    WASM_VALUE_ERROR = 14
    NESTING_TOO_DEEP = 15


class TypeKind(Enum):
    """Why the text of a type is refused. Of the numbers the same holds."""

    NOT_UTF8 = 100
    UNEXPECTED_TOKEN = 101
    UNEXPECTED_END = 102
    INVALID_TOKEN = 103
    DUPLICATE_NAME = 104
    INVALID_KEY_TYPE = 105
    INVALID_COUNT = 106
    NESTING_TOO_DEEP = 107


AnyKind = Union[Kind, TypeKind, int]


class WaveError(ValueError):
    """A text is refused.

    kind         why, a Kind
    message      why, in words, as `invalid value`; `str` adds the place, in bytes of UTF-8
    start, end   where: places in the str, of characters
    path         the part of the value that is wrong, as `.servers[1].port`, of a call as `parameter size`; empty for the whole, of an
                 error of syntax, and where parameters are too many or too few
    explanation  all of this as lines for people to read, never empty; tracebacks show them all from Python 3.11 on"""

    _kinds: type[Union[Kind, TypeKind]] = Kind

    def __init__(self, kind: AnyKind, start: int, end: int, path: str, explanation: str) -> None:
        first, _, place = explanation.partition("\n --> ")
        super().__init__(first)
        self.kind = kind
        self.message = re.sub(r" at \d+\.\.\d+$", "", first)
        self.start = start
        self.end = end
        self.path = path
        self.explanation = explanation
        self.__notes__ = [f" --> {place.rstrip()}"]

    def __reduce__(self) -> tuple[Any, ...]:
        return type(self), (self.kind, self.start, self.end, self.path, self.explanation)


class TypeTextError(WaveError):
    """The text of a type, or of a function, is refused; the kind is a TypeKind."""

    _kinds = TypeKind


class ValueTypeError(TypeError):
    """An object is none of the type's. The path leads to the part that is wrong, the reason says why."""

    def __init__(self, path: str, reason: str) -> None:
        super().__init__(f"{path}: {reason}" if path else reason)
        self.path = path
        self.reason = reason

    def __reduce__(self) -> tuple[Any, ...]:
        return type(self), (self.path, self.reason)


def refusal(made: type[WaveError], text: str, said: Refusal, explanation: bytes) -> WaveError:
    """The error of a text that the library refuses."""
    lines = explanation.decode()
    place = lines.partition("\n --> ")[2].partition("\n")[0]
    kind: AnyKind = said.kind
    if kind in {it.value for it in made._kinds}:
        kind = made._kinds(kind)
    return made(kind, _characters(text, said.start), _characters(text, said.end), place.partition(", at ")[2], lines)


def encoded(made: type[WaveError], text: str) -> bytes:
    """The text as UTF-8, which a text with a surrogate has none of."""
    if not isinstance(text, str):
        raise TypeError(f"expected a text, a str, got {type(text).__name__}")
    try:
        return text.encode()
    except UnicodeEncodeError as error:
        at = error.start
        message = f"a surrogate in the text, {ascii(text[at])}\n --> character {at}\n"
        raise made(made._kinds.NOT_UTF8, at, at + 1, "", message) from None


def _characters(text: str, place: int) -> int:
    """How many characters begin before this byte. (A span of one byte may end within a character, which is counted.)"""
    if text.isascii():
        return place
    return len(text.encode()[:place].decode("utf-8", "replace"))
