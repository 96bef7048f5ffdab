"""What a type is made of. The `str` of a node is the text of the type, as the library prints it."""
from __future__ import annotations

from collections.abc import Iterable
from dataclasses import dataclass
from typing import NamedTuple, Optional, Union


class Whole(NamedTuple):
    """A type of whole numbers: its letter in `struct`, its bytes in a tape, and its range."""

    letter: str
    width: int
    low: int
    high: int


WHOLES = {
    "u8": Whole("B", 1, 0, (1 << 8) - 1),
    "u16": Whole("H", 2, 0, (1 << 16) - 1),
    "u32": Whole("I", 4, 0, (1 << 32) - 1),
    "u64": Whole("Q", 8, 0, (1 << 64) - 1),
    "s8": Whole("b", 1, -(1 << 7), (1 << 7) - 1),
    "s16": Whole("h", 2, -(1 << 15), (1 << 15) - 1),
    "s32": Whole("i", 4, -(1 << 31), (1 << 31) - 1),
    "s64": Whole("q", 8, -(1 << 63), (1 << 63) - 1),
}


@dataclass(frozen=True)
class Simple:
    """A type without parts: `bool`, one of whole numbers, `char`, `string`, or `f32` or `f64`, which have no values."""

    word: str

    def __str__(self) -> str:
        return self.word


@dataclass(frozen=True)
class ListOf:
    item: Node

    def __str__(self) -> str:
        return f"list<{self.item}>"


@dataclass(frozen=True)
class FixedList:
    """A list of a fixed length."""

    length: int
    item: Node

    def __str__(self) -> str:
        return f"list<{self.item}, {self.length}>"


@dataclass(frozen=True)
class TupleOf:
    items: tuple[Node, ...]

    def __str__(self) -> str:
        return f"tuple<{', '.join(map(str, self.items))}>"


@dataclass(frozen=True)
class Record:
    fields: tuple[tuple[str, Node], ...]

    def __str__(self) -> str:
        return _braces("record", (f"{name}: {field}" for name, field in self.fields))


@dataclass(frozen=True)
class Variant:
    """Cases, each with its name and the type of its payload, if it has one."""

    cases: tuple[tuple[str, Optional[Node]], ...]

    def __str__(self) -> str:
        return _braces("variant", (name if payload is None else f"{name}({payload})" for name, payload in self.cases))


@dataclass(frozen=True)
class EnumOf:
    names: tuple[str, ...]

    def __str__(self) -> str:
        return _braces("enum", self.names)


@dataclass(frozen=True)
class OptionOf:
    payload: Node

    def __str__(self) -> str:
        return f"option<{self.payload}>"


@dataclass(frozen=True)
class ResultOf:
    """A result, with the types of both payloads, where there are any."""

    ok: Optional[Node]
    err: Optional[Node]

    def __str__(self) -> str:
        if self.err is not None:
            return f"result<{self.ok or '_'}, {self.err}>"
        return f"result<{self.ok}>" if self.ok else "result"


@dataclass(frozen=True)
class FlagsOf:
    names: tuple[str, ...]

    def __str__(self) -> str:
        return _braces("flags", self.names)


@dataclass(frozen=True)
class MapOf:
    key: Simple
    value: Node

    def __str__(self) -> str:
        return f"map<{self.key}, {self.value}>"


Node = Union[Simple, ListOf, FixedList, TupleOf, Record, Variant, EnumOf, OptionOf, ResultOf, FlagsOf, MapOf]


class FuncOf(NamedTuple):
    """A function's type: the names and types of its parameters and of its results; a single result has an empty name."""

    parameters: tuple[tuple[str, Node], ...]
    results: tuple[tuple[str, Node], ...]


def _braces(word: str, parts: Iterable[str]) -> str:
    return f"{word} {{ {', '.join(parts)} }}"
