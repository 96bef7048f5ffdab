"""From the tapes of types and of functions' types to nodes; docs/FORMATS.md of the repository has their layout."""
from __future__ import annotations

from collections.abc import Callable
from typing import Any, Optional

from ._decode import COUNT, text_at
from ._nodes import EnumOf, FixedList, FlagsOf, FuncOf, ListOf, MapOf, Node, OptionOf, Record, ResultOf, Simple, TupleOf, Variant


def type_at(tape: bytes, place: int) -> tuple[Node, int]:
    """The type at the place, and the place behind it."""
    reader = _Reader(tape, place)
    return reader.type(), reader.place


def func_at(tape: bytes, place: int) -> tuple[FuncOf, int]:
    """The function's type at the place, and the place behind it."""
    reader = _Reader(tape, place)
    return FuncOf(reader.parts(reader.field), reader.parts(reader.field)), reader.place


class _Reader:
    """A tape, and how much of it was read."""

    def __init__(self, tape: bytes, place: int) -> None:
        self.tape = tape
        self.place = place

    def byte(self) -> int:
        self.place += 1
        return self.tape[self.place - 1]

    def count(self) -> int:
        self.place += COUNT.size
        return COUNT.unpack_from(self.tape, self.place - COUNT.size)[0]

    def name(self) -> str:
        name, self.place = text_at(self.tape, self.place)
        return name

    def type(self) -> Any:
        return _KINDS[self.byte()](self)

    def payload(self) -> Optional[Node]:
        """A type, where there is one."""
        return self.type() if self.byte() else None

    def field(self) -> tuple[str, Node]:
        return self.name(), self.type()

    def case(self) -> tuple[str, Optional[Node]]:
        return self.name(), self.payload()

    def parts(self, part: Callable[[], Any]) -> tuple[Any, ...]:
        """As many parts as the count before them says."""
        return tuple(part() for _ in range(self.count()))


_SIMPLE = {
    **dict(enumerate(("bool", "u8", "u16", "u32", "u64", "s8", "s16", "s32", "s64", "char", "string"), 1)),
    22: "f32",
    23: "f64",
}

# how the type is read behind the number of its kind
_KINDS: dict[int, Callable[[_Reader], Node]] = {
    **{number: lambda reader, node=Simple(word): node for number, word in _SIMPLE.items()},
    12: lambda reader: ListOf(reader.type()),
    13: lambda reader: TupleOf(reader.parts(reader.type)),
    14: lambda reader: Record(reader.parts(reader.field)),
    15: lambda reader: Variant(reader.parts(reader.case)),
    16: lambda reader: EnumOf(reader.parts(reader.name)),
    17: lambda reader: OptionOf(reader.type()),
    18: lambda reader: ResultOf(reader.payload(), reader.payload()),
    19: lambda reader: FlagsOf(reader.parts(reader.name)),
    20: lambda reader: MapOf(reader.type(), reader.type()),
    21: lambda reader: FixedList(reader.count(), reader.type()),
}
