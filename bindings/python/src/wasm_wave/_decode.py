"""From tapes to objects. A decoder is handed a tape and a place in it; it gives the object, and the place behind it.

A tape is the bytes of a value at a type that both sides know; docs/FORMATS.md of the repository has its layout. Here it comes from
the library, so it needs no test but those that show a library of another version."""
from __future__ import annotations

from collections.abc import Callable
from struct import Struct, error as StructError, unpack_from
from typing import Any

from ._nodes import WHOLES, EnumOf, FixedList, FlagsOf, ListOf, MapOf, Node, OptionOf, Record, ResultOf, Simple, TupleOf, Variant
from ._objects import Case, Err, Flags, Ok, Some

Decode = Callable[[bytes, int], tuple[Any, int]]

VERSION = b"\1"
COUNT = Struct("<Q")
_count_at = COUNT.unpack_from
_scalar_at = Struct("<I").unpack_from


class NoTape(RuntimeError):
    """The bytes are no tape that this package knows."""

    def __init__(self, why: str) -> None:
        super().__init__(f"libwave is of another version than this package: it made {why}")


def read_tape(decode: Decode, tape: bytes) -> Any:
    """The object of a whole tape: of what stands behind the version, to the end."""
    if not tape.startswith(VERSION):
        raise NoTape(f"a tape of a version other than {VERSION[0]}")
    try:
        found, end = decode(tape, 1)
    except (StructError, LookupError, ValueError, OverflowError) as error:
        raise NoTape(f"a tape that can't be read: {error!r}") from error
    if end != len(tape):
        raise NoTape(f"a tape of {len(tape)} bytes, of which {end} were expected")
    return found


def decoder_of(node: Node, bytes_for_u8: bool) -> Decode:
    """The decoder of the type; lists of u8 are bytes where that is asked."""
    return _DECODERS[type(node)](node, bytes_for_u8)


def call_decoder_of(decoders: list[Decode]) -> Decode:
    """The decoder of a call, which gives its name and its parameters, each by its decoder."""

    def decode(tape: bytes, place: int) -> tuple[tuple[str, list[Any]], int]:
        name, place = text_at(tape, place)
        values = []
        for decode_value in decoders:
            value, place = decode_value(tape, place)
            values.append(value)
        return (name, values), place

    return decode


# ---- values of one token


def text_at(tape: bytes, place: int) -> tuple[str, int]:
    """A text, or a name: the count of its bytes, and these."""
    start = place + 8
    end = start + _count_at(tape, place)[0]
    return str(tape[start:end], "utf-8"), end


def _bool_at(tape: bytes, place: int) -> tuple[bool, int]:
    return tape[place] != 0, place + 1


def _char_at(tape: bytes, place: int) -> tuple[str, int]:
    return chr(_scalar_at(tape, place)[0]), place + 4


def _float_at(tape: bytes, place: int) -> tuple[Any, int]:
    raise ValueError("a float, which has no values")


def _simple(node: Simple, bytes_for_u8: bool) -> Decode:
    if node.word in WHOLES:
        return _whole(node.word)
    return {"bool": _bool_at, "char": _char_at, "string": text_at, "f32": _float_at, "f64": _float_at}[node.word]


def _whole(word: str) -> Decode:
    kind = WHOLES[word]
    number_at, width = Struct("<" + kind.letter).unpack_from, kind.width

    def decode(tape: bytes, place: int) -> tuple[int, int]:
        return number_at(tape, place)[0], place + width

    return decode


# ---- lists


def _items(node: Node, bytes_for_u8: bool) -> Callable[[bytes, int, int], tuple[Any, int]]:
    """What reads this many items, one behind the other."""
    if bytes_for_u8 and node == Simple("u8"):
        return lambda tape, place, count: (_slice(tape, place, count), place + count)
    if isinstance(node, Simple) and node.word in WHOLES:
        return _numbers(node.word)
    decode_item = decoder_of(node, bytes_for_u8)

    def decode(tape: bytes, place: int, count: int) -> tuple[list[Any], int]:
        items = []
        for _ in range(count):
            item, place = decode_item(tape, place)
            items.append(item)
        return items, place

    return decode


def _slice(tape: bytes, place: int, count: int) -> bytes:
    """This many bytes."""
    if len(tape) - place < count:
        raise IndexError("fewer bytes than the count says")
    return tape[place : place + count]


def _numbers(word: str) -> Callable[[bytes, int, int], tuple[list[int], int]]:
    """What reads this many numbers at one go."""
    kind = WHOLES[word]
    letter, width = kind.letter, kind.width

    def decode(tape: bytes, place: int, count: int) -> tuple[list[int], int]:
        return list(unpack_from(f"<{count}{letter}", tape, place)), place + count * width

    return decode


def _list(node: ListOf, bytes_for_u8: bool) -> Decode:
    decode_items = _items(node.item, bytes_for_u8)

    def decode(tape: bytes, place: int) -> tuple[Any, int]:
        return decode_items(tape, place + 8, _count_at(tape, place)[0])

    return decode


def _fixed_list(node: FixedList, bytes_for_u8: bool) -> Decode:
    decode_items, length = _items(node.item, bytes_for_u8), node.length
    if length == 0:
        empty: Callable[[], Any] = bytes if bytes_for_u8 and node.item == Simple("u8") else list
        return lambda tape, place: (empty(), _zero_at(tape, place))
    return lambda tape, place: decode_items(tape, place, length)


def _zero_at(tape: bytes, place: int) -> int:
    """The place behind the byte 0, which stands for no parts."""
    if tape[place] != 0:
        raise ValueError("a byte other than 0 where there are no parts")
    return place + 1


# ---- other values with parts


def _tuple(node: TupleOf, bytes_for_u8: bool) -> Decode:
    decoders = [decoder_of(item, bytes_for_u8) for item in node.items]
    if not decoders:
        return lambda tape, place: ((), _zero_at(tape, place))

    def decode(tape: bytes, place: int) -> tuple[tuple[Any, ...], int]:
        items = []
        for decode_item in decoders:
            item, place = decode_item(tape, place)
            items.append(item)
        return tuple(items), place

    return decode


def _record(node: Record, bytes_for_u8: bool) -> Decode:
    decoders = [(name, decoder_of(field, bytes_for_u8)) for name, field in node.fields]
    if not decoders:
        return lambda tape, place: ({}, _zero_at(tape, place))

    def decode(tape: bytes, place: int) -> tuple[dict[str, Any], int]:
        fields = {}
        for name, decode_field in decoders:
            fields[name], place = decode_field(tape, place)
        return fields, place

    return decode


def _variant(node: Variant, bytes_for_u8: bool) -> Decode:
    # by its name each case has the name too, so that all values share one str
    cases = {name: (name, None if payload is None else decoder_of(payload, bytes_for_u8)) for name, payload in node.cases}

    def decode(tape: bytes, place: int) -> tuple[Case, int]:
        name, place = text_at(tape, place)
        name, decode_payload = cases[name]
        if decode_payload is None:
            return Case(name), place
        payload, place = decode_payload(tape, place)
        return Case(name, payload), place

    return decode


def _enum(node: EnumOf, bytes_for_u8: bool) -> Decode:
    known = {name: name for name in node.names}

    def decode(tape: bytes, place: int) -> tuple[str, int]:
        name, place = text_at(tape, place)
        return known[name], place

    return decode


def _option(node: OptionOf, bytes_for_u8: bool) -> Decode:
    decode_payload, is_nested = decoder_of(node.payload, bytes_for_u8), isinstance(node.payload, OptionOf)

    def decode(tape: bytes, place: int) -> tuple[Any, int]:
        if tape[place] == 0:
            return None, place + 1
        payload, place = decode_payload(tape, place + 1)
        return Some(payload) if is_nested else payload, place

    return decode


def _result(node: ResultOf, bytes_for_u8: bool) -> Decode:
    kinds = [(Ok, node.ok), (Err, node.err)]
    decoders = [(made, None if payload is None else decoder_of(payload, bytes_for_u8)) for made, payload in kinds]

    def decode(tape: bytes, place: int) -> tuple[Any, int]:
        made, decode_payload = decoders[tape[place]]
        place += 1
        if decode_payload is None:
            return made(), place
        payload, place = decode_payload(tape, place)
        return made(payload), place

    return decode


def _flags(node: FlagsOf, bytes_for_u8: bool) -> Decode:
    known = {name: name for name in node.names}

    def decode(tape: bytes, place: int) -> tuple[Flags, int]:
        names = []
        count = _count_at(tape, place)[0]
        place += 8
        for _ in range(count):
            name, place = text_at(tape, place)
            names.append(known[name])
        return Flags(names), place

    return decode


def _map(node: MapOf, bytes_for_u8: bool) -> Decode:
    decode_key, decode_value = decoder_of(node.key, bytes_for_u8), decoder_of(node.value, bytes_for_u8)

    def decode(tape: bytes, place: int) -> tuple[dict[Any, Any], int]:
        entries = {}
        count = _count_at(tape, place)[0]
        place += 8
        for _ in range(count):
            key, place = decode_key(tape, place)
            entries[key], place = decode_value(tape, place)
        return entries, place

    return decode


_DECODERS: dict[type, Callable[[Any, bool], Decode]] = {
    Simple: _simple,
    ListOf: _list,
    FixedList: _fixed_list,
    Record: _record,
    TupleOf: _tuple,
    Variant: _variant,
    EnumOf: _enum,
    OptionOf: _option,
    ResultOf: _result,
    FlagsOf: _flags,
    MapOf: _map,
}
