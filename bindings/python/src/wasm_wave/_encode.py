"""From objects to tapes. An encoder is handed an object, and appends its bytes to a tape.

An object that is none of the type's is told by `WrongObject`; each encoder that it passes puts its own step before the path."""
from __future__ import annotations

import json
from collections.abc import Callable, Mapping, Set
from operator import index
from struct import Struct, error as StructError, pack
from typing import Any

from ._decode import COUNT, VERSION
from ._nodes import WHOLES, EnumOf, FixedList, FlagsOf, ListOf, MapOf, Node, OptionOf, Record, ResultOf, Simple, TupleOf, Variant
from ._objects import Case, Err, Ok, Some

Encode = Callable[[Any, bytearray], None]

MOST_SHOWN = 60
MOST_SHOWN_OF_A_KEY = 24
MOST_NAMES_SHOWN = 10


class WrongObject(Exception):
    """An object is of another type, for this reason; the steps lead to it, the last first."""

    def __init__(self, reason: str) -> None:
        super().__init__(reason)
        self.reason = reason
        self.steps: list[str] = []

    def under(self, step: str) -> WrongObject:
        """The same, seen from the object around it."""
        self.steps.append(step)
        return self

    @property
    def path(self) -> str:
        return "".join(reversed(self.steps))


def write_tape(encode: Encode, value: Any) -> bytes:
    """The whole tape of an object."""
    tape = bytearray(VERSION)
    encode(value, tape)
    return bytes(tape)


def encoder_of(node: Node) -> Encode:
    """The encoder of the type."""
    return _ENCODERS[type(node)](node)


# ---- what is told of a wrong object


def _shortened(text: str, most: int) -> str:
    return text if len(text) <= most else text[:most] + "…"


def _got(value: Any) -> str:
    return "None" if value is None else type(value).__name__


def _wrong(node: Node, value: Any) -> WrongObject:
    """The object is of another Python type."""
    return WrongObject(f"expected {_shortened(str(node), MOST_SHOWN)}, got {_got(value)}")


def _unknown(what: str, name: Any, names: tuple[str, ...]) -> WrongObject:
    """The type has no such name; these it has."""
    known = ", ".join(names[:MOST_NAMES_SHOWN]) + (", …" if len(names) > MOST_NAMES_SHOWN else "")
    shown = _shortened(_quoted(name), MOST_SHOWN) if isinstance(name, str) else f"of type {_got(name)}"
    return WrongObject(f"unknown {what} {shown}; expected one of {known}")


def _quoted(name: str) -> str:
    """The name between quotes, so that it can be printed, with escapes for surrogates too."""
    return json.dumps(name, ensure_ascii=False).encode("utf-8", "backslashreplace").decode()


def _key_step(node: Simple, key: Any) -> str:
    """The step to the value of this key, which is of the type."""
    if node.word == "char":
        return f"['{key}']"
    if node.word == "string":
        return f"[{_shortened(json.dumps(key, ensure_ascii=False), MOST_SHOWN_OF_A_KEY)}]"
    return f"[{json.dumps(key)}]" if node.word == "bool" else f"[{index(key)}]"


# ---- values of one token


def _simple(node: Simple) -> Encode:
    if node.word in WHOLES:
        return _whole(node)
    return {"bool": _put_bool, "char": _put_char, "string": _put_string, "f32": _put_float, "f64": _put_float}[node.word]


def _whole(node: Simple) -> Encode:
    kind = WHOLES[node.word]
    packed = Struct("<" + kind.letter).pack

    def encode(value: Any, tape: bytearray) -> None:
        if isinstance(value, bool):
            raise _wrong(node, value)
        try:
            number = index(value)
        except TypeError:
            raise _wrong(node, value) from None
        if not kind.low <= number <= kind.high:
            shown = str(number) if number.bit_length() <= 128 else f"one of {number.bit_length()} bits"
            raise WrongObject(f"expected {node}, a whole number from {kind.low} to {kind.high}, got {shown}")
        tape += packed(number)

    return encode


def _put_bool(value: Any, tape: bytearray) -> None:
    if not isinstance(value, bool):
        raise _wrong(Simple("bool"), value)
    tape.append(value)


def _put_char(value: Any, tape: bytearray) -> None:
    if not isinstance(value, str):
        raise _wrong(Simple("char"), value)
    if len(value) != 1:
        raise WrongObject(f"expected char, got a str of {len(value)} characters")
    if "\ud800" <= value <= "\udfff":
        raise WrongObject(f"expected char, got the surrogate {ascii(value)}")
    tape += pack("<I", ord(value))


def _put_string(value: Any, tape: bytearray) -> None:
    if not isinstance(value, str):
        raise _wrong(Simple("string"), value)
    try:
        text = value.encode("utf-8")
    except UnicodeEncodeError as error:
        raise WrongObject(f"expected string, got a str with the surrogate {ascii(value[error.start])} at {error.start}") from None
    _put_text(text, tape)


def _put_text(text: bytes, tape: bytearray) -> None:
    """A text, or a name: the count of its bytes, and these."""
    tape += COUNT.pack(len(text))
    tape += text


def _put_float(value: Any, tape: bytearray) -> None:
    raise WrongObject("f32 and f64 have no values here")


# ---- lists


def _items(node: Node) -> Encode:
    """What puts all items of a list, one behind the other."""
    if isinstance(node, Simple) and node.word in WHOLES:
        return _numbers(node)
    encode_item = encoder_of(node)

    def encode(items: Any, tape: bytearray) -> None:
        place = 0
        try:
            for item in items:
                encode_item(item, tape)
                place += 1
        except WrongObject as wrong:
            raise wrong.under(f"[{place}]")

    return encode


def _numbers(node: Simple) -> Encode:
    """What puts all numbers at one go; one by one only where one of them is wrong, to tell which."""
    letter, encode_number = WHOLES[node.word].letter, _whole(node)

    def encode(items: Any, tape: bytearray) -> None:
        # a bool is no number here, though `struct` takes it for one
        if bool not in set(map(type, items)):
            try:
                tape += pack(f"<{len(items)}{letter}", *items)
                return
            except (StructError, TypeError, OverflowError):
                pass
        for place, item in enumerate(items):
            try:
                encode_number(item, tape)
            except WrongObject as wrong:
                raise wrong.under(f"[{place}]")

    return encode


def _is_list(node: Node, value: Any) -> bool:
    """Whether the object may stand for a list of such items."""
    return isinstance(value, (list, tuple)) or node == Simple("u8") and isinstance(value, (bytes, bytearray))


def _put_all(items: Any, encode_items: Encode, tape: bytearray) -> None:
    """The items, which bytes are already."""
    if isinstance(items, (bytes, bytearray)):
        tape += items
    else:
        encode_items(items, tape)


def _list(node: ListOf) -> Encode:
    encode_items = _items(node.item)

    def encode(value: Any, tape: bytearray) -> None:
        if not _is_list(node.item, value):
            raise _wrong(node, value)
        tape += COUNT.pack(len(value))
        _put_all(value, encode_items, tape)

    return encode


def _fixed_list(node: FixedList) -> Encode:
    encode_items = _items(node.item)

    def encode(value: Any, tape: bytearray) -> None:
        if not _is_list(node.item, value):
            raise _wrong(node, value)
        if len(value) != node.length:
            raise WrongObject(f"expected {node.length} list elements, got {len(value)}")
        if node.length == 0:
            tape.append(0)
        _put_all(value, encode_items, tape)

    return encode


# ---- other values with parts


def _tuple(node: TupleOf) -> Encode:
    encoders = [encoder_of(item) for item in node.items]

    def encode(value: Any, tape: bytearray) -> None:
        if not isinstance(value, (tuple, list)):
            raise _wrong(node, value)
        if len(value) != len(encoders):
            raise WrongObject(f"expected {len(encoders)} tuple elements, got {len(value)}")
        if not encoders:
            tape.append(0)
        for place, (encode_item, item) in enumerate(zip(encoders, value)):
            try:
                encode_item(item, tape)
            except WrongObject as wrong:
                raise wrong.under(f"[{place}]")

    return encode


_LEFT_OUT = object()


def _record(node: Record) -> Encode:
    encoders = [(name, encoder_of(field), field) for name, field in node.fields]
    names = tuple(name for name, _ in node.fields)
    known = frozenset(names)

    def encode(value: Any, tape: bytearray) -> None:
        if not isinstance(value, Mapping):
            raise _wrong(node, value)
        if not known.issuperset(value):
            raise _unknown("field", next(name for name in value if name not in known), names)
        if not encoders:
            tape.append(0)
        for name, encode_field, field in encoders:
            part = value.get(name, _LEFT_OUT)
            if part is _LEFT_OUT:
                if not isinstance(field, OptionOf):
                    raise WrongObject(f'missing field "{name}"')
                part = None
            try:
                encode_field(part, tape)
            except WrongObject as wrong:
                raise wrong.under("." + name)

    return encode


def _payload(encode_payload: Any, name: str, value: Any, tape: bytearray) -> None:
    """The payload of a case, ok or err of this name, where it has one."""
    if encode_payload is None:
        if value is not None:
            raise WrongObject(f'unexpected payload for "{name}" case')
        return
    try:
        encode_payload(value, tape)
    except WrongObject as wrong:
        raise wrong.under("." + name)


def _variant(node: Variant) -> Encode:
    encoders = {name: (name.encode(), None if payload is None else encoder_of(payload)) for name, payload in node.cases}

    def encode(value: Any, tape: bytearray) -> None:
        if not isinstance(value, Case):
            raise _wrong(node, value)
        if not isinstance(value.name, str) or value.name not in encoders:
            raise _unknown("case", value.name, tuple(encoders))
        name, encode_payload = encoders[value.name]
        _put_text(name, tape)
        _payload(encode_payload, value.name, value.payload, tape)

    return encode


def _enum(node: EnumOf) -> Encode:
    texts = {name: name.encode() for name in node.names}

    def encode(value: Any, tape: bytearray) -> None:
        if not isinstance(value, str):
            raise _wrong(node, value)
        if value not in texts:
            raise _unknown("case", value, node.names)
        _put_text(texts[value], tape)

    return encode


def _option(node: OptionOf) -> Encode:
    encode_payload, is_nested = encoder_of(node.payload), isinstance(node.payload, OptionOf)

    def encode(value: Any, tape: bytearray) -> None:
        if value is None:
            tape.append(0)
            return
        tape.append(1)
        if isinstance(value, Some):
            _payload(encode_payload, "some", value.value, tape)
        elif is_nested:
            raise WrongObject(f"expected None or Some for {_shortened(str(node), MOST_SHOWN)}, got {_got(value)}")
        else:
            encode_payload(value, tape)

    return encode


def _result(node: ResultOf) -> Encode:
    encode_ok, encode_err = (None if payload is None else encoder_of(payload) for payload in (node.ok, node.err))

    def encode(value: Any, tape: bytearray) -> None:
        if isinstance(value, Ok):
            tape.append(0)
            _payload(encode_ok, "ok", value.value, tape)
        elif isinstance(value, Err):
            tape.append(1)
            _payload(encode_err, "err", value.value, tape)
        else:
            raise WrongObject(f"expected Ok or Err for {_shortened(str(node), MOST_SHOWN)}, got {_got(value)}")

    return encode


def _flags(node: FlagsOf) -> Encode:
    texts = [(name, name.encode()) for name in node.names]
    known = frozenset(node.names)

    def encode(value: Any, tape: bytearray) -> None:
        if not isinstance(value, Set):
            raise _wrong(node, value)
        if not known.issuperset(value):
            raise _unknown("flag", next(name for name in value if name not in known), node.names)
        held = [text for name, text in texts if name in value]
        tape += COUNT.pack(len(held))
        for text in held:
            _put_text(text, tape)

    return encode


def _map(node: MapOf) -> Encode:
    encode_key, encode_value = encoder_of(node.key), encoder_of(node.value)

    def encode(value: Any, tape: bytearray) -> None:
        if not isinstance(value, Mapping):
            raise _wrong(node, value)
        tape += COUNT.pack(len(value))
        for key, part in value.items():
            try:
                encode_key(key, tape)
            except WrongObject as wrong:
                raise WrongObject("of a key: " + wrong.reason) from None
            try:
                encode_value(part, tape)
            except WrongObject as wrong:
                raise wrong.under(_key_step(node.key, key))

    return encode


_ENCODERS: dict[type, Callable[[Any], Encode]] = {
    Simple: _simple,
    ListOf: _list,
    FixedList: _fixed_list,
    Record: _record,
    TupleOf: _tuple,
    Variant: _variant,
    EnumOf: _enum,
    OptionOf: _option,
    ResultOf: _result,
    FlagsOf: _flags,
    MapOf: _map,
}
