"""The calls of the package."""
from __future__ import annotations

from typing import Any, Union

from ._encode import WrongObject, write_tape
from ._errors import ValueTypeError, WaveError, encoded, refusal
from ._library import Refusal, ask, library, told
from ._types import Func, Type, func_of, type_of

LEVELS = 100
MOST_LEVELS = 1000


def loads(type: Union[Type, str], text: str, *, bytes_for_u8: bool = False, levels: int = LEVELS) -> Any:
    """The object of the value that the text means at the type. With `bytes_for_u8` a list of u8 is bytes."""
    return type_of(type)._loads(text, bytes_for_u8, _limit(levels))


def dumps(type: Union[Type, str], value: Any) -> str:
    """The canonical text of the object at the type. ValueTypeError where it is none of the type's."""
    ty = type_of(type)
    try:
        tape = write_tape(ty._encode, value)
    except WrongObject as wrong:
        raise ValueTypeError(wrong.path, wrong.reason) from None
    return ty._told("wave_write", tape, len(tape), length=len(tape)).decode()


def loads_call(func: Union[Func, str], text: str, *, bytes_for_u8: bool = False, levels: int = LEVELS) -> tuple[str, list[Any]]:
    """The name of a call, and its parameters at the function's type, with None for each option that is left out. The limit of levels
    is that of each parameter."""
    name, parameters = func_of(func)._loads(text, bytes_for_u8, _limit(levels))
    return name, parameters


def untyped(text: str, *, levels: int = LEVELS) -> str:
    """The text, read without a type, in the layout of canonical texts."""
    given, limit = encoded(WaveError, text), _limit(levels)
    said = ask("wave_untyped", given, len(given), limit, length=len(given))
    if isinstance(said, Refusal):
        raise refusal(WaveError, text, said, told("wave_untyped_explain", given, len(given), limit, length=len(given)))
    return said.decode()


def library_version() -> str:
    """The version of the C library."""
    number = library().wave_version()
    return f"{number >> 16}.{number >> 8 & 255}.{number & 255}"


def _limit(levels: int) -> int:
    """The levels, where they are a limit of them."""
    if not isinstance(levels, int) or not 1 <= levels <= MOST_LEVELS:
        raise ValueError(f"levels are a whole number from 1 to {MOST_LEVELS}, not {levels!r}")
    return levels
