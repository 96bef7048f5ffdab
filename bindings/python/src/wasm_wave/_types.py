"""Types and functions, made from their texts, and what the library answers of them."""
from __future__ import annotations

from functools import lru_cache
from typing import Any, Union

from ._decode import Decode, call_decoder_of, decoder_of, read_tape
from ._encode import encoder_of
from ._errors import TypeTextError, WaveError, encoded, refusal
from ._handles import FUNC, TYPE, Calls, NotOpened, handle_of
from ._library import Refusal, ask, told
from ._type_tape import func_at, type_at

TEXTS_KEPT = 512


class _Spelled:
    """What is made from a text, and is equal where the canonical text is. Every thread may use it."""

    __slots__ = ("_spelling", "_text", "_decoders")
    _calls: Calls
    _decoders: tuple[Decode, Decode]

    def __init__(self, text: str) -> None:
        self._spelling = encoded(TypeTextError, text)
        try:
            handle_of(self._calls, self._spelling)
        except NotOpened as error:
            raise refusal(TypeTextError, text, error.said, self._explain_spelling()) from None
        self._text = self._told(self._calls.text, length=len(text)).decode()

    def _explain_spelling(self) -> bytes:
        """What explains that the text spells nothing."""
        raise NotImplementedError

    def _node(self, decode: Decode) -> Any:
        """What the text spells, taken apart."""
        return read_tape(decode, self._told(self._calls.tape, length=len(self._text)))

    def _ask(self, name: str, *arguments: Any, length: int) -> Union[bytes, Refusal]:
        """What the function of the library answers of the type."""
        handle = handle_of(self._calls, self._spelling)
        return ask(name, handle.reference, *arguments, length=length)

    def _told(self, name: str, *arguments: Any, length: int) -> bytes:
        """So of a function that refuses nothing of what it is handed."""
        handle = handle_of(self._calls, self._spelling)
        return told(name, handle.reference, *arguments, length=length)

    def _loads(self, text: str, bytes_for_u8: bool, limit: int) -> Any:
        """The object that the text means, within a limit of levels."""
        given = encoded(WaveError, text)
        tape = self._ask(self._calls.read, given, len(given), limit, length=len(given))
        if isinstance(tape, Refusal):
            raise refusal(WaveError, text, tape, self._told(self._calls.explain, given, len(given), limit, length=len(given)))
        return read_tape(self._decoders[bool(bytes_for_u8)], tape)

    def __str__(self) -> str:
        return self._text

    def __repr__(self) -> str:
        return f"{type(self).__name__}({self._text!r})"

    def __eq__(self, other: object) -> bool:
        return isinstance(other, _Spelled) and type(other) is type(self) and other._text == self._text

    def __hash__(self) -> int:
        return hash(self._text)

    def __reduce__(self) -> tuple[Any, ...]:
        return type(self), (self._text,)


class Type(_Spelled):
    """A type, of its text; `str` gives the canonical one. TypeTextError where the text spells none."""

    __slots__ = ("_encode",)
    _calls = TYPE

    def __init__(self, text: str) -> None:
        super().__init__(text)
        node = self._node(type_at)
        self._decoders = decoder_of(node, False), decoder_of(node, True)
        self._encode = encoder_of(node)

    def _explain_spelling(self) -> bytes:
        text = self._spelling
        return told("wave_explain_at", text, len(text), b"", 0, 0, length=len(text))


class Func(_Spelled):
    """A function's type, of its text, as `func(a: u8, b: option<string>) -> bool`. `parameters` and `results` have names and types; a
    single result has an empty name."""

    __slots__ = ("parameters", "results")
    _calls = FUNC

    def __init__(self, text: str) -> None:
        super().__init__(text)
        node = self._node(func_at)
        self.parameters: tuple[tuple[str, str], ...] = tuple((name, str(of)) for name, of in node.parameters)
        self.results: tuple[tuple[str, str], ...] = tuple((name, str(of)) for name, of in node.results)
        plain, with_bytes = ([decoder_of(of, bytes_for_u8) for _, of in node.parameters] for bytes_for_u8 in (False, True))
        self._decoders = call_decoder_of(plain), call_decoder_of(with_bytes)

    def _explain_spelling(self) -> bytes:
        text = self._spelling
        return told("wave_func_explain_at", text, len(text), 0, length=len(text))


_type_of_text = lru_cache(maxsize=TEXTS_KEPT)(Type)
_func_of_text = lru_cache(maxsize=TEXTS_KEPT)(Func)


def type_of(spelled: Union[Type, str]) -> Type:
    """The type, also of its text, which is read once."""
    return spelled if isinstance(spelled, Type) else _type_of_text(spelled)


def func_of(spelled: Union[Func, str]) -> Func:
    """The function, also of its text, which is read once."""
    return spelled if isinstance(spelled, Func) else _func_of_text(spelled)
