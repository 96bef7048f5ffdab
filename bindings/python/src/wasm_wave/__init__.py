"""WAVE, the text encoding of WebAssembly component values: a proved reader and writer.

    >>> import wasm_wave as wave
    >>> wave.loads("record { name: string, size: option<u32> }", '{name: "a"}')
    {'name': 'a', 'size': None}
    >>> wave.dumps("list<u8>", [1, 2])
    '[1, 2]'

README.md has which object stands for which value, and where the C library is looked for."""
from ._calls import dumps, library_version, loads, loads_call, untyped
from ._errors import Kind, TypeKind, TypeTextError, ValueTypeError, WaveError
from ._objects import Case, Err, Flags, Ok, Some
from ._types import Func, Type

__version__ = "0.1.0"

# so that they are shown by the name that they are used by
for _made in (Case, Err, Flags, Func, Kind, Ok, Some, Type, TypeKind, TypeTextError, ValueTypeError, WaveError):
    _made.__module__ = __name__

__all__ = [
    "Case",
    "Err",
    "Flags",
    "Func",
    "Kind",
    "Ok",
    "Some",
    "Type",
    "TypeKind",
    "TypeTextError",
    "ValueTypeError",
    "WaveError",
    "dumps",
    "library_version",
    "loads",
    "loads_call",
    "untyped",
]
