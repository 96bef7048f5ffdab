"""The objects for values that Python has none for."""
from collections.abc import Set
from dataclasses import dataclass
from typing import Any, Iterable, Iterator


@dataclass(frozen=True)
class Case:
    """A value of a variant: the name of its case and the payload, None where the case has none."""

    name: str
    payload: Any = None


@dataclass(frozen=True)
class Some:
    """A value of an option whose payload is itself an option; else an option is None or the payload."""

    value: Any


@dataclass(frozen=True)
class Ok:
    """The ok of a result, with None where that has no payload."""

    value: Any = None


@dataclass(frozen=True)
class Err:
    """The err of a result, with None where that has no payload."""

    value: Any = None


class Flags(Set[str]):
    """A set of names that keeps their order. It equals any set of the same names, and never changes."""

    __slots__ = ("_names",)

    def __init__(self, names: Iterable[str] = ()) -> None:
        self._names = dict.fromkeys(names)

    def __contains__(self, name: object) -> bool:
        return name in self._names

    def __iter__(self) -> Iterator[str]:
        return iter(self._names)

    def __len__(self) -> int:
        return len(self._names)

    def __hash__(self) -> int:
        return hash(frozenset(self._names))

    def __repr__(self) -> str:
        return f"Flags({list(self._names)!r})"
