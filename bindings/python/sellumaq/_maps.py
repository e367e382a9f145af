"""What dicts have alike."""

from __future__ import annotations

from collections.abc import Callable, Iterable, Mapping, MutableMapping
from typing import Any

from ._core import ITEMS

_MISSING = object()

# Pairs are put in one by one where they are at most one for so many that are there.
MANY = 8


def from_dump(kind: type, dump: bytes) -> Any:
    """The array of a kind that a pickle has as a dump."""
    made = kind.__new__(kind)
    made.frombytes(dump)
    return made


def reduced(array: Any, items: Callable[[Any], Any]) -> Any:
    """What a pickle has of an array: its dump; or, where none can say it, as of keys of more than 1,024 bytes, its
    items."""
    attributes = getattr(array, "__dict__", None) or None
    try:
        return from_dump, (type(array), array.tobytes()), attributes
    except (ValueError, OverflowError):
        return type(array), (items(array),), attributes


def pairs_of(other: Any) -> Iterable[Any]:
    """The pairs of what a dict is updated with: a mapping, what has `keys`, or an iterable of pairs."""
    if isinstance(other, Mapping):
        return other.items()
    if hasattr(other, "keys"):
        return ((key, other[key]) for key in other.keys())
    return other


class Dict(MutableMapping):
    """What all dicts have alike; `_fill` puts pairs in."""

    def __init__(self, other: Any = (), /, **more: int) -> None:
        self.update(other, **more)

    def update(self, other: Any = (), /, **more: int) -> None:
        """Puts pairs in, as dict's does. An error leaves those before it.

        >>> from sellumaq import JudySL
        >>> ages = JudySL(Ada=35)
        >>> ages.update({"Ada": 36}, Alan=41)
        >>> ages
        JudySL({'Ada': 36, 'Alan': 41})
        """
        self._fill(pairs_of(other))
        if more:
            self._fill(more.items())

    def setdefault(self, key: Any, default: int = 0, /) -> int:
        """The value of a key, which gets the default where it isn't there.

        >>> from sellumaq import JudyL
        >>> map = JudyL({1: 5})
        >>> map.setdefault(1, 7), map.setdefault(2, 7), map[2]
        (5, 7, 7)
        """
        value = self.get(key, _MISSING)
        if value is _MISSING:
            self[key] = default
            return default
        return value

    @classmethod
    def fromkeys(cls, keys: Iterable[Any], value: int = 0, /) -> Any:
        """A dict of these keys, each with the value.

        >>> from sellumaq import JudyL
        >>> JudyL.fromkeys([3, 1], 9)
        JudyL({1: 9, 3: 9})
        """
        made = cls()
        made._fill((key, value) for key in keys)
        return made


class Copied:
    """What dicts have alike whose pairs can be walked through."""

    def copy(self) -> Any:
        """Another dict of the same pairs.

        >>> from sellumaq import JudyL
        >>> JudyL({1: 2}).copy()
        JudyL({1: 2})
        """
        made = type(self)()
        made._fill(self.items())
        return made

    __copy__ = copy

    def __deepcopy__(self, _: Any) -> Any:
        return self.copy()

    def __reduce__(self) -> Any:
        return reduced(self, lambda array: dict(array.items()))

    def __or__(self, other: Any) -> Any:
        if not isinstance(other, Mapping):
            return NotImplemented
        made = self.copy()
        made.update(other)
        return made

    def __ror__(self, other: Any) -> Any:
        if not isinstance(other, Mapping):
            return NotImplemented
        made = type(self)(other)
        made.update(self)
        return made

    def __ior__(self, other: Any) -> Any:
        self.update(other)
        return self

    def __eq__(self, other: object) -> bool:
        if not isinstance(other, Mapping):
            return NotImplemented
        return len(self) == len(other) and all(other.get(key, _MISSING) == value for key, value in self.items())

    __hash__ = None

    def __repr__(self) -> str:
        return type(self).__name__ + "({" + ", ".join(f"{key!r}: {value}" for key, value in self.items()) + "})"


class Joined(Copied):
    """The same of dicts in order, by the calls of C over two arrays of the type `_alike`; `_all` are the bounds of a
    walk through one."""

    _alike: type[Any]
    _all: tuple[Any, Any]

    def copy(self) -> Any:
        """Another dict of the same pairs.

        >>> from sellumaq import JudyL
        >>> JudyL({1: 2}).copy()
        JudyL({1: 2})
        """
        made = type(self)()
        made._copy(self)
        return made

    __copy__ = copy

    def _put_map(self, other: Any) -> None:
        """Puts another's pairs in: few one by one, up to one that there is no memory for; else all or none."""
        if self._alike.__len__(other) < self._alike.__len__(self) // MANY:
            self._fill(self._alike._cursor(other, ITEMS, *self._all, False))
        else:
            self._join(other)

    def __or__(self, other: Any) -> Any:
        if not isinstance(other, self._alike):
            return super().__or__(other)
        made = self.copy()
        made._put_map(other)
        return made

    def __ior__(self, other: Any) -> Any:
        if not isinstance(other, self._alike):
            return super().__ior__(other)
        self._put_map(other)
        return self
