"""The views of dicts in order."""

from __future__ import annotations

from collections.abc import ItemsView, Iterable, Iterator, KeysView, Sequence, ValuesView
from typing import Any

from ._core import ITEMS, VALUES

_MISSING = object()


class Keys(KeysView):
    """A dict's keys, in order."""

    def __iter__(self) -> Iterator[Any]:
        return iter(self._mapping)

    def __reversed__(self) -> Iterator[Any]:
        return reversed(self._mapping)

    @classmethod
    def _from_iterable(cls, it: Iterable[Any]) -> set[Any]:
        return set(it)


class Items(ItemsView):
    """A dict's pairs, by the order of their keys."""

    def __iter__(self) -> Iterator[tuple[Any, int]]:
        return self._mapping._items(False)

    def __reversed__(self) -> Iterator[tuple[Any, int]]:
        return self._mapping._items(True)

    def __contains__(self, item: Any) -> bool:
        # No `d[key]`, which a subclass's `__missing__` may answer.
        key, value = item
        found = self._mapping.get(key, _MISSING)
        return found is not _MISSING and found == value


class Values(ValuesView):
    """A dict's values, by the order of their keys."""

    def __iter__(self) -> Iterator[int]:
        return self._mapping._values(False)

    def __reversed__(self) -> Iterator[int]:
        return self._mapping._values(True)

    def __contains__(self, value: object) -> bool:
        return any(each == value for each in self)


class _Placed:
    """What the views of dicts have alike whose keys have places."""

    def __delitem__(self, place: Any) -> None:
        keys = self._mapping._at(place)
        for key in keys if isinstance(place, slice) else (keys,):
            del self._mapping[key]


class PlacedKeys(_Placed, Keys, Sequence):
    """The keys of a dict of words, with their places."""

    def __getitem__(self, place: Any) -> Any:
        return self._mapping._at(place)

    def index(self, value: Any, start: int | None = None, stop: int | None = None) -> int:
        return self._mapping.index(value, start, stop)

    def count(self, value: Any) -> int:
        return int(value in self._mapping)


class PlacedItems(_Placed, Items, Sequence):
    """The pairs of a dict of words, with their places."""

    def __getitem__(self, place: Any) -> Any:
        if isinstance(place, slice):
            return self._mapping._some(ITEMS, place)
        return self._mapping._pair_at(place)


class PlacedValues(_Placed, Values, Sequence):
    """The values of a dict of words, with their keys' places."""

    def __getitem__(self, place: Any) -> Any:
        if isinstance(place, slice):
            return self._mapping._some(VALUES, place)
        return self._mapping._pair_at(place)[1]
