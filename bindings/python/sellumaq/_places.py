"""What arrays in order have alike: each key has a place."""

from __future__ import annotations

from collections.abc import Iterable, Iterator
from itertools import islice
from typing import Any

from . import _views
from ._core import ITEMS
from ._maps import pairs_of

# Of a slice that takes one key in so many, or more, each key is looked up by its place; of others those between are
# walked over.
FAR = 16


class Placed:
    """The calls that go by places. `_at` is the key at one, or a list of those of a slice."""

    def range(self, start: Any = None, stop: Any = None) -> Iterator[Any]:
        """The keys from start on and below stop, in ascending order.

        >>> from sellumaq import Judy1, JudySL
        >>> list(Judy1([10, 20, 30]).range(10, 30)), list(JudySL(a=1, b=2, c=3).range("aa"))
        ([10, 20], ['b', 'c'])
        """
        return self.irange(start, stop, (True, False))

    def islice(self, start: int | None = None, stop: int | None = None, reverse: bool = False) -> Iterator[Any]:
        """The keys of the places from start on and below stop.

        >>> from sellumaq import Judy1
        >>> list(Judy1([10, 20, 30, 40]).islice(1, -1))
        [20, 30]
        """
        first, last, _ = slice(start, stop).indices(len(self))
        return self.irange(self._at(first), self._at(last - 1), reverse=reverse) if first < last else iter(())

    def count_range(self, start: Any = None, stop: Any = None) -> int:
        """How many keys there are from start on and below stop.

        >>> from sellumaq import Judy1, JudySL
        >>> Judy1([10, 20, 30]).count_range(10, 30), JudySL(a=1, b=2, c=3).count_range("b")
        (2, 2)
        """
        upper = len(self) if stop is None else self.bisect_left(stop)
        return max(upper - (0 if start is None else self.bisect_left(start)), 0)

    def nth(self, n: int) -> Any:
        """The n-th key in ascending order, counted from 0; IndexError where there is none.

        >>> from sellumaq import Judy1
        >>> Judy1([10, 20, 30]).nth(1)
        20
        """
        if n < 0:
            raise IndexError(n)
        return self._at(n)

    def bisect(self, key: Any) -> int:
        """How many keys there are up to a number or a string; `bisect_right` is the same, and `bisect_left` leaves that
        out.

        >>> from sellumaq import Judy1
        >>> some = Judy1([10, 20, 30])
        >>> some.bisect(20), some.bisect_right(20), some.bisect_left(20)
        (2, 2, 1)
        """
        return self.bisect_right(key)

    def index(self, key: Any, start: int | None = None, stop: int | None = None) -> int:
        """The place of a key, which must lie from start on and below stop; ValueError where it isn't there.

        >>> from sellumaq import Judy1, JudySL
        >>> Judy1([10, 20, 30]).index(30), JudySL(a=1, b=2).index("b")
        (2, 1)
        """
        if key in self:
            place = self.bisect_left(key)
            if (start is None and stop is None) or place in range(*slice(start, stop).indices(len(self))):
                return place
        raise ValueError(f"{key!r} is not in the places asked for")


class PlacedDict(Placed):
    """The same of dicts. `_bound` is a key as a cursor takes it."""

    def _some(self, part: int, place: slice) -> list[Any]:
        """A part of the pairs of a slice."""
        places = range(*place.indices(len(self)))
        if abs(places.step) >= FAR:
            pairs = [self._pair_at(each) for each in places]
            return pairs if part == ITEMS else [pair[part] for pair in pairs]
        if not places:
            return []
        ends = sorted((places[0], places[-1]))
        low, high = (self._bound(self._at(each)) for each in ends)
        found = list(islice(self._cursor(part, low, high, False), 0, None, abs(places.step)))
        return found if places.step > 0 else found[::-1]

    @classmethod
    def from_sorted(cls, pairs: Iterable[Any], /) -> Any:
        """A dict of pairs whose keys strictly ascend, made at once; ValueError at the first key that isn't above the
        one before it.

        >>> from sellumaq import JudyL, JudySL
        >>> JudyL.from_sorted((n, n * n) for n in range(1, 4)), JudySL.from_sorted({"a": 1, "ab": 2})
        (JudyL({1: 1, 2: 4, 3: 9}), JudySL({'a': 1, 'ab': 2}))
        """
        made = cls()
        made._make(pairs_of(pairs))
        return made

    def copy(self) -> Any:
        """Another dict of the same pairs.

        >>> from sellumaq import JudyL
        >>> JudyL({1: 2}).copy()
        JudyL({1: 2})
        """
        made = type(self)()
        made._copy(self)
        return made

    __copy__ = copy

    def keys(self) -> _views.PlacedKeys:
        """The keys, with their places.

        >>> from sellumaq import JudyL
        >>> pairs = JudyL({1: 2, 3: 4})
        >>> list(pairs.keys()), pairs.keys()[0]
        ([1, 3], 1)
        """
        return _views.PlacedKeys(self)

    def items(self) -> _views.PlacedItems:
        """The pairs, with their places.

        >>> from sellumaq import JudyL
        >>> pairs = JudyL({1: 2, 3: 4})
        >>> list(pairs.items()), pairs.items()[0]
        ([(1, 2), (3, 4)], (1, 2))
        """
        return _views.PlacedItems(self)

    def values(self) -> _views.PlacedValues:
        """The values, with their keys' places.

        >>> from sellumaq import JudyL
        >>> pairs = JudyL({1: 2, 3: 4})
        >>> list(pairs.values()), pairs.values()[0]
        ([2, 4], 2)
        """
        return _views.PlacedValues(self)

    def peekitem(self, place: int = -1, *, last: bool | None = None) -> tuple[Any, int]:
        """The pair at a place, or the last or the first one; IndexError where there is none.

        >>> from sellumaq import JudyL, JudySL
        >>> JudyL({1: 2, 3: 4}).peekitem(), JudySL(a=1, b=2).peekitem(0)
        ((3, 4), ('a', 1))
        """
        return self._pair_at(place if last is None else -int(bool(last)))

    def popitem(self, place: int = -1, *, last: bool | None = None) -> tuple[Any, int]:
        """Takes out the pair at a place, or the last or the first one; KeyError where the dict is empty, IndexError
        where there is none.

        >>> from sellumaq import JudyL
        >>> pairs = JudyL({1: 2, 3: 4, 5: 6})
        >>> pairs.popitem(), pairs.popitem(last=False), pairs
        ((5, 6), (1, 2), JudyL({3: 4}))
        """
        if not self:
            raise KeyError("popitem(): dictionary is empty")
        key = self._at(place if last is None else -int(bool(last)))
        return key, self.pop(key)
