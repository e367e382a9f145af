"""Sets and dicts of words, in order."""

from __future__ import annotations

from array import array
from collections.abc import Iterable, Iterator, MutableSet, Sequence, Set
from operator import index as whole
from typing import TYPE_CHECKING, Any, SupportsIndex

from . import _core
from ._core import BOTH, FIRST, ITEMS, KEYS, MAX, SECOND, VALUES
from ._maps import Copied, Dict, Joined, reduced
from ._places import Placed, PlacedDict

if TYPE_CHECKING:
    from typing_extensions import TypeGuard

UNION, INTERSECTION, DIFFERENCE, SYMMETRIC_DIFFERENCE = FIRST | BOTH | SECOND, BOTH, FIRST, FIRST | SECOND


def _is_set(other: object) -> TypeGuard[_core.WordSet]:
    """Whether two sets can be walked side by side: as of Python's sets, whatever a subclass says of its items."""
    return isinstance(other, _core.WordSet)


class _Ordered:
    """What sets and dicts of words have alike."""

    def __iter__(self) -> Iterator[int]:
        return self._cursor(KEYS, 0, MAX, False)

    def __reversed__(self) -> Iterator[int]:
        return self._cursor(KEYS, 0, MAX, True)

    def irange(
        self,
        minimum: SupportsIndex | None = None,
        maximum: SupportsIndex | None = None,
        inclusive: tuple[bool, bool] = (True, True),
        reverse: bool = False,
    ) -> Iterator[int]:
        """The keys from a least to a greatest number, each included if `inclusive` says so.

        >>> from sellumaq import Judy1
        >>> list(Judy1(range(9)).irange(2, 5)), list(Judy1(range(9)).irange(2, 5, (False, True), reverse=True))
        ([2, 3, 4, 5], [5, 4, 3])
        """
        low = 0 if minimum is None else max(whole(minimum) + (not inclusive[0]), 0)
        high = MAX if maximum is None else min(whole(maximum) - (not inclusive[1]), MAX)
        return self._cursor(KEYS, low, high, reverse) if low <= high else iter(())

    @staticmethod
    def _bounds(start: SupportsIndex | None, stop: SupportsIndex | None) -> tuple[int, int]:
        """The words from start on and below stop, as C takes them: from the first to the last. Where there are none the
        first is above the last."""
        low = 0 if start is None else max(whole(start), 0)
        high = MAX if stop is None else min(whole(stop) - 1, MAX)
        return (low, high) if low <= high else (1, 0)

    def discard_range(self, start: SupportsIndex | None = None, stop: SupportsIndex | None = None) -> int:
        """Takes the keys from start on and below stop out, and answers how many they were. It can't want memory.

        >>> from sellumaq import Judy1
        >>> some = Judy1([10, 20, 30])
        >>> some.discard_range(10, 30), some
        (2, Judy1([30]))
        """
        return self._remove_range(*self._bounds(start, stop))

    def retain_range(self, start: SupportsIndex | None = None, stop: SupportsIndex | None = None) -> int:
        """Takes all keys out but those from start on and below stop, and answers how many they were. It can't want
        memory.

        >>> from sellumaq import Judy1
        >>> some = Judy1([10, 20, 30])
        >>> some.retain_range(10, 30), some
        (1, Judy1([10, 20]))
        """
        return self._keep_range(*self._bounds(start, stop))

    def keys_array(self, out: Any = None) -> Any:
        """All keys in order, as an array of 64-bit words; or written to the front of `out`, a buffer of such words, and
        then how many these are. It is a ValueError where that hasn't room for all, and nothing is written.

        >>> from sellumaq import Judy1
        >>> Judy1([30, 10, 20]).keys_array()
        array('Q', [10, 20, 30])
        >>> from array import array
        >>> room = array("Q", [7, 7, 7, 7])
        >>> Judy1([30, 10, 20]).keys_array(room), room
        (3, array('Q', [10, 20, 30, 7]))
        """
        return self._part_array(KEYS, out)

    def _part_array(self, part: int, out: Any) -> Any:
        if out is not None:
            return self._write(part, out)
        while True:
            words = array("Q", [0]) * len(self)
            try:
                if self._write(part, words) == len(words):
                    return words
            except ValueError:
                # Another thread has put keys in.
                if len(self) == len(words):
                    raise


class Judy1(_core.WordSet, _Ordered, Placed, MutableSet, Sequence):
    """A set of the words 0 to 2**64 - 1, in ascending order, whose keys have places.

    >>> some = Judy1([30, 10, 20])
    >>> some.add(40); some.discard(5); some.remove(10); 20 in some
    True
    >>> some[0], some[-1], some[1:]
    (20, 40, [30, 40])
    >>> some.contains_many([40, 5, 30])
    [True, False, True]
    >>> some.at_or_after(21), some.at_or_before(19), some.absent_at_or_after(20), some.absent_at_or_before(20)
    (30, None, 21, 19)
    >>> some.clear(); some
    Judy1()
    """

    def __init__(self, keys: Iterable[SupportsIndex] = ()) -> None:
        if _is_set(keys):
            self._combine(UNION, keys, keys)
            return
        if self:
            keys = list(keys)
            self.clear()
        self._fill(keys)

    @classmethod
    def from_sorted(cls, keys: Iterable[SupportsIndex], /) -> Judy1:
        """A set of keys that strictly ascend, made at once; ValueError at the first one that isn't above the one before
        it.

        >>> Judy1.from_sorted(range(10, 40, 10))
        Judy1([10, 20, 30])
        """
        made = cls()
        made._make(keys)
        return made

    @classmethod
    def _from_iterable(cls, it: Iterable[SupportsIndex]) -> Judy1:
        return cls(it)

    def __delitem__(self, place: int | slice) -> None:
        keys = self[place]
        for key in keys if isinstance(place, slice) else (keys,):
            self.discard(key)

    def pop(self, place: int = -1) -> int:
        """Takes out the key at a place, and answers it; IndexError where there is none.

        >>> some = Judy1([10, 20, 30])
        >>> some.pop(), some.pop(0), some
        (30, 10, Judy1([20]))
        """
        key = self[place]
        self.discard(key)
        return key

    def count(self, key: object) -> int:
        """1 where a key is there, else 0.

        >>> Judy1([10]).count(10), Judy1([10]).count(20)
        (1, 0)
        """
        return int(key in self)

    def copy(self) -> Judy1:
        """Another set of the same keys.

        >>> Judy1([1, 2]).copy()
        Judy1([1, 2])
        """
        return type(self)(self)

    __copy__ = copy

    def __deepcopy__(self, _: Any) -> Judy1:
        return self.copy()

    def __reduce__(self) -> Any:
        return reduced(self, list)

    def update(self, *others: Iterable[SupportsIndex]) -> None:
        """Puts the keys of iterables in. An error leaves those before it.

        >>> some = Judy1([1])
        >>> some.update([2], {3}); some
        Judy1([1, 2, 3])
        """
        for other in others:
            if _is_set(other):
                self._combine(UNION, self, other)
            else:
                self._fill(other)

    @staticmethod
    def _set_of(other: Iterable[Any], wanted: int) -> _core.WordSet:
        """The set that an operation goes by for an iterable. What could be no key is passed over, unless the other's
        keys are wanted by themselves."""
        if _is_set(other):
            return other
        made = Judy1()
        (made._fill if wanted & SECOND else made._pick)(other)
        return made

    def _kept(self, wanted: int, others: tuple[Iterable[Any], ...]) -> Judy1:
        """What an operation keeps of this set and another, of that and the next, and so on. All are read first, which
        may run any code."""
        sets, made = [self._set_of(other, wanted) for other in others], Judy1()
        made._combine(wanted if sets else UNION, self, sets[0] if sets else self)
        for other in sets[1:]:
            made._combine(wanted, made, other)
        return made if type(self) is Judy1 else self._from_iterable(made)

    def _keep(self, wanted: int, others: tuple[Iterable[Any], ...]) -> None:
        """Makes this set what an operation keeps. An error leaves it as it was."""
        if len(others) == 1:
            self._combine(wanted, self, self._set_of(others[0], wanted))
        else:
            made = self._kept(wanted, others)
            self._combine(UNION, made, made)

    def union(self, *others: Iterable[SupportsIndex]) -> Judy1:
        """The keys of this set or of any other.

        >>> Judy1([1, 2]).union([2, 3], [4]), Judy1([1]) | {2}
        (Judy1([1, 2, 3, 4]), Judy1([1, 2]))
        """
        return self._kept(UNION, others)

    def intersection(self, *others: Iterable[Any]) -> Judy1:
        """The keys of this set that are in each other.

        >>> Judy1([1, 2, 3]).intersection([2, 3], [3]), Judy1([1, 2]) & {2}
        (Judy1([3]), Judy1([2]))
        """
        return self._kept(INTERSECTION, others)

    def difference(self, *others: Iterable[Any]) -> Judy1:
        """The keys of this set that are in no other.

        >>> Judy1([1, 2, 3]).difference([2], [3]), Judy1([1, 2]) - {2}
        (Judy1([1]), Judy1([1]))
        """
        return self._kept(DIFFERENCE, others)

    def symmetric_difference(self, other: Iterable[SupportsIndex]) -> Judy1:
        """The keys of one of both sets alone.

        >>> Judy1([1, 2]).symmetric_difference([2, 3]), Judy1([1, 2]) ^ {2, 3}
        (Judy1([1, 3]), Judy1([1, 3]))
        """
        return self._kept(SYMMETRIC_DIFFERENCE, (other,))

    def intersection_update(self, *others: Iterable[Any]) -> None:
        """Leaves the keys that are in each other.

        >>> some = Judy1([1, 2, 3])
        >>> some.intersection_update([2, 3]); some &= {3}; some
        Judy1([3])
        """
        self._keep(INTERSECTION, others)

    def difference_update(self, *others: Iterable[Any]) -> None:
        """Takes out the keys that are in any other.

        >>> some = Judy1([1, 2, 3])
        >>> some.difference_update([2]); some -= {3}; some
        Judy1([1])
        """
        self._keep(DIFFERENCE, others)

    def symmetric_difference_update(self, other: Iterable[SupportsIndex]) -> None:
        """Takes out the other's keys that are there, and puts in those that aren't.

        >>> some = Judy1([1, 2])
        >>> some.symmetric_difference_update([2, 3]); some ^= {1}; some
        Judy1([3])
        """
        self._keep(SYMMETRIC_DIFFERENCE, (other,))

    def _count_with(self, wanted: int, other: Iterable[Any]) -> int:
        return self._count_of(wanted, self._set_of(other, wanted))

    def union_count(self, other: Iterable[SupportsIndex]) -> int:
        """How many keys `union` would have; no set is made.

        >>> Judy1([1, 2]).union_count([2, 3])
        3
        """
        return self._count_with(UNION, other)

    def intersection_count(self, other: Iterable[Any]) -> int:
        """How many keys `intersection` would have; no set is made.

        >>> Judy1([1, 2]).intersection_count([2, 3])
        1
        """
        return self._count_with(INTERSECTION, other)

    def difference_count(self, other: Iterable[Any]) -> int:
        """How many keys `difference` would have; no set is made.

        >>> Judy1([1, 2]).difference_count([2, 3])
        1
        """
        return self._count_with(DIFFERENCE, other)

    def symmetric_difference_count(self, other: Iterable[SupportsIndex]) -> int:
        """How many keys `symmetric_difference` would have; no set is made.

        >>> Judy1([1, 2]).symmetric_difference_count([2, 3])
        2
        """
        return self._count_with(SYMMETRIC_DIFFERENCE, other)

    def _words(self, start: SupportsIndex, stop: SupportsIndex) -> tuple[int, int]:
        """The bounds of words that are to be put in."""
        low, high = whole(start), whole(stop) - 1
        if low <= high and not (0 <= low and high <= MAX):
            raise ValueError(f"not all words of 64 bits: {low} to {high}")
        return (low, high) if low <= high else (1, 0)

    def insert_range(self, start: SupportsIndex, stop: SupportsIndex) -> int:
        """Puts the words from start on and below stop in, and answers how many were absent. MemoryError where there is
        no memory for them; the set is as it was then.

        >>> some = Judy1([10])
        >>> some.insert_range(9, 12), some
        (2, Judy1([9, 10, 11]))
        """
        return self._put_range(*self._words(start, stop))

    def flip_range(self, start: SupportsIndex, stop: SupportsIndex) -> None:
        """Takes the keys from start on and below stop out, and puts the other words in. MemoryError as of
        `insert_range`.

        >>> some = Judy1([10])
        >>> some.flip_range(9, 12); some
        Judy1([9, 11])
        """
        self._flip(*self._words(start, stop))

    def isdisjoint(self, other: Iterable[Any]) -> bool:
        """Whether no key is in the other.

        >>> Judy1([1]).isdisjoint([2]), Judy1([1]).isdisjoint([1, 2])
        (True, False)
        """
        return not self._has_any(BOTH, other) if _is_set(other) else super().isdisjoint(other)

    def issubset(self, other: Iterable[Any]) -> bool:
        """Whether each key is in the other.

        >>> Judy1([1]).issubset([1, 2])
        True
        """
        return self <= (other if isinstance(other, Set) else set(other))

    def issuperset(self, other: Iterable[Any]) -> bool:
        """Whether the set has each of the other's.

        >>> Judy1([1, 2]).issuperset([1])
        True
        """
        return not self._has_any(SECOND, other) if _is_set(other) else all(key in self for key in other)

    def __eq__(self, other: object) -> bool:
        return not self._has_any(FIRST | SECOND, other) if _is_set(other) else super().__eq__(other)

    def __le__(self, other: Any) -> bool:
        return not self._has_any(FIRST, other) if _is_set(other) else super().__le__(other)

    def __ge__(self, other: Any) -> bool:
        return not self._has_any(SECOND, other) if _is_set(other) else super().__ge__(other)

    def __lt__(self, other: Any) -> bool:
        return self <= other and self._has_any(SECOND, other) if _is_set(other) else super().__lt__(other)

    def __gt__(self, other: Any) -> bool:
        return self >= other and self._has_any(FIRST, other) if _is_set(other) else super().__gt__(other)

    def __or__(self, other: Any) -> Judy1:
        return self.union(other) if isinstance(other, Iterable) else NotImplemented

    def __and__(self, other: Any) -> Judy1:
        return self.intersection(other) if isinstance(other, Iterable) else NotImplemented

    def __sub__(self, other: Any) -> Judy1:
        return self.difference(other) if isinstance(other, Iterable) else NotImplemented

    def __xor__(self, other: Any) -> Judy1:
        return self.symmetric_difference(other) if isinstance(other, Iterable) else NotImplemented

    __ror__, __rand__, __rxor__ = __or__, __and__, __xor__

    def __rsub__(self, other: Any) -> Judy1:
        return self._from_iterable(other).difference(self) if isinstance(other, Iterable) else NotImplemented

    def _updated(self, wanted: int, other: Any) -> Judy1:
        if not isinstance(other, Iterable):
            return NotImplemented
        self._keep(wanted, (other,))
        return self

    def __ior__(self, other: Any) -> Judy1:
        return self._updated(UNION, other)

    def __iand__(self, other: Any) -> Judy1:
        return self._updated(INTERSECTION, other)

    def __isub__(self, other: Any) -> Judy1:
        return self._updated(DIFFERENCE, other)

    def __ixor__(self, other: Any) -> Judy1:
        return self._updated(SYMMETRIC_DIFFERENCE, other)

    def __repr__(self) -> str:
        return f"{type(self).__name__}({list(self) if self else ''})"


class JudyL(_core.WordMap, _Ordered, PlacedDict, Joined, Dict):
    """A dict from words to words, in ascending order, whose keys have places.

    >>> squares = JudyL({n: n * n for n in range(1, 5)})
    >>> squares[3], squares.get(9), squares.get_many([3, 9, 2])
    (9, None, [9, None, 4])
    >>> squares.pop(4), squares.peekitem(0)
    (16, (1, 1))
    >>> squares.keys()[-1], squares.items()[1], squares.values()[:2]
    (3, (2, 4), [1, 4])
    >>> del squares[1]; squares | {7: 49}
    JudyL({2: 4, 3: 9, 7: 49})
    """

    _alike, _all = _core.WordMap, (0, MAX)

    @staticmethod
    def _bound(key: int) -> int:
        return key

    @classmethod
    def from_sorted(cls, pairs: Any, values: Any = None, /) -> JudyL:
        """A dict of pairs whose keys strictly ascend, made at once; ValueError at the first key that isn't above the
        one before it. The pairs are any iterable, or a buffer of 64-bit words with two columns; or the keys are one
        buffer of such words, and the values another.

        >>> from array import array
        >>> JudyL.from_sorted([(1, 10), (2, 20)]), JudyL.from_sorted(array("Q", [1, 2]), array("Q", [10, 20]))
        (JudyL({1: 10, 2: 20}), JudyL({1: 10, 2: 20}))
        """
        if values is None:
            return super().from_sorted(pairs)
        made = cls()
        made._make_of(pairs, values)
        return made

    def update(self, other: Any = (), values: Any = None, /, **more: int) -> None:
        """Puts pairs in, as dict's does; or those of a buffer of keys and one of values. An error leaves those before
        it.

        >>> from array import array
        >>> squares = JudyL({1: 1})
        >>> squares.update({2: 4}); squares.update(array("Q", [3, 4]), array("Q", [9, 16])); squares
        JudyL({1: 1, 2: 4, 3: 9, 4: 16})
        """
        if values is not None:
            self._fill_of(other, values)
            other = ()
        super().update(other, **more)

    def values_array(self, out: Any = None) -> Any:
        """All values by the order of their keys, as `keys_array` tells the keys.

        >>> JudyL({3: 9, 2: 4}).values_array()
        array('Q', [4, 9])
        """
        return self._part_array(VALUES, out)

    def _items(self, reverse: bool) -> Iterator[tuple[int, int]]:
        return self._cursor(ITEMS, 0, MAX, reverse)

    def _values(self, reverse: bool) -> Iterator[int]:
        return self._cursor(VALUES, 0, MAX, reverse)
