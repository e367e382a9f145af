"""Dicts from strings and byte strings to words."""

from __future__ import annotations

from collections.abc import Iterable, Iterator
from operator import index as whole
from typing import Any

from . import _core, _views
from ._core import ITEMS, KEYS, VALUES
from ._maps import Copied, Dict, Joined
from ._places import PlacedDict


class _Text:
    """Keys that are str. C sees them in UTF-8, surrogates too, so that each has bytes of its own and these are in the
    order of the strings."""

    @staticmethod
    def _encoded(key: str) -> bytes:
        if not isinstance(key, str):
            raise TypeError(f"not a str: {key!r}")
        return str.encode(key, "utf-8", "surrogatepass")


class _Bytes:
    """Keys that are bytes, or lend some."""

    @staticmethod
    def _encoded(key: Any) -> bytes:
        return bytes(memoryview(key))


class _Strings(Dict):
    """What dicts from strings have alike."""

    def _fill(self, pairs: Iterable[Any]) -> None:
        for key, value in pairs:
            self[key] = value


class _Ordered(PlacedDict, Joined, _Strings):
    """What both kinds of JudySL have alike. A bound may be any string, also one that can't be a key."""

    _all = None, None

    def _fill(self, pairs: Iterable[Any]) -> None:
        left = iter(pairs)
        super()._fill(self._begin(left))
        super()._fill(left)

    def _bound(self, key: Any) -> bytes:
        return self._encoded(key)

    def __iter__(self) -> Iterator[Any]:
        return self._cursor(KEYS, None, None, False)

    def __reversed__(self) -> Iterator[Any]:
        return self._cursor(KEYS, None, None, True)

    def _items(self, reverse: bool) -> Iterator[tuple[Any, int]]:
        return self._cursor(ITEMS, None, None, reverse)

    def _values(self, reverse: bool) -> Iterator[int]:
        return self._cursor(VALUES, None, None, reverse)

    def at_or_after(self, string: Any) -> Any:
        """The least key from a string on, or None.

        >>> from sellumaq import JudySL
        >>> JudySL(Ada=36, Grace=85).at_or_after("B")
        'Grace'
        """
        return next(self._cursor(KEYS, self._encoded(string), None, False), None)

    def at_or_before(self, string: Any) -> Any:
        """The greatest key up to a string, or None.

        >>> from sellumaq import JudySL
        >>> JudySL(Ada=36, Grace=85).at_or_before("B")
        'Ada'
        """
        return next(self._cursor(KEYS, None, self._encoded(string), True), None)

    def irange(self, minimum: Any = None, maximum: Any = None, inclusive: tuple[bool, bool] = (True, True), reverse: bool = False) -> Iterator[Any]:
        """The keys from a least to a greatest string, each included if `inclusive` says so.

        >>> from sellumaq import JudySL
        >>> list(JudySL(a=1, b=2, c=3).irange("a", "c", (False, True)))
        ['b', 'c']
        """
        low, high = (None if bound is None else self._encoded(bound) for bound in (minimum, maximum))
        keys = self._cursor(KEYS, low, high, reverse)
        out = [bound for bound, kept in zip((minimum, maximum), inclusive) if not kept and bound is not None]
        return (key for key in keys if key not in out) if out else keys

    def discard_range(self, start: Any = None, stop: Any = None) -> int:
        """Takes the keys from start on and below stop out, and answers how many they were. It can't want memory, but
        for the two strings, and where a key of more than 1,024 bytes came in; a MemoryError leaves all.

        >>> from sellumaq import JudySL
        >>> ages = JudySL(a=1, b=2, c=3)
        >>> ages.discard_range("aa", "c"), ages
        (1, JudySL({'a': 1, 'c': 3}))
        """
        ends = next(self.irange(start), None), next(self.irange(None, stop, (True, False), True), None)
        return 0 if None in ends else self._remove_range(*map(self._encoded, ends))

    def discard_prefix(self, prefix: Any) -> int:
        """Takes the keys out that begin with a string, and answers how many they were. It wants memory as
        `discard_range` does.

        >>> from sellumaq import JudySL
        >>> ages = JudySL(a=1, ab=2, b=3)
        >>> ages.discard_prefix("a"), ages
        (2, JudySL({'b': 3}))
        """
        return self._remove_prefix(self._encoded(prefix))

    def with_prefix(self, prefix: Any) -> Iterator[Any]:
        """The keys that begin with a string, by ascending order.

        >>> from sellumaq import JudySL
        >>> list(JudySL(a=1, ab=2, b=3).with_prefix("a"))
        ['a', 'ab']
        """
        return self._with_prefix(self._encoded(prefix))

    def longest_prefix(self, string: Any) -> Any:
        """The longest key that a string begins with, or None.

        >>> from sellumaq import JudySL
        >>> routes = JudySL({"10.": 1, "10.1.": 2})
        >>> routes.longest_prefix("10.1.2.3"), routes.longest_prefix("11.1")
        ('10.1.', None)
        """
        encoded = self._encoded(string)
        length = self._longest_prefix(encoded)
        if length is None:
            return None
        key = encoded[:length]
        return next(self._cursor(KEYS, key, key, False))

    def _at(self, place: Any) -> Any:
        if isinstance(place, slice):
            return self._some(KEYS, place)
        place = whole(place)
        if place in (0, -1):
            # No key is counted for these.
            for key in self if place == 0 else reversed(self):
                return key
        return self._key_at(place)

    def _pair_at(self, place: Any) -> tuple[Any, int]:
        place = whole(place)
        if place in (0, -1):
            # As for `_at`.
            for pair in self._items(place == -1):
                return pair
        return self._item_at(place)


class JudySL(_core.TextMap, _Text, _Ordered):
    """A dict from str without "\\0" to words, in order.

    >>> ages = JudySL(Grace=85, Alan=41, Ada=36)
    >>> ages["Ada"], ages.get("Bob"), ages.pop("Alan"), list(reversed(ages))
    (36, None, 41, ['Grace', 'Ada'])
    """

    _alike = _core.TextMap


class JudySLBytes(_core.BytesMap, _Bytes, _Ordered):
    """A dict from bytes without a zero to words, in order.

    >>> JudySLBytes([(b"b", 1), (bytearray(b"a"), 2)])
    JudySLBytes({b'a': 2, b'b': 1})
    """

    _alike = _core.BytesMap


class _Unordered(Copied, _Strings):
    """What both kinds of JudyHS have alike. A walk lists all keys at its beginning, by their lengths, and those of one
    length by their bytes; what becomes of the dict then is none of its concern."""

    def __iter__(self) -> Iterator[Any]:
        return iter(self._list(KEYS))

    def __reversed__(self) -> Iterator[Any]:
        return reversed(self._list(KEYS))

    def _items(self, reverse: bool) -> Iterator[tuple[Any, int]]:
        return reversed(self._list(ITEMS)) if reverse else iter(self._list(ITEMS))

    def _values(self, reverse: bool) -> Iterator[int]:
        return reversed(self._list(VALUES)) if reverse else iter(self._list(VALUES))

    def keys(self) -> _views.Keys:
        """The keys.

        >>> from sellumaq import JudyHS
        >>> list(JudyHS(b=2, a=1).keys())
        ['a', 'b']
        """
        return _views.Keys(self)

    def items(self) -> _views.Items:
        """The pairs.

        >>> from sellumaq import JudyHS
        >>> list(JudyHS(b=2, a=1).items())
        [('a', 1), ('b', 2)]
        """
        return _views.Items(self)

    def values(self) -> _views.Values:
        """The values.

        >>> from sellumaq import JudyHS
        >>> list(JudyHS(b=2, a=1).values())
        [1, 2]
        """
        return _views.Values(self)


class JudyHS(_core.TextHash, _Text, _Unordered):
    """A dict from str to words, in no order.

    >>> ages = JudyHS(Alan=41, Ada=36)
    >>> ages["Ada"], len(ages), ages == {"Ada": 36, "Alan": 41}, list(ages)
    (36, 2, True, ['Ada', 'Alan'])
    """


class JudyHSBytes(_core.BytesHash, _Bytes, _Unordered):
    """A dict from bytes to words, in no order.

    >>> JudyHSBytes({b"a\\0": 1})
    JudyHSBytes({b'a\\x00': 1})
    """
