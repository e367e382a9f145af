"""The types of the extension over the shared library, by ctypes. Its calls are made under the GIL (`PyDLL`), so each is
whole before another thread goes on, or a signal handler runs.
"""

from __future__ import annotations

import ctypes
import os
import sys
from array import array
from bisect import bisect_left, bisect_right
from itertools import accumulate
from operator import index as whole

if not getattr(sys, "_is_gil_enabled", lambda: True)():
    raise ImportError("sellumaq's ctypes binding needs the GIL")

MAX = 2**64 - 1
KEYS, VALUES, ITEMS = range(3)
FIRST, BOTH, SECOND = 1, 2, 4

try:
    _library, _of_files = (ctypes.PyDLL(os.environ.get("SELLUMAQ_LIBRARY", "libsellumaq.so.1"), use_errno=told) for told in (False, True))
except OSError as why:
    told = f"sellumaq has no extension here and finds no shared library, which SELLUMAQ_LIBRARY may name: {why}"
    raise ImportError(told) from None

_word = ctypes.c_uint64
_slot = ctypes.POINTER(_word)
_key = (ctypes.c_char_p, ctypes.c_size_t)
_buffer = (*_key, ctypes.POINTER(ctypes.c_size_t), _slot)
_list = (ctypes.c_void_p, ctypes.c_size_t)
_sorted = (*_list, ctypes.POINTER(ctypes.c_size_t))

# What calls answer that have more than yes and no to tell; a yes is 1 too.
_FOUND, _NO_MEMORY, _FULL, _BAD_KEY, _TOO_SMALL, _BAD_NAME, _TOO_MANY, _BAD_DUMP, _BAD_FORMAT, _SYSTEM = range(1, 11)
_DONE, _PUT = 1, (0, 1)

_MISSING = object()
_NONE = iter(())


class _Handle(ctypes.Structure):
    _fields_ = [("array", ctypes.c_void_p)]


def _call(name, result, *words, library=_library):
    call = getattr(library, "sellumaq_" + name)
    call.restype = result
    call.argtypes = [ctypes.POINTER(_Handle), *words]
    return call


_OF_TWO = "union", "intersection", "difference", "symmetric_difference"


def _two_calls(kind):
    """The calls of a kind that copy an array or make one of two, and those that tell of two."""
    handle = ctypes.POINTER(_Handle)
    made = {name: _call(f"{kind}_{name}", ctypes.c_uint32, handle, handle) for name in _OF_TWO}
    told = {name: _call(f"{kind}_{name}", ctypes.c_bool, handle) for name in ("is_subset", "is_disjoint", "has_same_keys")}
    common = _call(f"{kind}_intersection_count", _word, handle)
    return made | told | {"copy": _call(f"{kind}_copy", ctypes.c_uint32, handle), "intersection_count": common}


def _calls(kind, result, **calls):
    """The calls of a kind that answer alike, by what they are given, and those that all kinds have."""
    told = {name: _call(f"{kind}_{name}", result, *words) for name, words in calls.items()}
    return told | {name: _call(f"{kind}_{name}", _word) for name in ("len", "bytes", "free")} | _saved_calls(kind)


def _saved_calls(kind):
    """The calls by which a kind is saved and loaded; those of files tell why the system refuses one."""
    fault, size = ctypes.POINTER(ctypes.c_uint32), ctypes.POINTER(ctypes.c_size_t)
    return {
        "dump": _call(f"{kind}_dump", ctypes.c_uint32, ctypes.c_uint32, *_key, *_key, size),
        "load": _call(f"{kind}_load", ctypes.c_uint32, *_key, fault),
        "save": _call(f"{kind}_save", ctypes.c_uint32, ctypes.c_char_p, library=_of_files),
        "open": _call(f"{kind}_open", ctypes.c_uint32, ctypes.c_char_p, fault, library=_of_files),
    }


_fault_text = _library.sellumaq_fault_text
_fault_text.restype, _fault_text.argtypes = ctypes.c_char_p, [ctypes.c_uint32]


def _refused(told, fault=None, path=None):
    """The error of a dump, a load, a save or an open that wasn't done."""
    if told == _NO_MEMORY:
        return MemoryError()
    if told == _SYSTEM:
        return OSError(ctypes.get_errno(), os.strerror(ctypes.get_errno()), path)
    if told == _BAD_DUMP:
        return ValueError(_fault_text(fault).decode())
    if told == _TOO_MANY:
        return OverflowError("more keys than a dump can say, 4,294,967,295")
    if told == _BAD_NAME:
        return ValueError("the name isn't 1 to 32 ASCII letters, digits, `_` and `-`")
    if told == _BAD_FORMAT:
        return ValueError("the format is neither 1 nor 2")
    return ValueError("a key of more bytes than a dump can say, 1,024")


def _word_calls(kind, **calls):
    searches = dict.fromkeys(("first", "last", "first_empty", "last_empty", "by_count"), (_word, _slot))
    counts = {name: _call(f"{kind}_{name}", _word, _word, _word) for name in ("count", "remove_range", "retain_range")}
    unsorted = {"from_unsorted": _call(f"{kind}_from_unsorted", ctypes.c_uint32, *_list)}
    return _calls(kind, ctypes.c_bool, **searches, **calls) | counts | unsorted | _two_calls(kind)


def _string_calls(kind, *scans):
    found = _calls(kind, ctypes.c_bool, **dict.fromkeys(("get", "remove"), (*_key, _slot)))
    found["shrink"] = _call(f"{kind}_shrink", None)
    return found | _calls(kind, ctypes.c_uint32, put=(*_key, _word), **dict.fromkeys(scans, _buffer))


_WORDS, _BYTES = (("Q", "L"), 8), (("?", "B", "b", "c"), 1)


def _holds(view, items):
    """Whether the items of a buffer are of one of these formats of the module struct, and of this size."""
    formats, size = items
    return view.itemsize == size and view.format.lstrip("@=<") in formats and len(view.format) <= 2


def _lent(items, width):
    """The words of a buffer of them, a list or a table of two columns, as ctypes has them; None where the object has no
    such buffer."""
    try:
        with memoryview(items) as view:
            if _holds(view, _WORDS) and view.c_contiguous and view.ndim == width and view.shape[1:] in ((), (2,)):
                return (_word * (view.nbytes // 8)).from_buffer_copy(view.tobytes())
    except (TypeError, ValueError, BufferError):
        pass
    return None


def _list_of(lent, items, is_written):
    """A view of a list of words or bytes, as errors tell that it must be."""
    view = memoryview(lent)
    if view.ndim != 1 or not _holds(view, items):
        what = "64-bit words" if items is _WORDS else "bytes"
        raise TypeError(f"a buffer of {what} is needed, not one of {view.format}")
    if is_written and view.readonly:
        raise TypeError("a buffer is needed that can be written")
    if not view.c_contiguous:
        raise ValueError("the items of the buffer don't stand in a row")
    # Of these formats memoryview itself knows but two, and no empty view is cast.
    return view.cast("B").cast("Q" if items is _WORDS else "B") if view.nbytes else memoryview(array("Q" if items is _WORDS else "B"))


def _two_lists(first, second, items, is_written):
    """Views of two lists, the first one of words."""
    views = _list_of(first, _WORDS, False), _list_of(second, items, is_written)
    if is_written and _overlap(*views):
        raise ValueError("the buffers overlap")
    if len(views[0]) != len(views[1]):
        raise ValueError("the buffers have different lengths")
    return views


def _address(view):
    """Where a buffer that can be written stands."""
    return ctypes.addressof(ctypes.c_char.from_buffer(view))


def _overlap(read, written):
    """Whether two buffers have bytes in common, which isn't so where one of them can't be written."""
    if read.readonly or not read.nbytes or not written.nbytes:
        return False
    one, other = _address(read), _address(written)
    return one < other + written.nbytes and other < one + read.nbytes


def _checked(number):
    word = whole(number)
    if not 0 <= word <= MAX:
        raise ValueError(f"not a word of 64 bits: {word}")
    return word


def _bad_key(key):
    return ValueError(f"a zero byte in a key: {key!r}")


def _ascending(pairs):
    """Pairs as they come, if each key is above the one before it."""
    last = None
    for place, (key, value) in enumerate(pairs):
        if last is not None and key <= last:
            raise ValueError(f"the key at place {place} isn't above the one before it")
        last = key
        yield key, value


def _path(path):
    """A path as C takes it."""
    encoded = os.fsencode(path)
    if b"\0" in encoded:
        raise ValueError("embedded null byte")
    return encoded


class _Array:
    """What all kinds have alike. `_passed` is what C is given for a key, or None where the object can't be one."""

    # An array keeps the calls of the kind that it was made as, also where its class is set to another. Another object
    # stands in `_changes` after each change of what a map holds.
    __slots__ = ("_handle", "_calls", "_changes")

    def __new__(cls, *_, **__):
        self = super().__new__(cls)
        self._handle, self._calls, self._changes = _Handle(), cls._kind, object()
        return self

    def __del__(self):
        if hasattr(self, "_handle"):
            self._calls["free"](self._handle)

    def __len__(self):
        return self._calls["len"](self._handle)

    def __sizeof__(self):
        """How many bytes the array takes: those of the object, and those that the library asked for."""
        return super().__sizeof__() + self._calls["bytes"](self._handle)

    def _change(self, call, *words):
        """What a call answers that may change the array."""
        told = self._calls[call](self._handle, *words)
        self._changes = object()
        return told

    def clear(self):
        """Takes every key out and gives the memory back."""
        self._change("free")

    def tobytes(self, *, name="array", format=2):
        """The dump of the array, in the format JDY2 or JDY1, as judystore, C and Rust read it too. ValueError where
        none can say it."""
        form, size, told = whole(format), ctypes.c_size_t(), _TOO_SMALL
        if form not in (1, 2):
            raise _refused(_BAD_FORMAT)
        encoded = name.encode() if isinstance(name, str) else bytes(memoryview(name))
        while told == _TOO_SMALL:
            room = size.value
            text = ctypes.create_string_buffer(room + 1)
            told = self._calls["dump"](self._handle, form, encoded, len(encoded), text, room, size)
        if told != _DONE:
            raise _refused(told)
        return text[: size.value]

    def frombytes(self, lent, /):
        """Replaces what the array holds by that of a dump, of either format, which may be any buffer. ValueError names
        the fault of one that is none; the array is as it was then."""
        with memoryview(lent) as view:
            if not view.c_contiguous:
                raise BufferError("the bytes of the buffer don't stand in a row")
            dump = view.tobytes()
        self._load("load", dump, len(dump))

    def save(self, path, /):
        """Saves the array to a file, as `tobytes` tells it, in place of an old one, at once: a file beside takes its
        name when the disk has it. OSError where the system refuses that; the old file is as it was."""
        path = os.fspath(path)
        told = self._calls["save"](self._handle, _path(path))
        if told != _DONE:
            raise _refused(told, path=path)

    def load(self, path, /):
        """Replaces what the array holds by that of a file, as `frombytes` does."""
        path = os.fspath(path)
        self._load("open", _path(path), path=path)

    def _load(self, call, *words, path=None):
        """Makes the array one of a dump. One call does it, so that no key comes or goes meanwhile."""
        fault = ctypes.c_uint32()
        told = self._change(call, *words, fault)
        if told != _DONE:
            raise _refused(told, fault, path)

    def _made(self, call, words, count, *strings):
        """Makes the array one of so many keys, of which a list of words tells."""
        words, place = words if isinstance(words, ctypes.Array) else (_word * len(words))(*words), ctypes.c_size_t()
        told = self._change(call, *strings, words, count, place)
        if told == _BAD_KEY:
            raise ValueError(f"the key at place {place.value} isn't above the one before it")
        if told == _FULL:
            raise OverflowError("the dict is full")
        if told not in _PUT:
            raise MemoryError

    def _is_like(self, other):
        """Whether another array is of this kind, with keys of the same type."""
        return all(getattr(other, name, None) is getattr(self, name, None) for name in ("_calls", "_objects"))

    def _become_of(self, call, *others):
        """Makes the array what a call makes of others. What the array becomes it becomes by one call, so that no thread
        finds it half made."""
        if not all(map(self._is_like, others)):
            raise TypeError("not an array of this kind")
        handles, made = [other._handle for other in others], _Handle()
        if all(other is not self for other in others):
            told = self._change(call, *handles)
        else:
            told = self._calls[call](made, *handles)
            told = self._change("copy", made) if told == _DONE else told
            self._calls["free"](made)
        if told == _FULL:
            raise OverflowError("the dict is full")
        if told != _DONE:
            raise MemoryError

    def _has(self, call, key, *more):
        """What a call answers for a key; what can be none isn't there."""
        passed = self._passed(key)
        return passed is not None and self._calls[call](self._handle, *passed, *more)


class _Map(_Array):
    """What dicts have alike."""

    def __contains__(self, key):
        return self._has("get", key, _word())

    def __getitem__(self, key):
        value = _word()
        if self._has("get", key, value):
            return value.value
        if hasattr(type(self), "__missing__"):
            return type(self).__missing__(self, key)
        raise KeyError(key)

    def _take_out(self, key, value):
        passed = self._passed(key)
        return passed is not None and self._change("remove", *passed, value)

    def __delitem__(self, key):
        if not self._take_out(key, _word()):
            raise KeyError(key)

    def get(self, key, default=None, /):
        """The value of a key, or the default where it isn't there."""
        value = _word()
        return value.value if self._has("get", key, value) else default

    def pop(self, key, default=_MISSING, /):
        """Takes a key out and answers its value, or the default."""
        value = _word()
        if self._take_out(key, value):
            return value.value
        if default is _MISSING:
            raise KeyError(key)
        return default


class _Words(_Array):
    """What sets and dicts of words have alike."""

    @staticmethod
    def _passed(key):
        if not hasattr(type(key), "__index__"):
            return None
        word = whole(key)
        return (word,) if 0 <= word <= MAX else None

    def _found(self, name, word):
        found = _word()
        return found.value if self._calls[name](self._handle, word, found) else None

    def _within(self, name, number):
        """A search from a number on, or down; one past the words' end on its own side finds nothing, past the other one
        all."""
        word, down = whole(number), name.startswith("last")
        if (word < 0) if down else (word > MAX):
            return None
        return self._found(name, min(max(word, 0), MAX))

    def at_or_after(self, word):
        """The least key from a number on, or None."""
        return self._within("first", word)

    def at_or_before(self, word):
        """The greatest key up to a number, or None."""
        return self._within("last", word)

    def absent_at_or_after(self, word):
        """The least word from a number on that is no key, or None."""
        return self._within("first_empty", word)

    def absent_at_or_before(self, word):
        """The greatest word up to a number that is no key, or None."""
        return self._within("last_empty", word)

    def bisect_left(self, number):
        """How many keys there are below a number."""
        return self.bisect_right(whole(number) - 1)

    def bisect_right(self, number):
        """How many keys there are up to a number."""
        word = whole(number)
        return self._calls["count"](self._handle, 0, min(word, MAX)) if word >= 0 else 0

    def _at(self, place):
        if isinstance(place, slice):
            found = (self._found("by_count", n + 1) for n in range(*place.indices(len(self))))
            return [key for key in found if key is not None]
        return self._told_at(place, "by_count", _word())[0]

    def _told_at(self, place, name, *told):
        at = whole(place)
        at += len(self) if at < 0 else 0
        if 0 <= at < MAX and self._calls[name](self._handle, at + 1, *told):
            return tuple(each.value for each in told)
        raise IndexError(f"no key at place {place!r}")

    def _remove_range(self, low, high):
        """Takes the keys from one word to another out, and answers how many they were."""
        return self._change("remove_range", _checked(low), _checked(high))

    def _keep_range(self, low, high):
        """Takes all other keys out, and answers how many they were."""
        return self._change("retain_range", _checked(low), _checked(high))

    def _put_at_once(self, words, width):
        """Puts items of a buffer into an empty array at once, if there is memory for that."""
        return len(words) and not _Array.__len__(self) and self._change("from_unsorted", words, len(words) // width) == _DONE

    def _cursor(self, part, low, high, reverse):
        name, key, value = ("last" if reverse else "first"), _word(), _word()
        call = self._calls[name if part == KEYS else name + "_entry"]
        told = (key,) if part == KEYS else (key, value)
        at = high if reverse else low
        while low <= at <= high and call(self._handle, at, *told) and low <= key.value <= high:
            found = key.value
            yield found if part == KEYS else value.value if part == VALUES else (found, value.value)
            at = found - 1 if reverse else found + 1


# The call that makes what is wanted of two sets, and which of these it is given.
_COMBINED = {
    FIRST: ("difference", 0, 1),
    BOTH: ("intersection", 0, 1),
    SECOND: ("difference", 1, 0),
    FIRST | BOTH: ("copy", 0),
    FIRST | SECOND: ("symmetric_difference", 0, 1),
    BOTH | SECOND: ("copy", 1),
    FIRST | BOTH | SECOND: ("union", 0, 1),
}


class WordSet(_Words):
    _kind = _word_calls("judy1", unset=(_word,), test=(_word,)) | {
        "set": _call("judy1_set", ctypes.c_uint32, _word),
        "from_keys": _call("judy1_from_sorted", ctypes.c_uint32, *_sorted),
        "list_keys": _call("judy1_walk", ctypes.c_size_t, _word, _slot, ctypes.c_size_t),
        **{name: _call(f"judy1_{name}", ctypes.c_uint32, _word, _word) for name in ("insert_range", "flip")},
    }

    def __contains__(self, key):
        return self._has("test", key)

    def __getitem__(self, place):
        return self._at(place)

    def add(self, key):
        """Puts a key in. MemoryError where there is no memory for it; the set is as it was then."""
        if self._calls["set"](self._handle, _checked(key)) == _NO_MEMORY:
            raise MemoryError

    def discard(self, key):
        """Takes a key out, where it is there."""
        self._has("unset", key)

    def remove(self, key):
        """Takes a key out; KeyError where it isn't there."""
        if not self._has("unset", key):
            raise KeyError(key)

    def contains_many(self, keys, /, out=None):
        """Whether each of the keys of an iterable is there, in a list; or in a buffer of bytes, and then how many
        are."""
        if out is None:
            return [WordSet.__contains__(self, key) for key in keys]
        keys, out = _two_lists(keys, out, _BYTES, True)
        told = bytes(self._calls["test"](self._handle, key) for key in keys)
        out[:] = told
        return sum(told)

    def _fill(self, keys):
        words = _lent(keys, 1)
        if words is not None and self._put_at_once(words, 1):
            return
        for key in keys if words is None else words:
            WordSet.add(self, key)

    def _pick(self, keys):
        for key in keys:
            if WordSet._passed(key):
                WordSet.add(self, key)

    def _write(self, _, out):
        """Writes all keys into a buffer, and answers how many they are."""
        keys, view = WordSet._keys(self), _list_of(out, _WORDS, True)
        if len(keys) > len(view):
            raise ValueError(f"the buffer has room for {len(view)} words, and {len(keys)} are needed")
        view[: len(keys)] = array("Q", keys)
        return len(keys)

    def _keys(self):
        """All keys. One call tells them, so that none comes or goes meanwhile."""
        while True:
            room = _Array.__len__(self) + 1
            keys = (_word * room)()
            count = self._calls["list_keys"](self._handle, 0, keys, room)
            if count < room:
                return keys[:count]

    def _combine(self, wanted, first, second):
        if not (isinstance(first, WordSet) and isinstance(second, WordSet)):
            raise TypeError("not a set of words")
        # The library is never handed one set twice.
        if first is second:
            wanted = FIRST | BOTH if wanted & BOTH else 0
        if not wanted:
            return self.clear()
        call, *places = _COMBINED[wanted]
        self._become_of(call, *((first, second)[place] for place in places))

    def _common(self, second):
        return _Array.__len__(self) if self is second else self._calls["intersection_count"](self._handle, second._handle)

    def _count_of(self, wanted, second):
        common = WordSet._common(self, second)
        counts = (FIRST, _Array.__len__(self) - common), (BOTH, common), (SECOND, _Array.__len__(second) - common)
        return sum(count for whose, count in counts if wanted & whose)

    def _has_any(self, wanted, second):
        return WordSet._count_of(self, wanted, second) > 0

    def _change_range(self, call, low, high):
        had = _Array.__len__(self)
        if self._change(call, _checked(low), _checked(high)) != _DONE:
            raise MemoryError
        return _Array.__len__(self) - had

    def _put_range(self, low, high):
        """Puts the words from one to another in, and answers how many were absent."""
        return self._change_range("insert_range", low, high)

    def _flip(self, low, high):
        """Takes the keys from one word to another out, and puts the other words in; how many keys more there are."""
        return self._change_range("flip", low, high)

    def _make(self, keys):
        words = _lent(keys, 1)
        if words is None:
            words = [key for key, _ in _ascending((_checked(key), None) for key in keys)]
        self._made("from_keys", words, len(words))


_ENTRY = (_word, _slot, _slot)


class WordMap(_Words, _Map):
    _kind = _word_calls("judyl", get=(_word, _slot), remove=(_word, _slot), **dict.fromkeys(("first_entry", "last_entry", "by_count_entry"), _ENTRY)) | {
        "put": _call("judyl_put", ctypes.c_uint32, _word, _word),
        "from_pairs": _call("judyl_from_sorted", ctypes.c_uint32, *_sorted),
        "list_pairs": _call("judyl_walk", ctypes.c_size_t, _word, _slot, ctypes.c_size_t),
    }

    def __setitem__(self, key, value):
        if self._calls["put"](self._handle, _checked(key), _checked(value)) == _NO_MEMORY:
            raise MemoryError

    def _pair_at(self, place):
        return self._told_at(place, "by_count_entry", _word(), _word())

    def _copy(self, other):
        self._become_of("copy", other)

    def _join(self, other):
        if other is not self:
            self._become_of("union", other, self)

    def get_many(self, keys, /, out=None):
        """The values of the keys of an iterable, in a list, with None where one isn't there; or in a buffer, and then
        how many are there."""
        if out is None:
            return [WordMap.get(self, key) for key in keys]
        (keys, out), value, count = _two_lists(keys, out, _WORDS, True), _word(), 0
        for place, key in enumerate(keys):
            if self._calls["get"](self._handle, key, value):
                out[place], count = value.value, count + 1
        return count

    def _fill(self, pairs):
        words = _lent(pairs, 2)
        if words is not None and self._put_at_once(words, 2):
            return
        for key, value in pairs if words is None else zip(words[::2], words[1::2]):
            WordMap.__setitem__(self, key, value)

    def _fill_of(self, keys, values):
        for key, value in zip(*_two_lists(keys, values, _WORDS, False)):
            WordMap.__setitem__(self, key, value)

    def _make(self, pairs):
        words = _lent(pairs, 2)
        if words is None:
            words = [word for pair in _ascending((_checked(key), _checked(value)) for key, value in pairs) for word in pair]
        self._made("from_pairs", words, len(words) // 2)

    def _make_of(self, keys, values):
        keys, values = _two_lists(keys, values, _WORDS, False)
        pairs = (_word * (2 * len(keys)))()
        pairs[::2], pairs[1::2] = keys.tolist(), values.tolist()
        self._made("from_pairs", pairs, len(keys))

    def _write(self, part, out):
        """Writes all keys or values into a buffer, and answers how many they are."""
        view, count = _list_of(out, _WORDS, True), _Array.__len__(self)
        if count > len(view):
            raise ValueError(f"the buffer has room for {len(view)} words, and {count} are needed")
        pairs = (_word * (2 * count))()
        self._calls["list_pairs"](self._handle, 0, pairs, count)
        words = pairs[::2] if part == KEYS else pairs[1::2]
        view[:count] = array("Q", words)
        return count


class _Strings(_Map):
    """What maps from strings have alike. `_bytes` is a key's bytes, or a TypeError."""

    def _passed(self, key):
        try:
            key = self._bytes(key)
        except TypeError:
            return None
        return key, len(key)

    def __setitem__(self, key, value):
        word, string = _checked(value), self._bytes(key)
        told = self._change("put", string, len(string), word)
        if told == _BAD_KEY:
            raise _bad_key(key)
        if told == _FULL:
            raise OverflowError("the dict is full")
        if told not in _PUT:
            raise MemoryError

    def shrink(self):
        """Gives back memory that deletes left free."""
        self._calls["shrink"](self._handle)


def _cut(text, ends):
    """The parts of a text that end at these places."""
    return [text[begin:end] for begin, end in zip([0, *ends], ends)]


class _Text:
    def _load(self, call, *words, path=None):
        """What is loaded goes into a map from bytes first, whose keys must be str."""
        made = self._of_bytes()
        made._load(call, *words, path=path)
        try:
            for key in made._all_keys():
                self._object(key)
        except UnicodeDecodeError:
            raise ValueError("not-text: the bytes of a key are no str in UTF-8") from None
        dump = made.tobytes()
        super()._load("load", dump, len(dump))

    @staticmethod
    def _bytes(key):
        if not isinstance(key, str):
            raise TypeError(f"not a str: {key!r}")
        # As str does it: C is told how many bytes these are, and a subclass might answer others.
        return str.encode(key, "utf-8", "surrogatepass")

    @staticmethod
    def _object(key):
        return key.decode("utf-8", "surrogatepass")

    @staticmethod
    def _objects(text, ends):
        """The keys that stand one behind the other in a text, and end at these places."""
        if text.isascii():
            return _cut(text.decode("ascii"), ends)
        return [_Text._object(key) for key in _cut(text, ends)]


class _Bytes:
    _objects = staticmethod(_cut)

    @staticmethod
    def _bytes(key):
        return bytes(memoryview(key))

    @staticmethod
    def _object(key):
        return key


def _could_be_key(string):
    """The longest beginning of bytes that can be a key of a JudySL, and whether it is all of them. Where it isn't, no
    key lies between the two: the bytes go on with a zero."""
    key = string.partition(b"\0")[0]
    return key, len(key) == len(string)


# How many bytes a key has room for at first, how many pairs a walk through strings takes at most, and how many bytes
# their keys have then, but for longer ones; and so many times as many pairs as a page has the next one.
_SHORT, _PAIRS, _ROOM, _GROWTH = 1024, 256, 16 * 1024, 8


def _entries_of(words, count):
    """Where each key ends that a walk told, and the values."""
    told = words[: 2 * count]
    return list(accumulate(told[::2])), told[1::2]


class _OrderedStrings(_Strings):
    _kind = _string_calls("judysl", "first", "next", "last", "prev") | {
        "count": _call("judysl_count", _word, *_key, *_key),
        "longest": _call("judysl_longest", ctypes.c_size_t),
        "by_count": _call("judysl_by_count", ctypes.c_uint32, _word, *_buffer),
        "from_strings": _call("judysl_from_sorted", ctypes.c_uint32, *_key, *_sorted),
        "walk": _call("judysl_walk", ctypes.c_size_t, *_key, ctypes.c_bool, *_key, _slot, ctypes.c_size_t),
        "longest_prefix": _call("judysl_longest_prefix", ctypes.c_bool, *_key, ctypes.POINTER(ctypes.c_size_t), _slot),
        "remove_range": _call("judysl_remove_range", _word, *_key, *_key),
        "remove_prefix": _call("judysl_remove_prefix", _word, *_key),
        **_two_calls("judysl"),
    }

    def _begin(self, _):
        # Others may see how far an update is, since they run between its steps.
        return ()

    def _read(self, pairs):
        for key, value in pairs:
            word, string = _checked(value), self._bytes(key)
            if not _could_be_key(string)[1]:
                raise _bad_key(key)
            yield string, word

    def _make(self, pairs):
        pairs = list(_ascending(self._read(pairs)))
        text, entries = b"".join(key for key, _ in pairs), [word for key, value in pairs for word in (len(key), value)]
        self._made("from_strings", entries, len(pairs), text, len(text))

    def _copy(self, other):
        self._become_of("copy", other)

    def _join(self, other):
        if other is not self:
            self._become_of("union", other, self)

    def _gone(self, call, *words):
        """How many keys a call takes out."""
        count = self._change(call, *words)
        if count == MAX:
            raise MemoryError
        return count

    def _remove_range(self, low, high):
        """Takes the keys from one string to another out, and answers how many they were."""
        return self._gone("remove_range", low, len(low), high, len(high))

    def _longest_prefix(self, string):
        """How many bytes the longest key has that begins a string, or None."""
        length, value = ctypes.c_size_t(), _word()
        return length.value if self._calls["longest_prefix"](self._handle, string, len(string), length, value) else None

    def _remove_prefix(self, prefix):
        """Takes the keys out that begin with a string, and answers how many they were."""
        return self._gone("remove_prefix", prefix, len(prefix))

    def bisect_left(self, string):
        """How many keys there are below a string."""
        return self.bisect_right(string) - (string in self)

    def bisect_right(self, string):
        """How many keys there are up to a string."""
        key, _ = _could_be_key(self._bytes(string))
        return self._calls["count"](self._handle, b"", 0, key, len(key))

    def _key_at(self, place):
        return self._item_at(place)[0]

    def _item_at(self, place):
        at = whole(place)
        at += len(self) if at < 0 else 0
        found = self._search("by_count", b"", at + 1) if 0 <= at < MAX else None
        if found is None:
            raise IndexError(f"no key at place {place!r}")
        return self._object(found[0]), found[1]

    def _search(self, call, key, *words):
        """The bytes and the value of the key that a call finds beside another one, or None. Where it has no room the
        value tells how many bytes it has."""
        room = max(len(key), _SHORT)
        while True:
            text, length, value = ctypes.create_string_buffer(key, room), ctypes.c_size_t(len(key)), _word()
            told = self._calls[call](self._handle, *words, text, room, length, value)
            if told != _TOO_SMALL:
                return (text[: length.value], value.value) if told == _FOUND else None
            room = value.value

    def _cursor(self, part, low, high, reverse):
        return self._down(part, low, high) if reverse else self._up(part, low, high)

    def _with_prefix(self, prefix):
        """A walk through the keys that begin with a string."""
        for key in self._up(KEYS, prefix, None):
            if not self._bytes(key).startswith(prefix):
                return
            yield key

    def _down(self, part, low, high):
        """A walk from a bound down. Each step is a search beside the key given last; below that pages follow, where the
        map hasn't changed since and many such keys fit one."""
        # No key is above as many bytes of 0xff as the longest one has.
        start, scan = b"\xff" * self._calls["longest"](self._handle) if high is None else _could_be_key(high)[0], "last"
        key, length, value = ctypes.create_string_buffer(start, max(len(start), _SHORT)), ctypes.c_size_t(len(start)), _word()
        while (told := self._calls[scan](self._handle, key, len(key), length, value)) in (_FOUND, _TOO_SMALL):
            if told == _TOO_SMALL:
                key = ctypes.create_string_buffer(key[: length.value], value.value)
                continue
            changes, found, scan = self._changes, key[: length.value], "prev"
            if low is not None and found < low:
                return
            yield value.value if part == VALUES else self._object(found) if part == KEYS else (self._object(found), value.value)
            if self._changes is changes and 64 * len(found) <= _ROOM:
                found = yield from self._pages_down(part, low, found)
                if found is None:
                    return
                key, length.value = ctypes.create_string_buffer(found, max(len(found), len(key))), len(found)

    def _pages_down(self, part, low, last):
        """The pages of a walk down below a key, until the map changes or keys are long. It answers the key given last,
        or None where the walk is over."""
        most = _GROWTH
        while page := self._page_below(last, most):
            changes, text, ends, values = page
            below, told = self._below(text, ends, low), [*self._parts(part, text, ends, values)]
            for at in reversed(range(below, len(ends))):
                yield told[at]
                if self._changes is not changes:
                    return text[ends[at - 1] if at else 0 : ends[at]]
            if below > 0:
                return None
            last, most = text[: ends[0]], min(_GROWTH * most, _PAIRS, _ROOM * len(ends) // (len(text) + 1) - 1)
        return last

    def _up(self, part, low, high):
        """A walk from a bound up. A call tells many pairs, and the next ones anew where the map has changed."""
        (last, itself), most = _could_be_key(low or b""), 1
        while True:
            changes, (text, ends, values) = self._changes, self._page(last, itself, most)
            count = self._upto(text, ends, high)
            for at, told in enumerate(self._parts(part, text, ends[:count], values[:count])):
                yield told
                if self._changes is not changes:
                    break
            if count == 0 or (count < len(ends) and self._changes is changes):
                return
            last, itself = text[ends[at - 1] if at else 0 : ends[at]], False
            most = 1 if self._changes is not changes else min(_GROWTH * most, _PAIRS)

    @staticmethod
    def _upto(text, ends, high):
        """How many keys of a page there are up to a bound."""
        if high is None or not ends or text[ends[-2] if len(ends) > 1 else 0 :] <= high:
            return len(ends)
        return bisect_right(_cut(text, ends), high)

    @staticmethod
    def _below(text, ends, low):
        """How many keys of a page there are below a bound."""
        return 0 if low is None or text[: ends[0]] >= low else bisect_left(_cut(text, ends), low)

    def _parts(self, part, text, ends, values):
        if part == VALUES:
            return values
        keys = self._objects(text, ends)
        return keys if part == KEYS else zip(keys, values)

    def _page(self, key, itself, most):
        """The first pairs from a key on, or behind it: the keys' bytes, where each ends, and the values. A key that is
        too long for a page is alone."""
        room = min(most * _SHORT, _ROOM)
        text, entries = ctypes.create_string_buffer(room), (_word * (2 * most))()
        count = self._calls["walk"](self._handle, key, len(key), itself, text, room, entries, most)
        if count:
            ends, values = _entries_of(entries, count)
            return text[: ends[-1]], ends, values
        found = self._search("first" if itself else "next", key)
        return (found[0], [len(found[0])], [found[1]]) if found else (b"", [], [])

    def _page_below(self, key, most):
        """What `_changes` was, and the last pairs below a key, as `_page` tells them: those that one call tells before
        the key itself, whatever others do to the map meanwhile. None where the key is gone or the first, or where none
        has a place."""
        while most > 1:
            changes, upto = self._changes, self._calls["count"](self._handle, b"", 0, key, len(key))
            most = min(most, upto - 1)
            first = self._search("by_count", b"", upto - most) if most > 0 else None
            text, ends, values = self._page(first[0], True, most + 1) if first else (b"", [], [])
            if len(ends) > most > 0:
                return (changes, text[: ends[-2]], ends[:-1], values[:-1]) if text[ends[-2] :] == key else None
            most = len(ends) - 1
        return None


class BytesMap(_Bytes, _OrderedStrings):
    def _all_keys(self):
        return self._cursor(KEYS, None, None, False)


class TextMap(_Text, _OrderedStrings):
    _of_bytes = BytesMap


class _Hash(_Strings):
    # The keys that `popitem` takes out next, of which some may be gone.
    __slots__ = ("_ahead",)

    _kind = _string_calls("judyhs") | {
        "walk": _call("judyhs_walk", ctypes.c_bool, ctypes.c_size_t, *_key, _slot, ctypes.c_size_t, ctypes.POINTER(ctypes.c_size_t))
    }

    def clear(self):
        """Takes every key out and gives the memory back."""
        self._ahead = _NONE
        super().clear()

    def _load(self, call, *words, path=None):
        super()._load(call, *words, path=path)
        self._ahead = _NONE

    def popitem(self):
        """Takes out a pair, which may be any, and answers it; KeyError where the dict is empty. Keys are listed an
        eighth of them at a time."""
        while count := _Array.__len__(self):
            key = next(getattr(self, "_ahead", _NONE), _MISSING)
            if key is _MISSING:
                self._ahead = iter(self._told(KEYS, min(count, count // 8 + 64)))
                continue
            value = _Hash.pop(self, key, None)
            if value is not None:
                return key, value
        raise KeyError("popitem(): dictionary is empty")

    def _list(self, part):
        return self._told(part, _Array.__len__(self))

    def _told(self, part, most):
        """The first keys of a walk. They are told by one call, so that none comes or goes meanwhile."""
        room, count = 64 * (most + 16), ctypes.c_size_t()
        while True:
            text, entries = ctypes.create_string_buffer(room), (_word * (2 * most + 1))()
            if not self._calls["walk"](self._handle, 0, text, room, entries, most, count):
                raise MemoryError
            if count.value == min(most, _Array.__len__(self)):
                break
            room *= 4
        ends, values = _entries_of(entries, count.value)
        if part == VALUES:
            return values
        keys = self._objects(text[: ends[-1] if ends else 0], ends)
        return keys if part == KEYS else list(zip(keys, values))


class BytesHash(_Bytes, _Hash):
    def _all_keys(self):
        return self._list(KEYS)


class TextHash(_Text, _Hash):
    _of_bytes = BytesHash
