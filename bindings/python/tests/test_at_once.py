"""Arrays that are made at once of keys that ascend, beside ones that these are put into one by one."""

import ctypes
import random
import threading
import unittest

from sellumaq import BINDING, MAX, Judy1, JudyL, JudySL, JudySLBytes

TEXTS, BYTES = ("az\x01\u00e4\ud800\uffff\U0001f600", b"az\x01\xff")


def word(chance):
    return chance.choice([chance.randrange(64), MAX - chance.randrange(64), chance.randrange(4096) * 16, chance.getrandbits(64)])


def string(chance, letters):
    each = [letters[at : at + 1] for at in range(len(letters))]
    return each[0] * chance.choice([0, 0, 7, 8, 9, 40]) + letters[:0].join(chance.choices(each, k=chance.randrange(4)))


KEYS = {Judy1: word, JudyL: word, JudySL: lambda chance: string(chance, TEXTS), JudySLBytes: lambda chance: string(chance, BYTES)}


def item(kind, key, value):
    return key if kind is Judy1 else (key, value)


def put(array, it):
    if isinstance(array, Judy1):
        array.add(it)
    else:
        key, value = it
        array[key] = value


def held(array):
    return list(array) if isinstance(array, Judy1) else list(array.items())


def error_of(call, *words):
    """The kind of the error that a call ends with, and what it says; None where it doesn't."""
    try:
        call(*words)
    except Exception as error:
        return type(error), str(error)
    return None


def fill(array, items):
    """What update is said to do."""
    for it in items:
        put(array, it)


class Index:
    """A number that does something when it is asked for its value."""

    def __init__(self, number, act=lambda: None):
        self.number, self.act = number, act

    def __index__(self):
        self.act()
        return self.number


class FromSorted(unittest.TestCase):
    def test_keys_that_ascend_make_the_array(self):
        for kind, key in KEYS.items():
            chance = random.Random(5)
            for count in (0, 1, 2, 33, 300, 3000):
                pairs = sorted({key(chance): chance.getrandbits(64) for _ in range(count)}.items())
                items = [item(kind, *pair) for pair in pairs]
                for array in (kind.from_sorted(items), kind.from_sorted(iter(items)), kind(items), kind(iter(items))):
                    self.assertEqual((held(array), len(array), type(array)), (items, len(items), kind))
                array = kind.from_sorted(items)
                for key_of, _ in pairs[::2]:
                    self.assertEqual(array.discard(key_of) if kind is Judy1 else array.pop(key_of) is None, None if kind is Judy1 else False)
                self.assertEqual(held(array), items[1::2])
                self.assertEqual(held(array.copy()), items[1::2])
        self.assertEqual(JudyL.from_sorted({1: 2, 3: 4}), {1: 2, 3: 4})
        self.assertEqual(JudySLBytes.from_sorted([(bytearray(b"a"), 1), (memoryview(b"b"), 2)]), {b"a": 1, b"b": 2})
        self.assertEqual(Judy1.from_sorted([Index(5), True + 5, 2**64 - 1]), {5, 6, 2**64 - 1})
        self.assertEqual(JudyL.from_sorted([[1, 2], "34" and (3, Index(4))]), {1: 2, 3: 4})

    def test_another_array_of_the_kind(self):
        class Kept(JudySL):
            pass

        self.assertIs(type(Kept.from_sorted([("a", 1)])), Kept)
        self.assertEqual(held(Judy1.from_sorted(Judy1([3, 1, 2]))), [1, 2, 3])
        self.assertEqual(held(JudySL.from_sorted(JudySL(b=1, a=2))), [("a", 2), ("b", 1)])

    def test_the_first_key_that_does_not_ascend_is_told(self):
        for kind, keys in ((Judy1, [0, 3, 3, 2]), (JudyL, [5, 7, 6, 1]), (JudySL, ["", "ab", "a", ""]), (JudySLBytes, [b"b", b"c", b"c", b"a"])):
            told = error_of(kind.from_sorted, [item(kind, key, 1) for key in keys])
            self.assertEqual(told, (ValueError, "the key at place 2 isn't above the one before it"))
        keys = [*range(1000), 999]
        self.assertEqual(error_of(Judy1.from_sorted, keys), (ValueError, "the key at place 1000 isn't above the one before it"))
        # no more is asked for
        each = iter([1, 1, 2])
        self.assertRaises(ValueError, Judy1.from_sorted, each)
        self.assertEqual(list(each), [2])

    def test_what_is_no_key_is_told_as_ever(self):
        wrong = {
            Judy1: [-1, 2**64, 1.5, "a", None],
            JudyL: [(-1, 1), (2**64, 1), ("a", 1), (9, -1), (9, 2**64), (9, None)],
            JudySL: [("a\0", 1), ("b" * 3000 + "\0", 1), (b"b", 1), (5, 1), ("b", -1), ("b", None)],
            JudySLBytes: [(b"a\0", 1), (b"b" * 3000 + b"\0", 1), (bytearray(3000), 1), ("b", 1), (b"b", 2**64)],
        }
        first = {Judy1: 1, JudyL: (1, 1), JudySL: ("a", 1), JudySLBytes: (b"a", 1)}
        for kind, items in wrong.items():
            for it in items:
                told = error_of(put, kind(), it)
                self.assertIsNotNone(told)
                self.assertEqual((it, error_of(kind.from_sorted, [first[kind], it])), (it, told))
        for kind in (JudyL, JudySL):
            for it, error in (((1, 2, 3), ValueError), ((), ValueError), (5, TypeError)):
                self.assertRaises(error, kind.from_sorted, [it])
            self.assertRaises(TypeError, kind.from_sorted, 5)
        self.assertRaises(TypeError, Judy1.from_sorted, None)

    def test_an_iterable_that_raises(self):
        def items(kind):
            yield item(kind, KEYS[kind](random.Random(1)), 1)
            raise LookupError("here")

        for kind in KEYS:
            self.assertEqual(error_of(kind.from_sorted, items(kind)), (LookupError, "here"))


class Filled(unittest.TestCase):
    """The constructors and update do as one who puts the items in one by one, whatever the items are."""

    def same(self, kind, iterable, items):
        told, expected = kind(), kind()
        errors = error_of(told.update, iterable), error_of(fill, expected, items)
        self.assertEqual((errors[0], held(told)), (errors[1], held(expected)))
        if errors[0] is None:
            self.assertEqual(held(kind(iterable)), held(expected))
        else:
            self.assertEqual(error_of(kind, iterable), errors[1])

    def test_lists_that_ascend_for_a_while(self):
        strange = {
            Judy1: [-1, 2**64, "a", True, Index(7), None],
            JudyL: [(-1, 1), (5, -1), (True, True), (Index(7), 8), ("a", 1), (1, None), [3, 4]],
            JudySL: [("a\0", 1), ("b" * 2000, 1), ("b" * 2000 + "\0", 1), (5, 1), ("a", -1), ("a", True), ["b", 2]],
            JudySLBytes: [(b"a\0", 1), (bytearray(b"b"), 1), (b"b" * 2000, 1), (b"b" * 2000 + b"\0", 1), ("a", 1), (memoryview(b"c"), 3)],
        }
        for kind, key in KEYS.items():
            chance = random.Random(6)
            for turn in range(300):
                keys = sorted({key(chance) for _ in range(chance.choice([0, 1, 5, 100]))})
                for _ in range(chance.choice([0, 0, 1, 3])):
                    keys.insert(chance.randrange(len(keys) + 1), key(chance))
                items = [item(kind, it, chance.getrandbits(64)) for it in keys]
                if turn % 3 == 0:
                    items.insert(chance.randrange(len(items) + 1), chance.choice(strange[kind]))
                for iterable in (items, tuple(items)):
                    self.same(kind, iterable, items)

    def test_iterables_of_all_kinds(self):
        keys = [1, 5, 6, 2**40, MAX]
        for iterable in (range(100), range(3, 10**6, 997), range(MAX - 3, MAX + 1), range(MAX - 3, MAX + 3), range(9, 0, -1), set(keys), frozenset(range(50)),
                         dict.fromkeys(keys), dict.fromkeys(keys).keys(), dict(zip("abcde", keys)).values(), Judy1(keys), JudyL.fromkeys(keys), b"abc"):
            self.same(Judy1, iterable, list(iterable))
        for pairs in ({1: 2, 3: 4}, {3: 4, 1: 2}, {}, {1: 2, "a": 3, 4: 5}, JudyL({7: 8, 1: 2})):
            self.same(JudyL, pairs, list(pairs.items()))
            self.same(JudyL, pairs.items(), list(pairs.items()))
        for pairs in ({"a": 1, "b": 2}, {"b": 1, "a": 2}, {"a": 1, 5: 2}, JudySL(b=1, a=2), {"\ud800": 1, "\uffff": 2}):
            self.same(JudySL, pairs, list(pairs.items()))
        self.assertEqual(held(JudySL(b=1, c=2)), [("b", 1), ("c", 2)])
        self.assertEqual(held(JudySL({"c": 1}, a=2)), [("a", 2), ("c", 1)])
        self.assertEqual(held(JudySL.fromkeys("abc", 4)), [("a", 4), ("b", 4), ("c", 4)])
        array = Judy1([4, 9])
        array.update([1, 2, 3], [10, 11])
        self.assertEqual(held(array), [1, 2, 3, 4, 9, 10, 11])
        array.__init__([5, 6])
        self.assertEqual(held(array), [5, 6])

    def test_an_iterable_that_raises_leaves_what_came_before(self):
        for kind, key in KEYS.items():
            keys = sorted({key(random.Random(n)) for n in range(100)})
            items = [item(kind, it, 1) for it in keys]

            def raising():
                yield from items
                raise LookupError("here")

            array = kind()
            self.assertEqual(error_of(array.update, raising()), (LookupError, "here"))
            self.assertEqual(held(array), items)

    def test_what_looks_at_the_array_meanwhile_sees_what_came_before(self):
        for kind, key in KEYS.items():
            items = [item(kind, it, 1) for it in sorted({key(random.Random(n)) for n in range(100)})]
            array, seen = kind(), []

            def looking():
                for it in items:
                    seen.append(len(array))
                    yield it

            array.update(looking())
            self.assertEqual(seen, list(range(len(items))))

            class Looking(list):
                def __iter__(self):
                    return looking()

            array.clear(), seen.clear()
            array.update(Looking(items))
            self.assertEqual(seen, list(range(len(items))))

    def test_a_number_clears_the_array_that_a_list_fills(self):
        words = Judy1()
        words.update([1, 2, Index(3, words.clear), 4])
        self.assertEqual(held(words), [3, 4])
        pairs = JudyL()
        pairs.update([(1, 1), (2, Index(2, pairs.clear)), (3, 3)])
        self.assertEqual(held(pairs), [(2, 2), (3, 3)])
        texts = JudySL()
        texts.update([("a", 1), ("b", Index(2, texts.clear)), ("c", 3)])
        self.assertEqual(held(texts), [("b", 2), ("c", 3)])
        # what from_sorted makes takes the place of what was there
        words = Judy1([1])
        words._make([2, Index(3, lambda: words.update(range(100))), 5])
        self.assertEqual(held(words), [2, 3, 5])

    def test_a_dict_that_puts_pairs_in_by_itself_is_asked(self):
        class Doubled(JudySL):
            def __setitem__(self, key, value):
                super().__setitem__(key, 2 * value)

        self.assertEqual(held(Doubled({"a": 1, "b": 2})), [("a", 2), ("b", 4)])
        self.assertEqual(held(Doubled.from_sorted({"a": 1, "b": 2})), [("a", 1), ("b", 2)])

    def test_copies_of_all_sizes_and_of_subclasses(self):
        for kind, key in KEYS.items():
            class Own(kind):
                def __setitem__(self, key, value):
                    raise LookupError("a copy doesn't ask")

            chance = random.Random(9)
            for count in (0, 1, 2, 60, 300, 3000):
                items = [item(kind, *pair) for pair in sorted({key(chance): chance.getrandbits(64) for _ in range(count)}.items())]
                for array in (kind(items), Own.from_sorted(items)):
                    made = array.copy()
                    self.assertEqual((held(made), type(made)), (items, type(array)))
        for times in (256, 5000, 20_000):
            long = [(b"%04d" % n * times, n) for n in range(9)]
            self.assertEqual(held(JudySLBytes(long).copy()), long)
        for kind, others in ((JudyL, (Judy1(), JudySL(), {}, None)), (JudySL, (JudySLBytes(), JudyL(), {}, None)), (JudySLBytes, (JudySL(), None))):
            for other in others if BINDING == "extension" else ():
                self.assertRaises(TypeError, kind()._copy, other)
            self.assertRaises(TypeError, kind()._copy)

    def test_a_walk_goes_on_in_an_array_that_is_filled(self):
        for kind in KEYS:
            keys = [1, 5, 9] if kind in (Judy1, JudyL) else ["a", "b", "c"] if kind is JudySL else [b"a", b"b", b"c"]
            items = [item(kind, key, 1) for key in keys]
            array = kind()
            walk = iter(array)
            array.update(items)
            self.assertEqual(list(walk), keys)
            walk = iter(array)
            self.assertEqual(next(walk), keys[0])
            array.clear()
            array.update(items[1:])
            self.assertEqual(list(walk), keys[1:])
            walk = iter(array)
            next(walk)
            array._make(items[2:])
            self.assertEqual(list(walk), keys[2:])

    def test_an_array_fills_itself(self):
        for kind in KEYS:
            array = kind()
            array.update(array)
            array.update(iter(array) if kind is Judy1 else array.items())
            self.assertEqual(held(array), [])

    def test_threads_fill_one_array(self):
        for kind in (Judy1, JudyL):
            for _ in range(20):
                array = kind()
                lists = [[item(kind, n, n) for n in range(first, 4000, 4)] for first in range(4)]
                threads = [threading.Thread(target=array.update, args=(items,)) for items in lists]
                for thread in threads:
                    thread.start()
                for thread in threads:
                    thread.join()
                self.assertEqual(held(array), [item(kind, n, n) for n in range(4000)])


# As in test_arrays.
refuse_from = getattr(ctypes.CDLL(None), "refuse_from", None)


@unittest.skipUnless(refuse_from, "nothing is preloaded that refuses memory")
class WithoutMemory(unittest.TestCase):
    def refused_in_turn(self, call, after):
        """Makes a call whose first call for memory is refused and each later one, then its second, and so on until it
        succeeds. What it answers then, and how often it was refused; `after` is called behind each refusal."""
        failed = 0
        while True:
            refuse_from(failed + 1)
            try:
                told = call()
                return told, failed
            except MemoryError:
                self.assertGreater(refuse_from(0), 0)
                after()
                failed += 1
            finally:
                refuse_from(0)

    def items(self, kind):
        words = sorted({*range(40), *(n << 16 for n in range(1, 60)), *(n * 0x9E3779B97F4A7C15 & MAX for n in range(1, 400))})
        texts = sorted(f"{'shared ' * (n % 4 * 3)}{n}" for n in range(400))
        keys = {Judy1: words, JudyL: words, JudySL: texts, JudySLBytes: [text.encode() for text in texts]}[kind]
        return [item(kind, key, n) for n, key in enumerate(keys)]

    def test_arrays_that_are_made_at_once(self):
        for kind in KEYS:
            items = self.items(kind)
            made, failed = self.refused_in_turn(lambda: kind.from_sorted(items), lambda: None)
            self.assertEqual(held(made), items)
            self.assertGreater(failed, 5)
            kept = kind(items[:3])
            self.refused_in_turn(lambda: kept._make(items), lambda: self.assertEqual(held(kept), items[:3]))
            self.assertEqual(held(kept), items)

    def test_copies(self):
        for kind in KEYS:
            array, items = kind(self.items(kind)), self.items(kind)
            made, failed = self.refused_in_turn(array.copy, lambda: self.assertEqual(held(array), items))
            self.assertEqual((held(made), held(array)), (items, items))
            self.assertGreater(failed, 3)

    def test_arrays_that_are_filled_keep_what_came_before(self):
        for kind in KEYS:
            items, array = self.items(kind), kind()

            def look():
                found = held(array)
                self.assertEqual(found, items[: len(found)])
                array.clear()

            _, failed = self.refused_in_turn(lambda: array.update(items), look)
            self.assertEqual(held(array), items)
            self.assertGreater(failed, 5)


if __name__ == "__main__":
    unittest.main()
