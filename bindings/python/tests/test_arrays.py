"""Sets and dicts beside Python's own."""

import copy
import ctypes
import doctest
import random
import sys
import time
import unittest

import sellumaq
from sellumaq import MAX, MAX_SAVED_KEY, Judy1, JudyHS, JudyHSBytes, JudyL, JudySL, JudySLBytes


def key(words):
    return words.choice([words.randrange(64), MAX - words.randrange(64), words.randrange(4096) * 16, words.getrandbits(64)])


class Words(unittest.TestCase):
    def both(self, array, plain, words):
        """What sets and dicts answer alike."""
        at, low, high = key(words), *sorted((key(words), key(words)))
        self.assertEqual(at in array, at in plain)
        self.assertEqual(len(array), len(plain))
        self.assertEqual(array.at_or_after(at), min((it for it in plain if it >= at), default=None))
        self.assertEqual(array.at_or_before(at), max((it for it in plain if it <= at), default=None))
        self.assertEqual(array.count_range(low, high), sum(low <= it < high for it in plain))
        self.assertEqual(list(array.range(low, high)), sorted(it for it in plain if low <= it < high))

    def test_a_set_is_a_set(self):
        words, array, plain = random.Random(1), Judy1(), set()
        for _ in range(1500):
            it = key(words)
            if words.random() < 0.6:
                array.add(it)
                plain.add(it)
            elif plain and words.random() < 0.7:
                it = words.choice(sorted(plain))
                array.remove(it)
                plain.remove(it)
            else:
                array.discard(it)
                plain.discard(it)
            self.both(array, plain, words)
        self.assertEqual(list(array), sorted(plain))
        self.assertEqual(list(reversed(array)), sorted(plain, reverse=True))
        self.assertEqual(array, plain)
        asked = [key(words) for _ in range(600)] + sorted(plain) + ["no key", MAX + 1]
        self.assertEqual(array.contains_many(asked), [it in plain for it in asked])
        self.assertEqual(array.contains_many(iter(())), [])
        self.assertEqual(array | {1, 2}, plain | {1, 2})
        self.assertEqual(array.nth(3), sorted(plain)[3])
        self.assertEqual(array.absent_at_or_after(0), next(it for it in range(99) if it not in plain))
        self.assertRaises(KeyError, array.remove, -1)
        array.clear()
        self.assertFalse(array)
        self.assertEqual(repr(array), "Judy1()")

    def test_a_dict_is_a_dict(self):
        words, array, plain = random.Random(2), JudyL(), {}
        for _ in range(1500):
            it, value = key(words), words.getrandbits(64)
            if words.random() < 0.7:
                array[it] = plain[it] = value
            else:
                it = words.choice(sorted(plain)) if plain else it
                self.assertEqual(array.pop(it, None), plain.pop(it, None))
            self.both(array, plain, words)
            self.assertEqual(array.get(it), plain.get(it))
        self.assertEqual(list(array.items()), sorted(plain.items()))
        self.assertEqual(array, plain)
        self.assertEqual(JudyL(plain), array)
        asked = [key(words) for _ in range(600)] + sorted(plain) + ["no key", MAX + 1]
        self.assertEqual(array.get_many(asked), [plain.get(it) for it in asked])
        self.assertEqual(array.get_many(iter(())), [])
        self.assertEqual(repr(JudyL({5: 6})), "JudyL({5: 6})")
        self.assertRaises(KeyError, lambda: array["no key"])
        with self.assertRaises(ValueError):
            array[MAX + 1] = 0
        with self.assertRaises(TypeError):
            array[0] = "no word"
        with self.assertRaises(IndexError):
            array.nth(len(plain))

    def test_a_key_that_is_missing_is_asked_of_the_subclass(self):
        for kind in (dict, JudyL, JudySL, JudySLBytes, JudyHS, JudyHSBytes):
            there, absent = (5, 6) if kind in (dict, JudyL) else (b"a", b"b") if kind in (JudySLBytes, JudyHSBytes) else ("a", "b")

            class Asked(kind):
                asked = []

                def __missing__(self, key):
                    self.asked.append(key)
                    if key == absent:
                        self[key] = 7
                        return self[key]
                    self.clear()
                    raise LookupError(key)

            array = Asked({there: 1})
            with self.subTest(kind.__name__):
                self.assertEqual((array.get(absent), absent in array, array.pop(absent, 8), (absent, 7) in array.items(), array.asked), (None, False, 8, False, []))
                self.assertEqual((array[there], array[absent], array.asked, dict(array)), (1, 7, [absent], {there: 1, absent: 7}))
                self.assertEqual(((absent, 7) in array.items(), (absent, 1) in array.items(), 7 in array.values(), 9 in array.values()), (True, False, True, False))
                self.assertEqual((array.setdefault(absent, 9), array[there]), (7, 1))
                # what could be no key is asked for as well
                self.assertRaises(LookupError, lambda: array[2.5])
                self.assertEqual((array.asked, len(array)), ([absent, 2.5], 0))
                plain = kind()
                if kind is not dict:
                    plain.__missing__ = lambda key: 9
                self.assertRaises(KeyError, lambda: plain[absent])

    def test_a_place_is_a_whole_number(self):
        for array in (JudyL({1: 2}), JudySL(a=1), JudySLBytes({b"a": 1})):
            for place in (0.0, -1.0, 5.0, "a", None):
                self.assertRaises(TypeError, lambda: array.keys()[place])
                self.assertRaises(TypeError, array.peekitem, place)
            self.assertEqual(array.keys()[False], next(iter(array)))
            self.assertRaises(IndexError, lambda: array.keys()[True])

    def test_a_copy_is_another_array(self):
        for array in (Judy1({5}), JudyL({5: 6}), JudySL(five=6), JudyHS(five=6)):
            for other in (array.copy(), copy.copy(array), copy.deepcopy(array)):
                self.assertEqual(other, array)
                other.clear()
                self.assertEqual(len(array), 1)


def string(words, letters):
    """A string whose beginning others share, and which comes again."""
    each = [letters[at : at + 1] for at in range(len(letters))]
    return each[0] * words.choice([0, 0, 7, 8, 9, 40]) + letters[:0].join(words.choices(each, k=words.randrange(4)))


class Strings(unittest.TestCase):
    def ordered(self, array, letters):
        words, plain, zero = random.Random(3), {}, "a\0" if isinstance(letters, str) else b"a\0"
        for _ in range(1500):
            it, value = string(words, letters), words.getrandbits(64)
            if words.random() < 0.7:
                array[it] = plain[it] = value
            else:
                self.assertEqual(array.pop(it, None), plain.pop(it, None))
            # the ends of a range need be no keys
            low, high = sorted([string(words, letters), string(words, zero)])
            self.assertEqual((len(array), low in array, array.get(it)), (len(plain), low in plain, plain.get(it)))
            self.assertEqual(array.at_or_after(low), min((key for key in plain if key >= low), default=None))
            self.assertEqual(array.at_or_before(high), max((key for key in plain if key <= high), default=None))
            self.assertEqual(list(array.range(low, high)), sorted(key for key in plain if low <= key < high))
            self.assertEqual((array.bisect_left(low), array.bisect_right(high)), (sum(key < low for key in plain), sum(key <= high for key in plain)))
        ascending = sorted(plain)
        self.assertEqual([array.nth(n) for n in range(len(plain))], ascending)
        self.assertEqual([array.index(key) for key in ascending], list(range(len(plain))))
        self.assertEqual(list(array.items()), sorted(plain.items()))
        self.assertEqual(list(array.values()), [value for _, value in sorted(plain.items())])
        self.assertEqual(list(reversed(array)), sorted(plain, reverse=True))
        self.assertEqual(array, plain)
        self.assertEqual(repr(array), f"{type(array).__name__}({dict(sorted(plain.items()))})")

    def test_a_dict_of_text_is_a_dict(self):
        self.ordered(JudySL(), "az\x01\u00e4\ud800\uffff\U0001f600")

    def test_a_dict_of_bytes_is_a_dict(self):
        self.ordered(JudySLBytes(), b"az\x01\xff")

    def test_a_dict_without_order(self):
        for array, letters in ((JudyHS(), "az\0\u00e4"), (JudyHSBytes(), b"az\0\xff")):
            words, plain = random.Random(4), {}
            for _ in range(3000):
                it, value = string(words, letters), words.getrandbits(64)
                if words.random() < 0.7:
                    array[it] = plain[it] = value
                else:
                    self.assertEqual(array.pop(it, None), plain.pop(it, None))
                other = string(words, letters)
                self.assertEqual((len(array), other in array, array.get(other)), (len(plain), other in plain, plain.get(other)))
            self.assertEqual(array, plain)
            self.unordered(array, plain)
            array.clear()
            self.assertFalse(array)
            self.unordered(array, {})

    def unordered(self, array, plain):
        """A walk gives each key once: by how many bytes it has, and then by these."""
        keys = sorted(plain, key=lambda it: (len(array._encoded(it)), array._encoded(it)))
        self.assertEqual((list(array), list(reversed(array)), list(array.keys())), (keys, keys[::-1], keys))
        self.assertEqual((list(array.values()), list(reversed(array.values()))), ([plain[it] for it in keys], [plain[it] for it in reversed(keys)]))
        self.assertEqual((dict(array.items()), list(reversed(array.items()))), (plain, [(it, plain[it]) for it in reversed(keys)]))
        self.assertEqual((type(array)(plain), repr(array)), (array, f"{type(array).__name__}({({it: plain[it] for it in keys})})"))

    def test_long_keys_without_order(self):
        """Keys of more bytes than the first call of a walk has room for, and such as a buffer of bytes has."""
        few = JudyHSBytes()
        for length in (0, MAX_SAVED_KEY, MAX_SAVED_KEY + 1, 3542, 100000):
            few[bytearray(length)] = length
            self.assertEqual(few[memoryview(bytes(length))], length)
        self.unordered(few, {bytes(length): length for length in few.values()})
        plain = {b"%05d" % n + bytes(n % 1000): n for n in range(3000)}
        array = JudyHSBytes(plain)
        self.unordered(array, plain)
        for key in array:
            if plain[key] % 3:
                del array[key]
        self.assertEqual(array, {key: value for key, value in plain.items() if value % 3 == 0})

    def test_pairs_taken_without_order(self):
        array = JudyHS(a=1, bb=2, c=3)
        self.assertEqual([array.popitem() for _ in range(3)], [("a", 1), ("c", 3), ("bb", 2)])
        self.assertRaises(KeyError, array.popitem)
        for kind, key in ((JudyHS, str), (JudyHSBytes, lambda n: b"%d" % n)):
            plain = {key(n): n for n in range(3000)}
            array, taken = kind(plain), {}
            while array:
                it, value = array.popitem()
                self.assertEqual(plain.pop(it), value)
                taken[it] = value
                self.assertEqual((len(array), it in array), (len(plain), False))
                if len(taken) % 500 == 10:
                    # keys that were to come next go and come again, others come for the first time
                    for n in range(1500, 1900):
                        array.pop(key(n), None), plain.pop(key(n), None)
                    array[key(1700)] = plain[key(1700)] = 7
                    array[key(9000 + len(taken))] = plain[key(9000 + len(taken))] = 8
            self.assertFalse(plain)
            array[key(1)] = 5
            array.clear()
            self.assertRaises(KeyError, array.popitem)

    def test_a_pair_is_taken_without_a_list_of_all(self):
        array = JudyHS((str(n), n) for n in range(20000))

        def seconds(work):
            begun = time.process_time()
            work()
            return time.process_time() - begun

        listing = min(seconds(lambda: list(array)) for _ in range(3))
        self.assertLess(seconds(lambda: [array.popitem() for _ in range(100)]), 20 * listing)

    def test_what_is_no_key(self):
        for array in (JudySL(), JudyHS()):
            for wrong in (5, b"bytes"):
                self.assertNotIn(wrong, array)
                self.assertRaises(KeyError, array.__getitem__, wrong)
                self.assertRaises(TypeError, array.__setitem__, wrong, 1)
            self.assertEqual(len(array), 0)
            array["\u00e4" * (MAX_SAVED_KEY // 2)] = 1
        for wrong in ("a\0", "\0", "a" * 3000 + "\0"):
            self.assertNotIn(wrong, JudySL(a=1))
            self.assertRaises(ValueError, JudySL().__setitem__, wrong, 1)
        self.assertRaises(ValueError, JudySLBytes().__setitem__, bytearray(b"a" * 3000 + b"\0"), 1)
        self.assertRaises(TypeError, JudySLBytes().__setitem__, "text", 1)
        for length in (MAX_SAVED_KEY, MAX_SAVED_KEY + 1, 70_000):
            longest = JudySLBytes({b"\xff" * length: 1})
            self.assertEqual(longest.at_or_before(b"\xff" * (length + 1)), b"\xff" * length)
            self.assertIsNone(longest.at_or_after(b"\xff" * (length + 1)))


# Refuses this thread's calls for memory, from the n-th on, or none for 0, and answers how many it refused; there where
# tests/refuse_alloc.c is preloaded, as `make check` does.
refuse_from = getattr(ctypes.CDLL(None), "refuse_from", None)


@unittest.skipUnless(refuse_from, "nothing is preloaded that refuses memory")
class WithoutMemory(unittest.TestCase):
    def refused_in_turn(self, change, key, held):
        """Makes a change whose first call for memory is refused and each later one, then its second, and so on until it
        succeeds. Each refusal must be a MemoryError and leave what is `held`. How often it was refused."""
        failed, before = 0, held()
        while True:
            refuse_from(failed + 1)
            try:
                change(key)
                return failed
            except MemoryError:
                self.assertGreater(refuse_from(0), 0)
                self.assertEqual(held(), before)
                failed += 1
            finally:
                refuse_from(0)

    def without(self, change, *words):
        """What a change answers that is refused all memory, and that it asked for none."""
        refuse_from(1)
        told = change(*words)
        self.assertEqual(refuse_from(0), 0)
        return told

    def test_words(self):
        keys = [*range(40), *(n << 16 for n in range(1, 60)), *(n * 0x9E3779B97F4A7C15 & MAX for n in range(1, 60))]
        kept, pairs, failed = Judy1(), JudyL(), 0
        for key in keys:
            failed += self.refused_in_turn(kept.add, key, lambda: list(kept))
            failed += self.refused_in_turn(lambda key: pairs.__setitem__(key, key), key, lambda: list(pairs.items()))
        self.assertGreater(failed, 20)
        self.assertEqual((list(kept), list(pairs.items())), (sorted(keys), [(key, key) for key in sorted(keys)]))
        for key in keys:
            self.without(kept.add, key)
            self.without(pairs.__setitem__, key, 5)
            self.assertEqual((key in kept, pairs[key]), (True, 5))
            kept.discard(key)

    def test_strings(self):
        keys = [f"{'shared ' * (n % 4 * 3)}{n}" for n in range(100)]
        for array in (JudySL(), JudyHS()):
            failed = 0
            for key in keys:
                failed += self.refused_in_turn(lambda key: array.__setitem__(key, 7), key, lambda: (len(array), [array.get(key) for key in keys]))
            self.assertGreater(failed, 20)
            for key in keys:
                self.without(array.__setitem__, key, 5)
                self.assertEqual(array[key], 5)
                self.without(array.__delitem__, key)
            self.assertFalse(array)

    @unittest.skipUnless(sellumaq.BINDING == "extension", "ctypes makes objects for each step")
    def test_a_walk_without_memory_for_a_page(self):
        array = JudySL((f"{n:03}", n) for n in range(100))
        walk = iter(array.values())
        told = [next(walk), next(iter(array.values()))]
        refuse_from(1)
        told += [next(walk), next(walk)]
        self.assertEqual(refuse_from(0), 2)
        self.assertEqual([*told, *walk], [0, *range(100)])

    def test_a_pair_that_is_taken_without_order(self):
        array = JudyHS((str(n), n) for n in range(1000))
        self.assertGreater(self.refused_in_turn(lambda _: array.popitem(), None, lambda: len(array)), 2)
        self.assertEqual(len(array), 999)


class Sizes(unittest.TestCase):
    def test_that_a_size_has_what_the_library_took(self):
        pairs = {n * 0x9E3779B97F4A7C15 % 2**64: n for n in range(1000)}
        texts = {"%016x and more" % key: value for key, value in pairs.items()}
        coded = {key.encode(): value for key, value in texts.items()}
        words, strings, bytestrings = (pairs, 7000), (texts, 16000), (coded, 16000)
        kinds = {Judy1: words, JudyL: words, JudySL: strings, JudyHS: strings, JudySLBytes: bytestrings, JudyHSBytes: bytestrings}
        for kind, (items, least) in kinds.items():

            class Named(kind):
                pass

            for array in (kind(), Named()):
                own, all_of_it = object.__sizeof__(array), sys.getsizeof(array)
                self.assertEqual(array.__sizeof__(), own)
                array.update(items)
                taken = array.__sizeof__() - own
                self.assertTrue(least <= taken < 200000, (kind, taken))
                self.assertEqual(sys.getsizeof(array) - all_of_it, taken)
                array.clear()
                self.assertEqual((array.__sizeof__(), sys.getsizeof(array)), (own, all_of_it))


class Examples(unittest.TestCase):
    def test_each_call_has_an_example(self):
        for kind in (Judy1, JudyL, JudySL, JudySLBytes, JudyHS, JudyHSBytes):
            for name in dir(kind):
                call = getattr(kind, name)
                # Python's own classes have none, and the fallback's calls are the extension's.
                if name.startswith("_") or getattr(call, "__module__", "") in ("collections.abc", "sellumaq._fallback"):
                    continue
                with self.subTest(f"{kind.__name__}.{name}"):
                    self.assertIn(">>> ", call.__doc__)


def load_tests(_loader, tests, _pattern):
    native = [sys.modules["sellumaq._native"]] if sellumaq.BINDING == "extension" else []
    for module in (sellumaq, sellumaq._maps, sellumaq._places, sellumaq._strings, sellumaq._words, *native):
        tests.addTests(doctest.DocTestSuite(module))
    return tests


if __name__ == "__main__":
    unittest.main()
