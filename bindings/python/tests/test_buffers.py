"""Words that come in buffers and go into them, beside the same words as ints."""

import ctypes
import importlib.util
import random
import unittest
from array import array

from sellumaq import BINDING, MAX, Judy1, JudyL
from test_at_once import error_of

HAS_NUMPY = importlib.util.find_spec("numpy") is not None


def words_of(chance, count):
    """Some words: dense ones, runs, and ones far apart."""
    each = (lambda: chance.randrange(2 * count + 1), lambda: MAX - chance.randrange(300), lambda: chance.getrandbits(64))
    return [chance.choice(each)() for _ in range(count)]


def table(pairs):
    """A buffer of two columns."""
    words = array("Q", [word for pair in pairs for word in pair])
    return memoryview(words).cast("B").cast("Q", [len(pairs), 2])


def buffers_of(words):
    """Buffers of the same words: of each owner, in each format, one that can't be written, and one within another."""
    made, inside = array("Q", words), array("Q", [5, *words, 7])
    yield made
    yield array("L", words)
    yield memoryview(made)
    yield memoryview(made).toreadonly()
    yield memoryview(inside)[1 : len(words) + 1]
    yield (ctypes.c_uint64 * len(words))(*words)
    if words:
        yield memoryview(made.tobytes()).cast("Q")
        yield memoryview(made)[::-1][::-1]


COUNTS = (0, 1, 2, 63, 64, 65, 255, 256, 257, 1000, 5000)


class In(unittest.TestCase):
    def test_sets_are_made_and_filled(self):
        for count in COUNTS:
            chance = random.Random(count)
            words, others = words_of(chance, count), words_of(chance, 50)
            ascending = sorted(set(words))
            for buffer in buffers_of(ascending):
                self.assertEqual(list(Judy1.from_sorted(buffer)), ascending)
                self.assertEqual(list(Judy1(buffer)), ascending)
            for buffer in buffers_of(words):
                array_of = Judy1(others)
                array_of.update(buffer, array("Q"))
                self.assertEqual(list(array_of), sorted({*words, *others}))
                self.assertEqual(list(Judy1(buffer)), ascending)
                self.assertEqual((Judy1(others).intersection(buffer), Judy1(others).difference(buffer)), ({*words} & {*others}, {*others} - {*words}))

    def test_words_that_ascend_for_a_while(self):
        for turn in range(-3, 4):
            words = [*range(0, 640 + 10 * turn, 10), 5, 3, *range(1, 100, 7), 630, 631]
            self.assertEqual(list(Judy1(array("Q", words))), sorted(set(words)))
            pairs = [(word, n) for n, word in enumerate(words)]
            self.assertEqual(JudyL(table(pairs)), dict(pairs))

    def test_maps_are_made_and_filled(self):
        for count in COUNTS[1:]:
            chance = random.Random(count)
            pairs = [(word, chance.getrandbits(64)) for word in words_of(chance, count)]
            ascending, others = sorted(dict(pairs).items()), [(word, 1) for word in words_of(chance, 50)]
            keys, values = (array("Q", column) for column in zip(*ascending))
            self.assertEqual(list(JudyL.from_sorted(table(ascending)).items()), ascending)
            for made_of in (keys, values), (memoryview(keys), (ctypes.c_uint64 * len(values))(*values)):
                self.assertEqual(list(JudyL.from_sorted(*made_of).items()), ascending)
            self.assertEqual(list(JudyL.from_sorted(keys, keys).items()), [(key, key) for key in keys])
            for update in (lambda it: it.update(table(pairs)), lambda it: it.update(*(array("Q", column) for column in zip(*pairs)))):
                for filled in (JudyL(), JudyL(others)):
                    expected = {**dict(filled), **dict(pairs)}
                    update(filled)
                    self.assertEqual(dict(filled), expected)
        self.assertEqual(JudyL.from_sorted(array("Q"), array("Q")), {})
        self.assertRaises(TypeError, JudyL().update, array("Q"), array("Q"), a=1)

        class Kept(JudyL):
            pass

        self.assertIs(type(Kept.from_sorted(array("Q", [1]), array("Q", [2]))), Kept)

    def test_buffers_of_other_items_are_iterables(self):
        for buffer in (array("B", [1, 2]), array("I", [1, 2]), array("q", [1, 2]), b"\1\2", memoryview(array("Q", [1, 9, 2]))[::2]):
            self.assertEqual(list(Judy1(buffer)), [1, 2])
            self.assertEqual(list(Judy1.from_sorted(buffer)), [1, 2])
            self.assertEqual(Judy1([2, 7]).contains_many(buffer), [False, True])
        self.assertRaises(ValueError, Judy1, array("q", [1, -1]))
        self.assertRaises(TypeError, Judy1, array("d", [1.0]))
        self.assertRaises(NotImplementedError, Judy1, table([(1, 2)]))
        self.assertRaises(TypeError, JudyL, array("Q", [1, 2]))
        released = memoryview(array("Q", [1]))
        released.release()
        self.assertRaises(ValueError, Judy1, released)

    def test_keys_that_do_not_ascend_leave_the_array(self):
        for words, place in (([0, 3, 3, 2], 2), ([*range(1000), 999], 1000), ([1, 0], 1)):
            told = (ValueError, f"the key at place {place} isn't above the one before it")
            buffer = array("Q", words)
            self.assertEqual(error_of(Judy1.from_sorted, buffer), told)
            self.assertEqual(error_of(JudyL.from_sorted, buffer, buffer), told)
            self.assertEqual(error_of(JudyL.from_sorted, table([(word, 1) for word in words])), told)
            kept = Judy1([4, 5])
            self.assertEqual((error_of(kept._make, buffer), list(kept)), (told, [4, 5]))


class Out(unittest.TestCase):
    def test_arrays_of_keys_and_values(self):
        for count in COUNTS:
            chance = random.Random(count)
            pairs = {word: chance.getrandbits(64) for word in words_of(chance, count)}
            keys, values = array("Q", sorted(pairs)), array("Q", [pairs[key] for key in sorted(pairs)])
            map_of, set_of = JudyL(pairs), Judy1(pairs)
            self.assertEqual((set_of.keys_array(), map_of.keys_array(), map_of.values_array()), (keys, keys, values))
            self.assertEqual(set_of.keys_array().typecode, "Q")
            for write, expected in ((set_of.keys_array, keys), (map_of.keys_array, keys), (map_of.values_array, values)):
                for more in (0, 3):
                    for room in (array("Q", [9] * (len(keys) + more)), (ctypes.c_uint64 * (len(keys) + more))(*[9] * (len(keys) + more))):
                        self.assertEqual((write(room), list(room)), (len(keys), [*expected, *[9] * more]))
                        self.assertEqual(write(out=room), len(keys))

    def test_a_part_of_a_buffer(self):
        room = array("Q", [7] * 6)
        self.assertEqual(Judy1([1, 2, MAX]).keys_array(memoryview(room)[2:5]), 3)
        self.assertEqual(list(room), [7, 7, 1, 2, MAX, 7])

    def test_buffers_that_cannot_be_written(self):
        some, pairs = Judy1([1, 2]), JudyL({1: 2, 3: 4})
        small, far = array("Q", [7]), memoryview(array("Q", [7] * 4))[::2]
        wrong = [
            (small, ValueError), (array("Q"), ValueError), (far, ValueError), (array("I", [7] * 9), TypeError), (array("q", [7] * 9), TypeError),
            (array("d", [7] * 9), TypeError), (bytearray(99), TypeError), (bytes(99), TypeError), (memoryview(array("Q", [7] * 9)).toreadonly(), TypeError),
            (table([(7, 7)] * 9), TypeError), ([7] * 9, TypeError), ("Q" * 9, TypeError), (7, TypeError),
        ]
        for call in (some.keys_array, pairs.keys_array, pairs.values_array):
            for room, error in wrong:
                self.assertRaises(error, call, room)
        self.assertEqual((list(small), list(far), list(some), dict(pairs)), ([7], [7, 7], [1, 2], {1: 2, 3: 4}))
        self.assertEqual(error_of(some.keys_array, small), (ValueError, "the buffer has room for 1 words, and 2 are needed"))


class Many(unittest.TestCase):
    def test_look_ups(self):
        for count in COUNTS:
            chance = random.Random(count)
            pairs = {word: chance.getrandbits(64) for word in words_of(chance, count)}
            asked = [chance.choice([*pairs, 3]) if chance.randrange(2) else chance.getrandbits(64) for _ in range(count)]
            map_of, set_of, there = JudyL(pairs), Judy1(pairs), [key in pairs for key in asked]
            for keys in buffers_of(asked):
                self.assertEqual(set_of.contains_many(keys), there)
                self.assertEqual(map_of.get_many(keys), [pairs.get(key) for key in asked])
                values, told = array("Q", [9] * count), bytearray(b"\7" * count)
                self.assertEqual((map_of.get_many(keys, out=values), list(values)), (sum(there), [pairs.get(key, 9) for key in asked]))
                self.assertEqual((set_of.contains_many(keys, out=told), list(told)), (sum(there), there))
            for flags in (memoryview(bytearray(count)).cast("?"), array("b", bytes(count)), memoryview(bytearray(count)).cast("c")) if count else ():
                self.assertEqual((set_of.contains_many(array("Q", asked), out=flags), bytes(flags)), (sum(there), bytes(there)))
        self.assertEqual(JudyL({1: 2}).get_many([1], out=None), [2])

    def test_bad_buffers(self):
        pairs, some, keys, values, told = JudyL({1: 2}), Judy1([1]), array("Q", [1, 5]), array("Q", [9, 9]), bytearray(b"\7\7")
        far, both = memoryview(array("Q", [1, 1, 5]))[::2], array("Q", [1, 5, 9])
        for call, wrong in (
            (pairs.get_many, [(keys, array("Q"), ValueError), (keys, array("Q", [9] * 3), ValueError), (keys, told, TypeError), (keys, bytes(16), TypeError),
                              (keys, memoryview(values).toreadonly(), TypeError), (keys, array("I", [9, 9]), TypeError), ([1, 5], values, TypeError),
                              (array("q", [1, 5]), values, TypeError), (far, values, ValueError), (keys, far, ValueError), (keys, 5, TypeError),
                              (keys, keys, ValueError), (memoryview(both)[:2], memoryview(both)[1:], ValueError), (table([(1, 5)]), values, TypeError)]),
            (some.contains_many, [(keys, bytearray(3), ValueError), (keys, values, TypeError), (keys, b"\7\7", TypeError), ([1, 5], told, TypeError),
                                  (far, told, ValueError), (keys, memoryview(bytearray(4))[::2], ValueError), (keys, memoryview(keys).cast("B")[:2], ValueError)]),
        ):
            for first, second, error in wrong:
                with self.assertRaises(error):
                    call(first, out=second)
            self.assertRaises(TypeError, call)
            self.assertRaises(TypeError, call, keys, values, values)
            with self.assertRaises(TypeError):
                call(keys, other=values)
        self.assertEqual((list(keys), list(values), list(told), list(both)), ([1, 5], [9, 9], [7, 7], [1, 5, 9]))

    def test_pairs_of_two_buffers(self):
        for call in (JudyL.from_sorted, JudyL({7: 8}).update):
            good = array("Q", [1, 2])
            for bad, error in ((array("Q", [1]), ValueError), (array("I", [1, 2]), TypeError), ([1, 2], TypeError), (memoryview(array("Q", range(4)))[::2], ValueError)):
                self.assertRaises(error, call, good, bad)
                self.assertRaises(error, call, bad, good)
        kept = JudyL({7: 8})
        self.assertRaises(ValueError, kept.update, array("Q", [1, 2]), array("Q", [1]))
        self.assertEqual(kept, {7: 8})

    @unittest.skipUnless(BINDING == "extension", "ctypes makes copies")
    def test_words_that_do_not_stand_at_a_multiple_of_8(self):
        data = bytearray(8 * 4 + 1)
        odd = memoryview(data)[1:].cast("Q")
        odd[:] = array("Q", [3, 5, 8, 13])
        self.assertEqual((list(Judy1(odd)), Judy1([5]).contains_many(odd)), ([3, 5, 8, 13], [False, True, False, False]))
        self.assertRaises(ValueError, Judy1([1]).keys_array, odd)
        self.assertRaises(ValueError, JudyL().get_many, odd, out=array("Q", [0] * 4))


class Meanwhile(unittest.TestCase):
    def test_no_buffer_stays_lent(self):
        keys, values, told = array("Q", [1, 2]), array("Q", [3, 4]), bytearray(2)
        pairs, some = JudyL.from_sorted(keys, values), Judy1(keys)
        pairs.update(keys, values), pairs.get_many(keys, out=values), some.contains_many(keys, out=told)
        pairs.keys_array(keys), pairs.values_array(values), some.contains_many(keys), pairs.get_many(keys)
        for call in (lambda: pairs.get_many(keys, out=keys), lambda: pairs.get_many(keys, out=told), lambda: some.keys_array(told), lambda: Judy1.from_sorted(array("Q", [2, 1])),
                     lambda: pairs.update(keys, [1])):
            self.assertRaises((TypeError, ValueError), call)
        # a buffer that is lent can't be given another size
        keys.append(5), values.append(5), told.append(5)
        self.assertEqual((list(keys), list(values), list(told)), ([1, 2, 5], [3, 4, 5], [1, 1, 5]))

    def test_a_buffer_that_is_given_another_size_meanwhile(self):
        class Owner:
            """A number whose reading makes the list longer that it stands in, and empties the array that is filled."""

            def __init__(self, act):
                self.act = act

            def __index__(self):
                self.act()
                return 6

        keys, some = array("Q", [1, 2]), Judy1()
        some.update([Owner(lambda: keys.append(9)), Owner(some.clear)], keys)
        self.assertEqual(list(some), [1, 2, 6, 9])


@unittest.skipUnless(HAS_NUMPY, "numpy isn't here")
class Numpy(unittest.TestCase):
    def test_arrays_of_numpy(self):
        import numpy

        words = numpy.array([1, 5, 2**63, MAX], dtype=numpy.uint64)
        some = Judy1.from_sorted(words)
        self.assertEqual(list(some), [1, 5, 2**63, MAX])
        self.assertEqual(list(Judy1(words[::-1])), list(some))
        pairs = JudyL.from_sorted(words, words[::-1].copy())
        self.assertEqual(list(JudyL(numpy.stack([words, words], axis=1)).values()), list(some))
        self.assertRaises(ValueError, JudyL.from_sorted, words, words[::-1])
        out, flags = numpy.zeros(4, dtype=numpy.uint64), numpy.zeros(4, dtype=bool)
        self.assertEqual((pairs.values_array(out), out.tolist()), (4, [MAX, 2**63, 5, 1]))
        self.assertEqual((some.contains_many(words + numpy.uint64(1), out=flags), flags.tolist()), (0, [False] * 4))
        self.assertEqual((some.contains_many(words, out=flags), flags.tolist()), (4, [True] * 4))
        self.assertEqual(numpy.frombuffer(some.keys_array(), dtype=numpy.uint64).tolist(), list(some))
        self.assertEqual(list(Judy1(numpy.array([3, 1]))), [1, 3])
        out.flags.writeable = False
        self.assertRaises(TypeError, some.keys_array, out)
        self.assertRaises(TypeError, some.keys_array, numpy.zeros(4))


# As in test_arrays.
refuse_from = getattr(ctypes.CDLL(None), "refuse_from", None)


@unittest.skipUnless(refuse_from, "nothing is preloaded that refuses memory")
class WithoutMemory(unittest.TestCase):
    def refused_in_turn(self, call, after):
        """As in test_at_once."""
        failed = 0
        while True:
            refuse_from(failed + 1)
            try:
                return call(), failed
            except MemoryError:
                self.assertGreater(refuse_from(0), 0)
                after()
                failed += 1
            finally:
                refuse_from(0)

    def test_arrays_that_are_made_and_filled(self):
        words = sorted({*range(40), *(n << 16 for n in range(1, 60)), *(n * 0x9E3779B97F4A7C15 & MAX for n in range(1, 300))})
        keys = array("Q", words)
        for kept, make in ((Judy1([7]), lambda: kept._make(keys)), (JudyL({7: 7}), lambda: kept._make_of(keys, keys))):
            before = list(kept)
            _, failed = self.refused_in_turn(make, lambda: self.assertEqual(list(kept), before))
            self.assertGreater(failed, 3)
            self.assertEqual(list(kept), words)
        for filled, fill in ((Judy1(), lambda: filled.update(keys)), (JudyL(), lambda: filled.update(keys, keys))):

            def look():
                found = list(filled)
                self.assertEqual(found, words[: len(found)])
                filled.clear()

            _, failed = self.refused_in_turn(fill, look)
            self.assertGreater(failed, 3)
            self.assertEqual(list(filled), words)

    def test_arrays_that_are_told(self):
        pairs = JudyL({n: n for n in range(2000)})
        told, failed = self.refused_in_turn(pairs.values_array, lambda: self.assertEqual(len(pairs), 2000))
        self.assertEqual(told, array("Q", range(2000)))


if __name__ == "__main__":
    unittest.main()
