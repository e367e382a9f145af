"""Ranges of keys, and two arrays, beside Python's sets and dicts: without a key, dense, runs, and random words far
apart."""

import ctypes
import random
import unittest

from sellumaq import BINDING, MAX, Judy1, JudyL, JudySL, JudySLBytes

# A call by ctypes takes long.
MANY = 300 if BINDING == "extension" else 30
COUNTS = "union", "intersection", "difference", "symmetric_difference"


def patterns(seed):
    """Sets of keys of each pattern. Those of two seeds have keys in common."""
    chance, far = random.Random(seed), random.Random(0)
    yield from (set(), {0}, {MAX}, {0, 77, MAX - 1, MAX})
    for count in (9, MANY):
        numbers = [n for n in range(2 * count) if chance.random() < 0.5]
        yield set(numbers)
        yield {n // 50 * 100_003 + n % 50 for n in numbers}
        yield {MAX - n for n in numbers}
        for bits in (26, 32, 64):
            words = [far.getrandbits(bits) for _ in range(2 * count)]
            yield {words[n] for n in numbers}


def bounds(keys):
    """Pairs of bounds: None, words beside the keys, numbers beyond the words; some from above to."""
    order = sorted(keys) or [9]
    some = [None, -5, 0, order[len(order) // 3], order[len(order) // 3] + 1, order[-1], MAX, MAX + 1, MAX + 9]
    return [(start, stop) for start in some for stop in some]


def is_in(key, start, stop):
    return (start is None or start <= key) and (stop is None or key < stop)


def parts(keys, start, stop):
    """The keys that a range has, and the others."""
    inside = {key for key in keys if is_in(key, start, stop)}
    return inside, set(keys) - inside


class Ranges(unittest.TestCase):
    def test_keys_of_a_range_go(self):
        for keys in patterns(1):
            for start, stop in bounds(keys):
                (inside, outside), values = parts(keys, start, stop), {key: key ^ 5 for key in keys}
                some, pairs = Judy1(keys), JudyL(values)
                self.assertEqual((some.discard_range(start, stop), pairs.discard_range(start, stop)), (len(inside),) * 2)
                self.assertEqual((list(some), dict(pairs)), (sorted(outside), {key: values[key] for key in outside}))
                some, pairs = Judy1(keys), JudyL(values)
                self.assertEqual((some.retain_range(start, stop), pairs.retain_range(start, stop)), (len(outside),) * 2)
                self.assertEqual((list(some), dict(pairs)), (sorted(inside), {key: values[key] for key in inside}))

    def test_words_of_a_range_come_and_turn(self):
        for keys in patterns(2):
            middle = sorted(keys)[len(keys) // 2] if keys else 3
            for start in {0, max(middle - 20, 0), middle, MAX - 30}:
                for stop in (start - 5, start, start + 1, min(start + MANY, MAX + 1)):
                    words, some = set(range(start, stop)), Judy1(keys)
                    self.assertEqual(some.insert_range(start, stop), len(words - keys))
                    self.assertEqual(list(some), sorted(words | keys))
                    some = Judy1(keys)
                    self.assertIsNone(some.flip_range(start, stop))
                    self.assertEqual(list(some), sorted(words ^ keys))
                    some.flip_range(start, stop)
                    self.assertEqual(list(some), sorted(keys))

    def test_what_are_no_words(self):
        some = Judy1([5])
        for call in (some.insert_range, some.flip_range):
            for start, stop in ((-1, 3), (5, MAX + 2), (MAX + 5, MAX + 9)):
                self.assertRaises(ValueError, call, start, stop)
            self.assertRaises(TypeError, call, "a", 5)
            self.assertRaises(TypeError, call, None, 5)
            # No memory holds all words.
            self.assertRaises(MemoryError, call, 0, MAX + 1)
        self.assertEqual(list(some), [5])
        for call in (some.discard_range, some.retain_range, JudyL().discard_range):
            self.assertRaises(TypeError, call, "a")

    def test_walks_see_what_went(self):
        for keys in ({*range(600)}, {n << 30 for n in range(600)}):
            order, seen = sorted(keys), []
            some = Judy1(keys)
            for key in some:
                seen.append(key)
                if key == order[1]:
                    some.discard_range(order[2], order[500])
                    some.insert_range(order[-1] + 1, order[-1] + 3)
            self.assertEqual(seen, [*order[:2], *order[500:], order[-1] + 1, order[-1] + 2])
            pairs, seen = JudyL.fromkeys(keys, 1), []
            for key, _ in pairs.items():
                seen.append(key)
                pairs.retain_range(None, order[5])
            self.assertEqual(seen, order[:5])


class Two(unittest.TestCase):
    def test_counts(self):
        for one in patterns(3):
            for other in patterns(4):
                sets = Judy1(one), Judy1(other)
                for name in COUNTS:
                    count = len(getattr(one, name)(other))
                    for kind in (Judy1, set, list):
                        self.assertEqual((name, getattr(sets[0], name + "_count")(kind(other))), (name, count))

    def test_a_set_and_itself(self):
        for keys in patterns(5):
            some = Judy1(keys)
            told = [getattr(some, name + "_count")(some) for name in COUNTS]
            self.assertEqual(told, [len(keys), len(keys), 0, 0])

    def dicts(self, one, other, kind):
        """Two dicts joined, in each way."""
        made, plain = kind(one) | kind(other), one | other
        self.assertIs(type(made), kind)
        self.assertEqual(list(made.items()), sorted(plain.items()))
        changed = kind(one)
        changed |= kind(other)
        self.assertEqual(list(changed.items()), sorted(plain.items()))
        self.assertEqual((list(kind(one)), list(kind(one).copy().items())), (sorted(one), sorted(one.items())))
        itself = kind(one)
        itself |= itself
        self.assertEqual((list(itself.items()), itself | itself == itself), (sorted(one.items()), True))

    def test_dicts_of_words(self):
        for one in patterns(6):
            for other in patterns(7):
                self.dicts({key: key ^ 5 for key in one}, {key: key ^ 6 for key in other}, JudyL)

    def test_dicts_of_strings(self):
        for one in patterns(8):
            for other in patterns(9):
                texts = [{f"{'shared ' * (key % 4)}{key:x}": key ^ n for key in keys} for n, keys in enumerate((one, other))]
                self.dicts(*texts, JudySL)
        self.dicts({b"a": 1, b"\xff": 2}, {b"": 3, b"a": 4}, JudySLBytes)

    def test_other_kinds_are_joined_pair_by_pair(self):
        self.assertEqual(JudySL(a=1, b=2) | {"b": 3}, {"a": 1, "b": 3})
        self.assertEqual(JudyL({1: 1}) | {1: 2, 3: 4}, {1: 2, 3: 4})
        for wrong in (JudySLBytes({b"a": 1}), JudyL({1: 2})):
            some = JudySL(a=1)
            self.assertRaises(TypeError, some._join, wrong)
            self.assertRaises(TypeError, some._join)
            self.assertRaises(TypeError, lambda: some | wrong)
            self.assertEqual(some, {"a": 1})

    def test_a_walk_through_a_dict_that_is_joined(self):
        some, seen = JudyL({n: n for n in range(400)}), []
        for key, value in some.items():
            seen.append((key, value))
            if key == 1:
                some |= JudyL({n: n + 1 for n in range(200, 600)})
        self.assertEqual(seen, [(n, n + (n >= 200)) for n in range(600)])


class Strings(unittest.TestCase):
    def test_ranges_and_prefixes(self):
        for keys in patterns(10):
            texts = {f"{'sh' * (key % 4)}{key:x}": key for key in keys}
            order = sorted(texts) or ["x"]
            some = [None, "", order[len(order) // 3], order[-1], order[-1] + "\0", "sh", "\U0010ffff" * 300]
            for start in some:
                for stop in some:
                    ages, inside = JudySL(texts), {key for key in texts if is_in(key, start, stop)}
                    self.assertEqual(ages.discard_range(start, stop), len(inside))
                    self.assertEqual(dict(ages), {key: texts[key] for key in texts if key not in inside})
            for prefix in some[1:]:
                ages, inside = JudySL(texts), {key for key in texts if key.startswith(prefix)}
                self.assertEqual(ages.discard_prefix(prefix), len(inside))
                self.assertEqual(dict(ages), {key: texts[key] for key in texts if key not in inside})
        self.assertRaises(TypeError, JudySL(a=1).discard_prefix, b"a")
        ages = JudySLBytes({b"a": 1, b"ab": 2, b"b": 3})
        self.assertEqual((ages.discard_prefix(memoryview(b"a")), list(ages)), (2, [b"b"]))


class InAnyOrder(unittest.TestCase):
    def test_constructors(self):
        chance = random.Random(11)
        for keys in patterns(12):
            turned = [*keys, *keys]
            chance.shuffle(turned)
            self.assertEqual(list(Judy1(turned)), sorted(keys))
            pairs = [(key, n) for n, key in enumerate(turned)]
            for given in (pairs, iter(pairs), dict(pairs), tuple(pairs)):
                self.assertEqual(list(JudyL(given).items()), sorted(dict(pairs).items()))

    def test_an_item_that_is_none_leaves_those_before_it(self):
        some = Judy1()
        self.assertRaises(TypeError, some.__init__, [7, 3, 5, "a", 1])
        self.assertEqual(list(some), [3, 5, 7])
        pairs = JudyL()
        self.assertRaises(ValueError, pairs.update, [(7, 1), (3, 2), (7, 3), (5, -1), (1, 1)])
        self.assertEqual(dict(pairs), {3: 2, 7: 3})


# As in test_arrays.
refuse_from = getattr(ctypes.CDLL(None), "refuse_from", None)


@unittest.skipUnless(refuse_from, "nothing is preloaded that refuses memory")
class WithoutMemory(unittest.TestCase):
    def refused_in_turn(self, call, after):
        """As in test_sets."""
        failed = 0
        while True:
            refuse_from(failed + 1)
            try:
                return call(), failed
            except MemoryError:
                self.assertGreater(refuse_from(0), 0)
                after()
                failed += 1
            finally:
                refuse_from(0)

    def test_what_was_there_stays(self):
        words = {*range(0, 90, 2), *(n << 20 for n in range(1, 60)), *(n * 0x9E3779B97F4A7C15 & MAX for n in range(1, 99))}
        some, pairs, others = Judy1(words), JudyL(dict.fromkeys(words, 1)), JudyL({n: 2 for n in range(300)})
        texts, more = JudySL({f"a{n}": n for n in range(200)}), JudySL({f"b{n}": n for n in range(200)})

        def look():
            self.assertEqual((list(some), dict(pairs), len(texts)), (sorted(words), dict.fromkeys(words, 1), 200))

        self.assertGreater(self.refused_in_turn(lambda: some.insert_range(10, 2000), look)[1], 0)
        self.assertEqual(set(some), words | set(range(10, 2000)))
        some.__init__(words)
        self.assertGreater(self.refused_in_turn(lambda: some.flip_range(10, 2000), look)[1], 0)
        self.assertEqual(set(some), words ^ set(range(10, 2000)))
        some.__init__(words)
        self.assertGreater(self.refused_in_turn(lambda: pairs.__ior__(others), look)[1], 0)
        self.assertEqual(dict(pairs), dict.fromkeys(words, 1) | dict(others))
        pairs = JudyL(dict.fromkeys(words, 1))
        self.assertGreater(self.refused_in_turn(lambda: texts.__ior__(more), look)[1], 0)
        self.assertEqual(len(texts), 400)


if __name__ == "__main__":
    unittest.main()
