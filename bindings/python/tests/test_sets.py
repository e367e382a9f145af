"""What sets of words have together and alone, beside Python's sets."""

import ctypes
import operator
import random
import sys
import threading
import unittest
from itertools import islice

from sellumaq import BINDING, MAX, Judy1

OPERATORS = {"|": operator.or_, "&": operator.and_, "-": operator.sub, "^": operator.xor}
IN_PLACE = {"|=": operator.ior, "&=": operator.iand, "-=": operator.isub, "^=": operator.ixor}
COMPARISONS = {name: getattr(operator, name) for name in ("le", "lt", "ge", "gt", "eq", "ne")}
SIGNS = "__or__", "__and__", "__sub__", "__xor__", "__ior__", "__iand__", "__isub__", "__ixor__"
METHODS = "union", "intersection", "difference", "symmetric_difference"
UPDATES = "update", "intersection_update", "difference_update", "symmetric_difference_update"
QUESTIONS = "isdisjoint", "issubset", "issuperset"


# What an operation's other side may be.
KINDS = [Judy1, set, frozenset, list, tuple, iter, dict.fromkeys, lambda it: dict.fromkeys(it).keys()]
KINDS += [lambda it: Own(it), lambda it: [*it, *it], lambda it: (key for key in it)]


class Own(Judy1):
    """A set whose walk lies, which operations don't go by."""

    def __iter__(self):
        return iter([1, 2, 3])


class Reading:
    """An iterable that does something as it is read, and then gives its items."""

    def __init__(self, act, items):
        self.act, self.items = act, items

    def __iter__(self):
        self.act()
        yield from self.items


# The n-th key of a pattern: in runs, random ones of some bits, and few beside each other that are far from all others.
PATTERNS = [
    lambda chance, n: n // 500 * 100003 + n % 500,
    lambda chance, n: chance.getrandbits(26),
    lambda chance, n: chance.getrandbits(32),
    lambda chance, n: n // 30 * 0x9E3779B97F4A7C15 << 40 & MAX | chance.getrandbits(40),
]
# Any of these.
PATTERNS.append(lambda chance, n: PATTERNS[n // 9 % 4](chance, n))


def held(array):
    return list(Judy1.__iter__(array))


def pairs():
    """Some of `all_pairs`, where each key is a call by ctypes."""
    return all_pairs() if BINDING == "extension" else islice(all_pairs(), 0, None, 9)


def all_pairs():
    """Pairs of lists of keys: of all sizes beside a page's, side by side and one behind the other."""
    chance = random.Random(7)
    for count in (0, 1, 2, 7, 8, 9, 255, 256, 257, 511, 512, 513, 1200):
        for other in (0, 1, 9, 256, 300, 513, 3000):
            yield range(count), range(other)
            yield range(0, 2 * count, 2), range(1, 2 * other, 2)
            yield range(0, 3 * count, 3), range(0, 2 * other, 2)
            yield [MAX - n for n in range(count)], [MAX - 7 * n for n in range(other)]
            yield range(count), range(count, count + other)
            yield range(other, count + other), range(other)
            yield [chance.getrandbits(64) for _ in range(count)], [chance.getrandbits(64) for _ in range(other)]
            yield chance.sample(range(4000), count), chance.sample(range(4000), other)
    for pattern in PATTERNS:
        for count, more in ((40, 400), (600, 600), (3000, 900)):
            keys = [pattern(chance, n) for n in range(count + more)]
            yield keys[:count], keys[count // 2 :]
            yield keys[count // 3 :], keys[: count // 2]


class BesidePythonsSets(unittest.TestCase):
    def equal(self, array, plain):
        self.assertEqual((held(array), len(array)), (sorted(plain), len(plain)))

    def test_operators(self):
        for one, other in pairs():
            sets, plain = (Judy1(one), Judy1(other)), (set(one), set(other))
            for name, call in OPERATORS.items():
                self.equal(call(*sets), call(*plain))
            for name, call in COMPARISONS.items():
                self.assertEqual((name, call(*sets)), (name, call(*plain)))
            for name in QUESTIONS:
                self.assertEqual((name, getattr(sets[0], name)(sets[1])), (name, getattr(plain[0], name)(plain[1])))
            for name, call in IN_PLACE.items():
                changed = Judy1(one)
                self.assertIs(call(changed, sets[1]), changed)
                self.equal(changed, call(set(one), plain[1]))
            self.equal(sets[0], plain[0])
            self.equal(sets[1], plain[1])

    def test_a_set_and_itself(self):
        for keys in ([], [5], range(0, 3000, 3)):
            one, plain = Judy1(keys), set(keys)
            for call in OPERATORS.values():
                self.equal(call(one, one), call(plain, plain))
            for call in COMPARISONS.values():
                self.assertEqual(call(one, one), call(plain, plain))
            for call in IN_PLACE.values():
                changed, expected = Judy1(keys), set(keys)
                self.equal(call(changed, changed), call(expected, expected))
            for name in QUESTIONS:
                self.assertEqual((name, getattr(one, name)(one)), (name, getattr(plain, name)(plain)))
            one.__init__(one)
            self.equal(one, plain)

    def test_iterables_of_all_kinds(self):
        chance = random.Random(8)
        for count, other in ((0, 5), (9, 0), (5, 600), (600, 5), (300, 300)):
            keys, more = chance.sample(range(900), count), chance.sample(range(900), other)
            for kind in KINDS:
                for name in METHODS:
                    self.equal(getattr(Judy1(keys), name)(kind(more)), getattr(set(keys), name)(more))
                for name in UPDATES:
                    changed, expected = Judy1(keys), set(keys)
                    self.assertIsNone(getattr(changed, name)(kind(more)))
                    getattr(expected, name)(more)
                    self.equal(changed, expected)
                for name in QUESTIONS:
                    self.assertEqual(getattr(Judy1(keys), name)(kind(more)), getattr(set(keys), name)(more))
                for name, call in {**OPERATORS, **IN_PLACE}.items():
                    self.equal(call(Judy1(keys), kind(more)), call(set(keys), set(more)))
            for kind in (set, frozenset):
                for call in OPERATORS.values():
                    self.equal(call(kind(more), Judy1(keys)), call(set(more), set(keys)))
                for call in COMPARISONS.values():
                    self.assertEqual(call(kind(more), Judy1(keys)), call(set(more), set(keys)))
                    self.assertEqual(call(Judy1(keys), kind(more)), call(set(keys), set(more)))

    def test_none_and_many_others(self):
        keys, others = range(0, 900, 2), ([n * 3 for n in range(300)], Judy1(range(0, 900, 5)), {6, 30, 31})
        for name in METHODS[:3]:
            for count in range(4):
                self.equal(getattr(Judy1(keys), name)(*others[:count]), getattr(set(keys), name)(*others[:count]))
        for name in UPDATES[:3]:
            for count in range(4):
                changed, expected = Judy1(keys), set(keys)
                getattr(changed, name)(*others[:count]), getattr(expected, name)(*others[:count])
                self.equal(changed, expected)

    def test_operations_of_a_subclass_answer_it(self):
        one = Own(range(5))
        for call in OPERATORS.values():
            self.assertIs(type(call(one, {3, 4, 5})), Own)
            self.assertIs(type(call({3, 4, 5}, one)), Own)
            self.assertIs(type(call(Judy1([3]), one)), Judy1)
        self.equal(one | Judy1([9]), {0, 1, 2, 3, 4, 9})
        self.assertRaises(TypeError, hash, one)


class NoKeys(unittest.TestCase):
    WRONG = [-1, 2**64, 2.5, "a", None, (1, 2)]

    def test_what_is_no_key_is_in_no_set(self):
        for wrong in self.WRONG:
            one = Judy1([1, 2, 3])
            for other in ([2, wrong], (it for it in (2, wrong)), {2, wrong}):
                kept = Judy1(one)
                kept &= other if not hasattr(other, "send") else [2, wrong]
                self.assertEqual((held(one.intersection(list(other))), held(kept)), ([2], [2]))
            made = one - [2, wrong], one & [wrong], one.difference([wrong], [1])
            self.assertEqual([held(it) for it in made], [[1, 3], [], [2, 3]])
            told = one.isdisjoint([wrong]), one.issubset([1, 2, 3, wrong]), one < {1, 2, 3, wrong}
            self.assertEqual((wrong, *told), (wrong, True, True, True))
            told = one.issuperset([1, wrong]), one == {1, 2, wrong}, one > {1, wrong}
            self.assertEqual((wrong, *told), (wrong, False, False, False))
        self.assertEqual(held(Judy1([0, 1, 2]) - [True, 2.0]), [0, 2])

    def test_what_is_no_key_can_not_be_put_in(self):
        for wrong in self.WRONG:
            error = ValueError if isinstance(wrong, int) else TypeError
            one = Judy1([1, 2, 3])
            for name in ("union", "symmetric_difference", "symmetric_difference_update", "__ior__", "__ixor__"):
                self.assertRaises(error, getattr(one, name), [7, 2, wrong])
            self.assertEqual(held(one), [1, 2, 3])
            # update goes item by item
            self.assertRaises(error, one.update, [7, wrong, 8])
            self.assertEqual(held(one), [1, 2, 3, 7])
            self.assertRaises(error, lambda: {wrong} - one)

    def test_what_is_no_iterable(self):
        for call in {**OPERATORS, **IN_PLACE}.values():
            self.assertRaises(TypeError, call, Judy1([1]), 5)
            self.assertRaises(TypeError, call, 5, Judy1([1]))
        for name in (*METHODS, *UPDATES, *QUESTIONS):
            self.assertRaises(TypeError, getattr(Judy1([1]), name), 5)
        self.assertFalse(Judy1([1]) == 5)
        self.assertRaises(TypeError, lambda: Judy1([1]) <= 5)
        self.assertRaises(TypeError, lambda: Judy1([1]) < [1, 2])


class ReEntry(unittest.TestCase):
    def test_an_iterable_that_changes_the_set(self):
        # The iterable is read first, and the operation is one on what the set is then.
        acts = {
            range(0): lambda it: it.clear(),
            range(2000): lambda it: it.update(range(2000)),
            range(MAX, MAX + 1): lambda it: it.__init__([MAX]),
        }
        items = range(500, 700)
        for changed, act in acts.items():
            for name in (*METHODS, *UPDATES, *QUESTIONS):
                one, plain = Judy1(range(600)), set(changed)
                told, expected = getattr(one, name)(Reading(lambda: act(one), items)), getattr(plain, name)(items)
                self.assertEqual((name, told, held(one)), (name, expected, sorted(plain)))
            for name, call in {**OPERATORS, **IN_PLACE}.items():
                one, plain = Judy1(range(600)), set(changed)
                told, expected = call(one, Reading(lambda: act(one), items)), call(plain, set(items))
                self.assertEqual((name, held(told), held(one)), (name, sorted(expected), sorted(plain)))

    def test_an_iterable_that_raises_leaves_the_set(self):
        def fail():
            raise LookupError("here")

        for name in (*METHODS, *UPDATES, *SIGNS):
            one = Judy1(range(600))
            self.assertRaises(LookupError, getattr(one, name), Reading(fail, []))
            self.assertEqual(held(one), list(range(600)))

    def test_a_number_that_clears_the_set(self):
        one = Judy1(range(600))

        class Clears:
            def __index__(self):
                one.clear()
                return 5

        for name in (*METHODS, *UPDATES, "isdisjoint", "issuperset"):
            one.__init__(range(600))
            getattr(one, name)([Clears(), 7])
            self.assertLess(len(one), 3)

    def test_a_walk_through_a_set_that_operations_change(self):
        for other, seen in ((range(1, 900, 2), [0, *range(2, 900, 2)]), ([5], [0, 1, 2, 3, 4, *range(6, 900)])):
            one, told = Judy1(range(900)), []
            for key in one:
                told.append(key)
                one -= Judy1(other)
            self.assertEqual(told, seen)
        one, told = Judy1(range(3)), []
        for key in one:
            told.append(key)
            one |= Judy1([key + 2]) if key < 9 else []
        self.assertEqual(told, list(range(11)))

    def test_what_is_no_set_of_words(self):
        one = Judy1([1])
        for wrong in (None, 5, {1}, [1], object()):
            self.assertRaises((TypeError, AttributeError), one._combine, 7, one, wrong)
            self.assertRaises((TypeError, AttributeError), one._combine, 7, wrong, one)
            self.assertRaises((TypeError, AttributeError), one._has_any, 7, wrong)
        for words in ((), (7,), (7, one), (7, one, one, one), ("7", one, one)):
            self.assertRaises(TypeError, one._combine, *words)
        self.assertEqual(held(one), [1])

    def test_threads_combine_sets(self):
        interval = sys.getswitchinterval()
        self.addCleanup(sys.setswitchinterval, interval)
        sys.setswitchinterval(1e-5)
        one, other, failures = Judy1(range(3000)), Judy1(range(1500, 4500)), []

        def work(*calls):
            try:
                for _ in range(60):
                    for call in calls:
                        call()
            except Exception as failure:  # told by the thread that waits for this one
                failures.append(failure)

        works = [
            (lambda: one.update(other), lambda: one.intersection_update(range(2000))),
            (lambda: other.__ixor__(one), lambda: other.update(range(100))),
            (lambda: one | other, lambda: one - other, lambda: one <= other, lambda: list(one & other)),
        ]
        threads = [threading.Thread(target=work, args=each) for each in works]
        for thread in threads:
            thread.start()
        for thread in threads:
            thread.join()
        self.assertEqual(failures, [])


# As in test_arrays.
refuse_from = getattr(ctypes.CDLL(None), "refuse_from", None)


@unittest.skipUnless(refuse_from, "nothing is preloaded that refuses memory")
class WithoutMemory(unittest.TestCase):
    def refused_in_turn(self, call, after):
        """Makes a call whose first call for memory is refused and each later one, then its second, and so on until it
        succeeds. What it answers then, and how often it was refused; `after` is called behind each refusal."""
        failed = 0
        while True:
            refuse_from(failed + 1)
            try:
                return call(), failed
            except MemoryError:
                self.assertGreater(refuse_from(0), 0)
                after()
                failed += 1
            finally:
                refuse_from(0)

    def test_operations_leave_both_sets(self):
        far = [n * 0x9E3779B97F4A7C15 & MAX for n in range(1, 190)]
        words = [*range(0, 900, 2), *(n << 20 for n in range(1, 60)), *far[:99]]
        for more in (range(0, 900, 3), [1, 2, 3, 7, 8, MAX, 5 << 20], far[90:]):
            one, other, expected = Judy1(words), Judy1(more), (sorted(words), sorted(more))

            def look():
                self.assertEqual((held(one), held(other)), expected)

            for name, call in OPERATORS.items():
                made, failed = self.refused_in_turn(lambda: call(one, other), look)
                self.assertEqual(held(made), sorted(call(set(words), set(more))))
                self.assertTrue(failed or not made)
            for name, call in IN_PLACE.items():
                self.refused_in_turn(lambda: call(one, other), look)
                self.assertEqual(held(one), sorted(call(set(words), set(more))))
                one.__init__(words)
            self.refused_in_turn(lambda: one.intersection_update(other, more), look)
            self.assertEqual(held(one), sorted(set(words) & set(more)))


if __name__ == "__main__":
    unittest.main()
