"""What sortedcontainers documents of SortedSet and SortedDict, as tables of cases: an expression and what it is.
`DIFFERS` has what differs."""

import unittest

from sellumaq import MAX, MAX_SAVED_KEY, Judy1, JudyHS, JudyL, JudySL, JudySLBytes

SET = [
    ("s[0], s[-1], s[1:3], s[::-2], s[9:]", (1, 5, [2, 3], [5, 3, 1], [])),
    ("list(s), list(reversed(s)), len(s)", ([1, 2, 3, 4, 5], [5, 4, 3, 2, 1], 5)),
    ("3 in s, 9 in s, -1 in s, 'a' in s, 3.5 in s, None in s", (True, False, False, False, False, False)),
    ("s.count(3), s.count(9)", (1, 0)),
    ("s.index(2), s.index(2, 0, 2), s.index(5, -1)", (1, 1, 4)),
    ("s.bisect(3), s.bisect_right(3), s.bisect_left(3)", (3, 3, 2)),
    ("s.bisect_left(-7), s.bisect_right(-7), s.bisect_left(2**70), s.bisect_right(2**70), s.bisect_right(0)", (0, 0, 5, 5, 0)),
    ("list(s.irange(2, 4)), list(s.irange(2, 4, reverse=True))", ([2, 3, 4], [4, 3, 2])),
    ("list(s.irange(2, 4, (False, False))), list(s.irange(maximum=2)), list(s.irange(4))", ([3], [1, 2], [4, 5])),
    ("list(s.irange(-5, -1)), list(s.irange(9, 2**70)), list(s.irange(4, 2)), list(s.irange(5, 5, (False, True)))", ([], [], [], [])),
    ("list(s.islice(1, 3)), list(s.islice(-2)), list(s.islice(1, 3, reverse=True)), list(s.islice(3, 1))", ([2, 3], [4, 5], [3, 2], [])),
    ("s.pop(), s.pop(0), s.pop(1), list(s)", (5, 1, 3, [2, 4])),
    ("s.__delitem__(0), list(s)", (None, [2, 3, 4, 5])),
    ("s.__delitem__(slice(1, 3)), list(s)", (None, [1, 4, 5])),
    ("list(s | {7}), list({7} | s), list(s.union([7], [8]))", ([1, 2, 3, 4, 5, 7], [1, 2, 3, 4, 5, 7], [1, 2, 3, 4, 5, 7, 8])),
    ("list(s & {2, 9}), list({2, 9} & s), list(s.intersection([1, 2], [2]))", ([2], [2], [2])),
    ("list(s - {1, 2}), list({1, 9} - s), list(s.difference([1], [2]))", ([3, 4, 5], [9], [3, 4, 5])),
    ("list(s ^ {5, 6}), list({5, 6} ^ s), list(s.symmetric_difference([5, 6]))", ([1, 2, 3, 4, 6],) * 3),
    ("s.update([7], [8]), list(s)", (None, [1, 2, 3, 4, 5, 7, 8])),
    ("s.intersection_update([2, 3]), list(s)", (None, [2, 3])),
    ("s.difference_update([2, 3]), list(s)", (None, [1, 4, 5])),
    ("s.difference_update(s), list(s)", (None, [])),
    ("s.symmetric_difference_update(s), list(s)", (None, [])),
    ("s.symmetric_difference_update([5, 6, 6]), list(s)", (None, [1, 2, 3, 4, 6])),
    ("s == {1, 2, 3, 4, 5}, s != {1}, s < {1, 2, 3, 4, 5, 6}, s <= s, s > {1}, s >= {9}", (True, True, True, True, True, False)),
    ("s.issubset(range(9)), s.issuperset([1, 9]), s.isdisjoint([9]), s.isdisjoint([1])", (True, False, True, False)),
    ("list(s.copy()), s.copy() is s", ([1, 2, 3, 4, 5], False)),
    ("s.add(3), s.discard(9), len(s)", (None, None, 5)),
    ("s.__init__([8]), list(s)", (None, [8])),
    ("list(type(s)[int]([2, 1]))", [1, 2]),
    ("s.at_or_after(-4), s.at_or_after(2**64), s.at_or_before(-1), s.at_or_before(2**64), s.absent_at_or_after(0)", (1, None, None, 5, 0)),
]

DICT = [
    ("d[1], d.get(1), d.get(9), d.get(9, 8), d.get('a', 7)", (10, 10, None, 8, 7)),
    ("list(d), list(reversed(d)), list(d.keys()), list(d.values()), list(d.items())", ([1, 2, 3], [3, 2, 1], [1, 2, 3], [10, 20, 30], [(1, 10), (2, 20), (3, 30)])),
    ("list(reversed(d.items())), list(reversed(d.values()))", ([(3, 30), (2, 20), (1, 10)], [30, 20, 10])),
    ("d.keys()[0], d.items()[-1], d.values()[1], d.keys()[1:], d.items()[:1], d.values()[::2]", (1, (3, 30), 20, [2, 3], [(1, 10)], [10, 30])),
    ("d.keys() & {1, 9}, d.keys() | {9}, d.keys().index(3), d.items().index((2, 20)), d.values().count(10)", ({1}, {1, 2, 3, 9}, 2, 1, 1)),
    ("d.peekitem(), d.peekitem(0), len(d)", ((3, 30), (1, 10), 3)),
    ("d.popitem(), d.popitem(0), list(d)", ((3, 30), (1, 10), [2])),
    ("d.popitem(last=True), d.popitem(last=False), list(d)", ((3, 30), (1, 10), [2])),
    ("d.pop(1), d.pop(9, 5), d.pop(9, None), list(d)", (10, 5, None, [2, 3])),
    ("d.setdefault(1, 5), d.setdefault(9, 5), d[9]", (10, 5, 5)),
    ("d.update({1: 5}), d.update([(7, 8)]), dict(d)", (None, None, {1: 5, 2: 20, 3: 30, 7: 8})),
    ("dict(d | {1: 5, 9: 9}), dict({1: 5, 9: 9} | d)", ({1: 5, 2: 20, 3: 30, 9: 9}, {1: 10, 2: 20, 3: 30, 9: 9})),
    ("d.__ior__({9: 9}) is d, dict(d)", (True, {1: 10, 2: 20, 3: 30, 9: 9})),
    ("dict(type(d).fromkeys([2, 1], 7))", {1: 7, 2: 7}),
    ("d.bisect(2), d.bisect_left(2), d.bisect_right(2), d.index(3)", (2, 1, 2, 2)),
    ("list(d.irange(2)), list(d.islice(0, 2)), d.count_range(2), d.nth(1)", ([2, 3], [1, 2], 2, 2)),
    ("d == {1: 10, 2: 20, 3: 30}, d == {1: 10, 2: 20, 3: 31}, d == {1: 10}, d == 5, d == d.copy()", (True, False, False, False, True)),
    ("d.keys().__delitem__(0), list(d)", (None, [2, 3])),
    ("d.items().__delitem__(slice(0, 2)), list(d)", (None, [3])),
    ("d.__init__({9: 1}), list(d)", (None, [1, 2, 3, 9])),
    ("True in d, d[True]", (True, 10)),
    ("d.clear(), dict(d), repr(d)", (None, {}, "JudyL({})")),
]

STRINGS = [
    ("list(t), list(reversed(t)), list(t.items()), list(t.values())", (["a", "b", "c"], ["c", "b", "a"], [("a", 1), ("b", 2), ("c", 3)], [1, 2, 3])),
    ("t.peekitem(), t.peekitem(last=False), t.popitem(), t.popitem(last=False), list(t)", (("c", 3), ("a", 1), ("c", 3), ("a", 1), ["b"])),
    ("list(t.irange('a', 'b')), list(t.irange('a', 'b', reverse=True)), list(t.irange('a', 'c', (False, False)))", (["a", "b"], ["b", "a"], ["b"])),
    ("list(t.irange('a\\0', 'b\\0')), list(t.irange('b' * 2000)), list(t.irange(None, 'a' * 2000, reverse=True))", (["b"], ["c"], ["a"])),
    ("t | {'d': 4} == {'a': 1, 'b': 2, 'c': 3, 'd': 4}, dict(t.fromkeys('zy', 6))", (True, {"y": 6, "z": 6})),
    ("t.pop('a'), t.pop('z', 9), t.get('b'), t.setdefault('q', 5), list(t)", (1, 9, 2, 5, ["b", "c", "q"])),
    ("t.peekitem(), t.peekitem(0), t.popitem(1), t.popitem(-1), list(t)", (("c", 3), ("a", 1), ("b", 2), ("c", 3), ["a"])),
    ("t.keys()[0], t.items()[-1], t.values()[1], t.keys()[1:], t.items()[:1], t.keys()[::-1], t.keys()[::2]", ("a", ("c", 3), 2, ["b", "c"], [("a", 1)], ["c", "b", "a"], ["a", "c"])),
    ("t.bisect('b'), t.bisect_left('b'), t.bisect_right('b'), t.index('c'), t.keys().index('b')", (2, 1, 2, 2, 1)),
    ("t.bisect_left('b\\0'), t.bisect_right('b\\0'), t.bisect_left('b' * 2000), t.bisect_right(''), t.bisect_left('z')", (2, 2, 2, 0, 3)),
    ("list(t.islice(1)), list(t.islice(0, 2, reverse=True)), t.count_range('a', 'c'), t.count_range('c', 'a'), t.count_range(), t.nth(1)", (["b", "c"], ["b", "a"], 2, 0, 3, "b")),
    ("t.keys().__delitem__(0), t.items().__delitem__(slice(0, 1)), list(t)", (None, None, ["c"])),
    ("5 in t, b'a' in t, 'a\\0' in t, 'a' * 1025 in t", (False, False, False, False)),
]

ERRORS = [
    ("s[5]", IndexError), ("s[-6]", IndexError), ("s['a']", TypeError), ("s.pop(9)", IndexError), ("s.remove(9)", KeyError), ("s.remove('a')", KeyError),
    ("s.index(9)", ValueError), ("s.index(1, 1)", ValueError), ("s.add(-1)", ValueError), ("s.add(2**64)", ValueError), ("s.add(1.5)", TypeError),
    ("s.add('a')", TypeError), ("s.irange('a')", TypeError), ("s.bisect(None)", TypeError), ("s.nth(-1)", IndexError), ("hash(s)", TypeError),
    ("s | 5", TypeError), ("s.__class__(5)", TypeError),
    ("d[9]", KeyError), ("d['a']", KeyError), ("d[(1, 2)]", KeyError), ("d.pop(9)", KeyError), ("d.__delitem__(9)", KeyError), ("d.peekitem(3)", IndexError),
    ("d.popitem(3)", IndexError), ("d.__class__().popitem()", KeyError), ("d.update([(1, 2, 3)])", ValueError), ("d.update([5])", TypeError),
    ("d.update(a=1)", TypeError), ("d.__setitem__(1, -1)", ValueError), ("d.__setitem__(1, 2**64)", ValueError), ("d.__setitem__(1, None)", TypeError),
    ("d.get()", TypeError), ("d.pop(1, 2, 3)", TypeError), ("hash(d)", TypeError), ("d | 5", TypeError),
    ("t['z']", KeyError), ("t.peekitem(last=5) and t.clear() or t.peekitem()", IndexError), ("t.irange(5)", TypeError),
    ("t.keys()[3]", IndexError), ("t.peekitem(-4)", IndexError), ("t.index('z')", ValueError), ("t.index('a', 1)", ValueError), ("t.bisect(5)", TypeError),
    ("t.nth(-1)", IndexError), ("t.popitem(3)", IndexError), ("t.__class__().popitem()", KeyError),
]  # fmt: skip

# An expression, what it is here, and what sortedcontainers answers.
DIFFERS = [
    ("d.setdefault(9)", 0, "None: a value is any object"),
    ("dict(d.fromkeys([1]))", {1: 0}, "None: a value is any object"),
    ("list(s - {'a'})", [1, 2, 3, 4, 5], "the same; but a union with other objects than words is a TypeError here"),
    ("2.0 in s", False, "True: 2.0 == 2"),
    ("type(d.keys() | {9})", set, "SortedSet"),
    ("isinstance(d, dict)", False, "True"),
    ("hasattr(s, 'key'), hasattr(s, 'bisect_key')", (False, False), "True: keys may be ordered by a function"),
    ("[key for key in s if s.discard(key + 1) is None]", [1, 3, 5], "RuntimeError, or keys are left out"),
]


class Tables(unittest.TestCase):
    def fresh(self):
        return {"s": Judy1([3, 1, 5, 2, 4]), "d": JudyL({2: 20, 1: 10, 3: 30}), "t": JudySL(b=2, a=1, c=3)}

    def test_tables(self):
        for expression, expected in [*SET, *DICT, *STRINGS, *((it, told) for it, told, _ in DIFFERS)]:
            with self.subTest(expression):
                self.assertEqual(eval(expression, self.fresh()), expected)

    def test_errors(self):
        for expression, error in ERRORS:
            with self.subTest(expression), self.assertRaises(error):
                eval(expression, self.fresh())

    def test_places_and_ranges_of_the_ends_of_words(self):
        ends = Judy1([0, 1, MAX - 1, MAX])
        self.assertEqual((list(ends), list(reversed(ends))), ([0, 1, MAX - 1, MAX], [MAX, MAX - 1, 1, 0]))
        self.assertEqual(list(ends.irange(0, MAX, (False, False))), [1, MAX - 1])
        self.assertEqual((ends.bisect_right(MAX), ends.bisect_left(MAX), ends.count_range()), (4, 3, 4))

    def test_walks_longer_than_a_cursors_pairs(self):
        for count in (7, 8, 9, 263, 264, 265, 521):
            keys = [n * 3 for n in range(count)]
            words = JudyL(zip(keys, keys))
            self.assertEqual((list(words), list(words.values())), (keys, keys))
            self.assertEqual(list(reversed(words.items())), [(key, key) for key in reversed(keys)])
            self.assertEqual(list(words.irange(4, 3 * count - 4)), keys[2 : count - 1])
            self.assertEqual(list(words.irange(4, 3 * count - 4, reverse=True)), keys[2 : count - 1][::-1])
            self.assertEqual(list(reversed(Judy1(keys))), keys[::-1])

    def test_a_walk_down_goes_on_while_words_come_and_go(self):
        for count in (1, 9, 264, 600):
            words, plain, last = Judy1(range(0, 3 * count, 3)), {*range(0, 3 * count, 3)}, 3 * count
            for key in reversed(words):
                self.assertEqual(key, max(it for it in plain if it < last))
                last = key
                if key % 4 == 0 and key > 2:
                    words.discard(key - 3)
                    plain.discard(key - 3)
                if key % 5 == 0 and key > 4:
                    words.add(key - 4)
                    plain.add(key - 4)
            self.assertFalse([it for it in plain if it < last])

    def test_walks_longer_than_a_page_of_strings(self):
        for count in (1, 2, 8, 9, 10, 72, 73, 74, 137, 300):
            for length in (0, 1, 30, 500, MAX_SAVED_KEY - 4, 20_000):
                pairs = [(f"{n:04}" + "z" * (n * 7 % (length + 1)), n) for n in range(count)]
                keys, values = [key for key, _ in pairs], [value for _, value in pairs]
                strings = JudySL(pairs)
                self.assertEqual((list(strings), list(strings.values()), list(strings.items())), (keys, values, pairs))
                self.assertEqual((list(reversed(strings)), list(strings.copy().items())), (keys[::-1], pairs))
                self.assertEqual(list(strings.irange(keys[count // 3], keys[-1][:4])), [key for key in keys[count // 3 :] if key <= keys[-1][:4]])
                self.assertEqual((strings.keys()[1:-1], strings.items()[::2], list(strings.islice(2, 9))), (keys[1:-1], pairs[::2], keys[2:9]))
                for place in (slice(None), slice(3, -2), slice(None, None, -1), slice(9, 2, -1), slice(1, None, 3), slice(None, None, -7), slice(5, 5)):
                    for dicts, told in ((strings, pairs), (JudyL(enumerate(values)), [*enumerate(values)])):
                        views = (dicts.keys()[place], dicts.values()[place], dicts.items()[place])
                        self.assertEqual(views, ([key for key, _ in told[place]], [value for _, value in told[place]], told[place]))
                self.assertEqual(list(JudySLBytes((key.encode(), n) for key, n in pairs)), [key.encode() for key in keys])

    def test_unordered(self):
        ages = JudyHS(a=1)
        self.assertEqual((ages == {"a": 1}, ages == {"a": 2}, ages == {"b": 1}, {"a": 1} == ages, ages == 5), (True, False, False, True, False))
        self.assertEqual((ages == JudyHS(a=1), ages == JudyHS(a=2), ages | {"b": 2} == JudyHS(b=2, a=1), list(ages.keys())), (True, False, True, ["a"]))

    def test_bytes_like_keys(self):
        times = JudySLBytes({b"a": 1})
        self.assertEqual((times[bytearray(b"a")], memoryview(b"a") in times, "a" in times), (1, True, False))
        times[memoryview(bytearray(b"b"))] = 2
        self.assertEqual(list(times.irange(bytearray(b"a"), b"b", (False, True))), [b"b"])
        for zeros in (1, 1025):
            with self.assertRaises(ValueError):
                times[bytearray(zeros)] = 1


if __name__ == "__main__":
    unittest.main()
