"""Keys of ordered dicts from strings that are short and long, beside Python's dict and a sorted list of the same keys."""

import bisect
import ctypes
import itertools
import pickle
import random
import sys
import threading
import unittest

from sellumaq import BINDING, MAX_SAVED_KEY, JudySL, JudySLBytes

# Those that a dump can say and no more, those that a walk takes many of and that it takes alone, and far longer ones.
LENGTHS = 0, 1, 900, MAX_SAVED_KEY, MAX_SAVED_KEY + 1, 16 * 1024, 16 * 1024 + 1, 65_537, 4 << 20
TEXTS = {JudySL: "\u00e4", JudySLBytes: b"\xff"}


def sample(kind):
    """Keys that begin with one another, beside such as differ in the last letter, and keys that have no letter alike."""
    letter, other = ("a", "b") if kind is JudySL else (b"a", b"b")
    for end in (letter[:0], other):
        yield {letter * length + end: length for length in LENGTHS}
    yield {TEXTS[kind] * (length // len(encoded(TEXTS[kind]))) + other: length for length in LENGTHS}
    yield {(chr(65 + at) if kind is JudySL else b"%c" % (250 - at)) * length: length for at, length in enumerate(LENGTHS)}


def encoded(key):
    return key.encode("utf-8", "surrogatepass") if isinstance(key, str) else key


class Lengths(unittest.TestCase):
    def samples(self):
        for kind in TEXTS:
            for plain in sample(kind):
                yield kind, plain, sorted(plain.items(), key=lambda pair: encoded(pair[0]))

    def test_keys_go_in_and_out(self):
        for kind, plain, pairs in self.samples():
            array, keys = kind(), [key for key, _ in pairs]
            for at, (key, value) in enumerate(plain.items()):
                self.assertEqual((key in array, array.get(key)), (False, None))
                array[key] = value
                array[key] = value + 1
                self.assertEqual((key in array, array[key], array.pop(key), len(array)), (True, value + 1, value + 1, at))
                array[key] = value
            self.assertEqual((list(array.items()), array == plain, array), (pairs, True, kind(plain)))
            for key in (keys[4] + keys[0][:1], keys[-1] + keys[-1][-1:], keys[-1][:-2], keys[-1][:5000] + keys[-1][4000:]):
                self.assertEqual((key in array, array.get(key, 7), array.pop(key, 8)), (key in plain, plain.get(key, 7), plain.get(key, 8)))
                array.update(plain)
            for at, key in enumerate(keys):
                del array[key]
                self.assertEqual(list(array), keys[at + 1 :])

    def test_walks(self):
        for kind, plain, pairs in self.samples():
            array, keys, values = kind(plain), [key for key, _ in pairs], [value for _, value in pairs]
            self.assertEqual((list(array), list(array.values()), list(array.items())), (keys, values, pairs))
            self.assertEqual((list(reversed(array)), list(reversed(array.values())), list(reversed(array.items()))), (keys[::-1], values[::-1], pairs[::-1]))
            for part in (slice(None), slice(1, -1), slice(None, None, -1), slice(2, None, 3), slice(None, None, 16), slice(-3, None)):
                self.assertEqual((array.keys()[part], array.values()[part], array.items()[part]), (keys[part], values[part], pairs[part]))
            self.assertEqual([array.nth(at) for at in range(len(keys))], keys)
            self.assertEqual([array.peekitem(at) for at in range(-len(keys), len(keys))], 2 * pairs)
            self.assertRaises(IndexError, array.peekitem, len(keys))
            self.assertEqual((list(array.islice(2, 5)), list(array.islice(2, 5, reverse=True))), (keys[2:5], keys[2:5][::-1]))

    def test_bounds(self):
        for kind, plain, pairs in self.samples():
            array, keys = kind(plain), [key for key, _ in pairs]
            zero, last = ("\0", "\U0010ffff") if kind is JudySL else (b"\0", b"\xff")
            for at, key in enumerate(keys):
                self.assertEqual((array.bisect_left(key), array.bisect_right(key), array.index(key)), (at, at + 1, at))
                self.assertEqual((list(array.irange(key)), list(array.irange(None, key))), (keys[at:], keys[: at + 1]))
                self.assertEqual(list(array.irange(None, key, (True, False), True)), keys[:at][::-1])
                for bound in (key + zero, key + last, key + zero + last, key[:-1], key[:-1] + last, last * 5000):
                    below = bisect.bisect_left([encoded(each) for each in keys], encoded(bound))
                    upto = bisect.bisect_right([encoded(each) for each in keys], encoded(bound))
                    self.assertEqual((array.bisect_left(bound), array.bisect_right(bound)), (below, upto))
                    self.assertEqual(array.at_or_after(bound), (*keys, None)[below])
                    self.assertEqual(array.at_or_before(bound), (None, *keys)[upto])
                    self.assertEqual(array.count_range(bound), len(keys) - below)

    def test_prefixes(self):
        for kind, plain, pairs in self.samples():
            array, keys = kind(plain), [key for key, _ in pairs]
            zero, last = ("\0", "\U0010ffff") if kind is JudySL else (b"\0", b"\xff")
            for prefix in (keys[0][:0], *keys, *(key[: len(key) // 2] for key in keys), keys[4] + zero, zero, last, keys[-1] + last, last * 2000):
                inside = [key for key in keys if key.startswith(prefix)]
                self.assertEqual(list(array.with_prefix(prefix)), inside)
                other = array.copy()
                self.assertEqual((other.discard_prefix(prefix), list(other)), (len(inside), [key for key in keys if not key.startswith(prefix)]))
                begun = [key for key in keys if prefix.startswith(key)]
                self.assertEqual(array.longest_prefix(prefix), begun[-1] if begun else None)
                self.assertEqual(array.longest_prefix(prefix + zero + prefix), begun[-1] if begun else None)

    def test_ranges_go(self):
        for kind, plain, pairs in self.samples():
            keys = [key for key, _ in pairs]
            for start, stop in itertools.combinations([None, *keys[::2], None], 2):
                array = kind(plain)
                first, end = keys.index(start) if start is not None else 0, keys.index(stop) if stop is not None else len(keys)
                self.assertEqual((array.discard_range(start, stop), list(array.items())), (end - first, pairs[:first] + pairs[end:]))
                self.assertEqual((array.discard_range(), list(array), list(reversed(array))), (len(keys) - (end - first), [], []))

    def test_arrays_of_others(self):
        for kind, plain, pairs in self.samples():
            array, half = kind(plain), kind(pairs[::2])
            self.assertEqual((list(kind.from_sorted(pairs).items()), list(array.copy().items())), (pairs, pairs))
            self.assertEqual(((half | array).items(), (half | plain).items(), (plain | half).items()), (array.items(),) * 3)
            half |= kind(pairs[1::2])
            self.assertEqual((list(half.items()), kind.fromkeys(plain, 5)), (pairs, dict.fromkeys(plain, 5)))
            self.assertEqual((array.popitem(), array.popitem(0), list(array.items())), (pairs[-1], pairs[0], pairs[1:-1]))
            array.shrink()
            self.assertEqual(list(array.items()), pairs[1:-1])
            told = pickle.loads(pickle.dumps(kind(plain)))
            self.assertEqual((list(told.items()), type(told)), (pairs, kind))
            for wrong in (pairs[::-1], [*pairs, pairs[-1]]):
                self.assertRaisesRegex(ValueError, "place", kind.from_sorted, wrong)

    def test_a_zero_byte_in_a_long_key(self):
        for array, wrong in ((JudySL(a=1), "a" * 5000 + "\0"), (JudySLBytes({b"a": 1}), b"\0" + b"a" * 70000), (JudySLBytes({b"a": 1}), bytearray(20000))):
            self.assertRaisesRegex(ValueError, "zero byte", array.__setitem__, wrong, 1)
            self.assertRaisesRegex(ValueError, "zero byte", array.update, [(wrong, 1)])
            self.assertRaisesRegex(ValueError, "zero byte", array.from_sorted, [(wrong, 1)])
            self.assertEqual((wrong in array, array.get(wrong), array.pop(wrong, 5), len(array)), (False, None, 5, 1))

    def test_a_buffer_of_many_bytes_is_a_key(self):
        array = JudySLBytes()
        for length in LENGTHS:
            array[bytearray(b"a" * length)] = length
            self.assertEqual((array[memoryview(b"a" * length)], array.at_or_before(bytearray(b"a" * length + b"\0"))), (length, b"a" * length))
        self.assertEqual(list(array.values()), sorted(LENGTHS))

    def test_a_long_key_that_is_gone(self):
        for kind, plain, _ in self.samples():
            array, short = kind(plain), {key: 1 for key in plain if len(encoded(key)) <= MAX_SAVED_KEY}
            for key in plain.keys() - short.keys():
                del array[key]
            keys = sorted(short, key=encoded)
            self.assertEqual((list(array), list(reversed(array)), array.peekitem(-1)[0], array.keys()[::16]), (keys, keys[::-1], keys[-1], keys[::16]))
            self.assertEqual(array.tobytes(), kind(array.items()).tobytes())


class Steps(unittest.TestCase):
    """Random steps, with keys of up to 20,000 bytes, of which many begin alike."""

    def steps(self, kind, seed, count):
        chance = random.Random(seed)
        text = "".join(chance.choices("ab\u00e4\ud800\U0001f600", k=9000))
        whole, some = (text, "a\x01\u00e4") if kind is JudySL else (encoded(text), b"a\x01\xff")
        while len(encoded(whole)) > 19_990:
            whole = whole[:-1]
        lengths = (0, 1, 5, 1000, 1023, 1024, 1025, 5000, 16_384, 16_385, len(whole))

        def key():
            front = whole[: min(chance.choice(lengths), len(whole))] if chance.randrange(2) else whole[:0]
            return front + some[:0].join(some[at : at + 1] for at in chance.choices(range(len(some)), k=chance.randrange(5)))

        array, plain, order = kind(), {}, []
        for _ in range(count):
            it, value = key(), chance.getrandbits(64)
            place = bisect.bisect_left(order, encoded(it))
            if chance.randrange(3):
                if it not in plain:
                    order.insert(place, encoded(it))
                array[it] = plain[it] = value
            elif chance.randrange(30):
                it = chance.choice([it, *plain])
                if it in plain:
                    order.remove(encoded(it))
                self.assertEqual(array.pop(it, None), plain.pop(it, None))
            else:
                ends = sorted([key(), key()], key=encoded)
                inside = [each for each in plain if encoded(ends[0]) <= encoded(each) < encoded(ends[1])]
                self.assertEqual(array.discard_range(*ends), len(inside))
                for each in inside:
                    del plain[each]
                order = sorted(map(encoded, plain))
            self.beside(array, plain, order, key())
        pairs = sorted(plain.items(), key=lambda pair: encoded(pair[0]))
        self.assertEqual((list(array.items()), list(reversed(array.items())), array), (pairs, pairs[::-1], plain))
        self.assertEqual((list(array.copy().items()), list(kind.from_sorted(pairs).items())), (pairs, pairs))

    def beside(self, array, plain, order, it):
        below, upto = bisect.bisect_left(order, encoded(it)), bisect.bisect_right(order, encoded(it))
        found = (len(array), it in array, array.get(it), array.bisect_left(it), array.bisect_right(it))
        self.assertEqual(found, (len(order), it in plain, plain.get(it), below, upto))
        near = [None if key is None else encoded(key) for key in (array.at_or_after(it), array.at_or_before(it))]
        self.assertEqual(near, [(*order, None)[below], (None, *order)[upto]])
        for reverse in (False, True):
            ends = (it, None) if not reverse else (None, it)
            walked = [encoded(key) for key in itertools.islice(array.irange(*ends, reverse=reverse), 12)]
            self.assertEqual(walked, order[:upto][::-1][:12] if reverse else order[below : below + 12])
        if order:
            at = len(it) % len(order)
            self.assertEqual((encoded(array.nth(at)), encoded(array.peekitem()[0])), (order[at], order[-1]))

    def test_text(self):
        self.steps(JudySL, 1, 600)

    def test_bytes(self):
        self.steps(JudySLBytes, 2, 600)


class Saved(unittest.TestCase):
    def test_a_dump_has_keys_of_1024_bytes(self):
        for kind, letter in ((JudySL, "a"), (JudySLBytes, b"\xff"), (JudySL, "\u00e4\u00e4")):
            most = letter * (MAX_SAVED_KEY // len(encoded(letter)))
            array, other = kind({letter: 1, most: 2}), kind()
            for form in (1, 2):
                other.frombytes(array.tobytes(format=form))
                self.assertEqual(other, array)
            array[most + letter[:1]] = 3
            for call, *words in ((array.tobytes,), (array.save, "/nowhere/array")):
                self.assertRaisesRegex(ValueError, "1,024", call, *words)
            self.assertEqual(array, {letter: 1, most: 2, most + letter[:1]: 3})
            self.assertEqual(pickle.loads(pickle.dumps(array)), array)
            del array[most + letter[:1]]
            self.assertEqual(array.tobytes(), other.tobytes())


class Meanwhile(unittest.TestCase):
    def test_a_bound_that_clears_the_map_as_it_is_compared(self):
        class Clears(str):
            __hash__ = str.__hash__

            def __eq__(self, other):
                strings.clear()
                return False

        for reverse in (False, True):
            for length in (5, 2000, 20_000, 70_000):
                strings = JudySL({letter * length: 1 for letter in "abc"})
                walk = strings.irange(Clears("a"), Clears("d"), (False, False), reverse)
                self.assertEqual(list(walk), [("c" if reverse else "a") * length])

    def test_a_longer_key_comes_between_two_steps(self):
        for reverse in (False, True):
            for length in (5, 2000, 20_000):
                strings = JudySL({letter * length: 1 for letter in "abcdefghijklmnop"})
                walk, last = (reversed(strings), "a") if reverse else (iter(strings), "p")
                begun = [next(walk) for _ in range(5)]
                for at, letter in enumerate("afghijkp"):
                    strings[letter * (length + 40_000 * at) + "+"] = 2
                left = [key for key in (reversed(strings) if reverse else strings) if (key < begun[-1] if reverse else key > begun[-1])]
                self.assertEqual(list(walk), left)
                self.assertEqual(left[-1][0], last)

    def test_threads_walk_a_map_whose_longest_key_comes_and_goes(self):
        strings, walks, lengths = JudySL({f"{n:03}" * 700: n for n in range(40)}), [], set()

        def write():
            for n in itertools.count():
                strings["\U0010ffff" * (n % 3 * 9000 + 1)] = n
                if n % 2:
                    strings.discard_prefix("\U0010ffff")
                if len(walks) > 400:
                    return

        def walk():
            while len(walks) <= 400:
                keys = list(strings) if len(walks) % 2 else list(reversed(strings))[::-1]
                walks.append(keys == sorted(set(keys)) and len(keys) >= 40)
                lengths.add(max(map(len, keys)))

        interval = sys.getswitchinterval()
        sys.setswitchinterval(1e-5)
        self.addCleanup(sys.setswitchinterval, interval)
        threads = [threading.Thread(target=work) for work in (write, walk, walk)]
        for thread in threads:
            thread.start()
        for thread in threads:
            thread.join()
        self.assertTrue(all(walks))
        self.assertGreater(len(lengths), 1)


# As in test_arrays.
refuse_from = getattr(ctypes.CDLL(None), "refuse_from", None)


@unittest.skipUnless(refuse_from, "nothing is preloaded that refuses memory")
class WithoutMemory(unittest.TestCase):
    def refused_in_turn(self, call, after):
        """As in test_sets."""
        failed = 0
        while True:
            refuse_from(failed + 1)
            try:
                return call(), failed
            except MemoryError:
                self.assertGreater(refuse_from(0), 0)
                after()
                failed += 1
            finally:
                refuse_from(0)

    def filled(self, kind):
        """A map of keys of all lengths, of which some begin alike, and its pairs."""
        lengths = 3, 1024, 1025, 5000, 16_385, 70_000
        texts = [front * length + end for front in "ab" for length in lengths for end in ("", "c")] + [f"{n:03}" for n in range(90)]
        pairs = sorted((text if kind is JudySL else text.encode(), n) for n, text in enumerate(texts))
        return kind(pairs), pairs

    def test_keys_that_go_in(self):
        for kind in TEXTS:
            _, pairs = self.filled(kind)
            array, failed = kind(), 0
            for at, (key, value) in enumerate(pairs[::-1]):
                look = lambda: self.assertEqual((len(array), key in array), (at, False))
                failed += self.refused_in_turn(lambda: array.__setitem__(key, value), look)[1]
            self.assertEqual(list(array.items()), pairs)
            self.assertGreater(failed, 20)

    def test_keys_at_places(self):
        for kind in TEXTS:
            array, pairs = self.filled(kind)
            for at, pair in enumerate(pairs):
                self.assertEqual(self.refused_in_turn(lambda: array.peekitem(at), lambda: None)[0], pair)

    @unittest.skipUnless(BINDING == "extension", "a generator that raises an error is over")
    def test_a_walk_that_is_refused_goes_on(self):
        for kind in TEXTS:
            array, pairs = self.filled(kind)
            keys, failed, zero = [key for key, _ in pairs], 0, "\0" if kind is JudySL else b"\0"
            for walk, wanted in (
                (iter(array), keys),
                (reversed(array), keys[::-1]),
                (iter(array.items()), pairs),
                (reversed(array.items()), pairs[::-1]),
                (array.irange(keys[3]), keys[3:]),
                (array.irange(keys[3] + zero), keys[4:]),
                (array.irange(None, keys[-3], reverse=True), keys[:-2][::-1]),
                (array.with_prefix(keys[-1][:2000]), [key for key in keys if key.startswith(keys[-1][:2000])]),
            ):
                for each in (*wanted, None):
                    found, more = self.refused_in_turn(lambda: next(walk, None), lambda: None)
                    self.assertEqual(found, each)
                    failed += more
            self.assertGreater(failed, 20)

    @unittest.skipUnless(BINDING == "extension", "a generator that raises an error is over")
    def test_a_map_that_changes_where_a_walk_is_refused(self):
        for reverse in (False, True):
            for change in (2, 7, 30):
                array, pairs = self.filled(JudySL)
                walk, there, last, chance = reversed(array) if reverse else iter(array), dict(pairs), None, random.Random(change)

                def alter():
                    key = chance.choice([*there])
                    if chance.randrange(change) == 0:
                        array.pop(key), there.pop(key)
                    elif chance.randrange(change) == 0:
                        array[key + "+"] = there[key + "+"] = 5

                def is_behind(key, other):
                    return other is None or (key < other if reverse else key > other)

                while True:
                    before = set(there)
                    found, _ = self.refused_in_turn(lambda: next(walk, None), alter)
                    # A key that came meanwhile may come or not, as one before which the walk stood already.
                    stood = (max if reverse else min)((key for key in before & there.keys() if is_behind(key, last)), default=None)
                    if found is None:
                        self.assertIsNone(stood)
                        break
                    self.assertTrue(found in there and is_behind(found, last) and (stood is None or not is_behind(found, stood)))
                    last = found

    def test_keys_that_go(self):
        for kind in TEXTS:
            array, pairs = self.filled(kind)
            keys, prefix = [key for key, _ in pairs], pairs[-1][0][:1500]

            def look():
                self.assertEqual(list(array.items()), pairs)

            gone, failed = self.refused_in_turn(lambda: array._remove_range(encoded(keys[2]), encoded(keys[-5])), look)
            self.assertEqual((gone, list(array.items())), (len(keys) - 6, pairs[:2] + pairs[-4:]))
            self.assertGreater(failed, 0)
            array, pairs = self.filled(kind)
            gone, failed = self.refused_in_turn(lambda: array.discard_prefix(prefix), look)
            left = [pair for pair in pairs if not pair[0].startswith(prefix)]
            self.assertEqual((gone, list(array.items())), (len(pairs) - len(left), left))
            self.assertGreater(failed, 0)
            array = kind(pairs)
            self.assertEqual(self.refused_in_turn(lambda: array.discard_range(keys[5], keys[9]), look)[0], 4)
            # Short keys go where there is no memory.
            array = kind(pairs[:90])
            refuse_from(1)
            gone = array._remove_range(b"001", b"080")
            refuse_from(0)
            self.assertEqual((gone, list(array.items())), (80, [pairs[0], *pairs[81:90]]))

    def test_maps_that_are_made(self):
        for kind in TEXTS:
            pairs = self.filled(kind)[1][::4]
            array = kind(pairs)
            look = lambda: self.assertEqual(list(array.items()), pairs)
            for call in (array.copy, lambda: kind.from_sorted(pairs), lambda: array | kind(pairs[::2]), lambda: pickle.loads(pickle.dumps(array))):
                self.assertEqual(list(self.refused_in_turn(call, look)[0].items()), pairs)


if __name__ == "__main__":
    unittest.main()
