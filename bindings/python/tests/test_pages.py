"""Walks through strings in order, which take many keys a call, beside a sorted list of the same keys."""

import bisect
import itertools
import operator
import random
import sys
import threading
import unittest

from sellumaq import BINDING, MAX_SAVED_KEY, JudySL, JudySLBytes

LETTERS = "ab\x01\u00e4\ud800\uffff\U0001f600"


def text(chance):
    """A string: of few letters or of many, of one front or of another; one in sixteen so long that few fit a page, or
    none does."""
    front = chance.choice(["", "", "https://", "\u00e4" * 8, "a" * 40])
    if chance.randrange(16) == 0:
        length = chance.choice([MAX_SAVED_KEY, MAX_SAVED_KEY + 1, 6000, 16 * 1024, 16 * 1024 + 1])
        return front + "a" * (length - len(front.encode()) - 4) + "%04d" % chance.randrange(50)
    return front + "".join(chance.choices(LETTERS if chance.randrange(4) == 0 else "0123456789", k=chance.randrange(6)))


def encoded(string):
    return string.encode("utf-8", "surrogatepass")


# A key of each kind, and what the order goes by.
KINDS = {JudySL: (text, encoded), JudySLBytes: (lambda chance: encoded(text(chance)), bytes)}


def filled(kind, count, seed):
    """An array of some keys, and its pairs by their order."""
    (key, order), chance = KINDS[kind], random.Random(seed)
    pairs = {key(chance): chance.getrandbits(64) for _ in range(count)}
    return kind(pairs), sorted(pairs.items(), key=lambda pair: order(pair[0]))


class Walks(unittest.TestCase):
    def test_arrays_of_all_sizes(self):
        for kind in KINDS:
            for count in (0, 1, 2, 9, 10, 73, 74, 329, 330, 2000):
                array, pairs = filled(kind, count, count)
                keys, values = [key for key, _ in pairs], [value for _, value in pairs]
                self.assertEqual((list(array), list(array.items()), list(array.values())), (keys, pairs, values))
                self.assertEqual((list(reversed(array)), list(reversed(array.items()))), (keys[::-1], pairs[::-1]))
                self.assertEqual((list(array.copy().items()), dict(array)), (pairs, dict(pairs)))

    def test_ranges(self):
        for kind, (key, order) in KINDS.items():
            array, pairs = filled(kind, 1500, 3)
            keys, chance = [pair[0] for pair in pairs], random.Random(4)
            places = [order(each) for each in keys]
            for _ in range(300):
                low, high = sorted((chance.choice([key(chance), chance.choice(keys)]) for _ in range(2)), key=order)
                first, last = bisect.bisect_left(places, order(low)), bisect.bisect_right(places, order(high))
                self.assertEqual(list(array.irange(low, high)), keys[first:last])
                self.assertEqual(list(array.irange(low, high, reverse=True)), keys[first:last][::-1])
                self.assertEqual(list(array.irange(None, high)), keys[:last])
                self.assertEqual(list(array.irange(low)), keys[first:])

    def test_slices(self):
        for kind in KINDS:
            array, pairs = filled(kind, 700, 5)
            keys, values, chance = [key for key, _ in pairs], [value for _, value in pairs], random.Random(6)
            ends = [None, 0, 1, -1, len(pairs), -len(pairs) - 1, 300]
            for step in (None, 1, -1, 2, -2, 3, -7, 15, -15, 16, -16, 100, -699, 5000):
                for _ in range(20):
                    part = slice(*chance.choices([*ends, chance.randrange(-800, 800)], k=2), step)
                    self.assertEqual((array.keys()[part], array.values()[part], array.items()[part]), (keys[part], values[part], pairs[part]))

    @unittest.skipUnless(BINDING == "ctypes", "the extension's calls aren't seen")
    def test_a_walk_takes_few_calls(self):
        class Calls(dict):
            made = 0

            def __getitem__(self, name):
                Calls.made += 1
                return super().__getitem__(name)

        for kind in KINDS:
            for front, most in (("", 200), ("https://" * 8, 400)):
                texts = [f"{front}{n:08}" for n in range(10_000)]
                pairs = [(text if kind is JudySL else encoded(text), n) for n, text in enumerate(texts)]
                array = kind(pairs)
                array._calls = Calls(array._calls)
                for wanted, told in (([key for key, _ in pairs], array), ([n for _, n in pairs], array.values()), (pairs, array.items())):
                    for walk, order in ((iter, wanted), (reversed, wanted[::-1])):
                        Calls.made = 0
                        found = [*walk(told)]
                        self.assertLess(Calls.made, most)
                        self.assertEqual(found, order)


class Changed(unittest.TestCase):
    """Each step of a walk finds the next key that the array has then, with the value that it has then."""

    def beside_a_list(self, kind, seed, end, reverse):
        (key, order), chance = KINDS[kind], random.Random(seed)
        array, pairs = filled(kind, 600, seed)
        there, last, is_behind = dict(pairs), None, operator.lt if reverse else operator.gt
        bounds = (end, None) if reverse else (None, end)
        walk = ((each, array[each]) for each in array.irange(*bounds, reverse=reverse))
        if end is None:
            walk = reversed(array.items()) if reverse else array.items()

        def left():
            behind = [each for each in there if last is None or is_behind(order(each), order(last))]
            return [each for each in behind if end is None or not is_behind(order(each), order(end))]

        for at, found in enumerate(walk):
            last = (max if reverse else min)(left(), key=order)
            self.assertEqual(found, (last, there[last]))
            for _ in range(chance.choice([0, 0, 0, 0, 1, 3]) if at < 900 else 0):
                other = chance.choice([key(chance), last, chance.choice([*there, last])])
                if chance.randrange(2) and other in there:
                    del array[other], there[other]
                else:
                    array[other] = there[other] = chance.getrandbits(64)
        self.assertFalse(left())

    def test_keys_come_and_go_between_two_steps(self):
        for kind, (key, _) in KINDS.items():
            for seed in range(3):
                for reverse in (False, True):
                    self.beside_a_list(kind, seed, None, reverse)
                    self.beside_a_list(kind, seed, key(random.Random(seed)), reverse)

    def test_each_key_goes_when_it_was_given(self):
        for kind in KINDS:
            array, pairs = filled(kind, 400, 7)
            for reverse, ends in ((False, pairs[:150]), (True, pairs[:149:-1])):
                walk = reversed(array) if reverse else iter(array)
                for key, value in ends:
                    self.assertEqual((next(walk), array.pop(key)), (key, value))
            self.assertEqual((len(array), next(walk, None)), (0, None))

    def test_a_key_comes_behind_the_last_one_of_a_range(self):
        for count in (1, 2, 9, 10, 73, 330):
            array = JudySL({"a%04d" % n: n for n in range(count)} | {"z": 1})
            walk, last = array.irange(None, "b"), "a%04d" % (count - 1)
            for found in walk:
                if found == last:
                    array["aa"] = 7
                    break
            self.assertEqual(list(walk), ["aa"])
            self.assertEqual(list(walk), [])

    def test_values_that_are_replaced_are_told_as_they_are(self):
        array = JudySL({"a%04d" % n: n for n in range(400)})
        for at, value in enumerate(array.values()):
            self.assertEqual(value, at if at == 0 else at + 1000)
            for each in range(at + 1, min(at + 3, 400)):
                array["a%04d" % each] = each + 1000
        for at, value in enumerate(reversed(array.values())):
            self.assertEqual(value, 1399 if at == 0 else 2399 - at)
            for each in range(max(397 - at, 0), 399 - at):
                array["a%04d" % each] = each + 2000

    def test_threads_put_keys_in_and_take_many_out(self):
        keys = [f"k{n:04}" for n in range(3000)]
        comes, goes = [key for n, key in enumerate(keys) if n % 3], [key for key in keys[::3] if key.startswith("k1")]
        stays = sorted({*keys[::3]} - {*goes})
        strings, walks, lasting = JudySL.fromkeys(keys[::3], 1), [], set(stays)

        def write():
            for n in itertools.count():
                strings.update(dict.fromkeys(comes[n % 7 :: 2], 2))
                strings.discard_prefix("k1")
                strings.update(dict.fromkeys(goes, 1))
                strings.discard_range("k0000x", "k0003")
                if len(walks) > 200:
                    return

        def walk():
            while len(walks) <= 200:
                keys = list(strings) if len(walks) % 2 else list(reversed(strings))[::-1]
                walks.append(keys == sorted(set(keys)) and [key for key in keys if key in lasting] == stays)

        interval = sys.getswitchinterval()
        sys.setswitchinterval(1e-5)
        self.addCleanup(sys.setswitchinterval, interval)
        threads = [threading.Thread(target=work) for work in (write, walk, walk)]
        for thread in threads:
            thread.start()
        for thread in threads:
            thread.join()
        self.assertTrue(all(walks))


if __name__ == "__main__":
    unittest.main()
