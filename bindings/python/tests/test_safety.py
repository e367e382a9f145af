"""Programs that use an array from threads, signal handlers, finalizers and the keys' own methods: none may crash."""

import copy
import gc
import os
import pickle
import signal
import subprocess
import sys
import threading
import time
import unittest

from sellumaq import BINDING, MAX, Judy1, JudyHS, JudyHSBytes, JudyL, JudySL, JudySLBytes

DICTS = {JudyL: int, JudySL: str, JudyHS: str, JudySLBytes: lambda n: b"%d" % n, JudyHSBytes: lambda n: b"%d" % n}


class Threads(unittest.TestCase):
    def setUp(self):
        self.interval = sys.getswitchinterval()
        sys.setswitchinterval(1e-5)
        self.addCleanup(sys.setswitchinterval, self.interval)

    def run_all(self, *works):
        failures = []

        def run(work):
            try:
                work()
            except Exception as failure:  # told by the thread that waits for this one
                failures.append(failure)

        threads = [threading.Thread(target=run, args=(work,)) for work in works]
        for thread in threads:
            thread.start()
        for thread in threads:
            thread.join()
        self.assertEqual(failures, [])

    def test_threads_write_one_dict(self):
        for kind, key in DICTS.items():
            with self.subTest(kind.__name__):
                array = kind()

                def write(first):
                    for n in range(first, 8000, 4):
                        array[key(n)] = n

                self.run_all(*(lambda first=first: write(first) for first in range(4)))
                self.assertEqual([array[key(n)] for n in range(8000)], list(range(8000)))

    def test_threads_take_the_pairs_of_one_dict(self):
        for kind in (JudyHS, JudyHSBytes):
            key, taken = DICTS[kind], []
            array = kind((key(n), n) for n in range(4000))

            def take():
                while array:
                    try:
                        taken.append(array.popitem())
                    except KeyError:  # another thread took the last one
                        return

            self.run_all(take, take, take)
            self.assertEqual(sorted(taken, key=lambda pair: pair[1]), [(key(n), n) for n in range(4000)])

    def test_threads_write_one_set_while_others_walk_and_clear_it(self):
        array = Judy1()

        def write():
            for n in range(20000):
                array.add(n * 977 % 5003)

        def walk():
            for _ in range(20):
                keys = list(array)
                self.assertEqual(keys, sorted(set(keys)))

        def clear():
            for _ in range(50):
                array.clear()

        self.run_all(write, write, walk, walk, clear)


@unittest.skipUnless(hasattr(signal, "setitimer"), "no timer signals here")
class Signals(unittest.TestCase):
    def test_a_handler_clears_the_dict_that_is_written(self):
        for kind, key in DICTS.items():
            with self.subTest(kind.__name__):
                array, cleared = kind(), 0

                def clear(*_):
                    nonlocal cleared
                    cleared += 1
                    array.clear()

                before = signal.signal(signal.SIGALRM, clear)
                signal.setitimer(signal.ITIMER_REAL, 1e-4, 1e-4)
                try:
                    until = time.monotonic() + 0.3
                    while time.monotonic() < until:
                        for n in range(200):
                            array[key(n)] = n
                finally:
                    signal.setitimer(signal.ITIMER_REAL, 0)
                    signal.signal(signal.SIGALRM, before)
                self.assertGreater(cleared, 0)
                array.clear()
                array[key(1)] = 5
                self.assertEqual((len(array), array[key(1)]), (1, 5))


class ClearsAsANumber:
    """An int that clears an array when it is asked for its value."""

    def __init__(self, array, number):
        self.array, self.number = array, number

    def __index__(self):
        self.array.clear()
        return self.number


class ReEntry(unittest.TestCase):
    def test_a_number_clears_the_array_that_it_is_put_into(self):
        for array in (Judy1(range(1000)), JudyL({n: n for n in range(1000)})):
            for use in (array.__contains__, array.at_or_after, array.at_or_before, array.bisect_left, array.bisect_right):
                use(ClearsAsANumber(array, 500))
                self.assertEqual(len(array), 0)
                (array.add if isinstance(array, Judy1) else array.setdefault)(3)
        words = JudyL({1: 2})
        words[ClearsAsANumber(words, 5)] = ClearsAsANumber(words, 6)
        self.assertEqual(words, {5: 6})
        strings = JudySL(a=1)
        strings["b"] = ClearsAsANumber(strings, 7)
        self.assertEqual(strings, {"b": 7})

    def test_pairs_clear_the_dict_that_they_fill(self):
        for kind, key in DICTS.items():
            array = kind()

            def pairs():
                for n in range(100):
                    if n == 50:
                        array.clear()
                    yield key(n), n

            array.update(pairs())
            self.assertEqual((len(array), array[key(99)]), (50, 99))

    def test_a_walk_over_a_changed_array_gives_what_stands_there(self):
        for n in (1, 7, 8, 9, 300):
            array = Judy1(range(1000))
            seen = []
            for key in array:
                seen.append(key)
                if len(seen) == n:
                    array.difference_update(range(500))
                    array.add(n)
            self.assertEqual(seen, [*range(n), n, *range(500, 1000)])
        values = JudyL.fromkeys(range(100), 1)
        told = []
        for key, value in values.items():
            told.append(value)
            values[key + 1] = key + 5
            if key == 50:
                break
        self.assertEqual(told, [1, *range(5, 55)])
        strings = JudySL.fromkeys("abcdef", 1)
        seen = []
        for key in strings:
            seen.append(key)
            strings.clear()
        self.assertEqual(seen, ["a"])

    def test_a_walk_through_strings_that_change_gives_what_stands_there(self):
        # What is done at a key, and what comes after it.
        changes = {
            "a key goes": (lambda it, n: it.pop(f"{n + 2:03}"), lambda n: [n + 1, *range(n + 3, 150)]),
            "a key comes": (lambda it, n: it.__setitem__(f"{n:03}a", 7), lambda n: [f"{n:03}a", *range(n + 1, 150)]),
            "all go": (lambda it, n: it.clear(), lambda n: []),
            "others come in their place": (lambda it, n: it._make([("", 1), (f"{n:03}", 2), ("140a", 3), ("141", 4)]), lambda n: ["140a", 141]),
            "the key itself goes": (lambda it, n: it.__delitem__(f"{n:03}"), lambda n: range(n + 1, 150)),
        }
        for n in (0, 1, 2, 7, 8, 9, 63, 72, 73, 140):
            for name, (change, left) in changes.items():
                for part in (JudySL.keys, JudySL.items):
                    strings, seen = JudySL((f"{key:03}", key) for key in range(150)), []
                    for each in part(strings):
                        seen.append(each if part is JudySL.keys else each[0])
                        if len(seen) == n + 1:
                            change(strings, n)
                    expected = [key if isinstance(key, str) else f"{key:03}" for key in (*range(n + 1), *left(n))]
                    self.assertEqual((n, name, seen), (n, name, expected))

    def test_a_walk_through_strings_gives_the_values_that_stand_there(self):
        for kind, key in ((JudySL, "{:03}".format), (JudySLBytes, lambda n: b"%03d" % n)):
            strings, told = kind((key(n), 0) for n in range(150)), []
            for at, value in enumerate(strings.values()):
                told.append(value)
                strings[key(min(at + 1, 149))] = at
            self.assertEqual(told, [0, *range(149)])
            self.assertEqual([(strings.update([(at, value + 1)]), value)[1] for at, value in strings.items()], [0, *range(148), 149])
            self.assertEqual(list(strings.values()), [1, *range(1, 149), 150])

    def test_a_walk_keeps_its_array(self):
        for walk in (iter(Judy1(range(1000))), iter(JudyL.fromkeys(range(1000)).items()), iter(JudySL.fromkeys("abc"))):
            gc.collect()
            self.assertGreater(len(list(walk)), 2)
        array = Judy1(range(10))
        array.walk = iter(array)
        next(array.walk)
        del array
        gc.collect()

    def test_a_finalizer_changes_the_array(self):
        array = JudySL()

        class Held:
            def __del__(self):
                array.clear()

        for n in range(200):
            held = Held()
            held.itself = held
            del held
            array[str(n)] = n
        gc.collect()
        self.assertEqual(len(array), 0)

    def test_explicit_finalizers_and_second_beginnings(self):
        for array in (Judy1({1}), JudyL({1: 2}), JudySL(a=1), JudyHS(a=1)):
            array.__init__()
            if hasattr(array, "__del__"):
                array.__del__()
                array.__del__()
            array.clear()
            self.assertEqual(len(array), 0)
            self.assertEqual(len(type(array).__new__(type(array))), 0)

    def test_an_array_that_is_told_to_be_of_another_kind(self):
        for kind, other in ((Judy1, JudyL), (JudyL, Judy1), (JudySL, JudyHS), (JudyHS, JudySL), (JudySL, JudySLBytes)):
            array = kind() if kind is Judy1 else kind.fromkeys([5] if kind is JudyL else ["a"])
            try:
                array.__class__ = other
            except TypeError:
                continue
            self.assertEqual(BINDING, "ctypes")
            for use in (len, list, lambda it: it.get(5), lambda it: it.pop("a"), lambda it: it.update({5: 6}), lambda it: it.add(7), lambda it: it.clear()):
                try:
                    use(array)
                except Exception:  # any is good that leaves the program running
                    pass

    def test_a_text_that_encodes_itself_and_a_length_that_lies(self):
        # In another process, which may crash.
        program = (
            "from sellumaq import JudyHS, JudySL\n"
            "class Long(bytes):\n"
            "    def __len__(self): return 10**10\n"
            "class Text(str):\n"
            "    def encode(self, *_): return Long(b'x')\n"
            "class Many(JudyHS):\n"
            "    def __len__(self): return 1000\n"
            "for kind in (JudySL, JudyHS, Many):\n"
            "    array = kind(a=5)\n"
            "    array[Text('b')] = 6\n"
            "    print(array.get(Text('a')), dict(array), array.popitem())\n"
            "array = JudySL.from_sorted([(Text('a'), 1), (Text('b'), 2)])\n"
            "print(array.bisect_right(Text('a')), array.at_or_after(Text('b')))\n"
        )
        ran = subprocess.run([sys.executable, "-c", program], stdout=subprocess.PIPE, encoding="utf-8", timeout=60)
        told = "5 {'a': 5, 'b': 6} ('b', 6)\n" + 2 * "5 {'a': 5, 'b': 6} ('a', 5)\n" + "1 b\n"
        self.assertEqual((ran.returncode, ran.stdout), (0, told))

    def test_a_finalizer_that_brings_its_array_back(self):
        kept = []

        class Kept(Judy1):
            def __del__(self):
                kept.append(self)

        Kept([5, 6])
        gc.collect()
        self.assertEqual(list(kept[0]), [5, 6])
        kept.clear()
        gc.collect()

    def test_a_comparison_clears_what_it_compares(self):
        array = JudyL.fromkeys(range(1000), 1)

        class Clears:
            def __eq__(self, _):
                array.clear()
                return True

        self.assertEqual(array == dict.fromkeys(range(1000), Clears()), True)
        self.assertEqual(len(array), 0)

    @unittest.skipUnless(BINDING == "extension", "ctypes has no module whose state is taken away")
    def test_a_walk_that_begins_while_the_module_is_taken_away(self):
        # A collection of garbage takes the module's state first, then frees the function, whose code's end is told; the
        # method is still there.
        program = (
            "import gc, sys, weakref\n"
            "told = []\n"
            "def walk(_):\n"
            "    for each in gc.get_objects():\n"
            "        if type(each).__name__ == 'builtin_method' and each.__name__ == '_cursor':\n"
            "            try: each(0, *bounds, False)\n"
            "            except RuntimeError as error: told.append(str(error))\n"
            "def make(kind):\n"
            "    import sellumaq\n"
            "    gc.collect()\n"
            "    array = getattr(sellumaq, kind)()\n"
            "    exec('def function(): pass', globals(), made := {})\n"
            "    held = [(array._cursor,), made['function']]\n"
            "    held.append(held)\n"
            "    for name in [name for name in sys.modules if name.startswith('sellumaq')]:\n"
            "        del sys.modules[name]\n"
            "    return weakref.ref(made['function'].__code__, walk)\n"
            "for kind, bounds in (('Judy1', (0, 5)), ('JudyL', (0, 5)), ('JudySL', (None, None))):\n"
            "    kept = make(kind)\n"
            "    gc.collect()\n"
            "print(len(told), set(told))\n"
        )
        ran = subprocess.run([sys.executable, "-c", program], stdout=subprocess.PIPE, encoding="utf-8", timeout=60)
        self.assertEqual((ran.returncode, ran.stdout), (0, "3 {'the module sellumaq._native is gone'}\n"))

    def test_a_shared_library_that_is_missing(self):
        told = {**os.environ, "SELLUMAQ_BINDING": "ctypes", "SELLUMAQ_LIBRARY": "/nowhere"}
        ran = subprocess.run([sys.executable, "-c", "import sellumaq"], env=told, stderr=subprocess.PIPE, encoding="utf-8", timeout=60)
        self.assertEqual(ran.returncode, 1)
        self.assertIn("ImportError: sellumaq has no extension here and finds no shared library", ran.stderr)

    def test_an_interrupted_program_ends_by_its_interrupt(self):
        program = (
            "import _thread, signal, threading, sellumaq\n"
            "signal.signal(signal.SIGINT, signal.default_int_handler)  # a program in the background begins without it\n"
            "array = sellumaq.JudySL()\n"
            "threading.Timer(0.2, _thread.interrupt_main).start()\n"
            "n = 0\n"
            "while True:\n"
            "    n += 1; array[str(n % 9999)] = n\n"
        )
        ran = subprocess.run([sys.executable, "-c", program], stderr=subprocess.PIPE, encoding="utf-8", timeout=30)
        self.assertIn("KeyboardInterrupt", ran.stderr)
        self.assertGreaterEqual(ran.returncode, 0 if ran.returncode != -signal.SIGINT else -signal.SIGINT)


class Copies(unittest.TestCase):
    def test_pickles(self):
        for array in (Judy1([1, MAX]), JudyL({1: 2}), JudySL(a=1), JudySLBytes({b"a": 1}), JudyHS(a=1), JudyHSBytes({b"a": 1})):
            for protocol in range(pickle.HIGHEST_PROTOCOL + 1):
                other = pickle.loads(pickle.dumps(array, protocol))
                self.assertEqual((other, type(other)), (array, type(array)))
            array.told = "kept"
            self.assertEqual(pickle.loads(pickle.dumps(array)).told, "kept")
            self.assertEqual(copy.deepcopy(array), array)


if __name__ == "__main__":
    unittest.main()
