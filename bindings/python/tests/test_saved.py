"""Arrays as bytes, in files and in pickles, beside what docs/use/formats.md says of dumps."""

import base64
import ctypes
import importlib.util
import mmap
import multiprocessing
import os
import pathlib
import pickle
import resource
import shutil
import stat
import subprocess
import tempfile
import threading
import unittest
from array import array

from sellumaq import MAX, MAX_SAVED_KEY, Judy1, JudyHS, JudyHSBytes, JudyL, JudySL, JudySLBytes

PROGRAM = os.path.join(os.path.dirname(os.path.abspath(__file__)), "../../../judystore")
LIMIT = 2**32 - 1
NUMBERS = {Judy1: 1, JudyL: 2, JudySL: 3, JudySLBytes: 3, JudyHS: 4, JudyHSBytes: 4}


def encoded(key):
    return key.encode("utf-8", "surrogatepass") if isinstance(key, str) else key


def big(number, bytes_):
    return number.to_bytes(bytes_, "big")


def strings(format_, kind, pairs):
    """The entries of strings, in the order of a dump."""
    told, last = b"", b""
    order = (lambda pair: pair[0]) if kind == 3 else (lambda pair: (len(pair[0]), pair[0]))
    for key, value in sorted(((encoded(key), value) for key, value in pairs.items()), key=order):
        shared = 0
        if (format_, kind) == (2, 3):
            shared = len(os.path.commonprefix([last, key]))
            told += big(shared, 2)
        told += big(len(key) - shared, 2) + key[shared:] + big(value, 8)
        last = key
    return told


def dump(made, name="array", format_=2, limit=LIMIT):
    """The dump of an array, as the page says it."""
    kind = NUMBERS[type(made)]
    head = b"JDY%d" % format_ + big(1, 4) + big(len(name), 1) + name.encode() + big(kind, 1) + big(limit, 8) + big(len(made), 8)
    if kind == 1:
        return head + b"".join(big(key, 8) for key in made)
    if kind == 2:
        return head + b"".join(big(word, 8) for pair in made.items() for word in pair)
    return head + strings(format_, kind, dict(made.items()))


def word(n):
    return (n * 0x9E3779B97F4A7C15 & MAX) >> n % 60


def text(n):
    return "shared " * (n % 4) + "äb\U0001f600\ud800"[n % 5 :] + str(n)


def filled(kind, count):
    if kind is Judy1:
        return Judy1(map(word, range(count)))
    key = {JudyL: word, JudySL: text, JudyHS: text}.get(kind, lambda n: encoded(text(n)))
    return kind((key(n), MAX - n) for n in range(count))


class InARoom(unittest.TestCase):
    def setUp(self):
        self.room = tempfile.mkdtemp(prefix="sellumaq-")
        self.addCleanup(shutil.rmtree, self.room)
        self.path = os.path.join(self.room, "array")

    def read(self):
        with open(self.path, "rb") as file:
            return file.read()

    def write(self, data):
        with open(self.path, "wb") as file:
            file.write(data)


class Bytes(InARoom):
    def test_dumps_are_those_of_the_page(self):
        for kind in NUMBERS:
            for count in (0, 1, 2, 5, 100, 3000):
                made, other = filled(kind, count), filled(kind, 3)
                self.assertEqual(made.tobytes(), dump(made))
                for format_ in (1, 2):
                    told = made.tobytes(name="a-B_9", format=format_)
                    self.assertEqual(told, dump(made, "a-B_9", format_))
                    other.frombytes(told)
                    self.assertEqual((other, other.tobytes()), (made, made.tobytes()))

    def test_what_can_not_be_dumped(self):
        for kind in NUMBERS:
            made = filled(kind, 3)
            for wrong in ({"format": 0}, {"format": 3}, {"name": ""}, {"name": "a" * 33}, {"name": "a b"}, {"name": "ä"}):
                self.assertRaises(ValueError, made.tobytes, **wrong)
            self.assertEqual(made.tobytes(name="a" * 32), dump(made, "a" * 32))
            for wrong in ({"format": "1"}, {"name": 5}, {"form": 1}):
                self.assertRaises(TypeError, made.tobytes, **wrong)
            self.assertRaises(TypeError, made.tobytes, "array")
        for long, letter in ((JudyHSBytes(), b"\0"), (JudyHS(), "a"), (JudySL(), "a"), (JudySLBytes(), b"a")):
            long[letter * MAX_SAVED_KEY] = 1
            self.assertEqual(long.tobytes(), dump(long))
            long[letter * (MAX_SAVED_KEY + 1)] = 2
            self.assertRaisesRegex(ValueError, "1,024", long.tobytes)
            self.assertRaisesRegex(ValueError, "1,024", long.save, self.path)
            self.assertEqual((os.listdir(self.room), len(long)), ([], 2))

    def refused(self, made, told, fault):
        """A text that isn't loaded: its fault has this name, and the array is as it was."""
        before = made.tobytes()
        with self.assertRaisesRegex(ValueError, f"^{fault}: "):
            made.frombytes(told)
        self.assertEqual(made.tobytes(), before)

    def test_texts_that_are_cut_or_changed(self):
        for kind in NUMBERS:
            made, other = filled(kind, 4), filled(kind, 2)
            for format_ in (1, 2):
                told = made.tobytes(name="a", format=format_)
                for at in range(len(told)):
                    self.refused(other, told[:at], "truncated")
                    for flip in (1, 16, 128, 255):
                        self.try_changed(other, told[:at] + bytes([told[at] ^ flip]) + told[at + 1 :])
                self.refused(other, told + b"\0", "trailing")

    def try_changed(self, made, told):
        """A changed text is another whole array's, which is dumped to these very bytes, but for the limit; or the array
        is as it was."""
        before = made.tobytes()
        try:
            made.frombytes(told)
        except ValueError:
            self.assertEqual(made.tobytes(), before)
        else:
            self.assertEqual(made.tobytes(name=chr(told[9]), format=told[3] - 48), told[:11] + big(LIMIT, 8) + told[19:])

    def test_faults_have_names(self):
        one, limit = b"JDY1" + big(1, 4) + b"\1a", big(LIMIT, 8)
        two = b"JDY1" + big(2, 4) + b"\1a\1" + limit + bytes(8) + b"\1%c\1" + limit + bytes(8)
        for told, fault in (
            (b"", "truncated"),
            (b"JDY3", "bad-magic"),
            (b"JDY2\0\0\0A", "too-many"),
            (b"JDY2\0\0\0\1!", "bad-name"),
            (two % b"a", "not-one"),  # the number of arrays stands before their names
            (one + b"\5", "bad-kind"),
            (one + b"\1" + bytes(8), "bad-limit"),
            (one + b"\1" + limit + big(LIMIT + 1, 8), "bad-count"),
            (one + b"\3" + limit + big(1, 8) + b"\0\1\0", "bad-key"),
            (one + b"\1" + limit + big(2, 8) + bytes(16), "bad-order"),
            (one + b"\1" + limit + bytes(9), "trailing"),
            (b"JDY2" + one[4:] + b"\3" + limit + big(1, 8) + b"\0\1", "bad-prefix"),
            (b"JDY1" + bytes(4), "not-one"),
            (two % b"b", "not-one"),
            (one + b"\1" + limit + limit + bytes(8), "truncated"),  # for a number like this no memory is taken
        ):
            # what stands behind the kind, the byte 10, is read of an array of that kind alone
            numbers = [told[10]] if told[4:10] == one[4:] and told[10] in NUMBERS.values() else NUMBERS.values()
            for kind in NUMBERS:
                self.refused(filled(kind, 5), told, fault if NUMBERS[kind] in numbers else "other-kind")
        for kind in NUMBERS:
            for other in NUMBERS:
                if NUMBERS[kind] != NUMBERS[other]:
                    self.refused(filled(kind, 5), filled(other, 3).tobytes(), "other-kind")

    def test_keys_that_must_be_text(self):
        wrong = [b"\x80", b"\xc1\x80", b"\xc3", b"\xc3a", b"\xe0\x9f\x80", b"\xe1\x80", b"\xf0\x8f\x80\x80", b"\xf4\x90\x80\x80", b"\xf5\x80\x80\x80", b"\xff"]
        right = ["", "\x7f", "\x80", "\u07ff", "\u0800", "\ud800", "\udfff\ud800", "\uffff", "\U00010000", "\U0010ffff"]
        for text_kind, kind in ((JudySL, JudySLBytes), (JudyHS, JudyHSBytes)):
            made = text_kind(a=1)
            for key in wrong:
                for more in ({}, {encoded(text(n)): n for n in range(400)}):
                    self.refused(made, kind({b"x" + key: 1, **more}).tobytes(), "not-text")
            made.frombytes(kind({encoded(key): 5 for key in right}).tobytes())
            self.assertEqual(made, dict.fromkeys(right, 5))

    def test_buffers(self):
        for kind in NUMBERS:
            made = filled(kind, 7)
            told, other = made.tobytes(), kind()
            words = array("B", told)
            self.write(told)
            with open(self.path, "rb") as file, mmap.mmap(file.fileno(), 0, access=mmap.ACCESS_READ) as mapped:
                for lent in (bytearray(told), memoryview(told), memoryview(b"xx" + told)[2:], words, mapped):
                    other.clear()
                    other.frombytes(lent)
                    self.assertEqual(other, made)
            words.append(1)  # it isn't lent any more
            for lent in (memoryview(told)[::2], memoryview(told * 2)[::-1]):
                self.assertRaises(BufferError, other.frombytes, lent)
            for lent in ("text", None, 5, [1]):
                self.assertRaises(TypeError, other.frombytes, lent)
            for lent in (array("B"), memoryview(b"")):
                self.assertRaisesRegex(ValueError, "^truncated", other.frombytes, lent)
            self.assertEqual(other, made)

    def test_walks_go_on_through_what_was_loaded(self):
        for kind in (Judy1, JudyL, JudySL, JudySLBytes):
            made, other = filled(kind, 500), filled(kind, 2000)
            walk = iter(made)
            seen = [next(walk) for _ in range(20)]
            made.frombytes(other.tobytes())
            self.assertEqual(list(walk), [key for key in other if encoded_or(key) > encoded_or(seen[-1])])
        hashed = JudyHS({"a": 1, "b": 2})
        hashed.popitem()
        hashed.frombytes(JudyHS(c=3).tobytes())
        self.assertEqual((hashed.popitem(), len(hashed)), (("c", 3), 0))


def encoded_or(key):
    return key if isinstance(key, int) else encoded(key)


class Files(InARoom):
    def test_saves_and_loads(self):
        for kind in NUMBERS:
            made, other = filled(kind, 500), filled(kind, 5)
            for path in (self.path, os.fsencode(self.path), pathlib.Path(self.path)):
                made.save(path)
                self.assertEqual(self.read(), made.tobytes())
                other.load(path)
                self.assertEqual(other, made)
                other.clear()
            other.save(self.path)
            self.assertEqual((self.read(), os.listdir(self.room)), (dump(kind()), ["array"]))
            self.write(made.tobytes(name="other", format=1))
            other.load(self.path)
            self.assertEqual(other, made)

    def test_what_stands_at_the_path(self):
        made, before = JudyL({1: 2}), os.umask(0o027)
        self.addCleanup(os.umask, before)
        made.save(self.path)
        self.assertEqual(stat.S_IMODE(os.stat(self.path).st_mode), 0o640)
        os.chmod(self.path, 0o404)
        made[3] = 4
        made.save(self.path)
        self.assertEqual((stat.S_IMODE(os.stat(self.path).st_mode), self.read()), (0o404, dump(made)))
        link = os.path.join(self.room, "link")
        os.symlink("array", link)
        made[5] = 6
        made.save(link)
        self.assertEqual((os.readlink(link), self.read()), ("array", dump(made)))
        os.mkfifo(os.path.join(self.room, "pipe"))
        for wrong, error in (
            (os.path.join(self.room, "none", "array"), FileNotFoundError),
            (self.room, IsADirectoryError),
            (os.path.join(self.path, "array"), NotADirectoryError),
            (os.path.join(self.room, "pipe"), OSError),
        ):
            with self.assertRaises(error) as raised:
                made.save(wrong)
            self.assertEqual(raised.exception.filename, wrong)
        for wrong, error in ((self.path + "\0", ValueError), (5, TypeError), (None, TypeError)):
            self.assertRaises(error, made.save, wrong)
            self.assertRaises(error, made.load, wrong)
        self.assertEqual((self.read(), sorted(os.listdir(self.room))), (dump(made), ["array", "link", "pipe"]))

    def test_what_can_not_be_loaded(self):
        for kind in NUMBERS:
            made = filled(kind, 9)
            before = made.tobytes()
            self.assertRaises(FileNotFoundError, made.load, os.path.join(self.room, "none"))
            self.assertRaises(IsADirectoryError, made.load, self.room)
            for told, fault in ((b"", "truncated"), (before[:-1], "truncated"), (before + b"\0", "trailing"), (b"text", "bad-magic")):
                self.write(told)
                self.assertRaisesRegex(ValueError, f"^{fault}: ", made.load, self.path)
            self.assertEqual(made.tobytes(), before)

    def test_a_disk_that_is_full(self):
        limits = resource.getrlimit(resource.RLIMIT_FSIZE)
        self.addCleanup(resource.setrlimit, resource.RLIMIT_FSIZE, limits)
        for kind in NUMBERS:
            made, old = filled(kind, 900), filled(kind, 2)
            resource.setrlimit(resource.RLIMIT_FSIZE, limits)
            old.save(self.path)
            for room in (0, 10, 1000):
                resource.setrlimit(resource.RLIMIT_FSIZE, (room, limits[1]))
                self.assertRaises(OSError, made.save, self.path)
                self.assertEqual((self.read(), os.listdir(self.room)), (old.tobytes(), ["array"]))

    def test_threads_save_and_load_one_file(self):
        arrays, failures = [JudyL({n: n for n in range(count)}) for count in (10, 2000)], []
        arrays[0].save(self.path)

        def save(made):
            for _ in range(30):
                made.save(self.path)

        def load():
            other = JudyL()
            for _ in range(60):
                other.load(self.path)
                if other not in arrays:
                    failures.append(len(other))

        threads = [threading.Thread(target=save, args=(made,)) for made in arrays] + [threading.Thread(target=load) for _ in range(2)]
        for each in threads:
            each.start()
        for each in threads:
            each.join()
        self.assertEqual((failures, os.listdir(self.room)), ([], ["array"]))


@unittest.skipUnless(os.path.exists(PROGRAM), "the program judystore isn't here")
class ByTheProgram(InARoom):
    def judystore(self, *words, script=b""):
        alone = {name: value for name, value in os.environ.items() if name != "LD_PRELOAD"}
        return subprocess.run([PROGRAM, *words], input=script, stdout=subprocess.PIPE, env=alone, check=True).stdout

    def test_it_reads_what_was_saved_and_writes_the_same(self):
        again = os.path.join(self.room, "again")
        for kind in NUMBERS:
            for count in (0, 1, 700):
                made = filled(kind, count)
                for format_ in (1, 2):
                    self.write(made.tobytes(name="it", format=format_))
                    self.judystore("--load", self.path, "--format", str(format_), "--dump", again)
                    with open(again, "rb") as file:
                        self.assertEqual(file.read(), self.read())

    def test_what_it_dumps_is_loaded(self):
        scripts = [
            (Judy1([1, 5, MAX]), f"make it judy1\nset it 5\nset it 1\nset it {MAX}\n"),
            (JudyL({7: 70, 0: MAX}), f"make it judyl\nins it 7 70\nins it 0 {MAX}\n"),
            (JudySL({"": 1, "ab": 2, "abc": 3}), "make it judysl 3\nins it =abc 3\nins it = 1\nins it #6162 2\n"),
            (JudyHSBytes({b"": 1, b"\0\xff": 2, b"a": 3}), "make it judyhs\nins it =a 3\nins it #00ff 2\nins it # 1\n"),
        ]
        for made, script in scripts:
            for format_ in ("1", "2"):
                self.judystore("--format", format_, "--dump", self.path, script=script.encode())
                other = type(made)()
                other.load(self.path)
                self.assertEqual(other, made)
        self.judystore("--dump", self.path, script=b"make a judy1\nmake b judy1\n")
        self.assertRaisesRegex(ValueError, "^not-one: ", Judy1().load, self.path)


class Tagged(JudyL):
    """A dict with attributes."""


class Named(JudySL):
    """One that isn't made of nothing."""

    def __init__(self, pairs):
        super().__init__(pairs)
        self.name = "named"


# What version 1.0.0-dev pickled before pickles had dumps, by three protocols.
BEFORE = {
    0: (
        "KGxwMApjc2VsbHVtYXEuX3dvcmRzCkp1ZHkxCnAxCigobHAyCkkxCmFMMTg0NDY3NDQwNzM3MDk1NTE2MTVMCmF0cDMKUnA0CmFjc2VsbHVtYXEuX3dvcmRzCkp1ZHlMCn"
        "A1CigoZHA2CkkxCkkyCnN0cDcKUnA4CmFjc2VsbHVtYXEuX3N0cmluZ3MKSnVkeVNMCnA5CigoZHAxMApWYQpwMTEKSTEKc1ZcdWQ4MDAKcDEyCkkyCnN0cDEzClJwMTQK"
        "YWNzZWxsdW1hcS5fc3RyaW5ncwpKdWR5U0xCeXRlcwpwMTUKKChkcDE2CmNfY29kZWNzCmVuY29kZQpwMTcKKFb/CnAxOApWbGF0aW4xCnAxOQp0cDIwClJwMjEKSTEKc3"
        "RwMjIKUnAyMwphY3NlbGx1bWFxLl9zdHJpbmdzCkp1ZHlIUwpwMjQKKChkcDI1ClYKcDI2CkkyCnNnMTEKSTEKc3RwMjcKUnAyOAphY3NlbGx1bWFxLl9zdHJpbmdzCkp1"
        "ZHlIU0J5dGVzCnAyOQooKGRwMzAKZzE3CihWXHUwMDAwCnAzMQpnMTkKdHAzMgpScDMzCkkxCnN0cDM0ClJwMzUKYWN0ZXN0X3NhdmVkClRhZ2dlZApwMzYKKChkcDM3Ck"
        "k1Ckk2CnN0cDM4ClJwMzkKKGRwNDAKVnRvbGQKcDQxClZrZXB0CnA0MgpzYmFjdGVzdF9zYXZlZApOYW1lZApwNDMKKChkcDQ0ClZiCnA0NQpJMwpzdHA0NgpScDQ3Cihk"
        "cDQ4ClZuYW1lCnA0OQpWbmFtZWQKcDUwCnNiYS4="
    ),
    2: (
        "gAJdcQAoY3NlbGx1bWFxLl93b3JkcwpKdWR5MQpxAV1xAihLAYoJ//////////8AZYVxA1JxBGNzZWxsdW1hcS5fd29yZHMKSnVkeUwKcQV9cQZLAUsCc4VxB1JxCGNzZW"
        "xsdW1hcS5fc3RyaW5ncwpKdWR5U0wKcQl9cQooWAEAAABhcQtLAVgDAAAA7aCAcQxLAnWFcQ1ScQ5jc2VsbHVtYXEuX3N0cmluZ3MKSnVkeVNMQnl0ZXMKcQ99cRBjX2Nv"
        "ZGVjcwplbmNvZGUKcRFYAgAAAMO/cRJYBgAAAGxhdGluMXEThnEUUnEVSwFzhXEWUnEXY3NlbGx1bWFxLl9zdHJpbmdzCkp1ZHlIUwpxGH1xGShYAAAAAHEaSwJoC0sBdY"
        "VxG1JxHGNzZWxsdW1hcS5fc3RyaW5ncwpKdWR5SFNCeXRlcwpxHX1xHmgRWAEAAAAAcR9oE4ZxIFJxIUsBc4VxIlJxI2N0ZXN0X3NhdmVkClRhZ2dlZApxJH1xJUsFSwZz"
        "hXEmUnEnfXEoWAQAAAB0b2xkcSlYBAAAAGtlcHRxKnNiY3Rlc3Rfc2F2ZWQKTmFtZWQKcSt9cSxYAQAAAGJxLUsDc4VxLlJxL31xMFgEAAAAbmFtZXExWAUAAABuYW1lZH"
        "Eyc2JlLg=="
    ),
    5: (
        "gAWVPwEAAAAAAABdlCiMD3NlbGx1bWFxLl93b3Jkc5SMBUp1ZHkxlJOUXZQoSwGKCf//////////AGWFlFKUaAGMBUp1ZHlMlJOUfZRLAUsCc4WUUpSMEXNlbGx1bWFxLl"
        "9zdHJpbmdzlIwGSnVkeVNMlJOUfZQojAFhlEsBjAPtoICUSwJ1hZRSlGgMjAtKdWR5U0xCeXRlc5STlH2UQwH/lEsBc4WUUpRoDIwGSnVkeUhTlJOUfZQojACUSwJoEEsB"
        "dYWUUpRoDIwLSnVkeUhTQnl0ZXOUk5R9lEMBAJRLAXOFlFKUjAp0ZXN0X3NhdmVklIwGVGFnZ2VklJOUfZRLBUsGc4WUUpR9lIwEdG9sZJSMBGtlcHSUc2JoJowFTmFtZW"
        "SUk5R9lIwBYpRLA3OFlFKUfZSMBG5hbWWUjAVuYW1lZJRzYmUu"
    ),
}


class Pickles(unittest.TestCase):
    def arrays(self):
        tagged = Tagged({5: 6})
        tagged.told = "kept"
        return [Judy1([1, MAX]), JudyL({1: 2}), JudySL({"a": 1, "\ud800": 2}), JudySLBytes({b"\xff": 1}), JudyHS({"a": 1, "": 2}), JudyHSBytes({b"\0": 1}), tagged, Named({"b": 3})]

    def same(self, found, wanted):
        self.assertEqual((found, type(found).__name__, vars(found)), (wanted, type(wanted).__name__, vars(wanted)))

    def test_pickles_of_the_version_before(self):
        for told in BEFORE.values():
            for found, wanted in zip(pickle.loads(base64.b64decode(told)), self.arrays(), strict=True):
                self.same(found, wanted)

    def test_all_protocols(self):
        for protocol in range(6):
            for made in (*self.arrays(), *(filled(kind, 900) for kind in NUMBERS)):
                told = pickle.dumps(made, protocol)
                self.same(pickle.loads(told), made)
                if protocol == 5:
                    self.assertIn(made.tobytes(), told)

    def test_keys_that_no_dump_can_say(self):
        for protocol in range(6):
            for made in (JudyHSBytes({bytes(1025): 1}), JudyHS({"ä" * 600: 2}), JudySLBytes({b"a" * 1025: 1}), JudySL({"": 1, "ä" * 70_000: 2})):
                made.told = "kept"
                self.same(pickle.loads(pickle.dumps(made, protocol)), made)

    def test_copies_are_two(self):
        for made in self.arrays():
            self.same(pickle.loads(pickle.dumps([made, made]))[0], made)
            one, other = pickle.loads(pickle.dumps([made, made]))
            self.assertIs(one, other)
            one.clear()
            self.assertTrue(made)


def part_of(kind, count):
    """What a process makes, and hands on as a pickle."""
    return filled(kind, count)


class Processes(unittest.TestCase):
    def together(self, parts_of):
        """Arrays that come back from processes."""
        for kind in NUMBERS:
            self.assertEqual(list(parts_of([(kind, count) for count in (0, 5, 900)])), [filled(kind, count) for count in (0, 5, 900)])

    def test_arrays_come_back_from_a_pool(self):
        with multiprocessing.Pool(2) as pool:
            self.together(lambda words: pool.starmap(part_of, words))

    @unittest.skipUnless(importlib.util.find_spec("distributed"), "dask.distributed isn't here")
    def test_arrays_come_back_by_dask(self):
        from distributed import Client

        with Client(n_workers=2, threads_per_worker=1, dashboard_address=None) as client:
            self.together(lambda words: client.gather([client.submit(part_of, *each) for each in words]))


# As in test_arrays.
refuse_from = getattr(ctypes.CDLL(None), "refuse_from", None)


@unittest.skipUnless(refuse_from, "nothing is preloaded that refuses memory")
class WithoutMemory(InARoom):
    def refused_in_turn(self, call, after):
        """As in test_at_once."""
        failed = 0
        while True:
            refuse_from(failed + 1)
            try:
                return call(), failed
            except MemoryError:
                self.assertGreater(refuse_from(0), 0)
                after()
                failed += 1
            finally:
                refuse_from(0)

    def test_each_refusal_is_told_and_changes_nothing(self):
        for kind in NUMBERS:
            made, other = filled(kind, 300), filled(kind, 20)
            told, before = made.tobytes(), other.tobytes()

            def look():
                self.assertEqual(other.tobytes(), before)

            self.assertEqual(self.refused_in_turn(other.tobytes, look)[0], before)
            self.refused_in_turn(lambda: other.save(self.path), look)
            self.assertEqual((self.read(), os.listdir(self.room)), (before, ["array"]))
            self.write(told)
            for load in (lambda: other.load(self.path), lambda: other.frombytes(told)):
                _, failed = self.refused_in_turn(load, look)
                self.assertGreater(failed, 3)
                self.assertEqual(other, made)
                other.frombytes(before)


if __name__ == "__main__":
    unittest.main()
