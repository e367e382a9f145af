"""What type checkers are told of the package, checked by mypy where that is installed."""

import ast
import importlib.util
import os
import shutil
import subprocess
import sys
import tempfile
import unittest

import sellumaq
from test_build import quiet

PACKAGE = os.path.dirname(os.path.abspath(sellumaq.__file__))

# A program as mypy must see it: each `assert_type` holds, each line that is told to be wrong is wrong, and no other is.
PROGRAM = """
from collections.abc import Iterator, MutableMapping, MutableSet
from pathlib import Path
from typing import assert_type

from sellumaq import MAX, Judy1, JudyHS, JudyHSBytes, JudyL, JudySL, JudySLBytes

words = Judy1(range(9))
plain: MutableSet[int] = words
assert_type(words[0], int)
assert_type(words[1:], list[int])
assert_type([key + 1 for key in words], list[int])
assert_type(words | {MAX}, Judy1)
assert_type(words.union([1], (2,)), Judy1)
assert_type(words.at_or_after(5), int | None)
assert_type(words.irange(1, 5, reverse=True), Iterator[int])
words |= [1, 2]
words.add("a")  # type: ignore[arg-type]
Judy1(["a"])  # type: ignore[list-item]

squares = JudyL({n: n * n for n in range(9)})
mapping: MutableMapping[int, int] = squares
assert_type(squares[3], int)
assert_type(squares.get(3), int | None)
assert_type(squares.get(3, "none"), int | str)
assert_type(squares.pop(3, None), int | None)
assert_type(squares.get_many([1, 2]), list[int | None])
assert_type(list(squares.items()), list[tuple[int, int]])
assert_type(squares.keys()[1:], list[int])
assert_type(squares.items()[0], tuple[int, int])
assert_type(squares.peekitem(), tuple[int, int])
assert_type(squares.copy() | {1: 2}, JudyL)
assert_type(JudyL.from_sorted([(1, 2)]), JudyL)
assert_type(squares.tobytes(name="squares", format=1), bytes)
squares.frombytes(memoryview(squares.tobytes()))
squares.save(Path("squares"))
squares.load(5)  # type: ignore[arg-type]
squares[1] = "a"  # type: ignore[assignment]
squares["a"] = 1  # type: ignore[index]

ages = JudySL(Ada=36)
texts: MutableMapping[str, int] = ages
assert_type(list(ages), list[str])
assert_type(ages.peekitem(0), tuple[str, int])
assert_type(ages.at_or_before("B"), str | None)
assert_type(JudySL({"a": 1}).range("a", "b"), Iterator[str])
ages.update([("Alan", 41)], Grace=85)
ages[b"Ada"] = 1  # type: ignore[index]

times = JudySLBytes([(b"a", 1), (bytearray(b"b"), 2)])
assert_type(times[memoryview(b"a")], int)
assert_type(list(reversed(times)), list[bytes])
assert_type(JudyHS(a=1).popitem(), tuple[str, int])
assert_type(list(JudyHSBytes({b"a": 1}).keys()), list[bytes])
JudyHS(a=1).peekitem()  # type: ignore[attr-defined]


class Counted(JudyL):
    def __missing__(self, key: int) -> int:
        return 0


assert_type(Counted().copy(), Counted)
"""

# What mypy's comparison of hints with what is there passes over: the modules that `_native.pyi` and `__init__.pyi`
# stand for, and overloads, whose arguments some versions take for others than positional.
PASSED_OVER = r"""
sellumaq\._(core|fallback|maps|places|strings|views|words)(\..*)?
.*\.(get|pop)
"""
WITHIN = [f"sellumaq._{name}" for name in ("core", "fallback", "maps", "places", "strings", "views", "words")]
LOOSE = f"[mypy]\n[mypy-{','.join(WITHIN)}]\nignore_errors = True\n"


def command(name, module):
    """How a command of mypy's is run; None where mypy isn't here."""
    if importlib.util.find_spec("mypy"):
        return [sys.executable, "-m", module]
    return [name] if shutil.which(name) else None


class Names(unittest.TestCase):
    """Each call that is there has hints, and each that has hints is there."""

    def hinted(self, file, of):
        with open(f"{PACKAGE}/{file}", encoding="utf-8") as opened:
            classes = {it.name: it for it in ast.parse(opened.read()).body if isinstance(it, ast.ClassDef)}

        def names(of):
            bases = [base.value if isinstance(base, ast.Subscript) else base for base in classes[of].bases]
            own = {it.name for it in classes[of].body if isinstance(it, ast.FunctionDef)}
            return own.union(*(names(base.id) for base in bases if base.id in classes))

        return names(of)

    @unittest.skipUnless(sellumaq.BINDING == "extension", "the fallback has no hints of its own")
    def test_of_the_extension(self):
        native = sys.modules["sellumaq._native"]
        for name in ("WordSet", "WordMap", "TextMap", "BytesMap", "TextHash", "BytesHash"):
            there = set(dir(getattr(native, name))) - set(dir(object)) - {"__module__"}
            self.assertEqual((name, self.hinted("_native.pyi", name)), (name, there))

    def test_of_the_package(self):
        for name in ("Judy1", "JudyL", "JudySL", "JudySLBytes", "JudyHS", "JudyHSBytes"):
            there = {it for it in dir(getattr(sellumaq, name)) if not it.startswith("_")}
            hinted = {it for it in self.hinted("__init__.pyi", name) if not it.startswith("_")}
            self.assertEqual((name, hinted), (name, there))


@unittest.skipUnless(sellumaq.BINDING == "extension", "the hints are of the extension")
class ByMypy(unittest.TestCase):
    def setUp(self):
        if not command("mypy", "mypy"):
            print("mypy isn't here: the hints aren't checked by it", file=sys.stderr)
            self.skipTest("mypy isn't here")
        self.room = tempfile.mkdtemp(prefix="sellumaq-")
        self.addCleanup(shutil.rmtree, self.room)

    def passes(self, words, **files):
        """Runs a command, which must end well; `{room}` in its words is the folder of the files."""
        for name, text in files.items():
            with open(f"{self.room}/{name}", "w", encoding="utf-8") as file:
                file.write(text)
        folder = os.path.dirname(PACKAGE)
        told = quiet(MYPYPATH=folder, PYTHONPATH=folder, MYPY_CACHE_DIR=f"{self.room}/cache")
        words = [word.format(room=self.room) for word in words]
        ran = subprocess.run(words, cwd=self.room, env=told, capture_output=True, encoding="utf-8", timeout=300)
        self.assertEqual((ran.returncode, "" if ran.returncode == 0 else ran.stdout + ran.stderr), (0, ""))

    def test_a_program(self):
        words = ["--strict", "--python-version", "3.11", "{room}/program"]
        self.passes([*command("mypy", "mypy"), *words], program=PROGRAM)

    def test_that_the_hints_are_of_what_is_there(self):
        words = ["--allowlist", "{room}/passed", "--ignore-unused-allowlist", "--mypy-config-file", "{room}/loose"]
        self.passes([*command("stubtest", "mypy.stubtest"), "--concise", *words, "sellumaq"], passed=PASSED_OVER, loose=LOOSE)


if __name__ == "__main__":
    unittest.main()
