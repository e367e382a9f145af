"""The package is built by the hooks that pip calls, from a source distribution too, and a build that can't make the
extension fails by a sentence."""

import email.parser
import glob
import hashlib
import os
import shutil
import subprocess
import sys
import sysconfig
import tarfile
import tempfile
import unittest
import zipfile

FOLDER = os.path.abspath(os.path.join(os.path.dirname(__file__), ".."))
TEXTS = [f"{FOLDER}/compiled/sellumaq.s", f"{FOLDER}/../../compiled/sellumaq.s"]
HEADER = os.path.join(sysconfig.get_path("include"), "Python.h")

# What a build is asked by, and a program that tries what it made.
VARIABLES = ("CC", "CFLAGS", "CPPFLAGS", "LDFLAGS", "LD_PRELOAD", "PYTHONPATH", "SELLUMAQ_BINDING", "SELLUMAQ_LIB")
CALL = "import sys; sys.path.insert(0, sys.argv[1]); import build_package as it; print(getattr(it, sys.argv[2])(sys.argv[3]))"
TRIAL = "import sys; sys.path.insert(0, sys.argv[1]); import sellumaq as it; print(it.BINDING, it.Judy1([2, 1]), it.__file__)"
# Makes Python one of another kind.
FREE_THREADED = (
    "import sysconfig; told = sysconfig.get_config_var\n"
    "sysconfig.get_config_var = lambda name: name == 'Py_GIL_DISABLED' or told(name)"
)
WITHOUT_HEADER = "import sysconfig; sysconfig.get_path = lambda _: '/nowhere'"


def why_not():
    """Why the builds aren't tried; None where all that they need is here."""
    if os.environ.get("SELLUMAQ_BINDING") == "ctypes":
        return "the builds are tried beside the extension's tests"
    if sys.version_info < (3, 11) or sysconfig.get_config_var("Py_GIL_DISABLED"):
        return "the extension isn't for this Python"
    if not any(map(os.path.exists, TEXTS)):
        return "the compiled text isn't here"
    return None if shutil.which("cc") and os.path.exists(HEADER) else "this machine has no cc or no Python.h"


def quiet(**changes):
    """The environment without what a build asks of it and what refuses memory, and with some changes."""
    return {name: value for name, value in os.environ.items() if name not in VARIABLES} | changes


def run(program, *words, **changes):
    """Runs a Python program in the folder of the package."""
    command = [sys.executable, "-B", "-c", program, *words]
    return subprocess.run(command, cwd=FOLDER, env=quiet(**changes), capture_output=True, encoding="utf-8", timeout=300)


@unittest.skipIf(why_not(), why_not())
class Builds(unittest.TestCase):
    def setUp(self):
        self.room = tempfile.mkdtemp(prefix="sellumaq-")
        self.addCleanup(shutil.rmtree, self.room)

    def hook(self, name, folder, target):
        """What a hook of the package in a folder leaves."""
        ran = run(CALL, folder, name, target)
        self.assertEqual((ran.returncode, ran.stderr), (0, ""))
        return os.path.join(target, ran.stdout.strip())

    def test_a_source_distribution_is_all_that_a_build_needs(self):
        archive = self.hook("build_sdist", FOLDER, self.room)
        with tarfile.open(archive) as packed:
            packed.extractall(self.room)
        unpacked = archive[: -len(".tar.gz")]
        named = "compiled/sellumaq.s compiled/system.c src/sellumaq.h src/module.c sellumaq/__init__.py pyproject.toml PKG-INFO"
        for name in named.split():
            self.assertTrue(os.path.exists(f"{unpacked}/{name}"), name)
        wheel = self.hook("build_wheel", unpacked, self.room)
        self.try_wheel(wheel)
        again = os.path.join(self.room, "again")
        os.mkdir(again)
        for hook, folder, made in (("build_sdist", unpacked, archive), ("build_wheel", FOLDER, wheel)):
            with open(made, "rb") as one, open(self.hook(hook, folder, again), "rb") as other:
                self.assertEqual(hashlib.sha256(one.read()).digest(), hashlib.sha256(other.read()).digest(), hook)

    def try_wheel(self, wheel):
        self.assertRegex(os.path.basename(wheel), r"^sellumaq-[^-]+-cp311-abi3-(manylinux_2_\d+|linux)_x86_64\.whl$")
        with zipfile.ZipFile(wheel) as packed:
            packed.extractall(f"{self.room}/installed")
            names = packed.namelist()
        (info,) = glob.glob(f"{self.room}/installed/*.dist-info")
        with open(f"{info}/WHEEL", encoding="utf-8") as file:
            told = email.parser.Parser().parse(file)
        self.assertEqual(f"{told['Tag']}.whl", os.path.basename(wheel).split("-", 2)[2])
        with open(f"{info}/RECORD", encoding="utf-8") as file:
            self.assertEqual([line.split(",")[0] for line in file], names)
        # No library is named, and yet it is imported.
        ran = run(TRIAL, f"{self.room}/installed", SELLUMAQ_LIBRARY="/nowhere")
        told = f"extension Judy1([1, 2]) {self.room}/installed/sellumaq/__init__.py\n"
        self.assertEqual((ran.stdout, ran.stderr), (told, ""))

    def refused(self, because, before="", **changes):
        """A build that fails tells why in one line, and leaves nothing."""
        program = f"import sys; sys.path.insert(0, '.')\n{before}\nimport build_package as it; it.build_wheel(sys.argv[1])"
        ran = run(program, self.room, **changes)
        self.assertEqual((ran.returncode, ran.stdout, os.listdir(self.room)), (1, "", []))
        self.assertIn(because, ran.stderr.splitlines()[-1])
        return ran.stderr

    def test_a_build_that_can_not_make_the_extension_fails(self):
        for because, before, changes in (
            ("sellumaq isn't built: there is no C compiler no-compiler here", "", {"CC": "no-compiler"}),
            ("sellumaq isn't built: there is no C compiler cc here", "", {"PATH": "/nowhere"}),
            ("sellumaq isn't built: Python.h isn't in /nowhere", WITHOUT_HEADER, {}),
            ("sellumaq isn't built: CPython 3.11 or later is needed", "sys.version_info = (3, 10, 13)", {}),
            ("sellumaq isn't built: this Python is free-threaded", FREE_THREADED, {}),
            ("this Python is one of 64 bits for linux-aarch64", "", {"_PYTHON_HOST_PLATFORM": "linux-aarch64"}),
            ("sellumaq isn't built: there is no libsellumaq.a in /nowhere", "", {"SELLUMAQ_LIB": "/nowhere"}),
        ):
            with self.subTest(because):
                told = self.refused(because, before, **changes)
                self.assertEqual(told.count("\n"), 1)
                self.assertIn("pip doesn't", told)

    def test_a_compiler_that_fails(self):
        self.refused("sellumaq isn't built: the C compiler cc fails, as it tells above", CFLAGS="-fno-such-flag")

    def test_a_library_that_lacks_a_call(self):
        subprocess.run(["cc", "-c", "-x", "c", "-o", f"{self.room}/empty.o", "/dev/null"], check=True, env=quiet())
        with tempfile.TemporaryDirectory() as folder:
            subprocess.run(["ar", "rcs", f"{folder}/libsellumaq.a", f"{self.room}/empty.o"], check=True, env=quiet())
            os.remove(f"{self.room}/empty.o")
            self.refused("sellumaq isn't built: the extension can't be imported: ImportError", SELLUMAQ_LIB=folder)


if __name__ == "__main__":
    unittest.main()
