"""A wheel's platform is that of the newest version of glibc that its extension asks for."""

import os
import shutil
import subprocess
import sys
import tempfile
import unittest

import sellumaq
from test_build import FOLDER, quiet, why_not

sys.path.append(FOLDER)
from platform_tag import platform_of  # noqa: E402

# What a library of C calls, by which name and version of it (those of glibc for x86-64 are in its ABI for good), what
# it is linked with, and the tag.
CASES = [
    ("void *memcpy(void *, const void *, unsigned long)", "memcpy@GLIBC_2.2.5", [], "manylinux_2_5_x86_64"),
    ("void *memcpy(void *, const void *, unsigned long)", "memcpy@GLIBC_2.14", [], "manylinux_2_14_x86_64"),
    ("void quick_exit(int)", "quick_exit@GLIBC_2.24", [], "manylinux_2_24_x86_64"),
    ("double exp(double)", "exp@GLIBC_2.29", ["-lm"], "manylinux_2_29_x86_64"),
    ("int _Unwind_Backtrace(void *, void *)", "_Unwind_Backtrace@GCC_3.3", ["-lgcc_s"], "linux_x86_64"),
]


@unittest.skipIf(why_not(), why_not())
class Platforms(unittest.TestCase):
    def built(self, room, text, *linked):
        """A shared library of a text of C."""
        with open(f"{room}/it.c", "w", encoding="ascii") as file:
            file.write(text)
        flags, made = ["-shared", "-fPIC", "-fno-builtin", "-nostartfiles"], f"{room}/it.so"
        subprocess.run(["cc", *flags, "-o", made, f"{room}/it.c", *linked], check=True, env=quiet())
        return made

    def test_versions_that_are_asked_for(self):
        room = tempfile.mkdtemp(prefix="sellumaq-")
        self.addCleanup(shutil.rmtree, room)
        for declared, version, linked, tag in CASES:
            name = version.split("@")[0]
            text = f'{declared}; __asm__(".symver {name}, {version}"); void *take(void) {{ return (void *){name}; }}\n'
            with self.subTest(version):
                self.assertEqual(platform_of(self.built(room, text, *linked)), tag)
        both = [f'{it[0]}; __asm__(".symver {it[1].split("@")[0]}, {it[1]}");' for it in (CASES[2], CASES[0])]
        text = f"{' '.join(both)} void *take(int n) {{ return n ? (void *)memcpy : (void *)quick_exit; }}\n"
        self.assertEqual(platform_of(self.built(room, text)), "manylinux_2_24_x86_64")
        self.assertEqual(platform_of(self.built(room, "int none;\n", "-nostdlib")), "linux_x86_64")

    @unittest.skipUnless(shutil.which("ldd"), "this machine has no ldd")
    def test_an_extension_names_no_more_libraries(self):
        self.assertEqual(sellumaq.BINDING, "extension")
        native = sys.modules["sellumaq._native"]
        told = subprocess.run(["ldd", native.__file__], capture_output=True, encoding="utf-8", check=True, env=quiet()).stdout
        named = {os.path.basename(line.split()[0]) for line in told.splitlines()}
        self.assertEqual(named - {"linux-vdso.so.1"}, {"libc.so.6", "ld-linux-x86-64.so.2"})


if __name__ == "__main__":
    unittest.main()
