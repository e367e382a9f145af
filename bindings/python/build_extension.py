"""The extension, with the library in it, as the C compiler builds it."""

import os
import platform
import shlex
import shutil
import subprocess
import sys
import sysconfig
import tempfile

HERE = os.path.dirname(os.path.abspath(__file__))
SOURCES = os.path.join(HERE, "src")

# No name but the module's own is seen from outside, so that another library of these names can't take their place.
FLAGS = ["-std=c11", "-O2", "-Wall", "-Wextra", "-fPIC", "-fvisibility=hidden"]
LINKED = ["-shared", f"-Wl,--version-script={SOURCES}/names.map", "-Wl,-z,noexecstack,-z,relro,-z,now"]

# Imports the extension by itself.
TRIAL = """
import importlib.util, sys
found = importlib.util.spec_from_file_location("sellumaq._native", sys.argv[1])
found.loader.exec_module(importlib.util.module_from_spec(found))
"""


class Unbuilt(Exception):
    """Why there can be no extension."""


def find_text():
    """The files of the library: of its compiled text the assembly, and in C what that asks of the system, what saves
    arrays, and what sorts lists."""
    for folder, beside in (("compiled", "compiled"), ("../../compiled", "../c")):
        files = [os.path.join(HERE, path) for path in (f"{folder}/sellumaq.s", f"{folder}/system.c", f"{beside}/files.c", f"{beside}/unsorted.c")]
        if all(map(os.path.exists, files)):
            return files
    raise Unbuilt("the library's compiled text, compiled/sellumaq.s, isn't here")


def find_library(folder):
    archive = os.path.join(folder, "libsellumaq.a")
    if not os.path.exists(archive):
        raise Unbuilt(f"there is no libsellumaq.a in {folder}")
    return archive


def find_header():
    """The folder of sellumaq.h."""
    for folder in (SOURCES, os.path.join(HERE, "../c")):
        if os.path.exists(os.path.join(folder, "sellumaq.h")):
            return folder
    raise Unbuilt("sellumaq.h isn't here")


def check_python():
    """Refuses a Python that the extension isn't for."""
    if sys.implementation.name != "cpython" or sys.version_info < (3, 11):
        this = f"{platform.python_implementation()} {platform.python_version()}"
        raise Unbuilt(f"CPython 3.11 or later is needed, and this is {this}")
    if sysconfig.get_config_var("Py_GIL_DISABLED"):
        raise Unbuilt("this Python is free-threaded, and the GIL is needed, which keeps the calls on an array apart")


def check_machine():
    """Refuses a machine that the compiled text isn't for."""
    if sysconfig.get_platform() != "linux-x86_64" or sys.maxsize <= 2**32:
        this = f"one of {64 if sys.maxsize > 2**32 else 32} bits for {sysconfig.get_platform()}"
        raise Unbuilt(f"the library is code for x86-64 under Linux, and this Python is {this}")


def find_python_header():
    """The folder of Python.h."""
    folder = sysconfig.get_path("include")
    if not os.path.exists(os.path.join(folder, "Python.h")):
        raise Unbuilt(f"Python.h isn't in {folder}, where a package such as python3-dev lays it")
    return folder


def find_compiler():
    """The C compiler's command."""
    command = shlex.split(os.environ.get("CC", "")) or ["cc"]
    if not shutil.which(command[0]):
        raise Unbuilt(f"there is no C compiler {command[0]} here; the environment's CC may name one")
    return command


def asked_for(*names):
    """The words of the environment's variables by which packagers tell compilers what they want."""
    return [word for name in names for word in shlex.split(os.environ.get(name, ""))]


def check_import(target):
    """Tries the extension in a Python of its own."""
    command = [sys.executable, "-c", TRIAL, target]
    tried = subprocess.run(command, stderr=subprocess.PIPE, encoding="utf-8", errors="replace", check=False)
    if tried.returncode:
        told = tried.stderr.strip().splitlines() or ["it ended Python"]
        raise Unbuilt(f"the extension can't be imported: {told[-1]}")


def run(command):
    if subprocess.run(command, check=False).returncode:
        raise Unbuilt(f"the C compiler {command[0]} fails, as it tells above")


def objects_of(sources, room, compile_):
    """The objects of sources, in a folder. The extension tells of them by their names, which are the same in each
    build."""
    objects = [os.path.join(room, f"{os.path.basename(path)}.o") for path in sources]
    for path, made in zip(sources, objects):
        run([*compile_, "-c", path, "-o", made])
    return objects


def build_extension(target, folder=None):
    """Builds the extension, with the library of a folder, or else of the compiled text. Where it can't be made there is
    none, and Unbuilt says why."""
    check_python()
    check_machine()
    text, libraries = ([], [find_library(folder)]) if folder else (find_text(), [])
    # Only for names between quotes: the folder has a strings.h, as the system has one.
    headers = [f"-I{find_python_header()}", f"-iquote{find_header()}"]
    compile_ = [*find_compiler(), *FLAGS, *headers, *asked_for("CPPFLAGS", "CFLAGS")]
    sources = sorted(os.path.join(SOURCES, name) for name in os.listdir(SOURCES) if name.endswith(".c"))
    with tempfile.TemporaryDirectory() as room:
        objects, made = objects_of([*sources, *text], room, compile_), os.path.join(room, "made.so")
        run([*compile_, *objects, *libraries, *LINKED, *asked_for("LDFLAGS"), "-o", made])
        check_import(made)
        shutil.move(made, target)
