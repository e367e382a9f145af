"""What pkg-config and CMake find of a library that is installed: each test answers whether it passed, and prints so."""

import os
import re
import shutil
import subprocess

TOP = os.path.normpath(os.path.join(os.path.dirname(os.path.abspath(__file__)), ".."))
PROJECT = f"{TOP}/bindings/c/test/cmake"
# The programs of the project, the library of ours that each is linked to, and what it prints, whole or at its end.
PROGRAMS = [
    ("squares_sellumaq", "libsellumaq.so.1", "3 squares\n"),
    ("squares_static", None, "3 squares\n"),
    ("hp", "libJudy.so.1", "ok\n"),
]
# What asks for more than is there, and what CMake says of it.
REFUSED = [
    ("find_package(sellumaq 2 REQUIRED)", "1.0.0"),
    ("find_package(sellumaq 99.0...100 REQUIRED)", "1.0.0"),
    ("find_package(sellumaq REQUIRED COMPONENTS rust)", "no component `rust`"),
]


def tell(name, holds):
    print(f"{'passed' if holds else 'NOT PASSED'}: {name}")
    return bool(holds)


def run(command, **how):
    return subprocess.run(
        command, stdout=subprocess.PIPE, stderr=subprocess.STDOUT, encoding="utf-8", check=False, **how
    )


def told(*command, **how):
    """What a command prints; None where it fails."""
    ran = run(command, **how)
    return ran.stdout if ran.returncode == 0 else None


def try_pkg_config(installed):
    """Whether pkg-config tells the project's version of both packages."""
    if not shutil.which("pkg-config"):
        print("skipped: what pkg-config finds, which isn't installed here")
        return True
    with open(f"{TOP}/VERSION", encoding="ascii") as file:
        version = file.read()
    known = os.environ | {"PKG_CONFIG_PATH": f"{installed}/lib/pkgconfig"}
    found = [told("pkg-config", "--modversion", package, env=known) for package in ("sellumaq", "sellumaq-judy")]
    return tell("pkg-config tells the version", found == [version, version])


def linked(program):
    """The library of ours that a program is linked to, or None."""
    needed = re.search(r"\(NEEDED\).*\[(lib(?:sellumaq|Judy)\.so\S*)\]", told("readelf", "-d", program) or "")
    return needed and needed[1]


def is_refused(room, installed, asked, says):
    """Whether CMake refuses a project that asks for what isn't there, and says why."""
    os.makedirs(f"{room}/refused", exist_ok=True)
    with open(f"{room}/refused/CMakeLists.txt", "w", encoding="ascii") as file:
        file.write(f"cmake_minimum_required(VERSION 3.16)\nproject(refused NONE)\n{asked}\n")
    command = ["cmake", "-S", f"{room}/refused", "-B", f"{room}/refused/build", f"-DCMAKE_PREFIX_PATH={installed}"]
    ran = run(command)
    return ran.returncode != 0 and says in " ".join(ran.stdout.split())


def try_cmake(room, installed):
    """Whether a CMake project finds the library, static, shared and by HP's names, and is refused what isn't there."""
    if not shutil.which("cmake"):
        print("skipped: a CMake project, since cmake isn't installed here")
        return True
    build = f"{room}/by CMake"
    told("cmake", "-S", PROJECT, "-B", build, f"-DCMAKE_PREFIX_PATH={installed}")
    told("cmake", "--build", build)
    results = []
    for program, library, printed in PROGRAMS:
        built = f"{build}/{program}"
        holds = os.path.exists(built) and linked(built) == library and (told(built) or "").endswith(printed)
        results.append(tell(f"a CMake project's {program}, linked to {library or 'no shared library of ours'}", holds))
    results += [tell(f"CMake refuses {asked}", is_refused(room, installed, asked, says)) for asked, says in REFUSED]
    return all(results)
