"""Builds the package, for which a C compiler and Python's headers are enough: by the hooks of PEP 517 a wheel or a
source distribution, and by

    python3 build_package.py LIBRARY FOLDER

the package under FOLDER, ready to be imported, with the library in LIBRARY, the folder of libsellumaq.a.

The hooks make the extension of the library's compiled text, which the repository and a source distribution hold, or,
where the environment's SELLUMAQ_LIB names a folder of libsellumaq.a, with that. They fail where it can't be made: a
package without it goes by ctypes and needs a shared library, which pip doesn't install. The command leaves that package
then, for an installation that has the shared library too.
"""

import base64
import gzip
import hashlib
import io
import os
import re
import shutil
import sys
import tarfile
import tempfile
import zipfile

from build_extension import HERE, Unbuilt, build_extension, find_header, find_text
from platform_tag import platform_of

EXTENSION = "_native.abi3.so"
SCRIPTS = ["build_package.py", "build_extension.py", "platform_tag.py"]
PACKED = ["pyproject.toml", *SCRIPTS, "README.md", "sellumaq", "src", "tests"]

# When a wheel says that a file was changed, so that the same files make the same wheel: the first moment it can tell.
MOMENT = (1980, 1, 1, 0, 0, 0)


def field(name):
    """A field of the project's, which stands in pyproject.toml in a line of its own."""
    with open(os.path.join(HERE, "pyproject.toml"), encoding="utf-8") as file:
        return re.search(rf'^{name} = "(.*)"$', file.read(), re.MULTILINE)[1]


def copy_package(folder):
    """Leaves the package's own files under a folder, and answers where."""
    package = os.path.join(folder, "sellumaq")
    shutil.rmtree(package, ignore_errors=True)
    shutil.copytree(os.path.join(HERE, "sellumaq"), package, ignore=shutil.ignore_patterns("__pycache__", "*.so"))
    return package


def metadata():
    with open(os.path.join(HERE, "README.md"), encoding="utf-8") as file:
        return (
            f"Metadata-Version: 2.1\nName: {field('name')}\nVersion: {field('version')}\nSummary: {field('description')}\n"
            f"Requires-Python: {field('requires-python')}\nDescription-Content-Type: text/markdown\n\n{file.read()}"
        )


def read_all(folder):
    """The bytes of a folder's files by their names."""
    found = {}
    for name in sorted(os.listdir(folder)):
        with open(os.path.join(folder, name), "rb") as file:
            found[name] = file.read()
    return found


def write_wheel(path, files):
    with zipfile.ZipFile(path, "w", zipfile.ZIP_DEFLATED) as packed:
        for name, data in files.items():
            entry = zipfile.ZipInfo(name, MOMENT)
            entry.external_attr, entry.compress_type = 0o100644 << 16, zipfile.ZIP_DEFLATED
            packed.writestr(entry, data)


def build_wheel(wheel_directory, config_settings=None, metadata_directory=None):
    """PEP 517's hook: leaves the wheel in a folder, and answers its name."""
    with tempfile.TemporaryDirectory() as room:
        package = copy_package(room)
        build_or_end(os.path.join(package, EXTENSION), os.environ.get("SELLUMAQ_LIB"))
        tag = f"cp311-abi3-{platform_of(os.path.join(package, EXTENSION))}"
        files = {f"sellumaq/{name}": data for name, data in read_all(package).items()}
    info = f"sellumaq-{field('version')}.dist-info"
    files[f"{info}/METADATA"] = metadata().encode()
    files[f"{info}/WHEEL"] = f"Wheel-Version: 1.0\nGenerator: sellumaq\nRoot-Is-Purelib: false\nTag: {tag}\n".encode()
    record = [f"{path},sha256={digest(data)},{len(data)}\n" for path, data in files.items()] + [f"{info}/RECORD,,\n"]
    name = f"sellumaq-{field('version')}-{tag}.whl"
    write_wheel(os.path.join(wheel_directory, name), files | {f"{info}/RECORD": "".join(record).encode()})
    return name


def build_or_end(target, library):
    try:
        build_extension(target, library)
    except Unbuilt as why:
        sys.exit(
            f"sellumaq isn't built: {why}; without the extension the package would go by ctypes and need the shared "
            "library, which `make install` installs and pip doesn't"
        )


def digest(data):
    return base64.urlsafe_b64encode(hashlib.sha256(data).digest()).rstrip(b"=").decode()


def plain(entry):
    """What an archive says of a file, whoever packs it and when."""
    entry.mtime, entry.uid, entry.gid, entry.uname, entry.gname = 0, 0, 0, "", ""
    entry.mode = 0o755 if entry.isdir() else 0o644
    return entry


def own(entry):
    """The same of the package's own files, without what Python left beside them, and without the header, which is
    packed by itself."""
    return None if "__pycache__" in entry.name or entry.name.endswith("/sellumaq.h") else plain(entry)


def build_sdist(sdist_directory, config_settings=None):
    """PEP 517's hook: leaves the source distribution in a folder, and answers its name. The library's compiled text and
    the C header go with it."""
    base, made = f"sellumaq-{field('version')}", io.BytesIO()
    try:
        text, header = find_text(), find_header()
    except Unbuilt as why:
        sys.exit(f"no source distribution of sellumaq is made: {why}.")
    with tarfile.open(fileobj=made, mode="w", format=tarfile.PAX_FORMAT) as packed:
        for path in PACKED:
            packed.add(os.path.join(HERE, path), f"{base}/{path}", filter=own)
        for path in text:
            packed.add(path, f"{base}/compiled/{os.path.basename(path)}", filter=plain)
        packed.add(os.path.join(header, "sellumaq.h"), f"{base}/src/sellumaq.h", filter=plain)
        info = metadata().encode()
        entry = plain(tarfile.TarInfo(f"{base}/PKG-INFO"))
        entry.size = len(info)
        packed.addfile(entry, io.BytesIO(info))
    with open(os.path.join(sdist_directory, f"{base}.tar.gz"), "wb") as file:
        file.write(gzip.compress(made.getvalue(), mtime=0))
    return f"{base}.tar.gz"


def main(library, folder):
    package = copy_package(folder)
    try:
        build_extension(os.path.join(package, EXTENSION), library)
    except Unbuilt as why:
        print(f"the Python package has no extension and goes by ctypes: {why}")


if __name__ == "__main__":
    if len(sys.argv) != 3:
        sys.exit(__doc__)
    main(*sys.argv[1:])
