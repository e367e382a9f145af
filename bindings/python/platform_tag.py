"""The platform that a wheel is for, which its extension tells: by the newest version of glibc that it asks for."""

import re
import struct

LINUX = "linux_x86_64"
# The oldest glibc that a tag tells of.
OLDEST = 5

# Of a file of ELF for 64-bit machines whose least byte is first: where its header says where the sections' headers are,
# of how many bytes each is and how many they are; the header of a section; a library that it asks for, and a version.
SECTIONS_AT, SECTIONS = 0x28, 0x3A
SECTION, LIBRARY, VERSION = (struct.Struct(f"<{fields}") for fields in ("IIQQQQIIQQ", "HHIII", "IHHII"))
VERSIONS_NEEDED = 0x6FFFFFFE


def sections(data):
    """The kind of each section, where it begins, the number of the one it refers to, and how many entries it has."""
    (begin,) = struct.unpack_from("<Q", data, SECTIONS_AT)
    size, count = struct.unpack_from("<HH", data, SECTIONS)
    for n in range(count):
        _, kind, _, _, at, _, link, entries, _, _ = SECTION.unpack_from(data, begin + n * size)
        yield kind, at, link, entries


def versions(data):
    """The names of the versions that an extension asks libraries for."""
    table = list(sections(data))
    for kind, library, link, libraries in table:
        strings = table[link][1]
        for _ in range(libraries if kind == VERSIONS_NEEDED else 0):
            _, count, _, first, next_library = LIBRARY.unpack_from(data, library)
            version = library + first
            for _ in range(count):
                _, _, _, name, next_version = VERSION.unpack_from(data, version)
                yield data[strings + name : data.index(b"\0", strings + name)].decode("ascii")
                version += next_version
            library += next_library


def platform_of(path):
    """The platform's tag; that of any Linux where the extension asks for other versions than glibc's, or for none, as
    under musl."""
    with open(path, "rb") as file:
        asked = [re.fullmatch(r"GLIBC_2\.(\d+)(\.\d+)?", name) for name in versions(file.read())]
    if not asked or None in asked:
        return LINUX
    return f"manylinux_2_{max(OLDEST, *(int(each[1]) for each in asked))}_x86_64"
