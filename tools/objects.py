"""Object files (ELF for x86-64) as their parts, and where two differ: sections with their bytes, alignment and flags,
relocations by what they lead to, and the names that are given and asked for."""

import struct

import assembly

PROGBITS, SYMTAB, STRTAB, RELA, NOBITS = 1, 2, 3, 4, 8
UNDEFINED, FILE_TYPE, SECTION_TYPE = 0, 4, 3
# What tells debuggers of the code, and is no code; and what says who compiled it.
BESIDE = (".eh_frame", ".debug_frame", ".comment", ".llvm_addrsig", ".note.gnu.property")


class Section:
    """A section that has code or data: its name, flags, alignment, the size of an entry, bytes and relocations."""

    def __init__(self, name, head, data):
        self.name, self.data = name, data
        _, self.kind, self.flags, _, _, self.size, _, _, self.align, self.entry = head
        self.relocations = []


class Object:
    """What an object file has. Names of functions are given as symbols (see `assembly`), so that both spellings are
    one."""

    def __init__(self, data):
        self.data = data
        if data[:5] != b"\x7fELF\x02":
            raise ValueError("no object file for x86-64")
        start, _, count, names_at = struct.unpack_from("<Q10xHHH", data, 0x28)
        heads = [struct.unpack_from("<IIQQQQIIQQ", data, start + 64 * at) for at in range(count)]
        names = self.bytes_of(heads[names_at])
        self.sections, self.place = [], {}
        for at, head in enumerate(heads):
            name = text_at(names, head[0])
            if head[1] not in (0, SYMTAB, STRTAB, RELA) and head[5] and name not in BESIDE:
                self.place[at] = len(self.sections)
                self.sections.append(Section(assembly.section_of(name), head, self.bytes_of(head)))
        table = next(head for head in heads if head[1] == SYMTAB)
        self.symbols = list(self.read_symbols(table, self.bytes_of(heads[table[6]])))
        for head in heads:
            if head[1] == RELA and head[7] in self.place:
                self.sections[self.place[head[7]]].relocations = list(self.read_relocations(head))

    def bytes_of(self, head):
        return b"" if head[1] == NOBITS else self.data[head[4] : head[4] + head[5]]

    def read_symbols(self, head, names):
        for name, info, visible, section, value, size in struct.iter_unpack("<IBBHQQ", self.bytes_of(head)):
            told = text_at(names, name)
            yield told if is_label(told) else assembly.symbol_of(told), info, visible, section, value, size

    def read_relocations(self, head):
        """Each as its place, its kind, and what it leads to: a place in a section, or a name that another object gives.
        """
        for offset, info, addend in struct.iter_unpack("<QQq", self.bytes_of(head)):
            name, _, _, section, value, _ = self.symbols[info >> 32]
            target = (name, addend) if section == UNDEFINED else (self.place.get(section), value + addend)
            yield offset, info & 0xFFFFFFFF, target

    def given(self):
        """The names that it gives, each with its kind, how far it is seen, its place and its size. A label is no name.
        """
        told = (each for each in self.symbols if not is_label(each[0]) and each[3] != UNDEFINED)
        named = (each for each in told if each[1] & 15 not in (SECTION_TYPE, FILE_TYPE))
        # A name that stands for a number, and in no section, keeps its own mark of that.
        return sorted(
            (name, info, visible, self.place.get(section, -section), value, size)
            for name, info, visible, section, value, size in named
        )

    def asked(self):
        """The names that it asks for."""
        return sorted({name for name, _, _, section, _, _ in self.symbols if name and section == UNDEFINED})


def text_at(names, at):
    return names[at : names.index(b"\0", at)].decode()


def is_label(name):
    """Whether this names nothing that another object could ask for."""
    return not name or name.startswith(".L")


def is_constant(name):
    """Whether a section holds one constant alone, which the compiler numbers and our text names by what it holds."""
    return any(mark in name for mark in (".Lstatic.", ".Lswitch.table.", ".Lconst."))


def differences(one, other):
    """Where two objects differ, as sentences, the first parts first."""
    if len(one.sections) != len(other.sections):
        yield f"{len(one.sections)} sections and {len(other.sections)}"
    for mine, theirs in zip(one.sections, other.sections):
        if mine.name != theirs.name and not (is_constant(mine.name) and is_constant(theirs.name)):
            yield f"{mine.name} stands where {theirs.name} should"
            return
        for what in ("kind", "flags", "align", "entry", "size", "data", "relocations"):
            if getattr(mine, what) != getattr(theirs, what):
                yield f"{mine.name} has another {what}"
    for what in ("given", "asked"):
        mine, theirs = getattr(one, what)(), getattr(other, what)()
        if mine != theirs:
            strange = [each for each in mine + theirs if (each in mine) != (each in theirs)]
            yield f"other names are {what}: {strange[0]}"
