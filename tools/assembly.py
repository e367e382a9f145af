"""The compiler's assembly text, with names that stay: a change of one function changes the lines of that function
alone.

The compiler quotes a function's whole path as its name, which some assemblers can't read, and numbers labels, tables
and constants through the whole module. Here a function is named by the end of its path and a sum of the whole path,
which stands above it as a comment. A label has the sum of its function and the number that it has in it. A constant has
a sum of what it holds."""

import hashlib
import re

# Names that any assembler reads: those that the C library and callers know, and those that were made here.
PLAIN = re.compile(r"[A-Za-z_.][\w.]*")
# The types that a path names in angles, and what stands behind its last word.
TYPES = re.compile(r"(?:::)?<[^<>]*>")
PATH_END = re.compile(r"([A-Za-z_]\w*)[^\w:]*(?:\+\w+)?$")
NUMBERED = re.compile(r"\.L(BB|CPI|JTI|func_end)(\d+)(?:_(\d+))?\b")
QUOTED = re.compile(r'"([^"]*)"')
CONSTANT = re.compile(r"\.Lstatic\.\d+")
# A table that a `match` became, which the compiler names by its function and a number of the module's; and its section.
TABLE = re.compile(r'"(\.Lswitch\.table\.[^"]*)"|(\.Lswitch\.table\.[\w.$]+)')
TABLE_SECTION = re.compile(r'"(\.[\w.]*?\.)(\.Lswitch\.table\.[^"]*)"')
FIRST_TABLE = 10**6
# What an assembler marks a local label with, for each kind of the compiler's.
MARKS = {"BB": "", "CPI": "c", "JTI": "t", "func_end": "e"}
# Lines that tell the compiler's version, the module's name, and what the linker may fold.
DROPPED = re.compile(r"\s*\.(file|ident|addrsig|addrsig_sym)\b")
FUNCTION = re.compile(r"\s*\.type\s+.*,@function$")
FUNCTION_END = re.compile(r"\s*\.size\s+.*, \.Lfunc_end\d+-")
UNWINDING = re.compile(r"\s*\.cfi_")
UNWINDING_PLACE = re.compile(r"^\s*\.cfi_sections .*\n", re.MULTILINE)
LATE_END = re.compile(r"^(\s*\.size\s+.*\n)(\s*\.cfi_endproc\n)", re.MULTILINE)
TEXT_LINE = re.compile(r"\s*\.(ascii|asciz|string)\b")
DIGITS = "0123456789abcdefghijklmnopqrstuvwxyz"


class Unknown(Exception):
    """A form of the compiler's text that isn't known here."""


def sum_of(text, length=6):
    """A sum of a text, as so many digits and small letters."""
    number = int.from_bytes(hashlib.sha256(text.encode()).digest()[:8], "big")
    digits = ""
    for _ in range(length):
        number, digit = divmod(number, 36)
        digits += DIGITS[digit]
    return digits


def symbol_of(path):
    """The symbol of a function, or of a table of one: the end of its path, and a sum of the whole."""
    if PLAIN.fullmatch(path):
        return path
    plain, count = path, 1
    while count:
        plain, count = TYPES.subn("", plain)
    found = PATH_END.search(plain)
    if not found:
        raise Unknown(f"no end of a path: {path}")
    return f"{found[1]}.{sum_of(path)}"


def section_of(name):
    """The name of a section that is named by what stands in it."""
    found = re.fullmatch(
        r"(\.(?:text|rodata|data\.rel\.ro|bss|data)(?:\.(?:unlikely|hot|startup|cst\d+))*)(?:\.(.+))?", name
    )
    if not found or not found[2] or found[2].startswith(".L"):
        return name
    return f"{found[1]}.{symbol_of(found[2])}"


def functions_by_number(lines):
    """The sum of each function's path by the number that the compiler gave the function."""
    found = {}
    for line in lines:
        size = re.fullmatch(r'\s*\.size\s+(?:"([^"]+)"|(\S+)), \.Lfunc_end(\d+)-.*', line)
        if size:
            found[size[3]] = sum_of(size[1] or size[2])
    return found


def tables_as_constants(lines):
    """The lines with tables named as constants are, so that what they hold names them too."""
    numbers = {}

    def name_of(table):
        return f".Lstatic.{FIRST_TABLE + numbers.setdefault(table, len(numbers))}"

    for line in lines:
        if TEXT_LINE.match(line):
            yield line
        else:
            line = TABLE_SECTION.sub(lambda found: found[1] + name_of(found[2]), line)
            yield TABLE.sub(lambda found: name_of(found[1] or found[2]), line)


def named_by_function(lines):
    """The lines with names of functions, of their sections and of labels in them that stay."""
    numbers = functions_by_number(lines)

    def label(found):
        mark = MARKS[found[1]]
        return f".L{numbers[found[2]]}{mark}{found[3] or ''}"

    def name(found):
        text = found[1]
        return section_of(text) if text.startswith(".") and not text.startswith(".L") else symbol_of(text)

    for line in lines:
        if DROPPED.match(line):
            continue
        if TEXT_LINE.match(line):
            yield line
            continue
        section = re.fullmatch(r'(\s*\.section\s+)(?:"([^"]+)"|([^,"\s]+))(.*)', line)
        if section:
            yield f"{section[1]}{section_of(section[2] or section[3])}{section[4]}"
            continue
        opened = re.fullmatch(r'"([^"]+)":', line)
        if opened:
            yield f"# {opened[1]}"
        yield NUMBERED.sub(label, QUOTED.sub(name, line))


def constants_of(lines):
    """The lines of each constant, from its `.type` line to its size, by its name."""
    found, name = {}, None
    for line in lines:
        begun = re.fullmatch(r"\s*\.type\s+(\.Lstatic\.\d+),@object", line)
        if begun:
            name = begun[1]
            found[name] = []
        if name:
            found[name].append(line)
            if re.match(r"\s*\.size\s", line):
                name = None
    return found


def named_by_contents(lines):
    """The lines with names of constants that tell what they hold."""
    constants, names, used = constants_of(lines), {}, {}

    def name_of(constant):
        if constant not in names:
            names[constant] = None
            held = "\n".join(
                CONSTANT.sub(lambda found: "" if found[0] == constant else name_of(found[0]), line)
                for line in constants[constant]
            )
            made = f".Lconst.{sum_of(held)}"
            used[made] = used.get(made, 0) + 1
            names[constant] = made if used[made] == 1 else f"{made}.{used[made]}"
        if names[constant] is None:
            raise Unknown(f"a constant that leads to itself: {constant}")
        return names[constant]

    for line in lines:
        yield line if TEXT_LINE.match(line) else CONSTANT.sub(lambda found: name_of(found[0]), line)


def parts_of(lines):
    """The lines of each function from its `.type` line to its end, and those between functions, in their order."""
    part = []
    for line in lines:
        if FUNCTION.match(line) and part:
            yield part
            part = []
        part.append(line)
        if FUNCTION_END.match(line):
            yield part
            part = []
    yield part


def with_unwinding(plain, unwound):
    """The plain text, with the lines that tell how the stack is unwound in each function whose code is the same with
    them."""
    # The last of these lines stands behind what ends a function here.
    told = LATE_END.sub(r"\2\1", UNWINDING_PLACE.sub("", unwound))
    both = zip(parts_of(plain.splitlines()), parts_of(told.splitlines()), strict=True)
    chosen = ((more if [line for line in more if not UNWINDING.match(line)] == part else part) for part, more in both)
    return "\n".join(line for part in chosen for line in part) + "\n"


def with_lasting_names(text):
    """The compiler's text with names that stay, checked to be distinct."""
    lines = list(named_by_contents(list(named_by_function(list(tables_as_constants(text.splitlines()))))))
    defined = [line for line in lines if re.match(r"[^\s#][^\s]*:$", line)]
    if len(defined) != len(set(defined)):
        raise Unknown(
            "two things of one name: " + ", ".join(sorted({each for each in defined if defined.count(each) > 1})[:3])
        )
    strange = [line for line in lines if not TEXT_LINE.match(line) and re.search(r'"[^"]*(::|<)', line)]
    if strange:
        raise Unknown(f"a quoted name is left: {strange[0].strip()}")
    return "\n".join(lines) + "\n"
