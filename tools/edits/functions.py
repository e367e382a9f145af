"""The functions of a crate's sources, as `rt fmt` lays them out: where each stands, and by which path the prover means
it."""

import re
from typing import NamedTuple

HEAD = re.compile(r"( *)(?:pub(?:\([^)]*\))? )?(?:const )?(?:unsafe )?(?:extern \S+ )?fn (\w+)")
OWNER = re.compile(r" *(?:pub(?:\([^)]*\))? )?(?:unsafe )?(?:impl|trait)\b")
CYCLE = re.compile(r" *#\[cycle\((\w+)\)\]$")
ABOVE = re.compile(r" *(?:#\[|//)")
TYPE = re.compile(r"^ *(?:pub(?:\([^)]*\))? )?(?:struct|enum|union|trait) (\w+)", re.M)


class Function(NamedTuple):
    """A function with a body: its file and name; the lines at which its attributes and comments begin, of its head, of
    the brace that opens its body, and of the one that closes it, counted from 0; the header of the impl or trait that
    it stands in; and its cycle of calls, if it says that it is in one."""

    file: str
    name: str
    begin: int
    first: int
    opens: int
    last: int
    owner: str
    cycle: str

    @property
    def proof(self):
        """What is proved at once: the function, or its cycle of calls."""
        return self.cycle or (self.file, self.first)


class Owner(NamedTuple):
    """What the header of an impl says: its trait with its arguments, if there is one, its type, and the names of its
    own parameters. The type of a trait's header is the trait."""

    trait: str
    kind: str
    own: set


def indent_of(line):
    """How many spaces a line begins with."""
    return len(line) - len(line.lstrip(" "))


def ends_head(lines, at, indent):
    """Whether a line ends a function without a body, whose head has so many spaces in front."""
    return lines[at].endswith(";") and (at + 1 == len(lines) or indent_of(lines[at + 1]) <= indent)


def body_of(lines, first):
    """The lines of the braces of the body of a function whose head begins at a line; none where it has no body."""
    indent = indent_of(lines[first])
    for at in range(first, len(lines)):
        line = lines[at]
        if indent_of(line) == indent and line.endswith("}") and "{" in line:
            return at, at
        if indent_of(line) == indent and line.endswith("{"):
            closing = " " * indent + "}"
            return at, next(end for end in range(at, len(lines)) if lines[end] == closing)
        if ends_head(lines, at, indent):
            return None
    return None


def owner_of(lines, first):
    """The header, in one line, of the impl or trait in which the line stands."""
    indent = indent_of(lines[first])
    for at in reversed(range(first)):
        line = lines[at]
        if line.strip() and indent_of(line) < indent and OWNER.match(line):
            end = next(end for end in range(at, first) if lines[end].endswith("{"))
            return " ".join(each.strip() for each in lines[at : end + 1]).removesuffix("{").strip()
        if line.strip() == "}" and indent_of(line) < indent:
            return ""
    return ""


def begin_of(lines, first):
    """The first line of the attributes and comments above a function's head, or its head where there are none."""
    while first and ABOVE.match(lines[first - 1]):
        first -= 1
    return first


def cycle_of(above):
    """The cycle of calls that the lines above a function's head name."""
    return next((found[1] for line in above if (found := CYCLE.match(line))), "")


def functions_in(file, text):
    """The functions with a body in a text of Rattle."""
    lines = text.split("\n")
    found = []
    for first, line in enumerate(lines):
        head = HEAD.match(line)
        body = body_of(lines, first) if head else None
        if body:
            begin = begin_of(lines, first)
            found.append(
                Function(file, head[2], begin, first, *body, owner_of(lines, first), cycle_of(lines[begin:first]))
            )
    return found


def past_brackets(text):
    """What stands in the angle brackets that a text begins with, and what behind them."""
    depth = 0
    for at, mark in enumerate(text):
        depth += {"<": 1, ">": -1}.get(mark, 0)
        if not depth:
            return (text[1:at], text[at + 1 :]) if mark == ">" else ("", text)
    return "", text


def read_owner(header):
    """What a header of an impl or a trait says."""
    word, rest = re.search(r"\b(impl|trait)\b(.*)", header).groups()
    if word == "trait":
        return Owner("", re.match(r" *(\w+)", rest)[1], set())
    own, rest = past_brackets(rest.strip())
    trait, is_trait, kind = re.split(r"\bwhere\b", rest)[0].partition(" for ")
    names = set(re.findall(r"(?:^|,)\s*(?:const )?(\w+)", own))
    return Owner(trait.strip(), kind.strip(), names) if is_trait else Owner("", rest.strip(), names)


def name_of(kind):
    """The last name of a type's path, without its arguments."""
    found = re.match(r"(?:\w+::)*(\w+)", kind)
    return found[1] if found else ""


def words_of(text, own):
    """What the prover calls a type, or a trait with its arguments: its words, each with a large letter first, without
    lifetimes and the impl's own parameters."""
    plain = re.sub(r"'\w+ ?|\bmut |\b\w+::", "", text)
    words = ""
    for found in re.finditer(r"\w+|[&\[(]", plain):
        mark, behind = found[0], plain[found.end() :]
        parts = behind.partition(")")[0]
        signs = {"&": "Ref", "[": "Slice", "(": f"Tuple{parts.count(',') + 1}" if parts else "Unit"}
        words += signs.get(mark, "" if mark in own else mark[0].upper() + mark[1:])
    return words


def module_of(file):
    """The path of the module that a file of src/ is, below the crate."""
    parts = file.removeprefix("src/").removesuffix(".rt").split("/")
    return parts[:-1] if parts[-1] in ("lib", "main", "mod") else parts


class Sources:
    """The texts of a crate's src/, and the functions in them."""

    def __init__(self, folder):
        files = sorted((folder / "src").rglob("*.rt"))
        texts = {str(file.relative_to(folder)): file.read_text(encoding="utf-8") for file in files}
        self.lines = {file: text.split("\n") for file, text in texts.items()}
        self.functions = [each for file, text in texts.items() for each in functions_in(file, text)]
        self.with_macros = {file for file, text in texts.items() if "macro_rules!" in text}
        self.modules = {}
        for file, text in texts.items():
            for name in TYPE.findall(text):
                self.modules.setdefault(name, []).append(module_of(file))

    def around(self, file, at, new):
        """The innermost function in whose body a line stands that becomes another, if nothing but its own proof reads
        that body; none where the line is in no body. On the line that opens a body a text behind the brace is in it. A
        `const fn` may be read by a constant, and a macro's text by others."""
        if file not in self.lines or file in self.with_macros:
            return None
        is_behind = new.startswith(self.lines[file][at])
        inside = [
            each for each in self.functions if each.file == file and each.opens + (not is_behind) <= at < each.last
        ]
        return inside[-1] if inside and "const fn" not in self.lines[file][inside[-1].first] else None

    def middle_of(self, function):
        """The modules in which a function's path may stand, and what stands before its name, if anything does. A method
        stands by its type, in the module of the type's declaration, a trait's method by the words of its impl."""
        module = module_of(function.file)
        if not function.owner:
            return [module], None
        owner = read_owner(function.owner)
        if owner.trait and owner.trait != "Drop":
            return [module], words_of(owner.kind, owner.own) + words_of(owner.trait, owner.own)
        kind = name_of(owner.kind)
        return self.modules.get(kind, [module]), kind

    def may_be(self, function, path):
        """Whether the prover may mean a function by a path that it prints, as judy_bits::skip::Skip::new. Behind a type
        may stand its arguments, as Filling+Width+1."""
        *place, name = path.split("::")[1:]
        modules, middle = self.middle_of(function)
        if name != function.name:
            return False
        if middle is None:
            return place in modules
        return bool(place) and place[:-1] in modules and place[-1].partition("+")[0] == middle

    def asked_as(self, function):
        """The path by which a check is asked for a function; that of its module where it stands behind a type's
        arguments."""
        modules, middle = self.middle_of(function)
        if middle is None:
            return "::".join([*modules[0], function.name])
        owner = read_owner(function.owner)
        is_sure = owner.trait or words_of(owner.kind, owner.own) == middle
        return "::".join([*modules[0], middle, function.name] if is_sure else modules[0])

    def path_of(self, function, paths):
        """The one path that means this function and no other, of the paths that the prover printed; none where that
        isn't sure."""
        own = [path for path in paths if self.may_be(function, path)]
        others = [each for each in self.functions if each != function and own and self.may_be(each, own[0])]
        return own[0] if len(own) == 1 and not others else None
