"""What the files of must-fail edits and of their twins say, and which function each changes."""


def pairs_of(edit):
    """The changes of an edit: a file, a text that stands in it once, and the text in its place."""
    file = old = ""
    for line in edit.read_text(encoding="utf-8").splitlines():
        word, _, rest = line.partition(":")
        rest = rest.removeprefix(" ")
        if word == "file":
            file = rest.strip()
        elif word == "old":
            old = rest
        elif word == "new":
            yield file, old, rest


def changed(folder, edit):
    """The texts of the files that an edit changes, by their path, as they become."""
    texts = {}
    for file, old, new in pairs_of(edit):
        text = texts.get(file) or (folder / file).read_text(encoding="utf-8")
        if text.count(old) != 1:
            raise ValueError(f"{file} has {text.count(old)} times: {old}")
        texts[file] = text.replace(old, new)
    return texts


def lines_of(folder, edit):
    """The lines that an edit changes, as they become, by their file and number. Old and new texts are one line each, so
    none moves."""
    found = {}
    for file, text in changed(folder, edit).items():
        before = (folder / file).read_text(encoding="utf-8").split("\n")
        found |= {
            (file, at): new for at, (old, new) in enumerate(zip(before, text.split("\n"), strict=True)) if old != new
        }
    return found


def function_of(sources, folder, edit):
    """The one function in whose body all that an edit changes stands; none where it changes something else, as a
    constant or a clause."""
    found = {sources.around(file, at, new) for (file, at), new in lines_of(folder, edit).items()}
    return found.pop() if len(found) == 1 else None


def groups_of(sources, folder, edits):
    """The edits in as few lists as a first fit finds, in each of which no two change the same function, or functions of
    one cycle of calls: so each is refused or not by itself. One that changes something outside of functions is a list
    of its own."""
    groups = []
    for edit in edits:
        own = function_of(sources, folder, edit)
        proof = own and own.proof
        for taken, group in groups:
            if proof and proof not in taken and None not in taken:
                taken.add(proof)
                group.append(edit)
                break
        else:
            groups.append(({proof}, [edit]))
    return [group for _, group in groups]


def changed_by_all(folder, edits):
    """The texts of the files that some edits change, which change different functions, as they become where all are
    applied."""
    texts = {}
    for edit in edits:
        for (file, at), line in lines_of(folder, edit).items():
            lines = texts.setdefault(file, (folder / file).read_text(encoding="utf-8").split("\n"))
            lines[at] = line
    return {file: "\n".join(lines) for file, lines in texts.items()}
