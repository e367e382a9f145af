"""The must-fail edits of one crate as they are tried: as many as can be in one check, the others alone, as the kit
tries them."""

import os
import pathlib
import shutil
import tempfile

from edits import files, functions, prover

FLAGS = ["--jobs", "1"]


class Trial:
    """The edits of a crate as they are tried over what the checks keep in a folder: what was found of each, and why
    some are tried alone."""

    def __init__(self, rt, crate, kept):
        self.rt, self.crate, self.kept = rt, crate, kept
        self.folder = pathlib.Path(crate.folder)
        self.sources = functions.Sources(self.folder)
        self.own, self.found, self.alone = {}, {}, {}

    def sort(self, names):
        """Finds the function of each edit; an edit that changes anything else, or can't be applied, is tried alone."""
        for name in names:
            edit = pathlib.Path(name)
            try:
                function = files.function_of(self.sources, self.folder, edit)
                is_same = files.changed(self.folder, edit) == self.rt.read_edit(name, self.crate.folder)[0]
            except (OSError, ValueError):
                function = is_same = None
            if function and is_same:
                self.own[edit] = function
            else:
                self.alone[edit] = "it can't be applied, or changes something else than the body of one function"

    def check(self, texts, tried):
        """A check of the functions of some edits, and of what they call, with these texts in place of the crate's own.
        """
        only = [word for edit in tried for word in ("--only", self.sources.asked_as(self.own[edit]))]
        return self.rt.checked(self.crate, texts, [*FLAGS, *only], self.kept)

    def fault_of(self, ran, texts):
        """Why a check says nothing of its edits, if so: it has to end with what it found, and to have read all texts.
        """
        lines = ran.stdout.rstrip("\n").split("\n")
        if self.rt.rtlib.STALE.search(ran.stdout):
            return "the kept work of a library could not be used"
        if any(self.rt.unread(line, texts) for line in lines):
            return "the prover could not read the edited text"
        if ran.returncode != 1 or not lines[-1].startswith("only="):
            return f"the check of its function ended with: {lines[-1][:100]}"
        return None

    def try_at_once(self, tried):
        """Tries edits that change different functions. Those that are left, since a function that theirs calls has an
        edit too, are returned. Where the check says nothing of them, each half of them is tried."""
        texts = files.changed_by_all(self.folder, tried)
        ran = self.check(texts, tried)
        fault = self.fault_of(ran, texts)
        if fault and len(tried) == 1:
            self.alone[tried[0]] = fault
        if fault:
            half = len(tried) // 2
            return self.try_at_once(tried[:half]) + self.try_at_once(tried[half:]) if half else []
        said, left = prover.Check(ran.stdout), []
        for edit in tried:
            path = self.sources.path_of(self.own[edit], said.functions)
            place = path and said.refusal(self.own[edit], path)
            if place:
                self.found[edit] = f"{path.partition('::')[2]}: {place.file}:{place.line}: {place.said[:120]}"
            elif path and said.waits(path):
                left.append(edit)
            else:
                self.alone[edit] = f"its function: {said.functions.get(path, 'not named')[:100]}"
        if len(left) == len(tried):
            self.alone |= {edit: "its function waits for another's proof" for edit in left}
            return []
        return left

    def is_proved(self):
        """Whether the functions at which edits were refused are proved as they stand, over what was kept."""
        ran = self.check({}, self.found)
        return ran.returncode == 0 and ran.stdout.rstrip("\n").split("\n")[-1].startswith("only=")

    def go(self, names):
        """Tries all edits of the crate: whether each is refused, and what to say of it, in the order of their names."""
        self.sort(names)
        left = list(self.own)
        while left:
            first = files.groups_of(self.sources, self.folder, left)[0]
            waiting = self.try_at_once(first)
            left = [edit for edit in left if edit not in first or edit in waiting]
        if self.found and not self.is_proved():
            self.alone |= {
                edit: "the functions as they stand were not proved over what was kept" for edit in self.found
            }
            self.found, self.kept = {}, None
        return [self.verdict(pathlib.Path(name)) for name in names]

    def verdict(self, edit):
        """Whether an edit is refused, and what to say; by itself where it wasn't refused at its own function. What
        isn't refused over what was kept is tried once more, from nothing."""
        if edit in self.found:
            return True, f"must-fail {self.crate.name}/{edit.name}: refused, as it must be, at {self.found[edit]}"
        refused, text = self.try_alone(edit, self.kept)
        if not refused and self.kept:
            refused, text = self.try_alone(edit, None)
        return refused, f"{text} (tried alone: {self.alone[edit]})"

    def try_alone(self, edit, kept):
        """Whether the kit refuses an edit, over what was kept, and what it says of it. By the kit it is yes or no, or a
        word: `limit` where a limit of the prover refuses it."""
        what, text = self.rt.must_fail(self.crate, str(edit), FLAGS, kept)
        return what in (True, "refused", "limit"), text


def copy_kept(crate, kept):
    """Copies what earlier checks of the crate kept into a folder, where there is any: proved modules as links, since
    the prover writes each anew."""

    def copy(old, new):
        return os.link(old, new) if old.endswith(".oantt") else shutil.copy2(old, new)

    if os.path.isdir(f"{crate.folder}/out/incremental"):
        shutil.copytree(f"{crate.folder}/out/incremental", kept, copy_function=copy, dirs_exist_ok=True)
