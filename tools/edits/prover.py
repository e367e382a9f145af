"""What the prover says in a check, function by function: which are not proved, and for which goal of theirs."""

import re
from typing import NamedTuple

LINE = re.compile(r"^fn (\S+): (.*)")
PLACE = re.compile(r"^(?:note: )?(?:\./)?(\S+?):(\d+):\d+: (.*)")
# The function's own proof was tried; where it only waits for a callee, the line goes on with `it calls`.
TRIED = re.compile(r"not proved|no proof: expected answers")
# Its proof wants that of another function, which has none.
WAITS = re.compile(r"\b(?:it calls|it passes|a call of) `")
# Of a file of proofs: it names what an edit took away, or what was not admitted. That is no goal.
NAMES = re.compile(r"has no field|is not in scope|has no `|was not admitted|were not admitted")
# Of a source: a goal of the function around the place that was not proved.
GOAL = re.compile(r"it is not proved that .*\(`\S+`\)")


class Place(NamedTuple):
    """Where a line of the prover's points, and what it says."""

    file: str
    line: int
    said: str


class Check:
    """The lines of a check: what is said of each function, by its path, and of each place."""

    def __init__(self, text):
        lines = text.rstrip("\n").split("\n")
        self.last = lines[-1]
        self.functions = {found[1]: found[2] for line in lines if (found := LINE.match(line))}
        self.places = [Place(found[1], int(found[2]), found[3]) for line in lines if (found := PLACE.match(line))]

    def refusal(self, function, path):
        """The first thing that is said of a goal of this function, which stands under that path; none where no goal of
        it was refused."""
        if not TRIED.match(self.functions.get(path, "")):
            return None
        folder = f"proofs/{'/'.join(path.split('::')[1:])}/"
        cycle = f"/+{function.cycle}/" if function.cycle else None
        for place in self.places:
            is_own = place.file.startswith(folder) or (cycle and cycle in place.file)
            if is_own and place.said.startswith("error: ") and not NAMES.search(place.said):
                return place
            if (
                place.file == function.file
                and function.begin < place.line <= function.last + 1
                and GOAL.match(place.said)
            ):
                return place
        return None

    def waits(self, path):
        """Whether a function has no proof for want of the proof of one that it calls."""
        return WAITS.search(self.functions.get(path, "")) is not None
