"""The tables that are made of figures, for the pages and for whoever measures. A goal is the most that a figure may
be; one above it is in bold."""

import figures

OPERATIONS = ["insert", "hit", "miss", "walk", "next", "rank", "select", "delete", "bulk", "bytes"]
# What the first page shows of them, and what it calls the arrays.
SUMMARY = {"insert": "insert", "hit": "look-up", "next": "next key", "rank": "rank", "bytes": "bytes"}
KINDS = {
    "judy1": "`Judy1`, a set of words",
    "judyl": "`JudyL`, words to words",
    "judysl": "`JudySL`, strings in order",
    "judyhs": "`JudyHS`, byte strings",
}
LIBRARIES = ["sellumaq", "relinked", "btreemap", "hashmap", "again"]
SMALL = {"insert": "made and freed", "hit": "look-up", "bytes": "bytes"}
SMALL_GOALS = {"insert": 1.0, "hit": 1.0}
EMPTIES = {"hit": "first", "next": "next", "rank": "last", "select": "prev"}
EMPTIES_GOAL = 1.0
# What is measured of sets, as what it is told.
SETS = {
    "rank": "count of both",
    "insert": "union",
    "hit": "intersection",
    "miss": "difference",
    "next": "symmetric",
    "delete": "range out",
    "select": "split off",
    "walk": "copy",
    "copy": "map's copy",
    "bulk": "of a list",
}
KEPT = {"put-in": "all put in", "few-left": "1 in 100 left", "copied": "those copied"}
ONE_HASH = ["insert", "hit", "miss", "delete"]

WORDS_GOAL = {
    "insert": 1.25,
    "hit": 1.0,
    "miss": 1.0,
    "walk": 1.2,
    "next": 1.05,
    "rank": 0.4,
    "select": 0.4,
    "delete": 1.1,
    "bulk": 0.35,
}
WORDS_MEAN = {"insert": 1.0, "walk": 0.9}
STRING_OPERATIONS = ["insert", "hit", "miss", "walk", "next", "delete"]

# The greatest ratio that each pattern of a kind may have.
GOALS = {
    "judy1": WORDS_GOAL | {"hit": 1.3, "miss": 1.3},
    "judyl": WORDS_GOAL | {"bytes": 1.1},
    "judysl": {it: 1.15 for it in STRING_OPERATIONS} | {"bulk": 0.35, "bytes": 0.8},
    "judyhs": {"insert": 1.1, "hit": 1.1, "miss": 1.1, "delete": 1.1, "bytes": 1.1},
}
# Keys 16 apart stand in leaves of 16 by the rule of nodes here, where libJudy has bitmaps.
PATTERN_GOALS = {("judy1", "multiples-of-16"): {"hit": 1.8, "next": 2.4, "rank": 0.65, "select": 0.65}}
# The greatest geometric mean over the patterns, where it is less than each pattern's, and where it is another one
# at so many keys.
MEAN_GOALS = {
    "judy1": WORDS_MEAN,
    "judyl": WORDS_MEAN,
    "judysl": {it: 0.85 for it in STRING_OPERATIONS},
    ("judysl", 100000): {it: 1.15 for it in STRING_OPERATIONS},
    ("judysl", 1000000): {it: 1.0 for it in STRING_OPERATIONS},
    "judyhs": {"insert": 1.0, "hit": 0.95, "miss": 0.6, "delete": 0.8, "bytes": 0.95},
    ("judyhs", 1000000): {"miss": 0.75},
}
# The greatest ratio to libJudy of a program that is linked anew: of an operation in the mean of its patterns, and
# in each.
RELINKED_MEANS = dict.fromkeys(OPERATIONS[:-1], 1.05)
RELINKED_GOALS = dict.fromkeys(OPERATIONS[:-1], 1.25)
# Calls that do more at once: what of them is measured, as what it is told, and the greatest part that it may take
# of the time of our own calls of one key. Where a part of libJudy's time is the goal it stands in the second table.
WAYS = {
    "insert": "insert",
    "delete": "remove",
    "hit": "get_many",
    "miss": "get_many, absent",
    "walk": "walk",
    "bulk": "from_sorted",
}
WAYS_GOAL = {"insert": 1.05, "delete": 1.05}
WAYS_PATTERN_GOAL = {(1000000, "random-64", "hit"): 0.7}
WAYS_OF_LIBJUDY = {"bulk": 0.35}
# Of a walk over strings by pages, the greatest part of libJudy's time.
PAGES_GOAL = 0.5
# Counts of strings: the operations, and the greatest time of a count, in nanoseconds and by the time of our own
# look-up.
COUNTS = {"insert": "insert", "hit": "look-up", "rank": "count", "select": "by_count"}
COUNTED = ("rank", "select")
COUNTS_GOAL = 5000.0
# Of sparse sets, of words of a list and of URLs of few hosts: the greatest ratio in each pattern; of sparse sets with
# fewer keys another one.
SPARSE_GOAL = dict.fromkeys(("insert", "hit", "next", "delete"), 1.1) | {"bytes": 1.5}
SPARSE_FEW, SPARSE_FEW_GOAL = 100000, 1.3
TEXTS_GOAL = dict.fromkeys(("hit", "miss", "walk", "next", "delete"), 1.0) | {"insert": 1.15, "bytes": 0.9}
FAR_GOAL = 1.0
# Of single calls: what is told of each.
LATENCY = [f"{call}-{what}" for call in ("insert", "hit", "next", "delete") for what in ("99.9%", "most")]
COUNTS_LOOK_UPS = 10
# The greatest ratio of all operations together on keys of one hash to those on keys of different ones.
ONE_HASH_GOAL = 4.0
# The most that a script may take of the time of the program over libJudy, and one over byte strings of that over
# HashMap; that a load of words may take of a sorted vector's time; and that a script of keys of one hash may take
# of one of others.
LIBJUDY_GOAL = 1.0
HASHMAP_GOAL = 1.1
LOAD_GOAL = 2.0
CHOSEN_GOAL = 4.0
# The most that a call may take of the time of std's in Rust, if it is a step of a walk, and of sortedcontainers' in
# Python.
RUST_GOAL = 10.0
RUST_WALKS = ("iterate", "iterate-back", "iter_mut")
# What is told of Rust's calls on many keys.
RUST_WHOLES = {
    "iterate": "`iter`",
    "iterate-back": "`iter().rev()`",
    "values": "`values`",
    "iter_mut": "`iter_mut`",
    "into_iter": "`into_iter`",
    "range": "`range`, five keys",
    "collect": "`collect`",
    "extend": "`extend` of an empty one",
    "clone": "`clone`",
    "append": "`append`",
    "retain": "`retain`, two of three stay",
    "retain-few": "`retain`, few stay",
    "pop_first": "`pop_first`",
    "pop_last": "`pop_last`",
}
PYTHON_GOAL = 1.0
PYTHON_WALKS = dict.fromkeys(("walk", "items", "values", "back", "slice", "slice-back"), 2.0)
# The tables in which each figure of ours has one of libJudy's beside it.
BESIDE_LIBJUDY = ["arrays", "dictionary", "small", "empties", "scripts"]
# In what the work of a call is told.
UNITS = ["instructions", "lines of 32 KiB", "lines of 1 MiB", "wrong branches"]
NAMES = {
    "sellumaq": "Sellumaq",
    "relinked": "by HP's names",
    "hashmap": "HashMap",
    "btreemap": "BTreeMap",
    "skip-list": "skip list",
    "croaring": "CRoaring",
}


def name_of(array, library):
    """A library's type for an array, as the tables name it."""
    return "BTreeSet" if (array, library) == ("judy1", "btreemap") else NAMES.get(library, library)


def std_of(array):
    return "hashmap" if array == "judyhs" else "btreemap"


def goal_of(array, pattern, operation):
    """The ratio that a pattern's may not be above, or None."""
    return PATTERN_GOALS.get((array, pattern), {}).get(operation, GOALS[array].get(operation))


class Table:
    """The lines of a table, and how many of its figures have a goal and how many miss theirs."""

    def __init__(self, *heads):
        self.rows = [heads]
        self.judged = self.missed = 0

    def row(self, *cells):
        told = [it if isinstance(it, str) else "" if it is None else f"{it:.2f}" for it in cells]
        self.rows.append(told + [""] * (len(self.rows[0]) - len(told)))

    def judge(self, figure, goal, places=2):
        """A figure's cell. It is judged as it is shown, with so many places."""
        if figure is None:
            return None
        missed = goal is not None and round(figure, places) > round(goal, places)
        self.judged += goal is not None
        self.missed += missed
        shown = f"{figure:,.{places}f}"
        return f"**{shown}**" if missed else shown

    def plain(self):
        """The table alone, without the columns in which no row has a cell."""
        told = [at for at in range(len(self.rows[0])) if any(row[at] for row in self.rows[1:])]
        lines = ["| " + " | ".join(row[at] for at in told) + " |" for row in self.rows]
        return "\n".join([lines[0], "|---" * len(told) + "|", *lines[1:]])

    def text(self):
        """The table, and how many of its figures miss their goals."""
        missed = f"\n\n{self.missed} of {self.judged} figures with a goal miss it." if self.judged else ""
        return self.plain() + missed


def keys_told(keys):
    return f"{keys:,}"


def by_keys(told):
    """What was measured, by the number of keys."""
    for keys in sorted({keys for _, keys in told}):
        yield keys, {of: each for of, each in told.items() if of[1] == keys}


def means(told):
    """The geometric means over the patterns, of each library, below the goals."""
    table = Table("array", "keys", "library", *OPERATIONS)
    for (array, keys), each in told.items():
        goals = GOALS[array] | MEAN_GOALS.get(array, {}) | MEAN_GOALS.get((array, keys), {})
        table.row(array, keys_told(keys), "goal", *map(goals.get, OPERATIONS))
        for library in LIBRARIES:
            found = [each.mean(library, it) for it in OPERATIONS]
            if library == "sellumaq":
                found = [table.judge(it, goals.get(operation)) for it, operation in zip(found, OPERATIONS)]
            if library == "relinked":
                found = [table.judge(it, RELINKED_MEANS.get(operation)) for it, operation in zip(found, OPERATIONS)]
            if any(found):
                table.row(array, keys_told(keys), name_of(array, library), *found)
    return table.text()


def short_means(told):
    """The means of Sellumaq, of HP's names and of std's maps, without goals; what is above libJudy's is in bold."""
    table = Table("array", "library", *OPERATIONS)
    for (array, _), each in told.items():
        for library in ("sellumaq", "relinked", std_of(array)):
            level = None if library == std_of(array) else 1.0
            found = [table.judge(each.mean(library, it), level) for it in OPERATIONS]
            if all(found[:2]):
                table.row(array, name_of(array, library), *found)
    return table.plain()


def summary(told):
    """Some of these means, by the words of the first page."""
    table = Table("array", *SUMMARY.values())
    for (array, _), each in told.items():
        std = std_of(array)
        for library, name in (
            ("sellumaq", KINDS[array]),
            ("relinked", "by HP's names"),
            (std, f"Rust's {name_of(array, std)}"),
        ):
            table.row(name, *(each.mean(library, it) for it in SUMMARY))
    return table.plain()


def slower(tables):
    """All figures of ours that are above libJudy's, the farthest first."""
    found = []
    for name in BESIDE_LIBJUDY:
        for (array, keys), each in figures.figures_of(tables.get(name, [])).items():
            ours, unit = ("judystore", "s") if name == "scripts" else ("sellumaq", None)
            for pattern in each.patterns() or [figures.MEAN]:
                for call in each.calls():
                    ratio = each.ratio(ours, pattern, call, "libjudy", unit)
                    found += [(ratio, name, array, keys, pattern, call)] if ratio and round(ratio, 2) > 1 else []
    table = Table("of", "array", "keys", "pattern", "call", "by libJudy's")
    for ratio, name, array, keys, pattern, call in sorted(found, reverse=True):
        table.row(name, array, keys_told(keys), pattern, call, f"{ratio:.2f}")
    return table.plain()


def by_pattern(told):
    """Sellumaq's ratios by pattern, below their goals, and beside them the bytes of std's maps."""
    table = Table("array", "pattern", *OPERATIONS, "std's bytes")
    for (array, _), each in told.items():
        table.row(array, "goal", *map(GOALS[array].get, OPERATIONS))
        for (of, pattern), goals in PATTERN_GOALS.items():
            if of == array:
                table.row(array, f"goal, {pattern}", *map(goals.get, OPERATIONS))
        for pattern in each.patterns():
            found = [(each.ratio("sellumaq", pattern, it), goal_of(array, pattern, it)) for it in OPERATIONS]
            table.row(array, pattern, *(table.judge(*it) for it in found), each.ratio(std_of(array), pattern, "bytes"))
    return table.text()


def relinked(told):
    """The ratios by pattern of HP's names, as a program calls them that is linked anew; none where they weren't
    measured."""
    table = Table("array", "pattern", *OPERATIONS)
    for (array, _), each in told.items():
        for pattern in each.patterns():
            found = [(each.ratio("relinked", pattern, it), RELINKED_GOALS.get(it)) for it in OPERATIONS]
            if any(ratio for ratio, _ in found):
                table.row(array, pattern, *(table.judge(*it) for it in found))
    return table.text() if table.judged else None


def arrays(told):
    """The means, and then all patterns."""
    parts = ["Geometric means of the patterns:", means(told)]
    for keys, some in by_keys(told):
        parts += [f"By pattern, {keys:,} keys, Sellumaq alone:", by_pattern(some)]
        named = relinked(some)
        parts += [f"By pattern, {keys:,} keys, HP's names:", named] if named else []
    return "\n\n".join(parts)


def small(told):
    """Small arrays, each library beside libJudy."""
    table = Table("array", "keys", "library", *SMALL.values())
    for (array, keys), each in told.items():
        for library in LIBRARIES:
            found = [each.mean(library, it) for it in SMALL]
            if library == "sellumaq":
                found = [table.judge(it, SMALL_GOALS.get(operation)) for it, operation in zip(found, SMALL)]
            if any(found):
                table.row(array, keys_told(keys), name_of(array, library), *found)
    return table.text()


def beside(told, goal_of_call):
    """Ratios to libJudy of each pattern, of our own names and HP's, and what libJudy measured once more has."""
    table = Table("array", "keys", "pattern", "library", *OPERATIONS)
    for (array, keys), each in told.items():
        for pattern in each.patterns():
            for library in ("sellumaq", "relinked", "again"):
                goals = goal_of_call(keys) if library == "sellumaq" else {}
                found = [table.judge(each.ratio(library, pattern, it), goals.get(it)) for it in OPERATIONS]
                if any(found):
                    table.row(array, keys_told(keys), pattern, name_of(array, library), *found)
    return table.text()


def sparse(told):
    """Sets of pointers, and of one word in so many."""

    def goal(keys):
        few = dict.fromkeys(SPARSE_GOAL.keys() - {"bytes"}, SPARSE_FEW_GOAL) if keys < SPARSE_FEW else {}
        return SPARSE_GOAL | few

    return beside(told, goal)


def texts(told):
    """Strings that nobody made up, or that are more like those."""
    return beside(told, lambda _: TEXTS_GOAL)


def far(told):
    """Look-ups in large arrays."""
    return beside(told, lambda _: dict.fromkeys(("hit", "miss", "next"), FAR_GOAL))


def latency(told):
    """The nanoseconds of single calls: what 999 of 1,000 take at most, and the longest."""
    table = Table("array", "keys", "pattern", "library", *LATENCY)
    for (array, keys), each in told.items():
        for pattern in each.patterns():
            for library in each.libraries():
                found = [table.judge(each.number(library, pattern, it), None, 0) for it in LATENCY]
                table.row(array, keys_told(keys), pattern, name_of(array, library), *found)
    return table.text()


def ways_by(told, to, goal_of_way):
    """Calls that do more at once, as parts of the time of others."""
    table = Table("array", "keys", "pattern", *WAYS.values())
    for (array, keys), each in told.items():
        for pattern in each.patterns():
            found = [(each.ratio("at-once", pattern, it, to), goal_of_way(keys, pattern, it)) for it in WAYS]
            table.row(array, keys_told(keys), pattern, *(table.judge(*it) for it in found))
    return table.text()


def ways(told):
    """The same as parts of the time of our own calls of one key, and of libJudy's."""

    def own_goal(keys, pattern, it):
        return WAYS_PATTERN_GOAL.get((keys, pattern, it), WAYS_GOAL.get(it))

    own = ways_by(told, "by-key", own_goal)
    others = ways_by(told, "libjudy", lambda keys, pattern, it: WAYS_OF_LIBJUDY.get(it))
    return f"As parts of the time of our own calls of one key:\n\n{own}\n\nAs parts of libJudy's time:\n\n{others}"


def empties(told):
    """Searches for words that are no keys, each library beside libJudy."""
    table = Table("array", "keys", "library", *EMPTIES.values())
    for (array, keys), each in told.items():
        for library in ("sellumaq", "again"):
            goal = EMPTIES_GOAL if library == "sellumaq" else None
            found = [table.judge(each.mean(library, it), goal) for it in EMPTIES]
            if any(found):
                table.row(array, keys_told(keys), name_of(array, library), *found)
    return table.text()


def sets(told):
    """The nanoseconds by the key of a set of what two sets have together, and of parts of one, of each library."""
    table = Table("pattern", "keys", "library", *SETS.values())
    for (array, keys), each in told.items():
        for pattern in each.patterns():
            for library in each.libraries():
                found = [table.judge(each.number(library, pattern, it), None) for it in SETS]
                table.row(pattern, keys_told(keys), name_of(array, library), *found)
    return table.text()


def pages(told):
    """Walks over strings by pages: nanoseconds a key, and what part that is of libJudy's walk and of our own by the
    next key."""
    table = Table("pattern", "keys", "by pages, ns", "of libJudy's", "of our own by key", "again")
    for (_, keys), each in told.items():
        for pattern in each.patterns():
            parts = [each.ratio("at-once", pattern, "walk", to) for to in ("libjudy", "by-key")]
            time = table.judge(each.number("at-once", pattern, "walk"), None, 0)
            again = each.ratio("again", pattern, "walk")
            table.row(pattern, keys_told(keys), time, table.judge(parts[0], PAGES_GOAL), parts[1], again)
    return table.text()


def one_hash(told):
    """The nanoseconds of a call on keys of different hashes and of one hash, and their ratio. The goal is one of
    all calls together."""
    table = Table("keys", "call", "different hashes", "one hash", "ratio", "goal")
    for (_, keys), each in told.items():
        calls = (*ONE_HASH, "bytes")
        both = {it: [each.number("sellumaq", pattern, it) for pattern in ("different", "one-hash")] for it in calls}
        if all(all(both[it]) for it in ONE_HASH):
            both["together"] = [sum(both[it][at] for it in ONE_HASH) for at in (0, 1)]
        for call in (*calls, "together"):
            plain, same = both.get(call, (None, None))
            ratio = same / plain if plain and same else each.ratio("sellumaq", "one-hash", call, "different")
            goal = ONE_HASH_GOAL if call == "together" else None
            cells = [table.judge(plain, None, 0), table.judge(same, None, 0), table.judge(ratio, goal), goal]
            table.row(keys_told(keys), call, *cells)
    return table.text()


def kept(told):
    """The bytes by a key that is there: of all keys, of the few that are left of them, and of a copy of these."""
    table = Table("array", "keys", *KEPT.values())
    for (array, keys), each in told.items():
        found = [table.judge(each.number("sellumaq", step, "bytes"), None, 0) for step in KEPT]
        table.row(array, keys_told(keys), *found)
    return table.text()


def counts(told):
    """The nanoseconds of each call on maps of strings, of each library. A count is to take no longer than its goal,
    and than so many look-ups."""
    table = Table("pattern", "keys", "library", *COUNTS.values())
    for (array, keys), each in told.items():
        for pattern in each.patterns():
            goal = min(COUNTS_GOAL, COUNTS_LOOK_UPS * each.number("sellumaq", pattern, "hit"))
            for library in each.libraries():
                goals = dict.fromkeys(COUNTED, goal) if library == "sellumaq" else {}
                found = [table.judge(each.number(library, pattern, it), goals.get(it), 0) for it in COUNTS]
                table.row(pattern, keys_told(keys), name_of(array, library), *found)
    return table.text()


def scripts(told):
    """The seconds of the program on scripts, and of the same over libJudy and over std's maps."""
    table = Table("array", "keys", "script", "judystore", "over libJudy", "ratio", "over std", "ratio")
    for (array, keys), each in told.items():
        goals = {"libjudy": LIBJUDY_GOAL, "std": HASHMAP_GOAL if array == "judyhs" else None}
        for pattern in each.patterns():
            size = each.number("script", pattern, "script", "MB")
            script = pattern.replace("-", " ") + (f", {size:.1f} MB" if size else "")
            cells = [seconds_of(each, "judystore", pattern, "script")]
            for library, goal in goals.items():
                ratio = each.ratio("judystore", pattern, "script", library, "s")
                cells += [seconds_of(each, library, pattern, "script"), table.judge(ratio, goal)]
            table.row(array, keys_told(keys), script, *cells)
    return table.text()


def seconds_of(each, library, pattern, call):
    """The cell of a program's time."""
    seconds = each.number(library, pattern, call, "s")
    return None if seconds is None else f"{seconds:.2f} s"


def loads(told):
    """The seconds of the program to load a dump and to write it again, beside what it takes to read it into one
    sorted vector."""
    table = Table("array", "keys", "dump", "load", "into a vector", "ratio", "dump again")
    for (array, keys), each in told.items():
        goal = LOAD_GOAL if array in ("judy1", "judyl") else None
        for pattern in each.patterns():
            size = each.number("dump", pattern, "load", "MB")
            times = [seconds_of(each, library, pattern, "load") for library in ("judystore", "vector")]
            ratio = each.ratio("judystore", pattern, "load", "vector", "s")
            again = seconds_of(each, "judystore", pattern, "dump")
            name = f"{keys:,}, {pattern.replace('-', ' ')}"
            table.row(array, name, f"{size:.0f} MB", *times, table.judge(ratio, goal, 1), again)
    return table.text()


def chosen(told):
    """The seconds of the program on keys of different hashes and of one hash."""
    table = Table("array", "keys", "different hashes", "one hash", "ratio")
    for (array, keys), each in told.items():
        plain, same = (each.number("judystore", pattern, "script", "s") for pattern in ("different", "one-hash"))
        ratio = same / plain if plain and same else each.ratio("judystore", "one-hash", "script", "different")
        times = [seconds_of(each, "judystore", pattern, "script") for pattern in ("different", "one-hash")]
        table.row(array, keys_told(keys), *times, table.judge(ratio, CHOSEN_GOAL, 1))
    return table.text()


def rust(told):
    """What calls of the Rust crate take beside std's on 10,000 keys; then the nanoseconds a key of each, and their ratio
    to std's: a table for the arrays of the same patterns and numbers of keys."""
    columns = {}
    for (array, keys), each in told.items():
        columns.setdefault(array, []).extend((keys, pattern) for pattern in each.patterns())
    tables = {}
    for array, of_array in columns.items():
        heads = (f"{keys:,} {pattern}" for keys, pattern in of_array)
        table = tables.setdefault(tuple(of_array), Table("array", "call", *heads))
        for call in told[array, of_array[0][0]].calls():
            goal = RUST_GOAL if call in RUST_WALKS else None
            table.row(
                array, call, *(rust_cell(table, told[array, keys], pattern, call, goal) for keys, pattern in of_array)
            )
    head = "By std's time, from the least to the most of the patterns, of 10,000 keys:"
    short = beside_std({of: each for of, each in told.items() if of[1] == 10000})
    return "\n\n".join([head, short, "Nanoseconds a key, and by std's:", *(table.text() for table in tables.values())])


def beside_std(told):
    """Of calls of the Rust crate on all keys the least and the greatest ratio to std's over the patterns."""
    names = (KINDS[array].partition(",")[0].replace("SL", "Sl").replace("HS", "Hs") for array, _ in told)
    table = Table("call", *names)
    measured = {call for each in told.values() for call in each.calls()}
    for call in filter(measured.__contains__, RUST_WHOLES):
        found = ([each.ratio("sellumaq", it, call, "std") for it in each.patterns()] for each in told.values())
        table.row(RUST_WHOLES[call], *(span_of(list(filter(None, ratios))) for ratios in found))
    return table.plain()


def span_of(ratios):
    """The least and the greatest of some ratios."""
    least, most = (f"{end:.{int(end < 10)}f}" for end in (min(ratios), max(ratios))) if ratios else ("", "")
    return f"{least} to {most}" if least != most else least


def rust_cell(table, each, pattern, call, goal):
    """The time of a call, and its ratio to std's."""
    time = table.judge(each.number("sellumaq", pattern, call), None, 0)
    ratio = table.judge(each.ratio("sellumaq", pattern, call, "std"), goal)
    return f"{time} ({ratio})" if time else None


def python(told):
    """The time of calls of the Python package by that of sortedcontainers' classes, and that of a set, a dict or a
    range."""
    table = Table("array", "keys", "pattern", "call", "Sellumaq", "set, dict", "range", "goal")
    for (array, keys), each in told.items():
        for pattern in each.patterns():
            for call in each.calls():
                goal = PYTHON_WALKS.get(call, PYTHON_GOAL)
                found = [each.ratio(it, pattern, call, "sortedcontainers") for it in ("sellumaq", "plain", "range")]
                table.row(array, keys_told(keys), pattern, call, table.judge(found[0], goal), *found[1:], goal)
    return table.text()


def work(told):
    """What calls take of instructions and lines of memory, ours and libJudy's in a cell."""
    calls = list(dict.fromkeys(call for each in told.values() for call in each.calls()))
    table = Table("array", "pattern", "keys", "of", *calls)
    for (array, keys), each in told.items():
        for pattern in each.patterns():
            for unit in UNITS:
                cells = [work_of(each, pattern, call, unit) for call in calls]
                if any(cells):
                    table.row(array, pattern, keys_told(keys), unit, *cells)
    return table.text()


def work_of(each, pattern, call, unit):
    """The cell of a call: what it takes, and what libJudy's does."""
    both = [each.number(library, pattern, call, unit) for library in ("sellumaq", "libjudy")]
    places = 0 if unit == "instructions" else 1
    return ", ".join(f"{it:,.{places}f}" for it in both if it is not None)


# Each table of figures, by its name, as it is told.
TABLES = {
    "small": small,
    "arrays": arrays,
    "dictionary": means,
    "ways": ways,
    "one_hash": one_hash,
    "kept": kept,
    "counts": counts,
    "shared": counts,
    "sparse": sparse,
    "word_list": texts,
    "skewed": texts,
    "latency": latency,
    "far": far,
    "pages": pages,
    "sets": sets,
    "empties": empties,
    "scripts": scripts,
    "loads": loads,
    "chosen": chosen,
    "rust": rust,
    "python": python,
}


def told_of(rows):
    """The table that these rows are of."""
    return TABLES[rows[0].table](figures.figures_of(rows))
