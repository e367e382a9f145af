"""Figures that were measured: rows in bench/results, a file for each day, and what is computed of them.

A row tells one figure: the day, the host and the kit of its run, and the table to which it belongs; then what was
measured: the array, how many keys it had, by which pattern, the call and the library. Its unit is one of time
(`ns`, `s`), of bytes (`bytes`, `MB`) or of work (`instructions`, `lines of 32 KiB`, `lines of 1 MiB`); or it is a
ratio to another library's figure (`of libjudy`). """

import csv
import datetime
import glob
import math
import os
import re
import shutil
import subprocess
import sys
import typing

import crates

RESULTS = f"{crates.TOP}/bench/results"
KINDS = ["judy1", "judyl", "judysl", "judyhs"]
# The pattern of a figure that is the geometric mean over all patterns.
MEAN = "mean"
CACHES = "/sys/devices/system/cpu/cpu0/cache/index{}/size"


class Row(typing.NamedTuple):
    """One figure, as a line of a file tells it."""

    date: str
    host: str
    kit: str
    table: str
    array: str
    keys: str
    pattern: str
    call: str
    library: str
    number: str
    unit: str

    def what(self):
        """What was measured: a later figure of the same takes this one's place."""
        return self.table, self.array, self.keys, self.pattern, self.call, self.library, self.unit


def unit_of(call):
    """The unit of what a measuring program tells of a call."""
    return "bytes" if call == "bytes" else "ns"


class Figures:
    """All figures of one array at one number of keys."""

    def __init__(self):
        self.numbers = {}
        self.ratios = {}

    def take(self, row):
        what = row.library, row.pattern, row.call
        if row.unit.startswith("of "):
            self.ratios[(*what, row.unit.removeprefix("of "))] = float(row.number)
        else:
            self.numbers[(*what, row.unit)] = float(row.number)

    def number(self, library, pattern, call, unit=None):
        return self.numbers.get((library, pattern, call, unit or unit_of(call)))

    def ratio(self, library, pattern, call, to="libjudy", unit=None):
        """A library's figure by another's; None where it wasn't measured."""
        if (library, pattern, call, to) in self.ratios:
            return self.ratios[library, pattern, call, to]
        ours, theirs = (self.number(each, pattern, call, unit) for each in (library, to))
        return ours / theirs if ours is not None and theirs else None

    def mean(self, library, call):
        """The geometric mean of a library's ratios to libJudy over the patterns."""
        if (library, MEAN, call, "libjudy") in self.ratios:
            return self.ratios[library, MEAN, call, "libjudy"]
        ratios = list(filter(None, (self.ratio(library, each, call) for each in self.patterns())))
        return math.exp(sum(map(math.log, ratios)) / len(ratios)) if ratios else None

    def libraries(self):
        return self.named(0)

    def patterns(self):
        return [it for it in self.named(1) if it != MEAN]

    def calls(self):
        return self.named(2)

    def named(self, at):
        """The libraries, patterns or calls, as they came."""
        return list(dict.fromkeys(what[at] for what in (*self.numbers, *self.ratios)))


def figures_of(rows):
    """The figures of each array at each number of keys, the arrays in the order of the manual pages."""
    told = {}
    for row in rows:
        told.setdefault((row.array, int(row.keys)), Figures()).take(row)
    return dict(sorted(told.items(), key=lambda it: (KINDS.index(it[0][0]), it[0][1])))


def host():
    """This machine in some words: its processor, how many cores it has, and its second and third caches."""
    with open("/proc/cpuinfo", encoding="utf-8") as file:
        names = re.findall(r"^model name\s*: (.*)$", file.read(), re.MULTILINE)
    told = [names[0] if names else "processor not told", f"{os.cpu_count()} cores"]
    for level in (2, 3):
        if os.path.exists(CACHES.format(level)):
            with open(CACHES.format(level), encoding="ascii") as file:
                told.append(f"L{level} {int(file.read().strip().removesuffix('K')) / 1024:.0f} MiB")
    return ", ".join(told)


def kit():
    """The kit that is at hand, which proves what is measured; without one the compiled text is."""
    if not shutil.which("rt"):
        return "none"
    return subprocess.run(["rt", "version"], stdout=subprocess.PIPE, encoding="utf-8", check=True).stdout.strip()


def rows_of(table, lines):
    """The rows of what a measuring program printed: lines of ARRAY LIBRARY PATTERN KEYS CALL NUMBER, and a unit
    where it isn't the call's own."""
    of_run = datetime.date.today().isoformat(), host(), kit()
    rows = []
    for line in lines:
        array, library, pattern, keys, call, number, *unit = line.split(maxsplit=6)
        told_in = unit[0].strip() if unit else unit_of(call)
        rows.append(Row(*of_run, table, array, keys, pattern, call, library, number, told_in))
    return rows


def without_csv(words):
    """The words of a command line without `--csv FILE`, and that file, to which figures are added; None where none
    is named."""
    if "--csv" not in words:
        return words, None
    at = words.index("--csv")
    if at + 1 == len(words):
        sys.exit("--csv wants a file")
    return words[:at] + words[at + 2 :], words[at + 1]


def read(path):
    """The rows of a file; none where it isn't there."""
    if not os.path.exists(path):
        return []
    with open(path, encoding="utf-8", newline="") as file:
        return [Row(**row) for row in csv.DictReader(file)]


def add(path, rows):
    """Adds rows to a file, each in the place of an earlier one of the same."""
    told = {row.what(): row for row in (*read(path), *rows)}
    with open(path, "w", encoding="utf-8", newline="") as file:
        lines = csv.writer(file, lineterminator="\n")
        lines.writerow(Row._fields)
        lines.writerows(told.values())


def newest():
    """The rows by their table: of each call on an array of so many keys those of the newest file that has any."""
    found = {}
    for path in sorted(glob.glob(f"{RESULTS}/*.csv")):
        of_file = {}
        for row in read(path):
            of_file.setdefault((row.table, row.array, row.keys, row.call), []).append(row)
        found |= of_file
    tables = {}
    for (table, *_), rows in found.items():
        tables.setdefault(table, []).extend(rows)
    return tables
