"""The crates of this repository, as crates.txt tells them: what stands on what, how much each is, and a proof of some
of them side by side."""

import concurrent.futures
import importlib.machinery
import importlib.util
import os
import subprocess
import time

TOP = os.path.normpath(os.path.join(os.path.dirname(os.path.abspath(__file__)), ".."))
LOGS = "out/proofs"
# What one proof of a crate takes at most, in bytes of memory: so many are begun side by side.
ROOM = 4 * 2**30


def read_needs():
    """What each crate stands on, of this repository."""
    stands_on = {}
    with open(f"{TOP}/crates.txt", encoding="utf-8") as lines:
        for line in lines:
            head, colon, rest = line.split("#")[0].partition(":")
            if colon:
                stands_on[head.split()[0]] = rest.split()
    return {name: [each for each in wanted if each in stands_on] for name, wanted in stands_on.items()}


def reached(begun, leads_to):
    """These crates, and all that they lead to, one after another."""
    found, waiting = set(), list(begun)
    while waiting:
        name = waiting.pop()
        if name not in found:
            found.add(name)
            waiting += leads_to[name]
    return found


def turned(stands_on):
    """What stands on each crate, where the other way round is given."""
    return {name: [each for each in stands_on if name in stands_on[each]] for name in stands_on}


def count_lines(name):
    """The lines of a crate's sources, specifications and proofs: about what its proof costs."""
    total = 0
    for folder, inside, files in os.walk(f"{TOP}/crates/{name}"):
        inside[:] = [each for each in inside if each != "out"]
        for file in files:
            if file.endswith((".rt", ".antt")):
                with open(os.path.join(folder, file), "rb") as text:
                    total += text.read().count(b"\n")
    return total


def count_jobs():
    """As many as there are processors, and as memory has room for."""
    memory = os.sysconf("SC_PAGE_SIZE") * os.sysconf("SC_PHYS_PAGES")
    return max(1, min(len(os.sched_getaffinity(0)), memory // ROOM))


def wait_for_room():
    """Waits until there is memory for one more proof, ten minutes at most."""
    for _ in range(600):
        with open("/proc/meminfo", encoding="utf-8") as told:
            free = next((int(line.split()[1]) * 1024 for line in told if line.startswith("MemAvailable:")), ROOM)
        if free >= ROOM:
            break
        time.sleep(1)


def load_rt():
    """The kit's command `rt`, as a module, by which must-fail edits are tried as the kit tries them; its `rtlib` is
    what it stands on."""
    kit = os.path.dirname(
        subprocess.run(["rt", "doc"], stdout=subprocess.PIPE, encoding="utf-8", check=True).stdout.strip()
    )
    loader = importlib.machinery.SourceFileLoader("rt", f"{kit}/bin/rt")
    rt = importlib.util.module_from_spec(importlib.util.spec_from_loader("rt", loader))
    loader.exec_module(rt)
    # Its first call sets a signal's handler, which only the main thread may.
    rt.rtlib.guarded()
    return rt


class Proof:
    """A proof of some crates and of all that they stand on: as many side by side as may be, those first on which the
    longest chain of others waits. A library is built as it is proved. It tells each crate that is done, and how much is
    left.

    One `rt check` keeps every other out of all crates below its own, so crates are proved side by side by the calls
    that it makes itself. Where it begins with what clones on the machine kept, and keeps for them, so does this."""

    def __init__(self, goals, jobs):
        stands_on = read_needs()
        self.left = reached(goals, stands_on)
        self.stands_on = {name: stands_on[name] for name in self.left}
        self.lines = {name: count_lines(name) for name in self.left}
        self.behind = self.chains()
        self.count, self.jobs, self.idle = len(self.left), jobs, jobs
        self.running, self.proved, self.failed = {}, set(), set()

    def chains(self):
        """The lines of the longest chain of crates that begins with each and goes up."""
        above, found = turned(self.stands_on), {}
        for name in sorted(self.left, key=lambda each: -len(reached([each], self.stands_on))):
            found[name] = self.lines[name] + max((found[each] for each in above[name]), default=0)
        return found

    def begin(self, pool, kit_crates):
        """Begins as many as may begin; the processors that are idle then are shared among these."""
        ready = [name for name in self.left if self.proved.issuperset(self.stands_on[name])]
        ready = sorted(ready, key=lambda each: -self.behind[each])[: self.idle]
        for at, name in enumerate(ready):
            jobs = max(1, self.idle // (len(ready) - at))
            self.left.remove(name)
            self.idle -= jobs
            self.running[pool.submit(prove, kit_crates[name], jobs)] = name, jobs, time.monotonic()

    def end(self):
        """Waits for one that ends, and tells it."""
        done = concurrent.futures.wait(self.running, return_when=concurrent.futures.FIRST_COMPLETED).done
        for each in done:
            name, jobs, began = self.running.pop(each)
            self.idle += jobs
            (self.failed if each.result() else self.proved).add(name)
            self.tell(name, time.monotonic() - began)

    def tell(self, name, seconds):
        """A line on a crate that was tried."""
        share = 100 * sum(self.lines[each] for each in self.proved) // max(1, sum(self.lines.values()))
        what = f"NOT PROVED: see {LOGS}/{name}.log" if name in self.failed else f"proved, {seconds:.0f} s"
        beside = ", ".join(sorted(name for name, _, _ in self.running.values()))
        print(
            f"{len(self.proved):2} of {self.count}, {share:3} %  {name:<15} {what}{beside and '; beside it ' + beside}",
            flush=True,
        )

    def go(self):
        """Proves all, or as many as can be before one fails. Answers whether none did."""
        os.makedirs(f"{TOP}/{LOGS}", exist_ok=True)
        rt = load_rt()
        if hasattr(rt, "share_work"):
            rt.share_work(is_alone=True)
        kit_crates = {crate.name: crate for crate in rt.rtlib.crates_below(TOP) if crate.name in self.left}
        held = rt.rtlib.lock(list(kit_crates.values()))
        with concurrent.futures.ThreadPoolExecutor(self.jobs) as pool:
            while self.running or (self.left and not self.failed):
                if not self.failed:
                    self.begin(pool, kit_crates)
                self.end()
        for each in held:
            os.close(each)
        return not self.failed


def prove(crate, jobs):
    """Proves a crate over what earlier proofs kept, and builds it where it is a library. The status is 0 where it is
    proved."""
    with open(f"{TOP}/{LOGS}/{crate.name}.log", "w", encoding="utf-8") as crate.out:
        os.makedirs(f"{crate.folder}/out", exist_ok=True)
        flags = ["--jobs", str(jobs)]
        is_library = not crate.is_program and not crate.is_static
        return crate.build_rlib(flags, anew=False) if is_library else crate.check(flags)
