"""Proves and builds langbench and the crates that it stands on, each over the libraries of those below it.

Each crate is proved from nothing by one `rattle build`, as the gate `rt ci` proves it. A library is written
with its statements alone, since whoever stands above needs none of its proofs: that takes a third of the
disk. `rt lib` is not used, since it locks each crate below, so that no two would be built side by side.

All that is made lies in crates/langbench/out/: the program, and in rlib/ for each crate NAME its library
NAME.rlib, what was said in NAME.log, and in NAME.stamp the sum of what it was made from, which is written
last. So an interrupted build goes on with the crates that have no such stamp.
"""

import fcntl
import functools
import hashlib
import os
import re
import resource
import shutil
import signal
import subprocess
import sys
import time

HERE = os.path.dirname(os.path.dirname(os.path.realpath(__file__)))
PROGRAM = "langbench"
OUT = f"{HERE}/crates/{PROGRAM}/out"
# rt lets a program's own folder of this name alone, and gives it back after its gate.
MADE = f"{OUT}/rlib"
PARTS = ("src", "specs", "proofs")
# What a line of code takes to prove, in minutes of a processor, where nothing better is known.
MINUTES_A_LINE = 0.003
# How many minutes of proofs count as much as the costs do in telling how fast this machine is.
MINUTES_OF_DOUBT = 5
# The memory for each processor, in bytes, that all crates at work together are held to.
MEMORY_A_PROCESSOR = 1_500_000_000
# The memory that is left to others.
MEMORY_LEFT = 500_000_000
# The control group's limits of memory, in its two versions, and what of it is held.
GROUPS = [
    ("/sys/fs/cgroup/memory.max", "/sys/fs/cgroup/memory.stat", r"(?m)^anon (\d+)"),
    ("/sys/fs/cgroup/memory/memory.limit_in_bytes", "/sys/fs/cgroup/memory/memory.stat", r"(?m)^total_rss (\d+)"),
]
# The same for processors: the file that begins with the quota, the file with the period, and where it stands there.
QUOTAS = [
    ("/sys/fs/cgroup/cpu.max", "/sys/fs/cgroup/cpu.max", r" (\d+)"),
    ("/sys/fs/cgroup/cpu/cpu.cfs_quota_us", "/sys/fs/cgroup/cpu/cpu.cfs_period_us", r"(\d+)"),
]


# The shell that called. Where it is gone, nobody waits for the program.
CALLER = os.getppid()


class Failed(Exception):
    """Why nothing can be built, and the file with what was said."""

    def __init__(self, why, log=None):
        super().__init__(why)
        self.log = log


def text_of(file):
    try:
        with open(file, encoding="utf-8", errors="replace") as it:
            return it.read()
    except OSError:
        return ""


def bytes_of(file):
    try:
        with open(file, "rb") as it:
            return it.read()
    except OSError:
        return b""


def sum_of(*parts):
    return hashlib.sha256(repr(parts).encode()).hexdigest()


def number_in(file, pattern):
    found = re.search(pattern, text_of(file))
    return int(found[1]) if found else None


# The toolchain


@functools.lru_cache(maxsize=None)
def kit():
    """Returns the toolchain's folder, by the command `rattle` or `rt`."""
    for command in ("rattle", "rt"):
        found = shutil.which(command)
        folder = os.path.dirname(os.path.dirname(os.path.realpath(found))) if found else ""
        if folder and os.path.isdir(f"{folder}/rlibs"):
            return folder
    raise Failed("neither rattle nor rt is on PATH: install the toolchain that README.md names")


@functools.lru_cache(maxsize=None)
def kit_sum():
    build = os.stat(f"{kit()}/bin/rattle")
    return sum_of(text_of(f"{kit()}/KIT-ID"), text_of(f"{kit()}/WHAT"), build.st_size, build.st_mtime_ns)


# The crates


class Crate:
    def __init__(self, name, uses, own_names):
        self.name = name
        self.uses = [it for it in uses if it in own_names]
        self.of_kit = ["std", *[it for it in uses if it not in own_names]]
        self.folder = f"{HERE}/crates/{name}"
        self.is_program = os.path.isfile(f"{self.folder}/src/main.rt")
        self.library, self.log = f"{MADE}/{name}.rlib", f"{MADE}/{name}.log"
        self.kept = f"{MADE}/{name}.kept"
        self.result = f"{OUT}/{name}" if self.is_program else f"{self.library}/format"
        self.below, self.above = [], []

    def files(self):
        for part in PARTS:
            for at, folders, names in os.walk(f"{self.folder}/{part}"):
                folders.sort()
                yield from (f"{at}/{it}" for it in sorted(names))

    def lines(self, ending):
        return sum(bytes_of(it).count(b"\n") for it in self.files() if it.endswith(ending))

    def stamp(self):
        """Returns a sum of all that the crate is made from: the libraries below count as they were built."""
        own = [(os.path.relpath(it, self.folder), bytes_of(it)) for it in self.files()]
        below = [(it.name, bytes_of(it.result)) for it in self.below]
        return sum_of(kit_sum(), self.name, self.uses, self.of_kit, own, below)

    def stamp_file(self):
        return f"{MADE}/{self.name}.stamp"

    def mark(self, stamp):
        with open(self.stamp_file(), "w", encoding="utf-8") as it:
            it.write(stamp + sum_of(bytes_of(self.result)))

    def is_built(self):
        return os.path.isfile(self.result) and text_of(self.stamp_file()) == self.stamp() + sum_of(bytes_of(self.result))


def crates_below(name):
    """Returns the crate and all that it stands on, by name, each after those that it uses."""
    rows = {}
    for row in text_of(f"{HERE}/crates.txt").split("\n"):
        head, colon, uses = row.partition("#")[0].partition(":")
        if colon and head.split():
            rows[head.split()[0]] = re.split(r"[\s,]+", uses.strip()) if uses.strip() else []
    found = {}

    def add(it, above):
        if it in above:
            raise Failed(f"crates.txt: {it} stands on itself")
        if it not in rows:
            raise Failed(f"crates.txt has no line for {it}")
        if it not in found:
            crate = Crate(it, rows[it], rows)
            for use in crate.uses:
                add(use, (*above, it))
            uses = [found[use] for use in crate.uses]
            crate.below = sorted({*uses, *(low for use in uses for low in use.below)}, key=lambda low: low.name)
            found[it] = crate

    add(name, ())
    for crate in found.values():
        for low in crate.below:
            low.above.append(crate)
    return found


# What each crate costs


def known_costs():
    """Returns the minutes of a processor that each proof took, of the crates that docs/costs.md has."""
    found = {}
    for row in text_of(f"{HERE}/docs/costs.md").split("\n"):
        cells = [it.strip().strip("`") for it in row.strip().strip("|").split("|")]
        if row.strip().startswith("|") and len(cells) >= 2:
            number = re.fullmatch(r"(\d+(?:\.\d+)?)(?:\s*min(?:utes)?)?", cells[1])
            if number:
                found[cells[0]] = float(number[1])
    return found


def estimate_costs(crates):
    """Gives each crate its cost in minutes. What the table lacks goes by the crate's lines, at the rate of the others."""
    known = known_costs()
    # Each line of code has something to prove, and few lines of specs and proofs do.
    lines = {it: it.lines(".rt") + it.lines(".antt") / 10 for it in crates}
    measured = [it for it in crates if it.name in known]
    rate = MINUTES_A_LINE
    if sum(lines[it] for it in measured):
        rate = sum(known[it.name] for it in measured) / sum(lines[it] for it in measured)
    for it in crates:
        it.cost = max(known.get(it.name, rate * lines[it]), 0.1)


def memory_of_kit(names):
    """Returns what the proofs of these libraries of the toolchain take on disk, in bytes. std is in every estimate."""
    files = [f"{kit()}/rlibs/{it}.rlib/toolchain/checked.a" for it in names if it != "std"]
    return sum(os.path.getsize(it) for it in files if os.path.isfile(it))


def estimate_memory(crates):
    """Gives each crate the memory that its proof is likely to take at most, in bytes."""
    code = {it: it.lines(".rt") for it in crates}
    for it in crates:
        own = 850_000_000 + 500_000 * code[it] + 60_000 * it.lines(".antt")
        below = {name for low in it.below for name in low.of_kit} - {*it.of_kit}
        # A library that the crate itself uses takes about five times its proofs, and of the others little is read.
        of_kit = 5 * memory_of_kit(it.of_kit) + memory_of_kit(below)
        it.memory = own + 20_000 * sum(code[low] for low in it.below) + min(of_kit, 2_000_000_000)


def estimate_chains(crates):
    """Gives each crate the cost of the longest chain of crates that begins with it."""
    for it in sorted(crates, key=lambda crate: -len(crate.below)):
        it.chain = it.cost + max((high.chain for high in it.above), default=0)


# The machine


def processors():
    found = len(os.sched_getaffinity(0))
    for file, of_period, pattern in QUOTAS:
        quota, period = number_in(file, r"^(\d+)"), number_in(of_period, pattern)
        if quota and period:
            found = min(found, max(quota // period, 1))
    return found


def memory_free():
    found = [1024 * (number_in("/proc/meminfo", r"MemAvailable:\s+(\d+)") or 1 << 33)]
    for limit, stat, pattern in GROUPS:
        limit, held = number_in(limit, r"^(\d+)"), number_in(stat, pattern)
        if limit and held is not None:
            found.append(limit - held)
    return min(found)


def memory_bound():
    """Returns the most that all crates at work may take together, in bytes."""
    found = [MEMORY_A_PROCESSOR * processors()]
    limit = resource.getrlimit(resource.RLIMIT_AS)[0]
    if limit != resource.RLIM_INFINITY:
        found.append(limit)
    return min(found)


def memory_of(process):
    """Returns what the process holds now and what it has held at most, in bytes."""
    said = f"/proc/{process.pid}/status"
    return [1024 * (number_in(said, rf"{it}:\s+(\d+)") or 0) for it in ("VmRSS", "VmHWM")]


# A crate at work


def words_for(crate, in_batches):
    """Returns the command that proves the crate and then builds it.

    In batches it takes less memory where that is short, and more disk and time: rattle then checks some
    functions at a time and keeps them, which it does for no library of statements."""
    words = [f"{kit()}/bin/rattle", "build", "--crate-name", crate.name]
    words += ["src/main.rt" if crate.is_program else "src/lib.rt"]
    for name in crate.of_kit:
        words += ["--extern", f"{name}={kit()}/rlibs/{name}.rlib"]
    for name in crate.uses:
        words += ["--extern", f"{name}={MADE}/{name}.rlib"]
    words += ["-L", f"dependency={kit()}/rlibs", "-L", f"dependency={MADE}"]
    words += ["--antt-project", f"{kit()}/rattle/logic/antt-project.json", "--logic-built", f"{kit()}/logic_built"]
    words += ["--links", f"{crate.name}=", "--jobs", "1"]
    words += ["--incremental", crate.kept] if in_batches else []
    if crate.is_program:
        return [*words, "--toolchain", f"{kit()}/toolchain", "--backend", "llvm", "-o", f"{MADE}/{crate.name}.o"]
    words += [] if in_batches else ["--statements"]
    return [*words, "-o", crate.library]


class Guard:
    """A shell that ends all commands of this build, once this process ends, in whatever way."""

    def __init__(self):
        ends, self.held = os.pipe()
        how = {"stdin": ends, "stdout": subprocess.DEVNULL, "stderr": subprocess.DEVNULL}
        self.shell = subprocess.Popen(["sh", "-c", "read line; kill -9 0"], preexec_fn=os.setpgrp, **how)
        os.close(ends)

    def start(self, words, log, folder, given=subprocess.DEVNULL):
        join = lambda: os.setpgid(0, self.shell.pid)
        return subprocess.Popen(words, cwd=folder, stdin=given, stdout=log, stderr=log, preexec_fn=join)

    def run(self, words, log, folder, given=subprocess.DEVNULL):
        return self.start(words, log, folder, given).wait()


class Work:
    """The run that proves and builds one crate."""

    def __init__(self, crate, guard, in_batches):
        self.crate, self.begun, self.stamp = crate, time.monotonic(), crate.stamp()
        self.holds = self.held_at_most = 0
        if os.path.exists(crate.stamp_file()):
            os.remove(crate.stamp_file())
        with open(crate.log, "wb") as log:
            self.process = guard.start(words_for(crate, in_batches), log, crate.folder)

    def minutes(self):
        return (time.monotonic() - self.begun) / 60

    def is_through(self):
        if self.process.poll() is not None:
            return True
        self.holds, most = memory_of(self.process)
        self.held_at_most = max(self.held_at_most, most)
        self.crate.memory = max(self.crate.memory, self.holds)
        return False

    def may_still_take(self):
        return max(self.crate.memory - self.holds, 0)

    def note(self):
        """Writes what the run took to the end of the log."""
        with open(self.crate.log, "a", encoding="utf-8") as log:
            most = self.held_at_most / 1e9
            print(f"langbench: {self.crate.name} took {self.minutes():.2f} min and {most:.2f} GB", file=log)


# The whole build


class Build:
    def __init__(self, crates):
        self.every, self.done, self.at_work, self.alone = crates, set(), [], set()
        self.lanes, self.bound, self.guard = processors(), memory_bound(), Guard()
        self.begun, self.told = time.monotonic(), 0.0
        self.cost_done, self.minutes_done = 0.0, 0.0

    def ready(self):
        """Returns the crates that can begin, the one that most waits for first. One whose library stands is done at once."""
        busy = {it.crate for it in self.at_work}
        while True:
            ready = [it for it in self.every if it not in self.done and it not in busy and self.done.issuperset(it.below)]
            built = [it for it in ready if it.is_built()]
            self.done.update(built)
            if not built:
                return sorted(ready, key=lambda it: -it.chain)

    def has_room_for(self, crate):
        if not self.at_work:
            return True
        if len(self.at_work) >= self.lanes or self.alone & {crate, *(it.crate for it in self.at_work)}:
            return False
        planned = crate.memory + sum(it.crate.memory for it in self.at_work)
        left = memory_free() - MEMORY_LEFT - sum(it.may_still_take() for it in self.at_work)
        return planned <= self.bound and crate.memory <= left

    def begin_what_can(self):
        for crate in self.ready():
            if self.has_room_for(crate):
                self.at_work.append(Work(crate, self.guard, crate in self.alone))

    def end(self, work):
        """Keeps what the run made if it proved the crate, and else stops the build."""
        crate, status = work.crate, work.process.returncode
        self.at_work.remove(work)
        work.note()
        if status not in (0, 1) and crate not in self.alone:
            # Most likely for memory: it goes once more, with nothing beside it.
            self.alone.add(crate)
            return
        shutil.rmtree(crate.kept, ignore_errors=True)
        if status:
            why = f"was ended by signal {-status}" if status < 0 else "was not proved"
            raise Failed(f"the crate {crate.name} {why}", crate.log)
        if not re.search(r"(?m)^logic=proved ", text_of(crate.log)):
            raise Failed(f"nothing says that the crate {crate.name} is proved", crate.log)
        if crate.is_program:
            self.link(crate)
        # A file that was changed meanwhile is in no known state in what was built, so that is built again.
        if crate.stamp() == work.stamp:
            crate.mark(work.stamp)
            self.done.add(crate)
            self.cost_done += crate.cost
            self.minutes_done += work.minutes()

    def link(self, crate):
        """Links the proved program, and puts it in its place once it has checked one document."""
        made, linked = f"{MADE}/{crate.name}.o", f"{MADE}/{crate.name}.linked"
        words = [f"{kit()}/bin/rattle-link", "--target", "x86_64-unknown-linux-gnu", "--toolchain", f"{kit()}/toolchain"]
        words += ["-o", linked, made, f"{kit()}/c/libos_c.a", f"{kit()}/c/liblibc_c.a"]
        hello = f"{HERE}/examples/hello/hello"
        with open(crate.log, "ab") as log, open(f"{hello}.txt", "rb") as text:
            if self.guard.run(words, log, crate.folder):
                raise Failed("the program is proved, but was not linked", crate.log)
            if self.guard.run([linked, "check", f"{hello}.langium"], log, crate.folder, text):
                raise Failed("the program is built, but does not run", crate.log)
        os.remove(made)
        os.replace(linked, crate.result)

    def minutes_left(self):
        """Returns how long the rest takes, if each crate begins as soon as it can and takes what it costs."""
        # What is done so far says how the machine compares with the one that the costs are of, and little says little.
        pace = (self.minutes_done + MINUTES_OF_DOUBT) / (self.cost_done + MINUTES_OF_DOUBT)
        ends = {it.crate: max(pace * it.crate.cost - it.minutes(), 0.1) for it in self.at_work}
        done, now = set(self.done), 0.0
        left = sorted((it for it in self.every if it not in done and it not in ends), key=lambda it: -it.chain)
        while left or ends:
            for crate in [it for it in left if done.issuperset(it.below)][: self.lanes - len(ends)]:
                left.remove(crate)
                ends[crate] = now + pace * crate.cost
            first = min(ends, key=ends.get)
            now = max(now, ends.pop(first))
            done.add(first)
        return now

    def tell(self):
        self.told = time.monotonic()
        names = " ".join(it.crate.name for it in self.at_work) or "none"
        left = max(round(self.minutes_left()), 1)
        say(f"{len(self.done)} of {len(self.every)} crates proved, {self.minutes_gone():.0f} min gone, about {left} min left; at work: {names}")

    def run(self):
        while len(self.done) < len(self.every):
            was = len(self.done), [it.crate for it in self.at_work]
            self.begin_what_can()
            is_new = was != (len(self.done), [it.crate for it in self.at_work])
            if self.at_work and (is_new or time.monotonic() - self.told >= (1 if sys.stderr.isatty() else 55)):
                self.tell()
            if self.at_work:
                self.wait()
        if self.told:
            say(f"{len(self.done)} of {len(self.every)} crates proved, {self.minutes_gone():.0f} min gone; the program is built")

    def minutes_gone(self):
        return (time.monotonic() - self.begun) / 60

    def wait(self):
        """Waits a little, and sees to the crates that are through."""
        time.sleep(0.2)
        stop_if_left()
        for work in [it for it in self.at_work if it.is_through()]:
            self.end(work)
        self.give_way()

    def give_way(self):
        """Ends the crate that began last where all take more memory than they may. It begins anew once there is room."""
        takes = sum(it.holds for it in self.at_work)
        if len(self.at_work) > 1 and (takes > self.bound or memory_free() < MEMORY_LEFT):
            last = self.at_work.pop()
            last.process.kill()
            last.process.wait()


# What is told


def say(text):
    """Tells one line, which is rewritten on a terminal."""
    if sys.stderr.isatty():
        width = shutil.get_terminal_size().columns - 1
        text = f"langbench: {text}"
        print(f"\r\033[K{text if len(text) <= width else text[: width - 2] + '..'}", end="", file=sys.stderr, flush=True)
    else:
        print(f"langbench: {text}", file=sys.stderr, flush=True)


def end_line():
    if sys.stderr.isatty():
        print(file=sys.stderr, flush=True)


def stop_if_left():
    if os.getppid() != CALLER:
        raise KeyboardInterrupt


def lock():
    """Waits until no other call, and no rt, works in the program's folder."""
    held, has_told = os.open(f"{HERE}/crates/{PROGRAM}", os.O_RDONLY), False
    while True:
        try:
            fcntl.flock(held, fcntl.LOCK_EX | fcntl.LOCK_NB)
            return held
        except BlockingIOError:
            if not has_told:
                say("another call works in the program's folder; waiting for it")
            has_told = True
            time.sleep(0.5)
            stop_if_left()
        except OSError:
            # Some file systems have no locks.
            return held


def time_of_files():
    """Returns the time by the file system's own clock, in nanoseconds."""
    file = f"{MADE}/begun"
    with open(file, "w", encoding="utf-8"):
        os.utime(file)
    return os.stat(file).st_mtime_ns


def build():
    os.makedirs(MADE, exist_ok=True)
    held = lock()
    begun = time_of_files()
    crates = crates_below(PROGRAM)
    every = [*crates.values()]
    estimate_costs(every)
    estimate_memory(every)
    estimate_chains(every)
    Build(every).run()
    # What changed since the build began is newer than the program, and so is seen at the next call.
    os.utime(crates[PROGRAM].result, ns=(begun, begun))
    os.close(held)


def interrupt(*_):
    raise KeyboardInterrupt


def main():
    for it in (signal.SIGTERM, signal.SIGHUP):
        signal.signal(it, interrupt)
    try:
        build()
    except KeyboardInterrupt:
        end_line()
        print("langbench: interrupted; the next call goes on from here", file=sys.stderr)
        return 130
    except Failed as failed:
        end_line()
        if failed.log:
            print(*text_of(failed.log).rstrip("\n").split("\n")[-20:], sep="\n", file=sys.stderr)
        print(f"langbench: {failed}" + (f"; all that was said is in {failed.log}" if failed.log else ""), file=sys.stderr)
        return 7
    end_line()
    return 0


if __name__ == "__main__":
    sys.exit(main())
