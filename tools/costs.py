#!/usr/bin/env python3
"""Measures what `rt ci` costs, crate by crate, and writes docs/costs.md.

    python3 tools/costs.py run SUMS -- rt ci --anew   runs the gate and measures it; the status is that of the gate
    python3 tools/costs.py watch SUMS [--pid PID]     measures a gate that runs already, until it ends or this does
    python3 tools/costs.py write SUMS..               puts what was measured into docs/costs.md
    python3 tools/costs.py selftest                   measures a gate that is made up, and writes a page of it

SUMS is a file that must not be there yet. It is written anew every ten seconds. `watch` without --pid waits for an
`rt ci` in the top folder of this repository, or in the one that --in DIR names; `rt ci NAME` works in a copy, and needs
--pid. It may begin in the middle of a run: what a check took before counts, and checks that had ended are not there.

The processes of the system are looked at twice a second. A check is a process `rattle check` or `rattle build` below
the gate, with all that it starts; the time of a process that ended counts as its parent's. What a check does behind the
last look is lost, a quarter of a second on average. At the end one line says how much the system counts for all that
the gate started, and how much of that is in the checks; links and the runs of tests and programs are not.

`write` takes a cell only where all of it was seen: a proof or tests to their end, and of edits at least as many checks
as the gate makes where it tries them all. Each other cell keeps what the page said. Of several files the last one
counts. `--page FILE` writes another page, `--over FILE` begins with the table of another one.
"""

import argparse
import collections
import datetime
import json
import os
import re
import signal
import subprocess
import sys
import tempfile
import time

TOP = os.path.dirname(os.path.dirname(os.path.abspath(__file__)))
PAGE = "docs/costs.md"
KINDS = ("Proof", "Tests", "Edits")
COLUMNS = (*KINDS, "Memory")
TICKS = os.sysconf("SC_CLK_TCK")
BETWEEN_LOOKS, BETWEEN_SAVES = 0.5, 10
# A process shows its own command line only some time after it was started. After these seconds it is what it will be.
YOUNG = 5

Process = collections.namedtuple("Process", "state parent started own children")


# What the system says of processes.

def read(path):
    """The text of a file, or nothing where it cannot be read."""
    try:
        with open(path, encoding="utf-8", errors="replace") as file:
            return file.read()
    except OSError:
        return ""


def process_of(pid):
    """A process: its state, its parent, when it began, and the seconds of itself and of its children that ended."""
    fields = read(f"/proc/{pid}/stat").rpartition(")")[2].split()
    if not fields:
        return None
    own, children = (sum(map(int, fields[first:first + 2])) / TICKS for first in (11, 13))
    return Process(fields[0], int(fields[1]), int(fields[19]), own, children)


def words_of(pid):
    return read(f"/proc/{pid}/cmdline").split("\0")[:-1]


def folder_of(pid):
    try:
        return os.readlink(f"/proc/{pid}/cwd")
    except OSError:
        return ""


def memory_of(pid):
    """What a process holds, and the most that it held, in bytes."""
    held = dict(re.findall(r"^(VmRSS|VmHWM):\s+(\d+) kB", read(f"/proc/{pid}/status"), re.M))
    return tuple(1024 * int(held.get(name, 0)) for name in ("VmRSS", "VmHWM"))


def processes():
    return {int(name) for name in os.listdir("/proc") if name.isdigit()}


def lineage(pid, top):
    """A process and those that it stems from, below top; none where it does not stem from top."""
    found = []
    while pid > 1 and pid != top:
        process = process_of(pid)
        if process is None:
            return []
        found.append(pid)
        pid = process.parent
    return found if pid == top else []


# What checks and gates look like.

def check_of(words, folder):
    """The crate and the kind of the check that a command line starts, or None. `Built` is what is made of a proof."""
    names = [os.path.basename(word) for word in words]
    words = words[names.index("rattle") + 1:] if "rattle" in names else []
    if words[:1] not in (["check"], ["build"]) or "--crate-name" not in words[:-1]:
        return None
    crate = words[words.index("--crate-name") + 1]
    if os.path.basename(folder).startswith("rt-edit-"):
        return crate, "Edits"
    return crate, "Tests" if "--test" in words else "Built" if "--crate-checked" in words else "Proof"


def is_gate(words):
    return any(os.path.basename(one) == "rt" and two == "ci" for one, two in zip(words, words[1:]))


def gate_in(folder):
    """The gate that runs in a folder, the innermost where one command starts another, or None."""
    found = {pid for pid in processes() if is_gate(words_of(pid)) and folder_of(pid) == folder}
    found -= {os.getpid()}
    outer = {process.parent for process in map(process_of, found) if process}
    return max(found - outer, default=None)


# Measuring.

class Check:
    """One check that the gate started: what it took so far, and whether it was seen to end."""

    def __init__(self, crate, kind):
        self.crate, self.kind, self.seconds, self.memory, self.ended = crate, kind, 0.0, 0, False
        self.own = {}

    def note(self, members):
        """Takes what its living processes count now. An ended one counts as its parent's, or as it was seen last."""
        self.own.update((pid, process.own) for pid, process in members)
        with_ended = sum(process.own + process.children for _, process in members)
        self.seconds = max(self.seconds, with_ended, sum(self.own.values()))
        held = [memory_of(pid) for pid, _ in members]
        self.memory = max(self.memory, sum(now for now, _ in held), *(most for _, most in held))

    def told(self):
        return {name: getattr(self, name) for name in ("crate", "kind", "seconds", "memory", "ended")}


class Seen:
    """A process that was looked at: since when, and the check that it belongs to."""

    def __init__(self, first, started):
        self.first, self.started, self.check = first, started, None


class Watch:
    """Looks at what a gate starts."""

    def __init__(self, gate):
        self.gate, self.date = gate, datetime.date.today().isoformat()
        self.started = getattr(process_of(gate), "started", None)
        self.seen, self.checks, self.status, self.spent = {}, {}, None, 0.0

    def look(self):
        """Looks at all processes once. Returns whether the gate still runs."""
        gate = process_of(self.gate)
        if gate is None or gate.started != self.started or gate.state == "Z":
            return False
        self.spent = gate.own + gate.children
        members = self.members(time.monotonic())
        for check in self.checks.values():
            if members[check]:
                check.note(members[check])
            check.ended = not members[check]
        return True

    def members(self, now):
        """The living processes of each check."""
        living, found = processes(), collections.defaultdict(list)
        self.seen = {pid: seen for pid, seen in self.seen.items() if pid in living}
        for pid in living:
            seen = self.seen.get(pid)
            if seen and not seen.check and now - seen.first > YOUNG:
                continue
            process = process_of(pid)
            if process is None:
                continue
            if seen is None or seen.started != process.started:
                seen = self.seen[pid] = Seen(now, process.started)
            seen.check = seen.check or self.check_with(pid)
            if seen.check:
                found[seen.check].append((pid, process))
        return found

    def check_with(self, pid):
        """The check that a process belongs to: that of the outermost process of its line which is one."""
        line = [(one, check_of(words_of(one), folder_of(one))) for one in lineage(pid, self.gate)]
        root, told = next((it for it in reversed(line) if it[1]), (None, None))
        process = process_of(root) if root else None
        if process is None:
            return None
        return self.checks.setdefault((root, process.started), Check(*told))

    def clock(self):
        """The seconds since the gate was started."""
        return float(read("/proc/uptime").split()[0]) - (self.started or 0) / TICKS

    def told(self):
        """What the file of the sums holds."""
        memory = int(re.search(r"MemTotal:\s+(\d+)", read("/proc/meminfo"))[1]) * 1024
        machine = {"processors": len(os.sched_getaffinity(0)), "memory": memory}
        run = {"date": self.date, "clock": self.clock(), "status": self.status, "spent": self.spent}
        return {**machine, **run, "checks": [check.told() for check in self.checks.values()]}

    def save(self, path):
        with open(f"{path}.new", "w", encoding="utf-8") as file:
            json.dump(self.told(), file, indent=0)
        os.replace(f"{path}.new", path)


def follow(watch, path):
    """Measures until the gate ends, and keeps the sums in a file, however this ends."""
    saved = 0.0
    try:
        while watch.look():
            if time.monotonic() - saved > BETWEEN_SAVES:
                watch.save(path)
                saved = time.monotonic()
            time.sleep(BETWEEN_LOOKS)
    finally:
        watch.save(path)


def account(watch):
    """How much of what the system counts was seen in checks."""
    seen = sum(check.seconds for check in watch.checks.values())
    ended = sum(check.ended for check in watch.checks.values())
    whole = f"{watch.spent / 60:.1f} for the gate and all that ended below it"
    told = f"{ended} of {len(watch.checks)} checks were seen to their end"
    return f"{told}. They took {seen / 60:.1f} processor-minutes; the system counts {whole}."


def stop_on_file(path):
    if os.path.exists(path):
        sys.exit(f"{path} is there already: name another file, or remove it")


def run_gate(path, command):
    """Starts a gate and measures it. Returns its status."""
    stop_on_file(path)
    child = subprocess.Popen(command)
    watch = Watch(child.pid)
    try:
        follow(watch, path)
    finally:
        watch.status = child.wait()
        watch.save(path)
        print(account(watch), file=sys.stderr)
    return watch.status


def watch_gate(path, pid, folder):
    """Measures a gate that was started by another command."""
    stop_on_file(path)
    while pid is None:
        pid = gate_in(os.path.realpath(folder))
        time.sleep(0 if pid else BETWEEN_LOOKS)
    found = Watch(pid)
    if found.started is None:
        sys.exit(f"there is no process {pid}")
    try:
        follow(found, path)
    finally:
        print(account(found), file=sys.stderr)


# What the repository says of its crates.

def crates_of(top):
    """The crates in the order of crates.txt, each with what it lists behind it."""
    rows = [line.partition("#")[0].partition(":") for line in read(f"{top}/crates.txt").split("\n")]
    return {name.strip(): rest.split() for name, colon, rest in rows if colon}


def edits_of(top, crate):
    folder = f"{top}/crates/{crate}/must-fail"
    return sorted(name for name in os.listdir(folder) if name.endswith(".edit")) if os.path.isdir(folder) else []


def has_tests(top, crate):
    files = [f"{at}/{name}" for at, _, names in os.walk(f"{top}/crates/{crate}/src") for name in names]
    return any(re.search(r"#\s*\[[^]]*\btest\b", read(file)) for file in files)


def kinds_of(top, crate):
    """The kinds of checks that a crate has."""
    return ["Proof"] + ["Tests"] * has_tests(top, crate) + ["Edits"] * bool(edits_of(top, crate))


# The page.

def read_table(text):
    """The rows of the first table of costs in a page: the cells of each crate, by their columns."""
    rows, head = {}, None
    for line in text.split("\n"):
        cells = [cell.strip().strip("`") for cell in line.strip().strip("|").split("|")] if line.startswith("|") else []
        if not head:
            head = cells if cells[:2] == ["Crate", "Proof"] else None
        elif not cells:
            break
        elif not cells[0].startswith("---"):
            rows[cells[0]] = dict(zip(head[1:], cells[1:]))
    rows.pop("all", None)
    return rows


def number(cell):
    """The figure of a cell, nothing where it has none."""
    return float(cell) if re.fullmatch(r"\d+(\.\d+)?", cell or "") else 0.0


def is_whole(kind, checks, edits):
    """Whether the checks of one kind are all that the gate makes: with several edits, two more than there are edits."""
    wanted = edits + 2 * (edits > 1) if kind == "Edits" else 1
    return len(checks) >= wanted and all(check["ended"] for check in checks)


def measured(top, sums):
    """The cells that one run measured whole, by crate."""
    of_kind = collections.defaultdict(list)
    for check in sums["checks"]:
        of_kind[check["crate"], check["kind"]].append(check)
    rows = {}
    for crate in crates_of(top):
        edits, found = len(edits_of(top, crate)), {kind: of_kind[crate, kind] for kind in KINDS}
        whole = {kind: checks for kind, checks in found.items() if is_whole(kind, checks, edits) and checks}
        if "Proof" in whole:
            whole["Proof"] = whole["Proof"] + of_kind[crate, "Built"]
        if whole:
            rows[crate] = {kind: sum(check["seconds"] for check in checks) / 60 for kind, checks in whole.items()}
            rows[crate]["Memory"] = max(check["memory"] for checks in whole.values() for check in checks) / 1e6
    return rows


def merged(top, old, runs):
    """The rows of the page: what the runs measured, and else what the page said."""
    rows = {}
    for crate in crates_of(top):
        kinds, cells = kinds_of(top, crate), old.get(crate, {})
        row = {kind: cells.get(kind) or "?" for kind in kinds}
        most = number(cells.get("Memory"))
        for new in (run[crate] for run in runs if crate in run):
            row.update((kind, f"{new[kind]:.1f}") for kind in kinds if kind in new)
            is_anew = all(kind in new for kind in kinds)
            most = new["Memory"] if is_anew else max(most, new["Memory"])
        rows[crate] = {**row, "Memory": f"{most:.0f}" if most else "?"}
    return rows


def lines_of_table(rows):
    total = {kind: f"{sum(number(row.get(kind)) for row in rows.values()):.1f}" for kind in KINDS}
    total["Memory"] = max((row["Memory"] for row in rows.values()), key=number, default="?")
    named = [*((f"`{crate}`", row) for crate, row in rows.items()), ("all", total)]
    lines = ["| " + " | ".join([name, *(row.get(column, "") for column in COLUMNS)]) + " |" for name, row in named]
    return ["| Crate | " + " | ".join(COLUMNS) + " |", "|---" * (1 + len(COLUMNS)) + "|", *lines]


def page_of(rows, sums, new):
    """The text of the page behind the run that was measured last."""
    others = ", and the other rows are of earlier ones" if len(rows) > len(new) else ""
    machine = f"{sums['processors']} processors and {sums['memory'] / 1e9:.0f} GB of memory"
    clock = f"{sums['clock'] / 60:.0f} minutes"
    said = [
        "`Proof`, `Tests` and `Edits` are minutes of processor time, summed over all processes of a check.",
        "`Proof` is the proof of a crate and what is built of it, `Tests` its proof together with its tests, and "
        "`Edits` all that its must-fail edits take.",
        "`Memory` is the most that one of these checks held, in millions of bytes; processes that share some of it "
        "count it each.",
        "An empty cell stands for what a crate does not have, a `?` for what was not measured.",
        f"It was measured on {sums['date']}, on a machine of {machine}, and the gate took {clock} on the clock.",
        f"The last run measured {len(new)} of {len(rows)} crates{others}.",
        "A check lacks a quarter of a second on average, since processes are looked at twice a second.",
        "`python3 tools/costs.py run sums.json -- rt ci --anew` measures all anew, and `python3 tools/costs.py write "
        "sums.json` writes this page.",
    ]
    return "\n".join(["# What the gate costs", "", " ".join(said), "", *lines_of_table(rows), ""])


def write_page(top, paths, page, over):
    """Writes the page, and says what was measured."""
    every = [json.loads(read(path) or sys.exit(f"{path} cannot be read")) for path in paths]
    runs = [measured(top, sums) for sums in every]
    rows = merged(top, read_table(read(f"{top}/{over or page}")), runs)
    new = set().union(*runs)
    with open(os.path.join(top, page), "w", encoding="utf-8") as file:
        file.write(page_of(rows, every[-1], new))
    parts = sum(len(row) - 1 for run in runs for row in run.values())
    print(f"{page}: {parts} cells of {len(new)} crates were measured")
    for path, sums in zip(paths, every):
        if sums["status"]:
            print(f"note: the run of {path} ended with status {sums['status']}")
    lacking = [crate for crate in rows if "?" in rows[crate].values()]
    if lacking:
        print(f"note: not measured, or not all: {' '.join(lacking)}")


# The tool on a gate that is made up.

FAKE_RATTLE = """
import os, sys, time
until = time.process_time() + 1.0
copy = os.fork() if "--jobs" in sys.argv else None
while time.process_time() < until:
    pass
if copy:
    os.waitpid(copy, 0)
"""
FAKE_GATE = """
import subprocess, sys, time
room = sys.argv[2]
for folder, *words in [
    [".", "build", "--crate-name", "low", "src/lib.rt", "--jobs", "2"],
    [".", "build", "--crate-name", "low", "src/lib.rt", "--test"],
    ["rt-edit-1", "check", "--crate-name", "low", "src/lib.rt"],
    [".", "fmt", "--crate-name", "low"],
    [".", "check", "--crate-name", "high", "src/main.rt"],
    [".", "build", "--crate-name", "high", "src/main.rt", "--crate-checked", "x"],
    ["rt-edit-2", "check", "--crate-name", "high", "src/lib.rt"],
]:
    subprocess.run([sys.executable, room + "/rattle", *words], cwd=room + "/" + folder)
time.sleep(1)
"""
FAKE_REPOSITORY = {
    "crates.txt": "# A row.\nlow: std\nhigh: low\nnew: low\n",
    "rattle": FAKE_RATTLE, "rt": FAKE_GATE, "rt-edit-1/x": "", "rt-edit-2/x": "",
    "crates/low/src/lib.rt": "#[cfg(test)]\nmod tests;\n", "crates/low/must-fail/a.edit": "",
    "crates/high/src/main.rt": "", "crates/high/must-fail/a.edit": "", "crates/high/must-fail/b.edit": "",
    "crates/new/src/lib.rt": "",
    PAGE: "| Crate | Proof | Tests | Edits |\n|---|---|---|---|\n| `high` | 9.0 | | 8.5 |\n| all | 9.0 | | 8.5 |\n",
}


def make_files(folder, texts):
    """Writes files into a folder, and the folders that they need."""
    for path, text in texts.items():
        os.makedirs(os.path.dirname(os.path.join(folder, path)), exist_ok=True)
        with open(os.path.join(folder, path), "w", encoding="utf-8") as file:
            file.write(text)


WANTED = {
    ("low", "Proof"): 2, ("low", "Tests"): 1, ("low", "Edits"): 1,
    ("high", "Proof"): 1, ("high", "Built"): 1, ("high", "Edits"): 1,
}


def faults_of_sums(sums):
    """What is wrong with the sums of the gate that is made up: a look may come 0.7 seconds before a check ends."""
    taken = {(check["crate"], check["kind"]): check["seconds"] for check in sums["checks"]}
    faults = [f"the checks: {sorted(taken)}"] * (taken.keys() != WANTED.keys())
    for key in WANTED.keys() & taken.keys():
        if not -0.7 * WANTED[key] < taken[key] - WANTED[key] < 0.3:
            faults.append(f"{key} took {taken[key]}")
    return faults + ["a check was not seen to end"] * (not all(check["ended"] for check in sums["checks"]))


def faults_of_page(rows):
    low, high, new = rows["low"], rows["high"], rows["new"]
    faults = [f"the row of low: {low}"] * (list(low) != list(COLUMNS) or "?" in low.values())
    faults += [f"the row of high: {high}"] * (number(high["Proof"]) > 1 or high["Edits"] != "8.5")
    return faults + [f"the row of new: {new}"] * (new != {"Proof": "?", "Tests": "", "Edits": "", "Memory": "?"})


def selftest():
    """Tries the tool. Returns whether something is wrong."""
    with tempfile.TemporaryDirectory() as room:
        make_files(room, FAKE_REPOSITORY)
        status = run_gate(f"{room}/sums", [sys.executable, f"{room}/rt", "ci", room])
        faults = [f"the gate ended with status {status}"] * (status != 0)
        faults += faults_of_sums(json.loads(read(f"{room}/sums")))
        write_page(room, [f"{room}/sums"], PAGE, None)
        faults += faults_of_page(read_table(read(f"{room}/{PAGE}")))
    print("\n".join(faults) or "all is well")
    return bool(faults)


def arguments(words):
    parser = argparse.ArgumentParser(description=__doc__, formatter_class=argparse.RawDescriptionHelpFormatter)
    parser.add_argument("command", choices=["run", "watch", "write", "selftest"])
    parser.add_argument("sums", nargs="*")
    parser.add_argument("--pid", type=int)
    parser.add_argument("--in", dest="folder", default=TOP)
    parser.add_argument("--page", default=PAGE)
    parser.add_argument("--over")
    found = parser.parse_args(words)
    if found.command != "selftest" and not found.sums or found.command in ("run", "watch") and len(found.sums) > 1:
        parser.error("name the file of the sums")
    return found


def stop_on_signal(*_):
    sys.exit(0)


def main(words):
    at = words.index("--") if "--" in words else len(words)
    given, command = arguments(words[:at]), words[at + 1:]
    if given.command == "selftest":
        return selftest()
    if given.command == "write":
        return write_page(TOP, given.sums, given.page, given.over)
    signal.signal(signal.SIGTERM, stop_on_signal)
    signal.signal(signal.SIGINT, stop_on_signal)
    if given.command == "watch":
        return watch_gate(given.sums[0], given.pid, given.folder)
    return run_gate(given.sums[0], command or ["rt", "ci"])


if __name__ == "__main__":
    sys.exit(main(sys.argv[1:]))
