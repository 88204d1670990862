"""What a release is made of: a commit without changes, the program that it proved, and the gate that it passed."""

import hashlib
import pathlib
import re
import subprocess

TOP = pathlib.Path(__file__).resolve().parent.parent
PROGRAM = TOP / "crates/langbench/out/langbench"
# git ignores each folder of this name
GATE = TOP / "out/gate.log"
PASSED = re.compile(r"[1-9][0-9]* passed, 0 failed")
HEAD = ("commit", "toolchain", "program")


class Refusal(Exception):
    """Why no release is made of a checkout."""


def why(fault):
    """What stands in the way, in one line. Where a disk is full no file is named."""
    said = getattr(fault, "strerror", None) or str(fault)
    return f"{fault.filename}: {said}" if getattr(fault, "filename", None) else said


def answer(*words, **how):
    """What a command prints, or why it did not run."""
    try:
        ran = subprocess.run(words, cwd=TOP, stdin=subprocess.DEVNULL, capture_output=True, check=False, **how)
    except OSError as fault:
        raise Refusal(f"{words[0]} does not start: {fault.strerror}") from fault
    if ran.returncode:
        said = ran.stderr.decode("utf-8", "replace").strip()
        raise Refusal(f"{' '.join(map(str, words))} failed: {said or f'status {ran.returncode}'}")
    return ran.stdout


def line_of(*words):
    """The one line that a command prints."""
    return answer(*words).decode("utf-8").strip()


def clean_commit():
    """The commit that is checked out, where no file differs from it and none stands beside it."""
    changes = line_of("git", "status", "--porcelain", "--untracked-files=all").splitlines()
    if changes:
        more = f", and {len(changes) - 1} more" if len(changes) > 1 else ""
        raise Refusal(f"the checkout has changes: {changes[0].split(maxsplit=1)[1]}{more}")
    return line_of("git", "rev-parse", "HEAD")


def toolchain():
    """The toolchain's own line on what it is."""
    return line_of("rt", "version")


def sum_of(data):
    """The SHA-256 of bytes, as sha256sum writes it."""
    return hashlib.sha256(data).hexdigest()


def sources():
    """What the program is proved and built from: the files that ./langbench looks at."""
    yield TOP / "crates.txt"
    for path in (TOP / "crates").rglob("*"):
        if "out" not in path.relative_to(TOP).parts and path.is_file():
            yield path


def program():
    """The program that the checkout proved."""
    if not PROGRAM.is_file():
        raise Refusal(f"there is no proved program: {PROGRAM.relative_to(TOP)} is absent, and release/gate makes it")
    built = PROGRAM.stat().st_mtime_ns
    known = set(answer("git", "ls-files", "-z").decode("utf-8", "surrogateescape").split("\0"))
    for path in sources():
        name = str(path.relative_to(TOP))
        if name not in known:
            raise Refusal(f"{name} is ignored by git, and no part of the commit, but the program may be made from it")
        if path.stat().st_mtime_ns > built:
            raise Refusal(f"the program is older than its sources: {name} has changed since")
    return PROGRAM.read_bytes()


def last_line(log):
    """The last line of a gate's log, which has to say that all passed."""
    lines = log.strip().splitlines()
    last = lines[-1] if lines else ""
    if not PASSED.fullmatch(last):
        raise Refusal(f"the gate did not pass: its last line is '{last}', and not 'N passed, 0 failed'")
    return last


def passed_gate(path, facts):
    """The last line of the gate that was kept at this path, where it is of these facts."""
    try:
        log = path.read_text(encoding="utf-8", errors="replace")
    except FileNotFoundError as fault:
        raise Refusal(f"no gate was kept: {path} is absent, and release/gate makes it") from fault
    last = last_line(log)
    for name, line in zip(HEAD, log.splitlines()):
        word, _, said = line.partition(" ")
        if word != name:
            raise Refusal(f"{path} does not say its {name}: a log is kept by release/gate")
        if said != facts[name]:
            raise Refusal(f"the gate passed with another {name}: {path} says {said}, and it is {facts[name]}")
    return last


def facts():
    """What a gate is of."""
    return {"commit": clean_commit(), "toolchain": toolchain(), "program": sum_of(program())}
