#!/usr/bin/env python3
"""Tries what makes a release, or an archive that it made.

    python3 release/try.py              release/gate and release/build, on a copy of the commit that is checked out
    python3 release/try.py ARCHIVE      what is in an archive: its manifest, install, completions and all that pages show

The copy gets a gate that proves nothing, and another program in the place of langbench. Nothing of it stays. An archive is
unpacked in a folder of its own, where everything runs with an empty environment.

One line is printed for each try. The status is 1 where one has another end than it should.
"""

import os
import pathlib
import resource
import shutil
import subprocess
import sys
import tempfile

TOP = pathlib.Path(__file__).resolve().parent.parent
PROGRAM = "crates/langbench/out/langbench"
# a program that ends with status 2 where it is given no words, as langbench does
STAND_IN = shutil.which("grep")
GATE = """\
#!/bin/sh
mkdir -p crates/langbench/out && cp {program} crates/langbench/out/langbench && echo "{last}"
"""
# a file may have no more bytes than this where a disk is to be full
ROOM = 100_000

FAILED = []


def tell(good, what, said=""):
    """Prints a line on one try, and what was said where it ended otherwise."""
    print("ok     " if good else "FAILED ", what)
    if not good:
        FAILED.append(what)
        print(said)


def run(words, folder, env=None, room=None):
    """The status of a command, and all that it says."""
    limit = (lambda: resource.setrlimit(resource.RLIMIT_FSIZE, (room, room))) if room else None
    how = {"stdin": subprocess.DEVNULL, "stdout": subprocess.PIPE, "stderr": subprocess.STDOUT, "preexec_fn": limit}
    ran = subprocess.run(list(map(str, words)), cwd=folder, env=env, check=False, **how)
    return ran.returncode, ran.stdout.decode("utf-8", "replace")


def tells(what, ended, status, *parts):
    """Tries that a command ended with a status, and said all these parts."""
    tell(ended[0] == status and all(part in ended[1] for part in parts), what, f"status {ended[0]}\n{ended[1]}")


def snapshot(folder):
    """All that stands in a folder: names, modes, and bytes."""
    return {
        path.relative_to(folder): (path.lstat().st_mode, path.read_bytes() if path.is_file() else None)
        for path in pathlib.Path(folder).rglob("*")
    }


class Copy:
    """A copy of the commit, whose gate is what it is told to be."""

    def __init__(self, room):
        self.folder = pathlib.Path(room, "copy")
        run(["git", "clone", "--quiet", TOP, self.folder], room)

    def commit(self, path, text):
        (self.folder / path).write_text(text)
        run(["git", "add", path], self.folder)
        who = ["-c", "user.name=somebody", "-c", "user.email=somebody@example.org"]
        run(["git", *who, "commit", "--quiet", "--message", path], self.folder)

    def gate_says(self, last):
        self.commit(".ci/run", GATE.format(program=STAND_IN, last=last))
        return run(["release/gate"], self.folder)

    def gate_log(self, log):
        return run(["release/gate", log], self.folder)

    def build(self, *words, **how):
        return run(["release/build", *words], self.folder, **how)

    def with_touched(self, path):
        os.utime(self.folder / path)
        return self.build()


def try_refusals(copy):
    """What makes no release."""
    tells("no program is refused", copy.build(), 1, "no proved program")
    failing = copy.gate_says("3 passed, 1 failed")
    tells("a gate that fails is not kept", failing, 1, "the gate did not pass: its last line is '3 passed, 1 failed'")
    tells("a program that no gate left is refused", copy.build(), 1, "no gate was kept")
    tells("a gate that passes is kept", copy.gate_says("4 passed, 0 failed"), 0, "kept out/gate.log")
    page = copy.folder / "docs/commands.md"
    text = page.read_text(encoding="utf-8")
    page.write_text(text + "more", encoding="utf-8")
    tells("a changed file is refused", copy.build(), 1, "the checkout has changes: docs/commands.md")
    page.write_text(text, encoding="utf-8")
    beside = copy.folder / "examples/mine.txt"
    beside.write_text("mine")
    tells("a file that is not git's is refused", copy.build(), 1, "the checkout has changes: examples/mine.txt")
    beside.unlink()
    with open(copy.folder / ".git/info/exclude", "a", encoding="utf-8") as ignored:
        ignored.write("mine.rt\n")
    hidden = copy.folder / "crates/langbench/src/mine.rt"
    hidden.write_text("mine")
    tells("so is a source that git ignores", copy.build(), 1, "crates/langbench/src/mine.rt is ignored by git")
    hidden.unlink()
    tells("a source that is younger is refused", copy.with_touched("crates.txt"), 1, "sources: crates.txt")
    tells("a program that is younger is taken", copy.with_touched(PROGRAM), 0, "x86_64-linux.tar.gz")


def try_making(copy, room):
    """What a release is made of, and that it is made in one way."""
    ends = [copy.build("--to", f"{room}/{name}") for name in ("first", "second")]
    made = [snapshot(pathlib.Path(room, name)) for name in ("first", "second")]
    tell(not any(status for status, _ in ends) and made[0] == made[1], "made twice it has the same bytes", ends)
    full = copy.build("--to", f"{room}/full", room=ROOM)
    tell(full[0] == 1 and not snapshot(pathlib.Path(room, "full")), "where there is no room no half of it is left", full)
    nowhere = copy.build("--to", "/dev/null/release")
    tells("a folder that cannot be written is said", nowhere, 1, "release/build: ", "/dev/null/release")
    with open(copy.folder / PROGRAM, "ab") as program:
        program.write(b"\n")
    tells("a program that the gate did not leave is refused", copy.build(), 1, "passed with another program")
    shutil.copyfile(STAND_IN, copy.folder / PROGRAM)
    copy.commit("docs/another.md", "# Another page\n")
    tells("another commit is refused", copy.build(), 1, "passed with another commit")
    log = pathlib.Path(room, "log")
    log.write_text("4 passed, 0 failed\n")
    os.utime(copy.folder / PROGRAM)
    os.utime(log, (0, 0))
    tells("a log that is older than the program is refused", copy.gate_log(log), 1, "older than the program")
    os.utime(log)
    tells("a log that is younger is kept", copy.gate_log(log), 0, "kept out/gate.log")


def try_manifest(folder, prefix):
    """That one changed byte is found, by the manifest and by install."""
    check = ["sha256sum", "--check", "--quiet", "MANIFEST"]
    tells("each file is that of the manifest", run(check, folder, {}), 0)
    page = folder / "docs/commands.md"
    data = page.read_bytes()
    page.write_bytes(data[:-2] + b"x\n")
    tells("the manifest names a changed file", run(check, folder, {}), 1, "docs/commands.md: FAILED")
    installed = run(["./install", "--prefix", prefix], folder, {})
    tells("install names it too", installed, 1, "docs/commands.md: FAILED", "those of the release")
    tell(not prefix.exists(), "and writes nothing")
    page.write_bytes(data)


def try_install(folder, prefix):
    """That install writes what it says, changes nothing of others, and takes out what it wrote."""
    (prefix / "bin").mkdir(parents=True)
    (prefix / "bin/other").write_text("of somebody else")
    before = snapshot(prefix)
    install = ["./install", "--prefix", prefix]
    ended = run(install, folder, {})
    written = {line[len("wrote "):] for line in ended[1].splitlines() if line.startswith("wrote ")}
    found = {str(path) for path in prefix.rglob("*") if path.is_file()} - {f"{prefix}/bin/other"}
    tell(ended[0] == 0 and written == found, "install says each file that it writes", ended)
    again = snapshot(prefix)
    tell(run(install, folder, {})[0] == 0 and snapshot(prefix) == again, "a second time it leaves the same")
    tells("what it installed starts", run([prefix / "bin/langbench"], prefix, {}), 2)
    page = prefix / "share/doc/langbench/README.md"
    data = page.read_bytes()
    page.write_text("mine")
    tells("a changed file is in the way", run(install, folder, {}), 1, f"in the way: {page}")
    page.write_bytes(data)
    own = ["sh", prefix / "share/langbench/install", "--remove", "--prefix", prefix]
    tells("it goes without the archive", run(own, "/", {}), 0)
    tell(snapshot(prefix) == before, "and leaves what was there before")
    tells("there is nothing to take out then", run([*install, "--remove"], folder, {}), 1, "nothing is installed")


def try_bad_prefixes(folder, prefix):
    """Where install writes nothing."""
    prefix.mkdir()
    install = ["./install", "--prefix", prefix]
    tells("where there is no room nothing is installed", run(install, folder, {}, room=ROOM), 1, "nothing was installed")
    tell(not snapshot(prefix), "and nothing is left", snapshot(prefix))
    nowhere = ["./install", "--prefix", "/dev/null/here"]
    tells("a prefix that cannot be written is said", run(nowhere, folder, {}), 1, "cannot be written")
    tells("so is that there is no home", run(["./install"], folder, {}), 1, "HOME is not set")
    tells("other words are refused", run(["./install", "--unknown"], folder, {}), 2, "usage: install")
    (prefix / "bin").mkdir()
    (prefix / "bin/langbench").symlink_to("/nowhere")
    before = snapshot(prefix)
    tells("a link of somebody else is in the way", run(install, folder, {}), 1, f"in the way: {prefix}/bin/langbench")
    tell(snapshot(prefix) == before, "and stays")


def try_words(folder):
    """The manual page, and the completions by the shells that are here."""
    if shutil.which("man"):
        words = ["man", "--warnings", "-E", "UTF-8", "-l", "-Tutf8", "-Z", "langbench.1"]
        quiet = subprocess.run(words, cwd=folder, stdout=subprocess.DEVNULL, stderr=subprocess.PIPE, check=False).stderr
        tell(not quiet, "man has nothing to say of the manual page", quiet)
    script = "source completions/langbench.bash; COMP_WORDS=(langbench ''); COMP_CWORD=1; _langbench; echo ${COMPREPLY[@]}"
    if shutil.which("bash"):
        tells("bash completes the commands", run(["bash", "-c", script], folder, {}), 0, "check make serve")
    if shutil.which("zsh"):
        tells("zsh reads its completions", run(["zsh", "-n", "completions/_langbench"], folder, {}), 0)
    if shutil.which("fish"):
        words = ["fish", "--no-config", "-c", "source completions/langbench.fish; complete -C 'langbench '"]
        tells("fish completes the commands", run(words, folder), 0, "check", "make", "serve")


def try_archive(archive, room):
    """Tries what is in an archive."""
    run(["tar", "-xzf", os.path.abspath(archive)], room)
    folder, = pathlib.Path(room).iterdir()
    try_manifest(folder, pathlib.Path(room, "never"))
    try_install(folder, pathlib.Path(room, "prefix"))
    try_bad_prefixes(folder, pathlib.Path(room, "bad"))
    try_words(folder)
    ended = run([sys.executable, "examples/try.py", "./langbench"], folder, {})
    tells("the program does what the pages say", ended, 0)


def main():
    if len(sys.argv) > 2 or sys.argv[1:2] == ["--help"]:
        sys.exit(__doc__)
    with tempfile.TemporaryDirectory() as room:
        if sys.argv[1:]:
            try_archive(sys.argv[1], room)
        else:
            copy = Copy(room)
            try_refusals(copy)
            try_making(copy, room)
    print(f"{len(FAILED)} failed")
    sys.exit(1 if FAILED else 0)


main()
