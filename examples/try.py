#!/usr/bin/env python3
"""Runs the commands that the pages show, and compares what each prints with the text behind it. Tries the words, too.

    python3 examples/try.py PROGRAM

PROGRAM is the path of langbench. Of README.md, docs/commands.md, docs/tutorial.md and the README of each example every
fenced block is read whose first line begins with `$ `. A line that begins so is a command, and the lines up to the next
one are what it prints, on standard output and standard error. Commands are run in the order of the page by `sh`, at the
top of the repository, with PROGRAM in place of `./langbench`. Each line of a command's output may end with `\\r\\n`, and
the last one with nothing. Where langbench prints something, a row of crates/lw_command_rows/stdin, which the gate
tries, has to have the words, the files that they name, what is read and what is printed. A release has no rows, and none
are asked.

Then words are tried that docs/commands.md speaks of. That page, the manual page and the completions have to have the words
that PROGRAM takes, and no others. Last, where the sources are, `tools/pages.py check` tells where pages and crates do not
agree.

One line is printed for each command and each of these. The status is 1 where one of them differs or has no row, where
there is none, or where something does not agree.
"""

import difflib
import json
import pathlib
import re
import shlex
import subprocess
import sys

TOP = pathlib.Path(__file__).resolve().parent.parent
PAGES = ["README.md", "docs/commands.md", "docs/tutorial.md"]
ROWS = "crates/lw_command_rows/stdin"
# The folder of the manual page and the completions, which a release has at its top. What is installed has them elsewhere.
SHARED = next((folder for folder in (TOP / "release", TOP) if (folder / "install").is_file()), None)
HELLO = "examples/hello/hello.langium"

# Words that docs/commands.md speaks of: the status, and the line that is printed, where it is not that on usage.
USAGE = re.search(r"^    (usage: .*)$", (TOP / "docs/commands.md").read_text(encoding="utf-8"), re.M)[1]
TRIED = [
    ([], 2, USAGE),
    (["--"], 2, USAGE),
    (["--help"], 2, USAGE),
    (["--version"], 2, USAGE),
    (["check"], 2, USAGE),
    (["check", "-"], 2, USAGE),
    (["check", "--unknown", HELLO], 2, USAGE),
    (["check", HELLO, "--lookahead"], 2, USAGE),
    (["check", HELLO, "--lookahead", "4"], 2, USAGE),
    (["check", "--lookahead=2", HELLO, "--lookahead", "2"], 2, USAGE),
    (["serve", HELLO, "hello.txt"], 2, USAGE),
    (["make", HELLO, "0"], 2, USAGE),
    (["check", HELLO], 0, "ok"),
    (["check", "--", HELLO], 0, "ok"),
    (["check", "--lookahead", "3", "--", HELLO], 0, "ok"),
    (["check", HELLO, "--lookahead=1"], 0, "ok"),
    (["check", "--", "--lookahead"], 6, "--lookahead: absent"),
    (["check", "--", "--"], 6, "--: absent"),
]

# Where the commands, the options and the numbers of kinds stand in the files that tell of them.
PAGE = (r"^    langbench ([\w-]+) +GRAMMAR", r"`--([\w-]+) K`", r"`K` is ([\d, or]+)")
TOLD = {
    "langbench.1": (r"^\.It Cm ([\w-]+)", r"Fl Fl ([\w-]+)", r"^\.Cm (\d.*) \.$"),
    "completions/langbench.bash": (r"commands='([^']+)'", r"options='--([^']+)'", r"depths='([^']+)'"),
    "completions/_langbench": (r"^ +'([a-z-]+):", r"--([\w-]+)=", r":kinds:\((.+?)\)"),
    "completions/langbench.fish": (r" -a ([\w-]+) -d", r"^complete .* -l ([\w-]+)", r" -a '([\d ]+)'"),
}


def commands(page):
    """The commands of a page: the number of the line, the command, and the lines behind it."""
    found = []
    fence, shows = None, False
    for number, line in enumerate(page.read_text(encoding="utf-8").splitlines(), 1):
        if fence is None:
            opening = re.match(r"```+", line)
            if opening:
                fence, shows = opening.group(), None
        elif line == fence:
            fence = None
        else:
            if shows is None:
                shows = line.startswith("$ ")
            if shows and line.startswith("$ "):
                found.append((number, line[2:], []))
            elif shows:
                found[-1][2].append(line)
    return found


def printed(command, program):
    """What a command prints."""
    words = command.replace("./langbench", shlex.quote(program))
    ran = subprocess.run(
        ["sh", "-c", words],
        cwd=TOP,
        stdin=subprocess.DEVNULL,
        stdout=subprocess.PIPE,
        stderr=subprocess.STDOUT,
        timeout=600,
        check=False,
    )
    return ran.stdout.decode("utf-8", "backslashreplace")


def lines_of(text):
    """The lines of what a command prints, as a page shows them."""
    text = text.replace("\r\n", "\n")
    return re.sub(r"\n\Z", "", text).split("\n") if text else []


def part_bytes(part):
    """The bytes of a part of a text, as the page of crates/lw_command_rows has them."""
    if isinstance(part, str):
        return part.encode()
    if isinstance(part, int):
        return bytes([part])
    if "frame" in part:
        body = part["frame"].encode()
        return b"Content-Length: %d\r\n\r\n%s" % (len(body), body)
    numbers = range(1, part["times"] + 1)
    text, behind = part["text"], part.get("numbered")
    return "".join(text if behind is None else f"{text}{number}{behind}" for number in numbers).encode()


def text_bytes(text):
    """The bytes of a text of a row."""
    return b"".join(map(part_bytes, [text] if isinstance(text, str) else text))


def shown_by(row, status):
    """What the command of a row prints, with its status behind it where that is asked for."""
    told = b"status %d\n" % row["status"] if status else b""
    return text_bytes(row.get("out", "")) + text_bytes(row.get("note", "")) + told


def has_row(command, text, rows):
    """Whether there is a row of a command of langbench that prints something."""
    if rows is None or not command.startswith("./langbench ") or not text:
        return True
    given = re.fullmatch(r'./langbench (.*?)(?: < (\S+?))?(; echo "status \$\?")?', command)
    if given is None:
        return False
    read = (TOP / given[2]).read_bytes() if given[2] else b""
    return any(
        row["words"] == shlex.split(given[1])
        and text_bytes(row.get("input", "")) == read
        and shown_by(row, given[3]) == text.encode()
        and all((TOP / path).read_bytes() == text_bytes(held) for path, held in row["files"].items())
        for row in rows
    )


def told(good, what, lines=()):
    """Prints a line on one thing that was tried, and those that say why it is not good, and gives whether it is."""
    print("ok     " if good else "DIFFERS", what)
    for line in () if good else lines:
        print("       ", line)
    return good


def said(program, words):
    """The status of a run that reads a document of the smallest example, and the lines that it prints."""
    with open(TOP / "examples/hello/hello.txt", "rb") as document:
        ran = subprocess.run([program, *words], cwd=TOP, stdin=document, capture_output=True, timeout=600, check=False)
    return ran.returncode, lines_of((ran.stdout + ran.stderr).decode("utf-8", "backslashreplace"))


def try_words(program):
    """Runs the words of the table, and gives for each whether it is answered so."""
    for words, status, line in TRIED:
        found = said(program, words)
        yield told(found == (status, [line]), f"words: {' '.join(['langbench', *words])}", [found])


def takes(program, *words):
    """Whether words are a command."""
    return said(program, words)[0] != 2


def taken(program):
    """The commands, options and numbers of kinds that the program takes. Of the first two its line on usage has all."""
    usage = said(program, [])[1][0]
    commands, options = usage.split()[2].split("|"), re.findall(r"--([\w-]+)", usage)
    return (
        {name for name in commands if any(takes(program, name, HELLO, *more) for more in ([], ["1"], ["/dev/null"]))},
        {name for name in options if takes(program, "check", f"--{name}", "1", HELLO)},
        {depth for depth in "0123456789" if takes(program, "check", "--lookahead", depth, HELLO)},
    )


def words_at(pattern, text):
    """The words and numbers at the places of a pattern, without what joins them in a sentence."""
    found = [word for place in re.findall(pattern, text, re.M) for word in re.findall(r"[\w-]+", place)]
    return set(found) - {"No", "or", "Cm"}


def try_told(program):
    """Holds the files that tell of the words against the program, and gives for each whether it has all and no others."""
    wanted = taken(program)
    others = {SHARED / name: patterns for name, patterns in TOLD.items()} if SHARED else {}
    for path, patterns in {TOP / "docs/commands.md": PAGE, **others}.items():
        text = path.read_text(encoding="utf-8")
        found = tuple(words_at(pattern, text) for pattern in patterns)
        lines = [f"the program takes {sorted(one)}, and here is {sorted(other)}" for one, other in zip(wanted, found)]
        yield told(found == wanted, f"all words: {path.relative_to(TOP)}", lines)


def try_statuses():
    """Holds the statuses of the manual page against those of docs/commands.md."""
    if not SHARED:
        return
    page = (TOP / "docs/commands.md").read_text(encoding="utf-8")
    manual = (SHARED / "langbench.1").read_text(encoding="utf-8")
    wanted, found = re.findall(r"^\| (\d+) \|", page, re.M), re.findall(r"^\.It (\d+)$", manual, re.M)
    yield told(wanted and found == wanted, "all statuses: langbench.1", [wanted, found])


def shown_rows():
    """The rows that show what a page shows, or None where there are no rows, as in a release."""
    if not (TOP / ROWS).is_file():
        return None
    rows = [json.loads(line) for line in (TOP / ROWS).open(encoding="utf-8")]
    return [row for row in rows if "page" in row]


def pages_agree():
    """Whether pages and crates agree, where the sources are."""
    tool = TOP / "tools" / "pages.py"
    return not tool.is_file() or subprocess.run([sys.executable, str(tool), "check"], check=False).returncode == 0


def main():
    if len(sys.argv) != 2:
        sys.exit("usage: try.py PROGRAM")
    program = str(pathlib.Path(sys.argv[1]).resolve())
    shown = shown_rows()
    count, differing = 0, 0
    for page in [*(TOP / name for name in PAGES), *sorted(TOP.glob("examples/*/README.md"))]:
        for number, command, wanted in commands(page):
            count += 1
            text = printed(command, program)
            found = lines_of(text)
            listed = has_row(command, text, shown)
            mark = "DIFFERS" if found != wanted else "NO ROW " if not listed else "ok     "
            print(mark, f"{page.relative_to(TOP)}:{number}: {command}")
            if found != wanted or not listed:
                differing += 1
                for line in difflib.unified_diff(wanted, found, "the page", "the program", lineterm="", n=0):
                    print("       ", line)
    others = [*try_words(program), *try_told(program), *try_statuses()]
    print(f"{count} commands, {differing} differ or have no row; {len(others)} other tries, {others.count(False)} differ", flush=True)
    sys.exit(1 if differing or not count or not all(others) or not pages_agree() else 0)


main()
