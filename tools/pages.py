#!/usr/bin/env python3
"""Keeps the pages that are made from the crates, and looks whether pages and crates agree.

    python3 tools/pages.py write    writes docs/proved.md anew below its marker
    python3 tools/pages.py check    tells what does not agree; the status is 1 where there is any

docs/proved.md has a head that is written by hand, down to the marker. Below it stands, crate by crate, what the root
page of the crate (the `//!` lines at the head of src/lib.rt) and the pages of its folders (src/NAME.rt beside src/NAME/)
say that is promised: the first paragraph, and each that says so, that speaks of a law, or that names a call by a link.
Paragraphs on how a thing is made and what it costs are left out.

`check` looks whether that part is up to date; whether each file that docs/definitions.md names is there, and each file of
specs/ in one of its rows; whether docs/architecture.md has one row for each crate, and the length of the longest chain;
whether each crate, folder and file that a page names is there; whether each entry of docs/DECISIONS.md opens with a
question, and each row of docs/measured.md has a machine and a date; and whether README.md is as short as it shall be.
"""

import functools
import pathlib
import re
import sys

TOP = pathlib.Path(__file__).resolve().parent.parent
PROVED = "docs/proved.md"
MARKER = "<!-- What follows is made from the crates by `python3 tools/pages.py write`. -->\n"
ROW, CHARACTERS, LINES, WORDS = re.compile(r"^\|(.*)\|$"), 12_000, 120, 25

SAYS_SO = re.compile(r"promis|\blaws?\b|[Nn]o code here|\b[Nn]ot (said|proved)\b|item for item")
COST = re.compile(
    r"^(What it costs|How )|\b(constant|linear|logarithmic|quadratic|expected) time|\btime (that is )?linear\b"
    r"|\btime in proportion\b|\bin the time of\b|\bas many steps\b|\btakes one step\b|\bn log n\b|\d+ bytes\b(?! at a time)"
    r"|\bcopied once\b|\bas much time\b|\bcosts a walk\b|\bin one pass\b|\blook-ups for each\b")
SENTENCE = re.compile(r"(?<=[.)])\s+(?=[A-Z`\[])")
LINK = re.compile(r"\[(`[^`]+`)\](?:\([^)]*\))?")


def read(name):
    return (TOP / name).read_text(encoding="utf-8")


@functools.lru_cache(None)
def uses():
    """Each crate with the crates of the repository that it uses, in the order of crates.txt."""
    found = dict(re.findall(r"^(\w+):(.*)$", read("crates.txt"), re.M))
    return {crate: [used for used in line.split() if used in found] for crate, line in found.items()}


@functools.lru_cache(None)
def level(crate):
    """How many crates the longest chain has that ends with this one."""
    return 1 + max(map(level, uses()[crate]), default=0)


def pages_of(crate):
    """The files of a crate that have a page, each with the name under which it is found."""
    source = TOP / "crates" / crate / "src"
    yield crate, source / ("lib.rt" if (source / "lib.rt").exists() else "main.rt")
    for folder in sorted(path for path in source.iterdir() if path.is_dir()):
        yield f"{crate}::{folder.name}", source / f"{folder.name}.rt"


def paragraphs(path):
    """The paragraphs of the page at the head of a file."""
    lines = []
    for line in path.read_text(encoding="utf-8").splitlines():
        if not line.startswith("//!"):
            break
        lines.append(line[3:].strip())
    return [part for part in re.split(r"\n\n+", "\n".join(lines)) if part.strip()]


def is_told(paragraph):
    """Whether a paragraph says what is promised."""
    if paragraph.startswith(("- ", "What it costs", "How ")) or paragraph.endswith(":"):
        return False
    return bool(SAYS_SO.search(paragraph) or LINK.search(paragraph) and not COST.search(paragraph))


def told(paragraph):
    """What a paragraph says, in one line, without the sentences on time and memory."""
    sentences = SENTENCE.split(" ".join(paragraph.split()))
    return LINK.sub(r"\1", " ".join(sentence for sentence in sentences if not COST.search(sentence)))


def sections():
    """The part below the marker."""
    out, silent = [], []
    for crate in uses():
        for name, path in pages_of(crate):
            page = paragraphs(path) if path.exists() else []
            if not page or page == ["TODO"] or crate.endswith(("_tests", "_rows")):
                if name == crate:
                    silent.append(f"`{name}`")
                continue
            where = path.relative_to(TOP).as_posix()
            out.append(f"{'##' if name == crate else '###'} {name}")
            out += [LINK.sub(r"\1", " ".join(page[0].split()))]
            out += filter(None, (told(part) for part in page[1:] if is_told(part)))
            out.append(f"From [`{where}`](../{where}).")
    if silent:
        out += ["## Crates that promise nothing", "Tests, and programs of tests: " + ", ".join(silent) + "."]
    return "\n\n".join(out) + "\n"


def words_of(crate):
    """The names that stand in the files of a crate."""
    found = set()
    for path in (TOP / "crates" / crate).rglob("*"):
        if path.suffix in (".rt", ".antt") and "out" not in path.parts:
            found |= set(re.findall(r"\w+", path.read_text(encoding="utf-8")))
    return found


def about_proved():
    if MARKER not in read(PROVED):
        yield f"{PROVED}: the marker is missing"
        return
    if read(PROVED).split(MARKER)[1] != "\n" + sections():
        yield f"{PROVED}: not up to date; run `python3 tools/pages.py write`"


def about_definitions():
    named = set()
    for line in read("docs/definitions.md").splitlines():
        if ROW.match(line):
            named |= set(re.findall(r"`(\w+/specs/[\w/]+\.antt)`", line))
    there = set()
    for crate in uses():
        for path in (TOP / "crates" / crate / "specs").rglob("*.antt"):
            if path.name != "Lib.antt":
                there.add(path.relative_to(TOP / "crates").as_posix())
    for name in sorted(named - there):
        yield f"docs/definitions.md: there is no crates/{name}"
    for name in sorted(there - named):
        yield f"docs/definitions.md: no row has {name}"


def about_architecture():
    page = read("docs/architecture.md")
    rows = re.findall(r"^\| \*?`(\w+)`\*? \|", page, re.M)
    for crate in uses():
        if rows.count(crate) != 1:
            yield f"docs/architecture.md: {rows.count(crate)} rows of {crate}"
    heights = dict(re.findall(r"^\| (\d+) \| (`.*`) \|$", page, re.M))
    for crate in uses():
        if f"`{crate}`" not in heights.get(str(level(crate)), ""):
            yield f"docs/architecture.md: {crate} has the height {level(crate)}"
    longest = max(map(level, uses()))
    said = re.search(r"longest chain has (\d+) crates", page)
    if not said or int(said[1]) != longest:
        yield f"docs/architecture.md: the longest chain has {longest} crates"


def about_names():
    """Whether each crate, folder and file that a page names is there."""
    pages = ["README.md", "CONTRIBUTING.md", *(f"docs/{path.name}" for path in sorted((TOP / "docs").glob("*.md")))]
    pages += [path.relative_to(TOP).as_posix() for path in sorted(TOP.glob("examples/*/README.md"))]
    for page in pages:
        fenced = False
        for number, line in enumerate(read(page).splitlines(), 1):
            fenced ^= line.startswith("```")
            for crate, folder in re.findall(r"\b(lw_\w+|langbench(?=::))(?:::(\w+))?", line):
                source = TOP / "crates" / crate / "src"
                if crate not in uses():
                    yield f"{page}:{number}: {crate} is no crate"
                elif folder and folder not in words_of(crate):
                    yield f"{page}:{number}: {crate} has no {folder}"
            places = re.findall(r"`((?:crates|docs|examples|tools|editors)/[\w./-]+)`", line)
            links = [] if fenced else re.findall(r"\]\((?!https?:|#)([\w./-]+)", line)
            places += [(pathlib.PurePosixPath(page).parent / link).as_posix() for link in links]
            for place in places:
                # what is built is in no checkout that is new
                if not (TOP / place).exists() and page != PROVED and "/out/" not in place:
                    yield f"{page}:{number}: there is no {place}"


def about_entries():
    """Whether each decision opens with its question, and each row of a measurement ends with machine and date."""
    for number, line in enumerate(read("docs/DECISIONS.md").splitlines(), 1):
        if line.startswith("**") and not re.match(r"\*\*.*?\?\*\* \S", line):
            yield f"docs/DECISIONS.md:{number}: opens with no question"
    rows = False
    for number, line in enumerate(read("docs/measured.md").splitlines(), 1):
        rows = line.startswith("|") and (rows or line.endswith("| Machine and date |"))
        if rows and not re.search(r"\| (Machine and date|---|[A-Z-], \d{4}-\d\d-\d\d) ?\|$|\|---\|$", line):
            yield f"docs/measured.md:{number}: ends with no machine and date"


def about_readme():
    text = read("README.md")
    lines = text.splitlines()
    if len(lines) >= LINES or len(text) >= CHARACTERS:
        yield f"README.md: {len(lines)} lines and {len(text)} characters; under {LINES} and {CHARACTERS} are wanted"
    prose, fenced = [], False
    for line in lines:
        if line.startswith("```"):
            fenced = not fenced
        elif not fenced and not line.startswith(("    ", "#")):
            prose.append(line if line.strip() else "\n")
    cells = re.sub(r"\]\([^)]*\)", "]", " ".join(prose).replace("|", "\n"))
    for sentence in re.split(r"(?<=[.?!])\s+|\n", cells):
        if len(sentence.split()) > WORDS:
            yield f"README.md: {len(sentence.split())} words: {sentence.strip()}"


LOOKS = (about_proved, about_definitions, about_architecture, about_names, about_entries, about_readme)


def main():
    if sys.argv[1:] == ["write"]:
        head = read(PROVED).split(MARKER)[0]
        (TOP / PROVED).write_text(f"{head}{MARKER}\n{sections()}", encoding="utf-8")
    elif sys.argv[1:] == ["check"]:
        found = [line for look in LOOKS for line in look()]
        print("\n".join(found) if found else "pages agree with the crates")
        sys.exit(1 if found else 0)
    else:
        sys.exit("usage: pages.py write|check")


if __name__ == "__main__":
    main()
