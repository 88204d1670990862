#!/usr/bin/env python3
"""What a reviewer of structure wants to see of this repository.

    python3 tools/house.py COMMAND [--repo DIR] [--most N]

Rows begin with a path and a line. `--most` says how many there are at most (20); `--repo` names another repository.

  map          the crates by level, the longest path from the bottom: what the root page says first; the lines that
               are not blank of code, tests, specs and proofs, and the must-fail edits; what each uses, and of that
               what it never names, or names in tests alone or in proofs alone (proofs of tests are tests)
  repeats      runs of 5 lines or more that stand twice, as they are or with other words; imports and comments do not
               count. --since REV: only those of which at least half was added since
  unused       lemmas and definitions that no code and no answer needs; private functions that nothing calls, or
               tests alone
  names        names of specs/ that two files define, and not the same
  costs        the table of docs/costs.md, the dearest crate first, the sums, and what takes over 5 minutes
  chain        the number of crates, the longest chain, and the number of paths through crates.txt from the crate with
               the most, each beside its bound. The status is 1 where one is passed
  citers NAME  where the files that cite a definition of specs/ name it; also for FILE.NAME and CRATE.FILE.NAME
  selftest     tries the commands on a small repository that is made up

It reads words and no types: a variable or a field that is spelled like a name counts as that name. A definition that is
there for its own sake is unused, and so is what only it needs. Two definitions with one meaning in other words count as
two meanings.
"""

import argparse
import collections
import functools
import itertools
import os
import re
import signal
import subprocess
import sys
import tempfile

sys.dont_write_bytecode = True
import costs

CRATES_AT_MOST, CHAIN_AT_MOST, PATHS_AT_MOST, MINUTES_AT_MOST = 60, 12, 25_000, 5
RUN = 5
PARTS = ("code", "tests", "specs", "proofs")
ANSWERS = ("Answers", "Invariants", "Proof", "Send", "Sync")

STRING = r'"(?:\\.|[^"\\])*"'
CHARACTER = r"b?'(?:\\[^\n']+|[^\\'\n])'"
RUST_SILENT = re.compile(rf'//[^\n]*|/\*.*?\*/|b?r(#*)".*?"\1|b?{STRING}|{CHARACTER}', re.S)
ANTT_SILENT = re.compile(rf"(?:(?<=[\s(){{}}])|^)--[^\n]*|{STRING}", re.M)
NAME = r'[^\s(){}\[\].;,@"]+'
PATH = re.compile(rf"{NAME}(?:\.{NAME})*")
IMPORT = re.compile(r"^ *(?:pub )?(?:ghost )?use ([\w.+-]+?)(?:\.\{([^}]*)\})?(?: as (\w+))?;?$", re.M)
SEEN = r"(?:pub(?:\([\w ]+\))? )?"
ANY_IMPORT = re.compile(rf"^ *{SEEN}(?:(?:ghost )?use\b(?:[^;{{\n]*\{{[^}}]*\}}[^\n]*|[^\n]*)|mod \w+;?$)", re.M)
HOW = r"(?:(?:pub|abbrev|unfoldable|pattern|axiom) )*"
DECLARED = re.compile(rf"{HOW}(?:(data|record|ruleset) ({NAME})|({NAME})(?: \{{[^}}]*\}})? :(?:\s|$))")
FUNCTION = re.compile(rf"^( *)({SEEN})(?:const |unsafe |async )*fn (\w+)", re.M)
HOME = re.compile(r"^( *)(?:pub )?(?:unsafe )?(?:impl\b[^{;]*\bfor\b[^{;]*|trait [^{;]*)\{", re.M)
TESTS = re.compile(r"^( *)#\[cfg\(test\)\]\s*mod \w+ \{", re.M)
WORD = re.compile(rf"{STRING}|\w[\w'-]*|\S")
# The words that say what a line does, whatever it speaks of.
FORMS = set("as data elim else ensures fn for if impl in let loop match mod mut record ref requires return".split())
FORMS |= {"self", "struct", "where", "while"}

Declaration = collections.namedtuple("Declaration", "file name line sort text")
Function = collections.namedtuple("Function", "file name line first last is_open of_tests of_trait")
Row = collections.namedtuple("Row", "file line shape words")
Place = collections.namedtuple("Place", "file first last")


# Files.

def blanked(found):
    """What stands in place of a comment or a string: blanks, and the quotes."""
    text = found[0]
    inner = re.sub(r"[^\n]", " ", text)
    return '"' + inner[1:-1] + '"' if text[0] == '"' else inner


def part_of(path):
    """What a file is, by its path: code, or specs, proofs or answers."""
    _, _, folder, *_, name = path.split("/")
    if folder == "src":
        return "code"
    return "answers" if folder == "proofs" and name[:-len(".antt")] in ANSWERS else folder


class File:
    """A file of a crate: its text, the text without comments and strings, and what it imports."""

    def __init__(self, root, path):
        self.path, self.is_code = path, path.endswith(".rt")
        self.crate, self.part = path.split("/")[1], part_of(path)
        self.text = costs.read(os.path.join(root, path))
        self.bare = (RUST_SILENT if self.is_code else ANTT_SILENT).sub(blanked, self.text)
        words = [word for word in re.split("/", re.sub(r"\.\w+$", "", path))[1:] if word != "Lib"]
        self.module, self.of_tests = ".".join(["Rattle", *words]), False
        self.names, self.aliases, self.imports = {}, {}, []
        for found in IMPORT.finditer(self.bare):
            self.take_import(found)

    def take_import(self, found):
        """Notes the names of one import, or the other name that it gives a module."""
        home, items, alias = found.groups()
        line = self.line_at(found.start())
        if items is None:
            self.aliases[alias or home.split(".")[-1]] = home
        for item in filter(None, (item.strip() for item in (items or "").split(","))):
            source, _, own = item.partition(" as ")
            *inner, name = source.split(".")
            target = ".".join([home, *inner]), name
            self.names[spoken(own or name)] = target
            self.imports.append((target, line))

    def line_at(self, place):
        return self.text.count("\n", 0, place) + 1

    def lines(self):
        return sum(bool(line.strip()) for line in self.text.split("\n"))


def spoken(name):
    """How a name stands in a text: an operator by its first sign."""
    return next((part for part in name.split("◌") if part), name)


def declarations(file):
    """The definitions and lemmas of a file, those inside of modules too, each with the heads of these modules."""
    found, blocks, head = [], [(0, "")], ""
    for number, line in enumerate(file.bare.split("\n"), 1):
        text, indent = line.strip(), len(line) - len(line.lstrip())
        if not text or re.match(r"(pub )?(use|mod) |infix", text):
            continue
        while not head and indent < blocks[-1][0]:
            blocks.pop()
        starts_block = indent == blocks[-1][0] and re.match(r"(pub )?module |(abbrev )?mutual$", text)
        declared = DECLARED.match(text) if indent == blocks[-1][0] else None
        if head or starts_block:
            head += " " + text
            if re.search(r"\b(where|mutual)$", text):
                blocks.append((blocks[-1][0] + 2, blocks[-1][1] + head))
                head = ""
        elif declared:
            sort, typed, named = declared.groups()
            found.append((typed or named, number, sort or "", [blocks[-1][1], line]))
        elif found:
            found[-1][3].append(line)
    return [Declaration(file, name, line, sort, "\n".join(lines)) for name, line, sort, lines in found]


def constructors(declaration):
    """The names of the cases of a type."""
    return re.findall(rf"^ +({NAME}) :(?= |$)", declaration.text, re.M) if declaration.sort == "data" else []


def block_at(text, place, indent):
    """Where the block ends that begins at a place, in a text as `rt fmt` writes it."""
    line = text.find("\n", place)
    line = len(text) if line < 0 else line
    if text[place:line].rstrip().endswith(("}", ";")):
        return line
    end = re.compile(rf"^{indent}\}}", re.M).search(text, line)
    return end.end() if end else len(text)


def blocks_of(text, pattern):
    """Where the blocks begin and end whose heads are found so."""
    return [(found.start(), block_at(text, found.end(), found[1])) for found in pattern.finditer(text)]


def functions(file):
    """The functions of a file of code."""
    text, made = file.bare, []
    homes, tests = blocks_of(text, HOME), blocks_of(text, TESTS)
    for found in FUNCTION.finditer(text):
        place, line = found.start(), file.line_at(found.start(3))
        before = text[:place].rstrip().rpartition("\n")[2].strip()
        of_tests = file.of_tests or before.startswith("#[test") or any(first < place < last for first, last in tests)
        of_trait = any(first < place < last for first, last in homes)
        last = block_at(text, place, found[1])
        made.append(Function(file, found[3], line, place, last, found[2].strip() == "pub", of_tests, of_trait))
    return made


def called_text(file, found):
    """The text of a file in which a name stands for a call: without imports, ghost lines and contracts."""
    text = ANY_IMPORT.sub(blanked, file.bare)
    text = re.sub(r"^ *(?:requires|ensures)\b.*?(?=^ *\{$|;$)", blanked, text, flags=re.M | re.S)
    return re.sub(r"^ *ghost (?!fn )[^;]*;", blanked, text, flags=re.M)


def mark_tests(files):
    """Marks the modules behind #[cfg(test)] and the crates of tests, with the proofs of both."""
    tests = []
    for file in (file for file in files if file.is_code):
        is_top = re.search(r"/(lib|main|mod)\.rt$", file.path)
        base = os.path.dirname(file.path) if is_top else file.path[:-len(".rt")]
        for name in re.findall(r"#\[cfg\(test\)\]\s*mod (\w+)\s*;", file.bare):
            tests += [f"{base}/{name}.rt", f"{base}/{name}/", f"{base}/{name}/".replace("/src/", "/proofs/", 1)]
    for file in files:
        file.of_tests = file.crate.endswith("_tests") or file.path.startswith(tuple(tests))
        file.part = "tests" if file.is_code and file.of_tests else file.part


class Repository:
    """The crates in the order of crates.txt, their files, and what these define."""

    def __init__(self, root):
        self.root, self.crates = root, costs.crates_of(root)

    @functools.cached_property
    def files(self):
        found = [File(self.root, path) for crate in self.crates for path in self.paths(crate)]
        mark_tests(found)
        return found

    @functools.cached_property
    def by_module(self):
        return {file.module: file for file in self.files}

    @functools.cached_property
    def declarations(self):
        return [one for file in self.files if not file.is_code for one in declarations(file)]

    @functools.cached_property
    def index(self):
        """The declarations by their modules and names, types also by the names of their cases."""
        return {(one.file.module, name): one for one in self.declarations for name in [*constructors(one), one.name]}

    def paths(self, crate):
        found = []
        for part, ending in (("src", ".rt"), ("specs", ".antt"), ("proofs", ".antt")):
            for folder, _, names in sorted(os.walk(os.path.join(self.root, "crates", crate, part))):
                found += [os.path.join(folder, name) for name in sorted(names) if name.endswith(ending)]
        return [os.path.relpath(path, self.root) for path in found]

    def find(self, module, names, depth=0):
        """What a path below a module names, over what modules hand on."""
        for length in range(len(names)):
            home, name = ".".join([module, *names[:length]]), names[length]
            if (home, name) in self.index:
                return self.index[home, name]
            file = self.by_module.get(home)
            if file and name in file.names and depth < 5:
                return self.find(file.names[name][0], [file.names[name][1]], depth + 1)
        return None

    def named(self, file, token):
        """The definition that a token of a file names, or None."""
        head, *rest = token.split(".")
        if rest and head in file.aliases:
            return self.find(file.aliases[head], rest)
        if head == "Rattle":
            return self.find(head, rest)
        if head in file.names:
            module, name = file.names[head]
            return self.find(module, [name])
        return self.index.get((file.module, head))

    def cited(self, file, text):
        return {one for one in (self.named(file, token) for token in set(PATH.findall(text))) if one}

    def cited_by_code(self, file):
        """What a file of code imports, and what it names by paths."""
        paths = re.findall(r"(\w+)::(specs|proofs)((?:::\w+)+)", file.bare)
        found = [self.find(module, [name]) for (module, name), _ in file.imports]
        for crate, part, rest in paths:
            found.append(self.find("Rattle", [file.crate if crate == "crate" else crate, part, *rest.split("::")[1:]]))
        if file.aliases:
            tokens = PATH.findall(file.bare)
            found += [self.named(file, token) for token in tokens if token.split(".")[0] in file.aliases]
        return {one for one in found if one}


# The map, and the chain.

def chains(crates):
    """The longest chain below each crate."""
    @functools.lru_cache(None)
    def chain(crate):
        below = [chain(one) for one in crates[crate] if one in crates]
        return (*max(below, key=len, default=()), crate)
    return {crate: chain(crate) for crate in crates}


def paths_from(crates):
    """The number of paths that begin at each crate: one, and those from each crate that it uses."""
    @functools.lru_cache(None)
    def paths(crate):
        return 1 + sum(paths(one) for one in crates[crate] if one in crates)
    return {crate: paths(crate) for crate in crates}


def first_sentence(text):
    page = re.match(r"(?://![^\n]*\n)*", text)[0]
    return re.split(r"(?<=\.)\s", " ".join(re.findall(r"^//! *(.*)", page, re.M)))[0]


def where_named(repository, crate, other):
    """The kinds of files in which a crate names another: code, tests, specs, proofs."""
    files = [file for file in repository.files if file.crate == crate]
    word = re.compile(rf"\b(?:{other}::|use {other}\b|Rattle\.{other}\.)")
    found = [file for file in files if other in file.bare and word.search(file.bare)]
    return {"tests" if file.of_tests else "proofs" if file.part == "answers" else file.part for file in found}


def idle_uses(repository, crate):
    """What is to be said of the crates that a crate lists and does not need for its code and specs."""
    told = collections.defaultdict(list)
    for other in repository.crates[crate]:
        parts = where_named(repository, crate, other)
        if len(parts) < 2 and not parts & {"code", "specs"}:
            told[min(parts, default="")].append(other)
    said = {"": "never names", "tests": "names in tests alone", "proofs": "names in proofs alone"}
    return "".join(f"; {said[part]} {' '.join(told[part])}" for part in said if told[part])


def sizes_of(repository):
    sizes = collections.Counter()
    for file in repository.files:
        sizes[file.crate, "proofs" if file.part == "answers" else file.part] += file.lines()
    for crate in repository.crates:
        sizes[crate, "edits"] = len(costs.edits_of(repository.root, crate))
    return sizes


def run_map(repository, given):
    sizes, chain = sizes_of(repository), chains(repository.crates)
    tops = [file for file in repository.files if re.search(r"^crates/\w+/src/(lib|main)\.rt$", file.path)]
    pages = {file.crate: file.text for file in tops}

    def told(crates):
        return ", ".join(f"{sum(sizes[crate, part] for crate in crates)} {part}" for part in (*PARTS, "edits"))

    for level in range(max(map(len, chain.values()), default=0), 0, -1):
        yield f"level {level}"
        for crate in (crate for crate in repository.crates if len(chain[crate]) == level):
            yield f"  {crate}: {told([crate])}"
            yield f"    {first_sentence(pages.get(crate, ''))}"
            yield f"    uses {' '.join(repository.crates[crate]) or 'nothing'}{idle_uses(repository, crate)}"
    yield f"{len(repository.crates)} crates: {told(repository.crates)}"


def run_chain(repository, given):
    chain = max(chains(repository.crates).values(), key=len, default=())
    paths, crate = max(((number, crate) for crate, number in paths_from(repository.crates).items()), default=(0, ""))
    for what, number, bound in [
        ("crates", len(repository.crates), CRATES_AT_MOST),
        ("crates in the longest chain", len(chain), CHAIN_AT_MOST),
        (f"paths from {crate}", paths, PATHS_AT_MOST),
    ]:
        given.status |= number > bound
        yield f"{number:,} {what}, of {bound:,}" + (": too many" if number > bound else "")
    yield "longest chain: " + " < ".join(chain)


# Runs of lines that stand twice.

def rows_of(file):
    """The lines of a file that say something, each with its words, and with its shape, in which names are alike."""
    for number, line in enumerate(ANY_IMPORT.sub(blanked, file.bare).split("\n"), 1):
        words = WORD.findall(line)
        if sum(len(word) for word in words if is_said(word)) > 6:
            shape = tuple("a" if is_said(word) and word not in FORMS else word for word in words)
            yield Row(file, number, hash(shape), words)


def is_said(word):
    """Whether a word is more than a sign."""
    return word[0].isalnum() or word[0] in '_"'


def runs_of(rows):
    """The pairs of runs with equal shapes: where they begin, how far apart they are, and how long."""
    windows, pairs = collections.defaultdict(list), collections.defaultdict(list)
    for first in range(len(rows) - RUN + 1):
        window = tuple(row.shape for row in rows[first:first + RUN])
        if rows[first].file is rows[first + RUN - 1].file and len(set(window)) > 3:
            windows[window].append(first)
    for firsts in windows.values():
        # What stands very often is a form of the language.
        for one, two in itertools.combinations(firsts if len(firsts) < 25 else [], 2):
            pairs[two - one].append(one)
    for apart, firsts in pairs.items():
        firsts = sorted(firsts)
        begin = firsts[0]
        for one, two in zip(firsts, [*firsts[1:], None]):
            if two != one + 1:
                yield begin, apart, one + RUN - begin
                begin = two


def likeness(rows, first, apart, length):
    """How many words two runs share, how many are another one twice or more, and how many once."""
    pairs = collections.Counter()
    for one, two in zip(rows[first:first + length], rows[first + apart:first + apart + length]):
        pairs.update(zip(one.words, two.words))
    alike = sum(number for (one, two), number in pairs.items() if one == two and one[0].isalnum())
    others = [number for (one, two), number in pairs.items() if one != two]
    return alike, sum(number for number in others if number > 1), sum(number for number in others if number == 1)


def repeats(rows):
    """The runs that stand twice, the most shared words first: how many are shared, how many differ, and both places."""
    found = []
    for first, apart, length in runs_of(rows):
        alike, renamed, differ = likeness(rows, first, apart, length)
        one, two = (Place(rows[at].file, rows[at].line, rows[at + length - 1].line) for at in (first, first + apart))
        goes_on_into_itself = one.file is two.file and two.first <= one.last
        if alike >= 15 and alike + renamed >= 0.7 * (alike + renamed + differ) and not goes_on_into_itself:
            found.append((alike, renamed + differ, length, one, two))
    return sorted(found, key=lambda it: (-it[0], it[3].file.path, it[3].first))


def added_lines(root, revision):
    """The lines of each file that were added since a revision."""
    command = ["git", "-C", root, "diff", "-U0", "-M", "--no-color", "--no-ext-diff", "--relative", revision, "--", "."]
    ran = subprocess.run(command, stdout=subprocess.PIPE, encoding="utf-8", errors="replace")
    if ran.returncode:
        # git has said why.
        sys.exit(ran.returncode)
    lines, path = collections.defaultdict(set), ""
    for line in ran.stdout.split("\n"):
        hunk = re.match(r"@@ \S+ \+(\d+)(?:,(\d+))? @@", line)
        path = line[len("+++ b/"):] if line.startswith("+++ ") else path
        if hunk:
            lines[path].update(range(int(hunk[1]), int(hunk[1]) + int(hunk[2] or 1)))
    return lines


def is_inside(place, others):
    return any(place.file is other.file and place.first >= other.first and place.last <= other.last for other in others)


def run_repeats(repository, given):
    rows, told = [row for file in repository.files for row in rows_of(file)], collections.defaultdict(list)
    added = added_lines(repository.root, given.since) if given.since else None

    def is_new(place):
        new = added[place.file.path] & set(range(place.first, place.last + 1))
        return 2 * len(new) > place.last - place.first

    for alike, differ, length, one, two in repeats(rows):
        known = [place for first, others in told.items() for place in (first, *(other for other, _ in others))]
        is_known = is_inside(one, known) and is_inside(two, known)
        if not is_known and (added is None or is_new(one) or is_new(two)):
            told[one].append((two, f"{length} lines again, {differ} of {alike + differ} words differ"))
    for one, others in told.items():
        places = ", ".join(f"{two.file.path}:{two.first}-{two.last}" for two, _ in others)
        yield one.file.path, f"{one.first}-{one.last}", f"{others[0][1]}: {places}"


# What nothing needs.

def needed(repository, cites):
    """The definitions and lemmas that code and answers lead to."""
    found, left = set(), []
    for file in repository.files:
        if file.is_code:
            left += repository.cited_by_code(file)
        elif file.part == "answers":
            left += repository.cited(file, file.bare)
    while left:
        one = left.pop()
        if one not in found:
            found.add(one)
            left += cites.get(one, ())
    return found


def unused_declarations(repository):
    own = [one for one in repository.declarations if one.file.part != "answers"]
    cites = {one: repository.cited(one.file, one.text) - {one} for one in own}
    unused = set(own) - needed(repository, cites)
    below = set().union(*(cites[one] for one in unused))
    for one in (one for one in own if one in unused):
        sort = "definition" if one.file.part == "specs" else "lemma"
        why = "only what nothing needs cites it" if one in below else "nothing cites it"
        yield one.file.path, one.line, f"{sort} {one.name}: {why}"


def unused_functions(repository):
    of_crate = collections.defaultdict(list)
    for file in (file for file in repository.files if file.is_code):
        of_crate[file.crate] += [(file, called_text(file, one), one) for one in [functions(file)]]
    for found in of_crate.values():
        for one in itertools.chain(*(made for _, _, made in found)):
            if one.is_open or one.of_tests or one.of_trait or one.name == "main":
                continue
            parts = {part for file, text, made in found for part in callers(one, file, text, made)}
            if "code" not in parts:
                why = "tests alone call it" if parts else "nothing calls it"
                yield one.file.path, one.line, f"function {one.name}: {why}"


def callers(function, file, text, made):
    """For each call of a function in a file, but for its own body, whether it is one of code or of tests."""
    if function.name not in text:
        return
    for found in re.finditer(rf"(?<!fn )\b{function.name}\b", text):
        place = found.start()
        if file is function.file and function.first <= place < function.last:
            continue
        around = [one for one in made if one.first <= place < one.last]
        yield "tests" if file.of_tests or any(one.of_tests for one in around) else "code"


def run_unused(repository, given):
    yield from unused_declarations(repository)
    yield from unused_functions(repository)


# Names with two meanings, and who cites a definition.

def meaning(repository, declaration):
    """The text of a definition, with names by what they mean and variables by their order."""
    order, text = {}, re.sub(r"(?<!\S)(pub|abbrev|unfoldable) ", "", declaration.text)
    cases = set(constructors(declaration))
    for token in re.findall(rf"{PATH.pattern}|[^\s]", text):
        named, head = repository.named(declaration.file, token), token.split(".")[0]
        if named:
            is_itself = named is declaration and token not in cases
            yield "itself" if is_itself else (named.file.module, named.name, token.split(".")[-1])
        elif head in declaration.file.names:
            yield declaration.file.names[head]
        elif head[:1].isalpha() and head not in FORMS:
            yield order.setdefault(head, len(order)), token[len(head):]
        else:
            yield token


def run_names(repository, given):
    of_name = collections.defaultdict(list)
    for one in repository.declarations:
        if one.file.part == "specs":
            of_name[one.name].append(one)
    for name, found in sorted(of_name.items()):
        if len({tuple(meaning(repository, one)) for one in found}) > 1:
            first, *others = found
            places = ", ".join(f"{one.file.path}:{one.line}" for one in others)
            yield first.file.path, first.line, f"{name} means something else at {places}"


def is_called(one, name):
    """Whether a name, or one behind its file, or its crate and file, is that of a definition."""
    whole = [one.file.crate, *one.file.module.split(".")[3:], one.name]
    parts = name.split(".")
    return parts in (whole[-len(parts):], whole)


def run_citers(repository, given):
    wanted = {one for one in repository.declarations if one.file.part == "specs" and is_called(one, given.name)}
    if not wanted:
        sys.exit(f"no file of specs/ defines {given.name}")
    for one in sorted(wanted, key=lambda it: it.file.path):
        yield one.file.path, one.line, f"defines {one.name}"
        for file in repository.files:
            lines = [line for (module, name), line in file.imports if repository.find(module, [name]) is one]
            lines = lines or lines_of_paths(repository, file, one)
            if lines and file is not one.file:
                yield file.path, lines[0], "tests" if file.of_tests else file.part


def lines_of_paths(repository, file, declaration):
    """Where a file names a definition by a path."""
    tokens = PATH.finditer(file.bare) if declaration.name in file.bare else ()
    tokens = [token for token in tokens if "." in token[0] and declaration.name in token[0]]
    return [file.line_at(token.start()) for token in tokens if repository.named(file, token[0]) is declaration]


# What crates cost.

def run_costs(repository, given):
    rows = costs.read_table(costs.read(os.path.join(repository.root, costs.PAGE)))
    if not rows:
        sys.exit(f"{costs.PAGE} has no table: tools/costs.py writes it")
    sums = {crate: {kind: costs.number(row.get(kind)) for kind in costs.KINDS} for crate, row in rows.items()}
    yield f"{'':24}{'all':>8}" + "".join(f"{column:>8}" for column in costs.COLUMNS)
    for crate in sorted(sums, key=lambda it: -sum(sums[it].values())):
        cells = [rows[crate].get(column, "") for column in costs.COLUMNS]
        yield f"{crate:24}{sum(sums[crate].values()):8.1f}" + "".join(f"{cell:>8}" for cell in cells)
    whole = [sum(row[kind] for row in sums.values()) for kind in costs.KINDS]
    yield f"{'all':24}{sum(whole):8.1f}" + "".join(f"{figure:8.1f}" for figure in whole)
    for kind in costs.KINDS:
        dear = [crate for crate in sums if sums[crate][kind] > MINUTES_AT_MOST]
        yield f"{kind} over {MINUTES_AT_MOST} minutes: {' '.join(dear) or 'none'}"


# The tool on a repository that is made up.

BODY = """    let found = all_of(given);
    report(found, 70000, given);
    if found > most_of_all {
        keep(found, other);
    }
    finish(found, of, all);
    again(report, given) + last_of_all(given);
}
"""
BASE = """//! What all stand
//! on. More.
#[cfg(test)]
mod tests;
ghost use Rattle.base.specs.Size.{limit};

fn called(x: usize) -> usize
    ensures small { unheard x ≡ 1 }
{
    x
}

fn unheard(x: usize) -> usize {
    called(x)
}

fn tried(x: usize) -> usize {
    tried(x)
}

#[tactic(auto, using(crate::proofs::Facts::used))]
pub fn open() {}
"""
SIZE = """-- The size.
abbrev pub limit : ℕ
limit = 70000
abbrev pub twice : ℕ → ℕ
twice n = n + n
module _ (n : ℕ)
    (m : ℕ) where
  pub data IsIdle : ℕ → Type 0 where
    idle : IsIdle limit
abbrev pub same : ℕ → ℕ
same n = n
"""
FACTS = """use Rattle.base.specs.Size.{twice}
inner : (n : ℕ) → twice n ≡ twice n
inner n = refl
pub in_rules : ℕ
in_rules = 1
pub ruleset used = (in_rules)
pub lonely : ℕ
lonely = inner n
pub answered : ℕ
answered = 0
"""
OTHER = """use Rattle.base.specs.Size.{limit}
abbrev pub twice : ℕ → ℕ
twice n = limit + n
abbrev pub same : ℕ → ℕ
same k = k
"""
TABLE = """| Crate | Proof | Tests | Edits | Memory |
|---|---|---|---|---|
| `base` | 1.0 | | | 7 |
| `top` | 6.5 | 1.0 | | 9 |
| all | 7.5 | 1.0 | | 9 |
"""
REPOSITORY = {
    "crates.txt": "# Rows.\nbase: std\nmiddle: base\ntop: middle base regex\n",
    "crates/base/src/lib.rt": BASE,
    "crates/base/src/tests.rt": "use top::open;\n#[test]\nfn tries() {\n    tried(1);\n}\n",
    "crates/base/specs/Size.antt": SIZE,
    "crates/base/proofs/Facts.antt": FACTS,
    "crates/base/proofs/lib/called/Answers.antt": "use Rattle.base.proofs.Facts as facts\ngoal-1 c = facts.answered\n",
    "crates/middle/src/lib.rt": "//! The middle.\npub fn one() {\n" + BODY,
    "crates/middle/proofs/Lib.antt": "use Rattle.base.specs.Size.{limit as most}\n",
    "crates/top/src/main.rt": "use middle::one;\nfn main() {\n" + BODY.replace("found", "other_one"),
    "crates/top/specs/Other.antt": OTHER,
    "crates/top/must-fail/one.edit": "file: src/main.rt\n",
    costs.PAGE: TABLE,
}
# What each command says, and behind a `!` what it does not.
SAID = {
    "map": [
        "level 3\n  top: 10 code, 0 tests, 5 specs, 0 proofs, 1 edits", "    What all stand on.\n",
        "uses middle base regex; never names regex\n", "uses base; names in proofs alone base\n",
    ],
    "chain": [
        "3 crates, of 60\n", "3 crates in the longest chain, of 12\n", "4 paths from top, of 25,000\n",
        "base < middle < top\n",
    ],
    "repeats": ["lib.rt:3-9  6 lines again, 5 of", "words differ: crates/top/src/main.rt:3-9\n"],
    "repeats --since HEAD": ["!lines"],
    "unused": [
        "lemma lonely: nothing cites it", "lemma inner: only", "definition IsIdle: nothing",
        "function unheard: nothing calls it", "function tried: tests alone",
        "!limit", "!in_rules", "!answered", "!called:", "!tries",
    ],
    "names": ["Size.antt:4  twice means something else at crates/top/specs/Other.antt:2\n", "!same"],
    "citers limit": [
        "Size.antt:2  defines limit\n", "base/src/lib.rt:5  code\n", "middle/proofs/Lib.antt:1  proofs\n",
        "Other.antt:1  specs\n",
    ],
    "citers base.Size.twice": ["Facts.antt:1  proofs\n", "!Other"],
    "costs": [
        "top                          7.5     6.5     1.0               9\nbase ",
        "all                          8.5     7.5", "Proof over 5 minutes: top\n", "Edits over 5 minutes: none",
    ],
}


def selftest():
    """Tries the commands. Returns whether one says something else than it should."""
    with tempfile.TemporaryDirectory() as root:
        costs.make_files(root, REPOSITORY)
        for words in ("init -q", "add .", "-c user.name=a -c user.email=a commit -qm a"):
            subprocess.run(["git", "-C", root, *words.split()], check=True)
        faults = []
        for words, rows in SAID.items():
            said, status = answer([*words.split(), "--repo", root])
            wrong = [row for row in rows if (row[1:] in said if row[0] == "!" else row not in said)]
            faults += [f"{words}: {row!r} in\n{said}" for row in wrong]
            faults += [f"{words}: status {status}"] * (status != 0)
    print("\n".join(faults) or "all is well")
    return bool(faults)


def arguments(words):
    parser = argparse.ArgumentParser(description=__doc__, formatter_class=argparse.RawDescriptionHelpFormatter)
    commands = [name[len("run_"):] for name in globals() if name.startswith("run_")]
    parser.add_argument("command", choices=[*commands, "selftest"])
    parser.add_argument("name", nargs="?")
    parser.add_argument("--repo", default=costs.TOP)
    parser.add_argument("--most", type=int, default=20)
    parser.add_argument("--since", metavar="REV")
    parser.set_defaults(status=0)
    given = parser.parse_args(words)
    if given.command == "citers" and not given.name:
        parser.error("citers wants the name of a definition")
    if given.command != "selftest" and not os.path.isfile(os.path.join(given.repo, "crates.txt")):
        parser.error(f"there is no crates.txt at {given.repo}")
    return given


def answer(words):
    """What a command prints, and its status."""
    given = arguments(words)
    rows = list(globals()[f"run_{given.command}"](Repository(given.repo), given))
    # A drawing and a table are told whole.
    most = given.most if rows and isinstance(rows[0], tuple) else len(rows)
    told = [row if isinstance(row, str) else "{}:{}  {}".format(*row) for row in rows[:most]]
    told += [f".. and {len(rows) - most} more"] * (len(rows) > most)
    return "".join(row + "\n" for row in told), int(given.status)


def main(words):
    if arguments(words).command == "selftest":
        return selftest()
    # Whoever reads the output may have enough of it.
    signal.signal(signal.SIGPIPE, signal.SIG_DFL)
    said, status = answer(words)
    print(said, end="")
    return status


if __name__ == "__main__":
    sys.exit(main(sys.argv[1:]))
