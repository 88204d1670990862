"""The files of an archive, by their names in it, and the bytes of the archive that holds them."""

import collections
import gzip
import io
import json
import re
import tarfile

import checkout

# a file of the archive: its name, whether it can be run, and its bytes
File = collections.namedtuple("File", "name runs data")
# files of the commit, and the folder of it that is left out of their names
PAGES = ("README.md", "CONTRIBUTING.md", "docs", "examples", "editors")
OWN = ("release/install", "release/langbench.1", "release/completions")
# what a program for x86-64 Linux begins with: ELF, 64 bits, little end first, and the number of the processor
MAGIC, PROCESSOR = b"\x7fELF\x02\x01", b"\x3e\x00"


def of_commit(commit):
    """The files of a commit that a release has. They are git's own, so neither the checkout's times nor its modes count."""
    packed = checkout.answer("git", "-c", "tar.umask=022", "archive", "--format=tar", commit, "--", *PAGES, *OWN)
    with tarfile.open(fileobj=io.BytesIO(packed)) as tar:
        for entry in tar:
            # what git alone reads is left out
            if entry.isfile() and "/.git" not in entry.name:
                name = entry.name[len("release/"):] if entry.name.startswith("release/") else entry.name
                yield File(name, bool(entry.mode & 0o100), tar.extractfile(entry).read())


def version(commit):
    """The version of a release, which is that of the extension for Code."""
    return json.loads(checkout.answer("git", "show", f"{commit}:editors/vscode/package.json"))["version"]


def moment(commit):
    """When a commit was made, in seconds: the time of every file of its release."""
    return int(checkout.line_of("git", "show", "--no-patch", "--format=%ct", commit))


def maker(commit):
    """Who made a commit, as a package names its maintainer."""
    return checkout.line_of("git", "show", "--no-patch", "--format=%cn <%ce>", commit)


def library(program):
    """The C library that a program needs: the youngest version that it names."""
    if program[: len(MAGIC)] != MAGIC or program[18:20] != PROCESSOR:
        raise checkout.Refusal(f"{checkout.PROGRAM.relative_to(checkout.TOP)} is no program for x86-64 Linux")
    named = re.findall(rb"\0GLIBC_(\d+)\.(\d+)", program)
    major, minor = max((int(major), int(minor)) for major, minor in named)
    return f"{major}.{minor}"


def manifest(files, facts):
    """What a release is, in lines that sha256sum passes over, and the sum of each file."""
    said = "".join(f"# {name} {fact}\n" for name, fact in facts.items())
    return (said + "".join(f"{checkout.sum_of(file.data)}  {file.name}\n" for file in files)).encode()


def header(name, file, when):
    """The block that stands before a file in a tar archive (POSIX.1-2017, pax, "ustar Interchange Format"). It is written
    here, since the versions of tarfile differ in it."""
    if len(name.encode()) > 100:
        raise checkout.Refusal(f"the name is too long for the archive: {name}")
    zero = "0000000"
    fields = (
        (name, 100),
        (f"{0o755 if file.runs else 0o644:07o}", 8),
        (zero, 8),
        (zero, 8),
        (f"{len(file.data):011o}", 12),
        (f"{when:011o}", 12),
        # the sum is taken with blanks in its place
        (" " * 8, 8),
        ("0", 1),
        ("", 100),
        ("ustar\x0000", 8),
        ("root", 32),
        ("root", 32),
        (zero, 8),
        (zero, 8),
        ("", 167),
    )
    block = b"".join(text.encode().ljust(size, b"\0") for text, size in fields)
    return block[:148] + f"{sum(block):06o}\0 ".encode() + block[156:]


def archive(files, folder, when):
    """An archive whose bytes come from the files and the moment alone."""
    room = io.BytesIO()
    # without the empty name gzip may write one
    with gzip.GzipFile(filename="", fileobj=room, mode="wb", compresslevel=9, mtime=when) as packed:
        for file in sorted(files):
            packed.write(header(f"{folder}/{file.name}", file, when) + file.data + bytes(-len(file.data) % 512))
        # two empty blocks end it
        packed.write(bytes(1024))
    return room.getvalue()
