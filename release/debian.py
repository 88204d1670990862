"""The Debian package: what `install` writes below /usr, with the files that Debian wants besides."""

import collections
import email.utils
import gzip
import hashlib
import io
import os
import pathlib
import shutil
import subprocess
import tarfile
import tempfile

import checkout

About = collections.namedtuple("About", "version commit needs maker when")
DOC = "usr/share/doc/langbench"

CONTROL = """\
Package: langbench
Version: {version}
Architecture: amd64
Maintainer: {maker}
Installed-Size: {size}
Depends: libc6 (>= {needs})
Section: devel
Priority: optional
Description: language server from one grammar file
 An editor has diagnostics, go to definition, references, rename and
 completion for a language of which only its grammar is written, in the
 notation of Langium's grammar language.
 .
 The program is proved against contracts that say what it answers.
"""

COPYRIGHT = """\
Langbench {version}, made from commit {commit}.
Copyright: those who wrote it, as the history of its repository names them.
License: the repository states none at this commit.
"""

CHANGES = """\
langbench ({version}) unstable; urgency=medium

  * Made from commit {commit}.

 -- {maker}  {date}
"""

# Debian's own tools strip programs. This one is the very file that the gate left.
OVERRIDES = """\
# the very file that was proved, with its names
langbench: unstripped-binary-or-object *
"""


def packed_text(text):
    """A text as gzip packs it, with no name and no time."""
    room = io.BytesIO()
    with gzip.GzipFile(filename="", fileobj=room, mode="wb", compresslevel=9, mtime=0) as made:
        made.write(text)
    return room.getvalue()


def put(path, data):
    """Writes a file, and the folders above it."""
    path.parent.mkdir(parents=True, exist_ok=True)
    path.write_bytes(data)


def lay_out(archive, folder, room):
    """What install writes below /usr, where Debian keeps it."""
    with tarfile.open(fileobj=io.BytesIO(archive)) as tar:
        tar.extractall(room)
    root = pathlib.Path(room, "root")
    words = ["sh", f"{room}/{folder}/install", "--prefix", f"{root}/usr"]
    ran = subprocess.run(words, stdin=subprocess.DEVNULL, stdout=subprocess.DEVNULL, stderr=subprocess.PIPE, check=False)
    if ran.returncode:
        raise checkout.Refusal(f"the archive does not install: {ran.stderr.decode('utf-8', 'replace').strip()}")
    share = root / "usr/share"
    # dpkg keeps a list of its own
    shutil.rmtree(share / "langbench")
    os.rename(share / "zsh/site-functions", share / "zsh/vendor-completions")
    page = share / "man/man1/langbench.1"
    put(page.with_name("langbench.1.gz"), packed_text(page.read_bytes()))
    page.unlink()
    return root


def add_debian_files(root, about):
    """The files that Debian wants of each package."""
    words = {**about._asdict(), "date": email.utils.formatdate(about.when)}
    put(root / DOC / "copyright", COPYRIGHT.format(**words).encode())
    put(root / DOC / "changelog.gz", packed_text(CHANGES.format(**words).encode()))
    put(root / "usr/share/lintian/overrides/langbench", OVERRIDES.encode())
    files = sorted(path for path in root.rglob("*") if path.is_file())
    words["size"] = sum(-(-path.stat().st_size // 1024) for path in files)
    sums = "".join(f"{hashlib.md5(path.read_bytes()).hexdigest()}  {path.relative_to(root)}\n" for path in files)
    put(root / "DEBIAN/control", CONTROL.format(**words).encode())
    put(root / "DEBIAN/md5sums", sums.encode())


def settle(root, when):
    """Gives every file and folder its mode and the commit's time: what umask and clock were is not to be seen."""
    for path in [*root.rglob("*"), root]:
        runs = path.is_dir() or path.stat().st_mode & 0o100
        path.chmod(0o755 if runs else 0o644)
        os.utime(path, (when, when))


def run(*words, when):
    """Runs one of Debian's tools, and shows what it says where it fails."""
    # one thread, so that the number of processors is not to be seen in what is packed
    env = {**os.environ, "LC_ALL": "C", "SOURCE_DATE_EPOCH": str(when), "DPKG_DEB_THREADS_MAX": "1"}
    how = {"stdin": subprocess.DEVNULL, "stdout": subprocess.PIPE, "stderr": subprocess.STDOUT}
    ran = subprocess.run(words, env=env, check=False, **how)
    if ran.returncode:
        raise checkout.Refusal(f"{words[0]} failed: {ran.stdout.decode('utf-8', 'replace').strip()}")


def package(archive, folder, about):
    """The bytes of the package of an archive."""
    with tempfile.TemporaryDirectory() as room:
        root = lay_out(archive, folder, room)
        add_debian_files(root, about)
        settle(root, about.when)
        made = f"{room}/langbench_{about.version}_amd64.deb"
        run("dpkg-deb", "--root-owner-group", "-Zxz", "--build", str(root), made, when=about.when)
        if shutil.which("lintian"):
            # as root, too, lintian has to be told that this is meant
            run("lintian", "--allow-root", "--fail-on", "error", made, when=about.when)
        else:
            print("the package was not looked at: lintian is not here")
        return pathlib.Path(made).read_bytes()
