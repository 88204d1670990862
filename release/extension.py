"""The extension for Visual Studio Code as one file, where its packer is there."""

import io
import os
import pathlib
import shutil
import subprocess
import tempfile
import zipfile

from parts import File

FOLDER = "editors/vscode/"
# what is installed runs no script of its own here
STEPS = (
    ("npm", "install", "--omit=dev", "--ignore-scripts", "--no-audit", "--no-fund"),
    ("vsce", "package", "--allow-missing-repository", "--skip-license", "--out", "packed.vsix"),
)


def zipped_again(data):
    """The same files in an archive that tells no time and has them in the order of their names."""
    room = io.BytesIO()
    with zipfile.ZipFile(io.BytesIO(data)) as given, zipfile.ZipFile(room, "w", zipfile.ZIP_DEFLATED) as made:
        for name in sorted(given.namelist()):
            entry = zipfile.ZipInfo(name)
            entry.compress_type, entry.external_attr = zipfile.ZIP_DEFLATED, 0o644 << 16
            made.writestr(entry, given.read(name))
    return room.getvalue()


def packed(files, version, when):
    """The packed extension as a file of the archive, and None where it cannot be packed here, of which a line is printed."""
    missing = [words[0] for words in STEPS if not shutil.which(words[0])]
    if missing:
        print(f"the extension for Code is its folder: {missing[-1]} is not here")
        return None
    with tempfile.TemporaryDirectory() as room:
        for file in files:
            if file.name.startswith(FOLDER):
                path = pathlib.Path(room, file.name[len(FOLDER):])
                path.parent.mkdir(parents=True, exist_ok=True)
                path.write_bytes(file.data)
        how = {"cwd": room, "stdin": subprocess.DEVNULL, "stdout": subprocess.DEVNULL, "check": False}
        for words in STEPS:
            if subprocess.run(words, env={**os.environ, "SOURCE_DATE_EPOCH": str(when)}, **how).returncode:
                print(f"the extension for Code is its folder: {' '.join(words[:2])} failed")
                return None
        return File(f"editors/langbench-{version}.vsix", False, zipped_again(pathlib.Path(room, "packed.vsix").read_bytes()))
