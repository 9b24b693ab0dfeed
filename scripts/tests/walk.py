"""The walks in documents, whose lines are the output of runs.

In the folder scripts, `python3 -m tests.walk` runs them, writes the lines of the runs into the documents, and copies the pictures of the
runs next to them. Blocks with `./try-cmr` remain unchanged.
"""

import re
import shutil
import subprocess
import tempfile
from pathlib import Path

from tests.support import TOP

DOCUMENT = TOP / "docs" / "FROM_A_MODEL.md"
CLASSIFYING = TOP / "docs" / "CLASSIFYING.md"
ONE_MODEL = TOP / "docs" / "ONE_MODEL.md"
SCREENS = (TOP / "README.md", TOP / "docs" / "TOOLS.md", TOP / "examples" / "README.md")
PICTURES = {**dict.fromkeys(SCREENS, ()), DOCUMENT: ("maxflow.svg", "shifts.svg", "goods.svg"), CLASSIFYING: ("classes.svg",), ONE_MODEL: ("crews.html",)}


# The progress of long work, once a minute, which only a slow machine prints.
PROGRESS = re.compile(r"^cmr-classify: [0-9]+ rows?, [0-9.]+ a second.*\n", re.M)


def walked(text, folder):
    """The text with the lines that its commands print when they run in a folder one after another."""
    for name in ("cmr", "cmr-large", "crates", "examples", "scripts"):
        (folder / name).symlink_to(TOP / name)
    return re.sub(r"(?<=^```\n)\$ .*?(?=^```)", lambda block: _run(block[0], folder), text, flags=re.M | re.S)


def _run(block, folder):
    if "$ ./try-cmr " in block:
        return block
    commands = re.findall(r"^\$ (.*)", block, re.M)
    return "".join(f"$ {command}\n{_printed(command, folder)}" for command in commands)


def _printed(command, folder):
    words = ["bash", "-c", command]
    run = subprocess.run(words, cwd=folder, stdout=subprocess.PIPE, stderr=subprocess.STDOUT, text=True)
    return PROGRESS.sub("", run.stdout)


def main():
    for document, pictures in PICTURES.items():
        with tempfile.TemporaryDirectory() as name:
            text = walked(document.read_text(encoding="utf-8"), Path(name))
            document.write_text(text, encoding="utf-8")
            for picture in pictures:
                shutil.copy(Path(name, "out", picture), document.parent / picture)


if __name__ == "__main__":
    main()
