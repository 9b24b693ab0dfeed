"""The links of documents lead to files and headings that exist."""

import os
import re
import unittest
from pathlib import Path

from tests.support import TOP

BLOCK = re.compile(r"^ *```.*?^ *```$", re.MULTILINE | re.DOTALL)
CODE = re.compile(r"`[^`\n]*`")
LINK = re.compile(r"\]\(([^)\s]+)\)")
NAMED = re.compile(r"\]\[([\w-]+)\]")
NAME = re.compile(r"^\[([\w-]+)\]: (\S+)$", re.MULTILINE)
HEADING = re.compile(r"^#+ (.*)$", re.MULTILINE)


def documents():
    for folder, folders, names in os.walk(TOP):
        folders[:] = [it for it in folders if it != "out" and not it.startswith(".")]
        yield from (Path(folder, name) for name in names if name.endswith(".md"))


def prose(document):
    return BLOCK.sub("", document.read_text(encoding="utf-8"))


def anchors(document):
    """The anchors of the headings of a document, as GitHub makes them."""
    texts = (re.sub(r"[^\w\- ]", "", it.lower()) for it in HEADING.findall(prose(document)))
    return {it.replace(" ", "-") for it in texts}


class LinksTest(unittest.TestCase):
    def leads_somewhere(self, document, link):
        path, _, anchor = link.partition("#")
        target = document.parent / path if path else document
        self.assertTrue(target.exists(), link)
        if anchor:
            self.assertIn(anchor, anchors(target), link)

    def test_links(self):
        for document in sorted(documents()):
            text = CODE.sub("", prose(document))
            names = dict(NAME.findall(text))
            for link in [*LINK.findall(text), *names.values()]:
                with self.subTest(document=str(document.relative_to(TOP)), link=link):
                    if not link.startswith("https://"):
                        self.leads_somewhere(document, link)
            self.assertEqual(set(NAMED.findall(text)), set(names), document)


if __name__ == "__main__":
    unittest.main()
