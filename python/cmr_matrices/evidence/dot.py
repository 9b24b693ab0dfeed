"""Graphs in DOT, the language of Graphviz, and their pictures."""

from __future__ import annotations

import shutil
import subprocess
from collections.abc import Iterable, Mapping

__all__ = ["Attributes", "document", "quoted", "statement", "svg"]

Attributes = Mapping[str, str]


def quoted(text: str) -> str:
    """A text as a DOT string, with its line feeds as breaks of the label."""
    plain = text.replace("\\", "\\\\").replace('"', '\\"').replace("\n", "\\n")
    return f'"{plain}"'


def statement(subject: str, attributes: Attributes) -> str:
    """A node, an edge, or the defaults of one of them, with its attributes."""
    listed = ", ".join(f"{name}={quoted(value)}" for name, value in attributes.items())
    return f"  {subject} [{listed}];\n" if listed else f"  {subject};\n"


def document(kind: str, name: str, statements: Iterable[str]) -> str:
    """A whole graph of the kind `graph` or `digraph`."""
    return f"{kind} {name} {{\n{''.join(statements)}}}\n"


def svg(dot: str) -> str | None:
    """The picture of a graph as an `svg` element, or None if Graphviz is not installed.

    The XML declaration and the document type that dot writes before the element are omitted, since the element is part of a page.
    """
    program = shutil.which("dot")
    if program is None:
        return None
    ran = subprocess.run([program, "-Tsvg"], input=dot, capture_output=True, text=True, encoding="utf-8", check=False)
    start = ran.stdout.find("<svg")
    return ran.stdout[start:] if ran.returncode == 0 and start >= 0 else None
