"""Libraries that the package uses if its caller does, and what installs them."""

from __future__ import annotations

from importlib import import_module
from typing import Any

from .errors import LibraryMissing

__all__ = ["library"]

_DEBIAN = {"numpy", "scipy", "networkx", "pandas", "pulp", "swiglpk"}


def library(name: str, use: str) -> Any:
    """A module; `use` says what needs it. Raises `LibraryMissing`, with the packages that contain it, if it is not installed."""
    try:
        return import_module(name)
    except ImportError as fault:
        package = name.partition(".")[0]
        raise LibraryMissing(use, package, f"python3-{package}" if package in _DEBIAN else None) from fault
