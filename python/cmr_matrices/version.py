"""The version of the package, its commands and the program's formats: CHANGELOG.md has what each version changed."""

__all__ = ["__version__"]

__version__ = "0.2.0"
