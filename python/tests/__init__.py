"""Tests of the package, on the built program."""
