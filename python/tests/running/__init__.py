"""Tests of runs of the program."""
