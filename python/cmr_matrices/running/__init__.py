"""Runs of the program: where it is, a process for each run or one of `cmr-batch` for many, and the time that is left."""
