"""Many runs of the program in one process, `cmr-batch`, which replies to requests over its standard input and output."""
