"""The arguments of `cmr`, and what `scripts/explain` says beside the program's own lines: of words, of texts and of files."""
