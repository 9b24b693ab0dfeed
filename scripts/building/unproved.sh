#!/bin/sh
# Runs the program that was compiled without proofs by this name, and says so. scripts/install --unproved copies this for each name.
self=$(readlink -f -- "$0")
name=${self##*/}
echo "$name: nothing is proved of this run: the program was compiled without proofs" >&2
exec "${self%/*/*}/out/unproved/$name" "$@"
