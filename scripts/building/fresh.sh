# Whether "$program" exists and no source in the clone "$top" is newer. A call takes two milliseconds, so this is not Python.
# If it says no, clone.py compares the digests of the sources.

is_fresh()
{
    [ -x "$program" ] || return 1
    for source in "$top"/crates.txt "$top"/crates/*/src/*.rt "$top"/crates/*/src/*/*.rt; do
        [ "$source" -nt "$program" ] && return 1
    done
    return 0
}
