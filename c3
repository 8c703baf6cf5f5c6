#!/bin/sh
# Runs c3 with these words in the current folder. Where the program isn't built, or a source is newer, it is built first.
top=$(dirname "$(readlink -f "$0")")
program=$top/crates/c3/out/c3
log=$top/build.log
newer() {
    find "$top/crates.txt" "$top/HANDLES" "$top/crates" -name out -prune -o -type f -newer "$program" -print -quit
}
if [ ! -x "$program" ] || [ -n "$(newer)" ]; then
    rm -f "$program"
    echo "c3: building; each crate is proved first, which may take an hour the first time" >&2
    (cd "$top/crates/c3" && rt run) </dev/null 2>&1 | tee "$log" | sed -un 's/^crate \([a-z0-9_]*\):.*/c3: proved \1/p' >&2
    if [ ! -x "$program" ]; then
        cat "$log" >&2
        exit 125
    fi
fi
exec "$program" "$@"
