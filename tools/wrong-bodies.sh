#!/bin/sh
# Tries the wrong bodies that the gate leaves out: the edits in crates/*/wrong-bodies, each of which the proofs must refuse, as the gate
# tries those in crates/*/must-fail. Takes names of crates, or none for all that have changed since theirs were tried. It works on a copy
# of what is committed, and takes about as long as a check of the crate from nothing, and up to a minute for each edit. What was refused is
# noted beside the edits (tools/wrong-bodies-tried).
set -eu
top=$(cd "$(dirname "$0")/.." && pwd)
"$top/tools/edits"
copy=$(mktemp -d)
trap 'rm -rf "$copy"' EXIT
git clone -q "$top" "$copy/loddrume"
cd "$copy/loddrume"
# What was built in this checkout is used where it fits; else it is built again.
for built in "$top"/crates/*/out/rlib; do
    [ -d "$built" ] || continue
    crate=$(basename "${built%/out/rlib}")
    [ -d "crates/$crate" ] && mkdir -p "crates/$crate/out" && cp -a "$built" "crates/$crate/out/"
done
[ $# -gt 0 ] || set -- $(tools/wrong-bodies-tried | sed -n 's/: not tried on these files$//p')
failed=0
for crate in "$@"; do
    rm -rf "crates/$crate/must-fail"
    cp -R "crates/$crate/wrong-bodies" "crates/$crate/must-fail"
    if rt must-fail "$crate"; then
        tools/wrong-bodies-tried --note "$crate"
        cp "crates/$crate/wrong-bodies/tried.md" "$top/crates/$crate/wrong-bodies/"
    else
        failed=1
    fi
done
exit "$failed"
