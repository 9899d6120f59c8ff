#!/bin/bash
# tools/tried.sh [NAME...]: tries the wrong answers of docs/ENTRIES.md that the gate leaves out, the edits in
# crates/NAME/tried. Each is applied to a copy of its crate, and the prover must refuse it. Without a NAME: all crates.
set -eu -o pipefail
cd "$(dirname "$0")/.." >/dev/null

if [ $# -eq 0 ]; then
    for dir in crates/*/tried; do
        [ ! -d "$dir" ] || set -- "$@" "$(basename "$(dirname "$dir")")"
    done
fi
[ $# -gt 0 ] || { echo "tools/tried.sh: no crate has a folder 'tried'" >&2; exit 2; }

copy=$(mktemp -d)
trap 'rm -rf "$copy"' EXIT
tar -c --exclude=out crates crates.txt | tar -x -C "$copy"
rm -rf "$copy"/crates/*/must-fail
for name; do
    ls crates/"$name"/tried/*.edit >/dev/null || exit 2
    mv "$copy/crates/$name/tried" "$copy/crates/$name/must-fail"
done
cd "$copy"
rt must-fail "$@"
