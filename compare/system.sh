#!/bin/bash
# system.sh: plays captures with the bench program where the system fails it or lets it wait, and holds its lines, its standard error and its last
# line to README.md, "What a script has to look at". BENCH=PROGRAM: with that program. Needs python3, and no Rust.
set -eu -o pipefail
. "$(dirname "$0")/common.sh"
[ -x "$bench_program" ] || { echo "$0: no $bench_program: run 'tools/build bench' first" >&2; exit 1; }
made=$root/target/system
mkdir -p "$made"
"$root/tools/make_capture" --periods 0 --more 2 "$made/small.cap"
python3 "$here/system.py" "$bench_program" "$made/small.cap" "$root/captures/markers.cap"
