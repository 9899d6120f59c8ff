#!/bin/bash
# traces.sh [--check]: what the unchanged Rust makes of the short runs of src/receiver/short.rs, written as
# crates/receiver_runs/specs/Traces.antt; --check: held to that file, which stays. The slot's length is a constant of the Rust, so the
# stages are built once for each.
set -eu
. "$(dirname "$0")/common.sh"
need_rust
file=$root/crates/receiver_runs/specs/Traces.antt
made=$root/target/compare/traces
mkdir -p "$made"

# trace SLOT: the run at this length
trace() {
    local out=$made/$1 flags=(-C overflow-checks=on -C debug-assertions=on -C opt-level=0)
    mkdir -p "$out"
    export SLOT_CUT=$1
    stages "$out" "${flags[@]}"
    rustc --edition 2021 -L "$out" --extern isdbs3_phy --extern isdbs3_core --extern isdb_frontend -o "$out/traces" \
        "${flags[@]}" "$here/src/traces.rs"
    "$out/traces"
}

cp "$here/src/receiver/traces_head.txt" "$made/traces.txt"
for slot in 64 24 3; do
    trace "$slot" >>"$made/traces.txt"
done
if [ "${1:-}" = --check ]; then
    diff "$file" "$made/traces.txt" && echo "the traces are those of the Rust"
else
    cp "$made/traces.txt" "$file"
fi
