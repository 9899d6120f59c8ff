#!/bin/bash
# build.sh [OUTDIR]: builds the programs into OUTDIR (target/compare), against target/staticlib/libc_api.a.
set -eu
. "$(dirname "$0")/common.sh"
need_rust
need_port
out=${1:-$root/target/compare}

# The compared Rust stops where it would overflow, so that no wrapped number passes for its answer.
mkdir -p "$out/checked"
originals "$out/checked" -C overflow-checks=on -C debug-assertions=on
with_port "$port"
program "$out/checked" main.rs "$out/compare" "${port_flags[@]}"
program "$out/checked" vectors.rs "$out/vectors"
program "$out/checked" lines.rs "$out/lines"
