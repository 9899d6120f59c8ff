#!/bin/bash
# bench_capture.sh [PERIODS...]: the bench program from capture to lines, beside the Rust's stages doing the same: user time (the least of three
# runs) and greatest memory, on captures of so many periods (536: 10 MB), whose lines are compared. One of more than 6,000 periods is made in a
# pipe and played by the bench program alone, once (53784: 1 GB).
set -eu -o pipefail
. "$(dirname "$0")/common.sh"
need_rust
need_port
[ -x "$bench_program" ] || { echo "$0: no $bench_program: run 'tools/build bench' first" >&2; exit 1; }
[ -x /usr/bin/time ] || { echo "$0: no /usr/bin/time (Debian's package time)" >&2; exit 1; }
out=$root/target/compare
mkdir -p "$out/fast"
# a plain release build, as bench.sh measures it
optimised=3
originals "$out/fast"
program "$out/fast" lines.rs "$out/fast/lines"

# used PROGRAM FILE...: user time and memory of a run for each file, the least time first
used() {
    local program=$1 file; shift
    for file; do
        /usr/bin/time -f '%U %M' "$program" <"$file" 2>&1 >/dev/null
    done | sort -n | awk -v p="$(basename "$program")" 'NR == 1 { printf "%-8s %8.2f s %8.1f MB\n", p, $1, $2 / 1024 }'
}

[ $# -gt 0 ] || set -- 536
for periods; do
    echo "$periods periods, $((periods * 9296)) symbols"
    if [ "$periods" -gt 6000 ]; then
        "$root/tools/make_capture" --periods "$periods" --more 0 - | used "$bench_program" /dev/stdin
        continue
    fi
    "$root/tools/make_capture" --periods "$periods" --more 0 "$out/long.cap"
    cmp <("$out/fast/lines" <"$out/long.cap") <("$bench_program" <"$out/long.cap")
    used "$out/fast/lines" "$out/long.cap"{,,}
    used "$bench_program" "$out/long.cap"{,,}
done
