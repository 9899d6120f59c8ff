#!/bin/bash
# bench.sh: time and instructions of a call of fx; of a symbol in the slot sync, rotated, corrected, filtered, demapped; of a training and a
# solve; of a symbol in a whole receiver, and in which functions: the Rust beside the port, each from one driver.
set -eu
. "$(dirname "$0")/common.sh"
need_rust
need_port
for bench in sync_bench phase_bench demap_bench eq_bench receiver_bench; do
    [ -f "$port/lib$bench.a" ] || { echo "$0: no lib$bench.a in $port: run 'tools/build $bench' first" >&2; exit 1; }
done
out=$root/target/compare
mkdir -p "$out/fast"

# The measured Rust is a plain release build; lto takes its function into the uninlined one that is called.
optimised=3
originals "$out/fast"
with_port "$port"
program "$out/fast" bench_fx.rs "$out/bench_fx" -C lto=fat "${port_flags[@]}"
program "$out/fast" bench_sync.rs "$out/bench_sync" -C lto=fat -L "native=$port" -l static=sync_bench
program "$out/fast" bench_demap.rs "$out/bench_demap" -C lto=fat -L "native=$port" -l static=demap_bench
program "$out/fast" bench_eq.rs "$out/bench_eq" -C lto=fat -L "native=$port" -l static=eq_bench
program "$out/fast" bench_phase.rs "$out/bench_phase" -C lto=fat -L "native=$port" -l static=phase_bench --extern isdb_frontend
program "$out/fast" bench_receiver.rs "$out/bench_receiver" -C lto=fat -L "native=$port" -l static=receiver_bench --extern isdb_frontend --extern isdbs3_core
for bench in bench_fx bench_sync bench_phase bench_demap bench_eq bench_receiver; do
    "$out/$bench" time
    echo
done

# instructions PROGRAM ARGUMENT...: of the whole run
instructions() {
    local name=$1; shift
    valgrind --tool=callgrind --callgrind-out-file="$out/callgrind.out" "$out/$name" count "$@" 2>&1 |
        sed -n 's/.*Collected : \([0-9]*\).*/\1/p'
}

# line NAME RUST PORT UNITS: what each side took, by the unit
line() {
    awk -v f="$1" -v r="$2" -v p="$3" -v n="$4" 'BEGIN { printf "%-14s %9.1f %9.1f %6.2f\n", f, r / n, p / n, p / r }'
}

command -v valgrind >/dev/null || { echo "no valgrind: instructions not counted"; exit 0; }
printf '%-14s %9s %9s %6s\n' 'instructions' Rust port ratio
for function in cordic round_shift mag_approx cos_sin_round; do
    none=$(instructions bench_fx $function none)
    rust=$(instructions bench_fx $function rust)
    ours=$(instructions bench_fx $function port)
    line $function $((rust - none)) $((ours - none)) 1000
done

# locked SIDE: the instructions of four periods while locked, with what makes the stream
locked() {
    echo $(($(instructions bench_sync "$1" 10) - $(instructions bench_sync "$1" 6)))
}

echo
printf '%-14s %9s %9s %6s\n' 'instructions' Rust port ratio
none=$(locked none)
rust=$(locked rust)
ours=$(locked port)
line push $((rust - none)) $((ours - none)) $((4 * 9296))

echo
printf '%-14s %9s %9s %6s\n' 'instructions' Rust port ratio
for entry in rotate correct; do
    none=$(instructions bench_phase $entry none)
    rust=$(instructions bench_phase $entry rust)
    ours=$(instructions bench_phase $entry port)
    line $entry $((rust - none)) $((ours - none)) 9296
done

echo
printf '%-14s %9s %9s %6s\n' 'instructions' Rust port ratio
for bits in 1 2 3 4 5; do
    none=$(instructions bench_demap $bits none)
    rust=$(instructions bench_demap $bits rust)
    ours=$(instructions bench_demap $bits port)
    line "demap $bits" $((rust - none)) $((ours - none)) 2000
done

echo
printf '%-14s %9s %9s %6s\n' 'instructions' Rust port ratio
# a training of the Rust comes with a push, which is taken away again
for entry in 'filter none 9296' 'train pushes 1000' 'solve none 50'; do
    set -- $entry
    none=$(instructions bench_eq "$1" none)
    less=$(instructions bench_eq "$1" "$2")
    rust=$(instructions bench_eq "$1" rust)
    ours=$(instructions bench_eq "$1" port)
    line "$1" $((rust - less)) $((ours - none)) "$3"
done

none=$(instructions bench_eq rows none)
ours=$(instructions bench_eq rows port)
printf '%-14s %9s %9.1f\n' rows - "$(awk -v d=$((ours - none)) 'BEGIN { print d / 1000 }')"

# receives ENTRY BITS SIDE: the instructions of eight periods of a locked receiver
receives() {
    echo $(($(instructions bench_receiver "$1" "$2" "$3" 16) - $(instructions bench_receiver "$1" "$2" "$3" 8)))
}

echo
printf '%-14s %9s %9s %6s\n' 'instructions' Rust port ratio
for entry in feed symbol; do
    for bits in 1 3 5; do
        none=$(receives $entry $bits none)
        rust=$(receives $entry $bits rust)
        ours=$(receives $entry $bits port)
        line "$entry $bits" $((rust - none)) $((ours - none)) $((8 * 9296))
    done
done
# a call of `feed` beside its symbols
bare=$(instructions bench_receiver feed 1 port 8)
more=$(instructions bench_receiver empty 1 port 8)
printf '%-14s %9s %9.1f\n' 'empty feed' - "$(awk -v d=$((more - bare)) 'BEGIN { print d / 1000 }')"

# within BITS: where the instructions of a fed symbol go, by the functions that the compiler left: those of eight periods
within() {
    local periods
    for periods in 16 8; do
        valgrind --tool=callgrind --callgrind-out-file="$out/callgrind.$periods" "$out/bench_receiver" count feed "$1" port $periods >/dev/null 2>&1
        callgrind_annotate --threshold=100 "$out/callgrind.$periods" | sed -n 's/^ *\([0-9,]*\) [^:]*:\([a-z_]*::[a-z_:]*\) .*/\2 \1/p' | tr -d ,
    done | awk -v n=$((8 * 9296)) '{ if ($1 in first) seen[$1] = first[$1] - $2; else first[$1] = $2 }
        END { for (f in first) { d = (f in seen ? seen[f] : first[f]) / n; if (d >= 1) printf "%9.1f %s\n", d, f } }' | sort -rn
}

for bits in 1 5; do
    echo
    echo "instructions of a fed symbol by function, $bits bits:"
    within $bits
done
