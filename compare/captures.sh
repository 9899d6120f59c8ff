#!/bin/bash
# captures.sh: makes captures into target/captures, plays each with the bench program and holds its lines to those of the unchanged Rust,
# byte for byte. Used by the gate, after run.sh, which builds `lines`. Where the Rust cannot be asked, those captures are played whose lines
# were written down, from document 01 or, of the samples, from the Rust before; the end says how many that leaves out.
set -eu -o pipefail
. "$(dirname "$0")/common.sh"
[ -x "$bench_program" ] || { echo "$0: no $bench_program: run 'tools/build bench' first" >&2; exit 1; }
lines=$root/target/compare/lines
if have_rust; then
    [ -x "$lines" ] || "$here/build.sh"
else
    lines=''
fi
made=$root/target/captures
rm -rf "$made"
mkdir -p "$made"

# make NAME OPTION...: a capture of a signal
make() {
    local name=$1; shift
    "$root/tools/make_capture" "$@" "$made/$name.cap"
}

# signals: captures of signals, whose lines only the Rust can tell
signals() {
    local bits offset end off
    for bits in 1 2 3 4 5; do
        make "clean-$bits" --bits $bits --periods 8 --seed "$bits"
        make "noisy-$bits" --kind noisy --bits $bits --periods 12 --step $((9000 * bits)) --seed "$bits" --k $((80000 * bits))
        # a locked signal that ends about the end of a block
        for off in -4 -3 -2 -1 0 1 2 3 4; do
            head -c $((131072 + off)) "$made/clean-$bits.cap" >"$made/clean-$bits-131072$off.cap"
        done
    done
    make soft-most --bits 5 --periods 7 --k 16777216
    make soft-least --bits 3 --periods 7 --k 1
    make carrier --periods 130 --step 21000 --noise 4 --bits 2
    make carrier-back --kind noisy --periods 16 --step -98765 --bits 3
    make carrier-fast --periods 12 --step 3000000
    for offset in 0 1 9272 9273 9294 9295; do
        make "offset-$offset" --offset $offset --periods 10 --bits 2 --slot $((offset % 120))
    done
    make faded --kind faded --periods 40 --offset 5000
    make cut --kind cut --periods 34 --slot 108
    make cut-0 --kind cut --periods 30 --offset 0 --slot 109
    make cut-last --kind cut --periods 30 --offset 9295 --bits 2
    make cut-last-s --kind cut --periods 30 --offset 9295 --bits 5 --slot 110
    make markers-clean --kind markers --periods 32
    make markers-last --kind markers --periods 32 --offset 9295 --bits 4
    make markers-no-mark --kind markers --periods 28 --slot 30 --slot-again 31
    make unmarked --kind unmarked --periods 252
    make unmarked-last --kind unmarked --periods 254 --offset 9295
    make noise --kind noise --periods 12
    make loud --periods 8 --level 300 --noise 40 --kind noisy
    make faint --periods 12 --level 1.5
    # a signal that ends within a symbol, and one that others follow
    make whole --periods 9
    head -c -3 "$made/whole.cap" >"$made/whole-cut.cap"
    { cat "$made/whole.cap"; printf 'more'; } >"$made/whole-more.cap"
}

make base --periods 0 --more 2
python3 "$here/captures.py" "$made/base.cap" "$made"
[ -z "$lines" ] || signals

# compared CAPTURE KIND: the lines told so are those owed
compared() {
    cmp -s "$made/told" "$made/owed" && return
    echo "$0: DIFFERENCE in $1 ($2): told <, owed >"
    diff "$made/told" "$made/owed" | head -n 10 || true
    exit 1
}

# play: the bench program's lines, from standard input. It ends with status 0 and says nothing on standard error.
play() {
    local status=0
    "$bench_program" >"$made/told" 2>"$made/said" || status=$?
    [ "$status" -eq 0 ] && [ ! -s "$made/said" ] && return
    echo "$0: bench ended with status $status: $(cat "$made/said")"
    exit 1
}

# owed FILE: the Rust's lines of a capture
owed() {
    "$lines" <"$1" >"$made/owed"
}

# briefly FILE: lines but for the soft ones, how many these are, and what all of them together are known by
briefly() {
    grep -v '^soft' "$1"
    echo "$(grep -c '^soft' "$1") soft lines; the sha256 of all lines: $(sha256sum <"$1" | cut -d ' ' -f 1)"
}

# What some captures are made for: their losses with a line before and after, joined by |.
# At the last position a loss by markers is followed by a period of zeros, a loss by periods by soft lines, with its head before it.
declare -A purpose=(
    [cut]='lost [0-9]+[|]period [1-9]' [cut-0]='lost [0-9]+[|]period [1-9]'
    [cut-last]='head [0-9]+ S .*[|]lost [0-9]+[|]soft [0-9]+ 9291 ' [cut-last-s]='head [0-9]+ F .*[|]lost [0-9]+[|]soft [0-9]+ 9291 '
    [least-size]='lost [0-9]+[|]period 0 0 0 0[|]' [markers]='lost [0-9]+[|]period [1-9]'
    [unmarked]='lost [0-9]+[|]period [1-9]' [unmarked-last]='lost [0-9]+[|]period 0 0 0 0[|]'
)

captures=0 counted=0 bytes=0 by_hand=0 left=0 seen=$made/seen
for capture in "$made"/*.cap; do
    name=$(basename "$capture" .cap)
    if [ -n "$lines" ]; then
        owed "$capture" &
        play <"$capture"
        wait $!
        [ ! -f "$made/$name.owed" ] || cmp -s "$made/$name.owed" "$made/owed" ||
            { echo "$0: the Rust's lines of $name are not document 01's"; exit 1; }
    elif [ -f "$made/$name.owed" ]; then
        cp "$made/$name.owed" "$made/owed"
        play <"$capture"
    else
        left=$((left + 1))
        continue
    fi
    compared "$name" 'a file'
    captures=$((captures + 1)) by_hand=$((by_hand + $([ -f "$made/$name.owed" ] && echo 1 || echo 0)))
    read -r l b < <(wc -lc <"$made/owed")
    counted=$((counted + l)) bytes=$((bytes + b))
    if [ -n "${purpose[$name]:-}" ]; then
        losses=$(grep -B1 -A1 '^lost' "$made/owed" | tr '\n' '|') || true
        [[ $losses =~ ${purpose[$name]} ]] || { echo "$0: $name has not the loss it is made for"; exit 1; }
    fi
    # what kinds of lines there were
    grep -v '^soft' "$made/owed" >>"$seen" || true
    awk '/^soft/ { print "width", NF - 3; exit }' "$made/owed" >>"$seen"
done

# what the captures were made for has come
expected=('refused 2' 'refused 4' 'refused 5' 'refused 11' 'refused 12' 'end 0' 'period 0 0 0 0')
[ -z "$lines" ] || expected+=('head [0-9]* S - -' 'head [0-9]* F - -' 'head [0-9]* N - -' 'head [0-9]* N 0 0' 'head [0-9]* F 118 0'
    'head [0-9]* N 0 1' 'head [0-9]* S 1 1' 'lost [0-9]*' 'period 0 0 0 1' 'width 1' 'width 2' 'width 3' 'width 4' 'width 5')
for kind in "${expected[@]}"; do
    grep -qx "$kind" "$seen" || { echo "$0: no capture has a line '$kind'"; exit 1; }
done

# The samples: their lines are stored, and are the Rust's.
samples=0
for sample in "$root"/captures/*.cap; do
    name=$(basename "$sample" .cap)
    if [ -n "$lines" ]; then
        owed "$sample"
        briefly "$made/owed" | cmp -s - "${sample%.cap}.lines" || { echo "$0: captures/$name.lines are not the Rust's"; exit 1; }
    fi
    play <"$sample"
    briefly "$made/told" | diff - "${sample%.cap}.lines" || { echo "$0: DIFFERENCE in the sample $name: told <, stored >"; exit 1; }
    samples=$((samples + 1))
done
if [ -n "$lines" ]; then
    owed "$root/crates/bench/stdin"
    cmp "$made/owed" "$root/crates/bench/stdout" || { echo "$0: crates/bench/stdout are not the Rust's lines of its stdin"; exit 1; }
fi

pieces=0
for name in base contents-of-32 table-end-after-1 symbols-end-after-3 1-bytes-follow most-symbols-and-an-odd-byte zeros zeros-3-65536+1-whole \
    clean-3 clean-5-131072-1 markers-last; do
    [ -f "$made/$name.cap" ] || continue
    if [ -n "$lines" ]; then owed "$made/$name.cap"; elif [ -f "$made/$name.owed" ]; then cp "$made/$name.owed" "$made/owed"; else continue; fi
    python3 "$here/captures.py" pieces "$made/$name.cap" | play
    compared "$name" 'odd pieces'
    pieces=$((pieces + 1))
done

# the picture in docs is made of the sample's lines
"$bench_program" <"$root/captures/markers.cap" | "$root/tools/report" --svg "$made/report.svg"
cmp -s "$made/report.svg" "$root/docs/report.svg" || { echo "$0: docs/report.svg is not that of captures/markers.cap"; exit 1; }
rm -f "$made/told" "$made/owed" "$made/said"
echo "captures: $captures played, $by_hand of them with lines written down, $samples samples, $pieces again in odd pieces:" \
    "$counted lines, $bytes bytes, no difference"
[ -n "$lines" ] || echo "NOT COMPARED WITH THE RUST: $why. Left out: $left captures here, all captures of signals, and where the samples' lines come from."
