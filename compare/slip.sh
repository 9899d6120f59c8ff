#!/bin/bash
# slip.sh [--seeds N] [PART...]: shows that the comparison can fail. Links `compare` to a stand-in for the port's C functions, made of the Rust
# itself, and gives it stand-ins for the replay programs, made of the models. Plants one slip after another in them: each must be found, of a
# C function in that function; no slip, no difference. Then plants each slip of a stage in the model too, and slips of the C functions' refusals
# in both sides, as a definition that is wrong and was ported as it stands: only the Rust, or what the calls assert, can show it, and
# slip/unseen.txt lists those that it cannot show, with the reason. All with N seeds (1), the first of which is the gate's.
set -eu
. "$(dirname "$0")/common.sh"
need_rust
out=$root/target/compare/slip
mkdir -p "$out/libs"
originals "$out/libs" -C overflow-checks=on -C debug-assertions=on

# an object alone, without std: `compare` brings its own
rustc --edition 2021 --crate-type lib --crate-name stand_in -C opt-level=$optimised -C codegen-units=1 --emit obj \
    -L "$out/libs" --extern isdbs3_phy --extern cases -o "$out/stand_in.o" "$here/slip/stand_in.rs"
rm -f "$out/libc_api.a"
ar crs "$out/libc_api.a" "$out/stand_in.o"
with_port "$out"
program "$out/libs" main.rs "$out/compare" "${port_flags[@]}"

# a stand-in for a stage's replay program
for stage in sync phase demap eq frame receiver; do
    rustc --edition 2021 -C opt-level=$optimised -L "$out/libs" --extern isdbs3_phy --extern cases \
        -o "$out/${stage}_stand_in" "$here/slip/${stage}_stand_in.rs"
done
export SYNC_REPLAY=$out/sync_stand_in PHASE_REPLAY=$out/phase_stand_in DEMAP_REPLAY=$out/demap_stand_in EQ_REPLAY=$out/eq_stand_in
export FRAME_REPLAY=$out/frame_stand_in RECEIVER_REPLAY=$out/receiver_stand_in

seeds=(20261115)
if [ "${1:-}" = --seeds ]; then
    for ((n = 1; n < $2; n++)); do seeds+=($((7919 * n))); done
    shift 2
fi

# slips FILE: the names of the slips in a file, each with its function if it has one. Only their tables have entries indented by four.
slips() {
    sed -n 's/^    ("\([a-z0-9_]*\)", \("\([a-z0-9_]*\)"\)\?.*/\1 \3/p' "$here/$1"
}

# played PART SEED: whether the comparison passes; its output is in the part's log
played() {
    "$out/compare" "$1" --quick --seed "$2" >"$out/log-$1" 2>&1
}

# not_found WHAT: ends the script
not_found() {
    cat "$out/log-$part"
    echo "slip.sh: $1"
    exit 1
}

# find_all PART FILE LEAST: compares a part with its stand-in, without a slip and with each of FILE's, at least LEAST
find_all() {
    local part=$1 file=$2 least=$3 found=0 slip function seed
    for seed in "${seeds[@]}"; do
        played "$part" "$seed" || not_found "a difference without a slip, seed $seed"
        echo "no slip, seed $seed: $(tail -n 1 "$out/log-$part")"
        found=0
        while read -r slip function; do
            if SLIP=$slip played "$part" "$seed" || ! grep -q "^DIFFERENCE in ${function:+$function:}" "$out/log-$part"; then
                not_found "$slip${function:+ in $function} was not found, seed $seed"
            fi
            echo "$slip: $(grep '^DIFFERENCE' "$out/log-$part")"
            found=$((found + 1))
        done < <(slips "$file")
        [ "$found" -ge "$least" ] || { echo "slip.sh: only $found slips of $part tried"; exit 1; }
        echo "all $found planted slips of $part were found, seed $seed"
    done
}

# unseen PART SLIP: why the Rust cannot show this slip, or nothing
unseen() {
    sed -n "s/^$1 $2: //p" "$here/slip/unseen.txt"
}

# find_in_model PART FILE [SLIP]: the slips of FILE in what answers are held to, and with SLIP in the stand-in too. The stand-in of a C function
# has the same refusals as these, so that it needs none.
find_in_model() {
    local part=$1 file=$2 both=${3:-} found=0 passed=0 slip seed reason
    for seed in "${seeds[@]}"; do
        found=0 passed=0
        while read -r slip _; do
            reason=$(unseen "$part" "$slip")
            if SLIP=${both:+$slip} SLIP_IN_MODEL=$slip played "$part" "$seed"; then
                [ -n "$reason" ] || not_found "$slip in the model too was not found, seed $seed"
                echo "$slip in the model too passes: $reason"
                passed=$((passed + 1))
                continue
            fi
            [ -z "$reason" ] || not_found "$slip in the model too is found, and slip/unseen.txt says that it is not"
            grep -q '^DIFFERENCE\|^TOO FEW\|panicked at' "$out/log-$part" || not_found "$slip in the model too ended in another way"
            echo "$slip in the model too: $(grep -A1 '^DIFFERENCE\|^TOO FEW\|panicked at' "$out/log-$part" | head -n 2 | cut -c 1-160 | tr '\n' ' ')"
            found=$((found + 1))
        done < <(slips "$file")
        [ "$found" -ge 6 ] || { echo "slip.sh: only $found slips of $file found in the model too"; exit 1; }
        echo "of the slips of $file in the model too $found were found, $passed cannot be, seed $seed"
    done
}

# A line of the list that names no slip is a mistake.
while IFS=': ' read -r part slip _; do
    [[ -z $part || $part == '#'* ]] && continue
    slips "src/$part/slips.rs" | grep -qx "$slip " || { echo "slip.sh: slip/unseen.txt names $part $slip, and there is no such slip"; exit 1; }
done <"$here/slip/unseen.txt"

stage() {
    find_all "$1" "src/$1/slips.rs" "$2"
    find_in_model "$1" "src/$1/slips.rs" SLIP
}

[ $# -gt 0 ] || set -- fx sync phase demap eq frame receiver
for part; do
    case $part in
        fx) find_all fx slip/stand_in.rs 17 && find_in_model fx src/fx.rs ;;
        sync) find_all sync slip/correlate.rs 5 && find_in_model sync src/sync/correlate.rs && stage sync 37 ;;
        phase) stage phase 25 ;;
        demap) find_all demap slip/soft.rs 9 && find_in_model demap src/demap/soft.rs && stage demap 23 ;;
        eq) find_all eq slip/solve.rs 4 && stage eq 32 ;;
        frame) find_all frame slip/place.rs 4 && find_all frame slip/reference.rs 6 && find_in_model frame src/frame/reference.rs && stage frame 34 ;;
        receiver) stage receiver 65 ;;
        *) echo "usage: slip.sh [--seeds N] [fx] [sync] [phase] [demap] [eq] [frame] [receiver]" >&2; exit 2 ;;
    esac
done
