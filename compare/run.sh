#!/bin/bash
# run.sh [PART...] [--quick | --full] [--seed N]: builds, then compares the port with the Rust. Used by the gate, without arguments and with
# one fixed seed; a full run has the day's seed if none is given. Without a part the stored vectors and the traces are held to the Rust too.
# Where the Rust cannot be asked the replay programs are held to the stored vectors, and the end says what was not compared.
set -eu
. "$(dirname "$0")/common.sh"
need_replay
stages=(sync phase demap eq frame receiver)

# replay_stored: each replay program makes of its stored calls the stored answers
replay_stored() {
    local name answers=0
    for name in fx "${stages[@]}"; do
        cmp -s <("$root/target/bin/${name}_replay" <"$root/crates/${name}_replay/stdin") "$root/crates/${name}_replay/stdout" ||
            { echo "$0: ${name}_replay does not answer as its stored vectors"; exit 1; }
        answers=$((answers + $(stat -c %s "$root/crates/${name}_replay/stdout")))
    done
    echo "stored vectors: 7 programs, $answers bytes of answers: no difference"
}

# stored_vectors: the stored vectors are what `vectors` makes of the Rust and of document 01
stored_vectors() {
    local name file made=$root/target/compare/vectors-made
    for name in fx "${stages[@]}"; do
        mkdir -p "$made/$name"
        "$root/target/compare/vectors" "$name" "$made/$name" >/dev/null
        for file in stdin stdout; do
            cmp "$made/$name/$file" "$root/crates/${name}_replay/$file" ||
                { echo "$0: crates/${name}_replay/$file is not what 'vectors $name' makes"; exit 1; }
        done
    done
    echo "the stored vectors of 7 programs are those of the Rust"
}

if ! have_rust; then
    replay_stored
    echo "NOT COMPARED WITH THE RUST: $why. Left out: fx ${stages[*]}, the traces, the making of the vectors."
    exit 0
fi

parts=() full='' seeded=''
for argument; do
    case $argument in
        --full) full=1 ;;
        --seed) seeded=1 ;;
        --* | [0-9]*) ;;
        *) parts+=("$argument") ;;
    esac
done
"$here/build.sh"
if [ ${#parts[@]} -eq 0 ]; then
    "$here/traces.sh" --check
    stored_vectors
else
    echo "run.sh: only ${parts[*]}; left out: the traces, the stored vectors and all other parts"
fi
[ -z "$full" ] || [ -n "$seeded" ] || set -- "$@" --seed "$(date +%Y%m%d)"
export SYNC_REPLAY=$sync_replay PHASE_REPLAY=$phase_replay DEMAP_REPLAY=$demap_replay EQ_REPLAY=$eq_replay FRAME_REPLAY=$frame_replay
export RECEIVER_REPLAY=$receiver_replay
counts=$root/target/compare/counts
"$root/target/compare/compare" --counts "$counts" "$@"
# what the gate counts is what README.md says
[ $# -gt 0 ] || python3 "$here/rules.py" "$counts" --check
