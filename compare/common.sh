# Sourced by the scripts beside it: where things are, and how the unchanged Rust and our programs are built.
# rustc only: no cargo, no registry.

here=$(cd "$(dirname "${BASH_SOURCE[0]}")" && pwd)
root=$(cd "$here/.." && pwd)
sources=${SULTHVEIG_RUST_SRC:-$root/../shared/docs/src}
port=${PORT_DIR:-$root/target/staticlib}
sync_replay=${SYNC_REPLAY:-$root/target/bin/sync_replay}
phase_replay=${PHASE_REPLAY:-$root/target/bin/phase_replay}
demap_replay=${DEMAP_REPLAY:-$root/target/bin/demap_replay}
eq_replay=${EQ_REPLAY:-$root/target/bin/eq_replay}
frame_replay=${FRAME_REPLAY:-$root/target/bin/frame_replay}
receiver_replay=${RECEIVER_REPLAY:-$root/target/bin/receiver_replay}
bench_program=${BENCH:-$root/target/bin/bench}
phy=crates/isdbs3-phy/src
core=crates/isdbs3-core/src
# What is compared is built with little optimisation: rustc 1.95.0 loses an addition at 2 and 3 (README.md, "What is built how"). bench.sh takes 3.
optimised=1

# Names that lead a script to another program, archive or source: said when one is used, so that no answer passes for the port's unseen.
for variable in SULTHVEIG_RUST_SRC PORT_DIR SYNC_REPLAY PHASE_REPLAY DEMAP_REPLAY EQ_REPLAY FRAME_REPLAY RECEIVER_REPLAY BENCH SLIP SLIP_IN_MODEL SLOT_CUT; do
    [ -z "${!variable:-}" ] || echo "$(basename "$0"): $variable is ${!variable}"
done

# A folder that was named and has not the Rust's files is a mistake, no reason to compare nothing.
if [ -n "${SULTHVEIG_RUST_SRC:-}" ] && [ ! -f "$sources/$phy/chain/fx.rs" ]; then
    echo "$0: SULTHVEIG_RUST_SRC is $sources, and the Rust's files are not there" >&2
    exit 1
fi

# Why the Rust cannot be asked here, or nothing at all.
missing() {
    [ -f "$sources/$phy/chain/fx.rs" ] || { echo "no Rust sources at ${SULTHVEIG_RUST_SRC:-../shared/docs/src}"; return; }
    command -v rustc >/dev/null || echo "no rustc"
}

# have_rust: whether the Rust can be asked. Where it can, its files have to be the ones that were ported: sources.sha256 has what each is known
# by. Where it cannot, that is a failure under CI; elsewhere the script goes on with what needs no Rust, and says at its end what was not compared.
have_rust() {
    why=$(missing)
    if [ -n "$why" ]; then
        [ "${CI:-}" != true ] && return 1
        echo "$0: NOT COMPARED WITH THE RUST: $why" >&2
        exit 1
    fi
    (cd "$sources" && sha256sum --quiet --check "$here/sources.sha256") && return
    echo "$0: the Rust's files are not those that were ported (sources.sha256)" >&2
    exit 1
}

# Ends a script that has nothing to do without the Rust.
need_rust() {
    have_rust && return
    echo "$0: the Rust cannot be asked: $why" >&2
    exit 1
}

# Ends the script where the port's archive has not been made.
need_port() {
    [ -f "$port/libc_api.a" ] && return
    echo "$0: no libc_api.a in $port: run 'tools/build c_api_c' first" >&2
    exit 1
}

# Ends the script where a replay program of the port has not been made.
need_replay() {
    local program
    for program in "$sync_replay" "$phase_replay" "$demap_replay" "$eq_replay" "$frame_replay" "$receiver_replay"; do
        [ -x "$program" ] && continue
        echo "$0: no $program: run 'tools/build $(basename "$program")' first" >&2
        exit 1
    done
}

# copies DIR FILE...: copies of the files in DIR, under their own names; rt ci refuses links anywhere in the checkout
copies() {
    local dir=$1; shift
    mkdir -p "$dir"
    cp -f "$@" "$dir/"
}

# library EDITION OUT NAME ROOT FLAG...: one library crate
library() {
    local edition=$1 out=$2 name=$3 file=$4; shift 4
    rustc --edition "$edition" --crate-type rlib --crate-name "$name" -C opt-level=$optimised -L "$out" --out-dir "$out" "$@" "$file"
}

# tree DIR: the module tree of the crate isdbs3_phy, of copies of the unchanged files, with shims in the places of what is missing.
# rustc looks for a module beside the file that names it.
tree() {
    local tree=$1 shims=$here/shims source unused
    source=$(cd "$sources" && pwd)
    rm -rf "$tree"
    copies "$tree/core" "$shims"/isdbs3_core/*.rs "$source/$core/constellation.rs"
    copies "$tree/phy" "$source/$phy/lib.rs" "$source/$phy/eq.rs" "$shims"/isdbs3_phy/{main_signal,sync,tmcc}.rs
    copies "$tree/phy/chain" "$source/$phy/chain"/{mod,fx,sync,phase,eq,demap,frame,tmcc}.rs "$shims/isdbs3_phy/ldpc.rs"
    for unused in frontend rx chain/input chain/out chain/probe chain/synth; do
        cp -f "$shims/isdbs3_phy/empty.rs" "$tree/phy/$unused.rs"
    done
}

# stages OUT FLAG...: the crate isdbs3_phy of unchanged files.
stages() {
    local out=$1 shims=$here/shims tree=$1/tree; shift
    tree "$tree"
    library 2021 "$out" num_complex "$shims/num_complex.rs" "$@"
    library 2024 "$out" isdbs3_core "$tree/core/lib.rs" -A warnings "$@"
    library 2021 "$out" isdb_frontend "$shims/isdb_frontend.rs" --extern isdbs3_core --extern num_complex "$@"
    library 2024 "$out" isdbs3_phy "$tree/phy/lib.rs" -A warnings \
        --extern isdbs3_core --extern isdb_frontend --extern num_complex "$@"
}

# opened OUT FLAG...: the same crate under the name opened, of copies of the stages' files whose fields are opened (open.awk), so that states
# can be handed in. That nothing but words `pub` came in is looked at.
opened() {
    local out=$1 tree=$1/opened stage file; shift
    tree "$tree"
    for stage in sync phase eq demap frame; do
        file=$sources/$phy/chain/$stage.rs
        rm "$tree/phy/chain/$stage.rs"
        awk -f "$here/open.awk" "$file" >"$tree/phy/chain/$stage.rs"
        cmp -s <(sed 's/\bpub //g' "$file") <(sed 's/\bpub //g' "$tree/phy/chain/$stage.rs") && continue
        echo "$0: more than its fields was changed in the copy of $stage.rs" >&2
        exit 1
    done
    library 2024 "$out" opened "$tree/phy/lib.rs" -A warnings --extern isdbs3_core --extern isdb_frontend --extern num_complex "$@"
}

# originals OUT FLAG...: the stages, unchanged and opened, and the cases that are made of them.
originals() {
    stages "$@"
    opened "$@"
    local out=$1
    library 2021 "$out" cases "$here/src/cases.rs" --extern isdbs3_phy --extern opened --extern isdbs3_core --extern isdb_frontend
}

# program LIBS SOURCE NAME FLAG...: one program of ours, using the originals in LIBS
program() {
    local libs=$1 file=$2 exe=$3; shift 3
    rustc --edition 2021 -C opt-level=$optimised -L "$libs" --extern isdbs3_phy --extern cases -o "$exe" "$@" "$here/src/$file"
}

# with_port DIR: sets port_flags, which link the port's archive in DIR
with_port() {
    port_flags=(-L "native=$1" -l static=c_api)
}
