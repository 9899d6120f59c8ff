"""rules.py COUNTS: the table of compare/README.md, from the counts that `compare --counts COUNTS` wrote in a run at the gate's size.

rules.py COUNTS --check: fails if the README has another table. Counts may be 2 % off: signals are made with sines, whose last bits are not the
same on every machine. rules.py COUNTS --write: puts the table there.
"""
import os
import re
import sys

README = os.path.join(os.path.dirname(os.path.abspath(__file__)), "README.md")
RUST, OPENED = "by the Rust", "by the Rust, opened"

# A rule of document 01, the definition, and the kinds of each part whose answers show it. A kind with a colon counts by that name.
RULES = [
    ("Arithmetic", "", {}),
    ("`round_shift`", "fx `round_shift`", {"fx": ["round_shift"]}),
    ("`div_round`", "fx `div_round`", {"fx": ["div_round"]}),
    ("`mag_approx`", "fx `mag_approx`", {"fx": ["mag_approx"]}),
    ("saturations", "fx `sat16_of`, `sat127_of`, `sat32_of`", {"fx": ["sat16", "sat127", "sat32"]}),
    ("CORDIC, its 16 steps and table", "fx `cordic_of`", {"fx": ["cordic"]}),
    ("`cordic_scale`: the least shift", "fx `cordic_scale`", {"fx": ["cordic_scale"]}),
    ("carrier lookup", "fx `cos_sin_at`, `signed_angle`", {"fx": ["cos_sin_trunc", "cos_sin_round", "signed_angle"]}),
    ("Slot sync", "", {}),
    ("correlation with a word", "sync_corr `corr`", {"sync": ["correlate"]}),
    ("a position's size: the larger of both", "sync_corr `size_of`", {"sync": ["noise", "extreme symbols", "constant symbols", "random words"]}),
    ("accumulator, floor((7a + size)/8)", "sync_lock `leak_of`", {"sync": ["noise", "extreme symbols", "constant symbols", "zeros"]}),
    ("the first greatest is the peak", "sync_lock `added_of`", {"sync": ["one symbol a period"]}),
    ("a period counts", "sync_lock `counts_of`", {"sync": ["at the ratio", "lock rule"]}),
    ("four lock, eight others lose", "sync_lock `rule_of`", {"sync": ["lock rule", "period losses, relocks", "bench values"]}),
    ("head parity; head zero waits", "sync_heads `first_of`", {"sync": ["random words", "offsets near 0, 9,295"]}),
    ("sign of an F head; majority of -8..8", "sync_heads `fsync_of`", {"sync": ["majorities", "random words"]}),
    ("marks, slot numbers, missed and stray ones", "sync_heads `fsync_taken`", {"sync": ["frames with markers"]}),
    ("frame number by the gap, 1 to 2^32 - 1", "sync_heads `frame_of`", {"sync": ["frame gaps"]}),
    ("two missed markers in a row lose", "sync_heads `fsync_taken`", {"sync": ["marker losses"]}),
    ("a loss restarts and keeps the record", "sync_step `lost_of`", {"sync": ["marker losses", "period losses, relocks"]}),
    ("a restart zeroes and keeps the record", "sync `restart_answer`", {"sync": ["random restarts", "frame gaps"]}),
    ("states handed in", "sync_step `step_of`, `run_in_range`", {"sync": ["states handed in", "states out of range"]}),
    ("Carrier and phase", "", {}),
    ("`Nco` uses its phase, then advances it", "carrier `rotated_of`", {"phase": ["rotations", "all input symbols"], "demap": ["rotate"]}),
    ("the 61st Ssync head sets the step", "carrier `heard_of`", {"phase": ["settings", "carriers handed in"]}),
    ("a restart drops the differences", "carrier `restart_answer`", {"phase": ["carriers handed in", "carrier and slots"]}),
    ("`gain_of`", "phase `gain_of`", {"phase": ["gains"], "demap": ["gain_of"]}),
    ("a slot needs 9,296 symbols, more are ignored", "phase `pushed_of`, `due_of`", {"phase": ["pushes", "slots too short"]}),
    ("a corrected symbol", "phase `corrected_of`", {"phase": ["parts of slots", "whole slots"]}),
    ("Equaliser and solver", "", {}),
    ("11 taps, 14 fraction bits, five late", "eq_fir `output_of`", {"eq": ["first symbols", "rounding", "extremes", "outputs"]}),
    ("66 and 11 entries, a training's products", "eq_train `trained_sums`", {"eq": ["trainings", "short lines"]}),
    ("taps solved from sums", "solve `taps_of`", {"eq": ["solved trainings: taps alike", "systems handed in: taps alike", "rounded taps: taps alike"]}),
    ("elimination in f64, pivot by squares", "solve_step `solution_of`", {"eq": ["solve, any", "solve, exact", "solve, of sums", "solve, right side", "solve, no numbers"]}),
    ("open, close, load, restart", "eq `started_eq`, `with_sums`, `loaded_eq`", {"eq": ["calls at random"]}),
    ("states handed in", "eq `eq_in_range`", {"eq": ["states handed in", "limits", "counts"]}),
    ("Demapper and learning", "", {}),
    ("soft bits and least metric", "demap `soft_bits`, `least_metric`", {"demap": [f"demap, {bits} bits" for bits in range(1, 6)] + ["metrics and blocks"]}),
    ("`scale_of`", "demap `scale_of`", {"demap": ["scale_of"]}),
    ("learned points, noise figure", "learn `mean_at`, `mean_noise`", {"demap": ["frames", "halves", "states led to", "handed-in states"]}),
    ("`InForce::next`, the points in force", "in_force `renewed_of`", {"demap": ["next after next", "limits in force"]}),
    ("Slot map, alignment, receiver", "", {}),
    ("the slot map", "frame_map `part_of`", {"frame": ["part"]}),
    ("a sync symbol's reference, word x 724", "frame_map `reference_of`", {"frame": ["reference"]}),
    ("five symbols late; a gap", "frame `pushed_back`", {"frame": ["whole frames", "gaps", "states in Back"]}),
    ("a symbol through the chain", "receiver `symbol_answer`", {"receiver": ["locked, all bits", "offsets 0 and 9,295", "fades and cuts", "calls on the way"]}),
    ("a loss or a restart restarts all; kept values", "receiver `started`", {"receiver": ["markers and their loss", "fades and cuts", "full sums"]}),
    ("sync symbols train", "receiver_slot `aligned_all`", {"receiver": ["locked, all bits: trainings by the Rust", "fades and cuts: trainings by the Rust", "calls on the way: trainings by the Rust"]}),
    ("soft values in order", "receiver_slot `soft_all`", {"receiver": ["locked, all bits: soft values by the Rust", "calls on the way: soft values by the Rust"]}),
    ("a feed is its symbols", "receiver `feed_of`", {"receiver": ["noise: symbols of long feeds", "locked, all bits: symbols of long feeds", "positions: symbols of long feeds"]}),
    ("receivers handed in", "receiver `receiver_in_range`", {"receiver": ["damage", "states that do not fit"]}),
]


def defined(crate, name):
    """Whether the crate's specs declare it."""
    folder = os.path.join(os.path.dirname(README), "..", "crates", crate, "specs")
    texts = [open(os.path.join(folder, file)).read() for file in os.listdir(folder) if file.endswith(".antt")]
    return any(re.search(rf"\bpub {name} :", text) for text in texts)


def counts(path):
    found = {}
    with open(path) as file:
        for line in file:
            part, rest = line.rstrip("\n").split(": ", 1)
            kind, name, n = rest.rsplit(": ", 2)
            found[part, kind, name] = int(n)
    return found


def asked(found, part, kind):
    """The counts of a kind, by the Rust as it is and opened."""
    if ": " in kind:
        kind, name = kind.split(": ")
        return found[part, kind, name], 0
    return found.get((part, kind, RUST), 0), found.get((part, kind, OPENED), 0)


def table(found):
    lines = ["| rule | definition | kinds | by the Rust | opened |", "|---|---|---|---|---|"]
    for rule, definition, parts in RULES:
        if not parts:
            lines.append(f"| **{rule}** | | | | |")
            continue
        crate, *names = re.findall(r"\w+", definition)
        missing = [name for name in names if not defined(crate, name)]
        if missing:
            sys.exit(f"rules.py: {crate} defines no {', '.join(missing)}")
        both = [asked(found, part, kind) for part, kinds in parts.items() for kind in kinds]
        rust, opened = (sum(n) for n in zip(*both))
        if rust + opened == 0:
            sys.exit(f"rules.py: the Rust is not asked for: {rule}")
        kinds = "; ".join(f"{part}: {', '.join(f'*{kind}*' for kind in kinds)}" for part, kinds in parts.items())
        lines.append(f"| {rule} | {definition} | {kinds} | {rust:,} | {f'{opened:,}' if opened else ''} |")
    return "\n".join(lines) + "\n"


def cells(text):
    """A table's cells, counts as numbers."""
    for line in text.splitlines():
        *texts, rust, opened = (cell.strip() for cell in line.strip("|").split("|"))
        yield texts, [int(n.replace(",", "")) if n.replace(",", "").isdigit() else n for n in (rust, opened)]


def alike(a, b):
    def near(m, n):
        return m == n or isinstance(m, int) and isinstance(n, int) and abs(m - n) <= 0.02 * max(m, n)

    a, b = list(cells(a)), list(cells(b))
    return len(a) == len(b) and all(x == y and all(map(near, m, n)) for (x, m), (y, n) in zip(a, b))


def main():
    made = table(counts(sys.argv[1]))
    if len(sys.argv) == 2:
        return print(made, end="")
    with open(README) as file:
        text = file.read()
    there = re.search(r"\| rule \| definition \|(?:.*\n)(?:\|.*\n)*|RULES_TABLE\n", text)
    if sys.argv[2] == "--write":
        with open(README, "w") as file:
            file.write(text.replace(there.group(), made))
    elif not alike(there.group(), made):
        sys.exit("rules.py: the table of compare/README.md is not what was counted; 'rules.py COUNTS --write' puts it there")


if __name__ == "__main__":
    main()
