#!/bin/sh
# Runs the measuring program on these words, as: bench/measure.sh --measure fractions
# Its sources, bench/measure/src/*.rt.txt, stand apart from crates/, so that the gate does not pay for its proof. Where it is not there,
# or a source is newer, it is proved and built first, as one more crate of a scratch copy of crates/.
top=$(CDPATH='' cd -- "$(dirname -- "$0")/.." && pwd) || exit 1
own=$top/bench/measure
program=$own/out/measure

needs() {
    echo "fraction decimals rational instance certificate certificate_reader cert_check gmpl_value gmpl_functions model_text gmpl_token" \
        "gmpl_lexer gmpl_syntax gmpl_blocks gmpl_generate gmpl_parse certificate_lines solution_writer sqlite_items cplex_lp_reader"
}

build() {
    scratch=$(mktemp -d) || return
    # with links where that goes, so that what is proved of the crates need not be proved anew
    cp -al "$top/crates" "$top/crates.txt" "$top/HANDLES" "$scratch" 2>/dev/null || cp -a "$top/crates" "$top/crates.txt" "$top/HANDLES" "$scratch" || return
    rm -f "$scratch/crates.txt" && cp "$top/crates.txt" "$scratch" || return
    echo "measure: $(needs)" >>"$scratch/crates.txt"
    crate=$scratch/crates/measure
    mkdir -p "$crate/src" "$crate/proofs/certificate_samples/+add_tree" "$own/out" || return
    for file in "$own"/src/*.rt.txt; do
        cp "$file" "$crate/src/$(basename "$file" .txt)" || return
    done
    cp "$own/add_tree.antt.txt" "$crate/proofs/certificate_samples/+add_tree/Invariants.antt" || return
    (cd "$crate" && rt run) >"$own/out/log" 2>&1 </dev/null
    cp "$crate/out/measure" "$program"
    status=$?
    rm -rf "$scratch"
    return "$status"
}

if [ ! -x "$program" ] || [ -n "$(find "$top/crates" "$own" \( -name '*.rt' -o -name '*.antt' -o -name '*.txt' \) -newer "$program" | head -n 1)" ]; then
    build || {
        echo "measure.sh: the program could not be built: $own/out/log" >&2
        exit 1
    }
fi
exec "$program" "$@"
