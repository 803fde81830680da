#!/bin/sh
# Measures the operations of fractions, and the same in Rust where rustc is at hand. Each line has a kind
# of samples, and the median time of add, mul, mul_add and cmp on them in tenths of a nanosecond; the last lines have that of
# a text of 60 places and of one of 60 significant digits.
top=$(CDPATH='' cd -- "$(dirname -- "$0")/.." && pwd) || exit 1
echo "Rattle"
"$top/bench/measure.sh" --measure fractions || exit 1
command -v rustc >/dev/null 2>&1 || exit 0
made=$(mktemp -d) || exit 1
trap 'rm -rf "$made"' EXIT
rustc -O "$top/bench/fractions.rs" -o "$made/fractions" || exit 1
echo "Rust, i128 and Euclid's algorithm"
"$made/fractions"
