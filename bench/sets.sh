#!/bin/sh
# Measures sets of MathProg models and linear forms: what each task came to, and its time in milliseconds.
top=$(CDPATH='' cd -- "$(dirname -- "$0")/.." && pwd) || exit 1
exec "$top/bench/measure.sh" --measure sets
