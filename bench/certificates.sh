#!/bin/sh
# Measures, in both versions, the check of certificates whose trees are a chain and a balanced tree, and the reading of a long one.
top=$(CDPATH='' cd -- "$(dirname -- "$0")/.." && pwd) || exit 1
exec "$top/bench/measure.sh" --measure certificates
