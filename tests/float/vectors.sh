#!/bin/sh
# Runs float_vectors on a file of lines `operation,mode,a,b,c,result,flags`, a header or none before them,
# and holds each result and the flags. `tests/float/vectors.sh FILE [PROGRAM]` takes a program that was
# built already.
set -u
top=$(cd "$(dirname "$(readlink -f "$0")")/../.." && pwd) || exit 1
crate=$top/crates/float_vectors
file=${1:?vectors.sh FILE [PROGRAM]}
program=${2:-$crate/out/float_vectors}
[ -f "$program" ] || (cd "$crate" && rt run) >/dev/null 2>&1
[ -x "$program" ] || chmod +x "$program" || exit 1
work=$(mktemp -d) || exit 1
trap 'rm -rf "$work"' EXIT

grep -v '^op' "$file" > "$work/lines"
"$program" < "$work/lines" > "$work/found" || exit 1
awk -F, '{ printf "%s%s,%s\n", substr("0000000000000000", 1 + length($6)), $6, $7 }' "$work/lines" > "$work/wanted"
paste -d' ' "$work/found" "$work/wanted" "$work/lines" | awk '$1 != $2' > "$work/differ"
if [ -s "$work/differ" ]; then
    echo "found, wanted, line:" >&2
    head -20 "$work/differ" >&2
    exit 1
fi
echo "vectors: ok, $(wc -l < "$work/lines") lines"
