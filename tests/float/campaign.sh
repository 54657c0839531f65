#!/bin/sh
# Holds float_vectors against this machine's own floats on drawn operands, edges often, a million at a
# time: `tests/float/campaign.sh MILLIONS [PROGRAM]`.
set -u
here=$(cd "$(dirname "$(readlink -f "$0")")" && pwd) || exit 1
millions=${1:?campaign.sh MILLIONS [PROGRAM]}
program=${2:-$here/../../crates/float_vectors/out/float_vectors}
work=$(mktemp -d) || exit 1
trap 'rm -rf "$work"' EXIT

machine=
grep -qw fma /proc/cpuinfo && machine=-mfma
gcc -O1 -frounding-math -ffp-contract=off $machine -o "$work/campaign" "$here/campaign.c" -lm || exit 1
seed=0
while [ "$seed" -lt "$millions" ]; do
    seed=$((seed + 1))
    "$work/campaign" "$seed" 1000000 > "$work/drawn" || exit 1
    sh "$here/vectors.sh" "$work/drawn" "$program" || exit 1
done
