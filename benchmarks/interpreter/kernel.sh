#!/bin/sh
# Judges the trace of the kernel in kernel/, which runs programs of U under Sv39 with a timer, and prints rows per
# second and peak memory: kernel.sh [PROGRAM]. The program is bin/rvjudge, or the one given. Then the trace is cut in
# the middle: from the state after its first half the second must lead to the state after the whole, whose text must be
# written again as it is read.
set -eu
here=$(cd "$(dirname "$0")" && pwd)
program=${1:-$here/../../bin/rvjudge}
image=$here/kernel/kernel.hex io=0x100000:0xff01000
folder=$(mktemp -d)
trap 'rm -rf "$folder"' EXIT
rows=$(python3 "$here/run_kernel.py" "$image" "$folder/trace")
"$program" >/dev/null || true
python3 "$here/../speed/measure.py" --expect "agrees $rows" --rows "$rows" \
    "$program" judge "$image" "$folder/trace" --io $io

half=$((rows / 2))
head -n $((half + 1)) "$folder/trace" >"$folder/front"
sed -n "1p;$((half + 2)),\$p" "$folder/trace" >"$folder/back"
head -n 1 "$folder/trace" >"$folder/header"
"$program" state "$image" "$folder/front" --io $io >"$folder/middle"
"$program" state "$image" "$folder/trace" --io $io >"$folder/end"
"$program" state "$folder/middle" "$folder/back" --io $io | cmp - "$folder/end"
"$program" state "$folder/end" "$folder/header" --io $io | cmp - "$folder/end"
echo "the state after them: $(wc -c <"$folder/end") bytes, the same from the state after $half rows, and read again"
