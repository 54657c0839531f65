#!/bin/sh
# Looks for data races in runs of four workers with valgrind's DRD: `tests/races.sh [PROGRAM]`, where
# PROGRAM is a file that was built, not a script. It needs valgrind, Python and a C compiler, and takes
# some minutes. First it sees that DRD tells a race that is there.
set -u
top=$(cd "$(dirname "$(readlink -f "$0")")/.." && pwd) || exit 1
program=$(readlink -f "${1:-$top/crates/rvjudge/out/rvjudge}")
folder=$(mktemp -d) || exit 1
trap 'rm -rf "$folder"' EXIT
cd "$folder" || exit 1
race=99
failed=0

drd() {
    valgrind --quiet --tool=drd --error-exitcode=$race "$@"
}

# The status and the first line that are wanted, and the words.
expect() {
    status=$1
    line=$2
    shift 2
    found=$(drd "$program" "$@" --workers 4 2>races)
    code=$?
    if [ "$code" -ne "$status" ] || [ "$(echo "$found" | head -n 1)" != "$line" ]; then
        echo "rvjudge $*: status $code, '$found'; wanted status $status, '$line'" >&2
        head -n 20 races >&2
        failed=1
    fi
}

cat >race.c <<'C'
#include <pthread.h>
int count;
static void *add(void *none) { for (int i = 0; i < 1000; i++) count++; return none; }
int main(void) {
    pthread_t one, other;
    pthread_create(&one, 0, add, 0);
    pthread_create(&other, 0, add, 0);
    pthread_join(one, 0);
    pthread_join(other, 0);
    return 0;
}
C
cc -O0 -pthread -o race race.c || exit 1
drd ./race 2>races
[ $? -eq $race ] || { echo "DRD does not tell a race that is there" >&2; exit 1; }

python3 "$top/benchmarks/speed/make_rows.py" loop.hex loop.csv 4000 || exit 1
# Without x1 to x3 nothing tells how a segment begins: nearly every guess is wrong.
cut -d, -f2,3 loop.csv >bare.csv
# The loop in which one row gives another value.
awk -F, -v OFS=, 'NR == 3002 { $5 = "0x123" } { print }' loop.csv >altered.csv
difference=$("$program" judge loop.hex altered.csv --workers 1)

# Windows of several segments, one segment a row, and more segments than fit a window.
for cut in "4096 64" "100 8" "50 1" "7 3" "1 64"; do
    segment=${cut% *}
    window=${cut#* }
    expect 0 'agrees 4000' judge loop.hex loop.csv --segment "$segment" --window "$window"
    expect 0 'agrees 4000' judge loop.hex bare.csv --segment "$segment" --window "$window"
    expect 1 "$difference" judge loop.hex altered.csv --segment "$segment" --window "$window" --origin
done
expect 0 'made 7 3000: agrees 3000' make 7 3000 --segment 100 --window 4
expect 0 'rvstate 1' state loop.hex loop.csv --segment 100 --window 4
for trace in example differs; do
    line=$("$program" judge "$top/crates/rvjudge/data/example.hex" "$top/crates/rvjudge/data/$trace.csv")
    expect $? "$line" judge "$top/crates/rvjudge/data/example.hex" "$top/crates/rvjudge/data/$trace.csv" \
        --segment 1 --window 2
done
[ "$failed" -eq 0 ] && echo "no race"
exit "$failed"
