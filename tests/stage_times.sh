#!/bin/sh
# Runs stage_times on a row that agrees, on one that differs, and on files that are not there, and holds
# the status and the form of what it prints. `tests/stage_times.sh PROGRAM` takes a program that was
# built already.
set -u
top=$(cd "$(dirname "$(readlink -f "$0")")/.." && pwd) || exit 1
crate=$top/crates/stage_times
program=${1:-$crate/out/stage_times}
[ -f "$program" ] || (cd "$crate" && rt run) >/dev/null 2>&1
[ -x "$program" ] || chmod +x "$program" || exit 1
data=$top/crates/rvjudge/data
failed=0

# The status that is wanted, the lines as one expression, and the words.
expect() {
    status=$1
    form=$2
    shift 2
    found=$("$program" "$@")
    code=$?
    if [ "$code" -ne "$status" ] || ! echo "$found" | tr '\n' ';' | grep -Eqx "$form"; then
        echo "stage_times $*: status $code, '$found'; wanted status $status, '$form'" >&2
        failed=1
    fi
}

two='[0-9]+ [0-9]+;'
expect 0 "lines ${two}reading ${two}guessing ${two}judging ${two}joining ${two}reading and judging [0-9]+\.[0-9]{2};" \
    "$data/example.hex" "$data/example.csv" 2 3
expect 1 'a row differs, cannot be read, or shows less than guesses need;' "$data/example.hex" "$data/differs.csv" 1 1
expect 1 'the image cannot be read;' "$data/example.csv" "$data/example.csv" 1 1
expect 1 'the trace has no header that can be read;' "$data/example.hex" "$data/example.hex" 1 1
expect 2 'stage_times IMAGE TRACE WORKERS PASSES;' "$data/example.hex" "$data/example.csv" 65 1
expect 1 '.+;' "$data/example.hex" "$data/missing.csv" 1 1

[ "$failed" -eq 0 ] && echo "stage_times: ok"
exit "$failed"
