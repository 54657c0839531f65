#!/bin/sh
# Prints the path of the program of crates/stage_times, which is built where it has to be.
set -eu
crate=$(cd "$(dirname "$0")/../../crates/stage_times" && pwd)
program=$crate/out/stage_times
if [ ! -f "$program" ]; then
    log=$(mktemp)
    trap 'rm -f "$log"' EXIT
    (cd "$crate" && rt run) >"$log" 2>&1 || [ -f "$program" ] || {
        cat "$log" >&2
        exit 70
    }
fi
[ -x "$program" ] || chmod +x "$program"
echo "$program"
