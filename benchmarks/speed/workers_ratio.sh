#!/bin/sh
# Tells how many times as fast four workers, or as many as are given after the number of trials, read
# and judge 1,000,000 rows of compiled code, and of loads and stores, as one worker does: by trials in
# which the host took next to nothing of the processors. workers_ratio.py says what is measured.
set -eu
trials=${1:-60}
workers=${2:-4}
rows=1000000
here=$(cd "$(dirname "$0")" && pwd)
program=$(sh "$here/stage_times_program.sh")
folder=$(mktemp -d)
trap 'rm -rf "$folder"' EXIT
for image in loop spread; do
    python3 "$here/../interpreter/run_compiled.py" "$here/../interpreter/compiled/$image.hex" "$folder/$image" "$rows"
done
python3 "$here/workers_ratio.py" --trials "$trials" --workers "$workers" "$program" \
    "$here/../interpreter/compiled/loop.hex=$folder/loop" "$here/../interpreter/compiled/spread.hex=$folder/spread"
