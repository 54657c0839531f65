#!/bin/sh
# Tells what the stages take through which 1,000,000 rows go, in microseconds, with one worker and
# with four, or with as many as are given after the number of passes: of a loop, of compiled code, and
# of loads and stores. crates/stage_times/src/main.rt says what is counted.
set -eu
passes=${1:-10}
workers=${2:-4}
rows=1000000
here=$(cd "$(dirname "$0")" && pwd)
program=$(sh "$here/stage_times_program.sh")
folder=$(mktemp -d)
trap 'rm -rf "$folder"' EXIT
python3 "$here/make_rows.py" "$folder/image" "$folder/trace" "$rows"
echo "a loop, with 1 and $workers workers"
"$program" "$folder/image" "$folder/trace" "$workers" "$passes"
for image in loop spread; do
    python3 "$here/../interpreter/run_compiled.py" "$here/../interpreter/compiled/$image.hex" "$folder/trace" "$rows"
    echo "compiled/$image.hex, with 1 and $workers workers"
    "$program" "$here/../interpreter/compiled/$image.hex" "$folder/trace" "$workers" "$passes"
done
