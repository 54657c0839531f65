#!/bin/sh
# Judges a trace of 1,000,000 rows, or of as many as are given, and the same with every field in quotes, as some
# tools write them, and prints rows per second and peak memory of both. The trace in quotes is to take at most
# twice the seconds of the plain one.
set -eu
rows=${1:-1000000}
here=$(cd "$(dirname "$0")" && pwd)
folder=$(mktemp -d)
trap 'rm -rf "$folder"' EXIT
python3 "$here/make_rows.py" "$folder/image" "$folder/plain" "$rows"
python3 "$here/make_rows.py" "$folder/image" "$folder/quoted" "$rows" --quoted
"$here/../../bin/rvjudge" >/dev/null || true
for trace in plain quoted; do
    echo "$trace fields:"
    python3 "$here/measure.py" --expect "agrees $rows" --rows "$rows" \
        "$here/../../bin/rvjudge" judge "$folder/image" "$folder/$trace"
done
