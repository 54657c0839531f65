#!/bin/sh
# Judges a 64 MiB image text with an empty trace, and prints seconds and peak memory.
# A file without a line has no header, so the trace is refused once the image is read.
set -eu
here=$(cd "$(dirname "$0")" && pwd)
folder=$(mktemp -d)
trap 'rm -rf "$folder"' EXIT
python3 - "$folder/image" <<'END'
import sys

size = 64 * 1024 * 1024
head = b"@80000000\n"
line = b" ".join(b"%02x" % byte for byte in range(16)) + b"\n"
body = size - len(head)
with open(sys.argv[1], "wb") as image:
    image.write(head + line * (body // len(line)) + b"\n" * (body % len(line)))
END
: >"$folder/trace"
"$here/../../bin/rvjudge" >/dev/null || true
python3 "$here/measure.py" --expect "refused trace: no header" \
    "$here/../../bin/rvjudge" judge "$folder/image" "$folder/trace"
