#!/bin/sh
# How long a run takes to start from 64 MiB, and to write them: starts_64mib.sh [PROGRAM [MIB]], with MIB another size
# up to 128. Judges an empty trace from ELF files with so many zeros, zeros that are not in the file, and other bytes;
# writes the state of the latter, 214 MB of text for 64 MiB, and judges an empty trace from it. The state must be
# written again as it was read.
set -eu
here=$(cd "$(dirname "$0")" && pwd)
program=${1:-$here/../../bin/rvjudge}
size=${2:-64}
folder=$(mktemp -d)
trap 'rm -rf "$folder"' EXIT
python3 - "$folder" "$size" <<'END'
import struct
import sys

SIZE, BASE = int(sys.argv[2]) << 20, 0x80000000
for name, data in (("unstored", b""), ("zeros", bytes(SIZE)), ("bytes", bytes(range(1, 256)) * (SIZE // 255 + 1))):
    data = data[:SIZE]
    head = b"\x7fELF\2\1\1" + bytes(9) + struct.pack("<HHIQQQIHHHHHH", 2, 243, 1, BASE, 64, 0, 0, 64, 56, 1, 0, 0, 0)
    segment = struct.pack("<IIQQQQQQ", 1, 7, 120, BASE, BASE, len(data), SIZE, 4096)
    with open(f"{sys.argv[1]}/{name}", "wb") as image:
        image.write(head + segment + data)
END
echo insn,pc_rdata >"$folder/trace"
"$program" >/dev/null || true

from_image() {
    echo "from $1:"
    python3 "$here/measure.py" --expect 'agrees 0' "$program" judge "$folder/$2" "$folder/trace"
}

# The image, and where the state is written.
write_state() {
    # shellcheck disable=SC2016  # the words of sh -c
    python3 "$here/measure.py" --expect '' \
        sh -c '"$1" state "$2" "$3" >"$4"' '' "$program" "$folder/$1" "$folder/trace" "$folder/$2"
}

from_image "an ELF file of $size MiB that are zero, not stored" unstored
from_image "an ELF file of $size MiB that are zero" zeros
from_image "an ELF file of $size MiB that are not zero" bytes
echo 'from that, and its state is written:'
write_state bytes state
echo "bytes of the state: $(wc -c <"$folder/state")"
from_image "a state of $size MiB that are not zero" state
echo 'from that, and the state is written again:'
write_state state again
cmp "$folder/state" "$folder/again"
