#!/bin/sh
# Runs the program for each status from 0 to 5, in a folder of its own, and compares the status and
# what it wrote; then bin/rvjudge where it cannot build. `tests/statuses.sh PROGRAM` takes a program
# that was built already.
set -u
top=$(cd "$(dirname "$(readlink -f "$0")")/.." && pwd) || exit 1
program=$(readlink -f "${1:-$top/bin/rvjudge}")
folder=$(mktemp -d) || exit 1
trap 'rm -rf "$folder"' EXIT
cd "$folder" || exit 1
failed=0

# The status and the line that are wanted, and the words.
expect() {
    status=$1
    line=$2
    shift 2
    found=$("$program" "$@")
    code=$?
    if [ "$code" -ne "$status" ] || [ "$found" != "$line" ]; then
        echo "rvjudge $*: status $code, '$found'; wanted status $status, '$line'" >&2
        failed=1
    fi
}

printf '@80000000 93 00 50 00' >"an image.hex"
printf '@80000000\n9' >bad.hex
printf 'insn,pc_rdata,rd_addr,rd_wdata\n0x00500093,0x80000000,1,5\n' >agrees.csv
printf 'insn,pc_rdata,rd_addr,rd_wdata\n0x00500093,0x80000000,1,6\n' >differs.csv
printf 'insn\n' >bad.csv
printf 'insn,pc_rdata\n' >header.csv

expect 0 'agrees 1' judge "an image.hex" agrees.csv
expect 1 'differs row 1: rd_wdata expected 0x0000000000000005 found 0x0000000000000006' \
    judge "an image.hex" differs.csv
expect 2 'refused words'
expect 2 'refused words' judge "an image.hex"
expect 2 'refused words' --help
expect 2 'refused words' judge "an image.hex" agrees.csv --csr mie=0,mie=0
expect 2 'refused words' judge "an image.hex" agrees.csv --profile core
expect 0 'agrees 1' judge "an image.hex" agrees.csv --csr mstatus=0x7E7FAA,time=none --pmp 8 \
    --pmp-bits 34 --lines 0xAA8 --mtval zero:2,3 --insn length --io-faults row \
    --io 0x10000000:0x1000,0x20000000:0x1000 --profile qemu
expect 3 'refused image: line 2: bad byte' judge bad.hex agrees.csv
expect 4 'refused trace: no column pc_rdata' judge "an image.hex" bad.csv
expect 5 '' judge "an image.hex" missing.csv

# auipc x1,0; sb x1,1(x1); lhu x2,0(x1), whose value is another in the trace.
printf '@80000000 97 00 00 00 a3 80 10 00 03 d1 00 00' >reads.hex
printf '%s\n' insn,pc_rdata,rd_addr,rd_wdata 0x97,0x80000000,1,0x80000000 \
    0x1080a3,0x80000004,0,0 0xd103,0x80000008,2,1 >reads.csv
difference='differs row 3: rd_wdata expected 0x0000000000000097 found 0x0000000000000001'
expect 1 "$difference" judge reads.hex reads.csv
expect 1 "$difference
origin x1 row 1
origin byte 0x0000000080000000 image
origin byte 0x0000000080000001 row 2" judge reads.hex reads.csv --origin
expect 0 'agrees 1' judge --origin "an image.hex" agrees.csv

expect 1 'differs row 1: rd_wdata expected 0x0000000000000005 found 0x0000000000000006' \
    state "an image.hex" differs.csv
expect 2 'refused words' state "an image.hex"
expect 2 'refused words' state "an image.hex" agrees.csv --origin
expect 5 '' state "an image.hex" missing.csv

# A state is written, and a run begins from it.
"$program" state "an image.hex" agrees.csv >after
code=$?
lines=$(sed -n '1,3p;7p;$p' after | tr '\n' ' ')
if [ "$code" -ne 0 ] ||
    [ "$lines" != 'rvstate 1 pc 0000000080000004 mode 3 x1 0000000000000005 end ' ]; then
    echo "state: status $code, '$lines'" >&2
    failed=1
fi
expect 1 'differs row 1: pc_rdata expected 0x0000000080000004 found 0x0000000080000000' \
    judge after agrees.csv
expect 0 'agrees 1' judge after agrees.csv --pc 0x80000000
expect 0 "$(cat after)" state after header.csv
sed 's/^mode 3/mode 2/' after >bad.state
expect 3 'refused image: line 3: bad line' judge bad.state agrees.csv

# Standard output that takes nothing is a failed write, and so is one that takes a part of a state.
if [ -w /dev/full ]; then
    for command in judge state; do
        "$program" $command "an image.hex" agrees.csv >/dev/full
        code=$?
        [ "$code" -eq 5 ] ||
            { echo "$command onto /dev/full: status $code, wanted 5" >&2; failed=1; }
    done
fi
seq -f '@800%05g 01' 10000 10 29999 >many.hex
"$program" state many.hex header.csv >whole
(trap '' XFSZ; ulimit -f 16; "$program" state many.hex header.csv >part)
code=$? taken=$(wc -c <part)
if [ "$code" -ne 5 ] || [ "$taken" -ge "$(wc -c <whole)" ] || ! cmp -n "$taken" part whole; then
    echo "a state that is not taken whole: status $code, $taken bytes; wanted 5 and its front" >&2
    failed=1
fi

# Without rt nothing can be built.
mkdir -p copy/bin copy/crates/rvjudge
cp "$top/bin/rvjudge" copy/bin/
PATH=/usr/bin:/bin copy/bin/rvjudge judge "an image.hex" agrees.csv 2>/dev/null
code=$?
[ "$code" -eq 70 ] || { echo "bin/rvjudge without rt: status $code, wanted 70" >&2; failed=1; }

[ "$failed" -eq 0 ] && echo "statuses: ok"
exit "$failed"
