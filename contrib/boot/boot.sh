#!/bin/sh
# Firmware from qemu to a verdict, live: boot.sh [ROWS] [PROGRAM].
#
# OpenSBI and U-Boot, as Debian has them, run in qemu. What qemu tells of the run goes through pipes
# to the judge, and nothing of it is kept. The run ends after ROWS rows, or where ROWS is 0 or not
# given, at U-Boot's prompt. The judge is PROGRAM, or bin/rvjudge.
#
# Where KEEP names a folder it gets the image (boot.rvstate), the trace (boot.csv), the judge's
# options (boot.options) and what the firmware wrote to its serial port (boot.serial): for
# contrib/explain.py, with ROWS not much above the row that differs. Each run is the same, but for
# how far it goes after the prompt.
#
# It is judged as what qemu chose where the standards leave a choice: --profile qemu.
#
# Where KERNEL names a file qemu loads it in U-Boot's place. The run then ends where the machine is
# turned off, after a line of the serial port that begins with LAST; linux.sh makes such a kernel.
#
# The status is the judge's; 69 where a package is missing; 68 where the run did not begin, or ended
# too early.
set -u
boot=$(cd "$(dirname "$(readlink -f "$0")")" && pwd) || exit 68
contrib=$(dirname "$boot")
rows=${1:-0}
program=${2:-$contrib/../bin/rvjudge}
opensbi=/usr/lib/riscv64-linux-gnu/opensbi/generic/fw_jump.bin
kernel=${KERNEL:-/usr/lib/u-boot/qemu-riscv64_smode/u-boot.bin}
last=${LAST:-=> }
# The machine: one hart that has what the judge's has, and 64 MiB. Each instruction takes 2^10
# nanoseconds: that makes runs repeat, and U-Boot's two seconds before the prompt short.
cpu=rv64,f=off,d=off,h=off,v=off,sstc=off,zba=off,zbb=off,zbc=off,zbs=off,pmu-num=29
memory=0x80000000:0x4000000
start=0x80000000
core='--profile qemu'
# Below RAM are the devices, from the first that is used on.
options="--ram $memory --io 0x100000:0x7ff00000 $core"

case $rows in
-h | --help)
    sed -n '2,/^set/s/^# \{0,1\}//p' "$0"
    exit 0
    ;;
*[!0-9]*)
    echo "boot.sh: $rows is no decimal number" >&2
    exit 68
    ;;
esac
missing=
[ -r "$opensbi" ] || missing="$missing opensbi"
[ -n "${KERNEL:-}" ] || [ -r "$kernel" ] || missing="$missing u-boot-qemu"
command -v qemu-system-riscv64 >/dev/null || missing="$missing qemu-system-misc"
command -v python3 >/dev/null || missing="$missing python3"
if [ -n "$missing" ]; then
    echo "boot.sh: packages are missing:$missing" >&2
    exit 69
fi
if [ ! -r "$kernel" ]; then
    echo "boot.sh: $kernel cannot be read" >&2
    exit 68
fi

folder=$(mktemp -d) || exit 68
qemu=

# Ends qemu, and waits for what reads its log. Where that is gone qemu goes on, and heeds kill.
# shellcheck disable=SC2317  # a trap calls it
finish() {
    trap '' HUP INT TERM
    exec 3<&- 4<&-
    [ -z "$qemu" ] || kill "$qemu" 2>/dev/null
    wait
    rm -rf "$folder"
}
trap finish EXIT
trap 'exit 68' HUP INT TERM

fail() {
    echo "boot.sh: $*" >&2
    cat "$folder/said" >&2
    exit 68
}

is_at_last() {
    grep -q "^$last" "$folder/serial" 2>/dev/null
}

# Ends qemu at U-Boot's prompt. It must not hold the log open: qemu would wait for it to read.
end_at_prompt() {
    exec 3<&-
    [ -z "${KERNEL:-}" ] || return
    until is_at_last; do
        sleep 1
        kill -0 "$qemu" 2>/dev/null || return
    done
    kill "$qemu"
}

# The rows of a log, as far as they are wanted; tells where not all of it was taken.
rows_of_log() {
    python3 "$contrib/qemu_log.py" 2>>"$folder/said" || : >"$folder/not_whole"
}

# The trace from the log: its header, and as many rows as are wanted.
trace() {
    cat "$folder/head" - <&3 | rows_of_log |
        if [ "$rows" -gt 0 ]; then head -n $((rows + 1)); else cat; fi
}

keep_copy() {
    if [ -n "${KEEP:-}" ]; then tee "$KEEP/boot.csv"; else cat; fi
}

judge() {
    # shellcheck disable=SC2086  # words
    trace | keep_copy | "$program" judge "$folder/boot.rvstate" /dev/stdin $options
}

mkfifo "$folder/log" || exit 68
# It is opened for both at first, so that a qemu that fails leaves nothing waiting for it.
exec 4<>"$folder/log"
qemu-system-riscv64 -M virt -cpu $cpu -m 64M -bios $opensbi -kernel "$kernel" \
    -icount shift=10 -seed 1 -display none -monitor none -serial "file:$folder/serial" \
    -S -qmp "unix:$folder/control,server=on,wait=off" \
    -singlestep -d in_asm,cpu,exec,int,nochain -D "$folder/log" 2>"$folder/said" 4<&- &
qemu=$!
exec 3<"$folder/log"
python3 "$boot/memory_image.py" "$folder/control" --ram $memory -o "$folder/boot.hex" ||
    fail 'qemu did not begin'
exec 4<&-
python3 "$boot/first_state.py" "$folder/words" --pc $start <&3 >"$folder/head" 2>>"$folder/said" ||
    fail 'the firmware did not begin'
# shellcheck disable=SC2046,SC2086  # words
python3 "$contrib/make_state.py" "$folder/boot.hex" $core --ram $memory --pc $start \
    $(cat "$folder/words") -o "$folder/boot.rvstate" 2>>"$folder/said" || fail 'there is no start'
[ "$rows" -gt 0 ] || end_at_prompt &
judge >"$folder/verdict" &
judge=$!
exec 3<&-
wait $judge
status=$?
if [ -n "${KEEP:-}" ]; then
    cp "$folder/boot.rvstate" "$KEEP/"
    cp "$folder/serial" "$KEEP/boot.serial"
    echo "$options" >"$KEEP/boot.options"
fi
verdict=$(cat "$folder/verdict")
[ -z "$verdict" ] || echo "$verdict"
if [ $status -eq 0 ]; then
    if [ "$rows" -gt 0 ]; then
        [ "${verdict#agrees }" -ge "$rows" ] || fail "the run ended before $rows rows"
    elif [ -e "$folder/not_whole" ] || ! is_at_last; then
        fail "the run ended before the line '$last'"
    fi
fi
exit $status
