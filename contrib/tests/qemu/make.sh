#!/bin/sh
# Builds program.c, or another SOURCE, runs it in qemu, and leaves program.elf, image.hex and run.log
# in FOLDER: make.sh FOLDER [SOURCE [on|off [rom]]]. With on there are Zba, Zbb and Zbs. With rom qemu's
# boot ROM runs first, and board.dtb is its device tree. With Debian's gcc-riscv64-unknown-elf,
# binutils-riscv64-unknown-elf and qemu-system-misc.
set -eu
here=$(cd "$(dirname "$0")" && pwd)
source=$here/${2:-program.c}
bits=${3:-off} isa=rv64imac_zicsr_zifencei
start='-bios none -device loader,file=program.elf,cpu-num=0'
[ "$bits" = off ] || isa=${isa}_zba_zbb_zbs
cd "$1"
riscv64-unknown-elf-gcc -march="$isa" -mabi=lp64 -mcmodel=medany -O1 \
    -Wall -Wextra -Werror -nostdlib -ffreestanding -Wl,--no-relax -Wl,--build-id=none -Wl,--no-warn-rwx-segments \
    -Wl,--section-start=.init=0x80000000 -o program.elf "$source"
riscv64-unknown-elf-objcopy -O verilog program.elf image.hex
if [ "${4:-}" = rom ]; then
    qemu-system-riscv64 -M virt,dumpdtb=board.dtb -display none 2>/dev/null
    start='-bios program.elf'
fi
# shellcheck disable=SC2086  # words
timeout 20 qemu-system-riscv64 -M virt \
    -cpu "rv64,f=off,d=off,h=off,sstc=off,zba=$bits,zbb=$bits,zbc=off,zbs=$bits" \
    $start -display none -monitor none -serial null -singlestep -d in_asm,cpu,exec,int,nochain -D run.log
