#!/bin/sh
# Builds harts.s, or another SOURCE, for so many harts, runs it in qemu, one hart at a time, and
# leaves harts.elf and harts.log in FOLDER: harts.sh FOLDER HARTS [SOURCE]. With Debian's
# binutils-riscv64-unknown-elf and qemu-system-misc.
set -eu
here=$(cd "$(dirname "$0")" && pwd)
harts=$2
cd "$1"
ulimit -f 200000  # blocks of 512 bytes: a program that goes astray must not fill the disk
riscv64-unknown-elf-as -march=rv64ima_zicsr --defsym HARTS="$harts" -o harts.o "$here/${3:-harts.s}"
riscv64-unknown-elf-ld -n --no-warn-rwx-segments --section-start=.init=0x80000000 \
    -o harts.elf harts.o
starts='-device loader,file=harts.elf,cpu-num=0' hart=1
while [ "$hart" -lt "$harts" ]; do
    starts="$starts -device loader,addr=0x80000000,cpu-num=$hart" hart=$((hart + 1))
done
# shellcheck disable=SC2086  # words
timeout 60 qemu-system-riscv64 -M virt -smp "$harts" -accel tcg,thread=single \
    -cpu rv64,f=off,d=off,h=off,sstc=off,zba=off,zbb=off,zbc=off,zbs=off -bios none $starts \
    -display none -monitor none -serial null -singlestep -d in_asm,cpu,exec,int,nochain -D harts.log
