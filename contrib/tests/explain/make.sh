#!/bin/sh
# Builds program.s again, and with the interpreter of benchmarks/ the trace of its run: image.hex,
# program.elf and run.csv in this folder. With Debian's gcc-riscv64-unknown-elf.
set -eu
cd "$(dirname "$0")"
riscv64-unknown-elf-gcc -g -march=rv64imac_zicsr_zifencei -mabi=lp64 -nostdlib \
    -Wl,--build-id=none,-z,max-page-size=16 -Wl,--no-warn-rwx-segments -Wl,-Ttext=0x80000000 \
    -fdebug-prefix-map="$PWD=." -o program.elf program.s
riscv64-unknown-elf-objcopy -O verilog program.elf all.hex
python3 ../../../benchmarks/interpreter/kernel/leave_out_zeros.py <all.hex >image.hex
rm all.hex
python3 run.py image.hex >run.csv
