#!/bin/sh
# Runs the programs of four harts in qemu, and leaves in FOLDER what is stored of them here,
# NAME.hex and NAME.log.gz: four.sh FOLDER. The names are spin (of harts.s), ticket and queue.
set -eu
here=$(cd "$(dirname "$0")" && pwd)
cd "$1"
for name in spin ticket queue; do
    source=$name.s
    [ $name != spin ] || source=harts.s
    sh "$here/harts.sh" . 4 "$source"
    riscv64-unknown-elf-objcopy -O verilog harts.elf "$name.hex"
    gzip -9nc harts.log >"$name.log.gz"
done
