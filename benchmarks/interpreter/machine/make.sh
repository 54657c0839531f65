#!/bin/sh
# Makes FOLDER/image from the assembly here and FOLDER/trace from its run, and prints the number of rows:
# make.sh FOLDER.
# Without the package binutils-riscv64-unknown-elf the image is the one that stands here, machine.hex.
set -eu
here=$(cd "$(dirname "$0")" && pwd)
folder=$1
if command -v riscv64-unknown-elf-as >/dev/null; then
    riscv64-unknown-elf-as -march=rv64imac_zicsr_zifencei -mpriv-spec=1.12 \
        -o "$folder/machine.o" "$here"/machine.s "$here"/exceptions.s "$here"/registers.s \
        "$here"/interrupts.s "$here"/modes.s "$here"/code.s \
        "$here"/protection.s "$here"/supervisor.s "$here"/translation.s \
        "$here"/walks.s "$here"/spaces.s "$here"/data.s
    riscv64-unknown-elf-ld -T "$here/machine.ld" --no-relax -o "$folder/machine.elf" "$folder/machine.o"
    riscv64-unknown-elf-objcopy -O verilog "$folder/machine.elf" "$folder/machine.text"
    tr -d '\r' <"$folder/machine.text" >"$folder/image"
else
    cp "$here/machine.hex" "$folder/image"
fi
python3 "$here/../run_machine.py" "$folder/image" "$folder/trace"
