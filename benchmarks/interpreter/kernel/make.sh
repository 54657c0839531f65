#!/bin/sh
# Makes FOLDER/image and FOLDER/choices from the sources here: make.sh FOLDER. kernel.hex and choices.hex are these
# images, made with the packages gcc-riscv64-unknown-elf (12.2) and binutils-riscv64-unknown-elf (2.40) of Debian 12.
set -eu
here=$(cd "$(dirname "$0")" && pwd)
folder=$1
compile() {
    riscv64-unknown-elf-gcc -march=rv64imac_zicsr_zifencei -mabi=lp64 -mcmodel=medany -O2 -Wall -Wextra -Werror \
        -ffreestanding -fno-tree-loop-distribute-patterns -nostdlib -Wl,--no-relax -Wl,--build-id=none \
        -Wl,-z,max-page-size=4096 -Wl,--no-warn-rwx-segments "$@"
}
for program in init sort count locks digest wild edges; do
    compile -T "$here/user/user.ld" -o "$folder/$program.elf" "$here/user/start.s" "$here/user/$program.c"
    riscv64-unknown-elf-objcopy -O binary "$folder/$program.elf" "$folder/$program.bin"
done
# The image NAME of the kernel, with more words for the compiler.
link_kernel() {
    name=$1
    shift
    compile "$@" -Wa,-I"$folder" -T "$here/kernel.ld" -o "$folder/$name.elf" "$here/firmware.s" "$here/entry.s" \
        "$here/programs.s" "$here/memory.c" "$here/process.c" "$here/main.c"
    riscv64-unknown-elf-objcopy -O verilog "$folder/$name.elf" "$folder/$name.text"
    # Lines of zeros are left out: memory has zeros there anyway.
    tr -d '\r' <"$folder/$name.text" | python3 "$here/leave_out_zeros.py" >"$folder/$name"
}
link_kernel image
link_kernel choices -DOTHER_CHOICES -Wa,--defsym,OTHER_CHOICES=1
