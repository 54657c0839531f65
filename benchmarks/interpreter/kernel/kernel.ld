/*
 * The firmware where the hart begins, and the kernel 2 MiB after it, at virtual addresses in the last two GiB.
 * Its parts are of whole pages, since each has rights of its own.
 */
ENTRY(_start)
KERNEL_OFFSET = 0xffffffff00000000;
SECTIONS
{
    . = 0x80000000;
    .firmware : { *(.firmware) }
    ASSERT(. <= 0x80004000, "the firmware is larger than its entry of protection")

    . = 0x80200000 + KERNEL_OFFSET;
    .text : AT(ADDR(.text) - KERNEL_OFFSET) { *(.start) *(.text .text.*) . = ALIGN(0x1000); text_end = .; }
    .rodata : AT(ADDR(.rodata) - KERNEL_OFFSET) {
        *(.programs) *(.rodata .rodata.* .srodata .srodata.*) . = ALIGN(0x1000); rodata_end = .;
    }
    .data : AT(ADDR(.data) - KERNEL_OFFSET) { *(.data .data.* .sdata .sdata.*) }
    .bss (NOLOAD) : AT(ADDR(.bss) - KERNEL_OFFSET) {
        *(.bss .bss.* .sbss .sbss.* COMMON) . = ALIGN(0x1000); kernel_end = .;
    }
    ASSERT(. <= 0x80400000 + KERNEL_OFFSET, "the kernel is larger than a table of its pages")
    /DISCARD/ : { *(.riscv.attributes) *(.comment) *(.note*) *(.eh_frame*) }
}
