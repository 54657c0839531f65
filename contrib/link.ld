/* A program at 0x80000000, the start of the judge's RAM: .init first, then code, data, a stack. */
OUTPUT_ARCH(riscv)
ENTRY(_start)

MEMORY { ram (rwx) : ORIGIN = 0x80000000, LENGTH = 128M }

SECTIONS {
    .text : { *(.init) *(.text .text.*) } >ram
    .rodata : { *(.rodata .rodata.* .srodata .srodata.*) } >ram
    .tohost ALIGN(4096) : { *(.tohost) } >ram
    .data : {
        *(.data .data.*)
        __global_pointer$ = . + 0x800;
        *(.sdata .sdata.*)
    } >ram
    .bss ALIGN(8) (NOLOAD) : {
        __bss_start = .;
        *(.sbss .sbss.* .bss .bss.* COMMON)
        . = ALIGN(8);
        __bss_end = .;
    } >ram
    . = ALIGN(16) + 64K;
    __stack_top = .;
}
