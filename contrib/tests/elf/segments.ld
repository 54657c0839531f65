/* Four segments, in an order that is not that of their addresses. `moved` is loaded at one place and
   runs at another. `table` has bytes in memory that are not in the file. */
OUTPUT_ARCH(riscv)
ENTRY(_start)

PHDRS {
    table PT_LOAD;
    code PT_LOAD;
    constants PT_LOAD;
    moved PT_LOAD;
}

SECTIONS {
    .text 0x80000100 : { *(.text .text.*) *(.init) } :code
    .rodata 0x80010000 : { *(.rodata .rodata.* .srodata .srodata.*) } :constants
    moved_from = 0x80020000;
    .data 0x80030000 : AT(moved_from) {
        moved_start = .;
        *(.data .data.* .sdata .sdata.*)
        . = ALIGN(4);
        moved_end = .;
    } :moved
    .table 0x80040000 : AT(0x80040000) { *(.table) } :table
    .bss : { *(.sbss .sbss.* .bss .bss.* COMMON) } :table
    stack_top = 0x80060000;
}
