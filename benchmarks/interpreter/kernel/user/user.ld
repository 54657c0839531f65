/* A program of U, with the ends of its parts and the rights of its text in front, which the kernel reads. */
ENTRY(_start)
PROVIDE(text_rights = 10);
SECTIONS
{
    . = 0x10000;
    .text : {
        QUAD(text_end) QUAD(rodata_end) QUAD(data_end) QUAD(bss_end) QUAD(text_rights)
        *(.start) *(.text .text.*) *(.last) . = ALIGN(0x1000); text_end = .;
    }
    .rodata : { *(.rodata .rodata.* .srodata .srodata.*) . = ALIGN(0x1000); rodata_end = .; }
    .data : { *(.data .data.* .sdata .sdata.*) . = ALIGN(0x1000); data_end = .; }
    .bss : { *(.bss .bss.* .sbss .sbss.* COMMON) . = ALIGN(0x1000); bss_end = .; }
    /DISCARD/ : { *(.riscv.attributes) *(.comment) *(.note*) *(.eh_frame*) }
}
