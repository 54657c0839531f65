/* Code and data in one piece of RAM from the address at which the hart begins. */
ENTRY(_start)
SECTIONS
{
    . = 0x80000000;
    .text : { *(.text) }
    . = ALIGN(0x1000);
    .data : { *(.data) }
    /DISCARD/ : { *(.riscv.attributes) }
}
