// From reset to main, for a program without an operating system: gp, sp and mtvec are set, .bss is
// cleared, main is called, and its value ends the run. link.ld puts it first.
//
// The end: the value goes to the word tohost, as Spike has it, and the program loops. With QEMU
// defined a store to 0x100000 ends qemu's machine virt (give the judge --io 0x100000:0x1000).
// A trap that the program does not expect ends the run with 127.

    .section .init, "ax"
    .globl _start
_start:
    .option push
    .option norelax             // relaxed, this would read gp, which is not set yet
    la gp, __global_pointer$
    .option pop
    la sp, __stack_top
    la t0, unexpected
    csrw mtvec, t0
    la t0, __bss_start
    la t1, __bss_end
1:  bgeu t0, t1, 2f
    sd zero, 0(t0)
    addi t0, t0, 8
    j 1b
2:  li a0, 0
    li a1, 0
    call main

finish:
    slli a0, a0, 1
    ori a0, a0, 1
    la t0, tohost
    sd a0, 0(t0)
#ifdef QEMU
    li t0, 0x100000
    li t1, 0x5555               // how main ended is in tohost
    sw t1, 0(t0)
#endif
1:  j 1b

    .balign 4
unexpected:
    li a0, 127
    j finish

    .section .tohost, "aw", @progbits
    .balign 64
    .globl tohost, fromhost
tohost: .dword 0
    .balign 64
fromhost: .dword 0
