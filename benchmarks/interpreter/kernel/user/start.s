# Where a program of U begins, and the instruction that the firmware carries out.

    .section .start, "ax"
    .globl  _start
_start:
    call    main
    li      a7, 0
    ecall

    .text
    .globl  count_bits              # count_bits(value), by CPOP a0, a0 in the space custom-0
count_bits:
    .insn   i 0x0b, 0, a0, a0, 0
    ret
