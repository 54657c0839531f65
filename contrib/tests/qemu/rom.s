# Begins with the registers that qemu's boot ROM leaves, and reads the device tree that a1 points to.

    .section .init, "ax"
    .globl  _start
_start:
    add     s0, a0, t0              # the hart's number, and the address of _start
    lw      s1, 0(a1)               # its first bytes: d0 0d fe ed
    beqz    s1, 1f
    li      t0, 0x5555
    li      t1, 0x100000
    sw      t0, 0(t1)               # ends the run
1:  j       1b
