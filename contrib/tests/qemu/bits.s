# Some instructions of Zba, Zbb and Zbs, of each form one or more.

    .section .init, "ax"
    .globl  _start
_start:
    li      a0, 0xfedcba9876543210
    li      a1, 0x80000005
    add.uw  a2, a1, a0
    sh3add  a2, a1, a0
    sh1add.uw a2, a0, a1
    slli.uw a2, a0, 40
    xnor    a2, a0, a1
    minu    a2, a0, a1
    clz     a2, a1
    ctzw    a2, a0
    cpop    a2, a0
    sext.h  a2, a1
    zext.h  a2, a0
    rolw    a2, a0, a1
    rori    a2, a0, 45
    roriw   a2, a0, 7
    orc.b   a2, a1
    rev8    a2, a0
    bclr    a2, a0, a1
    bexti   a2, a0, 63
    binvi   a2, a0, 40
    bset    a2, a0, a1
    li      t0, 0x100000
    li      t1, 0x5555
    sw      t1, 0(t0)
1:  j       1b
