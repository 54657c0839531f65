# What qemu does otherwise than the judge does by default: it carries out loads and stores at any address, here
# also over the end of two pages that lie apart, and sets A and D.

    .equ ROOT, 0x80001000
    .equ MIDDLE, 0x80002000
    .equ TABLE, 0x80003000
    .equ LOW, 0x80006000            # where the pages 0, 1 and 2 of the virtual addresses are
    .equ HIGH, 0x80004000
    .equ READ_ALONE, 0x80005000
    .equ RIGHTS, 1 << 0 | 1 << 1 | 1 << 2
    .equ MPP_S, 1 << 11

    .macro  entry table, number, place, bits
    li      t0, \table
    li      t1, (\place >> 2) | \bits
    sd      t1, 8 * \number(t0)
    .endm

    .section .init, "ax"
    .globl  _start
_start:
    la      t0, trapped
    csrw    mtvec, t0
    li      t0, -1
    csrw    pmpaddr0, t0
    li      t0, 0x1f
    csrw    pmpcfg0, t0
    entry   ROOT, 0, MIDDLE, 1
    entry   ROOT, 2, 0x80000000, RIGHTS | 1 << 3
    entry   MIDDLE, 0, TABLE, 1
    entry   TABLE, 0, LOW, RIGHTS
    entry   TABLE, 1, HIGH, RIGHTS
    entry   TABLE, 2, READ_ALONE, 1 << 0 | 1 << 1

    li      s0, LOW                 # addresses are physical
    li      s1, 0x8877665544332211
    sd      s1, 1(s0)
    lh      a0, 1(s0)
    lhu     a1, 7(s0)
    lw      a2, 5(s0)
    lwu     a3, 5(s0)
    ld      a4, 3(s0)
    sw      s1, -2(s0)
    sh      s1, -1(s0)
    ld      a5, -4(s0)
    addi    s0, s0, 2
    c.sw    a5, 0(s0)
    c.lw    a5, 0(s0)
    c.sd    s1, 0(s0)
    c.ld    s1, 0(s0)

    li      t0, 8 << 60 | ROOT >> 12
    csrw    satp, t0
    li      t0, MPP_S
    csrs    mstatus, t0
    la      t0, in_s
    csrw    mepc, t0
    mret
in_s:
    li      s0, 0x1000              # the edge of the pages 0 and 1
    ld      a0, 0(s0)
    sd      s1, -3(s0)
    ld      a1, -3(s0)
    lw      a2, -1(s0)
    lw      zero, -1(s0)
    lhu     a3, -1(s0)
    ld      s0, -5(s0)
    li      s0, 0x2000
    ld      a4, -1(s0)
    sd      a4, -3(s0)              # its second part faults
    .balign 4
trapped:
    csrr    a0, mcause
    csrr    a1, mtval
    li      t0, TABLE
    ld      a2, 0(t0)
    ld      a3, 8(t0)
    ld      a4, 16(t0)
    li      t0, 0x100000
    li      t1, 0x5555
    sw      t1, 0(t0)
1:  j       1b
