# Reservations. Whether an SC in the reserved block stores is the core's choice.
atomics:
    mv      s9, ra
    part    21
    la      a0, block
    li      s3, 7
1:  lr.w    a1, (a0)                # until it stores
    addi    a1, a1, 1
    sc.w    a2, a1, (a0)
    bnez    a2, 1b
    sc.w    a2, a1, (a0)            # no reservation is left
    is      a2, 1
    lr.d    a1, (a0)
    addi    a3, a0, 56
    sc.d    a2, a1, (a3)            # the same block
    lr.w    a1, (a3)
    addi    a3, a0, 64
    sc.w    a2, a1, (a3)            # another block
    is      a2, 1
    lr.d    a1, (a0)
    sc.d    zero, a1, (a0)          # rd tells nothing
    lr.w    zero, (a0)
    sc.w    zero, a1, (a0)
    lr.w    a1, (a0)
    sd      a1, 8(a0)               # a store of its own leaves it
    ecall                           # and so does a trap
    sc.w    a2, a1, (a0)
    lr.w    a1, (a0)
    addi    a3, a0, 2
    faults  6, sc.w a2, a1, (a3)    # a trap before it is looked at
    sc.w    a2, a1, (a0)
    .irp    operation, amoswap, amoadd, amoxor, amoand, amoor, amomin, amomax, amominu, amomaxu
    \operation\().w a4, s4, (a0)
    \operation\().d a4, s4, (a0)
    .endr
    add     s4, s4, a4
    xor     s4, s4, a1
    addi    s3, s3, -1
    bnez    s3, 1b
    jr      s9

# Ordinary code under interrupts that come as they like.
storm:
    mv      s9, ra
    part    22
    li      t4, ALL_INTERRUPTS
    csrw    mie, t4
    li      s1, 0x9e3779b97f4a7c15
    li      s2, 20
    la      s3, bytes
    li      t4, 1
    sd      t4, STORM(s0)
1:  csrsi   mstatus, 8
    call    mix
    andi    t4, s2, 3               # now and then some are held, or delegated
    bnez    t4, 2f
    csrsi   mip, 2
    li      t4, 0x20
    csrs    mip, t4
    csrr    t4, mip
    li      t4, 0x200
    csrrs   t4, mip, t4
2:  csrr    t5, sip
    csrr    t6, mip
    csrrc   t5, mip, t6
    andi    t4, s2, 7
    addi    t4, t4, -5
    bnez    t4, 3f
    li      t4, HELD
    csrrw   t5, mideleg, t4
    csrr    t6, sip
    csrrci  t6, sip, 2
    csrw    mideleg, t5
3:  ld      a2, 0x40(s0)            # what a device gives, in all sizes
    lbu     a3, 0x43(s0)
    lh      a4, 0x46(s0)
    lw      a5, 0x44(s0)
    lb      a6, 0x47(s0)
    lwu     a7, 0x40(s0)
    add     s1, s1, a2
    xor     s1, s1, a5
    sb      s1, 0x51(s0)
    sh      s1, 0x52(s0)
    sw      s1, 0x54(s0)
    csrci   mstatus, 8              # the other kind of vector
    la      t4, direct
    la      t5, vector + 1
    csrr    t6, mtvec
    bne     t6, t4, 4f
    mv      t4, t5
4:  csrw    mtvec, t4
    andi    t4, s2, 3
    bnez    t4, 5f
    ecall
    wfi
5:  csrr    t4, time
    csrr    t5, mcycle
    add     s1, s1, t5
    addi    s2, s2, -1
    bnez    s2, 1b
    csrci   mstatus, 8
    csrw    mie, zero
    sd      zero, STORM(s0)
    la      t4, direct
    csrw    mtvec, t4
    jr      s9

# Stirs s1, by way of memory at s3, calls and branches.
mix:
    addi    sp, sp, -16
    sd      ra, 8(sp)
    mul     a0, s1, s2
    mulhu   a1, s1, a0
    mulhsu  a2, a0, s1
    mulh    a3, a2, a1
    div     a4, a0, a1
    rem     a5, a0, a2
    divu    a6, s1, a3
    remu    a7, s1, s2
    mulw    t4, a0, a1
    divw    t5, a0, s2
    remuw   t6, a0, s2
    divuw   t5, a1, s1
    remw    t6, t6, a7
    sd      a0, (s3)
    sw      a1, 8(s3)
    sh      a2, 14(s3)
    sb      a3, 13(s3)
    lb      a0, 3(s3)
    lhu     a1, 6(s3)
    lw      a2, 8(s3)
    ld      a3, 8(s3)
    sllw    a4, a4, a5
    sraw    a5, a3, a7
    srlw    t6, a2, a5
    srl     a6, a6, a0
    sra     a7, a3, a1
    slt     t4, a4, a5
    sltu    t5, a6, a7
    add     t4, t4, t5
    beqz    t4, 1f
    subw    a0, a0, a6
    not     a1, a1
1:  blt     a0, a1, 2f
    bge     a0, t6, 2f
    bgeu    a2, a3, 2f
    sub     a3, a3, a2
2:  or      a3, a3, a6
    xor     s1, s1, a0
    add     s1, s1, a3
    xor     s1, s1, a7
    ld      ra, 8(sp)
    addi    sp, sp, 16
    ret

    .balign 256
s_handler:
    .rept   12
    .insn   4, 0x00000013
    .endr
s_code:
    nop
    nop
