# Each exception that M can take.
exceptions:
    mv      s9, ra
    part    1
    faults  2, .insn 4, 0xabcdef0b
    li      a1, 0xabcdef0b
    with_value a1
    faults  2, .insn 2, 0x0000
    with_value zero
    faults  2, .insn 2, 0x8002
    li      a1, 0x8002
    with_value a1
    .option push
    .option norvc
    faults  3, ebreak
    ld      t4, EPC(gp)
    with_value t4
    .option pop
    faults  3, c.ebreak
    ld      t4, EPC(gp)
    with_value t4
    faults  11, ecall
    with_value zero

    part    2                       # misaligned: before anything is known of the place
    la      a0, bytes
    .irp    where, a0, a2
    li      a2, NOTHING
    .irp    offset, 1, 3
    addi    a1, \where, \offset
    faults  4, lh t4, \offset(\where)
    with_value a1
    faults  4, lhu t4, 0(a1)
    faults  4, lw t4, \offset(\where)
    faults  6, sh t4, 0(a1)
    with_value a1
    faults  6, sw t4, \offset(\where)
    .endr
    addi    a1, \where, 4
    faults  4, ld t4, 4(\where)
    with_value a1
    faults  4, lwu t4, 2(\where)
    faults  6, sd t4, 4(\where)
    with_value a1
    addi    a1, \where, 2
    faults  4, lr.w t4, (a1)
    with_value a1
    faults  6, sc.w t4, t4, (a1)
    faults  6, amoadd.w t4, t4, (a1)
    with_value a1
    addi    a1, \where, 4
    faults  4, lr.d t4, (a1)
    faults  6, sc.d t4, t4, (a1)
    faults  6, amoswap.d t4, t4, (a1)
    with_value a1
    .endr

    part    3                       # where there is neither RAM nor a device
    li      a1, -8
    la      a2, _start
    addi    a2, a2, -8
    li      a3, 0x88000000
    li      a4, NOTHING
    .irp    where, zero, a1, a2, a3, a4
    faults  5, lb t4, (\where)
    with_value \where
    faults  7, sd t4, (\where)
    with_value \where
    .endr
    faults  5, lh t4, (a4)
    faults  5, lw t4, (a4)
    faults  5, ld t4, (a4)
    faults  5, lbu t4, (a4)
    faults  5, lhu t4, (a4)
    faults  5, lwu t4, (a4)
    faults  7, sb t4, (a4)
    faults  7, sh t4, (a4)
    faults  7, sw t4, (a4)
    .irp    where, a4, s0           # atomics go to RAM alone
    faults  5, lr.w t4, (\where)
    with_value \where
    faults  5, lr.d t4, (\where)
    faults  7, sc.w t4, t4, (\where)
    faults  7, sc.d t4, t4, (\where)
    faults  7, amoor.w t4, t4, (\where)
    faults  7, amomaxu.d t4, t4, (\where)
    with_value \where
    .endr

    part    4                       # jumps to where nothing can be fetched
    .irp    where, zero, a1, a2, a3, a4, s0
    la      s11, 1f
    jr      \where
1:  ld      t4, CAUSE(gp)
    is      t4, 1
    with_value \where
    ld      t4, EPC(gp)
    bne     t4, \where, fail
    .endr
    la      s11, 1f                 # an odd target loses its last bit
    jalr    t4, 1(a4)
1:  with_value a4
    addi    a1, a3, -2              # an instruction whose second half is after the end of RAM
    li      t4, 3
    sh      t4, (a1)
    fence.i
    la      s11, 1f
    jr      a1
1:  with_value a3
    ld      t4, EPC(gp)
    bne     t4, a1, fail
    jr      s9

# An exception of M goes to M, whatever is delegated.
stay_in_m:
    mv      s9, ra
    part    5
    li      t4, -1
    csrw    medeleg, t4
    la      t4, s_handler
    csrw    stvec, t4
    li      a4, NOTHING
    faults  2, .insn 2, 0x0000
    faults  3, ebreak
    faults  4, ld t4, 1(a4)
    faults  5, ld t4, (a4)
    faults  6, sd t4, 1(a4)
    faults  7, sd t4, (a4)
    faults  11, ecall
    la      s11, 1f
    jr      a4
1:  ld      t4, CAUSE(gp)
    is      t4, 1
    csrw    medeleg, zero
    li      t4, 7 << 20             # TVM, TW and TSR bind S alone
    csrs    mstatus, t4
    wfi
    sfence.vma
    sfence.vma a4, t4
    la      a1, s_code
    li      a0, 1
    call    fall_by_sret
    call    came_back
    li      t4, 7 << 20
    csrc    mstatus, t4
    jr      s9

# Words put into place one by one and carried out: those that are illegal, and those that only look so.
words:
    mv      s9, ra
    part    6
    la      a0, illegal_words
    la      a1, illegal_words_end
    li      a2, 2
    call    carry_out
    la      a0, lawful_words
    la      a1, lawful_words_end
    li      a2, 0
    call    carry_out
    jr      s9

# Carries out the words from a0 up to a1, and checks that each runs into exception a2; 0 stands for none.
carry_out:
    mv      s8, ra
    la      s7, slot
1:  lw      t4, (a0)
    sw      t4, (s7)
    fence.i
    sd      zero, CAUSE(gp)
    jalr    s7
    ld      t4, CAUSE(gp)
    bne     t4, a2, fail
    addi    a0, a0, 4
    bltu    a0, a1, 1b
    jr      s8
