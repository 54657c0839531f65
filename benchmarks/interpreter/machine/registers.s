# Every register by all six forms, with x0 and without. No interrupt is enabled and no memory touched
# meanwhile: for a moment mtvec, mscratch and mstatus hold anything.
    .macro  all_forms csr
    csrr    a0, \csr
    csrrw   a1, \csr, s1
    csrrs   a2, \csr, s2
    csrrc   a3, \csr, s3
    csrrw   a4, \csr, zero
    csrrwi  a5, \csr, 0x1f
    csrrsi  a6, \csr, 0x12
    csrrci  a7, \csr, 0x09
    csrrw   zero, \csr, s4
    csrrs   zero, \csr, s5
    csrrc   zero, \csr, s6
    csrrwi  zero, \csr, 0x15
    csrrsi  zero, \csr, 0x0a
    csrrci  zero, \csr, 0x11
    csrrc   a1, \csr, zero
    csrrsi  a2, \csr, 0
    csrrci  a3, \csr, 0
    csrrs   zero, \csr, zero
    csrrwi  a4, \csr, 0
    csrrw   a5, \csr, a0
    .endm

# A few forms, for registers that come in rows.
    .macro  few_forms csr
    csrr    a0, \csr
    csrrw   a1, \csr, s1
    csrrs   zero, \csr, s2
    csrrci  a3, \csr, 7
    csrrwi  zero, \csr, 0x1f
    csrrc   a5, \csr, s3
    .endm

# A read-only register: what does not write is lawful, whatever it reads; all else is illegal.
    .macro  reads csr
    csrr    a0, \csr
    csrrc   a1, \csr, zero
    csrrsi  a2, \csr, 0
    csrrci  zero, \csr, 0
    .endm

    .macro  illegal_writes csr
    faults  2, csrrw a0, \csr, s1
    faults  2, csrrw zero, \csr, zero
    faults  2, csrrs a0, \csr, t4
    faults  2, csrrc zero, \csr, s2
    faults  2, csrrwi a0, \csr, 0
    faults  2, csrrsi a0, \csr, 1
    faults  2, csrrci zero, \csr, 0x1f
    .endm

registers:
    mv      s9, ra
    part    7
    li      s1, -1
    li      s2, 0x5a5a5a5a5a5a5a5a
    li      s3, 0xc3c3c3c3c3c3c3c3
    li      s4, 0x123456789abcdef0
    li      s5, 0x00000000007e19aa
    li      s6, 0x0f0f0f0f0f0f0fff
    call    all_registers
    li      t4, HELD                # with views into what is delegated, other lines and other values
    csrw    mideleg, t4
    li      t4, ALL_LINES
    sd      t4, LINES(s0)
    li      s1, 0xfedcba9876543210
    li      s2, 0x0000000a00000800
    li      s3, 0x8000000000001122
    li      s4, 0xffffffffffffffaa
    li      s5, 0x1555555555555555
    li      s6, 0x2aaaaaaaaaaaaaaa
    call    all_registers
    sd      zero, LINES(s0)
    csrw    mideleg, zero
    csrw    mip, zero               # the line of SEIP was read and written back

    part    8                       # constants and what masks leave
    csrr    t4, misa
    is      t4, 0x8000000000141105
    li      t4, -1
    .macro  leaves csr, number
    csrrw   t5, \csr, t4
    csrrw   t5, \csr, t5
    is      t5, \number
    .endm
    leaves  medeleg, 0xb3ff
    leaves  mideleg, 0x222
    leaves  mie, 0xaaa
    leaves  mcounteren, 7
    leaves  scounteren, 7
    leaves  menvcfg, 1
    leaves  senvcfg, 1
    leaves  mcountinhibit, 5
    leaves  stvec, -3
    leaves  mepc, -2
    leaves  sepc, -2
    leaves  sie, 0
    leaves  sip, 0
    csrrw   t5, mstatus, t4
    csrrw   t5, mstatus, t5
    is      t5, 0xa007e19aa
    csrrw   t5, sstatus, t4
    csrrw   t5, sstatus, zero
    is      t5, 0x2000c0122
    csrw    mstatus, zero
    li      t4, MPP                 # 2 is no mode: MPP keeps what it has
    csrs    mstatus, t4
    li      t4, 0x800
    csrc    mstatus, t4
    csrr    t5, mstatus
    is      t5, 0xa00001800
    li      t4, 0x1000
    csrc    mstatus, t4
    csrr    t5, mstatus
    is      t5, 0xa00000800
    li      t4, 0x1000
    csrw    mstatus, t4
    csrr    t5, mstatus
    is      t5, 0xa00000800
    li      t4, 0xaaa               # lines are read and not stored
    sd      t4, LINES(s0)
    csrrs   t5, mip, zero
    is      t5, 0xa88
    csrrs   t5, mip, zero
    csrrsi  t5, mip, 2
    sd      zero, LINES(s0)
    csrr    t5, mip
    is      t5, 2
    csrw    mideleg, t4
    csrr    t5, sip
    is      t5, 2
    csrw    mip, t4
    csrrw   t5, sip, zero
    is      t5, 0x222
    csrrw   t5, mip, zero
    is      t5, 0x220
    csrw    mie, t4                 # what is not delegated cannot be seen or written through sie
    csrr    t5, sie
    is      t5, 0x222
    csrrw   t5, sie, zero
    csrrw   t5, mie, zero
    is      t5, 0x888
    csrw    sie, t4
    csrrw   t5, mie, zero
    is      t5, 0x222
    csrw    mideleg, zero

    part    9                       # counters: the core's own values, which go on into registers
    .rept   6
    csrr    a0, mcycle
    csrr    a1, mcycle
    sub     a2, a1, a0
    csrr    a3, minstret
    xor     a4, a3, a0
    csrr    a5, instret
    sltu    a6, a3, a5
    csrr    a0, time
    csrr    a7, cycle
    .endr
    csrr    a0, mhartid
    csrr    a1, mvendorid
    add     a2, a0, a1

    part    10
    .irp    csr, cycle, time, instret, mvendorid, marchid, mimpid, mhartid, 0xf15
    reads   \csr
    .endr
    .irp    csr, cycle, time, mhartid
    illegal_writes \csr
    .endr
    .irp    n, 3, 4, 5, 6, 7, 8, 9, 10, 11, 12, 13, 14, 15, 16
    csrr    a0, hpmcounter\n
    csrrci  a1, hpmcounter\n, 0
    .endr
    .irp    n, 17, 18, 19, 20, 21, 22, 23, 24, 25, 26, 27, 28, 29, 30, 31
    csrr    a0, hpmcounter\n
    csrrci  a1, hpmcounter\n, 0
    .endr
    faults  2, csrrw a0, instret, a0
    faults  2, csrrsi a0, hpmcounter3, 4
    faults  2, csrrw zero, hpmcounter17, zero
    faults  2, csrrci zero, hpmcounter31, 1
    faults  2, csrrs a0, mvendorid, s1
    faults  2, csrrwi a0, marchid, 0
    faults  2, csrrc a0, mimpid, s1
    faults  2, csrrw a0, 0xf15, s1
    jr      s9

all_registers:
    .irp    csr, mstatus, misa, medeleg, mideleg, mie, mtvec, mcounteren, menvcfg, mcountinhibit, mscratch, mepc
    all_forms \csr
    .endr
    .irp    csr, mcause, mtval, mip, sstatus, sie, sip, stvec, scounteren, senvcfg, sscratch, sepc, scause, stval
    all_forms \csr
    .endr
    .irp    csr, mcycle, minstret, mhpmcounter3, mhpmevent3
    all_forms \csr
    .endr
    .irp    n, 4, 5, 6, 7, 8, 9, 10, 11, 12, 13, 14, 15, 16, 17, 18, 19, 20, 21, 22, 23, 24, 25, 26, 27, 28, 29, 30, 31
    few_forms mhpmevent\n
    few_forms mhpmcounter\n
    .endr
    ret
