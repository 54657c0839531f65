# Falls into S and U. The handlers bring the hart back to s11.

# To mode a0 at a1 by MRET.
fall_by_mret:
    csrci   mstatus, 8
    la      s11, 1f
    li      t4, MPP
    csrc    mstatus, t4
    slli    t4, a0, 11
    csrs    mstatus, t4
    csrw    mepc, a1
    mret
1:  ret

# To mode a0 at a1 by SRET.
fall_by_sret:
    csrci   mstatus, 8
    la      s11, 1f
    li      t4, SPP
    csrc    mstatus, t4
    slli    t4, a0, 8
    csrs    mstatus, t4
    csrw    sepc, a1
    sret
1:  ret

# Checks that M came back from a fetch at a1 in mode a0.
came_back:
    ld      t4, CAUSE(gp)
    is      t4, 1
    with_value a1
    ld      t4, EPC(gp)
    bne     t4, a1, fail
    ld      t4, STATUS(gp)
    srli    t4, t4, 11
    andi    t4, t4, 3
    bne     t4, a0, fail
    ret

falls:
    mv      s9, ra
    part    15                      # not delegated
    csrw    mie, zero
    csrw    medeleg, zero
    la      a1, s_code
    .irp    way, fall_by_mret, fall_by_sret
    .irp    mode, 0, 1
    li      t4, MPRV                # leaves with M
    csrs    mstatus, t4
    sd      zero, CAUSE(gp)
    li      a0, \mode
    call    \way
    call    came_back
    csrr    t4, mstatus
    li      t5, MPRV
    and     t4, t4, t5
    bnez    t4, fail
    .endr
    .endr
    li      t4, MPRV                # a return to M keeps it
    csrs    mstatus, t4
    li      t4, MPP
    csrs    mstatus, t4
    la      t4, 1f
    csrw    mepc, t4
    mret
1:  csrr    t4, mstatus
    li      t5, MPRV
    and     t4, t4, t5
    beqz    t4, fail
    csrc    mstatus, t5
    li      a1, NOTHING
    li      a0, 1
    call    fall_by_mret
    call    came_back

    part    16                      # delegated: S cannot fetch its handler either, until M's timer comes
    la      t4, s_handler
    csrw    stvec, t4
    li      t4, 1 << 1
    csrw    medeleg, t4
    li      t4, 1 << 7
    csrw    mie, t4
    la      a1, s_code
    .irp    way, fall_by_mret, fall_by_sret
    .irp    mode, 0, 1
    forget
    li      t4, 24
    csrci   mstatus, 8
    sd      t4, TIMER(s0)
    csrsi   sstatus, 2
    li      a0, \mode
    call    \way
    arrived 1, 7
    csrr    t4, scause
    is      t4, 1
    la      t5, s_handler
    csrr    t4, stval
    beq     t4, t5, 1f              # the timer may come before the second fetch
    bne     t4, a1, fail
1:
    .endr
    .endr
    csrw    medeleg, zero

    part    17                      # interrupts of M are taken in S and U whatever MIE is
    csrci   mstatus, 8
    li      t4, ALL_INTERRUPTS
    csrw    mie, t4
    la      a1, s_code
    .irp    base, direct, vector + 1
    la      t4, \base
    csrw    mtvec, t4
    .irp    line, 3, 7, 11
    .irp    mode, 0, 1
    forget
    li      t4, 1 << \line
    csrci   mstatus, 8
    sd      t4, LINES(s0)
    li      a0, \mode
    call    fall_by_mret
    sd      zero, LINES(s0)
    .endr
    .endr
    .endr
    la      t4, direct
    csrw    mtvec, t4

    part    18                      # interrupts of S, in direct and in vectored mode
    li      t4, HELD
    csrw    mideleg, t4
    la      s3, s_handler
    call    interrupts_of_s
    la      s3, s_handler + 1
    call    interrupts_of_s
    li      t4, 1 << 1              # with the fetch fault of its handler delegated
    csrw    medeleg, t4
    .irp    mode, 0, 1
    li      t4, 1 << 1
    csrs    mip, t4
    li      t4, 24
    csrci   mstatus, 8
    sd      t4, TIMER(s0)
    li      a0, \mode
    call    fall_by_sret
    .endr
    csrw    medeleg, zero
    csrw    mip, zero

    part    19                      # one of M goes before those of S
    .rept   4
    li      t4, HELD
    csrw    mip, t4
    li      t4, ALL_LINES
    csrci   mstatus, 8
    sd      t4, LINES(s0)
    li      a0, 0
    call    fall_by_mret
    sd      zero, LINES(s0)
    .endr
    csrw    mip, zero
    csrw    mideleg, zero
    csrw    mie, zero
    jr      s9

# With stvec s3: each interrupt that is delegated and all of them, with SIE off and on, from U and S.
interrupts_of_s:
    mv      s8, ra
    csrw    stvec, s3
    li      s4, 0
1:  la      t4, held_bits           # bits 1:0 of s4
    andi    t5, s4, 3
    slli    t5, t5, 2
    add     t4, t4, t5
    lw      t4, (t4)
    csrw    mip, t4
    li      t5, 1 << 5
    csrci   sstatus, 2
    csrc    sstatus, t5
    andi    t4, s4, 4               # SIE, which SRET takes from SPIE
    beqz    t4, 2f
    csrsi   sstatus, 2
    csrs    sstatus, t5
2:  srli    a0, s4, 3               # the mode
    sd      zero, CAUSE(gp)
    call    fall_by_mret
    ld      t4, CAUSE(gp)
    is      t4, 1
    call    fall_by_sret
    addi    s4, s4, 1
    li      t4, 16
    bltu    s4, t4, 1b
    csrw    mip, zero
    jr      s8

# Loads and stores with the privilege of U and S, which have none.

# Sets MPP to a0; an exception and its return leave U there.
    .macro as_mode cause, instruction:vararg
    li      t4, MPP
    csrc    mstatus, t4
    csrs    mstatus, a0
    faults_bare \cause, \instruction
    .endm

# As `faults`, for while MPRV is on: what is recorded is looked at with M's own privilege.
    .macro faults_bare cause, instruction:vararg
    csrs    mstatus, s2
88: \instruction
    csrc    mstatus, s2
    la      t6, 88b
    ld      t5, EPC(gp)
    bne     t5, t6, fail
    ld      t5, CAUSE(gp)
    li      t6, \cause
    bne     t5, t6, fail
    .endm

other_privilege:
    mv      s9, ra
    part    20
    csrci   mstatus, 8
    li      s2, MPRV
    la      a1, bytes
    li      s3, 2
1:  li      a0, 0
    andi    t4, s3, 1
    beqz    t4, 2f
    li      a0, 0x800
2:  as_mode 5, lb a2, (a1)
    with_value a1
    as_mode 5, ld a2, (a1)
    as_mode 7, sb a2, (a1)
    as_mode 7, sd a2, (a1)
    with_value a1
    as_mode 5, lr.w a2, (a1)
    as_mode 7, sc.w a2, a2, (a1)
    as_mode 7, amoadd.d a2, a2, (a1)
    as_mode 4, lw a2, 1(a1)
    as_mode 6, sw a2, 1(a1)
    as_mode 5, lw a2, (s0)
    as_mode 7, sw a2, (s0)
    as_mode 11, ecall
    addi    s3, s3, -1
    bnez    s3, 1b
    li      t4, MPP                 # MPP M: as without
    csrs    mstatus, t4
    csrs    mstatus, s2
    ld      a2, (a1)
    sd      a2, (a1)
    csrc    mstatus, s2
    li      t4, 0x80                # an interrupt while MPRV is on: the handler has M's privilege again
    .irp    mpp, 0, 0x800
    forget
    csrw    mie, t4
    li      t5, 4
    sd      t5, TIMER(s0)
    li      t5, MPP
    csrc    mstatus, t5
    li      t5, \mpp
    csrs    mstatus, t5
    csrs    mstatus, s2
    csrsi   mstatus, 8
    .rept   24
    nop
    .endr
    csrci   mstatus, 8
    csrc    mstatus, s2
    sd      zero, LINES(s0)
    .endr
    csrw    mie, zero
    jr      s9
