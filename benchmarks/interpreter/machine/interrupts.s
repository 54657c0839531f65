# Interrupts in M.

# Waits until a0 interrupts were taken.
await:
    la      t4, taken
1:  lw      t5, (t4)
    bltu    t5, a0, 1b
    ret

    .macro forget
    la      t4, taken
    sw      zero, (t4)
    .endm

# Checks the code that was taken as the one with this number, from 1.
    .macro arrived number, code
    la      t4, taken
    lbu     t5, 4 + \number(t4)
    is      t5, \code
    .endm

interrupts:
    mv      s9, ra
    part    11                      # nothing is taken while MIE or the bit of mie is off
    forget
    li      a1, ALL_LINES
    sd      a1, LINES(s0)
    li      a2, HELD
    csrw    mip, a2
    csrsi   mstatus, 8
    nop
    nop
    csrci   mstatus, 8
    li      a3, ALL_INTERRUPTS
    csrw    mie, a3
    nop
    nop
    csrw    mie, zero
    csrw    mideleg, a2             # what is delegated is not for M
    csrw    mie, a2
    csrsi   mstatus, 8
    nop
    nop
    nop
    csrci   mstatus, 8
    csrw    mie, zero
    csrw    mideleg, zero
    la      t4, taken
    lw      t5, (t4)
    bnez    t5, fail
    csrw    mip, zero
    sd      zero, LINES(s0)

    part    12
    la      t4, direct
    csrw    mtvec, t4
    call    one_by_one
    call    all_at_once
    part    13
    la      t4, vector + 1
    csrw    mtvec, t4
    call    one_by_one
    call    all_at_once
    faults  11, ecall               # an exception goes to the base
    faults  4, lw t4, 1(zero)
    la      t4, direct
    csrw    mtvec, t4

    part    14                      # a timer while the hart waits
    forget
    li      t4, 0x80
    csrw    mie, t4
    csrsi   mstatus, 8
    li      t4, 9
    sd      t4, TIMER(s0)
    wfi
    wfi
    wfi
    li      a0, 1
    call    await
    csrci   mstatus, 8
    arrived 1, 7
    jr      s9

one_by_one:
    mv      s8, ra
    .irp    code, 3, 7, 9, 11
    forget
    li      t4, 1 << \code
    csrw    mie, t4
    csrsi   mstatus, 8
    sd      t4, LINES(s0)
    li      a0, 1
    call    await
    arrived 1, \code
    csrci   mstatus, 8
    .endr
    .irp    code, 1, 5, 9
    forget
    li      t4, 1 << \code
    csrs    mie, t4
    csrs    mip, t4
    csrsi   mstatus, 8
    li      a0, 1
    call    await
    arrived 1, \code
    csrci   mstatus, 8
    .endr
    jr      s8

all_at_once:
    mv      s8, ra
    forget
    li      t4, ALL_LINES
    sd      t4, LINES(s0)
    li      t4, HELD
    csrw    mip, t4
    li      t4, ALL_INTERRUPTS
    csrw    mie, t4
    csrsi   mstatus, 8
    li      a0, 6
    call    await
    csrci   mstatus, 8
    arrived 1, 11
    arrived 2, 3
    arrived 3, 7
    arrived 4, 9
    arrived 5, 1
    arrived 6, 5
    jr      s8
