# Programs in S and U, to whom the entries 14 and 15 of protection are open: what is delegated, counters, what
# TVM, TW and TSR bind, registers by mode, views of S, and interrupts that S takes.
#
# The handler of S has its record at tp, in the same form as that of M. Where a fetch was refused it goes on at
# s6, elsewhere after the instruction; an interrupt is turned off in sie, and every exception turns all on.
    .equ WAY, 32                    # in what is recorded at tp

    .macro s_entry number
    csrrw   sp, sscratch, sp
    addi    sp, sp, -32
    sd      t0, 0(sp)
    li      t0, \number
    j       s_handles
    .endm

# As `faults`, for what S takes.
    .macro s_faults cause, instruction:vararg
    sd      zero, CAUSE(tp)
88: \instruction
    la      t6, 88b
    ld      t5, EPC(tp)
    bne     t5, t6, fail
    ld      t5, CAUSE(tp)
    li      t6, \cause
    bne     t5, t6, fail
    .endm

    .macro s_with_value register
    ld      t5, VALUE(tp)
    bne     t5, \register, fail
    .endm

# Checks the mode that the last exception of S came from: SPP.
    .macro came_from spp
    ld      t5, STATUS(tp)
    andi    t5, t5, SPP
    is      t5, \spp
    .endm

    .balign 4
s_direct:
    s_entry -1

    .irp    code, 1, 5, 9
s_vector_\code:
    s_entry \code
    .endr

    .balign 4
    .option push
    .option norvc
s_vector:
    j       s_direct
    j       s_vector_1
    j       fail
    j       fail
    j       fail
    j       s_vector_5
    j       fail
    j       fail
    j       fail
    j       s_vector_9
    .option pop

s_handles:
    sd      t1, 8(sp)
    sd      t2, 16(sp)
    sd      t3, 24(sp)
    csrr    t1, scause
    csrr    t2, sstatus
    sd      t2, STATUS(tp)
    csrr    t2, sepc
    bltz    t1, s_interrupt
    li      t3, -1
    bne     t0, t3, fail
    sd      t1, CAUSE(tp)
    sd      t2, EPC(tp)
    csrr    t3, stval
    sd      t3, VALUE(tp)
    addi    t3, t1, -1
    beqz    t3, 2f
    lhu     t3, 0(t2)
    addi    t2, t2, 2
    andi    t3, t3, 3
    addi    t3, t3, -3
    bnez    t3, 1f
    addi    t2, t2, 2
1:  csrw    sepc, t2
    li      t3, HELD
    csrs    sie, t3
    j       s_leaves
2:  csrw    sepc, s6
    j       s_leaves

s_interrupt:
    slli    t1, t1, 1
    srli    t1, t1, 1
    csrr    t2, stvec
    andi    t2, t2, 1
    li      t3, -1
    beqz    t2, 1f
    mv      t3, t1
1:  bne     t0, t3, fail
    la      t2, taken
    lw      t3, 0(t2)
    addi    t3, t3, 1
    sw      t3, 0(t2)
    andi    t3, t3, 31
    add     t2, t2, t3
    sb      t1, 4(t2)
    li      t2, 1                   # SSIP goes, the others can only be turned off
    sll     t2, t2, t1
    csrc    sip, t2
    csrc    sie, t2
s_leaves:
    ld      t0, 0(sp)
    ld      t1, 8(sp)
    ld      t2, 16(sp)
    ld      t3, 24(sp)
    addi    sp, sp, 32
    csrrw   sp, sscratch, sp
    sret

supervisor:
    addi    sp, sp, -16
    sd      ra, 8(sp)
    call    open
    la      tp, s_record
    la      t4, s_stack_end
    csrw    sscratch, t4
    la      t4, s_direct
    csrw    stvec, t4
    csrw    mie, zero
    csrw    mip, zero
    call    delegations
    call    counters
    call    bound
    call    by_mode
    call    views
    call    taken_in_s
    call    storms
    csrw    medeleg, zero
    csrw    mideleg, zero
    csrw    mie, zero
    csrw    mip, zero
    csrw    mcounteren, zero
    csrw    scounteren, zero
    ld      ra, 8(sp)
    addi    sp, sp, 16
    ret

# Exceptions.
delegations:
    mv      s9, ra
    part    29
    li      t4, 0xb3fd              # all but refused fetches
    csrw    medeleg, t4
    in_mode 0, delegated_in_u
    in_mode 1, delegated_in_s
    li      t4, 1 << 8              # calls from U alone
    csrw    medeleg, t4
    in_mode 0, half_delegated
    csrw    medeleg, zero
    in_mode 0, own_of_m
    in_mode 1, own_of_m
    li      t4, 1 << 1              # refused fetches alone
    csrw    medeleg, t4
    li      t4, 8
    csrw    mie, t4
    in_mode 0, refused_to_s
    in_mode 1, refused_to_s
    csrw    mie, zero
    csrw    medeleg, zero
    jr      s9

    .macro  delegated_ones call, spp
    li      a1, ARENA
    s_faults 2, .insn 4, 0xabcdef0b
    li      a2, 0xabcdef0b
    s_with_value a2
    came_from \spp
    s_faults 2, .insn 2, 0x0000
    s_with_value zero
    s_faults 2, csrr a2, mscratch
    s_faults 3, c.ebreak
    came_from \spp
    ld      t4, EPC(tp)
    s_with_value t4
    s_faults 4, lw a2, 2(a1)
    addi    t4, a1, 2
    s_with_value t4
    s_faults 5, lw a2, 4(a1)
    addi    t4, a1, 4
    s_with_value t4
    s_faults 6, sd a2, 4(a1)
    s_faults 7, sd a2, 8(a1)
    s_faults 7, amoadd.w a2, a2, (a1)
    s_with_value a1
    s_faults \call, ecall
    s_with_value zero
    came_from \spp
    .endm

delegated_in_u:
    delegated_ones 8, 0
    back
delegated_in_s:
    csrci   sstatus, 2
    delegated_ones 9, SPP
    ld      t5, STATUS(tp)          # SPIE has what SIE had
    andi    t5, t5, 0x22
    bnez    t5, fail
    csrsi   sstatus, 2
    s_faults 9, ecall
    ld      t5, STATUS(tp)
    andi    t5, t5, 0x22
    is      t5, 0x20
    csrr    t5, sstatus
    andi    t5, t5, 0x22
    is      t5, 0x22
    csrci   sstatus, 2
    back
half_delegated:
    s_faults 8, ecall
    faults  2, .insn 2, 0x0000
    faults  3, ebreak
    back
own_of_m:
    li      a1, ARENA
    faults  2, .insn 4, 0xabcdef0b
    faults  3, c.ebreak
    faults  4, lw a2, 2(a1)
    faults  5, lw a2, 4(a1)
    addi    t4, a1, 4
    with_value t4
    faults  6, sd a2, 4(a1)
    faults  7, sd a2, 8(a1)
    sd      zero, CAUSE(gp)
    ecall
    ld      t4, CAUSE(gp)
    ld      t5, STATUS(gp)          # 8 and MPP
    srli    t5, t5, 11
    andi    t5, t5, 3
    addi    t5, t5, 8
    bne     t4, t5, fail
    back
refused_to_s:
    la      s6, 1f
    li      t4, ARENA
    jr      t4
1:  s_with_value t4
    ld      t5, EPC(tp)
    bne     t5, t4, fail
    la      s6, 1f
    jr      a4                      # NOTHING, or what stands there
1:  mv      s11, ra
    li      t4, 8                   # back by an interrupt of M
    sd      t4, LINES(s0)
1:  j       1b

# What U and S may read under each setting; the quick handler steps over what is illegal.
counters:
    mv      s9, ra
    part    30
    csrw    mcounteren, zero
    csrw    scounteren, zero
    in_mode 0, no_counters
    in_mode 1, no_counters
    li      t4, 5
    csrw    mcounteren, t4
    in_mode 1, two_counters
    in_mode 0, no_counters
    li      t4, 7
    csrw    scounteren, t4
    in_mode 0, two_counters
    csrw    mcounteren, zero
    in_mode 0, no_counters
    in_mode 1, no_counters
    fast
    la      s2, settings_of_counters
1:  lbu     t4, (s2)
    csrw    mcounteren, t4
    lbu     t4, 1(s2)
    csrw    scounteren, t4
    in_mode 0, all_counters
    in_mode 1, all_counters
    addi    s2, s2, 2
    la      t4, settings_of_counters_end
    bltu    s2, t4, 1b
    slow
    jr      s9

no_counters:
    faults  2, csrr a2, cycle
    faults  2, csrr a2, time
    faults  2, csrr a2, instret
    faults  2, csrr a2, hpmcounter3
    faults  2, csrr a2, hpmcounter31
    faults  2, csrrw a2, cycle, a2
    faults  2, csrr a2, mcycle
    faults  2, csrr a2, mhartid
    back
two_counters:
    passes  csrr a2, cycle
    faults  2, csrr a2, time
    passes  csrr a2, instret
    faults  2, csrr a2, hpmcounter3
    faults  2, csrrsi a2, instret, 1
    passes  csrrsi a2, instret, 0
    back
all_counters:
    csrr    a2, cycle
    csrr    a3, time
    csrr    a4, instret
    csrr    a5, hpmcounter3
    csrrwi  zero, time, 0
    add     a2, a2, a3
    xor     a2, a2, a4
    back

# TVM, TW and TSR.
bound:
    mv      s9, ra
    part    31
    li      s2, 7 << 20
    csrc    mstatus, s2
    in_mode 1, unbound_s
    csrs    mstatus, s2
    in_mode 1, bound_s
    in_mode 0, bound_u
    csrc    mstatus, s2
    li      a0, 0
    la      a1, bound_u
    call    fall_by_sret
    li      a0, 1
    la      a1, unbound_s
    call    fall_by_sret
    fast
    li      s3, 0
1:  csrc    mstatus, s2
    slli    t4, s3, 20
    csrs    mstatus, t4
    in_mode 1, all_of_s
    in_mode 0, all_of_s
    addi    s3, s3, 1
    li      t4, 8
    bltu    s3, t4, 1b
    slow
    csrc    mstatus, s2
    jr      s9

unbound_s:
    passes  sfence.vma
    passes  sfence.vma a1, a2
    passes  wfi
    faults  2, mret
    la      t4, 1f                  # SRET to S, then to U
    csrw    sepc, t4
    li      t4, SPP
    csrs    sstatus, t4
    csrsi   sstatus, 2
    sret
1:  csrr    t5, sstatus             # SIE from SPIE, and SPP is U
    andi    t5, t5, SPP
    bnez    t5, fail
    la      t4, 1f
    csrw    sepc, t4
    sret
1:  faults  2, csrr t5, sstatus
    faults  2, sret
    back
bound_s:
    faults  2, sfence.vma
    faults  2, sfence.vma a1, a2
    faults  2, sret
    faults  2, mret
    faults  2, csrr a2, satp
    wfi
    csrr    a2, sstatus
    wfi
    wfi
    back
bound_u:
    faults  2, sfence.vma
    faults  2, sfence.vma a1, zero
    faults  2, sret
    faults  2, mret
    li      t4, 0x10200073
    faults  2, sret
    with_value t4
    wfi
    wfi
    wfi
    back
    .option push
    .option norvc
all_of_s:
    li      a3, SPP
    la      a4, 1f
    csrw    sepc, a4
    csrs    sstatus, a3
    sfence.vma
    wfi
    sfence.vma a4, a3
    sret
1:  mret
    wfi
    fence.i
    back
    .option pop

# Registers by mode.
by_mode:
    mv      s9, ra
    part    32
    in_mode 0, none_of_s
    in_mode 0, none_of_m
    fast
    in_mode 1, none_of_m_quickly
    slow
    jr      s9

none_of_s:
    .irp    csr, sstatus, sie, stvec, scounteren, senvcfg, sscratch, sepc, scause, stval, sip, satp
    faults  2, csrr a2, \csr
    faults  2, csrrw zero, \csr, a2
    .endr
    back
    .macro registers_of_m refused:vararg
    .irp    csr, mstatus, misa, medeleg, mideleg, mie, mtvec, mcounteren, menvcfg, mcountinhibit, mhpmevent3
    \refused csrr a2, \csr
    \refused csrrwi zero, \csr, 1
    .endr
    .irp    csr, mscratch, mepc, mcause, mtval, mip, pmpcfg0, pmpcfg2, pmpaddr0, pmpaddr15, mcycle, mhpmcounter31
    \refused csrr a2, \csr
    \refused csrrc a2, \csr, a2
    .endr
    .irp    csr, mvendorid, marchid, mimpid, mhartid, 0xf15, 0x3a1, 0x3a3, 0x3c0, 0x7c0, 0x5c0, 0x8c0
    \refused csrr a2, \csr
    .endr
    .endm
none_of_m:
    registers_of_m faults 2,
    back
none_of_m_quickly:
    registers_of_m
    back

# What S sees of the registers of M.
views:
    mv      s9, ra
    part    33
    li      s1, -1
    li      s2, 0x5a5a5a5a5a5a5a5a
    li      s3, 0xc3c3c3c3c3c3c3c3
    li      s4, 0x123456789abcdef0
    li      s5, 0x00000000007e19aa
    li      s6, 0x0f0f0f0f0f0f0fff
    li      t4, HELD
    csrw    mideleg, t4
    in_mode 1, all_of_the_views
    li      t4, ALL_LINES           # read by S as far as they are delegated
    sd      t4, LINES(s0)
    li      t4, 0x220
    csrw    mip, t4
    li      t4, 0x202
    csrw    mideleg, t4
    in_mode 1, all_of_the_views
    sd      zero, LINES(s0)
    csrw    mip, zero
    csrw    mideleg, zero
    in_mode 1, all_of_the_views
    li      t4, 0x22                # what S writes is seen by M
    csrw    mideleg, t4
    in_mode 1, written_by_s
    csrrw   t5, mie, zero
    is      t5, 0x22
    csrrw   t5, mip, zero
    is      t5, 2
    csrr    t5, mstatus
    li      t4, 0xc0122
    and     t5, t5, t4
    is      t5, 0xc0120
    csrc    mstatus, t4
    csrw    mideleg, zero
    jr      s9

all_of_the_views:
    .irp    csr, sstatus, sie, sip, stvec, scounteren, senvcfg, sscratch, sepc, scause, stval
    all_forms \csr
    .endr
    back
written_by_s:
    csrci   sstatus, 2
    li      t4, -1
    csrw    sie, t4
    csrw    sip, t4
    li      t4, 0xc0120
    csrw    sstatus, t4
    holds   sie, 0x22
    holds   sip, 2
    holds   sstatus, 0x2000c0120
    passes  csrr a2, satp
    back

# Interrupts that S takes.
taken_in_s:
    mv      s9, ra
    part    34
    csrw    medeleg, zero
    li      t4, HELD
    csrw    mideleg, t4
    la      s3, s_direct
    call    s_each
    la      s3, s_vector + 1
    call    s_each
    part    35
    la      t4, s_direct
    csrw    stvec, t4
    li      t4, 1 << 5              # one of S, one of M, which comes first and goes back
    csrw    mideleg, t4
    .irp    mode, 0, 1
    forget
    li      t4, 0x22
    csrw    mip, t4
    csrw    mie, t4
    li      t4, 0x20
    csrs    mstatus, t4
    in_mode \mode, two_of_them
    arrived 1, 1
    arrived 2, 5
    csrw    mip, zero
    .endr
    li      t4, HELD                # lines, which S cannot silence
    csrw    mideleg, t4
    csrw    mip, zero
    .irp    mode, 0, 1
    forget
    li      t4, ALL_INTERRUPTS
    csrw    mie, t4
    in_mode \mode, a_line
    arrived 1, 9
    arrived 2, 7
    sd      zero, LINES(s0)
    .endr
    csrw    mie, zero
    jr      s9

# With stvec s3: each interrupt of S and all, in U and S, with SIE off and on.
s_each:
    mv      s8, ra
    csrw    stvec, s3
    li      s4, 0
1:  forget
    la      t4, held_bits
    andi    t5, s4, 3
    slli    t5, t5, 2
    add     t4, t4, t5
    lw      s5, (t4)
    csrw    mip, s5
    csrw    mie, s5
    csrci   sstatus, 2
    li      a0, 1                   # how many
    li      t5, HELD
    bne     s5, t5, 2f
    li      a0, 3
2:  mv      s2, a0
    andi    t4, s4, 8
    beqz    t4, 3f
    csrsi   sstatus, 2
3:  li      a0, 0
    la      a1, s_waits_in_u        # in U they are taken whatever SIE is
    andi    t4, s4, 4
    beqz    t4, 4f
    li      a0, 1
    la      a1, s_waits
4:  call    fall_by_mret
    li      t5, 3
    bne     s2, t5, 5f
    arrived 1, 9
    arrived 2, 1
    arrived 3, 5
5:  addi    s4, s4, 1
    li      t4, 16
    bltu    s4, t4, 1b
    csrw    mip, zero
    csrw    mie, zero
    jr      s8

s_waits_in_u:
    la      t4, taken
1:  lw      t5, (t4)
    bltu    t5, s2, 1b
    back
s_waits:
    csrr    t4, sstatus
    andi    t4, t4, 2
    bnez    t4, 1f
    nop                             # with SIE off nothing is taken
    csrr    t4, sip
    nop
    nop
    nop
    la      t4, taken
    lw      t5, (t4)
    bnez    t5, fail
    csrsi   sstatus, 2
1:  j       s_waits_in_u

two_of_them:
    li      s11, 0
    la      t4, taken
    li      s2, 2
1:  lw      t5, (t4)
    bltu    t5, s2, 1b
    back
a_line:
    li      s11, 0
    la      t4, taken
    li      s2, 1
    li      t5, 0x200
    sd      t5, LINES(s0)
1:  lw      t5, (t4)
    bltu    t5, s2, 1b
    li      s2, 2
    li      t5, 8
    sd      t5, TIMER(s0)
1:  lw      t5, (t4)
    bltu    t5, s2, 1b
    back

# Ordinary code in U and S under interrupts that come as they like, to M and to S.
storms:
    mv      s9, ra
    part    36
    li      s1, 0x9e3779b97f4a7c15
    la      s3, bytes
    li      t4, HELD
    csrw    mideleg, t4
    li      t4, 0x300               # calls go to S
    csrw    medeleg, t4
    li      t4, 7
    csrw    mcounteren, t4
    csrw    scounteren, t4
    .irp    vector, s_direct, s_vector + 1
    la      t4, \vector
    csrw    stvec, t4
    .irp    mode, 0, 1
    li      t4, ALL_INTERRUPTS
    csrw    mie, t4
    csrsi   sstatus, 2
    li      t4, 1
    sd      t4, STORM(s0)
    in_mode \mode, stormy
    sd      zero, STORM(s0)
    csrw    mie, zero
    .endr
    .endr
    jr      s9

stormy:
    li      s11, 0
    mv      s7, ra
    li      s2, 6
1:  call    mix
    ecall                           # turns all interrupts of S on again
    csrr    t4, cycle
    csrr    t5, instret
    wfi
    lw      a5, 0x44(s0)
    xor     s1, s1, a5
    add     s1, s1, t4
    addi    s2, s2, -1
    bnez    s2, 1b
    sd      zero, STORM(s0)
    mv      ra, s7
    back

    .data
    .balign 16
s_record:
    .space  64
    .space  256
s_stack_end:
# mcounteren and scounteren
settings_of_counters:
    .byte   1, 7, 2, 7, 4, 7, 7, 7, 7, 1, 7, 2, 7, 4, 6, 3
settings_of_counters_end:

    .text
