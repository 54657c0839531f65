# Programs in the address spaces of translation.s: tables and pages under protection and outside RAM, devices,
# fetches over the edges of pages, pages at several addresses, traps that are delegated and that are not, interrupts.
    .equ EDGE_1, 0x80410000         # a page that ends in the first half of LI a2
    .equ EDGE_2, 0x80412000         # one that begins in the second half and an ECALL; after EDGE_1 is another
    .equ EDGES, LASTS + (20 << 12)
    .equ OVER, EDGES + 0xffe
    .equ SHARED, 0x80420000         # a page with several addresses, and one beside it
    .equ ALIAS, LASTS + (30 << 12)
    .equ CODE, LASTS + (40 << 12)
    .equ CODE_FRAME, 0x80430000
    .equ ZERO, TABLES + 0x9000      # the table of the address 0
    .equ NOWHERE, 7 << 30

spaces:
    addi    sp, sp, -16
    sd      ra, 8(sp)
    call    open_all
    telling
    li      s9, MPRV | MPP
    call    guarded_tables
    call    guarded_pages
    call    outside
    call    edges
    call    aliases
    call    vanishing
    call    told_traps
    call    lost_handlers
    la      t4, direct
    csrw    mtvec, t4
    call    storms_in_spaces
    csrw    satp, zero
    csrw    medeleg, zero
    csrw    mideleg, zero
    csrw    mie, zero
    csrw    mip, zero
    ld      ra, 8(sp)
    addi    sp, sp, 16
    ret

# A probe at SMALL, in U or S.
small_there:
    li      a0, SMALL
    call    probe
    to_m

# A probe at SMALL in U or, as s2 has it, under MPRV, and what it must find.
    .macro  finds at
    bnez    s2, 1f
    run_in  0, small_there
    lhu     t5, \at(s4)
    j       2f
1:  li      a0, SMALL
    call    probe_as
    lhu     t5, \at(s4)
    srli    t5, t5, 4
2:  bne     a1, t5, fail
    .endm

    .macro  guard first, second
    csrw    pmpcfg0, zero
    ld      t4, \first(s4)
    add     t4, t4, s1
    csrw    pmpaddr0, t4
    ld      t4, \second(s4)
    add     t4, t4, s1
    csrw    pmpaddr1, t4
    .endm

# An entry of each level under protection, which is read in 8 bytes and as S: in U, and as S under MPRV.
guarded_tables:
    addi    sp, sp, -16
    sd      ra, 8(sp)
    part    48
    li      s8, MPRV | mode_S << 11
    .irp    mode, U, S
    li      s2, mode_\mode
    li      s3, user_\mode
    put_for_mode LAST, 7, FRAMES, GOOD
    space   ROOT_\mode
    .irp    place, ROOT_\mode + 8 * 5, MIDDLE + 8 * 511, LAST + 8 * 7
    li      s1, (\place) >> 2
    call    under_guards
    .endr
    .endr
    ld      ra, 8(sp)
    addi    sp, sp, 16
    ret

under_guards:
    mv      s7, ra
    la      s4, guards
    la      s5, guards_end
3:  guard   8, 16
    ld      t4, (s4)
    csrw    pmpcfg0, t4
    finds   24
    addi    s4, s4, 32
    bltu    s4, s5, 3b
    csrw    pmpcfg0, zero
    jr      s7

# Pages under protection, and which fault goes first: in U, and as S under MPRV.
guarded_pages:
    addi    sp, sp, -16
    sd      ra, 8(sp)
    part    49
    li      s1, FRAMES >> 2
    li      s8, MPRV | mode_S << 11
    .irp    mode, U, S
    li      s2, mode_\mode
    li      s3, user_\mode
    space   ROOT_\mode
    la      s4, guarded
    la      s5, guarded_end
3:  li      t4, FRAMES >> 2 | GOOD
    or      t4, t4, s3
    ld      t5, (s4)
    xor     t4, t4, t5
    li      t5, LAST + 8 * 7
    sd      t4, (t5)
    guard   16, 24
    ld      t4, 8(s4)
    csrw    pmpcfg0, t4
    finds   32
    addi    s4, s4, 40
    bltu    s4, s5, 3b
    csrw    pmpcfg0, zero
    .endr
    li      t4, MXR                 # by which a page is read, but not what protection refuses
    csrs    mstatus, t4
    put     LAST, 7, FRAMES, P_V | P_X | P_A
    li      a0, SMALL
    call    load_as
    bnez    a1, fail
    napot   0, FRAMES, 12
    csrwi   pmpcfg0, 0x1c
    call    load_as
    is      a1, 5
    csrwi   pmpcfg0, 0
    li      t4, MXR
    csrc    mstatus, t4
    ld      ra, 8(sp)
    addi    sp, sp, 16
    ret

# Tables and pages that are no RAM, where protection grants everything.
outside:
    addi    sp, sp, -16
    sd      ra, 8(sp)
    part    50
    li      t4, -1
    csrw    pmpaddr13, t4
    li      t4, 0x1f1b1f0000000000
    csrw    pmpcfg2, t4
    li      s8, MPRV | mode_S << 11
    .irp    mode, U, S
    li      s3, user_\mode
    li      a5, ROOT_\mode
    space   ROOT_\mode
    la      s6, probe
    li      a6, 0
    run_in  mode_\mode, outside_there
    put_for_mode LAST, 7, DEVICES, GOOD
    run_in  mode_\mode, at_devices
    .endr
    la      s6, probe_as
    li      a6, 4
    call    outside_all
    li      a0, FRAMES
    .irp    root, DEVICES, NOTHING, 0x88000000, 0, 0xfffffffffff000
    space   \root
    call    probe_as
    is      a1, 0x57
    .endr
    space   0x87fff000              # RAM, without an entry
    call    probe_as
    is      a1, 0xdf
    call    open_all
    ld      ra, 8(sp)
    addi    sp, sp, 16
    ret

    .macro  found va, causes
    li      a0, \va
    jalr    s6
    li      t5, \causes
    srl     t5, t5, a6
    bne     a1, t5, fail
    .endm

outside_there:
    call    outside_all
    to_m
outside_all:
    mv      a4, ra
    .irp    place, NOTHING, 0, 0x7ffff000, 0x88000000, 0xfffffffffff000
    put_for_mode LAST, 7, \place, GOOD
    found   SMALL, UNREACHED
    .endr
    put_for_mode LAST, 7, DEVICES, GOOD
    found   SMALL, 0x001
    put_for_mode LAST, 7, DEVICES, P_V | P_R | P_A
    found   SMALL, 0x0fc
    put_for_mode LAST, 7, 0x87fff000, GOOD & ~P_X
    found   SMALL, 0x00c
    put_for_mode MIDDLE, 3, DEVICES, GOOD
    found   SUPERPAGE, 0x001
    found   SUPERPAGE + 0x1000, UNREACHED
    put_for_mode MIDDLE, 3, NOTHING, GOOD
    found   SUPERPAGE, UNREACHED
    ori     t4, s3, GOOD            # the first GiB
    sd      t4, 8 * 4(a5)
    found   GIGABYTE + DEVICES, 0x001
    found   GIGABYTE + NOTHING, UNREACHED
    found   GIGABYTE, UNREACHED
    .irp    place, DEVICES, NOTHING, 0x88000000, 0xfffffffffff000
    li      t4, \place >> 2 | P_V   # as a table
    li      t5, MIDDLE + 8 * 3
    sd      t4, (t5)
    sd      t4, 8 * 4(a5)
    found   SUPERPAGE, UNREACHED
    found   GIGABYTE, UNREACHED
    .endr
    jr      a4

# A device at another address answers loads and stores of each size, and nothing else.
at_devices:
    li      a2, SMALL
    li      a3, 0x888
    told    0, sd a3, LINES(a2)
    ld      a4, LINES(s0)
    bne     a3, a4, fail
    sd      zero, LINES(s0)
    told    0, ld a4, LINES(a2)
    bnez    a4, fail
    .irp    load, lb, lbu, lh, lhu, lw, lwu, ld
    told    0, \load a4, 0x40(a2)
    .endr
    told    0, lbu a4, 0x47(a2)
    told    0, lh a4, 0x46(a2)
    told    0, sb a4, 0x53(a2)
    told    0, sh a4, 0x52(a2)
    told    0, sw a4, 0x54(a2)
    told    0, lw zero, 0x44(a2)
    told    4, lw a4, 0x42(a2)
    told    5, lr.w a4, (a2)
    told    7, sc.w a4, a3, (a2)
    told    7, amoswap.d a4, a3, (a2)
    to_m

# Instructions of four bytes over the edge of two pages, whose halves are translated each for itself.
    .macro  goes_over mode, where
    li      t2, 0
    li      a2, 0
    li      a0, mode_\mode
    li      a1, \where
    call    fall
    .endm

# Both halves were fetched: LI gave 0x123, and ECALL came after it.
    .macro  went_over mode, to
    is      t3, 8 + mode_\mode
    is      a2, 0x123
    is      t5, \to
    .endm

    .macro  stopped cause, value, at
    is      t3, \cause
    is      t4, \value
    is      t5, \at
    .endm

edges:
    addi    sp, sp, -16
    sd      ra, 8(sp)
    part    51
    li      t4, EDGE_1
    li      t5, 0x0613
    li      t6, 0x1000
    add     a3, t4, t6
    sh      t5, -2(a3)
    li      t6, 0x734560            # LI a2 would have 0x456 from the page after EDGE_1
    sw      t6, (a3)
    sh      zero, 4(a3)
    li      t6, 0x731230
    li      a3, EDGE_2
    sw      t6, (a3)
    sh      zero, 4(a3)
    li      a3, FRAMES + 0x200000   # and in superpages
    sh      t5, -2(a3)
    li      a3, FRAMES + 0x600000
    sw      t6, (a3)
    sh      zero, 4(a3)
    fence.i
    .irp    mode, U, S
    li      s3, user_\mode
    space   ROOT_\mode
    put_for_mode LAST, 20, EDGE_1, GOOD
    la      s4, second_halves
    la      s5, second_halves_end
1:  ld      t4, (s4)
    xor     t4, t4, s3
    li      t5, LAST + 8 * 21
    sd      t4, (t5)
    goes_over \mode, OVER
    ld      a3, 8(s4)
    bnez    a3, 2f
    went_over \mode, OVER + 4
    j       3f
2:  bne     t3, a3, fail
    is      t4, OVER + 2
    is      t5, OVER
3:  addi    s4, s4, 16
    bltu    s4, s5, 1b
    call    first_halves_\mode
    call    guarded_halves_\mode
    call    distant_halves_\mode
    .endr
    ld      ra, 8(sp)
    addi    sp, sp, 16
    ret

    .macro  halves mode
first_halves_\mode:
    mv      s7, ra
    put_for_mode LAST, 21, EDGE_2, GOOD & ~P_V
    put_for_mode LAST, 20, EDGE_1, GOOD & ~P_V
    goes_over \mode, OVER
    stopped 12, OVER, OVER
    put_for_mode LAST, 20, NOTHING, GOOD
    goes_over \mode, OVER
    stopped 1, OVER, OVER
    put_for_mode LAST, 20, EDGE_1, GOOD
    li      t4, EDGE_1 + 0xffe      # C.LI a2 needs no second half
    li      t5, 0x4615
    sh      t5, (t4)
    fence.i
    goes_over \mode, OVER
    stopped 12, OVER + 2, OVER + 2
    is      a2, 5
    li      t4, EDGE_1 + 0xffe
    li      t5, 0x0613
    sh      t5, (t4)
    fence.i
    jr      s7

guarded_halves_\mode:
    mv      s7, ra
    put_for_mode LAST, 21, EDGE_2, GOOD
    address 0, EDGE_2               # the page
    csrwi   pmpcfg0, 0x13
    goes_over \mode, OVER
    stopped 1, OVER + 2, OVER
    csrwi   pmpcfg0, 0x14
    goes_over \mode, OVER
    went_over \mode, OVER + 4
    address 0, EDGE_1 + 0xffc
    csrwi   pmpcfg0, 0x13
    goes_over \mode, OVER
    stopped 1, OVER, OVER
    address 0, LAST + 8 * 21 + 4    # the entry of the second
    csrwi   pmpcfg0, 0x17
    goes_over \mode, OVER
    stopped 1, OVER + 2, OVER
    csrwi   pmpcfg0, 0
    jr      s7

# Over the edges of superpages, out of the lower half of all addresses, and from the last address to 0.
distant_halves_\mode:
    mv      s7, ra
    put_for_mode MIDDLE, 3, FRAMES, GOOD
    put_for_mode MIDDLE, 4, FRAMES + 0x600000, GOOD
    goes_over \mode, SUPERPAGE + 0x1ffffe
    went_over \mode, SUPERPAGE + 0x200002
    put_for_mode MIDDLE, 4, FRAMES + 0x600000, GOOD & ~P_A
    goes_over \mode, SUPERPAGE + 0x1ffffe
    stopped 12, SUPERPAGE + 0x200000, SUPERPAGE + 0x1ffffe
    put     MIDDLE, 4, FAR_LAST, P_V
    put_for_mode FAR_LAST, 0, EDGE_2, GOOD
    goes_over \mode, SUPERPAGE + 0x1ffffe
    went_over \mode, SUPERPAGE + 0x200002
    put_for_mode LAST, 511, EDGE_1, GOOD
    goes_over \mode, 0x3ffffffffe
    stopped 12, 0x4000000000, 0x3ffffffffe
    goes_over \mode, -2
    stopped 12, 0, -2
    put     LOW_\mode, 0, ZERO, P_V
    put_for_mode ZERO, 0, EDGE_2, GOOD
    goes_over \mode, -2
    went_over \mode, 2
    put_for_mode ZERO, 0, NOTHING, GOOD
    goes_over \mode, -2
    stopped 1, 0, -2
    li      t4, LOW_\mode
    sd      zero, (t4)
    jr      s7
    .endm

    halves  U
    halves  S

# Several addresses of one page.
aliases:
    addi    sp, sp, -16
    sd      ra, 8(sp)
    part    52
    .irp    mode, U, S
    li      s3, user_\mode
    space   ROOT_\mode
    put_for_mode LAST, 30, SHARED, GOOD
    put_for_mode LAST, 31, SHARED, GOOD & ~P_X
    put_for_mode LAST, 32, SHARED + 0x1000, GOOD
    put_for_mode LAST, 33, SHARED, GOOD & ~P_W
    put_for_mode LAST, 34, SHARED, P_V | P_X | P_A
    run_in  mode_\mode, shared
    .endr
    ld      ra, 8(sp)
    addi    sp, sp, 16
    ret

shared:
    li      a2, ALIAS + 0x40
    li      a3, ALIAS + 0x1040
    li      a4, ALIAS + 0x2040      # another page's
    li      a5, ALIAS + 0x3040      # not written
    li      a6, ALIAS + 0x4040      # fetched alone
1:  lr.d    s1, (a2)                # until it stores
    addi    s1, s1, 3
    sc.d    s2, s1, (a3)
    bnez    s2, 1b
    ld      s4, (a2)
    bne     s4, s1, fail
1:  lr.w    s1, (a5)
    addi    s1, s1, 5
    told    15, sc.w s2, s1, (a5)   # which leaves the reservation
    told    15, sc.w s2, s1, (a6)
    sc.w    s2, s1, (a2)
    bnez    s2, 1b
    lw      s4, (a3)
    bne     s4, s1, fail
    lr.d    s1, (a2)
    sc.d    s2, s1, (a4)            # the same in the page, but another page
    is      s2, 1
    sc.d    s2, s1, (a2)
    is      s2, 1
    li      s4, LAST + 8 * 30
    ld      s5, (s4)
    ld      s6, 16(s4)
    lr.d    s1, (a2)
    sd      s6, (s4)                # the address leads elsewhere now
    sc.d    s2, s1, (a2)
    is      s2, 1
    sd      s5, 16(s4)
1:  lr.d    s1, (a3)
    addi    s1, s1, 7
    sc.d    s2, s1, (a4)            # and this one here
    bnez    s2, 1b
    ld      s2, (a5)
    bne     s1, s2, fail
    sd      s5, (s4)
    sd      s6, 16(s4)
    told    15, amoadd.w s2, s1, (a5)
    told    13, lw s2, (a6)
    told    13, lr.w s2, (a6)
    told    15, amoor.d s2, s1, (a6)
    li      s1, 0x80824595          # LI a1, 5 and a return, written here and fetched there
    told    0, sw s1, (a3)
    fence.i
    li      a1, 0
    jalr    a6
    is      a1, 5
    li      s1, 0x8082459d
    told    0, amoswap.w s2, s1, (a3)
    fence.i
    jalr    a6
    is      a1, 7
    told    12, jalr a3
    li      s1, P_A                 # an entry that is changed by an AMO
    amoxor.d s2, s1, (s4)
    told    13, lw s1, (a2)
    li      s1, P_A | P_D
    amoxor.d s2, s1, (s4)
    told    0, lw s1, (a2)
    told    15, sw s1, (a2)
    li      s1, P_D
    amoor.d s2, s1, (s4)
    told    0, sw s1, (a2)
    to_m

# Code that takes its own page away.
vanishing:
    addi    sp, sp, -16
    sd      ra, 8(sp)
    part    53
    la      t4, takes_away
    lwu     t5, (t4)
    li      t6, CODE_FRAME
    sw      t5, 0x20(t6)
    fence.i
    li      a3, LAST + 8 * 40
    .irp    mode, U, S
    li      s3, user_\mode
    space   ROOT_\mode
    put_for_mode LAST, 40, CODE_FRAME, GOOD
    goes_over \mode, CODE + 0x20
    stopped 12, CODE + 0x24, CODE + 0x24
    .endr
    ld      ra, 8(sp)
    addi    sp, sp, 16
    ret
    .option push
    .option norvc
takes_away:
    sd      zero, (a3)
    .option pop

# Exceptions one by one: delegated alone, and all but them delegated.
    .macro  one_trap mode, cause, where, way
    li      a3, \where
    li      s4, 1 << \cause
    csrw    medeleg, s4
    csrw    scause, zero
    run_in  mode_\mode, by_\way
    is      s5, \cause
    csrr    t4, scause
    is      t4, \cause
    csrr    t4, stval
    bne     t4, a3, fail
    not     s4, s4
    csrw    medeleg, s4
    li      t4, 3 << 8              # calls come to M
    csrc    medeleg, t4
    csrw    scause, zero
    run_in  mode_\mode, by_\way
    is      s5, \cause
    csrr    t4, scause
    bnez    t4, fail
    .endm

told_traps:
    addi    sp, sp, -16
    sd      ra, 8(sp)
    part    54
    la      t4, tell_s
    li      t5, HIGH
    add     t4, t4, t5
    csrw    stvec, t4
    .irp    mode, U, S
    li      s3, user_\mode
    space   ROOT_\mode
    put_for_mode LAST, 7, NOTHING, GOOD
    one_trap \mode, 12, NOWHERE, fetch
    one_trap \mode, 13, NOWHERE, load
    one_trap \mode, 15, NOWHERE, store
    one_trap \mode, 1, SMALL, fetch
    one_trap \mode, 5, SMALL, load
    one_trap \mode, 7, SMALL, store
    .endr
    csrw    medeleg, zero
    ld      ra, 8(sp)
    addi    sp, sp, 16
    ret

    .macro  by way, instruction:vararg
by_\way:
    la      t2, 1f
    \instruction
1:  mv      s5, t3
    to_m
    .endm
    by      load, lbu t6, (a3)
    by      store, sb t6, (a3)
    by      fetch, jr a3

# Handlers of S that cannot be fetched: M hears of it, or the next interrupt of M ends it.
lost_handlers:
    addi    sp, sp, -16
    sd      ra, 8(sp)
    part    55
    .irp    mode, U, S
    space   ROOT_\mode
    .irp    vectored, 0, 1
    li      t4, NOWHERE + \vectored
    csrw    stvec, t4
    li      t4, 1 << 1
    csrw    mideleg, t4
    csrw    mie, t4
    csrw    mip, t4
    csrsi   sstatus, 2
    li      t2, 0
    run_in  mode_\mode, idles
    stopped 12, NOWHERE + 4 * \vectored, NOWHERE + 4 * \vectored
    csrr    t4, scause
    is      t4, 1 << 63 | 1
    .endr
    csrw    mip, zero
    li      t4, 1 << 12 | 1 << 13
    csrw    medeleg, t4
    li      t4, 1 << 7
    csrw    mie, t4
    li      a3, NOWHERE + 0x1000
    li      t2, 0
    li      t4, 24
    sd      t4, TIMER(s0)
    run_in  mode_\mode, loses
    sd      zero, LINES(s0)
    is      t3, 1 << 63 | 7
    csrr    t4, stval
    is      t4, NOWHERE
    csrr    t4, scause
    is      t4, 12
    csrw    medeleg, zero
    csrw    mie, zero
    .endr
    ld      ra, 8(sp)
    addi    sp, sp, 16
    ret
idles:
    j       idles
loses:
    lw      t6, (a3)
    j       loses

# Ordinary code under interrupts that come as they like, with the handlers of S at HIGH; and in M under MPRV.
storms_in_spaces:
    addi    sp, sp, -16
    sd      ra, 8(sp)
    part    56
    li      s1, 0x9e3779b97f4a7c15
    la      s3, bytes
    li      t4, HELD
    csrw    mideleg, t4
    li      t4, 0x300
    csrw    medeleg, t4
    li      t4, 7
    csrw    mcounteren, t4
    csrw    scounteren, t4
    la      t4, s_stack_end
    li      t5, HIGH
    add     t4, t4, t5
    csrw    sscratch, t4
    li      t4, SUM                 # the record at tp, and code, are pages of U
    csrs    mstatus, t4
    .irp    mode, U, S
    space   ROOT_\mode
    .irp    vector, s_direct, s_vector + 1
    la      t4, \vector
    li      t5, HIGH
    add     t4, t4, t5
    csrw    stvec, t4
    li      t4, ALL_INTERRUPTS
    csrw    mie, t4
    csrsi   sstatus, 2
    li      t4, 1
    sd      t4, STORM(s0)
    in_mode mode_\mode, stormy
    sd      zero, STORM(s0)
    csrw    mie, zero
    .endr
    li      t4, SUM
    csrc    mstatus, t4
    .endr
    csrw    medeleg, zero
    csrw    mideleg, zero
    space   ROOT_U                  # an interrupt leaves U in MPP
    li      t4, MPP
    csrc    mstatus, t4
    li      t4, ALL_INTERRUPTS
    csrw    mie, t4
    li      s4, MPRV
    li      s2, 8
    li      t4, 1
    sd      t4, STORM(s0)
    csrsi   mstatus, 8
1:  csrs    mstatus, s4
    call    mix
    lw      a5, 0x44(s0)
    csrc    mstatus, s4
    xor     s1, s1, a5
    addi    s2, s2, -1
    bnez    s2, 1b
    csrci   mstatus, 8
    sd      zero, STORM(s0)
    csrw    mie, zero
    csrw    mcounteren, zero
    csrw    scounteren, zero
    ld      ra, 8(sp)
    addi    sp, sp, 16
    ret

    .data
    .balign 8
# Settings of entries 0 and 1 of protection around an entry of a table: the configurations, both addresses from
# there on in units of 4 bytes, and what a probe finds.
guards:
    .dword  0x11, 0, 0, UNREACHED           # half of it
    .dword  0x17, 1, 0, UNREACHED
    .dword  0x1111, 0, 1, UNREACHED         # the halves in two
    .dword  0x0900, 0, 1, UNREACHED
    .dword  0x19, 0, 0, 0
    .dword  0x1b, 0, 0, 0
    .dword  0x18, 0, 0, UNREACHED
    .dword  0x1c, 0, 0, UNREACHED
    .dword  0x0900, 0, 2, 0
    .dword  0x0c00, 0, 2, UNREACHED
    .dword  0x0800, -2, 0, 0                # beside it
    .dword  0x10, 2, 0, 0
    .dword  0x1819, 0, 0, 0                 # the lowest decides
    .dword  0x1918, 0, 0, UNREACHED
guards_end:

# The same of a page: bits that are flipped in its entry, and then as above from its first byte on.
guarded:
    .dword  0, 0x10, 0, 0, 0x570
    .dword  0, 0x11, 0, 0, 0x070
    .dword  0, 0x13, 0, 0, 0
    .dword  0, 0x14, 0, 0, 0x570
    .dword  0, 0x13, 2, 0, 0x001
    .dword  0, 0x14, 2, 0, 0
    .dword  0, 0x18, 0x1ff, 0, UNREACHED
    .dword  0, 0x19, 0x1ff, 0, 0x071
    .dword  0, 0x1c, 0x1ff, 0, 0x570
    .dword  0, 0x0900, 0, 1, 0x070
    .dword  P_V, 0x18, 0x1ff, 0, REFUSED    # the page's own refusal goes first
    .dword  P_A, 0x18, 0x1ff, 0, REFUSED
    .dword  P_D, 0x18, 0x1ff, 0, 0x5f1
    .dword  P_X, 0x18, 0x1ff, 0, 0x57c
    .dword  P_R | P_W, 0x18, 0x1ff, 0, 0xdf1
guarded_end:

# Entries of the second page and the cause that stops a fetch there, or 0.
second_halves:
    .dword  EDGE_2 >> 2 | GOOD, 0
    .dword  EDGE_2 >> 2 | GOOD & ~P_D, 0
    .dword  EDGE_2 >> 2 | P_V | P_X | P_A, 0
    .dword  EDGE_2 >> 2 | GOOD & ~P_V, 12
    .dword  EDGE_2 >> 2 | GOOD & ~P_X, 12
    .dword  EDGE_2 >> 2 | GOOD & ~P_A, 12
    .dword  EDGE_2 >> 2 | GOOD & ~P_R, 12
    .dword  EDGE_2 >> 2 | GOOD | P_U, 12
    .dword  EDGE_2 >> 2 | GOOD | 1 << 60, 12
    .dword  EDGE_2 >> 2 | P_V, 12
    .dword  NOTHING >> 2 | GOOD, 1
    .dword  DEVICES >> 2 | GOOD, 1
    .dword  0x88000000 >> 2 | GOOD, 1
second_halves_end:

    .text
