# Translation by Sv39: two address spaces, satp, and pages of each size.
#
# There are two address spaces, one for S and one for U. In each the program, the rest of RAM, the devices and
# NOTHING stand where they are, with pages that are open to its mode alone; S finds RAM at HIGH besides. What is
# tried is entries 3 to 6 of a root and what hangs below them. Nothing is cached, so no entry needs a fence.
    .equ TABLES, 0x80200000
    .equ ROOT_S, TABLES
    .equ ROOT_U, TABLES + 0x1000
    .equ LOW_S, TABLES + 0x2000     # of the first GiB
    .equ LOW_U, TABLES + 0x3000
    .equ RAM_S, TABLES + 0x4000
    .equ RAM_U, TABLES + 0x5000
    .equ MIDDLE, TABLES + 0x6000    # of the window, which both spaces have
    .equ LAST, TABLES + 0x7000
    .equ RIGHTS, TABLES + 0x8000
    .equ FAR_ROOT, 0x82a71000       # in pages whose numbers differ from all others in several bits
    .equ FAR_MIDDLE, 0x80e38000
    .equ FAR_LAST, 0x81655000

    .equ HIGH, 0xffffffff00000000   # from a physical address to where S finds it
    .equ GIGABYTE, 4 << 30          # by an entry of the root
    .equ WINDOW, 5 << 30
    .equ SUPERPAGE, WINDOW + (3 << 21)      # by an entry of MIDDLE
    .equ LASTS, WINDOW + (511 << 21)        # by those of LAST
    .equ SMALL, LASTS + (7 << 12)
    .equ ALL_RIGHTS, WINDOW + (6 << 21)     # by those of RIGHTS

    .equ FRAMES, 0x80400000         # the first one has a word to load and to store, and at 8 a return
    .equ SELF, 6 << 30              # by an entry that is the root again

    .equ P_V, 1
    .equ P_R, 2
    .equ P_W, 4
    .equ P_X, 8
    .equ P_U, 0x10
    .equ P_G, 0x20
    .equ P_A, 0x40
    .equ P_D, 0x80
    .equ GOOD, P_V | P_R | P_W | P_X | P_A | P_D
    .equ mode_U, 0
    .equ mode_S, 1
    .equ user_U, P_U                # in leaves of pages for a mode
    .equ user_S, 0
    .equ SV39, 8 << 60
    .equ SUM, 0x40000
    .equ MXR, 0x80000
    .equ TVM, 0x100000
    .equ REFUSED, 0xdfc             # page faults of a load, a store and a fetch
    .equ UNREACHED, 0x571           # their access faults

# Writes an entry of a table: to a table or page, with bits.
    .macro  put table, index, place, bits
    li      t4, (\table) + 8 * (\index)
    li      t5, (\place) >> 2 | (\bits)
    sd      t5, (t4)
    .endm

    .macro  put_for_mode table, index, place, bits
    li      t4, (\table) + 8 * (\index)
    li      t5, (\place) >> 2 | (\bits)
    or      t5, t5, s3
    sd      t5, (t4)
    .endm

    .macro  space root
    li      t4, SV39 | (\root) >> 12
    csrw    satp, t4
    .endm

# Handlers for M and for S: they tell the cause in t3, add it to a1, and go on at t2. Where that is 0 the one of M
# tells the trap value in t4 and mepc in t5, and goes on in M at s11.
    .balign 4
tell_m:
    csrr    t3, mcause
    beqz    t2, 1f
    add     a1, a1, t3
    csrw    mepc, t2
    mret
1:  csrr    t4, mtval
    csrr    t5, mepc
    csrw    mepc, s11
    li      t6, MPP
    csrs    mstatus, t6
    mret

    .balign 4
tell_s:
    csrr    t3, scause
    add     a1, a1, t3
    csrw    sepc, t2
    sret

# Falls into mode a0 at a1, where nothing but sp has to be kept.
fall:
    addi    sp, sp, -16
    sd      ra, 8(sp)
    la      s11, 1f
    li      t4, MPP | 1 << 7        # with MIE off, there and when it is back
    csrc    mstatus, t4
    slli    t4, a0, 11
    csrs    mstatus, t4
    csrw    mepc, a1
    mret
1:  ld      ra, 8(sp)
    addi    sp, sp, 16
    ret

    .macro  run_in mode, where
    li      a0, \mode
    la      a1, \where
    call    fall
    .endm

    .macro  telling
    la      t4, tell_m
    csrw    mtvec, t4
    .endm

# Ends what `run_in` began; the call is not delegated.
    .macro to_m
    li      t2, 0
    ecall
    .endm

# Loads, stores and fetches at a0: the causes of those that are refused in a1, four bits each, the fetch's lowest.
    .option push
    .option norvc
probe:
    mv      a7, ra
    li      a1, 0
    la      t2, 1f
    lw      t6, (a0)
1:  slli    a1, a1, 4
    addi    t2, t2, 12
    sw      t6, (a0)
    slli    a1, a1, 4
    addi    t2, t2, 12
    jalr    8(a0)
    jr      a7

# The same by LR, SC and an AMO.
probe_atomics:
    li      a1, 0
    la      t2, 1f
    lr.w    t6, (a0)
1:  slli    a1, a1, 4
    addi    t2, t2, 12
    sc.w    t6, t6, (a0)
    slli    a1, a1, 4
    addi    t2, t2, 12
    amoadd.w t6, zero, (a0)
    ret
    .option pop

# Carries out an instruction in M with MPRV and MPP as in s8; s9 has all bits of both.
    .macro  as_other instruction:vararg
    csrc    mstatus, s9
    csrs    mstatus, s8
    \instruction
77: csrc    mstatus, s9
    .endm

    .macro  plainly instruction:vararg
    \instruction
    .endm

# From M a load and a store at a0, and a load alone.
probe_as:
    li      a1, 0
    la      t2, 77f
    as_other lw t6, (a0)
    slli    a1, a1, 4
    la      t2, 77f
    as_other sw t6, (a0)
    ret
load_as:
    li      a1, 0
    la      t2, 77f
    as_other lw t6, (a0)
    ret
load_there:
    li      a1, 0
    la      t2, 1f
    lw      t6, (a0)
1:  ret

# Builds both spaces.
build:
    mv      s9, ra
    .irp    mode, S, U
    put     ROOT_\mode, 0, LOW_\mode, P_V
    put     ROOT_\mode, 2, RAM_\mode, P_V
    put     ROOT_\mode, 5, MIDDLE, P_V
    put     ROOT_\mode, 6, ROOT_\mode, P_V
    put     ROOT_\mode, 509, MIDDLE, P_V
    put     ROOT_\mode, 510, 0x80000000, GOOD | P_G
    .endr
    put     LOW_S, DEVICES >> 21, DEVICES, GOOD & ~P_X
    put     LOW_U, DEVICES >> 21, DEVICES, GOOD & ~P_X | P_U
    put     LOW_S, NOTHING >> 21, NOTHING, GOOD
    put     LOW_U, NOTHING >> 21, NOTHING, GOOD | P_U
    li      t4, RAM_S
    li      t5, 0x80000000 >> 2 | GOOD
    li      t6, 64
1:  sd      t5, (t4)
    ori     t5, t5, P_U
    li      a0, RAM_U - RAM_S
    add     a0, a0, t4
    sd      t5, (a0)
    xori    t5, t5, P_U
    li      a0, 1 << 19
    add     t5, t5, a0
    addi    t4, t4, 8
    addi    t6, t6, -1
    bnez    t6, 1b
    put     MIDDLE, 6, RIGHTS, P_V
    put     MIDDLE, 511, LAST, P_V
    li      t4, RIGHTS              # by its number: R, W, X and U, with A and D, with D, with A
    li      t5, 0
1:  andi    t6, t5, 15
    slli    t6, t6, 1
    srli    a0, t5, 4
    neg     a0, a0
    addi    a0, a0, 3
    slli    a0, a0, 6
    or      t6, t6, a0
    li      a0, FRAMES >> 2 | P_V
    or      t6, t6, a0
    sd      t6, (t4)
    addi    t4, t4, 8
    addi    t5, t5, 1
    li      t6, 48
    bltu    t5, t6, 1b
    li      t4, FRAMES
    li      t5, 0x8082              # C.JR ra
    sh      t5, 8(t4)
    fence.i
    jr      s9

# RAM and the devices for S and U.
open_all:
    napot   15, 0x80000000, 27
    napot   14, DEVICES, 12
    li      t4, 0x1f1b000000000000
    csrw    pmpcfg2, t4
    csrw    pmpcfg0, zero
    ret

translation:
    addi    sp, sp, -16
    sd      ra, 8(sp)
    csrw    mie, zero
    csrw    medeleg, zero
    csrw    mideleg, zero
    call    satp_register
    call    open_all
    call    build
    call    satp_by_mode
    call    sizes
    call    levels
    call    numbers
    call    rights
    csrw    satp, zero
    la      t4, direct
    csrw    mtvec, t4
    ld      ra, 8(sp)
    addi    sp, sp, 16
    ret

# What satp holds. M is not translated, whatever it says.
satp_register:
    mv      s9, ra
    part    42
    li      s1, -1
    li      s2, 0x5a5a5a5a5a5a5a5a
    li      s3, 0xc3c3c3c3c3c3c3c3
    li      s4, 0x8234567890abcdef
    li      s5, 0x00000000007e19aa
    li      s6, 0x7f0f0f0f0f0f0fff
    all_forms satp
    li      s1, 0x8fffffffffffffff
    li      s4, 0x0fedcba987654321
    li      s6, 0xf0000f0f00f0f0f0
    all_forms satp
    li      s1, 0                   # each mode over bare and over Sv39; two of them are written
1:  slli    t4, s1, 60
    li      t5, 0x0123456789abcdef
    csrw    satp, t5
    srli    a0, t5, 4
    or      a0, a0, t4
    csrw    satp, a0
    csrr    a1, satp
    andi    t6, s1, 7
    beqz    t6, 2f
    mv      a0, t5
2:  bne     a0, a1, fail
    li      t5, SV39 | 0x76543210fedcba9
    csrw    satp, t5
    csrrs   zero, satp, t4          # Sv39 and a bit more is no mode
    csrr    a1, satp
    bne     a1, t5, fail
    csrrw   a1, satp, t4
    bne     a1, t5, fail
    csrr    a1, satp
    mv      a0, t4
    beqz    t6, 3f
    mv      a0, t5
3:  bne     a0, a1, fail
    addi    s1, s1, 1
    li      t4, 16
    bltu    s1, t4, 1b
    li      t4, TVM                 # which does not bind M
    csrs    mstatus, t4
    li      t5, SV39 | 0xffff << 44 | ROOT_S >> 12
    csrw    satp, t5
    csrr    a1, satp
    bne     a1, t5, fail
    sfence.vma
    csrc    mstatus, t4
    csrw    satp, zero
    jr      s9

# S turns translation on and off and over, U and a bound S do not.
satp_by_mode:
    mv      s9, ra
    part    43
    put     ROOT_S, 4, 0x80000000, GOOD
    space   ROOT_S
    telling
    run_in  1, switches
    is      t3, 12
    la      t6, switched
    bne     t4, t6, fail
    bne     t5, t6, fail
    csrr    t4, satp
    li      t5, SV39 | ROOT_U >> 12
    bne     t4, t5, fail
    space   ROOT_S
    li      t4, TVM
    csrs    mstatus, t4
    run_in  1, no_satp
    li      t4, TVM
    csrc    mstatus, t4
    space   ROOT_U
    run_in  0, no_satp
    li      t2, 0                   # code of S at HIGH that leaves its space
    space   ROOT_S
    la      a1, leaves_space
    li      t4, HIGH
    add     a1, a1, t4
    li      a0, 1
    call    fall
    is      t3, 1
    addi    a1, a1, 4
    bne     t4, a1, fail
    bne     t5, a1, fail
    csrr    t4, satp
    bnez    t4, fail
    jr      s9

    .macro  told cause, instruction:vararg
    li      t3, 0
    la      t2, 77f
    \instruction
77: is      t3, \cause
    .endm

switches:
    li      a2, GIGABYTE + 0x400000
    li      a3, FRAMES
    li      s1, 0x600dda7a
    sw      s1, (a2)
    lwu     t4, (a3)
    bne     t4, s1, fail
    li      a4, SV39 | 0xabcd << 44 | ROOT_S >> 12
    csrrw   a5, satp, a4            # another ASID is the same space
    li      t4, SV39 | ROOT_S >> 12
    bne     a5, t4, fail
    lwu     t4, (a2)
    bne     t4, s1, fail
    csrwi   satp, 0                 # bare: only where it is
    told    5, lwu t4, (a2)
    told    0, lwu t4, (a3)
    bne     t4, s1, fail
    csrs    satp, a4
    lwu     t4, (a2)
    bne     t4, s1, fail
    li      a5, 8 << 60
    csrc    satp, a5                # the root stays
    csrr    t5, satp
    xor     t5, t5, a5
    bne     t5, a4, fail
    told    7, sw s1, (a2)
    csrs    satp, a5
    told    0, sw s1, (a2)
    li      t4, 9 << 60             # no mode: all stays
    csrw    satp, t4
    csrrsi  t4, satp, 0
    bne     t4, a4, fail
    sfence.vma
    sfence.vma a2, a5
    told    0, lwu t4, (a2)
    li      t4, SV39 | ROOT_U >> 12 # in U's space it cannot go on
    li      t2, 0
    csrw    satp, t4
switched:
    nop
leaves_space:
    csrw    satp, zero
    nop

no_satp:
    told    2, csrr a2, satp
    told    2, csrw satp, zero
    told    2, csrrsi zero, satp, 0
    told    2, csrrc a2, satp, a2
    told    2, sfence.vma
    told    0, nop
    to_m

# What is stored at one address is at the other, by accesses of each size; and the other way round.
    .macro  both_ways around
    li      s1, 0x8f1e2d3c4b5a6978
    \around sd s1, (a2)
    ld      t4, (a3)
    bne     t4, s1, fail
    not     t4, s1
    sd      t4, (a3)
    \around ld t5, (a2)
    bne     t5, t4, fail
    \around lw t5, 4(a2)
    lw      t6, 4(a3)
    bne     t5, t6, fail
    \around lhu t5, 2(a2)
    lhu     t6, 2(a3)
    bne     t5, t6, fail
    \around lb t5, 7(a2)
    lb      t6, 7(a3)
    bne     t5, t6, fail
    \around sw s1, (a2)
    \around sh s1, 4(a2)
    \around sb s1, 7(a2)
    ld      t4, (a3)
    \around ld t5, (a2)
    bne     t5, t4, fail
    \around amoadd.d t5, s1, (a2)
    bne     t5, t4, fail
    add     t5, t5, s1
    \around lr.d t4, (a2)
    bne     t5, t4, fail
    \around sc.d t4, s1, (a2)
    ld      t6, (a3)
    beqz    t4, 1f
    bne     t5, t6, fail
    mv      t6, s1
1:  bne     t6, s1, fail
    .endm

    .macro  over_places around
    la      s4, places
    la      s5, places_end
2:  ld      a2, (s4)
    ld      a3, 8(s4)
    both_ways \around
    addi    s4, s4, 16
    bltu    s4, s5, 2b
    .endm

# Pages of all three sizes, and the first and the last entry of each table.
sizes:
    addi    sp, sp, -16
    sd      ra, 8(sp)
    part    44
    li      s9, MPRV | MPP
    .irp    mode, U, S
    li      s3, user_\mode
    put_for_mode ROOT_\mode, 4, 0x80000000, GOOD
    put_for_mode MIDDLE, 3, FRAMES, GOOD
    put_for_mode MIDDLE, 0, FRAMES, GOOD
    put_for_mode LAST, 7, FRAMES, GOOD
    put_for_mode LAST, 0, FRAMES + 0x5000, GOOD
    put_for_mode LAST, 511, FRAMES + 0x3000, GOOD
    put     ROOT_\mode, 255, MIDDLE, P_V
    put     ROOT_\mode, 256, MIDDLE, P_V
    put     ROOT_\mode, 511, MIDDLE, P_V
    space   ROOT_\mode
    run_in  mode_\mode, sized
    li      s8, MPRV | mode_\mode << 11
    over_places as_other
    la      s6, probe_as
    call    probe_sizes
    li      s8, MPRV | MPP          # with M in MPP all is as it is without MPRV
    li      a0, SMALL
    call    probe_as
    is      a1, 0x57
    li      a0, FRAMES
    call    probe_as
    bnez    a1, fail
    .endr
    ld      ra, 8(sp)
    addi    sp, sp, 16
    ret

sized:
    over_places plainly
    la      s6, probe
    call    probe_sizes
    la      s6, probe_atomics
    call    probe_sizes
    la      s4, mix                 # code and its data at another place
    li      t5, GIGABYTE - 0x80000000
    add     s4, s4, t5
    la      s3, bytes
    add     s3, s3, t5
    li      s1, 0x9e3779b97f4a7c15
    li      s2, 5
    jalr    s4
    jalr    s4
    to_m

probe_sizes:
    mv      s7, ra
    .irp    place, GIGABYTE + 0x400000, SUPERPAGE, SMALL
    li      a0, \place
    jalr    s6
    bnez    a1, fail
    .endr
    jr      s7

    .data
    .balign 8
# Addresses under translation and their physical ones.
places:
    .dword  SMALL, FRAMES, SMALL + 0xff8, FRAMES + 0xff8
    .dword  LASTS, FRAMES + 0x5000, LASTS + (511 << 12) + 0xff8, FRAMES + 0x3ff8
    .dword  SUPERPAGE + 0x4010, FRAMES + 0x4010, SUPERPAGE + 0x1ffff8, FRAMES + 0x1ffff8
    .dword  WINDOW + 0x4018, FRAMES + 0x4018
    .dword  GIGABYTE + 0x405ff8, FRAMES + 0x5ff8, GIGABYTE + 0x7fffff8, 0x87fffff8
    .dword  255 << 30 | 0x4020, FRAMES + 0x4020, 0x3fffffff70, FRAMES + 0x3f70
    .dword  0xffffffc000004028, FRAMES + 0x4028, 0xffffffffffffff78, FRAMES + 0x3f78
    .dword  0xffffffff40004030, FRAMES + 0x4030
places_end:

    .text
