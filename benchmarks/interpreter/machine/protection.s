# Physical memory protection: the registers, what each kind of entry covers, fetches, accesses under MPRV, and
# locks. From here on S and U run: entry 15 opens the program to them, entry 14 the devices.
    .equ ARENA, 0x80100000          # after the program; what entries 0 to 13 are tried on
    .equ ARENA_1, ARENA + 0x1000
    .equ ARENA_2, ARENA + 0x2000

# Runs an instruction that no exception may come from.
    .macro passes instruction:vararg
    sd      zero, CAUSE(gp)
    \instruction
    ld      t5, CAUSE(gp)
    bnez    t5, fail
    .endm

# Falls into a mode; what is there ends by `back`, or by any fetch that is refused.
    .macro in_mode mode, where
    li      a0, \mode
    la      a1, \where
    call    fall_by_mret
    .endm

    .macro back
    mv      s11, ra
    li      t4, NOTHING
    jr      t4
    .endm

    .macro address entry, number
    li      t4, (\number) >> 2
    csrw    pmpaddr\entry, t4
    .endm

# The entry's 2^(bits) bytes at a number.
    .macro napot entry, number, bits
    li      t4, (\number) >> 2 | (1 << (\bits - 3)) - 1
    csrw    pmpaddr\entry, t4
    .endm

    .macro holds csr, number
    csrr    t5, \csr
    is      t5, \number
    .endm

# Changes M's handler; the quick one spoils mscratch.
    .macro fast
    la      t4, quick
    csrw    mtvec, t4
    .endm

    .macro slow
    la      t4, direct
    csrw    mtvec, t4
    la      t4, handler_stack_end
    csrw    mscratch, t4
    .endm

# Fetches at a place, and checks what is refused: it, or NOTHING, which C.JR s2 went to. Leaves a1 at ARENA.
    .macro fetch mode, where, refused
    li      a0, \mode
    li      a1, \where
    call    fall_by_mret
    ld      t4, VALUE(gp)
    li      t5, \refused
    bne     t4, t5, fail
    li      a1, ARENA
    .endm

protection_registers:
    mv      s9, ra
    part    23
    li      s1, 0x7f5d3b1977553311  # nothing that locks
    li      s2, 0x5a5a5a5a5a5a5a5a
    li      s3, 0x4343434343434343
    li      s4, 0x123456781a3c5e70
    li      s5, 0x0102030405060708
    li      s6, 0x0f0f0f0f0f0f0f7f
    all_forms pmpcfg0
    all_forms pmpcfg2
    li      s1, 0x1f1b19090b0d0f11
    li      s2, 0x0101010101010101
    li      s3, 0x0202020202020202
    all_forms pmpcfg0
    all_forms pmpcfg2
    csrw    pmpcfg0, zero
    csrw    pmpcfg2, zero
    li      s1, -1
    li      s3, 0xc3c3c3c3c3c3c3c3
    .irp    n, 0, 1, 2, 3, 4, 5, 6, 7, 8, 9, 10, 11, 12, 13, 14, 15
    few_forms pmpaddr\n
    li      t4, -1
    leaves  pmpaddr\n, 0x3fffffffffffff
    csrw    pmpaddr\n, zero
    .endr
    .irp    csr, pmpcfg0, pmpcfg2
    li      t4, 0x7f7f7f7f7f7f7f7f
    leaves  \csr, 0x1f1f1f1f1f1f1f1f
    li      t4, 0x0102030405060700  # W without R: this byte alone stays
    csrw    \csr, t4
    holds   \csr, 0x0100030405000700
    li      t4, 0x0202020202020202
    csrs    \csr, t4
    holds   \csr, 0x0300030407000700
    li      t4, 0x0101010101010101
    csrc    \csr, t4
    holds   \csr, 0x0300030407000700
    csrwi   \csr, 0x1e
    holds   \csr, 0
    .endr
    jr      s9

# Opens the program and the devices to S and U.
open:
    napot   15, 0x80000000, 20
    napot   14, DEVICES, 12
    li      t4, 0x1f1b000000000000
    csrw    pmpcfg2, t4
    csrw    pmpcfg0, zero
    ret

# Places in the arena that are known one by one.
regions:
    mv      s9, ra
    call    open
    part    24
    address 0, ARENA + 0x100
    address 1, ARENA + 0x10c        # TOR: 0x100 to 0x10b, RW
    address 2, ARENA + 0x110        # NA4, R
    address 3, ARENA + 0x114        # NA4, RW
    napot   4, ARENA + 0x100, 6     # 0x100 to 0x13f, RWX
    napot   5, ARENA + 0x140, 3     # 0x140 to 0x147, R
    napot   6, ARENA_1, 12          # 0x1000 to 0x1fff, X
    address 7, ARENA_2 + 8          # TOR from 0x17fc to 0x2007, RW
    li      t4, 0x0b1c191f13110b00
    csrw    pmpcfg0, t4
    in_mode 0, known_places
    in_mode 1, known_places
    part    25                      # without a lock no right is missed in M
    li      a1, ARENA
    passes  sb a2, 0x110(a1)
    passes  sd a2, 0x140(a1)
    passes  lw a2, -4(a1)
    faults  5, ld a2, 0x110(a1)     # but an access over an edge is refused
    faults  7, sd a2, 0x108(a1)

    part    26                      # fetches
    li      s2, NOTHING
    li      t4, 0x89028902          # C.JR s2
    li      t5, ARENA
    li      t6, ARENA + 0x400
    call    fill
    li      t5, ARENA_1 - 16
    li      t6, ARENA_1 + 16
    call    fill
    li      t5, ARENA_2 - 16
    li      t6, ARENA_2 + 16
    call    fill
    fence.i
    .irp    mode, 0, 1
    .irp    where, 0x0fe, 0x100, 0x10a, 0x110, 0x112, 0x114, 0x140, 0x146, 0x148
    fetch   \mode, ARENA + \where, ARENA + \where
    .endr
    .irp    where, 0x10c, 0x10e, 0x118, 0x13e
    fetch   \mode, ARENA + \where, NOTHING
    .endr
    fetch   \mode, ARENA_1 - 2, ARENA_1 - 2
    fetch   \mode, ARENA_1, NOTHING
    fetch   \mode, ARENA_2 - 2, NOTHING
    fetch   \mode, ARENA_2, ARENA_2
    fetch   \mode, DEVICES, DEVICES
    .endr
    li      t4, 0x13                # NOP in four bytes, over an edge: its second half, its first
    li      t5, ARENA
    sh      t4, 0x13e(t5)
    sh      zero, 0x140(t5)
    sh      t4, 0x10a(t5)
    sh      zero, 0x10c(t5)
    li      t5, ARENA_2
    sh      t4, -2(t5)
    sh      zero, (t5)
    fence.i
    .irp    mode, 0, 1
    fetch   \mode, ARENA + 0x13e, ARENA + 0x140
    fetch   \mode, ARENA + 0x10a, ARENA + 0x10a
    fetch   \mode, ARENA_2 - 2, ARENA_2
    .endr
    csrw    pmpcfg0, zero
    address 0, ARENA + 0x13c        # halves in two entries that both grant it
    address 1, ARENA + 0x140
    li      t4, 0x1414
    csrw    pmpcfg0, t4
    .irp    mode, 0, 1
    fetch   \mode, ARENA + 0x13e, NOTHING
    .endr
    csrw    pmpcfg0, zero
    jr      s9

# Stores t4 from t5 up to t6.
fill:
    sw      t4, (t5)
    addi    t5, t5, 4
    bltu    t5, t6, fill
    ret

known_places:
    li      a1, ARENA
    li      a3, ARENA_1
    li      a4, ARENA_2
    faults  5, lb a2, 0xff(a1)
    addi    t4, a1, 0xff
    with_value t4
    passes  lb a2, 0x100(a1)
    passes  ld a2, 0x100(a1)
    passes  sw a2, 0x108(a1)
    passes  sb a2, 0x10b(a1)
    faults  5, ld a2, 0x108(a1)     # part of it in entry 1, all of it in entry 4
    addi    t4, a1, 0x108
    with_value t4
    faults  7, sd a2, 0x108(a1)
    passes  lw a2, 0x10c(a1)
    passes  sw a2, 0x10c(a1)
    passes  lw a2, 0x110(a1)
    faults  7, sw a2, 0x110(a1)     # the lowest decides
    faults  7, sb a2, 0x113(a1)
    faults  5, ld a2, 0x110(a1)     # over two entries that both grant it
    passes  lwu a2, 0x114(a1)
    passes  sh a2, 0x116(a1)
    passes  sd a2, 0x118(a1)
    passes  ld a2, 0x138(a1)
    passes  sb a2, 0x13f(a1)
    passes  lb a2, 0x140(a1)
    passes  ld a2, 0x140(a1)
    passes  lbu a2, 0x147(a1)
    faults  7, sb a2, 0x140(a1)
    faults  7, sd a2, 0x140(a1)
    faults  5, lb a2, 0x148(a1)
    faults  5, lw a2, 0x148(a1)
    faults  5, lbu a2, -1(a3)
    faults  5, lb a2, (a3)
    faults  7, sb a2, (a3)
    faults  5, lb a2, -1(a4)
    passes  ld a2, (a4)
    passes  sd a2, (a4)
    passes  sb a2, 7(a4)
    faults  5, lb a2, 8(a4)
    faults  7, sw a2, 8(a4)
    addi    a5, a1, 0x110
    passes  lr.w a2, (a5)
    faults  7, sc.w a2, a2, (a5)
    faults  7, amoadd.w a2, a2, (a5)
    faults  5, lr.d a2, (a5)
    faults  7, amoor.d a2, a2, (a5)
    addi    a5, a1, 0x114
    passes  amoxor.w a2, a2, (a5)
    passes  lr.w a2, (a5)
    passes  sc.w a2, a2, (a5)
    faults  4, lw a2, 0x14a(a1)     # misaligned goes before refused
    faults  6, sd a2, 0x14c(a1)
    li      a5, NOTHING
    faults  5, lw a2, (a5)
    faults  7, sw a2, (a5)
    passes  lw a2, 0x40(s0)         # a device that is open, but not to atomics or fetches
    passes  sw a2, 0x40(s0)
    faults  5, lr.w a2, (s0)
    faults  7, amoadd.w a2, a2, (s0)
    back

# Every access near every edge, under the settings of a table, in U and S.
sweeps:
    mv      s9, ra
    part    27
    fast
    la      s3, settings
1:  csrw    pmpcfg0, zero
    ld      t4, 8(s3)
    csrw    pmpaddr0, t4
    ld      t4, 16(s3)
    csrw    pmpaddr1, t4
    ld      t4, 24(s3)
    csrw    pmpaddr2, t4
    ld      t4, (s3)
    csrw    pmpcfg0, t4
    in_mode 0, sweep
    in_mode 1, sweep
    addi    s3, s3, 32
    la      t4, settings_end
    bltu    s3, t4, 1b
    csrw    pmpcfg0, zero
    slow
    jr      s9

# Loads and stores at the offsets of a table; then a fetch.
    .option push
    .option norvc                   # the quick handler skips four bytes
sweep:
    la      a2, offsets
    la      a3, offsets_end
    li      a4, ARENA + 0x200
1:  lh      a5, (a2)
    add     a5, a5, a4
    lbu     a6, (a5)
    sb      a6, (a5)
    andi    a5, a5, -4
    lw      a6, (a5)
    sw      a6, (a5)
    andi    a5, a5, -8
    ld      a6, (a5)
    amoadd.d a6, a6, (a5)
    addi    a2, a2, 2
    bltu    a2, a3, 1b
    back
    .option pop

# M's handler that steps over an instruction of four bytes, or goes to s11 where a fetch was refused.
    .balign 4
quick:
    csrrw   t0, mscratch, t0
    csrr    t0, mcause
    addi    t0, t0, -1
    beqz    t0, 1f
    csrr    t0, mepc
    addi    t0, t0, 4
    csrw    mepc, t0
    csrrw   t0, mscratch, t0
    mret
1:  csrw    mepc, s11
    li      t0, MPP
    csrs    mstatus, t0
    csrrw   t0, mscratch, t0
    mret

# MPRV: loads and stores as U and S, fetches as M.
    .macro passes_as instruction:vararg
    li      t4, MPP
    csrc    mstatus, t4
    csrs    mstatus, a0
    sd      zero, CAUSE(gp)
    csrs    mstatus, s2
    \instruction
    csrc    mstatus, s2
    ld      t5, CAUSE(gp)
    bnez    t5, fail
    .endm

under_mprv:
    mv      s9, ra
    part    28
    call    open
    li      s2, MPRV
    li      t4, 0xc0000             # MXR and SUM change nothing here
    csrs    mstatus, t4
    address 0, ARENA + 0x200        # NA4, X
    address 1, ARENA + 0x204        # NA4, R
    napot   2, ARENA + 0x208, 3     # RW
    li      t4, 0x1b1114
    csrw    pmpcfg0, t4
    li      a1, ARENA + 0x200
    .irp    mpp, 0, 0x800
    li      a0, \mpp
    as_mode 5, lw a2, (a1)
    as_mode 7, sw a2, (a1)
    as_mode 5, ld a2, (a1)
    passes_as lw a2, 4(a1)
    as_mode 7, sb a2, 4(a1)
    passes_as ld a2, 8(a1)
    passes_as sd a2, 8(a1)
    as_mode 5, lb a2, 16(a1)
    as_mode 4, lw a2, 18(a1)
    addi    a3, a1, 4
    passes_as lr.w a2, (a3)
    as_mode 7, sc.w a2, a2, (a3)
    addi    a3, a1, 8
    passes_as amoadd.d a2, a2, (a3)
    passes_as lw a2, 0x40(s0)       # a device that is open to them
    passes_as sw a2, 0x40(s0)
    .endr
    li      a0, MPP
    passes_as lw a2, (a1)
    passes_as sw a2, 4(a1)
    li      t4, 0xc0000
    csrc    mstatus, t4
    csrw    pmpcfg0, zero
    jr      s9

# Locks, which nothing takes back.
locks:
    mv      s9, ra
    part    38
    call    open
    li      a1, ARENA
    li      s2, NOTHING
    li      t4, 0x89028902
    li      t5, ARENA + 0x2c0
    li      t6, ARENA + 0x440
    call    fill
    fence.i
    address 0, ARENA + 0x300
    li      t4, 0x92                # W without R is no lock either
    csrw    pmpcfg0, t4
    holds   pmpcfg0, 0
    li      t4, 0xf0                # NA4 without rights
    csrw    pmpcfg0, t4
    holds   pmpcfg0, 0x90
    faults  5, lw a2, 0x300(a1)     # binds M
    faults  7, sb a2, 0x303(a1)
    faults  5, ld a2, 0x300(a1)
    faults  7, sd a2, 0x300(a1)
    passes  lb a2, 0x2ff(a1)
    passes  sw a2, 0x304(a1)
    fetch   3, ARENA + 0x2fe, NOTHING
    fetch   3, ARENA + 0x300, ARENA + 0x300
    fetch   3, ARENA + 0x308, NOTHING
    li      t4, 0x1f
    csrw    pmpcfg0, t4
    csrrsi  zero, pmpcfg0, 0x0f
    csrrci  zero, pmpcfg0, 0x1f
    csrw    pmpcfg0, zero
    holds   pmpcfg0, 0x90
    csrw    pmpaddr0, zero
    csrrsi  zero, pmpaddr0, 0x1f
    holds   pmpaddr0, (ARENA + 0x300) >> 2

    part    39                      # TOR binds the address before it, not the configuration there
    address 1, ARENA + 0x400
    address 2, ARENA + 0x410
    li      t4, 0x890000            # R, from 0x400 to 0x40f
    csrw    pmpcfg0, t4
    holds   pmpcfg0, 0x890090
    csrw    pmpaddr1, zero
    csrw    pmpaddr2, zero
    holds   pmpaddr1, (ARENA + 0x400) >> 2
    holds   pmpaddr2, (ARENA + 0x410) >> 2
    li      t4, -1
    csrw    pmpaddr3, t4
    holds   pmpaddr3, 0x3fffffffffffff
    passes  lw a2, 0x3fc(a1)
    passes  sw a2, 0x3fc(a1)
    passes  ld a2, 0x400(a1)
    faults  7, sd a2, 0x400(a1)
    faults  7, sb a2, 0x40f(a1)
    passes  sb a2, 0x410(a1)
    addi    a3, a1, 0x408
    passes  lr.d a2, (a3)
    faults  7, sc.d a2, a2, (a3)
    faults  7, amoadd.w a2, a2, (a3)
    faults  6, sw a2, 1(a3)
    fetch   3, ARENA + 0x3fe, NOTHING
    fetch   3, ARENA + 0x400, ARENA + 0x400
    csrwi   pmpcfg0, 0              # entry 1 goes before it, and binds M not: 0x400 to 0x403
    li      t4, 0x1300
    csrw    pmpcfg0, t4
    holds   pmpcfg0, 0x891390
    passes  sw a2, 0x400(a1)
    faults  7, sw a2, 0x404(a1)
    faults  5, ld a2, 0x400(a1)     # a part of it alone is there: refused without a lock too
    csrw    pmpcfg0, zero

    part    40                      # several bytes at once, with the locks as they were
    napot   3, ARENA + 0x340, 6
    address 4, ARENA + 0x380
    address 5, ARENA + 0x390
    li      t4, 0x801b9c001f1f      # 0 and 2 stay; 3: NAPOT, X, locked; 4: NAPOT, RW; 5: off, locked
    csrw    pmpcfg0, t4
    holds   pmpcfg0, 0x801b9c891f90
    csrw    pmpcfg0, zero
    holds   pmpcfg0, 0x80009c890090
    csrw    pmpaddr3, zero
    csrw    pmpaddr4, zero
    csrw    pmpaddr5, zero
    holds   pmpaddr3, (ARENA + 0x340) >> 2 | 7
    holds   pmpaddr4, 0             # the next is locked, and not TOR
    holds   pmpaddr5, (ARENA + 0x390) >> 2
    faults  5, lb a2, 0x340(a1)
    faults  7, sb a2, 0x37f(a1)
    passes  lb a2, 0x33f(a1)
    passes  lb a2, 0x380(a1)
    fetch   3, ARENA + 0x340, NOTHING
    fetch   3, ARENA + 0x37e, NOTHING
    address 7, ARENA + 0x420        # from one register of configurations to the next
    address 8, ARENA + 0x428
    li      t4, 0x8b
    csrs    pmpcfg2, t4
    csrw    pmpaddr7, zero
    csrw    pmpaddr8, zero
    csrwi   pmpaddr9, 5
    holds   pmpaddr7, (ARENA + 0x420) >> 2
    holds   pmpaddr8, (ARENA + 0x428) >> 2
    holds   pmpaddr9, 5
    holds   pmpcfg0, 0x80009c890090
    fetch   3, ARENA + 0x420, ARENA + 0x420
    passes  sd a2, 0x420(a1)
    .irp    mode, 0, 1
    fetch   \mode, ARENA + 0x340, NOTHING
    fetch   \mode, ARENA + 0x400, ARENA + 0x400
    .endr

    part    41
    fast
    in_mode 0, locked_sweep
    in_mode 1, locked_sweep
    in_mode 3, locked_sweep
    li      t4, 0x9f9b000000000000  # the program's own entries, which grant M all that it needs
    csrs    pmpcfg2, t4
    csrw    pmpaddr15, zero
    csrw    pmpaddr14, zero
    csrw    pmpaddr13, zero
    csrw    pmpcfg2, zero
    in_mode 3, locked_sweep
    in_mode 0, locked_sweep
    slow
    holds   pmpcfg2, 0x9f9b00000000008b
    li      a1, ARENA
    faults  5, lb a2, 0x300(a1)
    jr      s9

    .option push
    .option norvc
locked_sweep:
    li      a4, ARENA + 0x300
    li      a5, ARENA + 0x430
1:  lw      a6, (a4)
    sb      a6, 7(a4)
    ld      a6, (a4)
    sd      a6, (a4)
    addi    a4, a4, 16
    bltu    a4, a5, 1b
    back
    .option pop

    .data
    .balign 8
# pmpcfg0, and the addresses of entries 0 to 2; the places are around ARENA + 0x200.
settings:
    .dword  0x1b, (ARENA + 0x200) >> 2, 0, 0                        # 8 bytes
    .dword  0x19, (ARENA + 0x200) >> 2 | 1, 0, 0                    # 16 bytes, R
    .dword  0x13, (ARENA + 0x208) >> 2, 0, 0                        # 4 bytes
    .dword  0x0b00, (ARENA + 0x1fc) >> 2, (ARENA + 0x20c) >> 2, 0   # TOR
    .dword  0x0b0f, (ARENA + 0x204) >> 2, (ARENA + 0x210) >> 2, 0   # TOR from 0, and from there on
    .dword  0x1b0b00, (ARENA + 0x20c) >> 2, (ARENA + 0x1fc) >> 2, (ARENA + 0x1c0) >> 2 | 7  # empty before full
    .dword  0x1f1910, (ARENA + 0x204) >> 2, (ARENA + 0x200) >> 2, -1 # none, then R, then everything
    .dword  0x0f1418, (ARENA + 0x200) >> 2 | 1, (ARENA + 0x210) >> 2, -1
settings_end:
offsets:
    .half   -8, -4, -1, 0, 4, 7, 8, 12, 15, 16
offsets_end:

    .text
