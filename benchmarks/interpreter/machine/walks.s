# Walks: every bit of an entry at each level, the numbers of pages and tables, and the rights of pages. The spaces
# are those of translation.s.
    .macro  in_a_case mask, causes
    .dword  \mask, \causes
    .endm

# Flips bits of the entry at s1, which is good as s2: the masks from s4 up to s5, each with what a probe at a0
# finds. That of s6 finds it without the lowest bits, a6 of them.
run_cases:
    mv      s7, ra
1:  ld      t4, (s4)
    xor     t4, t4, s2
    sd      t4, (s1)
    jalr    s6
    ld      t5, 8(s4)
    srl     t5, t5, a6
    bne     a1, t5, fail
    addi    s4, s4, 16
    bltu    s4, s5, 1b
    sd      s2, (s1)
    jr      s7

    .macro  cases list
    la      s4, \list
    la      s5, \list\()_end
    call    run_cases
    .endm

# The cases of both lists at every level, with the root at a5.
    .macro  every_level of_leaves, of_links
    li      a0, GIGABYTE + 0x400000
    addi    s1, a5, 8 * 4
    li      s2, 0x80000000 >> 2 | GOOD
    or      s2, s2, s3
    cases   \of_leaves
    li      s2, FAR_MIDDLE >> 2 | P_V
    cases   \of_links
    li      a0, SUPERPAGE
    li      s1, MIDDLE + 8 * 3
    li      s2, FRAMES >> 2 | GOOD
    or      s2, s2, s3
    cases   \of_leaves
    li      s2, FAR_LAST >> 2 | P_V
    cases   \of_links
    li      a0, SMALL
    li      s1, LAST + 8 * 7
    li      s2, FRAMES >> 2 | GOOD
    or      s2, s2, s3
    cases   \of_leaves
    .endm

known_bits:
    mv      a4, ra
    every_level leaves, links
    cases   last_links
    jr      a4
known_bits_there:
    call    known_bits
    to_m

reserved_bits:
    mv      a4, ra
    every_level reserved, reserved
    jr      a4
reserved_bits_there:
    call    reserved_bits
    to_m

# Each bit of an entry at each level. S takes the exceptions of what S and U do, M those under MPRV.
levels:
    addi    sp, sp, -16
    sd      ra, 8(sp)
    part    45
    la      t4, tell_s
    li      t5, HIGH
    add     t4, t4, t5
    csrw    stvec, t4
    li      s9, MPRV | MPP
    .irp    mode, U, S
    li      s3, user_\mode
    put_for_mode FAR_MIDDLE, 2, FRAMES, GOOD
    put_for_mode FAR_LAST, 0, FRAMES, GOOD
    space   ROOT_\mode
    li      a5, ROOT_\mode
    li      t4, 0xb0a2
    csrw    medeleg, t4
    la      s6, probe
    li      a6, 0
    run_in  mode_\mode, known_bits_there
    .if     mode_\mode
    run_in  1, reserved_bits_there
    .endif
    csrw    medeleg, zero
    la      s6, probe_as
    li      a6, 4
    li      s8, MPRV | mode_\mode << 11
    .if     mode_\mode
    call    known_bits
    .else
    call    reserved_bits
    .endif
    .endr
    ld      ra, 8(sp)
    addi    sp, sp, 16
    ret

# Flips single bits of the entry at s1, which is good as s2: from s4 up to s5, where the probe of s6 at a0 finds a2.
flip_bits:
    mv      s7, ra
1:  li      t4, 1
    sll     t4, t4, s4
    xor     t4, t4, s2
    sd      t4, (s1)
    jalr    s6
    bne     a1, a2, fail
    addi    s4, s4, 1
    bltu    s4, s5, 1b
    sd      s2, (s1)
    jr      s7

    .macro  flips from, to, causes
    li      s4, \from
    li      s5, \to
    li      a2, \causes
    call    flip_bits
    .endm

    .macro  root_flips from, to, cause
    li      s4, \from
    li      s5, \to
    li      a2, \cause
    call    flip_root
    .endm

# The same of satp, which is good as s2.
flip_root:
    mv      s7, ra
1:  li      t4, 1
    sll     t4, t4, s4
    xor     t4, t4, s2
    csrw    satp, t4
    call    load_as
    bne     a1, a2, fail
    addi    s4, s4, 1
    bltu    s4, s5, 1b
    jr      s7

# The numbers of pages and of tables, bit by bit, and the bits of an address that are no index.
numbers:
    addi    sp, sp, -16
    sd      ra, 8(sp)
    part    46
    li      s3, 0
    space   ROOT_S
    run_in  1, misaligned
    li      s9, MPRV | MPP
    li      s8, MPRV | mode_S << 11
    la      s6, load_as
    li      a0, GIGABYTE + 0x400000
    li      s1, ROOT_S + 8 * 4
    li      s2, 0x80000000 >> 2 | GOOD
    flips   28, 54, 5
    li      s2, FAR_MIDDLE >> 2 | P_V
    flips   10, 25, 13
    flips   25, 54, 5
    li      a0, SUPERPAGE
    li      s1, MIDDLE + 8 * 3
    li      s2, FRAMES >> 2 | GOOD
    flips   19, 25, 0
    flips   25, 54, 5
    li      s2, FAR_LAST >> 2 | P_V
    flips   10, 25, 13
    flips   25, 54, 5
    li      a0, SMALL
    li      s1, LAST + 8 * 7
    li      s2, FRAMES >> 2 | GOOD
    flips   10, 25, 0
    flips   25, 54, 5
    put     FAR_ROOT, 5, MIDDLE, P_V
    li      s2, SV39 | 0x5aa5 << 44 | FAR_ROOT >> 12
    csrw    satp, s2
    call    load_as
    bnez    a1, fail
    root_flips 0, 15, 13
    root_flips 15, 44, 5
    root_flips 44, 60, 0            # of the ASID
    .irp    mode, U, S
    li      s3, user_\mode
    put_for_mode LAST, 7, FRAMES, GOOD
    space   ROOT_\mode
    run_in  mode_\mode, not_canonical
    .endr
    run_in  1, in_itself
    ld      ra, 8(sp)
    addi    sp, sp, 16
    ret

misaligned:
    la      s6, probe
    li      a0, GIGABYTE + 0x400000
    li      s1, ROOT_S + 8 * 4
    li      s2, 0x80000000 >> 2 | GOOD
    flips   10, 28, REFUSED
    li      a0, SUPERPAGE
    li      s1, MIDDLE + 8 * 3
    li      s2, FRAMES >> 2 | GOOD
    flips   10, 19, REFUSED
    to_m

not_canonical:
    li      s2, SMALL
    la      s6, probe
    li      a2, REFUSED
    call    flip_address
    li      s2, 0xffffffff40000000 + SMALL - WINDOW
    la      s6, load_there
    li      a2, 13
    call    flip_address
    li      a0, 0x5555555555555550
    told    4, lw t4, 3(a0)         # misaligned goes before
    told    6, sd s2, 3(a0)
    to_m

# Flips each bit from 38 on of the address s2, which is good.
flip_address:
    mv      s7, ra
    mv      a0, s2
    jalr    s6
    bnez    a1, fail
    li      s4, 38
    li      s5, 64
1:  li      t4, 1
    sll     t4, t4, s4
    xor     a0, s2, t4
    jalr    s6
    bne     a1, a2, fail
    addi    s4, s4, 1
    bltu    s4, s5, 1b
    jr      s7

# The root as a table of every level.
in_itself:
    lwu     a2, _start
    li      a3, SELF | 510 << 21
    lwu     a4, (a3)
    bne     a4, a2, fail
    li      a3, SELF | 6 << 21 | 510 << 12
    lwu     a4, (a3)
    bne     a4, a2, fail
    li      a3, SELF | 6 << 21 | 6 << 12
    told    13, lwu a4, (a3)
    li      a3, SELF | 6 << 21 | 2 << 12
    told    15, sb a4, (a3)
    li      a3, SELF | 2 << 21 | 2 << 12    # [2] is RAM's table, whose own entry is a page of 4 KiB here
    told    0, lwu a4, (a3)
    li      a2, 0x80400000
    lwu     a2, (a2)
    bne     a4, a2, fail
    to_m

# The pages of RIGHTS, with SUM and MXR.
    .macro  setting mode, sum, mxr, pages
    space   ROOT_\mode
    li      t4, SUM | MXR
    csrc    mstatus, t4
    li      t4, \sum * SUM | \mxr * MXR
    csrs    mstatus, t4
    la      s4, rights_\mode\()_\sum\()_\mxr
    addi    s5, s4, 2 * \pages
    run_in  mode_\mode, rights_there
    li      s8, MPRV | mode_\mode << 11
    la      s4, rights_\mode\()_\sum\()_\mxr
    call    rights_as
    .endm

rights:
    addi    sp, sp, -16
    sd      ra, 8(sp)
    part    47
    li      s9, MPRV | MPP
    setting U, 0, 0, 16
    setting U, 1, 1, 48
    setting S, 0, 0, 16
    setting S, 0, 1, 48
    setting S, 1, 0, 16
    setting S, 1, 1, 16
    space   ROOT_S
    run_in  1, own_rights
    li      t4, SUM | MXR
    csrc    mstatus, t4
    ld      ra, 8(sp)
    addi    sp, sp, 16
    ret

rights_there:
    li      a0, ALL_RIGHTS
1:  call    probe
    lhu     t5, (s4)
    bne     a1, t5, fail
    addi    s4, s4, 2
    li      t4, 4096
    add     a0, a0, t4
    bltu    s4, s5, 1b
    to_m

rights_as:
    mv      s7, ra
    addi    s5, s4, 32
    li      a0, ALL_RIGHTS
1:  call    probe_as
    lhu     t5, (s4)
    srli    t5, t5, 4
    bne     a1, t5, fail
    addi    s4, s4, 2
    li      t4, 4096
    add     a0, a0, t4
    bltu    s4, s5, 1b
    jr      s7

own_rights:
    li      a2, ALL_RIGHTS + (0xb << 12)    # of U, R and W
    li      a3, ALL_RIGHTS + (0x4 << 12)    # of S, X alone
    li      a4, SUM | MXR
    csrc    sstatus, a4
    told    13, lw t6, (a2)
    told    13, lw t6, (a3)
    li      a4, SUM
    csrs    sstatus, a4
    told    0, lw t6, (a2)
    told    0, amoadd.w t6, zero, (a2)
    told    13, lr.w t6, (a3)
    csrc    sstatus, a4
    told    15, sc.w t6, t6, (a2)
    li      a4, MXR
    csrs    sstatus, a4
    told    13, lw t6, (a2)
    told    0, lr.w t6, (a3)
    told    15, amoor.w t6, zero, (a3)
    told    15, sw t6, (a3)
    to_m

    .data
    .balign 8
leaves:
    in_a_case 0, 0
    in_a_case P_V, REFUSED
    in_a_case P_R, REFUSED
    in_a_case P_R | P_X, REFUSED
    in_a_case P_W, 0x0f0
    in_a_case P_X, 0x00c
    in_a_case P_R | P_W, 0xdf0
    in_a_case P_W | P_X, 0x0fc
    in_a_case P_R | P_W | P_X, REFUSED
    in_a_case P_A, REFUSED
    in_a_case P_D, 0x0f0
    in_a_case P_A | P_D, REFUSED
    in_a_case P_U, REFUSED
    in_a_case P_G, 0
    .irp    bit, 8, 9
    in_a_case 1 << \bit, 0
    .endr
leaves_end:

links:
    in_a_case 0, 0
    .irp    bits, P_V, P_W, P_R, P_X, P_R | P_A, P_R | P_W | P_X | P_A | P_D
    in_a_case \bits, REFUSED
    .endr
    .irp    bits, P_U, P_A, P_D, P_A | P_D, P_U | P_A | P_D
    in_a_case \bits, REFUSED
    .endr
    in_a_case P_G, 0
    in_a_case 3 << 8, 0
links_end:

reserved:
    .irp    bit, 54, 55, 56, 57, 58, 59, 60, 61, 62, 63
    in_a_case 1 << \bit, REFUSED
    .endr
reserved_end:

# Links where there is no level below.
last_links:
    .irp    bits, 0, P_U, P_A, P_D, P_A | P_D, P_U | P_A | P_D
    in_a_case P_R | P_W | P_X | \bits, REFUSED
    .endr
last_links_end:

# What a probe finds at each page of RIGHTS, half by half.
    .macro  rights_of mode, sum, mxr
rights_\mode\()_\sum\()_\mxr\():
    .set    page, 0
    .rept   48
    .set    may_r, page & 1
    .set    may_w, page >> 1 & 1
    .set    may_x, page >> 2 & 1
    .set    of_u, page >> 3 & 1
    .set    is_a, (3 - (page >> 4)) & 1
    .set    is_d, (3 - (page >> 4)) >> 1
    .set    sound, is_a * (1 - may_w * (1 - may_r))
    .set    own, mode_\mode * (1 - of_u) + (1 - mode_\mode) * of_u
    .set    for_data, sound * (own + mode_\mode * of_u * \sum)
    .set    loads, for_data * (1 - (1 - may_r) * (1 - may_x * \mxr))
    .set    stores, for_data * may_r * may_w * is_d
    .set    fetches, sound * own * may_x
    .half   (1 - fetches) * 0xc + (1 - stores) * 0xf0 + (1 - loads) * 0xd00
    .set    page, page + 1
    .endr
    .endm

    rights_of U, 0, 0
    rights_of U, 1, 1
    rights_of S, 0, 0
    rights_of S, 0, 1
    rights_of S, 1, 0
    rights_of S, 1, 1

    .text
