# The firmware: what runs in M. It keeps S and U out of its own 16 KiB, hands traps to S, and gives S a timer,
# the end of the run, and what S does not get by itself: exceptions that are not delegated, and one instruction
# that no hart has, CPOP rd, rs1 in the space custom-0, which U may use.

    .equ TIMECMP, 0x02004000        # of the virt machine's CLINT
    .equ FINISHER, 0x00100000       # its test finisher
    .equ PASSED, 0x5555
    .equ FAILED, 0x3333
    .equ KERNEL, 0x80200000

    .equ MTIP, 1 << 7
    .equ STIP, 1 << 5
    .equ SIE, 1 << 1
    .equ SPIE, 1 << 5
    .equ SPP, 1 << 8
    .equ MPP, 3 << 11
    .equ MPP_S, 1 << 11
    .equ MPRV_AND_MXR, 1 << 17 | 1 << 19
    # breakpoints, calls from U, page faults
    .equ DELEGATED, 1 << 3 | 1 << 8 | 1 << 12 | 1 << 13 | 1 << 15

    .equ ILLEGAL, 2
    .equ CALL_FROM_S, 9
    .equ SET_TIMER, 0               # the calls, in a7
    .equ SHUT_DOWN, 8

    .section .firmware, "ax"
    .globl  _start
_start:
    la      t0, frame
    csrw    mscratch, t0
    la      t0, machine_trap
    csrw    mtvec, t0
    # Entry 0 is the firmware, without a right for S and U; entry 1 everything, with all rights.
    la      t0, _start
    srli    t0, t0, 2
    ori     t0, t0, 0x4000 / 8 - 1
    csrw    pmpaddr0, t0
    li      t0, (1 << 53) - 1
    csrw    pmpaddr1, t0
    li      t0, 0x1f18
    csrw    pmpcfg0, t0
    li      t0, DELEGATED
    csrw    medeleg, t0
    li      t0, 0x222
    csrw    mideleg, t0
    csrwi   mcounteren, 2           # time
    li      t0, MPP_S
    csrs    mstatus, t0
    li      t0, KERNEL
    csrw    mepc, t0
    mret

    .balign 4
machine_trap:
    csrrw   sp, mscratch, sp        # the frame holds register n at 8 * n
    sd      t0, 5 * 8(sp)
    sd      t1, 6 * 8(sp)
    csrr    t0, mcause
    bltz    t0, timer
    addi    t1, t0, -CALL_FROM_S
    beqz    t1, call
    addi    t1, t0, -ILLEGAL
    beqz    t1, illegal
    j       redirect

leave_after:                       # the instruction of four bytes that trapped
    csrr    t0, mepc
    addi    t0, t0, 4
    csrw    mepc, t0
leave:
    ld      t0, 5 * 8(sp)
    ld      t1, 6 * 8(sp)
    csrrw   sp, mscratch, sp
    mret

# The timer's interrupt becomes one of S.
timer:
    slli    t0, t0, 1
    addi    t0, t0, -2 * 7
    bnez    t0, fail
    li      t0, MTIP
    csrc    mie, t0
    li      t0, STIP
    csrs    mip, t0
    j       leave

call:
    beqz    a7, set_timer
    addi    t0, a7, -SHUT_DOWN
    bnez    t0, fail
    beqz    a0, pass
    mv      t1, a0
    j       fail_with_t1

set_timer:
    li      t0, TIMECMP
    sd      a0, 0(t0)
    li      t0, STIP
    csrc    mip, t0
    li      t0, MTIP
    csrs    mie, t0
    j       leave_after

pass:
    li      t0, FINISHER
    li      t1, PASSED
    sw      t1, 0(t0)
1:  j       1b

fail:
    csrr    t1, mcause
fail_with_t1:
    slli    t1, t1, 16
    li      t0, FAILED
    or      t1, t1, t0
    li      t0, FINISHER
    sw      t1, 0(t0)
1:  j       1b

# An exception that S is to handle itself: as if it had been delegated.
redirect:
    csrr    t0, mcause
    csrw    scause, t0
    csrr    t0, mtval
    csrw    stval, t0
    csrr    t0, mepc
    csrw    sepc, t0
    csrr    t0, mstatus
    slli    t1, t0, 63 - 12         # from M it would be the firmware's own fault
    bltz    t1, fail
    li      t1, SPP | SPIE
    csrc    mstatus, t1
    srli    t1, t0, 3               # bit 11, the lower one of MPP, to SPP
    andi    t1, t1, SPP
    csrs    mstatus, t1
    slli    t1, t0, 4               # SIE to SPIE
    andi    t1, t1, SPIE
    csrs    mstatus, t1
    csrci   mstatus, SIE
    li      t1, MPP_S
    csrs    mstatus, t1
    csrr    t0, stvec
    csrw    mepc, t0
    j       leave

# Carries out CPOP for U; all else that is illegal goes to S. The instruction is read where U has it, in a page
# that can be executed alone, and is the one that mtval tells.
illegal:
    csrr    t0, mstatus
    srli    t0, t0, 11
    andi    t0, t0, 3
    bnez    t0, redirect
    sd      t2, 7 * 8(sp)
    csrr    t1, mepc
    li      t2, MPRV_AND_MXR
    csrs    mstatus, t2
    lhu     t0, 0(t1)
    not     t2, t0
    andi    t2, t2, 3
    bnez    t2, 1f
    lhu     t1, 2(t1)
    slli    t1, t1, 16
    or      t0, t0, t1
1:  li      t2, MPRV_AND_MXR
    csrc    mstatus, t2
    csrr    t2, mtval
    bne     t0, t2, fail
    li      t1, 0xfff0707f          # all but the fields of rd and rs1
    and     t1, t0, t1
    addi    t1, t1, -0x0b
    ld      t2, 7 * 8(sp)
    bnez    t1, redirect
    j       count_bits

    .macro  each_register instruction:req, numbers:vararg
    .irp    number, \numbers
    \instruction x\number, \number * 8(sp)
    .endr
    .endm

count_bits:                         # of the instruction in t0
    sd      zero, 0(sp)
    each_register sd, 1, 3, 4, 7, 8, 9, 10, 11, 12, 13, 14, 15, 16, 17, 18, 19, 20, 21, 22, 23, 24, 25
    each_register sd, 26, 27, 28, 29, 30, 31
    csrr    t1, mscratch            # what was in sp
    sd      t1, 2 * 8(sp)
    srli    t1, t0, 15 - 3
    andi    t1, t1, 31 << 3
    add     t1, t1, sp
    ld      a0, 0(t1)
    li      a1, 0
    beqz    a0, 2f
1:  addi    t1, a0, -1
    and     a0, a0, t1
    addi    a1, a1, 1
    bnez    a0, 1b
2:  srli    t1, t0, 7 - 3
    andi    t1, t1, 31 << 3
    add     t1, t1, sp
    sd      a1, 0(t1)
    ld      t1, 2 * 8(sp)
    csrw    mscratch, t1
    each_register ld, 1, 3, 4, 7, 8, 9, 10, 11, 12, 13, 14, 15, 16, 17, 18, 19, 20, 21, 22, 23, 24, 25
    each_register ld, 26, 27, 28, 29, 30, 31
    j       leave_after

    .balign 16
frame:
    .space  32 * 8
