# Hart 0 interrupts hart 1, ROUNDS times, and waits a turn each time: in WFI, with its own software
# interrupt pending and not enabled. Hart 1 waits in WFI for each interrupt. They share a device and
# no memory, so that the rows of each are a trace of one hart too.
        .option norvc
        .equ    ROUNDS, 6
        .section .init
        .globl  _start
_start:
        csrr    t0, mhartid
        la      t1, handler
        csrw    mtvec, t1
        csrwi   mie, 8
        li      s0, 0x2000000
        li      s1, 1
        li      s2, ROUNDS
        bnez    t0, other
call:
        sw      s1, 4(s0)
        sw      s1, 0(s0)
        wfi
        sw      zero, 0(s0)
        addi    s2, s2, -1
        bnez    s2, call
        li      t0, 0x100000
        li      t1, 0x5555
        sw      t1, 0(t0)
other:
        csrsi   mstatus, 8
again:
        addi    s3, s3, 1
        wfi
        addi    s4, s4, 1
        j       again

        .balign 4
handler:
        csrr    t0, mcause
        csrr    t1, mepc
        csrr    t2, mip
        sw      zero, 4(s0)
        addi    s5, s5, 1
        mret
