# Harts that count under one lock: HARTS of them, ROUNDS times each, in RV64IMA. A hart that waits
# in WFI with its own software interrupt pending goes on in its next turn, and the others run before
# it: so harts change between LR and SC, and inside the lock. The lock's word is odd where it is
# taken, and only ever rises: qemu's SC asks for the value that LR read, and here that tells what SC
# is to ask, whether another hart wrote. The first hart waits for all, loads the count to a0 and
# ends the run.
        .option norvc
        .equ    ROUNDS, 3
        .section .init
        .globl  _start
_start:
        csrr    s5, mhartid
        la      s0, lock
        la      s1, counter
        la      s2, done
        li      s3, ROUNDS
        li      s4, 1
        csrwi   mie, 8
        li      t0, 0x2000000           # the software interrupt of each hart
        slli    t1, s5, 2
        add     t0, t0, t1
        sw      s4, 0(t0)
take:
        lr.w.aq t0, (s0)
        andi    t1, t0, 1
        bnez    t1, taken
        add     t1, t0, s4
        wfi
        sc.w    t2, t1, (s0)
        bnez    t2, take
        lw      t0, 0(s1)
        wfi
        add     t0, t0, s4
        sw      t0, 0(s1)
        fence   rw, w
        amoadd.w.rl t0, s4, (s0)        # gives the lock back
        addi    s3, s3, -1
        bnez    s3, take
        amoadd.w.aqrl t0, s4, (s2)
        li      t1, HARTS
        bnez    s5, rest
await:
        wfi
        lw      t0, 0(s2)
        bne     t0, t1, await
        lw      a0, 0(s1)
        li      t0, 0x100000
        li      t1, 0x5555
        sw      t1, 0(t0)
rest:
        wfi
        j       rest
taken:
        wfi
        j       take

        .balign 64
lock:   .word   0
        .balign 64
counter: .word  0
        .balign 64
done:   .word   0
