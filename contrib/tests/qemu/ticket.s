# Harts that count under a ticket lock: HARTS of them, ROUNDS times each, in RV64IMA. The upper half
# of the lock's word is the next ticket, which an AMO draws, and the lower half the one that is
# served. It is read by halves and given on by a store of a half. WFI ends a turn, as in harts.s: so
# harts change between the draw and the first look, inside the lock, and wherever one waits. The
# count that a hart finds is its ticket, or the run ends with the status 1. The first hart waits for
# all, loads the count to a0, and ends the run: with 1 too where it is not what all have counted.
        .option norvc
        .equ    ROUNDS, 3
        .section .init
        .globl  _start
_start:
        csrr    s5, mhartid
        la      s0, lock
        la      s1, counter
        la      s2, done
        li      s3, ROUNDS
        li      s4, 1
        lui     s6, 0x10                # one ticket, in the upper half
        csrwi   mie, 8
        li      t0, 0x2000000           # the software interrupt of each hart
        slli    t1, s5, 2
        add     t0, t0, t1
        sw      s4, 0(t0)
draw:
        amoadd.w.aqrl t1, s6, (s0)
        srliw   t1, t1, 16
await:
        wfi
        lhu     t0, 0(s0)
        bne     t0, t1, await
        fence   r, rw
        lw      t2, 0(s1)
        bne     t2, t1, broken
        wfi
        add     t2, t2, s4
        sw      t2, 0(s1)
        fence   rw, w
        add     t0, t0, s4
        sh      t0, 0(s0)               # gives the lock to the next ticket
        addi    s3, s3, -1
        bnez    s3, draw
        amoadd.w.aqrl t0, s4, (s2)
        li      t1, HARTS
        bnez    s5, rest
all:
        wfi
        lw      t0, 0(s2)
        bne     t0, t1, all
        fence   r, rw
        lw      a0, 0(s1)
        li      t1, HARTS * ROUNDS
        bne     a0, t1, broken
        li      t1, 0x5555
end:
        li      t0, 0x100000
        sw      t1, 0(t0)
rest:
        wfi
        j       rest
broken:
        li      t1, 0x13333
        j       end

        .balign 64
lock:   .word   0
        .balign 64
counter: .word  0
        .balign 64
done:   .word   0
