# Harts that put numbers into one queue and take them out, without a lock, HARTS of them in RV64IMA.
# It is the queue of Michael and Scott: a list whose first node was taken already. A put links its
# node to the last one, and then moves the tail; another hart that finds the tail left behind moves
# it. The harts of even numbers put ROUNDS numbers each, and then take as the others do from the
# start, until all are taken. WFI ends a turn, as in harts.s: so harts change between LR and SC, and
# between the link and the move. No node is used twice: each word that SC writes only goes forward,
# and an SC of qemu fails where it is to.
# Number 8N + H is the Nth of hart H. A hart that takes an earlier number of a hart after a later
# one ends the run with the status 1. A bit of each number that is taken is added to a sum, which
# has all bits where each was taken once. The first hart loads it to a0 when as many are taken as
# were put, and ends the run: with 1 too where the sum is another.
        .option norvc
        .option norelax
        .equ    ROUNDS, 6
        .equ    PUTS, ROUNDS * ((HARTS + 1) / 2)
        .equ    BITS, 0x010101010101    # those of the numbers of hart 0
        .equ    NEXT, 8                 # in a node: the number, and the address of the next node
        .equ    NODE, 64                # a node has a reserved block of its own
        .section .init
        .globl  _start
_start:
        csrr    s5, mhartid
        la      s0, head
        la      s1, tail
        la      s2, sum
        la      s3, taken
        li      s4, 1
        la      s6, nodes               # those of this hart
        li      t0, ROUNDS * NODE
        mul     t0, t0, s5
        add     s6, s6, t0
        mv      s7, s5                  # the number to put
        li      s8, 0                   # the bits of those that this hart took
        li      s9, BITS
        li      s10, PUTS
        li      s11, 8 * ROUNDS
        csrwi   mie, 8
        li      t0, 0x2000000           # the software interrupt of each hart
        slli    t1, s5, 2
        add     t0, t0, t1
        sw      s4, 0(t0)
        andi    t0, s5, 1
        bnez    t0, take
fill:
        sd      s7, 0(s6)
put:
        ld      t0, 0(s1)
        addi    t1, t0, NEXT
        wfi
        lr.d.aq t2, (t1)
        bnez    t2, move                # the tail was left behind
        wfi
        sc.d.rl t3, s6, (t1)
        bnez    t3, put
        mv      t2, s6
        wfi
move:
        lr.d    t3, (s1)
        bne     t3, t0, moved
        wfi
        sc.d.rl t3, t2, (s1)            # fails where another moved it
moved:
        bne     t2, s6, put             # that was the node of another
        addi    s6, s6, NODE
        addi    s7, s7, 8
        bltu    s7, s11, fill
take:
        lr.d.aq t0, (s0)
        ld      t1, NEXT(t0)
        wfi
        beqz    t1, empty
        sc.d.rl t3, t1, (s0)
        bnez    t3, take
        ld      t0, 0(t1)
        srl     t1, s8, t0
        and     t1, t1, s9
        bnez    t1, broken              # this one, or a later one of its hart, was taken
        sll     t1, s4, t0
        or      s8, s8, t1
        amoadd.d t2, t1, (s2)
        amoadd.w.rl t2, s4, (s3)
        j       take
empty:
        lw      t0, 0(s3)
        bltu    t0, s10, take
        bnez    s5, rest
        fence   r, rw
        ld      a0, 0(s2)
        li      t1, BITS * (0x55 & ((1 << HARTS) - 1))
        bne     a0, t1, broken
        li      t1, 0x5555
end:
        li      t0, 0x100000
        sw      t1, 0(t0)
rest:
        wfi
        j       rest
broken:
        li      t1, 0x13333
        j       end

        .balign 64
head:   .dword  first
        .balign 64
tail:   .dword  first
        .balign 64
sum:    .dword  0
        .balign 64
taken:  .word   0
        .equ    first, taken + NODE     # nodes stand in memory after the program, which is 0
        .equ    nodes, first + NODE
