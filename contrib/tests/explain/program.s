# What the stored explanations are about: a sum, a store and a load, an access that is not aligned,
# a device, and a page that is mapped by three entries.
    .option norelax
    .globl _start
_start:
    la t0, handler
    csrw mtvec, t0
    li a0, 5
    li a1, 7
    call sum
    auipc s0, 4
    sd a0, 0(s0)
    addi a0, a0, 1
    sd a0, 0(s0)
    ld a2, 0(s0)
    lw a3, 2(s0)
    li t1, 0x10000000
    sb a0, 5(t1)
    call enter_s
    li t2, 0x40000000
    sd a0, 8(t2)
    ld a4, 8(t2)
    c.addi a4, 3
    c.mv a5, a4
    ebreak

    .type sum, @function
sum:
    .option push
    .option norvc
    add a0, a0, a1
    .option pop
    ret

    .type enter_s, @function
enter_s:
    li t0, -1
    csrw pmpaddr0, t0
    li t0, 0x1f
    csrw pmpcfg0, t0
    li t0, 0x8000000000080001
    csrw satp, t0
    li t0, 0x1000
    csrc mstatus, t0
    li t0, 0x800
    csrs mstatus, t0
    csrw mepc, ra
    mret

    .balign 4
    .type handler, @function
handler:
    csrr t0, mepc
    addi t0, t0, 4
    csrw mepc, t0
    mret

    .org 0x1000           # the root: 0x40000000 by tables, 0x80000000 as it is
    .dword 0, 0x20000801, 0x200000cf
    .org 0x2000
    .dword 0x20000c01
    .org 0x3000           # the last level: the page at 0x80005000
    .dword 0x200014c7
    .org 0x3008
