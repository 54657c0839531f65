# M reads a word of U through page tables, by MPRV, as firmware reads an instruction that trapped. qemu
# lists the instructions of M meanwhile as loads find them: there is no memory at first, then other bytes.
    .macro read_word
    li a7, 0x20000              # MPRV
    csrs mstatus, a7
    lhu a0, 0(zero)
    andi a4, a0, 3
    addi a4, a4, 1
    csrc mstatus, a7
    .endm
    .section .init
    .globl _start
_start:
    la t0, root
    li t1, 0x200000ff           # 1 GiB at virtual 0 is physical 0x80000000: D, A, G, U, X, W, R, V
    sd t1, 0(t0)
    srli t1, t0, 12
    li t2, 8
    slli t2, t2, 60
    or t1, t1, t2
    csrw satp, t1
    li t1, -1
    csrw pmpaddr0, t1
    li t1, 0x1f
    csrw pmpcfg0, t1
    li t1, 0x1800
    csrc mstatus, t1            # MPP is U
    read_word
    la t1, middle
    srli t2, t1, 12
    slli t2, t2, 10
    ori t2, t2, 1
    sd t2, 16(t0)
    li t2, 0x200800ff           # 2 MiB at virtual 0x80000000 are physical 0x80200000
    sd t2, 0(t1)
    sfence.vma
    read_word
    li t0, 0x100000
    li t1, 0x5555
    sw t1, 0(t0)
1:  j 1b
    .balign 4096
root: .zero 4096
middle: .zero 4096
