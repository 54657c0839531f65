# Writes to the registers of which --profile qemu says what they hold, ones in all bits that the judge's
# --csr may give them, and reads what is left; then the trap value of EBREAK.

    .equ LOW, 0xffffffff
    .equ HIGH, ~0xfff
    .equ FOR_S, 0x222

    .macro  try csr, value
    li      t0, \value
    csrw    \csr, t0
    csrr    a0, \csr
    csrs    \csr, t0
    csrw    \csr, zero
    csrr    a1, \csr
    csrrc   a2, \csr, t0
    .endm

    .section .init, "ax"
    .globl  _start
_start:
    la      t0, trapped
    csrw    mtvec, t0
    try     medeleg, -1
    try     mideleg, HIGH | FOR_S
    try     mie, HIGH | 0xaaa
    try     mcounteren, LOW
    try     scounteren, LOW
    try     mcountinhibit, LOW - 2
    try     0x30a, -1               # menvcfg
    try     0x10a, -1               # senvcfg
    try     satp, 8 << 60 | 0xfffffffffffffff
    try     mstatus, 0x7e1faa       # without FS, which f=off leaves out
    csrr    a3, sstatus
    ebreak
    .balign 4
trapped:
    csrr    a0, mcause
    csrr    a1, mtval
    li      t0, 0x100000
    li      t1, 0x5555
    sw      t1, 0(t0)
1:  j       1b
