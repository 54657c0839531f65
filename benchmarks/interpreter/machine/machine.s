# A program that goes through what M, S and U can do: exceptions, interrupts, every control and status register,
# loads and stores with the privilege of another mode, atomics, compressed code, physical memory protection, and
# translation.
# It checks what it can see itself. machine.hex is its image, made with binutils-riscv64-unknown-elf 2.40 by
# the commands of make.sh, which joins the files of this folder.
#
# Up to `storm` no entry of physical memory protection is on, and S and U may not even fetch: each fall comes
# back as an instruction access fault, or as an interrupt. From protection.s on they run programs.
#
# What run_machine.py has at DEVICES: LINES holds the interrupt lines, bit by bit as in mip; TIMER raises MTIP
# so many rows later, until LINES is written; STORM, not 0, raises lines as they come; FINISH ends the run,
# with 1 where all went well, else with the number of the part that failed.

    .equ DEVICES, 0x10000000
    .equ LINES, 0
    .equ TIMER, 8
    .equ STORM, 16
    .equ FINISH, 24
    .equ NOTHING, 0x20000000        # no RAM and no device

    .equ ALL_LINES, 0xa88
    .equ ALL_INTERRUPTS, 0xaaa
    .equ HELD, 0x222
    .equ MPP, 0x1800
    .equ MPRV, 0x20000
    .equ SPP, 0x100

# The record of the last exception, at gp.
    .equ CAUSE, 0
    .equ VALUE, 8
    .equ EPC, 16
    .equ STATUS, 24

# s0: DEVICES. s10: the number of the part. s11: where to go on where mepc cannot be read.
# t0 to t3 are kept by the handlers; t4 to t6 serve the checks.

    .macro part number
    li      s10, \number
    .endm

# Lets an instruction run into an exception, and checks its code and where it was.
    .macro faults cause, instruction:vararg
    sd      zero, CAUSE(gp)
88: \instruction
    la      t6, 88b
    ld      t5, EPC(gp)
    bne     t5, t6, fail
    ld      t5, CAUSE(gp)
    li      t6, \cause
    bne     t5, t6, fail
    .endm

# Checks the trap value of the last exception.
    .macro with_value register
    ld      t5, VALUE(gp)
    bne     t5, \register, fail
    .endm

    .macro is register, number
    li      t6, \number
    bne     \register, t6, fail
    .endm

    .text
    .globl  _start
_start:
    la      sp, stack_end
    la      gp, record
    la      t0, handler_stack_end
    csrw    mscratch, t0
    la      t0, direct
    csrw    mtvec, t0
    li      s0, DEVICES
    call    exceptions
    call    stay_in_m
    call    words
    call    registers
    call    interrupts
    call    falls
    call    other_privilege
    call    atomics
    call    storm
    call    protection_registers
    call    regions
    call    sweeps
    call    under_mprv
    call    supervisor
    call    translation
    call    spaces
    call    locks
    li      t0, 1
    sd      t0, FINISH(s0)
1:  j       1b

fail:
    sd      s10, FINISH(s0)
1:  j       1b

# Traps into M. Each entry keeps t0 and tells the handler by it through which one it came: -1 for the direct
# one, else the code of its place in the vector.

    .macro entry number
    csrrw   sp, mscratch, sp
    addi    sp, sp, -32
    sd      t0, 0(sp)
    li      t0, \number
    j       handler
    .endm

    .balign 4
direct:
    entry   -1

    .irp    code, 1, 3, 5, 7, 9, 11
vector_\code:
    entry   \code
    .endr

    .balign 4
    .option push
    .option norvc
vector:
    j       direct
    j       vector_1
    j       fail
    j       vector_3
    j       fail
    j       vector_5
    j       fail
    j       vector_7
    j       fail
    j       vector_9
    j       fail
    j       vector_11
    .option pop

handler:
    sd      t1, 8(sp)
    sd      t2, 16(sp)
    sd      t3, 24(sp)
    csrr    t1, mcause
    bltz    t1, interrupt
    li      t2, -1
    bne     t0, t2, fail
    sd      t1, CAUSE(gp)
    csrr    t2, mtval
    sd      t2, VALUE(gp)
    csrr    t2, mstatus
    sd      t2, STATUS(gp)
    csrr    t2, mepc
    sd      t2, EPC(gp)
    li      t3, 1
    beq     t1, t3, go_on_at_s11
    lhu     t3, 0(t2)               # an instruction of two or four bytes
    addi    t2, t2, 2
    andi    t3, t3, 3
    addi    t3, t3, -3
    bnez    t3, 1f
    addi    t2, t2, 2
1:  csrw    mepc, t2
    j       leave

interrupt:
    slli    t1, t1, 1
    srli    t1, t1, 1
    csrr    t2, mtvec
    andi    t2, t2, 1
    li      t3, -1
    beqz    t2, 1f
    mv      t3, t1
1:  bne     t0, t3, fail
    la      t2, taken
    lw      t3, 0(t2)               # the codes in order of arrival, with their number in front
    addi    t3, t3, 1
    sw      t3, 0(t2)
    andi    t3, t3, 31
    add     t2, t2, t3
    sb      t1, 4(t2)
    li      t2, 1                   # silence it
    sll     t2, t2, t1
    csrc    mip, t2
    ld      t3, LINES(s0)
    not     t2, t2
    and     t3, t3, t2
    sd      t3, LINES(s0)
    beqz    s11, leave
    csrr    t2, mstatus             # from S or U there is no way on but s11
    li      t3, MPP
    and     t2, t2, t3
    beq     t2, t3, leave
go_on_at_s11:
    csrw    mepc, s11
    li      t3, MPP
    csrs    mstatus, t3
leave:
    ld      t0, 0(sp)
    ld      t1, 8(sp)
    ld      t2, 16(sp)
    ld      t3, 24(sp)
    addi    sp, sp, 32
    csrrw   sp, mscratch, sp
    mret
