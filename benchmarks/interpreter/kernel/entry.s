# Where S begins, and the way into the kernel by a trap and out of it.

    .equ KERNEL_OFFSET, 0xffffffff00000000  # of the kernel's virtual addresses to its physical ones
    .equ SUM, 1 << 18
    .equ SPP, 1 << 8
    .equ SIE, 1 << 1

    .equ EPC, 32 * 8                # of the frame, where x1 to x31 stand at 8 * n
    .equ STATUS, 33 * 8
    .equ CAUSE, 34 * 8
    .equ VALUE, 35 * 8
    .equ FRAME, 36 * 8

# At a physical address, with satp as after reset. Once satp is on, no page is at the address of the next
# instruction: its page fault leads to stvec, and there the kernel goes on at its virtual address.
    .section .start, "ax"
    .globl  kernel_start
kernel_start:
    la      sp, boot_stack_end
    call    map_kernel
    li      t0, KERNEL_OFFSET
    add     sp, sp, t0
    la      t1, relocated
    add     t1, t1, t0
    csrw    stvec, t1
    sfence.vma
    csrw    satp, a0
    ebreak

    .balign 4
relocated:
    la      t0, trap_entry
    csrw    stvec, t0
    csrwi   sscratch, 0
    csrwi   scounteren, 2           # time
    li      t0, 1 << 5 | 1 << 1
    csrw    sie, t0
    tail    kernel_main

    .text
    .macro  each_register instruction:req, numbers:vararg
    .irp    number, \numbers
    \instruction x\number, \number * 8(sp)
    .endr
    .endm

# sscratch holds the end of the process's kernel stack while U runs, and 0 while S does.
    .balign 4
    .globl  trap_entry
trap_entry:
    csrrw   sp, sscratch, sp
    bnez    sp, 1f
    csrr    sp, sscratch
1:  addi    sp, sp, -FRAME
    each_register sd, 1, 3, 4, 5, 6, 7, 8, 9, 10, 11, 12, 13, 14, 15, 16, 17, 18, 19, 20, 21, 22, 23, 24, 25
    each_register sd, 26, 27, 28, 29, 30, 31
    csrrw   t0, sscratch, zero
    sd      t0, 2 * 8(sp)
    csrr    t0, sepc
    sd      t0, EPC(sp)
    li      t0, SUM
    csrrc   t0, sstatus, t0
    sd      t0, STATUS(sp)
    csrr    t0, scause
    sd      t0, CAUSE(sp)
    csrr    t0, stval
    sd      t0, VALUE(sp)
    mv      a0, sp
    call    trap
    .globl  trap_exit
trap_exit:                          # with interrupts off
    ld      t0, EPC(sp)
    csrw    sepc, t0
    addi    t1, sp, EPC             # gives up a reservation that is held
    sc.d    zero, t0, (t1)
    ld      t0, STATUS(sp)
    csrw    sstatus, t0
    andi    t0, t0, SPP
    bnez    t0, 1f
    addi    t0, sp, FRAME
    csrw    sscratch, t0
1:  each_register ld, 1, 3, 4, 5, 6, 7, 8, 9, 10, 11, 12, 13, 14, 15, 16, 17, 18, 19, 20, 21, 22, 23, 24, 25
    each_register ld, 26, 27, 28, 29, 30, 31, 2
    sret

# switch_context(from, to): keeps the stack pointer in *from and goes on with the one in *to.
    .globl  switch_context
switch_context:
    addi    sp, sp, -112
    sd      ra, 0(sp)
    .irp    number, 0, 1, 2, 3, 4, 5, 6, 7, 8, 9, 10, 11
    sd      s\number, 8 + 8 * \number(sp)
    .endr
    sd      sp, 0(a0)
    ld      sp, 0(a1)
    ld      ra, 0(sp)
    .irp    number, 0, 1, 2, 3, 4, 5, 6, 7, 8, 9, 10, 11
    ld      s\number, 8 + 8 * \number(sp)
    .endr
    addi    sp, sp, 112
    ret

# copy_user(to, from, bytes): copies from or to a user's pages; 0, or -1 where one of them is not to be had.
    .globl  copy_user
copy_user:
    li      t0, SUM
    csrs    sstatus, t0
    .ifdef  OTHER_CHOICES           # eight bytes at a time at any address
    li      t2, 8
0:  bltu    a2, t2, 1f
    ld      t1, 0(a1)
    sd      t1, 0(a0)
    addi    a0, a0, 8
    addi    a1, a1, 8
    addi    a2, a2, -8
    j       0b
    .else
    or      t1, a0, a1
    or      t1, t1, a2
    andi    t1, t1, 7
    beqz    t1, 3f
    .endif
1:  beqz    a2, copied
    lbu     t1, 0(a1)
    sb      t1, 0(a0)
    addi    a0, a0, 1
    addi    a1, a1, 1
    addi    a2, a2, -1
    j       1b
    .ifndef OTHER_CHOICES
2:  ld      t1, 0(a1)
    sd      t1, 0(a0)
    addi    a0, a0, 8
    addi    a1, a1, 8
    addi    a2, a2, -8
3:  bnez    a2, 2b
    .endif
copied:
    csrc    sstatus, t0
    li      a0, 0
    ret
    .globl  copy_user_end
copy_user_end:

# peek(to, from): copies eight bytes of the kernel's own space; 0, or -1 where they are not to be had.
    .globl  peek
peek:
    ld      t1, 0(a1)
    sd      t1, 0(a0)
    li      a0, 0
    ret
    .globl  peek_end
peek_end:

    .globl  copy_failed
copy_failed:
    li      t0, SUM
    csrc    sstatus, t0
    li      a0, -1
    ret

# clear_page(page), copy_page(to, from): eight bytes at a time, eight times a turn.
    .globl  clear_page
clear_page:
    li      t0, 4096
    add     t0, t0, a0
1:  .irp    at, 0, 8, 16, 24, 32, 40, 48, 56
    sd      zero, \at(a0)
    .endr
    addi    a0, a0, 64
    bltu    a0, t0, 1b
    ret

    .globl  copy_page
copy_page:
    li      t0, 4096
    add     t0, t0, a0
1:  .irp    at, 0, 16, 32, 48
    ld      t1, \at(a1)
    ld      t2, \at + 8(a1)
    sd      t1, \at(a0)
    sd      t2, \at + 8(a0)
    .endr
    addi    a0, a0, 64
    addi    a1, a1, 64
    bltu    a0, t0, 1b
    ret

    .section .bss
    .balign 16
    .globl  boot_stack_end
    .space  4096
boot_stack_end:
