// The only program of the small Linux: tells that it runs, and turns the machine off.

    .globl _start
_start:
    li a0, 1
    la a1, text
    li a2, 22
    li a7, 64                   // write
    ecall
    li a0, 0xfee1dead
    li a1, 672274793
    li a2, 0x4321fedc           // power off
    li a7, 142                  // reboot
    ecall
1:  j 1b

    .section .rodata
text: .ascii "init: the kernel runs\n"
