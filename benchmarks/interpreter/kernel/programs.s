# The programs of U, in the order of their numbers in calls.h.

    .macro  each_program do:req
    .ifdef  OTHER_CHOICES
    \do     edges
    .else
    .irp    name, init, sort, count, locks, digest, wild
    \do     \name
    .endr
    .endif
    .endm

    .macro  include name:req
    .balign 4096
\name:
    .incbin "\name\().bin"
    .endm

    .macro  address name:req
    .dword  \name
    .endm

    .section .programs, "a"
    each_program include

    .section .rodata
    .balign 8
    .globl  programs
programs:
    each_program address
