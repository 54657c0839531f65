# The entry point is not the first address, and what is loaded stands before it.

value: .dword 0xffffffff80000005
    .globl  _start
_start:
    auipc   a0, 0
    ld      a1, -8(a0)
    add.uw  a2, a1, a0
    cpop    a3, a1
1:  j       1b
