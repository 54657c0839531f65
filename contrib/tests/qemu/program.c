/*
 * A small program for qemu's virt machine: calls and loops, a call of the environment, a software
 * and a timer interrupt, and the end by the finisher. make.sh beside it builds it and runs it.
 */
typedef unsigned int u32;
typedef unsigned long u64;

#define MSIP ((volatile u32 *)0x2000000)
#define MTIMECMP ((volatile u64 *)0x2004000)
#define FINISHER ((volatile u32 *)0x100000)

__asm__(".section .init, \"ax\"\n"
        ".globl _start\n"
        "_start:\n"
        "    la sp, stack_end\n"
        "    la t0, handler\n"
        "    csrw mtvec, t0\n"
        "    call work\n"
        "1:  j 1b\n"
        ".section .bss\n"
        "    .balign 16\n"
        "    .space 1024\n"
        "stack_end:\n"
        ".text\n");

static u32 words[8];
static u64 interrupts, calls;

static u32 checksum(void)
{
    u32 sum = 1;
    for (int i = 0; i < 8; i++)
        sum = sum * 31 + (words[i] ^ sum >> 7);
    return sum;
}

/* A call is passed over; an interrupt's source is turned off. */
__attribute__((interrupt, aligned(4))) void handler(void)
{
    u64 cause, pc;
    __asm__ volatile("csrr %0, mcause" : "=r"(cause));
    if ((long)cause < 0) {
        interrupts++;
        *MSIP = 0;
        *MTIMECMP = -1;
    } else {
        calls++;
        __asm__ volatile("csrr %0, mepc" : "=r"(pc));
        __asm__ volatile("csrw mepc, %0" : : "r"(pc + 4));
    }
}

void work(void)
{
    for (u32 i = 0; i < 8; i++)
        words[i] = i * 0x9e3779b9;
    u32 before = checksum();
    __asm__ volatile(".option push\n .option norvc\n ecall\n .option pop");
    *MTIMECMP = -1;
    __asm__ volatile("csrw mie, %0\n csrsi mstatus, 8" : : "r"(1 << 3 | 1 << 7));
    *MSIP = 1;
    while (__atomic_load_n(&interrupts, __ATOMIC_RELAXED) < 1)
        ;
    *MTIMECMP = 0;
    while (__atomic_load_n(&interrupts, __ATOMIC_RELAXED) < 2)
        ;
    __atomic_fetch_add(&words[3], 1, __ATOMIC_SEQ_CST);
    *FINISHER = checksum() != before && calls == 1 ? 0x5555 : 0x13333;
}
