/* Children that do what U may not, each of which the kernel ends; and calls with pointers that lead nowhere. */
#include "user.h"

#define LOAD(address) ({ __asm__ volatile("ld zero, 0(%0)" : : "r"(address)); })
#define STORE(address) ({ __asm__ volatile("sd zero, 0(%0)" : : "r"(address) : "memory"); })
#define ADD(address) ({ __asm__ volatile("amoadd.d t0, t0, (%0)" : : "r"(address) : "t0", "memory"); })
#define JUMP(address) ({ __asm__ volatile("jr %0" : : "r"(address)); })
#define DO(instruction) ({ __asm__ volatile(instruction : : : "t0", "memory"); })

enum { ILLEGAL = 2, FETCH = 12, LOADED = 13, STORED = 15 };

static u64 data = 0x0000000000008082; /* C.JR ra, where it could be fetched */
static const u64 constant = 5;

static void misbehave(u64 which)
{
    switch (which) {
    case 0: /* what is the kernel's */
        return LOAD(0xffffffff80200000UL);
    case 1: /* a page without W */
        return STORE(&constant);
    case 2: /* a page without R */
        return LOAD(0x10000UL);
    case 3: /* one without X */
        return JUMP(&data);
    case 4: /* none */
        return JUMP(0x500000UL);
    case 5: /* an address whose bits 63:39 are not all as bit 38 */
        return LOAD(0x4000000000UL);
    case 6:
        return JUMP(0x8000000000010020UL);
    case 7: /* CPOP has no other f3 */
        return DO(".insn i 0x0b, 1, x0, x0, 0");
    case 8: /* a register and instructions of S */
        return DO("csrr t0, sstatus");
    case 9:
        return DO("sret");
    case 10:
        return DO("sfence.vma");
    case 11: /* a page without W, by an instruction that reads it first */
        return ADD(&constant);
    }
}

/* The text of this program can be executed alone. */
__asm__(".globl text_rights\n"
        "text_rights = 8\n");

int main(void)
{
    static const u8 causes[] = {LOADED, STORED, LOADED, FETCH, FETCH, LOADED, FETCH,
                                ILLEGAL, ILLEGAL, ILLEGAL, ILLEGAL, STORED};
    if (count_bits(0xf731) != 10)
        return 30;
    for (u64 which = 0; which < LENGTH(causes); which++) {
        if (!fork()) {
            misbehave(which);
            end(1);
        }
        if (wait() != KILLED + (u64)causes[which])
            return 1 + which;
    }
    if (call(WRITE_TEXT, 0x500000, 5) != -1UL || call(WRITE_TEXT, 0xffffffff80200000, 5) != -1UL)
        return 20;
    if (call(WAIT, 0x500000, 0) != -1UL || call(WAIT, (u64)&constant, 0) != -1UL)
        return 21;
    if (call(PEEK, 0xffffffc000000000, 0) || !call(PEEK, 0xffffffff80200000, 0)) /* the firmware; the kernel */
        return 22;
    if (call(PEEK, (u64)&constant, 0) != 0) /* a page of U, without SUM */
        return 23;
    say("refused\n");
    return 0;
}
