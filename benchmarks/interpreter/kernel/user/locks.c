/* Two processes that count under a lock in a page that they share, by LR and SC, and by every AMO. */
#include "user.h"

#define TURNS 60

static struct shared {
    u32 lock;
    u64 under_lock;
    u32 words[9];
    u64 doubles[9];
} *const shared = (struct shared *)0x2000000000, *const again = (struct shared *)0x2000200000;

/* In a page that the two have in common until one of them writes it, which SC does here. */
static u32 own_lock __attribute__((section(".data")));

/* The work between LR and SC takes a while, so that some of them are interrupted. */
static NOINLINE void take(u32 *lock)
{
    u32 failed, work;
    do {
        __asm__ volatile("1: lr.w.aq %0, (%2)\n"
                         "   bnez %0, 3f\n"
                         "   li %1, 12\n"
                         "2: addi %1, %1, -1\n"
                         "   bnez %1, 2b\n"
                         "   li %1, 1\n"
                         "   sc.w.rl %0, %1, (%2)\n"
                         "3:"
                         : "=&r"(failed), "=&r"(work)
                         : "r"(lock)
                         : "memory");
        if (failed)
            call(YIELD, 0, 0);
    } while (failed);
}

static NOINLINE void give(u32 *lock)
{
    __asm__ volatile("fence rw, rw\n"
                     "amoswap.w.rl zero, zero, (%0)"
                     :
                     : "r"(lock)
                     : "memory");
}

#define AMO(operation, place, value) \
    ({ \
        u64 old_; \
        __asm__ volatile("amo" operation " %0, %2, (%1)" : "=r"(old_) : "r"(place), "r"(value) : "memory"); \
    })

static NOINLINE void count(u64 turn)
{
    AMO("add.w", &shared->words[0], turn);
    AMO("xor.w", &shared->words[1], turn << 28);
    AMO("or.w", &shared->words[2], turn);
    AMO("and.w", &shared->words[3], ~turn);
    AMO("min.w", &shared->words[4], -turn);
    AMO("max.w", &shared->words[5], turn);
    AMO("minu.w", &shared->words[6], turn);
    AMO("maxu.w", &shared->words[7], -turn);
    AMO("add.d", &shared->doubles[0], turn << 30);
    AMO("xor.d", &shared->doubles[1], turn << 60);
    AMO("or.d", &shared->doubles[2], turn);
    AMO("and.d", &shared->doubles[3], ~turn);
    AMO("min.d", &shared->doubles[4], -turn);
    AMO("max.d", &shared->doubles[5], turn);
    AMO("minu.d", &shared->doubles[6], turn);
    AMO("maxu.d", &shared->doubles[7], -turn);
}

static NOINLINE void work(void)
{
    take(&own_lock);
    for (u64 turn = 1; turn <= TURNS; turn++) {
        take(&shared->lock);
        u64 before = *(volatile u64 *)&shared->under_lock;
        count(turn);
        again->under_lock = before + 1;
        give(&shared->lock);
    }
}

static u64 check(void)
{
    u64 sum = TURNS * (TURNS + 1);
    if (shared->under_lock != 2 * TURNS || shared->words[0] != sum || shared->doubles[0] != sum << 30)
        return 1;
    if (shared->words[1] || shared->doubles[1] || shared->words[2] != 63 || shared->doubles[2] != 63)
        return 2;
    if (shared->words[3] & 63 || (int)shared->words[4] != -TURNS || (long)shared->doubles[4] != -TURNS)
        return 3;
    if (shared->words[5] != TURNS || shared->doubles[5] != TURNS || shared->words[6] || shared->doubles[6])
        return 4;
    return shared->words[7] != -1U || shared->doubles[7] != -1UL ? 5 : 0;
}

int main(void)
{
    call(SHARE, (u64)shared, 0);
    call(SHARE, (u64)again, 0);
    shared->words[3] = shared->doubles[3] = -1;
    u64 child = fork();
    work();
    if (!child)
        return 0;
    if (wait())
        return 6;
    say("locked\n");
    return check();
}
