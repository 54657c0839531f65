/* For a hart that carries out loads and stores at any address, and sets A and D: what each access sets, accesses
 * over the ends of pages that lie apart, and those of which one part is refused. */
#include "user.h"

#define PAGE 4096UL
#define LOAD(instruction, address) \
    ({ \
        u64 value_; \
        __asm__ volatile(instruction " %0, 0(%1)" : "=r"(value_) : "r"(address) : "memory"); \
        value_; \
    })
#define STORE(instruction, address, value) \
    ({ __asm__ volatile(instruction " %0, 0(%1)" : : "r"(value), "r"(address) : "memory"); })

enum { A = 1 << 6, D = 1 << 7, LOADED = 13, STORED = 15 };

/* One megapage that is there, with no page after it. */
#define SHARED_BEGIN 0x2000000000UL
#define SHARED_END 0x2000200000UL
#define SPACE_END 0x4000000000UL

static u8 data[2 * PAGE] __attribute__((aligned(4096))) = {1};
static const u64 constant = 5;
static const char text[] = "over an edge\n";

/* Text of which the kernel finds the second part in a page that was not touched before. */
static const struct {
    char space[PAGE - 9];
    char text[20];
} halves __attribute__((aligned(4096))) = {.text = "over the end of a\n"};

/* A function whose first instruction lies in two pages, neither of which has other code. */
__asm__(".section .last, \"ax\"\n"
        ".balign 4096\n"
        ".space 4094\n"
        "one_more:\n"
        "    addi a0, a0, 2047\n"
        "    addi a0, a0, -2046\n"
        "    ret\n"
        ".text\n");
u64 one_more(u64 value);

/* A and D of a page, which are clear afterwards. */
static NOINLINE u64 take(const void *address)
{
    return call(TAKE_MARKS, (u64)address, 0);
}

/* Whether the pages at both sides of an edge have these marks. */
static NOINLINE int both_have(const u8 *edge, u64 marks)
{
    return (take(edge - 1) == marks) & (take(edge) == marks);
}

/* What accesses in one page set. */
static NOINLINE u64 of_one_page(u8 *page)
{
    u64 failed;
    LOAD("ld", page);
    u64 wrong = take(page) != A;
    wrong |= (take(page) != 0) << 1;
    STORE("sb", page, 5);
    wrong |= (take(page) != (A | D)) << 2;
    LOAD("lbu", page);
    STORE("sw", page + 1, 5);
    wrong |= (take(page) != (A | D)) << 3;
    LOAD("lr.w", page);
    wrong |= (take(page) != A) << 4;
    __asm__ volatile("lr.d t0, (%1)\n sc.d %0, t0, (%1)" : "=&r"(failed) : "r"(page) : "t0", "memory");
    wrong |= (failed || take(page) != (A | D)) << 5;
    __asm__ volatile("amoadd.d zero, zero, (%0)" : : "r"(page) : "memory");
    wrong |= (take(page) != (A | D)) << 6;
    return wrong;
}

/* The bytes from an address on, one by one. */
static NOINLINE u64 bytes_at(const u8 *from, u64 length)
{
    u64 value = 0;
    for (u64 i = length; i-- > 0;)
        value = value << 8 | from[i];
    return value;
}

/* Loads and stores over an edge, of each length from each address. */
static NOINLINE u64 over_edge(u8 *edge)
{
    u64 wrong = 0, value = 0x8796a5b4c3d2e1f0;
    for (u64 before = 1; before < 8; before++) {
        u8 *from = edge - before;
        value = value << 8 | value >> 56;
        STORE("sd", from, value);
        wrong |= bytes_at(from, 8) != value || LOAD("ld", from) != value;
        if (before < 4) {
            STORE("sw", from, before);
            wrong |= (bytes_at(from, 4) != before || LOAD("lw", from + 1) != (u64)(int)bytes_at(from + 1, 4)) << 1;
        }
    }
    STORE("sh", edge - 1, value);
    wrong |= (LOAD("lhu", edge - 1) != (value & 0xffff)) << 2;
    take(edge - 1);
    take(edge);
    LOAD("ld", edge - 3);
    wrong |= !both_have(edge, A) << 3;
    STORE("sd", edge - 3, value);
    wrong |= !both_have(edge, A | D) << 4;
    STORE("sd", edge + 1, value); /* in one page */
    wrong |= (take(edge - 1) != 0 || take(edge) != (A | D)) << 5;
    return wrong;
}

/* A store whose second part faults twice: there is no page, and then one that is still to be copied. */
static NOINLINE u64 into_untouched(void)
{
    u8 *edge = data + PAGE;
    STORE("sb", data, 1);
    take(data);
    STORE("sd", edge - 3, 0x1122334455667788);
    return bytes_at(edge - 3, 8) != 0x1122334455667788 || !both_have(edge, A | D);
}

/* A child stores over an edge of two pages that it has in common with its parent. */
static NOINLINE u64 in_common(u8 *edge)
{
    u64 value = bytes_at(edge - 3, 8);
    if (!fork()) {
        STORE("sd", edge - 3, ~value);
        end(bytes_at(edge - 3, 8) != ~value || !both_have(edge, A | D));
    }
    return wait() || bytes_at(edge - 3, 8) != value;
}

/* The kernel loads and stores over an edge of the program's pages, and of its own. */
static NOINLINE u64 in_kernel(u8 *edge)
{
    u64 length = LENGTH(text) - 1, wrong;
    for (u64 i = 0; i < length; i++)
        edge[i - 7] = text[i];
    take(edge - 1);
    take(edge);
    call(WRITE_TEXT, (u64)edge - 7, length);
    wrong = !both_have(edge, A);
    say(halves.text);
    if (!fork())
        end(0x123456789abcdef);
    call(WAIT, (u64)edge - 3, 0);
    wrong |= (bytes_at(edge - 3, 8) != 0x123456789abcdef || !both_have(edge, A | D)) << 1;
    wrong |= (call(PEEK, 0xffffffc000003ffd, 0) != 0) << 2; /* the first part is the firmware's */
    wrong |= (call(PEEK, 0xffffffff80200ffd, 0) == 0) << 3;
    return wrong;
}

static void misbehave(u64 which)
{
    switch (which) {
    case 0: /* no page has the second part, and nothing is stored */
        return STORE("sd", SHARED_END - 3, -1UL);
    case 1: /* bits 63:39 of the second part's address are not all as bit 38 */
        LOAD("ld", SPACE_END - 3);
        return;
    case 2: /* no page has the first part */
        LOAD("lw", 0x10000UL - 3);
        return;
    case 3: /* a page without W, whose A is clear */
        take(&constant);
        return STORE("sw", &constant, 1);
    }
}

static NOINLINE u64 refused(void)
{
    static const u8 causes[] = {STORED, LOADED, LOADED, STORED};
    u8 *end_of_shared = (u8 *)SHARED_END - 8;
    call(SHARE, SHARED_BEGIN, 0);
    STORE("sd", end_of_shared, 0x1122334455667788);
    for (u64 which = 0; which < LENGTH(causes); which++) {
        if (!fork()) {
            misbehave(which);
            end(1);
        }
        if (wait() != KILLED + (u64)causes[which])
            return 1 + which;
    }
    return LOAD("ld", end_of_shared) != 0x1122334455667788 ? 9 : 0;
}

static NOINLINE u64 of_fetches(void)
{
    u8 *edge = (u8 *)one_more + 2;
    u64 wrong = one_more(20) != 21 || !both_have(edge, A);
    return wrong || one_more(30) != 31 || !both_have(edge, A);
}

int main(void)
{
    u8 *heap = (u8 *)call(GROW, 3 * PAGE, 0);
    STORE("sb", heap + 2 * PAGE, 1); /* the last page first, so that the frames lie apart */
    u64 wrong = of_one_page(heap + PAGE);
    if (wrong)
        return 1000 + wrong;
    wrong = over_edge(heap + PAGE) | over_edge(heap + 2 * PAGE);
    if (wrong)
        return 2000 + wrong;
    if (into_untouched())
        return 3;
    if (in_common(heap + PAGE))
        return 4;
    wrong = in_kernel(heap + 2 * PAGE);
    if (wrong)
        return 5000 + wrong;
    wrong = refused();
    if (wrong)
        return 6000 + wrong;
    if (of_fetches())
        return 7;
    say("done and set\n");
    return 0;
}
