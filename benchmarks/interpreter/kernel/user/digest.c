/* Checksums, products and quotients, an instruction that the firmware carries out, and text over page ends. */
#include "user.h"

#define PRIME ((1UL << 61) - 1)

static const char digits[] = "123456789";
static u8 buffer[320] = "a page of data that is copied when it is first written";
static u32 table[256];

/* Text of which the kernel finds the second part in a page that was not touched before. */
static const struct {
    char space[4096 - 9];
    char text[20];
} halves __attribute__((aligned(4096))) = {.text = "over the end of a\n"};

/* A function whose first instruction lies in two pages, neither of which has other code. */
__asm__(".section .last, \"ax\"\n"
        ".balign 4096\n"
        ".space 4094\n"
        "one_more:\n"
        "    addi a0, a0, 2047\n"
        "    addi a0, a0, -2046\n"
        "    ret\n"
        ".text\n");
u64 one_more(u64 value);

static NOINLINE void make_table(void)
{
    for (u32 i = 0; i < LENGTH(table); i++) {
        u32 value = i;
        for (u32 bit = 0; bit < 8; bit++)
            value = value & 1 ? value >> 1 ^ 0xedb88320 : value >> 1;
        table[i] = value;
    }
}

static NOINLINE u32 checksum(const u8 *bytes, u64 length)
{
    u32 value = -1;
    for (u64 i = 0; i < length; i++)
        value = value >> 8 ^ table[(value ^ bytes[i]) & 255];
    return ~value;
}

/* a * b modulo the prime: 2^61 is 1. */
static u64 product(u64 a, u64 b)
{
    unsigned __int128 whole = (unsigned __int128)a * b;
    u64 sum = (u64)(whole >> 61) + ((u64)whole & PRIME);
    return sum >= PRIME ? sum - PRIME : sum;
}

static NOINLINE u64 power(u64 base, u64 exponent)
{
    u64 result = 1;
    for (; exponent; exponent >>= 1) {
        if (exponent & 1)
            result = product(result, base);
        base = product(base, base);
    }
    return result;
}

static NOINLINE u64 divisor(u64 a, u64 b)
{
    while (b) {
        u64 rest = a % b;
        a = b;
        b = rest;
    }
    return a;
}

#define TWO(instruction, a, b) \
    ({ \
        u64 value_; \
        __asm__(instruction " %0, %1, %2" : "=r"(value_) : "r"(a), "r"(b)); \
        value_; \
    })

/* The quotients and products that are defined by a rule of their own, or signed. */
static NOINLINE u64 corners(long a, long b, long least)
{
    u64 wrong = TWO("div", a, 0) != -1UL || TWO("remu", a, 0) != (u64)a || TWO("divuw", a, 0) != -1UL;
    wrong |= (TWO("div", least, -1) != (u64)least || TWO("rem", least, -1)) << 1;
    wrong |= ((long)TWO("divw", a, b) != -7 || (long)TWO("remw", a, b) != 2) << 2;
    wrong |= (TWO("mulh", a, b) != -1UL || TWO("mulhu", a, b) != 22 || TWO("mulhsu", b, a) != -1UL) << 3;
    wrong |= (TWO("mulhu", least, least) != 1UL << 62 || TWO("mulw", a, b) != -69UL) << 4;
    return wrong;
}

static NOINLINE u64 bits(u64 value)
{
    u64 count = 0;
    for (; value; value >>= 1)
        count += value & 1;
    return count;
}

int main(void)
{
    make_table();
    if (checksum((const u8 *)digits, 9) != 0xcbf43926)
        return 1;
    for (u32 i = 60; i < LENGTH(buffer); i++)
        buffer[i] = buffer[i - 60] * 7 + i;
    u32 sum = checksum(buffer, LENGTH(buffer));
    for (u32 byte = 0; byte < 4; byte++)
        table[byte] = checksum(buffer, LENGTH(buffer) - byte) ^ sum;
    if (table[0] || !table[1])
        return 2;
    if (power(3, PRIME - 1) != 1 || product(power(7, PRIME - 2), 7) != 1)
        return 3;
    if (divisor(1UL << 40 | 1UL << 20, 3UL << 30) != 1UL << 20 || divisor(1234567890, 987654321) != 9)
        return 4;
    u64 wrong = corners(23, -3, 1L << 63);
    if (wrong)
        return 16 + wrong;
    for (u64 value = 0x123456789abcdef; value; value /= 1000)
        if (count_bits(value) != bits(value))
            return 5;
    if (one_more(20) != 21)
        return 6;
    say(halves.text);
    say("page\n");
    return 0;
}
