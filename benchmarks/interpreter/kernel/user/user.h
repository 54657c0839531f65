/* The calls of the kernel, and what the programs share. */
#pragma once
#include "../calls.h"

typedef unsigned char u8;
typedef unsigned int u32;
typedef unsigned long u64;

#define NOINLINE __attribute__((noinline))
#define LENGTH(array) (sizeof(array) / sizeof(array)[0])

static inline u64 call(u64 which, u64 first, u64 second)
{
    register u64 a0 __asm__("a0") = first;
    register u64 a1 __asm__("a1") = second;
    register u64 a7 __asm__("a7") = which;
    __asm__ volatile("ecall" : "+r"(a0) : "r"(a1), "r"(a7) : "memory");
    return a0;
}

static inline void end(u64 status)
{
    call(END, status, 0);
}

static inline u64 fork(void)
{
    return call(FORK, 0, 0);
}

/* The status of the next child that ends. */
static inline u64 wait(void)
{
    u64 status;
    call(WAIT, (u64)&status, 0);
    return status;
}

static inline void say(const char *text)
{
    u64 length = 0;
    while (text[length])
        length++;
    call(WRITE_TEXT, (u64)text, length);
}

u64 count_bits(u64 value);
