/*
 * An endless loop of loads and stores of 1, 2, 4 and 8 bytes at addresses spread over 64 MiB.
 * spread.hex is its image, made as loop.c says of loop.hex.
 */

typedef unsigned char u8;
typedef unsigned short u16;
typedef unsigned int u32;
typedef unsigned long u64;

__asm__(".section .init, \"ax\"\n"
        ".globl _start\n"
        "_start:\n"
        "    j work\n"
        ".text\n");

/* 2^23 places of 8 bytes. */
#define PLACES 0x81000000

void work(void)
{
    u64 state = 1;
    for (;;) {
        state = state * 6364136223846793005 + 1442695040888963407;
        u64 place = PLACES + 8 * (state >> 41);
        *(volatile u64 *)place += state;
        *(volatile u32 *)(place + 4) ^= (u32)state;
        *(volatile u16 *)(place + 2) += (u16)state;
        *(volatile u8 *)(place + 7) |= (u8)state;
    }
}
