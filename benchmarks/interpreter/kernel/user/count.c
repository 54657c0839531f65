/* Counts by recursion: queens on a board, Fibonacci numbers, and a sum deep down in the stack. */
#include "user.h"

static u32 board[8];

static NOINLINE u32 queens(u32 row, u32 size)
{
    u32 found = 0;
    if (row == size)
        return 1;
    for (u32 column = 0; column < size; column++) {
        int safe = 1;
        for (u32 other = 0; other < row && safe; other++) {
            u32 apart = row - other;
            safe = board[other] != column && board[other] + apart != column && column + apart != board[other];
        }
        if (safe) {
            board[row] = column;
            found += queens(row + 1, size);
        }
    }
    return found;
}

static NOINLINE u32 fibonacci(u32 n)
{
    return n < 2 ? n : fibonacci(n - 1) + fibonacci(n - 2);
}

static NOINLINE u64 deep(u64 level)
{
    volatile u64 here[32];
    here[level % 32] = level;
    return level ? deep(level - 1) + here[level % 32] : 0;
}

int main(void)
{
    u64 begin, later;
    __asm__ volatile("rdtime %0" : "=r"(begin));
    if (queens(0, 6) != 4)
        return 1;
    if (fibonacci(13) != 233)
        return 2;
    if (deep(45) != 1035)
        return 3;
    __asm__ volatile("rdtime %0" : "=r"(later));
    if (later < begin)
        return 4;
    say("counted\n");
    return 0;
}
