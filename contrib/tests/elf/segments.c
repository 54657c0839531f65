/* Code, constants, data that lie elsewhere than they run, and data before cleared variables, each in a
   segment of its own: see segments.ld. main gives 0 where memory is as the segments say. */
#include <stdint.h>

static const uint8_t constants[] = {3, 1, 4, 1, 5, 9, 2, 6};
uint32_t moved[5] = {11, 22, 33, 44, 55};
__attribute__((section(".table"))) static uint64_t table[3] = {~0ull, 0, 7};
static uint64_t cleared[40];
static uint8_t last;
extern uint32_t moved_from[], moved_start[], moved_end[];

int main(void) {
    uint64_t sum = 0;
    for (uint32_t *from = moved_from, *to = moved_start; to < moved_end; from++, to++) {
        sum += *to;
        *to = *from;
    }
    for (unsigned i = 0; i < 40; i++) {
        sum += cleared[i];
        cleared[i] = constants[i % 8] + moved[i % 5];
    }
    if (sum || last)
        return 1;
    last = 1;
    return table[0] + table[1] + table[2] == 6 && cleared[39] == 61 ? 0 : 2;
}

/* The value that main gives goes to a1, and the run ends. */
__attribute__((naked, section(".init"))) void _start(void) {
    asm("la sp, stack_top\n"
        "call main\n"
        "mv a1, a0\n"
        "li t0, 0x100000\n"
        "li t1, 0x5555\n"
        "sw t1, 0(t0)\n"
        "1: j 1b");
}
