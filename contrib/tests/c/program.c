/* Data, constants, cleared and small variables, a stack, calls through pointers, 64-bit division. */
#include <stdint.h>

static uint64_t cleared[20];
static uint32_t small = 7;
static const uint8_t constants[] = {3, 1, 4, 1, 5, 9, 2, 6};
uint64_t table[4] = {11, 22, 33, 44};

static uint64_t twice(uint64_t value) { return 2 * value; }
static uint64_t thrice(uint64_t value) { return 3 * value; }
static uint64_t (*const forms[])(uint64_t) = {twice, thrice};

int main(void) {
    volatile uint64_t sum = 0;
    for (unsigned i = 0; i < 20; i++) {
        cleared[i] += forms[i % 2](constants[i % 8]) + table[i % 4];
        sum += cleared[i] / small + cleared[i] % small;
        small += constants[i % 8] & 1;
    }
    return sum == 145 ? 0 : 1;
}
