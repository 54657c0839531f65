/*
 * An endless loop of ordinary compiled code: calls, branches, tables, accesses of 1, 2, 4 and 8 bytes,
 * products and quotients, and atomic operations. loop.hex is its image, made with the packages
 * gcc-riscv64-unknown-elf and binutils-riscv64-unknown-elf of Debian 12 (GCC 12.2):
 *
 *   riscv64-unknown-elf-gcc -march=rv64imac -mabi=lp64 -mcmodel=medany -O2 -nostdlib -ffreestanding \
 *       -fno-tree-loop-distribute-patterns -Wl,--no-relax -Wl,--section-start=.init=0x80000000 \
 *       -Wl,--build-id=none -o loop.elf loop.c
 *   riscv64-unknown-elf-objcopy -O verilog loop.elf loop.text && tr -d '\r' <loop.text >loop.hex
 */

typedef unsigned char u8;
typedef unsigned short u16;
typedef unsigned int u32;
typedef unsigned long u64;
typedef signed char s8;
typedef short s16;
typedef int s32;
typedef long s64;

__asm__(".section .init, \"ax\"\n"
        ".globl _start\n"
        "_start:\n"
        "    la sp, stack_end\n"
        "    call work\n"
        ".section .bss\n"
        "    .balign 16\n"
        "    .space 4096\n"
        "stack_end:\n"
        ".text\n");

#define NOINLINE __attribute__((noinline))
#define COUNT 16

static u64 random_state = 0x9e3779b97f4a7c15;
static u8 bytes[8 * COUNT];
static s16 halves[COUNT];
static u32 words[COUNT];
static u64 doubles[COUNT];
static s32 product[4][4];
static u32 lock_word;
static u32 word_counter;
static u64 double_counter;
static u64 results[16];

static NOINLINE u64 next_random(void)
{
    u64 x = random_state;
    x ^= x << 13;
    x ^= x >> 7;
    x ^= x << 17;
    random_state = x;
    return x;
}

static NOINLINE void fill(void)
{
    for (u32 i = 0; i < COUNT; i++) {
        u64 x = next_random();
        doubles[i] = x;
        words[i] = (u32)(x >> 16);
        halves[i] = (s16)(x >> 24);
        for (u32 k = 0; k < 8; k++)
            bytes[8 * i + k] = (u8)(x >> (8 * k));
    }
}

/* CRC-32, a bit at a time. */
static NOINLINE u32 checksum(const u8 *from, u64 length)
{
    u32 crc = ~0u;
    for (u64 i = 0; i < length; i++) {
        crc ^= from[i];
        for (int bit = 0; bit < 8; bit++)
            crc = crc >> 1 ^ (0xedb88320u & -(crc & 1));
    }
    return ~crc;
}

/* Insertion sort of signed halves. */
static NOINLINE void sort(s16 *list, s32 length)
{
    for (s32 i = 1; i < length; i++) {
        s16 moved = list[i];
        s32 k = i;
        while (k > 0 && list[k - 1] > moved) {
            list[k] = list[k - 1];
            k--;
        }
        list[k] = moved;
    }
}

static NOINLINE s64 sum_signed(void)
{
    s64 sum = 0;
    for (u32 i = 0; i < COUNT; i++)
        sum += ((const s8 *)bytes)[i] + halves[i] + (s32)words[i];
    return sum;
}

static NOINLINE u64 sum_unsigned(void)
{
    u64 sum = 0;
    for (u32 i = 0; i < COUNT; i++)
        sum += bytes[i] + ((const u16 *)halves)[i] + (u64)words[i];
    return sum;
}

static NOINLINE void multiply_matrices(const s32 *left, const s32 *right)
{
    for (int i = 0; i < 4; i++)
        for (int j = 0; j < 4; j++) {
            s32 sum = 0;
            for (int k = 0; k < 4; k++)
                sum += left[4 * i + k] * right[4 * k + j];
            product[i][j] = sum;
        }
}

static NOINLINE u64 greatest_divisor(u64 a, u64 b)
{
    while (b != 0) {
        u64 rest = a % b;
        a = b;
        b = rest;
    }
    return a;
}

static NOINLINE u64 high_products(u64 a, u64 b)
{
    u64 both_unsigned = (u64)((unsigned __int128)a * b >> 64);
    u64 both_signed = (u64)((__int128)(s64)a * (s64)b >> 64);
    return both_unsigned ^ both_signed;
}

static NOINLINE s64 quotients(s64 a, s64 b)
{
    s32 left = (s32)a;
    s32 right = (s32)b | 1;
    s64 whole = a / (b | 1) + a % (b | 1);
    s64 word = left / right + left % right;
    s64 natural = (s64)((u32)left / (u32)right + (u32)left % (u32)right);
    return whole + word + natural + (s64)((u64)a / (u64)(b | 1));
}

static NOINLINE u32 fibonacci(u32 n)
{
    return n < 2 ? n : fibonacci(n - 1) + fibonacci(n - 2);
}

static NOINLINE u64 by_case(u32 selector, u64 x)
{
    switch (selector & 7) {
    case 0: return x + 1;
    case 1: return x * 3;
    case 2: return x << 5 | x >> 59;
    case 3: return ~x;
    case 4: return x - 0x12345678;
    case 5: return x & 0xff00ff00ff00ff00;
    case 6: return (u64)((s64)x >> 9);
    default: return (u64)(s32)x;
    }
}

static u64 twice(u64 x) { return 2 * x; }
static u64 negated(u64 x) { return -x; }
static u64 word_shifts(u64 x) { return (u64)((s32)x >> 3) + ((u32)x >> 5) + ((u32)x << 7); }
static u64 compared(u64 x) { return (x < 1000) + ((s64)x < -5) + (x == 0) + ((s32)x > 77); }

static u64 (*const functions[4])(u64) = {twice, negated, word_shifts, compared};

static NOINLINE u64 by_function(u64 x)
{
    for (u32 i = 0; i < 8; i++)
        x = functions[(x >> 3) & 3](x) + i;
    return x;
}

/* A lock by compare and exchange around a word, and the counting operations. */
static NOINLINE u64 atomic_turn(u64 x)
{
    u32 open = 0;
    while (!__atomic_compare_exchange_n(&lock_word, &open, 1, 0, __ATOMIC_ACQUIRE, __ATOMIC_RELAXED))
        open = 0;
    u64 seen = __atomic_fetch_add(&word_counter, (u32)x, __ATOMIC_ACQ_REL);
    seen += __atomic_fetch_xor(&word_counter, (u32)(x >> 32), __ATOMIC_RELAXED);
    seen += __atomic_fetch_and(&word_counter, 0xf0ffffff, __ATOMIC_RELAXED);
    seen += __atomic_fetch_or(&double_counter, x & 0xff, __ATOMIC_SEQ_CST);
    seen += __atomic_fetch_sub(&double_counter, x >> 7, __ATOMIC_RELEASE);
    seen += __atomic_exchange_n(&doubles[x & (COUNT - 1)], seen, __ATOMIC_ACQ_REL);
    u64 expected = double_counter;
    seen += __atomic_compare_exchange_n(&double_counter, &expected, x, 0, __ATOMIC_SEQ_CST, __ATOMIC_RELAXED);
    expected = x + 1;
    seen += __atomic_compare_exchange_n(&double_counter, &expected, seen, 0, __ATOMIC_SEQ_CST, __ATOMIC_RELAXED);
    __atomic_store_n(&lock_word, 0, __ATOMIC_RELEASE);
    return seen + expected;
}

static NOINLINE u64 turn(u32 number)
{
    u64 x = next_random();
    fill();
    u64 sum = checksum(bytes, 16);
    sort(halves, COUNT);
    sum += (u64)sum_signed() ^ sum_unsigned();
    multiply_matrices((const s32 *)words, (const s32 *)words);
    sum += (u64)product[number & 3][number >> 2 & 3];
    sum += greatest_divisor(doubles[0], doubles[1] >> 11);
    sum ^= high_products(doubles[2], doubles[3]);
    sum += (u64)quotients((s64)doubles[4], (s64)doubles[5] >> 20);
    sum += fibonacci(number & 7);
    for (u32 i = 0; i < 8; i++)
        sum = by_case((u32)(x >> (3 * i)), sum);
    sum += by_function(x);
    for (u32 i = 0; i < 16; i++)
        sum ^= atomic_turn(sum);
    return sum;
}

void work(void)
{
    for (u32 number = 0;; number++)
        results[number & 15] += turn(number);
}
