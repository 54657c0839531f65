/* Draws operations and operands, edges often, and prints what this machine's own floats give:
 * lines `operation,mode,a,b,c,result,flags`, as vectors.sh reads them.
 *
 *     campaign SEED COUNT
 *
 * The machine has four of the five modes. Its NaNs are printed as the canonical one. Where it gives
 * what it likes, the RISC-V rule stands: zero times infinity is invalid beside a quiet NaN too, and
 * what is out of an integer's range gives the limit. */
#include <fenv.h>
#include <inttypes.h>
#include <math.h>
#include <stdint.h>
#include <stdio.h>
#include <stdlib.h>
#include <string.h>

static uint64_t state;

static uint64_t draw(void)
{
    uint64_t x = state += 0x9e3779b97f4a7c15u;
    x = (x ^ (x >> 30)) * 0xbf58476d1ce4e5b9u;
    x = (x ^ (x >> 27)) * 0x94d049bb133111ebu;
    return x ^ (x >> 31);
}

static int is_single;
static int fraction_bits(void) { return is_single ? 23 : 52; }
static uint64_t sign_bit(void) { return (uint64_t)1 << (is_single ? 31 : 63); }
static uint64_t infinity(void) { return is_single ? 0x7f800000u : 0x7ff0000000000000u; }
static uint64_t quiet_bit(void) { return (uint64_t)1 << (fraction_bits() - 1); }
static uint64_t canonical(void) { return infinity() | quiet_bit(); }
static int is_nan(uint64_t bits) { return (bits & (sign_bit() - 1)) > infinity(); }
static int signals(uint64_t bits) { return is_nan(bits) && !(bits & quiet_bit()); }

/* A magnitude on an edge of the format, or a few steps beside it. */
static uint64_t edge(void)
{
    uint64_t one = (uint64_t)(is_single ? 127 : 1023) << fraction_bits();
    uint64_t edges[] = {0, (uint64_t)1 << fraction_bits(), one, infinity(), canonical(), infinity() + 1, one / 2};
    uint64_t bits = edges[draw() % 7] + draw() % 5 - 2;
    return bits & (sign_bit() - 1);
}

/* A fraction of few ones, of few zeros, or of any. */
static uint64_t fraction(void)
{
    uint64_t bits = draw();
    switch (draw() % 4) {
    case 0: bits = (uint64_t)1 << draw() % 64 | (uint64_t)1 << draw() % 64; break;
    case 1: bits = ~((uint64_t)1 << draw() % 64); break;
    case 2: bits = ~(uint64_t)0 << draw() % 64; break;
    default: break;
    }
    return bits & (((uint64_t)1 << fraction_bits()) - 1);
}

/* Bits, at times near those that were drawn before. */
static uint64_t operand(uint64_t before)
{
    uint64_t sign = draw() & 1 ? sign_bit() : 0;
    int exponents = is_single ? 255 : 2047;
    int exponent = (int)(before >> fraction_bits() & (uint64_t)exponents);
    switch (draw() % 8) {
    case 0: case 1: return sign | edge();
    case 2: return sign | fraction();
    case 3: return (before ^ (draw() & sign_bit())) + draw() % 5 - 2;
    case 4: case 5: exponent += (int)(draw() % (uint64_t)(4 * fraction_bits())) - 2 * fraction_bits(); break;
    case 6: exponent = exponents - exponent + (int)(draw() % 9) - 4; break;
    default: exponent = (int)(draw() % (uint64_t)exponents); break;
    }
    if (exponent < 0) exponent = 0;
    if (exponent >= exponents) exponent = exponents - 1;
    return sign | (uint64_t)exponent << fraction_bits() | fraction();
}

static float as_float(uint64_t bits) { uint32_t b = (uint32_t)bits; float x; memcpy(&x, &b, 4); return x; }
static double as_double(uint64_t bits) { double x; memcpy(&x, &bits, 8); return x; }
static uint64_t of_float(float x) { uint32_t b; memcpy(&b, &x, 4); return x != x ? 0x7fc00000u : b; }
static uint64_t of_double(double x) { uint64_t b; memcpy(&b, &x, 8); return x != x ? 0x7ff8000000000000u : b; }

static const char *const arithmetic[] = {"fadd", "fsub", "fmul", "fdiv", "fsqrt", "fmadd", "fmsub", "fnmsub", "fnmadd"};

static uint64_t single_result(int op, uint64_t i, uint64_t j, uint64_t k)
{
    volatile float a = as_float(i), b = as_float(j), c = as_float(k), r;
    switch (op) {
    case 0: r = a + b; break;
    case 1: r = a - b; break;
    case 2: r = a * b; break;
    case 3: r = a / b; break;
    case 4: r = sqrtf(a); break;
    case 5: r = fmaf(a, b, c); break;
    case 6: r = fmaf(a, b, -c); break;
    case 7: r = fmaf(-a, b, c); break;
    default: r = fmaf(-a, b, -c); break;
    }
    return of_float(r);
}

static uint64_t double_result(int op, uint64_t i, uint64_t j, uint64_t k)
{
    volatile double a = as_double(i), b = as_double(j), c = as_double(k), r;
    switch (op) {
    case 0: r = a + b; break;
    case 1: r = a - b; break;
    case 2: r = a * b; break;
    case 3: r = a / b; break;
    case 4: r = sqrt(a); break;
    case 5: r = fma(a, b, c); break;
    case 6: r = fma(a, b, -c); break;
    case 7: r = fma(-a, b, c); break;
    default: r = fma(-a, b, -c); break;
    }
    return of_double(r);
}

static int flags(void)
{
    int raised = fetestexcept(FE_ALL_EXCEPT);
    return (raised & FE_INVALID ? 16 : 0) | (raised & FE_DIVBYZERO ? 8 : 0) | (raised & FE_OVERFLOW ? 4 : 0)
         | (raised & FE_UNDERFLOW ? 2 : 0) | (raised & FE_INEXACT ? 1 : 0);
}

static const char *suffix(void) { return is_single ? "s" : "d"; }

static void print_line(const char *operation, const char *mode, const uint64_t *in, uint64_t result, int raised)
{
    printf("%s,%s,%" PRIx64 ",%" PRIx64 ",%" PRIx64 ",%016" PRIx64 ",%02x\n", operation, mode, in[0], in[1], in[2], result, raised);
}

static void draw_arithmetic(const char *mode, const uint64_t *in)
{
    char name[16];
    int op = (int)(draw() % 9);
    uint64_t result;
    int raised;
    snprintf(name, sizeof name, "%s.%s", arithmetic[op], suffix());
    feclearexcept(FE_ALL_EXCEPT);
    result = is_single ? single_result(op, in[0], in[1], in[2]) : double_result(op, in[0], in[1], in[2]);
    raised = flags();
    if (op >= 5) {
        uint64_t size = sign_bit() - 1, x = in[0] & size, y = in[1] & size;
        if ((x == 0 && y == infinity()) || (x == infinity() && y == 0)) raised |= 16;
    }
    print_line(name, mode, in, result, raised);
}

static void draw_comparison(const char *mode, const uint64_t *in)
{
    char name[16];
    int op = (int)(draw() % 3);
    volatile double a, b;
    int nan = is_nan(in[0]) || is_nan(in[1]);
    int signal = signals(in[0]) || signals(in[1]);
    int raised = op == 0 ? (signal ? 16 : 0) : (nan ? 16 : 0);
    volatile int holds;
    a = is_single ? as_float(in[0]) : as_double(in[0]);
    b = is_single ? as_float(in[1]) : as_double(in[1]);
    holds = op == 0 ? a == b : op == 1 ? a < b : a <= b;
    snprintf(name, sizeof name, "%s.%s", op == 0 ? "feq" : op == 1 ? "flt" : "fle", suffix());
    print_line(name, mode, in, (uint64_t)holds, raised);
}

/* To an integer of 32 or 64 bits with a sign, by the machine's own rounding. */
static void draw_to_integer(const char *mode, const uint64_t *in)
{
    char name[16];
    int is_long = (int)(draw() & 1);
    volatile double a = is_single ? as_float(in[0]) : as_double(in[0]);
    double least = is_long ? -0x1p63 : -0x1p31, beyond = -least;
    double whole;
    int64_t result;
    int raised;
    snprintf(name, sizeof name, "fcvt.%s.%s", is_long ? "l" : "w", suffix());
    feclearexcept(FE_ALL_EXCEPT);
    whole = rint(a);
    raised = flags() & 1;
    if (is_nan(in[0]) || whole >= beyond) {
        result = is_long ? INT64_MAX : INT32_MAX;
        raised = 16;
    } else if (whole < least) {
        result = is_long ? INT64_MIN : INT32_MIN;
        raised = 16;
    } else {
        result = (int64_t)whole;
    }
    print_line(name, mode, in, (uint64_t)result, raised);
}

static void draw_from_integer(const char *mode, uint64_t *in)
{
    char name[16];
    int is_long = (int)(draw() & 1);
    volatile int64_t a;
    uint64_t result;
    in[0] = draw() >> draw() % 64;
    if (draw() & 1) in[0] = -in[0];
    if (draw() % 4 == 0) in[0] = ((uint64_t)1 << draw() % 64) + draw() % 3 - 1;
    a = is_long ? (int64_t)in[0] : (int32_t)in[0];
    snprintf(name, sizeof name, "fcvt.%s.%s", suffix(), is_long ? "l" : "w");
    feclearexcept(FE_ALL_EXCEPT);
    if (is_single) {
        volatile float r = (float)a;
        result = of_float(r);
    } else {
        volatile double r = (double)a;
        result = of_double(r);
    }
    print_line(name, mode, in, result, flags());
}

static void draw_format(const char *mode, const uint64_t *in)
{
    uint64_t result;
    feclearexcept(FE_ALL_EXCEPT);
    if (is_single) {
        volatile float a = as_float(in[0]);
        volatile double r = a;
        result = of_double(r);
    } else {
        volatile double a = as_double(in[0]);
        volatile float r = (float)a;
        result = of_float(r);
    }
    print_line(is_single ? "fcvt.d.s" : "fcvt.s.d", mode, in, result, flags());
}

int main(int argc, char **argv)
{
    static const int modes[] = {FE_TONEAREST, FE_TOWARDZERO, FE_DOWNWARD, FE_UPWARD};
    static const char *const names[] = {"RNE", "RTZ", "RDN", "RUP"};
    uint64_t in[3] = {0, 0, 0};
    long count;
    if (argc != 3) return 2;
    state = strtoull(argv[1], NULL, 10);
    for (count = strtol(argv[2], NULL, 10); count > 0; count--) {
        unsigned mode = (unsigned)(draw() % 4);
        is_single = (int)(draw() & 1);
        in[0] = operand(in[0]) & (2 * sign_bit() - 1);
        in[1] = operand(in[0]) & (2 * sign_bit() - 1);
        in[2] = operand(draw() & 1 ? in[0] : in[1]) & (2 * sign_bit() - 1);
        fesetround(modes[mode]);
        switch (draw() % 12) {
        case 0: draw_comparison(names[mode], in); break;
        case 1: draw_to_integer(names[mode], in); break;
        case 2: draw_from_integer(names[mode], in); break;
        case 3: draw_format(names[mode], in); break;
        default: draw_arithmetic(names[mode], in); break;
        }
    }
    return fflush(stdout) == 0 ? 0 : 1;
}
