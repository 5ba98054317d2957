/* Makes the vectors of crates/root_vectors: a line for each, the pattern of a double and that of its square root by
 * libm, in 16 upper-case hex digits each. Every NaN is written as 7FF8000000000000. The seed is fixed, so each run
 * writes the same bytes.
 *
 * From the repository's root:
 *   gcc -O2 -o target/root_vectors oracle/root_vectors.c -lm && target/root_vectors > crates/root_vectors/stdin
 * It says on standard error how many it wrote; crates/root_vectors/stdout holds that number.
 */
#include <inttypes.h>
#include <math.h>
#include <stdint.h>
#include <stdio.h>
#include <string.h>

#define INFINITE UINT64_C(0x7FF0000000000000)
#define SIGN UINT64_C(0x8000000000000000)

static unsigned written;

static uint64_t random_word(void) /* xorshift64 */
{
    static uint64_t state = UINT64_C(0x9E3779B97F4A7C15);
    state ^= state << 13;
    state ^= state >> 7;
    state ^= state << 17;
    return state;
}

static double of_bits(uint64_t b)
{
    double x;
    memcpy(&x, &b, sizeof x);
    return x;
}

static uint64_t to_bits(double x)
{
    uint64_t b;
    if (isnan(x))
        return UINT64_C(0x7FF8000000000000);
    memcpy(&b, &x, sizeof b);
    return b;
}

static void vector(uint64_t b)
{
    volatile double x = of_bits(b); /* worked out when it runs, not when it is compiled */
    printf("%016" PRIX64 " %016" PRIX64 "\n", to_bits(x), to_bits(sqrt(x)));
    written++;
}

static void with_neighbours(double x)
{
    uint64_t b = to_bits(x);
    vector(b - 1);
    vector(b);
    vector(b + 1);
}

/* The two doubles about (m + 1/2)^2, where m has 53 digits: their roots lie next to the point halfway. */
static void about_halfway(uint64_t m)
{
    unsigned __int128 n = (unsigned __int128)m * m + m;
    int cut = 0;
    while (n >> 53) {
        n >>= 1;
        cut++;
    }
    uint64_t b = to_bits(ldexp((double)(uint64_t)n, cut));
    vector(b);
    vector(b + 1);
}

int main(void)
{
    static const uint64_t chosen[] = {
        0, SIGN, INFINITE, INFINITE | SIGN, UINT64_C(0x7FF8000000000000), /* the zeros, the infinities, a NaN */
        1, 2, 3, UINT64_C(0x000FFFFFFFFFFFFF), UINT64_C(0x000FFFFFFFFFFFFE), /* the least and the largest subnormals */
        UINT64_C(0x4000000000000000), UINT64_C(0x4010000000000000), /* 2 and 4 */
        INFINITE - 1, INFINITE - 2, INFINITE - 3, /* the largest finite */
        SIGN | 1, SIGN | UINT64_C(0x000FFFFFFFFFFFFF), SIGN | UINT64_C(0x3FF0000000000000), SIGN | (INFINITE - 1), /* below zero */
    };
    for (unsigned i = 0; i < sizeof chosen / sizeof *chosen; i++)
        vector(chosen[i]);
    for (int e = -1073; e <= 1023; e += 3) /* powers of two, odd and even in turn */
        with_neighbours(ldexp(1.0, e));
    for (int i = 0; i < 200; i++) { /* squares of up to 26 digits, exact, and these times a power of four */
        double n = (double)(random_word() >> (38 + i % 20) | 1);
        with_neighbours(ldexp(n * n, 2 * (i % 7 - 3) * 64));
    }
    for (int i = 0; i < 250; i++)
        about_halfway(UINT64_C(1) << 52 | random_word() >> 12);
    about_halfway(UINT64_C(1) << 52);
    about_halfway((UINT64_C(1) << 53) - 1);
    for (int i = 0; i < 300; i++) /* subnormals of every length */
        vector(1 | random_word() >> (12 + i % 52));
    for (int i = 0; i < 800; i++) { /* any finite above zero */
        uint64_t b = random_word() & ~SIGN;
        vector(b < INFINITE ? b : b >> 11);
    }
    for (int i = 0; i < 100; i++) /* any pattern, with a sign or without */
        vector(random_word());
    fprintf(stderr, "%u vectors\n", written);
    return 0;
}
