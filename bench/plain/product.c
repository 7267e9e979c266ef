/* The product modulo X^1152 - X^576 + 1 and modulo 8401537. */
#include "plain.h"

enum { N = 1152, HALF = N / 2, Q = 8401537 };

static uint32_t residue(int32_t value)
{
    int32_t rest = value % Q;
    return (uint32_t)(rest < 0 ? rest + Q : rest);
}

/* A product of two 32-bit numbers, so that the compiler may use the instruction for that. */
static inline uint64_t times(uint32_t a, uint32_t b)
{
    return (uint64_t)a * b;
}

static uint64_t wrong_length(size_t first_len, size_t second_len, size_t out_len)
{
    if (first_len != N)
        return 1 + (6 << 8);
    if (second_len != N)
        return 1 + (7 << 8);
    if (out_len != N)
        return 1 + (8 << 8);
    return 0;
}

/* Exponent e stays below 1152; up to 1727 it is X^(e-576) - X^(e-1152); from 1728 on it is -X^(e-1728). */
static void fold(const uint64_t sums[2 * N], int32_t out[N])
{
    for (int i = 0; i < HALF; i++) {
        uint64_t less = sums[i + N] % Q + sums[i + N + HALF] % Q;
        out[i] = (int32_t)((sums[i] + 2 * (uint64_t)Q - less) % Q);
    }
    for (int i = HALF; i < N; i++)
        out[i] = (int32_t)((sums[i] + sums[i + HALF]) % Q);
}

uint64_t plain_product(const int32_t *first, size_t first_len, const int32_t *second, size_t second_len, int32_t *out,
                       size_t out_len)
{
    uint64_t refused = wrong_length(first_len, second_len, out_len);
    if (refused)
        return refused;
    uint64_t sums[2 * N] = {0};
    uint32_t b[N];
    for (int i = 0; i < N; i++)
        b[i] = residue(second[i]);
    for (int i = 0; i < N; i++) {
        uint32_t a = residue(first[i]);
        if (a == 0)
            continue;
        for (int k = 0; k < N; k++)
            sums[i + k] += times(a, b[k]);
    }
    fold(sums, out);
    return 0;
}

/* Zeros stand before and behind b, so that four rows meet it at every place. */
uint64_t plain_product_by_four(const int32_t *first, size_t first_len, const int32_t *second, size_t second_len, int32_t *out,
                               size_t out_len)
{
    uint64_t refused = wrong_length(first_len, second_len, out_len);
    if (refused)
        return refused;
    uint64_t sums[2 * N + 4] = {0};
    uint32_t b[N + 6] = {0};
    for (int i = 0; i < N; i++)
        b[i + 3] = residue(second[i]);
    for (int i = 0; i < N; i += 4) {
        uint32_t a0 = residue(first[i]), a1 = residue(first[i + 1]), a2 = residue(first[i + 2]), a3 = residue(first[i + 3]);
        if ((a0 | a1 | a2 | a3) == 0)
            continue;
        for (int k = 0; k < N + 3; k++)
            sums[i + k] += times(a0, b[k + 3]) + times(a1, b[k + 2]) + times(a2, b[k + 1]) + times(a3, b[k]);
    }
    fold(sums, out);
    return 0;
}
