/* Packing and unpacking z: 1152 codes of 19 bits, 262144 - z, of which 51 to 524237 are allowed. */
#include "plain.h"
#include <string.h>

enum { N = 1152, BITS = 19, BYTES = N * BITS / 8, BASE = 262144, LEAST = 51, MOST = 524237 };

static uint64_t bad_z(size_t index)
{
    return 5 + (22 << 8) + ((uint64_t)index << 16);
}

uint64_t plain_pack_z(const int32_t *values, size_t values_len, uint8_t *out, size_t out_len)
{
    if (values_len != N)
        return 1 + (8 << 8);
    if (out_len != BYTES)
        return 1 + (9 << 8);
    for (size_t i = 0; i < N; i++)
        if (values[i] < BASE - MOST || values[i] > BASE - LEAST)
            return bad_z(i);
    uint64_t held = 0;
    unsigned count = 0;
    for (size_t i = 0; i < N; i++) {
        held |= (uint64_t)(BASE - values[i]) << count;
        count += BITS;
        while (count >= 8) {
            *out++ = (uint8_t)held;
            held >>= 8;
            count -= 8;
        }
    }
    return 0;
}

uint64_t plain_unpack_z(const uint8_t *packed, size_t packed_len, int32_t *out, size_t out_len)
{
    if (packed_len != BYTES)
        return 1 + (9 << 8);
    if (out_len != N)
        return 1 + (8 << 8);
    int32_t values[N];
    uint64_t held = 0;
    unsigned count = 0;
    for (size_t i = 0; i < N; i++) {
        while (count < BITS) {
            held |= (uint64_t)*packed++ << count;
            count += 8;
        }
        int32_t code = (int32_t)(held & ((1 << BITS) - 1));
        held >>= BITS;
        count -= BITS;
        if (code < LEAST || code > MOST)
            return bad_z(i);
        values[i] = BASE - code;
    }
    memcpy(out, values, sizeof values);
    return 0;
}
