/* The three samplers over a lent stream. */
#include "plain.h"
#include <string.h>

enum { N = 1152, Q = 8401537, TAU = 25, WRONG_LENGTH = 1 + (8 << 8), DRY = 7 };

uint64_t plain_sample_a(const uint8_t *stream, size_t stream_len, int32_t *out, size_t out_len)
{
    if (out_len != N)
        return WRONG_LENGTH;
    int32_t element[N];
    size_t at = 0;
    for (size_t found = 0; found < N;) {
        if (stream_len - at < 3)
            return DRY;
        int32_t group = stream[at] | stream[at + 1] << 8 | stream[at + 2] << 16;
        at += 3;
        if (group < Q)
            element[found++] = group;
    }
    memcpy(out, element, sizeof element);
    return 0;
}

uint64_t plain_sample_s(const uint8_t *stream, size_t stream_len, int32_t *out, size_t out_len)
{
    if (out_len != N)
        return WRONG_LENGTH;
    int32_t element[N];
    size_t at = 0, found = 0;
    while (found < N) {
        if (at == stream_len)
            return DRY;
        unsigned byte = stream[at++];
        for (int code = 0; code < 4 && found < N; code++, byte >>= 2)
            if ((byte & 3) < 3)
                element[found++] = 1 - (int32_t)(byte & 3);
    }
    memcpy(out, element, sizeof element);
    return 0;
}

uint64_t plain_sample_challenge(const uint8_t *stream, size_t stream_len, int32_t *out, size_t out_len)
{
    if (out_len != N)
        return WRONG_LENGTH;
    if (stream_len < 8)
        return DRY;
    int32_t element[N] = {0};
    uint64_t signs = 0;
    for (int i = 0; i < 8; i++)
        signs |= (uint64_t)stream[i] << 8 * i;
    size_t at = 8;
    for (int i = N - TAU; i < N;) {
        if (stream_len - at < 2)
            return DRY;
        int j = (stream[at] | stream[at + 1] << 8) & 2047;
        at += 2;
        if (j > i)
            continue;
        element[i] = element[j];
        element[j] = signs & 1 ? -1 : 1;
        signs >>= 1;
        i++;
    }
    memcpy(out, element, sizeof element);
    return 0;
}
