/* The same jobs in plain C, for bench/run to compare with: what a careful C programmer writes, built with gcc -O3.
 *
 * Each does the whole job of the call that it is compared with: it looks at lengths and ranges, answers 0 or a refusal, and
 * leaves its output as it was at a refusal. The product is the proved one's algorithm: rows of 64-bit sums, none reduced
 * before all are added, and zero coefficients of the first factor passed over. */
#include <stddef.h>
#include <stdint.h>

/* The permutation of FIPS 202: with a variable for each lane, and over tables. */
void keccak_unrolled(uint64_t s[25]);
void keccak_compact(uint64_t s[25]);

/* The product: one row at a time, and four. */
uint64_t plain_product(const int32_t *first, size_t first_len, const int32_t *second, size_t second_len, int32_t *out,
                       size_t out_len);
uint64_t plain_product_by_four(const int32_t *first, size_t first_len, const int32_t *second, size_t second_len, int32_t *out,
                               size_t out_len);

uint64_t plain_pack_z(const int32_t *values, size_t values_len, uint8_t *out, size_t out_len);
uint64_t plain_unpack_z(const uint8_t *packed, size_t packed_len, int32_t *out, size_t out_len);

uint64_t plain_sample_a(const uint8_t *stream, size_t stream_len, int32_t *out, size_t out_len);
uint64_t plain_sample_s(const uint8_t *stream, size_t stream_len, int32_t *out, size_t out_len);
uint64_t plain_sample_challenge(const uint8_t *stream, size_t stream_len, int32_t *out, size_t out_len);
