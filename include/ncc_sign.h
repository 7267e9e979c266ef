/* ncc_sign.h: NCC-Sign, trinomial level 1, as a C interface to proved code. For C (C99 and later) and C++.
 *
 * Link your program with the one archive, libncc_c.a. It needs memcpy, memmove and memset from your C library and
 * nothing else. It allocates nothing, keeps nothing between calls and starts nothing: calls may run in several threads
 * at once, each on its own buffers.
 *
 * What it does: it makes a key pair from two seeds, signs a message, and checks a signature. The same seeds give the same
 * keys, and the same key and message give the same signature. The parts below it (hash, product, rounding, samplers,
 * packing) are public too, for test benches and other tools; a recorder needs only the first three calls.
 *
 * What it does not do: it has no source of randomness, so the seeds are yours to draw. It claims nothing about timing
 * or side channels, and it does not wipe the stack that it used.
 *
 *
 * RULES FOR THE CALLER
 *
 * - A buffer is a pointer and then a length. The length counts elements: bytes for uint8_t, numbers for int32_t.
 *   The length that you pass is believed: the memory behind the pointer must be at least that long.
 * - The buffers of one call must not overlap.
 * - An int32_t or uint32_t buffer must be aligned as your compiler aligns that type.
 * - An empty buffer is any pointer with length 0. NULL with length 0 is taken in the same way; `tests/compare null` tries it
 *   in every place. `uint32_t *high` is no buffer and is never NULL.
 * - `uint32_t *high` of ncc_use_hint must point to one number.
 *
 *
 * THE ANSWER
 *
 * A call that can refuse returns one uint64_t. Take it apart with the four macros:
 *
 *     NCC_NUMBER(answer)   0 is done, or accepted. 1 to 9 is a refusal; the NCC_... numbers below say why.
 *     NCC_PLACE(answer)    at number 1 the buffer with the wrong length, at 4 and 5 the field with the bad value; else 0
 *     NCC_INDEX(answer)    at 4 and 5 the lowest index (0 to 1151) of a bad value in that field; else 0
 *     NCC_TRIES(answer)    ncc_sign only: tries made at success, the limit at number 8; else 0
 *
 * So `answer == 0` is success of every call except ncc_sign, whose success also carries the count of tries: there and
 * anywhere else, test NCC_NUMBER(answer) == NCC_DONE.
 *
 * Refusals are found in the order of their numbers, and the first one found is the answer. Within number 1 the inputs are
 * looked at before the outputs, each in the order of the parameters. At every refusal each output buffer holds what it
 * held before the call. At success each output buffer is filled whole. Inputs are never written.
 *
 *
 * MEMORY
 *
 * The library uses the stack of its caller and no other writable memory. The most that a call was seen to use, in bytes,
 * on a painted stack, with the archive for x86-64 that today's kit makes (`bench/memory --write` measures
 * and fills in this table):
 *
 * stack table begins
 *     ncc_make_keys            92312
 *     ncc_sign                 93160
 *     ncc_check                92856
 *     ncc_shake256              3168
 *     ncc_product              42184
 *     ncc_high_bits               64
 *     ncc_low_bits                64
 *     ncc_make_hint               64
 *     ncc_use_hint                64
 *     ncc_power2_high             64
 *     ncc_power2_low              64
 *     ncc_sample_a              4680
 *     ncc_sample_s              4712
 *     ncc_sample_challenge      4680
 *     ncc_pack_t1               4664
 *     ncc_unpack_t1             4664
 *     ncc_pack_t0               4664
 *     ncc_unpack_t0             4680
 *     ncc_pack_s                4680
 *     ncc_unpack_s              4664
 *     ncc_pack_z                4664
 *     ncc_unpack_z              4680
 *     ncc_pack_w1               4680
 *     ncc_unpack_w1             4664
 * stack table ends
 */
#ifndef NCC_SIGN_H
#define NCC_SIGN_H

#include <stddef.h>
#include <stdint.h>

#ifdef __cplusplus
extern "C" {
#endif

/* The parts of an answer. */
#define NCC_NUMBER(answer) ((uint32_t)((uint64_t)(answer) & 0xff))
#define NCC_PLACE(answer) ((uint32_t)((uint64_t)(answer) >> 8 & 0xff))
#define NCC_INDEX(answer) ((uint32_t)((uint64_t)(answer) >> 16 & 0xffff))
#define NCC_TRIES(answer) ((uint32_t)((uint64_t)(answer) >> 32))

/* Numbers. */
#define NCC_DONE 0         /* done, or accepted */
#define NCC_BAD_LENGTH 1   /* a buffer of one fixed length has another; the place says which */
#define NCC_LONG_MESSAGE 2 /* the message is longer than NCC_MESSAGE_MAX */
#define NCC_BAD_LIMIT 3    /* the try limit is 0 or above NCC_LIMIT_MAX */
#define NCC_BAD_VALUE 4    /* a t1, t0, s or w1 value or code is outside its range; place and index say which */
#define NCC_BAD_Z 5        /* a z value or code is outside its range; the index says which */
#define NCC_BAD_HINT 6     /* a hint other than 0 or 1, or a signature with more than 80 hint ones */
#define NCC_DRY_STREAM 7   /* a stream ended before the last coefficient was drawn */
#define NCC_TRIES_SPENT 8  /* every try up to the limit failed */
#define NCC_REJECTED 9     /* the signature is well formed and is not one for this key and this message */

/* Places: buffers, named at number 1. */
#define NCC_PUBLIC_KEY 1
#define NCC_SECRET_KEY 2
#define NCC_ZETA 3
#define NCC_ZETA_PRIME 4
#define NCC_SIGNATURE 5
#define NCC_FIRST 6        /* the first factor of a product */
#define NCC_SECOND 7       /* the second factor of a product */
#define NCC_COEFFICIENTS 8 /* the numbers that a product, a sampler or unpacking fills, or that packing takes */
#define NCC_PACKED 9       /* the bytes that packing fills, or that unpacking takes */

/* Places: fields, named at numbers 4 and 5. */
#define NCC_T1 17
#define NCC_T0 18
#define NCC_S1 19 /* the first secret, in a secret key */
#define NCC_S2 20 /* the second secret, in a secret key */
#define NCC_S 21  /* ncc_pack_s and ncc_unpack_s */
#define NCC_Z 22
#define NCC_W1 23

/* Lengths and limits. */
#define NCC_SEED_BYTES 32
#define NCC_PUBLIC_KEY_BYTES 1760
#define NCC_SECRET_KEY_BYTES 2400
#define NCC_SIGNATURE_BYTES 2912
#define NCC_MESSAGE_MAX 32768
#define NCC_LIMIT_MAX 1000

/* The ring: an element has NCC_N coefficients, read modulo NCC_Q. */
#define NCC_N 1152
#define NCC_Q 8401537

/* Bytes of one packed element. */
#define NCC_T1_BYTES 1728
#define NCC_T0_BYTES 1728
#define NCC_S_BYTES 288
#define NCC_Z_BYTES 2736
#define NCC_W1_BYTES 720

/* Stream bytes with which the scheme itself feeds its samplers. */
#define NCC_A_STREAM_BYTES 13056
#define NCC_S_STREAM_BYTES 816
#define NCC_CHALLENGE_STREAM_BYTES 544

/* An answer that must not be dropped. */
#if defined(__GNUC__)
#define NCC_MUST_USE __attribute__((warn_unused_result))
#else
#define NCC_MUST_USE
#endif

/* ---- Keys, signing, checking ------------------------------------------------------------------------------------- */

/* Makes a key pair from two seeds of 32 bytes.
 *
 * zeta is public: it stands in both keys. zeta_prime is the secret: who has it has the secret key. Draw both from
 * a good source of randomness, once for each key pair, and never use a zeta_prime again.
 *
 * Fills public_key (1760 bytes) and secret_key (2400 bytes).
 *
 * Answers
 *   0  both keys are made
 *   1  a wrong length; place NCC_ZETA, NCC_ZETA_PRIME, NCC_PUBLIC_KEY or NCC_SECRET_KEY, the first of these that is wrong
 *   7  the stream of a secret or of the public element ran dry. No seeds are known for which it does; draw new ones
 * At 1 and 7 both outputs are as they were.
 */
NCC_MUST_USE uint64_t ncc_make_keys(const uint8_t *zeta, size_t zeta_len, const uint8_t *zeta_prime, size_t zeta_prime_len,
                                    uint8_t *public_key, size_t public_key_len, uint8_t *secret_key, size_t secret_key_len);

/* Signs a message of 0 to 32,768 bytes.
 *
 * Signing makes tries until one passes; half of the tries do, about. limit, 1 to 1,000, is the most that it makes. The
 * time is in proportion to the tries, so the limit bounds it. A limit of 1,000 does not run out in practice. A
 * small one does: at limit k about one message in 2^k is refused, and it is refused again each time, for
 * signing is deterministic. Then call again with a higher limit.
 *
 * Fills signature (2912 bytes).
 *
 * Answers
 *   0  signed; NCC_TRIES is the count of tries, 1 to limit, the last of which passed
 *   1  a wrong length; place NCC_SECRET_KEY or NCC_SIGNATURE, the first of these that is wrong
 *   2  the message is longer than 32,768 bytes
 *   3  limit is 0 or above 1,000
 *   4  the secret key is damaged: place NCC_S1 or NCC_S2, and the index of the first bad code. (Damage elsewhere in the
 *      key is not seen here: it gives signatures that are not accepted.)
 *   7  the stream of the public element ran dry. No key is known for which it does
 *   8  all tries failed; NCC_TRIES is the limit
 * At every number but 0 the signature is as it was.
 */
NCC_MUST_USE uint64_t ncc_sign(const uint8_t *secret_key, size_t secret_key_len, const uint8_t *message, size_t message_len,
                               uint32_t limit, uint8_t *signature, size_t signature_len);

/* Checks a signature on a message. Only 0 means that the signature is good.
 *
 * Any bytes may be handed in: a damaged or hostile key, signature or message is refused and does no harm.
 *
 * Answers
 *   0  accepted
 *   1  a wrong length; place NCC_PUBLIC_KEY or NCC_SIGNATURE, the first of these that is wrong
 *   2  the message is longer than 32,768 bytes
 *   4  the public key holds a bad code: place NCC_T1 and the index of the first one
 *   5  the signature holds a bad code of z: place NCC_Z and the index of the first one
 *   6  the signature has more than 80 hint ones
 *   7  the stream of the public element or of the challenge ran dry. No input is known for which it does
 *   9  all is well formed, but this is not a signature of this message under this key
 */
NCC_MUST_USE uint64_t ncc_check(const uint8_t *public_key, size_t public_key_len, const uint8_t *signature,
                                size_t signature_len, const uint8_t *message, size_t message_len);

/* ---- The hash ---------------------------------------------------------------------------------------------------- */

/* Fills out with the first out_len bytes of SHAKE256 (FIPS 202) on in. Every length of both is taken, 0 too.
 *
 * Answers 0, always.
 */
uint64_t ncc_shake256(const uint8_t *in, size_t in_len, uint8_t *out, size_t out_len);

/* ---- The ring ---------------------------------------------------------------------------------------------------- */

/* Multiplies two elements of 1152 numbers modulo X^1152 - X^576 + 1 and modulo 8401537.
 *
 * A coefficient of a factor may be any int32_t; it is read modulo 8401537. Those of out come in 0 to 8401536. Zero
 * coefficients of the first factor cost no time, so a sparse factor belongs there.
 *
 * Answers
 *   0  out holds the product
 *   1  a length other than 1152; place NCC_FIRST, NCC_SECOND or NCC_COEFFICIENTS (out), the first of these that is wrong;
 *      out is as it was
 */
uint64_t ncc_product(const int32_t *first, size_t first_len, const int32_t *second, size_t second_len, int32_t *out,
                     size_t out_len);

/* ---- Rounding and hints ------------------------------------------------------------------------------------------ */

/* These take every int32_t and cannot refuse, but for a hint of ncc_use_hint. r is first reduced to 0 to 8401536. */

/* The high part of r: which of 32 steps of 262548 it is nearest to, 0 to 31. The top half step belongs to step 0. */
uint32_t ncc_high_bits(int32_t r);

/* The low part of r: its distance from that step, -131274 to 131274. Half a step is rounded down, so 131274 stays at
 * its step; -131274 occurs in the top half step alone. */
int32_t ncc_low_bits(int32_t r);

/* 1 if the high parts of r and of r + z differ, else 0. r + z is a sum of whole numbers and does not wrap. */
uint32_t ncc_make_hint(int32_t z, int32_t r);

/* The high part of r, moved by a hint: at hint 1 one step up if the low part is above 0, else one step down, modulo 32;
 * at hint 0 not at all. Writes it to *high, 0 to 31.
 *
 * Answers
 *   0  *high is written
 *   6  hint is neither 0 nor 1; *high is as it was
 */
uint64_t ncc_use_hint(uint32_t hint, int32_t r, uint32_t *high);

/* r as high * 4096 + low: the high part, 0 to 2051. */
uint32_t ncc_power2_high(int32_t r);

/* r as high * 4096 + low: the low part, -2047 to 2048. */
int32_t ncc_power2_low(int32_t r);

/* ---- Samplers ---------------------------------------------------------------------------------------------------- */

/* Each draws an element of 1152 numbers from a stream of bytes of any length, which is random bytes or a hash's
 * output. The stream is used from its start, as far as it is needed; what is left of it has no effect. A stream that ends
 * too early is dry.
 *
 * Answers of all three
 *   0  out is filled
 *   1  out_len is not 1152; place NCC_COEFFICIENTS
 *   7  the stream is dry (an empty one is)
 * At 1 and 7 out is as it was.
 */

/* Numbers 0 to 8401536: each group of 3 bytes, little-endian, that is below 8401537. A last group of 1 or 2 bytes is not
 * used. */
uint64_t ncc_sample_a(const uint8_t *stream, size_t stream_len, int32_t *out, size_t out_len);

/* Numbers -1, 0, 1: each byte has four codes of 2 bits, lowest bits first; 0, 1, 2 give 1, 0, -1, and 3 is skipped. */
uint64_t ncc_sample_s(const uint8_t *stream, size_t stream_len, int32_t *out, size_t out_len);

/* A challenge: 25 numbers are 1 or -1, the others 0. The first 8 bytes give the signs, and each further 2 bytes are one
 * draw of a place. A stream under 8 bytes is dry; a last single byte is not used. */
uint64_t ncc_sample_challenge(const uint8_t *stream, size_t stream_len, int32_t *out, size_t out_len);

/* ---- Packing ----------------------------------------------------------------------------------------------------- */

/* Packing turns 1152 values into codes of a fixed width, lowest bit first, value 0 first. Unpacking turns them back.
 *
 *     layout   bits   code         values allowed       codes allowed    bytes
 *     t1       12     v            0 to 2051            0 to 2051        1728
 *     t0       12     2048 - v     -2047 to 2048        every one        1728
 *     s        2      1 - v        -1 to 1              0 to 2           288
 *     z        19     262144 - v   -262093 to 262093    51 to 524237     2736
 *     w1       5      v            0 to 31              every one        720
 *
 * Answers of the five ncc_pack_...
 *   0  out is filled
 *   1  a wrong length; place NCC_COEFFICIENTS (values, 1152) or NCC_PACKED (out), the first of these that is wrong
 *   4  (t1, t0, s, w1) or
 *   5  (z) a value is outside its range; place NCC_T1, NCC_T0, NCC_S, NCC_W1 or NCC_Z, and the lowest index of such a value
 * At 1, 4 and 5 out is as it was.
 */
uint64_t ncc_pack_t1(const int32_t *values, size_t values_len, uint8_t *out, size_t out_len);
uint64_t ncc_pack_t0(const int32_t *values, size_t values_len, uint8_t *out, size_t out_len);
uint64_t ncc_pack_s(const int32_t *values, size_t values_len, uint8_t *out, size_t out_len);
uint64_t ncc_pack_z(const int32_t *values, size_t values_len, uint8_t *out, size_t out_len);
uint64_t ncc_pack_w1(const int32_t *values, size_t values_len, uint8_t *out, size_t out_len);

/* Answers of the five ncc_unpack_...
 *   0  out is filled
 *   1  a wrong length; place NCC_PACKED (packed) or NCC_COEFFICIENTS (out, 1152), the first of these that is wrong
 *   4  (t1, s) or
 *   5  (z) a code is outside its range; place NCC_T1, NCC_S or NCC_Z, and the lowest index of such a code. t0 and w1 take
 *      every code, so only 1 can refuse them
 * At 1, 4 and 5 out is as it was.
 */
uint64_t ncc_unpack_t1(const uint8_t *packed, size_t packed_len, int32_t *out, size_t out_len);
uint64_t ncc_unpack_t0(const uint8_t *packed, size_t packed_len, int32_t *out, size_t out_len);
uint64_t ncc_unpack_s(const uint8_t *packed, size_t packed_len, int32_t *out, size_t out_len);
uint64_t ncc_unpack_z(const uint8_t *packed, size_t packed_len, int32_t *out, size_t out_len);
uint64_t ncc_unpack_w1(const uint8_t *packed, size_t packed_len, int32_t *out, size_t out_len);

#ifdef __cplusplus
}
#endif

#endif
