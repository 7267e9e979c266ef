/* The most stack that each call uses: each runs in a thread of its own, on a stack that was painted before. */
#define _POSIX_C_SOURCE 200809L
#define _DEFAULT_SOURCE
#include "ncc_sign.h"
#include <pthread.h>
#include <stdio.h>
#include <stdlib.h>
#include <string.h>
#include <sys/mman.h>

enum { STACK = 1 << 20, WORDS = STACK / 8 };

static uint64_t *stack;
static uintptr_t frame;
static uint64_t answer;

static void die(const char *why)
{
    fprintf(stderr, "memory: %s\n", why);
    exit(1);
}

/* A word of paint depends on its place, so that no content that a call writes looks like it. */
static uint64_t paint(size_t place)
{
    return (place + 1) * 0x9e3779b97f4a7c15u;
}

static void *run(void *call)
{
    frame = (uintptr_t)__builtin_frame_address(0);
    answer = 0; /* for the calls that can't refuse */
    ((void (*)(void))call)();
    return NULL;
}

/* Bytes from the frame of `run` down to the lowest word that the call changed. */
static size_t used(void (*call)(void))
{
    pthread_attr_t attributes;
    pthread_t thread;
    for (size_t i = 0; i < WORDS; i++)
        stack[i] = paint(i);
    if (pthread_attr_init(&attributes) || pthread_attr_setstack(&attributes, stack, STACK) ||
        pthread_create(&thread, &attributes, run, (void *)call) || pthread_join(thread, NULL))
        die("no thread");
    pthread_attr_destroy(&attributes);
    size_t lowest = 0;
    while (lowest < WORDS && stack[lowest] == paint(lowest))
        lowest++;
    if (lowest == 0)
        die("the stack was too small");
    return frame - (uintptr_t)(stack + lowest);
}

static uint8_t zeta[NCC_SEED_BYTES] = {1}, zeta_prime[NCC_SEED_BYTES] = {2};
static uint8_t public_key[NCC_PUBLIC_KEY_BYTES], secret_key[NCC_SECRET_KEY_BYTES], signature[NCC_SIGNATURE_BYTES];
static uint8_t other_key[NCC_PUBLIC_KEY_BYTES], message[NCC_MESSAGE_MAX], packed[NCC_Z_BYTES], hash[NCC_A_STREAM_BYTES];
static int32_t first[NCC_N], second[NCC_N], out[NCC_N];
static uint32_t high;
/* Which of several inputs a call gets. */
static int turn;
enum { TURNS = 12 };

static void nothing(void) {}

static void make_keys(void)
{
    zeta[0] = (uint8_t)turn;
    answer = ncc_make_keys(zeta, sizeof zeta, zeta_prime, turn == 1 ? 0 : sizeof zeta_prime, public_key, sizeof public_key,
                           secret_key, sizeof secret_key);
}

static void sign(void)
{
    static const size_t lengths[4] = {0, 100, 5000, NCC_MESSAGE_MAX};
    message[0] = (uint8_t)turn;
    answer = ncc_sign(secret_key, sizeof secret_key, message, lengths[turn % 4], turn == 5 ? 0 : NCC_LIMIT_MAX, signature,
                      sizeof signature);
}

static void check(void)
{
    answer = ncc_check(turn == 3 ? other_key : public_key, sizeof public_key, signature, sizeof signature, message,
                       turn == 2 ? 7 : sizeof message);
}

static void shake256(void) { answer = ncc_shake256(message, (size_t)(turn * 1000), hash, turn ? sizeof hash : 0); }
static void product(void) { answer = ncc_product(first, NCC_N, second, NCC_N, out, turn == 1 ? 3 : NCC_N); }
static void high_bits(void) { high = ncc_high_bits(first[turn]); }
static void low_bits(void) { out[0] = ncc_low_bits(first[turn]); }
static void make_hint(void) { high = ncc_make_hint(first[turn], second[turn]); }
static void use_hint(void) { answer = ncc_use_hint((uint32_t)turn, first[turn], &high); }
static void power2_high(void) { high = ncc_power2_high(first[turn]); }
static void power2_low(void) { out[0] = ncc_power2_low(first[turn]); }
static void sample_a(void) { answer = ncc_sample_a(hash, turn == 1 ? 99 : sizeof hash, out, NCC_N); }
static void sample_s(void) { answer = ncc_sample_s(hash, turn == 1 ? 9 : NCC_S_STREAM_BYTES, out, NCC_N); }
static void sample_challenge(void)
{
    answer = ncc_sample_challenge(hash, turn == 1 ? 9 : NCC_CHALLENGE_STREAM_BYTES, out, NCC_N);
}

/* Small values fit every layout; at turn 1 the last one is out of range. */
#define PACKING(name, bytes)                                                         \
    static void pack_##name(void)                                                    \
    {                                                                                \
        for (int i = 0; i < NCC_N; i++)                                              \
            first[i] = i % 2;                                                        \
        if (turn == 1)                                                               \
            first[NCC_N - 1] = 1 << 30;                                              \
        answer = ncc_pack_##name(first, NCC_N, packed, bytes);                       \
    }                                                                                \
    static void unpack_##name(void)                                                  \
    {                                                                                \
        memset(packed, turn == 1 ? 0xff : 0x55, sizeof packed);                      \
        answer = ncc_unpack_##name(packed, bytes, out, NCC_N);                       \
    }
PACKING(t1, NCC_T1_BYTES)
PACKING(t0, NCC_T0_BYTES)
PACKING(s, NCC_S_BYTES)
PACKING(z, NCC_Z_BYTES)
PACKING(w1, NCC_W1_BYTES)

static const struct {
    const char *name;
    void (*call)(void);
} calls[] = {
#define CALL(name) {"ncc_" #name, name}
    CALL(make_keys), CALL(sign), CALL(check), CALL(shake256), CALL(product), CALL(high_bits), CALL(low_bits), CALL(make_hint),
    CALL(use_hint), CALL(power2_high), CALL(power2_low), CALL(sample_a), CALL(sample_s), CALL(sample_challenge), CALL(pack_t1),
    CALL(unpack_t1), CALL(pack_t0), CALL(unpack_t0), CALL(pack_s), CALL(unpack_s), CALL(pack_z), CALL(unpack_z), CALL(pack_w1),
    CALL(unpack_w1),
};

/* A line for each call: its name and its bytes. */
int main(void)
{
    stack = mmap(NULL, STACK, PROT_READ | PROT_WRITE, MAP_PRIVATE | MAP_ANONYMOUS, -1, 0);
    if (stack == MAP_FAILED)
        die("no memory");
    if (used(nothing) > 1024)
        die("an empty call seems to use more than 1,024 bytes: the measurement is not to be trusted");
    for (size_t i = 0; i < sizeof calls / sizeof calls[0]; i++) {
        size_t most = 0, now;
        int done = 0;
        for (int i = 0; i < NCC_N; i++) {
            first[i] = i * 7297 % NCC_Q;
            second[i] = -i * 1231;
        }
        for (turn = 0; turn < TURNS; turn++) {
            now = used(calls[i].call);
            most = now > most ? now : most;
            done += NCC_NUMBER(answer) == NCC_DONE;
        }
        if (!done)
            die("a call was never done");
        printf("%s %zu\n", calls[i].name, most);
    }
    return 0;
}
