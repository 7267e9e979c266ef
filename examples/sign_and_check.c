/* Makes keys from two fixed seeds, signs an event file, checks it, flips a bit and checks again.
 *
 * Build, from the repository's root, once `rt lib` in crates/ncc_c has written the archive:
 *
 *     mkdir -p target
 *     gcc -O2 -Iinclude -o target/sign_and_check examples/sign_and_check.c crates/ncc_c/out/libncc_c.a
 *
 * Run:
 *
 *     target/sign_and_check examples/event.csv
 *
 * The exit status is 0 if each call answers what this file says it must.
 */
#include "ncc_sign.h"

#include <stdio.h>
#include <stdlib.h>

static uint8_t public_key[NCC_PUBLIC_KEY_BYTES];
static uint8_t secret_key[NCC_SECRET_KEY_BYTES];
static uint8_t signature[NCC_SIGNATURE_BYTES];
/* One byte more than a message may have, so that a longer file shows. The library then refuses it. */
static uint8_t event[NCC_MESSAGE_MAX + 1];

static const char *number_in_words(uint64_t answer)
{
    switch (NCC_NUMBER(answer)) {
    case NCC_DONE: return "done";
    case NCC_BAD_LENGTH: return "a buffer has the wrong length";
    case NCC_LONG_MESSAGE: return "the message is longer than 32768 bytes";
    case NCC_BAD_LIMIT: return "the try limit is not within 1 to 1000";
    case NCC_BAD_VALUE: return "a key holds a code outside its range";
    case NCC_BAD_Z: return "the signature holds a code of z outside its range";
    case NCC_BAD_HINT: return "the signature has more than 80 hint ones";
    case NCC_DRY_STREAM: return "a stream ran dry";
    case NCC_TRIES_SPENT: return "every try failed";
    case NCC_REJECTED: return "not a signature of this message under this key";
    default: return "a number that this program does not know";
    }
}

static const char *place_in_words(uint64_t answer)
{
    switch (NCC_PLACE(answer)) {
    case NCC_PUBLIC_KEY: return "the public key";
    case NCC_SECRET_KEY: return "the secret key";
    case NCC_ZETA: return "the seed zeta";
    case NCC_ZETA_PRIME: return "the seed zeta'";
    case NCC_SIGNATURE: return "the signature";
    case NCC_T1: return "t1 of the public key";
    case NCC_S1: return "s1 of the secret key";
    case NCC_S2: return "s2 of the secret key";
    case NCC_Z: return "z of the signature";
    default: return NULL;
    }
}

/* Says what a call answered, and ends the program if it is not the number that was expected. */
static void say(const char *what, uint64_t answer, uint32_t expected)
{
    printf("%s: %u, %s", what, (unsigned)NCC_NUMBER(answer), number_in_words(answer));
    if (place_in_words(answer))
        printf("; %s", place_in_words(answer));
    if (NCC_NUMBER(answer) == NCC_BAD_VALUE || NCC_NUMBER(answer) == NCC_BAD_Z)
        printf(", index %u", (unsigned)NCC_INDEX(answer));
    if (NCC_TRIES(answer))
        printf("; tries: %u", (unsigned)NCC_TRIES(answer));
    printf("\n");
    if (NCC_NUMBER(answer) != expected) {
        fprintf(stderr, "sign_and_check: %s: expected number %u\n", what, (unsigned)expected);
        exit(1);
    }
}

int main(int count, char **arguments)
{
    /* A real recorder draws both seeds from its source of randomness and keeps zeta' secret. */
    uint8_t zeta[NCC_SEED_BYTES], zeta_prime[NCC_SEED_BYTES];
    for (unsigned i = 0; i < NCC_SEED_BYTES; i++) {
        zeta[i] = (uint8_t)i;
        zeta_prime[i] = (uint8_t)(100 + i);
    }

    if (count != 2) {
        fprintf(stderr, "usage: sign_and_check EVENT-FILE\n");
        return 2;
    }
    FILE *file = fopen(arguments[1], "rb");
    if (!file) {
        fprintf(stderr, "sign_and_check: can't open %s\n", arguments[1]);
        return 2;
    }
    size_t length = fread(event, 1, sizeof event, file);
    if (ferror(file) || length == 0) {
        fprintf(stderr, "sign_and_check: can't read %s, or it is empty\n", arguments[1]);
        return 2;
    }
    fclose(file);

    say("make keys", ncc_make_keys(zeta, sizeof zeta, zeta_prime, sizeof zeta_prime,
                                   public_key, sizeof public_key, secret_key, sizeof secret_key), NCC_DONE);

    say("sign the event", ncc_sign(secret_key, sizeof secret_key, event, length, NCC_LIMIT_MAX,
                                   signature, sizeof signature), NCC_DONE);
    say("check it", ncc_check(public_key, sizeof public_key, signature, sizeof signature, event, length), NCC_DONE);

    event[length / 2] ^= 0x10;
    say("check with one bit of the event flipped",
        ncc_check(public_key, sizeof public_key, signature, sizeof signature, event, length), NCC_REJECTED);
    event[length / 2] ^= 0x10;

    signature[0] ^= 0x01;
    say("check with one bit of the signature flipped",
        ncc_check(public_key, sizeof public_key, signature, sizeof signature, event, length), NCC_REJECTED);
    signature[0] ^= 0x01;

    say("check a signature that is cut short",
        ncc_check(public_key, sizeof public_key, signature, sizeof signature - 1, event, length), NCC_BAD_LENGTH);

    say("check it again, whole",
        ncc_check(public_key, sizeof public_key, signature, sizeof signature, event, length), NCC_DONE);
    return 0;
}
