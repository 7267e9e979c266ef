/* Keccak-f[1600] in plain C, twice: unrolled, with a local variable for each lane, and compact, over tables. */
#include "plain.h"

#define ROL(x, n) ((x) << (n) | (x) >> (64 - (n)))

static const uint64_t RC[24] = {
    0x0000000000000001, 0x0000000000008082, 0x800000000000808a, 0x8000000080008000, 0x000000000000808b, 0x0000000080000001,
    0x8000000080008081, 0x8000000000008009, 0x000000000000008a, 0x0000000000000088, 0x0000000080008009, 0x000000008000000a,
    0x000000008000808b, 0x800000000000008b, 0x8000000000008089, 0x8000000000008003, 0x8000000000008002, 0x8000000000000080,
    0x000000000000800a, 0x800000008000000a, 0x8000000080008081, 0x8000000000008080, 0x0000000080000001, 0x8000000080008008,
};

/* a row of E from five turned lanes of A; y names the row of E, the lanes are named by place and row */
#define ROW(E, y, l0, d0, n0, l1, d1, n1, l2, d2, n2, l3, d3, n3, l4, d4, n4) \
    do {                                                                       \
        uint64_t b0 = (l0) ^ (d0), b1 = (l1) ^ (d1), b2 = (l2) ^ (d2), b3 = (l3) ^ (d3), b4 = (l4) ^ (d4); \
        if (n0) b0 = ROL(b0, (n0) ? (n0) : 1);                                 \
        b1 = ROL(b1, n1);                                                      \
        b2 = ROL(b2, n2);                                                      \
        b3 = ROL(b3, n3);                                                      \
        b4 = ROL(b4, n4);                                                      \
        E##0##y = b0 ^ (~b1 & b2);                                             \
        E##1##y = b1 ^ (~b2 & b3);                                             \
        E##2##y = b2 ^ (~b3 & b4);                                             \
        E##3##y = b3 ^ (~b4 & b0);                                             \
        E##4##y = b4 ^ (~b0 & b1);                                             \
    } while (0)

#define ROUND(A, E, rc)                                                        \
    do {                                                                       \
        uint64_t c0 = A##00 ^ A##01 ^ A##02 ^ A##03 ^ A##04;                   \
        uint64_t c1 = A##10 ^ A##11 ^ A##12 ^ A##13 ^ A##14;                   \
        uint64_t c2 = A##20 ^ A##21 ^ A##22 ^ A##23 ^ A##24;                   \
        uint64_t c3 = A##30 ^ A##31 ^ A##32 ^ A##33 ^ A##34;                   \
        uint64_t c4 = A##40 ^ A##41 ^ A##42 ^ A##43 ^ A##44;                   \
        uint64_t d0 = c4 ^ ROL(c1, 1), d1 = c0 ^ ROL(c2, 1), d2 = c1 ^ ROL(c3, 1), d3 = c2 ^ ROL(c4, 1), d4 = c3 ^ ROL(c0, 1); \
        ROW(E, 0, A##00, d0, 0, A##11, d1, 44, A##22, d2, 43, A##33, d3, 21, A##44, d4, 14);  \
        E##00 ^= (rc);                                                         \
        ROW(E, 1, A##30, d3, 28, A##41, d4, 20, A##02, d0, 3, A##13, d1, 45, A##24, d2, 61);  \
        ROW(E, 2, A##10, d1, 1, A##21, d2, 6, A##32, d3, 25, A##43, d4, 8, A##04, d0, 18);    \
        ROW(E, 3, A##40, d4, 27, A##01, d0, 36, A##12, d1, 10, A##23, d2, 15, A##34, d3, 56); \
        ROW(E, 4, A##20, d2, 62, A##31, d3, 55, A##42, d4, 39, A##03, d0, 41, A##14, d1, 2);  \
    } while (0)

void keccak_unrolled(uint64_t s[25])
{
    uint64_t a00 = s[0], a10 = s[1], a20 = s[2], a30 = s[3], a40 = s[4];
    uint64_t a01 = s[5], a11 = s[6], a21 = s[7], a31 = s[8], a41 = s[9];
    uint64_t a02 = s[10], a12 = s[11], a22 = s[12], a32 = s[13], a42 = s[14];
    uint64_t a03 = s[15], a13 = s[16], a23 = s[17], a33 = s[18], a43 = s[19];
    uint64_t a04 = s[20], a14 = s[21], a24 = s[22], a34 = s[23], a44 = s[24];
    uint64_t e00, e10, e20, e30, e40, e01, e11, e21, e31, e41, e02, e12, e22, e32, e42, e03, e13, e23, e33, e43, e04, e14, e24, e34, e44;
    for (int i = 0; i < 24; i += 2) {
        ROUND(a, e, RC[i]);
        ROUND(e, a, RC[i + 1]);
    }
    s[0] = a00, s[1] = a10, s[2] = a20, s[3] = a30, s[4] = a40;
    s[5] = a01, s[6] = a11, s[7] = a21, s[8] = a31, s[9] = a41;
    s[10] = a02, s[11] = a12, s[12] = a22, s[13] = a32, s[14] = a42;
    s[15] = a03, s[16] = a13, s[17] = a23, s[18] = a33, s[19] = a43;
    s[20] = a04, s[21] = a14, s[22] = a24, s[23] = a34, s[24] = a44;
}

void keccak_compact(uint64_t s[25])
{
    static const int turn[24] = {1, 3, 6, 10, 15, 21, 28, 36, 45, 55, 2, 14, 27, 41, 56, 8, 25, 43, 62, 18, 39, 61, 20, 44};
    static const int lane[24] = {10, 7, 11, 17, 18, 3, 5, 16, 8, 21, 24, 4, 15, 23, 19, 13, 12, 2, 20, 14, 22, 9, 6, 1};
    for (int r = 0; r < 24; r++) {
        uint64_t c[5];
        for (int x = 0; x < 5; x++)
            c[x] = s[x] ^ s[x + 5] ^ s[x + 10] ^ s[x + 15] ^ s[x + 20];
        for (int x = 0; x < 5; x++) {
            uint64_t d = c[(x + 4) % 5] ^ ROL(c[(x + 1) % 5], 1);
            for (int y = 0; y < 25; y += 5)
                s[y + x] ^= d;
        }
        uint64_t t = s[1];
        for (int i = 0; i < 24; i++) {
            uint64_t u = s[lane[i]];
            s[lane[i]] = ROL(t, turn[i]);
            t = u;
        }
        for (int y = 0; y < 25; y += 5) {
            for (int x = 0; x < 5; x++)
                c[x] = s[y + x];
            for (int x = 0; x < 5; x++)
                s[y + x] ^= ~c[(x + 1) % 5] & c[(x + 2) % 5];
        }
        s[0] ^= RC[r];
    }
}
