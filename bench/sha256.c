/* SHA-256 and HMAC in plain C, of the same shape as crates/sha256_block, sha256 and hmac: what the proved code is measured against.
   NAME(x) is the name of x in this build, so that the files of two compilers link into one program. */
#include <stddef.h>
#include <stdint.h>
#include <string.h>

typedef struct { uint32_t a, b, c, d, e, f, g, h; } Hash;

static const uint32_t K[64] = {
    0x428a2f98, 0x71374491, 0xb5c0fbcf, 0xe9b5dba5, 0x3956c25b, 0x59f111f1, 0x923f82a4, 0xab1c5ed5,
    0xd807aa98, 0x12835b01, 0x243185be, 0x550c7dc3, 0x72be5d74, 0x80deb1fe, 0x9bdc06a7, 0xc19bf174,
    0xe49b69c1, 0xefbe4786, 0x0fc19dc6, 0x240ca1cc, 0x2de92c6f, 0x4a7484aa, 0x5cb0a9dc, 0x76f988da,
    0x983e5152, 0xa831c66d, 0xb00327c8, 0xbf597fc7, 0xc6e00bf3, 0xd5a79147, 0x06ca6351, 0x14292967,
    0x27b70a85, 0x2e1b2138, 0x4d2c6dfc, 0x53380d13, 0x650a7354, 0x766a0abb, 0x81c2c92e, 0x92722c85,
    0xa2bfe8a1, 0xa81a664b, 0xc24b8b70, 0xc76c51a3, 0xd192e819, 0xd6990624, 0xf40e3585, 0x106aa070,
    0x19a4c116, 0x1e376c08, 0x2748774c, 0x34b0bcb5, 0x391c0cb3, 0x4ed8aa4a, 0x5b9cca4f, 0x682e6ff3,
    0x748f82ee, 0x78a5636f, 0x84c87814, 0x8cc70208, 0x90befffa, 0xa4506ceb, 0xbef9a3f7, 0xc67178f2,
};

static inline uint32_t rotr(uint32_t x, int n) { return x >> n | x << (32 - n); }
static inline uint32_t ch(uint32_t x, uint32_t y, uint32_t z) { return z ^ (x & (y ^ z)); }
static inline uint32_t maj(uint32_t x, uint32_t y, uint32_t z) { return (x & y) ^ (x & z) ^ (y & z); }
static inline uint32_t big0(uint32_t x) { return rotr(x, 2) ^ rotr(x, 13) ^ rotr(x, 22); }
static inline uint32_t big1(uint32_t x) { return rotr(x, 6) ^ rotr(x, 11) ^ rotr(x, 25); }
static inline uint32_t small0(uint32_t x) { return rotr(x, 7) ^ rotr(x, 18) ^ x >> 3; }
static inline uint32_t small1(uint32_t x) { return rotr(x, 17) ^ rotr(x, 19) ^ x >> 10; }

static inline uint32_t word(const uint8_t *b) {
    return (uint32_t)b[0] << 24 | (uint32_t)b[1] << 16 | (uint32_t)b[2] << 8 | b[3];
}

static inline Hash step(Hash s, uint32_t k, uint32_t w) {
    uint32_t t1 = s.h + big1(s.e) + ch(s.e, s.f, s.g) + k + w;
    uint32_t t2 = big0(s.a) + maj(s.a, s.b, s.c);
    return (Hash){t1 + t2, s.a, s.b, s.c, s.d + t1, s.e, s.f, s.g};
}

static Hash compress(Hash x, const uint8_t *b) {
    uint32_t w[64];
    for (int t = 0; t < 16; t++) w[t] = word(b + 4 * t);
    for (int t = 16; t < 64; t += 8)
        for (int j = t; j < t + 8; j++) w[j] = small1(w[j - 2]) + w[j - 7] + small0(w[j - 15]) + w[j - 16];
    Hash s = x;
    for (int t = 0; t < 64; t += 8)
        for (int j = 0; j < 8; j++) s = step(s, K[t + j], w[t + j]);
    return (Hash){x.a + s.a, x.b + s.b, x.c + s.c, x.d + s.d, x.e + s.e, x.f + s.f, x.g + s.g, x.h + s.h};
}

static Hash finish(Hash x, size_t before, const uint8_t *m, size_t n) {
    size_t at = 0;
    for (; at + 64 <= n; at += 64) x = compress(x, m + at);
    uint8_t b[128] = {0};
    size_t rest = n - at, end = rest < 56 ? 64 : 128;
    if (rest) memcpy(b, m + at, rest);
    b[rest] = 0x80;
    uint64_t bits = 8 * (uint64_t)(before + n);
    for (int i = 0; i < 8; i++) b[end - 1 - i] = (uint8_t)(bits >> (8 * i));
    for (size_t i = 0; i < end; i += 64) x = compress(x, b + i);
    return x;
}

static void put(uint8_t *out, uint32_t x) {
    out[0] = x >> 24;
    out[1] = x >> 16;
    out[2] = x >> 8;
    out[3] = x;
}

static void digest(Hash x, uint8_t *out) {
    uint32_t w[8] = {x.a, x.b, x.c, x.d, x.e, x.f, x.g, x.h};
    for (int i = 0; i < 8; i++) put(out + 4 * i, w[i]);
}

static const Hash START = {0x6a09e667, 0xbb67ae85, 0x3c6ef372, 0xa54ff53a, 0x510e527f, 0x9b05688c, 0x1f83d9ab, 0x5be0cd19};

void NAME(sha256)(const uint8_t *m, size_t n, uint8_t *out) { digest(finish(START, 0, m, n), out); }

static void masked(const uint8_t *k, uint8_t v, uint8_t *r) {
    for (int i = 0; i < 64; i++) r[i] = k[i] ^ v;
}

void NAME(hmac)(const uint8_t *key, size_t nk, const uint8_t *text, size_t n, uint8_t *out) {
    uint8_t k[64] = {0}, b[64], inner[32];
    if (nk > 64) NAME(sha256)(key, nk, k);
    else memcpy(k, key, nk);
    masked(k, 0x36, b);
    digest(finish(compress(START, b), 64, text, n), inner);
    masked(k, 0x5c, b);
    digest(finish(compress(START, b), 64, inner, 32), out);
}
