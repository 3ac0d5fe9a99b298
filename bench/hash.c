/* Times the proved SHA-256 and HMAC beside plain C's and OpenSSL's, in one process and by turns, and prints a line for each:
   who, ns for 1 MiB, ns for 64 octets, ns for an HMAC of 100 octets under a key of 32. The best of many turns counts. */
#include <openssl/evp.h>
#include <openssl/params.h>
#include <openssl/core_names.h>
#include <stdint.h>
#include <stdio.h>
#include <stdlib.h>
#include <string.h>
#include <time.h>

typedef struct { uint32_t no; size_t len; } Reply;
Reply pr_sha256(const uint8_t *m, size_t n, uint8_t *out, size_t room);
Reply pr_hmac(const uint8_t *key, size_t nk, const uint8_t *text, size_t n, uint8_t *out, size_t room);
void gcc_sha256(const uint8_t *m, size_t n, uint8_t *out);
void gcc_hmac(const uint8_t *key, size_t nk, const uint8_t *text, size_t n, uint8_t *out);
#ifdef CLANG
void clang_sha256(const uint8_t *m, size_t n, uint8_t *out);
void clang_hmac(const uint8_t *key, size_t nk, const uint8_t *text, size_t n, uint8_t *out);
#endif

static void rattle_sha256(const uint8_t *m, size_t n, uint8_t *out) { pr_sha256(m, n, out, 32); }
static void rattle_hmac(const uint8_t *k, size_t nk, const uint8_t *t, size_t n, uint8_t *out) { pr_hmac(k, nk, t, n, out, 32); }

static EVP_MD *md;
static EVP_MD_CTX *mdctx;
static EVP_MAC_CTX *macctx;
static void openssl_sha256(const uint8_t *m, size_t n, uint8_t *out) {
    EVP_DigestInit_ex2(mdctx, md, NULL);
    EVP_DigestUpdate(mdctx, m, n);
    EVP_DigestFinal_ex(mdctx, out, NULL);
}
static void openssl_hmac(const uint8_t *k, size_t nk, const uint8_t *t, size_t n, uint8_t *out) {
    size_t got;
    EVP_MAC_init(macctx, k, nk, NULL);
    EVP_MAC_update(macctx, t, n);
    EVP_MAC_final(macctx, out, &got, 32);
}

static struct {
    const char *who;
    void (*sha256)(const uint8_t *, size_t, uint8_t *);
    void (*hmac)(const uint8_t *, size_t, const uint8_t *, size_t, uint8_t *);
    double best[3];
} all[] = {
    {"rattle", rattle_sha256, rattle_hmac, {0}},
    {"gcc", gcc_sha256, gcc_hmac, {0}},
#ifdef CLANG
    {"clang", clang_sha256, clang_hmac, {0}},
#endif
    {"openssl", openssl_sha256, openssl_hmac, {0}},
};
enum { ALL = sizeof all / sizeof *all, MIB = 1 << 20 };

static double now(void) {
    struct timespec t;
    clock_gettime(CLOCK_MONOTONIC, &t);
    return t.tv_sec * 1e9 + t.tv_nsec;
}

static void least(double *best, double x) {
    if (*best == 0 || x < *best) *best = x;
}

int main(int argc, char **argv) {
    int turns = argc > 1 ? atoi(argv[1]) : 20;
    md = EVP_MD_fetch(NULL, "SHA256", NULL);
    mdctx = EVP_MD_CTX_new();
    EVP_MAC *mac = EVP_MAC_fetch(NULL, "HMAC", NULL);
    macctx = EVP_MAC_CTX_new(mac);
    OSSL_PARAM params[] = {OSSL_PARAM_utf8_string(OSSL_MAC_PARAM_DIGEST, "SHA256", 0), OSSL_PARAM_END};
    EVP_MAC_CTX_set_params(macctx, params);

    uint8_t *m = malloc(MIB), out[32], same[32];
    for (int i = 0; i < MIB; i++) m[i] = (uint8_t)(i * 131 + (i >> 8) * 17 + 5);

    /* all agree, or there is nothing to measure */
    for (size_t n = 0; n < 300; n++)
        for (int w = 0; w < ALL; w++) {
            all[w].sha256(m, n == 299 ? MIB : n, out);
            if (w && memcmp(out, same, 32)) return printf("%s differs\n", all[w].who), 1;
            memcpy(same, out, 32);
        }
    for (size_t n = 1; n < 300; n++)
        for (int w = 0; w < ALL; w++) {
            all[w].hmac(m + 7, n % 150 + 1, m, n, out);
            if (w && memcmp(out, same, 32)) return printf("%s differs\n", all[w].who), 1;
            memcpy(same, out, 32);
        }

    for (int i = 0; i < turns; i++)
        for (int w = 0; w < ALL; w++) {
            double a = now();
            all[w].sha256(m, MIB, out);
            double b = now();
            for (int j = 0; j < 2000; j++) all[w].sha256(m + j, 64, out);
            double c = now();
            for (int j = 0; j < 1000; j++) all[w].hmac(m + j, 32, m + j + 32, 100, out);
            double d = now();
            least(&all[w].best[0], b - a);
            least(&all[w].best[1], (c - b) / 2000);
            least(&all[w].best[2], (d - c) / 1000);
        }
    for (int w = 0; w < ALL; w++) printf("%s %.0f %.1f %.1f\n", all[w].who, all[w].best[0], all[w].best[1], all[w].best[2]);
    return 0;
}
