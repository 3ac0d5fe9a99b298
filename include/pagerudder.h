/*
 * Pagerudder, the campus key server (a BSF of 3GPP TS 33.220), for C and C++: the functions of the static library that
 * `rt staticlib exports` writes to target/staticlib/libexports.a, for Linux on x86-64. Each is proved to do what its
 * contract in crates/exports/src/lib.rt says.
 *
 * The library has no memory of its own, allocates nothing, reads and writes nothing but what it is lent, and calls
 * nothing but memcpy. docs/GUIDE.md says how events and answers are laid out, and docs/REFUSALS.md what to do about a
 * refusal.
 *
 * What the caller owes, and no proof can see:
 *   - A pointer is good for the count that comes after it. With a count of 0 any pointer will do, NULL too. `state` is
 *     never NULL.
 *   - State, inputs and buffer do not overlap.
 *   - One call at a time on one state. Calls on different states may run at once.
 *   - A bool is 0 or 1.
 *   - A pr_state is zero-filled, or was written by these functions and is unchanged since. It may be copied.
 *   - PR_STACK octets of stack are left.
 *   - A restart number is never used twice for a server whose replies may still arrive.
 */
#ifndef PAGERUDDER_H
#define PAGERUDDER_H

#include <stdbool.h>
#include <stddef.h>
#include <stdint.h>

#ifdef __cplusplus
extern "C" {
#endif

/* What a function returns as `no`: 0, or the number of a refusal. A refusal writes nothing and changes nothing. */
enum {
    PR_ANSWERED = 0,
    PR_NOT_OPEN = 1,
    PR_SHORT = 2,
    PR_FORM = 3,
    PR_CLOCK = 4,
    PR_SPENT = 5,
    PR_NO_RUN = 6,
    PR_STALE = 7,
    PR_TWICE = 8,
    PR_OTHER = 9,
    PR_NO_COPY = 10,
    PR_RAND_SEEN = 11,
    PR_EARLY = 12,
    PR_NO_SESSION = 13,
    PR_NOT_YOURS = 14,
    PR_NO_BTID = 15,
    PR_POLICY = 16
};

enum {
    PR_NAME = 64,               /* the most octets of a name */
    PR_ROWS = 16,               /* the rows of a pr_shelf */
    PR_ROOM = 160,              /* the shortest buffer for an answer */
    PR_ANSWER = 148,            /* the longest answer */
    PR_BODY = 512,              /* the longest event that pr_serve takes */
    PR_LINE = 364,              /* the room that pr_serve wants for a line */
    PR_DIGEST = 32,             /* the octets of SHA-256 and of HMAC */
    PR_MESSAGE = 1048576,       /* the longest message and the longest key of HMAC */
    PR_PARAMETERS = 8,          /* the most parameters of a KDF string */
    PR_PARAMETER = 65535,       /* the longest of them */
    PR_STACK = 524288           /* the stack that a caller keeps free; pr_event uses 8 KiB of it */
};

/* The state of one server: runs, sessions and their keys. Zero-filled it is closed: every event on it is NOT OPEN. */
typedef struct pr_state {
    uint64_t opaque[4654];
} pr_state;

/* A name: its octets, and its length. One of length 0 or above 64 matches nothing. */
typedef struct pr_name {
    uint8_t octets[PR_NAME];
    size_t len;
} pr_name;

/* A row of the shelf table: for this peer and this FQDN, whether the IMPI is handed out, the group of the settings
   entry, and the application that is required (0: none). The first row with the peer and the FQDN of a KEY counts. */
typedef struct pr_row {
    pr_name peer;
    pr_name fqdn;
    bool identity;
    uint8_t group;
    uint32_t required;
} pr_row;

/* The shelf table of pr_serve: the first `count` rows. A count above 16 is taken as 16. */
typedef struct pr_shelf {
    pr_row rows[PR_ROWS];
    size_t count;
} pr_shelf;

/* 0 and the length of what stands at the front of the buffer; or the number of a refusal, and 0. */
typedef struct pr_reply {
    uint32_t no;
    size_t len;
} pr_reply;

/* How far pr_serve went. */
typedef struct pr_progress {
    uint32_t no;    /* 0 more input is wanted, PR_SHORT no room for another line, PR_FORM no event stands there */
    size_t len;     /* the octets of the lines */
    size_t at;      /* where in the input the first event that is left starts */
    uint64_t place; /* its place */
} pr_progress;

#ifdef __cplusplus
#define PR_LAID static_assert
#else
#define PR_LAID _Static_assert
#endif
PR_LAID(sizeof(pr_state) == 37232 && sizeof(pr_name) == 72 && sizeof(pr_row) == 152, "laid out as the library's");
PR_LAID(sizeof(pr_shelf) == 2440 && sizeof(pr_reply) == 16 && sizeof(pr_progress) == 32, "laid out as the library's");
#undef PR_LAID

/* Opens a server: writes a fresh state, whatever was there, and returns 0. With a domain not of 1 to 64 octets, a
   restart above 4,294,967,295 or a default lifetime not of 60 to 604,800 seconds it writes the closed state and returns
   PR_NOT_OPEN. */
uint32_t pr_open(pr_state *state, const uint8_t *domain, size_t domain_len, uint64_t restart, uint64_t lifetime);

/* One event, START to KEY: writes the answer to the front of `out` and the next state to `state`. It takes any number
   of rows; only a KEY reads them. */
pr_reply pr_event(pr_state *state, const pr_row *rows, size_t row_count, const uint8_t *body, size_t body_len,
                  uint8_t *out, size_t out_len);

/* The events at the front of `input`, each after its body length as a number, one after another, and a line of text in
   `out` for each, as the event program prints it; `first` is the place of the first. It goes on while PR_LINE octets of
   `out` are free and an event is whole; call again with the rest of the input. What stands where an event should and is
   none has its line, and ends the batch with PR_FORM. A `first` that with the length of the input passes 64 bits is
   refused with PR_FORM and no line, and nothing changes. */
pr_progress pr_serve(pr_state *state, pr_shelf shelf, uint64_t first, const uint8_t *input, size_t input_len,
                     uint8_t *out, size_t out_len);

/* SHA-256 (FIPS 180-4). Refused: PR_FORM above PR_MESSAGE octets, then PR_SHORT for a buffer below PR_DIGEST. */
pr_reply pr_sha256(const uint8_t *message, size_t message_len, uint8_t *out, size_t out_len);

/* HMAC (RFC 2104) with SHA-256. Refused as pr_sha256, for key and text. */
pr_reply pr_hmac(const uint8_t *key, size_t key_len, const uint8_t *text, size_t text_len, uint8_t *out,
                 size_t out_len);

/* The string of a key derivation (33.220 B.2.0): FC, then each parameter and its length. The parameters stand one after
   another in `run`, and `lens` has their lengths. Refused: PR_FORM for more than 8 parameters, one above 65,535 octets,
   or lengths that do not sum to the run; then PR_SHORT for a buffer too short for the string. */
pr_reply pr_kdf(uint8_t fc, const uint8_t *run, size_t run_len, const size_t *lens, size_t len_count, uint8_t *out,
                size_t out_len);

#ifdef __cplusplus
}
#endif

#endif
