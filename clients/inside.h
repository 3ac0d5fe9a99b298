/* A pr_state from inside, for the tests: the structs of crates/tables and crates/records. */
#ifndef INSIDE_H
#define INSIDE_H

#include "pagerudder.h"

typedef struct {
    uint64_t application;
    uint8_t group;
    uint8_t flags[4];
    uint8_t user[32];
    size_t len;
} entry;

typedef struct {
    uint32_t lifetime;
    uint64_t timestamp;
    entry entries[4];
} settings;

typedef struct {
    uint64_t number;
    uint64_t start;
    pr_name impi;
    bool challenged;
    uint8_t rand[16];
    uint8_t xres[16];
    size_t xlen;
    uint8_t ks[32];
    settings settings;
} run;

typedef struct {
    uint8_t ks[32];
    uint8_t rand[16];
    pr_name impi;
    uint64_t start;
    uint64_t expiry;
    settings settings;
} session;

typedef struct {
    bool ready;
    pr_name domain;
    uint64_t restart;
    uint32_t lifetime;
    uint64_t clock;
    uint64_t last;
    run runs[32];
    session sessions[64];
} state;

#endif
