/* Events as they are written, and numbers of answers as they are read. */
#ifndef LINE_H
#define LINE_H

#include "pagerudder.h"

#include <string.h>

typedef struct {
    uint8_t octets[PR_BODY];
    size_t len;
} event;

static inline void put_octets(event *e, const void *octets, size_t len)
{
    memcpy(e->octets + e->len, octets, len);
    e->len += len;
}

static inline void put_octet(event *e, uint8_t octet)
{
    put_octets(e, &octet, 1);
}

/* Groups of seven bits, lowest first; all octets but the last have the top bit set. */
static inline void put_number(event *e, uint64_t n)
{
    while (n >= 128) {
        put_octet(e, (uint8_t)(n % 128 + 128));
        n /= 128;
    }
    put_octet(e, (uint8_t)n);
}

static inline void put_text(event *e, const void *octets, size_t len)
{
    put_number(e, len);
    put_octets(e, octets, len);
}

/* Reads a number, and steps over it. */
static inline uint64_t get_number(const uint8_t **at)
{
    uint64_t n = 0;
    unsigned shift = 0;
    while (**at >= 128) {
        n += (uint64_t)(*(*at)++ - 128) << shift;
        shift += 7;
    }
    return n + ((uint64_t)*(*at)++ << shift);
}

#endif
