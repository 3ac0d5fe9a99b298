/*
 * Fields that the library writes are read from C, and fields that C writes are seen by the library: in rows, replies,
 * and a pr_state from inside. All of it on a thread with PR_STACK octets of stack. Prints what was not as it should be.
 */
#include "inside.h"
#include "line.h"
#include "pagerudder.h"

#include <pthread.h>
#include <stdio.h>
#include <string.h>

static int bad;

#define CHECK(what) ((what) ? (void)0 : (void)(bad++, printf("fields: line %d: %s\n", __LINE__, #what)))

static const uint8_t DOMAIN[] = "bsf.example";
static const uint8_t BTID[] = "AAECAwQFBgcICQoLDA0ODw==@bsf.example"; /* of the RAND 00..0f */

static union {
    pr_state lent;
    state inside;
} server, other;

static pr_shelf shelf;
static uint8_t out[2 * PR_LINE];

static pr_reply step(pr_state *state, const event *e)
{
    return pr_event(state, shelf.rows, shelf.count, e->octets, e->len, out, sizeof out);
}

/* The octets from, from + 1, .. */
static void count_up(uint8_t *octets, size_t len, uint8_t from)
{
    for (size_t i = 0; i < len; i++)
        octets[i] = (uint8_t)(from + i);
}

static bool counts_up(const uint8_t *octets, size_t len, uint8_t from)
{
    for (size_t i = 0; i < len; i++)
        if (octets[i] != (uint8_t)(from + i))
            return false;
    return true;
}

static bool zeros(const void *octets, size_t len)
{
    for (size_t i = 0; i < len; i++)
        if (((const uint8_t *)octets)[i] != 0)
            return false;
    return true;
}

static bool is_name(const pr_name *name, const char *octets)
{
    size_t len = strlen(octets);
    return name->len == len && memcmp(name->octets, octets, len) == 0 && zeros(name->octets + len, PR_NAME - len);
}

static pr_name name_of(const char *octets)
{
    pr_name name = {{0}, strlen(octets)};
    memcpy(name.octets, octets, name.len);
    return name;
}

static event start_at(uint64_t time)
{
    event e = {{1}, 1};
    put_number(&e, time);
    put_text(&e, "a@b", 3);
    return e;
}

/* RAND 00.., AUTN 10.., XRES 20.. (5 octets), CK 30.., IK 40.., settings with the entry of application 5, group 3. */
static event vector_at(uint64_t time)
{
    uint8_t octets[16];
    event e = {{2}, 1};
    put_number(&e, time);
    put_number(&e, 7);
    put_number(&e, 1);
    put_text(&e, "a@b", 3);
    count_up(octets, 16, 0x00), put_octets(&e, octets, 16);
    count_up(octets, 16, 0x10), put_octets(&e, octets, 16);
    count_up(octets, 16, 0x20), put_text(&e, octets, 5);
    count_up(octets, 16, 0x30), put_octets(&e, octets, 16);
    count_up(octets, 16, 0x40), put_octets(&e, octets, 16);
    put_octet(&e, 2);
    put_number(&e, 1000);
    put_number(&e, 77);
    put_number(&e, 1);
    put_number(&e, 5);
    put_number(&e, 3);
    put_octets(&e, "\x01\x02\x03\x04", 4);
    put_text(&e, "user", 4);
    return e;
}

static event response_at(uint64_t time, uint64_t restart, uint64_t number)
{
    uint8_t res[5];
    event e = {{3}, 1};
    put_number(&e, time);
    put_number(&e, restart);
    put_number(&e, number);
    count_up(res, 5, 0x20), put_text(&e, res, 5);
    return e;
}

static event key_at(uint64_t time)
{
    event e = {{5}, 1};
    put_number(&e, time);
    put_text(&e, "peer", 4);
    put_text(&e, BTID, strlen((const char *)BTID));
    put_text(&e, "fqdn\x01\x00\x00\x00\x02", 9);
    put_number(&e, 5);
    return e;
}

static bool are_settings(const settings *s)
{
    const entry *e = &s->entries[0];
    return s->lifetime == 1000 && s->timestamp == 77 && e->application == 5 && e->group == 3 &&
           memcmp(e->flags, "\x01\x02\x03\x04", 4) == 0 && memcmp(e->user, "user", 4) == 0 &&
           zeros(e->user + 4, 28) && e->len == 4 && s->entries[1].application == 0 && s->entries[3].len == 0;
}

static void closed(void)
{
    event e = start_at(100);
    memset(out, 0xa5, sizeof out);
    pr_reply reply = step(&server.lent, &e);
    CHECK(reply.no == PR_NOT_OPEN && reply.len == 0);
    CHECK(out[0] == 0xa5 && memcmp(out, out + 1, sizeof out - 1) == 0);
    CHECK(zeros(&server, sizeof server));
    CHECK(pr_open(&server.lent, NULL, 0, 7, 3600) == PR_NOT_OPEN);
    CHECK(!server.inside.ready);
    reply = pr_event(&server.lent, NULL, 0, NULL, 0, NULL, 0);
    CHECK(reply.no == PR_NOT_OPEN && reply.len == 0);
}

/* What the library writes is where C reads it. */
static void written(void)
{
    const state *s = &server.inside;
    memset(&server, 0x01, sizeof server);
    CHECK(pr_open(&server.lent, DOMAIN, sizeof DOMAIN - 1, 7, 3600) == PR_ANSWERED);
    CHECK(s->ready && is_name(&s->domain, "bsf.example") && s->restart == 7 && s->lifetime == 3600);
    CHECK(s->clock == 0 && s->last == 0 && s->runs[0].number == 0 && s->runs[31].settings.entries[3].len == 0);
    CHECK(zeros(s->sessions[0].ks, 32) && s->sessions[63].expiry == 0 && s->sessions[63].settings.entries[3].len == 0);

    event e = start_at(100);
    pr_reply reply = step(&server.lent, &e);
    CHECK(reply.no == PR_ANSWERED && reply.len == 4 && memcmp(out, "\x01\x07\x01\x00", 4) == 0);
    CHECK(s->clock == 100 && s->last == 1);
    CHECK(s->runs[0].number == 1 && s->runs[0].start == 100 && is_name(&s->runs[0].impi, "a@b"));
    CHECK(!s->runs[0].challenged && s->runs[1].number == 0);

    e = vector_at(101);
    reply = step(&server.lent, &e);
    CHECK(reply.no == PR_ANSWERED && reply.len == 33 && out[0] == 2 && counts_up(out + 1, 32, 0));
    CHECK(s->runs[0].challenged && counts_up(s->runs[0].rand, 16, 0x00));
    CHECK(counts_up(s->runs[0].xres, 5, 0x20) && zeros(s->runs[0].xres + 5, 11) && s->runs[0].xlen == 5);
    CHECK(counts_up(s->runs[0].ks, 32, 0x30) && are_settings(&s->runs[0].settings));

    e = response_at(102, 7, 1);
    reply = step(&server.lent, &e);
    CHECK(reply.no == PR_ANSWERED && out[0] == 3 && memcmp(out + 2, BTID, sizeof BTID - 1) == 0);
    CHECK(s->clock == 102 && s->runs[0].number == 0 && zeros(s->runs[0].ks, 32));
    CHECK(counts_up(s->sessions[0].ks, 32, 0x30) && counts_up(s->sessions[0].rand, 16, 0x00));
    CHECK(is_name(&s->sessions[0].impi, "a@b") && s->sessions[0].start == 102 && s->sessions[0].expiry == 1102);
    CHECK(are_settings(&s->sessions[0].settings) && s->sessions[1].expiry == 0);
}

/* What C writes in rows is what a KEY goes by. */
static void rows(void)
{
    event e = key_at(103);
    shelf.count = 2;
    shelf.rows[0] = (pr_row){name_of("peer"), name_of("fqdn2"), true, 3, 0};
    shelf.rows[1] = (pr_row){name_of("peer"), name_of("fqdn"), true, 3, 0};
    pr_reply reply = step(&server.lent, &e);
    CHECK(reply.no == PR_ANSWERED && reply.len == 50 && out[0] == 5);
    CHECK(memcmp(out + 33, "\x66\xce\x08\x03" "a@b" "\x01\x01\x02\x03\x04\x04" "user", 17) == 0);

    shelf.rows[1].identity = false;
    reply = step(&server.lent, &e);
    CHECK(reply.no == PR_ANSWERED && memcmp(out + 33, "\x66\xce\x08\x00\x01\x01\x02\x03\x04\x04" "user", 14) == 0);
    shelf.rows[1].group = 4;
    reply = step(&server.lent, &e);
    CHECK(reply.no == PR_ANSWERED && reply.len == 38 && out[36] == 0 && out[37] == 0);
    shelf.rows[1].required = 5;
    CHECK(step(&server.lent, &e).no == PR_POLICY);
    shelf.rows[1].group = 3;
    CHECK(step(&server.lent, &e).no == PR_ANSWERED);
    shelf.rows[1].required = 6;
    CHECK(step(&server.lent, &e).no == PR_POLICY);
    shelf.rows[1].required = 0;
    shelf.rows[1].peer.len = 5;
    CHECK(step(&server.lent, &e).no == PR_NOT_YOURS);
    shelf.rows[1].peer.len = SIZE_MAX;
    CHECK(step(&server.lent, &e).no == PR_NOT_YOURS);
    shelf.rows[1].peer.len = 4;
    shelf.count = 1;
    CHECK(step(&server.lent, &e).no == PR_NOT_YOURS);
    shelf.count = 2;
}

/* What C writes in a state is what events go by: the session of `written` and a run, in the last rows of another. */
static void read_back(void)
{
    state *s = &other.inside;
    s->ready = true;
    s->domain = name_of("bsf.example");
    s->restart = 300;
    s->lifetime = 60;
    s->clock = 50;
    s->last = 41;
    s->sessions[63] = server.inside.sessions[0];
    s->runs[31].number = 9;
    s->runs[31].start = 102;
    s->runs[31].impi = name_of("c@d");
    s->runs[31].challenged = true;
    count_up(s->runs[31].rand, 16, 0x50);
    count_up(s->runs[31].xres, 5, 0x20);
    s->runs[31].xlen = 5;

    event e = key_at(103);
    uint8_t before[47];
    CHECK(step(&server.lent, &e).len == 47);
    memcpy(before, out, 47);
    CHECK(step(&other.lent, &e).len == 47 && memcmp(before, out, 47) == 0);

    e = start_at(49);
    CHECK(step(&other.lent, &e).no == PR_CLOCK);
    e = start_at(103);
    pr_reply reply = step(&other.lent, &e);
    CHECK(reply.len == 5 && memcmp(out, "\x01\xac\x02\x2a\x4d", 5) == 0);
    CHECK(s->last == 42 && s->runs[0].number == 42 && are_settings(&s->runs[0].settings));

    e = response_at(104, 300, 9);
    reply = step(&other.lent, &e);
    CHECK(reply.no == PR_ANSWERED && out[0] == 3);
    CHECK(s->runs[31].number == 0 && is_name(&s->sessions[0].impi, "c@d") && s->sessions[0].expiry == 164);
}

/* A batch: each field of what comes back, and the shelf by value. */
static void batch(void)
{
    event e = key_at(105);
    uint8_t input[2 * PR_BODY];
    size_t len = e.len + 1;
    input[0] = (uint8_t)e.len;
    memcpy(input + 1, e.octets, e.len);
    memcpy(input + len, input, len);
    input[2 * len] = 0;

    pr_progress p = pr_serve(&server.lent, shelf, 8, input, 2 * len, out, PR_LINE + 98);
    CHECK(p.no == PR_SHORT && p.len == 99 && p.at == len && p.place == 9);
    CHECK(memcmp(out, "8 0 05", 6) == 0 && out[98] == '\n');
    p = pr_serve(&server.lent, shelf, 8, input, 2 * len, out, sizeof out);
    CHECK(p.no == PR_ANSWERED && p.len == 198 && p.at == 2 * len && p.place == 10);
    CHECK(memcmp(out + 99, "9 0 05", 6) == 0 && out[197] == '\n');
    p = pr_serve(&server.lent, shelf, 8, input, len - 1, out, sizeof out);
    CHECK(p.no == PR_ANSWERED && p.len == 0 && p.at == 0 && p.place == 8);
    p = pr_serve(&server.lent, shelf, 8, input + 2 * len, 1, out, sizeof out);
    CHECK(p.no == PR_FORM && p.len == 6 && p.at == 0 && p.place == 8 && memcmp(out, "8 3 -\n", 6) == 0);
    p = pr_serve(&server.lent, shelf, UINT64_MAX, input, len, out, sizeof out);
    CHECK(p.no == PR_FORM && p.len == 0 && p.at == 0 && p.place == UINT64_MAX && memcmp(out, "8 3 -\n", 6) == 0);
    p = pr_serve(&server.lent, shelf, 1, NULL, 0, NULL, 0);
    CHECK(p.no == PR_SHORT && p.len == 0 && p.at == 0 && p.place == 1);

    /* The last row, and a count that is too large. */
    pr_row row = shelf.rows[1];
    shelf.rows[1] = shelf.rows[15];
    shelf.rows[15] = row;
    pr_serve(&server.lent, shelf, 1, input, len, out, sizeof out);
    CHECK(memcmp(out, "1 14 -\n", 7) == 0);
    shelf.count = 16;
    pr_serve(&server.lent, shelf, 1, input, len, out, sizeof out);
    CHECK(memcmp(out, "1 0 05", 6) == 0);
    shelf.count = SIZE_MAX;
    pr_serve(&server.lent, shelf, 2, input, len, out, sizeof out);
    CHECK(memcmp(out, "2 0 05", 6) == 0);
}

static void *all(void *none)
{
    closed();
    written();
    rows();
    read_back();
    batch();
    return none;
}

int main(void)
{
    pthread_attr_t attr;
    pthread_t thread;
    if (pthread_attr_init(&attr) || pthread_attr_setstacksize(&attr, PR_STACK) ||
        pthread_create(&thread, &attr, all, NULL) || pthread_join(thread, NULL))
        return 2;
    return bad ? 1 : 0;
}
