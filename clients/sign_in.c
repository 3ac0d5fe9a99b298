/*
 * A front in small: a student signs in (START, VECTOR, RESPONSE) and a shelf gets its key (KEY). It prints for each
 * event its place, the number returned and the answer in hex. The card is the first of events/milenage.txt.
 *
 *   cc -std=c11 -Iinclude clients/sign_in.c target/staticlib/libexports.a -o sign_in
 */
#include "line.h"
#include "pagerudder.h"

#include <stdio.h>
#include <string.h>

static const char DOMAIN[] = "bsf.mnc001.mcc001.pub.3gppnetwork.org";
static const char IMPI[] = "001010000000001@ims.mnc001.mcc001.3gppnetwork.org";
static const char SHELF[] = "naf.example";
static const uint8_t PROTOCOL[5] = {0x01, 0x00, 0x00, 0x00, 0x02};

/* What the subscriber server sends. */
static const uint8_t RAND[16] = {0x23, 0x55, 0x3c, 0xbe, 0x96, 0x37, 0xa8, 0x9d,
                                 0x21, 0x8a, 0xe6, 0x4d, 0xae, 0x47, 0xbf, 0x35};
static const uint8_t AUTN[16] = {0x55, 0xf3, 0x28, 0xb4, 0x35, 0x77, 0xb9, 0xb9,
                                 0x4a, 0x9f, 0xfa, 0xc3, 0x54, 0xdf, 0xaf, 0xb3};
static const uint8_t XRES[8] = {0xa5, 0x42, 0x11, 0xd5, 0xe3, 0xba, 0x50, 0xbf};
static const uint8_t CK[16] = {0xb4, 0x0b, 0xa9, 0xa3, 0xc5, 0x8b, 0x2a, 0x05,
                               0xbb, 0xf0, 0xd9, 0x87, 0xb2, 0x1b, 0xf8, 0xcb};
static const uint8_t IK[16] = {0xf7, 0x69, 0xbc, 0xd7, 0x51, 0x04, 0x46, 0x04,
                               0x12, 0x76, 0x72, 0x71, 0x1c, 0x6d, 0x34, 0x41};

/* The server, the shelf table with one row, and the last answer. */
static pr_state server;
static pr_row row;
static uint8_t answer[PR_ROOM];

/* Sends an event, and prints its line. Returns whether it was answered. */
static bool send_event(int place, const event *e)
{
    pr_reply reply = pr_event(&server, &row, 1, e->octets, e->len, answer, sizeof answer);
    printf("%d %u ", place, (unsigned)reply.no);
    for (size_t i = 0; i < reply.len; i++)
        printf("%02x", answer[i]);
    puts(reply.no == PR_ANSWERED ? "" : "-");
    return reply.no == PR_ANSWERED;
}

int main(void)
{
    /* The seconds of a clock; here as in the event file. */
    uint64_t time = 1010;

    if (pr_open(&server, (const uint8_t *)DOMAIN, strlen(DOMAIN), 1, 43200) != PR_ANSWERED)
        return 1;
    row.peer.len = strlen(SHELF);
    memcpy(row.peer.octets, SHELF, row.peer.len);
    row.fqdn = row.peer;
    row.identity = true;

    /* A tablet asks to sign in. The answer has restart and run, which go to the subscriber server with the request. */
    event start = {{1}, 1};
    put_number(&start, time);
    put_text(&start, IMPI, strlen(IMPI));
    if (!send_event(1, &start))
        return 1;
    const uint8_t *at = answer + 1;
    uint64_t restart = get_number(&at);
    uint64_t run = get_number(&at);

    /* The subscriber server's vector, with no settings. The answer is the challenge for the tablet. */
    event vector = {{2}, 1};
    put_number(&vector, time + 1);
    put_number(&vector, restart);
    put_number(&vector, run);
    put_text(&vector, IMPI, strlen(IMPI));
    put_octets(&vector, RAND, sizeof RAND);
    put_octets(&vector, AUTN, sizeof AUTN);
    put_text(&vector, XRES, sizeof XRES);
    put_octets(&vector, CK, sizeof CK);
    put_octets(&vector, IK, sizeof IK);
    put_octet(&vector, 0);
    if (!send_event(2, &vector))
        return 1;

    /* The tablet's response: here the right one. The answer has the B-TID. (Answer 6 is a wrong response.) */
    event response = {{3}, 1};
    put_number(&response, time + 2);
    put_number(&response, restart);
    put_number(&response, run);
    put_text(&response, XRES, sizeof XRES);
    if (!send_event(3, &response) || answer[0] != 3)
        return 1;
    at = answer + 1;
    size_t btid_len = (size_t)get_number(&at);

    /* A shelf asks for the key of that B-TID, and wants no settings. */
    event key = {{5}, 1};
    put_number(&key, time + 3);
    put_text(&key, SHELF, strlen(SHELF));
    put_text(&key, at, btid_len);
    put_number(&key, strlen(SHELF) + sizeof PROTOCOL);
    put_octets(&key, SHELF, strlen(SHELF));
    put_octets(&key, PROTOCOL, sizeof PROTOCOL);
    put_number(&key, 0);
    return send_event(4, &key) ? 0 : 1;
}
