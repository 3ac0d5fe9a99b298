/* Reads an event file from standard input, plays it with ever less stack, and prints for each function of the library the least stack, in
   octets, with which it ends well. The stack ends at a page that may not be touched, so the numbers are whole pages. */
#define _GNU_SOURCE
#include "../clients/line.h"

#include <stdio.h>
#include <stdlib.h>
#include <sys/mman.h>
#include <sys/wait.h>
#include <ucontext.h>
#include <unistd.h>

enum { PAGE = 4096, MOST = 4096 };

static pr_state fresh, server;
static pr_shelf shelf;
static const uint8_t *domain, *events;
static size_t domain_len, events_len;
static uint64_t restart, lifetime;
static uint8_t input[1 << 20], out[1 << 20];

static void open_it(void) { pr_open(&server, domain, domain_len, restart, lifetime); }

static void each_event(void)
{
    for (const uint8_t *at = events; at < events + events_len;) {
        size_t len = (size_t)get_number(&at);
        pr_event(&server, shelf.rows, shelf.count, at, len, out, sizeof out);
        at += len;
    }
}

static void serve(void) { pr_serve(&server, shelf, 1, events, events_len, out, sizeof out); }
static void digest(void) { pr_sha256(input, sizeof input, out, sizeof out); }
static void code(void) { pr_hmac(input, sizeof input, input, sizeof input, out, sizeof out); }

static void string(void)
{
    size_t lens[8] = {1, 2, 3, 4, 5, 6, 7, 8};
    pr_kdf(1, input, 36, lens, 8, out, sizeof out);
}

/* Whether it ends well on so many pages. */
static int runs_on(size_t pages, void (*work)(void))
{
    pid_t child = fork();
    if (child == 0) {
        static ucontext_t here, there;
        size_t guard = 256 * PAGE; /* more than any step over the end */
        uint8_t *stack = mmap(NULL, guard + pages * PAGE, PROT_NONE, MAP_PRIVATE | MAP_ANONYMOUS, -1, 0);
        if (stack == MAP_FAILED || mprotect(stack + guard, pages * PAGE, PROT_READ | PROT_WRITE) || getcontext(&there))
            abort();
        server = fresh;
        there.uc_stack.ss_sp = stack + guard;
        there.uc_stack.ss_size = pages * PAGE;
        there.uc_link = &here;
        makecontext(&there, work, 0);
        swapcontext(&here, &there);
        _exit(0);
    }
    int status;
    return waitpid(child, &status, 0) == child && WIFEXITED(status) && WEXITSTATUS(status) == 0;
}

static void measure(const char *name, void (*work)(void))
{
    size_t low = 0, high = MOST;
    if (!runs_on(high, work))
        exit(1);
    while (low + 1 < high) {
        size_t middle = (low + high) / 2;
        if (runs_on(middle, work))
            high = middle;
        else
            low = middle;
    }
    printf("%s %zu\n", name, high * PAGE);
    fflush(stdout);
}

int main(void)
{
    size_t len = fread(input, 1, sizeof input, stdin);
    const uint8_t *at = input;
    domain_len = (size_t)get_number(&at);
    domain = at;
    at += domain_len;
    restart = get_number(&at);
    lifetime = get_number(&at);
    shelf.count = (size_t)get_number(&at);
    for (size_t i = 0; i < shelf.count && i < PR_ROWS; i++) {
        pr_row *row = &shelf.rows[i];
        row->peer.len = (size_t)get_number(&at);
        memcpy(row->peer.octets, at, row->peer.len);
        at += row->peer.len;
        row->fqdn.len = (size_t)get_number(&at);
        memcpy(row->fqdn.octets, at, row->fqdn.len);
        at += row->fqdn.len;
        row->identity = *at++;
        row->group = (uint8_t)get_number(&at);
        row->required = (uint32_t)get_number(&at);
    }
    events = at;
    events_len = len - (size_t)(at - input);
    if (pr_open(&fresh, domain, domain_len, restart, lifetime))
        return 1;
    measure("pr_open", open_it);
    measure("pr_event", each_event);
    measure("pr_serve", serve);
    measure("pr_sha256", digest);
    measure("pr_hmac", code);
    measure("pr_kdf", string);
    return 0;
}
