/*
 * Prints for each struct that C shares with the library where its fields start, in order, its size and its alignment:
 * those of the header, then a pr_state from inside.
 */
#include "inside.h"
#include "pagerudder.h"

#include <stdalign.h>
#include <stdio.h>

#define AT(type, field) printf(" %zu", offsetof(type, field))
#define BEGIN(type) printf("%s", #type)
#define END(type) printf(" %zu %zu\n", sizeof(type), alignof(type))

int main(void)
{
    BEGIN(pr_reply), AT(pr_reply, no), AT(pr_reply, len), END(pr_reply);
    BEGIN(pr_progress), AT(pr_progress, no), AT(pr_progress, len), AT(pr_progress, at), AT(pr_progress, place),
        END(pr_progress);
    BEGIN(pr_name), AT(pr_name, octets), AT(pr_name, len), END(pr_name);
    BEGIN(pr_row), AT(pr_row, peer), AT(pr_row, fqdn), AT(pr_row, identity), AT(pr_row, group), AT(pr_row, required),
        END(pr_row);
    BEGIN(pr_shelf), AT(pr_shelf, rows), AT(pr_shelf, count), END(pr_shelf);
    BEGIN(pr_state), AT(pr_state, opaque), END(pr_state);
    BEGIN(entry), AT(entry, application), AT(entry, group), AT(entry, flags), AT(entry, user), AT(entry, len),
        END(entry);
    BEGIN(settings), AT(settings, lifetime), AT(settings, timestamp), AT(settings, entries), END(settings);
    BEGIN(run), AT(run, number), AT(run, start), AT(run, impi), AT(run, challenged), AT(run, rand), AT(run, xres),
        AT(run, xlen), AT(run, ks), AT(run, settings), END(run);
    BEGIN(session), AT(session, ks), AT(session, rand), AT(session, impi), AT(session, start), AT(session, expiry),
        AT(session, settings), END(session);
    BEGIN(state), AT(state, ready), AT(state, domain), AT(state, restart), AT(state, lifetime), AT(state, clock),
        AT(state, last), AT(state, runs), AT(state, sessions), END(state);
    return 0;
}
