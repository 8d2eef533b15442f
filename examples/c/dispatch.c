/* Dispatch from C: before a route is released, its job is tried dry. A depot's tank holds 0 to 50 litres, and 10 are to stay in
 * it; a route fills a van from it. The routes are pending. One is released, by its final delivery, if it would be done and leave
 * the reserve; any other stays pending, and may be tried again.
 * Prints each answer; the exit status is 0 exactly when all are right. */
#include <stdio.h>
#include <string.h>

#include <jobstore.h>

#include "say.h"

enum { TANK, FIRST_VAN, SECOND_VAN, OBJECTS };

static const int64_t reserve = 10;
static uint8_t record[JOBSTORE_RECORD_LENGTH];
static uint8_t bodies[JOBSTORE_BODIES_LENGTH];

/* A route of the client: so many litres go from the tank to the van; below 0, from the van to the tank. */
static void plan(uint32_t client, uint8_t van, int64_t litres)
{
    const struct jobstore_operation operations[] = {
        {JOBSTORE_SET, 1, 0, litres},
        {JOBSTORE_LOAD, 0, TANK, 0}, {JOBSTORE_SUBTRACT, 0, 1, 0}, {JOBSTORE_STORE, 0, TANK, 0},
        {JOBSTORE_LOAD, 0, van, 0}, {JOBSTORE_ADD, 0, 1, 0}, {JOBSTORE_STORE, 0, van, 0}};
    uint8_t body[JOBSTORE_BODY_LENGTH];
    size_t length = jobstore_encode(body, operations, 7);
    say("early", jobstore_early(record, sizeof record, bodies, sizeof bodies, client, 1, body, length), 0);
}

static struct jobstore_preview try_dry(uint32_t client)
{
    return jobstore_dry_run(record, sizeof record, bodies, sizeof bodies, client, 1);
}

/* The client's route is tried dry and, where it may go, released: its final delivery then does what the dry run told. */
static void dispatch(uint32_t client, uint32_t outcome, uint32_t kept, const int64_t *values, int goes)
{
    static uint8_t before[sizeof record];
    memcpy(before, record, sizeof record);
    struct jobstore_preview told = try_dry(client);
    int may_go = told.number == 0 && told.outcome == JOBSTORE_DONE && reserve <= told.values[TANK];
    printf("route of client %u\n", (unsigned)client);
    say("  number", told.number, 0);
    say("  outcome", told.outcome, outcome);
    say("  kept", told.kept, kept);
    say("  tank", told.values[TANK], values[TANK]);
    say("  first van", told.values[FIRST_VAN], values[FIRST_VAN]);
    say("  second van", told.values[SECOND_VAN], values[SECOND_VAN]);
    say("  past the last object", told.values[OBJECTS], 0);
    say("  changed", memcmp(before, record, sizeof record), 0);
    say("  released", may_go, goes);
    if (may_go) {
        struct jobstore_committed r = jobstore_final(record, sizeof record, bodies, sizeof bodies, client, 1);
        say("  outcome, as told", r.outcome, told.outcome);
        say("  kept, as told", r.kept, told.kept);
        say("  stamp, as told", r.stamp, told.stamp);
    }
}

int main(void)
{
    const int64_t values[OBJECTS] = {40, 0, 35};
    const int64_t lower[OBJECTS] = {0, 0, 0};
    const int64_t upper[OBJECTS] = {50, 100, 100};
    say("open", jobstore_open(record, sizeof record, bodies, sizeof bodies, OBJECTS, values, OBJECTS, lower, OBJECTS,
                              upper, OBJECTS, 0), 0);
    plan(1, FIRST_VAN, 25);
    plan(2, SECOND_VAN, 20);
    plan(3, SECOND_VAN, -30);
    plan(4, FIRST_VAN, 8);
    say("work, finished", jobstore_work(record, sizeof record, bodies, sizeof bodies, 100).finished, 4);

    /* Early it came behind the first route, when there was room in the tank. */
    dispatch(3, JOBSTORE_OUTSIDE, 0, values, 0);
    dispatch(1, JOBSTORE_DONE, 1, (const int64_t[]){15, 25, 35}, 1);
    dispatch(2, JOBSTORE_OUTSIDE, 1, (const int64_t[]){15, 25, 35}, 0);
    /* Done, but 7 litres are below the reserve. */
    dispatch(4, JOBSTORE_DONE, 0, (const int64_t[]){7, 33, 35}, 0);
    dispatch(3, JOBSTORE_DONE, 1, (const int64_t[]){45, 25, 5}, 1);
    dispatch(2, JOBSTORE_DONE, 0, (const int64_t[]){25, 25, 25}, 1);
    dispatch(4, JOBSTORE_DONE, 0, (const int64_t[]){17, 33, 25}, 1);

    struct jobstore_preview gone = try_dry(1);
    say("client 1 again", gone.number, JOBSTORE_SPENT);
    printf("  %s\n", jobstore_refusal_text(gone.number));
    say("  beside it", (int64_t)gone.outcome + gone.kept + gone.stamp + gone.values[TANK], 0);
    return wrong;
}
