/* "A small depot" from C: a replica in two arrays, three jobs delivered early, worked on, and committed in another order.
 * Prints each answer; the exit status is 0 exactly when all are right. */
#include <stdio.h>
#include <string.h>

#include <jobstore.h>

#include "say.h"

static uint8_t record[JOBSTORE_RECORD_LENGTH];
static uint8_t bodies[JOBSTORE_BODIES_LENGTH];

static uint32_t early(uint32_t client, uint32_t sequence, const struct jobstore_operation *operations, size_t m)
{
    uint8_t body[JOBSTORE_BODY_LENGTH];
    size_t length = jobstore_encode(body, operations, m);
    return jobstore_early(record, sizeof record, bodies, sizeof bodies, client, sequence, body, length);
}

static struct jobstore_committed final(uint32_t client, uint32_t sequence)
{
    return jobstore_final(record, sizeof record, bodies, sizeof bodies, client, sequence);
}

static void see(const char *what, uint32_t reader, uint32_t object, struct jobstore_value due)
{
    struct jobstore_value r = jobstore_read(record, sizeof record, bodies, sizeof bodies, reader, object);
    say(what, r.number, due.number);
    say("  value", r.value, due.value);
    say("  stamp", r.stamp, due.stamp);
}

/* A: object 0 gets 5 more. B: object 2 becomes what object 1 is. C: object 1 becomes what object 0 is. */
static const struct jobstore_operation a[] = {
    {JOBSTORE_LOAD, 0, 0, 0}, {JOBSTORE_SET, 1, 0, 5}, {JOBSTORE_ADD, 0, 1, 0}, {JOBSTORE_STORE, 0, 0, 0}};
static const struct jobstore_operation b[] = {{JOBSTORE_LOAD, 0, 1, 0}, {JOBSTORE_STORE, 0, 2, 0}};
static const struct jobstore_operation c[] = {{JOBSTORE_LOAD, 0, 0, 0}, {JOBSTORE_STORE, 0, 1, 0}};

static void open_depot(void)
{
    const int64_t values[] = {10, 20, 30};
    const int64_t lower[] = {INT64_MIN, INT64_MIN, INT64_MIN};
    const int64_t upper[] = {INT64_MAX, INT64_MAX, INT64_MAX};
    say("record area", jobstore_record_length(), JOBSTORE_RECORD_LENGTH);
    say("body area", jobstore_bodies_length(), JOBSTORE_BODIES_LENGTH);
    say("open", jobstore_open(record, sizeof record, bodies, sizeof bodies, 3, values, 3, lower, 3, upper, 3, 0), 0);
    say("early A", early(1, 1, a, 4), 0);
    say("early B", early(2, 1, b, 2), 0);
    say("early C", early(3, 1, c, 2), 0);
    say("open reader 0", jobstore_open_reader(record, sizeof record, bodies, sizeof bodies, 0), 0);
}

static void pending(void)
{
    uint8_t body[JOBSTORE_BODY_LENGTH];
    struct jobstore_found found = jobstore_find(record, sizeof record, bodies, sizeof bodies, 2, 1);
    struct jobstore_part part = jobstore_show_body(record, sizeof record, bodies, sizeof bodies, 2, 1);
    say("find B, number", found.number, 0);
    say("  place", found.place, 1);
    say("  length", found.length, 23);
    say("show body of B, length", part.length, (int64_t)jobstore_encode(body, b, 2));
    say("  as delivered", memcmp(bodies + part.start, body, part.length), 0);
}

static void work(void)
{
    struct jobstore_executed r = jobstore_work(record, sizeof record, bodies, sizeof bodies, 100);
    say("work 100, number", r.number, 0);
    say("  operations", r.operations, 8);
    say("  finished", r.finished, 3);
}

/* B once more under the next key: the body that is shown is copied first, since the delivery writes the body area. */
static void repeat(void)
{
    uint8_t copy[JOBSTORE_BODY_LENGTH];
    struct jobstore_part part = jobstore_show_body(record, sizeof record, bodies, sizeof bodies, 2, 1);
    memcpy(copy, bodies + part.start, part.length);
    say("early B, next key", jobstore_early(record, sizeof record, bodies, sizeof bodies, 2, 2, copy, part.length), 0);
}

/* So many operations are carried out again; none where the early results are kept. */
static void commit(const char *what, uint32_t client, uint32_t sequence, uint32_t stamp, uint32_t operations)
{
    struct jobstore_committed r = final(client, sequence);
    say(what, r.number, 0);
    say("  outcome", r.outcome, JOBSTORE_DONE);
    say("  kept", r.kept, operations == 0);
    say("  stamp", r.stamp, stamp);
    say("  stored", r.stored, 1);
    say("  operations", r.operations, operations);
}

/* A price: object 0, 15 by now, divided by 6. An exact half, 2.5, goes to the even neighbour. */
static void price(void)
{
    const struct jobstore_operation sixth[] = {
        {JOBSTORE_LOAD, 0, 0, 0}, {JOBSTORE_DIVIDE, 0, 0, 6}, {JOBSTORE_STORE, 0, 2, 0}};
    say("early price", early(5, 1, sixth, 3), 0);
    commit("final price", 5, 1, 5, 3);
    say("open reader 2", jobstore_open_reader(record, sizeof record, bodies, sizeof bodies, 2), 0);
    see("object 2", 2, 2, (struct jobstore_value){0, 2, 5});
}

/* Refused: 4, zeros beside it, and not a byte changed. */
static void spent(void)
{
    static uint8_t before[sizeof record];
    memcpy(before, record, sizeof record);
    struct jobstore_committed r = final(1, 1);
    say("final A again", r.number, JOBSTORE_SPENT);
    printf("  %s\n", jobstore_refusal_text(r.number));
    say("  beside it", (int64_t)r.outcome + r.kept + r.stamp + r.stored + r.operations, 0);
    say("  changed", memcmp(before, record, sizeof record), 0);
    say("  on a short area", jobstore_final(record, sizeof record - 1, bodies, sizeof bodies, 1, 1).number, JOBSTORE_AREA);
}

/* The header's own functions: the bytes of a body, no body for another number of operations, a text for every refusal. */
static void header(void)
{
    const struct jobstore_operation parts[] = {{JOBSTORE_SKIP, 3, 1, 0}, {JOBSTORE_DIVIDE, 2, 0, -2}};
    const uint8_t due[] = {2, 5, 3, 1, 7, 2, 0, 0, 0, 0, 0, 0, 0, 0, 0, 254, 255, 255, 255, 255, 255, 255, 255};
    uint8_t body[JOBSTORE_BODY_LENGTH];
    say("encoded", (int64_t)jobstore_encode(body, parts, 2), sizeof due);
    say("  its bytes", memcmp(body, due, sizeof due), 0);
    say("  no operation", (int64_t)jobstore_encode(body, parts, 0), 0);
    say("  17 operations", (int64_t)jobstore_encode(body, parts, JOBSTORE_MOST_OPERATIONS + 1), 0);
    say("early, no operation", early(4, 1, parts, 0), JOBSTORE_BODY);
    for (uint32_t number = 0; number < 17; number++) {
        int none = strcmp(jobstore_refusal_text(number), "no refusal") == 0;
        say("  without a text", none, number < JOBSTORE_AREA || JOBSTORE_BOUNDS < number);
    }
}

int main(void)
{
    open_depot();
    pending();
    work();
    repeat();
    commit("final C", 3, 1, 1, 2);
    commit("final A", 1, 1, 2, 0);
    commit("final B", 2, 1, 3, 2);
    spent();
    say("open reader 1", jobstore_open_reader(record, sizeof record, bodies, sizeof bodies, 1), 0);
    see("object 0", 1, 0, (struct jobstore_value){0, 15, 2});
    see("object 1", 1, 1, (struct jobstore_value){0, 10, 1});
    see("object 2", 1, 2, (struct jobstore_value){0, 10, 3});
    see("object 0 as reader 0 sees it", 0, 0, (struct jobstore_value){0, 10, 0});
    say("close 0", jobstore_close_reader(record, sizeof record, bodies, sizeof bodies, 0), 0);
    see("object 0, reader 0 closed", 0, 0, (struct jobstore_value){JOBSTORE_READER_CLOSED, 0, 0});
    commit("final B, next key", 2, 2, 4, 2);
    price();
    header();
    return wrong;
}
