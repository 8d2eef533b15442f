/* A tank from C: its bounds are 0 and 50 litres, and a job that would leave -4 in it stores nothing. The stamp beside the
 * litres tells which job stored them. No work is done early, so each final delivery runs its job, and tells the operations.
 * Prints each answer; the exit status is 0 exactly when all are right. */
#include <inttypes.h>
#include <stdio.h>

#include <jobstore.h>

#include "say.h"

static uint8_t record[JOBSTORE_RECORD_LENGTH];
static uint8_t bodies[JOBSTORE_BODIES_LENGTH];
static const uint32_t start_stamp = 100;

static uint32_t open_tank(int64_t litres, int64_t lower, int64_t upper)
{
    return jobstore_open(record, sizeof record, bodies, sizeof bodies, 1, &litres, 1, &lower, 1, &upper, 1, start_stamp);
}

/* So many litres come in, or, below 0, are drawn. A store outside the bounds is the last operation, and counts. */
static void pour(uint32_t sequence, int64_t litres, uint32_t outcome, int64_t left, uint32_t since)
{
    const struct jobstore_operation operations[] = {
        {JOBSTORE_LOAD, 0, 0, 0}, {JOBSTORE_SET, 1, 0, litres}, {JOBSTORE_ADD, 0, 1, 0}, {JOBSTORE_STORE, 0, 0, 0}};
    uint8_t body[JOBSTORE_BODY_LENGTH];
    size_t length = jobstore_encode(body, operations, 4);
    printf("%" PRId64 " litres\n", litres);
    say("  early", jobstore_early(record, sizeof record, bodies, sizeof bodies, 1, sequence, body, length), 0);
    struct jobstore_committed r = jobstore_final(record, sizeof record, bodies, sizeof bodies, 1, sequence);
    say("  outcome", r.outcome, outcome);
    say("  stored", r.stored, outcome == JOBSTORE_DONE);
    say("  stamp", r.stamp, start_stamp + sequence);
    say("  operations", r.operations, 4);
    say("  open reader", jobstore_open_reader(record, sizeof record, bodies, sizeof bodies, 0), 0);
    struct jobstore_value tank = jobstore_read(record, sizeof record, bodies, sizeof bodies, 0, 0);
    say("  left", tank.value, left);
    say("  since stamp", tank.stamp, since);
    say("  close", jobstore_close_reader(record, sizeof record, bodies, sizeof bodies, 0), 0);
}

int main(void)
{
    say("open at -4", open_tank(-4, 0, 50), JOBSTORE_BOUNDS);
    printf("  %s\n", jobstore_refusal_text(JOBSTORE_BOUNDS));
    say("open, 50 to 0", open_tank(20, 50, 0), JOBSTORE_BOUNDS);
    say("open", open_tank(20, 0, 50), 0);
    pour(1, -24, JOBSTORE_OUTSIDE, 20, start_stamp);
    pour(2, 31, JOBSTORE_OUTSIDE, 20, start_stamp);
    pour(3, -20, JOBSTORE_DONE, 0, start_stamp + 3);
    pour(4, 50, JOBSTORE_DONE, 50, start_stamp + 4);
    pour(5, 1, JOBSTORE_OUTSIDE, 50, start_stamp + 4);
    return wrong;
}
