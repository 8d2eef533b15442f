/* The host's records from C: counters and pending jobs. The exit status is 0 exactly when all is right. */
#include <stdio.h>
#include <string.h>

#include <jobstore_host.h>

static int wrong;

static void expect(const char *what, int holds)
{
    printf("%s: %s\n", what, holds ? "as it should be" : "WRONG");
    if (!holds)
        wrong = 1;
}

static int counts(struct jobstore_counters c, uint32_t stamp, uint32_t pending, uint32_t finished)
{
    return c.stamp == stamp && c.pending == pending && c.finished == finished;
}

static void counters(void)
{
    struct jobstore_counters c = {UINT32_MAX - 1, 3, 1};
    expect("a delivery is counted", jobstore_count_delivery(&c) == 0 && counts(c, UINT32_MAX, 3, 1));
    expect("at the highest stamp 9, no change", jobstore_count_delivery(&c) == 9 && counts(c, UINT32_MAX, 3, 1));
    jobstore_count_work(&c, 2);
    expect("work is counted", counts(c, UINT32_MAX, 3, 2));
    jobstore_count_work(&c, 4);
    expect("more than are pending: no change", counts(c, UINT32_MAX, 3, 2));
    jobstore_count_work(&c, 3);
    expect("as many as are pending is taken", counts(c, UINT32_MAX, 3, 3));
}

/* From each index on, up to one past the last. */
static void jobs(void)
{
    struct jobstore_job begun[3], start[3], lent[3];
    memset(begun, 7, sizeof begun);
    memset(start, 0, sizeof start);
    for (size_t i = 0; i < 3; i++) {
        start[i].client = begun[i].client;
        start[i].sequence = begun[i].sequence;
    }
    for (size_t from = 0; from < 5; from++) {
        size_t kept = from < 3 ? from : 3;
        memcpy(lent, begun, sizeof lent);
        jobstore_restart_from(lent, 3, from);
        expect("before the index as they were", memcmp(lent, begun, kept * sizeof *lent) == 0);
        expect("from it on at their start", memcmp(lent + kept, start + kept, (3 - kept) * sizeof *lent) == 0);
    }
}

int main(void)
{
    counters();
    jobs();
    return wrong;
}
