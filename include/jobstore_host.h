/* Thin forms for the cabinet's host, over records that it lends. Link with libjobstore_host (pkg-config: jobstore_host), which
 * needs nothing else; libjobstore may be linked beside it. A pointer is never null, not even where its length is 0. */
#ifndef JOBSTORE_HOST_H
#define JOBSTORE_HOST_H

#include <stddef.h>
#include <stdint.h>

#ifdef __cplusplus
extern "C" {
#endif

/* The counters of a replica. */
struct jobstore_counters {
    uint32_t stamp;
    uint32_t pending;   /* jobs pending */
    uint32_t finished;  /* of these, finished */
};

/* One delivery counted: the stamp up by 1, the other counts as before. Returns 0; at the highest stamp 9, and nothing changes. */
uint32_t jobstore_count_delivery(struct jobstore_counters *counters);

/* Work counted: `finished` pending jobs are now finished, as jobstore_work answered. If that is more than are pending, which jobstore_work
 * never answers, nothing changes. */
void jobstore_count_work(struct jobstore_counters *counters, uint32_t finished);

/* A pending job, as a row of the record area has it (docs/LAYOUT.md). */
struct jobstore_job {
    uint32_t client;
    uint32_t sequence;
    uint32_t counter;     /* operations carried out or passed over */
    uint32_t outcome;
    int64_t registers[4];
    uint32_t reads;       /* the entries are the reads, and right behind them the stores */
    uint32_t entries;
    uint8_t objects[16];
    int64_t values[16];
};

/* The jobs from index `from` on go back to their start: only their keys stay. An index past the last changes nothing. */
void jobstore_restart_from(struct jobstore_job *jobs, size_t length, size_t from);

#ifdef __cplusplus
}
#endif

#endif
