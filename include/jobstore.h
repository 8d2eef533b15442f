/* One replica ("unit") of the job store, in two areas that the caller lends.
 *
 * Link with libjobstore, static or shared (pkg-config: jobstore). It needs memcpy, memmove and memset alone. The library
 * allocates nothing, keeps no pointer and has no static data, so replicas in different areas may be used by different
 * threads at the same time; on one replica calls come one after another, those aside that change nothing (docs/HOSTING.md).
 *
 * Every call takes the record area and then the body area, each as a pointer and a length in bytes, and then its own
 * arguments. The right lengths are JOBSTORE_RECORD_LENGTH and JOBSTORE_BODIES_LENGTH; the areas need no alignment. What
 * they hold is the library's (docs/LAYOUT.md): they may be copied, stored and compared, byte by byte.
 * A pointer is never null, not even where its length is 0. The areas overlap neither each other nor another argument.
 *
 * One mistake is natural and breaks the last sentence: to deliver a body that Show body shows, as it stands in the body area.
 *
 *     struct jobstore_part part = jobstore_show_body(.., 1, 1);
 *     jobstore_early(.., 2, 1, bodies + part.start, part.length);      WRONG: a part of the area that the call writes
 *
 * Copy it first, and deliver the copy:
 *
 *     uint8_t copy[JOBSTORE_BODY_LENGTH];
 *     memcpy(copy, bodies + part.start, part.length);
 *     jobstore_early(.., 2, 1, copy, part.length);
 *
 * A call yields 0 and its results, or a refusal's number with zeros beside it. A refusal changes no byte. Where several
 * causes hold, the first in the order that stands at the call wins.
 */
#ifndef JOBSTORE_H
#define JOBSTORE_H

#include <stddef.h>
#include <stdint.h>

#define JOBSTORE_VERSION "0.6.0"

#ifdef __cplusplus
extern "C" {
#endif

enum jobstore_refusal {
    JOBSTORE_AREA = 1,            /* an area of wrong length, or (except at opening) whose contents fail the shape check */
    JOBSTORE_OBJECTS = 2,         /* opening: n not 1 to 128, or a wrong number of values or bounds */
    JOBSTORE_CLIENT = 3,          /* client above 15 */
    JOBSTORE_SPENT = 4,           /* key spent: the sequence number is not above the client's last committed one */
    JOBSTORE_PENDING = 5,         /* key already pending */
    JOBSTORE_BODY = 6,            /* body breaks a rule, an object number of n or more included */
    JOBSTORE_FULL = 7,            /* 32 pending */
    JOBSTORE_NOT_PENDING = 8,     /* key not pending */
    JOBSTORE_LAST_STAMP = 9,      /* stamp is 4,294,967,295 */
    JOBSTORE_READER = 10,         /* reader above 6 */
    JOBSTORE_READER_OPEN = 11,    /* reader open already */
    JOBSTORE_READER_CLOSED = 12,  /* reader not open */
    JOBSTORE_OBJECT = 13,         /* read: object n or more */
    JOBSTORE_COUNT = 14,          /* work count above 4,096 */
    JOBSTORE_BOUNDS = 15          /* opening: a lower bound above its upper, or a start value outside its bounds */
};

/* The cause of a refusal in words; of any other number, that it is none. */
static inline const char *jobstore_refusal_text(uint32_t number)
{
    switch (number) {
    case JOBSTORE_AREA:
        return "an area has the wrong length, or its contents fail the shape check";
    case JOBSTORE_OBJECTS:
        return "the number of objects is not 1 to 128, or not that of the values or bounds";
    case JOBSTORE_CLIENT:
        return "the client is above 15";
    case JOBSTORE_SPENT:
        return "the key is spent: its sequence number is not above the client's last committed one";
    case JOBSTORE_PENDING:
        return "the key is pending already";
    case JOBSTORE_BODY:
        return "the body breaks a rule";
    case JOBSTORE_FULL:
        return "32 jobs are pending already";
    case JOBSTORE_NOT_PENDING:
        return "the key is not pending";
    case JOBSTORE_LAST_STAMP:
        return "the stamp is 4,294,967,295, so none is left";
    case JOBSTORE_READER:
        return "the reader is above 6";
    case JOBSTORE_READER_OPEN:
        return "the reader is open already";
    case JOBSTORE_READER_CLOSED:
        return "the reader is not open";
    case JOBSTORE_OBJECT:
        return "the object's number is not below the number of objects";
    case JOBSTORE_COUNT:
        return "the work count is above 4,096";
    case JOBSTORE_BOUNDS:
        return "a lower bound is above its upper, or a start value is outside its bounds";
    default:
        return "no refusal";
    }
}

/* How a job's run ended. Only with the first is anything stored. */
enum jobstore_outcome {
    JOBSTORE_DONE = 0,      /* past the last operation */
    JOBSTORE_FAILED = 1,    /* at a fail */
    JOBSTORE_OVERFLOW = 2,  /* at an add or subtract that leaves 64 bits */
    JOBSTORE_OUTSIDE = 3    /* at a store of a value outside its object's bounds */
};

/* The kinds of operations. A register is 0 to 3 and holds 0 at the start of a job. */
enum jobstore_kind {
    JOBSTORE_LOAD = 0,      /* register first takes object second */
    JOBSTORE_STORE = 1,     /* object second takes register first; outside the object's bounds the job ends */
    JOBSTORE_SET = 2,       /* register first takes the constant; second is 0 */
    JOBSTORE_ADD = 3,       /* register first takes first plus register second */
    JOBSTORE_SUBTRACT = 4,  /* register first takes first minus register second */
    JOBSTORE_SKIP = 5,      /* if register first is below 0, the next `second` operations are passed over; not past the end */
    JOBSTORE_FAIL = 6,      /* the job ends; first and second are 0 */
    JOBSTORE_DIVIDE = 7     /* register first is divided by the constant, 1 to 1,000,000, and rounded to the nearest whole
                               number, an exact half to the even neighbour (5 / 2 is 2, 7 / 2 is 4, -5 / 2 is -2);
                               second is 0 */
};

/* One operation of a body. The constant is 0 for kinds other than set and divide. */
struct jobstore_operation {
    uint8_t kind;
    uint8_t first;
    uint8_t second;
    int64_t constant;
};

/* The most operations of a body, and the length of such a body in bytes. */
#define JOBSTORE_MOST_OPERATIONS 16
#define JOBSTORE_BODY_LENGTH 177

/* Writes m operations, 1 to 16, as a body: a byte m; the operations, 3 bytes each; the constants, 8 bytes each, the lowest
 * byte first. The array has room for 1 + 11m bytes. Returns that length; for another m 0, and early delivery refuses a body
 * of 0 bytes. */
static inline size_t jobstore_encode(uint8_t *body, const struct jobstore_operation *operations, size_t m)
{
    size_t k, b;
    if (m < 1 || JOBSTORE_MOST_OPERATIONS < m)
        return 0;
    body[0] = (uint8_t)m;
    for (k = 0; k < m; k++) {
        body[1 + 3 * k] = operations[k].kind;
        body[2 + 3 * k] = operations[k].first;
        body[3 + 3 * k] = operations[k].second;
        for (b = 0; b < 8; b++)
            body[1 + 3 * m + 8 * k + b] = (uint8_t)((uint64_t)operations[k].constant >> (8 * b));
    }
    return 1 + 11 * m;
}

/* Work. */
struct jobstore_executed {
    uint32_t number;      /* 0, or the refusal */
    uint32_t operations;  /* carried out by this call */
    uint32_t finished;    /* pending jobs that are now finished */
};

/* Final delivery. */
struct jobstore_committed {
    uint32_t number;      /* 0, or the refusal */
    uint32_t outcome;     /* enum jobstore_outcome */
    uint32_t kept;        /* 1: the early results were kept; 0: the job was run again */
    uint32_t stamp;       /* the new commit stamp */
    uint32_t stored;      /* number of objects stored */
    uint32_t operations;  /* carried out by this call: 0 if kept, else those of the run; passed-over ones are not counted */
};

/* Read. */
struct jobstore_value {
    uint32_t number;  /* 0, or the refusal */
    int64_t value;
    uint32_t stamp;   /* of the commit that stored it; of an object untouched since the opening, the start stamp */
};

/* Find. */
struct jobstore_found {
    uint32_t number;  /* 0, or the refusal */
    uint32_t place;   /* in the optimistic order, counted from 0 */
    uint32_t length;  /* of the body, in bytes */
};

/* Show body: bytes of the body area. */
struct jobstore_part {
    uint32_t start;
    uint32_t length;
};

/* Dry run. It has this many places for values, however many objects there are. */
#define JOBSTORE_PREVIEW_PLACES 128
struct jobstore_preview {
    uint32_t number;                          /* 0, or the refusal */
    uint32_t outcome;                         /* enum jobstore_outcome */
    uint32_t kept;                            /* 1: the early results would be kept; 0: the job would be run again */
    uint32_t stamp;                           /* the commit stamp that the job would get */
    int64_t values[JOBSTORE_PREVIEW_PLACES];  /* what each object would hold; 0 past the last object */
};

/* The length of the record area in bytes, for arrays and as the library has it. */
#define JOBSTORE_RECORD_LENGTH 30160
uint32_t jobstore_record_length(void);

/* The length of the body area in bytes, likewise. */
#define JOBSTORE_BODIES_LENGTH 5664
uint32_t jobstore_bodies_length(void);

/* Open: a replica of n objects with these start values, lower and upper bounds (there must be exactly n of each) and this
 * start stamp; nothing pending, every reader closed, every client's last number 0. An object takes the values from its lower
 * to its upper bound, both included; INT64_MIN and INT64_MAX let it take any. Both areas are filled, whatever they held.
 * Returns 0, or refusal 1, 2, 15. */
uint32_t jobstore_open(uint8_t *record, size_t record_length, uint8_t *bodies, size_t bodies_length,
                       uint32_t n, const int64_t *values, size_t values_length, const int64_t *lower, size_t lower_length,
                       const int64_t *upper, size_t upper_length, uint32_t stamp);

/* Early delivery: the key (client 0 to 15, sequence number) and the body go to the end of the optimistic order.
 * A body is as jobstore_encode writes it; it is no part of the body area (see above).
 * Returns 0, or refusal 1, 3, 4, 5, 6, 7. */
uint32_t jobstore_early(uint8_t *record, size_t record_length, uint8_t *bodies, size_t bodies_length,
                        uint32_t client, uint32_t sequence, const uint8_t *body, size_t body_length);

/* Work: carries out at most count operations (0 to 4,096) of the pending jobs, in optimistic order; it stops sooner only
 * when all of them are finished. 16 for each pending job, so 512 at most, finish all of them.
 * Returns the operations carried out and the pending jobs now finished, or refusal 1, 14. */
struct jobstore_executed jobstore_work(uint8_t *record, size_t record_length, const uint8_t *bodies, size_t bodies_length,
                                       uint32_t count);

/* Final delivery of a pending key: the job commits. Its early results are kept where it is finished and every value that it
 * read is still the committed one; else it is run again on the committed table. The stamp rises by 1, whatever the outcome.
 * The client's pending jobs with a lower sequence number leave; of the others the first whose reads no longer match, and
 * all after it, go back to their start.
 * Returns outcome, kept, stamp, number of objects stored and operations carried out, or refusal 1, 3, 4, 8, 9. */
struct jobstore_committed jobstore_final(uint8_t *record, size_t record_length, uint8_t *bodies, size_t bodies_length,
                                         uint32_t client, uint32_t sequence);

/* Open reader (0 to 6): it takes the current stamp and reads the table as it is now until it is closed.
 * Returns 0, or refusal 1, 10, 11. */
uint32_t jobstore_open_reader(uint8_t *record, size_t record_length, const uint8_t *bodies, size_t bodies_length,
                              uint32_t reader);

/* Read: an object's newest version that is not above the reader's stamp. Changes nothing.
 * Returns the version's value and its stamp, or refusal 1, 10, 12, 13. */
struct jobstore_value jobstore_read(const uint8_t *record, size_t record_length, const uint8_t *bodies, size_t bodies_length,
                                    uint32_t reader, uint32_t object);

/* Close: the reader ends, and the versions that it alone held go.
 * Returns 0, or refusal 1, 10, 12. */
uint32_t jobstore_close_reader(uint8_t *record, size_t record_length, const uint8_t *bodies, size_t bodies_length,
                               uint32_t reader);

/* Find a pending key. Changes nothing.
 * Returns its place in the optimistic order and its body's length, or refusal 1, 3, 8. */
struct jobstore_found jobstore_find(const uint8_t *record, size_t record_length, const uint8_t *bodies, size_t bodies_length,
                                    uint32_t client, uint32_t sequence);

/* Show body of a pending key. Changes nothing, and refuses nothing.
 * Returns where in the body area the body stands: `length` bytes from `bodies + start`; 0 and 0 exactly when Find refuses. */
struct jobstore_part jobstore_show_body(const uint8_t *record, size_t record_length, const uint8_t *bodies, size_t bodies_length,
                                        uint32_t client, uint32_t sequence);

/* Dry run of a pending key: what its final delivery would do if it came now, as if it were done on a copy of both areas.
 * Changes nothing.
 * Returns outcome, kept, stamp and every object's value after it, or refusal 1, 3, 4, 8, 9, as the final delivery would. */
struct jobstore_preview jobstore_dry_run(const uint8_t *record, size_t record_length, const uint8_t *bodies, size_t bodies_length,
                                         uint32_t client, uint32_t sequence);

#ifdef __cplusplus
}
#endif

#endif
