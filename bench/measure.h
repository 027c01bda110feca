/* Measures jobs: by time, or one batch of each for a tool that counts instructions. */
#ifndef MEASURE_H
#define MEASURE_H

#include <stddef.h>
#include <stdint.h>

#include "plain.h"
#include "walker.h"

/* Each batch of a job makes this many calls. */
enum { CALLS = 1000 };

/* One thing to measure: what a batch calls, with what, and what came out. */
typedef struct job {
    uint64_t (*batch)(const struct job *); /* gives a sum over all results, to be kept */
    const uint16_t *units;                 /* a table or a code */
    size_t count;
    size_t room_len; /* of the room; of a stream's parts */
    show_number *number;
    show_instant *instant;
    plain_number *plain_number;
    plain_instant *plain_instant;
    double best;         /* nanoseconds a call */
    double instructions; /* a call; 0 where they were not counted */
} job;

/* Runs every job once a round, so that a busy moment of the machine falls on all alike, and fills in its best. */
void measure(job *jobs, size_t count, unsigned rounds);

/* Runs a job's batch once. */
void run_batch(const job *one);

/* To be called behind a job: where a tool that counts instructions writes what it has, and begins anew. */
void job_done(void);

#endif
