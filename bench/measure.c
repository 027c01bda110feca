#define _POSIX_C_SOURCE 199309L

#include "measure.h"

#include <time.h>

/* All results go here, so that the compiler may leave out no call. */
static volatile uint64_t sink;

static double now(void)
{
    struct timespec moment;

    clock_gettime(CLOCK_MONOTONIC, &moment);
    return (double)moment.tv_sec * 1e9 + (double)moment.tv_nsec;
}

void run_batch(const job *one)
{
    sink += one->batch(one);
}

static double time_of(const job *one)
{
    double start = now();

    run_batch(one);
    return (now() - start) / CALLS;
}

void measure(job *jobs, size_t count, unsigned rounds)
{
    unsigned round;
    size_t which;

    for (round = 0; round < rounds; round++)
        for (which = 0; which < count; which++) {
            double time = time_of(&jobs[which]);

            if (round == 0 || time < jobs[which].best)
                jobs[which].best = time;
        }
}

void job_done(void)
{
}
