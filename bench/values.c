#include "values.h"

#include <stddef.h>

#include "powers.h"
#include "random.h"

int64_t coefficients[CALLS];
uint32_t scales[CALLS];
double doubles[CALLS];
uint32_t days[CALLS], milliseconds[CALLS];

static uint64_t state = 88172645463325252u;

/* Mixed numbers have up to ten digits, at most four of them behind the point; amounts up to eight, two of them. */
static void make_number(size_t at, number_sort sort)
{
    int64_t most = (int64_t)power_of_ten[sort == AMOUNTS ? 8 : 4 + random_bits(&state) % 7];
    int64_t magnitude = (int64_t)(random_bits(&state) % (uint64_t)most);

    coefficients[at] = random_bits(&state) % 2 ? -magnitude : magnitude;
    scales[at] = sort == AMOUNTS ? 2 : (uint32_t)(random_bits(&state) % 5);
    doubles[at] = (double)coefficients[at] / (double)power_of_ten[scales[at]];
}

/*
 * Every second day lies between 1950 and 2050, the others anywhere. Each is
 * drawn from a stretch of its own, so that no two are the same, and the
 * stretches are taken out of order.
 */
static void make_instant(size_t at)
{
    uint64_t stretch = at * 617 % CALLS;
    uint64_t near = 18264 + 36 * stretch + random_bits(&state) % 36;
    uint64_t any = 2958 * stretch + random_bits(&state) % 2958;

    days[at] = (uint32_t)(at % 2 ? near : any);
    milliseconds[at] = (uint32_t)(random_bits(&state) % 86400000);
}

void make_values(number_sort sort)
{
    size_t at;

    for (at = 0; at < CALLS; at++) {
        make_number(at, sort);
        make_instant(at);
    }
}
