/* What a call costs: see README.md beside this file. */
#include <stdio.h>
#include <stdlib.h>
#include <string.h>

#include "compare.h"
#include "jobs.h"
#include "values.h"

enum { RANDOM_TABLES = 100000, RANDOM_SEED = 1 };

/* Tables */

/* Nanoseconds, and instructions where they were counted. */
static void print_cell(const job *of)
{
    printf(" %.0f", of->best);
    if (of->instructions > 0)
        printf(" / %.0f", of->instructions);
    printf(" |");
}

static void print_ratio(const job *of, const job *to)
{
    printf(" %.2f", of->best / to->best);
    if (to->instructions > 0)
        printf(" / %.2f", of->instructions / to->instructions);
    printf(" |");
}

/* The walker's cell and the library's beside it; two empty ones where the walker does not know the code. */
static void print_walker(size_t library, size_t walker, size_t at)
{
    if (at >= WALKED) {
        printf(" | |");
        return;
    }
    print_cell(&jobs[walker + at]);
    print_ratio(&jobs[library + at], &jobs[walker + at]);
}

/* What a scientific section or a fraction costs beside a number section. */
static void print_beside(size_t which, size_t library, const char *room)
{
    printf("| `%s` to `%s`, %s |", specimens[which].code, specimens[FIXED].code, room);
    print_ratio(&jobs[library + which], &jobs[library + FIXED]);
    printf("\n");
}

static void print_showing(const char *numbers)
{
    size_t at;

    printf("### Showing %s\n\nA call: nanoseconds / instructions\n\n", numbers);
    printf("| code | library | walker | library/walker | plain C | library, room of %d | walker, room of %d | library/walker |\n",
           SHORT_ROOM, SHORT_ROOM);
    printf("|---|---|---|---|---|---|---|---|\n");
    for (at = 0; at < SPECIMENS; at++) {
        printf("| `%s` |", specimens[at].code);
        print_cell(&jobs[LIBRARY + at]);
        print_walker(LIBRARY, WALKER, at);
        print_cell(&jobs[PLAIN + at]);
        print_cell(&jobs[LIBRARY_SHORT + at]);
        print_walker(LIBRARY_SHORT, WALKER_SHORT, at);
        printf("\n");
    }
    printf("| `snprintf(\"%%.2f\")` | | | |");
    print_cell(&jobs[PRINT]);
    printf(" | | |\n\n| library | ratio |\n|---|---|\n");
    for (at = WALKED; at < SPECIMENS; at++) {
        print_beside(at, LIBRARY, "long room");
        print_beside(at, LIBRARY_SHORT, "short room");
    }
    printf("\n");
}

static void print_prepare_row(const char *code, const job *one, const job *shown)
{
    printf("| %s | %zu |", code, one->count);
    print_cell(one);
    printf(" %.1f |", one->best / (double)one->count);
    if (shown != NULL)
        print_ratio(one, shown);
    else
        printf(" |");
    printf("\n");
}

static void print_preparing(void)
{
    char code[40];
    size_t at;

    printf("### Preparing\n\nA call: nanoseconds / instructions\n\n");
    printf("| code | units | a call | nanoseconds a unit | in shows |\n|---|---|---|---|---|\n");
    for (at = 0; at < SPECIMENS; at++) {
        snprintf(code, sizeof code, "`%s`", specimens[at].code);
        print_prepare_row(code, &jobs[PREPARE + at], &jobs[LIBRARY + at]);
    }
    print_prepare_row("10 places, 240 literals", &jobs[PREPARE_LONGEST], NULL);
    printf("\n");
}

/* A put beside the show that it makes, a clear, and what passing a board costs by itself. */
static void print_boards(void)
{
    if (!has_boards())
        return;
    printf("### Boards\n\nA call: nanoseconds / instructions\n\n| `%s` shown | put in a row | more | a row cleared | a board passed |\n|---|---|---|---|---|\n|",
           specimens[0].code);
    print_cell(&jobs[LIBRARY]);
    print_cell(&jobs[PUT]);
    printf(" %.0f |", jobs[PUT].best - jobs[LIBRARY].best);
    print_cell(&jobs[CLEAR]);
    print_cell(&jobs[HANDED]);
    printf("\n\n");
}

/* A code that comes in parts beside the same prepared at once; a feed by what the code costs in more parts than one. */
static void print_streams(void)
{
    if (!has_streams())
        return;
    printf("### Streams\n\nA code: nanoseconds / instructions\n\n| `%s` prepared | as a stream, in one part | more | in %zu parts | a part |\n|---|---|---|---|---|\n|",
           specimens[0].code, jobs[STREAM].count);
    print_cell(&jobs[PREPARE]);
    print_cell(&jobs[STREAM]);
    printf(" %.0f |", jobs[STREAM].best - jobs[PREPARE].best);
    print_cell(&jobs[STREAM_BY_UNITS]);
    printf(" %.0f |\n\n", (jobs[STREAM_BY_UNITS].best - jobs[STREAM].best) / (double)(jobs[STREAM].count - 1));
}

static double one_more(const double *counts, const job *grown, size_t at)
{
    return (grown[at].best - grown[at - 1].best) / (counts[at] - counts[at - 1]);
}

/* Prints a table, and writes a block for gnuplot: the count, and the best in the ample room and in the short one. */
static void print_growth(FILE *data, const char *of, const double *counts, const job *ample, const job *narrow, size_t count)
{
    size_t at;

    printf("| %s | ample room | one more | short room | one more |\n|---|---|---|---|---|\n", of);
    for (at = 0; at < count; at++) {
        if (at == 0)
            printf("| %.0f | %.0f | | %.0f | |\n", counts[at], ample[at].best, narrow[at].best);
        else
            printf("| %.0f | %.0f | %.1f | %.0f | %.1f |\n", counts[at], ample[at].best, one_more(counts, ample, at),
                   narrow[at].best, one_more(counts, narrow, at));
        fprintf(data, "%.0f %.1f %.1f\n", counts[at], ample[at].best, narrow[at].best);
    }
    printf("\n");
    fprintf(data, "\n\n");
}

static void print_growths(FILE *data)
{
    printf("### Growth\n\nA call: nanoseconds\n\n");
    print_growth(data, "literal items", literal_counts, jobs + BY_LITERALS, jobs + BY_LITERALS_SHORT, LITERALS);
    print_growth(data, "places", place_counts, jobs + BY_PLACES, jobs + BY_PLACES_SHORT, PLACES);
    print_growth(data, "sections", section_counts, jobs + BY_SECTIONS, jobs + BY_SECTIONS_SHORT, SECTIONS);
}

/* Modes */

static FILE *opened(const char *path, const char *mode)
{
    FILE *file = fopen(path, mode);

    if (file == NULL) {
        perror(path);
        exit(1);
    }
    return file;
}

/* One line for each job, of a batch's instructions; an empty file where none were counted. */
static void read_counts(FILE *counts)
{
    size_t at;
    double batch;

    for (at = 0; at < COUNTED; at++)
        jobs[at].instructions = fscanf(counts, "%lf", &batch) == 1 ? batch / CALLS : 0;
}

static void measure_on(number_sort sort, size_t count, unsigned rounds, FILE *counts)
{
    make_values(sort);
    compare_specimens();
    read_counts(counts);
    measure(jobs, count, rounds);
}

static void print_tables(const char *counts_path, const char *data_path, unsigned rounds)
{
    FILE *counts = opened(counts_path, "r"), *data = opened(data_path, "w");

    compare_random(RANDOM_TABLES, RANDOM_SEED);
    printf("\n");
    measure_on(AMOUNTS, COUNTED, rounds, counts);
    print_showing("amounts");
    print_boards();
    measure_on(MIXED, JOBS, rounds, counts);
    print_showing("mixed numbers");
    print_preparing();
    print_streams();
    print_growths(data);
    fclose(counts);
    if (fclose(data) != 0) {
        perror(data_path);
        exit(1);
    }
}

/* What is run under a tool that counts: the jobs in the order in which read_counts takes them. */
static void run_for_counts(number_sort sort)
{
    size_t which;

    make_values(sort);
    for (which = 0; which < COUNTED; which++) {
        run_batch(&jobs[which]);
        job_done();
    }
}

int main(int count, char **arguments)
{
    make_jobs();
    if (count == 5 && strcmp(arguments[1], "tables") == 0)
        print_tables(arguments[2], arguments[3], (unsigned)strtoul(arguments[4], NULL, 10));
    else if (count == 4 && strcmp(arguments[1], "compare") == 0)
        compare_random(strtoull(arguments[2], NULL, 10), strtoull(arguments[3], NULL, 10));
    else if (count == 2 && strcmp(arguments[1], "once") == 0) {
        run_for_counts(AMOUNTS);
        run_for_counts(MIXED);
    } else {
        fprintf(stderr, "usage: bench tables COUNTS DATA ROUNDS | bench compare TABLES SEED | bench once\n");
        return 2;
    }
    return 0;
}
