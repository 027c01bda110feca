/* The codes of the benchmark, and every job of a run: all of them in one, so that all ratios are of the same minutes. */
#ifndef JOBS_H
#define JOBS_H

#include "measure.h"

/*
 * Rooms, in units. The library writes at once where the room surely takes the
 * text, and measures the text first where it may not. A room of AMPLE takes the
 * longest text that any section shows for a number.
 */
enum { ROOM = 4096, SHORT_ROOM = 64, AMPLE = 82 * NUMFMT_CODE_MOST + 1 };

/* The walker knows the specimens before WALKED. SCIENTIFIC and FRACTION are set beside FIXED. */
enum { FIXED = 1, SCIENTIFIC = 6, FRACTION, SPECIMENS, WALKED = SCIENTIFIC };

enum { LITERALS = 7, PLACES = 8, SECTIONS = 4 };

/* A code's units and its table. */
typedef struct {
    uint16_t code[NUMFMT_CODE_MOST];
    size_t code_len;
    uint16_t table[NUMFMT_TABLE_WORDS];
    size_t words;
} prepared;

/* A code with the hand-written formatter for it; a number's or an instant's. */
typedef struct {
    const char *code;
    plain_number *number;
    plain_instant *instant;
    prepared made;
} specimen;

extern specimen specimens[SPECIMENS];
extern const double literal_counts[LITERALS], place_counts[PLACES], section_counts[SECTIONS];

/* Each name is where its jobs begin. Those before COUNTED are counted by instructions too. */
enum {
    PRINT,
    LIBRARY,
    LIBRARY_SHORT = LIBRARY + SPECIMENS,
    WALKER = LIBRARY_SHORT + SPECIMENS,
    WALKER_SHORT = WALKER + WALKED,
    PLAIN = WALKER_SHORT + WALKED,
    PREPARE = PLAIN + SPECIMENS,
    PREPARE_LONGEST = PREPARE + SPECIMENS,
    PUT,
    CLEAR,
    HANDED,
    STREAM,
    STREAM_BY_UNITS,
    COUNTED,
    BY_LITERALS = COUNTED,
    BY_LITERALS_SHORT = BY_LITERALS + LITERALS,
    BY_PLACES = BY_LITERALS_SHORT + LITERALS,
    BY_PLACES_SHORT = BY_PLACES + PLACES,
    BY_SECTIONS = BY_PLACES_SHORT + PLACES,
    BY_SECTIONS_SHORT = BY_SECTIONS + SECTIONS,
    JOBS = BY_SECTIONS_SHORT + SECTIONS
};

extern job jobs[JOBS];

/* Prepares the codes and fills in the jobs; ends the program where a code is refused. */
void make_jobs(void);

/* Whether the archive has boards: one from before them has not, and its jobs PUT and CLEAR are HANDED's then. */
int has_boards(void);

/* Whether the archive has streams: one from before them has not, and its jobs STREAM and STREAM_BY_UNITS are PREPARE's then. */
int has_streams(void);

#endif
