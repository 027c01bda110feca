/*
 * A code that comes over a slow link: it is read from standard input as it
 * arrives, and each part is fed to a stream. Behind the last part the values
 * named as arguments are shown.
 *
 *   cc -std=c99 -Iinclude examples/link.c target/staticlib/libc_api.a -o target/link && printf '#,##0' | target/link 12408
 */
#define _POSIX_C_SOURCE 200112L
#include <unistd.h>

#include "row.h"

enum { PART_BYTES = 64 };

/* How many of these bytes are whole characters: a character that the link has cut waits for its rest. */
static size_t whole_bytes(const char *bytes, size_t length)
{
    size_t back;

    for (back = 1; back <= 3 && back <= length; back++) {
        size_t needed = sequence_length((unsigned char)bytes[length - back]);

        if (needed != 0)
            return needed > back ? length - back : length;
    }
    return length;
}

static numfmt_stream feed(numfmt_stream code, const char *bytes, size_t length)
{
    uint16_t part[PART_BYTES];

    return numfmt_stream_feed(code, part, to_units(bytes, length, part, PART_BYTES)).stream;
}

/* Feeds what comes until the link is closed. 0 where it broke: what has come is then no whole code. */
static int read_code(numfmt_stream *code)
{
    char bytes[PART_BYTES];
    size_t waiting = 0;
    ssize_t came;

    while ((came = read(STDIN_FILENO, bytes + waiting, sizeof bytes - waiting)) > 0) {
        size_t length = waiting + (size_t)came, whole = whole_bytes(bytes, length);

        *code = feed(*code, bytes, whole);
        waiting = length - whole;
        memmove(bytes, bytes + whole, waiting);
    }
    *code = feed(*code, bytes, waiting);
    return came == 0;
}

/* Exit status 0 when the code was taken and every value shown, else 1. */
int main(int count, char **arguments)
{
    uint16_t table[NUMFMT_TABLE_WORDS];
    numfmt_stream code = numfmt_stream_start();
    numfmt_prepared made;
    int at, all = 1;

    if (!read_code(&code)) {
        perror("the link");
        return 1;
    }
    made = numfmt_stream_end(code, table, NUMFMT_TABLE_WORDS).prepared;
    if (made.answer != NUMFMT_ANSWER_DONE) {
        put_refusal(made.answer, made.place);
        return 1;
    }
    for (at = 1; at < count; at++) {
        value asked = value_of(arguments[at]);

        all &= put_value(table, made.words, &asked);
    }
    return all ? 0 : 1;
}
