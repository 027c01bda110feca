/*
 * A card of tables: codes are prepared where the list is kept, and only their
 * tables travel to the displays.
 *
 *   card write CARD CODE...   prepares the codes and writes their tables
 *   card show CARD VALUE...   loads the card and shows each value through each table
 *
 * A card is 16-bit words, each with its low byte first: how many tables there
 * are, then for each table how many words it has, and these words; last a check
 * word over all bytes before it. A card that was cut, made longer or changed is
 * told, and nothing of it is shown. The check word tells a change that leaves
 * every table sound; numfmt_check tells a table that was written wrong.
 *
 *   cc -std=c99 -Iinclude examples/card.c target/staticlib/libc_api.a -o target/card
 */
#include "row.h"

enum { TABLES_MOST = 64 };

typedef struct {
    uint16_t count;
    uint16_t lengths[TABLES_MOST];
    uint16_t tables[TABLES_MOST][NUMFMT_TABLE_WORDS];
} card;

/* A card's file with the check word over the bytes that went through it. */
typedef struct {
    FILE *file;
    uint16_t check;
} stream;

/* CRC-16 with the polynomial x^16 + x^12 + x^5 + 1, from all ones, so that a file of zeros is no card. */
enum { CHECK_START = 0xffff };

static uint16_t check_with(uint16_t check, unsigned byte)
{
    unsigned sum = check ^ byte << 8;
    int bit;

    for (bit = 0; bit < 8; bit++)
        sum = (sum & 0x8000u) != 0 ? sum << 1 ^ 0x1021u : sum << 1;
    return (uint16_t)(sum & 0xffffu);
}

static int put_word(stream *out, uint16_t word)
{
    unsigned low = word & 0xffu, high = word >> 8;

    out->check = check_with(check_with(out->check, low), high);
    return putc((int)low, out->file) != EOF && putc((int)high, out->file) != EOF;
}

/* 0 when the file ends before the word does. */
static int get_word(stream *in, uint16_t *word)
{
    int low = getc(in->file), high = getc(in->file);

    if (low == EOF || high == EOF)
        return 0;
    in->check = check_with(check_with(in->check, (unsigned)low), (unsigned)high);
    *word = (uint16_t)((unsigned)low | (unsigned)high << 8);
    return 1;
}

static int put_table(stream *out, const uint16_t *table, uint16_t length)
{
    int done = put_word(out, length);
    size_t at;

    for (at = 0; done && at < length; at++)
        done = put_word(out, table[at]);
    return done;
}

static int put_card(stream *out, const card *made)
{
    int done = put_word(out, made->count);
    size_t at;

    for (at = 0; done && at < made->count; at++)
        done = put_table(out, made->tables[at], made->lengths[at]);
    return done && put_word(out, out->check);
}

/* What is wrong with the next table, or NULL. */
static const char *get_table(stream *in, uint16_t *table, uint16_t *length)
{
    size_t at;

    if (!get_word(in, length))
        return "it was cut";
    if (*length > NUMFMT_TABLE_WORDS)
        return "a table has more words than a table can have";
    for (at = 0; at < *length; at++)
        if (!get_word(in, &table[at]))
            return "it was cut";
    return NULL;
}

/* What is wrong behind the tables, or NULL. */
static const char *get_end(stream *in)
{
    uint16_t check = in->check, written;

    if (!get_word(in, &written))
        return "it was cut";
    if (getc(in->file) != EOF)
        return "there are bytes behind its end";
    return written == check ? NULL : "its check word does not fit";
}

/* What is wrong with a card's file, or NULL. */
static const char *get_card(stream *in, card *loaded)
{
    const char *fault = NULL;
    size_t at;

    if (!get_word(in, &loaded->count))
        return "it was cut";
    if (loaded->count > TABLES_MOST)
        return "it has more tables than a card can have";
    for (at = 0; fault == NULL && at < loaded->count; at++)
        fault = get_table(in, loaded->tables[at], &loaded->lengths[at]);
    if (fault == NULL)
        fault = get_end(in);
    for (at = 0; fault == NULL && at < loaded->count; at++)
        if (numfmt_check(loaded->tables[at], loaded->lengths[at]) != NUMFMT_ANSWER_DONE)
            fault = numfmt_answer_text(NUMFMT_ANSWER_TABLE);
    return fault;
}

/* Prepares the codes that are accepted; a refused one is told and left out. 1 when there was none. */
static int prepare_card(int count, char **codes, card *made)
{
    int at, all = 1;

    for (at = 0; at < count; at++) {
        numfmt_prepared one = prepare_code(codes[at], made->tables[made->count]);

        if (one.answer == NUMFMT_ANSWER_DONE) {
            made->lengths[made->count++] = (uint16_t)one.words;
        } else {
            printf("Code %-13d ", at + 1);
            put_refusal(one.answer, one.place);
            all = 0;
        }
    }
    return all;
}

static int write_card(const char *name, int count, char **codes)
{
    static card made;
    stream out = {NULL, CHECK_START};
    int all, done;

    if (count > TABLES_MOST) {
        fprintf(stderr, "card: at most %d codes\n", TABLES_MOST);
        return 2;
    }
    all = prepare_card(count, codes, &made);
    out.file = fopen(name, "wb");
    if (out.file == NULL) {
        perror(name);
        return 3;
    }
    done = put_card(&out, &made);
    if (fclose(out.file) != 0 || !done) {
        fprintf(stderr, "%s: could not be written\n", name);
        return 3;
    }
    printf("%u tables written\n", (unsigned)made.count);
    return all ? 0 : 1;
}

static int put_values(const card *loaded, int count, char **values)
{
    int at, all = 1;
    size_t table;

    for (table = 0; table < loaded->count; table++)
        for (at = 0; at < count; at++) {
            value asked = value_of(values[at]);

            printf("Table %-3lu value %-3d ", (unsigned long)table + 1, at + 1);
            all &= put_value(loaded->tables[table], loaded->lengths[table], &asked);
        }
    return all;
}

static int show_card(const char *name, int count, char **values)
{
    static card loaded;
    stream in = {NULL, CHECK_START};
    const char *fault;

    in.file = fopen(name, "rb");
    if (in.file == NULL) {
        perror(name);
        return 3;
    }
    fault = get_card(&in, &loaded);
    fclose(in.file);
    if (fault != NULL) {
        printf("damaged card: %s\n", fault);
        return 1;
    }
    return put_values(&loaded, count, values) ? 0 : 1;
}

/* Exit status 0 when all was done, 1 when something was refused, 2 for a wrong use, 3 for a file that can't be used. */
int main(int count, char **arguments)
{
    if (count > 3 && strcmp(arguments[1], "write") == 0)
        return write_card(arguments[2], count - 3, arguments + 3);
    if (count > 3 && strcmp(arguments[1], "show") == 0)
        return show_card(arguments[2], count - 3, arguments + 3);
    fprintf(stderr, "usage: card write CARD CODE... | card show CARD VALUE...\n");
    return 2;
}
