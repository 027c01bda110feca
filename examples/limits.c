/*
 * The limits that the header names, tried: rooms that just take the widest
 * texts and the longest table, and the stack that each call takes. A line for
 * each; exit status 1 when one is not as named.
 *
 *   cc -std=c99 -Iinclude examples/limits.c target/staticlib/libc_api.a -pthread -o target/limits && target/limits
 */
#define _POSIX_C_SOURCE 200112L
#include <pthread.h>
#include <stdio.h>
#include <stdlib.h>
#include <string.h>

#include "numfmt.h"

enum { HEAD_WORDS = 13, ITEMS = 254, STACK = 1 << 18, PAINT = 0xa5 };

static uint16_t code[NUMFMT_CODE_MOST], table[NUMFMT_TABLE_WORDS], text[NUMFMT_TEXT_MOST], room[NUMFMT_SHOWN_TEXT_MOST];
static size_t code_length;
static numfmt_prepared made;
static numfmt_stream stream;

static int told(const char *what, unsigned long found, unsigned long named, int holds)
{
    printf("%s: %lu, named %lu\n", what, found, named);
    return holds;
}

static void take_code(const char *ascii)
{
    for (code_length = 0; ascii[code_length] != '\0'; code_length++)
        code[code_length] = (unsigned char)ascii[code_length];
}

static void prepare(void)
{
    made = numfmt_prepare(code, code_length, table, NUMFMT_TABLE_WORDS);
}

/* The code of 254 signs @, through which a text or number is shown 254 times. */
static void prepare_texts(void)
{
    for (code_length = 0; code_length < NUMFMT_CODE_MOST; code_length++)
        code[code_length] = '@';
    prepare();
}

/* A table that no code makes: elapsed seconds, and then 253 times the name of the weekday. */
static void make_names(void)
{
    static const uint16_t head[] = {1, 4, 0, 0, 0, 0, 0, 0, 0, 0, 0, 0, ITEMS, 20, 1};
    size_t at;

    memcpy(table, head, sizeof head);
    for (at = 1; at < ITEMS; at++) {
        table[HEAD_WORDS + 2 * at] = 13;
        table[HEAD_WORDS + 2 * at + 1] = 4;
    }
    made.words = HEAD_WORDS + 2 * ITEMS;
}

/* The text just fits the room that is named for it, and not one unit less. */
static int fits(const char *what, numfmt_shown just, numfmt_shown less, unsigned long named)
{
    return told(what, just.length, named,
                just.answer == NUMFMT_ANSWER_DONE && just.length == named && less.answer == NUMFMT_ANSWER_TEXT_ROOM);
}

static int widest_texts(void)
{
    const uint32_t wednesday = 2958463, last_millisecond = 86399999;
    int all = 1;

    prepare_texts();
    all &= fits("units of a number", numfmt_show_number(table, made.words, -1234567891, 9, room, NUMFMT_SHOWN_NUMBER_MOST),
                numfmt_show_number(table, made.words, -1234567891, 9, room, NUMFMT_SHOWN_NUMBER_MOST - 1),
                NUMFMT_SHOWN_NUMBER_MOST);
    all &= fits("units of a text", numfmt_show_text(table, made.words, text, NUMFMT_TEXT_MOST, room, NUMFMT_SHOWN_TEXT_MOST),
                numfmt_show_text(table, made.words, text, NUMFMT_TEXT_MOST, room, NUMFMT_SHOWN_TEXT_MOST - 1),
                NUMFMT_SHOWN_TEXT_OF(NUMFMT_TEXT_MOST));
    make_names();
    all &= fits("units of an instant",
                numfmt_show_instant(table, made.words, wednesday, last_millisecond, room, NUMFMT_SHOWN_INSTANT_MOST),
                numfmt_show_instant(table, made.words, wednesday, last_millisecond, room, NUMFMT_SHOWN_INSTANT_MOST - 1),
                NUMFMT_SHOWN_INSTANT_MOST);
    return all;
}

static void *do_nothing(void *unused) { return unused; }
static void *do_prepare(void *unused) { prepare(); return unused; }
static void *do_section(void *unused) { numfmt_section(code, code_length, 3); return unused; }
static void *do_check(void *unused) { numfmt_check(table, made.words); return unused; }

static void *do_number(void *unused)
{
    numfmt_show_number(table, made.words, -123456789012345, 4, room, NUMFMT_SHOWN_TEXT_MOST);
    return unused;
}

static void *do_instant(void *unused)
{
    numfmt_show_instant(table, made.words, 45579, 59763000, room, NUMFMT_SHOWN_TEXT_MOST);
    return unused;
}

static void *do_text(void *unused)
{
    numfmt_show_text(table, made.words, text, NUMFMT_TEXT_MOST, room, NUMFMT_SHOWN_TEXT_MOST);
    return unused;
}

/* In a room that surely takes the text, and in one for which it is measured. */
static void *do_why_number(void *unused)
{
    numfmt_why_number(table, made.words, -123456789012345, 4, NUMFMT_SHOWN_TEXT_MOST);
    numfmt_why_number(table, made.words, -123456789012345, 4, 64);
    return unused;
}

static void *do_why_instant(void *unused)
{
    numfmt_why_instant(table, made.words, 45579, 59763000, NUMFMT_SHOWN_TEXT_MOST);
    numfmt_why_instant(table, made.words, 45579, 59763000, 64);
    return unused;
}

static void *do_why_text(void *unused)
{
    numfmt_why_text(table, made.words, text, NUMFMT_TEXT_MOST, NUMFMT_SHOWN_TEXT_MOST);
    numfmt_why_text(table, made.words, text, NUMFMT_TEXT_MOST, 64);
    return unused;
}

static void *do_put(void *unused)
{
    numfmt_board_put_number(numfmt_board_empty(), 63, table, made.words, -123456789012345, 4, room, NUMFMT_SHOWN_TEXT_MOST);
    return unused;
}

static void *do_clear(void *unused)
{
    numfmt_board_clear(numfmt_board_empty(), 63);
    return unused;
}

static void *do_start(void *unused) { numfmt_stream_start(); return unused; }
static void *do_feed(void *unused) { numfmt_stream_feed(stream, code, code_length); return unused; }
static void *do_end(void *unused) { numfmt_stream_end(stream, table, NUMFMT_TABLE_WORDS); return unused; }

/* How much of a painted stack a thread changes. */
static unsigned long stack_of(void *(*call)(void *), unsigned char *stack)
{
    pthread_t thread;
    pthread_attr_t attributes;
    unsigned long at = 0;

    memset(stack, PAINT, STACK);
    if (pthread_attr_init(&attributes) != 0 || pthread_attr_setstack(&attributes, stack, STACK) != 0
        || pthread_create(&thread, &attributes, call, NULL) != 0 || pthread_join(thread, NULL) != 0) {
        fputs("limits: no thread\n", stderr);
        exit(2);
    }
    pthread_attr_destroy(&attributes);
    while (at < STACK && stack[at] == PAINT)
        at++;
    return STACK - at;
}

/* The deepest stack of a call over codes of every kind, without what a thread takes itself. */
static int stack_told(const char *name, void *(*call)(void *), unsigned char *stack)
{
    static const char *const codes[] = {
        "#,##0.00;[Red](#,##0.00);\"none\";\"text: \"@", "dddd, d mmmm yyyy h:mm:ss.000 AM/PM", "[h]:mm:ss.00", "General",
        "##0.000E+00;[Red]0.0E-000", "# ?\?\?/\?\?\?;[Red]0/999", "[>100]#,##0,,;[<=-1.5]0.00%%;General;@", "\"x\"@\"y\"@",
        "0;0;0;0;0", "\"broken"};
    unsigned long deepest = 0, empty = stack_of(do_nothing, stack), used;
    size_t at;

    for (at = 0; at < sizeof codes / sizeof codes[0]; at++) {
        take_code(codes[at]);
        prepare();
        stream = numfmt_stream_feed(numfmt_stream_start(), code, code_length).stream;
        used = stack_of(call, stack);
        deepest = used > deepest ? used : deepest;
    }
    deepest = deepest > empty ? deepest - empty : 0;
    return told(name, deepest, NUMFMT_STACK_BYTES, deepest <= NUMFMT_STACK_BYTES);
}

static int stacks(void)
{
    void *stack;
    int all = 1;

    if (posix_memalign(&stack, 4096, STACK) != 0)
        return 0;
    all &= stack_told("stack of numfmt_prepare", do_prepare, (unsigned char *)stack);
    all &= stack_told("stack of numfmt_section", do_section, (unsigned char *)stack);
    all &= stack_told("stack of numfmt_check", do_check, (unsigned char *)stack);
    all &= stack_told("stack of numfmt_show_number", do_number, (unsigned char *)stack);
    all &= stack_told("stack of numfmt_show_instant", do_instant, (unsigned char *)stack);
    all &= stack_told("stack of numfmt_show_text", do_text, (unsigned char *)stack);
    all &= stack_told("stack of numfmt_why_number", do_why_number, (unsigned char *)stack);
    all &= stack_told("stack of numfmt_why_instant", do_why_instant, (unsigned char *)stack);
    all &= stack_told("stack of numfmt_why_text", do_why_text, (unsigned char *)stack);
    all &= stack_told("stack of numfmt_board_put_number", do_put, (unsigned char *)stack);
    all &= stack_told("stack of numfmt_board_clear", do_clear, (unsigned char *)stack);
    all &= stack_told("stack of numfmt_stream_start", do_start, (unsigned char *)stack);
    all &= stack_told("stack of numfmt_stream_feed", do_feed, (unsigned char *)stack);
    all &= stack_told("stack of numfmt_stream_end", do_end, (unsigned char *)stack);
    free(stack);
    return all;
}

int main(void)
{
    int texts = widest_texts(), deep = stacks();

    return texts && deep ? 0 : 1;
}
