/*
 * UTF-8 to 16-bit units and back, for the examples. Every byte string is taken:
 * a byte that is no part of a character becomes U+FFFD. Nothing is read past
 * the bytes given, and nothing written past the room.
 */
#ifndef UNITS_H
#define UNITS_H

#include <stddef.h>
#include <stdint.h>
#include <stdio.h>

#define REPLACEMENT 0xfffdu

/* How many bytes a character takes that begins with this one; 0 when none does. */
static inline size_t sequence_length(unsigned char lead)
{
    if (lead < 0x80)
        return 1;
    if (lead < 0xc2 || lead > 0xf4)
        return 0;
    return lead < 0xe0 ? 2 : lead < 0xf0 ? 3 : 4;
}

/* Whether these bytes could have been fewer, or stand for half a pair or for nothing. */
static inline int is_ill_formed(uint32_t character, size_t length)
{
    static const uint32_t least[] = {0, 0, 0x80, 0x800, 0x10000};

    return character < least[length] || character > 0x10ffff || (character & 0xfffff800u) == 0xd800;
}

/* Takes one character off the bytes from `*at` on, of which there is at least one. */
static inline uint32_t next_character(const char *utf8, size_t bytes, size_t *at)
{
    static const unsigned char lead_bits[] = {0, 0x7f, 0x1f, 0x0f, 0x07};
    size_t length = sequence_length((unsigned char)utf8[*at]), next;
    uint32_t character = (unsigned char)utf8[*at] & lead_bits[length];

    for (next = 1; next < length; next++) {
        if (next >= bytes - *at || ((unsigned char)utf8[*at + next] & 0xc0) != 0x80)
            break;
        character = character << 6 | ((unsigned char)utf8[*at + next] & 0x3f);
    }
    if (length == 0 || next < length || is_ill_formed(character, length)) {
        *at += 1;
        return REPLACEMENT;
    }
    *at += length;
    return character;
}

/*
 * The units of UTF-8, two for a character above U+FFFF; what the room does not
 * take is left out. A room with one unit more than the library takes of a code
 * or text is enough: the library then refuses what was too long.
 */
static inline size_t to_units(const char *utf8, size_t bytes, uint16_t *room, size_t room_len)
{
    size_t at = 0, length = 0;

    while (at < bytes && length < room_len) {
        uint32_t character = next_character(utf8, bytes, &at);

        if (character > 0xffff) {
            room[length++] = (uint16_t)(0xd7c0 + (character >> 10));
            character = 0xdc00 | (character & 0x3ff);
            if (length == room_len)
                break;
        }
        room[length++] = (uint16_t)character;
    }
    return length;
}

static inline void put_character(uint32_t character)
{
    if (character < 0x80) {
        putchar((int)character);
        return;
    }
    if (character < 0x800) {
        putchar((int)(0xc0 | character >> 6));
    } else {
        if (character < 0x10000) {
            putchar((int)(0xe0 | character >> 12));
        } else {
            putchar((int)(0xf0 | character >> 18));
            putchar((int)(0x80 | (character >> 12 & 0x3f)));
        }
        putchar((int)(0x80 | (character >> 6 & 0x3f)));
    }
    putchar((int)(0x80 | (character & 0x3f)));
}

static inline int is_first_half(uint16_t unit)
{
    return (unit & 0xfc00) == 0xd800;
}

static inline int is_second_half(uint16_t unit)
{
    return (unit & 0xfc00) == 0xdc00;
}

/* A terminal obeys control characters, so a text may not bring its own. */
static inline int is_control(uint16_t unit)
{
    return unit < 0x20 || (unit >= 0x7f && unit < 0xa0);
}

/* Writes units as UTF-8. Half a pair is no character: it becomes U+FFFD, as control characters do. */
static inline void put_units(const uint16_t *units, size_t length)
{
    size_t at;

    for (at = 0; at < length; at++) {
        if (is_first_half(units[at]) && at + 1 < length && is_second_half(units[at + 1])) {
            put_character(0x10000u + ((units[at] & 0x3ffu) << 10) + (units[at + 1] & 0x3ffu));
            at++;
        } else if (is_first_half(units[at]) || is_second_half(units[at]) || is_control(units[at])) {
            put_character(REPLACEMENT);
        } else {
            put_character(units[at]);
        }
    }
}

#endif
