/*
 * Changes of an input: of bits, bytes, numbers of four bytes and stretches, and in a text in JSON of its numbers, strings,
 * brackets and whole values.
 */
#include "mutate.h"

#include <ctype.h>
#include <string.h>

#define COUNT(list) (sizeof(list) / sizeof *(list))

/* A stretch of an input. */
struct range {
    size_t begin, end;
};

static const uint32_t EXTREMES[] = {0, 1, 2, 255, 256, 4095, 4096, 65535, 65536, 0x7fffffff, 0x80000000, 0xfffffffe, 0xffffffff};
/* What stands in the place of a value. */
static const char *const VALUES[] = {
    "0", "1", "-1", "2", "3", "7", "8", "9", "31", "32", "33", "63", "64", "65", "127", "128", "255", "256", "257", "1000", "4095", "4096",
    "4097", "32767", "32768", "65535", "65536", "2147483647", "2147483648", "-2147483648", "4294967295", "4294967296",
    "18446744073709551616", "0.5", "1e3", "1e999", "-0", "\"0\"", "\"1.5\"", "\"-1\"", "\"0.000001\"", "\"9999999999.999999\"", "\"\"",
    "\"x\"", "\"\\u0000\"", "null", "true", "false", "[]", "{}", "[[]]"};

static uint64_t word = 88172645463325252;

void seed_draws(uint64_t seed)
{
    word ^= seed * 0x9e3779b97f4a7c15;
}

uint32_t draw(uint32_t bound)
{
    word ^= word << 13;
    word ^= word >> 7;
    word ^= word << 17;
    return bound ? (uint32_t)((word >> 16) % bound) : 0;
}

/* Puts other bytes into the place of a stretch, if there is room for them. */
static void replace(struct bytes *bytes, struct range gone, const void *put, size_t length)
{
    size_t behind = bytes->length - gone.end;
    if (gone.begin + length + behind > MOST_BYTES)
        return;
    static uint8_t kept[MOST_BYTES]; /* what is put in may be a part of what is changed */
    memcpy(kept, put, length);
    memmove(bytes->at + gone.begin + length, bytes->at + gone.end, behind);
    memcpy(bytes->at + gone.begin, kept, length);
    bytes->length = gone.begin + length + behind;
}

/* ---- bytes */

static struct range stretch(const struct bytes *bytes)
{
    static const size_t LENGTHS[] = {1, 1, 2, 4, 4, 8, 16, 40, 200, 1000};
    size_t begin = draw(bytes->length + 1), end = begin + LENGTHS[draw(COUNT(LENGTHS))];
    return (struct range){begin, end < bytes->length ? end : bytes->length};
}

static struct range before(size_t place)
{
    return (struct range){place, place};
}

static void flip(struct bytes *bytes)
{
    bytes->at[draw(bytes->length)] ^= 1 << draw(8);
}

static void set_byte(struct bytes *bytes)
{
    bytes->at[draw(bytes->length)] = draw(3) ? draw(256) : (uint8_t)EXTREMES[draw(COUNT(EXTREMES))];
}

/* A number of one, two or four bytes, the least first, becomes an extreme one, or a little more or less. */
static void set_number(struct bytes *bytes)
{
    size_t size = 1 << draw(3), place = draw(bytes->length);
    uint32_t number = 0;
    if (place + size > bytes->length)
        return;
    memcpy(&number, bytes->at + place, size);
    number = draw(2) ? EXTREMES[draw(COUNT(EXTREMES))] : number + draw(17) - 8;
    memcpy(bytes->at + place, &number, size);
}

static void drop(struct bytes *bytes)
{
    replace(bytes, stretch(bytes), "", 0);
}

static void repeat(struct bytes *bytes)
{
    struct range range = stretch(bytes);
    for (uint32_t times = draw(4) ? 1 : 1 + draw(40); times > 0; times--)
        replace(bytes, before(range.end), bytes->at + range.begin, range.end - range.begin);
}

static void move(struct bytes *bytes)
{
    struct range from = stretch(bytes), to = stretch(bytes);
    replace(bytes, draw(2) ? to : before(to.begin), bytes->at + from.begin, from.end - from.begin);
}

/* A stretch of the other input stands in the place of one, mostly of the same place. */
static void splice(struct bytes *bytes, const struct bytes *other)
{
    struct range from = stretch(other), to = draw(3) ? from : stretch(bytes);
    if (to.end <= bytes->length)
        replace(bytes, draw(3) ? to : before(to.begin), other->at + from.begin, from.end - from.begin);
}

/* It begins like the one and ends like the other. */
static void cross(struct bytes *bytes, const struct bytes *other)
{
    size_t place = draw(bytes->length + 1), from = draw(2) ? place : draw(other->length + 1);
    if (from < other->length)
        replace(bytes, (struct range){place, bytes->length}, other->at + from, other->length - from);
}

/* ---- values of a text */

static int begins_value(uint8_t c)
{
    return c == '"' || c == '[' || c == '{' || c == '-' || isalnum(c);
}

static size_t end_of_string(const struct bytes *text, size_t place)
{
    for (place++; place < text->length && text->at[place] != '"'; place++)
        place += text->at[place] == '\\';
    return place < text->length ? place + 1 : text->length;
}

static size_t end_of_list(const struct bytes *text, size_t place)
{
    int depth = 0;
    while (place < text->length) {
        uint8_t c = text->at[place];
        depth += (c == '[' || c == '{') - (c == ']' || c == '}');
        place = c == '"' ? end_of_string(text, place) : place + 1;
        if (depth == 0)
            break;
    }
    return place;
}

static int is_of_word(uint8_t c)
{
    return isalnum(c) || c == '+' || c == '-' || c == '.';
}

static size_t end_of_word(const struct bytes *text, size_t place)
{
    while (place < text->length && is_of_word(text->at[place]))
        place++;
    return place;
}

static size_t end_of_value(const struct bytes *text, size_t place)
{
    uint8_t c = text->at[place];
    return c == '"' ? end_of_string(text, place) : c == '[' || c == '{' ? end_of_list(text, place) : end_of_word(text, place);
}

/* A place at which such a thing begins, by chance; the end of the text where there is none behind the place that was drawn. */
static size_t find(const struct bytes *text, int (*begins)(uint8_t))
{
    size_t place = draw(text->length);
    while (place < text->length && !begins(text->at[place]))
        place++;
    return place;
}

static struct range value_in(const struct bytes *text)
{
    size_t place = find(text, begins_value);
    while (place > 0 && place < text->length && isalnum(text->at[place]) && isalnum(text->at[place - 1]))
        place--;
    return (struct range){place, place < text->length ? end_of_value(text, place) : place};
}

static int is_digit(uint8_t c)
{
    return isdigit(c);
}

static struct range number_in(const struct bytes *text)
{
    size_t place = find(text, is_digit);
    while (place > 0 && place < text->length && isdigit(text->at[place - 1]))
        place--;
    return (struct range){place, place < text->length ? end_of_word(text, place) : place};
}

static int is_bracket(uint8_t c)
{
    return c == '[' || c == ']' || c == '{' || c == '}' || c == ',' || c == ':';
}

static void change_bracket(struct bytes *text)
{
    static const char BRACKETS[] = "[]{},:\"";
    size_t place = find(text, is_bracket);
    if (place == text->length)
        return;
    replace(text, draw(3) ? (struct range){place, place + 1} : before(place), BRACKETS + draw(7), draw(3) > 0);
}

static int is_hex(uint8_t c)
{
    return isdigit(c) || (c >= 'a' && c <= 'f');
}

/* Bytes that are written as two digits each: one is changed, some are put in, or some are gone. */
static void change_hex(struct bytes *text)
{
    static const char *const PAIRS[] = {"00", "01", "02", "03", "04", "05", "06", "07", "ff", "00000000", "ffffffff", "01000000"};
    const char *put = PAIRS[draw(COUNT(PAIRS))];
    size_t place = find(text, is_hex), length = strlen(put);
    struct range same = {place, place + length};
    if (same.end > text->length || !is_hex(text->at[place + 1]))
        return;
    switch (draw(4)) {
    case 0: replace(text, before(place), put, length); break;
    case 1: replace(text, same, "", 0); break;
    default: replace(text, same, put, length);
    }
}

static void change_number(struct bytes *text)
{
    struct range range = number_in(text);
    const char *number = VALUES[draw(draw(3) ? 32 : COUNT(VALUES))];
    replace(text, range, number, strlen(number));
}

/* One digit becomes the next or another one, so that most numbers stay near to what they were. */
static void change_digit(struct bytes *text)
{
    size_t place = find(text, is_digit);
    if (place < text->length)
        text->at[place] = '0' + (text->at[place] - '0' + 1 + draw(2) * draw(9)) % 10;
}

static void change_value(struct bytes *text)
{
    const char *value = VALUES[draw(COUNT(VALUES))];
    replace(text, value_in(text), value, strlen(value));
}

/* A value of the other text stands in the place of one. */
static void take_value(struct bytes *text, const struct bytes *other)
{
    struct range from = value_in(other);
    replace(text, value_in(text), other->at + from.begin, from.end - from.begin);
}

/* A number or a word of the other text in the place of a number. */
static void take_number(struct bytes *text, const struct bytes *other)
{
    struct range from = number_in(other);
    replace(text, number_in(text), other->at + from.begin, from.end - from.begin);
}

/* With the comma behind it. */
static struct range item_in(const struct bytes *text)
{
    struct range range = value_in(text);
    range.end += range.end < text->length && text->at[range.end] == ',';
    return range;
}

static void drop_item(struct bytes *text)
{
    replace(text, item_in(text), "", 0);
}

static void repeat_item(struct bytes *text)
{
    struct range range = item_in(text);
    if (range.begin == range.end || text->at[range.end - 1] != ',')
        return;
    for (uint32_t times = draw(4) ? 1 : 1 + draw(70); times > 0; times--)
        replace(text, before(range.begin), text->at + range.begin, range.end - range.begin);
}

static void take_item(struct bytes *text, const struct bytes *other)
{
    struct range from = item_in(other), to = item_in(text);
    if (from.end > from.begin && other->at[from.end - 1] == ',')
        replace(text, before(to.begin), other->at + from.begin, from.end - from.begin);
}

/* ---- all of them */

static void change_bytes(struct bytes *bytes, const struct bytes *other)
{
    switch (draw(8)) {
    case 0: flip(bytes); break;
    case 1: set_byte(bytes); break;
    case 2: set_number(bytes); break;
    case 3: drop(bytes); break;
    case 4: repeat(bytes); break;
    case 5: move(bytes); break;
    case 6: splice(bytes, other); break;
    default: cross(bytes, other);
    }
}

static void change_text(struct bytes *text, const struct bytes *other)
{
    switch (draw(16)) {
    case 0: change_bracket(text); break;
    case 1: change_value(text); break;
    case 2: take_value(text, other); break;
    case 3: drop_item(text); break;
    case 4: repeat_item(text); break;
    case 5: take_item(text, other); break;
    case 6: case 7: take_number(text, other); break;
    case 8: case 9: change_hex(text); break;
    case 10: case 11: case 12: change_digit(text); break;
    default: change_number(text);
    }
}

void mutate(struct bytes *bytes, const struct bytes *other, int is_text)
{
    for (uint32_t times = 1 + draw(2) * draw(4); times > 0; times--) {
        if (bytes->length == 0)
            bytes->at[bytes->length++] = draw(256);
        else if (is_text && draw(8))
            change_text(bytes, other);
        else
            change_bytes(bytes, other);
    }
}
