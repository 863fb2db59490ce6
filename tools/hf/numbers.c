/* numbers.c: numbers, places, hex text and @FILE of the command line. */

#include "hf.h"

#include <string.h>

static int digit_of(char c)
{
    if (c >= '0' && c <= '9')
        return c - '0';
    if (c >= 'a' && c <= 'f')
        return c - 'a' + 10;
    if (c >= 'A' && c <= 'F')
        return c - 'A' + 10;
    return -1;
}

static bool has_hex_mark(const char *text)
{
    return text[0] == '0' && (text[1] == 'x' || text[1] == 'X');
}

/* The number that `length` characters of `text` are, in decimal or 0x hex. */
static uint32_t number_in(const char *what, const char *text, size_t length)
{
    size_t at = length > 2 && has_hex_mark(text) ? 2 : 0;
    uint64_t base = at == 2 ? 16 : 10, number = 0;
    if (length == 0)
        fail(WRONG, "%s: a number is missing", what);
    for (; at < length; at++) {
        int digit = digit_of(text[at]);
        if (digit < 0 || (uint64_t)digit >= base)
            fail(WRONG, "%s: '%.*s' is no number; numbers are decimal, or hex with 0x before it", what, (int)length, text);
        number = number * base + (uint64_t)digit;
        if (number > UINT32_MAX)
            fail(WRONG, "%s: '%.*s' is above 4294967295, which is the largest number", what, (int)length, text);
    }
    return (uint32_t)number;
}

uint32_t number_of(const char *what, const char *text)
{
    return number_in(what, text, strlen(text));
}

/* The place that BANK:OFFSET names, with length 0. */
struct span place_of(const char *text)
{
    const char *colon = strchr(text, ':');
    if (colon == NULL)
        fail(WRONG, "BANK:OFFSET: '%s' has no colon; a place is for example 3:0x0237", text);
    struct span span = {number_in("BANK", text, (size_t)(colon - text)), number_of("OFFSET", colon + 1), 0};
    return span;
}

/* The name of the file that @FILE names, or null where the text is something else. */
const char *file_named(const char *what, const char *text)
{
    if (text[0] != '@')
        return NULL;
    if (text[1] == '\0')
        fail(WRONG, "%s: @ needs the name of a file", what);
    return text + 1;
}

/* Puts the bytes of hex text into `bytes`, as many as there is room for, and answers how many the text has. Blanks may stand between
   bytes, and 0x before them. An error never shows the text, since it may be a key. */
size_t hex_of(const char *what, const char *text, uint8_t *bytes, size_t room)
{
    size_t count = 0, at = has_hex_mark(text) ? 2 : 0;
    while (text[at] != '\0') {
        if (text[at] == ' ') {
            at++;
            continue;
        }
        int high = digit_of(text[at]);
        int low = high < 0 ? -1 : digit_of(text[at + 1]);
        if (high >= 0 && (text[at + 1] == '\0' || text[at + 1] == ' '))
            fail(WRONG, "%s: byte %zu of the hex text has one digit; a byte has two", what, count + 1);
        if (low < 0)
            fail(WRONG, "%s: character %zu is no hex digit; give hex text, or @FILE", what, high < 0 ? at + 1 : at + 2);
        if (count < room)
            bytes[count] = (uint8_t)(16 * high + low);
        count++;
        at += 2;
    }
    return count;
}
