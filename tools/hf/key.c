/* key.c: the key of one run, from hex text or a file of raw bytes; it is never printed, and wiped when hf ends. */

#include "hf.h"

#include <ctype.h>
#include <string.h>

/* The stack below a call of the library, where its working values lay. */
enum { DEPTH = 32768 };

static uint8_t bytes[KEY_ROOM];
static size_t length;

static void wipe(volatile char *at, size_t count, char with)
{
    for (size_t i = 0; i < count; i++)
        at[i] = with;
}

/* Whether a byte of the file could be one of hex text, which may have blanks between its bytes and 0x before them. */
static bool in_hex_text(size_t i)
{
    return isxdigit(bytes[i]) || isspace(bytes[i]) || (i == 1 && bytes[0] == '0' && (bytes[1] == 'x' || bytes[1] == 'X'));
}

/* A file that seems to hold hex text, or a line of any text, is taken as it is, as raw bytes, but not in silence. */
static void note_text(void)
{
    size_t hex = 0, text = 0;
    for (size_t i = 0; i < length; i++) {
        hex += in_hex_text(i);
        text += isprint(bytes[i]) || isspace(bytes[i]);
    }
    if (length > 0 && hex == length)
        note("note: the key file seems to hold hex text; it is taken as %zu raw byte%s", length, plural(length));
    else if (length > 0 && text == length && bytes[length - 1] == '\n')
        note("note: the key file seems to hold a line of text; its end counts among the %zu raw bytes of the key", length);
}

/* Takes the key from KEY of the command line. Hex text is overwritten there, so that a list of processes does not show it for long. */
void take_key(char *text)
{
    const char *file = file_named("--key", text);
    if (file != NULL) {
        length = read_file(file, bytes, KEY_ROOM);
        note_text();
        return;
    }
    length = hex_of("--key", text, bytes, KEY_ROOM);
    wipe(text, strlen(text), '*');
    if (length > KEY_ROOM)
        length = KEY_ROOM;
}

const uint8_t *key_bytes(void)
{
    return bytes;
}

size_t key_length(void)
{
    return length;
}

/* Wipes the key, and the stack below, where calls of the library left what they made of it. */
void wipe_key(void)
{
    volatile char below[DEPTH];
    wipe(below, sizeof below, 0);
    wipe((volatile char *)bytes, sizeof bytes, 0);
}
