/* output.c: what hf prints, and how it ends with an error. */

#include "hf.h"

#include <errno.h>
#include <stdarg.h>
#include <stdlib.h>
#include <string.h>

static void complain(const char *format, va_list values)
{
    progress_end();
    fputs("hf: ", stderr);
    vfprintf(stderr, format, values);
    fputc('\n', stderr);
}

/* Ends with the error and the status. */
void fail(enum status status, const char *format, ...)
{
    va_list values;
    va_start(values, format);
    complain(format, values);
    va_end(values);
    exit(status);
}

/* As fail, with the usage below the error. */
void fail_usage(const struct command *command, const char *format, ...)
{
    va_list values;
    va_start(values, format);
    complain(format, values);
    va_end(values);
    print_usage(command, stderr);
    exit(WRONG);
}

/* Says something on standard error, and goes on. */
void note(const char *format, ...)
{
    va_list values;
    va_start(values, format);
    complain(format, values);
    va_end(values);
}

/* The file that was written before standard output could not be, or null. */
static const char *written;

void tell_written(const char *name)
{
    written = name;
}

static _Noreturn void fail_output(void)
{
    if (written != NULL)
        fail(WRONG, "%s is written, but standard output cannot be: %s", written, strerror(errno));
    fail(WRONG, "cannot write standard output: %s", strerror(errno));
}

/* Prints on standard output, or ends with an error. */
void put(const char *format, ...)
{
    va_list values;
    va_start(values, format);
    int printed = vprintf(format, values);
    va_end(values);
    if (printed < 0)
        fail_output();
}

void put_bytes(const uint8_t *bytes, size_t length)
{
    if (fwrite(bytes, 1, length, stdout) != length)
        fail_output();
}

void flush_output(void)
{
    if (fflush(stdout) != 0)
        fail_output();
}

void close_output(void)
{
    if (fclose(stdout) != 0)
        fail_output();
}

const char *plural(size_t number)
{
    return number == 1 ? "" : "s";
}
