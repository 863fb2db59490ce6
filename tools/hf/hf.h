/* hf.h: what the files of the command hf share. */

#ifndef HF_H
#define HF_H

#include <hingefodder.h>
#include <stdbool.h>
#include <stdio.h>

/* The exit statuses: done, refused, and wrong usage or a file that cannot be read or written. */
enum status { DONE = 0, REFUSED = 1, WRONG = 2 };

/* The options that take a value, and how many arguments a command names and takes at most: an image, and places with what goes there. */
enum option { KEY, PAGES, BANKS, OUTPUT, OPTIONS };
enum { NAMED = 3, PLACES = 64, ARGUMENTS = 1 + 2 * PLACES };

/* What the command line asks for. */
struct request {
    const struct command *command;
    char *option[OPTIONS]; /* null where it was not given */
    const char *argument[ARGUMENTS];
    int arguments;
};

/* One of seal, read, patch, list and diff. */
struct command {
    const char *name;
    const char *arguments[NAMED + 1]; /* their names, then null */
    bool has_output;
    bool repeats; /* its last two arguments may be given again and again */
    const char *help;
    enum status (*run)(const struct request *request);
};

/* An image, and the key and geometry that every call on it takes. */
struct image {
    const uint8_t *key;
    size_t key_length;
    uint32_t pages, banks;
    const char *name;
    uint8_t *bytes;
    size_t length;
};

/* Some bytes of a bank. */
struct span {
    uint32_t bank, offset;
    size_t length;
};

/* Each is a command; it answers the exit status. */
enum status seal(const struct request *request);
enum status read_span(const struct request *request);
enum status patch(const struct request *request);
enum status list(const struct request *request);
enum status diff(const struct request *request);

/* options.c: reads the command line, or prints help and ends. */
struct request request_of(int count, char **words);

/* help.c */
extern const struct command commands[];
const struct command *command_named(const char *name); /* null where there is none */
void print_usage(const struct command *command, FILE *stream);
_Noreturn void print_help(const struct command *command); /* null: of hf itself */
_Noreturn void print_version(void);

/* numbers.c: `what` names the argument in an error. */
uint32_t number_of(const char *what, const char *text);
struct span place_of(const char *text);
const char *file_named(const char *what, const char *text);
size_t hex_of(const char *what, const char *text, uint8_t *bytes, size_t room);

/* key.c: one key, wiped when the command ends. No key is as long as KEY_ROOM; a longer one is cut to that, and refused. */
enum { KEY_ROOM = 256 };
void take_key(char *text);
const uint8_t *key_bytes(void);
size_t key_length(void);
void wipe_key(void);

/* image.c */
struct image image_of(const struct request *request, const char *name);
void load_image(struct image *image);
void want_other_file(const struct request *request, const char *what, const char *output);
size_t page_part(const struct span *span, size_t done);

/* refusals.c */
_Noreturn void refuse(hf_answer answer, const struct image *image, const struct span *asked, size_t done);

/* files.c */
size_t read_file(const char *name, uint8_t *bytes, size_t room);
bool same_file(const char *one, const char *other);
void want_replaceable(const char *name);
void lock_file(const char *name);
void replace_file(const char *name, const uint8_t *bytes, size_t length);
void write_file(const char *name, const uint8_t *bytes, size_t length);

/* temporary.c: the new file beside the old one. */
int directory_length(const char *path);
void tidy_at_the_end(void);
int make_temporary(const char *path);
void rename_temporary(const char *path);

/* output.c */
_Noreturn void fail(enum status status, const char *format, ...) __attribute__((format(printf, 2, 3)));
_Noreturn void fail_usage(const struct command *command, const char *format, ...) __attribute__((format(printf, 2, 3)));
void note(const char *format, ...) __attribute__((format(printf, 1, 2)));
void tell_written(const char *name); /* so that an error on standard output says it too */
void put(const char *format, ...) __attribute__((format(printf, 1, 2)));
void put_bytes(const uint8_t *bytes, size_t length);
void flush_output(void);
void close_output(void);
const char *plural(size_t number);

/* progress.c: a bar on a terminal, once the work has taken half a second. */
void progress_begin(void);
void progress(const char *work, size_t done, size_t all);
void progress_end(void);

#endif
