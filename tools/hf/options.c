/* options.c: the command line. Options may stand anywhere, and a value after a blank or after `=`. */

#include "hf.h"

#include <string.h>

static const char *const NAMES[OPTIONS] = {"--key", "--pages", "--banks", "--output"};

/* The words of the command line, and how far they are read. */
struct words {
    int count, at;
    char **word;
};

/* The option that the first `length` characters of `word` name, or OPTIONS. */
static enum option option_named(const char *word, size_t length)
{
    if (length == 2 && strncmp(word, "-o", length) == 0)
        return OUTPUT;
    for (enum option option = 0; option < OPTIONS; option++)
        if (strlen(NAMES[option]) == length && strncmp(word, NAMES[option], length) == 0)
            return option;
    return OPTIONS;
}

/* Ends with an error on a word that names no option. A value may stand in it without a blank: of one letter no more is shown, and of an option
   only its name. */
static _Noreturn void fail_option(const struct command *command, const char *word, size_t length)
{
    for (size_t part = length; part > 1; part--)
        if (option_named(word, part) != OPTIONS)
            fail_usage(command, "%.*s needs a blank or = before its value", (int)part, word);
    fail_usage(command, "there is no option %.*s", word[1] != '-' ? 2 : (int)length, word);
}

/* Takes the option at hand, and its value. An error shows no value, since it may be a key. */
static void take_option(struct words *words, struct request *request)
{
    char *word = words->word[words->at];
    size_t length = strcspn(word, "=");
    enum option option = option_named(word, length);
    if (option == OPTIONS)
        fail_option(request->command, word, length);
    if (request->option[option] != NULL)
        fail_usage(request->command, "%s is given twice", NAMES[option]);
    if (word[length] == '=') {
        request->option[option] = word + length + 1;
        return;
    }
    words->at++;
    if (words->at == words->count || strncmp(words->word[words->at], "--", 2) == 0)
        fail_usage(request->command, "%s needs a value", NAMES[option]);
    request->option[option] = words->word[words->at];
}

/* The name of the command's argument at that place, or null where it takes none there. */
static const char *argument_name(const struct command *command, int at)
{
    if (command->repeats && at >= NAMED && at < ARGUMENTS)
        return command->arguments[NAMED - 2 + (at - NAMED) % 2];
    return at < NAMED ? command->arguments[at] : NULL;
}

/* Takes the word as the command, or as its next argument. */
static void take_argument(const char *word, struct request *request)
{
    if (request->command == NULL) {
        request->command = command_named(word);
        if (request->command == NULL)
            fail_usage(NULL, "there is no command %s; the commands are seal, read, patch, list and diff", word);
        return;
    }
    const char *name = argument_name(request->command, request->arguments);
    if (name == NULL)
        fail_usage(request->command, "%s takes %d argument%s, and more are given", request->command->name, request->arguments,
                   plural((size_t)request->arguments));
    /* No bytes are for the library to refuse; no file has an empty name. */
    if (word[0] == '\0' && strcmp(name, "BYTES") != 0)
        fail_usage(request->command, "%s is empty", name);
    request->argument[request->arguments] = word;
    request->arguments++;
}

/* Ends with an error that names everything that is missing. */
static void want_all(const struct request *request)
{
    const struct command *command = request->command;
    char missing[80] = "";
    for (enum option option = KEY; option <= BANKS; option++)
        if (request->option[option] == NULL)
            strcat(strcat(missing, " "), NAMES[option]);
    for (int i = 0; command->arguments[i] != NULL; i++)
        if (request->argument[i] == NULL)
            strcat(strcat(missing, " "), command->arguments[i]);
    if (request->arguments > NAMED && (request->arguments - NAMED) % 2 == 1)
        strcat(strcat(missing, " "), command->arguments[NAMED - 1]);
    if (missing[0] != '\0')
        fail_usage(command, "%s: missing:%s", command->name, missing);
    const char *output = request->option[OUTPUT];
    if (output != NULL && !command->has_output)
        fail_usage(command, "%s takes no --output", command->name);
    if (output != NULL && output[0] == '\0')
        fail_usage(command, "--output needs a value");
}

struct request request_of(int count, char **word)
{
    struct words words = {count, 1, word};
    struct request request = {0};
    bool only_arguments = false, help = false;
    for (; words.at < count; words.at++) {
        const char *now = word[words.at];
        if (only_arguments || now[0] != '-' || now[1] == '\0')
            take_argument(now, &request);
        else if (strcmp(now, "--") == 0)
            only_arguments = true;
        else if (strcmp(now, "--help") == 0 || strcmp(now, "-h") == 0)
            help = true;
        else if (strcmp(now, "--version") == 0)
            print_version();
        else
            take_option(&words, &request);
    }
    if (help)
        print_help(request.command);
    if (request.command == NULL)
        fail_usage(NULL, "a command is missing");
    want_all(&request);
    return request;
}
