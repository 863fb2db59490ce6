/* help.c: the commands, and the help of hf and of each. */

#include "hf.h"

#include <hingefodder_text.h>

#include <stdlib.h>
#include <string.h>

static const char HELP_SEAL[] =
    "Seals a plain ROM into a new image. The ROM is laid out bank after bank, page\n"
    "after page of 256 bytes. A short last page is filled with ff, as an erased part\n"
    "reads, and a page that the ROM does not reach is all ff. A ROM that is longer\n"
    "than the geometry holds is refused. An image of that name is replaced, in one\n"
    "step at the end.\n"
    "\n"
    "  hf seal --key @box.key --pages 64 --banks 4 game.rom game.img\n";

static const char HELP_READ[] =
    "Prints LENGTH plain bytes of a bank as a hex dump. They may run over pages, but\n"
    "stay inside the bank.\n"
    "\n"
    "  -o, --output FILE   write the bytes to FILE as they are, instead of a dump;\n"
    "                      - is standard output\n"
    "\n"
    "  hf read --key @box.key --pages 64 --banks 4 game.img 3:0x0230 32\n"
    "  hf read --key @box.key --pages 64 --banks 4 -o bank3.rom game.img 3:0 0x4000\n";

static const char HELP_PATCH[] =
    "Replaces plain bytes of a bank. BYTES is hex text, or @FILE for the bytes of a\n"
    "file. They may run over pages, but stay inside the bank. More places may follow,\n"
    "each with its bytes, up to 64 in all; they are patched in their order. Every page\n"
    "of every place is judged before the image is written, in one step at the end: a\n"
    "refused or interrupted patch leaves the image as it was.\n"
    "\n"
    "  hf patch --key @box.key --pages 64 --banks 4 game.img 3:0x0237 a5\n"
    "  hf patch --key @box.key --pages 64 --banks 4 game.img 0:0x3f00 @fix.bin\n"
    "  hf patch --key @box.key --pages 64 --banks 4 game.img 3:0x0237 a5 0:0 00ff\n";

static const char HELP_LIST[] =
    "Prints a line for each slot, with bank and page in hex: ok; or holds and the\n"
    "place whose record it is, where that is another; or wrong where the record opens\n"
    "to no place under this key; or missing where the image ends before it. Then how\n"
    "many are ok, and extra where bytes remain after the last record. The status is 1\n"
    "unless every slot is ok and nothing remains.\n"
    "\n"
    "  hf list --key @box.key --pages 64 --banks 4 game.img\n";

static const char HELP_DIFF[] =
    "Prints the pages that changed between two images of one key and geometry, with\n"
    "bank and page in hex: those that open to their places in both, and whose plain\n"
    "bytes differ. Then how many slots are the same, changed, and unreadable in one of\n"
    "the images. The status is 0 where all are the same, and 1 where they are not.\n"
    "\n"
    "  hf diff --key @box.key --pages 64 --banks 4 monday.img tuesday.img\n";

static const char HELP_OPTIONS[] =
    "  --key KEY     the key: hex text of 1 to 32 bytes, or @FILE for a file of that\n"
    "                many raw bytes (not of hex text). Up to the next of 16, 24 and\n"
    "                32 bytes zeros follow it. Hex text may stay in the shell's\n"
    "                history; the bytes of a file do not\n"
    "  --pages N     pages of a bank, 1 to 256\n"
    "  --banks N     banks of the image, 1 to 256\n"
    "  -h, --help    this help; hf COMMAND --help is the help of a command\n"
    "  --version     the version\n"
    "\n"
    "Numbers are decimal, or hex with 0x before it. BANK:OFFSET is a bank and an\n"
    "offset in it, for example 3:0x0237. Options may stand anywhere, and --key=KEY is\n"
    "--key KEY. After -- every word is an argument.\n"
    "\n"
    "The exit status is 0 where all was done, 1 where it was refused, and 2 for wrong\n"
    "usage or a file that cannot be read or written.\n";

const struct command commands[] = {
    {"seal", {"ROM", "IMAGE"}, false, false, HELP_SEAL, seal},
    {"read", {"IMAGE", "BANK:OFFSET", "LENGTH"}, true, false, HELP_READ, read_span},
    {"patch", {"IMAGE", "BANK:OFFSET", "BYTES"}, false, true, HELP_PATCH, patch},
    {"list", {"IMAGE"}, false, false, HELP_LIST, list},
    {"diff", {"OLD", "NEW"}, false, false, HELP_DIFF, diff},
};
enum { COMMANDS = sizeof commands / sizeof commands[0] };

const struct command *command_named(const char *name)
{
    for (int i = 0; i < COMMANDS; i++)
        if (strcmp(commands[i].name, name) == 0)
            return &commands[i];
    return NULL;
}

static void print_line(const char *before, const struct command *command, FILE *stream)
{
    fprintf(stream, "%shf %s --key KEY --pages N --banks N", before, command->name);
    if (command->has_output)
        fputs(" [-o FILE]", stream);
    for (int i = 0; command->arguments[i] != NULL; i++)
        fprintf(stream, " %s", command->arguments[i]);
    fputs(command->repeats ? " ..\n" : "\n", stream);
}

static void print_lines(const struct command *command, FILE *stream)
{
    if (command != NULL) {
        print_line("usage: ", command, stream);
        return;
    }
    for (int i = 0; i < COMMANDS; i++)
        print_line(i == 0 ? "usage: " : "       ", &commands[i], stream);
}

/* Prints the usage of the command, or of all where it is null, and where help is. */
void print_usage(const struct command *command, FILE *stream)
{
    print_lines(command, stream);
    if (command != NULL)
        fprintf(stream, "'hf %s --help' says more\n", command->name);
    else
        fputs("'hf --help' says more\n", stream);
}

static void print_refusals(void)
{
    puts("\nWhat the library refuses, by number (an error names it):");
    for (uint32_t number = HF_KEY_LENGTH; number <= HF_ELSEWHERE; number++)
        if (number != HF_SCHEDULE && number != HF_BLOCK_LENGTH && number != HF_OUTSIDE && number != HF_TOO_MANY)
            printf("  %2u  %s\n", number, hf_text(number));
}

static _Noreturn void end_output(void)
{
    close_output();
    exit(DONE);
}

void print_help(const struct command *command)
{
    if (command == NULL)
        puts("hf seals the ROM of a banked controller into an enciphered image, and reads,\n"
             "patches and lists such images.\n");
    print_lines(command, stdout);
    printf("\n%s%s%s", command == NULL ? "" : command->help, command == NULL ? "" : "\n", HELP_OPTIONS);
    if (command == NULL)
        print_refusals();
    end_output();
}

void print_version(void)
{
    puts("hf " HF_VERSION);
    end_output();
}
