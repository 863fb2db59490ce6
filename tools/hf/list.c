/* list.c: `hf list`, the state of every slot of an image. */

#include "hf.h"

#include <unistd.h>

/* How many slots were found in each state. */
struct counts {
    size_t slots, ok, elsewhere, wrong, missing;
};

/* Prints the line of one slot, and counts it. The file had `length` bytes; those that it lacks are zeros in memory. */
static void list_slot(const struct image *image, size_t length, size_t slot, struct counts *counts)
{
    uint32_t bank = (uint32_t)(slot / image->pages), page = (uint32_t)(slot % image->pages);
    struct span asked = {bank, page * HF_PAGE, 1};
    uint8_t byte;
    put("%02x:%02x ", bank, page);
    if ((slot + 1) * HF_RECORD > length) {
        counts->missing++;
        put("missing\n");
        return;
    }
    hf_answer answer = hf_read(image->key, image->key_length, image->pages, image->banks, image->bytes, image->length, bank, asked.offset,
                               &byte, asked.length);
    switch (answer.number) {
    case HF_DONE:
        counts->ok++;
        put("ok\n");
        break;
    case HF_ELSEWHERE:
        counts->elsewhere++;
        put("holds %02x:%02x\n", answer.bank, answer.page);
        break;
    case HF_NO_PLACE:
        counts->wrong++;
        put("wrong\n");
        break;
    default:
        refuse(answer, image, &asked, 0);
    }
}

enum status list(const struct request *request)
{
    struct image image = image_of(request, request->argument[0]);
    struct counts counts = {.slots = (size_t)image.pages * image.banks};
    bool to_terminal = isatty(STDOUT_FILENO);

    image.length = HF_IMAGE(image.pages, image.banks);
    size_t length = read_file(image.name, image.bytes, image.length + 1);
    for (size_t slot = 0; slot < counts.slots; slot++) {
        if (!to_terminal)
            progress("listing", slot, counts.slots);
        list_slot(&image, length, slot, &counts);
    }
    progress_end();
    put("ok %zu of %zu\n", counts.ok, counts.slots);
    if (length > image.length)
        put("extra\n");
    flush_output();
    if (counts.ok == counts.slots && length <= image.length)
        return DONE;
    note("%s is not whole: %zu ok, %zu of other places, %zu wrong, %zu missing%s", image.name, counts.ok, counts.elsewhere, counts.wrong,
         counts.missing, length > image.length ? ", and bytes after the last record" : "");
    return REFUSED;
}
