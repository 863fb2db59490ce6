/* diff.c: `hf diff`, which pages changed between two images. */

#include "hf.h"

/* The older image; the newer one lies where every command has its image. */
static uint8_t older[HF_IMAGE(HF_PAGES_MAX, HF_BANKS_MAX) + 1];

/* Prints a line for each page of the bank that changed. */
static void diff_bank(const struct image *old_image, const struct image *new_image, uint32_t bank)
{
    hf_changes changes = hf_compare_bank(new_image->key, new_image->key_length, new_image->pages, new_image->banks, old_image->bytes,
                                         old_image->length, new_image->bytes, new_image->length, bank);
    for (uint32_t page = hf_next_changed(changes, 0); page != HF_NO_PAGE; page = hf_next_changed(changes, page + 1))
        put("%02x:%02x changed\n", bank, page);
}

enum status diff(const struct request *request)
{
    struct image new_image = image_of(request, request->argument[1]), old_image = new_image;
    old_image.name = request->argument[0];
    old_image.bytes = older;
    load_image(&old_image);
    load_image(&new_image);

    hf_totals totals = hf_compare_image(new_image.key, new_image.key_length, new_image.pages, new_image.banks, old_image.bytes,
                                        old_image.length, new_image.bytes, new_image.length);
    if (totals.number != HF_DONE) {
        bool old_is_right = old_image.length == HF_IMAGE(old_image.pages, old_image.banks);
        refuse((hf_answer){.number = totals.number}, old_is_right ? &new_image : &old_image, NULL, 0);
    }
    for (uint32_t bank = 0; bank < new_image.banks; bank++)
        diff_bank(&old_image, &new_image, bank);
    put("same %u, changed %u, unreadable %u\n", totals.same, totals.changed, totals.unreadable);
    return totals.changed == 0 && totals.unreadable == 0 ? DONE : REFUSED;
}
