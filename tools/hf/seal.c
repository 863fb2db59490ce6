/* seal.c: `hf seal`, a plain ROM into a new image. */

#include "hf.h"

/* All that is given of an erased page: the library fills the rest. */
static const uint8_t ERASED[] = {0xff};
static uint8_t rom[HF_PAGE * HF_PAGES_MAX * HF_BANKS_MAX + 1];

/* Reads the ROM, which has at least one byte and no more than the geometry holds; answers its length. */
static size_t load_rom(const char *name, const struct image *image)
{
    size_t most = (size_t)HF_PAGE * image->pages * image->banks;
    size_t length = read_file(name, rom, most + 1);
    if (length > most)
        fail(REFUSED, "refused: %s has more than the %zu bytes of %u bank%s of %u page%s", name, most, image->banks, plural(image->banks),
             image->pages, plural(image->pages));
    if (length == 0)
        fail(REFUSED, "refused: %s is empty; a ROM has at least one byte", name);
    return length;
}

/* Seals the slot: with its bytes of the ROM, or as an erased page where the ROM has none. Answers whether it had some. */
static bool seal_slot(const struct image *image, size_t slot, size_t rom_length)
{
    uint32_t bank = (uint32_t)(slot / image->pages), page = (uint32_t)(slot % image->pages);
    size_t at = slot * HF_PAGE;
    bool filled = at < rom_length;
    size_t left = filled ? rom_length - at : sizeof ERASED;
    size_t length = left > HF_PAGE ? HF_PAGE : left;
    hf_answer answer = hf_seal(image->key, image->key_length, image->pages, image->banks, image->bytes, image->length, bank, page,
                               filled ? rom + at : ERASED, length);
    struct span asked = {bank, page * HF_PAGE, length};
    if (answer.number != HF_DONE)
        refuse(answer, image, &asked, 0);
    return filled;
}

enum status seal(const struct request *request)
{
    const char *rom_name = request->argument[0];
    struct image image = image_of(request, request->argument[1]);
    size_t slots = (size_t)image.pages * image.banks, filled = 0;

    want_replaceable(image.name);
    want_other_file(request, "the ROM", image.name);
    size_t rom_length = load_rom(rom_name, &image);
    image.length = HF_IMAGE(image.pages, image.banks);
    for (size_t slot = 0; slot < slots; slot++) {
        progress("sealing", slot, slots);
        filled += seal_slot(&image, slot, rom_length);
    }
    progress_end();
    lock_file(image.name);
    replace_file(image.name, image.bytes, image.length);
    put("sealed %zu page%s of %s into %s, and %zu empty\n", filled, plural(filled), rom_name, image.name, slots - filled);
    return DONE;
}
