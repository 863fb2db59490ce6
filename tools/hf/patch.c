/* patch.c: `hf patch`, plain bytes replaced in an image. */

#include "hf.h"

/* For each place more bytes than a bank holds, so that a longer patch is seen to run past its end. */
enum { ROOM = (HF_PAGES_MAX + 1) * HF_PAGE };
static uint8_t bytes[PLACES][ROOM];

/* Takes the bytes that BYTES gives, by hex text or @FILE; answers how many, at most those that there is room for. */
static size_t take_bytes(const char *text, uint8_t *bytes)
{
    const char *file = file_named("BYTES", text);
    if (file != NULL)
        return read_file(file, bytes, ROOM);
    size_t length = hex_of("BYTES", text, bytes, ROOM);
    return length < ROOM ? length : ROOM;
}

/* Patches the image in memory, page by page, and answers how many blocks were enciphered. The file is written only when every page was taken. */
static uint32_t patch_pages(const struct image *image, const struct span *asked, const uint8_t *bytes)
{
    size_t done = 0;
    uint32_t blocks = 0;
    do {
        size_t part = page_part(asked, done);
        hf_answer answer = hf_patch(image->key, image->key_length, image->pages, image->banks, image->bytes, image->length, asked->bank,
                                    asked->offset + (uint32_t)done, bytes + done, part);
        if (answer.number != HF_DONE)
            refuse(answer, image, asked, done);
        blocks += answer.count;
        done += part;
    } while (done < asked->length);
    return blocks;
}

enum status patch(const struct request *request)
{
    struct image image = image_of(request, request->argument[0]);
    struct span asked[PLACES];
    uint32_t blocks[PLACES];
    int places = (request->arguments - 1) / 2;
    for (int i = 0; i < places; i++) {
        asked[i] = place_of(request->argument[2 * i + 1]);
        asked[i].length = take_bytes(request->argument[2 * i + 2], bytes[i]);
    }

    want_replaceable(image.name);
    lock_file(image.name);
    load_image(&image);
    for (int i = 0; i < places; i++)
        blocks[i] = patch_pages(&image, &asked[i], bytes[i]);
    replace_file(image.name, image.bytes, image.length);
    for (int i = 0; i < places; i++)
        put("patched %zu byte%s at %u:0x%04x: %u block%s enciphered\n", asked[i].length, plural(asked[i].length), asked[i].bank,
            asked[i].offset, blocks[i], plural(blocks[i]));
    return DONE;
}
