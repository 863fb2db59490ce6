/* refusals.c: what each refusal of the library means here, as a sentence. */

#include "hf.h"

#include <hingefodder_text.h>

static _Noreturn void refuse_key(const struct image *image)
{
    bool longer = image->key_length >= KEY_ROOM;
    fail(REFUSED, "refused by 1: the key has %s%zu byte%s, but a key has 1 to 32", longer ? "at least " : "", image->key_length,
         plural(image->key_length));
}

static _Noreturn void refuse_image_length(const struct image *image)
{
    size_t right = HF_IMAGE(image->pages, image->banks);
    bool longer = image->length > HF_IMAGE(HF_PAGES_MAX, HF_BANKS_MAX);
    fail(REFUSED, "refused by 5: %s has %s%zu byte%s, but %u bank%s of %u page%s make %zu", image->name, longer ? "at least " : "",
         image->length, plural(image->length), image->banks, plural(image->banks), image->pages, plural(image->pages), right);
}

/* `done` bytes of the span were in the bank before its end was met. */
static _Noreturn void refuse_place(const struct image *image, const struct span *asked, size_t done)
{
    uint32_t last = image->pages * HF_PAGE - 1;
    if (asked->bank >= image->banks)
        fail(REFUSED, "refused by 6: bank %u, but the geometry has %u bank%s (0 to %u)", asked->bank, image->banks, plural(image->banks),
             image->banks - 1);
    if (done == 0)
        fail(REFUSED, "refused by 6: offset 0x%04x, but a bank of %u page%s ends at 0x%04x", asked->offset, image->pages,
             plural(image->pages), last);
    fail(REFUSED, "refused by 6: the bytes from %u:0x%04x on run past 0x%04x, where bank %u ends", asked->bank, asked->offset, last,
         asked->bank);
}

/* The page that the span goes on in after `done` bytes. */
static uint32_t page_of(const struct span *asked, size_t done)
{
    return (uint32_t)((asked->offset + done) / HF_PAGE);
}

/* Ends with status 1 and the sentence for a call's answer: on the part of `asked` that begins after `done` bytes. Numbers up to 5 do not look
   at `asked`. */
void refuse(hf_answer answer, const struct image *image, const struct span *asked, size_t done)
{
    switch (answer.number) {
    case HF_KEY_LENGTH:
        refuse_key(image);
    case HF_GEOMETRY:
        fail(REFUSED, "refused by 4: %u page%s and %u bank%s, but a geometry has 1 to 256 of each", image->pages, plural(image->pages),
             image->banks, plural(image->banks));
    case HF_IMAGE_LENGTH:
        refuse_image_length(image);
    case HF_PLACE:
        refuse_place(image, asked, done);
    case HF_LENGTH:
        fail(REFUSED, "refused by 7: no bytes are asked for at %u:0x%04x, but at least one must be", asked->bank, asked->offset);
    case HF_NO_PLACE:
        fail(REFUSED, "refused by 8: the record of bank %u, page %u opens to no place: the key is another, or the image was changed",
             asked->bank, page_of(asked, done));
    case HF_ELSEWHERE:
        fail(REFUSED, "refused by 11: the record of bank %u, page %u is that of bank %u, page %u: the geometry is another, or the record was "
                      "moved",
             asked->bank, page_of(asked, done), answer.bank, answer.page);
    default:
        fail(REFUSED, "refused by %u: %s", answer.number, hf_text(answer.number));
    }
}
