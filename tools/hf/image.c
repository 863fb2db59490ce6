/* image.c: the image that a command works on, with its key and geometry. */

#include "hf.h"

/* The one image of a run; a byte more than the largest has, so that a longer one is seen to be too long. */
static uint8_t room[HF_IMAGE(HF_PAGES_MAX, HF_BANKS_MAX) + 1];

/* The image of that name, all zeros and of length 0 so far. The key and geometry are judged at once, by a call on no bytes: an image of length 0 is
   refused by 5 where they are right. */
struct image image_of(const struct request *request, const char *name)
{
    take_key(request->option[KEY]);
    struct image image = {
        .key = key_bytes(),
        .key_length = key_length(),
        .pages = number_of("--pages", request->option[PAGES]),
        .banks = number_of("--banks", request->option[BANKS]),
        .name = name,
        .bytes = room,
    };
    hf_answer answer = hf_read(image.key, image.key_length, image.pages, image.banks, NULL, 0, 0, 0, NULL, 0);
    if (answer.number != HF_IMAGE_LENGTH)
        refuse(answer, &image, NULL, 0);
    return image;
}

/* Reads the image, of any length up to one byte above the largest. */
void load_image(struct image *image)
{
    image->length = read_file(image->name, image->bytes, sizeof room);
}

/* Ends with an error where a file that is to be written is the key's, or the one named by argument 0, which is called `what`. */
void want_other_file(const struct request *request, const char *what, const char *output)
{
    const char *key = file_named("--key", request->option[KEY]);
    if (same_file(request->argument[0], output))
        fail(WRONG, "cannot write %s: it is %s", output, what);
    if (key != NULL && same_file(key, output))
        fail(WRONG, "cannot write %s: it is the key", output);
}

/* How many bytes of the span from `done` on go into one call: those up to the end of their page. */
size_t page_part(const struct span *span, size_t done)
{
    size_t left = span->length - done;
    size_t fits = HF_PAGE - (span->offset + done) % HF_PAGE;
    return left < fits ? left : fits;
}
