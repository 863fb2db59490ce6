/* read.c: `hf read`, plain bytes of an image as a hex dump or as they are. */

#include "hf.h"

#include <string.h>

enum { LINE = 16 };

/* No more than a bank is ever read. A part that runs past its end is refused and writes nothing, but there is room for it. */
static uint8_t out[(HF_PAGES_MAX + 1) * HF_PAGE];

/* Reads the span page by page; nothing is shown unless every page is read. */
static void read_pages(const struct image *image, const struct span *asked)
{
    size_t done = 0;
    do {
        size_t part = page_part(asked, done);
        hf_answer answer = hf_read(image->key, image->key_length, image->pages, image->banks, image->bytes, image->length, asked->bank,
                                   asked->offset + (uint32_t)done, out + done, part);
        if (answer.number != HF_DONE)
            refuse(answer, image, asked, done);
        done += part;
    } while (done < asked->length);
}

/* Prints one line: the place, up to 16 bytes in hex and as text. A line of a longer dump is filled up with blanks. */
static void dump_line(uint32_t bank, uint32_t offset, const uint8_t *bytes, size_t length, size_t width)
{
    put("%u:0x%04x ", bank, offset);
    for (size_t i = 0; i < width; i++)
        if (i < length)
            put(" %02x", bytes[i]);
        else
            put("   ");
    put("  |");
    for (size_t i = 0; i < length; i++)
        put("%c", bytes[i] >= ' ' && bytes[i] <= '~' ? bytes[i] : '.');
    put("|\n");
}

static void dump(const struct span *asked)
{
    size_t width = asked->length < LINE ? asked->length : LINE;
    for (size_t done = 0; done < asked->length; done += LINE) {
        size_t left = asked->length - done;
        dump_line(asked->bank, asked->offset + (uint32_t)done, out + done, left < LINE ? left : LINE, width);
    }
}

enum status read_span(const struct request *request)
{
    const char *output = request->option[OUTPUT];
    struct image image = image_of(request, request->argument[0]);
    struct span asked = place_of(request->argument[1]);
    asked.length = number_of("LENGTH", request->argument[2]);

    load_image(&image);
    read_pages(&image, &asked);
    if (output == NULL) {
        dump(&asked);
    } else if (strcmp(output, "-") == 0) {
        put_bytes(out, asked.length);
    } else {
        want_other_file(request, "the image", output);
        write_file(output, out, asked.length);
    }
    return DONE;
}
