/* hingefodder_text.h: the text for each number that a call of hingefodder.h answers, for a host that prints. */

#ifndef HINGEFODDER_TEXT_H
#define HINGEFODDER_TEXT_H

#include "hingefodder.h"

/* The text for any number; it never is null, and stands for as long as the program runs. */
static inline const char *hf_text(uint32_t number)
{
    switch (number) {
    case HF_DONE:
        return "done";
    case HF_KEY_LENGTH:
        return "the key is not 1 to 32 bytes";
    case HF_SCHEDULE:
        return "the schedule came from no key";
    case HF_BLOCK_LENGTH:
        return "the block is not 16 bytes";
    case HF_GEOMETRY:
        return "pages or banks is 0 or above 256";
    case HF_IMAGE_LENGTH:
        return "the image is not 272 bytes for each page of each bank";
    case HF_PLACE:
        return "bank, page or offset lies outside the geometry";
    case HF_LENGTH:
        return "the length is 0 or above 256, or the bytes run past the page's end";
    case HF_NO_PLACE:
        return "the record does not open to any place";
    case HF_OUTSIDE:
        return "start and length of an item leave the bytes that are lent";
    case HF_TOO_MANY:
        return "the list has more than 64 items";
    case HF_ELSEWHERE:
        return "the record opens to another place";
    case HF_STORE_LENGTH:
        return "the store is not 8192 bytes, or more than 1024 records are used";
    case HF_STORE_BROKEN:
        return "a used record of the store breaks the layout";
    case HF_SETTING:
        return "the setting is above 31, or the version above the used number";
    case HF_STORE_FULL:
        return "the store is full";
    default:
        return "a number that this library does not answer";
    }
}

#endif
