/* hingefodder.h: Twofish and the sealed bank image, and settings that can go back, for a host in C.

   An image is a row of records, one for each page of each bank: the record of page p of bank b is the one at slot b * pages + p. A record is a
   page of 256 bytes, enciphered together with its place, in 272 bytes. An image has no header, so the host keeps its geometry (pages per bank,
   and banks) and lends it with each call.

   For every call:

   - A key, where a call takes one, comes as its bytes: 1 to 32 of them. Up to the next of 16, 24 and 32 bytes zeros follow it, so two keys that
     differ only in such zeros are one. The library keeps nothing between calls, and takes no memory but stack.
   - A buffer comes as a pointer and then its length. A buffer of length 0 may come with a null pointer.
   - The buffers lent to one call must not overlap; two that are only read may.
   - Any number is taken and judged. A call that is refused answers the number of its refusal and count 0, and changes no byte of any buffer.
     Where several refusals hold, the one that the call's text below names first is given.
   - Erasing a key after use is the host's own task: its own copy, and what the call left on the stack below the host's frame.

   The text for each number is in hingefodder_text.h. */

#ifndef HINGEFODDER_H
#define HINGEFODDER_H

#include <stddef.h>
#include <stdint.h>

#ifdef __cplusplus
extern "C" {
#endif

#define HF_VERSION "0.2.0"

#define HF_BLOCK 16      /* bytes of a block */
#define HF_PAGE 256      /* plain bytes of a page */
#define HF_RECORD 272    /* bytes of a record: the place block and a page, 17 blocks */
#define HF_PAGES_MAX 256 /* pages of a bank, at most */
#define HF_BANKS_MAX 256 /* banks of an image, at most */
#define HF_ITEMS_MAX 64  /* patches of a list, at most */

#define HF_SETTINGS 32             /* settings that a store keeps */
#define HF_STORE 8192              /* bytes of a store: so many records of 8 bytes as follow */
#define HF_STORE_RECORDS_MAX 1024  /* records of a store, at most */

/* The bytes of an image, for a geometry that is not refused. */
#define HF_IMAGE(pages, banks) ((size_t)HF_RECORD * (size_t)(pages) * (size_t)(banks))

/* What a call answers in `number`: done, or why it was refused. */
enum hf_number {
    HF_DONE = 0,         /* done */
    HF_KEY_LENGTH = 1,   /* the key is not 1 to 32 bytes */
    HF_SCHEDULE = 2,     /* the schedule came from no key; never answered to a host, which lends keys: 1 takes its place */
    HF_BLOCK_LENGTH = 3, /* the block is not 16 bytes */
    HF_GEOMETRY = 4,     /* pages or banks is 0 or above 256 */
    HF_IMAGE_LENGTH = 5, /* the image is not 272 * pages * banks bytes */
    HF_PLACE = 6,        /* bank, page or offset lies outside the geometry */
    HF_LENGTH = 7,       /* the length is 0 or above 256, or the bytes run past the page's end */
    HF_NO_PLACE = 8,     /* the record does not open to any place: another key, or changed bytes */
    HF_OUTSIDE = 9,      /* start and length of a list's item leave the bytes that are lent with it */
    HF_TOO_MANY = 10,    /* the list has more than 64 items */
    HF_ELSEWHERE = 11,   /* the record opens to another place, which the answer's bank and page say */

    HF_STORE_LENGTH = 16, /* the store is not 8192 bytes, or more than 1024 records are used */
    HF_STORE_BROKEN = 17, /* a used record breaks the layout */
    HF_SETTING = 18,      /* the setting is above 31, or the version above the used number */
    HF_STORE_FULL = 19    /* 1024 records are used, and one more is to be added */
};

/* `number` is one of enum hf_number; `count` is how many blocks were enciphered and written. By HF_ELSEWHERE `bank` and `page` say whose record
   it is, which may lie beyond the geometry; they are 0 in every other answer. */
typedef struct hf_answer {
    uint32_t number;
    uint32_t count;
    uint32_t bank;
    uint32_t page;
} hf_answer;

/* A patch of a list: `length` bytes for bank `bank` from `offset` on, which are those from `start` on of the bytes that are lent with the list. */
typedef struct hf_item {
    uint32_t bank;
    uint32_t offset;
    uint32_t start;
    uint32_t length;
} hf_item;

/* `number`, `count`, `bank` and `page` as in hf_answer; `place` is that of the first item that is refused, counted from 0. It is 0 where the list
   as a whole is refused, or is done. */
typedef struct hf_list_answer {
    uint32_t number;
    uint32_t count;
    uint32_t place;
    uint32_t bank;
    uint32_t page;
} hf_list_answer;

/* Enciphers the block where it lies. Refused by 1 and 3. Count 0. */
hf_answer hf_encipher(const uint8_t *key, size_t key_length, uint8_t *block, size_t block_length);

/* Deciphers the block where it lies. Refused by 1 and 3. Count 0. */
hf_answer hf_decipher(const uint8_t *key, size_t key_length, uint8_t *block, size_t block_length);

/* Seals 1 to 256 plain bytes as page `page` of bank `bank`; a short page is filled at its end with ff, as an erased part reads. The record that was
   there is replaced without a look at it. Refused by 1, 4, 5, 6 (bank, page) and 7. Count 17. */
hf_answer hf_seal(const uint8_t *key, size_t key_length, uint32_t pages, uint32_t banks, uint8_t *image, size_t image_length,
                  uint32_t bank, uint32_t page, const uint8_t *plain, size_t plain_length);

/* Fills `out` with 1 to 256 plain bytes of bank `bank` from `offset` on (0 to 256 * pages - 1), all inside one page. The image stays as it is.
   Refused by 1, 4, 5, 6 (bank, offset), 7, and 8 or 11. Count 0. */
hf_answer hf_read(const uint8_t *key, size_t key_length, uint32_t pages, uint32_t banks, const uint8_t *image, size_t image_length,
                  uint32_t bank, uint32_t offset, uint8_t *out, size_t out_length);

/* Replaces 1 to 256 plain bytes of bank `bank` from `offset` on, all inside one page, and re-enciphers from the first block written into.
   Refused by 1, 4, 5, 6 (bank, offset), 7, and 8 or 11. Count 16 - p / 16, where p is the first byte's place in its page. */
hf_answer hf_patch(const uint8_t *key, size_t key_length, uint32_t pages, uint32_t banks, uint8_t *image, size_t image_length,
                   uint32_t bank, uint32_t offset, const uint8_t *bytes, size_t bytes_length);

/* Makes the patches of a list one by one, in its order, or none of them. `items_length` counts items, 0 to 64; they may share bytes, and name one
   place more than once. The list as a whole is refused by 1, 4, 5 and 10. Then each item is judged on the image as it came, and the first that
   is refused is named: by 9, 6 (bank, offset), 7, and 8 or 11. Count is the sum of what hf_patch counts for each, 0 for an empty list. */
hf_list_answer hf_patch_list(const uint8_t *key, size_t key_length, uint32_t pages, uint32_t banks, uint8_t *image, size_t image_length,
                             const hf_item *items, size_t items_length, const uint8_t *bytes, size_t bytes_length);

/* What changed in a bank between two images of one key and geometry: the pages that can be read in both and whose plain bytes differ. Page p is bit
   p % 64 of masks[p / 64], and `changed` counts them. All zeros beside its number where the report was refused. */
typedef struct hf_changes {
    uint32_t number;
    uint32_t changed;
    uint64_t masks[4];
} hf_changes;

/* How many slots of two images can be read in both and are the same, how many changed, and how many cannot be read in one of them (8 or 11). They
   add up to all slots. All zeros beside its number where the totals were refused. */
typedef struct hf_totals {
    uint32_t number;
    uint32_t same;
    uint32_t changed;
    uint32_t unreadable;
} hf_totals;

#define HF_NO_PAGE 256 /* what hf_next_changed answers where there is none */

/* Compares a bank of two images, which stay as they are. Refused by 1, 4, 5 (either image) and 6 (bank). */
hf_changes hf_compare_bank(const uint8_t *key, size_t key_length, uint32_t pages, uint32_t banks, const uint8_t *old_image, size_t old_length,
                           const uint8_t *new_image, size_t new_length, uint32_t bank);

/* Compares all slots of two images, which stay as they are. Refused by 1, 4 and 5 (either image). */
hf_totals hf_compare_image(const uint8_t *key, size_t key_length, uint32_t pages, uint32_t banks, const uint8_t *old_image, size_t old_length,
                           const uint8_t *new_image, size_t new_length);

/* The next changed page of a report from page `from` on, that page included, or HF_NO_PAGE. Never refused. */
uint32_t hf_next_changed(hf_changes changes, uint32_t from);

/* Settings that can go back: 32 numbers in a store of 8192 bytes that the host keeps, with the number of records used in it. A new store has none
   used, whatever its bytes, and every setting is 0. A record sets one setting, or goes back to a version, which is a number of records from the
   first on, and makes all settings what they were after these. Each is 8 bytes: setting, kind (0 set, 1 go back), two zeros, and the value or
   version, low byte first. These calls take no key, and judge every used record; bytes past the used ones are never looked at. */

/* `used` is the number of used records from now on: one more where a record was added, and the number that was given where it was refused. */
typedef struct hf_added {
    uint32_t number;
    uint32_t used;
} hf_added;

/* The values of the settings; zeros where the reading was refused. */
typedef struct hf_reading {
    uint32_t number;
    uint32_t values[HF_SETTINGS];
} hf_reading;

/* Adds the record that sets a setting. Refused by 16, 17, 18 and 19. */
hf_added hf_setting_set(uint8_t *store, size_t store_length, uint32_t used, uint32_t setting, uint32_t value);

/* Adds the record that goes back to a version, from 0 to `used`. Refused by 16, 17, 18 and 19. */
hf_added hf_setting_go_back(uint8_t *store, size_t store_length, uint32_t used, uint32_t version);

/* Reads the settings of a version, from 0 to `used`. The store stays as it is. Refused by 16, 17 and 18. */
hf_reading hf_settings_read(const uint8_t *store, size_t store_length, uint32_t used, uint32_t version);

#ifdef __cplusplus
}
#endif

#endif
