/* host.c: a host that calls the library as the header allows: buffers at any address, null where the length is 0, any number, and every refusal
   with nothing changed. Each call that answered something else is said on standard error, and then the status is 1. */

#include <hingefodder_text.h>
#include <stdio.h>
#include <string.h>

enum { PAGES = 3, BANKS = 5, PLACES = 17, SIZE = HF_IMAGE(PAGES, BANKS), LAST = (BANKS * PAGES - 1) * HF_RECORD };

static uint8_t key[HF_BLOCK * 2 + 1], plain[HF_PAGE + PLACES], out[HF_PAGE + PLACES], room[SIZE + PLACES], before[sizeof room];
static int wrong;

static void want(int right, int line)
{
    if (!right)
        fprintf(stderr, "tests/host.c: line %d\n", line);
    wrong |= !right;
}
#define WANT(right) want((right), __LINE__)

static void answers(hf_answer answer, uint32_t number, uint32_t count, int line)
{
    want(answer.number == number && answer.count == count && answer.bank == 0 && answer.page == 0, line);
}
#define DONE(call, count) answers((call), HF_DONE, (count), __LINE__)
#define REFUSED(call, number) answers((call), (number), 0, __LINE__)

static void answers_list(hf_list_answer answer, uint32_t number, uint32_t count, uint32_t place, int line)
{
    want(answer.number == number && answer.count == count && answer.place == place && answer.bank == 0 && answer.page == 0, line);
}
#define LIST_DONE(call, count) answers_list((call), HF_DONE, (count), 0, __LINE__)
#define LIST_REFUSED(call, number, place) answers_list((call), (number), 0, (place), __LINE__)

static int all(const uint8_t *bytes, size_t length, uint8_t byte)
{
    for (size_t i = 0; i < length; i++)
        if (bytes[i] != byte)
            return 0;
    return 1;
}

/* The last page of the last bank, with every buffer `at` bytes behind an aligned address. */
static void use_unaligned(size_t at)
{
    uint8_t *image = room + at;
    const uint8_t *lent = key + at % 2, *page = plain + at;
    memset(room, 0xee, sizeof room);
    memset(out, 0x55, sizeof out);
    DONE(hf_seal(lent, 32, PAGES, BANKS, image, SIZE, 4, 2, page, HF_PAGE), 17);
    WANT(all(room, at + LAST, 0xee) && all(image + SIZE, PLACES - at, 0xee));
    DONE(hf_read(lent, 32, PAGES, BANKS, image, SIZE, 4, 0x200, out + at, HF_PAGE), 0);
    WANT(memcmp(out + at, page, HF_PAGE) == 0 && all(out, at, 0x55) && all(out + at + HF_PAGE, PLACES - at, 0x55));
    memcpy(before, room, sizeof room);
    for (uint32_t p = 0; p < HF_PAGE; p++)
        DONE(hf_patch(lent, 32, PAGES, BANKS, image, SIZE, 4, 0x200 + p, page + p, 1), 16 - p / 16);
    WANT(memcmp(before, room, sizeof room) == 0);
}

static void meet_refusals(void)
{
    memset(out, 0x55, sizeof out);
    memcpy(before, room, sizeof room);
    REFUSED(hf_seal(NULL, 0, 0, 0, NULL, 0, 9, 9, NULL, 0), HF_KEY_LENGTH);
    REFUSED(hf_read(NULL, 0, 0, 0, NULL, 0, 9, 9, NULL, 0), HF_KEY_LENGTH);
    REFUSED(hf_patch(NULL, 0, 0, 0, NULL, 0, 9, 9, NULL, 0), HF_KEY_LENGTH);
    REFUSED(hf_encipher(NULL, 0, NULL, 0), HF_KEY_LENGTH);
    REFUSED(hf_decipher(NULL, 0, NULL, 0), HF_KEY_LENGTH);
    REFUSED(hf_encipher(key, 24, NULL, 0), HF_BLOCK_LENGTH);
    REFUSED(hf_decipher(key, 24, NULL, 0), HF_BLOCK_LENGTH);
    REFUSED(hf_encipher(key, 24, room, 17), HF_BLOCK_LENGTH);
    REFUSED(hf_decipher(key, 24, room, 15), HF_BLOCK_LENGTH);
    REFUSED(hf_seal(key, 16, 257, 1, NULL, 0, 9, 9, NULL, 0), HF_GEOMETRY);
    REFUSED(hf_read(key, 16, 1, 0, NULL, 0, 9, 9, NULL, 0), HF_GEOMETRY);
    REFUSED(hf_patch(key, 16, UINT32_MAX, UINT32_MAX, NULL, 0, 9, 9, NULL, 0), HF_GEOMETRY);
    REFUSED(hf_seal(key, 16, PAGES, BANKS, NULL, 0, 9, 9, NULL, 0), HF_IMAGE_LENGTH);
    REFUSED(hf_read(key, 16, PAGES, BANKS, room, SIZE - 1, 9, 9, NULL, 0), HF_IMAGE_LENGTH);
    REFUSED(hf_patch(key, 16, PAGES, BANKS, room, SIZE + 1, 9, 9, NULL, 0), HF_IMAGE_LENGTH);
    REFUSED(hf_seal(key, 16, PAGES, BANKS, room, SIZE, 4, PAGES, NULL, 0), HF_PLACE);
    REFUSED(hf_read(key, 16, PAGES, BANKS, room, SIZE, BANKS, 0, NULL, 0), HF_PLACE);
    REFUSED(hf_patch(key, 16, PAGES, BANKS, room, SIZE, 4, UINT32_MAX, NULL, 0), HF_PLACE);
    REFUSED(hf_seal(key, 16, PAGES, BANKS, room, SIZE, 4, 2, NULL, 0), HF_LENGTH);
    REFUSED(hf_seal(key, 16, PAGES, BANKS, room, SIZE, 4, 2, plain, HF_PAGE + 1), HF_LENGTH);
    REFUSED(hf_read(key, 16, PAGES, BANKS, room, SIZE, 4, 0x2ff, out, 2), HF_LENGTH);
    REFUSED(hf_patch(key, 16, PAGES, BANKS, room, SIZE, 4, 0x2ff, NULL, 0), HF_LENGTH);
    REFUSED(hf_read(key, 16, PAGES, BANKS, room, SIZE, 4, 0x2ff, out, 1), HF_NO_PLACE);
    REFUSED(hf_patch(key, 16, PAGES, BANKS, room, SIZE, 4, 0x2ff, plain, 1), HF_NO_PLACE);
    WANT(memcmp(before, room, sizeof room) == 0 && all(out, sizeof out, 0x55));
}

/* The list of the first `items` items, with `length` of the bytes that stand in plain. */
static hf_list_answer list(const hf_item *item, size_t items, size_t length)
{
    return hf_patch_list(key, 16, PAGES, BANKS, room, SIZE, item, items, plain, length);
}

/* Every page of zeros. */
static void seal_all(void)
{
    static const uint8_t none[HF_PAGE];
    for (uint32_t slot = 0; slot < PAGES * BANKS; slot++)
        DONE(hf_seal(key, 16, PAGES, BANKS, room, SIZE, slot / PAGES, slot % PAGES, none, HF_PAGE), 17);
}

static int reads(uint32_t bank, uint32_t offset, const uint8_t *wanted, size_t length)
{
    return hf_read(key, 16, PAGES, BANKS, room, SIZE, bank, offset, out, length).number == HF_DONE && memcmp(out, wanted, length) == 0;
}

/* Lists that are done. Their outcome is that of hf_patch, one after another. */
static void make_lists(void)
{
    /* The second and the last write over the first; the third takes the same bytes to another bank. */
    static const hf_item item[] = {{1, 0x1f0, 0, 16}, {1, 0x1f8, 100, 4}, {4, 0x237, 0, 1}, {1, 0x1fa, 7, 1}};
    enum { ITEMS = sizeof item / sizeof item[0] };
    uint32_t count = 0;
    seal_all();
    memcpy(before, room, SIZE);
    for (size_t i = 0; i < ITEMS; i++)
        count += hf_patch(key, 16, PAGES, BANKS, before, SIZE, item[i].bank, item[i].offset, plain + item[i].start, item[i].length).count;
    WANT(count == 1 + 1 + 13 + 1);
    LIST_DONE(list(item, ITEMS, 104), count);
    WANT(memcmp(before, room, SIZE) == 0);
    WANT(reads(1, 0x1f0, plain, 8) && reads(1, 0x1f8, plain + 100, 2) && reads(1, 0x1fa, plain + 7, 1) && reads(1, 0x1fb, plain + 103, 1) &&
         reads(1, 0x1fc, plain + 12, 4) && reads(4, 0x237, plain, 1));
    LIST_DONE(list(NULL, 0, 104), 0);
    LIST_DONE(hf_patch_list(key, 16, PAGES, BANKS, room, SIZE, NULL, 0, NULL, 0), 0);
    WANT(memcmp(before, room, SIZE) == 0);
}

/* 64 items, all on one slot, from bytes at any address; and one more. */
static void make_long_list(void)
{
    hf_item item[HF_ITEMS_MAX + 1];
    uint32_t count = 0;
    for (uint32_t i = 0; i <= HF_ITEMS_MAX; i++) {
        item[i] = (hf_item){2, 0x100 + 3 * i, i, 4};
        count += i < HF_ITEMS_MAX ? 16 - 3 * i / 16 : 0;
    }
    for (size_t at = 0; at < PLACES; at++) {
        seal_all();
        LIST_DONE(hf_patch_list(key, 16, PAGES, BANKS, room, SIZE, item, HF_ITEMS_MAX, plain + at, HF_ITEMS_MAX + 3), count);
        for (uint32_t i = 0; i < HF_ITEMS_MAX; i++)
            WANT(reads(2, 0x100 + 3 * i, plain + at + i, i + 1 < HF_ITEMS_MAX ? 3 : 4));
        memcpy(before, room, SIZE);
        LIST_REFUSED(hf_patch_list(key, 16, PAGES, BANKS, room, SIZE, item, HF_ITEMS_MAX + 1, plain, HF_PAGE), HF_TOO_MANY, 0);
        WANT(memcmp(before, room, SIZE) == 0);
    }
}

/* A list is refused by its item at place 2, between those that would be taken. */
static void refuse_item(hf_item refused, uint32_t number, int line)
{
    const hf_item item[] = {{0, 0, 0, 9}, {4, 0x17, 1, 16}, refused, {3, 0x2ff, 5, 1}, {9, 9, 9, 9}};
    answers_list(list(item, 5, HF_PAGE + 8), number, 0, 2, line);
    want(memcmp(before, room, SIZE) == 0, line);
}
#define ITEM_REFUSED(number, ...) refuse_item((hf_item){__VA_ARGS__}, (number), __LINE__)

static void meet_refused_lists(void)
{
    static const hf_item wrong_items[HF_ITEMS_MAX + 1]; /* each of length 0 */
    enum { LENT = HF_PAGE + 8 };
    seal_all();
    room[5 * HF_RECORD] ^= 1; /* bank 1, page 2 */
    memcpy(before, room, SIZE);

    /* As a whole, whatever is in it. */
    LIST_REFUSED(hf_patch_list(NULL, 0, 0, 0, NULL, 0, NULL, 0, NULL, 0), HF_KEY_LENGTH, 0);
    LIST_REFUSED(hf_patch_list(key, 16, 0, 1, NULL, 0, wrong_items, 65, NULL, 0), HF_GEOMETRY, 0);
    LIST_REFUSED(hf_patch_list(key, 16, 1, 257, NULL, 0, NULL, 0, NULL, 0), HF_GEOMETRY, 0);
    LIST_REFUSED(hf_patch_list(key, 16, PAGES, BANKS, room, SIZE - 1, wrong_items, 65, NULL, 0), HF_IMAGE_LENGTH, 0);
    LIST_REFUSED(hf_patch_list(key, 16, PAGES, BANKS, NULL, 0, NULL, 0, NULL, 0), HF_IMAGE_LENGTH, 0);
    LIST_REFUSED(hf_patch_list(key, 16, PAGES, BANKS, room, SIZE, wrong_items, 65, NULL, 0), HF_TOO_MANY, 0);
    LIST_REFUSED(hf_patch_list(key, 16, PAGES, BANKS, room, SIZE, wrong_items, 64, NULL, 0), HF_LENGTH, 0);

    /* By an item: 9 before 6, 6 before 7, 7 before 8. A sum of start and length does not wrap. */
    ITEM_REFUSED(HF_OUTSIDE, BANKS, 0, 0, LENT + 1);
    ITEM_REFUSED(HF_OUTSIDE, 1, 0x200, LENT, 1);
    ITEM_REFUSED(HF_OUTSIDE, 0, 0, LENT + 1, 0);
    ITEM_REFUSED(HF_OUTSIDE, 0, 0, UINT32_MAX, 2);
    ITEM_REFUSED(HF_OUTSIDE, 0, 0, 2, UINT32_MAX);
    ITEM_REFUSED(HF_OUTSIDE, 0, 0, UINT32_MAX, UINT32_MAX);
    ITEM_REFUSED(HF_PLACE, BANKS, 0, LENT, 0);
    ITEM_REFUSED(HF_PLACE, 1, PAGES * HF_PAGE, 0, 1);
    ITEM_REFUSED(HF_PLACE, UINT32_MAX, UINT32_MAX, 0, 1);
    ITEM_REFUSED(HF_LENGTH, 1, 0x200, LENT, 0);
    ITEM_REFUSED(HF_LENGTH, 0, 0, 0, HF_PAGE + 1);
    ITEM_REFUSED(HF_LENGTH, 1, 0x2ff, 0, 2);
    ITEM_REFUSED(HF_NO_PLACE, 1, 0x200, 0, HF_PAGE);

    /* The first that is refused is named, whatever its number. */
    static const hf_item two[] = {{1, 0x200, 0, 1}, {0, 0, 99, 1}};
    LIST_REFUSED(list(two, 2, 1), HF_NO_PLACE, 0);
    LIST_REFUSED(list(two + 1, 1, 1), HF_OUTSIDE, 0);
    WANT(memcmp(before, room, SIZE) == 0);
}

/* The record of bank 4, page 1 lies in the slots of bank 1, page 2 and of an image of one page: the answer says whose it is, also beyond the
   geometry. */
static void find_another_place(void)
{
    static const hf_item item[] = {{0, 0, 0, 1}, {1, 0x2ff, 0, 1}};
    hf_answer read, patched, beyond;
    hf_list_answer listed;
    seal_all();
    memcpy(room + 5 * HF_RECORD, room + 13 * HF_RECORD, HF_RECORD);
    memcpy(before, room, SIZE);
    memset(out, 0x55, sizeof out);
    read = hf_read(key, 16, PAGES, BANKS, room, SIZE, 1, 0x200, out, HF_PAGE);
    WANT(read.number == HF_ELSEWHERE && read.count == 0 && read.bank == 4 && read.page == 1);
    patched = hf_patch(key, 16, PAGES, BANKS, room, SIZE, 1, 0x237, plain, 1);
    WANT(patched.number == HF_ELSEWHERE && patched.count == 0 && patched.bank == 4 && patched.page == 1);
    listed = list(item, 2, 1);
    WANT(listed.number == HF_ELSEWHERE && listed.count == 0 && listed.place == 1 && listed.bank == 4 && listed.page == 1);
    beyond = hf_read(key, 16, 1, 1, room + 13 * HF_RECORD, HF_RECORD, 0, 0, out, 1);
    WANT(beyond.number == HF_ELSEWHERE && beyond.count == 0 && beyond.bank == 4 && beyond.page == 1);
    WANT(memcmp(before, room, SIZE) == 0 && all(out, sizeof out, 0x55));
}

/* Two images: a page that changed at each end of the first mask's part of a bank, one that is another place's, one of no place, and the rest. */
static void compare_images(void)
{
    enum { WIDE = 65, LONG = HF_IMAGE(WIDE, 2) };
    static uint8_t old_image[LONG], new_image[LONG];
    hf_changes changes;
    hf_totals totals;
    for (uint32_t slot = 0; slot < 2 * WIDE; slot++)
        DONE(hf_seal(key, 24, WIDE, 2, old_image, LONG, slot / WIDE, slot % WIDE, plain, HF_PAGE), 17);
    memcpy(new_image, old_image, LONG);
    changes = hf_compare_bank(key, 24, WIDE, 2, old_image, LONG, old_image, LONG, 1);
    WANT(changes.number == HF_DONE && changes.changed == 0 && hf_next_changed(changes, 0) == HF_NO_PAGE);
    DONE(hf_patch(key, 24, WIDE, 2, new_image, LONG, 1, 0x0000, plain + 1, 1), 16);
    DONE(hf_patch(key, 24, WIDE, 2, new_image, LONG, 1, 0x3fff, plain, 1), 1);
    DONE(hf_patch(key, 24, WIDE, 2, new_image, LONG, 1, 0x4080, plain, 1), 8);
    memcpy(new_image + 3 * HF_RECORD, old_image, HF_RECORD);
    new_image[4 * HF_RECORD] ^= 1;
    changes = hf_compare_bank(key, 24, WIDE, 2, old_image, LONG, new_image, LONG, 1);
    WANT(changes.number == HF_DONE && changes.changed == 3 && changes.masks[0] == (1 | (uint64_t)1 << 63) && changes.masks[1] == 1 &&
         changes.masks[2] == 0 && changes.masks[3] == 0);
    WANT(hf_next_changed(changes, 0) == 0 && hf_next_changed(changes, 1) == 63 && hf_next_changed(changes, 64) == 64 &&
         hf_next_changed(changes, 65) == HF_NO_PAGE && hf_next_changed(changes, UINT32_MAX) == HF_NO_PAGE);
    totals = hf_compare_image(key, 24, WIDE, 2, old_image, LONG, new_image, LONG);
    WANT(totals.number == HF_DONE && totals.same == 2 * WIDE - 5 && totals.changed == 3 && totals.unreadable == 2);
}

/* Every number in a report is 0 where it is refused. */
static void refused_report(hf_changes changes, uint32_t number, int line)
{
    uint64_t masks = changes.masks[0] | changes.masks[1] | changes.masks[2] | changes.masks[3];
    want(changes.number == number && changes.changed == 0 && masks == 0, line);
}
static void refused_totals(hf_totals totals, uint32_t number, int line)
{
    want(totals.number == number && totals.same == 0 && totals.changed == 0 && totals.unreadable == 0, line);
}
#define NO_REPORT(call, number) refused_report((call), (number), __LINE__)
#define NO_TOTALS(call, number) refused_totals((call), (number), __LINE__)

static void refuse_reports(void)
{
    seal_all();
    NO_REPORT(hf_compare_bank(NULL, 0, 0, 0, NULL, 0, NULL, 0, 9), HF_KEY_LENGTH);
    NO_REPORT(hf_compare_bank(key, 16, 0, 0, NULL, 0, NULL, 0, 9), HF_GEOMETRY);
    NO_REPORT(hf_compare_bank(key, 16, PAGES, BANKS, room, SIZE - 1, room, SIZE, 9), HF_IMAGE_LENGTH);
    NO_REPORT(hf_compare_bank(key, 16, PAGES, BANKS, room, SIZE, NULL, 0, 9), HF_IMAGE_LENGTH);
    NO_REPORT(hf_compare_bank(key, 16, PAGES, BANKS, room, SIZE, room, SIZE, BANKS), HF_PLACE);
    NO_TOTALS(hf_compare_image(NULL, 0, 0, 0, NULL, 0, NULL, 0), HF_KEY_LENGTH);
    NO_TOTALS(hf_compare_image(key, 16, PAGES, 257, room, SIZE, room, SIZE), HF_GEOMETRY);
    NO_TOTALS(hf_compare_image(key, 16, PAGES, BANKS, room, SIZE, room, SIZE + 1), HF_IMAGE_LENGTH);
    NO_TOTALS(hf_compare_image(key, 16, PAGES, BANKS, NULL, 0, room, SIZE), HF_IMAGE_LENGTH);
}

static void added(hf_added answer, uint32_t number, uint32_t used, int line)
{
    want(answer.number == number && answer.used == used, line);
}
#define ADDED(call, used) added((call), HF_DONE, (used), __LINE__)
#define NOT_ADDED(call, number, used) added((call), (number), (used), __LINE__)

/* The setting in every version from 0 on, and setting 4, which is never set. */
static void versions(const uint8_t *store, uint32_t used, uint32_t setting, const uint32_t *values, int line)
{
    for (uint32_t version = 0; version <= used; version++) {
        hf_reading reading = hf_settings_read(store, HF_STORE, used, version);
        want(reading.number == HF_DONE && reading.values[setting] == values[version] && reading.values[4] == 0, line);
    }
}

static void no_reading(hf_reading reading, uint32_t number, int line)
{
    int zeros = 1;
    for (int i = 0; i < HF_SETTINGS; i++)
        zeros &= reading.values[i] == 0;
    want(reading.number == number && zeros, line);
}
#define NO_READING(call, number) no_reading((call), (number), __LINE__)

/* Settings in a store at any address, whatever its bytes were: their records, every version, and each refusal with nothing changed. */
static void keep_settings(size_t at)
{
    static const uint8_t laid[] = {31, 0, 0, 0, 4, 3, 2, 1, 31, 0, 0, 0, 7, 0, 0, 0, 0, 1, 0, 0, 1, 0, 0, 0, 0, 1, 0, 0, 3, 0, 0, 0};
    static const uint32_t values[] = {0, 0x01020304, 7, 0x01020304, 0x01020304};
    static uint8_t stores[HF_STORE + PLACES], kept[sizeof stores];
    uint8_t *store = stores + at;
    memset(stores, 0xee, sizeof stores);
    ADDED(hf_setting_set(store, HF_STORE, 0, 31, 0x01020304), 1);
    ADDED(hf_setting_set(store, HF_STORE, 1, 31, 7), 2);
    ADDED(hf_setting_go_back(store, HF_STORE, 2, 1), 3);
    ADDED(hf_setting_go_back(store, HF_STORE, 3, 3), 4);
    WANT(all(stores, at, 0xee) && memcmp(store, laid, sizeof laid) == 0 && all(store + sizeof laid, sizeof stores - at - sizeof laid, 0xee));
    versions(store, 4, 31, values, __LINE__);

    memcpy(kept, stores, sizeof stores);
    NOT_ADDED(hf_setting_set(NULL, 0, 9, 99, 0), HF_STORE_LENGTH, 9);
    NOT_ADDED(hf_setting_set(store, HF_STORE - 1, 4, 99, 0), HF_STORE_LENGTH, 4);
    NOT_ADDED(hf_setting_go_back(store, HF_STORE, HF_STORE_RECORDS_MAX + 1, UINT32_MAX), HF_STORE_LENGTH, HF_STORE_RECORDS_MAX + 1);
    NOT_ADDED(hf_setting_set(store, HF_STORE, 5, 99, 0), HF_STORE_BROKEN, 5); /* the fifth record is no record */
    NOT_ADDED(hf_setting_set(store, HF_STORE, 4, HF_SETTINGS, 0), HF_SETTING, 4);
    NOT_ADDED(hf_setting_go_back(store, HF_STORE, 4, 5), HF_SETTING, 4);
    NO_READING(hf_settings_read(store, HF_STORE + 1, 4, 9), HF_STORE_LENGTH);
    NO_READING(hf_settings_read(store, HF_STORE, UINT32_MAX, 0), HF_STORE_LENGTH);
    NO_READING(hf_settings_read(store, HF_STORE, 5, 9), HF_STORE_BROKEN);
    NO_READING(hf_settings_read(store, HF_STORE, 4, 5), HF_SETTING);
    WANT(memcmp(kept, stores, sizeof stores) == 0);

    for (uint32_t used = 4; used < HF_STORE_RECORDS_MAX; used++)
        ADDED(hf_setting_set(store, HF_STORE, used, used % 4, used), used + 1);
    memcpy(kept, stores, sizeof stores);
    NOT_ADDED(hf_setting_go_back(store, HF_STORE, HF_STORE_RECORDS_MAX, 0), HF_STORE_FULL, HF_STORE_RECORDS_MAX);
    NOT_ADDED(hf_setting_set(store, HF_STORE, HF_STORE_RECORDS_MAX, HF_SETTINGS, 0), HF_SETTING, HF_STORE_RECORDS_MAX);
    WANT(memcmp(kept, stores, sizeof stores) == 0);
    WANT(hf_settings_read(store, HF_STORE, HF_STORE_RECORDS_MAX, HF_STORE_RECORDS_MAX).values[3] == 1023);
}

/* The block of zeros under the key of zeros, whose enciphered form is published. */
static void turn_a_block(void)
{
    static const uint8_t none[16], published[16] = {0x9f, 0x58, 0x9f, 0x5c, 0xf6, 0x12, 0x2c, 0x32, 0xb6, 0xbf, 0xec, 0x2f, 0x2a, 0xe8, 0xc3, 0x5a};
    uint8_t block[17] = {0};
    DONE(hf_encipher(none, 16, block + 1, 16), 0);
    WANT(memcmp(block + 1, published, 16) == 0);
    DONE(hf_decipher(none, 16, block + 1, 16), 0);
    WANT(all(block, 17, 0));
}

/* Zeros follow a key of 1 to 32 bytes up to its size, and no byte behind it counts; one zero more makes another key. */
static void pad_keys(void)
{
    for (size_t length = 1; length <= 32; length++) {
        size_t size = length <= 16 ? 16 : length <= 24 ? 24 : 32;
        uint8_t padded[33] = {0}, block[16] = {0}, again[16];
        memcpy(padded, key + 1, length);
        DONE(hf_encipher(key + 1, length, block, 16), 0);
        for (size_t wide = length; wide <= size; wide++) {
            memset(again, 0, 16);
            DONE(hf_encipher(padded, wide, again, 16), 0);
            WANT(memcmp(block, again, 16) == 0);
        }
        memset(again, 0, 16);
        if (size < 32) {
            DONE(hf_encipher(padded, size + 1, again, 16), 0);
            WANT(memcmp(block, again, 16) != 0);
        } else {
            REFUSED(hf_encipher(padded, 33, again, 16), HF_KEY_LENGTH);
            WANT(all(again, 16, 0));
        }
    }
}

int main(void)
{
    for (size_t i = 0; i < sizeof key; i++)
        key[i] = (uint8_t)i;
    for (size_t i = 0; i < sizeof plain; i++)
        plain[i] = (uint8_t)(7 * i);
    for (size_t at = 0; at < PLACES; at++)
        use_unaligned(at);
    meet_refusals();
    make_lists();
    make_long_list();
    meet_refused_lists();
    find_another_place();
    compare_images();
    refuse_reports();
    for (size_t at = 0; at < PLACES; at++)
        keep_settings(at);
    turn_a_block();
    pad_keys();
    for (uint32_t number = HF_DONE; number <= HF_STORE_FULL + 1; number++)
        WANT(hf_text(number)[0] != '\0');
    return wrong;
}
