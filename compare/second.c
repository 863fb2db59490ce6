// A second comparison, for the bench: random calls on the library beside a CBC over other libraries' Twofish. `second [cases] [seed]`.
#include "hingefodder.h"
#include "others.h"

#include <stdio.h>
#include <stdlib.h>
#include <string.h>

enum { PAGE = 256, RECORD = 272, GUARD = 32, MOST = 13 * RECORD, ITEMS = 64, NUMBERS = 12 };

// From so many calls on, a number that none of them met is a failure too.
enum { MANY = 2000 };

typedef enum { ENCIPHER, DECIPHER, SEAL, READ, PATCH, LIST, ENTRIES } entry;

// A lent buffer between guard bytes.
typedef struct {
    size_t length;
    uint8_t all[GUARD + MOST + GUARD];
} lent;

// A call with all that it lends. `at` is the page number of a seal, the offset of a read or a patch. A list has items in place of bank and `at`.
typedef struct {
    uint32_t entry, pages, banks, bank, at;
    size_t items;
    hf_item item[ITEMS + 1];
    lent key, image, bytes;
} call;

static uint64_t state;

static uint32_t below(uint32_t n) {
    state ^= state << 13;
    state ^= state >> 7;
    state ^= state << 17;
    return (uint32_t)(state >> 20) % n;
}

static void fill(uint8_t *bytes, size_t length) {
    for (size_t i = 0; i < length; i++) {
        bytes[i] = (uint8_t)below(256);
    }
}

static uint8_t *start(lent *l) {
    return l->all + GUARD;
}

// A buffer of random bytes; what lies past its end is guard bytes too.
static void lend(lent *l, size_t length) {
    l->length = length;
    fill(l->all, sizeof l->all);
}

static void encipher_after(const other *o, const uint8_t *chain, uint8_t *block) {
    for (int i = 0; i < 16; i++) {
        block[i] ^= chain[i];
    }
    o->encipher(block);
}

// CBC with a zero first chaining block over the place block and a page, under the key that was set.
static void seal_record(const other *o, uint32_t bank, uint32_t page, const uint8_t *plain, uint8_t *record) {
    static const uint8_t zeros[16];
    memset(record, 0, 16);
    record[0] = (uint8_t)bank;
    record[1] = (uint8_t)page;
    memcpy(record + 16, plain, PAGE);
    for (int i = 0; i < 17; i++) {
        encipher_after(o, i == 0 ? zeros : record + 16 * (i - 1), record + 16 * i);
    }
}

static hf_list_answer refused(uint32_t number) {
    return (hf_list_answer){.number = number};
}

static hf_list_answer done(uint32_t count) {
    return (hf_list_answer){.count = count};
}

// The page that a record holds, and 0; or refused by 11 where its first block names another place, and by 8 where it names none.
static hf_list_answer open_record(const other *o, uint32_t bank, uint32_t page, const uint8_t *record, uint8_t *plain) {
    static const uint8_t zeros[14];
    uint8_t block[16];
    memcpy(block, record, 16);
    o->decipher(block);
    for (int i = 1; i < 17; i++) {
        uint8_t *to = plain + 16 * (i - 1);
        memcpy(to, record + 16 * i, 16);
        o->decipher(to);
        for (int j = 0; j < 16; j++) {
            to[j] ^= record[16 * (i - 1) + j];
        }
    }
    if (memcmp(block + 2, zeros, 14) != 0) {
        return refused(8);
    }
    return block[0] == bank && block[1] == page ? done(0) : (hf_list_answer){.number = 11, .bank = block[0], .page = block[1]};
}

static uint8_t *record_of(call *c, uint32_t bank, uint32_t page) {
    return start(&c->image) + RECORD * (bank * c->pages + page);
}

// The first of refusals 6, 7, and 8 or 11 that holds of so many bytes, else 0 and the page that the record holds.
static hf_list_answer judge(const other *o, call *c, uint32_t bank, uint32_t offset, size_t length, uint8_t *plain) {
    uint32_t page = offset / PAGE;
    if (bank >= c->banks || page >= c->pages) {
        return refused(6);
    }
    if (length < 1 || length > PAGE || offset % PAGE + length > PAGE) {
        return refused(7);
    }
    return open_record(o, bank, page, record_of(c, bank, page), plain);
}

// A patch that is taken, of a page that was opened, and its count.
static uint32_t patch(const other *o, call *c, uint32_t bank, uint32_t offset, const uint8_t *bytes, size_t length, uint8_t *plain) {
    memcpy(plain + offset % PAGE, bytes, length);
    seal_record(o, bank, offset / PAGE, plain, record_of(c, bank, offset / PAGE));
    return 16 - offset % PAGE / 16;
}

// The patches of a list one by one; every one is judged on the image as it came, before the first is made.
static hf_list_answer expected_list(const other *o, call *c) {
    uint8_t plain[PAGE];
    uint32_t count = 0;
    if (c->items > ITEMS) {
        return refused(10);
    }
    for (uint32_t i = 0; i < c->items; i++) {
        hf_item t = c->item[i];
        bool outside = (uint64_t)t.start + t.length > c->bytes.length;
        hf_list_answer judged = outside ? refused(9) : judge(o, c, t.bank, t.offset, t.length, plain);
        if (judged.number != 0) {
            judged.place = i;
            return judged;
        }
    }
    for (uint32_t i = 0; i < c->items; i++) {
        hf_item t = c->item[i];
        judge(o, c, t.bank, t.offset, t.length, plain);
        count += patch(o, c, t.bank, t.offset, start(&c->bytes) + t.start, t.length, plain);
    }
    return done(count);
}

// Sets a key of 1 to 32 bytes with zeros after it, up to the next of 16, 24 and 32. Whether the other library takes it.
static bool set(const other *o, const uint8_t *key, size_t length) {
    uint8_t padded[32] = {0};
    if (length < 1 || length > 32) {
        return false;
    }
    memcpy(padded, key, length);
    return o->set(padded, length <= 16 ? 16 : length <= 24 ? 24 : 32);
}

// The call by the other library.
static hf_list_answer expected(const other *o, call *c) {
    size_t n = c->bytes.length;
    uint8_t *bytes = start(&c->bytes), plain[PAGE];
    if (!set(o, start(&c->key), c->key.length)) {
        return refused(1);
    }
    if (c->entry == ENCIPHER || c->entry == DECIPHER) {
        if (n != 16) {
            return refused(3);
        }
        (c->entry == ENCIPHER ? o->encipher : o->decipher)(bytes);
        return done(0);
    }
    if (c->pages < 1 || c->pages > 256 || c->banks < 1 || c->banks > 256) {
        return refused(4);
    }
    if (c->image.length != (size_t)RECORD * c->pages * c->banks) {
        return refused(5);
    }
    if (c->entry == LIST) {
        return expected_list(o, c);
    }
    if (c->entry == SEAL) {
        if (c->bank >= c->banks || c->at >= c->pages) {
            return refused(6);
        }
        if (n < 1 || n > PAGE) {
            return refused(7);
        }
        memset(plain, 0xff, PAGE);
        memcpy(plain, bytes, n);
        seal_record(o, c->bank, c->at, plain, record_of(c, c->bank, c->at));
        return done(17);
    }
    hf_list_answer judged = judge(o, c, c->bank, c->at, n, plain);
    if (judged.number != 0) {
        return judged;
    }
    if (c->entry == READ) {
        memcpy(bytes, plain + c->at % PAGE, n);
        return done(0);
    }
    return done(patch(o, c, c->bank, c->at, bytes, n, plain));
}

// The call by the library.
static hf_list_answer given(call *c) {
    uint8_t *key = start(&c->key), *image = start(&c->image), *bytes = start(&c->bytes);
    size_t k = c->key.length, m = c->image.length, n = c->bytes.length;
    hf_answer answer;
    switch (c->entry) {
    case ENCIPHER: answer = hf_encipher(key, k, bytes, n); break;
    case DECIPHER: answer = hf_decipher(key, k, bytes, n); break;
    case SEAL: answer = hf_seal(key, k, c->pages, c->banks, image, m, c->bank, c->at, bytes, n); break;
    case READ: answer = hf_read(key, k, c->pages, c->banks, image, m, c->bank, c->at, bytes, n); break;
    case PATCH: answer = hf_patch(key, k, c->pages, c->banks, image, m, c->bank, c->at, bytes, n); break;
    default: return hf_patch_list(key, k, c->pages, c->banks, image, m, c->item, c->items, bytes, n);
    }
    return (hf_list_answer){.number = answer.number, .count = answer.count, .bank = answer.bank, .page = answer.page};
}

// A key length that the library takes, one in two of 16, 24 or 32.
static size_t taken(const other *o) {
    static const uint8_t zeros[32];
    for (;;) {
        size_t length = below(2) ? 16 + 8 * below(3) : 1 + below(32);
        if (set(o, zeros, length)) {
            return length;
        }
    }
}

// A record of random bytes in a slot that is to be in the image: of its place, or now and then of any other.
static void make_record(const other *o, call *c, uint32_t bank, uint32_t page) {
    uint8_t plain[PAGE];
    bool other_place = below(8) == 0;
    fill(plain, PAGE);
    set(o, start(&c->key), c->key.length);
    seal_record(o, other_place ? below(256) : bank, other_place ? below(256) : page, plain, record_of(c, bank, page));
}

// A list of up to 65 items, few of them as a rule, on pages anywhere or all on one, and now and then with one of them wrong.
static void make_items(const other *o, call *c) {
    bool one = below(3) == 0;
    c->items = below(16) == 0 ? ITEMS - 1 + below(3) : below(6);
    lend(&c->bytes, PAGE + below(300));
    for (size_t i = 0; i < c->items; i++) {
        hf_item *t = &c->item[i];
        uint32_t page = one ? c->at / PAGE : below(c->pages), first = below(PAGE);
        t->bank = one ? c->bank : below(c->banks);
        t->offset = PAGE * page + first;
        t->length = 1 + below(PAGE - first);
        t->start = below((uint32_t)c->bytes.length - t->length + 1);
        if (below(8) != 0) {
            make_record(o, c, t->bank, page);
        }
    }
    if (c->items == 0 || below(3) != 0) {
        return;
    }
    hf_item *t = &c->item[below((uint32_t)c->items)];
    for (uint32_t spoiled = 1 + below(2); spoiled > 0; spoiled--) {
        switch (below(6)) {
        case 0: t->bank = below(2) ? c->banks : UINT32_MAX; break;
        case 1: t->offset = below(2) ? PAGE * c->pages : UINT32_MAX; break;
        case 2: t->length = 0; break;
        case 3: t->start = 0, t->length = PAGE + below(2); break;
        case 4: t->start = (uint32_t)c->bytes.length - below(2); break;
        default: t->start = UINT32_MAX, t->length = 1 + below(3);
        }
    }
}

// A random call: right, but for up to two parts. Key lengths of 17 to 24 are left out where the other library does not take 24.
static void make(const other *o, call *c) {
    memset(c, 0, sizeof *c);
    c->entry = below(ENTRIES);
    c->pages = 1 + below(4);
    c->banks = 1 + below(3);
    c->bank = below(c->banks);
    uint32_t page = below(c->pages), first = below(PAGE);
    c->at = c->entry == SEAL ? page : PAGE * page + first;
    lend(&c->key, taken(o));
    lend(&c->image, RECORD * c->pages * c->banks);
    lend(&c->bytes, c->entry < SEAL ? 16 : 1 + below(c->entry == SEAL ? PAGE : PAGE - first));
    if (below(8) != 0) {
        make_record(o, c, c->bank, page);
        if (below(8) == 0) {
            record_of(c, c->bank, page)[below(RECORD)] ^= 1 << below(8);
        }
    }
    if (c->entry == LIST) {
        make_items(o, c);
    }
    for (uint32_t spoiled = below(3); spoiled > 0; spoiled--) {
        switch (below(7)) {
        case 0:
            c->key.length = below(41);
            if (c->key.length >= 17 && c->key.length <= 24 && !set(o, start(&c->key), c->key.length)) {
                c->key.length += 8;
            }
            break;
        case 1: c->pages = below(2) ? below(6) : UINT32_MAX - below(2); break;
        case 2: c->banks = below(2) ? below(6) : 256 + below(2); break;
        case 3: c->image.length = c->image.length + below(3) - 1; break;
        case 4: c->bank = below(2) ? c->banks : UINT32_MAX; break;
        case 5: c->at = below(2) ? c->at + 1 : PAGE * c->pages - below(2); break;
        default: c->bytes.length = below(2) ? below(33) : PAGE - 1 + below(3);
        }
    }
}

// The numbers that are answered: by lists, and by the other entries.
static const bool gives[2][NUMBERS] = {
    {true, true, false, true, true, true, true, true, true, false, false, true},
    {true, true, false, false, true, true, true, true, true, true, true, true},
};

// Prints how often each was met. Whether each was.
static bool tell(const long *numbers, const bool *given) {
    bool met = numbers[0] != 0;
    printf(" done %ld, refused", numbers[0]);
    for (int i = 1; i < NUMBERS; i++) {
        if (given[i]) {
            printf("%s by %d %ld", i > 1 ? "," : "", i, numbers[i]);
            met = met && numbers[i] != 0;
        }
    }
    return met;
}

// Holds the library beside one other. Whether they agree.
static bool agree(const other *o, uint64_t seed, long cases) {
    static call before, wanted, got;
    long numbers[2][NUMBERS] = {0};
    for (long i = 0; i < cases; i++) {
        state = (seed + (uint64_t)i) * 0x9e3779b97f4a7c15u | 1;
        make(o, &before);
        wanted = got = before;
        hf_list_answer a = expected(o, &wanted), b = given(&got);
        if (a.number != b.number || a.count != b.count || a.place != b.place || a.bank != b.bank || a.page != b.page || memcmp(&wanted, &got, sizeof got) != 0) {
            printf("%s: not the same, entry %u with pages %u, banks %u, bank %u, page or offset %u, items %zu, lengths %zu, %zu, %zu: "
                   "number %u, count %u, place %u, held %u:%u, and here number %u, count %u, place %u, held %u:%u%s\nAgain: second 1 %llu\n",
                   o->name, before.entry, before.pages, before.banks, before.bank, before.at, before.items, before.key.length,
                   before.image.length, before.bytes.length, a.number, a.count, a.place, a.bank, a.page, b.number, b.count, b.place, b.bank, b.page,
                   memcmp(&wanted, &got, sizeof got) ? ", and bytes differ" : "", (unsigned long long)(seed + (uint64_t)i));
            return false;
        }
        numbers[before.entry == LIST][a.number]++;
    }
    printf("%s: the same, %ld calls;", o->name, cases);
    bool met = tell(numbers[0], gives[0]);
    printf("; lists:");
    met = tell(numbers[1], gives[1]) && met;
    puts(met || cases < MANY ? "" : "\nA number was never met: NOT ENOUGH");
    return met || cases < MANY;
}

int main(int argc, char **argv) {
    long cases = argc > 1 ? atol(argv[1]) : 100000;
    uint64_t seed = argc > 2 ? strtoull(argv[2], NULL, 10) : 1;
    bool same = true;
    if (!others[0].name) {
        puts("second: skipped, none of the other libraries is installed");
    }
    for (const other *o = others; o->name; o++) {
        same = agree(o, seed, cases) && same;
    }
    return same ? 0 : 1;
}
