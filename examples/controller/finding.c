/* finding.c - two finders of matches between two files, and what they find as one list.
 *
 * OLD is the store and NEW the version. A quick and a thorough finder find matches, each as a loose list, and these are pooled. A list that is full is
 * tidied; where that gives too little room, it ends early. Nothing goes to disk.
 *
 * In order: errors; files; answers; the list; the finders of matches; the deposit; the estimate.
 */
#include <errno.h>
#include <inttypes.h>
#include <stdarg.h>
#include <stdio.h>
#include <stdlib.h>
#include <string.h>

#include "finding.h"

/* ---- Errors ---- */

void fail(const char *format, ...)
{
    va_list values;
    va_start(values, format);
    fprintf(stderr, "%s: ", program);
    vfprintf(stderr, format, values);
    fputc('\n', stderr);
    va_end(values);
    exit(1);
}

void *allocate(size_t length)
{
    void *bytes = malloc(length + 1);
    if (bytes == NULL)
        fail("no memory for %zu bytes", length);
    return bytes;
}

/* ---- Files ---- */

/* The whole file, which has at most so many bytes: one more is asked for, to see that it does not come. */
static struct bytes read_file(const char *name, size_t most)
{
    FILE *file = fopen(name, "rb");
    if (file == NULL)
        fail("cannot open %s: %s", name, strerror(errno));
    struct bytes whole = { allocate(most), 0 };
    whole.length = fread(whole.at, 1, most + 1, file);
    if (ferror(file))
        fail("cannot read %s: %s", name, strerror(errno));
    if (whole.length > most)
        fail("%s is longer than %zu bytes", name, most);
    fclose(file);
    uint8_t *less = realloc(whole.at, whole.length + 1);
    if (less != NULL)
        whole.at = less;
    return whole;
}

/* ---- Answers ---- */

struct answer answer_of(const char *call, const uint8_t *area)
{
    const uint32_t number = answer_number(area);
    if (number != ACCEPTED)
        fail("%s refused: %s, at %" PRIu32, call, number_text(number), answer_place(area));
    return (struct answer){ answer_cost(area), answer_entries(area), answer_stored(area), answer_whole(area) };
}

double in_disk_bytes(uint64_t cost)
{
    return (double)cost / DISK_BYTE;
}

/* ---- The list ---- */

static void put_number(uint8_t *at, size_t number)
{
    for (int i = 0; i < 4; i++)
        at[i] = (uint8_t)(number >> (8 * i));
}

/* Adds a record; one of size 0 is left out. */
static void add(struct list *list, uint8_t kind, size_t size, size_t address)
{
    if (size == 0)
        return;
    uint8_t *record = list->bytes + RECORD_BYTES * list->records++;
    memset(record, 0, RECORD_BYTES);
    record[0] = kind;
    put_number(record + 4, size);
    put_number(record + 8, address);
    list->added++;
}

/* Takes the last record back. */
static void take_back(struct list *list)
{
    list->records--;
    list->added--;
}

/* Puts the list into its tidy form, which has no more records. */
static void tidy_list(struct list *list, struct bytes store)
{
    uint8_t area[ANSWER_BYTES];
    const struct list loose = *list;
    const size_t length = RECORD_BYTES * loose.records;
    tidy(loose.bytes, length, store.at, store.length, list->bytes, length, area, sizeof area);
    list->records = answer_of("tidy", area).entries;
}

/* ---- The finders of matches ---- */

/* A finder indexes the store by its blocks of this many bytes, a multiple of 8, at multiples of a step. */
struct finder {
    size_t block, step;
};

static const struct finder quick = { 64, 64 }, thorough = { 16, 1 };

/* For each hash, 1 + the address of the first block that has it; 0 where none has. */
struct index {
    struct finder by;
    uint32_t *slots;
    int bits;
};

static size_t hash(const struct index *index, const uint8_t *block)
{
    uint64_t word, sum = 0;
    for (size_t i = 0; i < index->by.block; i += sizeof word) {
        memcpy(&word, block + i, sizeof word);
        sum = (sum ^ word) * UINT64_C(0x9e3779b97f4a7c15);
    }
    return (size_t)(sum >> (64 - index->bits));
}

static struct index index_blocks(struct bytes store, struct finder by)
{
    struct index index = { by, NULL, 8 };
    while (index.bits < 24 && (size_t)1 << index.bits < 2 * store.length / by.step)
        index.bits++;
    const size_t length = sizeof *index.slots << index.bits;
    index.slots = allocate(length);
    memset(index.slots, 0, length);
    for (size_t at = 0; at + by.block <= store.length; at += by.step) {
        uint32_t *slot = &index.slots[hash(&index, store.at + at)];
        if (*slot == 0)
            *slot = (uint32_t)(at + 1);
    }
    return index;
}

/* Where in the store the version's block at p begins, or the store's length where the index has it not, or the version ends before. */
static size_t look_up(const struct index *index, struct bytes store, struct bytes version, size_t p)
{
    if (version.length - p < index->by.block)
        return store.length;
    const uint32_t slot = index->slots[hash(index, version.at + p)];
    if (slot == 0 || memcmp(store.at + (slot - 1), version.at + p, index->by.block) != 0)
        return store.length;
    return slot - 1;
}

/* How many bytes from a and from b on are the same, up to most. */
static size_t same_after(const uint8_t *a, const uint8_t *b, size_t most)
{
    size_t n = 0;
    while (n < most && a[n] == b[n])
        n++;
    return n;
}

static size_t lesser(size_t a, size_t b)
{
    return a < b ? a : b;
}

/* The records that a list must have left after tidying, for the finder to go on. */
#define ROOM 64

/* Whether there is room for a record and the last one; a full list is tidied. */
static int has_room(struct list *list, struct bytes store)
{
    if (list->records + 2 <= RECORDS_MOST)
        return 1;
    tidy_list(list, store);
    return list->records + ROOM <= RECORDS_MOST;
}

/* Whether the list ends with a new record of one byte. */
static int ends_new(const struct list *list)
{
    const uint8_t *end = list->bytes + RECORD_BYTES * list->records;
    return list->records > 0 && end[-RECORD_BYTES] == KIND_NEW && answer_word(end - RECORD_BYTES, 4) == 1;
}

/* Goes through the version and adds what it finds: a match where the index has the block at p, else a new byte. The new bytes before a match that are
 * the same in the store are taken back, and it begins with them. Where the list has no room even when it is tidy, the rest is one new record. */
static void find_matches(struct finder by, struct bytes store, struct bytes version, struct list *list)
{
    const struct index index = index_blocks(store, by);
    size_t p = 0;
    list->records = list->added = 0;
    while (p < version.length && has_room(list, store)) {
        size_t q = look_up(&index, store, version, p);
        if (q == store.length) {
            add(list, KIND_NEW, 1, 0);
            p++;
            continue;
        }
        for (; q > 0 && ends_new(list) && version.at[p - 1] == store.at[q - 1]; p--, q--)
            take_back(list);
        const size_t size = same_after(version.at + p, store.at + q, lesser(version.length - p, store.length - q));
        add(list, KIND_MATCH, size, q);
        p += size;
    }
    add(list, KIND_NEW, version.length - p, 0);
    free(index.slots);
}

/* ---- The deposit ---- */

/* Pools two lists into the list found; the number. */
static uint32_t pool_into_found(struct deposit *d, const struct list *first, const struct list *second)
{
    uint8_t area[ANSWER_BYTES];
    const uint32_t number = pool(first->bytes, RECORD_BYTES * first->records, second->bytes, RECORD_BYTES * second->records, d->version.at,
                                 d->version.length, d->store.at, d->store.length, d->found.bytes, sizeof d->found.bytes, area, sizeof area);
    if (number != TOO_MANY_RECORDS)
        d->found.records = answer_of("pool", area).entries;
    return number;
}

/* Where a byte is drawn by both finders, the quick one, whose matches are longer, decides. Where that makes too many records, its list alone is taken:
 * with itself, it gives its tidy form. */
static void find_and_pool(struct deposit *d)
{
    find_matches(quick, d->store, d->version, &d->quickly);
    find_matches(thorough, d->store, d->version, &d->thoroughly);
    d->is_pooled = pool_into_found(d, &d->quickly, &d->thoroughly) == ACCEPTED;
    if (!d->is_pooled)
        pool_into_found(d, &d->quickly, &d->quickly);
}

/* A number in decimal digits, of at most 9 of them. */
static uint32_t number_of(const char *text)
{
    const size_t length = strlen(text);
    if (length == 0 || length > 9 || strspn(text, "0123456789") != length)
        fail("%s is not a number of 1 to 9 digits; %s", text, usage);
    return (uint32_t)strtoul(text, NULL, 10);
}

struct deposit *take_deposit(int count, char **arguments)
{
    struct deposit *d = allocate(sizeof *d);
    d->en = count > 2 ? number_of(arguments[2]) : 12;
    d->em = count > 3 ? number_of(arguments[3]) : 16;
    d->f = count > 4 ? number_of(arguments[4]) : 4 * DISK_BYTE;
    d->store = read_file(arguments[0], STORE_MOST);
    d->version = read_file(arguments[1], VERSION_MOST);
    find_and_pool(d);
    return d;
}

void free_deposit(struct deposit *d)
{
    free(d->store.at), free(d->version.at), free(d);
}

void print_found(const struct deposit *d)
{
    printf("found: %zu records by the quick finder, %zu by the thorough one, %s %zu\n", d->quickly.added, d->thoroughly.added,
           d->is_pooled ? "pooled into" : "too many to pool; the quick finder's alone:", d->found.records);
}

/* ---- The estimate ---- */

struct estimated estimate_at(const struct deposit *d, uint32_t f)
{
    uint8_t area[ANSWER_BYTES];
    struct estimated e;
    estimate(d->en, d->em, f, d->found.bytes, RECORD_BYTES * d->found.records, d->version.at, d->version.length, d->store.at, d->store.length,
             e.choice, sizeof e.choice, area, sizeof area);
    e.answer = answer_of("estimate", area);
    return e;
}
