/* reference.c - the calls of docs/SPECIFICATION.md, section 4, a second time, in plain C.
 *
 * In order: limits; reading and writing of fields; the checks of the inputs; the cost; measure, rebuild and check; compare; runs; the
 * least choice; the pass; what a choice comes to; partition and pass; estimate and commit; loose lists; pool. It shares no line with the library and
 * takes nothing from its header. Where the library prices each record by the one before it, this looks for the runs first, and chooses for them. Where
 * it tidies record by record, this first finds the records that stay. Compare joins no runs: it goes through both lists, stretch by stretch. Pool goes
 * through the first list, and looks up what the second has under its new records.
 */
#include "reference.h"

#include <string.h>

/* ---- Limits, in bytes and records ---- */

enum { ANSWER_LEAST = 32, RECORD = 12, MOST_RECORDS = 4096 };
enum { LONGEST_LIST = RECORD * MOST_RECORDS, LONGEST_VERSION = 16777216, LONGEST_STORE = 268435456 };

/* ---- Fields ---- */

/* The kinds of a record; in the least choice and the pass also a match that must be held, and the front and the rear of the pass: for the rules these
 * are of neither kind. */
enum { NEW = 0, MATCH = 1, HELD = 2, END = 3 };

static uint32_t get32(const uint8_t *b)
{
    return (uint32_t)b[0] | (uint32_t)b[1] << 8 | (uint32_t)b[2] << 16 | (uint32_t)b[3] << 24;
}

static void put32(uint8_t *b, uint32_t v)
{
    b[0] = (uint8_t)v;
    b[1] = (uint8_t)(v >> 8);
    b[2] = (uint8_t)(v >> 16);
    b[3] = (uint8_t)(v >> 24);
}

/* Byte 1 of a sound record: 1 in a match that must be held. */
static uint8_t mark_of(const uint8_t *list, size_t i)
{
    return list[RECORD * i + 1];
}

static uint32_t size_of(const uint8_t *list, size_t i)
{
    return get32(list + RECORD * i + 4);
}

static uint32_t address_of(const uint8_t *list, size_t i)
{
    return get32(list + RECORD * i + 8);
}

/* Index bytes of a new entry and of a match, and 256ths of a disk byte for one of them. */
struct price {
    uint32_t en, em, f;
};

/* What goes into the answer area; and how many of the entries are new, which does not. */
struct answer {
    uint32_t number, place;
    uint64_t cost;
    uint32_t entries, stored, looks, whole;
    uint32_t new_entries;
};

static uint32_t give(const struct answer *a, uint8_t *area)
{
    put32(area, a->number);
    put32(area + 4, a->place);
    put32(area + 8, (uint32_t)a->cost);
    put32(area + 12, (uint32_t)(a->cost >> 32));
    put32(area + 16, a->entries);
    put32(area + 20, a->stored);
    put32(area + 24, a->looks);
    put32(area + 28, a->whole);
    return a->number;
}

static struct answer refused(uint32_t number, size_t place)
{
    struct answer a = {0};
    a.number = number;
    a.place = (uint32_t)place;
    return a;
}

/* ---- The checks of the inputs ---- */

/* What a call reads; measure has neither version nor store, and only partition, pass, estimate, commit and pool have a version. In a loose list new
 * records may stand side by side. */
struct inputs {
    const uint8_t *list, *version, *store;
    size_t list_len, version_len, store_len;
    int has_version, has_store, is_loose;
};

/* Number 1. */
static int bad_price(const struct price *price)
{
    return price->en < 1 || price->en > 255 || price->em < 1 || price->em > 255 || price->f < 1 || price->f > 65535;
}

/* Numbers 2 and 3, or 0. */
static uint32_t bad_length(const struct inputs *in)
{
    if (in->has_version && in->version_len > LONGEST_VERSION)
        return 2;
    if (in->has_store && in->store_len > LONGEST_STORE)
        return 2;
    if (in->list_len % RECORD != 0 || in->list_len > LONGEST_LIST)
        return 3;
    return 0;
}

/* Number 4; only a match may have the mark. */
static int malformed(const uint8_t *r)
{
    if (r[0] != NEW && r[0] != MATCH)
        return 1;
    if (r[1] > 1 || (r[2] | r[3]) != 0 || get32(r + 4) == 0)
        return 1;
    return r[0] == NEW && (r[1] != 0 || get32(r + 8) != 0);
}

/* Numbers 4 to 8 for record i, or 0; whole is its offset, which is at most limit. Of a loose list 5 is not asked. */
static uint32_t bad_record(const struct inputs *in, size_t i, uint64_t whole, uint64_t limit)
{
    const uint8_t *r = in->list + RECORD * i;
    if (malformed(r))
        return 4;
    if (!in->is_loose && r[0] == NEW && i > 0 && r[-RECORD] == NEW)
        return 5;
    const uint64_t size = get32(r + 4), address = get32(r + 8);
    if (size > limit - whole)
        return 6;
    if (r[0] == NEW || !in->has_store)
        return 0;
    if (address + size > in->store_len)
        return 7;
    if (in->has_version && memcmp(in->version + whole, in->store + address, size) != 0)
        return 8;
    return 0;
}

/* Goes through the records: the refusal, or the entries, stored bytes and whole length. */
static struct answer walk(const struct inputs *in)
{
    const size_t n = in->list_len / RECORD;
    const uint64_t limit = in->has_version ? in->version_len : LONGEST_VERSION;
    uint64_t whole = 0, stored = 0;
    uint32_t new_entries = 0;
    for (size_t i = 0; i < n; i++) {
        const uint32_t number = bad_record(in, i, whole, limit);
        if (number != 0)
            return refused(number, i);
        whole += size_of(in->list, i);
        if (in->list[RECORD * i] == NEW) {
            stored += size_of(in->list, i);
            new_entries++;
        }
    }
    if (in->has_version && whole != in->version_len)
        return refused(6, n);
    struct answer a = {0};
    a.entries = (uint32_t)n;
    a.stored = (uint32_t)stored;
    a.whole = (uint32_t)whole;
    a.new_entries = new_entries;
    return a;
}

/* ---- The cost, in 256ths of a disk byte ---- */

/* What an entry costs, by its kind. */
static uint64_t entry_cost(const struct price *price, uint8_t record_kind)
{
    return (uint64_t)price->f * (record_kind == NEW ? price->en : price->em);
}

/* What so many stored bytes cost. */
static uint64_t bytes_cost(uint64_t bytes)
{
    return 256 * bytes;
}

/* What a list costs, by its counts. */
static uint64_t list_cost(const struct price *price, const struct answer *a)
{
    const uint32_t matches = a->entries - a->new_entries;
    return entry_cost(price, NEW) * a->new_entries + entry_cost(price, MATCH) * matches + bytes_cost(a->stored);
}

/* ---- Measure, rebuild and check ---- */

uint32_t ref_measure(uint32_t en, uint32_t em, uint32_t f,
                     const uint8_t *list, size_t list_len,
                     uint8_t *answer, size_t answer_len)
{
    if (answer_len < ANSWER_LEAST)
        return 9;
    const struct inputs in = { .list = list, .list_len = list_len };
    const struct price price = { en, em, f };
    const uint32_t fault = bad_price(&price) ? 1 : bad_length(&in);
    struct answer a = fault != 0 ? refused(fault, 0) : walk(&in);
    if (a.number == 0)
        a.cost = list_cost(&price, &a);
    return give(&a, answer);
}

/* The walk of rebuild, check and compare, 10 included. */
static struct answer walk_with_block(const struct inputs *in, size_t block_len)
{
    const uint32_t fault = bad_length(in);
    if (fault != 0)
        return refused(fault, 0);
    const struct answer a = walk(in);
    if (a.number == 0 && block_len != a.stored)
        return refused(10, 0);
    return a;
}

/* Copies the next stored bytes for a new record, the store's bytes for a match. */
static void copy_version(const struct inputs *in, const uint8_t *block, uint8_t *area)
{
    const size_t n = in->list_len / RECORD;
    for (size_t i = 0; i < n; i++) {
        const uint32_t size = size_of(in->list, i);
        if (in->list[RECORD * i] == NEW) {
            memcpy(area, block, size);
            block += size;
        } else {
            memcpy(area, in->store + address_of(in->list, i), size);
        }
        area += size;
    }
}

uint32_t ref_rebuild(const uint8_t *list, size_t list_len,
                     const uint8_t *block, size_t block_len,
                     const uint8_t *store, size_t store_len,
                     uint8_t *area, size_t area_len,
                     uint8_t *answer, size_t answer_len)
{
    if (answer_len < ANSWER_LEAST)
        return 9;
    const struct inputs in = { .list = list, .list_len = list_len,
                               .store = store, .store_len = store_len, .has_store = 1 };
    struct answer a = walk_with_block(&in, block_len);
    if (a.number == 0 && area_len < a.whole)
        a = refused(9, 0);
    if (a.number == 0) {
        copy_version(&in, block, area);
        a.entries = 0;
        a.stored = 0;
    }
    return give(&a, answer);
}

uint32_t ref_check(const uint8_t *list, size_t list_len,
                   const uint8_t *block, size_t block_len,
                   const uint8_t *store, size_t store_len,
                   uint32_t k,
                   uint8_t *answer, size_t answer_len)
{
    (void)block;
    if (answer_len < ANSWER_LEAST)
        return 9;
    const struct inputs in = { .list = list, .list_len = list_len,
                               .store = store, .store_len = store_len, .has_store = 1 };
    struct answer a = walk_with_block(&in, block_len);
    if (a.number == 0)
        a = refused(k < a.entries ? 0 : 11, 0);
    return give(&a, answer);
}

/* ---- Compare ---- */

/* A version as it is read: the record begun, how many of its bytes were read, and the stored bytes that were not. */
struct reader {
    const uint8_t *record;
    uint32_t into;
    const uint8_t *block;
};

/* The bytes that are left of the record begun. */
static uint32_t rest_of(const struct reader *r)
{
    return get32(r->record + 4) - r->into;
}

/* Whether two versions have the same next bytes, so many, from the same places; neither leaves its record with them. New bytes are compared. What is
 * drawn from one address of the one store is the same. */
static int same_next(const struct reader *a, const struct reader *b, uint32_t part)
{
    if (a->record[0] != b->record[0])
        return 0;
    if (a->record[0] == NEW)
        return memcmp(a->block, b->block, part) == 0;
    return a->record[1] == b->record[1] && get32(a->record + 8) + a->into == get32(b->record + 8) + b->into;
}

/* Reads so many bytes of the record begun; where it ends with them, the next one is begun. */
static void read_on(struct reader *r, uint32_t part)
{
    if (r->record[0] == NEW)
        r->block += part;
    r->into += part;
    if (rest_of(r) == 0) {
        r->record += RECORD;
        r->into = 0;
    }
}

/* Whether two versions of so many bytes are the same, each byte from the same place: as many bytes at a time as neither leaves its record. */
static int same_version(struct reader a, struct reader b, uint32_t whole)
{
    while (whole > 0) {
        const uint32_t rest_a = rest_of(&a), rest_b = rest_of(&b), part = rest_a < rest_b ? rest_a : rest_b;
        if (!same_next(&a, &b, part))
            return 0;
        read_on(&a, part);
        read_on(&b, part);
        whole -= part;
    }
    return 1;
}

uint32_t ref_compare(const uint8_t *first, size_t first_len,
                     const uint8_t *second, size_t second_len,
                     const uint8_t *first_block, size_t first_block_len,
                     const uint8_t *second_block, size_t second_block_len,
                     const uint8_t *store, size_t store_len,
                     uint8_t *answer, size_t answer_len)
{
    if (answer_len < ANSWER_LEAST)
        return 9;
    const struct inputs one = { .list = first, .list_len = first_len, .store = store, .store_len = store_len, .has_store = 1 };
    const struct inputs other = { .list = second, .list_len = second_len, .store = store, .store_len = store_len, .has_store = 1 };
    struct answer a = walk_with_block(&one, first_block_len);
    const uint32_t whole = a.whole;
    if (a.number == 0)
        a = walk_with_block(&other, second_block_len);
    if (a.number == 0) {
        const struct reader x = { first, 0, first_block }, y = { second, 0, second_block };
        const int same = whole == a.whole && same_version(x, y, whole);
        a = refused(0, 0);
        a.entries = (uint32_t)same;
    }
    return give(&a, answer);
}

/* ---- Runs: matches that go on in the store ---- */

/* Whether record i is a match that begins where the one before it, a match too and with the same mark, ended. */
static int goes_on(const uint8_t *list, size_t i)
{
    if (i == 0 || list[RECORD * i] != MATCH || list[RECORD * (i - 1)] != MATCH || mark_of(list, i) != mark_of(list, i - 1))
        return 0;
    return (uint64_t)address_of(list, i - 1) + size_of(list, i - 1) == address_of(list, i);
}

/* The runs of a list: run r is the records first[r] to first[r + 1] - 1, one new record, or a match and those that go on from it, all of them held or
 * none; with its kind and its bytes. */
static size_t first[MOST_RECORDS + 1];
static uint8_t run_kind[MOST_RECORDS];
static uint32_t run_bytes[MOST_RECORDS];

/* Finds the runs of n records; how many there are. */
static size_t find_runs(const uint8_t *list, size_t n)
{
    size_t runs = 0;
    for (size_t i = 0; i < n; i++) {
        if (!goes_on(list, i)) {
            first[runs] = i;
            run_kind[runs] = mark_of(list, i) != 0 ? HELD : list[RECORD * i];
            run_bytes[runs] = 0;
            runs++;
        }
        run_bytes[runs - 1] += size_of(list, i);
    }
    first[runs] = n;
    return runs;
}

/* Gives the records of so many runs, from one on, their byte. */
static void choose_runs(uint8_t *choice, size_t run, size_t count, int stored)
{
    memset(choice + first[run], stored, first[run + count] - first[run]);
}

/* ---- The least choice ---- */

/* No least choice keeps one part of a run and stores another: of two such neighbours, to keep the stored one too spares its bytes, and either leaves
 * as many entries or spares one. So the runs are chosen for, as if each were one record; and two choices of runs differ first where the
 * choices of their records do. A new one is stored, a held one is kept, and only the others are chosen for. */

/* The least cost of the runs from r on, where the one before r is kept (or is none), and where it is new. */
static uint64_t after_kept[MOST_RECORDS + 1], after_new[MOST_RECORDS + 1];

static uint64_t lesser(uint64_t a, uint64_t b)
{
    return a < b ? a : b;
}

/* Of storing a run and keeping it: the cost of the one that its kind allows, else the lesser. */
static uint64_t allowed_cost(uint8_t kind_of_run, uint64_t stored, uint64_t kept)
{
    return kind_of_run == NEW ? stored : kind_of_run == HELD ? kept : lesser(kept, stored);
}

/* Fills both rows from the rear. */
static void fill_costs(size_t runs, const struct price *price)
{
    const uint64_t new_entry = entry_cost(price, NEW), match = entry_cost(price, MATCH);
    after_kept[runs] = 0;
    after_new[runs] = 0;
    for (size_t r = runs; r-- > 0;) {
        const uint64_t joined = bytes_cost(run_bytes[r]) + after_new[r + 1];
        const uint64_t kept = match + after_kept[r + 1];
        after_new[r] = allowed_cost(run_kind[r], joined, kept);
        after_kept[r] = allowed_cost(run_kind[r], new_entry + joined, kept);
    }
}

/* Chooses forwards; a run of matches is stored only where that costs less and none is held. */
static void choose_least(const uint8_t *list, size_t n, const struct price *price, uint8_t *choice)
{
    const uint64_t new_entry = entry_cost(price, NEW), match = entry_cost(price, MATCH);
    const size_t runs = find_runs(list, n);
    fill_costs(runs, price);
    uint64_t entry = new_entry;
    for (size_t r = 0; r < runs; r++) {
        const uint64_t joined = entry + bytes_cost(run_bytes[r]) + after_new[r + 1];
        const uint64_t kept = match + after_kept[r + 1];
        const int stored = run_kind[r] == NEW || (run_kind[r] == MATCH && joined < kept);
        choose_runs(choice, r, 1, stored);
        entry = stored ? 0 : new_entry;
    }
}

/* ---- The pass ---- */

/* The list of the pass, doubly linked: 0 is the front, 1 to n the runs, n + 1 the rear. */
static uint8_t kind[MOST_RECORDS + 2];
static uint32_t size[MOST_RECORDS + 2];
static uint16_t before[MOST_RECORDS + 2], after[MOST_RECORDS + 2];

static void link_runs(size_t runs)
{
    for (size_t i = 0; i <= runs + 1; i++) {
        const int end = i == 0 || i == runs + 1;
        kind[i] = end ? END : run_kind[i - 1];
        size[i] = end ? 0 : run_bytes[i - 1];
        before[i] = (uint16_t)(i == 0 ? 0 : i - 1);
        after[i] = (uint16_t)(i + 1);
    }
}

/* Makes p and the one after it one new record, which stands at p. */
static void fuse_after(uint16_t p)
{
    const uint16_t q = after[p];
    kind[p] = NEW;
    size[p] += size[q];
    after[p] = after[q];
    before[after[q]] = p;
}

/* One look at p: where p goes. */
static uint16_t look(uint16_t p, const struct price *price)
{
    const uint64_t new_entry = entry_cost(price, NEW), match = entry_cost(price, MATCH);
    const uint16_t b = before[p], a = after[p];
    const uint64_t stored = bytes_cost(size[p]), both_stored = bytes_cost((uint64_t)size[p] + size[a]);
    if (kind[p] != MATCH)
        return a;
    if (kind[b] == NEW && kind[a] == NEW && stored < match + new_entry) {
        fuse_after(p);
        fuse_after(b);
        return after[b];
    }
    if (kind[b] == NEW && stored < match) {
        fuse_after(b);
        return a;
    }
    if (kind[a] == NEW && stored < match) {
        fuse_after(p);
        return b;
    }
    if (kind[a] == MATCH && kind[b] != NEW && kind[after[a]] != NEW && both_stored + new_entry < 2 * match) {
        fuse_after(p);
        return b;
    }
    return a;
}

/* Joins the runs, looks until p is the rear, then reads the choice off the list; the number of looks. */
static uint32_t choose_by_pass(const uint8_t *list, size_t n, const struct price *price, uint8_t *choice)
{
    const size_t runs = find_runs(list, n);
    const uint16_t rear = (uint16_t)(runs + 1);
    uint32_t looks = 0;
    link_runs(runs);
    for (uint16_t p = 1; p != rear; looks++)
        p = look(p, price);
    for (uint16_t p = after[0]; p != rear; p = after[p])
        choose_runs(choice, p - 1u, (size_t)(after[p] - p), kind[p] == NEW);
    return looks;
}

/* ---- What a choice comes to ---- */

/* What partition, pass, estimate and commit are lent. Estimate has no areas for list and stored block; commit reads a choice, where the others have
 * an area for it. */
struct job {
    struct inputs in;
    struct price price;
    const uint8_t *choice;
    uint8_t *list_area, *block_area;
    size_t choice_len, list_area_len, block_area_len;
};

/* The areas that a call has to write to. */
enum { CHOICE_AREA = 1, LIST_AND_BLOCK_AREA = 2 };

/* Number 9. */
static int area_too_short(const struct job *job, int areas)
{
    if (areas & CHOICE_AREA && job->choice_len < job->in.list_len / RECORD)
        return 1;
    return areas & LIST_AND_BLOCK_AREA && (job->list_area_len < job->in.list_len || job->block_area_len < job->in.version_len);
}

/* The refusal of a job with these areas; else number 0. */
static struct answer judge(const struct job *job, int areas)
{
    const uint32_t fault = bad_price(&job->price) ? 1 : bad_length(&job->in);
    if (fault != 0)
        return refused(fault, 0);
    return area_too_short(job, areas) ? refused(9, 0) : walk(&job->in);
}

/* The sizes, together, of the records that become one with record *i: the 1s from it on, or the 0s that go on from it; *i goes to their end. */
static uint32_t joined_size(const struct job *job, size_t n, size_t *i)
{
    const uint8_t bit = job->choice[*i];
    uint32_t sum = 0;
    do
        sum += size_of(job->in.list, (*i)++);
    while (*i < n && job->choice[*i] == bit && (bit == 1 || goes_on(job->in.list, *i)));
    return sum;
}

/* The entries, stored bytes and cost of the choice's list, of which nothing is written. */
static struct answer count_choice(const struct job *job)
{
    const size_t n = job->in.list_len / RECORD;
    struct answer a = {0};
    for (size_t i = 0; i < n; a.entries++) {
        const int stored = job->choice[i];
        const uint32_t covered = joined_size(job, n, &i);
        if (stored) {
            a.new_entries++;
            a.stored += covered;
        }
    }
    a.cost = list_cost(&job->price, &a);
    return a;
}

/* Writes the choice's list and stored block; the answer carries its entries, stored bytes and cost. */
static struct answer write_choice(const struct job *job)
{
    const size_t n = job->in.list_len / RECORD;
    const uint8_t *from = job->in.version;
    uint8_t *out = job->list_area;
    struct answer a = {0};
    for (size_t i = 0; i < n; out += RECORD, a.entries++) {
        const int stored = job->choice[i];
        const uint8_t mark = stored ? 0 : mark_of(job->in.list, i);
        const uint32_t address = stored ? 0 : address_of(job->in.list, i), covered = joined_size(job, n, &i);
        memset(out, 0, RECORD);
        out[0] = stored ? NEW : MATCH;
        out[1] = mark;
        put32(out + 4, covered);
        put32(out + 8, address);
        if (stored) {
            a.new_entries++;
            memcpy(job->block_area + a.stored, from, covered);
            a.stored += covered;
        }
        from += covered;
    }
    a.cost = list_cost(&job->price, &a);
    return a;
}

/* ---- Partition and pass ---- */

uint32_t ref_partition(uint32_t en, uint32_t em, uint32_t f,
                       const uint8_t *list, size_t list_len,
                       const uint8_t *version, size_t version_len,
                       const uint8_t *store, size_t store_len,
                       uint8_t *choice, size_t choice_len,
                       uint8_t *list_area, size_t list_area_len,
                       uint8_t *block_area, size_t block_area_len,
                       uint8_t *answer, size_t answer_len)
{
    if (answer_len < ANSWER_LEAST)
        return 9;
    const struct job job = { { list, version, store, list_len, version_len, store_len, 1, 1, 0 }, { en, em, f },
                             choice, list_area, block_area, choice_len, list_area_len, block_area_len };
    struct answer a = judge(&job, CHOICE_AREA | LIST_AND_BLOCK_AREA);
    if (a.number == 0) {
        choose_least(list, list_len / RECORD, &job.price, choice);
        a = write_choice(&job);
    }
    return give(&a, answer);
}

uint32_t ref_pass(uint32_t en, uint32_t em, uint32_t f,
                  const uint8_t *list, size_t list_len,
                  const uint8_t *version, size_t version_len,
                  const uint8_t *store, size_t store_len,
                  uint8_t *choice, size_t choice_len,
                  uint8_t *list_area, size_t list_area_len,
                  uint8_t *block_area, size_t block_area_len,
                  uint8_t *answer, size_t answer_len)
{
    if (answer_len < ANSWER_LEAST)
        return 9;
    const struct job job = { { list, version, store, list_len, version_len, store_len, 1, 1, 0 }, { en, em, f },
                             choice, list_area, block_area, choice_len, list_area_len, block_area_len };
    struct answer a = judge(&job, CHOICE_AREA | LIST_AND_BLOCK_AREA);
    if (a.number == 0) {
        const uint32_t looks = choose_by_pass(list, list_len / RECORD, &job.price, choice);
        a = write_choice(&job);
        a.looks = looks;
    }
    return give(&a, answer);
}

/* ---- Estimate and commit ---- */

uint32_t ref_estimate(uint32_t en, uint32_t em, uint32_t f,
                      const uint8_t *list, size_t list_len,
                      const uint8_t *version, size_t version_len,
                      const uint8_t *store, size_t store_len,
                      uint8_t *choice, size_t choice_len,
                      uint8_t *answer, size_t answer_len)
{
    if (answer_len < ANSWER_LEAST)
        return 9;
    const struct job job = { .in = { list, version, store, list_len, version_len, store_len, 1, 1, 0 }, .price = { en, em, f },
                             .choice = choice, .choice_len = choice_len };
    struct answer a = judge(&job, CHOICE_AREA);
    if (a.number == 0) {
        choose_least(list, list_len / RECORD, &job.price, choice);
        a = count_choice(&job);
    }
    return give(&a, answer);
}

/* Whether a record may have this byte in a choice. */
static int may_have(const uint8_t *list, size_t i, uint8_t byte)
{
    if (list[RECORD * i] == NEW)
        return byte == 1;
    return byte == 0 || (byte == 1 && mark_of(list, i) == 0);
}

/* Number 12 of a choice for a sound list; else number 0. */
static struct answer judge_choice(const struct job *job)
{
    const size_t n = job->in.list_len / RECORD;
    if (job->choice_len != n)
        return refused(12, 0);
    for (size_t i = 0; i < n; i++)
        if (!may_have(job->in.list, i, job->choice[i]))
            return refused(12, i);
    return refused(0, 0);
}

uint32_t ref_commit(uint32_t en, uint32_t em, uint32_t f,
                    const uint8_t *list, size_t list_len,
                    const uint8_t *version, size_t version_len,
                    const uint8_t *store, size_t store_len,
                    const uint8_t *choice, size_t choice_len,
                    uint8_t *list_area, size_t list_area_len,
                    uint8_t *block_area, size_t block_area_len,
                    uint8_t *answer, size_t answer_len)
{
    if (answer_len < ANSWER_LEAST)
        return 9;
    const struct job job = { { list, version, store, list_len, version_len, store_len, 1, 1, 0 }, { en, em, f },
                             choice, list_area, block_area, choice_len, list_area_len, block_area_len };
    struct answer a = judge(&job, LIST_AND_BLOCK_AREA);
    if (a.number == 0)
        a = judge_choice(&job);
    if (a.number == 0)
        a = write_choice(&job);
    return give(&a, answer);
}

/* ---- Loose lists ---- */

/* Numbers 2 and 3, number 9 where an area is asked for, then record by record 4, 6 and 7, with a version also 8, and the short end of 6; else number 0
 * and nothing else. */
static struct answer judge_loose(const struct inputs *in, int needs_area, size_t area_len)
{
    const uint32_t fault = bad_length(in);
    if (fault != 0)
        return refused(fault, 0);
    if (needs_area && area_len < in->list_len)
        return refused(9, 0);
    const struct answer a = walk(in);
    return refused(a.number, a.place);
}

/* The records that stay: record s of the tidy form has the fields of record stays[s], but for the size. The sizes before it are begins[s] together;
 * behind the last stand the number of records and the whole length. */
static size_t stays[MOST_RECORDS + 1];
static uint32_t begins[MOST_RECORDS + 1];

/* Whether record i goes into the one before it: both are new, or it goes on from it. */
static int goes_into(const uint8_t *list, size_t i)
{
    const int both_new = i > 0 && list[RECORD * (i - 1)] == NEW && list[RECORD * i] == NEW;
    return both_new || goes_on(list, i);
}

/* Finds the records that stay; how many there are. */
static size_t find_staying(const uint8_t *list, size_t n)
{
    size_t count = 0;
    uint32_t whole = 0;
    for (size_t i = 0; i < n; i++) {
        if (!goes_into(list, i)) {
            stays[count] = i;
            begins[count] = whole;
            count++;
        }
        whole += size_of(list, i);
    }
    stays[count] = n;
    begins[count] = whole;
    return count;
}

uint32_t ref_check_loose(const uint8_t *list, size_t list_len,
                         const uint8_t *store, size_t store_len,
                         uint8_t *answer, size_t answer_len)
{
    if (answer_len < ANSWER_LEAST)
        return 9;
    const struct inputs in = { .list = list, .list_len = list_len, .store = store, .store_len = store_len, .has_store = 1, .is_loose = 1 };
    const struct answer a = judge_loose(&in, 0, 0);
    return give(&a, answer);
}

uint32_t ref_tidy(const uint8_t *list, size_t list_len,
                  const uint8_t *store, size_t store_len,
                  uint8_t *list_area, size_t list_area_len,
                  uint8_t *answer, size_t answer_len)
{
    if (answer_len < ANSWER_LEAST)
        return 9;
    const struct inputs in = { .list = list, .list_len = list_len, .store = store, .store_len = store_len, .has_store = 1, .is_loose = 1 };
    struct answer a = judge_loose(&in, 1, list_area_len);
    if (a.number == 0) {
        a.entries = (uint32_t)find_staying(list, list_len / RECORD);
        for (size_t s = 0; s < a.entries; s++) {
            memcpy(list_area + RECORD * s, list + RECORD * stays[s], RECORD);
            put32(list_area + RECORD * s + 4, begins[s + 1] - begins[s]);
        }
    }
    return give(&a, answer);
}

/* ---- Pool ---- */

/* The pooled list as it grows: a record for each cut of either list at most, and room for the one that is added. */
static uint8_t pooled[2 * LONGEST_LIST];

/* The offsets of the second list's records, and behind the last the whole length. */
static uint32_t offsets[MOST_RECORDS + 1];

static void find_offsets(const uint8_t *list, size_t n)
{
    offsets[0] = 0;
    for (size_t i = 0; i < n; i++)
        offsets[i + 1] = offsets[i] + size_of(list, i);
}

/* Adds so many bytes of a record, from some into it on, behind n pooled records, of which the last may take them in; how many there are then. */
static size_t add_part(size_t n, const uint8_t *r, uint32_t into, uint32_t bytes)
{
    uint8_t *part = pooled + RECORD * n;
    memcpy(part, r, RECORD);
    put32(part + 4, bytes);
    if (r[0] == MATCH)
        put32(part + 8, get32(r + 8) + into);
    if (!goes_into(pooled, n))
        return n + 1;
    put32(part - RECORD + 4, get32(part - RECORD + 4) + bytes);
    return n;
}

/* Adds what the second list has from one offset to another, where record *j, or one behind it, has the first of these bytes; *j goes to the record with
 * the last. */
static size_t add_between(size_t n, const uint8_t *list, size_t *j, uint32_t from, uint32_t to)
{
    while (from < to) {
        while (offsets[*j + 1] <= from)
            ++*j;
        const uint32_t end = offsets[*j + 1] < to ? offsets[*j + 1] : to;
        n = add_part(n, list + RECORD * *j, from - offsets[*j], end - from);
        from = end;
    }
    return n;
}

/* Pools two sound lists of one version; how many records there are. */
static size_t pool_lists(const uint8_t *one, size_t n_one, const uint8_t *other, size_t n_other)
{
    size_t n = 0, j = 0;
    uint32_t offset = 0;
    find_offsets(other, n_other);
    for (size_t i = 0; i < n_one; i++) {
        const uint32_t end = offset + size_of(one, i);
        if (one[RECORD * i] == MATCH)
            n = add_part(n, one + RECORD * i, 0, end - offset);
        else
            n = add_between(n, other, &j, offset, end);
        offset = end;
    }
    return n;
}

uint32_t ref_pool(const uint8_t *first_list, size_t first_len,
                  const uint8_t *second_list, size_t second_len,
                  const uint8_t *version, size_t version_len,
                  const uint8_t *store, size_t store_len,
                  uint8_t *list_area, size_t list_area_len,
                  uint8_t *answer, size_t answer_len)
{
    if (answer_len < ANSWER_LEAST)
        return 9;
    const struct inputs one = { first_list, version, store, first_len, version_len, store_len, 1, 1, 1 };
    const struct inputs other = { second_list, version, store, second_len, version_len, store_len, 1, 1, 1 };
    struct answer a = judge_loose(&one, 0, 0);
    if (a.number == 0)
        a = judge_loose(&other, 0, 0);
    if (a.number == 0) {
        const size_t n = pool_lists(first_list, first_len / RECORD, second_list, second_len / RECORD);
        a = refused(n > MOST_RECORDS ? 13 : list_area_len < RECORD * n ? 9 : 0, 0);
        if (a.number == 0) {
            memcpy(list_area, pooled, RECORD * n);
            a.entries = (uint32_t)n;
        }
    }
    return give(&a, answer);
}
