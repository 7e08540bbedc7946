/* short_lists.c - partition, estimate and pass on every short list, against every choice of it and a second writing of the five rules.
 *
 * Written from docs/SPECIFICATION.md, sections 2 to 4, alone: nothing here is of the crates or of tests/reference. The lists have 0
 * to 6 records, new or match, of the sizes 1, 3, 4, 7 and 8, but none of 7 among six; each match after a match once goes on in the store
 * where that one ended, and once begins a byte later. Among up to four records, and among five of the sizes 1, 4 and 8, each match is once held and
 * once not. All of them are tried at each of eight prices: every entry at 4 disk bytes, at a little less and a little more, and at 3 and a half;
 * new entries cheaper than matches, twice; and dearer, twice. Partition must give the choice that comes first among all that keep the held
 * matches, which costs no less than the first without the marks, and estimate the same without list and stored block; pass must give what the rules
 * leave, for which a held match is of neither kind, and keep its bounds: no dearer than the list handed in, nor than that with its runs joined, no
 * cheaper than the least choice, at most 2n - 1 looks for the n records after joining, and no match stored alone. Answers are compared field by
 * field and areas to their last byte.
 *
 * In order: the price; lists; a choice; the least choice; the pass; what is due; one call; one list; all lists; all prices.
 * Exit 0 and a line with the counts for each price, each held to its number, else 1 and a line for each of the first lists that are wrong.
 */
#include <inttypes.h>
#include <stdio.h>
#include <string.h>

#include "controller.h"

/* ---- The price, in 256ths of a disk byte ---- */

/* Index bytes of a new entry and of a match, and 256ths of a disk byte for one of them: each round sets it. */
static struct price {
    uint32_t en, em, f;
} price;

/* What a new entry costs, and what a match costs. */
static uint64_t new_cost(void)
{
    return (uint64_t)price.f * price.en;
}

static uint64_t match_cost(void)
{
    return (uint64_t)price.f * price.em;
}

/* What stored bytes cost, in the same unit. */
static uint64_t bytes_cost(uint64_t bytes)
{
    return 256 * bytes;
}

/* ---- Lists ---- */

/* The most records, and the longest version: 6 records of 8. */
enum { MOST = 6, LONGEST = 48 };

/* The front mark and the rear mark of the pass are of neither kind. */
enum { NEW = 0, MATCH = 1, MARK = 2 };

/* Held is 1 in a match that must be kept, else 0. */
struct record {
    uint32_t kind, size, address, held;
};

struct list {
    size_t n;
    struct record at[MOST];
};

static uint64_t stored_bytes(const struct list *list)
{
    uint64_t sum = 0;
    for (size_t i = 0; i < list->n; i++)
        if (list->at[i].kind == NEW)
            sum += list->at[i].size;
    return sum;
}

/* F x (EN x new entries + EM x matches) + 256 x stored bytes. */
static uint64_t cost(const struct list *list)
{
    uint64_t index_bytes = 0;
    for (size_t i = 0; i < list->n; i++)
        index_bytes += list->at[i].kind == NEW ? price.en : price.em;
    return price.f * index_bytes + bytes_cost(stored_bytes(list));
}

static int same_list(const struct list *a, const struct list *b)
{
    if (a->n != b->n)
        return 0;
    for (size_t i = 0; i < a->n; i++)
        if (a->at[i].kind != b->at[i].kind || a->at[i].size != b->at[i].size || a->at[i].address != b->at[i].address ||
            a->at[i].held != b->at[i].held)
            return 0;
    return 1;
}

/* The bytes of a list, 12 to a record. */
static void write_list(const struct list *list, uint8_t *bytes)
{
    for (size_t i = 0; i < list->n; i++, bytes += RECORD_BYTES) {
        memset(bytes, 0, RECORD_BYTES);
        bytes[0] = (uint8_t)list->at[i].kind;
        bytes[1] = (uint8_t)list->at[i].held;
        for (int b = 0; b < 4; b++) {
            bytes[4 + b] = (uint8_t)(list->at[i].size >> (8 * b));
            bytes[8 + b] = (uint8_t)(list->at[i].address >> (8 * b));
        }
    }
}

/* The stored block of a list: the bytes of its new records, joined. */
static void write_block(const struct list *list, const uint8_t *version, uint8_t *block)
{
    for (size_t i = 0; i < list->n; i++) {
        if (list->at[i].kind == NEW) {
            memcpy(block, version, list->at[i].size);
            block += list->at[i].size;
        }
        version += list->at[i].size;
    }
}

/* ---- A choice ---- */

/* What a record leaves to choose: a new one always has 1, a held one 0. */
static int may_have(const struct record *r, uint8_t bit)
{
    return r->kind == NEW ? bit == 1 : !r->held || bit == 0;
}

/* A record under its bit: 0 keeps it as it was, 1 makes it new. */
static struct record under(const struct record *r, uint8_t bit)
{
    const struct record made_new = { NEW, r->size, 0, 0 };
    return bit == 0 ? *r : made_new;
}

/* Which neighbours become one record: two new ones, and two matches, both held or neither, where the second begins in the store where the first
 * ends. */
static int join(const struct record *a, const struct record *b)
{
    return a->kind == b->kind && (a->kind == NEW || (a->held == b->held && a->address + a->size == b->address));
}

/* The list with one record more, or with its last one longer. */
static void put(struct list *list, struct record r)
{
    if (list->n > 0 && join(&list->at[list->n - 1], &r))
        list->at[list->n - 1].size += r.size;
    else
        list->at[list->n++] = r;
}

/* A list with its runs joined. */
static struct list joined(const struct list *list)
{
    struct list made = { .n = 0 };
    for (size_t i = 0; i < list->n; i++)
        put(&made, list->at[i]);
    return made;
}

static int is_choice(const struct list *list, const uint8_t *bits)
{
    for (size_t i = 0; i < list->n; i++)
        if (!may_have(&list->at[i], bits[i]))
            return 0;
    return 1;
}

/* The list of a choice. */
static struct list list_of(const struct list *list, const uint8_t *bits)
{
    struct list made = { .n = 0 };
    for (size_t i = 0; i < list->n; i++)
        put(&made, under(&list->at[i], bits[i]));
    return made;
}

/* ---- The least choice ---- */

struct candidate {
    uint8_t bits[MOST];
    struct list list;
    uint64_t cost;
};

/* Whether one goes before another: it costs less, or as much and has 0 at the first record where they differ. */
static int goes_before(const struct candidate *a, const struct candidate *b, size_t n)
{
    if (a->cost != b->cost)
        return a->cost < b->cost;
    for (size_t i = 0; i < n; i++)
        if (a->bits[i] != b->bits[i])
            return a->bits[i] == 0;
    return 0;
}

/* Every choice of a list: how many there are, how many cost least, and the one that goes before all others. */
struct rivals {
    uint64_t choices, cheapest;
    struct candidate least;
};

static void count_in(struct rivals *all, const struct candidate *c, size_t n)
{
    if (all->choices == 0 || c->cost < all->least.cost)
        all->cheapest = 1;
    else if (c->cost == all->least.cost)
        all->cheapest++;
    if (all->choices == 0 || goes_before(c, &all->least, n))
        all->least = *c;
    all->choices++;
}

static struct rivals rivals_of(const struct list *list)
{
    struct rivals all = { .choices = 0 };
    for (unsigned mask = 0; mask < 1u << list->n; mask++) {
        struct candidate c;
        for (size_t i = 0; i < list->n; i++)
            c.bits[i] = mask >> i & 1;
        if (!is_choice(list, c.bits))
            continue;
        c.list = list_of(list, c.bits);
        c.cost = cost(&c.list);
        count_in(&all, &c, list->n);
    }
    return all;
}

/* ---- The pass ---- */

/* The records between a front mark, at 0, and a rear mark; p is the place looked at. */
struct row {
    size_t p, rear;
    struct record at[MOST + 2];
};

/* p starts at the first record, or at the rear if there is none. */
static struct row row_of(const struct list *list)
{
    const struct record mark = { MARK, 0, 0, 0 };
    struct row row = { 1, list->n + 1, { mark } };
    for (size_t i = 0; i < list->n; i++)
        row.at[1 + i] = list->at[i];
    row.at[row.rear] = mark;
    return row;
}

static struct list records_of(const struct row *row)
{
    struct list list = { .n = row->rear - 1 };
    for (size_t i = 0; i < list.n; i++)
        list.at[i] = row->at[1 + i];
    return list;
}

static int is_new(const struct record *r)
{
    return r->kind == NEW;
}

/* For the rules a held match is of neither kind. */
static int is_match(const struct record *r)
{
    return r->kind == MATCH && !r->held;
}

/* The four merges ask for a match at p, which is no mark; so the one before p and the one after are there. */

static int first_applies(const struct record *p)
{
    return is_match(p) && is_new(p - 1) && is_new(p + 1) && bytes_cost(p->size) < match_cost() + new_cost();
}

static int second_applies(const struct record *p)
{
    return is_match(p) && is_new(p - 1) && bytes_cost(p->size) < match_cost();
}

static int third_applies(const struct record *p)
{
    return is_match(p) && is_new(p + 1) && bytes_cost(p->size) < match_cost();
}

static int fourth_applies(const struct record *p)
{
    return is_match(p) && is_match(p + 1) && !is_new(p - 1) && !is_new(p + 2)
        && bytes_cost((uint64_t)p->size + (p + 1)->size) + new_cost() < 2 * match_cost();
}

/* Makes one new record of so many from a place on; those after it move up to it. */
static void merge(struct row *row, size_t from, size_t count)
{
    struct record made = { NEW, 0, 0, 0 };
    for (size_t i = from; i < from + count; i++)
        made.size += row->at[i].size;
    row->at[from] = made;
    for (size_t i = from + count; i <= row->rear; i++)
        row->at[i - count + 1] = row->at[i];
    row->rear -= count - 1;
}

/* One look: the first that applies. */
static void look(struct row *row)
{
    const size_t p = row->p;
    const struct record *at = &row->at[p];
    if (first_applies(at)) {
        merge(row, p - 1, 3);
        row->p = (p - 1) + 1;
    } else if (second_applies(at)) {
        merge(row, p - 1, 2);
        row->p = (p - 1) + 1;
    } else if (third_applies(at)) {
        merge(row, p, 2);
        row->p = p - 1;
    } else if (fourth_applies(at)) {
        merge(row, p, 2);
        row->p = p - 1;
    } else {
        row->p = p + 1;
    }
}

/* Whether a byte of the version lies in a new record. */
static int lies_in_new(const struct list *list, uint64_t offset)
{
    uint64_t end = 0;
    for (size_t i = 0; i < list->n; i++) {
        end += list->at[i].size;
        if (offset < end)
            return list->at[i].kind == NEW;
    }
    return 0;
}

/* ---- What is due ---- */

struct due {
    struct candidate made;
    uint32_t looks;
};

static struct due partition_due(const struct rivals *all)
{
    const struct due due = { all->least, 0 };
    return due;
}

/* The list that the looks leave of the one with its runs joined, and the choice that it is of: 1 for each record handed in whose bytes lie in a new
 * one. */
static struct due pass_due(const struct list *list)
{
    const struct list runs = joined(list);
    struct row row = row_of(&runs);
    struct due due = { .looks = 0 };
    for (; row.p != row.rear; due.looks++)
        look(&row);
    due.made.list = records_of(&row);
    due.made.cost = cost(&due.made.list);
    uint64_t offset = 0;
    for (size_t i = 0; i < list->n; i++) {
        due.made.bits[i] = (uint8_t)lies_in_new(&due.made.list, offset);
        offset += list->at[i].size;
    }
    return due;
}

/* Whether the pass leaves the list of a choice. */
static int leaves_a_choice(const struct list *list, const struct due *due)
{
    const struct list made = list_of(list, due->made.bits);
    return is_choice(list, due->made.bits) && same_list(&made, &due->made.list);
}

/* How many matches a choice stores alone: no record beside them has 1. */
static uint64_t stored_alone(const struct list *list, const uint8_t *bits)
{
    uint64_t alone = 0;
    for (size_t i = 0; i < list->n; i++) {
        const int beside = (i > 0 && bits[i - 1]) || (i + 1 < list->n && bits[i + 1]);
        alone += list->at[i].kind == MATCH && bits[i] == 1 && !beside;
    }
    return alone;
}

/* The most looks at a list: 2n - 1, and none at none. */
static uint64_t most_looks(const struct list *list)
{
    return list->n == 0 ? 0 : 2 * list->n - 1;
}

/* ---- One call ---- */

/* Each area is longer than the call needs and is filled beforehand. */
enum { FILL = 0xEE, CHOICE_AREA = MOST + 2, LIST_AREA = MOST * RECORD_BYTES + 8, BLOCK_AREA = LONGEST + 8, ANSWER_AREA = ANSWER_BYTES + 8 };

struct areas {
    uint8_t choice[CHOICE_AREA], list[LIST_AREA], block[BLOCK_AREA], answer[ANSWER_AREA];
};

/* A list with the version that it covers; the store is the same for all. */
enum { STORE = 60 };
static uint8_t store[STORE];

struct input {
    struct list list;
    size_t whole;
    uint8_t version[LONGEST];
};

/* Estimate is made with the arguments of partition; what it is not lent must stay. */
typedef uint32_t call_of(uint32_t, uint32_t, uint32_t, const uint8_t *, size_t, const uint8_t *, size_t, const uint8_t *, size_t,
                         uint8_t *, size_t, uint8_t *, size_t, uint8_t *, size_t, uint8_t *, size_t);

static uint32_t estimated(uint32_t en, uint32_t em, uint32_t f, const uint8_t *list, size_t list_len, const uint8_t *version, size_t version_len,
                          const uint8_t *old, size_t old_len, uint8_t *choice, size_t choice_len, uint8_t *list_area, size_t list_area_len,
                          uint8_t *block_area, size_t block_area_len, uint8_t *answer, size_t answer_len)
{
    (void)list_area, (void)list_area_len, (void)block_area, (void)block_area_len;
    return estimate(en, em, f, list, list_len, version, version_len, old, old_len, choice, choice_len, answer, answer_len);
}

static uint32_t make_call(call_of *call, const struct input *in, struct areas *got)
{
    uint8_t bytes[MOST * RECORD_BYTES];
    write_list(&in->list, bytes);
    memset(got, FILL, sizeof *got);
    return call(price.en, price.em, price.f, bytes, in->list.n * RECORD_BYTES, in->version, in->whole, store, STORE, got->choice,
                CHOICE_AREA, got->list, LIST_AREA, got->block, BLOCK_AREA, got->answer, ANSWER_AREA);
}

static void put_number(uint8_t *to, size_t bytes, uint64_t n)
{
    for (size_t i = 0; i < bytes; i++)
        to[i] = (uint8_t)(n >> (8 * i));
}

/* The areas as they are due: accepted, so number and place are 0; no call gives a whole length. */
static struct areas areas_due(call_of *call, const struct input *in, const struct due *due)
{
    struct areas areas;
    memset(&areas, FILL, sizeof areas);
    memcpy(areas.choice, due->made.bits, in->list.n);
    if (call != estimated) {
        write_list(&due->made.list, areas.list);
        write_block(&due->made.list, in->version, areas.block);
    }
    memset(areas.answer, 0, ANSWER_BYTES);
    put_number(areas.answer + 8, 8, due->made.cost);
    put_number(areas.answer + 16, 4, due->made.list.n);
    put_number(areas.answer + 20, 4, stored_bytes(&due->made.list));
    put_number(areas.answer + 24, 4, due->looks);
    return areas;
}

/* What is not as it is due: the first of it, or NULL. */
static const char *differs(call_of *call, const struct input *in, const struct due *due)
{
    static const struct { const char *name; size_t from, bytes; } fields[] = {
        { "number", 0, 4 }, { "place", 4, 4 }, { "cost", 8, 8 }, { "entries", 16, 4 }, { "stored bytes", 20, 4 }, { "looks", 24, 4 },
        { "whole length", 28, 4 }, { "answer area, beyond", ANSWER_BYTES, ANSWER_AREA - ANSWER_BYTES },
    };
    struct areas got;
    const struct areas want = areas_due(call, in, due);
    if (make_call(call, in, &got) != ACCEPTED)
        return "returned number";
    for (size_t i = 0; i < sizeof fields / sizeof fields[0]; i++)
        if (memcmp(got.answer + fields[i].from, want.answer + fields[i].from, fields[i].bytes) != 0)
            return fields[i].name;
    if (memcmp(got.choice, want.choice, CHOICE_AREA) != 0)
        return "choice area";
    if (memcmp(got.list, want.list, LIST_AREA) != 0)
        return "list area";
    if (memcmp(got.block, want.block, BLOCK_AREA) != 0)
        return "stored block area";
    return NULL;
}

/* ---- One list ---- */

static struct counts {
    uint64_t lists, held, choices, ties, dearer, looks, alone, cheaper, stored, wrong;
} count;

enum { REPORTED = 10 };

static void report(const struct list *list, const char *call, const char *what)
{
    if (++count.wrong > REPORTED)
        return;
    printf("short_lists: EN %" PRIu32 ", EM %" PRIu32 ", F %" PRIu32 ":", price.en, price.em, price.f);
    for (size_t i = 0; i < list->n; i++) {
        printf(" %c%" PRIu32, list->at[i].kind == NEW ? 'N' : list->at[i].held ? 'H' : 'M', list->at[i].size);
        if (list->at[i].kind == MATCH)
            printf("@%" PRIu32, list->at[i].address);
    }
    printf(": %s: %s\n", call, what);
}

static void expect(int ok, const struct list *list, const char *call, const char *what)
{
    if (!ok)
        report(list, call, what);
}

static void try_call(const char *name, call_of *call, const struct input *in, const struct due *due)
{
    const char *wrong = differs(call, in, due);
    if (wrong != NULL)
        report(&in->list, name, wrong);
}

static int has_held(const struct list *list)
{
    for (size_t i = 0; i < list->n; i++)
        if (list->at[i].held)
            return 1;
    return 0;
}

/* How many held matches a choice stores. */
static uint64_t held_stored(const struct list *list, const uint8_t *bits)
{
    uint64_t stored = 0;
    for (size_t i = 0; i < list->n; i++)
        stored += list->at[i].held && bits[i] == 1;
    return stored;
}

/* The least choice of a list without its marks, which costs no more, and may store what is held. */
static void try_unmarked(const struct list *list, uint64_t least_cost)
{
    struct list unmarked = *list;
    for (size_t i = 0; i < list->n; i++)
        unmarked.at[i].held = 0;
    const struct rivals all = rivals_of(&unmarked);
    expect(all.least.cost <= least_cost, list, "the least choice", "costs less than without the marks");
    count.held++;
    count.cheaper += all.least.cost < least_cost;
    count.stored += held_stored(list, all.least.bits) > 0;
}

static void try_list(const struct input *in)
{
    const struct list *list = &in->list;
    const struct list runs = joined(list);
    const struct rivals all = rivals_of(list);
    const struct due least = partition_due(&all), passed = pass_due(list);
    try_call("partition", partition, in, &least);
    try_call("estimate", estimated, in, &least);
    try_call("pass", pass, in, &passed);
    expect(leaves_a_choice(list, &passed), list, "the rules", "leave no choice's list");
    expect(least.made.cost <= passed.made.cost, list, "the rules", "leave a list under the least cost");
    expect(passed.made.cost <= cost(&runs), list, "the rules", "leave a list dearer than the one with its runs joined");
    expect(cost(&runs) <= cost(list), list, "runs joined", "cost more than the list handed in");
    expect(passed.looks <= most_looks(&runs), list, "the rules", "take more than 2n - 1 looks");
    expect(stored_alone(list, passed.made.bits) == 0, list, "the rules", "store a match alone");
    if (has_held(list))
        try_unmarked(list, least.made.cost);
    count.lists++;
    count.choices += all.choices;
    count.ties += all.cheapest > 1;
    count.dearer += least.made.cost < passed.made.cost;
    count.looks += passed.looks;
    count.alone += stored_alone(list, least.made.bits);
}

/* ---- All lists ---- */

/* The records of which lists are made; a match begins so many bytes after the end of the last one before it. */
static const struct shape {
    uint32_t kind, size, gap, held;
} shapes[] = {
    { NEW, 1, 0, 0 }, { NEW, 3, 0, 0 }, { NEW, 4, 0, 0 }, { NEW, 7, 0, 0 }, { NEW, 8, 0, 0 },
    { MATCH, 1, 0, 0 }, { MATCH, 3, 0, 0 }, { MATCH, 4, 0, 0 }, { MATCH, 7, 0, 0 }, { MATCH, 8, 0, 0 },
    { MATCH, 1, 1, 0 }, { MATCH, 3, 1, 0 }, { MATCH, 4, 1, 0 }, { MATCH, 7, 1, 0 }, { MATCH, 8, 1, 0 },
    { MATCH, 1, 0, 1 }, { MATCH, 3, 0, 1 }, { MATCH, 4, 0, 1 }, { MATCH, 7, 0, 1 }, { MATCH, 8, 0, 1 },
    { MATCH, 1, 1, 1 }, { MATCH, 3, 1, 1 }, { MATCH, 4, 1, 1 }, { MATCH, 7, 1, 1 }, { MATCH, 8, 1, 1 },
};

/* Where the last match of a list ends in the store; the first begins at 0. */
static uint32_t end_of_last(const struct list *list)
{
    for (size_t i = list->n; i > 0; i--)
        if (list->at[i - 1].kind == MATCH)
            return list->at[i - 1].address + list->at[i - 1].size;
    return 0;
}

/* A fifth record, and four to go before it: where one is held, none has 3 bytes or 7. */
static int may_be_fifth(const struct list *list, const struct shape *shape)
{
    if (!shape->held && !has_held(list))
        return 1;
    for (size_t i = 0; i < list->n; i++)
        if (list->at[i].size == 3 || list->at[i].size == 7)
            return 0;
    return shape->size != 3 && shape->size != 7;
}

/* A sixth record, and five to go before it: none is held, and none has 7 bytes, which two records of a run have together. */
static int may_be_sixth(const struct list *list, const struct shape *shape)
{
    for (size_t i = 0; i < list->n; i++)
        if (list->at[i].size == 7)
            return 0;
    return shape->size != 7 && !shape->held && !has_held(list);
}

/* No new record right after a new one; a gap right after a match alone, as a new record keeps matches apart without one. */
static int may_follow(const struct list *list, const struct shape *shape)
{
    const uint32_t last = list->n == 0 ? MARK : list->at[list->n - 1].kind;
    if ((list->n == 4 && !may_be_fifth(list, shape)) || (list->n == 5 && !may_be_sixth(list, shape)))
        return 0;
    return shape->kind == NEW ? last != NEW : shape->gap == 0 || last == MATCH;
}

/* One record more, with its bytes of the version: a match has the store's, 1 to 60, a new one others, 100 and above. */
static struct input append(const struct input *in, const struct shape *shape)
{
    struct input next = *in;
    struct record *r = &next.list.at[next.list.n];
    *r = (struct record){ shape->kind, shape->size, shape->kind == MATCH ? end_of_last(&in->list) + shape->gap : 0, shape->held };
    next.list.n++;
    for (uint32_t i = 0; i < r->size; i++, next.whole++)
        next.version[next.whole] = r->kind == MATCH ? store[r->address + i] : (uint8_t)(100 + next.whole);
    return next;
}

/* Tries a list, and all that begin with it. */
static void try_all_from(const struct input *in)
{
    try_list(in);
    for (size_t i = 0; in->list.n < MOST && i < sizeof shapes / sizeof shapes[0]; i++) {
        if (may_follow(&in->list, &shapes[i])) {
            const struct input next = append(in, &shapes[i]);
            try_all_from(&next);
        }
    }
}

/* ---- All prices ---- */

/* Of n kinds, a match after a match being of two, those that end new are as many as those of n - 1 that end with a match, and those that end with
 * a match as many as those of n - 1 that end new and twice those that end with a match: 1, 2, 4, 10, 24, 58, 140 together. Where each match may be of
 * w kinds, w times as many end with a match: for w = 2 there are 1, 3, 12, 54, 240, 1,068, 4,752 together, for w = 3 there are 1, 4, 24, 156, 1,008,
 * 6,516. A match is held or not, of two kinds then, up to four records of 5 sizes and among five of 3; where none is held, five records have 5
 * sizes too, and six have 4: 1 + 3 * 5 + 12 * 25 + 54 * 125 + 240 * 625 + (1,068 - 58) * 243 + 58 * 3,125 + 140 * 4,096 lists, of which
 * (3 - 2) * 5 + (12 - 4) * 25 + (54 - 10) * 125 + (240 - 24) * 625 + (1,068 - 58) * 243 have a held match. A choice is free at each match that is not
 * held, so with its choices a match is of three kinds, and of two where none is held: of choices there are 1 + 4 * 5 + 24 * 25 + 156 * 125
 * + 1,008 * 625 + (6,516 - 1,068) * 243 + 1,068 * 3,125 + 4,752 * 4,096. */
enum { LISTS = 1157186, LISTS_HELD = 386135, CHOICES = 24775677 };

/* A price, and what was counted once at it: lists of which two choices or more cost least, passes dearer than partition, looks, and matches
 * that the least choice stores alone, of which there are none where EN is not less than EM; then, without their marks, lists that cost less, and
 * lists of which the least choice stores a match that is held. At EN = EM = 2 and F = 512 a match of 4 or 8 bytes costs just as much as one entry
 * or two, and at 448 one of 7 as much as two; at 511 and 513 no number of entries up to 127 costs as much as any number of bytes, and no tie is
 * left. At 511 the rules apply as at 512, so there are as many looks. */
static const struct round {
    struct price price;
    uint64_t ties, dearer, looks, alone, cheaper, stored;
} rounds[] = {
    { { 2, 2, 512 }, 230864, 57803, 4805429, 0, 269402, 70654 },
    { { 2, 2, 511 }, 0, 57803, 4805429, 0, 269402, 70654 },
    { { 2, 2, 513 }, 0, 17534, 4883239, 0, 288452, 98970 },
    { { 2, 2, 448 }, 30557, 35213, 4818715, 0, 267007, 67223 },
    { { 1, 2, 512 }, 231939, 193085, 4870923, 192233, 289395, 111091 },
    { { 1, 3, 448 }, 29718, 243452, 5029384, 246368, 321082, 173008 },
    { { 5, 4, 256 }, 180651, 65088, 4758763, 0, 271408, 71758 },
    { { 3, 1, 512 }, 60870, 20343, 4704766, 0, 247526, 36554 },
};

/* Tries all lists at a price; whether all went well. */
static int try_round(const struct round *round)
{
    const struct input none = { .whole = 0 };
    price = round->price;
    count = (struct counts){ 0 };
    try_all_from(&none);
    printf("short_lists: EN %" PRIu32 ", EM %" PRIu32 ", F %" PRIu32 ": %" PRIu64 " lists of %d, %" PRIu64 " choices of %d, %" PRIu64
           " lists with a tie of %" PRIu64 ", %" PRIu64 " passes dearer of %" PRIu64 ", %" PRIu64 " looks of %" PRIu64 ", %" PRIu64
           " matches stored alone of %" PRIu64 "; %" PRIu64 " lists with a held match of %d, %" PRIu64 " cheaper without the mark of %" PRIu64
           ", %" PRIu64 " with it stored of %" PRIu64 "; %" PRIu64 " wrong\n", price.en, price.em, price.f, count.lists, LISTS, count.choices,
           CHOICES, count.ties, round->ties, count.dearer, round->dearer, count.looks, round->looks, count.alone, round->alone, count.held,
           LISTS_HELD, count.cheaper, round->cheaper, count.stored, round->stored, count.wrong);
    return count.lists == LISTS && count.choices == CHOICES && count.ties == round->ties && count.dearer == round->dearer
        && count.looks == round->looks && count.alone == round->alone && count.held == LISTS_HELD && count.cheaper == round->cheaper
        && count.stored == round->stored && count.wrong == 0;
}

int main(void)
{
    int well = 1;
    for (size_t i = 0; i < STORE; i++)
        store[i] = (uint8_t)(1 + i);
    for (size_t i = 0; i < sizeof rounds / sizeof rounds[0]; i++)
        well &= try_round(&rounds[i]);
    return !well;
}
