/* short_pairs.c - pool on every pair of short lists of a version, against pooling byte by byte.
 *
 * Written from docs/SPECIFICATION.md, clauses 1.14, 3.12, 3.13 and 6.9 and section 4.13, alone: nothing here is of the crates or of tests/reference.
 * A list gives each byte of its version an origin: new, or an address and a mark. From the origins of both lists those of the pooled list follow, byte
 * by byte, and from these alone the pooled list is read off, byte by byte. Pool must write that list and answer its records, in an area of just its
 * length and in one as long as both lists; in an area a byte too short it must refuse. A list that is at fault has a number and a place: of two such lists the first's must be answered.
 *
 * One round has all lists, loose ones too, that cover a version whose bytes a store has everywhere: matches of every size at every address, held and
 * not. The other has lists that cover too much or too little, with records that are malformed, run beyond the store or differ from the version. Areas
 * are compared to their last byte.
 *
 * In order: records; origins; one list; one pair; all pairs. Exit 0 and a line with the counts for each round, each held to its number, else 1 and a
 * line for each of the first pairs that are wrong.
 */
#include <inttypes.h>
#include <stdio.h>
#include <string.h>

#include "controller.h"

/* ---- Records ---- */

/* The most records of a list, the longest version, the most lists of a round, and bytes that are watched behind each area. */
enum { MOST = 4, LONGEST = 4, LISTS = 4000, GUARD = 16, FILL = 0xA5 };

struct record {
    uint32_t kind, held, size, address;
};

/* The bytes of records, 12 to each; their number. */
static size_t write_records(const struct record *r, size_t n, uint8_t *bytes)
{
    for (size_t i = 0; i < n; i++, r++, bytes += RECORD_BYTES) {
        memset(bytes, 0, RECORD_BYTES);
        bytes[0] = (uint8_t)r->kind;
        bytes[1] = (uint8_t)r->held;
        bytes[4] = (uint8_t)r->size;
        bytes[8] = (uint8_t)r->address;
    }
    return RECORD_BYTES * n;
}

/* ---- Origins ---- */

/* Where a byte comes from; held and address are 0 where it is new. */
struct origin {
    uint32_t kind, held, address;
};

/* Whether a byte goes on from the one before it: both are new, or it is drawn from the next address with the same mark. */
static int goes_on(const struct origin *before, const struct origin *byte)
{
    if (byte->kind == KIND_NEW || before->kind == KIND_NEW)
        return byte->kind == before->kind;
    return byte->held == before->held && byte->address == before->address + 1;
}

/* The records of so many origins, one for each longest run of bytes that go on; their number. */
static size_t read_off(const struct origin *o, size_t length, struct record *records)
{
    size_t n = 0;
    for (size_t i = 0; i < length; i++) {
        if (i == 0 || !goes_on(&o[i - 1], &o[i]))
            records[n++] = (struct record){ o[i].kind, o[i].held, 0, o[i].address };
        records[n - 1].size++;
    }
    return n;
}

/* ---- One list ---- */

/* A list with its bytes; its number and place, or the origins that it gives. */
struct list {
    size_t n, length;
    struct record at[MOST];
    uint8_t bytes[RECORD_BYTES * MOST];
    uint32_t number, place;
    struct origin origins[LONGEST];
};

static const char *version, *store;

/* What a record at an offset is refused with, 0 where it is sound; clause 6.9 has the order. */
static uint32_t fault_of(const struct record *r, size_t offset)
{
    if (r->size == 0 || (r->kind == KIND_NEW && (r->held != 0 || r->address != 0)))
        return MALFORMED_RECORD;
    if (offset + r->size > strlen(version))
        return BAD_SIZES;
    if (r->kind == KIND_MATCH && r->address + r->size > strlen(store))
        return OUTSIDE_STORE;
    for (size_t k = 0; r->kind == KIND_MATCH && k < r->size; k++)
        if (version[offset + k] != store[r->address + k])
            return MISMATCH;
    return ACCEPTED;
}

/* Fills what follows from the records of a list. */
static void judge(struct list *list)
{
    size_t offset = 0;
    list->length = write_records(list->at, list->n, list->bytes);
    for (size_t i = 0; i < list->n; i++) {
        const struct record *r = &list->at[i];
        list->place = (uint32_t)i;
        list->number = fault_of(r, offset);
        if (list->number != ACCEPTED)
            return;
        for (uint32_t k = 0; k < r->size; k++)
            list->origins[offset++] = (struct origin){ r->kind, r->held, r->kind == KIND_NEW ? 0 : r->address + k };
    }
    list->number = offset < strlen(version) ? BAD_SIZES : ACCEPTED;
    list->place = list->number == ACCEPTED ? 0 : (uint32_t)list->n;
}

/* ---- One pair ---- */

static uint8_t wanted[RECORD_BYTES * LONGEST], list_area[RECORD_BYTES * 2 * MOST + GUARD], answer[ANSWER_BYTES + GUARD];

/* What was counted of a round: pairs; refused ones; those where the second list draws a byte that is new in the first; those where a record has bytes of
 * both; and, printed up to a few, wrong ones. */
static struct counts {
    uint64_t pairs, refused, drawn, joined, wrong;
} count;

static void print_list(const struct list *list)
{
    for (size_t i = 0; i < list->n; i++) {
        const struct record *r = &list->at[i];
        printf(" %c%" PRIu32, r->kind == KIND_NEW ? 'N' : r->held ? 'H' : 'M', r->size);
        if (r->kind == KIND_MATCH)
            printf("@%" PRIu32, r->address);
    }
}

static void say_wrong(const struct list *a, const struct list *b, const char *what)
{
    if (count.wrong++ >= 10)
        return;
    printf("short_pairs: %s:", what);
    print_list(a);
    printf(" and");
    print_list(b);
    printf("\n");
}

/* Whether bytes from one place to another still hold the filling. */
static int filled(const uint8_t *bytes, size_t from, size_t to)
{
    for (size_t i = from; i < to; i++)
        if (bytes[i] != FILL)
            return 0;
    return 1;
}

/* Makes the call with an area of so many bytes. Whether it returns this number, the answer area holds just number, place and entries, and the list area
 * begins with so many wanted bytes. */
static int pools_so(const struct list *a, const struct list *b, size_t room, uint32_t number, uint32_t place, size_t due)
{
    uint8_t told[ANSWER_BYTES] = { 0 };
    told[0] = (uint8_t)number;
    told[4] = (uint8_t)place;
    told[16] = (uint8_t)(due / RECORD_BYTES);
    memset(answer, FILL, sizeof answer);
    memset(list_area, FILL, sizeof list_area);
    const uint32_t returned = pool(a->bytes, a->length, b->bytes, b->length, (const uint8_t *)version, strlen(version), (const uint8_t *)store,
                                   strlen(store), list_area, room, answer, ANSWER_BYTES);
    return returned == number && memcmp(answer, told, ANSWER_BYTES) == 0 && filled(answer, ANSWER_BYTES, sizeof answer)
        && memcmp(list_area, wanted, due) == 0 && filled(list_area, due, sizeof list_area);
}

/* The origins of the pooled list (clauses 4.13.2 to 4.13.4), with what is counted of them. */
static void pool_origins(const struct list *a, const struct list *b, struct origin *o)
{
    const size_t length = strlen(version);
    int drawn = 0, joined = 0;
    for (size_t i = 0; i < length; i++) {
        const int of_first = a->origins[i].kind == KIND_MATCH;
        o[i] = of_first ? a->origins[i] : b->origins[i];
        drawn |= !of_first && o[i].kind == KIND_MATCH;
        joined |= i > 0 && o[i].kind == KIND_MATCH && goes_on(&o[i - 1], &o[i]) && of_first != (a->origins[i - 1].kind == KIND_MATCH);
    }
    count.drawn += (uint64_t)drawn;
    count.joined += (uint64_t)joined;
}

/* Two lists without a fault. */
static void try_sound(const struct list *a, const struct list *b)
{
    struct origin o[LONGEST];
    struct record records[LONGEST];
    pool_origins(a, b, o);
    const size_t due = write_records(records, read_off(o, strlen(version), records), wanted);
    if (!pools_so(a, b, due, ACCEPTED, 0, due))
        say_wrong(a, b, "pooled otherwise");
    if (!pools_so(a, b, a->length + b->length, ACCEPTED, 0, due))
        say_wrong(a, b, "pooled otherwise in an area as long as both lists");
    if (due > 0 && !pools_so(a, b, due - 1, AREA_TOO_SHORT, 0, 0))
        say_wrong(a, b, "not refused in an area a byte too short");
}

/* Two lists of which one is at fault, in areas of any length. */
static void try_at_fault(const struct list *a, const struct list *b)
{
    const struct list *fault = a->number != ACCEPTED ? a : b;
    if (!pools_so(a, b, RECORD_BYTES * LONGEST, fault->number, fault->place, 0) || !pools_so(a, b, 0, fault->number, fault->place, 0))
        say_wrong(a, b, "refused otherwise");
    count.refused++;
}

/* ---- All pairs ---- */

/* The first round: new records of each size, and matches at each address of a store of 3 bytes. */
static const struct record all_kinds[] = {
    { KIND_NEW, 0, 1, 0 }, { KIND_NEW, 0, 2, 0 }, { KIND_NEW, 0, 3, 0 }, { KIND_NEW, 0, 4, 0 },
    { KIND_MATCH, 0, 1, 0 }, { KIND_MATCH, 0, 1, 1 }, { KIND_MATCH, 0, 1, 2 }, { KIND_MATCH, 1, 1, 0 }, { KIND_MATCH, 1, 1, 1 }, { KIND_MATCH, 1, 1, 2 },
    { KIND_MATCH, 0, 2, 0 }, { KIND_MATCH, 0, 2, 1 }, { KIND_MATCH, 1, 2, 0 }, { KIND_MATCH, 1, 2, 1 },
    { KIND_MATCH, 0, 3, 0 }, { KIND_MATCH, 1, 3, 0 },
};

/* The second: of a store of 4 bytes, with records that are malformed or run beyond it. */
static const struct record faulty_kinds[] = {
    { KIND_NEW, 0, 1, 0 }, { KIND_NEW, 0, 2, 0 }, { KIND_MATCH, 0, 1, 0 }, { KIND_MATCH, 0, 1, 1 }, { KIND_MATCH, 1, 1, 1 }, { KIND_MATCH, 0, 1, 2 },
    { KIND_MATCH, 0, 2, 0 }, { KIND_MATCH, 0, 2, 1 }, { KIND_MATCH, 1, 2, 2 }, { KIND_NEW, 0, 0, 0 }, { KIND_NEW, 1, 1, 0 }, { KIND_NEW, 0, 1, 1 },
    { KIND_MATCH, 0, 2, 3 },
};

enum { ALL_KINDS = sizeof all_kinds / sizeof *all_kinds, FAULTY_KINDS = sizeof faulty_kinds / sizeof *faulty_kinds };

/* A round: version and store; up to so many records of so many kinds; whether only lists without a fault are taken; and the counts. Of the first
 * round 7, 5, 3 and 1 kinds have 1 to 4 bytes: so there are 7, 54, 416 and 3,204 lists of so many bytes. The second has 1 + 13 + 13^2 + 13^3 lists, of
 * which 42 are sound. */
static const struct round {
    const char *version, *store;
    size_t records;
    const struct record *kinds;
    size_t of;
    int sound_only;
    size_t lists;
    uint64_t pairs, refused, drawn, joined;
} rounds[] = {
    { "AAAA", "AAA", 4, all_kinds, ALL_KINDS, 1, 3204, 10265616, 0, 4068792, 645236 },
    { "ABA", "ABAB", 3, faulty_kinds, FAULTY_KINDS, 0, 2380, 5664400, 5662636, 881, 216 },
};

static struct list lists[LISTS];
static size_t lists_made;

/* Makes all lists that begin with this one and have up to so many records more. */
static void make_lists(const struct round *round, struct list list, size_t more)
{
    judge(&list);
    if (list.number == ACCEPTED || !round->sound_only)
        lists[lists_made++] = list;
    for (size_t k = 0; more > 0 && k < round->of; k++) {
        struct list next = list;
        next.at[next.n++] = round->kinds[k];
        make_lists(round, next, more - 1);
    }
}

/* Tries all pairs of a round; whether all went well. */
static int try_round(const struct round *round)
{
    version = round->version, store = round->store;
    lists_made = 0;
    count = (struct counts){ 0 };
    make_lists(round, (struct list){ .n = 0 }, round->records);
    for (size_t i = 0; i < lists_made; i++)
        for (size_t k = 0; k < lists_made; k++, count.pairs++)
            (lists[i].number == ACCEPTED && lists[k].number == ACCEPTED ? try_sound : try_at_fault)(&lists[i], &lists[k]);
    printf("short_pairs: %s over %s: %zu lists of %zu, %" PRIu64 " pairs of %" PRIu64 ", %" PRIu64 " refused of %" PRIu64 "; the second draws in %" PRIu64
           " of %" PRIu64 ", a record of both in %" PRIu64 " of %" PRIu64 "; %" PRIu64 " wrong\n", version, store, lists_made, round->lists, count.pairs,
           round->pairs, count.refused, round->refused, count.drawn, round->drawn, count.joined, round->joined, count.wrong);
    return lists_made == round->lists && count.pairs == round->pairs && count.refused == round->refused && count.drawn == round->drawn
        && count.joined == round->joined && count.wrong == 0;
}

int main(void)
{
    int well = 1;
    for (size_t i = 0; i < sizeof rounds / sizeof rounds[0]; i++)
        well &= try_round(&rounds[i]);
    return !well;
}
