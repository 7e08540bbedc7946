/* short_loose.c - check_loose and tidy on every short loose list, against tidying byte by byte.
 *
 * Written from docs/SPECIFICATION.md, clauses 1.14, 3.6, 3.7, 3.12 and 3.13 and sections 4.11 and 4.12, alone: nothing here is of the crates or of
 * tests/reference. A list gives each byte of its version an origin: new, or an address and a mark. From these origins alone, with the list
 * forgotten, the tidy form is read off, byte by byte, and tidy must write that list and answer its records. So lists with the same origins have one
 * tidy form. The written list must give each byte the origin that it had. So lists with other origins have others.
 *
 * One round has few records of many kinds: new ones of 1 and 2 bytes, matches of 1 and 2 bytes at every address of a store of 5 bytes, held and not;
 * and two that are at fault, a new record of size 0 and a match beyond the store, of which the first in a list must be refused. The other has more
 * records of fewer kinds. Each list is also tried in an area a byte too short. Areas are compared to their last byte.
 *
 * In order: records; origins; one list; all lists. Exit 0 and a line with the counts for each round, each held to its number, else 1 and a line for
 * each of the first lists that are wrong.
 */
#include <inttypes.h>
#include <stdio.h>
#include <string.h>

#include "controller.h"

/* ---- Records ---- */

/* The most records, the longest version, and bytes that are watched behind the list area. */
enum { MOST = 7, LONGEST = 2 * MOST, GUARD = 16, STORE = 5, FILL = 0xA5 };

/* Held is 1 in a match that must be kept, else 0; number is what the record is refused with, 0 where it is sound. */
struct record {
    uint32_t kind, held, size, address, number;
};

struct list {
    size_t n;
    struct record at[LONGEST];
};

static const uint8_t store[STORE] = { 'A', 'B', 'A', 'B', 'C' };

/* The bytes of a list, 12 to a record; their number. */
static size_t write_list(const struct list *list, uint8_t *bytes)
{
    for (size_t i = 0; i < list->n; i++, bytes += RECORD_BYTES) {
        const struct record *r = &list->at[i];
        memset(bytes, 0, RECORD_BYTES);
        bytes[0] = (uint8_t)r->kind;
        bytes[1] = (uint8_t)r->held;
        bytes[4] = (uint8_t)r->size;
        bytes[8] = (uint8_t)r->address;
    }
    return RECORD_BYTES * list->n;
}

/* ---- Origins ---- */

/* Where a byte comes from; held and address are 0 where it is new. */
struct origin {
    uint32_t kind, held, address;
};

struct version {
    size_t length;
    struct origin at[LONGEST];
};

static struct version origins_of(const struct list *list)
{
    struct version v = { .length = 0 };
    for (size_t i = 0; i < list->n; i++)
        for (uint32_t k = 0; k < list->at[i].size; k++) {
            const struct record *r = &list->at[i];
            v.at[v.length++] = (struct origin){ r->kind, r->held, r->kind == KIND_NEW ? 0 : r->address + k };
        }
    return v;
}

static int same_origins(const struct version *a, const struct version *b)
{
    if (a->length != b->length)
        return 0;
    for (size_t i = 0; i < a->length; i++)
        if (a->at[i].kind != b->at[i].kind || a->at[i].held != b->at[i].held || a->at[i].address != b->at[i].address)
            return 0;
    return 1;
}

/* Whether a byte goes on from the one before it: both are new, or it is drawn from the next address with the same mark. */
static int goes_on(const struct origin *before, const struct origin *byte)
{
    if (byte->kind == KIND_NEW || before->kind == KIND_NEW)
        return byte->kind == before->kind;
    return byte->held == before->held && byte->address == before->address + 1;
}

/* The list of these origins with a record for each longest run of bytes that go on. */
static struct list tidy_form(const struct version *v)
{
    struct list form = { .n = 0 };
    for (size_t i = 0; i < v->length; i++) {
        const struct origin *o = &v->at[i];
        if (i == 0 || !goes_on(o - 1, o))
            form.at[form.n++] = (struct record){ .kind = o->kind, .held = o->held, .address = o->address };
        form.at[form.n - 1].size++;
    }
    return form;
}

/* ---- One list ---- */

static uint8_t list_bytes[RECORD_BYTES * MOST], wanted[RECORD_BYTES * LONGEST];
static uint8_t list_area[RECORD_BYTES * LONGEST + GUARD], answer[ANSWER_BYTES + GUARD];

/* What was counted of a round: lists; refused ones; those that come back as they are; and, printed up to a few, wrong ones. */
static struct counts {
    uint64_t lists, refused, tidy, wrong;
} count;

static void say_wrong(const struct list *list, const char *what)
{
    if (count.wrong++ >= 10)
        return;
    printf("short_loose: %s:", what);
    for (size_t i = 0; i < list->n; i++) {
        const struct record *r = &list->at[i];
        printf(" %c%" PRIu32, r->kind == KIND_NEW ? 'N' : r->held ? 'H' : 'M', r->size);
        if (r->kind == KIND_MATCH)
            printf("@%" PRIu32, r->address);
    }
    printf("\n");
}

/* Whether bytes from one place to another still hold the filling. */
static int filled(const uint8_t *bytes, size_t from, size_t to)
{
    for (size_t i = from; i < to; i++)
        if (bytes[i] != FILL)
            return 0;
    return 1;
}

/* Whether a call returned this number, and the answer area holds just number, place and entries. */
static int answered(uint32_t returned, uint32_t number, uint32_t place, uint32_t entries)
{
    uint8_t due[ANSWER_BYTES] = { 0 };
    due[0] = (uint8_t)number;
    due[4] = (uint8_t)place;
    due[16] = (uint8_t)entries;
    return returned == number && memcmp(answer, due, ANSWER_BYTES) == 0 && filled(answer, ANSWER_BYTES, sizeof answer);
}

static uint32_t call_check_loose(size_t length)
{
    memset(answer, FILL, sizeof answer);
    return check_loose(list_bytes, length, store, STORE, answer, ANSWER_BYTES);
}

static uint32_t call_tidy(const uint8_t *bytes, size_t length, size_t room)
{
    memset(answer, FILL, sizeof answer);
    memset(list_area, FILL, sizeof list_area);
    return tidy(bytes, length, store, STORE, list_area, room, answer, ANSWER_BYTES);
}

/* The list that so many bytes hold. */
static struct list read_list(const uint8_t *bytes, size_t n)
{
    struct list list = { .n = n };
    for (size_t i = 0; i < n; i++, bytes += RECORD_BYTES)
        list.at[i] = (struct record){ .kind = bytes[0], .held = bytes[1], .size = bytes[4], .address = bytes[8] };
    return list;
}

/* A list without a fault. */
static void try_sound(const struct list *list, size_t length)
{
    const struct version v = origins_of(list);
    const struct list form = tidy_form(&v);
    const size_t due = write_list(&form, wanted);
    if (!answered(call_check_loose(length), ACCEPTED, 0, 0))
        say_wrong(list, "not accepted by check_loose");
    if (!answered(call_tidy(list_bytes, length, length), ACCEPTED, 0, (uint32_t)form.n))
        say_wrong(list, "tidy answers otherwise");
    if (memcmp(list_area, wanted, due) != 0 || !filled(list_area, due, sizeof list_area)) {
        say_wrong(list, "tidy writes otherwise");
        return;
    }
    const struct list written = read_list(list_area, form.n);
    const struct version back = origins_of(&written);
    if (!same_origins(&v, &back))
        say_wrong(list, "the written list gives a byte another origin");
    if (!answered(call_tidy(wanted, due, due), ACCEPTED, 0, (uint32_t)form.n) || memcmp(list_area, wanted, due) != 0
        || !filled(list_area, due, sizeof list_area))
        say_wrong(list, "what tidy wrote does not come back");
    count.tidy += length == due && memcmp(list_bytes, wanted, length) == 0;
}

/* A list whose first record at fault has this place. */
static void try_at_fault(const struct list *list, size_t length, size_t place)
{
    const uint32_t number = list->at[place].number;
    if (!answered(call_check_loose(length), number, (uint32_t)place, 0))
        say_wrong(list, "refused otherwise by check_loose");
    if (!answered(call_tidy(list_bytes, length, length), number, (uint32_t)place, 0) || !filled(list_area, 0, sizeof list_area))
        say_wrong(list, "refused otherwise by tidy");
    count.refused++;
}

static void try_list(const struct list *list)
{
    const size_t length = write_list(list, list_bytes);
    size_t place = 0;
    count.lists++;
    while (place < list->n && list->at[place].number == 0)
        place++;
    if (place < list->n)
        try_at_fault(list, length, place);
    else
        try_sound(list, length);
    if (length > 0 && (!answered(call_tidy(list_bytes, length, length - 1), AREA_TOO_SHORT, 0, 0) || !filled(list_area, 0, sizeof list_area)))
        say_wrong(list, "not refused in an area a byte too short");
}

/* ---- All lists ---- */

/* Both rounds begin with these kinds of record; the first goes on with the others. */
enum { FEW = 8, MANY = 22 };
static const struct record kinds[MANY] = {
    { KIND_NEW, 0, 1, 0, 0 }, { KIND_NEW, 0, 2, 0, 0 },
    { KIND_MATCH, 0, 1, 0, 0 }, { KIND_MATCH, 0, 1, 1, 0 }, { KIND_MATCH, 0, 1, 2, 0 },
    { KIND_MATCH, 1, 1, 0, 0 }, { KIND_MATCH, 1, 1, 1, 0 }, { KIND_MATCH, 1, 1, 2, 0 },
    { KIND_MATCH, 0, 1, 3, 0 }, { KIND_MATCH, 0, 1, 4, 0 }, { KIND_MATCH, 1, 1, 3, 0 }, { KIND_MATCH, 1, 1, 4, 0 },
    { KIND_MATCH, 0, 2, 0, 0 }, { KIND_MATCH, 0, 2, 1, 0 }, { KIND_MATCH, 0, 2, 2, 0 }, { KIND_MATCH, 0, 2, 3, 0 },
    { KIND_MATCH, 1, 2, 0, 0 }, { KIND_MATCH, 1, 2, 1, 0 }, { KIND_MATCH, 1, 2, 2, 0 }, { KIND_MATCH, 1, 2, 3, 0 },
    { KIND_NEW, 0, 0, 0, MALFORMED_RECORD }, { KIND_MATCH, 0, 2, 4, OUTSIDE_STORE },
};

/* Goes on from a list to all lists that begin with it and have up to so many records more, of so many kinds. */
static void try_all_from(const struct list *list, size_t more, size_t of)
{
    try_list(list);
    for (size_t k = 0; more > 0 && k < of; k++) {
        struct list next = *list;
        next.at[next.n++] = kinds[k];
        try_all_from(&next, more - 1, of);
    }
}

/* With k kinds there are 1 + k + k^2 and so on lists; of the first round's, those of its 20 sound kinds are not refused. A list comes back as it is
 * where no record goes with the one before it: of one record more there are, for each kind, as many as end with a kind that it does not go with. */
static const struct round {
    size_t records, kinds;
    uint64_t lists, refused, tidy;
} rounds[] = {
    { 4, MANY, 245411, 76990, 135741 },
    { 7, FEW, 2396745, 0, 1120479 },
};

/* Tries all lists of a round; whether all went well. */
static int try_round(const struct round *round)
{
    const struct list none = { .n = 0 };
    count = (struct counts){ 0 };
    try_all_from(&none, round->records, round->kinds);
    printf("short_loose: up to %zu records of %zu kinds: %" PRIu64 " lists of %" PRIu64 ", %" PRIu64 " refused of %" PRIu64 ", %" PRIu64
           " tidy of %" PRIu64 "; %" PRIu64 " wrong\n", round->records, round->kinds, count.lists, round->lists, count.refused, round->refused,
           count.tidy, round->tidy, count.wrong);
    return count.lists == round->lists && count.refused == round->refused && count.tidy == round->tidy && count.wrong == 0;
}

int main(void)
{
    int well = 1;
    for (size_t i = 0; i < sizeof rounds / sizeof rounds[0]; i++)
        well &= try_round(&rounds[i]);
    return !well;
}
