/* stack.c - how much stack each call of controller.h takes.
 *
 * Each call runs on a stack of its own that is painted beforehand, and the depth is where the paint ends. Two paints are used, since
 * a call may write a byte that looks like one. The few frames that lead to the call are counted with it, and `nothing` shows them
 * alone. The lists are full (4,096 records) and lead through the merges of the pass, a stored and a kept list, held matches, and refusals; the loose
 * ones have every record in halves, and the second list of pool draws where the first does not.
 *
 * The calls, and the most stack that each may take, are those of controller.h, which tests/declared reads. One line for each call, in
 * bytes. Exit 0 where none takes more than the header says, else 1.
 */
#define _XOPEN_SOURCE 700
#include <stdint.h>
#include <stdio.h>
#include <stdlib.h>
#include <string.h>
#include <ucontext.h>

#include "controller.h"

enum { KIB = 1024, STACK = 1024 * KIB, BYTES = 64 * RECORDS_MOST };

/* ---- The inputs ---- */

/* One list, with its price and the lengths that go with it; the first half of its records as a loose list, each record in halves; and a list that is new
 * where the first has a match, and has a match, of each mark in turns, where that is new. */
static struct {
    uint32_t en, em, f;
    uint8_t list[RECORDS_MOST * RECORD_BYTES], loose[RECORDS_MOST * RECORD_BYTES], second[RECORDS_MOST * RECORD_BYTES];
    size_t length, stored;
} input;

/* Version, store and stored block are zeros: every match is one. Commit is handed a choice that stores one match of three, but no held one. */
static uint8_t zeros[BYTES];
static uint8_t choice[RECORDS_MOST], handed[RECORDS_MOST], list_area[RECORDS_MOST * RECORD_BYTES], area[BYTES], answer[ANSWER_BYTES];

/* A list: sizes from `size` on, which go round in `round`, a new record at each multiple of `new_every`, and of the matches a held one at each
 * multiple of `held_every`, if these are not 0. */
struct shape {
    const char *name;
    uint32_t en, em, f;
    unsigned size, round, new_every, held_every;
    uint32_t number;
};

/* At 10 disk bytes for an entry no merge, then merges 1 to 4, and merges between held matches; all stored at the greatest price; refused at the
 * price, and at the last record. */
static const struct shape shapes[] = {
    { "matches kept", 10, 10, 256, 20, 1, 0, 0, ACCEPTED },
    { "merge 1", 10, 10, 256, 19, 1, 2, 0, ACCEPTED },
    { "merges 2 and 3", 10, 10, 256, 5, 9, 7, 0, ACCEPTED },
    { "merge 4", 10, 10, 256, 4, 1, 0, 0, ACCEPTED },
    { "merges between held matches", 10, 10, 256, 4, 2, 11, 3, ACCEPTED },
    { "all stored", 255, 255, 65535, 9, 40, 3, 0, ACCEPTED },
    { "price refused", 0, 0, 256, 9, 1, 3, 0, BAD_PRICE },
    { "last record refused", 10, 10, 256, 9, 1, 3, 0, MALFORMED_RECORD },
};

enum { SHAPES = sizeof shapes / sizeof *shapes };

static void set_input(const struct shape *shape)
{
    memset(&input, 0, sizeof input);
    input.en = shape->en;
    input.em = shape->em;
    input.f = shape->f;
    for (unsigned i = 0; i < RECORDS_MOST; i++) {
        const unsigned size = shape->size + i % shape->round;
        const int is_new = shape->new_every && i % shape->new_every == 0;
        uint8_t *record = input.list + RECORD_BYTES * i, *second = input.second + RECORD_BYTES * i;
        record[0] = !is_new;
        record[1] = !is_new && shape->held_every && i % shape->held_every == 0;
        record[4] = second[4] = (uint8_t)size;
        second[0] = second[8] = is_new;
        second[1] = is_new && i % 2 == 1;
        handed[i] = is_new || (record[1] == 0 && i % 3 == 1);
        input.length += size;
        input.stored += is_new ? size : 0;
    }
    for (unsigned i = 0; i < RECORDS_MOST; i++) {
        const uint8_t *whole = input.list + RECORD_BYTES * (i / 2), first = whole[4] / 2;
        uint8_t *half = input.loose + RECORD_BYTES * i;
        memcpy(half, whole, RECORD_BYTES);
        half[4] = i % 2 == 0 ? first : whole[4] - first;
        half[8] = i % 2 == 0 || whole[0] == 0 ? 0 : first;
    }
    if (shape->number == MALFORMED_RECORD)
        input.list[RECORD_BYTES * (RECORDS_MOST - 1)] = input.loose[RECORD_BYTES * (RECORDS_MOST - 1)] = 2;
}

/* ---- The calls ---- */

static uint32_t number;

static void call_nothing(void)
{
    number = 0;
}

static void call_measure(void)
{
    number = measure(input.en, input.em, input.f, input.list, sizeof input.list, answer, sizeof answer);
}

static void call_rebuild(void)
{
    number = rebuild(input.list, sizeof input.list, zeros, input.stored, zeros, BYTES, area, BYTES, answer, sizeof answer);
}

static void call_check(void)
{
    number = check(input.list, sizeof input.list, zeros, input.stored, zeros, BYTES, RECORDS_MOST - 1, answer, sizeof answer);
}

static void call_compare(void)
{
    number = compare(input.list, sizeof input.list, input.list, sizeof input.list, zeros, input.stored, zeros, input.stored, zeros, BYTES, answer,
                     sizeof answer);
}

static void call_partition(void)
{
    number = partition(input.en, input.em, input.f, input.list, sizeof input.list, zeros, input.length, zeros, BYTES, choice, sizeof choice,
                       list_area, sizeof list_area, area, BYTES, answer, sizeof answer);
}

static void call_estimate(void)
{
    number = estimate(input.en, input.em, input.f, input.list, sizeof input.list, zeros, input.length, zeros, BYTES, choice, sizeof choice, answer,
                      sizeof answer);
}

static void call_commit(void)
{
    number = commit(input.en, input.em, input.f, input.list, sizeof input.list, zeros, input.length, zeros, BYTES, handed, sizeof handed, list_area,
                    sizeof list_area, area, BYTES, answer, sizeof answer);
}

static void call_pass(void)
{
    number = pass(input.en, input.em, input.f, input.list, sizeof input.list, zeros, input.length, zeros, BYTES, choice, sizeof choice,
                  list_area, sizeof list_area, area, BYTES, answer, sizeof answer);
}

static void call_check_loose(void)
{
    number = check_loose(input.loose, sizeof input.loose, zeros, BYTES, answer, sizeof answer);
}

static void call_tidy(void)
{
    number = tidy(input.loose, sizeof input.loose, zeros, BYTES, list_area, sizeof list_area, answer, sizeof answer);
}

static void call_pool(void)
{
    number = pool(input.list, sizeof input.list, input.second, sizeof input.second, zeros, input.length, zeros, BYTES, list_area, sizeof list_area,
                  answer, sizeof answer);
}

/* The calls by the header: whether the price goes into each, and the most that it may take. calls.def has a line CALL(name, priced, most)
 * for each; a call that has no function above does not compile. */
#define CALL(name, priced, most) { #name, call_##name, priced, most },
static const struct call {
    const char *name;
    void (*run)(void);
    int priced;
    size_t most;
} calls[] = {
#include "calls.def"
};

enum { CALLS = sizeof calls / sizeof *calls };

/* ---- The depth ---- */

static _Alignas(64) uint8_t stack[STACK];
static ucontext_t here, there;

/* How deep a function goes on a stack painted so; it grows downwards. */
static size_t depth_on(void (*run)(void), uint8_t paint)
{
    memset(stack, paint, STACK);
    getcontext(&there);
    there.uc_stack.ss_sp = stack;
    there.uc_stack.ss_size = STACK;
    there.uc_link = &here;
    makecontext(&there, run, 0);
    if (swapcontext(&here, &there) != 0) {
        printf("stack: a context could not be entered\n");
        exit(1);
    }
    size_t untouched = 0;
    while (untouched < STACK && stack[untouched] == paint)
        untouched++;
    return STACK - untouched;
}

static size_t greater(size_t a, size_t b)
{
    return a > b ? a : b;
}

static size_t depth_of(void (*run)(void))
{
    return greater(depth_on(run, 0xA5), depth_on(run, 0x5A));
}

/* The greatest depth of a call over all lists; the first run, on the common stack, lets what is linked late be linked. */
static size_t greatest_depth(const struct call *call)
{
    size_t most = 0;
    for (unsigned i = 0; i < SHAPES; i++) {
        set_input(&shapes[i]);
        call->run();
        const uint32_t expected = shapes[i].number == BAD_PRICE && !call->priced ? ACCEPTED : shapes[i].number;
        if (number != expected) {
            printf("stack: %s answers %u on '%s'\n", call->name, (unsigned)number, shapes[i].name);
            exit(1);
        }
        most = greater(most, depth_of(call->run));
    }
    return most;
}

int main(void)
{
    int over = 0;
    printf("stack: %-14s %6zu bytes\n", "nothing", depth_of(call_nothing));
    for (unsigned i = 0; i < CALLS; i++) {
        const size_t depth = greatest_depth(&calls[i]);
        printf("stack: %-14s %6zu bytes of %zu\n", calls[i].name, depth, calls[i].most);
        over |= depth > calls[i].most;
    }
    return over;
}
