/* deposit.c - a small controller: a new generation of a file, kept as a list against the old one at the least cost.
 *
 *   deposit OLD NEW [EN EM F]
 *
 * OLD is the store and NEW the version; EN, EM and F are the price, 12, 16 and 1024 where they are not given: a new entry has no address, which spares
 * 4 bytes, and F is in 256ths of a disk byte. Two finders find matches, and their lists are pooled: finding.c has both. The deposit measures the pooled
 * list, hands it to pass for comparison, and estimates what the least list would come to. Only then are areas taken for that list and its stored block:
 * the estimate's choice is committed, and NEW rebuilt from what was written. Last, the pooled list is compared with what a commitment writes that keeps
 * every match, which draws each byte from the same place, and with the deposited list, which does so where no match was given up. Costs are printed in
 * disk bytes. Nothing goes to disk.
 *
 * In order: the calls; the report. Exit 0 where NEW came back, else 1 and one line.
 */
#include <inttypes.h>
#include <stdio.h>
#include <stdlib.h>
#include <string.h>

#include "finding.h"

const char program[] = "deposit", usage[] = "usage: deposit OLD NEW [EN EM F]";

/* ---- The calls ---- */

/* What pass and commit write. */
struct written {
    struct answer answer;
    struct bytes list, block;
};

static struct answer measure_found(const struct deposit *d)
{
    uint8_t area[ANSWER_BYTES];
    measure(d->en, d->em, d->f, d->found.bytes, RECORD_BYTES * d->found.records, area, sizeof area);
    return answer_of("measure", area);
}

/* Areas for a list and its stored block, just as long as pass and commit need them. */
static struct written take_areas(const struct deposit *d)
{
    struct written w = { .list.length = RECORD_BYTES * d->found.records, .block.length = d->version.length };
    w.list.at = allocate(w.list.length);
    w.block.at = allocate(w.block.length);
    return w;
}

/* What was written has just the bytes that the answer says. */
static struct written answered(struct written w, struct answer answer)
{
    w.answer = answer;
    w.list.length = RECORD_BYTES * (size_t)answer.entries;
    w.block.length = answer.stored;
    return w;
}

static struct written pass_over(const struct deposit *d)
{
    uint8_t area[ANSWER_BYTES], choice[RECORDS_MOST];
    struct written w = take_areas(d);
    pass(d->en, d->em, d->f, d->found.bytes, RECORD_BYTES * d->found.records, d->version.at, d->version.length, d->store.at, d->store.length,
         choice, sizeof choice, w.list.at, w.list.length, w.block.at, w.block.length, area, sizeof area);
    return answered(w, answer_of("pass", area));
}

static struct written commit_choice(const struct deposit *d, const uint8_t *choice)
{
    uint8_t area[ANSWER_BYTES];
    struct written w = take_areas(d);
    commit(d->en, d->em, d->f, d->found.bytes, RECORD_BYTES * d->found.records, d->version.at, d->version.length, d->store.at, d->store.length,
           choice, d->found.records, w.list.at, w.list.length, w.block.at, w.block.length, area, sizeof area);
    return answered(w, answer_of("commit", area));
}

/* The list found, with its stored block: 1 for each new record, 0 for each match. */
static struct written commit_all_kept(const struct deposit *d)
{
    uint8_t choice[RECORDS_MOST];
    for (size_t i = 0; i < d->found.records; i++)
        choice[i] = d->found.bytes[RECORD_BYTES * i] == KIND_NEW;
    return commit_choice(d, choice);
}

/* Commits the estimate's choice, which comes to what was estimated. */
static struct written commit_estimate(const struct deposit *d, const struct estimated *e)
{
    const struct written w = commit_choice(d, e->choice);
    if (w.answer.cost != e->answer.cost || w.answer.entries != e->answer.entries || w.answer.stored != e->answer.stored)
        fail("what was committed is not what was estimated");
    return w;
}

/* Whether the written list, the stored block and the store give the version back. */
static int rebuilds(const struct deposit *d, const struct written *w)
{
    uint8_t area[ANSWER_BYTES];
    uint8_t *back = allocate(d->version.length);
    rebuild(w->list.at, w->list.length, w->block.at, w->block.length, d->store.at, d->store.length, back, d->version.length, area, sizeof area);
    const struct answer answer = answer_of("rebuild", area);
    const int same = answer.whole == d->version.length && memcmp(back, d->version.at, d->version.length) == 0;
    free(back);
    return same;
}

/* Whether the list found, with its stored block, and a written one give the same bytes from the same places; nothing is rebuilt for it. */
static int same_origins(const struct deposit *d, struct bytes block, const struct written *w)
{
    uint8_t area[ANSWER_BYTES];
    compare(d->found.bytes, RECORD_BYTES * d->found.records, w->list.at, w->list.length, block.at, block.length, w->block.at, w->block.length,
            d->store.at, d->store.length, area, sizeof area);
    return answer_of("compare", area).entries == 1;
}

/* How many matches of the list found a choice gives up. */
static size_t given_up(const struct deposit *d, const uint8_t *choice)
{
    size_t count = 0;
    for (size_t i = 0; i < d->found.records; i++)
        count += d->found.bytes[RECORD_BYTES * i] == KIND_MATCH && choice[i] == 1;
    return count;
}

/* ---- The report ---- */

static void print_row(const char *way, struct answer a)
{
    printf("%-22s %8" PRIu32 " %13" PRIu32 " %19.2f\n", way, a.entries, a.stored, in_disk_bytes(a.cost));
}

static void print_saved(const char *beside, uint64_t cost, uint64_t least)
{
    const double share = cost == 0 ? 0 : 100.0 * (double)(cost - least) / (double)cost;
    printf("saved beside %-19s %32.2f (%.1f %%)\n", beside, in_disk_bytes(cost - least), share);
}

static void print_estimate(const struct deposit *d, struct answer found, struct answer passed, struct answer least)
{
    printf("store %zu bytes, version %zu bytes; EN %" PRIu32 ", EM %" PRIu32 ", F %" PRIu32 ": a new entry costs %.2f disk bytes, a match %.2f\n",
           d->store.length, d->version.length, d->en, d->em, d->f, in_disk_bytes((uint64_t)d->en * d->f), in_disk_bytes((uint64_t)d->em * d->f));
    print_found(d);
    printf("\n%-22s %8s %13s %19s\n", "list", "entries", "stored bytes", "cost in disk bytes");
    print_row("every match kept", found);
    print_row("the pass", passed);
    print_row("the estimate", least);
    printf("\n");
    print_saved("every match kept", found.cost, least.cost);
    print_saved("the pass", passed.cost, least.cost);
}

/* The bytes of a match that was given up are new in the deposited list: that is another origin. */
static void compare_lists(const struct deposit *d, const struct estimated *least, const struct written *deposited)
{
    const struct written kept = commit_all_kept(d);
    const size_t up = given_up(d, least->choice);
    if (!same_origins(d, kept.block, &kept))
        fail("every match is kept, and compare says that a byte comes from elsewhere");
    printf("every match kept, compared with the list found: the same bytes from the same places\n");
    if (same_origins(d, kept.block, deposited) != (up == 0))
        fail("matches given up: %zu, and compare says otherwise", up);
    printf("the deposited list, compared with the list found: %s; matches given up: %zu\n", up == 0 ? "so too" : "not from the same places", up);
    free(kept.list.at), free(kept.block.at);
}

static void make_deposit(const struct deposit *d, const char *name)
{
    const struct answer found = measure_found(d);
    const struct written passed = pass_over(d);
    const struct estimated least = estimate_at(d, d->f);
    print_estimate(d, found, passed.answer, least.answer);
    const struct written deposited = commit_estimate(d, &least);
    printf("\ncommitted: %" PRIu32 " records and %" PRIu32 " stored bytes, as estimated\n", deposited.answer.entries, deposited.answer.stored);
    if (!rebuilds(d, &deposited))
        fail("what was rebuilt differs from %s", name);
    printf("rebuilt from the list, the stored bytes and the store: the same as %s\n", name);
    compare_lists(d, &least, &deposited);
    free(passed.list.at), free(passed.block.at);
    free(deposited.list.at), free(deposited.block.at);
}

int main(int count, char **arguments)
{
    if (count != 3 && count != 6)
        fail("%s", usage);
    struct deposit *d = take_deposit(count - 1, arguments + 1);
    make_deposit(d, arguments[2]);
    free_deposit(d);
    if (fflush(stdout) != 0)
        fail("cannot write the report");
    return 0;
}
