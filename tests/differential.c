/* differential.c - the library's calls against the reference, on random, damaged and extreme inputs.
 *
 * For each call: the number returned, the answer area, and every byte of every area lent for writing, with the bytes around it, must be the
 * reference's; what is lent for reading must stay as it was, and what lies beyond that which is due, on refusal every area but the answer, which
 * then has number and place alone. Without the reference: the written list is the one its choice makes, it measures as the answer says and rebuilds
 * the version, it comes back from a second partition as it is, short lists are tried against all their choices that keep the held matches, a match
 * that stands alone and is not held is stored exactly where that costs less, the held bytes of the version stay held at their addresses, and the
 * pass keeps its bounds; the estimate answers as partition does, refused or not, but for 9, and a commitment of its choice gives what partition
 * gave, byte for byte; what is committed of any choice rebuilds the version and costs no less, with every match kept it is the list handed in with
 * its runs joined, and what is no choice is refused at the place where it was spoilt. Compare refuses as check does, the first list first. It says yes
 * exactly where rebuild makes the same bytes of both lists and each byte has the same origin in both, and exactly where tidy forms and stored blocks
 * are the same, in either order; so of a list and itself, and of a list and what tidy wrote of it, or it gives the list's refusal. Of a list and what
 * partition, commit or pass wrote of it, it says yes exactly where no match was given up, and of a list and itself without its marks it says no; over
 * a store that cannot be read it answers the same. A match is refused, and a stored stretch told from another, exactly where one of its bytes differs,
 * whichever it is; measure, rebuild, check and check_loose do the same for a list without its marks, sound or not. Check_loose says what check says
 * of a list, but for 5, 10 and 11, and tidy what check_loose says, but for 9; a list cut into loose pieces has the tidy form of the list; what tidy
 * wrote has the origins of the loose list, leaves nothing to join, comes back from tidy, is sound for check with the loose list's stored block, and
 * rebuilds what that list stands for; two loose lists have the same tidy form exactly where each byte has the same origin; what partition, commit and
 * pass wrote comes back from tidy, and a commitment with every match kept writes what tidy writes. Pool refuses each list as it does that list with
 * itself, the first list first, and that as partition does, but for 5; then by the records of the pooled list. What it wrote draws each byte as the first
 * list does, else as the second, and stores no more than either; it comes back from tidy, is sound for check with the version's bytes under its new
 * records, rebuilds the version, and is accepted by partition. A list with itself, and with one without a match, gives its tidy form. At two factors
 * partition writes of one list, at the greater, no more index bytes and no fewer stored bytes, and neither changes without the other; what it gives up
 * at the lesser it gives up at the greater, which costs no less, and each list costs at its own factor no more than the other; at one factor twice all
 * is the same. So it is with two estimates, and with an estimate and a commitment, at either factor, of the choice of the other.
 *
 * In order: the calls; chance; the areas; fields; reports; one comparison; the laws; choices to commit; one case; valid inputs; second lists;
 * damage; loose lists; pools; two factors; the cases; the table. Not here: NULL for an empty area, which controller.h does not allow.
 *
 *   differential [seed]
 *
 * The same seed gives the same inputs. Exit 0 where nothing differs, each number of docs/SPECIFICATION.md, section 5, for each list of compare and of
 * pool, and each kind of price below was reached, 4 also for a mark on a new record and for byte 1 over 1 on a match, 12 for each of its five causes,
 * each kind of choice was judged by commit and stood behind another fault, and choices were committed that cost more than the estimate's, and as
 * much, a match and a stored stretch differed in one byte at each pair of places within a word, of the pairs of different lists that compare accepted
 * a third or more have the same bytes from the same places and are cut differently, a third or more have the same bytes from other places, by kind,
 * by address and by mark, and some other bytes, in the stored blocks alone, as one list ends first, and else, partition, commit and pass each kept
 * every match of a list and gave one up, of neighbouring matches two in five or more go on in the store and as many do not, about a third of the
 * matches are held, and about a third of those that go on have another mark, marks were flipped, a short list would have been cheaper with a held
 * match stored, calls were made without the marks, accepted and refused, of two loose lists two in five or more have the same origins and as many
 * have not, loose lists had new records side by side and matches to join, and an area was too short for a loose list though its tidy form fits, of
 * the pairs of sound lists to pool a quarter or more have bytes that only the first draws, as many such that only the second draws, and as many such
 * that both draw but otherwise, and each other kind of such pairs (finding_name) was there, of the pairs of factors a twentieth or more are of each
 * sort (sort_name), ties with the factor before and behind them among these, a quarter or more have another list, as many one list, and a tenth or more
 * are neighbours with another list, as many have another list that would cost as much at the lesser; else 1.
 */
#define _DEFAULT_SOURCE
#include <inttypes.h>
#include <signal.h>
#include <stdio.h>
#include <stdlib.h>
#include <string.h>
#include <sys/mman.h>

#include "controller.h"
#include "reference/reference.h"

/* ---- The calls ---- */

/* The calls; and, in the table, compare and pool where the second list is at fault. */
enum {
    MEASURE, REBUILD, CHECK, COMPARE, CHECK_LOOSE, TIDY, POOL, PARTITION, ESTIMATE, COMMIT, PASS, CALLS, COMPARE_SECOND = CALLS, POOL_SECOND, ROWS
};

static const char *const call_name[ROWS] = {
    "measure", "rebuild", "check", "compare", "check_loose", "tidy", "pool", "partition", "estimate", "commit", "pass", "compare 2nd", "pool 2nd",
};

/* How many of each case. */
enum { SMALL_CASES = 1000000, MIDDLE_CASES = 8000, FULL_CASES = 60, BRUTE_RECORDS = 10, STRETCH_CASES = 14, RECORD_CASES = 20 };

/* ---- Chance ---- */

static uint64_t seed = UINT64_C(0x5eedb0c5);
static uint64_t state;

static uint64_t draw(void)
{
    state ^= state >> 12;
    state ^= state << 25;
    state ^= state >> 27;
    return state * UINT64_C(0x2545f4914f6cdd1d);
}

/* A number below n, which is 1 or more. */
static uint32_t below(uint64_t n)
{
    return (uint32_t)((draw() >> 16) % n);
}

static int one_in(uint32_t n)
{
    return below(n) == 0;
}

/* ---- The areas ---- */

/* What a call is lent: the inputs, with a second list and its stored block, and a choice for commit, and the lengths of the areas to write; and the
 * chance, in thirds, that a match is held. */
struct input {
    uint32_t en, em, f, k, held_of_3;
    uint8_t *list, *version, *store, *block, *second, *second_block, *handed;
    size_t list_len, version_len, store_len, block_len, second_len, second_block_len, handed_len;
    size_t choice_len, list_area_len, block_area_len, area_len, answer_len;
};

/* Bytes that are watched before and after each area to write; and the room beyond each limit. */
enum { GUARD = 64, ROOM = 4096, NOISE = 65536 };

/* The inputs, each with a copy to see that it stays; zeros stands for a version or store of any length and has no copy. */
static uint8_t *list_bytes, *version_bytes, *store_bytes, *block_bytes, *second_bytes, *second_block_bytes, *handed_bytes;
static uint8_t *list_copy, *version_copy, *store_copy, *block_copy, *second_copy, *second_block_copy, *handed_copy;
static uint8_t *zeros;
static uint8_t noise[2 * NOISE];

/* A store of any length that cannot be read. */
static uint8_t *unreadable;

/* The areas to write. */
enum { CHOICE, LIST, BLOCK, WHOLE, ANSWER, AREAS };
enum { LIBRARY, REFERENCE, UNTOUCHED, SIDES };

static struct area {
    const char *name;
    size_t most, len;
    uint8_t *bytes[SIDES];
} areas[AREAS] = {
    { "choice area", RECORDS_MOST, 0, { 0 } },
    { "list area", RECORD_BYTES * RECORDS_MOST, 0, { 0 } },
    { "stored block area", VERSION_MOST, 0, { 0 } },
    { "version area", VERSION_MOST, 0, { 0 } },
    { "answer area", ANSWER_BYTES, 0, { 0 } },
};

/* The areas that each call is lent. */
static const unsigned lent[CALLS] = {
    1u << ANSWER,
    1u << WHOLE | 1u << ANSWER,
    1u << ANSWER,
    1u << ANSWER,
    1u << ANSWER,
    1u << LIST | 1u << ANSWER,
    1u << LIST | 1u << ANSWER,
    1u << CHOICE | 1u << LIST | 1u << BLOCK | 1u << ANSWER,
    1u << CHOICE | 1u << ANSWER,
    1u << LIST | 1u << BLOCK | 1u << ANSWER,
    1u << CHOICE | 1u << LIST | 1u << BLOCK | 1u << ANSWER,
};

/* The areas of the second partition and of the laws. */
static uint8_t *law_choice, *law_list, *law_block, *law_whole, *law_second, *law_second_whole;

/* Two loose lists, the tidy form of one, a list without its marks, and one without its matches. */
static uint8_t *loose_bytes, *other_loose_bytes, *law_tidy, *bare_bytes, *fresh_bytes;

/* What partition wrote, for the estimate and the commitment. */
static uint8_t *kept_choice, *kept_list, *kept_block;

static uint8_t *room_for(size_t most)
{
    uint8_t *bytes = calloc(most + ROOM, 1);
    if (bytes == NULL) {
        puts("differential: no memory");
        exit(1);
    }
    return bytes;
}

static void make_room(void)
{
    const size_t list_most = RECORD_BYTES * RECORDS_MOST;
    list_bytes = room_for(list_most), list_copy = room_for(list_most);
    version_bytes = room_for(VERSION_MOST), version_copy = room_for(VERSION_MOST);
    store_bytes = room_for(VERSION_MOST), store_copy = room_for(VERSION_MOST);
    block_bytes = room_for(VERSION_MOST), block_copy = room_for(VERSION_MOST);
    second_bytes = room_for(list_most), second_copy = room_for(list_most);
    second_block_bytes = room_for(VERSION_MOST), second_block_copy = room_for(VERSION_MOST);
    zeros = room_for(STORE_MOST);
    unreadable = mmap(NULL, STORE_MOST + ROOM, PROT_NONE, MAP_PRIVATE | MAP_ANONYMOUS | MAP_NORESERVE, -1, 0);
    if (unreadable == MAP_FAILED) {
        puts("differential: no address space");
        exit(1);
    }
    law_choice = room_for(RECORDS_MOST), law_list = room_for(list_most), law_second = room_for(list_most);
    law_block = room_for(VERSION_MOST), law_whole = room_for(VERSION_MOST), law_second_whole = room_for(VERSION_MOST);
    kept_choice = room_for(RECORDS_MOST), kept_list = room_for(list_most), kept_block = room_for(VERSION_MOST);
    handed_bytes = room_for(RECORDS_MOST), handed_copy = room_for(RECORDS_MOST);
    loose_bytes = room_for(list_most), other_loose_bytes = room_for(list_most), law_tidy = room_for(list_most), bare_bytes = room_for(list_most);
    fresh_bytes = room_for(list_most);
    for (int a = 0; a < AREAS; a++)
        for (int side = 0; side < SIDES; side++)
            areas[a].bytes[side] = room_for(areas[a].most);
    for (size_t i = 0; i < sizeof noise; i++)
        noise[i] = (uint8_t)(draw() >> 40);
}

/* Where a side's area begins, behind its guard. */
static uint8_t *area(int which, int side)
{
    return areas[which].bytes[side] + GUARD;
}

/* Fills bytes with noise. */
static void fill(uint8_t *bytes, size_t len)
{
    while (len > 0) {
        const size_t part = len < NOISE ? len : NOISE;
        memcpy(bytes, noise + below(NOISE), part);
        bytes += part;
        len -= part;
    }
}

/* Lends a call its areas: the same noise for each side, guards included. */
static void lend(int call, const struct input *in)
{
    const size_t lens[AREAS] = { in->choice_len, in->list_area_len, in->block_area_len, in->area_len, in->answer_len };
    for (int a = 0; a < AREAS; a++) {
        if (!(lent[call] >> a & 1))
            continue;
        areas[a].len = lens[a];
        const size_t watched = lens[a] + 2 * GUARD;
        fill(areas[a].bytes[UNTOUCHED], watched);
        memcpy(areas[a].bytes[LIBRARY], areas[a].bytes[UNTOUCHED], watched);
        memcpy(areas[a].bytes[REFERENCE], areas[a].bytes[UNTOUCHED], watched);
    }
}

/* ---- Fields ---- */

static uint32_t get32(const uint8_t *b)
{
    return (uint32_t)b[0] | (uint32_t)b[1] << 8 | (uint32_t)b[2] << 16 | (uint32_t)b[3] << 24;
}

static void put32(uint8_t *b, uint32_t v)
{
    for (int i = 0; i < 4; i++)
        b[i] = (uint8_t)(v >> (8 * i));
}

static uint8_t *record(uint8_t *list, size_t i)
{
    return list + RECORD_BYTES * i;
}

static uint32_t size_at(const struct input *in, size_t i)
{
    return get32(record(in->list, i) + 4);
}

static size_t records(const struct input *in)
{
    return in->list_len / RECORD_BYTES;
}

/* What the library's last answer to each call says. */
static struct given {
    uint32_t number, place;
    uint64_t cost;
    uint32_t entries, stored, looks, whole;
} given[CALLS];

static struct given read_answer(const uint8_t *b)
{
    struct given g = { answer_number(b), answer_place(b), answer_cost(b), answer_entries(b), answer_stored(b), answer_looks(b), answer_whole(b) };
    return g;
}

/* Whether two calls answered the same, looks and whole length too. */
static int same_answers(const struct given *a, const struct given *b)
{
    return a->number == b->number && a->place == b->place && a->cost == b->cost && a->entries == b->entries && a->stored == b->stored
        && a->looks == b->looks && a->whole == b->whole;
}

/* ---- Reports ---- */

static uint64_t case_count;
static const char *case_kind = "";

static void dump(const char *name, const uint8_t *bytes, size_t len)
{
    const size_t shown = len < 1024 ? len : 1024;
    printf("%s, %zu bytes%s:", name, len, shown < len ? ", the first" : "");
    for (size_t i = 0; i < shown; i++)
        printf("%s%02x", i % 48 == 0 ? "\n    " : i % 12 == 0 ? "  " : i % 4 == 0 ? " " : "", bytes[i]);
    printf("\n");
}

static void dump_input(const struct input *in)
{
    printf("EN %" PRIu32 " EM %" PRIu32 " F %" PRIu32 " k %" PRIu32 ", %zu records\n", in->en, in->em, in->f, in->k, records(in));
    printf("areas: choice %zu, list %zu, stored block %zu, version %zu, answer %zu\n", in->choice_len,
           in->list_area_len, in->block_area_len, in->area_len, in->answer_len);
    dump("list", in->list, in->list_len);
    dump("version", in->version, in->version_len);
    dump("store", in->store, in->store_len);
    dump("stored block", in->block, in->block_len);
    dump("second list", in->second, in->second_len);
    dump("its stored block", in->second_block, in->second_block_len);
    dump("choice handed to commit", in->handed, in->handed_len);
}

static void dump_answers(int call, const struct input *in)
{
    for (int side = LIBRARY; side <= REFERENCE; side++) {
        if (in->answer_len < ANSWER_BYTES)
            continue;
        const struct given g = read_answer(area(ANSWER, side));
        printf("%-11s of %s: number %" PRIu32 " place %" PRIu32 " cost %" PRIu64 " entries %" PRIu32 " stored %" PRIu32
               " looks %" PRIu32 " whole %" PRIu32 "\n", side == LIBRARY ? "library" : "reference", call_name[call],
               g.number, g.place, g.cost, g.entries, g.stored, g.looks, g.whole);
    }
}

/* Ends the test at the first difference. */
static _Noreturn void differ(int call, const char *what, const struct input *in)
{
    printf("differential: DIFFERENCE in %s: %s (seed 0x%" PRIx64 ", case %" PRIu64 ", %s)\n", call_name[call], what, seed,
           case_count, case_kind);
    dump_answers(call, in);
    dump_input(in);
    exit(1);
}

/* What is under way, for the report of a crash. */
static int current_call;
static const struct input *current_input;

static void crashed(int signal_number)
{
    (void)signal_number;
    differ(current_call, "crashed, here or in a call on what it wrote", current_input);
}

static _Noreturn void differ_in_number(int call, uint32_t library, uint32_t reference, const struct input *in)
{
    char what[64];
    snprintf(what, sizeof what, "returned %" PRIu32 ", the reference %" PRIu32, library, reference);
    differ(call, what, in);
}

/* ---- One comparison ---- */

static void keep_inputs(const struct input *in)
{
    memcpy(list_copy, in->list, in->list_len);
    memcpy(block_copy, in->block, in->block_len);
    memcpy(second_copy, in->second, in->second_len);
    memcpy(second_block_copy, in->second_block, in->second_block_len);
    memcpy(handed_copy, in->handed, in->handed_len);
    if (in->version != zeros)
        memcpy(version_copy, in->version, in->version_len);
    if (in->store != zeros)
        memcpy(store_copy, in->store, in->store_len);
}

static void inputs_stayed(int call, const struct input *in)
{
    if (memcmp(list_copy, in->list, in->list_len) != 0)
        differ(call, "the list was written to", in);
    if (memcmp(block_copy, in->block, in->block_len) != 0)
        differ(call, "the stored block was written to", in);
    if (memcmp(second_copy, in->second, in->second_len) != 0)
        differ(call, "the second list was written to", in);
    if (memcmp(second_block_copy, in->second_block, in->second_block_len) != 0)
        differ(call, "the second stored block was written to", in);
    if (memcmp(handed_copy, in->handed, in->handed_len) != 0)
        differ(call, "the choice handed to commit was written to", in);
    if (in->version != zeros && memcmp(version_copy, in->version, in->version_len) != 0)
        differ(call, "the version was written to", in);
    if (in->store != zeros && memcmp(store_copy, in->store, in->store_len) != 0)
        differ(call, "the store was written to", in);
}

/* Makes a call on one side. */
static uint32_t run(int call, int side, const struct input *in)
{
    const int library = side == LIBRARY;
    uint8_t *answer = area(ANSWER, side);
    switch (call) {
    case MEASURE:
        return (library ? measure : ref_measure)(in->en, in->em, in->f, in->list, in->list_len, answer, in->answer_len);
    case REBUILD:
        return (library ? rebuild : ref_rebuild)(in->list, in->list_len, in->block, in->block_len,
                                                 in->store, in->store_len, area(WHOLE, side), in->area_len,
                                                 answer, in->answer_len);
    case CHECK:
        return (library ? check : ref_check)(in->list, in->list_len, in->block, in->block_len,
                                             in->store, in->store_len, in->k, answer, in->answer_len);
    case COMPARE:
        return (library ? compare : ref_compare)(in->list, in->list_len, in->second, in->second_len, in->block, in->block_len,
                                                 in->second_block, in->second_block_len, in->store, in->store_len, answer, in->answer_len);
    case CHECK_LOOSE:
        return (library ? check_loose : ref_check_loose)(in->list, in->list_len, in->store, in->store_len, answer, in->answer_len);
    case TIDY:
        return (library ? tidy : ref_tidy)(in->list, in->list_len, in->store, in->store_len, area(LIST, side), in->list_area_len,
                                           answer, in->answer_len);
    case POOL:
        return (library ? pool : ref_pool)(in->list, in->list_len, in->second, in->second_len, in->version, in->version_len, in->store, in->store_len,
                                           area(LIST, side), in->list_area_len, answer, in->answer_len);
    case PARTITION:
        return (library ? partition : ref_partition)(in->en, in->em, in->f, in->list, in->list_len, in->version, in->version_len,
                                                     in->store, in->store_len, area(CHOICE, side), in->choice_len,
                                                     area(LIST, side), in->list_area_len,
                                                     area(BLOCK, side), in->block_area_len, answer, in->answer_len);
    case ESTIMATE:
        return (library ? estimate : ref_estimate)(in->en, in->em, in->f, in->list, in->list_len, in->version, in->version_len,
                                                   in->store, in->store_len, area(CHOICE, side), in->choice_len, answer, in->answer_len);
    case COMMIT:
        return (library ? commit : ref_commit)(in->en, in->em, in->f, in->list, in->list_len, in->version, in->version_len,
                                               in->store, in->store_len, in->handed, in->handed_len,
                                               area(LIST, side), in->list_area_len,
                                               area(BLOCK, side), in->block_area_len, answer, in->answer_len);
    default:
        return (library ? pass : ref_pass)(in->en, in->em, in->f, in->list, in->list_len, in->version, in->version_len,
                                           in->store, in->store_len, area(CHOICE, side), in->choice_len,
                                           area(LIST, side), in->list_area_len,
                                           area(BLOCK, side), in->block_area_len, answer, in->answer_len);
    }
}

/* How many bytes of an area a call had to write, by its answer. */
static size_t due_bytes(int call, int which, const struct input *in)
{
    const struct given *g = &given[call];
    const size_t due[AREAS] = { records(in), RECORD_BYTES * (size_t)g->entries, g->stored, g->whole, ANSWER_BYTES };
    if (which == ANSWER)
        return in->answer_len < ANSWER_BYTES ? 0 : ANSWER_BYTES;
    return g->number != ACCEPTED ? 0 : due[which] < areas[which].len ? due[which] : areas[which].len;
}

/* Both sides of an area, guards included; and beyond what was due, which is all of it on refusal, as it was lent. */
static void same_area(int call, int which, const struct input *in)
{
    const struct area *a = &areas[which];
    const size_t watched = a->len + 2 * GUARD;
    char what[128];
    if (memcmp(a->bytes[LIBRARY], a->bytes[REFERENCE], watched) != 0) {
        size_t i = 0;
        while (a->bytes[LIBRARY][i] == a->bytes[REFERENCE][i])
            i++;
        snprintf(what, sizeof what, "%s of %zu, byte %lld: library %02x, reference %02x", a->name, a->len,
                 (long long)i - GUARD, a->bytes[LIBRARY][i], a->bytes[REFERENCE][i]);
        differ(call, what, in);
    }
    const size_t beyond = GUARD + due_bytes(call, which, in);
    if (memcmp(a->bytes[LIBRARY], a->bytes[UNTOUCHED], GUARD) != 0 ||
        memcmp(a->bytes[LIBRARY] + beyond, a->bytes[UNTOUCHED] + beyond, watched - beyond) != 0) {
        snprintf(what, sizeof what, "%s was written to %s", a->name, given[call].number == ACCEPTED ? "beyond what is due" : "on refusal");
        differ(call, what, in);
    }
}

/* The columns of the table: numbers 0 to 11, 6 at the short end, 9 for the answer area, 4 for nothing but a mark on a new record, or for nothing but
 * byte 1 over 1 on a match, 12 by its causes: a choice too short or too long, a byte over 1, a new record kept, a held match stored; and 13. */
enum { SHORT_END = 12, SHORT_ANSWER, MARKED_NEW, OVER_ONE, CHOICE_SHORT, CHOICE_LONG, CHOICE_OVER, CHOICE_NEW, CHOICE_HELD, TOO_MANY, COLUMNS };
static const struct { const char *name, *where; int number; } special[COLUMNS - SHORT_END] = {
    { "6 end", " at the short end", 6 }, { "9 ans", " for the answer area", 9 }, { "4 mark", " for a mark on a new record", 4 },
    { "4 over", " for byte 1 over 1 on a match", 4 }, { "12 less", " for a choice too short", 12 }, { "12 more", " for a choice too long", 12 },
    { "12 over", " for a byte over 1", 12 }, { "12 new", " for a new record kept", 12 }, { "12 held", " for a held match stored", 12 },
    { "13", "", 13 },
};
static uint64_t compared[ROWS], reached[ROWS][COLUMNS];

/* The column of a record with number 4. */
static uint32_t malformed_column(const uint8_t *r)
{
    if (r[0] > 1 || r[2] != 0 || r[3] != 0 || get32(r + 4) == 0 || (r[0] == 0 && get32(r + 8) != 0))
        return MALFORMED_RECORD;
    return r[0] == 0 && r[1] == 1 ? MARKED_NEW : r[0] == 1 && r[1] > 1 ? OVER_ONE : MALFORMED_RECORD;
}

/* Whether rebuild, which makes compare's checks of the first list, found no fault in it. */
static int first_is_sound(void)
{
    return given[REBUILD].number == ACCEPTED || given[REBUILD].number == AREA_TOO_SHORT;
}

/* Whether a number is one that a list gets from pool, and not the lengths of version, store or area, nor the pooled list. */
static int is_of_list(uint32_t number)
{
    return number >= BAD_LIST_LENGTH && number <= MISMATCH;
}

/* Whether the reference, pooling the first list with itself in no area, finds no fault in it. */
static int first_is_poolable(const struct input *in)
{
    uint8_t answer[ANSWER_BYTES];
    return !is_of_list(ref_pool(in->list, in->list_len, in->list, in->list_len, in->version, in->version_len, in->store, in->store_len, answer, 0, answer,
                                sizeof answer));
}

/* Whether a call refused its second list. */
static int second_at_fault(int call, const struct input *in)
{
    if (in->answer_len < ANSWER_BYTES || given[call].number == ACCEPTED)
        return 0;
    return (call == COMPARE && first_is_sound()) || (call == POOL && is_of_list(given[POOL].number) && first_is_poolable(in));
}

/* The column of number 12: by the length, else by the byte at the place. */
static uint32_t choice_column(const struct input *in, uint32_t place)
{
    if (in->handed_len != records(in))
        return in->handed_len < records(in) ? CHOICE_SHORT : CHOICE_LONG;
    if (place >= records(in) || in->handed[place] > 1)
        return CHOICE_OVER;
    return in->handed[place] == 0 ? CHOICE_NEW : CHOICE_HELD;
}

static void tally(int call, const struct input *in)
{
    const struct given *g = &given[call];
    const int second = second_at_fault(call, in), row = !second ? call : call == COMPARE ? COMPARE_SECOND : POOL_SECOND;
    uint32_t column = g->number;
    if (g->number == BAD_SIZES && g->place == (second ? in->second_len : in->list_len) / RECORD_BYTES && call >= POOL)
        column = SHORT_END;
    if (g->number == BAD_CHOICE)
        column = choice_column(in, g->place);
    if (g->number == MALFORMED_RECORD)
        column = malformed_column(record(second ? in->second : in->list, g->place));
    if (g->number == TOO_MANY_RECORDS)
        column = TOO_MANY;
    if (in->answer_len < ANSWER_BYTES)
        column = SHORT_ANSWER;
    compared[row]++;
    reached[row][column]++;
}

/* Makes one call on both sides, and compares what they did; whether it was accepted. */
static int try_call(int call, const struct input *in)
{
    current_call = call;
    current_input = in;
    lend(call, in);
    keep_inputs(in);
    const uint32_t library = run(call, LIBRARY, in);
    inputs_stayed(call, in);
    const uint32_t reference = run(call, REFERENCE, in);
    const int answered = in->answer_len >= ANSWER_BYTES;
    if (library != reference)
        differ_in_number(call, library, reference, in);
    given[call] = answered ? read_answer(area(ANSWER, LIBRARY)) : (struct given){ .number = library };
    if (given[call].number != library)
        differ(call, "returned another number than it answered", in);
    if (library != ACCEPTED && !same_answers(&given[call], &(struct given){ .number = library, .place = given[call].place }))
        differ(call, "gives more than number and place on refusal", in);
    for (int a = 0; a < AREAS; a++)
        if (lent[call] >> a & 1)
            same_area(call, a, in);
    tally(call, in);
    return library == ACCEPTED;
}

/* ---- The laws: what an accepted partition or pass must have written, without the reference ---- */

static uint64_t dearer_passes, ties, bound, lone_stored, lone_kept;

/* Of the matches that partition was handed and accepted: all, and the held ones. Of the neighbouring ones: those where the second goes on in the
 * store, those of them with different marks, and the others. */
static uint64_t matches, held_matches, going_on, going_on_parted, not_going_on;

/* The factors at which a partition must have been accepted: the edges, and around one disk byte. */
static struct { uint32_t f; uint64_t accepted; } factors[] = { { 1, 0 }, { 255, 0 }, { 256, 0 }, { 257, 0 }, { 65535, 0 } };
enum { FACTORS = sizeof factors / sizeof factors[0] };

/* The prices at which one must have been accepted: a new entry cheaper than a match, as dear, dearer. */
enum { CHEAPER, AS_DEAR, DEARER, ORDERS };
static const char *const order_name[ORDERS] = { "EN < EM", "EN = EM", "EN > EM" };
static uint64_t orders[ORDERS];

static void tally_price(const struct input *in)
{
    for (int i = 0; i < FACTORS; i++)
        factors[i].accepted += in->f == factors[i].f;
    orders[in->en < in->em ? CHEAPER : in->en == in->em ? AS_DEAR : DEARER]++;
}

/* What an entry costs, by its kind. */
static uint64_t new_cost(const struct input *in)
{
    return (uint64_t)in->f * in->en;
}

static uint64_t match_cost(const struct input *in)
{
    return (uint64_t)in->f * in->em;
}

/* Whether record i of a sound list is a match that must be held. */
static int is_held(const struct input *in, size_t i)
{
    return record(in->list, i)[1] == 1;
}

/* Whether record i is a match that begins in the store where the record before it, a match too, ended. */
static int follows(const struct input *in, size_t i)
{
    const uint8_t *r = record(in->list, i);
    return i > 0 && r[0] == 1 && r[-RECORD_BYTES] == 1 && (uint64_t)get32(r - RECORD_BYTES + 8) + get32(r - RECORD_BYTES + 4) == get32(r + 8);
}

/* Whether record i goes on from the one before it: it begins where that ended, and both are held or neither. */
static int goes_on(const struct input *in, size_t i)
{
    return follows(in, i) && is_held(in, i) == is_held(in, i - 1);
}

static void tally_matches(const struct input *in)
{
    for (size_t i = 0; i < records(in); i++) {
        if (record(in->list, i)[0] == 0)
            continue;
        matches++;
        held_matches += is_held(in, i);
        if (i > 0 && record(in->list, i - 1)[0] == 1)
            *(follows(in, i) ? &going_on : &not_going_on) += 1;
        going_on_parted += follows(in, i) && !goes_on(in, i);
    }
}

/* The list and stored block of a choice (clauses 3.4 to 3.8), into the areas of the laws; how many records. */
static size_t list_of_choice(const struct input *in, const uint8_t *choice, size_t *stored)
{
    size_t entries = 0, offset = 0;
    *stored = 0;
    for (size_t i = 0; i < records(in); i++) {
        const uint32_t size = size_at(in, i);
        const int joins = i > 0 && choice[i] == choice[i - 1] && (choice[i] || goes_on(in, i));
        uint8_t *out = record(law_list, joins ? entries - 1 : entries);
        if (joins) {
            put32(out + 4, get32(out + 4) + size);
        } else {
            memcpy(out, record(in->list, i), RECORD_BYTES);
            entries++;
        }
        if (choice[i]) {
            out[0] = 0;
            put32(out + 8, 0);
            memcpy(law_block + *stored, in->version + offset, size);
            *stored += size;
        }
        offset += size;
    }
    return entries;
}

/* The written list and block are the ones that the choice makes, which was written too or, by commit, read. */
static void law_of_choice(int call, const struct input *in)
{
    const uint8_t *choice = call == COMMIT ? in->handed : area(CHOICE, LIBRARY);
    for (size_t i = 0; i < records(in); i++)
        if (choice[i] > 1 || (record(in->list, i)[0] == 0 && choice[i] != 1) || (is_held(in, i) && choice[i] != 0))
            differ(call, "a choice byte that no choice for this list has", in);
    size_t stored;
    const size_t entries = list_of_choice(in, choice, &stored);
    if (given[call].entries != entries || given[call].stored != stored)
        differ(call, "entries or stored bytes are not the choice's", in);
    if (memcmp(area(LIST, LIBRARY), law_list, RECORD_BYTES * entries) != 0)
        differ(call, "the written list is not the choice's", in);
    if (memcmp(area(BLOCK, LIBRARY), law_block, stored) != 0)
        differ(call, "the stored block is not the choice's", in);
}

/* The written list measures as the answer says. */
static void law_of_measure(int call, const struct input *in)
{
    uint8_t answer[ANSWER_BYTES];
    const struct given *g = &given[call];
    const uint32_t number = measure(in->en, in->em, in->f, area(LIST, LIBRARY), RECORD_BYTES * g->entries, answer, sizeof answer);
    const struct given m = read_answer(answer);
    if (number != ACCEPTED || m.entries != g->entries || m.stored != g->stored || m.cost != g->cost ||
        m.whole != in->version_len)
        differ(call, "the written list does not measure as answered", in);
}

/* The written list, its stored block and the store rebuild the version. */
static void law_of_rebuild(int call, const struct input *in)
{
    uint8_t answer[ANSWER_BYTES];
    const struct given *g = &given[call];
    const uint32_t number = rebuild(area(LIST, LIBRARY), RECORD_BYTES * g->entries, area(BLOCK, LIBRARY), g->stored,
                                    in->store, in->store_len, law_whole, in->version_len, answer, sizeof answer);
    if (number != ACCEPTED || read_answer(answer).whole != in->version_len)
        differ(call, "the written list does not rebuild", in);
    if (memcmp(law_whole, in->version, in->version_len) != 0)
        differ(call, "the written list rebuilds another version", in);
}

/* Byte by byte of the version: what was held is held, and drawn from where it was, and nothing else is held. */
static void law_of_held(int call, const struct input *in)
{
    const uint8_t *a = in->list, *b = area(LIST, LIBRARY);
    uint32_t into_a = 0, into_b = 0, part;
    for (size_t left = in->version_len; left > 0; left -= part) {
        const uint32_t rest_a = get32(a + 4) - into_a, rest_b = get32(b + 4) - into_b;
        part = rest_a < rest_b ? rest_a : rest_b;
        if (a[1] != b[1])
            differ(call, a[1] ? "a held stretch is not held in the written list" : "a stretch is held that was not", in);
        if (a[1] && (b[0] != 1 || get32(a + 8) + into_a != get32(b + 8) + into_b))
            differ(call, "a held stretch is not drawn from where it was", in);
        into_a = part < rest_a ? into_a + part : 0;
        into_b = part < rest_b ? into_b + part : 0;
        a += into_a == 0 ? RECORD_BYTES : 0;
        b += into_b == 0 ? RECORD_BYTES : 0;
    }
}

/* Tidies a sound loose list into other bytes; how many records were written. */
static uint32_t tidy_into(uint8_t *to, const uint8_t *list, size_t list_len, const struct input *in)
{
    uint8_t answer[ANSWER_BYTES];
    if (tidy(list, list_len, in->store, in->store_len, to, list_len, answer, sizeof answer) != ACCEPTED)
        differ(TIDY, "a sound list is not tidied", in);
    return answer_entries(answer);
}

/* The written list is the tidy form of a list, which may be itself. */
static void law_of_tidied(int call, const struct input *in, const uint8_t *list, size_t list_len, const char *what)
{
    const uint32_t entries = tidy_into(law_tidy, list, list_len, in);
    if (entries != given[call].entries || memcmp(law_tidy, area(LIST, LIBRARY), RECORD_BYTES * entries) != 0)
        differ(call, what, in);
}

/* The written list comes back from tidy as it is. */
static void law_of_tidy(int call, const struct input *in)
{
    law_of_tidied(call, in, area(LIST, LIBRARY), RECORD_BYTES * given[call].entries, "the written list does not come back from tidy");
}

/* The written list comes back from a second partition as it is. */
static void law_of_second_partition(const struct input *in)
{
    uint8_t answer[ANSWER_BYTES];
    const struct given *g = &given[PARTITION];
    uint8_t *list = area(LIST, LIBRARY);
    const size_t list_len = RECORD_BYTES * g->entries;
    const uint32_t number = partition(in->en, in->em, in->f, list, list_len, in->version, in->version_len, in->store,
                                      in->store_len, law_choice, g->entries, law_list, list_len, law_block, in->version_len,
                                      answer, sizeof answer);
    const struct given again = read_answer(answer);
    if (number != ACCEPTED)
        differ(PARTITION, "the second partition refused", in);
    if (again.entries != g->entries || again.stored != g->stored || again.cost != g->cost)
        differ(PARTITION, "the second partition answers otherwise", in);
    if (memcmp(law_list, list, list_len) != 0 || memcmp(law_block, area(BLOCK, LIBRARY), g->stored) != 0)
        differ(PARTITION, "the second partition writes otherwise", in);
    for (size_t i = 0; i < g->entries; i++)
        if (law_choice[i] != (record(list, i)[0] == 0))
            differ(PARTITION, "the second partition chooses otherwise", in);
}

/* Keeps what partition answered and wrote. */
static void keep_partition(const struct input *in)
{
    memcpy(kept_choice, area(CHOICE, LIBRARY), records(in));
    memcpy(kept_list, area(LIST, LIBRARY), RECORD_BYTES * given[PARTITION].entries);
    memcpy(kept_block, area(BLOCK, LIBRARY), given[PARTITION].stored);
}

/* Where partition had its areas, the estimate's answer is partition's, refused or not, and its choice too; where partition had not, the estimate asks
 * for the choice area alone. */
static void law_of_estimate(const struct input *in)
{
    const struct given *p = &given[PARTITION], *e = &given[ESTIMATE];
    const int by_choice = in->answer_len < ANSWER_BYTES || in->choice_len < records(in);
    if ((p->number != AREA_TOO_SHORT || e->number == AREA_TOO_SHORT) && !same_answers(p, e))
        differ(ESTIMATE, "the estimate answers otherwise than partition", in);
    if (p->number == AREA_TOO_SHORT && (e->number == AREA_TOO_SHORT) != by_choice)
        differ(ESTIMATE, "the estimate asks for another area than that for the choice", in);
    if (p->number == ACCEPTED && memcmp(area(CHOICE, LIBRARY), kept_choice, records(in)) != 0)
        differ(ESTIMATE, "the estimate chooses otherwise than partition", in);
}

/* The cost of choice c, record 0 in its highest bit; UINT64_MAX where it keeps a new record, or stores a held one, which may be allowed. */
static uint64_t cost_of_bits(const struct input *in, uint32_t c, int held_may_go)
{
    const size_t n = records(in);
    uint64_t cost = 0;
    uint32_t last = 0;
    for (size_t i = 0; i < n; i++) {
        const uint32_t bit = c >> (n - 1 - i) & 1;
        if (bit ? !held_may_go && is_held(in, i) : record(in->list, i)[0] == 0)
            return UINT64_MAX;
        const uint64_t new_entry = last ? 0 : new_cost(in), match = !last && goes_on(in, i) ? 0 : match_cost(in);
        cost += bit ? new_entry + UINT64_C(256) * size_at(in, i) : match;
        last = bit;
    }
    return cost;
}

/* Whether a choice that stores a held match would cost less. */
static int is_bound(const struct input *in, uint64_t least)
{
    for (uint32_t c = 0; c < 1u << records(in); c++)
        if (cost_of_bits(in, c, 1) < least)
            return 1;
    return 0;
}

/* All choices that keep the held matches, the one with 0 at the first difference first: the first of those that cost least is the least choice. */
static void law_of_least(const struct input *in)
{
    const size_t n = records(in);
    const uint8_t *choice = area(CHOICE, LIBRARY);
    uint64_t least = UINT64_MAX;
    uint32_t first = 0, equals = 0;
    for (uint32_t c = 0; c < 1u << n; c++) {
        const uint64_t cost = cost_of_bits(in, c, 0);
        equals = cost < least ? 0 : equals + (cost == least);
        first = cost < least ? c : first;
        least = cost < least ? cost : least;
    }
    ties += equals > 0;
    bound += one_in(8) && is_bound(in, least);
    if (least != given[PARTITION].cost)
        differ(PARTITION, "the cost is not the least of all choices", in);
    for (size_t i = 0; i < n; i++)
        if (choice[i] != (first >> (n - 1 - i) & 1))
            differ(PARTITION, "the choice is not the least of all choices", in);
}

/* A match that is not held and joins no new record, as none stands beside it, is stored exactly where its entry and bytes then cost less; so never
 * where it goes on from the match before it, or the next goes on from it, as it takes no entry then. */
static void law_of_lone_matches(const struct input *in)
{
    const size_t n = records(in);
    const uint8_t *choice = area(CHOICE, LIBRARY);
    for (size_t i = 0; i < n; i++) {
        if (record(in->list, i)[0] == 0 || is_held(in, i) || (i > 0 && choice[i - 1]) || (i + 1 < n && choice[i + 1]))
            continue;
        const int in_run = goes_on(in, i) || (i + 1 < n && goes_on(in, i + 1));
        const int cheaper = !in_run && new_cost(in) + UINT64_C(256) * size_at(in, i) < match_cost(in);
        if (choice[i] != cheaper)
            differ(PARTITION, cheaper ? "a lone match is kept that should be stored" : "a lone match is stored that should be kept", in);
        lone_stored += choice[i] == 1;
        lone_kept += choice[i] == 0;
    }
}

/* A list with its stored block. */
struct listed {
    const uint8_t *list;
    size_t list_len;
    const uint8_t *block;
    size_t block_len;
};

/* What compare says of two lists. */
enum { NO, YES, REFUSED };

static struct given compare_over(const uint8_t *store, struct listed a, struct listed b, const struct input *in)
{
    uint8_t answer[ANSWER_BYTES];
    const uint32_t number = compare(a.list, a.list_len, b.list, b.list_len, a.block, a.block_len, b.block, b.block_len, store,
                                    in->store_len, answer, sizeof answer);
    const struct given g = read_answer(answer);
    if (g.number != number || !same_answers(&g, &(struct given){ .number = number, .place = g.place, .entries = g.entries }))
        differ(COMPARE, "returned another number than it answered, or answered more than yes or no", in);
    return g;
}

static uint32_t says(struct listed a, struct listed b, const struct input *in)
{
    const struct given g = compare_over(in->store, a, b, in);
    return g.number == ACCEPTED ? g.entries : REFUSED;
}

/* What check says of a list, as far as compare asks it: 11 is no fault. */
static struct given check_of(struct listed a, const struct input *in)
{
    uint8_t answer[ANSWER_BYTES];
    check(a.list, a.list_len, a.block, a.block_len, in->store, in->store_len, 0, answer, sizeof answer);
    const struct given g = read_answer(answer);
    return g.number == NO_SUCH_RECORD ? (struct given){ 0 } : g;
}

static struct listed first_of(const struct input *in)
{
    return (struct listed){ in->list, in->list_len, in->block, in->block_len };
}

static struct listed second_of(const struct input *in)
{
    return (struct listed){ in->second, in->second_len, in->second_block, in->second_block_len };
}

/* What tidy writes of a list, with the list's stored block; no records where it refuses. */
static struct listed tidied_of(struct listed a, uint8_t *to, const struct input *in)
{
    uint8_t answer[ANSWER_BYTES];
    const int accepted = tidy(a.list, a.list_len, in->store, in->store_len, to, a.list_len, answer, sizeof answer) == ACCEPTED;
    return (struct listed){ to, accepted ? RECORD_BYTES * (size_t)answer_entries(answer) : 0, a.block, a.block_len };
}

/* The refusal is check's of the first list, else check's of the second. A list that is refused is refused beside itself, and beside what tidy writes
 * of it. Over a store that is as long and cannot be read the answer is the same. */
static void law_of_judging(const struct input *in)
{
    const struct listed a = first_of(in), b = second_of(in), tidied = tidied_of(a, law_tidy, in);
    const struct given of_first = check_of(a, in), of_second = check_of(b, in);
    const struct given *g = &given[COMPARE], *fault = of_first.number != ACCEPTED ? &of_first : &of_second;
    current_call = COMPARE;
    if (g->number != fault->number || g->place != fault->place)
        differ(COMPARE, "refused otherwise than by check of the first list, then of the second", in);
    const struct given itself = compare_over(in->store, a, a, in), tidy_form = compare_over(in->store, a, tidied, in);
    if (of_first.number != ACCEPTED && (!same_answers(&itself, &of_first) || !same_answers(&tidy_form, &of_first)))
        differ(COMPARE, "a list is refused otherwise beside itself, or beside what tidy wrote of it", in);
    if (of_first.number == ACCEPTED && (itself.entries != YES || tidy_form.number != ACCEPTED || tidy_form.entries != YES))
        differ(COMPARE, "no yes of a list and itself, or of a list and what tidy wrote of it", in);
    const struct given unread = compare_over(unreadable, a, b, in);
    if (!same_answers(&unread, g))
        differ(COMPARE, "another answer over a store that cannot be read", in);
}

/* Rebuilds the version of a list; its length. */
static uint32_t rebuild_into(uint8_t *version, struct listed a, const struct input *in)
{
    uint8_t answer[ANSWER_BYTES];
    if (rebuild(a.list, a.list_len, a.block, a.block_len, in->store, in->store_len, version, VERSION_MOST, answer, sizeof answer) != ACCEPTED)
        differ(COMPARE, "a list is compared that does not rebuild", in);
    return answer_whole(answer);
}

/* Where each byte comes from: 0 where it is new, else twice its address, its mark, and 2. */
static uint64_t origins[3][ROOM];

/* The origins by a sound list; how many bytes it covers, or one more than there is room for. */
static size_t write_origins(uint64_t *to, const uint8_t *list, size_t list_len)
{
    size_t whole = 0;
    for (const uint8_t *r = list; r < list + list_len; r += RECORD_BYTES) {
        const uint32_t size = get32(r + 4);
        if (size > ROOM - whole)
            return ROOM + 1;
        const uint64_t first = 2 * (uint64_t)get32(r + 8) + r[1] + 2;
        for (uint32_t i = 0; i < size; i++)
            to[whole + i] = r[0] == 0 ? 0 : first + 2 * (uint64_t)i;
        whole += size;
    }
    return whole;
}

/* How two stretches of equal length, each under one record, so many bytes into it, come from different places; if they do. */
enum { AS_NEW, BY_ADDRESS, BY_MARK, WAYS, SAME = WAYS, BY_LENGTH };

static int other_origin(const uint8_t *a, uint32_t into_a, const uint8_t *b, uint32_t into_b)
{
    if (a[0] != b[0])
        return AS_NEW;
    if (a[0] == 1 && (uint64_t)get32(a + 8) + into_a != (uint64_t)get32(b + 8) + into_b)
        return BY_ADDRESS;
    return a[1] != b[1] ? BY_MARK : SAME;
}

/* Stretch by stretch of the version: the first way in which two sound lists have other origins; or that one of them ends before the other. */
static int first_other_origin(const uint8_t *a, size_t a_len, const uint8_t *b, size_t b_len)
{
    const uint8_t *const end_a = a + a_len, *const end_b = b + b_len;
    uint32_t into_a = 0, into_b = 0;
    while (a < end_a && b < end_b) {
        const uint32_t rest_a = get32(a + 4) - into_a, rest_b = get32(b + 4) - into_b, part = rest_a < rest_b ? rest_a : rest_b;
        const int way = other_origin(a, into_a, b, into_b);
        if (way != SAME)
            return way;
        into_a = part < rest_a ? into_a + part : 0;
        into_b = part < rest_b ? into_b + part : 0;
        a += into_a == 0 ? RECORD_BYTES : 0;
        b += into_b == 0 ? RECORD_BYTES : 0;
    }
    return a == end_a && b == end_b ? SAME : BY_LENGTH;
}

/* The same byte by byte, where the version is short: whether the origins are the same. */
static void origins_agree(struct listed a, struct listed b, int same, const struct input *in)
{
    const size_t n = write_origins(origins[0], a.list, a.list_len), m = write_origins(origins[1], b.list, b.list_len);
    if (n <= ROOM && same != (n == m && memcmp(origins[0], origins[1], n * sizeof **origins) == 0))
        differ(COMPARE, "byte by byte the origins are others than stretch by stretch: the test is at fault", in);
}

/* Pairs of which neither list is refused: one and the same list with one block; different lists, cut differently, that agree in bytes and origins;
 * such as agree in bytes, by the first way in which their origins differ; and such as do not: in the blocks alone, as one ends, with the
 * same origins so far, before the other, and else. */
static uint64_t one_list, cut_otherwise, same_bytes[WAYS], other_blocks, ended_first, other_bytes;

static void tally_pair(struct listed a, struct listed b, int bytes_agree, int way)
{
    const int one = a.list_len == b.list_len && memcmp(a.list, b.list, a.list_len) == 0;
    if (bytes_agree)
        *(way == SAME ? (one ? &one_list : &cut_otherwise) : &same_bytes[way]) += 1;
    else
        *(way == SAME ? &other_blocks : way == BY_LENGTH ? &ended_first : &other_bytes) += 1;
}

/* Yes exactly where both lists rebuild the same bytes and each byte has the same origin in both; and exactly where tidy writes the same list of both,
 * and their stored blocks are the same. In either order. */
static void law_of_compare(const struct input *in)
{
    const struct listed a = first_of(in), b = second_of(in);
    const uint32_t n = rebuild_into(law_whole, a, in), m = rebuild_into(law_second_whole, b, in);
    const int bytes_agree = n == m && memcmp(law_whole, law_second_whole, n) == 0, way = first_other_origin(a.list, a.list_len, b.list, b.list_len);
    const uint32_t same = bytes_agree && way == SAME ? YES : NO;
    origins_agree(a, b, way == SAME, in);
    if (given[COMPARE].entries != same)
        differ(COMPARE, same ? "no of lists with the same bytes from the same places"
                        : bytes_agree ? "yes of lists with the same bytes from other places" : "yes of lists that rebuild different bytes", in);
    if (says(b, a, in) != same)
        differ(COMPARE, "another answer in the other order", in);
    const struct listed form = tidied_of(a, law_list, in), second_form = tidied_of(b, law_second, in);
    const int one_form = form.list_len == second_form.list_len && memcmp(form.list, second_form.list, form.list_len) == 0;
    const int one_block = a.block_len == b.block_len && memcmp(a.block, b.block, a.block_len) == 0;
    if (same != (one_form && one_block ? YES : NO))
        differ(COMPARE, same ? "yes where tidy forms or stored blocks differ" : "no where tidy forms and stored blocks are the same", in);
    tally_pair(a, b, bytes_agree, way);
}

/* Takes the marks off a list, into other bytes: 1 in byte 1 of a match becomes 0, and all else stays, sound or not. How many there were. */
static size_t take_marks(const uint8_t *list, size_t list_len, uint8_t *to)
{
    size_t taken = 0;
    memcpy(to, list, list_len);
    for (uint8_t *r = to; r + RECORD_BYTES <= to + list_len; r += RECORD_BYTES)
        if (r[0] == 1 && r[1] == 1) {
            r[1] = 0;
            taken++;
        }
    return taken;
}

/* The same inputs without the marks of the list; whether it had some. */
static int without_marks(const struct input *in, struct input *unmarked)
{
    *unmarked = *in;
    unmarked->list = bare_bytes;
    return take_marks(in->list, in->list_len, bare_bytes) > 0;
}

/* The calls on lists without their marks, by whether they were refused. */
static uint64_t unmarked_calls[CALLS][2];

/* A call that gives the marks no meaning has done what it does without them, to the last byte of every area; it was made just before. */
static void law_of_marks(int call, const struct input *in, const struct input *unmarked)
{
    for (int a = 0; a < AREAS; a++)
        if (lent[call] >> a & 1)
            memcpy(areas[a].bytes[LIBRARY], areas[a].bytes[UNTOUCHED], areas[a].len + 2 * GUARD);
    const uint32_t number = run(call, LIBRARY, unmarked);
    if (number != given[call].number)
        differ(call, "another number without the marks", in);
    for (int a = 0; a < AREAS; a++)
        if (lent[call] >> a & 1 && memcmp(areas[a].bytes[LIBRARY], areas[a].bytes[REFERENCE], areas[a].len + 2 * GUARD) != 0)
            differ(call, "another answer without the marks", in);
    unmarked_calls[call][number != ACCEPTED]++;
}

/* Check_loose is check without 5, the stored block and k: it finds the same fault, or none. Where check finds 5, it may find one behind that record,
 * or at it. */
static void law_of_check_loose(const struct input *in)
{
    const struct given *c = &given[CHECK], *l = &given[CHECK_LOOSE];
    const int sound = c->number == ACCEPTED || c->number == BAD_BLOCK_LENGTH || c->number == NO_SUCH_RECORD;
    if (l->number == ADJACENT_NEW_RECORDS || l->number == BAD_BLOCK_LENGTH || l->number == NO_SUCH_RECORD)
        differ(CHECK_LOOSE, "a fault that a loose list cannot have", in);
    if (!same_answers(l, &(struct given){ .number = l->number, .place = l->place }))
        differ(CHECK_LOOSE, "gives more than number and place", in);
    if (c->number == ADJACENT_NEW_RECORDS ? l->number != ACCEPTED && l->place < c->place
                                          : l->number != (sound ? ACCEPTED : c->number) || l->place != (sound ? 0 : c->place))
        differ(CHECK_LOOSE, "says otherwise than check", in);
}

/* To compare the mark is part of where a byte comes from: it says no of a list and itself without its marks. */
static void law_of_compare_without_marks(const struct input *in, const struct input *unmarked)
{
    const struct listed marked = first_of(in), bare = first_of(unmarked);
    if (says(marked, bare, in) != NO || says(bare, marked, in) != NO)
        differ(COMPARE, "yes, or a refusal, of a list and itself without its marks", in);
}

/* The list handed in with its runs joined, into the areas of the laws; how many records. */
static size_t join_runs(const struct input *in, size_t *stored)
{
    for (size_t i = 0; i < records(in); i++)
        law_choice[i] = record(in->list, i)[0] == 0;
    return list_of_choice(in, law_choice, stored);
}

/* What compare said of a list and the written one, by the call that wrote it. */
static uint64_t of_written[CALLS][2];

/* Compare says yes of the list handed in, with its stored block, and the written one, where the choice has 0 for each match; else no. */
static void law_of_given_up(int call, const struct input *in)
{
    const uint8_t *choice = call == COMMIT ? in->handed : area(CHOICE, LIBRARY);
    uint32_t same = YES;
    size_t stored;
    join_runs(in, &stored);
    for (size_t i = 0; i < records(in); i++)
        if (record(in->list, i)[0] == 1 && choice[i] == 1)
            same = NO;
    const struct listed handed = { in->list, in->list_len, law_block, stored };
    const struct listed written = { area(LIST, LIBRARY), RECORD_BYTES * given[call].entries, area(BLOCK, LIBRARY), given[call].stored };
    if (says(handed, written, in) != same)
        differ(call, same ? "compare says no of a list and the written one, which keeps each match"
                          : "compare says yes of a list and the written one, which gives a match up", in);
    of_written[call][same]++;
}

/* The pass costs no less than partition's list, no more than the list handed in and no more than that with its runs joined, and makes at most
 * 2n - 1 looks for the n records after joining. */
static void law_of_pass(const struct input *in)
{
    uint8_t answer[ANSWER_BYTES];
    size_t stored;
    const size_t n = join_runs(in, &stored);
    const struct given *g = &given[PASS];
    if (g->cost < given[PARTITION].cost)
        differ(PASS, "the pass costs less than partition", in);
    if (g->cost > given[MEASURE].cost)
        differ(PASS, "the pass costs more than the list handed in", in);
    if (measure(in->en, in->em, in->f, law_list, RECORD_BYTES * n, answer, sizeof answer) != ACCEPTED || g->cost > answer_cost(answer))
        differ(PASS, "the pass costs more than the list with its runs joined", in);
    if (n == 0 ? g->looks != 0 : g->looks > 2 * n - 1)
        differ(PASS, "too many looks", in);
    dearer_passes += g->cost > given[PARTITION].cost;
}

/* ---- Choices to commit: the estimate's, others of the list, and what is none ---- */

enum { LEAST, ANY, ALL_KEPT, ALL_STORED, SHORTENED, LENGTHENED, BYTE_OVER, NEW_KEPT, HELD_STORED, KINDS };
static const char *const kind_name[KINDS] = {
    "as estimated", "any", "all kept", "all stored", "too short", "too long", "a byte over 1", "a new record kept", "a held match stored",
};

/* Of the choices handed to commit, by their kind: those that it came to judge, and those of which another fault was found first. */
static uint64_t judged[KINDS], not_judged[KINDS];

/* A kind of choice, and the record at which it was spoilt first, 0 for its length. */
struct handing {
    int kind;
    size_t place;
};

/* A byte that record i may have in a choice of this kind, if it is sound. */
static uint8_t byte_for(const struct input *in, size_t i, int kind)
{
    const uint8_t *r = record(in->list, i);
    if (r[0] == 0 || r[1] == 1)
        return r[0] == 0;
    return kind == ALL_KEPT ? 0 : kind == ALL_STORED ? 1 : (uint8_t)below(2);
}

/* A new record, or a held match, looked for from anywhere on; the number of records where there is none. */
static size_t record_with(const struct input *in, int held)
{
    const size_t n = records(in), from = n == 0 ? 0 : below(n);
    for (size_t i = 0; i < n; i++) {
        const uint8_t *r = record(in->list, (from + i) % n);
        if (held ? r[0] == 1 && r[1] == 1 : r[0] == 0)
            return (from + i) % n;
    }
    return n;
}

/* Spoils one byte of a choice; where there is no new record or no held match, it gets a byte over 1. */
static struct handing spoil_byte(const struct input *in, int kind)
{
    const size_t found = kind == BYTE_OVER ? records(in) : record_with(in, kind == HELD_STORED);
    if (found < records(in)) {
        in->handed[found] = kind == HELD_STORED;
        return (struct handing){ kind, found };
    }
    const size_t place = below(records(in));
    in->handed[place] = (uint8_t)(one_in(2) ? 2 : 2 + below(254));
    return (struct handing){ BYTE_OVER, place };
}

/* The length becomes a byte too short or too long, or more than that; half of these choices have a wrong byte too. */
static struct handing spoil_length(struct input *in, int kind)
{
    const size_t n = records(in);
    if (n > 0 && one_in(2))
        spoil_byte(in, BYTE_OVER + (int)below(3));
    if (kind == SHORTENED && n > 0) {
        in->handed_len = one_in(2) ? n - 1 : below(n);
        return (struct handing){ SHORTENED, 0 };
    }
    in->handed_len = n + 1 + (one_in(2) ? 0 : below(48));
    for (size_t i = n; i < in->handed_len; i++)
        in->handed[i] = (uint8_t)below(2);
    return (struct handing){ LENGTHENED, 0 };
}

/* Half of the cases get the estimate's choice; where it gave none, any. A wrong byte is, in one case of four, the first of two that are wrong. */
static struct handing draw_choice(struct input *in)
{
    const int kind = one_in(2) ? LEAST : 1 + (int)below(KINDS - 1), estimated = given[ESTIMATE].number == ACCEPTED;
    in->handed = handed_bytes;
    in->handed_len = records(in);
    for (size_t i = 0; i < records(in); i++)
        in->handed[i] = kind == LEAST && estimated ? area(CHOICE, LIBRARY)[i] : byte_for(in, i, kind);
    if (kind == SHORTENED || kind == LENGTHENED || (kind > LENGTHENED && records(in) == 0))
        return spoil_length(in, kind);
    if (kind < SHORTENED)
        return (struct handing){ kind == LEAST && !estimated ? ANY : kind, 0 };
    struct handing first = spoil_byte(in, kind);
    if (one_in(4)) {
        const struct handing other = spoil_byte(in, BYTE_OVER + (int)below(3));
        first = other.place < first.place ? other : first;
    }
    return first;
}

/* With every match kept, the written list is the one handed in, each longest run of it one record with the first's fields. */
static void law_of_kept(const struct input *in)
{
    const uint8_t *written = area(LIST, LIBRARY);
    size_t entries = 0;
    for (size_t i = 0; i < records(in); entries++) {
        const uint8_t *r = record(in->list, i), *w = written + RECORD_BYTES * entries;
        uint32_t size = size_at(in, i++);
        while (i < records(in) && goes_on(in, i))
            size += size_at(in, i++);
        if (entries == given[COMMIT].entries || memcmp(w, r, 4) != 0 || memcmp(w + 8, r + 8, 4) != 0 || get32(w + 4) != size)
            differ(COMMIT, "with every match kept, not the list handed in with its runs joined", in);
    }
    if (entries != given[COMMIT].entries || given[COMMIT].cost > given[MEASURE].cost)
        differ(COMMIT, "with every match kept, more entries or a greater cost than the list handed in", in);
}

/* The estimate's choice, committed, gives what partition gave. */
static void law_of_split(const struct input *in)
{
    const struct given *p = &given[PARTITION];
    if (!same_answers(p, &given[COMMIT]))
        differ(COMMIT, "the estimate's choice is committed with another answer than partition's", in);
    if (memcmp(area(LIST, LIBRARY), kept_list, RECORD_BYTES * p->entries) != 0 || memcmp(area(BLOCK, LIBRARY), kept_block, p->stored) != 0)
        differ(COMMIT, "the estimate's choice is committed with another list or block than partition's", in);
}

static uint64_t dearer_commits, as_dear_commits;

/* What was written of a choice. */
static void laws_of_commit(const struct input *in, struct handing handing)
{
    law_of_choice(COMMIT, in);
    law_of_measure(COMMIT, in);
    law_of_rebuild(COMMIT, in);
    law_of_held(COMMIT, in);
    law_of_tidy(COMMIT, in);
    law_of_given_up(COMMIT, in);
    if (handing.kind == ALL_KEPT) {
        law_of_kept(in);
        law_of_tidied(COMMIT, in, in->list, in->list_len, "with every match kept, not what tidy writes of the list handed in");
    }
    if (given[ESTIMATE].number != ACCEPTED)
        return;
    if (handing.kind == LEAST)
        law_of_split(in);
    if (given[COMMIT].cost < given[ESTIMATE].cost)
        differ(COMMIT, "a commitment costs less than the estimate", in);
    dearer_commits += given[COMMIT].cost > given[ESTIMATE].cost;
    as_dear_commits += handing.kind != LEAST && given[COMMIT].cost == given[ESTIMATE].cost;
}

/* What partition refuses is refused so, but for 9 by its area for the choice. Where that is the fault, or none is, the choice decides. */
static void try_commit(const struct input *inputs)
{
    struct input in = *inputs;
    const struct handing handing = draw_choice(&in);
    const struct given *p = &given[PARTITION], *c = &given[COMMIT];
    const int accepted = try_call(COMMIT, &in), written = in.list_area_len >= in.list_len && in.block_area_len >= in.version_len;
    if (p->number != ACCEPTED && (p->number != AREA_TOO_SHORT || c->number == AREA_TOO_SHORT) && !same_answers(p, c))
        differ(COMMIT, "refused otherwise than partition", &in);
    if (p->number == AREA_TOO_SHORT && (c->number == AREA_TOO_SHORT) == (in.answer_len >= ANSWER_BYTES && written))
        differ(COMMIT, "a commitment asks for other areas than those for list and stored block", &in);
    if (p->number == ACCEPTED && (c->number != (handing.kind < SHORTENED ? ACCEPTED : BAD_CHOICE) || c->place != handing.place))
        differ(COMMIT, "a choice is judged otherwise than by its length and bytes", &in);
    (accepted || c->number == BAD_CHOICE ? judged : not_judged)[handing.kind]++;
    if (accepted)
        laws_of_commit(&in, handing);
}

/* ---- One case ---- */

/* Compares all calls on one input; the laws follow the call they speak of, while its areas stand. */
static void try_input(const struct input *in)
{
    struct input unmarked;
    const int marks_taken = one_in(3) && without_marks(in, &unmarked);
    case_count++;
    for (int call = MEASURE; call <= CHECK_LOOSE; call++) {
        try_call(call, in);
        if (marks_taken && call != COMPARE)
            law_of_marks(call, in, &unmarked);
    }
    law_of_check_loose(in);
    try_call(POOL, in);
    if (in->answer_len >= ANSWER_BYTES)
        law_of_judging(in);
    if (given[COMPARE].number == ACCEPTED) {
        law_of_compare(in);
        if (marks_taken)
            law_of_compare_without_marks(in, &unmarked);
    }
    const int accepted = try_call(PARTITION, in);
    if (accepted) {
        tally_price(in);
        tally_matches(in);
        law_of_choice(PARTITION, in);
        law_of_measure(PARTITION, in);
        law_of_rebuild(PARTITION, in);
        law_of_held(PARTITION, in);
        law_of_tidy(PARTITION, in);
        law_of_second_partition(in);
        law_of_given_up(PARTITION, in);
        law_of_lone_matches(in);
        if (records(in) <= BRUTE_RECORDS)
            law_of_least(in);
        keep_partition(in);
    }
    try_call(ESTIMATE, in);
    law_of_estimate(in);
    try_commit(in);
    if (try_call(PASS, in) != accepted)
        differ(PASS, "accepted or refused otherwise than partition", in);
    if (accepted) {
        law_of_choice(PASS, in);
        law_of_measure(PASS, in);
        law_of_rebuild(PASS, in);
        law_of_held(PASS, in);
        law_of_tidy(PASS, in);
        law_of_given_up(PASS, in);
        law_of_pass(in);
    }
}

/* ---- Valid inputs ---- */

/* A random input of this shape. */
struct shape {
    size_t records;     /* at most 1 where the store is empty, since a match needs a store */
    uint32_t size_most; /* longest record */
    size_t store_len;
    uint32_t letters;   /* bytes are below this */
    uint32_t new_of_8;  /* chance of a new record, in eighths */
};

static void fill_letters(uint8_t *bytes, size_t len, uint32_t letters)
{
    for (size_t i = 0; i < len; i++)
        bytes[i] = (uint8_t)('A' + below(letters));
}

/* An input with an empty list and a store that is filled later. A third of the lists gets no marks, a third marks on a third of the matches, the
 * others on two thirds. */
static struct input empty_input(size_t store_len)
{
    struct input in = { .held_of_3 = below(3) };
    in.list = list_bytes;
    in.version = version_bytes;
    in.store = store_bytes;
    in.block = block_bytes;
    in.second = second_bytes;
    in.second_block = second_block_bytes;
    in.handed = handed_bytes;
    in.store_len = store_len;
    return in;
}

/* Appends a new record, its bytes random letters. */
static void append_new(struct input *in, uint32_t size, uint32_t letters)
{
    uint8_t *r = list_bytes + in->list_len;
    memset(r, 0, RECORD_BYTES);
    put32(r + 4, size);
    if (size <= ROOM)
        fill_letters(version_bytes + in->version_len, size, letters);
    else
        fill(version_bytes + in->version_len, size);
    memcpy(block_bytes + in->block_len, version_bytes + in->version_len, size);
    in->list_len += RECORD_BYTES;
    in->version_len += size;
    in->block_len += size;
}

/* Appends a match of the store's bytes, held or not by chance. */
static void append_match(struct input *in, uint32_t size, uint32_t address)
{
    uint8_t *r = list_bytes + in->list_len;
    memset(r, 0, RECORD_BYTES);
    r[0] = 1;
    r[1] = below(3) < in->held_of_3;
    put32(r + 4, size);
    put32(r + 8, address);
    memcpy(version_bytes + in->version_len, in->store + address, size);
    in->list_len += RECORD_BYTES;
    in->version_len += size;
}

/* An address for a match of so many bytes: mostly where the match before it ended, now and then a byte before or after that; else anywhere. About
 * half of all neighbouring matches go on in the store then, as many cannot. */
static uint32_t draw_address(const struct input *in, uint32_t size)
{
    const uint8_t *last = in->list_len == 0 ? NULL : list_bytes + in->list_len - RECORD_BYTES;
    const size_t most = in->store_len - size;
    if (last != NULL && last[0] == 1 && !one_in(4)) {
        const size_t end = (size_t)get32(last + 8) + get32(last + 4), near = one_in(8) ? end - 1 + below(3) : end;
        if (near <= most)
            return (uint32_t)near;
    }
    return one_in(4) ? (uint32_t)most : below(most + 1);
}

/* A few bytes more than needed, or none. */
static size_t extra(void)
{
    return one_in(2) ? 0 : below(48);
}

/* A size around those at which a merge or a lone match is worth it, in disk bytes, and their parts, cut to 1 and most. */
static uint32_t draw_size(const struct input *in, uint32_t most)
{
    const uint64_t match = match_cost(in), fresh = new_cost(in);
    const uint64_t one = match / 256, two = (match + fresh) / 256;
    const uint64_t pair = fresh < 2 * match ? (2 * match - fresh) / 256 : 1, lone = fresh < match ? (match - fresh) / 256 : 1;
    const uint64_t near[8] = { one, two, two, lone, pair / 2, pair / 3, 1, below(two + 3) };
    const int64_t size = (int64_t)near[below(8)] + (int64_t)below(3) - 1;
    if (size < 1)
        return 1;
    return size > most ? 1 + below(most) : (uint32_t)size;
}

/* Appends records of this shape. */
static void append_records(struct input *in, const struct shape *shape)
{
    int last_new = 0;
    for (size_t i = 0; i < shape->records; i++) {
        const uint32_t size = draw_size(in, shape->size_most);
        const int fits = size <= in->store_len;
        if (!last_new && (!fits || below(8) < shape->new_of_8)) {
            append_new(in, size, shape->letters);
            last_new = 1;
        } else if (in->store_len > 0) {
            const uint32_t part = fits ? size : 1 + below(in->store_len);
            append_match(in, part, draw_address(in, part));
            last_new = 0;
        }
    }
}

/* The index bytes of an entry. */
static uint32_t draw_entry(int big)
{
    return big ? 255 : one_in(3) ? 1 : 1 + below(12);
}

/* A price: mostly small, so that few bytes cost as much as an entry; a third have EN = EM; F is whole disk bytes, any number of 256ths up to
 * 3 of them, or an edge. */
static void draw_price(struct input *in)
{
    const int big = one_in(16);
    const uint32_t small[8] = { 255, 256, 257, 256 * (1 + below(3)), 256 * (1 + below(3)), 1 + below(768), 1 + below(768), 1 };
    in->em = draw_entry(big);
    in->en = one_in(3) ? in->em : draw_entry(big && one_in(2));
    in->f = big || one_in(16) ? (one_in(2) ? 65535 : 1 + below(65535)) : small[below(8)];
}

/* ---- Second lists: the same origins, cut anew; the same bytes with other places of the store, other kinds and other marks; other bytes ---- */

/* Appends so many bytes of the version, from `offset` on, as new; right after a new record they go with that. */
static void append_second_new(struct input *in, size_t size, size_t offset)
{
    uint8_t *r = in->second + in->second_len;
    if (in->second_len > 0 && r[-RECORD_BYTES] == 0) {
        r -= RECORD_BYTES;
    } else {
        memset(r, 0, RECORD_BYTES);
        in->second_len += RECORD_BYTES;
    }
    put32(r + 4, get32(r + 4) + (uint32_t)size);
    memcpy(in->second_block + in->second_block_len, in->version + offset, size);
    in->second_block_len += size;
}

static void append_second_match(struct input *in, size_t size, size_t address, int held)
{
    uint8_t *r = in->second + in->second_len;
    memset(r, 0, RECORD_BYTES);
    r[0] = 1;
    r[1] = (uint8_t)held;
    put32(r + 4, (uint32_t)size);
    put32(r + 8, (uint32_t)address);
    in->second_len += RECORD_BYTES;
}

/* Where a short store has the version's byte at `offset`, looked for from anywhere on; its length where it has not. */
static size_t somewhere(const struct input *in, size_t offset)
{
    if (in->store_len == 0 || in->store_len > ROOM)
        return in->store_len;
    const size_t from = below(in->store_len);
    for (size_t i = 0; i < in->store_len; i++) {
        const size_t at = (from + i) % in->store_len;
        if (in->store[at] == in->version[offset])
            return at;
    }
    return in->store_len;
}

/* How many bytes, up to most, the version has from `offset` on as the store has from an address on. */
static size_t alike(const struct input *in, size_t offset, size_t address, size_t most)
{
    size_t n = 0;
    while (n < most && address + n < in->store_len && in->store[address + n] == in->version[offset + n])
        n++;
    return n;
}

/* Each byte from where it comes by the first list: its runs, joined, are cut anew, into as many pieces as there is room for. */
static void cut_second(struct input *in)
{
    const size_t n = records(in);
    size_t spare = n < RECORDS_MOST ? RECORDS_MOST - n : 0, offset = 0, i = 0;
    in->second_len = in->second_block_len = 0;
    while (i < n) {
        const uint8_t *r = record(in->list, i);
        uint32_t left = size_at(in, i++), address = get32(r + 8), part;
        if (r[0] == 0) {
            append_second_new(in, left, offset);
            offset += left;
            continue;
        }
        for (; i < n && goes_on(in, i); spare++)
            left += size_at(in, i++);
        for (; left > 0; left -= part, address += part, offset += part) {
            part = left == 1 || spare == 0 || one_in(4) ? left : one_in(4) ? 1 : one_in(3) ? left - 1 : 1 + below(left - 1);
            spare -= part < left;
            append_second_match(in, part, address, r[1]);
        }
    }
}

/* Gives a match of the second list to the stored bytes of the version; new records that come to stand side by side are fused. */
static void give_up(struct input *in, size_t at)
{
    const size_t len = in->second_len;
    size_t offset = 0;
    in->second_len = in->second_block_len = 0;
    for (size_t i = 0; RECORD_BYTES * i < len; i++) {
        uint8_t r[RECORD_BYTES];
        memcpy(r, record(in->second, i), RECORD_BYTES);
        if (r[0] == 0 || i == at)
            append_second_new(in, get32(r + 4), offset);
        else
            append_second_match(in, get32(r + 4), get32(r + 8), r[1]);
        offset += get32(r + 4);
    }
}

/* Another address from which a short store has the bytes of a match, looked for from anywhere on; its own where there is none. */
static uint32_t another_address(const struct input *in, const uint8_t *r)
{
    const uint32_t size = get32(r + 4), own = get32(r + 8);
    if (in->store_len > ROOM || size > in->store_len || own > in->store_len - size)
        return own;
    const size_t places = in->store_len - size + 1, from = below(places);
    for (size_t i = 0; i < places; i++) {
        const size_t at = (from + i) % places;
        if (at != own && memcmp(in->store + at, in->store + own, size) == 0)
            return (uint32_t)at;
    }
    return own;
}

/* A match of the second list, often the first or the last; the number of records where there is none. */
static size_t second_match(const struct input *in)
{
    const size_t n = in->second_len / RECORD_BYTES, from = n == 0 ? 0 : one_in(3) ? 0 : one_in(2) ? n - 1 : below(n);
    for (size_t i = 0; i < n; i++)
        if (record(in->second, (from + i) % n)[0] == 1)
            return (from + i) % n;
    return n;
}

/* One match of the second list gets the other mark, or is drawn from elsewhere, or is stored. The version stays. */
static void alter_origin(struct input *in)
{
    const size_t at = second_match(in);
    if (RECORD_BYTES * at == in->second_len)
        return;
    uint8_t *r = record(in->second, at);
    const uint32_t way = below(3), address = way == 1 ? another_address(in, r) : get32(r + 8);
    if (way == 2)
        give_up(in, at);
    else if (address != get32(r + 8))
        put32(r + 8, address);
    else
        r[1] ^= 1;
}

/* At each offset a match, by the first list's one there or anywhere in the store, else new; the last record that fits takes the rest. */
static void draw_second(struct input *in)
{
    const size_t whole = in->version_len, mean = whole / 2000 < 6 ? 6 : whole / 2000;
    size_t i = 0, begin = 0, size;
    in->second_len = in->second_block_len = 0;
    for (size_t offset = 0; offset < whole; offset += size) {
        while (i < records(in) && begin + size_at(in, i) <= offset)
            begin += size_at(in, i++);
        const int drawn = i < records(in) && record(in->list, i)[0] == 1;
        const size_t here = drawn ? get32(record(in->list, i) + 8) + offset - begin : in->store_len;
        const size_t address = one_in(2) ? here : somewhere(in, offset);
        const size_t most = 1 + below(2 * mean), left = whole - offset;
        const int last = in->second_len + 2 * RECORD_BYTES > RECORD_BYTES * RECORDS_MOST;
        const size_t same = last || one_in(4) ? 0 : alike(in, offset, address, most < left ? most : left);
        size = last ? left : same > 0 ? same : most < left ? most : left;
        if (same > 0)
            append_second_match(in, size, address, one_in(3));
        else
            append_second_new(in, size, offset);
    }
}

/* The last record of the second list loses a byte, or goes. */
static void shorten_second(struct input *in)
{
    uint8_t *r = in->second + in->second_len - RECORD_BYTES;
    const uint32_t size = get32(r + 4), taken = size > 1 && one_in(2) ? 1 : size;
    if (r[0] == 0)
        in->second_block_len -= taken;
    if (taken == size)
        in->second_len -= RECORD_BYTES;
    else
        put32(r + 4, size - taken);
}

/* Leaves the second list sound, but of another version, or mostly so: a stored byte, often the last; another place of the store; a byte or a
 * record less, or a byte more, so that one is a prefix of the other. */
static void alter_second(struct input *in)
{
    const uint32_t way = below(4);
    uint8_t *r = in->second_len == 0 ? NULL : record(in->second, one_in(2) ? in->second_len / RECORD_BYTES - 1 : below(in->second_len / RECORD_BYTES));
    if (way == 0 && in->second_block_len > 0)
        in->second_block[one_in(2) ? in->second_block_len - 1 : below(in->second_block_len)] ^= (uint8_t)(1u << below(8));
    else if (way == 1 && r != NULL && r[0] == 1)
        put32(r + 8, below(in->store_len - get32(r + 4) + 1));
    else if (way == 2 && r != NULL)
        shorten_second(in);
    else
        append_second_new(in, 1, in->version_len);
}

/* The second list: cut anew; the same but for the origin of one match, if there is one; or drawn afresh. In one case of ten it is altered then, as
 * damage makes other versions too. */
static void make_second(struct input *in)
{
    const uint32_t way = below(20);
    if (way < 11) {
        cut_second(in);
    } else if (way < 15) {
        cut_second(in);
        alter_origin(in);
    } else {
        draw_second(in);
    }
    if (one_in(10))
        alter_second(in);
}

/* A whole list gets what goes with it: lengths of areas that are long enough, a k, and a second list. */
static void complete(struct input *in)
{
    in->choice_len = records(in) + extra();
    in->list_area_len = in->list_len + extra();
    in->block_area_len = in->version_len + extra();
    in->area_len = in->version_len + extra();
    in->answer_len = ANSWER_BYTES + extra();
    in->k = records(in) == 0 ? 0 : below(records(in));
    make_second(in);
}

static struct input draw_input(const struct shape *shape)
{
    struct input in = empty_input(shape->store_len);
    fill_letters(in.store, in.store_len, shape->letters);
    draw_price(&in);
    append_records(&in, shape);
    complete(&in);
    return in;
}

/* ---- Damage: each breaks one field or length, or sets it to the edge ---- */

static uint8_t *some_record(struct input *in)
{
    return record(in->list, below(records(in)));
}

/* One of EN and EM. */
static void damage_price_e(struct input *in)
{
    const uint32_t wrong[] = { 0, 256, 65536, UINT32_MAX, 255, 1 };
    *(one_in(2) ? &in->en : &in->em) = wrong[below(6)];
}

static void damage_price_f(struct input *in)
{
    const uint32_t wrong[] = { 0, 65536, 65537, UINT32_MAX, 65535, 1 };
    in->f = wrong[below(6)];
}

static void damage_kind(struct input *in)
{
    uint8_t *r = some_record(in);
    r[0] = one_in(2) ? r[0] ^ 1 : one_in(2) ? 2 : (uint8_t)below(256);
}

static uint64_t flipped;

/* Byte 1: a mark on a new record, 2 or more on either, or the other mark of a match, which is no damage. */
static void damage_mark(struct input *in)
{
    uint8_t *r = some_record(in);
    if (one_in(2)) {
        r[1] ^= 1;
        flipped += r[0] == 1 && r[1] <= 1;
    } else {
        r[1] = (uint8_t)(one_in(2) ? 2 : 2 + below(254));
    }
}

static void damage_zero_bytes(struct input *in)
{
    some_record(in)[1 + below(3)] = (uint8_t)(1u << below(8));
}

static void damage_size_little(struct input *in)
{
    uint8_t *r = some_record(in);
    put32(r + 4, get32(r + 4) + below(3) - 1);
}

static void damage_size_wild(struct input *in)
{
    const uint32_t wild[] = { 0, UINT32_MAX, VERSION_MOST, VERSION_MOST + 1, UINT32_C(1) << 31, below(1000) };
    put32(some_record(in) + 4, wild[below(6)]);
}

/* The sizes up to a record reach 16,777,216, or pass it by 1. */
static void damage_size_to_limit(struct input *in)
{
    const size_t at = below(records(in));
    uint32_t sum = 0;
    for (size_t i = 0; i < at; i++)
        sum += size_at(in, i);
    put32(record(in->list, at) + 4, VERSION_MOST - sum + below(2));
}

/* Two sizes trade a byte, so that the whole length stays. */
static void damage_boundary(struct input *in)
{
    const size_t at = below(records(in));
    if (at == 0)
        return;
    put32(record(in->list, at) + 4, size_at(in, at) - 1);
    put32(record(in->list, at - 1) + 4, size_at(in, at - 1) + 1);
}

static void damage_address_little(struct input *in)
{
    uint8_t *r = some_record(in);
    put32(r + 8, get32(r + 8) + below(3) - 1);
}

static void damage_address_wild(struct input *in)
{
    uint8_t *r = some_record(in);
    const uint32_t end = (uint32_t)in->store_len - get32(r + 4);
    const uint32_t wild[] = { 0, UINT32_MAX, end, end + 1, (uint32_t)in->store_len, UINT32_C(0) - get32(r + 4) };
    put32(r + 8, wild[below(6)]);
}

/* A match becomes a whole new record, often beside a new one. */
static void damage_to_new(struct input *in)
{
    uint8_t *r = some_record(in);
    r[0] = r[1] = 0;
    put32(r + 8, 0);
}

static void damage_list_bit(struct input *in)
{
    in->list[below(in->list_len)] ^= (uint8_t)(1u << below(8));
}

static void damage_order(struct input *in)
{
    uint8_t kept[RECORD_BYTES], *a = some_record(in), *b = some_record(in);
    memcpy(kept, a, RECORD_BYTES);
    memmove(a, b, RECORD_BYTES);
    memcpy(b, kept, RECORD_BYTES);
}

/* Any length near: a record or some bytes cut off, or what lies behind the list. */
static void damage_list_len(struct input *in)
{
    if (one_in(2) && in->list_len >= RECORD_BYTES)
        in->list_len -= one_in(2) ? RECORD_BYTES : 1 + below(RECORD_BYTES);
    else
        in->list_len += one_in(2) ? RECORD_BYTES : 1 + below(RECORD_BYTES);
}

static void damage_version_byte(struct input *in)
{
    if (in->version_len > 0 && in->version != zeros)
        in->version[below(in->version_len)] ^= (uint8_t)(1u << below(8));
}

static void damage_store_byte(struct input *in)
{
    if (in->store_len > 0 && in->store != zeros)
        in->store[below(in->store_len)] ^= (uint8_t)(1u << below(8));
}

static void damage_version_len(struct input *in)
{
    if (one_in(4)) {
        in->version = zeros;
        in->version_len = VERSION_MOST + below(2);
    } else {
        in->version_len = one_in(2) ? in->version_len + 1 : below(in->version_len + 1);
    }
}

static void damage_store_len(struct input *in)
{
    if (one_in(4)) {
        in->store = zeros;
        in->store_len = STORE_MOST + below(2);
    } else {
        in->store_len = one_in(2) && in->store_len > 0 ? in->store_len - 1 : below(in->store_len + 1);
    }
}

static void damage_block_len(struct input *in)
{
    in->block_len = one_in(2) ? in->block_len + 1 : below(in->block_len + 1);
}

/* One area to write becomes a byte too short, or much too short. */
static void damage_area(struct input *in)
{
    size_t *const lens[] = { &in->choice_len, &in->list_area_len, &in->block_area_len, &in->area_len };
    const size_t needed[] = { records(in), in->list_len, in->version_len, in->version_len };
    const uint32_t which = below(4);
    const size_t most = needed[which] < NOISE ? needed[which] : NOISE;
    if (most > 0)
        *lens[which] = one_in(2) ? most - 1 : below(most);
}

static void damage_answer(struct input *in)
{
    in->answer_len = one_in(2) ? ANSWER_BYTES - 1 : below(ANSWER_BYTES);
}

static void damage_k(struct input *in)
{
    const uint32_t n = (uint32_t)records(in);
    const uint32_t wild[] = { n, n + 1, n - 1, UINT32_MAX, 0 };
    in->k = wild[below(5)];
}

typedef void damage(struct input *in);

/* The first 12 need no record. */
static damage *const damages[] = {
    damage_price_e, damage_price_f, damage_list_len, damage_version_byte, damage_store_byte, damage_version_len,
    damage_store_len, damage_block_len, damage_area, damage_area, damage_answer, damage_k,
    damage_kind, damage_mark, damage_zero_bytes, damage_size_little, damage_size_wild, damage_size_to_limit, damage_boundary,
    damage_address_little, damage_address_wild, damage_to_new, damage_to_new, damage_list_bit, damage_order,
};
enum { DAMAGES = sizeof damages / sizeof damages[0], DAMAGES_WITHOUT_RECORD = 12 };

static void damage_once(struct input *in)
{
    damages[below(records(in) == 0 ? DAMAGES_WITHOUT_RECORD : DAMAGES)](in);
}

/* Breaks the second list or the length of its stored block in the same ways; what else is broken there is left out. */
static void damage_second(struct input *in)
{
    struct input seen = *in;
    seen.list = in->second;
    seen.list_len = in->second_len;
    seen.block_len = in->second_block_len;
    damage_once(&seen);
    in->second_len = seen.list_len;
    in->second_block_len = seen.block_len;
}

/* Mostly one, else none or two; then, in one case of four, the second list. */
static void damage_some(struct input *in)
{
    const uint32_t times[] = { 0, 1, 1, 2 };
    for (uint32_t left = times[below(4)]; left > 0; left--)
        damage_once(in);
    if (one_in(4))
        damage_second(in);
}

/* ---- Loose lists: a list cut into pieces, whole or damaged ---- */

/* Of the loose lists that tidy accepted: those with new records side by side, and those with matches that go on. Of two such lists: those with the
 * same origins, and the others. Areas that were too short for a loose list and long enough for its tidy form. */
static uint64_t side_by_side, unjoined, same_origins, other_origins, short_for_loose;

/* Cuts the records of a list into pieces, as many as there is room for, into other bytes; the length of the loose list. The pieces of a match
 * go on in the store and keep its mark. */
static size_t cut_list(const uint8_t *list, size_t list_len, uint8_t *to)
{
    const size_t n = list_len / RECORD_BYTES;
    size_t spare = n < RECORDS_MOST ? RECORDS_MOST - n : 0;
    uint8_t *r = to;
    for (size_t i = 0; i < n; i++, r += RECORD_BYTES) {
        memcpy(r, list + RECORD_BYTES * i, RECORD_BYTES);
        for (; spare > 0 && get32(r + 4) > 1 && one_in(2); spare--, r += RECORD_BYTES) {
            const uint32_t size = get32(r + 4), part = one_in(3) ? 1 : 1 + below(size - 1);
            memcpy(r + RECORD_BYTES, r, RECORD_BYTES);
            put32(r + 4, part);
            put32(r + RECORD_BYTES + 4, size - part);
            if (r[0] == 1)
                put32(r + RECORD_BYTES + 8, get32(r + 8) + part);
        }
    }
    memcpy(r, list + RECORD_BYTES * n, list_len % RECORD_BYTES);
    return (size_t)(r - to) + list_len % RECORD_BYTES;
}

/* The same input with its list cut, and a list area as long as that, or too short where the input's is. */
static struct input cut_input(const struct input *in)
{
    struct input loose = *in;
    loose.list = loose_bytes;
    loose.list_len = cut_list(in->list, in->list_len, loose_bytes);
    loose.list_area_len = loose.list_len + extra();
    if (in->list_area_len < in->list_len && loose.list_len > 0)
        loose.list_area_len = one_in(2) ? loose.list_len - 1 : below(loose.list_len);
    return loose;
}

/* Breaks a record, the list's length, the store's, or that of the list area, so that the tidy form may still fit. */
static void damage_loose(struct input *in)
{
    const uint32_t way = below(8);
    if (way == 0)
        damage_list_len(in);
    else if (way == 1)
        damage_store_len(in);
    else if (way == 2 && in->list_len > 0)
        in->list_area_len = one_in(2) ? in->list_len - 1 : below(in->list_len);
    else if (way > 2 && records(in) > 0)
        damages[DAMAGES_WITHOUT_RECORD + below(DAMAGES - DAMAGES_WITHOUT_RECORD)](in);
}

/* Tidy refuses as check_loose does, but for 9, which comes right after 3 and goes by the length of the loose list. */
static void law_of_refusal(const struct input *in)
{
    const struct given *c = &given[CHECK_LOOSE], *t = &given[TIDY];
    const int too_short = in->list_area_len < in->list_len && in->answer_len >= ANSWER_BYTES && c->number != TOO_LONG && c->number != BAD_LIST_LENGTH;
    if (t->number != (too_short ? AREA_TOO_SHORT : c->number) || t->place != (too_short ? 0 : c->place))
        differ(TIDY, "refused otherwise than by check_loose and the length of the list area", in);
    short_for_loose += too_short && c->number == ACCEPTED && RECORD_BYTES * tidy_into(law_tidy, in->list, in->list_len, in) <= in->list_area_len;
}

/* Whether a record goes with one that stands before it: both are new, or it goes on from that with the same mark. */
static int goes_with(const uint8_t *b, const uint8_t *r)
{
    if (r[0] == 0 || b[0] == 0)
        return r[0] == b[0];
    return r[1] == b[1] && (uint64_t)get32(b + 8) + get32(b + 4) == get32(r + 8);
}

/* The loose list has what tidy is for; the tidy form, of which nothing but its records is answered, leaves nothing to join. */
static void law_of_neighbours(const struct input *in)
{
    const uint8_t *written = area(LIST, LIBRARY);
    int new_pairs = 0, match_pairs = 0;
    if (!same_answers(&given[TIDY], &(struct given){ .entries = given[TIDY].entries }))
        differ(TIDY, "gives more than the number of records", in);
    for (size_t i = 1; i < records(in); i++)
        *(record(in->list, i)[0] == 0 ? &new_pairs : &match_pairs) += goes_with(record(in->list, i - 1), record(in->list, i));
    side_by_side += new_pairs > 0;
    unjoined += match_pairs > 0;
    for (size_t i = 1; i < given[TIDY].entries; i++)
        if (goes_with(written + RECORD_BYTES * (i - 1), written + RECORD_BYTES * i))
            differ(TIDY, "the tidy form has neighbours that should be one", in);
}

/* Stretch by stretch of the version: new in both lists, or drawn from the same address with the same mark; and both are equally long. */
static void law_of_origins(const struct input *in)
{
    const int way = first_other_origin(in->list, in->list_len, area(LIST, LIBRARY), RECORD_BYTES * given[TIDY].entries);
    if (way == BY_LENGTH)
        differ(TIDY, "the tidy form covers more or fewer bytes than the loose list", in);
    if (way != SAME)
        differ(TIDY, "a byte has another origin in the tidy form", in);
}

/* What a loose list stands for (clauses 4.3.1 and 4.3.2), with this stored block; its length, and that of the block. */
static size_t copy_loose(const struct input *in, const uint8_t *block, uint8_t *to, size_t *stored)
{
    size_t whole = 0;
    *stored = 0;
    for (size_t i = 0; i < records(in); i++) {
        const uint8_t *r = record(in->list, i);
        const size_t size = size_at(in, i);
        memcpy(to + whole, r[0] == 1 ? in->store + get32(r + 8) : block + *stored, size);
        *stored += r[0] == 1 ? 0 : size;
        whole += size;
    }
    return whole;
}

/* Check accepts what a call wrote, with this stored block, at each record, or of many at some, and at no other. */
static void law_of_each_record(int call, struct listed a, const struct input *in)
{
    uint8_t answer[ANSWER_BYTES];
    const uint32_t n = given[call].entries, step = n < 64 ? 1 : n / 8;
    for (uint32_t k = 0; k < n; k += step)
        if (check(a.list, a.list_len, a.block, a.block_len, in->store, in->store_len, k, answer, sizeof answer) != ACCEPTED)
            differ(call, "check refuses the written list with its stored block", in);
    if (check(a.list, a.list_len, a.block, a.block_len, in->store, in->store_len, n, answer, sizeof answer) != NO_SUCH_RECORD)
        differ(call, "the written list has not the records that were answered", in);
}

/* With the loose list's stored block, check accepts the tidy form, and it rebuilds what the loose list stands for. */
static void law_of_block(const struct input *in)
{
    size_t stored;
    const size_t whole = copy_loose(in, block_bytes, law_whole, &stored);
    const struct listed form = { area(LIST, LIBRARY), RECORD_BYTES * given[TIDY].entries, block_bytes, stored };
    law_of_each_record(TIDY, form, in);
    if (rebuild_into(law_second_whole, form, in) != whole || memcmp(law_second_whole, law_whole, whole) != 0)
        differ(TIDY, "the tidy form rebuilds something else than the loose list stands for", in);
}

/* One field of a list, or its last record, becomes another; it may then not be sound. */
static void alter_list(struct input *in)
{
    uint8_t *r = some_record(in), *last = record(in->list, records(in) - 1);
    switch (below(7)) {
    case 0:
        r[1] ^= r[0];
        break;
    case 1:
        put32(r + 8, get32(r + 8) + (r[0] == 0 ? 0 : one_in(2) ? 1 : UINT32_MAX));
        break;
    case 2:
        damage_to_new(in);
        break;
    case 3:
        r[0] = 1;
        put32(r + 8, below(in->store_len + 1));
        break;
    case 4:
        damage_boundary(in);
        break;
    case 5:
        put32(last + 4, get32(last + 4) + (one_in(2) ? 1 : UINT32_MAX));
        break;
    default:
        damage_order(in);
    }
}

/* A second loose list, which is the first cut anew, and in two cases of three altered before; where it is sound, its tidy form is that of the first
 * exactly where each byte has the same origin. Only of short versions. */
static void law_of_pairs(const struct input *in)
{
    uint8_t answer[ANSWER_BYTES];
    struct input other = *in;
    const size_t whole = write_origins(origins[0], in->list, in->list_len);
    if (whole > ROOM || records(in) == 0)
        return;
    memcpy(law_list, in->list, in->list_len);
    other.list = law_list;
    if (!one_in(3))
        alter_list(&other);
    other.list = other_loose_bytes;
    other.list_len = cut_list(law_list, in->list_len, other_loose_bytes);
    if (check_loose(other.list, other.list_len, in->store, in->store_len, answer, sizeof answer) != ACCEPTED)
        return;
    const uint32_t entries = tidy_into(law_tidy, other.list, other.list_len, in);
    const int same = write_origins(origins[1], other.list, other.list_len) == whole && memcmp(origins[0], origins[1], whole * sizeof **origins) == 0;
    const int one_form = entries == given[TIDY].entries && memcmp(law_tidy, area(LIST, LIBRARY), RECORD_BYTES * entries) == 0;
    if (same != one_form)
        differ(TIDY, same ? "lists with the same origins have different tidy forms" : "lists with different origins have the same tidy form", in);
    *(same ? &same_origins : &other_origins) += 1;
}

/* Cuts the list of an input that was tried before; the pieces of a sound list are sound, and have the tidy form of that list. */
static void try_loose(const struct input *in)
{
    struct input loose = cut_input(in);
    const int whole = !one_in(4), was_sound = given[CHECK_LOOSE].number == ACCEPTED;
    if (!whole)
        damage_loose(&loose);
    try_call(CHECK_LOOSE, &loose);
    if (whole && (given[CHECK_LOOSE].number == ACCEPTED) != was_sound)
        differ(CHECK_LOOSE, "a list is sound and its pieces are not, or they are and it is not", &loose);
    const int accepted = try_call(TIDY, &loose);
    law_of_refusal(&loose);
    if (!accepted)
        return;
    law_of_neighbours(&loose);
    law_of_origins(&loose);
    law_of_tidy(TIDY, &loose);
    if (whole)
        law_of_tidied(TIDY, &loose, in->list, in->list_len, "a list and its pieces have different tidy forms");
    law_of_block(&loose);
    law_of_pairs(&loose);
}

/* ---- Pools: two lists of a version, each cut into pieces and some of them drawn otherwise; whole or damaged ---- */

/* What a pair of sound lists may have: a byte that only the first draws, or only the second; one that both draw, but otherwise; the rest of a match of the
 * second, behind a part that the first covers, or before it; a record of the pooled list with bytes of both; parts of both that only the mark keeps
 * from being one; over 4,096 stretches, but not so many records. And an area shorter than both lists, but long enough; or longer than both, but too
 * short. */
enum { BY_FIRST, BY_SECOND, OTHERWISE, REST_BEHIND, REST_BEFORE, OF_BOTH, PARTED, STRETCHES, SHORT_BUT_ENOUGH, LONG_BUT_SHORT, FINDINGS };
static const char *const finding_name[FINDINGS] = {
    "drawn by the first alone", "by the second alone", "by both, otherwise", "a rest behind a match of the first", "a rest before one", "a record of both",
    "parted by the mark", "over 4,096 stretches", "in an area shorter than both lists", "too long for an area longer than both",
};
static uint64_t sound_pairs, findings[FINDINGS];

/* A list as it is read: the record begun, and how many of its bytes were read. */
struct reader {
    const uint8_t *record;
    uint32_t into;
};

static uint32_t rest_of(const struct reader *r)
{
    return get32(r->record + 4) - r->into;
}

static void read_on(struct reader *r, uint32_t part)
{
    r->into += part;
    if (rest_of(r) == 0) {
        r->record += RECORD_BYTES;
        r->into = 0;
    }
}

static uint32_t lesser(uint32_t a, uint32_t b)
{
    return a < b ? a : b;
}

/* A stretch of the version that neither list cuts, as a record of the pooled list, and whether the first list draws it. */
struct stretch {
    uint8_t as[RECORD_BYTES];
    int of_first;
};

static struct stretch stretch_at(const struct reader *a, const struct reader *b, uint32_t size)
{
    const struct reader *from = a->record[0] == 1 ? a : b;
    struct stretch s = { .of_first = from == a };
    memcpy(s.as, from->record, RECORD_BYTES);
    put32(s.as + 4, size);
    if (s.as[0] == 1)
        put32(s.as + 8, get32(from->record + 8) + from->into);
    return s;
}

/* The stretches of a pair, the records of the pooled list, and what else is found. */
struct found {
    size_t stretches, records;
    int has[FINDINGS];
};

/* Adds a stretch, where both lists were read so far, behind the one before it. */
static void add_stretch(struct found *found, const struct stretch *before, const struct stretch *here, const struct reader *a, const struct reader *b)
{
    const int drawn = here->as[0] == 1, drawn_by_second = b->record[0] == 1, inner = found->stretches++ > 0;
    const int along = inner && goes_with(before->as, here->as), turned = inner && before->of_first != here->of_first;
    struct stretch marked = *here;
    marked.as[1] = before->as[1];
    found->records += !along;
    found->has[BY_FIRST] |= here->of_first && !drawn_by_second;
    found->has[BY_SECOND] |= !here->of_first && drawn;
    found->has[OTHERWISE] |= here->of_first && drawn_by_second && other_origin(a->record, a->into, b->record, b->into) != SAME;
    found->has[REST_BEHIND] |= turned && !here->of_first && drawn && b->into > 0;
    found->has[REST_BEFORE] |= turned && here->of_first && drawn_by_second && b->into > 0;
    found->has[OF_BOTH] |= turned && along;
    found->has[PARTED] |= turned && !along && goes_with(before->as, marked.as);
}

/* Goes through two sound lists of one version. */
static struct found look_at_pair(const struct input *in)
{
    struct found found = { 0 };
    struct reader a = { in->list, 0 }, b = { in->second, 0 };
    struct stretch before = { .of_first = 0 };
    uint32_t part;
    for (size_t left = in->version_len; left > 0; left -= part) {
        part = lesser(rest_of(&a), rest_of(&b));
        const struct stretch here = stretch_at(&a, &b, part);
        add_stretch(&found, &before, &here, &a, &b);
        before = here;
        read_on(&a, part);
        read_on(&b, part);
    }
    found.has[STRETCHES] = found.stretches > RECORDS_MOST && found.records <= RECORDS_MOST;
    return found;
}

static struct given pool_into(uint8_t *to, size_t room, struct listed a, struct listed b, const struct input *in)
{
    uint8_t answer[ANSWER_BYTES];
    const uint32_t number = pool(a.list, a.list_len, b.list, b.list_len, in->version, in->version_len, in->store, in->store_len, to, room, answer,
                                 sizeof answer);
    const struct given g = read_answer(answer);
    if (g.number != number || !same_answers(&g, &(struct given){ .number = number, .place = g.place, .entries = g.entries }))
        differ(POOL, "returned another number than it answered, or answered more than the records", in);
    return g;
}

/* The fault of a list by itself: what pool says of it twice, in the longest area. It is partition's, but for 5. */
static struct given fault_of(struct listed a, const struct input *in)
{
    uint8_t answer[ANSWER_BYTES];
    const struct given own = pool_into(law_list, areas[LIST].most, a, a, in);
    partition(1, 1, 1, a.list, a.list_len, in->version, in->version_len, in->store, in->store_len, law_choice, RECORDS_MOST, law_second, areas[LIST].most,
              law_block, VERSION_MOST, answer, sizeof answer);
    const struct given p = read_answer(answer);
    if (p.number != ADJACENT_NEW_RECORDS && (own.number != p.number || own.place != p.place))
        differ(POOL, "a list with itself is refused otherwise than by partition", in);
    return own;
}

/* The first list's fault is answered, else the second's, else 13 and 9 by the records of the pooled list. */
static void law_of_faults(const struct input *in)
{
    const struct given first = fault_of(first_of(in), in), second = fault_of(second_of(in), in), *g = &given[POOL];
    const struct given *fault = first.number != ACCEPTED ? &first : &second;
    if (fault->number != ACCEPTED) {
        if (!same_answers(g, fault))
            differ(POOL, "refused otherwise than by the fault of the first list, then of the second", in);
        return;
    }
    struct found found = look_at_pair(in);
    const size_t due = RECORD_BYTES * found.records;
    const uint32_t number = found.records > RECORDS_MOST ? TOO_MANY_RECORDS : in->list_area_len < due ? AREA_TOO_SHORT : ACCEPTED;
    if (!same_answers(g, &(struct given){ .number = number, .entries = number == ACCEPTED ? (uint32_t)found.records : 0 }))
        differ(POOL, "answers otherwise than by the records of the pooled list", in);
    found.has[SHORT_BUT_ENOUGH] = number == ACCEPTED && in->list_area_len < in->list_len && in->list_area_len < in->second_len;
    found.has[LONG_BUT_SHORT] = number == AREA_TOO_SHORT && in->list_area_len > in->list_len && in->list_area_len > in->second_len;
    for (int i = 0; i < FINDINGS; i++)
        findings[i] += found.has[i] != 0;
    sound_pairs++;
}

/* Stretch by stretch: the written list draws as the first does, else as the second; it ends with the version, and stores no more than either. */
static void law_of_pooled_origins(const struct input *in)
{
    const uint8_t *end = area(LIST, LIBRARY) + RECORD_BYTES * given[POOL].entries;
    struct reader a = { in->list, 0 }, b = { in->second, 0 }, w = { area(LIST, LIBRARY), 0 };
    uint64_t stored[3] = { 0 };
    uint32_t part;
    for (size_t left = in->version_len; left > 0; left -= part) {
        if (w.record == end)
            differ(POOL, "the pooled list covers fewer bytes than the version", in);
        part = lesser(lesser(rest_of(&a), rest_of(&b)), rest_of(&w));
        const struct reader *from = a.record[0] == 1 ? &a : &b;
        if (other_origin(from->record, from->into, w.record, w.into) != SAME)
            differ(POOL, from == &a ? "a byte is not drawn as the first list says" : "a byte is not as the second list says", in);
        stored[0] += a.record[0] == 0 ? part : 0;
        stored[1] += b.record[0] == 0 ? part : 0;
        stored[2] += w.record[0] == 0 ? part : 0;
        read_on(&a, part);
        read_on(&b, part);
        read_on(&w, part);
    }
    if (w.record != end || stored[2] > stored[0] || stored[2] > stored[1])
        differ(POOL, "the pooled list covers more bytes than the version, or stores more than one of the lists", in);
}

/* The same byte by byte, of short versions. */
static void law_of_pooled_bytes(const struct input *in)
{
    if (in->version_len > ROOM)
        return;
    write_origins(origins[0], in->list, in->list_len);
    write_origins(origins[1], in->second, in->second_len);
    if (write_origins(origins[2], area(LIST, LIBRARY), RECORD_BYTES * given[POOL].entries) != in->version_len)
        differ(POOL, "the pooled list has not the version's length", in);
    for (size_t i = 0; i < in->version_len; i++)
        if (origins[2][i] != (origins[0][i] != 0 ? origins[0][i] : origins[1][i]))
            differ(POOL, "a byte has another origin than by the first list, else by the second", in);
}

/* The version's bytes under the new records of what pool wrote, into the block of the laws; their number. */
static size_t take_stored(const struct input *in)
{
    size_t stored = 0, offset = 0;
    for (size_t i = 0; i < given[POOL].entries; i++) {
        const uint8_t *r = area(LIST, LIBRARY) + RECORD_BYTES * i;
        const uint32_t size = get32(r + 4);
        if (r[0] == 0) {
            memcpy(law_block + stored, in->version + offset, size);
            stored += size;
        }
        offset += size;
    }
    return stored;
}

/* With these bytes check accepts the written list, and it rebuilds the version; partition takes it at any price. */
static void law_of_pooled_block(const struct input *in)
{
    uint8_t answer[ANSWER_BYTES];
    struct input priced = *in;
    const size_t stored = take_stored(in), len = RECORD_BYTES * given[POOL].entries;
    const struct listed written = { area(LIST, LIBRARY), len, law_block, stored };
    law_of_each_record(POOL, written, in);
    if (rebuild_into(law_whole, written, in) != in->version_len || memcmp(law_whole, in->version, in->version_len) != 0)
        differ(POOL, "the pooled list rebuilds another version", in);
    draw_price(&priced);
    if (partition(priced.en, priced.em, priced.f, written.list, len, in->version, in->version_len, in->store, in->store_len, law_choice,
                  given[POOL].entries, law_list, len, law_block, in->version_len, answer, sizeof answer) != ACCEPTED)
        differ(POOL, "partition refuses the pooled list", in);
}

/* A list without a match: one new record, or each record of another list as a new one. */
static struct listed without_matches(struct listed a, const struct input *in)
{
    const int one = one_in(2);
    const struct listed fresh = { fresh_bytes, one && in->version_len > 0 ? RECORD_BYTES : a.list_len, NULL, 0 };
    memcpy(fresh_bytes, a.list, fresh.list_len);
    for (uint8_t *r = fresh_bytes; r < fresh_bytes + fresh.list_len; r += RECORD_BYTES) {
        r[0] = r[1] = 0;
        put32(r + 4, one ? (uint32_t)in->version_len : get32(r + 4));
        put32(r + 8, 0);
    }
    return fresh;
}

/* A sound list with itself, and with one without a match, in either order, gives its tidy form, in an area as long as that and in no shorter one. */
static void law_of_own_form(struct listed a, const struct input *in)
{
    const struct listed form = tidied_of(a, law_tidy, in), fresh = without_matches(a, in), pairs[3][2] = { { a, a }, { a, fresh }, { fresh, a } };
    for (int i = 0; i < 3; i++) {
        const struct given g = pool_into(law_list, form.list_len, pairs[i][0], pairs[i][1], in);
        if (g.number != ACCEPTED || RECORD_BYTES * g.entries != form.list_len || memcmp(law_list, form.list, form.list_len) != 0)
            differ(POOL, i == 0 ? "a list with itself does not give its tidy form" : "a list with one without a match does not give its tidy form", in);
        if (form.list_len > 0 && pool_into(law_list, form.list_len - 1, pairs[i][0], pairs[i][1], in).number != AREA_TOO_SHORT)
            differ(POOL, "a list with itself, or with one without a match, is not refused in an area shorter than its tidy form", in);
    }
}

/* A new record becomes a match, if the store has its bytes; a match becomes new, or gets the other mark, or is drawn from elsewhere. */
static void vary_record(uint8_t *r, size_t offset, const struct input *in)
{
    const uint32_t size = get32(r + 4), way = below(4);
    if (r[0] == 1 && r[1] <= 1) {
        if (way == 0)
            r[1] ^= 1;
        else
            put32(r + 8, way == 1 ? another_address(in, r) : 0);
        if (way > 1)
            r[0] = r[1] = 0;
    } else if (r[0] == 0 && size <= in->version_len && offset < in->version_len - size) {
        const size_t address = somewhere(in, offset);
        if (address < in->store_len && alike(in, offset, address, size) == size) {
            r[0] = 1;
            r[1] = (uint8_t)one_in(3);
            put32(r + 8, (uint32_t)address);
        }
    }
}

/* Varies the records of a list, none, all or some. */
static void vary_list(uint8_t *list, size_t list_len, const struct input *in)
{
    const uint32_t of_8 = below(9);
    size_t offset = 0;
    for (uint8_t *r = list; r + RECORD_BYTES <= list + list_len; r += RECORD_BYTES) {
        const uint32_t size = get32(r + 4);
        if (below(8) < of_8)
            vary_record(r, offset, in);
        offset += size;
    }
}

/* The same input with two lists of its version: the first list in pieces, and the first or the second, each varied. */
static struct input pair_of(const struct input *in)
{
    struct input both = *in;
    const int of_second = one_in(2);
    both.list = loose_bytes;
    both.list_len = cut_list(in->list, in->list_len, both.list);
    both.second = other_loose_bytes;
    both.second_len = cut_list(of_second ? in->second : in->list, of_second ? in->second_len : in->list_len, both.second);
    vary_list(both.list, both.list_len, in);
    vary_list(both.second, both.second_len, in);
    return both;
}

/* A list area by the pooled list, as the reference has it: long enough, or in one case of four too short; of any length where there is no such list. */
static size_t draw_room(const struct input *in)
{
    uint8_t answer[ANSWER_BYTES];
    const uint32_t number = ref_pool(in->list, in->list_len, in->second, in->second_len, in->version, in->version_len, in->store, in->store_len, law_list,
                                     areas[LIST].most, answer, sizeof answer);
    const size_t due = RECORD_BYTES * (size_t)answer_entries(answer);
    if (number != ACCEPTED)
        return one_in(2) ? 0 : below(areas[LIST].most + 48);
    return due > 0 && one_in(4) ? (one_in(2) ? due - 1 : below(due)) : due + extra();
}

/* Pools a pair, and holds what was written to the laws. */
static void try_pair(struct input *both)
{
    both->list_area_len = draw_room(both);
    const int accepted = try_call(POOL, both);
    if (both->answer_len >= ANSWER_BYTES)
        law_of_faults(both);
    if (!accepted)
        return;
    law_of_pooled_origins(both);
    law_of_pooled_bytes(both);
    law_of_tidy(POOL, both);
    law_of_pooled_block(both);
    law_of_own_form(first_of(both), both);
    law_of_own_form(second_of(both), both);
}

/* Breaks a record or the length of one of the lists, or the length of version or store; but no byte that the input has. */
static void damage_pair(struct input *both)
{
    struct input seen = *both;
    if (one_in(8)) {
        damage_version_len(both);
    } else if (one_in(2)) {
        damage_loose(both);
    } else {
        seen.list = both->second;
        seen.list_len = both->second_len;
        damage_loose(&seen);
        both->second_len = seen.list_len;
    }
}

/* A pair of lists of an input, in one case of three damaged. */
static void try_pool(const struct input *in)
{
    struct input both = pair_of(in);
    if (one_in(3))
        damage_pair(&both);
    try_pair(&both);
}

/* ---- Two factors: one list at both (section 8.9) ---- */

/* Two factors, the lesser first: any two; neighbours; one, twice; the edges; and one at which two lists cost the same and none less, with the factor
 * before it, or with the one behind it. */
enum { ANY_TWO, NEIGHBOURS, ONE_TWICE, EDGES, BEFORE_TIE, BEHIND_TIE, SORTS };
static const char *const sort_name[SORTS] = {
    "any two", "neighbours", "one twice", "1 and 65,535", "a tie and the one before it", "a tie and the one behind it",
};

enum { LESSER, GREATER, BOTH };

struct two {
    uint32_t f[BOTH];
    int sort;
};

/* The pairs of factors, by their sort; of them those with another list, and with one list, neighbours with another list, and such as have another list
 * that would cost as much at the lesser. Of the commitments of an estimate's choice those at the other factor, and those at its own. */
static uint64_t twos[SORTS], turned, not_turned, turned_between, ties_decided, commitments[2];

/* The index bytes and the stored bytes of a list. */
struct sums {
    uint64_t index, stored;
};

/* Those of the least list at a factor, as the reference has it. */
static struct sums sums_at(const struct input *in, uint32_t f)
{
    uint8_t answer[ANSWER_BYTES];
    ref_estimate(in->en, in->em, f, in->list, in->list_len, in->version, in->version_len, in->store, in->store_len, law_choice, RECORDS_MOST, answer,
                 sizeof answer);
    const uint64_t stored = answer_stored(answer);
    return (struct sums){ (answer_cost(answer) - DISK_BYTE * stored) / f, stored };
}

/* A factor behind which another list is least; there, where it is a tie, or a fraction behind it both cost the same. 0 where there is none. */
struct turn {
    uint32_t f;
    int is_tie;
};

/* Two lists, at first those of the least factor and of the greatest, cost the same at one factor. Where a third costs less there, it takes the place of
 * one of them. */
static struct turn find_turn(const struct input *in)
{
    struct sums a = sums_at(in, 1), b = sums_at(in, F_MOST);
    while (a.index > b.index) {
        const uint64_t bytes = DISK_BYTE * (b.stored - a.stored), index = a.index - b.index;
        const uint32_t f = (uint32_t)(bytes / index);
        const struct sums here = sums_at(in, f);
        if (here.index >= a.index || here.index <= b.index)
            return (struct turn){ f, bytes % index == 0 };
        *(one_in(2) ? &a : &b) = here;
    }
    return (struct turn){ 0, 0 };
}

/* A factor such as prices have, or any. */
static uint32_t draw_factor(const struct input *in)
{
    struct input priced = *in;
    draw_price(&priced);
    return one_in(2) ? priced.f : one_in(2) ? in->f : 1 + below(F_MOST);
}

/* Half of the cases look for a tie; where there is none, the factors are any two. Half of the neighbours are such as the list turns between, if it
 * does. */
static struct two draw_two(const struct input *in)
{
    const int sort = one_in(2) ? (int)below(BEFORE_TIE) : one_in(2) ? BEFORE_TIE : BEHIND_TIE;
    const struct turn turn = sort == NEIGHBOURS || sort >= BEFORE_TIE ? find_turn(in) : (struct turn){ 0, 0 };
    const uint32_t f = draw_factor(in), g = draw_factor(in), near = lesser(turn.f > 0 && one_in(2) ? turn.f : f, F_MOST - 1);
    if (sort == NEIGHBOURS)
        return (struct two){ { near, near + 1 }, sort };
    if (sort == ONE_TWICE)
        return (struct two){ { f, f }, sort };
    if (sort == EDGES)
        return (struct two){ { 1, F_MOST }, sort };
    if (sort == BEFORE_TIE && turn.is_tie && turn.f > 1)
        return (struct two){ { turn.f - 1, turn.f }, sort };
    if (sort == BEHIND_TIE && turn.is_tie && turn.f < F_MOST)
        return (struct two){ { turn.f, turn.f + 1 }, sort };
    return (struct two){ { lesser(f, g), f < g ? g : f }, ANY_TWO };
}

/* What a call came to at a factor: its answer, its choice, the list and the stored block that it wrote, of estimate those that its choice makes, and
 * the list's index bytes. */
struct outcome {
    uint32_t f;
    struct given answer;
    uint64_t index;
    uint8_t *choice, *list, *block;
};

static struct outcome partitions[BOTH], estimates[BOTH], commitment;

static void make_outcomes(void)
{
    struct outcome *const all[] = { &partitions[LESSER], &partitions[GREATER], &estimates[LESSER], &estimates[GREATER], &commitment };
    for (size_t i = 0; i < sizeof all / sizeof all[0]; i++) {
        all[i]->choice = room_for(RECORDS_MOST);
        all[i]->list = room_for(areas[LIST].most);
        all[i]->block = room_for(VERSION_MOST);
    }
}

/* The index bytes of a list (clause 2.3), by its records. */
static uint64_t index_bytes(const struct input *in, const uint8_t *list, size_t entries)
{
    uint64_t bytes = 0;
    for (size_t i = 0; i < entries; i++)
        bytes += list[RECORD_BYTES * i] == KIND_NEW ? in->en : in->em;
    return bytes;
}

/* Takes what the library's last call came to; a call that is not accepted at one factor, as it is at another, is at fault. */
static void take_outcome(struct outcome *to, int call, const struct input *in)
{
    const uint8_t *choice = call == COMMIT ? in->handed : area(CHOICE, LIBRARY), *list = area(LIST, LIBRARY), *block = area(BLOCK, LIBRARY);
    size_t entries = given[call].entries, stored = given[call].stored;
    if (given[call].number != ACCEPTED)
        differ(call, "refused at another factor", in);
    if (call == ESTIMATE) {
        entries = list_of_choice(in, choice, &stored);
        list = law_list, block = law_block;
    }
    if (entries != given[call].entries || stored != given[call].stored)
        differ(call, "entries or stored bytes are not those of the list that the choice makes", in);
    to->f = in->f;
    to->answer = given[call];
    to->index = index_bytes(in, list, entries);
    memcpy(to->choice, choice, records(in));
    memcpy(to->list, list, RECORD_BYTES * entries);
    memcpy(to->block, block, stored);
}

/* Ends the test at the first difference between two factors. */
static _Noreturn void differ_between(int call, const char *what, const struct outcome *a, const struct outcome *b, const struct input *in)
{
    char both[160];
    snprintf(both, sizeof both, "%s, at F %" PRIu32 " and %" PRIu32, what, a->f, b->f);
    differ(call, both, in);
}

static int same_list(const struct outcome *a, const struct outcome *b)
{
    return a->answer.entries == b->answer.entries && memcmp(a->list, b->list, RECORD_BYTES * a->answer.entries) == 0;
}

static int same_block(const struct outcome *a, const struct outcome *b)
{
    return a->answer.stored == b->answer.stored && memcmp(a->block, b->block, a->answer.stored) == 0;
}

/* What a list costs at a factor (clause 2.5), by the records that were written. */
static uint64_t cost_at(uint32_t f, const struct outcome *a)
{
    return f * a->index + DISK_BYTE * (uint64_t)a->answer.stored;
}

/* The greater factor's list has no more index bytes and no fewer stored bytes, and neither changes without the other. */
static void law_of_dearer_index(int call, const struct outcome *a, const struct outcome *b, const struct input *in)
{
    if (b->index > a->index)
        differ_between(call, "more index bytes", a, b, in);
    if (b->answer.stored < a->answer.stored)
        differ_between(call, "fewer stored bytes", a, b, in);
    if ((b->index == a->index) != (b->answer.stored == a->answer.stored))
        differ_between(call, "other index bytes with as many stored bytes, or as many with other", a, b, in);
}

/* Each answer's cost is what its records and stored bytes cost, at the greater factor no less. Another list costs no less: that of the greater factor
 * at the lesser, where it may cost as much, and that of the lesser at the greater, where it costs more. */
static void law_of_two_costs(int call, const struct outcome *a, const struct outcome *b, const struct input *in)
{
    if (a->answer.cost != cost_at(a->f, a) || b->answer.cost != cost_at(b->f, b))
        differ_between(call, "another cost than that of the records and the stored bytes", a, b, in);
    if (b->answer.cost < a->answer.cost)
        differ_between(call, "a lesser cost", a, b, in);
    if (cost_at(a->f, b) < a->answer.cost || cost_at(b->f, a) < b->answer.cost)
        differ_between(call, "a cost above that of the other factor's list", a, b, in);
    if (!same_list(a, b) && cost_at(b->f, a) == b->answer.cost)
        differ_between(call, "another list at the greater factor, where that of the lesser costs as much", a, b, in);
}

/* A match that is given up at the lesser factor is given up at the greater; at one factor twice all is the same. */
static void law_of_two_choices(int call, const struct outcome *a, const struct outcome *b, const struct input *in)
{
    for (size_t i = 0; i < records(in); i++)
        if (a->choice[i] > b->choice[i])
            differ_between(call, "a match given up, and then kept", a, b, in);
    const int one_choice = memcmp(a->choice, b->choice, records(in)) == 0;
    if (a->f == b->f && !(one_choice && same_answers(&a->answer, &b->answer) && same_list(a, b) && same_block(a, b)))
        differ_between(call, "another answer, choice, list or stored block", a, b, in);
}

static void laws_of_two(int call, const struct outcome *a, const struct outcome *b, const struct input *in)
{
    law_of_dearer_index(call, a, b, in);
    law_of_two_costs(call, a, b, in);
    law_of_two_choices(call, a, b, in);
}

/* The choice of one of the estimates, committed at its factor or at the other: the list that this estimate came to, at its cost there, which is no less
 * than that of the estimate there. So beside the other estimate it has no more index bytes, or no fewer. */
static void try_commitment(const struct input *in, int of, int at)
{
    struct input here = *in;
    const struct outcome *own = &estimates[of];
    here.f = estimates[at].f;
    here.handed_len = records(in);
    memcpy(here.handed, own->choice, here.handed_len);
    try_call(COMMIT, &here);
    take_outcome(&commitment, COMMIT, &here);
    if (commitment.index != own->index || !same_list(&commitment, own) || !same_block(&commitment, own))
        differ_between(COMMIT, "another list than the one that the estimate came to", own, &commitment, &here);
    if (commitment.answer.cost != cost_at(here.f, own) || commitment.answer.cost < estimates[at].answer.cost)
        differ_between(COMMIT, "another cost than that of the estimate's list, or a cost below the estimate's", own, &commitment, &here);
    law_of_dearer_index(COMMIT, of == LESSER ? &commitment : &estimates[LESSER], of == LESSER ? &estimates[GREATER] : &commitment, &here);
    commitments[of == at]++;
}

static void tally_two(const struct two *two)
{
    const struct outcome *a = &partitions[LESSER], *b = &partitions[GREATER];
    const int turns = !same_list(a, b);
    twos[two->sort]++;
    *(turns ? &turned : &not_turned) += 1;
    turned_between += turns && b->f - a->f == 1;
    ties_decided += turns && cost_at(a->f, b) == a->answer.cost;
}

/* Partition and estimate of a list that partition accepts, at two factors, and a commitment of each estimate's choice. */
static void try_factors(const struct input *in)
{
    const struct two two = draw_two(in);
    struct input here = *in;
    for (int i = LESSER; i < BOTH; i++) {
        here.f = two.f[i];
        try_call(PARTITION, &here);
        take_outcome(&partitions[i], PARTITION, &here);
        keep_partition(&here);
        try_call(ESTIMATE, &here);
        law_of_estimate(&here);
        take_outcome(&estimates[i], ESTIMATE, &here);
    }
    laws_of_two(PARTITION, &partitions[LESSER], &partitions[GREATER], &here);
    laws_of_two(ESTIMATE, &estimates[LESSER], &estimates[GREATER], &here);
    try_commitment(in, LESSER, (int)below(BOTH));
    try_commitment(in, GREATER, (int)below(BOTH));
    tally_two(&two);
}

/* ---- The cases ---- */

/* One input for all calls; in one case of four its list in pieces, and in one of four a pair to pool; half of the lists that partition accepts
 * are tried at two factors. */
static void try_case(const struct input *in)
{
    try_input(in);
    if (given[PARTITION].number == ACCEPTED && one_in(2))
        try_factors(in);
    if (one_in(4))
        try_loose(in);
    if (one_in(4))
        try_pool(in);
}

/* Goes on from a list to all lists that begin with it and have up to so many records more, with sizes up to a match and a new
 * entry's cost and a disk byte. */
static void every_list(const struct input *in, size_t more, int last_new)
{
    struct input next = *in;
    complete(&next);
    try_case(&next);
    for (uint32_t size = 1; more > 0 && size <= (in->en + in->em) * in->f / 256 + 1; size++) {
        next = *in;
        append_match(&next, size, draw_address(in, size));
        every_list(&next, more - 1, 0);
        if (last_new)
            continue;
        next = *in;
        append_new(&next, size, 2);
        every_list(&next, more - 1, 1);
    }
}

/* Every short list where an entry costs 1, 2 and 3 disk bytes, and where it costs a 256th of one, a 256th less or more than one, one and a
 * half, and two and a half; then where a new entry is cheaper or dearer than a match. */
static void short_lists(void)
{
    const struct { uint32_t en, em, f; size_t most; } prices[] = {
        { 1, 1, 256, 6 }, { 2, 2, 256, 5 }, { 3, 3, 256, 4 }, { 1, 1, 1, 6 }, { 1, 1, 255, 6 }, { 1, 1, 257, 6 }, { 1, 1, 384, 5 }, { 5, 5, 128, 4 },
        { 1, 2, 256, 5 }, { 1, 4, 256, 4 }, { 1, 3, 129, 5 }, { 2, 1, 256, 5 }, { 4, 1, 256, 4 }, { 3, 2, 127, 5 },
    };
    case_kind = "short lists";
    for (size_t i = 0; i < sizeof prices / sizeof prices[0]; i++) {
        struct input in = empty_input(12);
        in.held_of_3 = 1;
        fill_letters(in.store, in.store_len, 2);
        in.en = prices[i].en;
        in.em = prices[i].em;
        in.f = prices[i].f;
        every_list(&in, prices[i].most, 0);
    }
}

static void small_cases(void)
{
    case_kind = "small";
    for (int i = 0; i < SMALL_CASES; i++) {
        const struct shape shape = { below(13), 1 + below(48), below(80), 1 + below(3), below(6) };
        struct input in = draw_input(&shape);
        damage_some(&in);
        try_case(&in);
    }
}

/* The longest match of these cases, and the bytes of a word. */
enum { LONGEST = 136, WORD = 8 };

/* The matches that differ in one byte, by their places within a word in version and store; and the stored stretches, by those in the two blocks. */
static uint64_t differed[WORD][WORD], differed_stored[WORD][WORD];

/* A match after up to 7 new bytes, and as many new bytes behind it. Where one byte of the match differs, partition, estimate, commit and pass give 8 at
 * its place; where none does, they accept it, commit by its choice. Of the list and itself, cut anew, compare says no where the same one of the last
 * new bytes differs in the second stored block, else yes. */
static void try_stretch(uint32_t size, uint32_t differs)
{
    const uint32_t fresh = below(WORD), letters = 1 + below(256), number = differs < size ? MISMATCH : ACCEPTED;
    struct input in = empty_input(size + below(2 * WORD));
    const uint32_t address = below(in.store_len - size + 1), place = differs < size && fresh > 0;
    fill_letters(in.store, in.store_len, letters);
    draw_price(&in);
    if (fresh > 0)
        append_new(&in, fresh, letters);
    if (size > 0) {
        append_match(&in, size, address);
        append_new(&in, size, letters);
    }
    in.second_block = second_block_bytes + below(WORD);
    complete(&in);
    cut_second(&in);
    if (differs < size) {
        in.version[fresh + differs] ^= (uint8_t)(1u << below(8));
        in.second_block[fresh + differs] ^= (uint8_t)(1u << below(8));
    }
    try_case(&in);
    for (int call = PARTITION; call <= PASS; call++)
        if ((call != COMMIT || number == MISMATCH) && (given[call].number != number || given[call].place != place))
            differ(call, "a match is judged otherwise than by its bytes", &in);
    if (given[COMPARE].number != ACCEPTED || given[COMPARE].entries != (number == ACCEPTED ? YES : NO))
        differ(COMPARE, "stored stretches are judged otherwise than by their bytes", &in);
    const struct listed list = first_of(&in), none = without_matches(list, &in);
    const struct given first = pool_into(law_list, areas[LIST].most, list, none, &in), second = pool_into(law_list, areas[LIST].most, none, list, &in);
    if (first.number != number || first.place != place || second.number != number || second.place != place)
        differ(POOL, "a match of one of the lists is judged otherwise than by its bytes", &in);
    if (number == MISMATCH) {
        differed[(uintptr_t)(in.version + fresh) % WORD][(uintptr_t)(in.store + address) % WORD]++;
        differed_stored[(uintptr_t)(in.block + fresh) % WORD][(uintptr_t)(in.second_block + fresh) % WORD]++;
    }
}

/* Stretches of 0 to 136 bytes, with each byte that can differ; in every other case none does. */
static void stretch_cases(void)
{
    case_kind = "stretch";
    for (uint32_t size = 0; size <= LONGEST; size++)
        for (uint32_t differs = 0; differs <= size; differs++)
            for (int i = 0; i < STRETCH_CASES; i++)
                try_stretch(size, i % 2 == 0 ? differs : size);
}

static void middle_cases(void)
{
    case_kind = "middle";
    for (int i = 0; i < MIDDLE_CASES; i++) {
        const struct shape shape = { 13 + below(400), 1 + below(80), 1 + below(300), 1 + below(4), below(6) };
        struct input in = draw_input(&shape);
        damage_some(&in);
        try_case(&in);
    }
}

/* The second list is the first cut anew, but for its end: its last match gets the other mark, or its stored block another last byte. */
static void alter_end(struct input *in)
{
    cut_second(in);
    uint8_t *r = in->second + in->second_len - RECORD_BYTES;
    if (r[0] == 1)
        r[1] ^= 1;
    else
        in->second_block[in->second_block_len - 1] ^= 1;
}

/* Lists of 4,096 records, whole, with a second list that differs at its end, and damaged. */
static void full_cases(void)
{
    case_kind = "full";
    for (int i = 0; i < FULL_CASES; i++) {
        const struct shape shape = { RECORDS_MOST, 1 + below(200), 1 + below(2000), 1 + below(4), below(6) };
        struct input in = draw_input(&shape);
        try_case(&in);
        alter_end(&in);
        try_case(&in);
        damage_some(&in);
        try_case(&in);
    }
}

/* Two lists of a version of one letter, of which the pooled list has so many records: the first has new records and matches in turns, of 8 bytes each,
 * the second is cut within the new records alone. Its matches are held in turns, and draw from elsewhere: so every cut stays. */
static void try_records(size_t target)
{
    const size_t least = target < 2 * RECORDS_MOST - 1 ? (target + 1) / 2 : RECORDS_MOST, most = target < RECORDS_MOST ? target : RECORDS_MOST;
    const size_t n = (least + below(most - least + 1)) / 2 * 2, news = n / 2, cuts = target - n;
    struct input in = empty_input(65536);
    size_t from = 0;
    fill_letters(in.store, in.store_len, 1);
    in.held_of_3 = 0;
    for (size_t i = 0; i < n; i++)
        i % 2 == 0 ? append_new(&in, 8, 1) : append_match(&in, 8, below(100));
    complete(&in);
    in.second_len = 0;
    for (size_t k = 0; k < news; k++)
        for (size_t c = 1; c <= cuts / news + (k < cuts % news); c++, from = 16 * k + c - 1)
            append_second_match(&in, 16 * k + c - from, 1000 + below(1000), in.second_len / RECORD_BYTES % 2);
    append_second_match(&in, in.version_len - from, 1000 + below(1000), in.second_len / RECORD_BYTES % 2);
    if (look_at_pair(&in).records != target)
        differ(POOL, "the pooled list has not the records that it should have: the test is at fault", &in);
    try_pair(&in);
}

/* Around 4,096 records of the pooled list, and up to the most. */
static void pooled_records(void)
{
    const size_t targets[] = { RECORDS_MOST - 1, RECORDS_MOST, RECORDS_MOST + 1, RECORDS_MOST + 2, 2 * RECORDS_MOST - 1 };
    case_kind = "records of the pooled list";
    for (int i = 0; i < RECORD_CASES; i++)
        for (size_t k = 0; k < sizeof targets / sizeof targets[0]; k++)
            try_records(targets[k]);
}

/* 49,152 list bytes, a byte less and more, a record more. */
static void list_lengths(void)
{
    const struct shape shape = { RECORDS_MOST, 8, 100, 2, 3 };
    case_kind = "list length";
    struct input in = draw_input(&shape);
    try_case(&in);
    in.list_len--;
    try_case(&in);
    in.list_len += 2;
    try_case(&in);
    in.list_len--;
    append_match(&in, 1, 0);
    complete(&in);
    try_case(&in);
}

/* The second list draws its first bytes from an address that differs in one bit. */
static void other_addresses(struct input *in)
{
    for (int bit = 0; bit < 28; bit++) {
        cut_second(in);
        put32(in->second + 8, get32(in->second + 8) ^ UINT32_C(1) << bit);
        try_case(in);
    }
}

/* A match at the end of a short store and of the longest; a store too long. */
static void store_lengths(void)
{
    const struct { size_t store_len; uint32_t address, size; } edges[] = {
        { 20, 15, 5 }, { 19, 15, 5 }, { 0, 0, 1 }, { STORE_MOST, STORE_MOST - 5, 5 }, { STORE_MOST, STORE_MOST - 5, 6 },
        { STORE_MOST, STORE_MOST, 1 }, { STORE_MOST + 1, STORE_MOST - 5, 5 }, { STORE_MOST + 1, STORE_MOST - 5, 6 },
    };
    case_kind = "store length";
    for (size_t i = 0; i < sizeof edges / sizeof edges[0]; i++) {
        struct input in = empty_input(edges[i].store_len);
        in.store = zeros;
        draw_price(&in);
        append_match(&in, edges[i].size, edges[i].address);
        complete(&in);
        try_case(&in);
        other_addresses(&in);
    }
}

/* Lists of one to three long records, a match as 0, a new record as 1, a held match as 2; a size of 0 ends the list. For EN = EM = 128 an entry
 * costs 32,767 and a half disk bytes, for 255 a 256th more than 65,279; sizes that add up to 2^24 cost 2^32. For EN 1 and EM 255 a lone match is
 * worth storing up to 65,023 bytes, one between new records up to 65,534, two matches up to 130,302; for EN 255 and EM 1 no two matches are. The
 * last eight have held matches: such as would be worth storing, long ones, and such as stand beside matches that are worth it. */
static const struct long_list {
    uint32_t en, em, f;
    struct { uint32_t as, size; } records[3];
} long_lists[] = {
    { 128, 128, 65535, { { 1, 5 }, { 0, 65534 }, { 1, 5 } } },
    { 128, 128, 65535, { { 1, 5 }, { 0, 65535 }, { 1, 5 } } },
    { 128, 128, 65535, { { 0, 32767 }, { 1, 1 }, { 0, 32768 } } },
    { 128, 128, 65535, { { 1, 1 }, { 0, 32768 }, { 0, 0 } } },
    { 128, 128, 65535, { { 0, 16384 }, { 0, 16383 }, { 0, 32768 } } },
    { 255, 255, 65535, { { 0, 32639 }, { 0, 32640 }, { 0, 0 } } },
    { 255, 255, 65535, { { 0, 32640 }, { 0, 32640 }, { 0, 0 } } },
    { 255, 255, 65535, { { 1, 1 }, { 0, 65279 }, { 0, 0 } } },
    { 255, 255, 65535, { { 1, 1 }, { 0, 65280 }, { 0, 0 } } },
    { 255, 255, 65535, { { 0, 8388608 }, { 0, 8388608 }, { 0, 0 } } },
    { 255, 255, 65535, { { 1, 1 }, { 0, 16777214 }, { 1, 1 } } },
    { 255, 255, 65535, { { 0, 16777216 }, { 0, 0 }, { 0, 0 } } },
    { 255, 255, 65535, { { 1, 16777216 }, { 0, 0 }, { 0, 0 } } },
    { 1, 1, 1, { { 0, 8388608 }, { 0, 8388608 }, { 0, 0 } } },
    { 1, 1, 1, { { 0, 16777216 }, { 0, 0 }, { 0, 0 } } },
    { 1, 1, 1, { { 0, 16777216 }, { 1, 1 }, { 0, 0 } } },
    { 1, 1, 1, { { 1, 16777217 }, { 0, 0 }, { 0, 0 } } },
    { 1, 255, 65535, { { 0, 1000000 }, { 0, 65023 }, { 0, 1000000 } } },
    { 1, 255, 65535, { { 0, 1000000 }, { 0, 65024 }, { 0, 1000000 } } },
    { 1, 255, 65535, { { 1, 5 }, { 0, 65534 }, { 1, 5 } } },
    { 1, 255, 65535, { { 1, 5 }, { 0, 65535 }, { 1, 5 } } },
    { 1, 255, 65535, { { 0, 65151 }, { 0, 65151 }, { 0, 1000000 } } },
    { 1, 255, 65535, { { 0, 65152 }, { 0, 65151 }, { 0, 1000000 } } },
    { 1, 255, 65535, { { 0, 8388608 }, { 0, 8388608 }, { 0, 0 } } },
    { 255, 1, 65535, { { 1, 5 }, { 0, 65534 }, { 1, 5 } } },
    { 255, 1, 65535, { { 1, 5 }, { 0, 65535 }, { 1, 5 } } },
    { 255, 1, 65535, { { 0, 1 }, { 0, 1 }, { 0, 0 } } },
    { 255, 1, 65535, { { 0, 8388608 }, { 0, 8388608 }, { 0, 0 } } },
    { 128, 128, 65535, { { 1, 5 }, { 2, 65534 }, { 1, 5 } } },
    { 128, 128, 65535, { { 2, 32767 }, { 1, 1 }, { 0, 32767 } } },
    { 255, 255, 65535, { { 0, 32639 }, { 2, 32640 }, { 0, 0 } } },
    { 255, 255, 65535, { { 1, 1 }, { 2, 16777214 }, { 1, 1 } } },
    { 255, 255, 65535, { { 2, 8388608 }, { 2, 8388608 }, { 0, 0 } } },
    { 1, 255, 65535, { { 0, 1000000 }, { 2, 65023 }, { 0, 1000000 } } },
    { 1, 255, 65535, { { 2, 1000000 }, { 0, 65023 }, { 2, 1000000 } } },
    { 1, 255, 65535, { { 0, 65151 }, { 0, 65151 }, { 2, 1000000 } } },
};

static void long_cases(void)
{
    case_kind = "long";
    fill(store_bytes, VERSION_MOST);
    for (size_t i = 0; i < sizeof long_lists / sizeof long_lists[0]; i++) {
        struct input in = empty_input(VERSION_MOST);
        in.en = long_lists[i].en;
        in.em = long_lists[i].em;
        in.f = long_lists[i].f;
        for (int j = 0; j < 3 && long_lists[i].records[j].size > 0; j++) {
            const uint32_t as = long_lists[i].records[j].as, size = long_lists[i].records[j].size;
            in.held_of_3 = as == 2 ? 3 : 0;
            if (as == 1)
                append_new(&in, size, 2);
            else
                append_match(&in, size, draw_address(&in, size));
        }
        complete(&in);
        try_case(&in);
    }
}

/* 4,096 records of 4,096 bytes, which is the longest version; then its last byte wrong, and a byte more. */
static void longest_full_case(uint32_t en, uint32_t em, uint32_t f)
{
    case_kind = "longest and full";
    struct input in = empty_input(VERSION_MOST);
    fill(store_bytes, VERSION_MOST);
    in.en = en;
    in.em = em;
    in.f = f;
    for (int i = 0; i < RECORDS_MOST; i++) {
        if (i % 4 == 0)
            append_new(&in, RECORDS_MOST, 4);
        else
            append_match(&in, RECORDS_MOST, draw_address(&in, RECORDS_MOST));
    }
    complete(&in);
    try_case(&in);
    in.version[in.version_len - 1] ^= 1;
    try_case(&in);
    in.version[in.version_len - 1] ^= 1;
    in.version_len++;
    complete(&in);
    try_case(&in);
}

/* ---- The table ---- */

/* The columns that each row must reach; a version or store that is too long is found with the first list, and what is wrong with the pooled list alone
 * stands there too. */
static const char *const required[ROWS] = {
    "xx.xxxx......xxx......",
    "x.xxxxxx.xx..xxx......",
    "x.xxxxxx..xx.xxx......",
    "x.xxxxxx..x..xxx......",
    "x.xxx.xx.....xxx......",
    "x.xxx.xx.x...xxx......",
    "x.xxx.xxxx..xxxx.....x",
    "xxxxxxxxxx..xxxx......",
    "xxxxxxxxxx..xxxx......",
    "xxxxxxxxxx..xxxxxxxxx.",
    "xxxxxxxxxx..xxxx......",
    "...xxxxx..x...xx......",
    "...xx.xxx...x.xx......",
};

static void print_differed(const char *what, uint64_t counts[WORD][WORD])
{
    uint64_t all = 0, fewest = UINT64_MAX;
    for (int place = 0; place < WORD * WORD; place++) {
        const uint64_t here = counts[place / WORD][place % WORD];
        all += here;
        fewest = here < fewest ? here : fewest;
    }
    printf("%s that differ in one byte: %" PRIu64 ", at each pair of places within a word %" PRIu64 " or more\n", what, all, fewest);
}

/* The pairs with the same bytes from other places, and those with other bytes. */
static uint64_t same_bytes_pairs(void)
{
    return same_bytes[AS_NEW] + same_bytes[BY_ADDRESS] + same_bytes[BY_MARK];
}

static uint64_t other_pairs(void)
{
    return other_blocks + ended_first + other_bytes;
}

static void print_pairs(void)
{
    const uint64_t all = cut_otherwise + same_bytes_pairs() + other_pairs();
    printf("pairs of different lists that compare accepted: %" PRIu64 "; yes, cut differently: %" PRIu64 "; no, the same bytes from other places: %"
           PRIu64 " (first new in one: %" PRIu64 ", by the address: %" PRIu64 ", by the mark: %" PRIu64 "); no, other bytes: %" PRIu64
           " (in the blocks alone: %" PRIu64 ", one ends first: %" PRIu64 ", else: %" PRIu64 "); yes of one list with one block: %"
           PRIu64 "\n", all, cut_otherwise, same_bytes_pairs(), same_bytes[AS_NEW], same_bytes[BY_ADDRESS], same_bytes[BY_MARK], other_pairs(),
           other_blocks, ended_first, other_bytes, one_list);
    const int calls[] = { PARTITION, COMMIT, PASS };
    printf("compare of a list and what was written of it");
    for (int i = 0; i < 3; i++)
        printf("%s by %s yes %" PRIu64 ", no %" PRIu64, i == 0 ? ":" : ";", call_name[calls[i]], of_written[calls[i]][YES], of_written[calls[i]][NO]);
    printf("\n");
}

static void print_pools(void)
{
    printf("pairs of sound lists to pool: %" PRIu64 ";", sound_pairs);
    for (int i = 0; i < FINDINGS; i++)
        printf("%s %s %" PRIu64, i == 0 ? "" : ",", finding_name[i], findings[i]);
    printf("\n");
}

static void print_factors(void)
{
    printf("pairs of factors:");
    for (int sort = 0; sort < SORTS; sort++)
        printf("%s %s %" PRIu64, sort == 0 ? "" : ",", sort_name[sort], twos[sort]);
    printf("; with another list %" PRIu64 ", of them neighbours %" PRIu64 ", such as would cost as much at the lesser %" PRIu64 "; with one list %"
           PRIu64 "; commitments of an estimate's choice at its factor %" PRIu64 ", at the other %" PRIu64 "\n", turned, turned_between, ties_decided,
           not_turned, commitments[1], commitments[0]);
}

static void print_choices(void)
{
    printf("choices handed to commit, and judged or not:");
    for (int kind = 0; kind < KINDS; kind++)
        printf("%s %s %" PRIu64 ", %" PRIu64, kind == 0 ? "" : ";", kind_name[kind], judged[kind], not_judged[kind]);
    printf("\ncommitments dearer than the estimate: %" PRIu64 ", of other choices as dear: %" PRIu64 "\n", dearer_commits, as_dear_commits);
}

static void print_table(void)
{
    printf("%-11s  %8s |", "call", "compared");
    for (int column = 0; column < SHORT_END; column++)
        printf(" %7d", column);
    for (int column = SHORT_END; column < COLUMNS; column++)
        printf(" %7s", special[column - SHORT_END].name);
    printf("\n");
    for (int row = 0; row < ROWS; row++) {
        printf("%-11s  %8" PRIu64 " |", call_name[row], compared[row]);
        for (int column = 0; column < COLUMNS; column++)
            printf(" %7" PRIu64, reached[row][column]);
        printf("\n");
    }
    printf("short lists with another choice as cheap: %" PRIu64 ", of one in eight with a cheaper one that stores a held match: %" PRIu64
           "; passes dearer than partition: %" PRIu64 "\n", ties, bound, dearer_passes);
    printf("matches: %" PRIu64 ", of them held %" PRIu64 ", marks flipped %" PRIu64 "; neighbouring ones: %" PRIu64 " go on in the store, of them %"
           PRIu64 " with another mark, %" PRIu64 " do not\n", matches, held_matches, flipped, going_on, going_on_parted, not_going_on);
    printf("calls on lists without their marks");
    for (int call = MEASURE; call <= CHECK_LOOSE; call++)
        if (call != COMPARE)
            printf("%s %s %" PRIu64 " accepted, %" PRIu64 " refused", call == MEASURE ? ":" : ";", call_name[call], unmarked_calls[call][0],
                   unmarked_calls[call][1]);
    printf("\n");
    print_pairs();
    printf("loose lists: with new records side by side %" PRIu64 ", with matches to join %" PRIu64 ", too long for an area that their tidy form"
           " fits %" PRIu64 "; pairs with the same origins %" PRIu64 ", with others %" PRIu64 "\n", side_by_side, unjoined, short_for_loose,
           same_origins, other_origins);
    print_pools();
    print_factors();
    print_choices();
    print_differed("matches", differed);
    print_differed("stored stretches", differed_stored);
    printf("partitions accepted");
    for (int i = 0; i < FACTORS; i++)
        printf("%s %" PRIu64 " at F %" PRIu32, i == 0 ? ":" : ",", factors[i].accepted, factors[i].f);
    for (int i = 0; i < ORDERS; i++)
        printf("%s %" PRIu64 " at %s", i == 0 ? ";" : ",", orders[i], order_name[i]);
    printf("; in them, matches with no new record beside them: %" PRIu64 " stored, %" PRIu64 " kept\n", lone_stored, lone_kept);
}

/* How many kinds of price were never reached, a lone match that is worth storing among them. */
static int missing_prices(void)
{
    int count = 0;
    for (int i = 0; i < ORDERS; i++)
        if (orders[i] == 0) {
            printf("differential: no partition was accepted at %s\n", order_name[i]);
            count++;
        }
    for (int i = 0; i < FACTORS; i++)
        if (factors[i].accepted == 0) {
            printf("differential: no partition was accepted at F %" PRIu32 "\n", factors[i].f);
            count++;
        }
    if (lone_stored == 0) {
        printf("differential: no lone match was stored\n");
        count++;
    }
    return count;
}

/* Whether one of two counts is less than two fifths of both. */
static int uneven(uint64_t a, uint64_t b, const char *what)
{
    if (5 * a >= 2 * (a + b) && 5 * b >= 2 * (a + b))
        return 0;
    printf("differential: %s\n", what);
    return 1;
}

/* Whether a part is less than a quarter of all, or more than two fifths. */
static int no_third(uint64_t part, uint64_t all, const char *what)
{
    if (4 * part >= all && 5 * part <= 2 * all)
        return 0;
    printf("differential: %s\n", what);
    return 1;
}

static int uneven_counts(void)
{
    return uneven(same_origins, other_origins, "two loose lists have not the same origins about as often as they have")
        + uneven(going_on, not_going_on, "neighbouring matches do not go on in the store about as often as they do")
        + no_third(held_matches, matches, "not about a third of the matches are held")
        + no_third(going_on_parted, going_on, "not about a third of the matches that go on have another mark");
}

/* Whether a count, of pairs or of what was written, is less than its share; 0 of 0 is too. */
static int too_few(uint64_t part, uint64_t share, const char *what)
{
    if (part > 0 && part >= share)
        return 0;
    printf("differential: %s\n", what);
    return 1;
}

/* How many kinds of pairs are missing, or are less than a third of the pairs of different lists. */
static int missing_pairs(void)
{
    const uint64_t third = (cut_otherwise + same_bytes_pairs() + other_pairs() + 2) / 3;
    int count = too_few(cut_otherwise, third, "not a third of the pairs has the same bytes from the same places, cut differently")
        + too_few(same_bytes_pairs(), third, "not a third of the pairs has the same bytes from other places")
        + too_few(same_bytes[AS_NEW], 1, "no pair has the same bytes, new in one list and drawn in the other")
        + too_few(same_bytes[BY_ADDRESS], 1, "no pair has the same bytes from other addresses")
        + too_few(same_bytes[BY_MARK], 1, "no pair has the same bytes from the same addresses with other marks")
        + too_few(other_blocks, 1, "no pair differs in its stored blocks alone") + too_few(ended_first, 1, "no list was compared with one that goes on")
        + too_few(other_bytes, 1, "no pair has other bytes from other places") + too_few(one_list, 1, "no list was compared with itself");
    const int calls[] = { PARTITION, COMMIT, PASS };
    for (int i = 0; i < 3; i++)
        for (int same = NO; same <= YES; same++)
            count += too_few(of_written[calls[i]][same], 1, same ? "no written list keeps each match" : "no written list gives a match up");
    return count;
}

/* How many calls were never made without the marks, accepted or refused; and whether no mark was flipped, or none ever bound a short list. */
static int missing_marks(void)
{
    int count = 0;
    for (int call = MEASURE; call <= CHECK_LOOSE; call++)
        for (int refused = 0; refused < 2; refused++)
            if (call != COMPARE && unmarked_calls[call][refused] == 0) {
                printf("differential: %s was never %s without the marks\n", call_name[call], refused ? "refused" : "accepted");
                count++;
            }
    if (flipped == 0 || bound == 0) {
        printf("differential: no mark was flipped, or no short list would have been cheaper with a held match stored\n");
        count++;
    }
    return count;
}

/* How many kinds of choice were never judged, or never stood behind another fault; and whether no other choice ever cost more than the estimate's, or
 * none as much. */
static int missing_choices(void)
{
    int count = 0;
    for (int kind = 0; kind < KINDS; kind++)
        if (judged[kind] == 0 || not_judged[kind] == 0) {
            printf("differential: a choice %s was never judged, or never stood behind another fault\n", kind_name[kind]);
            count++;
        }
    if (dearer_commits == 0 || as_dear_commits == 0) {
        printf("differential: no commitment was dearer than the estimate, or none of another choice as dear\n");
        count++;
    }
    return count;
}

/* Whether no loose list had anything to tidy, or no area was too short for one alone. */
static int missing_loose(void)
{
    if (side_by_side > 0 && unjoined > 0 && short_for_loose > 0)
        return 0;
    printf("differential: no loose list had new records side by side, or none matches to join, or none was too long for an area alone\n");
    return 1;
}

/* How many kinds of pairs to pool are missing; of those where each list draws alone, and where both draw otherwise, a quarter of all are wanted. */
static int missing_pools(void)
{
    int count = 0;
    for (int i = 0; i < FINDINGS; i++)
        if (findings[i] == 0 || (i <= OTHERWISE && 4 * findings[i] < sound_pairs)) {
            printf("differential: too few pairs to pool, or none: %s\n", finding_name[i]);
            count++;
        }
    return count;
}

/* How many sorts of pairs of factors are less than a twentieth of all, or missing, and what they come to: of pairs with another list, and with one, a
 * quarter of all is wanted, of neighbours with another list, and of lists that would cost as much, a tenth. */
static int missing_factors(void)
{
    const uint64_t all = turned + not_turned;
    int count = too_few(turned, all / 4, "not a quarter of the pairs of factors has another list")
        + too_few(not_turned, all / 4, "not a quarter of the pairs of factors has one list")
        + too_few(turned_between, all / 10, "not a tenth of the pairs of factors are neighbours with another list")
        + too_few(ties_decided, all / 10, "not a tenth of the pairs of factors has another list that would cost as much at the lesser")
        + too_few(commitments[0], 1, "no estimate's choice was committed at the other factor")
        + too_few(commitments[1], 1, "no estimate's choice was committed at its own factor");
    for (int sort = 0; sort < SORTS; sort++)
        if (twos[sort] == 0 || 20 * twos[sort] < all) {
            printf("differential: too few pairs of factors, or none: %s\n", sort_name[sort]);
            count++;
        }
    return count;
}

/* How many pairs of places within a word had no match, or no stored stretch, that differs. */
static int missing_places(void)
{
    int count = 0;
    for (int place = 0; place < WORD * WORD; place++)
        if (differed[place / WORD][place % WORD] == 0 || differed_stored[place / WORD][place % WORD] == 0) {
            printf("differential: no match, or no stored stretch, differed at %d and %d within a word\n", place / WORD, place % WORD);
            count++;
        }
    return count;
}

/* How many required columns were never reached. */
static int missing_columns(void)
{
    int count = 0;
    for (int row = 0; row < ROWS; row++)
        for (int column = 0; column < COLUMNS; column++)
            if (required[row][column] == 'x' && reached[row][column] == 0) {
                const int plain = column < SHORT_END;
                printf("differential: %s never gave %d%s\n", call_name[row], plain ? column : special[column - SHORT_END].number,
                       plain ? "" : special[column - SHORT_END].where);
                count++;
            }
    return count;
}

int main(int argc, char **argv)
{
    if (argc > 1)
        seed = strtoull(argv[1], NULL, 0);
    state = seed == 0 ? 1 : seed;
    printf("differential: seed 0x%" PRIx64 "\n", seed);
    signal(SIGSEGV, crashed);
    signal(SIGABRT, crashed);
    signal(SIGILL, crashed);
    signal(SIGFPE, crashed);
    make_room();
    make_outcomes();
    short_lists();
    small_cases();
    stretch_cases();
    middle_cases();
    full_cases();
    pooled_records();
    list_lengths();
    store_lengths();
    long_cases();
    longest_full_case(32, 32, 32768);
    longest_full_case(32, 32, 32769);
    longest_full_case(16, 16, 32768);
    longest_full_case(1, 255, 32768);
    longest_full_case(255, 32, 32768);
    print_table();
    uint64_t calls = 0;
    for (int row = 0; row < ROWS; row++)
        calls += compared[row];
    if (zeros[0] != 0 || memcmp(zeros, zeros + 1, STORE_MOST) != 0) {
        puts("differential: the long store was written to");
        return 1;
    }
    if (missing_prices() + missing_columns() + missing_places() + uneven_counts() + missing_pairs() + missing_marks() + missing_choices()
        + missing_loose() + missing_pools() + missing_factors() > 0)
        return 1;
    printf("differential: %" PRIu64 " calls compared, 0 differences\n", calls);
    return 0;
}
