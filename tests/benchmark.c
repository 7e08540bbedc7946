/* benchmark.c - the library's calls beside the reference's, in time.
 *
 *   benchmark
 *
 * Both sides get the same inputs and areas, in turn, and must give the same answer. Every buffer is written beforehand, so that no time
 * goes into first touches. A time is the median of several samples, and a sample repeats a short call until it can be timed. Prints a
 * table of times, then how they grow with the records and with the bytes. Nothing is asked of the times.
 *
 * In order: the inputs; the calls; time; the tables. Exit 0, or 1 and one line where the answers differ or the usage is bad.
 */
#define _POSIX_C_SOURCE 200809L
#include <stdint.h>
#include <stdio.h>
#include <stdlib.h>
#include <string.h>
#include <time.h>

#include "controller.h"
#include "reference.h"

/* The price, F in 256ths: a new entry costs 48 disk bytes, a match 64. */
enum { EN = 12, EM = 16, F = 4 * 256 };

/* ---- The inputs ---- */

enum kinds { MATCHES, NEWS, TURNS, PIECES, RUNS, SOME_HELD, HALVES };

/* What the second list has: the same origins and the same stored block, or those with whole matches cut in three, or a first byte that differs. */
enum second { ALIKE, IN_THREE, DIFFERS };

/* A list: so many records over so many bytes, all matches, all new (which is one record), in turns, or each new one before a match in three pieces;
 * 0 bytes: small records, by chance, in runs, by chance with some matches held, or by chance and then, in the loose list, cut in halves. */
struct shape {
    const char *name;
    uint32_t records, bytes;
    enum kinds kinds;
    enum second second;
};

/* One list with its version, store and stored block; a second list with its stored block; the list as check_loose and tidy take it; the list of each
 * finder, for pool; the least choice, for commit; and the areas to write. */
static struct {
    uint8_t list[RECORDS_MOST * RECORD_BYTES], list_area[RECORDS_MOST * RECORD_BYTES], choice[RECORDS_MOST], least[RECORDS_MOST];
    uint8_t second[RECORDS_MOST * RECORD_BYTES], loose[RECORDS_MOST * RECORD_BYTES], found[2][RECORDS_MOST * RECORD_BYTES];
    uint8_t *version, *store, *block, *second_block, *area;
    size_t list_len, second_len, loose_len, version_len, block_len;
} in;

#define SEED UINT64_C(0x9e3779b97f4a7c15)

static uint64_t state = SEED;

static uint32_t draw(void)
{
    state ^= state >> 12;
    state ^= state << 25;
    state ^= state >> 27;
    return (uint32_t)(state * UINT64_C(0x2545f4914f6cdd1d) >> 32);
}

static void put_number(uint8_t *at, uint32_t number)
{
    for (int i = 0; i < 4; i++)
        at[i] = (uint8_t)(number >> (8 * i));
}

/* Adds a record and its bytes; a match's come from the store, a new one's go into the block too. */
static void add(int is_match, uint32_t size, uint32_t address)
{
    uint8_t *record = in.list + in.list_len, *bytes = in.version + in.version_len;
    memset(record, 0, RECORD_BYTES);
    record[0] = (uint8_t)is_match;
    put_number(record + 4, size);
    put_number(record + 8, is_match ? address : 0);
    if (is_match) {
        memcpy(bytes, in.store + address, size);
    } else {
        memset(bytes, (int)(draw() & 255), size);
        memcpy(in.block + in.block_len, bytes, size);
        in.block_len += size;
    }
    in.list_len += RECORD_BYTES;
    in.version_len += size;
}

/* A small record: one in three is new where the one before is not; 1 to 128 bytes, half of them up to 48. */
static void add_small(int *after_new)
{
    const uint32_t size = 1 + draw() % (draw() % 2 ? 48 : 128);
    *after_new = !*after_new && draw() % 3 == 0;
    add(!*after_new, size, draw() % 65536);
}

/* The same, but a match is held in one case of three. */
static void add_small_or_held(int *after_new)
{
    add_small(after_new);
    in.list[in.list_len - RECORD_BYTES + 1] = !*after_new && draw() % 3 == 0;
}

/* A small record that can be cut, of 2 to 128 bytes. */
static void add_to_cut(int *after_new)
{
    const uint32_t size = 2 + draw() % (draw() % 2 ? 47 : 127);
    *after_new = !*after_new && draw() % 3 == 0;
    add(!*after_new, size, draw() % 65536);
}

/* A small match, of 1 to 48 bytes: half of them go on in the store where the match before them ended. */
static void add_to_run(uint32_t *end)
{
    const uint32_t size = 1 + draw() % 48, address = draw() % 2 ? *end : draw() % 65536;
    add(1, size, address);
    *end = address + size;
}

static uint32_t number_at(const uint8_t *at)
{
    return (uint32_t)at[0] | (uint32_t)at[1] << 8 | (uint32_t)at[2] << 16 | (uint32_t)at[3] << 24;
}

/* The loose list: each record in halves, of which the second half of a match goes on in the store; or as it is. */
static void set_loose(int in_halves)
{
    in.loose_len = 0;
    for (size_t i = 0; i < in.list_len; i += RECORD_BYTES) {
        uint8_t *record = in.loose + in.loose_len;
        const uint32_t size = number_at(in.list + i + 4), half = size / 2;
        memcpy(record, in.list + i, RECORD_BYTES);
        in.loose_len += RECORD_BYTES;
        if (!in_halves)
            continue;
        memcpy(record + RECORD_BYTES, record, RECORD_BYTES);
        put_number(record + 4, half);
        put_number(record + RECORD_BYTES + 4, size - half);
        if (record[0] == KIND_MATCH)
            put_number(record + RECORD_BYTES + 8, number_at(record + 8) + half);
        in.loose_len += RECORD_BYTES;
    }
}

/* Whether the record at an offset of the list, if there is one, is a match that goes on from the one before it, with the same mark. */
static int goes_on(size_t i)
{
    if (i == 0 || i == in.list_len)
        return 0;
    const uint8_t *record = in.list + i, *before = record - RECORD_BYTES;
    return record[0] == KIND_MATCH && before[0] == KIND_MATCH && record[1] == before[1]
        && number_at(before + 8) + number_at(before + 4) == number_at(record + 8);
}

/* Adds a record to the second list, with the kind and the mark of one of the first. */
static void add_piece(const uint8_t *of, uint32_t size, uint32_t address)
{
    uint8_t *record = in.second + in.second_len;
    memcpy(record, of, RECORD_BYTES);
    put_number(record + 4, size);
    put_number(record + 8, address);
    in.second_len += RECORD_BYTES;
}

/* The second list has the origins of the first, cut at other places: a run in the middle of each of its records but the last, a match that is no run
 * in three where that is asked for. The second block is the first's, in other memory; its first byte may differ. */
static void set_second(enum second second)
{
    in.second_len = 0;
    for (size_t i = 0; i < in.list_len; i += RECORD_BYTES) {
        const uint8_t *record = in.list + i;
        const uint32_t size = number_at(record + 4), address = number_at(record + 8), third = size / 3;
        const int is_behind = goes_on(i), is_before = goes_on(i + RECORD_BYTES);
        if (second == IN_THREE && record[0] == KIND_MATCH && !is_behind && !is_before) {
            add_piece(record, third, address);
            add_piece(record, third, address + third);
            add_piece(record, size - 2 * third, address + 2 * third);
        } else {
            const uint32_t taken = is_behind ? number_at(record - RECORD_BYTES + 4) / 2 : 0, left = is_before ? size / 2 : 0;
            add_piece(record, taken + size - left, address - taken);
        }
    }
    memcpy(in.second_block, in.block, in.block_len);
    if (second == DIFFERS)
        in.second_block[0] ^= 1;
}

/* The lists of two finders: each has every other match of the list, and new records in place of the others. */
static void set_found(void)
{
    size_t matches = 0;
    for (size_t i = 0; i < in.list_len; i += RECORD_BYTES) {
        for (int finder = 0; finder < 2; finder++)
            memcpy(in.found[finder] + i, in.list + i, RECORD_BYTES);
        if (in.list[i] == KIND_NEW)
            continue;
        uint8_t *passed_over = in.found[matches++ % 2] + i;
        passed_over[0] = passed_over[1] = 0;
        put_number(passed_over + 8, 0);
    }
}

/* The least choice, as the reference has it. */
static void set_least(void)
{
    uint8_t answer[ANSWER_BYTES];
    ref_estimate(EN, EM, F, in.list, in.list_len, in.version, in.version_len, in.store, VERSION_MOST, in.least, RECORDS_MOST, answer, sizeof answer);
}

/* The same shape gives the same input each time. */
static void set_input(const struct shape *shape)
{
    int after_new = 0;
    uint32_t end = 0;
    state = SEED;
    in.list_len = in.version_len = in.block_len = 0;
    for (uint32_t i = 0; i < shape->records; i++) {
        if (shape->bytes == 0) {
            if (shape->kinds == RUNS)
                add_to_run(&end);
            else if (shape->kinds == SOME_HELD)
                add_small_or_held(&after_new);
            else if (shape->kinds == HALVES)
                add_to_cut(&after_new);
            else
                add_small(&after_new);
            continue;
        }
        const uint32_t size = shape->bytes / shape->records;
        if (shape->kinds == PIECES) {
            add(i % 4 > 0, size, i * size);
            continue;
        }
        const int is_match = shape->kinds == MATCHES || (shape->kinds == TURNS && i % 2 == 1);
        add(is_match, size, (shape->records - 1 - i) * size);
    }
    set_loose(shape->kinds == HALVES);
    set_second(shape->second);
    set_found();
    set_least();
}

static uint8_t *touched(size_t length)
{
    uint8_t *bytes = malloc(length);
    if (bytes == NULL) {
        fprintf(stderr, "benchmark: no memory for %zu bytes\n", length);
        exit(1);
    }
    for (size_t i = 0; i < length; i++)
        bytes[i] = (uint8_t)draw();
    return bytes;
}

static void set_up(void)
{
    in.version = touched(VERSION_MOST);
    in.store = touched(VERSION_MOST);
    in.block = touched(VERSION_MOST);
    in.second_block = touched(VERSION_MOST);
    in.area = touched(VERSION_MOST);
    memset(in.list_area, 1, sizeof in.list_area);
    memset(in.choice, 1, sizeof in.choice);
}

/* ---- The calls ---- */

enum { MEASURE, CHECK, COMPARE, REBUILD, PARTITION, ESTIMATE, COMMIT, PASS, CHECK_LOOSE, TIDY, POOL, CALLS };
enum side { LIBRARY, REFERENCE, SIDES };

static const char *const call_name[CALLS] = {
    "measure", "check", "compare", "rebuild", "partition", "estimate", "commit", "pass", "check_loose", "tidy", "pool",
};

static uint8_t answer[SIDES][ANSWER_BYTES];

/* One call of one side; its number. */
static uint32_t make_call(int call, enum side side)
{
    const int ref = side == REFERENCE;
    uint8_t *to = answer[side];
    const size_t last = in.list_len / RECORD_BYTES - 1;
    switch (call) {
    case MEASURE:
        return (ref ? ref_measure : measure)(EN, EM, F, in.list, in.list_len, to, ANSWER_BYTES);
    case CHECK:
        return (ref ? ref_check : check)(in.list, in.list_len, in.block, in.block_len, in.store, VERSION_MOST, (uint32_t)last,
                                         to, ANSWER_BYTES);
    case COMPARE:
        return (ref ? ref_compare : compare)(in.list, in.list_len, in.second, in.second_len, in.block, in.block_len, in.second_block,
                                             in.block_len, in.store, VERSION_MOST, to, ANSWER_BYTES);
    case REBUILD:
        return (ref ? ref_rebuild : rebuild)(in.list, in.list_len, in.block, in.block_len, in.store, VERSION_MOST, in.area,
                                             VERSION_MOST, to, ANSWER_BYTES);
    case PARTITION:
        return (ref ? ref_partition : partition)(EN, EM, F, in.list, in.list_len, in.version, in.version_len, in.store, VERSION_MOST,
                                                 in.choice, RECORDS_MOST, in.list_area, sizeof in.list_area, in.area,
                                                 VERSION_MOST, to, ANSWER_BYTES);
    case ESTIMATE:
        return (ref ? ref_estimate : estimate)(EN, EM, F, in.list, in.list_len, in.version, in.version_len, in.store, VERSION_MOST,
                                               in.choice, RECORDS_MOST, to, ANSWER_BYTES);
    case COMMIT:
        return (ref ? ref_commit : commit)(EN, EM, F, in.list, in.list_len, in.version, in.version_len, in.store, VERSION_MOST,
                                           in.least, in.list_len / RECORD_BYTES, in.list_area, sizeof in.list_area, in.area,
                                           VERSION_MOST, to, ANSWER_BYTES);
    case CHECK_LOOSE:
        return (ref ? ref_check_loose : check_loose)(in.loose, in.loose_len, in.store, VERSION_MOST, to, ANSWER_BYTES);
    case TIDY:
        return (ref ? ref_tidy : tidy)(in.loose, in.loose_len, in.store, VERSION_MOST, in.list_area, sizeof in.list_area, to, ANSWER_BYTES);
    case POOL:
        return (ref ? ref_pool : pool)(in.found[0], in.list_len, in.found[1], in.list_len, in.version, in.version_len, in.store, VERSION_MOST,
                                       in.list_area, sizeof in.list_area, to, ANSWER_BYTES);
    default:
        return (ref ? ref_pass : pass)(EN, EM, F, in.list, in.list_len, in.version, in.version_len, in.store, VERSION_MOST,
                                       in.choice, RECORDS_MOST, in.list_area, sizeof in.list_area, in.area, VERSION_MOST,
                                       to, ANSWER_BYTES);
    }
}

/* Both sides accept, and answer the same; of compare yes, unless the first byte differs. */
static void compare_sides(int call, const struct shape *shape)
{
    const uint32_t number = make_call(call, LIBRARY);
    if (number == ACCEPTED && make_call(call, REFERENCE) == ACCEPTED && memcmp(answer[LIBRARY], answer[REFERENCE], ANSWER_BYTES) == 0
        && (call != COMPARE || answer_entries(answer[LIBRARY]) == (shape->second != DIFFERS)))
        return;
    fprintf(stderr, "benchmark: %s, %s: library and reference do not answer the same, or not as they should\n", call_name[call], shape->name);
    exit(1);
}

/* ---- Time ---- */

/* The samples of one time, and the seconds after which no more are taken once there are three. */
enum { SAMPLES = 31 };
#define LEAST_SAMPLE 0.002
#define ENOUGH 0.6

/* Median times in seconds. */
struct times {
    double of[SIDES];
};

static double now(void)
{
    struct timespec t;
    clock_gettime(CLOCK_MONOTONIC, &t);
    return (double)t.tv_sec + 1e-9 * (double)t.tv_nsec;
}

/* The seconds that so many calls take together. */
static double seconds(int call, enum side side, unsigned repeats)
{
    const double start = now();
    for (unsigned i = 0; i < repeats; i++)
        make_call(call, side);
    return now() - start;
}

/* How many calls make a sample long enough to be timed. */
static unsigned repeats_for(int call, enum side side)
{
    unsigned repeats = 1;
    while (seconds(call, side, repeats) < LEAST_SAMPLE && repeats < 1u << 20)
        repeats *= 2;
    return repeats;
}

static int ascending(const void *a, const void *b)
{
    const double x = *(const double *)a, y = *(const double *)b;
    return (x > y) - (x < y);
}

/* The two sides' medians, sampled in turn. */
static struct times time_call(int call, const struct shape *shape)
{
    double sample[SIDES][SAMPLES];
    struct times times;
    set_input(shape);
    compare_sides(call, shape);
    const unsigned repeats[SIDES] = { repeats_for(call, LIBRARY), repeats_for(call, REFERENCE) };
    const double start = now();
    int n = 0;
    while (n < SAMPLES && (n < 3 || now() - start < ENOUGH)) {
        for (enum side side = LIBRARY; side < SIDES; side++)
            sample[side][n] = seconds(call, side, repeats[side]) / repeats[side];
        n++;
    }
    for (enum side side = LIBRARY; side < SIDES; side++) {
        qsort(sample[side], (size_t)n, sizeof **sample, ascending);
        times.of[side] = sample[side][n / 2];
    }
    return times;
}

/* ---- The tables ---- */

static const struct shape few = { "16 MiB, 8 records", 8, VERSION_MOST, TURNS, IN_THREE };
static const struct shape unlike = { "16 MiB, first differs", 8, VERSION_MOST, TURNS, DIFFERS };
static const struct shape matches = { "16 MiB, 8 matches", 8, VERSION_MOST, MATCHES, IN_THREE };
static const struct shape many = { "16 MiB, 4,096 records", RECORDS_MOST, VERSION_MOST, TURNS, ALIKE };
static const struct shape many_matches = { "16 MiB, 4,096 matches", RECORDS_MOST, VERSION_MOST, MATCHES, ALIKE };
static const struct shape pieces = { "16 MiB, 4,096 in pieces", RECORDS_MOST, VERSION_MOST, PIECES, ALIKE };
static const struct shape one_match = { "16 MiB, one match", 1, VERSION_MOST, MATCHES, IN_THREE };
static const struct shape one_new = { "16 MiB, one new record", 1, VERSION_MOST, NEWS, ALIKE };
static const struct shape small = { "4,096 small records", RECORDS_MOST, 0, TURNS, ALIKE };
static const struct shape runs = { "4,096 matches in runs", RECORDS_MOST, 0, RUNS, ALIKE };
static const struct shape some_held = { "4,096 small, some held", RECORDS_MOST, 0, SOME_HELD, ALIKE };
static const struct shape halves = { "4,096 loose, in halves", RECORDS_MOST / 2, 0, HALVES, ALIKE };
static const struct shape even = { "4,096 records of 48 bytes", RECORDS_MOST, 48 * RECORDS_MOST, TURNS, ALIKE };
static const struct shape even_512 = { "512 records of 48 bytes", 512, 48 * 512, TURNS, ALIKE };
static const struct shape few_1 = { "1 MiB, 8 records", 8, VERSION_MOST / 16, TURNS, IN_THREE };

static void print_times(int call, const struct shape *shape)
{
    const struct times t = time_call(call, shape);
    printf("%-11s %-23s %12.2f %12.2f %8.2f\n", call_name[call], shape->name, 1e6 * t.of[LIBRARY], 1e6 * t.of[REFERENCE],
           t.of[LIBRARY] / t.of[REFERENCE]);
    fflush(stdout);
}

static void print_growth(int call, const struct shape *from, const struct shape *to, const char *name)
{
    const struct times a = time_call(call, from), b = time_call(call, to);
    printf("%-11s %-23s %12.2f %12.2f\n", call_name[call], name, b.of[LIBRARY] / a.of[LIBRARY], b.of[REFERENCE] / a.of[REFERENCE]);
    fflush(stdout);
}

/* The shapes, each with the first call and the last that it is timed for. */
static const struct {
    const struct shape *shape;
    int first, last;
} timed[] = {
    { &few, MEASURE, PASS }, { &unlike, COMPARE, COMPARE }, { &matches, COMPARE, COMPARE }, { &many, MEASURE, PASS },
    { &pieces, COMPARE, COMPARE }, { &one_match, REBUILD, PASS }, { &one_new, COMPARE, PASS }, { &small, MEASURE, PASS },
    { &runs, COMPARE, COMPARE }, { &runs, PARTITION, PASS }, { &some_held, PARTITION, PASS },
    { &halves, CHECK_LOOSE, TIDY }, { &small, TIDY, TIDY }, { &runs, TIDY, TIDY },
    { &many, POOL, POOL }, { &many_matches, POOL, POOL }, { &small, POOL, POOL }, { &runs, POOL, POOL },
};

static void print_all_times(void)
{
    printf("%-11s %-23s %12s %12s %8s\n", "call", "input", "library us", "reference us", "ratio");
    for (int call = 0; call < CALLS; call++)
        for (unsigned i = 0; i < sizeof timed / sizeof *timed; i++)
            if (timed[i].first <= call && call <= timed[i].last)
                print_times(call, timed[i].shape);
}

static void print_all_growth(void)
{
    printf("\nHow many times as long: from 512 records of 48 bytes to 4,096, and 8 records from 1 MiB to 16 MiB, which no longer\n"
           "fit the nearer caches.\n\n%-11s %-23s %12s %12s\n", "call", "growth", "library", "reference");
    for (int call = 0; call < CALLS; call++)
        print_growth(call, &even_512, &even, "512 to 4,096 records");
    for (int call = 0; call < CALLS; call++)
        if (call != CHECK_LOOSE && call != TIDY)
            print_growth(call, &few_1, &few, "1 to 16 MiB");
}

int main(int count, char **arguments)
{
    (void)arguments;
    if (count != 1) {
        fprintf(stderr, "usage: benchmark (no arguments)\n");
        return 1;
    }
    set_up();
    printf("Library and reference in turn, medians of 3 to %d samples; every buffer was written beforehand. EN %d, EM %d, F %d.\n"
           "Records in turns are new, match, new, match, of one size; small ones have 1 to 128 bytes, new or match by chance; of the matches in\n"
           "runs, of 1 to 48 bytes, half go on in the store; where some are held, it is one match of three. The second list of compare draws each\n"
           "byte from the same place and has the same stored block, in other memory. Of 8 records its matches are cut in three, and runs are cut\n"
           "at other places; in pieces, each new record stands before a run of three. Other records are the same in both, and once the first byte\n"
           "differs. Commit is handed the least choice. The loose list in halves is 2,048 records of 2 to 128 bytes, new or match by chance, each\n"
           "cut in two. The two lists of pool have every other match each, and new records for the others.\n\n",
           SAMPLES, EN, EM, F);
    print_all_times();
    print_all_growth();
    return 0;
}
