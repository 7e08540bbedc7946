/* calls.c - the calls of controller.h, case by case, against what is worked out by hand from docs/SPECIFICATION.md.
 *
 * Lists are written as text: "N5 M19@0" is a new record of 5 bytes and a match of 19 at address 0, "H19@0" such a match held. A record may be as
 * wrong as a case needs it: X is kind 2, N may have an address, "!2" sets byte 2 to 7, and "!2=9" sets it to 9. Every area is longer than what a
 * case lends of it and is filled beforehand, and after the call it is looked at to its last byte: what the call should not write must still hold
 * the filling. A choice is written as its bytes, "101", X for 255. What partition gives, estimate and then commit must give too; the list that
 * partition wrote is handed in again, and must come back, and so must the lists that tidy and pool wrote. Lists are given at rising factors, each
 * factor beside every greater one, and each choice that is least at one is committed at every other. For each size up to 136 one case each of
 * partition, estimate, commit, pass and pool lets a match differ at every byte, and one of compare a stored stretch, at every pair of places within a
 * word. Compare is lent a store that cannot be read.
 * Exit 0 and one line, with the number of cases, where all is as it should be, else 1 and a line for each case that is not.
 */
#define _DEFAULT_SOURCE
#include <signal.h>
#include <stdio.h>
#include <stdlib.h>
#include <string.h>
#include <sys/mman.h>

#include "controller.h"

#define CASES 7876
#define FILL 0xA5
#define AREA 256

static int cases, wrong;

static void expect(const char *call, const char *what, int ok)
{
    cases++;
    if (!ok) {
        wrong++;
        printf("calls: %s, %s\n", call, what);
    }
}

/* ---- Lists as text ---- */

static void put_record(uint8_t *list, size_t i, uint8_t kind, uint32_t size, uint32_t address)
{
    uint8_t *r = list + RECORD_BYTES * i;
    memset(r, 0, RECORD_BYTES);
    r[0] = kind;
    for (int b = 0; b < 4; b++) {
        r[4 + b] = (uint8_t)(size >> (8 * b));
        r[8 + b] = (uint8_t)(address >> (8 * b));
    }
}

/* Writes the list that a text stands for, and gives its length in bytes. */
static size_t list_of(const char *text, uint8_t *list)
{
    size_t n = 0;
    while (*text) {
        uint8_t kind = *text == 'N' ? KIND_NEW : *text == 'M' || *text == 'H' ? KIND_MATCH : 2;
        char *end;
        uint32_t size = (uint32_t)strtoul(text + 1, &end, 10), address = 0;
        if (*end == '@')
            address = (uint32_t)strtoul(end + 1, &end, 10);
        put_record(list, n, kind, size, address);
        list[RECORD_BYTES * n + 1] = *text == 'H' ? MARK_HELD : 0;
        if (*end == '!') {
            uint8_t *byte = list + RECORD_BYTES * n + strtoul(end + 1, &end, 10);
            *byte = *end == '=' ? (uint8_t)strtoul(end + 1, &end, 10) : 7;
        }
        n++;
        text = end + (*end == ' ');
    }
    return RECORD_BYTES * n;
}

/* ---- Areas and answers ---- */

static uint8_t list[AREA], answer[ANSWER_BYTES + 8];
static uint8_t area[AREA], choice[AREA], list_area[AREA], block_area[AREA];

/* Fills every area that a call may write. */
static void fill_areas(void)
{
    memset(answer, FILL, sizeof answer);
    memset(area, FILL, AREA);
    memset(choice, FILL, AREA);
    memset(list_area, FILL, AREA);
    memset(block_area, FILL, AREA);
}

/* Whether an area begins with n bytes, and then still holds the filling. */
static int holds(const uint8_t *bytes, const void *front, size_t n)
{
    if (memcmp(bytes, front, n) != 0)
        return 0;
    for (size_t i = n; i < AREA; i++)
        if (bytes[i] != FILL)
            return 0;
    return 1;
}

/* The choice that commit reads, which is no area to write; and a copy, to see that it stays. */
static uint8_t handed[AREA], handed_copy[AREA];
static size_t handed_length;

/* Writes the bytes that a text stands for, and gives their number. */
static size_t bits_of(const char *text, uint8_t *bits)
{
    size_t n = 0;
    for (; text[n]; n++)
        bits[n] = text[n] == 'X' ? 255 : (uint8_t)(text[n] - '0');
    return n;
}

/* Hands commit a choice; what lies behind it would be a choice too. */
static void hand(const char *bits)
{
    memset(handed, 0, AREA);
    handed_length = bits_of(bits, handed);
    memcpy(handed_copy, handed, AREA);
}

static int handed_stays(void)
{
    return memcmp(handed, handed_copy, AREA) == 0;
}

static int untouched(void)
{
    return holds(area, "", 0) && holds(choice, "", 0) && holds(list_area, "", 0) && holds(block_area, "", 0) && handed_stays();
}

struct values {
    uint32_t number, place;
    uint64_t cost;
    uint32_t entries, stored, looks, whole;
};

/* A field of the answer area by its offset, which holds the readers of controller.h to the layout. */
static uint64_t field(size_t offset, size_t bytes)
{
    uint64_t n = 0;
    for (size_t i = bytes; i > 0; i--)
        n = n << 8 | answer[offset + i - 1];
    return n;
}

static int read_by_offset(void)
{
    return answer_number(answer) == field(0, 4) && answer_place(answer) == field(4, 4) && answer_cost(answer) == field(8, 8)
        && answer_entries(answer) == field(16, 4) && answer_stored(answer) == field(20, 4) && answer_looks(answer) == field(24, 4)
        && answer_whole(answer) == field(28, 4);
}

/* Whether a call returned this number, and the answer area holds just these values, with what lies beyond as it was. */
static int answered(uint32_t returned, struct values v)
{
    for (size_t i = ANSWER_BYTES; i < sizeof answer; i++)
        if (answer[i] != FILL)
            return 0;
    return returned == v.number && read_by_offset() && field(0, 4) == v.number && field(4, 4) == v.place && field(8, 8) == v.cost
        && field(16, 4) == v.entries && field(20, 4) == v.stored && field(24, 4) == v.looks && field(28, 4) == v.whole;
}

static int refused(uint32_t returned, uint32_t number, uint32_t place)
{
    return answered(returned, (struct values){ .number = number, .place = place }) && untouched();
}

/* Whether a call with an answer area that is too short returned 9 and wrote nothing. */
static int not_made(uint32_t returned)
{
    for (size_t i = 0; i < sizeof answer; i++)
        if (answer[i] != FILL)
            return 0;
    return returned == AREA_TOO_SHORT && untouched();
}

/* ---- Measure ---- */

static uint32_t measured(uint32_t en, uint32_t em, uint32_t f, const uint8_t *bytes, size_t length)
{
    fill_areas();
    return measure(en, em, f, bytes, length, answer, sizeof answer);
}

/* Cost is F * EN for each new record, F * EM for each match and 256 for each new byte: 2,560 * 4 + 256 * 12; 16,711,425 * 2 + 256 * 3;
 * 2,560 * 2 + 256 * 16,777,215; 384 * 2 + 256 * 3; 1 + 2^32. Where EN and EM differ: 512 * 1 + 512 * 7 * 2 + 256 * 4, and
 * 512 * 7 + 512 * 1 * 2 + 256 * 4; 65,535 * 255 * 2 + 65,535 + 256 * 16, and 65,535 * 2 + 65,535 * 255 + 256 * 16. */
static const struct {
    const char *what;
    uint32_t en, em, f;
    const char *list;
    struct values want;
} measures[] = {
    { "no records", 10, 10, 256, "", { 0 } },
    { "both kinds", 10, 10, 256, "N5 M19@0 M4@7 N7", { .cost = DISK_BYTE * 52, .entries = 4, .stored = 12, .whole = 35 } },
    { "EN and EM 255, F 65535", 255, 255, 65535, "M8@1 N3", { .cost = 33423618, .entries = 2, .stored = 3, .whole = 11 } },
    { "EN and EM 1, F 1", 1, 1, 1, "M8@1", { .cost = 1, .entries = 1, .whole = 8 } },
    { "sizes of 16777216", 10, 10, 256, "N16777215 M1@0", { .cost = UINT64_C(4294972160), .entries = 2, .stored = 16777215, .whole = 16777216 } },
    { "a fraction of a disk byte", 3, 3, 128, "M8@1 N3", { .cost = 1536, .entries = 2, .stored = 3, .whole = 11 } },
    { "one new record of 16777216", 1, 1, 1, "N16777216", { .cost = UINT64_C(4294967297), .entries = 1, .stored = 16777216, .whole = 16777216 } },
    { "EN 1, EM 7, one new and two matches", 1, 7, 512, "M8@0 N4 M8@0", { .cost = 8704, .entries = 3, .stored = 4, .whole = 20 } },
    { "EN 7, EM 1, one new and two matches", 7, 1, 512, "M8@0 N4 M8@0", { .cost = 5632, .entries = 3, .stored = 4, .whole = 20 } },
    { "EN 255, EM 1, F 65535", 255, 1, 65535, "N9 M8@0 N7", { .cost = 33492481, .entries = 3, .stored = 16, .whole = 24 } },
    { "EN 1, EM 255, F 65535", 1, 255, 65535, "N9 M8@0 N7", { .cost = 16846591, .entries = 3, .stored = 16, .whole = 24 } },
    { "both kinds, one match held", 10, 10, 256, "N5 H19@0 M4@7 N7", { .cost = DISK_BYTE * 52, .entries = 4, .stored = 12, .whole = 35 } },
    { "EN 1, EM 7, one new and two held", 1, 7, 512, "H8@0 N4 H8@0", { .cost = 8704, .entries = 3, .stored = 4, .whole = 20 } },
    { "EN 7, EM 1, one new and two held", 7, 1, 512, "H8@0 N4 H8@0", { .cost = 5632, .entries = 3, .stored = 4, .whole = 20 } },
    { "matches that go on, two held", 10, 10, 256, "M8@0 H8@8 H8@16", { .cost = DISK_BYTE * 30, .entries = 3, .whole = 24 } },
    { "EN 0", 0, 10, 256, "N5", { .number = 1 } },
    { "EN 256", 256, 10, 256, "N5", { .number = 1 } },
    { "EM 0", 10, 0, 256, "N5", { .number = 1 } },
    { "EM 256", 10, 256, 256, "N5", { .number = 1 } },
    { "F 0", 10, 10, 0, "N5", { .number = 1 } },
    { "F 65536", 10, 10, 65536, "N5", { .number = 1 } },
    { "kind 2", 10, 10, 256, "N5 X5@0", { .number = 4, .place = 1 } },
    { "byte 1 of a new record", 10, 10, 256, "N5!1", { .number = 4 } },
    { "byte 2 of a new record", 10, 10, 256, "N5!2", { .number = 4 } },
    { "byte 3 of a new record", 10, 10, 256, "N5!3", { .number = 4 } },
    { "byte 1 of a match", 10, 10, 256, "N5 M5@0!1", { .number = 4, .place = 1 } },
    { "byte 2 of a match", 10, 10, 256, "N5 M5@0!2", { .number = 4, .place = 1 } },
    { "byte 3 of a match", 10, 10, 256, "N5 M5@0!3", { .number = 4, .place = 1 } },
    { "a mark on a new record", 10, 10, 256, "M5@0 N5!1=1", { .number = 4, .place = 1 } },
    { "byte 1 of a match at 2", 10, 10, 256, "N5 M5@0!1=2", { .number = 4, .place = 1 } },
    { "byte 1 of a match at 255", 10, 10, 256, "N5 M5@0!1=255", { .number = 4, .place = 1 } },
    { "byte 2 of a held match", 10, 10, 256, "N5 H5@0!2", { .number = 4, .place = 1 } },
    { "byte 3 of a held match", 10, 10, 256, "N5 H5@0!3", { .number = 4, .place = 1 } },
    { "kind 2 with the mark", 10, 10, 256, "N5 X5@0!1=1", { .number = 4, .place = 1 } },
    { "a held match of size 0", 10, 10, 256, "N5 H0@0", { .number = 4, .place = 1 } },
    { "a new record of size 0", 10, 10, 256, "N0", { .number = 4 } },
    { "a match of size 0", 10, 10, 256, "N5 M6@0 M0@0", { .number = 4, .place = 2 } },
    { "new with address 1", 10, 10, 256, "N5@1", { .number = 4 } },
    { "new with address 256", 10, 10, 256, "M1@0 N5@256", { .number = 4, .place = 1 } },
    { "new with address 65536", 10, 10, 256, "N1 M1@0 N5@65536", { .number = 4, .place = 2 } },
    { "new with address 16777216", 10, 10, 256, "N5@16777216", { .number = 4 } },
    { "new after new", 10, 10, 256, "M5@0 N5 N5", { .number = 5, .place = 2 } },
    { "sizes of 16777217", 10, 10, 256, "N16777215 M1@0 M1@0", { .number = 6, .place = 2 } },
    { "one record of 16777217", 10, 10, 256, "N16777217", { .number = 6 } },
    { "sizes that pass 2^32", 10, 10, 256, "N1 M4294967295@0", { .number = 6, .place = 1 } },
    { "1 before 4", 0, 0, 256, "N0", { .number = 1 } },
    { "4 before 5", 10, 10, 256, "N5 N0", { .number = 4, .place = 1 } },
    { "4 for a mark before 5", 10, 10, 256, "N5 N5!1=1", { .number = 4, .place = 1 } },
    { "6 at a held match", 10, 10, 256, "N5 H16777216@0", { .number = 6, .place = 1 } },
    { "5 before 6", 10, 10, 256, "N5 N16777216", { .number = 5, .place = 1 } },
    { "4 before 6", 10, 10, 256, "N5 M16777216@0!1", { .number = 4, .place = 1 } },
    { "6 at 1 before 4 at 2", 10, 10, 256, "N5 M16777216@0 N0", { .number = 6, .place = 1 } },
    { "5 at 1 before 4 at 2", 10, 10, 256, "N5 N5 N0", { .number = 5, .place = 1 } },
};

static void test_measure(void)
{
    for (size_t i = 0; i < sizeof measures / sizeof *measures; i++) {
        size_t n = list_of(measures[i].list, list);
        expect("measure", measures[i].what, answered(measured(measures[i].en, measures[i].em, measures[i].f, list, n), measures[i].want) && untouched());
    }
    expect("measure", "1 before 3", refused(measured(0, 10, 256, list, 11), 1, 0));
    expect("measure", "1 byte", refused(measured(10, 10, 256, list, 1), 3, 0));
    expect("measure", "13 bytes", refused(measured(10, 10, 256, list, 13), 3, 0));
    fill_areas();
    expect("measure", "an answer area of 31 bytes", not_made(measure(0, 0, 0, list, 1, answer, ANSWER_BYTES - 1)));
}

/* ---- Check and rebuild, over the store of the letters A to T ---- */

static const char letters[] = "ABCDEFGHIJKLMNOPQRST";

/* N5 M5@15 N3, with the stored block "abcdefgh", is "abcdePQRSTfgh"; and so it is with its match held. */
#define LIST "N5 M5@15 N3"
#define LIST_HELD "N5 H5@15 N3"
#define BLOCK "abcdefgh"

static uint32_t checked(size_t n, const char *block, size_t store_length, uint32_t k)
{
    fill_areas();
    return check(list, n, (const uint8_t *)block, strlen(block), (const uint8_t *)letters, store_length, k, answer, sizeof answer);
}

static const struct {
    const char *what, *list, *block;
    size_t store;
    uint32_t k, number, place;
} checks[] = {
    { "the first record", LIST, BLOCK, 20, 0, 0, 0 },
    { "a match of 5 at 15 in a store of 20", LIST, BLOCK, 20, 1, 0, 0 },
    { "the last record", LIST, BLOCK, 20, 2, 0, 0 },
    { "a match of all the store", "M20@0", "", 20, 0, 0, 0 },
    { "a held match", LIST_HELD, BLOCK, 20, 1, 0, 0 },
    { "a mark on a new record", "N5 M5@15 N3!1=1", BLOCK, 20, 0, 4, 2 },
    { "byte 1 of a match at 2", "N5 M5@15!1=2 N3", BLOCK, 20, 0, 4, 1 },
    { "byte 1 of a match at 255", "N5 M5@15!1=255 N3", BLOCK, 20, 0, 4, 1 },
    { "byte 2 of a held match", "N5 H5@15!2 N3", BLOCK, 20, 0, 4, 1 },
    { "byte 3 of a held match", "N5 H5@15!3 N3", BLOCK, 20, 0, 4, 1 },
    { "a held match of 5 at 15 in a store of 19", LIST_HELD, BLOCK, 19, 0, 7, 1 },
    { "a block one byte short beside a held match", LIST_HELD, "abcdefg", 20, 0, 10, 0 },
    { "k 3 of 3, one held", LIST_HELD, BLOCK, 20, 3, 11, 0 },
    { "kind 2", "N5 X5@0", "abcde", 20, 0, 4, 1 },
    { "new after new", "N5 N3", BLOCK, 20, 0, 5, 1 },
    { "sizes of 16777217", "N5 M16777212@0", "abcde", 20, 0, 6, 1 },
    { "sizes of 16777216, which pass check 6", "N5 M16777211@0", "abcde", 20, 0, 7, 1 },
    { "a match of 5 at 15 in a store of 19", LIST, BLOCK, 19, 0, 7, 1 },
    { "no store", LIST, BLOCK, 0, 0, 7, 1 },
    { "address 20 in a store of 20", "M20@0 M1@20", "", 20, 0, 7, 1 },
    { "address 4294967295", "M5@4294967295", "", 20, 0, 7, 0 },
    { "a block one byte short", LIST, "abcdefg", 20, 0, 10, 0 },
    { "a block one byte longer", LIST, "abcdefghi", 20, 0, 10, 0 },
    { "k 3 of 3", LIST, BLOCK, 20, 3, 11, 0 },
    { "k 4294967295", LIST, BLOCK, 20, 4294967295, 11, 0 },
    { "no records", "", "", 20, 0, 11, 0 },
    { "4 before 10", "N5 M5@15 N0", "abc", 20, 0, 4, 2 },
    { "6 before 7", "N5 M16777216@4294967295", "abcde", 20, 0, 6, 1 },
    { "7 at 0 before 5 at 2", "M5@16 N5 N3", BLOCK, 20, 0, 7, 0 },
    { "7 before 10", "N5 M5@16 N3", "abcdefghi", 20, 0, 7, 1 },
    { "10 before 11", "N5 M5@15", "abcd", 20, 2, 10, 0 },
};

static void test_check(void)
{
    for (size_t i = 0; i < sizeof checks / sizeof *checks; i++) {
        size_t n = list_of(checks[i].list, list);
        expect("check", checks[i].what, refused(checked(n, checks[i].block, checks[i].store, checks[i].k), checks[i].number, checks[i].place));
    }
    list_of(LIST, list);
    expect("check", "11 bytes", refused(checked(11, "abcde", 20, 0), 3, 0));
    expect("check", "3 before 10", refused(checked(5, "a", 20, 0), 3, 0));
    fill_areas();
    expect("check", "no answer area", not_made(check(list, 1, list, 0, list, 0, 9, answer, 0)));
}

static uint32_t rebuilt(size_t n, const char *block, size_t room)
{
    fill_areas();
    return rebuild(list, n, (const uint8_t *)block, strlen(block), (const uint8_t *)letters, 20, area, room, answer, sizeof answer);
}

static const struct {
    const char *what, *list, *block;
    size_t room;
    const char *version;
} rebuilds[] = {
    { "in a longer area", LIST, BLOCK, AREA, "abcdePQRSTfgh" },
    { "in an area one byte longer", LIST, BLOCK, 14, "abcdePQRSTfgh" },
    { "in an area just long enough", LIST, BLOCK, 13, "abcdePQRSTfgh" },
    { "matches alone", "M3@0 M3@3 M3@0", "", AREA, "ABCDEFABC" },
    { "a held match", LIST_HELD, BLOCK, AREA, "abcdePQRSTfgh" },
    { "matches alone, two held", "M3@0 H3@3 H3@0", "", AREA, "ABCDEFABC" },
    { "one new record", "N4", "abcd", AREA, "abcd" },
    { "no records", "", "", AREA, "" },
    { "no records in no area", "", "", 0, "" },
};

/* 9 is the last check. */
static const struct {
    const char *what, *list, *block;
    size_t room;
    uint32_t number, place;
} not_rebuilt[] = {
    { "new with an address", "N5 M5@15 N3@1", BLOCK, AREA, 4, 2 },
    { "a mark on a new record", "N5 M5@15 N3!1=1", BLOCK, AREA, 4, 2 },
    { "byte 1 of a match at 2", "N5 M5@15!1=2 N3", BLOCK, AREA, 4, 1 },
    { "byte 1 of a match at 255", "N5 M5@15!1=255 N3", BLOCK, AREA, 4, 1 },
    { "byte 2 of a held match", "N5 H5@15!2 N3", BLOCK, AREA, 4, 1 },
    { "byte 3 of a held match", "N5 H5@15!3 N3", BLOCK, AREA, 4, 1 },
    { "a held match at 16 in a store of 20", "N5 H5@16 N3", BLOCK, AREA, 7, 1 },
    { "an area one byte short for a held match", LIST_HELD, BLOCK, 12, 9, 0 },
    { "new after new", "N5 N3", BLOCK, AREA, 5, 1 },
    { "sizes of 16777217", "N5 M16777212@0", "abcde", AREA, 6, 1 },
    { "address 16 in a store of 20", "N5 M5@16 N3", BLOCK, AREA, 7, 1 },
    { "a block one byte short", LIST, "abcdefg", AREA, 10, 0 },
    { "a block one byte longer", LIST, "abcdefghi", AREA, 10, 0 },
    { "an area one byte short", LIST, BLOCK, 12, 9, 0 },
    { "no area", LIST, BLOCK, 0, 9, 0 },
    { "7 before 9", "N5 M5@16 N3", BLOCK, 12, 7, 1 },
    { "7 before 10", "N5 M5@16 N3", "abcdefg", AREA, 7, 1 },
    { "10 before 9", LIST, "abcdefghi", 12, 10, 0 },
};

static void test_rebuild(void)
{
    for (size_t i = 0; i < sizeof rebuilds / sizeof *rebuilds; i++) {
        size_t n = list_of(rebuilds[i].list, list), whole = strlen(rebuilds[i].version);
        expect("rebuild", rebuilds[i].what, answered(rebuilt(n, rebuilds[i].block, rebuilds[i].room), (struct values){ .whole = (uint32_t)whole })
            && holds(area, rebuilds[i].version, whole));
    }
    for (size_t i = 0; i < sizeof not_rebuilt / sizeof *not_rebuilt; i++) {
        size_t n = list_of(not_rebuilt[i].list, list);
        expect("rebuild", not_rebuilt[i].what, refused(rebuilt(n, not_rebuilt[i].block, not_rebuilt[i].room), not_rebuilt[i].number, not_rebuilt[i].place));
    }
    list_of(LIST, list);
    expect("rebuild", "5 bytes", refused(rebuilt(5, "abcde", AREA), 3, 0));
    fill_areas();
    expect("rebuild", "an answer area of 31 bytes", not_made(rebuild(list, 36, (const uint8_t *)BLOCK, 8, (const uint8_t *)letters, 20, area, AREA,
        answer, ANSWER_BYTES - 1)));
}

/* ---- Compare, over a store that holds ABCDE twice ---- */

static const char twice[] = "ABCDEABCDEXY";

/* The store of the worked examples (clauses 10.8, 10.10 and 10.11). */
static const char ababc[] = "ABABC";

static uint8_t second[AREA];

static uint32_t compared_over(const void *store, size_t length, size_t n, const char *block, size_t m, const char *second_block)
{
    fill_areas();
    return compare(list, n, second, m, (const uint8_t *)block, strlen(block), (const uint8_t *)second_block, strlen(second_block), store, length,
        answer, sizeof answer);
}

static uint32_t compared(size_t n, const char *block, size_t m, const char *second_block)
{
    return compared_over(twice, 12, n, block, m, second_block);
}

enum { NO, YES };

struct pair {
    const char *what, *first, *block, *second, *second_block;
    uint32_t same;
};

/* The accepted ones of clause 10.8, over its store. */
static const struct pair worked_pairs[] = {
    { "no records", "", "", "", "", YES },
    { "a match cut in two", "N2 M3@2", "AB", "N2 M1@2 M2@3", "AB", YES },
    { "AB from different places", "M2@0", "", "M2@2", "", NO },
    { "ABABC, two bytes new in one and drawn in the other", "N2 M3@2", "AB", "M3@0 N2", "BC", NO },
    { "a held match, and one that is not", "H2@0 M3@2", "", "M2@0 M3@2", "", NO },
    { "the last stored byte", "N2", "AB", "N2", "AC", NO },
    { "a prefix of the other", "M4@0", "", "M5@0", "", NO },
};

/* Each pair is tried in both orders. */
static const struct pair pairs[] = {
    /* Each byte from the same place: into how many records a run is cut does not matter. */
    { "two empty lists", "", "", "", "", YES },
    { "a list and itself", "N2 M3@2", "ab", "N2 M3@2", "ab", YES },
    { "a held match in both", "N2 H3@2", "ab", "N2 H3@2", "ab", YES },
    { "one new byte", "N1", "a", "N1", "a", YES },
    { "matches cut in two", "M5@0 M2@10", "", "M2@0 M3@2 M1@10 M1@11", "", YES },
    { "a match, and its bytes one by one", "M5@0", "", "M1@0 M1@1 M1@2 M1@3 M1@4", "", YES },
    { "cut after the first byte, and before the last", "M1@0 M4@1", "", "M4@0 M1@4", "", YES },
    { "cut in three, by cuts that cross", "M2@0 M3@2 M2@5", "", "M1@0 M5@1 M1@6", "", YES },
    { "all the store, in three and in four", "M4@0 M4@4 M4@8", "", "M3@0 M3@3 M3@6 M3@9", "", YES },
    { "all the store, in five and in three", "M1@0 M2@1 M3@3 M4@6 M2@10", "", "M5@0 M5@5 M2@10", "", YES },
    { "a run of four, and of two that cross it", "M1@0 M1@1 M1@2 M7@3", "", "M5@0 M5@5", "", YES },
    { "runs between new records", "N1 M4@0 N2 M3@5", "abc", "N1 M2@0 M2@2 N2 M1@5 M2@6", "abc", YES },
    { "runs around new records, both cut", "M2@0 M3@2 N1 M2@5 M5@7", "a", "M3@0 M2@3 N1 M5@5 M2@10", "a", YES },
    { "a new record between matches that go on", "M2@0 N1 M3@2", "a", "M1@0 M1@1 N1 M1@2 M2@3", "a", YES },
    { "matches that do not go on, each cut", "M2@0 M2@5 M2@2", "", "M1@0 M1@1 M1@5 M1@6 M2@2", "", YES },
    { "the same match twice, cut", "M3@0 M3@0", "", "M1@0 M2@1 M2@0 M1@2", "", YES },
    { "a match before the one before it, cut", "M2@2 M2@0", "", "M1@2 M1@3 M2@0", "", YES },
    { "a held match cut in two", "H5@0", "", "H2@0 H3@2", "", YES },
    { "held, then not, each cut", "H4@0 M4@4", "", "H1@0 H3@1 M2@4 M2@6", "", YES },
    { "not held, then held, each cut", "M2@0 H3@2", "", "M1@0 M1@1 H1@2 H2@3", "", YES },
    { "a held byte in the middle", "M2@0 H1@2 M2@3", "", "M1@0 M1@1 H1@2 M1@3 M1@4", "", YES },
    /* The same bytes, ABCDE or what begins so, from other addresses. */
    { "from another place of the store", "M5@0", "", "M5@5", "", NO },
    { "held, and from another place of the store", "H5@0", "", "H5@5", "", NO },
    { "the first byte from another place", "M5@0", "", "M1@5 M4@1", "", NO },
    { "a byte in the middle from another place", "M5@0", "", "M2@0 M1@7 M2@3", "", NO },
    { "the last byte from another place", "M4@0 M1@4", "", "M4@0 M1@9", "", NO },
    { "the last bytes from another place, behind a cut", "M5@0", "", "M2@0 M3@7", "", NO },
    { "in part from another place, cut differently", "M2@0 M3@7", "", "M3@5 M2@3", "", NO },
    { "ABCDE twice, once gone on and once begun again", "M5@0 M5@5", "", "M5@0 M5@0", "", NO },
    { "ABCDE twice, from the two places in turn", "M5@0 M5@5", "", "M5@5 M5@0", "", NO },
    { "another place behind a new record", "N1 M5@0", "a", "N1 M5@5", "a", NO },
    { "another place behind a run that is cut differently", "M2@0 M3@2 N1 M2@0", "a", "M4@0 M1@4 N1 M2@5", "a", NO },
    { "another place in the third of four records", "M5@0 N1 M2@0 M2@2", "a", "M5@0 N1 M2@5 M2@2", "a", NO },
    /* The same bytes from the same addresses, with another mark. A match that goes on with another mark is another origin. */
    { "the only mark", "N2 H3@2", "AB", "N2 M3@2", "AB", NO },
    { "the mark of all", "H5@0", "", "M5@0", "", NO },
    { "the mark of the first byte", "H5@0", "", "M1@0 H4@1", "", NO },
    { "the mark of the last byte", "H5@0", "", "H4@0 M1@4", "", NO },
    { "the mark of a byte in the middle", "M5@0", "", "M2@0 H1@2 M2@3", "", NO },
    { "held, and cut in two of which the second is held", "H5@0", "", "M2@0 H3@2", "", NO },
    { "held, and cut in two of which the first is held", "H5@0", "", "H2@0 M3@2", "", NO },
    { "marks that change places", "M2@0 H3@2", "", "H2@0 M3@2", "", NO },
    { "a mark that begins a byte later", "M2@0 H3@2", "", "M3@0 H2@3", "", NO },
    { "a mark that ends a byte later", "H2@0 M3@2", "", "H3@0 M2@3", "", NO },
    { "cut differently, and one piece is held", "M2@0 M3@2", "", "M3@0 H2@3", "", NO },
    { "held runs cut differently, a byte more held", "H5@0 M5@5", "", "H3@0 H2@3 H1@5 M4@6", "", NO },
    { "the mark of the last of three records", "M5@0 N1 H2@10", "a", "M5@0 N1 M2@10", "a", NO },
    { "the mark and the place", "H5@0", "", "M5@5", "", NO },
    /* The same bytes, ABCDE unless others are named, of which some are new in one list and drawn in the other. */
    { "stored in one and drawn in the other", "N5", "ABCDE", "M5@0", "", NO },
    { "stored in one and held in the other", "H5@0", "", "N5", "ABCDE", NO },
    { "one byte, stored and drawn at 0", "N1", "A", "M1@0", "", NO },
    { "the first byte stored", "N1 M4@1", "A", "M5@0", "", NO },
    { "a byte in the middle stored", "M2@0 N1 M2@3", "C", "M5@0", "", NO },
    { "the last byte stored", "M4@0 N1", "E", "M5@0", "", NO },
    { "a byte more stored", "N2 M3@2", "AB", "N1 M4@1", "A", NO },
    { "all stored, and two bytes", "N2 M3@2", "AB", "N5", "ABCDE", NO },
    { "stored in several records and drawn", "N2 M1@2 N2", "ABDE", "M5@0", "", NO },
    { "drawn and stored in several records", "M5@0", "", "N1 M1@6 N1 M1@3 N1", "ACE", NO },
    { "stored where the other draws", "N2 M3@2", "AB", "M2@0 N3", "CDE", NO },
    { "stored at either end", "N2 M3@2", "AB", "M3@0 N2", "DE", NO },
    { "AA, of which either is stored, with one stored block", "N1 M1@0", "A", "M1@0 N1", "A", NO },
    { "ABAB, of which either half is stored, with one stored block", "N2 M2@0", "AB", "M2@0 N2", "AB", NO },
    { "XYABC, a stored block that would fit the other too", "N2 M3@0", "XY", "M2@10 N2 M1@2", "AB", NO },
    /* Each byte from the same place, but stored blocks that differ. */
    { "the first byte, stored", "N5", "ABCDE", "N5", "XBCDE", NO },
    { "a byte in the middle, stored", "N5", "ABCDE", "N5", "ABXDE", NO },
    { "the last byte, stored", "N5", "ABCDE", "N5", "ABCDX", NO },
    { "one stored byte", "N1", "a", "N1", "b", NO },
    { "the first stored byte behind a match", "M5@0 N2", "ab", "M5@0 N2", "Xb", NO },
    { "the last stored byte before a match", "N2 M5@0", "ab", "N2 M5@0", "aX", NO },
    { "the first byte of the second new record", "N2 M5@0 N2", "abcd", "N2 M5@0 N2", "abXd", NO },
    { "the last byte of the second new record", "N2 M5@0 N2", "abcd", "N2 M5@0 N2", "abcX", NO },
    { "a stored byte behind a run that is cut differently", "N2 M4@0 N2", "abcd", "N2 M1@0 M3@1 N2", "abcX", NO },
    { "a stored byte before a run that is cut differently", "N2 M4@0 N2", "abcd", "N2 M1@0 M3@1 N2", "aXcd", NO },
    { "stored bytes in another order", "N1 M1@10 N1", "ab", "N1 M1@10 N1", "ba", NO },
    { "stored bytes between held matches", "H2@0 N1 H2@2", "a", "H2@0 N1 H2@2", "b", NO },
    /* One is the beginning of the other. */
    { "an empty list and a drawn byte", "", "", "M1@0", "", NO },
    { "an empty list and a stored byte", "", "", "N1", "a", NO },
    { "a drawn byte less", "M4@0", "", "M5@0", "", NO },
    { "a held byte less", "H4@0", "", "H5@0", "", NO },
    { "a stored byte less", "N4", "ABCD", "N5", "ABCDE", NO },
    { "a match less", "M5@0", "", "M5@0 M1@5", "", NO },
    { "a match less, that does not go on", "M5@0", "", "M5@0 M2@10", "", NO },
    { "a new record less", "N1 M5@0", "a", "N1 M5@0 N1", "ab", NO },
    { "a match less behind a new record", "M5@0 N1", "a", "M5@0 N1 M1@0", "a", NO },
    { "a byte less of a run that is cut differently", "M2@0 M2@2", "", "M3@0 M2@3", "", NO },
    { "as many records, a byte less of the last", "M2@0 N1 M2@5", "a", "M2@0 N1 M3@5", "a", NO },
    /* Other bytes. */
    { "the first byte, held in both", "H2@0", "", "H2@10", "", NO },
    { "the last byte, drawn", "M4@0 M1@4", "", "M4@0 M1@10", "", NO },
    { "the last byte, stored and drawn", "N4 M1@4", "ABCD", "M4@0 N1", "X", NO },
    { "the first byte, before a cut of one", "M2@0 M3@2", "", "N1 M4@1", "X", NO },
    { "a byte behind a cut of one", "M1@0 N2 M2@3", "BX", "M5@0", "", NO },
    { "a byte in the middle, between other cuts", "M1@0 M4@1 M2@10", "", "M2@0 M4@2 M1@11", "", NO },
    { "the same parts in another order", "M2@0 M2@2", "", "M2@2 M2@0", "", NO },
    { "the same records in another order", "N2 M2@0", "ab", "M2@0 N2", "ab", NO },
    { "sizes that change places", "M2@0 M3@5", "", "M3@0 M2@5", "", NO },
};

/* Of the list at fault: 2 and 3 stand below. */
static const struct {
    const char *what, *list, *block;
    uint32_t number, place;
} at_fault[] = {
    { "kind 2", "M1@0 X5@0", "", 4, 1 },
    { "a mark on a new record", "M1@0 N1!1=1", "a", 4, 1 },
    { "byte 1 of a match at 2", "M1@0 M5@0!1=2", "", 4, 1 },
    { "byte 1 of a match at 255", "M1@0 M5@0!1=255", "", 4, 1 },
    { "byte 2 of a held match", "M1@0 H5@0!2", "", 4, 1 },
    { "byte 3 of a held match", "M1@0 H5@0!3", "", 4, 1 },
    { "a held match beyond the store", "M5@0 M2@10 H1@12", "", 7, 2 },
    { "new after new", "M1@0 N1 N1", "ab", 5, 2 },
    { "sizes of 16777217", "N1 M16777216@0", "a", 6, 1 },
    { "a match beyond the store", "M5@0 M2@10 M1@12", "", 7, 2 },
    { "a block one byte short", "N2", "a", 10, 0 },
    { "a block one byte longer", "N2", "abc", 10, 0 },
};

/* Two lists at fault: the first list's number stands. */
static const struct {
    const char *what, *first, *block, *second, *second_block;
    uint32_t number, place;
} both_at_fault[] = {
    { "7 at 1 of the first before 4 at 0 of the second", "M1@0 M1@12", "", "X1@0", "", 7, 1 },
    { "10 of the first before 4 of the second", "N2", "a", "N0", "", 10, 0 },
    { "10 of the first before 10 of the second", "N2", "a", "N1", "", 10, 0 },
    { "4 at 1 of the first before 4 at 0 of the second", "M1@0 N0", "", "N0", "", 4, 1 },
};

/* Accepted, with this yes or no, in both orders. */
static void expect_pair(const void *store, size_t length, const struct pair *p)
{
    const struct values want = { .entries = p->same };
    char what[96];
    size_t n = list_of(p->first, list), m = list_of(p->second, second);
    expect("compare", p->what, answered(compared_over(store, length, n, p->block, m, p->second_block), want) && untouched());
    n = list_of(p->second, list), m = list_of(p->first, second);
    snprintf(what, sizeof what, "%s, in the other order", p->what);
    expect("compare", what, answered(compared_over(store, length, n, p->second_block, m, p->block), want) && untouched());
}

static void test_compare(void)
{
    char what[80];
    for (size_t i = 0; i < sizeof worked_pairs / sizeof *worked_pairs; i++)
        expect_pair(ababc, 5, &worked_pairs[i]);
    for (size_t i = 0; i < sizeof pairs / sizeof *pairs; i++)
        expect_pair(twice, 12, &pairs[i]);
    /* The refused ones of clause 10.8. */
    list_of("M2@0 M3@3", list), list_of("N0", second);
    expect("compare", "7 at 1 of the first, over ABABC", refused(compared_over(ababc, 5, 24, "", 12, ""), 7, 1));
    list_of("N1", list), list_of("M1@0 N0", second);
    expect("compare", "4 at 1 of the second, over ABABC", refused(compared_over(ababc, 5, 12, "A", 24, ""), 4, 1));
    for (size_t i = 0; i < sizeof at_fault / sizeof *at_fault; i++) {
        size_t n = list_of(at_fault[i].list, list), m = list_of("N1 M1@0", second);
        snprintf(what, sizeof what, "%s in the first", at_fault[i].what);
        expect("compare", what, refused(compared(n, at_fault[i].block, m, "a"), at_fault[i].number, at_fault[i].place));
        n = list_of("N1 M1@0", list), m = list_of(at_fault[i].list, second);
        snprintf(what, sizeof what, "%s in the second", at_fault[i].what);
        expect("compare", what, refused(compared(n, "a", m, at_fault[i].block), at_fault[i].number, at_fault[i].place));
    }
    for (size_t i = 0; i < sizeof both_at_fault / sizeof *both_at_fault; i++) {
        size_t n = list_of(both_at_fault[i].first, list), m = list_of(both_at_fault[i].second, second);
        expect("compare", both_at_fault[i].what, refused(compared(n, both_at_fault[i].block, m, both_at_fault[i].second_block),
            both_at_fault[i].number, both_at_fault[i].place));
    }
    list_of("N1 M1@0", list), list_of("N1 M1@0", second);
    expect("compare", "11 bytes in the first", refused(compared(11, "a", 24, "a"), 3, 0));
    expect("compare", "11 bytes in the second", refused(compared(24, "a", 11, "a"), 3, 0));
    expect("compare", "10 of the first before 3 of the second", refused(compared(24, "", 11, "a"), 10, 0));
    fill_areas();
    expect("compare", "an answer area of 31 bytes", not_made(compare(list, 11, second, 24, list, 0, list, 0, list, 0, answer, ANSWER_BYTES - 1)));
}

/* ---- Partition, estimate, commit and pass: accepted ---- */

typedef uint32_t call(uint32_t en, uint32_t em, uint32_t f, const uint8_t *list, size_t list_len, const uint8_t *version,
                      size_t version_len, const uint8_t *store, size_t store_len, uint8_t *choice, size_t choice_len, uint8_t *list_area, size_t list_area_len,
                      uint8_t *block_area, size_t block_area_len, uint8_t *answer, size_t answer_len);

/* Estimate and commit with the arguments of partition. What they are not lent must stay: the areas for list and stored block, and that for the
 * choice, in whose place commit reads the one that is handed to it. */
static uint32_t estimated(uint32_t en, uint32_t em, uint32_t f, const uint8_t *from, size_t from_len, const uint8_t *version, size_t version_len,
                          const uint8_t *store, size_t store_len, uint8_t *bits, size_t bits_len, uint8_t *out, size_t out_len, uint8_t *block,
                          size_t block_len, uint8_t *result, size_t result_len)
{
    (void)out, (void)out_len, (void)block, (void)block_len;
    return estimate(en, em, f, from, from_len, version, version_len, store, store_len, bits, bits_len, result, result_len);
}

static uint32_t committed(uint32_t en, uint32_t em, uint32_t f, const uint8_t *from, size_t from_len, const uint8_t *version, size_t version_len,
                          const uint8_t *store, size_t store_len, uint8_t *bits, size_t bits_len, uint8_t *out, size_t out_len, uint8_t *block,
                          size_t block_len, uint8_t *result, size_t result_len)
{
    (void)bits, (void)bits_len;
    return commit(en, em, f, from, from_len, version, version_len, store, store_len, handed, handed_length, out, out_len, block, block_len, result,
                  result_len);
}

/* The letters A to Z and a to n. In the sheets new bytes are digits, and no match goes on in the store where the one before it ended. */
#define STORE "ABCDEFGHIJKLMNOPQRSTUVWXYZabcdefghijklmn"
#define SHEET_C "N5 M19@0 N5"
#define VERSION_C "01234ABCDEFGHIJKLMNOPQRS56789"
#define VERSION_E "01234UVWXYZabcdefghijklmABCDEFGHIJKLMNOPQRS56789"

/* The price, and how many bytes of the areas for choice, list and stored block are lent. */
struct terms {
    uint32_t en, em, f;
    size_t choice, list, block;
};
#define PRICED(en, em, f) { en, em, f, AREA, AREA, AREA }
#define AT(e, f) PRICED(e, e, f)
#define IN(choice, list, block) { 10, 10, 256, choice, list, block }

static uint32_t called(call *made, struct terms t, size_t n, const char *version, const char *store)
{
    fill_areas();
    return made(t.en, t.em, t.f, list, n, (const uint8_t *)version, strlen(version), (const uint8_t *)store, strlen(store), choice, t.choice, list_area,
                t.list, block_area, t.block, answer, sizeof answer);
}

struct accepted {
    const char *what;
    struct terms terms;
    const char *list, *version, *bits, *written, *stored;
    struct values want;
};

/* Whether a call gives what is wanted, and writes it: estimate no list and no stored block, commit no choice, as it is handed the one that the
 * others write. */
static int gives(call *made, const struct accepted *a, const char *store)
{
    uint8_t bits[AREA], written[AREA];
    size_t n = list_of(a->list, list), m = list_of(a->written, written), k = bits_of(a->bits, bits);
    hand(a->bits);
    return answered(called(made, a->terms, n, a->version, store), a->want) && holds(choice, bits, made == committed ? 0 : k)
        && holds(list_area, written, made == estimated ? 0 : m) && holds(block_area, a->stored, made == estimated ? 0 : strlen(a->stored))
        && holds(area, "", 0) && handed_stays();
}

/* The sheets, at F = 256 and every entry of 10 disk bytes, where partition and pass take the same choice; the looks are the pass's. */
static const struct accepted sheets[] = {
    { "sheet A", AT(10, 256), "", "", "", "", "", { 0 } },
    { "sheet B", AT(10, 256), "M1@0", "A", "0", "M1@0", "", { .cost = 256 * 10, .entries = 1, .looks = 1 } },
    { "sheet C", AT(10, 256), SHEET_C, VERSION_C, "111", "N29", VERSION_C, { .cost = 256 * 39, .entries = 1, .stored = 29, .looks = 2 } },
    { "sheet D", AT(10, 256), "N5 M20@0 N5", "01234ABCDEFGHIJKLMNOPQRST56789", "101", "N5 M20@0 N5", "0123456789",
      { .cost = 256 * 40, .entries = 3, .stored = 10, .looks = 3 } },
    { "sheet E", AT(10, 256), "N5 M19@20 M19@0 N5", VERSION_E, "1001", "N5 M19@20 M19@0 N5", "0123456789",
      { .cost = 256 * 50, .entries = 4, .stored = 10, .looks = 4 } },
    { "sheet F", AT(10, 256), "N1 M9@0", "0ABCDEFGHI", "11", "N10", "0ABCDEFGHI", { .cost = 256 * 20, .entries = 1, .stored = 10, .looks = 2 } },
    { "sheet G", AT(10, 256), "N1 M10@0", "0ABCDEFGHIJ", "10", "N1 M10@0", "0", { .cost = 256 * 21, .entries = 2, .stored = 1, .looks = 2 } },
    { "sheet H", AT(10, 256), "M4@8 M4@4 M4@0", "IJKLEFGHABCD", "111", "N12", "IJKLEFGHABCD", { .cost = 256 * 22, .entries = 1, .stored = 12, .looks = 4 } },
    { "sheet J", AT(10, 256), "M10@8 M4@4 M4@0", "IJKLMNOPQREFGHABCD", "011", "M10@8 N8", "EFGHABCD",
      { .cost = 256 * 28, .entries = 2, .stored = 8, .looks = 4 } },
    { "sheet C at EN and EM 2, F 1280", AT(2, 1280), SHEET_C, VERSION_C, "111", "N29", VERSION_C, { .cost = 256 * 39, .entries = 1, .stored = 29, .looks = 2 } },
    { "sheet C at the greatest price", AT(255, 65535), SHEET_C, VERSION_C, "111", "N29", VERSION_C,
      { .cost = 16718849, .entries = 1, .stored = 29, .looks = 2 } },
    { "sheet C in areas just long enough", IN(3, 36, 29), SHEET_C, VERSION_C, "111", "N29", VERSION_C,
      { .cost = 256 * 39, .entries = 1, .stored = 29, .looks = 2 } },
    { "sheet D in areas longer than it writes", IN(3, 36, 30), "N5 M20@0 N5", "01234ABCDEFGHIJKLMNOPQRST56789", "101", "N5 M20@0 N5", "0123456789",
      { .cost = 256 * 40, .entries = 3, .stored = 10, .looks = 3 } },
    { "sheet A in no areas", IN(0, 0, 0), "", "", "", "", "", { 0 } },
    { "a match to the end of the store", AT(10, 256), "M5@35", "jklmn", "0", "M5@35", "", { .cost = 256 * 10, .entries = 1, .looks = 1 } },
    /* At 8 disk bytes for an entry the first match joins; the last would add as much as its entry costs, and stays. */
    { "a tie", AT(8, 256), "M4@8 N8 M8@0", "IJKL01234567ABCDEFGH", "110", "N12 M8@0", "IJKL01234567", { .cost = 256 * 28, .entries = 2, .stored = 12, .looks = 4 } },
};

/* Factors with a fraction, over a store of STORE three times; again partition and pass take the same choice. A match of 1 byte costs 256 to
 * store: at F = 256 that is what its entry costs, a tie, and a 256th more or less decides. The last three are one list at EN and EM 10: of its
 * matches of 12 and 17 bytes an entry of 10 disk bytes is worth neither, of 15 the first, of 20 both. */
#define STORE_3 STORE STORE STORE
#define LIST_5 "N1 M12@0 M60@50 M17@20 N1"
#define VERSION_5 "0ABCDEFGHIJKLKLMNOPQRSTUVWXYZabcdefghijklmnABCDEFGHIJKLMNOPQRSTUVWXYZabcdUVWXYZabcdefghijk1"
static const struct accepted fractions[] = {
    { "F 1", AT(1, 1), "N1 M1@0", "0A", "10", "N1 M1@0", "0", { .cost = 258, .entries = 2, .stored = 1, .looks = 2 } },
    { "F 255", AT(1, 255), "N1 M1@0", "0A", "10", "N1 M1@0", "0", { .cost = 766, .entries = 2, .stored = 1, .looks = 2 } },
    { "F 256, a tie", AT(1, 256), "N1 M1@0", "0A", "10", "N1 M1@0", "0", { .cost = 768, .entries = 2, .stored = 1, .looks = 2 } },
    { "F 257", AT(1, 257), "N1 M1@0", "0A", "11", "N2", "0A", { .cost = 769, .entries = 1, .stored = 2, .looks = 2 } },
    { "five records at F 256", AT(10, 256), LIST_5, VERSION_5, "10001", LIST_5, "01", { .cost = 13312, .entries = 5, .stored = 2, .looks = 5 } },
    { "five records at F 384", AT(10, 384), LIST_5, VERSION_5, "11001", "N13 M60@50 M17@20 N1", "0ABCDEFGHIJKL1",
      { .cost = 18944, .entries = 4, .stored = 14, .looks = 5 } },
    { "five records at F 512", AT(10, 512), LIST_5, VERSION_5, "11011", "N13 M60@50 N18", "0ABCDEFGHIJKLUVWXYZabcdefghijk1",
      { .cost = 23296, .entries = 3, .stored = 31, .looks = 6 } },
};

/* A new entry cheaper or dearer than a match, where both take the same choice. In disk bytes: kept, sheet C costs 2 * 10 + 1 + 10; at EM 9 it
 * costs 2 * 10 + 9 + 10 kept and 10 + 29 stored, a tie. Sheet I's matches cost 1 + 18 stored, and the pass merges the first two, 12 + 1 being
 * below 2 * 10. A lone match of 4 costs 6 + 4 stored and 10 kept, a tie. At F 320 a match is worth 12.5: the pass stores those of 10 and of 3, as rule 2
 * has it, and then not the one of 14; the two costs are 320 * 11 + 256 * 15, and 320 + 256 * 29 with all stored. */
#define LONE "M20@20 M4@8 M20@0"
#define VERSION_LONE "UVWXYZabcdefghijklmnIJKLABCDEFGHIJKLMNOPQRST"
#define BACKWARDS "N2 M10@0 M3@20 M14@26"
#define VERSION_BACKWARDS "01ABCDEFGHIJUVWabcdefghijklmn"
static const struct accepted two_prices[] = {
    { "sheet C at EN 10, EM 1", PRICED(10, 1, 256), SHEET_C, VERSION_C, "101", SHEET_C, "0123456789",
      { .cost = 256 * 31, .entries = 3, .stored = 10, .looks = 3 } },
    { "sheet C at EN 10, EM 9, a tie", PRICED(10, 9, 256), SHEET_C, VERSION_C, "101", SHEET_C, "0123456789",
      { .cost = 256 * 39, .entries = 3, .stored = 10, .looks = 3 } },
    { "sheet I at EN 1, EM 10", PRICED(1, 10, 256), "M6@12 M6@6 M6@0", "MNOPQRGHIJKLABCDEF", "111", "N18", "MNOPQRGHIJKLABCDEF",
      { .cost = 256 * 19, .entries = 1, .stored = 18, .looks = 4 } },
    { "a lone match at EN 6, EM 10, a tie", PRICED(6, 10, 256), LONE, VERSION_LONE, "000", LONE, "", { .cost = 256 * 30, .entries = 3, .looks = 3 } },
    { "matches of 10, 3 and 14 at F 320", PRICED(1, 10, 320), BACKWARDS, VERSION_BACKWARDS, "1110", "N15 M14@26", "01ABCDEFGHIJUVW",
      { .cost = 7360, .entries = 2, .stored = 15, .looks = 4 } },
};

/* Matches that go on in the store where the one before them ended, at 10 disk bytes for an entry but where a price is said, and where both take
 * the same choice, which has a byte for each record handed in. Kept, a run costs 10: three matches of 4 are worth it then, and so are two of 14
 * between new records, 30 + 10 against 10 + 38 stored. Two of 9 there are not, 30 + 10 against 10 + 28. At EN 1 to store the middle match would cost
 * 10 + 1 + 10 and its 4 bytes, where the run costs 10. In the tie 10 + 10 + 2 is 10 + 12. Runs of 4 bytes and 4 cost 20 kept and 10 + 8 stored; the
 * pass merges them, goes back to the front mark, and on over the new record. */
static const struct accepted runs[] = {
    { "two matches that go on", AT(10, 256), "M10@0 M10@10", "ABCDEFGHIJKLMNOPQRST", "00", "M20@0", "", { .cost = 256 * 10, .entries = 1, .looks = 1 } },
    { "three matches that go on", AT(10, 256), "M4@8 M4@12 M4@16", "IJKLMNOPQRST", "000", "M12@8", "", { .cost = 256 * 10, .entries = 1, .looks = 1 } },
    { "a run to the end of the store", AT(10, 256), "M5@30 M5@35", "efghijklmn", "00", "M10@30", "", { .cost = 256 * 10, .entries = 1, .looks = 1 } },
    { "a run kept, its parts worth storing", AT(10, 256), "N5 M14@0 M14@14 N5", "01234ABCDEFGHIJKLMNOPQRSTUVWXYZab56789", "1001", "N5 M28@0 N5",
      "0123456789", { .cost = 256 * 40, .entries = 3, .stored = 10, .looks = 3 } },
    { "a run stored", AT(10, 256), "N5 M9@0 M9@9 N5", "01234ABCDEFGHIJKLMNOPQR56789", "1111", "N28", "01234ABCDEFGHIJKLMNOPQR56789",
      { .cost = 256 * 38, .entries = 1, .stored = 28, .looks = 2 } },
    { "the middle of a run at EN 1, EM 10", PRICED(1, 10, 256), "M20@0 M4@20 M16@24", STORE, "000", "M40@0", "",
      { .cost = 256 * 10, .entries = 1, .looks = 1 } },
    { "a run cut by a new record", AT(10, 256), "M20@0 N5 M20@20", "ABCDEFGHIJKLMNOPQRST01234UVWXYZabcdefghijklmn", "010", "M20@0 N5 M20@20", "01234",
      { .cost = 256 * 35, .entries = 3, .stored = 5, .looks = 3 } },
    { "a tie, by the records handed in", AT(10, 256), "M8@0 M2@8 N1 M1@20", "ABCDEFGHIJ0U", "0011", "M10@0 N2", "0U",
      { .cost = 256 * 22, .entries = 2, .stored = 2, .looks = 3 } },
    { "a run and a match that does not go on", AT(10, 256), "M4@0 M4@4 M4@20", "ABCDEFGHUVWX", "000", "M8@0 M4@20", "",
      { .cost = 256 * 20, .entries = 2, .looks = 2 } },
    { "a run merged with a match that does not go on", AT(10, 256), "M2@0 M2@2 M4@20", "ABCDUVWX", "111", "N8", "ABCDUVWX",
      { .cost = 256 * 18, .entries = 1, .stored = 8, .looks = 3 } },
    { "a match again, which does not go on", AT(10, 256), "M10@0 M10@0", "ABCDEFGHIJABCDEFGHIJ", "00", "M10@0 M10@0", "",
      { .cost = 256 * 20, .entries = 2, .looks = 2 } },
    { "a match whose bytes go on, from elsewhere", AT(10, 256), "M12@0 M12@13", "ABCDEFGHIJKLNOPQRSTUVWXY", "00", "M12@0 M12@13", "",
      { .cost = 256 * 20, .entries = 2, .looks = 2 } },
};

/* Held matches, at 10 disk bytes for an entry but where a price is said, and where both take the same choice: a held match is kept whatever it
 * costs, and for the rules of the pass it is of neither kind. Kept, sheet C costs 30 + 10, sheet F 20 + 1; sheet H with its middle held costs 30, and
 * 30 + 4 with an end stored. A run of which one half is held stays two records, 40 + 10 between new ones, where 30 + 24 stores the other half.
 * Beside a held match a match still joins a new record, 20 + 10 against 30 + 1 and 20 + 9 against 30 + 5, and two matches of 4 become one new
 * record, 20 + 8 against 30; then the pass goes back to the one before, a held one too. At 8 disk bytes for an entry a match of 8 costs the same
 * kept and stored, 24 + 8 and 16 + 16, and stays. */
#define VERSION_RUN "01234ABCDEFGHIJKLMNOPQRSTUVWXYZab56789"
static const struct accepted held[] = {
    { "sheet C held", AT(10, 256), "N5 H19@0 N5", VERSION_C, "101", "N5 H19@0 N5", "0123456789",
      { .cost = 256 * 40, .entries = 3, .stored = 10, .looks = 3 } },
    { "sheet C held, at the greatest price", AT(255, 65535), "N5 H19@0 N5", VERSION_C, "101", "N5 H19@0 N5", "0123456789",
      { .cost = 3 * 16711425 + 256 * 10, .entries = 3, .stored = 10, .looks = 3 } },
    { "sheet F held", AT(10, 256), "N1 H9@0", "0ABCDEFGHI", "10", "N1 H9@0", "0", { .cost = 256 * 21, .entries = 2, .stored = 1, .looks = 2 } },
    { "sheet H, its middle held", AT(10, 256), "M4@8 H4@4 M4@0", "IJKLEFGHABCD", "000", "M4@8 H4@4 M4@0", "",
      { .cost = 256 * 30, .entries = 3, .looks = 3 } },
    { "sheet H, its last held", AT(10, 256), "M4@8 M4@4 H4@0", "IJKLEFGHABCD", "110", "N8 H4@0", "IJKLEFGH",
      { .cost = 256 * 28, .entries = 2, .stored = 8, .looks = 4 } },
    { "sheet H, its first held", AT(10, 256), "H4@8 M4@4 M4@0", "IJKLEFGHABCD", "011", "H4@8 N8", "EFGHABCD",
      { .cost = 256 * 28, .entries = 2, .stored = 8, .looks = 4 } },
    { "a run, its second half held", AT(10, 256), "N5 M14@0 H14@14 N5", VERSION_RUN, "1001", "N5 M14@0 H14@14 N5", "0123456789",
      { .cost = 256 * 50, .entries = 4, .stored = 10, .looks = 4 } },
    { "a run, its first half held", AT(10, 256), "N5 H14@0 M14@14 N5", VERSION_RUN, "1001", "N5 H14@0 M14@14 N5", "0123456789",
      { .cost = 256 * 50, .entries = 4, .stored = 10, .looks = 4 } },
    { "a run held", AT(10, 256), "N5 H14@0 H14@14 N5", VERSION_RUN, "1001", "N5 H28@0 N5", "0123456789",
      { .cost = 256 * 40, .entries = 3, .stored = 10, .looks = 3 } },
    { "a run, its middle held", AT(10, 256), "M4@8 H4@12 M4@16", "IJKLMNOPQRST", "000", "M4@8 H4@12 M4@16", "",
      { .cost = 256 * 30, .entries = 3, .looks = 3 } },
    { "a run, its last not held", AT(10, 256), "H4@8 H4@12 M4@16", "IJKLMNOPQRST", "000", "H8@8 M4@16", "",
      { .cost = 256 * 20, .entries = 2, .looks = 2 } },
    { "a run, its last held", AT(10, 256), "M4@8 M4@12 H4@16", "IJKLMNOPQRST", "000", "M8@8 H4@16", "",
      { .cost = 256 * 20, .entries = 2, .looks = 2 } },
    { "a match that joins a new record before a held one", AT(10, 256), "N1 M9@0 H9@20", "0ABCDEFGHIUVWXYZabc", "110", "N10 H9@20", "0ABCDEFGHI",
      { .cost = 256 * 30, .entries = 2, .stored = 10, .looks = 3 } },
    { "a match that joins a new record after a held one", AT(10, 256), "H4@8 M4@4 N5", "IJKLEFGH01234", "011", "H4@8 N9", "EFGH01234",
      { .cost = 256 * 29, .entries = 2, .stored = 9, .looks = 4 } },
    { "a lone match held at EN 1, EM 10", PRICED(1, 10, 256), "M20@20 H4@8 M20@0", VERSION_LONE, "000", "M20@20 H4@8 M20@0", "",
      { .cost = 256 * 30, .entries = 3, .looks = 3 } },
    { "a tie before a held match", AT(8, 256), "M8@8 N8 H8@0", "IJKLMNOP01234567ABCDEFGH", "010", "M8@8 N8 H8@0", "01234567",
      { .cost = 256 * 32, .entries = 3, .stored = 8, .looks = 3 } },
};

/* Where the pass takes another choice than partition. Of sheet I's matches, and at EN 12 of sheet H's, no two are worth merging, but all three
 * are; a lone match is worth storing where 1 + 4 is below 10, and only partition does it. Matches of 14 that do not quite go on, a byte apart or
 * sharing one, are stored, 10 + 38 against 40 + 10, which the pass does not see. A held match beside them changes nothing of this. At F 256 a match of 10
 * is not worth storing by rule 2; so the pass merges those of 3 and 14, 17 + 1 being below 2 * 10, then all, 1 + 29, where 11 + 15 is the least. */
static const struct apart {
    struct accepted least, passed;
} apart[] = {
    { { "sheet I", AT(10, 256), "M6@12 M6@6 M6@0", "MNOPQRGHIJKLABCDEF", "111", "N18", "MNOPQRGHIJKLABCDEF",
        { .cost = 256 * 28, .entries = 1, .stored = 18 } },
      { "sheet I", AT(10, 256), "M6@12 M6@6 M6@0", "MNOPQRGHIJKLABCDEF", "000", "M6@12 M6@6 M6@0", "", { .cost = 256 * 30, .entries = 3, .looks = 3 } } },
    { { "sheet H at EN 12, EM 10", PRICED(12, 10, 256), "M4@8 M4@4 M4@0", "IJKLEFGHABCD", "111", "N12", "IJKLEFGHABCD",
        { .cost = 256 * 24, .entries = 1, .stored = 12 } },
      { "sheet H at EN 12, EM 10", PRICED(12, 10, 256), "M4@8 M4@4 M4@0", "IJKLEFGHABCD", "000", "M4@8 M4@4 M4@0", "",
        { .cost = 256 * 30, .entries = 3, .looks = 3 } } },
    { { "a lone match at EN 1, EM 10", PRICED(1, 10, 256), LONE, VERSION_LONE, "010", "M20@20 N4 M20@0", "IJKL",
        { .cost = 256 * 25, .entries = 3, .stored = 4 } },
      { "a lone match at EN 1, EM 10", PRICED(1, 10, 256), LONE, VERSION_LONE, "000", LONE, "", { .cost = 256 * 30, .entries = 3, .looks = 3 } } },
    { { "two matches a byte apart", AT(10, 256), "N5 M14@0 M14@15 N5", "01234ABCDEFGHIJKLMNPQRSTUVWXYZabc56789", "1111", "N38",
        "01234ABCDEFGHIJKLMNPQRSTUVWXYZabc56789", { .cost = 256 * 48, .entries = 1, .stored = 38 } },
      { "two matches a byte apart", AT(10, 256), "N5 M14@0 M14@15 N5", "01234ABCDEFGHIJKLMNPQRSTUVWXYZabc56789", "1001", "N5 M14@0 M14@15 N5", "0123456789",
        { .cost = 256 * 50, .entries = 4, .stored = 10, .looks = 4 } } },
    { { "two matches that share a byte", AT(10, 256), "N5 M14@0 M14@13 N5", "01234ABCDEFGHIJKLMNNOPQRSTUVWXYZa56789", "1111", "N38",
        "01234ABCDEFGHIJKLMNNOPQRSTUVWXYZa56789", { .cost = 256 * 48, .entries = 1, .stored = 38 } },
      { "two matches that share a byte", AT(10, 256), "N5 M14@0 M14@13 N5", "01234ABCDEFGHIJKLMNNOPQRSTUVWXYZa56789", "1001", "N5 M14@0 M14@13 N5",
        "0123456789", { .cost = 256 * 50, .entries = 4, .stored = 10, .looks = 4 } } },
    { { "one match at EN 1, EM 10", PRICED(1, 10, 256), "M4@0", "ABCD", "1", "N4", "ABCD", { .cost = 256 * 5, .entries = 1, .stored = 4 } },
      { "one match at EN 1, EM 10", PRICED(1, 10, 256), "M4@0", "ABCD", "0", "M4@0", "", { .cost = 256 * 10, .entries = 1, .looks = 1 } } },
    { { "sheet I before a held match", AT(10, 256), "M6@12 M6@6 M6@0 H6@20", "MNOPQRGHIJKLABCDEFUVWXYZ", "1110", "N18 H6@20", "MNOPQRGHIJKLABCDEF",
        { .cost = 256 * 38, .entries = 2, .stored = 18 } },
      { "sheet I before a held match", AT(10, 256), "M6@12 M6@6 M6@0 H6@20", "MNOPQRGHIJKLABCDEFUVWXYZ", "0000", "M6@12 M6@6 M6@0 H6@20", "",
        { .cost = 256 * 40, .entries = 4, .looks = 4 } } },
    { { "a lone match between held ones at EN 1, EM 10", PRICED(1, 10, 256), "H20@20 M4@8 H20@0", VERSION_LONE, "010", "H20@20 N4 H20@0", "IJKL",
        { .cost = 256 * 25, .entries = 3, .stored = 4 } },
      { "a lone match between held ones at EN 1, EM 10", PRICED(1, 10, 256), "H20@20 M4@8 H20@0", VERSION_LONE, "000", "H20@20 M4@8 H20@0", "",
        { .cost = 256 * 30, .entries = 3, .looks = 3 } } },
    { { "matches of 10, 3 and 14 at F 256", PRICED(1, 10, 256), BACKWARDS, VERSION_BACKWARDS, "1110", "N15 M14@26", "01ABCDEFGHIJUVW",
        { .cost = 256 * 26, .entries = 2, .stored = 15 } },
      { "matches of 10, 3 and 14 at F 256", PRICED(1, 10, 256), BACKWARDS, VERSION_BACKWARDS, "1111", "N29", VERSION_BACKWARDS,
        { .cost = 256 * 30, .entries = 1, .stored = 29, .looks = 4 } } },
};

/* Choices that are not the least, or not the first of those that cost least, at 10 disk bytes for an entry but where a price is said. Sheet C kept is
 * 30 + 10, sheet D stored 10 + 30, a tie; of sheet E all stored is 10 + 48, one match stored 30 + 29; of sheet H the middle stored is 30 + 4, both
 * ends 30 + 8; of sheet J all stored 10 + 18, a tie, its first alone 30 + 10, its first and last 30 + 14. Three matches that go on in the store join
 * where neighbours are kept: 30 + 4 with the middle stored, 20 + 4 with an end, 20 + 8 with two neighbours, 30 + 8 with both ends, 10 + 12 with all.
 * A run that a new record cuts is 20 + 25 with one half stored, one of which the other half is held 30 + 24. At EN 1, EM 10 a lone match stored with
 * both beside it is 1 + 44, and both without it are 2 + 10 + 40. */
static const struct accepted commits[] = {
    { "sheet C, its match kept", AT(10, 256), SHEET_C, VERSION_C, "101", SHEET_C, "0123456789", { .cost = 256 * 40, .entries = 3, .stored = 10 } },
    { "sheet C, its match kept, in areas just long enough", IN(0, 36, 29), SHEET_C, VERSION_C, "101", SHEET_C, "0123456789",
      { .cost = 256 * 40, .entries = 3, .stored = 10 } },
    { "sheet C, its match kept, at the greatest price", AT(255, 65535), SHEET_C, VERSION_C, "101", SHEET_C, "0123456789",
      { .cost = 3 * 16711425 + 256 * 10, .entries = 3, .stored = 10 } },
    { "sheet C stored at EN and EM 1, F 1", AT(1, 1), SHEET_C, VERSION_C, "111", "N29", VERSION_C, { .cost = 1 + 256 * 29, .entries = 1, .stored = 29 } },
    { "sheet C stored at EN 10, EM 1", PRICED(10, 1, 256), SHEET_C, VERSION_C, "111", "N29", VERSION_C,
      { .cost = 256 * 39, .entries = 1, .stored = 29 } },
    { "sheet C, its match kept, at EN 255, EM 1, F 65535", PRICED(255, 1, 65535), SHEET_C, VERSION_C, "101", SHEET_C, "0123456789",
      { .cost = 2 * 16711425 + 65535 + 256 * 10, .entries = 3, .stored = 10 } },
    { "sheet C, its match kept, at EN 1, EM 255, F 65535", PRICED(1, 255, 65535), SHEET_C, VERSION_C, "101", SHEET_C, "0123456789",
      { .cost = 2 * 65535 + 16711425 + 256 * 10, .entries = 3, .stored = 10 } },
    { "sheet D stored, a tie", AT(10, 256), "N5 M20@0 N5", "01234ABCDEFGHIJKLMNOPQRST56789", "111", "N30", "01234ABCDEFGHIJKLMNOPQRST56789",
      { .cost = 256 * 40, .entries = 1, .stored = 30 } },
    { "sheet E stored", AT(10, 256), "N5 M19@20 M19@0 N5", VERSION_E, "1111", "N48", VERSION_E, { .cost = 256 * 58, .entries = 1, .stored = 48 } },
    { "sheet E, its first match stored", AT(10, 256), "N5 M19@20 M19@0 N5", VERSION_E, "1101", "N24 M19@0 N5", "01234UVWXYZabcdefghijklm56789",
      { .cost = 256 * 59, .entries = 3, .stored = 29 } },
    { "sheet E, its second match stored", AT(10, 256), "N5 M19@20 M19@0 N5", VERSION_E, "1011", "N5 M19@20 N24", "01234ABCDEFGHIJKLMNOPQRS56789",
      { .cost = 256 * 59, .entries = 3, .stored = 29 } },
    { "sheet H, its middle stored", AT(10, 256), "M4@8 M4@4 M4@0", "IJKLEFGHABCD", "010", "M4@8 N4 M4@0", "EFGH",
      { .cost = 256 * 34, .entries = 3, .stored = 4 } },
    { "sheet H, its ends stored", AT(10, 256), "M4@8 M4@4 M4@0", "IJKLEFGHABCD", "101", "N4 M4@4 N4", "IJKLABCD",
      { .cost = 256 * 38, .entries = 3, .stored = 8 } },
    { "sheet J stored, a tie", AT(10, 256), "M10@8 M4@4 M4@0", "IJKLMNOPQREFGHABCD", "111", "N18", "IJKLMNOPQREFGHABCD",
      { .cost = 256 * 28, .entries = 1, .stored = 18 } },
    { "sheet J, its first stored", AT(10, 256), "M10@8 M4@4 M4@0", "IJKLMNOPQREFGHABCD", "100", "N10 M4@4 M4@0", "IJKLMNOPQR",
      { .cost = 256 * 40, .entries = 3, .stored = 10 } },
    { "sheet J, its ends stored", AT(10, 256), "M10@8 M4@4 M4@0", "IJKLMNOPQREFGHABCD", "101", "N10 M4@4 N4", "IJKLMNOPQRABCD",
      { .cost = 256 * 44, .entries = 3, .stored = 14 } },
    { "F 1, stored", AT(1, 1), "N1 M1@0", "0A", "11", "N2", "0A", { .cost = 513, .entries = 1, .stored = 2 } },
    { "F 255, stored", AT(1, 255), "N1 M1@0", "0A", "11", "N2", "0A", { .cost = 767, .entries = 1, .stored = 2 } },
    { "F 256, stored, a tie", AT(1, 256), "N1 M1@0", "0A", "11", "N2", "0A", { .cost = 768, .entries = 1, .stored = 2 } },
    { "F 257, kept", AT(1, 257), "N1 M1@0", "0A", "10", "N1 M1@0", "0", { .cost = 770, .entries = 2, .stored = 1 } },
    { "one match stored", AT(10, 256), "M1@0", "A", "1", "N1", "A", { .cost = 256 * 11, .entries = 1, .stored = 1 } },
    { "one new record", AT(10, 256), "N4", "0123", "1", "N4", "0123", { .cost = 256 * 14, .entries = 1, .stored = 4 } },
    { "a lone match, and both beside it, at EN 1, EM 10", PRICED(1, 10, 256), LONE, VERSION_LONE, "111", "N44", VERSION_LONE,
      { .cost = 256 * 45, .entries = 1, .stored = 44 } },
    { "both beside a lone match at EN 1, EM 10", PRICED(1, 10, 256), LONE, VERSION_LONE, "101", "N20 M4@8 N20",
      "UVWXYZabcdefghijklmnABCDEFGHIJKLMNOPQRST", { .cost = 256 * 52, .entries = 3, .stored = 40 } },
    { "a run, its middle stored", AT(10, 256), "M4@8 M4@12 M4@16", "IJKLMNOPQRST", "010", "M4@8 N4 M4@16", "MNOP",
      { .cost = 256 * 34, .entries = 3, .stored = 4 } },
    { "a run, its first stored", AT(10, 256), "M4@8 M4@12 M4@16", "IJKLMNOPQRST", "100", "N4 M8@12", "IJKL",
      { .cost = 256 * 24, .entries = 2, .stored = 4 } },
    { "a run, its last stored", AT(10, 256), "M4@8 M4@12 M4@16", "IJKLMNOPQRST", "001", "M8@8 N4", "QRST",
      { .cost = 256 * 24, .entries = 2, .stored = 4 } },
    { "a run, its first two stored", AT(10, 256), "M4@8 M4@12 M4@16", "IJKLMNOPQRST", "110", "N8 M4@16", "IJKLMNOP",
      { .cost = 256 * 28, .entries = 2, .stored = 8 } },
    { "a run, its last two stored", AT(10, 256), "M4@8 M4@12 M4@16", "IJKLMNOPQRST", "011", "M4@8 N8", "MNOPQRST",
      { .cost = 256 * 28, .entries = 2, .stored = 8 } },
    { "a run, its ends stored", AT(10, 256), "M4@8 M4@12 M4@16", "IJKLMNOPQRST", "101", "N4 M4@12 N4", "IJKLQRST",
      { .cost = 256 * 38, .entries = 3, .stored = 8 } },
    { "a run stored, one kept being cheaper", AT(10, 256), "M4@8 M4@12 M4@16", "IJKLMNOPQRST", "111", "N12", "IJKLMNOPQRST",
      { .cost = 256 * 22, .entries = 1, .stored = 12 } },
    { "a run cut by a new record, its first half stored", AT(10, 256), "M20@0 N5 M20@20", "ABCDEFGHIJKLMNOPQRST01234UVWXYZabcdefghijklmn", "110",
      "N25 M20@20", "ABCDEFGHIJKLMNOPQRST01234", { .cost = 256 * 45, .entries = 2, .stored = 25 } },
    { "a run cut by a new record, its second half stored", AT(10, 256), "M20@0 N5 M20@20", "ABCDEFGHIJKLMNOPQRST01234UVWXYZabcdefghijklmn", "011",
      "M20@0 N25", "01234UVWXYZabcdefghijklmn", { .cost = 256 * 45, .entries = 2, .stored = 25 } },
    { "a run, its first half stored, its second held", AT(10, 256), "N5 M14@0 H14@14 N5", VERSION_RUN, "1101", "N19 H14@14 N5",
      "01234ABCDEFGHIJKLMN56789", { .cost = 256 * 54, .entries = 3, .stored = 24 } },
    { "a run, its second half stored, its first held", AT(10, 256), "N5 H14@0 M14@14 N5", VERSION_RUN, "1011", "N5 H14@0 N19",
      "01234OPQRSTUVWXYZab56789", { .cost = 256 * 54, .entries = 3, .stored = 24 } },
    { "a held run, its end stored", AT(10, 256), "H4@8 H4@12 M4@16", "IJKLMNOPQRST", "001", "H8@8 N4", "QRST",
      { .cost = 256 * 24, .entries = 2, .stored = 4 } },
};

/* Eight records: two runs, a held one and one that is not, and a match that goes on from the held one without its mark. Kept, 60 + 3 for six entries;
 * with each second match stored, from the first one on or from the second, 60 + 11; with all but the held ones stored, 30 + 19. At the greatest price
 * the entries cost 16,711,425 each. */
#define LIST_8 "N2 M4@0 M4@4 H4@8 H4@12 M4@16 M4@30 N1"
#define VERSION_8 "01ABCDEFGHIJKLMNOPQRSTefgh2"
static const struct accepted commits_of_8[] = {
    { "eight records, all matches kept", AT(10, 256), LIST_8, VERSION_8, "10000001", "N2 M8@0 H8@8 M4@16 M4@30 N1", "012",
      { .cost = 256 * 63, .entries = 6, .stored = 3 } },
    { "eight records, all matches kept at the greatest price", AT(255, 65535), LIST_8, VERSION_8, "10000001", "N2 M8@0 H8@8 M4@16 M4@30 N1", "012",
      { .cost = 6 * 16711425 + 256 * 3, .entries = 6, .stored = 3 } },
    { "eight records, the first and each second match stored", AT(10, 256), LIST_8, VERSION_8, "11000101", "N6 M4@4 H8@8 N4 M4@30 N1", "01ABCDQRST2",
      { .cost = 256 * 71, .entries = 6, .stored = 11 } },
    { "eight records, the second and each second match stored", AT(10, 256), LIST_8, VERSION_8, "10100011", "N2 M4@0 N4 H8@8 M4@16 N5", "01EFGHefgh2",
      { .cost = 256 * 71, .entries = 6, .stored = 11 } },
    { "eight records, all stored but the held ones", AT(10, 256), LIST_8, VERSION_8, "11100111", "N10 H8@8 N9", "01ABCDEFGHQRSTefgh2",
      { .cost = 256 * 49, .entries = 3, .stored = 19 } },
};

/* Partition; estimate, and commit of the choice that it must have written; then the list that partition wrote, which comes back with its marks, and
 * with 0 for each match and 1 for each new record. */
static void give_twice(struct accepted a, const char *store)
{
    char what[80], bits[AREA] = "";
    uint8_t written[AREA];
    expect("partition", a.what, gives(partition, &a, store));
    expect("estimate", a.what, gives(estimated, &a, store));
    expect("commit", a.what, gives(committed, &a, store));
    for (size_t i = list_of(a.written, written) / RECORD_BYTES; i > 0; i--)
        bits[i - 1] = written[RECORD_BYTES * (i - 1)] == KIND_NEW ? '1' : '0';
    snprintf(what, sizeof what, "%s, handed in again", a.what);
    a.list = a.written;
    a.bits = bits;
    expect("partition", what, gives(partition, &a, store));
}

/* Pass and partition, of which partition gives no looks. */
static void give_both(struct accepted a, const char *store)
{
    expect("pass", a.what, gives(pass, &a, store));
    a.want.looks = 0;
    give_twice(a, store);
}

static void test_accepted(void)
{
    for (size_t i = 0; i < sizeof sheets / sizeof *sheets; i++)
        give_both(sheets[i], STORE);
    for (size_t i = 0; i < sizeof fractions / sizeof *fractions; i++)
        give_both(fractions[i], STORE_3);
    for (size_t i = 0; i < sizeof two_prices / sizeof *two_prices; i++)
        give_both(two_prices[i], STORE);
    for (size_t i = 0; i < sizeof runs / sizeof *runs; i++)
        give_both(runs[i], STORE);
    for (size_t i = 0; i < sizeof held / sizeof *held; i++)
        give_both(held[i], STORE);
    for (size_t i = 0; i < sizeof apart / sizeof *apart; i++) {
        struct accepted passed = apart[i].passed;
        give_twice(apart[i].least, STORE);
        expect("pass", passed.what, gives(pass, &passed, STORE));
        passed.want.looks = 0;
        expect("commit", passed.what, gives(committed, &passed, STORE));
    }
    for (size_t i = 0; i < sizeof commits / sizeof *commits; i++)
        expect("commit", commits[i].what, gives(committed, &commits[i], STORE));
    for (size_t i = 0; i < sizeof commits_of_8 / sizeof *commits_of_8; i++)
        expect("commit", commits_of_8[i].what, gives(committed, &commits_of_8[i], STORE));
}

/* ---- Partition, estimate and commit: one list at rising factors (section 8.9) ---- */

/* A choice that is least at some factor: its bytes, the list and the stored block that it makes, and the list's index bytes. */
struct made {
    const char *bits, *written, *block;
    uint32_t index;
};

/* One list with EN and EM, its choices, and the factors, each with the choice that is least there, counted from 0, and its cost. */
enum { RISING_CHOICES = 4, RISING_FACTORS = 12 };

struct rising {
    const char *what;
    uint32_t en, em;
    const char *list, *version;
    struct made choices[RISING_CHOICES];
    struct {
        uint32_t f, choice;
        uint64_t cost;
    } factors[RISING_FACTORS];
};

/* Over STORE six times. A cost is F * index bytes + 256 * stored bytes. One choice gives way to the next where what it has more in index bytes, at F
 * each, costs more than what that has more in stored bytes, at 256 each; where it costs as much, it stays, as it keeps the first match that the other
 * stores.
 *
 * Five records: 50 index bytes and 2 stored; 40 and 14; 30 and 31; 10 and 91. 10 F against 256 * 12, 307.2; 10 F against 256 * 17, 435.2; 20 F against
 * 256 * 60, which is a tie at 768. To store the first match and the middle one is 30 and 74, the middle and the last 30 and 79, the middle 50 and 62.
 * A match of 10: 20 and 1; 10 and 11. 10 F against 256 * 10, a tie at 256. One of 200 at an index byte for an entry: 2 and 1; 1 and 201. F against
 * 256 * 200, a tie at 51,200.
 * A lone match: 30 and 0; 21 and 4; with one beside it 11 and 24, with both 1 and 44. 9 F against 256 * 4, 113.8; then 10 F against 256 * 20 and 20 F
 * against 256 * 40, a tie of all three at 512, behind which all are stored.
 * Matches of 5: 30 and 0; all stored 10 and 15. 20 F against 256 * 15, a tie at 192. Two of them stored are 20 and 10, 256 for 10 index bytes.
 * A run: 30 and 10; 10 and 40. 20 F against 256 * 30, a tie at 384; two entries for it would be 40, and a tie at 256.
 * A run of three: 10 and 0; 1 and 40. 9 F against 256 * 40, 1,137.8.
 * A run, its second half held: 40 and 10; 30 and 25. 10 F against 256 * 15, a tie at 384.
 * A held match between two: 50 and 10; 40 and 20; 30 and 40. 10 F against 256 * 10, a tie at 256; 10 F against 256 * 20, a tie at 512. All of it would
 * be 10 and 44, which is no choice.
 * A lone match between held ones: 30 and 0; 21 and 4, as above, and no more is given up.
 * EN above EM: 21 and 10; 10 and 32. 11 F against 256 * 22, a tie at 512. A lone match is 1 and 0, stored 10 and 4, and stays.
 * A held match alone: 30 and 10. No records: 0 and 0. */
#define LIST_RISING "N1 M12@0 M60@50 M17@200 N1"
#define MATCH_60 "KLMNOPQRSTUVWXYZabcdefghijklmnABCDEFGHIJKLMNOPQRSTUVWXYZabcd"
#define VERSION_RISING "0ABCDEFGHIJKL" MATCH_60 "ABCDEFGHIJKLMNOPQ1"
#define LIST_BETWEEN "N5 M10@0 H4@20 M20@0 N5"
#define VERSION_BETWEEN "01234ABCDEFGHIJUVWXABCDEFGHIJKLMNOPQRST56789"
#define VERSION_30 "01234ABCDEFGHIJKLMNOPQRSTUVWXYZabcd56789"
static const struct rising risings[] = {
    { "five records", 10, 10, LIST_RISING, VERSION_RISING,
      { { "10001", LIST_RISING, "01", 50 }, { "11001", "N13 M60@50 M17@200 N1", "0ABCDEFGHIJKL1", 40 },
        { "11011", "N13 M60@50 N18", "0ABCDEFGHIJKLABCDEFGHIJKLMNOPQ1", 30 }, { "11111", "N91", VERSION_RISING, 10 } },
      { { 1, 0, 562 }, { 256, 0, 13312 }, { 307, 0, 15862 }, { 308, 1, 15904 }, { 384, 1, 18944 }, { 435, 1, 20984 }, { 436, 2, 21016 }, { 512, 2, 23296 },
        { 767, 2, 30946 }, { 768, 2, 30976 }, { 769, 3, 30986 }, { 65535, 3, 678646 } } },
    { "a match of 10", 10, 10, "N1 M10@0", "0ABCDEFGHIJ", { { "10", "N1 M10@0", "0", 20 }, { "11", "N11", "0ABCDEFGHIJ", 10 } },
      { { 1, 0, 276 }, { 255, 0, 5356 }, { 256, 0, 5376 }, { 257, 1, 5386 }, { 65535, 1, 658166 } } },
    { "a match of 200, EN and EM 1", 1, 1, "N1 M200@0", "0" STORE_3 STORE STORE,
      { { "10", "N1 M200@0", "0", 2 }, { "11", "N201", "0" STORE_3 STORE STORE, 1 } },
      { { 1, 0, 258 }, { 32767, 0, 65790 }, { 32768, 0, 65792 }, { 51199, 0, 102654 }, { 51200, 0, 102656 }, { 51201, 1, 102657 }, { 65535, 1, 116991 } } },
    { "a lone match, EN 1 and EM 10", 1, 10, LONE, VERSION_LONE,
      { { "000", LONE, "", 30 }, { "010", "M20@20 N4 M20@0", "IJKL", 21 }, { "111", "N44", VERSION_LONE, 1 } },
      { { 1, 0, 30 }, { 113, 0, 3390 }, { 114, 1, 3418 }, { 256, 1, 6400 }, { 511, 1, 11755 }, { 512, 1, 11776 }, { 513, 2, 11777 }, { 65535, 2, 76799 } } },
    { "matches of 5", 10, 10, "M5@10 M5@5 M5@0", "KLMNOFGHIJABCDE", { { "000", "M5@10 M5@5 M5@0", "", 30 }, { "111", "N15", "KLMNOFGHIJABCDE", 10 } },
      { { 1, 0, 30 }, { 191, 0, 5730 }, { 192, 0, 5760 }, { 193, 1, 5770 }, { 65535, 1, 659190 } } },
    { "a run", 10, 10, "N5 M15@0 M15@15 N5", VERSION_30, { { "1001", "N5 M30@0 N5", "0123456789", 30 }, { "1111", "N40", VERSION_30, 10 } },
      { { 256, 0, 10240 }, { 383, 0, 14050 }, { 384, 0, 14080 }, { 385, 1, 14090 }, { 65535, 1, 665590 } } },
    { "a run of three, EN 1 and EM 10", 1, 10, "M20@0 M4@20 M16@24", STORE, { { "000", "M40@0", "", 10 }, { "111", "N40", STORE, 1 } },
      { { 1, 0, 10 }, { 1137, 0, 11370 }, { 1138, 1, 11378 }, { 65535, 1, 75775 } } },
    { "a run, its second half held", 10, 10, "N5 M15@0 H15@15 N5", VERSION_30,
      { { "1001", "N5 M15@0 H15@15 N5", "0123456789", 40 }, { "1101", "N20 H15@15 N5", "01234ABCDEFGHIJKLMNO56789", 30 } },
      { { 383, 0, 17880 }, { 384, 0, 17920 }, { 385, 1, 17950 }, { 65535, 1, 1972450 } } },
    { "a held match between two", 10, 10, LIST_BETWEEN, VERSION_BETWEEN,
      { { "10001", LIST_BETWEEN, "0123456789", 50 }, { "11001", "N15 H4@20 M20@0 N5", "01234ABCDEFGHIJ56789", 40 },
        { "11011", "N15 H4@20 N25", "01234ABCDEFGHIJABCDEFGHIJKLMNOPQRST56789", 30 } },
      { { 255, 0, 15310 }, { 256, 0, 15360 }, { 257, 1, 15400 }, { 511, 1, 25560 }, { 512, 1, 25600 }, { 513, 2, 25630 }, { 65535, 2, 1976290 } } },
    { "a lone match between held ones, EN 1 and EM 10", 1, 10, "H20@20 M4@8 H20@0", VERSION_LONE,
      { { "000", "H20@20 M4@8 H20@0", "", 30 }, { "010", "H20@20 N4 H20@0", "IJKL", 21 } },
      { { 113, 0, 3390 }, { 114, 1, 3418 }, { 65535, 1, 1377259 } } },
    { "a match of 22, EN 10 and EM 1", 10, 1, "N5 M22@0 N5", "01234ABCDEFGHIJKLMNOPQRSTUV56789",
      { { "101", "N5 M22@0 N5", "0123456789", 21 }, { "111", "N32", "01234ABCDEFGHIJKLMNOPQRSTUV56789", 10 } },
      { { 1, 0, 2581 }, { 511, 0, 13291 }, { 512, 0, 13312 }, { 513, 1, 13322 }, { 65535, 1, 663542 } } },
    { "a lone match, EN 10 and EM 1", 10, 1, "M4@0", "ABCD", { { "0", "M4@0", "", 1 } }, { { 1, 0, 1 }, { 65535, 0, 65535 } } },
    { "a held match alone", 10, 10, "N5 H19@0 N5", VERSION_C, { { "101", "N5 H19@0 N5", "0123456789", 30 } }, { { 1, 0, 2590 }, { 65535, 0, 1968610 } } },
    { "no records", 10, 10, "", "", { { "", "", "", 0 } }, { { 1, 0, 0 }, { 65535, 0, 0 } } },
};

#define STORE_6 STORE_3 STORE_3

/* What is wanted of a list at its factor i, where choice c is taken. */
static struct accepted taken_at(const struct rising *r, size_t i, size_t c, const char *what)
{
    const struct made *k = &r->choices[c];
    uint8_t written[AREA];
    const uint32_t f = r->factors[i].f, entries = (uint32_t)(list_of(k->written, written) / RECORD_BYTES), stored = (uint32_t)strlen(k->block);
    return (struct accepted){ what, PRICED(r->en, r->em, f), r->list, r->version, k->bits, k->written, k->block,
                              { .cost = (uint64_t)f * k->index + 256 * (uint64_t)stored, .entries = entries, .stored = stored } };
}

/* The index bytes of the list that the last call wrote. */
static uint64_t index_written(const struct rising *r)
{
    uint64_t bytes = 0;
    for (size_t i = 0; i < answer_entries(answer) && RECORD_BYTES * i < AREA; i++)
        bytes += list_area[RECORD_BYTES * i] == KIND_NEW ? r->en : r->em;
    return bytes;
}

/* What the calls answered at a factor, partition and estimate, and the index bytes of the lists: the one that partition wrote, and the one that the
 * estimate's choice is committed to. */
struct answered_at {
    uint32_t stored[2];
    uint64_t index[2], cost[2];
};

static struct answered_at ask(const struct rising *r, size_t i)
{
    const struct terms t = PRICED(r->en, r->em, r->factors[i].f);
    const size_t n = list_of(r->list, list);
    struct answered_at a;
    called(partition, t, n, r->version, STORE_6);
    a.stored[0] = answer_stored(answer), a.cost[0] = answer_cost(answer), a.index[0] = index_written(r);
    called(estimated, t, n, r->version, STORE_6);
    a.stored[1] = answer_stored(answer), a.cost[1] = answer_cost(answer);
    handed_length = n / RECORD_BYTES;
    memcpy(handed, choice, AREA);
    called(committed, t, n, r->version, STORE_6);
    a.index[1] = index_written(r);
    return a;
}

/* Partition or estimate at a factor and at a greater one: no more index bytes, no fewer stored ones, neither changed alone, and no lesser cost. */
static int rises(const struct answered_at *a, const struct answered_at *b, int of)
{
    return b->index[of] <= a->index[of] && b->stored[of] >= a->stored[of] && (b->index[of] == a->index[of]) == (b->stored[of] == a->stored[of])
        && b->cost[of] >= a->cost[of];
}

/* A list at factor i, and beside each greater factor; and each other factor's choice, committed at this one, which costs no less than the least. */
static void test_rising_at(const struct rising *r, size_t i, size_t factors)
{
    char what[112];
    const uint64_t cost = r->factors[i].cost;
    const uint32_t f = r->factors[i].f;
    snprintf(what, sizeof what, "%s at F %u", r->what, (unsigned)f);
    struct accepted least = taken_at(r, i, r->factors[i].choice, what);
    least.want.cost = cost;
    give_twice(least, STORE_6);
    const struct answered_at here = ask(r, i);
    const uint64_t index = r->choices[r->factors[i].choice].index;
    expect("partition", what, here.index[0] == index && here.cost[0] == f * index + 256 * (uint64_t)here.stored[0]);
    expect("estimate", what, here.index[1] == index && here.cost[1] == f * index + 256 * (uint64_t)here.stored[1]);
    for (size_t j = 0; j < factors; j++) {
        snprintf(what, sizeof what, "%s at F %u, beside F %u", r->what, (unsigned)f, (unsigned)r->factors[j].f);
        const struct answered_at there = ask(r, j);
        if (j > i) {
            expect("partition", what, rises(&here, &there, 0));
            expect("estimate", what, rises(&here, &there, 1));
        }
        const struct accepted other = taken_at(r, i, r->factors[j].choice, what);
        if (j != i)
            expect("commit", what, gives(committed, &other, STORE_6) && other.want.cost >= cost);
    }
}

static void test_rising(void)
{
    for (size_t k = 0; k < sizeof risings / sizeof *risings; k++) {
        size_t factors = 0;
        while (factors < RISING_FACTORS && risings[k].factors[factors].f > 0)
            factors++;
        for (size_t i = 0; i < factors; i++)
            test_rising_at(&risings[k], i, factors);
    }
}

/* ---- Partition, estimate, commit and pass: refused, all with the same number and place ---- */

static const struct {
    const char *what;
    struct terms terms;
    const char *list, *version, *store;
    uint32_t number, place;
} refusals[] = {
    { "EN 0", PRICED(0, 10, 256), SHEET_C, VERSION_C, STORE, 1, 0 },
    { "EN 256", PRICED(256, 10, 256), SHEET_C, VERSION_C, STORE, 1, 0 },
    { "EM 0", PRICED(10, 0, 256), SHEET_C, VERSION_C, STORE, 1, 0 },
    { "EM 256", PRICED(10, 256, 256), SHEET_C, VERSION_C, STORE, 1, 0 },
    { "F 0", AT(10, 0), SHEET_C, VERSION_C, STORE, 1, 0 },
    { "F 65536", AT(10, 65536), SHEET_C, VERSION_C, STORE, 1, 0 },
    { "kind 2", AT(10, 256), "X5 M19@0 N5", VERSION_C, STORE, 4, 0 },
    { "byte 2", AT(10, 256), "N5 M19@0!2 N5", VERSION_C, STORE, 4, 1 },
    { "a mark on a new record", AT(10, 256), "N5 M19@0 N5!1=1", VERSION_C, STORE, 4, 2 },
    { "byte 1 of a match at 2", AT(10, 256), "N5 M19@0!1=2 N5", VERSION_C, STORE, 4, 1 },
    { "byte 1 of a match at 255", AT(10, 256), "N5 M19@0!1=255 N5", VERSION_C, STORE, 4, 1 },
    { "byte 2 of a held match", AT(10, 256), "N5 H19@0!2 N5", VERSION_C, STORE, 4, 1 },
    { "byte 3 of a held match", AT(10, 256), "N5 H19@0!3 N5", VERSION_C, STORE, 4, 1 },
    { "size 0", AT(10, 256), "N5 M19@0 M0@0", VERSION_C, STORE, 4, 2 },
    { "a new record with an address", AT(10, 256), "N5 M19@0 N5@1", VERSION_C, STORE, 4, 2 },
    { "new after new", AT(10, 256), "N5 N19 N5", VERSION_C, STORE, 5, 1 },
    { "one byte too many", AT(10, 256), "N5 M19@0 N6", VERSION_C, STORE, 6, 2 },
    { "one record too many", AT(10, 256), "N5 M19@0 N5 M1@0", VERSION_C, STORE, 6, 3 },
    { "sizes that pass 2^32", AT(10, 256), "N5 M4294967295@0 N5", VERSION_C, STORE, 6, 1 },
    { "one byte too few", AT(10, 256), "N5 M19@0 N4", VERSION_C, STORE, 6, 3 },
    { "no records for a version", AT(10, 256), "", VERSION_C, STORE, 6, 0 },
    { "a record for no version", AT(10, 256), "N1", "", STORE, 6, 0 },
    { "a match of 19 in a store of 18", AT(10, 256), SHEET_C, VERSION_C, "ABCDEFGHIJKLMNOPQR", 7, 1 },
    { "a match of 5 at 15 in a store of 19", AT(10, 256), "M5@15", "PQRST", "ABCDEFGHIJKLMNOPQRS", 7, 0 },
    { "no store", AT(10, 256), SHEET_C, VERSION_C, "", 7, 1 },
    { "a held match of 19 in a store of 18", AT(10, 256), "N5 H19@0 N5", VERSION_C, "ABCDEFGHIJKLMNOPQR", 7, 1 },
    { "address 4294967295", AT(10, 256), "N5 M19@4294967295 N5", VERSION_C, STORE, 7, 1 },
    { "a match to 2^32, and one at 0", AT(10, 256), "N5 M1@4294967295 M18@0 N5", VERSION_C, STORE, 7, 1 },
    { "a run that passes the store", AT(10, 256), "M20@0 M20@20 M1@40", STORE "A", STORE, 7, 2 },
    { "a match whose first byte differs", AT(10, 256), SHEET_C, VERSION_C, "-BCDEFGHIJKLMNOPQRS", 8, 1 },
    { "a match whose last byte differs", AT(10, 256), SHEET_C, VERSION_C, "ABCDEFGHIJKLMNOPQR-", 8, 1 },
    { "a held match whose last byte differs", AT(10, 256), "N5 H19@0 N5", VERSION_C, "ABCDEFGHIJKLMNOPQR-", 8, 1 },
    { "a second match that differs", AT(10, 256), "N5 M9@0 M10@10 N5", VERSION_C, STORE, 8, 2 },
    { "4 before 5", AT(10, 256), "N5 N0 N5", VERSION_C, STORE, 4, 1 },
    { "4 for a mark before 5", AT(10, 256), "N5 N19!1=1 N5", VERSION_C, STORE, 4, 1 },
    { "5 before 6", AT(10, 256), "N5 N99 N5", VERSION_C, STORE, 5, 1 },
    { "6 before 7", AT(10, 256), "N5 M99@0 N5", VERSION_C, STORE, 6, 1 },
    { "7 at 1 before 4 at 2", AT(10, 256), "N5 M19@22 N0", VERSION_C, STORE, 7, 1 },
    { "8 at 1 before 4 at 2", AT(10, 256), "N5 M19@1 N0", VERSION_C, STORE, 8, 1 },
    { "8 before the short end", AT(10, 256), "N5 M19@1 N1", VERSION_C, STORE, 8, 1 },
};

/* One area a byte short for three records and VERSION_C. */
enum { FOR_CHOICE, FOR_LIST, FOR_BLOCK };

static const struct {
    const char *what;
    size_t choice, list, block;
} short_areas[] = {
    { "a choice area one byte short", 2, AREA, AREA },
    { "a list area one byte short", AREA, 35, AREA },
    { "a block area one byte short", AREA, AREA, 28 },
};

/* What may be at fault besides. */
static const struct {
    const char *what;
    uint32_t en;
    const char *list;
    uint32_t number;
} besides[] = {
    { "", 10, SHEET_C, 9 },
    { ", 9 before 4", 10, "X5 M19@0 N5", 9 },
    { ", 9 before 4 for a mark", 10, "N5!1=1 M19@0 N5", 9 },
    { ", 9 before 8", 10, "N5 M19@1 N5", 9 },
    { ", 9 before the short end", 10, "N5 M1@0 N1", 9 },
    { ", 1 before 9", 0, SHEET_C, 1 },
};

/* The areas that a call needs, from the first of them to the last; commit is handed a choice of sheet C, of which the list, or the stored block, would
 * be much shorter than the area. */
static void test_short_areas(call *made, const char *name, int first, int last, const char *bits)
{
    char what[80];
    hand(bits);
    for (int area_short = first; area_short <= last; area_short++)
        for (size_t i = 0; i < sizeof besides / sizeof *besides; i++) {
            struct terms terms = { besides[i].en, 10, 256, short_areas[area_short].choice, short_areas[area_short].list, short_areas[area_short].block };
            size_t n = list_of(besides[i].list, list);
            snprintf(what, sizeof what, "%s%s", short_areas[area_short].what, besides[i].what);
            expect(name, what, refused(called(made, terms, n, VERSION_C, STORE), besides[i].number, 0));
        }
}

/* Commit is handed no choice of any of the lists: its length or its first byte is wrong, and comes last. */
static void test_refused(call *made, const char *name)
{
    hand("X");
    for (size_t i = 0; i < sizeof refusals / sizeof *refusals; i++) {
        size_t n = list_of(refusals[i].list, list);
        expect(name, refusals[i].what, refused(called(made, refusals[i].terms, n, refusals[i].version, refusals[i].store), refusals[i].number,
            refusals[i].place));
    }
    struct terms usual = AT(10, 256), no_factor = AT(10, 0), no_areas = IN(0, 0, 0);
    list_of(SHEET_C, list);
    expect(name, "11 bytes", refused(called(made, usual, 11, "", STORE), 3, 0));
    expect(name, "1 before 3", refused(called(made, no_factor, 11, "", STORE), 1, 0));
    expect(name, "3 before 9", refused(called(made, no_areas, 35, VERSION_C, STORE), 3, 0));
    fill_areas();
    expect(name, "an answer area of 31 bytes", not_made(made(10, 10, 256, list, 36, (const uint8_t *)VERSION_C, 29, (const uint8_t *)STORE, 40, choice, AREA,
        list_area, AREA, block_area, AREA, answer, ANSWER_BYTES - 1)));
}

/* ---- Commit: no choice of the list ---- */

/* In the first list the first and the last record are new, in the second both are held. A choice of the first is 1?0?01, of the second 0?1?0. */
#define LIST_6 "N2 M3@0 H4@10 M5@20 H2@30 N3"
#define VERSION_6 "01ABCKLMNUVWXYef234"
#define LIST_OF_HELD "H4@10 M3@0 N2 M5@20 H2@30"
#define VERSION_OF_HELD "KLMNABC01UVWXYef"

static const struct {
    const char *what, *list, *version, *bits;
    uint32_t place;
} no_choices[] = {
    { "a choice of no bytes", LIST_6, VERSION_6, "", 0 },
    { "a choice of one byte", LIST_6, VERSION_6, "1", 0 },
    { "a choice one byte short", LIST_6, VERSION_6, "10000", 0 },
    { "a choice one byte longer", LIST_6, VERSION_6, "1000010", 0 },
    { "a choice one byte longer, which is 1", LIST_6, VERSION_6, "1000011", 0 },
    { "a choice one byte longer, which is no bit", LIST_6, VERSION_6, "1000012", 0 },
    { "a choice twice as long", LIST_6, VERSION_6, "100001100001", 0 },
    { "a choice as long as the list in bytes", "N4", "0123", "111111111111", 0 },
    { "a byte for no records", "", "", "0", 0 },
    { "a byte of 1 for no records", "", "", "1", 0 },
    { "no byte for one record", "N4", "0123", "", 0 },
    { "the length before a byte of 2", LIST_6, VERSION_6, "12000", 0 },
    { "the length before a byte of 255", LIST_6, VERSION_6, "100X010", 0 },
    { "the length before a 0 for a new record", LIST_6, VERSION_6, "1000000", 0 },
    { "the length before a 1 for a held match", LIST_6, VERSION_6, "10101", 0 },
    { "2 for the first record, which is new", LIST_6, VERSION_6, "200001", 0 },
    { "3 for the first record, which is new", LIST_6, VERSION_6, "300001", 0 },
    { "255 for the first record, which is new", LIST_6, VERSION_6, "X00001", 0 },
    { "0 for the first record, which is new", LIST_6, VERSION_6, "000001", 0 },
    { "1 for the first record, which is held", LIST_OF_HELD, VERSION_OF_HELD, "10100", 0 },
    { "2 for the first record, which is held", LIST_OF_HELD, VERSION_OF_HELD, "20100", 0 },
    { "255 for the first record, which is held", LIST_OF_HELD, VERSION_OF_HELD, "X0100", 0 },
    { "2 for a match", LIST_6, VERSION_6, "120001", 1 },
    { "3 for a match", LIST_6, VERSION_6, "130001", 1 },
    { "255 for a match", LIST_6, VERSION_6, "1X0001", 1 },
    { "2 for a later match", LIST_6, VERSION_6, "100201", 3 },
    { "255 for a later match", LIST_6, VERSION_6, "110X01", 3 },
    { "1 for a held match", LIST_6, VERSION_6, "101001", 2 },
    { "1 for a later held match", LIST_6, VERSION_6, "100011", 4 },
    { "2 for a held match", LIST_6, VERSION_6, "102001", 2 },
    { "255 for a held match", LIST_6, VERSION_6, "1000X1", 4 },
    { "0 for a new record", LIST_OF_HELD, VERSION_OF_HELD, "00000", 2 },
    { "2 for a new record", LIST_OF_HELD, VERSION_OF_HELD, "00200", 2 },
    { "255 for a new record", LIST_OF_HELD, VERSION_OF_HELD, "01X00", 2 },
    { "0 for the last record, which is new", LIST_6, VERSION_6, "100000", 5 },
    { "2 for the last record, which is new", LIST_6, VERSION_6, "100002", 5 },
    { "255 for the last record, which is new", LIST_6, VERSION_6, "10000X", 5 },
    { "1 for the last record, which is held", LIST_OF_HELD, VERSION_OF_HELD, "00101", 4 },
    { "2 for the last record, which is held", LIST_OF_HELD, VERSION_OF_HELD, "00102", 4 },
    { "255 for the last record, which is held", LIST_OF_HELD, VERSION_OF_HELD, "0110X", 4 },
    { "2 for the last record, a match", "N2 M3@0", "01ABC", "12", 1 },
    { "255 for the first record, a match", "M3@0 N2", "ABC01", "X1", 0 },
    { "2 at 1 before 255 at 3", LIST_6, VERSION_6, "120X01", 1 },
    { "0 at 0 for a new record before 2 at 1", LIST_6, VERSION_6, "020001", 0 },
    { "2 at 1 before 0 at 5 for a new record", LIST_6, VERSION_6, "120000", 1 },
    { "1 at 2 for a held match before 2 at 5", LIST_6, VERSION_6, "101002", 2 },
    { "2 at 1 before 1 at 2 for a held match", LIST_6, VERSION_6, "121001", 1 },
    { "1 at 4 for a held match before 0 at 5 for a new record", LIST_6, VERSION_6, "100010", 4 },
    { "0 at 2 for a new record before 1 at 4 for a held match", LIST_OF_HELD, VERSION_OF_HELD, "00001", 2 },
    { "1 at 0 for a held match before 0 at 2 for a new record", LIST_OF_HELD, VERSION_OF_HELD, "10000", 0 },
    { "1 at 2 for a held match before 1 at 4 for another", LIST_6, VERSION_6, "101011", 2 },
    { "0 at 0 for a new record before 0 at 5 for another", LIST_6, VERSION_6, "000000", 0 },
    { "1 for the second of a held run", LIST_8, VERSION_8, "10001001", 4 },
    { "all stored, held ones too", LIST_8, VERSION_8, "11111111", 3 },
};

/* 12 comes last: of a choice that is wrong at its first byte, or too short, or too long, nothing is said where something else is at fault. */
static const struct {
    const char *what;
    struct terms terms;
    const char *list, *version;
    uint32_t number, place;
} before_choice[] = {
    { "1 before 12", PRICED(10, 0, 256), LIST_6, VERSION_6, 1, 0 },
    { "9 by the list area before 12", IN(AREA, 71, AREA), LIST_6, VERSION_6, 9, 0 },
    { "9 by the block area before 12", IN(AREA, AREA, 18), LIST_6, VERSION_6, 9, 0 },
    { "4 at 5 before 12", AT(10, 256), "N2 M3@0 H4@10 M5@20 H2@30 X3", VERSION_6, 4, 5 },
    { "4 at 5 for a mark before 12", AT(10, 256), "N2 M3@0 H4@10 M5@20 H2@30 N3!1=1", VERSION_6, 4, 5 },
    { "5 at 1 before 12", AT(10, 256), "N2 N3 H4@10 M5@20 H2@30 N3", VERSION_6, 5, 1 },
    { "6 at 5 before 12", AT(10, 256), "N2 M3@0 H4@10 M5@20 H2@30 N4", VERSION_6, 6, 5 },
    { "7 at 4 before 12", AT(10, 256), "N2 M3@0 H4@10 M5@20 H2@39 N3", VERSION_6, 7, 4 },
    { "8 at 3 before 12", AT(10, 256), "N2 M3@0 H4@10 M5@21 H2@30 N3", VERSION_6, 8, 3 },
    { "8 at 4 for a held match before 12", AT(10, 256), "N2 M3@0 H4@10 M5@20 H2@31 N3", VERSION_6, 8, 4 },
    { "the short end before 12", AT(10, 256), "N2 M3@0 H4@10 M5@20 H2@30 N2", VERSION_6, 6, 6 },
    { "the short end by a byte of the version before 12", AT(10, 256), LIST_6, VERSION_6 "5", 6, 6 },
};

/* Of each: the first byte wrong in two ways; one byte short, with and without a wrong one; one longer. */
static const char *const wrong_choices[] = { "000001", "200001", "10000", "00000", "1000011" };

static void test_no_choice(void)
{
    const struct terms usual = AT(10, 256), just_enough = IN(0, 72, 19);
    char what[80];
    for (size_t i = 0; i < sizeof no_choices / sizeof *no_choices; i++) {
        size_t n = list_of(no_choices[i].list, list);
        hand(no_choices[i].bits);
        expect("commit", no_choices[i].what, refused(called(committed, usual, n, no_choices[i].version, STORE), 12, no_choices[i].place));
    }
    for (size_t i = 0; i < sizeof before_choice / sizeof *before_choice; i++)
        for (size_t k = 0; k < sizeof wrong_choices / sizeof *wrong_choices; k++) {
            size_t n = list_of(before_choice[i].list, list);
            hand(wrong_choices[k]);
            snprintf(what, sizeof what, "%s, choice %s", before_choice[i].what, wrong_choices[k]);
            expect("commit", what, refused(called(committed, before_choice[i].terms, n, before_choice[i].version, STORE), before_choice[i].number,
                before_choice[i].place));
        }
    size_t n = list_of(LIST_6, list);
    hand("100011");
    expect("commit", "12 in areas just long enough", refused(called(committed, just_enough, n, VERSION_6, STORE), 12, 4));
}

/* ---- Check_loose and tidy ---- */

/* The worked examples (clause 10.10) are over ABABC, the other cases over the letters A to T. Neither call reads a byte of the store. */

static uint8_t list_before[AREA];

static uint32_t checked_loose(size_t n, const char *store, size_t store_length)
{
    fill_areas();
    memcpy(list_before, list, AREA);
    return check_loose(list, n, (const uint8_t *)store, store_length, answer, sizeof answer);
}

static uint32_t tidied(size_t n, const char *store, size_t store_length, size_t room)
{
    fill_areas();
    memcpy(list_before, list, AREA);
    return tidy(list, n, (const uint8_t *)store, store_length, list_area, room, answer, sizeof answer);
}

/* Whether tidy, or pool, wrote this list, no byte behind it and no other area, and answered just the number of its records. */
static int wrote(uint32_t returned, const uint8_t *wanted, size_t length)
{
    return answered(returned, (struct values){ .entries = (uint32_t)(length / RECORD_BYTES) }) && holds(list_area, wanted, length)
        && holds(area, "", 0) && holds(choice, "", 0) && holds(block_area, "", 0) && memcmp(list, list_before, AREA) == 0;
}

/* Whether one of these calls refused, and left the list as it was. */
static int refused_loose(uint32_t returned, uint32_t number, uint32_t place)
{
    return refused(returned, number, place) && memcmp(list, list_before, AREA) == 0;
}

/* A loose list and its tidy form, in an area longer by so many bytes. */
static const struct {
    const char *what, *store, *list, *tidy;
    size_t more;
} loose_lists[] = {
    { "no records", ababc, "", "", 0 },
    { "two new records", ababc, "N1 N1", "N2", 0 },
    { "three new records", ababc, "N1 N2 N1", "N4", 0 },
    { "two matches of a byte that go on", ababc, "M1@0 M1@1", "M2@0", 0 },
    { "two matches that go on", ababc, "M2@0 M2@2", "M4@0", 0 },
    { "a match a byte behind the end of another", ababc, "M2@0 M2@3", "M2@0 M2@3", 0 },
    { "a held match that begins where a match ends", ababc, "M2@0 H2@2", "M2@0 H2@2", 0 },
    { "a held run, and a match where it ends", ababc, "H1@0 H1@1 M1@2", "H2@0 M1@2", 0 },
    { "a run between new records", ababc, "N1 M1@0 M1@1 N1 N1", "N1 M2@0 N2", 0 },
    { "two new records in 25 bytes", ababc, "N1 N1", "N2", 1 },
    { "no records in 12 bytes", letters, "", "", 12 },
    { "one new record", letters, "N7", "N7", 0 },
    { "one match", letters, "M7@3", "M7@3", 0 },
    { "one held match", letters, "H7@3", "H7@3", 0 },
    { "one new record in 24 bytes", letters, "N7", "N7", 12 },
    { "one new record in 13 bytes", letters, "N7", "N7", 1 },
    { "a sheet's list", letters, "N5 M19@0 N5", "N5 M19@0 N5", 0 },
    { "four new records of different sizes", letters, "N5 N1 N4 N2", "N12", 0 },
    { "eight new records in a longer area", letters, "N1 N2 N3 N4 N5 N6 N7 N8", "N36", 100 },
    { "a run of three", letters, "M2@0 M3@2 M4@5", "M9@0", 0 },
    { "a run of three that begins at 5", letters, "M4@5 M3@9 M8@12", "M15@5", 0 },
    { "a run of two and another match", letters, "M2@0 M2@2 M2@5", "M4@0 M2@5", 0 },
    { "a match and a run of two", letters, "M2@0 M2@3 M2@5", "M2@0 M4@3", 0 },
    { "two runs side by side", letters, "M2@0 M2@2 M2@10 M2@12", "M4@0 M4@10", 0 },
    { "a run of all the store", letters, "M10@0 M10@10", "M20@0", 0 },
    { "a run to the end of the store, byte by byte", letters, "M1@16 M1@17 M1@18 M1@19", "M4@16", 0 },
    { "the same match twice", letters, "M2@0 M2@0", "M2@0 M2@0", 0 },
    { "a match before the one before it", letters, "M2@2 M2@0", "M2@2 M2@0", 0 },
    { "a match from the last byte of another on", letters, "M2@0 M2@1", "M2@0 M2@1", 0 },
    { "a gap of a byte", letters, "M3@0 M3@4", "M3@0 M3@4", 0 },
    { "where the second of two matches would end", letters, "M2@0 M3@5", "M2@0 M3@5", 0 },
    { "held, then not", letters, "H2@0 M2@2", "H2@0 M2@2", 0 },
    { "a held run of two", letters, "H2@0 H2@2", "H4@0", 0 },
    { "a held run of three", letters, "H2@0 H3@2 H4@5", "H9@0", 0 },
    { "a held match within a run", letters, "M1@0 H1@1 M1@2", "M1@0 H1@1 M1@2", 0 },
    { "a match within a held run", letters, "H1@0 M1@1 H1@2", "H1@0 M1@1 H1@2", 0 },
    { "a held run of two within a run", letters, "M1@0 H1@1 H1@2 M1@3", "M1@0 H2@1 M1@3", 0 },
    { "a run of two, then a held one", letters, "M1@0 M1@1 H1@2 H1@3", "M2@0 H2@2", 0 },
    { "a held run of two, then a run", letters, "H1@0 H1@1 M1@2 M1@3", "H2@0 M2@2", 0 },
    { "held matches with a gap", letters, "H2@0 H2@3", "H2@0 H2@3", 0 },
    { "matches that go on behind a new record", letters, "M2@0 N1 M2@2", "M2@0 N1 M2@2", 0 },
    { "matches that go on behind two new records", letters, "M2@0 N1 N1 M2@2", "M2@0 N2 M2@2", 0 },
    { "held matches that go on behind a new record", letters, "H2@0 N1 H2@2", "H2@0 N1 H2@2", 0 },
    { "new records with a match between", letters, "N1 M2@0 N1", "N1 M2@0 N1", 0 },
    { "new records with a run between", letters, "N1 N1 M1@0 M1@1 N1 N1", "N2 M2@0 N2", 0 },
    { "new records between two runs", letters, "M2@0 M2@2 M2@4 N3 N4 M1@6 M1@7", "M6@0 N7 M2@6", 0 },
    { "a match at the size of the new record before it", letters, "N2 M2@2", "N2 M2@2", 0 },
    { "a held match at the size of the new record before it", letters, "N2 H2@2", "N2 H2@2", 0 },
    { "a match at 0 behind a new record", letters, "N2 N2 M2@0", "N4 M2@0", 0 },
    { "a new record behind a match at 0", letters, "M2@0 N2 N2", "M2@0 N4", 0 },
    { "new records last", letters, "M2@4 M2@6 N1 N1 N1", "M4@4 N3", 0 },
    { "a run last", letters, "N1 N1 N1 M2@4 M2@6 M2@8", "N3 M6@4", 0 },
    { "a match of 5 at 15", letters, "N1 N1 M5@15", "N2 M5@15", 0 },
    { "a sum of 256", letters, "N255 N1", "N256", 0 },
    { "a sum of 300", letters, "N200 N100", "N300", 0 },
    { "a sum of 65536", letters, "N65535 N1", "N65536", 0 },
    { "sizes of 16777216 in two", letters, "N16777215 N1", "N16777216", 0 },
    { "sizes of 16777216 in halves", letters, "N8388608 N8388608", "N16777216", 0 },
    { "sizes of 16777216 in one", letters, "N16777216", "N16777216", 0 },
    { "sizes of 16777216 with a match", letters, "N8388608 M20@0 N8388587 N1", "N8388608 M20@0 N8388588", 0 },
    { "sizes of 16777216 with a match last", letters, "N16777196 M20@0", "N16777196 M20@0", 0 },
};

/* Refused by both calls; of a store of so many bytes. */
static const struct {
    const char *what, *list;
    size_t store;
    uint32_t number, place;
} bad_loose[] = {
    { "kind 2", "X5@0", 20, 4, 0 },
    { "kind 2 after new records", "N1 N1 X5@0", 20, 4, 2 },
    { "kind 255", "N1 M5@0!0=255", 20, 4, 1 },
    { "kind 2 with the mark", "N1 X5@0!1=1", 20, 4, 1 },
    { "a mark on a new record", "N5!1=1", 20, 4, 0 },
    { "a mark on a new record after a new one", "N5 N5!1=1", 20, 4, 1 },
    { "byte 1 of a new record", "N5!1", 20, 4, 0 },
    { "byte 2 of a new record", "N5 N5!2", 20, 4, 1 },
    { "byte 3 of a new record", "N5 N5!3", 20, 4, 1 },
    { "byte 1 of a match at 2", "M1@0 M1@1!1=2", 20, 4, 1 },
    { "byte 1 of a match at 255", "M1@0 M1@1!1=255", 20, 4, 1 },
    { "byte 2 of a match", "M1@0 M1@1!2", 20, 4, 1 },
    { "byte 3 of a match", "M1@0 M1@1!3", 20, 4, 1 },
    { "byte 2 of a held match", "H1@0 H1@1!2", 20, 4, 1 },
    { "byte 3 of a held match", "H1@0 H1@1!3", 20, 4, 1 },
    { "a new record of size 0", "N0", 20, 4, 0 },
    { "a new record of size 0 after a new one", "N1 N0", 20, 4, 1 },
    { "a match of size 0", "M1@0 M0@1", 20, 4, 1 },
    { "a held match of size 0", "N1 N1 H0@0", 20, 4, 2 },
    { "new with address 1", "N1 N1@1", 20, 4, 1 },
    { "new with address 256", "N1 N1@256", 20, 4, 1 },
    { "new with address 65536", "M1@0 N1@65536", 20, 4, 1 },
    { "new with address 16777216", "N1@16777216", 20, 4, 0 },
    { "4 at the last of many", "N1 N1 N1 M1@0 M1@1 M1@2 N1 N0", 20, 4, 7 },
    { "one record of 16777217", "N16777217", 20, 6, 0 },
    { "sizes of 16777217 with two new records", "N1 N16777216", 20, 6, 1 },
    { "sizes of 16777217 by a last byte", "N16777216 N1", 20, 6, 1 },
    { "sizes of 16777217 with three new records", "N8388608 N8388608 N1", 20, 6, 2 },
    { "sizes of 16777217 by a match", "N16777215 N1 M1@0", 20, 6, 2 },
    { "sizes of 16777217 by a held match", "N16777215 N1 H1@0", 20, 6, 2 },
    { "sizes of 16777217 by a new record after a match", "M20@0 N16777197", 20, 6, 1 },
    { "6 at a match as long as a version", "N5 M16777216@0", 20, 6, 1 },
    { "6 at the second of three", "N1 N16777216 N1", 20, 6, 1 },
    { "sizes that pass 2^32", "N1 N4294967295", 20, 6, 1 },
    { "sizes that pass 2^32 and end at 16777215", "N16777216 N4294967295", 20, 6, 1 },
    { "sizes that pass 2^32 by a match", "N1 M4294967295@0", 20, 6, 1 },
    { "a match of 5 at 15 in a store of 19", "N1 N1 M5@15", 19, 7, 2 },
    { "a held match of 5 at 15 in a store of 19", "H5@15", 19, 7, 0 },
    { "a match of 21 in a store of 20", "M21@0", 20, 7, 0 },
    { "address 20 in a store of 20", "M20@0 M1@20", 20, 7, 1 },
    { "a run that goes on beyond the store", "M10@0 M9@10 M2@19", 20, 7, 2 },
    { "a match in no store", "N1 N1 M1@0", 0, 7, 2 },
    { "address 4294967295", "M1@4294967295", 20, 7, 0 },
    { "address 4294967295 and a size of 16777216", "M16777216@4294967295", 20, 7, 0 },
    { "address and size together 2^32", "M16777216@4278190080", 20, 7, 0 },
    { "address and size together 2^32 and 4", "M5@4294967295", 20, 7, 0 },
    { "sizes of 16777216, which pass check 6", "N16777211 N4 M1@20", 20, 7, 2 },
    { "4 before 6", "N5 N16777216!2", 20, 4, 1 },
    { "4 before 7", "M1@20!2", 20, 4, 0 },
    { "6 before 7", "N5 M16777216@4294967295", 20, 6, 1 },
    { "6 at 1 before 4 at 2", "N1 N16777216 N0", 20, 6, 1 },
    { "7 at 0 before 4 at 1", "M1@20 N0", 20, 7, 0 },
    { "7 at 0 before 6 at 1", "M1@20 N16777216", 20, 7, 0 },
    { "7 at 2 behind new records side by side", "N1 N1 M2@4", 5, 7, 2 },
};

/* What tidy wrote is handed in again and must come back. One byte less than the loose list, the length of the tidy form where that is less, and no
 * byte, are too short an area. */
static void test_loose_lists(void)
{
    char what[96];
    uint8_t wanted[AREA];
    for (size_t i = 0; i < sizeof loose_lists / sizeof *loose_lists; i++) {
        const char *store = loose_lists[i].store;
        const size_t n = list_of(loose_lists[i].list, list), m = list_of(loose_lists[i].tidy, wanted), length = strlen(store);
        expect("check_loose", loose_lists[i].what, refused_loose(checked_loose(n, store, length), 0, 0));
        expect("tidy", loose_lists[i].what, wrote(tidied(n, store, length, n + loose_lists[i].more), wanted, m));
        const size_t short_rooms[] = { n - 1, m, 0 };
        for (size_t k = 0; k < 3; k++)
            if (short_rooms[k] < n) {
                snprintf(what, sizeof what, "%s, %zu bytes in an area of %zu", loose_lists[i].what, n, short_rooms[k]);
                expect("tidy", what, refused_loose(tidied(n, store, length, short_rooms[k]), 9, 0));
            }
        memcpy(list, wanted, m);
        snprintf(what, sizeof what, "%s, tidied again", loose_lists[i].what);
        expect("tidy", what, wrote(tidied(m, store, length, m), wanted, m));
    }
}

/* Each refusal also in a longer area; a byte less than the loose list needs is said first. */
static void test_bad_loose(void)
{
    char what[96];
    for (size_t i = 0; i < sizeof bad_loose / sizeof *bad_loose; i++) {
        const size_t n = list_of(bad_loose[i].list, list), store = bad_loose[i].store;
        const uint32_t number = bad_loose[i].number, place = bad_loose[i].place;
        expect("check_loose", bad_loose[i].what, refused_loose(checked_loose(n, letters, store), number, place));
        expect("tidy", bad_loose[i].what, refused_loose(tidied(n, letters, store, n), number, place));
        snprintf(what, sizeof what, "%s, in a longer area", bad_loose[i].what);
        expect("tidy", what, refused_loose(tidied(n, letters, store, AREA), number, place));
        snprintf(what, sizeof what, "%s, 9 before it", bad_loose[i].what);
        expect("tidy", what, refused_loose(tidied(n, letters, store, n - 1), 9, 0));
    }
}

/* 3 in an area of any length, also where the records would be refused. */
static void test_loose_lengths(void)
{
    const size_t lengths[] = { 1, 11, 13, 23, 25 }, rooms[] = { 0, 12, 13, AREA };
    char what[96];
    for (size_t i = 0; i < sizeof lengths / sizeof *lengths; i++)
        for (int sound = 0; sound < 2; sound++) {
            list_of(sound ? "N1 N1 N1" : "N0 N0 N0", list);
            snprintf(what, sizeof what, "%zu bytes, %s records", lengths[i], sound ? "sound" : "malformed");
            expect("check_loose", what, refused_loose(checked_loose(lengths[i], letters, 20), 3, 0));
            for (size_t k = 0; k < sizeof rooms / sizeof *rooms; k++) {
                snprintf(what, sizeof what, "%zu bytes, %s records, in an area of %zu", lengths[i], sound ? "sound" : "malformed", rooms[k]);
                expect("tidy", what, refused_loose(tidied(lengths[i], letters, 20, rooms[k]), 3, 0));
            }
        }
    list_of("N1 N1", list);
    for (size_t less = 1; less <= ANSWER_BYTES; less += ANSWER_BYTES - 1) {
        snprintf(what, sizeof what, "an answer area of %zu bytes", ANSWER_BYTES - less);
        fill_areas();
        expect("check_loose", what, not_made(check_loose(list, 24, (const uint8_t *)letters, 20, answer, ANSWER_BYTES - less)));
        fill_areas();
        expect("tidy", what, not_made(tidy(list, 24, (const uint8_t *)letters, 20, list_area, AREA, answer, ANSWER_BYTES - less)));
        snprintf(what, sizeof what, "an answer area of %zu bytes before 3", ANSWER_BYTES - less);
        fill_areas();
        expect("check_loose", what, not_made(check_loose(list, 11, (const uint8_t *)letters, 20, answer, ANSWER_BYTES - less)));
        fill_areas();
        expect("tidy", what, not_made(tidy(list, 11, (const uint8_t *)letters, 20, list_area, 0, answer, ANSWER_BYTES - less)));
    }
    const uint8_t wanted[RECORD_BYTES] = { 0, 0, 0, 0, 2 };
    fill_areas();
    memcpy(list_before, list, AREA);
    expect("check_loose", "an answer area of 32 bytes", refused(check_loose(list, 24, (const uint8_t *)letters, 20, answer, ANSWER_BYTES), 0, 0));
    fill_areas();
    expect("tidy", "an answer area of 32 bytes", wrote(tidy(list, 24, (const uint8_t *)letters, 20, list_area, AREA, answer, ANSWER_BYTES), wanted,
        sizeof wanted));
}

/* ---- Pool ---- */

/* The worked examples (clause 10.11) are over ABABC, the other cases over ABCDEABCDEXY. */

static uint8_t second_before[AREA];

/* So many bytes of both lists, in an area of so many. */
static uint32_t pooled(size_t n, size_t m, const char *version, const char *store, size_t room)
{
    fill_areas();
    memcpy(list_before, list, AREA);
    memcpy(second_before, second, AREA);
    return pool(list, n, second, m, (const uint8_t *)version, strlen(version), (const uint8_t *)store, strlen(store), list_area, room, answer,
                sizeof answer);
}

/* Whether pool wrote this list and nothing else. */
static int wrote_pooled(uint32_t returned, const uint8_t *wanted, size_t length)
{
    return wrote(returned, wanted, length) && memcmp(second, second_before, AREA) == 0;
}

/* Whether pool refused, and left both lists as they were. */
static int refused_pool(uint32_t returned, uint32_t number, uint32_t place)
{
    return refused_loose(returned, number, place) && memcmp(second, second_before, AREA) == 0;
}

/* Two lists of a version, and the pooled list. */
static const struct pooling {
    const char *what, *store, *first, *second, *version, *pooled;
} pools[] = {
    { "no records", ababc, "", "", "", "" },
    { "drawn by the first, by the second, by neither", ababc, "M2@0 N3", "N2 M2@3 N1", "ABBCZ", "M2@0 M2@3 N1" },
    { "new in both, loose", ababc, "N1 N4", "N3 N2", "VWXYZ", "N5" },
    { "the rest of a match", ababc, "M2@2 N2", "M4@0", "ABAB", "M2@2 M2@2" },
    { "a match on both sides of another", ababc, "N1 M1@3 N2", "M4@0", "ABAB", "M1@0 M1@3 M2@2" },
    { "the first's mark", ababc, "H2@2 N2", "M4@0", "ABAB", "H2@2 M2@2" },
    { "each with its mark", ababc, "M2@2 N2", "H4@0", "ABAB", "M2@2 H2@2" },
    { "a match of both lists", ababc, "M2@0 N3", "N2 M3@2", "ABABC", "M5@0" },
    { "a match of both lists, in the middle the first's", ababc, "N1 M2@1 N2", "M5@0", "ABABC", "M5@0" },
    { "a held match of both lists", ababc, "N1 H2@1 N2", "H5@0", "ABABC", "H5@0" },
    { "a match, and a held one where it ends", ababc, "M2@0 N3", "N2 H3@2", "ABABC", "M2@0 H3@2" },
    { "a loose list with itself", ababc, "N1 N1 M1@0 M1@1", "N1 N1 M1@0 M1@1", "YZAB", "N2 M2@0" },
    { "the first without a match", ababc, "N5", "M2@0 M3@2", "ABABC", "M5@0" },
    { "the second without a match", ababc, "M2@0 M3@2", "N5", "ABABC", "M5@0" },
    /* One byte. */
    { "one byte, new in both", twice, "N1", "N1", "0", "N1" },
    { "one byte, drawn by the first", twice, "M1@0", "N1", "A", "M1@0" },
    { "one byte, drawn by the second", twice, "N1", "M1@5", "A", "M1@5" },
    { "one byte, held by the second", twice, "N1", "H1@5", "A", "H1@5" },
    { "one byte, drawn by both", twice, "M1@5", "M1@0", "A", "M1@5" },
    { "one byte, drawn by the first and held by the second", twice, "M1@5", "H1@5", "A", "M1@5" },
    { "one byte, held by the first and drawn by the second", twice, "H1@5", "M1@5", "A", "H1@5" },
    /* Both draw each byte: the first list decides. */
    { "from different places", twice, "M5@0", "M5@5", "ABCDE", "M5@0" },
    { "from different places, in the other order", twice, "M5@5", "M5@0", "ABCDE", "M5@5" },
    { "all held by the second alone", twice, "M5@0", "H5@0", "ABCDE", "M5@0" },
    { "all held by the first alone", twice, "H5@0", "M5@0", "ABCDE", "H5@0" },
    { "all held by both, from different places", twice, "H5@5", "H5@0", "ABCDE", "H5@5" },
    { "marks that change places", twice, "M2@0 H3@2", "H2@0 M3@2", "ABCDE", "M2@0 H3@2" },
    { "two matches over one", twice, "M2@0 M3@7", "M5@0", "ABCDE", "M2@0 M3@7" },
    { "one match over two", twice, "M5@0", "M2@5 M3@2", "ABCDE", "M5@0" },
    { "one match over five records", twice, "M5@5", "M1@0 N1 H1@2 N1 M1@4", "ABCDE", "M5@5" },
    { "cuts that cross", twice, "M2@0 M3@7", "M3@5 M2@3", "ABCDE", "M2@0 M3@7" },
    /* One list draws. */
    { "the second alone", twice, "N5", "M5@5", "ABCDE", "M5@5" },
    { "the second alone, held", twice, "N5", "H5@5", "ABCDE", "H5@5" },
    { "the second alone, with two marks", twice, "N5", "M2@0 H3@2", "ABCDE", "M2@0 H3@2" },
    { "the first alone, with two marks", twice, "M2@0 H3@2", "N5", "ABCDE", "M2@0 H3@2" },
    { "a run of the second under a new record", twice, "N5", "M1@0 M1@1 M1@2 M1@3 M1@4", "ABCDE", "M5@0" },
    { "a run of the first over a new record", twice, "M1@0 M1@1 M1@2 M1@3 M1@4", "N5", "ABCDE", "M5@0" },
    { "a match under five new records", twice, "N1 N1 N1 N1 N1", "M5@0", "ABCDE", "M5@0" },
    { "a held match under five new records", twice, "N1 N1 N1 N1 N1", "H5@0", "ABCDE", "H5@0" },
    { "a match across new records", twice, "N2 N2 N2", "N1 M4@1 N1", "0BCDE1", "N1 M4@1 N1" },
    { "matches that do not go on, under a new record", twice, "N6", "M2@0 M2@0 M2@5", "ABABAB", "M2@0 M2@0 M2@5" },
    { "matches that do not go on, over a new record", twice, "M2@0 M2@0 M2@5", "N6", "ABABAB", "M2@0 M2@0 M2@5" },
    /* New in both. */
    { "new records, cut differently", twice, "N1 N2 N3", "N2 N2 N2", "012345", "N6" },
    { "one new record and six", twice, "N6", "N1 N1 N1 N1 N1 N1", "012345", "N6" },
    { "six new records and one", twice, "N1 N1 N1 N1 N1 N1", "N6", "012345", "N6" },
    { "new around a match of the first", twice, "N2 M2@0 N2", "N6", "01AB23", "N2 M2@0 N2" },
    { "new around a match of the second", twice, "N6", "N2 M2@0 N2", "01AB23", "N2 M2@0 N2" },
    { "new around a match of the second, loose", twice, "N2 N2", "N1 M2@0 N1", "0AB1", "N1 M2@0 N1" },
    { "a new byte between matches that go on", twice, "M2@0 N4", "N3 M3@2", "AB0CDE", "M2@0 N1 M3@2" },
    { "a new byte between a held match and a match", twice, "N3 M3@2", "H2@0 N4", "AB0CDE", "H2@0 N1 M3@2" },
    { "new at both ends", twice, "N1 M2@0 N3", "N3 M2@2 N1", "0ABCD1", "N1 M4@0 N1" },
    { "a match at the size of the new record before it", twice, "N2 M2@2", "N4", "01CD", "N2 M2@2" },
    { "a match of the second at the size of the new record before it", twice, "N4", "N2 M2@2", "01CD", "N2 M2@2" },
    { "new, then a match at 0", twice, "N4", "N2 M2@0", "01AB", "N2 M2@0" },
    { "a match at 0, then new", twice, "M2@0 N2", "N4", "AB01", "M2@0 N2" },
    /* A match of the second that the first covers in part. */
    { "its front covered", twice, "M2@5 N3", "M5@0", "ABCDE", "M2@5 M3@2" },
    { "its end covered", twice, "N3 M2@8", "M5@0", "ABCDE", "M3@0 M2@8" },
    { "its middle covered", twice, "N2 M1@7 N2", "M5@0", "ABCDE", "M2@0 M1@7 M2@3" },
    { "its ends covered", twice, "M1@5 N3 M1@9", "M5@0", "ABCDE", "M1@5 M3@1 M1@9" },
    { "all but its last byte covered", twice, "M4@5 N1", "M5@0", "ABCDE", "M4@5 M1@4" },
    { "all but its first byte covered", twice, "N1 M4@6", "M5@0", "ABCDE", "M1@0 M4@6" },
    { "each second byte covered", twice, "M1@5 N1 M1@7 N1 M1@9", "M5@0", "ABCDE", "M1@5 M1@1 M1@7 M1@3 M1@9" },
    { "its front covered, held", twice, "M2@5 N3", "H5@0", "ABCDE", "M2@5 H3@2" },
    { "its front covered by a held one", twice, "H2@5 N3", "M5@0", "ABCDE", "H2@5 M3@2" },
    { "its front covered, both held", twice, "H2@5 N3", "H5@0", "ABCDE", "H2@5 H3@2" },
    { "its middle covered, held", twice, "N2 M1@7 N2", "H5@0", "ABCDE", "H2@0 M1@7 H2@3" },
    { "its middle covered by a held one", twice, "N2 H1@7 N2", "M5@0", "ABCDE", "M2@0 H1@7 M2@3" },
    { "its middle covered by two", twice, "N1 M1@6 H1@7 N2", "M5@0", "ABCDE", "M1@0 M1@6 H1@7 M2@3" },
    { "its middle covered, between loose new records", twice, "N1 N1 M1@7 N1 N1", "M5@0", "ABCDE", "M2@0 M1@7 M2@3" },
    { "a record covered, and the front of the next", twice, "M3@5 N4", "M2@0 M5@2", "ABCDEAB", "M3@5 M4@3" },
    { "the end of a record covered, and the next", twice, "N1 M4@6 N2", "M2@0 M3@2 M2@5", "ABCDEAB", "M1@0 M4@6 M2@5" },
    { "the end of a record covered, and the front of the next", twice, "N1 M2@6 N2", "M2@0 M3@2", "ABCDE", "M1@0 M2@6 M2@3" },
    { "many records covered", twice, "M5@5 N1", "M1@0 N1 H1@2 M1@3 N1 M1@11", "ABCDEY", "M5@5 M1@11" },
    { "many records covered, and a match that goes on behind them", twice, "M5@5 N2", "M1@0 N1 H1@2 M1@3 N1 M2@10", "ABCDEXY", "M7@5" },
    { "both lists cut at one place", twice, "M2@0 N3", "M2@5 M3@7", "ABCDE", "M2@0 M3@7" },
    { "an end that both have, behind a cut", twice, "N2 M3@7", "M5@0", "ABCDE", "M2@0 M3@7" },
    { "the second's front new", twice, "M2@0 N3", "N1 M4@6", "ABCDE", "M2@0 M3@7" },
    { "the second's end new", twice, "N3 M2@3", "M4@5 N1", "ABCDE", "M3@5 M2@3" },
    /* Parts of both lists that go on in each other. */
    { "the rest goes on", twice, "M2@0 N3", "M5@0", "ABCDE", "M5@0" },
    { "the front goes on", twice, "N3 M2@3", "M5@0", "ABCDE", "M5@0" },
    { "both sides go on", twice, "N2 M1@2 N2", "M5@0", "ABCDE", "M5@0" },
    { "the middle goes on", twice, "M1@0 N3 M1@4", "M5@0", "ABCDE", "M5@0" },
    { "byte by byte in turns", twice, "M1@0 N1 M1@2 N1 M1@4", "N1 M1@1 N1 M1@3 N1", "ABCDE", "M5@0" },
    { "a run of the first and one of the second", twice, "M1@0 M1@1 N3", "N2 M1@2 M2@3", "ABCDE", "M5@0" },
    { "all the store, in turns", twice, "N4 M4@4 N4", "M4@0 N4 M4@8", twice, "M12@0" },
    { "two runs of both lists", twice, "M2@0 N3 M1@7 N2", "N2 M3@2 N1 M2@8", "ABCDECDE", "M5@0 M3@7" },
    { "held, byte by byte in turns", twice, "H1@0 N1 H1@2 N1 H1@4", "N1 H1@1 N1 H1@3 N1", "ABCDE", "H5@0" },
    { "held in turns", twice, "H1@0 N1 H1@2 N1 H1@4", "N1 M1@1 N1 M1@3 N1", "ABCDE", "H1@0 M1@1 H1@2 M1@3 H1@4" },
    { "held, and the rest goes on without the mark", twice, "H2@0 N3", "M5@0", "ABCDE", "H2@0 M3@2" },
    { "not held, and the rest goes on with the mark", twice, "M2@0 N3", "H5@0", "ABCDE", "M2@0 H3@2" },
    { "held in the middle of a match", twice, "N2 H1@2 N2", "M5@0", "ABCDE", "M2@0 H1@2 M2@3" },
    { "not held in the middle of a held match", twice, "N2 M1@2 N2", "H5@0", "ABCDE", "H2@0 M1@2 H2@3" },
    { "a held run of both, then a match", twice, "H2@0 N3", "N2 H1@2 M2@3", "ABCDE", "H3@0 M2@3" },
    { "the same bytes from another place behind them", twice, "M2@0 N2", "N2 M2@7", "ABCD", "M2@0 M2@7" },
    { "from a byte too far on", twice, "M2@0 N2", "N2 M2@3", "ABDE", "M2@0 M2@3" },
    { "from a byte too near", twice, "M2@0 N2", "N2 M2@1", "ABBC", "M2@0 M2@1" },
    { "from the same address", twice, "M2@0 N2", "N2 M2@0", "ABAB", "M2@0 M2@0" },
    { "before the one before it", twice, "N2 M2@0", "M2@2 N2", "CDAB", "M2@2 M2@0" },
    { "in turns from different places", twice, "M1@0 N1 M1@2 N1 M1@4", "N1 M1@6 N1 M1@8 N1", "ABCDE", "M1@0 M1@6 M1@2 M1@8 M1@4" },
    /* Loose lists. */
    { "loose in both", twice, "N1 N1 M1@0 M1@1 N1 N1", "N1 N1 N1 N1 M1@7 N1", "01ABC2", "N2 M2@0 M1@7 N1" },
    { "loose in both, cut differently", twice, "N1 N2 M2@3 N2", "N2 N1 N2 M1@8 M1@9", "012DEDE", "N3 M2@3 M2@8" },
    { "loose in both, nothing but bytes", twice, "N1 N1 N1 M1@3 N1 N1", "N1 M1@1 N1 N1 N1 M1@5", "0B1D2A", "N1 M1@1 N1 M1@3 N1 M1@5" },
};

/* Two lists of the version, one of which may be the pooled list, give what is wanted, in an area just as long. */
static void expect_back(const struct pooling *p, const char *how, size_t n, size_t m, const uint8_t *wanted, size_t due)
{
    char what[112];
    snprintf(what, sizeof what, "%s, %s", p->what, how);
    expect("pool", what, wrote_pooled(pooled(n, m, p->version, p->store, due), wanted, due));
}

/* Pooled with itself, or with a list without a match in either order, a list gives what tidy writes of it. */
static void expect_own_form(const struct pooling *p, const char *text)
{
    uint8_t wanted[AREA];
    const size_t n = list_of(text, list), whole = strlen(p->version), m = whole > 0 ? RECORD_BYTES : 0;
    tidied(n, p->store, strlen(p->store), n);
    const size_t due = RECORD_BYTES * (size_t)answer_entries(answer);
    memcpy(wanted, list_area, due);
    list_of(text, second);
    expect_back(p, "one of the lists with itself", n, n, wanted, due);
    put_record(second, 0, KIND_NEW, (uint32_t)whole, 0);
    expect_back(p, "one of the lists before one without a match", n, m, wanted, due);
    list_of(text, second), put_record(list, 0, KIND_NEW, (uint32_t)whole, 0);
    expect_back(p, "one of the lists behind one without a match", m, n, wanted, due);
}

/* In areas too short, just as long, and longer. What was written comes back where it is handed in twice, where the first list stands before it, and
 * where either stands behind it. */
static void test_pools(void)
{
    char what[112];
    uint8_t wanted[AREA];
    for (size_t i = 0; i < sizeof pools / sizeof *pools; i++) {
        const struct pooling *p = &pools[i];
        const size_t n = list_of(p->first, list), m = list_of(p->second, second), due = list_of(p->pooled, wanted);
        const size_t rooms[] = { 0, due - RECORD_BYTES, due - 1, due, due + 1, due + RECORD_BYTES, AREA };
        for (size_t k = due > 0 ? 0 : 3; k < sizeof rooms / sizeof *rooms; k++) {
            const uint32_t number = pooled(n, m, p->version, p->store, rooms[k]);
            snprintf(what, sizeof what, "%s, %zu bytes in an area of %zu", p->what, due, rooms[k]);
            expect("pool", what, rooms[k] < due ? refused_pool(number, 9, 0) : wrote_pooled(number, wanted, due));
        }
        memcpy(second, wanted, due);
        expect_back(p, "the first before what was written", n, due, wanted, due);
        memcpy(list, wanted, due);
        expect_back(p, "what was written, twice", due, due, wanted, due);
        list_of(p->first, second);
        expect_back(p, "the first behind what was written", due, n, wanted, due);
        list_of(p->second, second);
        expect_back(p, "the second behind what was written", due, m, wanted, due);
        expect_own_form(p, p->first);
        expect_own_form(p, p->second);
    }
}

/* A list of ABCDEX at fault, over ABCDEABCDEXY. */
#define ABCDEX "ABCDEX"
static const struct {
    const char *what, *list;
    uint32_t number, place;
} bad_pools[] = {
    { "kind 2", "X6@0", 4, 0 },
    { "kind 2 behind a match", "M1@0 X5@0", 4, 1 },
    { "kind 255", "M1@0 M4@1!0=255 N1", 4, 1 },
    { "kind 2 with the mark", "M1@0 X5@0!1=1", 4, 1 },
    { "a mark on a new record", "M5@0 N1!1=1", 4, 1 },
    { "a mark on a new record after a new one", "N1 N5!1=1", 4, 1 },
    { "byte 1 of a new record", "N6!1", 4, 0 },
    { "byte 2 of a new record", "M5@0 N1!2", 4, 1 },
    { "byte 3 of a new record", "N1 N5!3", 4, 1 },
    { "byte 1 of a match at 2", "N1 M4@1!1=2 N1", 4, 1 },
    { "byte 1 of a match at 255", "N1 M4@1!1=255 N1", 4, 1 },
    { "byte 2 of a match", "N1 M4@1!2 N1", 4, 1 },
    { "byte 3 of a match", "N1 M4@1!3 N1", 4, 1 },
    { "byte 2 of a held match", "N1 H4@1!2 N1", 4, 1 },
    { "byte 3 of a held match", "N1 H4@1!3 N1", 4, 1 },
    { "a new record of size 0", "N0", 4, 0 },
    { "a new record of size 0 after a new one", "N6 N0", 4, 1 },
    { "a match of size 0", "M5@0 N1 M0@0", 4, 2 },
    { "a held match of size 0", "H0@0 N6", 4, 0 },
    { "new with address 1", "N1@1 N5", 4, 0 },
    { "new with address 256", "N1 N5@256", 4, 1 },
    { "new with address 65536", "M5@0 N1@65536", 4, 1 },
    { "new with address 16777216", "N6@16777216", 4, 0 },
    { "4 at the last of six", "N1 N1 N1 N1 N1 N1@1", 4, 5 },
    { "one record a byte too long", "N7", 6, 0 },
    { "one match a byte too long", "M7@5", 6, 0 },
    { "one byte too many", "M5@0 N2", 6, 1 },
    { "one new record too many", "M5@0 N1 N1", 6, 2 },
    { "one match too many", "N6 M1@0", 6, 1 },
    { "one held match too many", "M6@5 H1@0", 6, 1 },
    { "a record as long as the longest version", "N1 N16777215", 6, 1 },
    { "sizes that pass 2^32", "N1 N4294967295", 6, 1 },
    { "sizes that pass 2^32 and end at 6", "N6 N4294967290 N6", 6, 1 },
    { "6 at the second of three", "N1 N6 N1", 6, 1 },
    { "a match beyond the store", "N1 M5@8", 7, 1 },
    { "a held match beyond the store", "H6@7", 7, 0 },
    { "a match behind the store", "M5@0 M1@12", 7, 1 },
    { "address 4294967295", "M6@4294967295", 7, 0 },
    { "address and size together 2^32", "M6@4294967290", 7, 0 },
    { "a first byte that differs", "M1@1 N5", 8, 0 },
    { "a first byte that differs, held", "H1@1 N5", 8, 0 },
    { "a last byte that differs", "M6@0", 8, 0 },
    { "a second match that differs", "M2@0 M4@3", 8, 1 },
    { "a last match that differs", "N1 M4@1 M1@11", 8, 2 },
    { "a held last match that differs", "N5 H1@11", 8, 1 },
    { "no records for a version", "", 6, 0 },
    { "one byte too few", "M5@0", 6, 1 },
    { "one new byte too few", "N5", 6, 1 },
    { "three bytes too few", "N1 N1 N1", 6, 3 },
    { "one byte too few in two matches", "M1@0 M4@1", 6, 2 },
    { "4 before 6", "N7!2", 4, 0 },
    { "4 before 7", "M6@7!2", 4, 0 },
    { "4 before 8", "M6@0!2", 4, 0 },
    { "6 before 7", "M7@4294967295", 6, 0 },
    { "6 before 8", "M1@0 M6@0", 6, 1 },
    { "7 before 8", "M2@11 N4", 7, 0 },
    { "6 at 0 before 4 at 1", "N7 N0", 6, 0 },
    { "7 at 0 before 4 at 1", "M1@12 N0", 7, 0 },
    { "8 at 0 before 4 at 1", "M1@1 N0", 8, 0 },
    { "8 at 0 before 6 at 1", "M1@1 N6", 8, 0 },
    { "8 at 0 before 7 at 1", "M1@1 M5@8", 8, 0 },
    { "8 at 1 before the short end", "M1@0 M1@3", 8, 1 },
    { "7 at 1 before the short end", "M1@0 M1@12", 7, 1 },
    { "4 at 1 before the short end", "N1 N0", 4, 1 },
};

/* Lists that stand beside one at fault: sound ones, and such as are at fault otherwise than the first of the two. */
static const char *const sound_beside[] = { "N6", "M5@0 N1", "N1 N1 M3@7 N1" };
static const char *const bad_beside[] = { "N0", "N1 N1 N1 N1 N1 N1 N1", "N5 M1@12", "M5@0 M1@11", "N1 N1 N1 N1 N1", "" };

/* The fault of the first list is said whatever the second is, that of the second where the first is sound; 9 comes behind both. */
static void test_bad_pools(void)
{
    const size_t rooms[] = { AREA, 0 };
    char what[112];
    for (size_t i = 0; i < sizeof bad_pools / sizeof *bad_pools; i++)
        for (size_t k = 0; k < 2; k++) {
            const uint32_t number = bad_pools[i].number, place = bad_pools[i].place;
            size_t n = list_of(bad_pools[i].list, list), m = list_of(bad_pools[i].list, second);
            snprintf(what, sizeof what, "%s in both, in an area of %zu", bad_pools[i].what, rooms[k]);
            expect("pool", what, refused_pool(pooled(n, m, ABCDEX, twice, rooms[k]), number, place));
            for (size_t b = 0; b < sizeof sound_beside / sizeof *sound_beside; b++) {
                n = list_of(bad_pools[i].list, list), m = list_of(sound_beside[b], second);
                snprintf(what, sizeof what, "%s in the first, in an area of %zu", bad_pools[i].what, rooms[k]);
                expect("pool", what, refused_pool(pooled(n, m, ABCDEX, twice, rooms[k]), number, place));
                n = list_of(sound_beside[b], list), m = list_of(bad_pools[i].list, second);
                snprintf(what, sizeof what, "%s in the second, in an area of %zu", bad_pools[i].what, rooms[k]);
                expect("pool", what, refused_pool(pooled(n, m, ABCDEX, twice, rooms[k]), number, place));
            }
            n = list_of(bad_pools[i].list, list);
            for (size_t b = 0; b < sizeof bad_beside / sizeof *bad_beside; b++) {
                m = list_of(bad_beside[b], second);
                snprintf(what, sizeof what, "%s before %s, in an area of %zu", bad_pools[i].what, bad_beside[b], rooms[k]);
                expect("pool", what, refused_pool(pooled(n, m, ABCDEX, twice, rooms[k]), number, place));
            }
        }
}

/* The refused rows of clause 10.11, but for the areas too short; 13 bytes are the first ones of two records. */
static const struct {
    const char *what, *first, *second, *version;
    size_t second_length;
    uint32_t number, place;
} worked_refusals[] = {
    { "7 at 1 of the first before 4 at 0 of the second", "M2@0 M3@3", "N0", "ABABC", 12, 7, 1 },
    { "the short end of the first before 3 of the second", "M2@0 N2", "N5 N5", "ABABC", 13, 6, 2 },
    { "3 of the second", "M5@0", "N5 N5", "ABABC", 13, 3, 0 },
    { "8 at 1 of the second", "N5", "M2@0 M3@2", "ABABZ", 24, 8, 1 },
    { "the short end of the second", "M5@0", "N2 N2", "ABABC", 24, 6, 2 },
    { "6 at 1 of the second", "M5@0", "M5@0 N1", "ABABC", 24, 6, 1 },
};

/* 3 of either list, in an area of any length: the first's before all that the second has, the second's behind all that the first has. */
static void test_pool_lengths(void)
{
    const size_t lengths[] = { 1, 11, 13, 23, 25 }, rooms[] = { 0, 12, AREA };
    char what[112];
    for (size_t k = 0; k < sizeof rooms / sizeof *rooms; k++) {
        for (size_t i = 0; i < sizeof worked_refusals / sizeof *worked_refusals; i++) {
            const size_t n = list_of(worked_refusals[i].first, list), m = worked_refusals[i].second_length;
            list_of(worked_refusals[i].second, second);
            snprintf(what, sizeof what, "%s, over ABABC in an area of %zu", worked_refusals[i].what, rooms[k]);
            expect("pool", what, refused_pool(pooled(n, m, worked_refusals[i].version, ababc, rooms[k]), worked_refusals[i].number,
                worked_refusals[i].place));
        }
        for (size_t i = 0; i < sizeof lengths / sizeof *lengths; i++)
            for (int sound = 0; sound < 2; sound++) {
                list_of(sound ? "N2 N2 N2" : "N0 N0 N0", list), list_of(sound ? "N2 N2 N2" : "N0 N0 N0", second);
                snprintf(what, sizeof what, "%zu bytes, %s records, in an area of %zu", lengths[i], sound ? "sound" : "malformed", rooms[k]);
                expect("pool, the first", what, refused_pool(pooled(lengths[i], 36, ABCDEX, twice, rooms[k]), 3, 0));
                expect("pool, both", what, refused_pool(pooled(lengths[i], lengths[i], ABCDEX, twice, rooms[k]), 3, 0));
                list_of("N2 N2 N2", list);
                expect("pool, the second", what, refused_pool(pooled(36, lengths[i], ABCDEX, twice, rooms[k]), 3, 0));
                expect("pool, the short end before the second", what, refused_pool(pooled(24, lengths[i], ABCDEX, twice, rooms[k]), 6, 2));
                list_of("N2 N2 M2@0", list);
                expect("pool, 8 before the second", what, refused_pool(pooled(36, lengths[i], ABCDEX, twice, rooms[k]), 8, 2));
            }
    }
}

/* An answer area of 31 bytes, or none, is said before anything else; 32 are enough. Areas that are only read may be the same. */
static void test_pool_areas(void)
{
    const uint8_t *bytes = (const uint8_t *)twice;
    uint8_t wanted[AREA];
    char what[80];
    const size_t n = list_of("M2@0 N4", list), m = list_of("N2 M3@2 N1", second), due = list_of("M5@0 N1", wanted);
    for (size_t less = 1; less <= ANSWER_BYTES; less += ANSWER_BYTES - 1)
        for (int sound = 0; sound < 2; sound++) {
            snprintf(what, sizeof what, "an answer area of %zu bytes%s", ANSWER_BYTES - less, sound ? "" : " before 3");
            fill_areas();
            expect("pool", what, not_made(pool(list, sound ? n : 11, second, m, (const uint8_t *)ABCDEX, 6, bytes, 12, list_area, AREA, answer,
                ANSWER_BYTES - less)));
        }
    fill_areas();
    memcpy(list_before, list, AREA), memcpy(second_before, second, AREA);
    expect("pool", "an answer area of 32 bytes", wrote_pooled(pool(list, n, second, m, (const uint8_t *)ABCDEX, 6, bytes, 12, list_area, AREA, answer,
        ANSWER_BYTES), wanted, due));
    list_of("M5@0 M7@5", list), list_of("M12@0", wanted);
    memcpy(list_before, list, AREA);
    fill_areas();
    expect("pool", "one list twice, and the store as the version", wrote(pool(list, 24, list, 24, bytes, 12, bytes, 12, list_area, AREA, answer,
        ANSWER_BYTES), wanted, RECORD_BYTES));
}

/* ---- Partition, estimate, commit, pass, pool and compare: one byte that differs, at each position ---- */

enum { LONGEST = 136, WORD = 8 };

static _Alignas(WORD) uint8_t version_bytes[WORD + LONGEST], store_bytes[WORD + LONGEST], second_bytes[2 * WORD + LONGEST];

/* A match of so many bytes at an address of the store, none where that is 0, after a new record where its offset in the version is not 0; the byte at
 * which they differ, or the size where none does. No two bytes of the store are alike. */
struct stretch {
    uint32_t size, offset, address, differs;
};

/* Sets list, version and store, and gives the length of the list in bytes. */
static size_t set_stretch(struct stretch t)
{
    size_t n = 0;
    for (size_t i = 0; i < sizeof store_bytes; i++)
        store_bytes[i] = (uint8_t)(37 * i);
    memset(version_bytes, '-', t.offset);
    memcpy(version_bytes + t.offset, store_bytes + t.address, t.size);
    if (t.differs < t.size)
        version_bytes[t.offset + t.differs] ^= (uint8_t)(1 << (t.offset + t.address) % 8);
    if (t.offset > 0)
        put_record(list, n++, KIND_NEW, t.offset, 0);
    if (t.size > 0)
        put_record(list, n++, KIND_MATCH, t.size, t.address);
    return RECORD_BYTES * n;
}

/* 8 at the match's place; else the list comes back, as no match is worth storing at a 256th for an entry, and as commit is handed the choice that
 * keeps it. */
static int finds(call *made, struct stretch t)
{
    const size_t n = set_stretch(t);
    const uint32_t records = (uint32_t)n / RECORD_BYTES;
    const uint8_t bits[2] = { t.offset > 0, 0 };
    hand(t.offset == 0 ? (t.size == 0 ? "" : "0") : t.size == 0 ? "1" : "10");
    fill_areas();
    const uint32_t number = made(1, 1, 1, list, n, version_bytes, t.offset + t.size, store_bytes, sizeof store_bytes, choice, AREA, list_area, AREA,
                                 block_area, AREA, answer, sizeof answer);
    if (t.differs < t.size)
        return refused(number, 8, t.offset > 0);
    return answered(number, (struct values){ .cost = records + 256 * t.offset, .entries = records, .stored = t.offset, .looks = made == pass ? records : 0 })
        && holds(choice, bits, made == committed ? 0 : records) && holds(list_area, list, made == estimated ? 0 : n)
        && holds(block_area, version_bytes, made == estimated ? 0 : t.offset) && holds(area, "", 0) && handed_stays();
}

/* The same of pool, where the list stands before one without a match, or behind it: the list comes back. */
static int finds_pooled(struct stretch t, int behind)
{
    const size_t n = set_stretch(t), whole = t.offset + t.size, m = whole > 0 ? RECORD_BYTES : 0;
    put_record(second, 0, KIND_NEW, (uint32_t)whole, 0);
    memcpy(list_before, list, AREA);
    fill_areas();
    const uint32_t number = pool(behind ? second : list, behind ? m : n, behind ? list : second, behind ? n : m, version_bytes, whole, store_bytes,
                                 sizeof store_bytes, list_area, AREA, answer, sizeof answer);
    return t.differs < t.size ? refused_loose(number, 8, t.offset > 0) : wrote(number, list, n);
}

/* Whether compare says so, in both orders, of so many records of the list with two stored blocks. */
static int tells_blocks(size_t records, const uint8_t *block, const uint8_t *other, size_t stored, uint32_t same)
{
    const size_t n = RECORD_BYTES * records;
    int as_wanted = 1;
    for (int turn = 0; turn < 2; turn++) {
        fill_areas();
        const uint32_t number = compare(list, n, list, n, turn ? other : block, stored, turn ? block : other, stored, store_bytes, sizeof store_bytes,
                                        answer, sizeof answer);
        as_wanted &= answered(number, (struct values){ .entries = same }) && untouched();
    }
    return as_wanted;
}

/* Where the origins are the same, compare goes by the stored blocks. So the stretch is stored in both lists, as the version and as the store have it:
 * first alone, each block at its place within a word; then behind up to 7 other stored bytes and a match, the second block at its place. */
static int tells(struct stretch t)
{
    const uint32_t same = t.differs < t.size ? NO : YES;
    uint8_t *other = second_bytes + t.address;
    size_t n = 0;
    set_stretch(t);
    put_record(list, 0, KIND_NEW, t.size, 0);
    const int alone = tells_blocks(t.size > 0, version_bytes + t.offset, store_bytes + t.address, t.size, same);
    memset(other, '-', t.offset);
    memcpy(other + t.offset, store_bytes + t.address, t.size);
    if (t.offset > 0)
        put_record(list, n++, KIND_NEW, t.offset, 0);
    put_record(list, n++, KIND_MATCH, WORD, 0);
    if (t.size > 0)
        put_record(list, n++, KIND_NEW, t.size, 0);
    return alone && tells_blocks(n, version_bytes, other, t.offset + t.size, same);
}

/* Every size, every byte that differs and none, at every pair of places within a word; each of the eight bits of a byte is the one that differs. */
static void test_stretches(void)
{
    char what[80];
    for (uint32_t size = 0; size <= LONGEST; size++) {
        int by_partition = 1, by_estimate = 1, by_commit = 1, by_pass = 1, by_pool = 1, by_compare = 1;
        for (uint32_t place = 0; place < WORD * WORD; place++)
            for (uint32_t differs = 0; differs <= size; differs++) {
                const struct stretch t = { size, place / WORD, place % WORD, differs };
                by_partition &= finds(partition, t);
                by_estimate &= finds(estimated, t);
                by_commit &= finds(committed, t);
                by_pass &= finds(pass, t);
                by_pool &= finds_pooled(t, 0) && finds_pooled(t, 1);
                by_compare &= tells(t);
            }
        snprintf(what, sizeof what, "a byte that differs in a stretch of %u", (unsigned)size);
        expect("partition", what, by_partition);
        expect("estimate", what, by_estimate);
        expect("commit", what, by_commit);
        expect("pass", what, by_pass);
        expect("pool", what, by_pool);
        expect("compare", what, by_compare);
    }
}

/* ---- The greatest sizes ---- */

static void *memory(size_t bytes)
{
    void *p = calloc(1, bytes);
    if (!p) {
        printf("calls: no memory for the greatest sizes\n");
        exit(1);
    }
    return p;
}

/* 4,096 matches that cover 16,777,216 bytes of 0, and lists of so many zero bytes: 49,152 pass check 3, 49,164 and 49,151 do not. */
static void test_greatest_lists(void)
{
    size_t length = (size_t)RECORDS_MOST * RECORD_BYTES;
    uint8_t *most = memory(length + RECORD_BYTES), *out = memory(length), *bits = memory(RECORDS_MOST), *zeros = memory(length + RECORD_BYTES);
    uint8_t *bytes = memory((size_t)VERSION_MOST + 1), *stored = memory(VERSION_MOST), one[RECORD_BYTES];
    expect("measure", "49,152 zero bytes, which pass check 3", refused(measured(10, 10, 256, zeros, length), 4, 0));
    expect("measure", "49,164 bytes", refused(measured(10, 10, 256, zeros, length + RECORD_BYTES), 3, 0));
    expect("measure", "49,151 bytes", refused(measured(10, 10, 256, zeros, length - 1), 3, 0));
    for (size_t i = 0; i < RECORDS_MOST; i++)
        put_record(most, i, KIND_MATCH, VERSION_MOST / RECORDS_MOST, (uint32_t)(3 * i));
    expect("measure", "4,096 records", answered(measured(10, 10, 256, most, length), (struct values){ .cost = 256 * 40960, .entries = 4096, .whole = VERSION_MOST }));
    fill_areas();
    expect("partition", "4,096 records and 16,777,216 bytes", answered(partition(1, 1, 1, most, length, bytes, VERSION_MOST, bytes, VERSION_MOST, bits,
        RECORDS_MOST, out, length, stored, VERSION_MOST, answer, sizeof answer), (struct values){ .cost = 4096, .entries = 4096 })
        && memcmp(out, most, length) == 0);
    fill_areas();
    expect("partition", "at the greatest price all is stored", answered(partition(E_MOST, E_MOST, F_MOST, most, length, bytes, VERSION_MOST, bytes, VERSION_MOST,
        bits, RECORDS_MOST, out, length, stored, VERSION_MOST, answer, sizeof answer),
        (struct values){ .cost = 16711425 + UINT64_C(4294967296), .entries = 1, .stored = VERSION_MOST }) && memcmp(stored, bytes, VERSION_MOST) == 0);
    fill_areas();
    expect("partition", "with the dearest matches all is stored", answered(partition(1, E_MOST, F_MOST, most, length, bytes, VERSION_MOST, bytes,
        VERSION_MOST, bits, RECORDS_MOST, out, length, stored, VERSION_MOST, answer, sizeof answer),
        (struct values){ .cost = 65535 + UINT64_C(4294967296), .entries = 1, .stored = VERSION_MOST }));
    fill_areas();
    expect("partition", "with the dearest new entries all is kept", answered(partition(E_MOST, 1, F_MOST, most, length, bytes, VERSION_MOST, bytes,
        VERSION_MOST, bits, RECORDS_MOST, out, length, stored, VERSION_MOST, answer, sizeof answer),
        (struct values){ .cost = 4096 * 65535, .entries = 4096 }) && memcmp(out, most, length) == 0);
    fill_areas();
    expect("pass", "4,096 records", answered(pass(1, 1, 1, most, length, bytes, VERSION_MOST, bytes, VERSION_MOST, bits, RECORDS_MOST, out, length,
        stored, VERSION_MOST, answer, sizeof answer), (struct values){ .cost = 4096, .entries = 4096, .looks = 4096 }));
    /* 4,096 matches that go on become one of 16,777,216 bytes, with 4,096 bytes of 0 as its choice; measure prices them as they come. */
    for (size_t i = 0; i < RECORDS_MOST; i++)
        put_record(most, i, KIND_MATCH, VERSION_MOST / RECORDS_MOST, (uint32_t)(VERSION_MOST / RECORDS_MOST * i));
    put_record(one, 0, KIND_MATCH, VERSION_MOST, 0);
    expect("measure", "4,096 records that go on", answered(measured(10, 10, 256, most, length),
        (struct values){ .cost = 256 * 40960, .entries = 4096, .whole = VERSION_MOST }));
    memset(bits, 1, RECORDS_MOST);
    fill_areas();
    expect("partition", "4,096 records that go on", answered(partition(E_MOST, E_MOST, F_MOST, most, length, bytes, VERSION_MOST, bytes, VERSION_MOST, bits,
        RECORDS_MOST, out, length, stored, VERSION_MOST, answer, sizeof answer), (struct values){ .cost = 16711425, .entries = 1 })
        && memcmp(out, one, RECORD_BYTES) == 0 && memcmp(bits, zeros, RECORDS_MOST) == 0);
    memset(bits, 1, RECORDS_MOST);
    fill_areas();
    expect("pass", "4,096 records that go on", answered(pass(E_MOST, E_MOST, F_MOST, most, length, bytes, VERSION_MOST, bytes, VERSION_MOST, bits,
        RECORDS_MOST, out, length, stored, VERSION_MOST, answer, sizeof answer), (struct values){ .cost = 16711425, .entries = 1, .looks = 1 })
        && memcmp(out, one, RECORD_BYTES) == 0 && memcmp(bits, zeros, RECORDS_MOST) == 0);
    /* The same, all held, become one held match; with every other one held none joins another. */
    for (size_t i = 0; i < RECORDS_MOST; i++)
        most[RECORD_BYTES * i + 1] = 1;
    one[1] = 1;
    memset(bits, 1, RECORDS_MOST);
    fill_areas();
    expect("partition", "4,096 held records that go on", answered(partition(E_MOST, E_MOST, F_MOST, most, length, bytes, VERSION_MOST, bytes,
        VERSION_MOST, bits, RECORDS_MOST, out, length, stored, VERSION_MOST, answer, sizeof answer), (struct values){ .cost = 16711425, .entries = 1 })
        && memcmp(out, one, RECORD_BYTES) == 0 && memcmp(bits, zeros, RECORDS_MOST) == 0);
    memset(bits, 1, RECORDS_MOST);
    fill_areas();
    expect("pass", "4,096 held records that go on", answered(pass(E_MOST, E_MOST, F_MOST, most, length, bytes, VERSION_MOST, bytes, VERSION_MOST, bits,
        RECORDS_MOST, out, length, stored, VERSION_MOST, answer, sizeof answer), (struct values){ .cost = 16711425, .entries = 1, .looks = 1 })
        && memcmp(out, one, RECORD_BYTES) == 0 && memcmp(bits, zeros, RECORDS_MOST) == 0);
    for (size_t i = 0; i < RECORDS_MOST; i++)
        most[RECORD_BYTES * i + 1] = i % 2;
    fill_areas();
    expect("partition", "4,096 records that go on, every other one held", answered(partition(1, 1, 1, most, length, bytes, VERSION_MOST, bytes,
        VERSION_MOST, bits, RECORDS_MOST, out, length, stored, VERSION_MOST, answer, sizeof answer), (struct values){ .cost = 4096, .entries = 4096 })
        && memcmp(out, most, length) == 0);
    memset(out, 0, length);
    fill_areas();
    expect("pass", "4,096 records that go on, every other one held", answered(pass(1, 1, 1, most, length, bytes, VERSION_MOST, bytes, VERSION_MOST,
        bits, RECORDS_MOST, out, length, stored, VERSION_MOST, answer, sizeof answer), (struct values){ .cost = 4096, .entries = 4096, .looks = 4096 })
        && memcmp(out, most, length) == 0);
    /* 4,096 held matches that do not go on: the greatest price, at which all would be stored, keeps them, and costs 4,096 * 16,711,425. */
    for (size_t i = 0; i < RECORDS_MOST; i++) {
        put_record(most, i, KIND_MATCH, VERSION_MOST / RECORDS_MOST, (uint32_t)(3 * i));
        most[RECORD_BYTES * i + 1] = 1;
    }
    memset(bits, 1, RECORDS_MOST);
    fill_areas();
    expect("partition", "4,096 held records at the greatest price", answered(partition(E_MOST, E_MOST, F_MOST, most, length, bytes, VERSION_MOST, bytes,
        VERSION_MOST, bits, RECORDS_MOST, out, length, stored, VERSION_MOST, answer, sizeof answer),
        (struct values){ .cost = UINT64_C(68449996800), .entries = 4096 }) && memcmp(out, most, length) == 0
        && memcmp(bits, zeros, RECORDS_MOST) == 0);
    memset(bits, 1, RECORDS_MOST);
    fill_areas();
    expect("pass", "4,096 held records at the greatest price", answered(pass(E_MOST, E_MOST, F_MOST, most, length, bytes, VERSION_MOST, bytes,
        VERSION_MOST, bits, RECORDS_MOST, out, length, stored, VERSION_MOST, answer, sizeof answer),
        (struct values){ .cost = UINT64_C(68449996800), .entries = 4096, .looks = 4096 }) && memcmp(out, most, length) == 0
        && memcmp(bits, zeros, RECORDS_MOST) == 0);
    /* Two matches of 2^32 256ths together, which a sum in 32 bits would take for 0: no price is worth them. */
    for (size_t i = 0; i < 2; i++)
        put_record(most, i, KIND_MATCH, VERSION_MOST / 2, (uint32_t)(VERSION_MOST / 2 * (1 - i)));
    fill_areas();
    expect("pass", "two matches of 8,388,608 at the greatest price", answered(pass(E_MOST, E_MOST, F_MOST, most, 24, bytes, VERSION_MOST, bytes, VERSION_MOST,
        bits, RECORDS_MOST, out, length, stored, VERSION_MOST, answer, sizeof answer), (struct values){ .cost = 33422850, .entries = 2, .looks = 2 }));
    fill_areas();
    expect("partition", "two matches of 8,388,608 at the greatest price", answered(partition(E_MOST, E_MOST, F_MOST, most, 24, bytes, VERSION_MOST, bytes,
        VERSION_MOST, bits, RECORDS_MOST, out, length, stored, VERSION_MOST, answer, sizeof answer), (struct values){ .cost = 33422850, .entries = 2 }));
    fill_areas();
    expect("partition", "a version of 16,777,217 bytes", refused(partition(1, 1, 1, most, length, bytes, VERSION_MOST + 1, bytes, VERSION_MOST, bits,
        RECORDS_MOST, out, length, stored, VERSION_MOST, answer, sizeof answer), 2, 0));
    fill_areas();
    expect("partition", "1 before 2", refused(partition(0, 1, 1, most, length, bytes, VERSION_MOST + 1, bytes, VERSION_MOST, bits, RECORDS_MOST, out, length,
        stored, VERSION_MOST, answer, sizeof answer), 1, 0));
    fill_areas();
    expect("partition", "2 before 3", refused(partition(1, 1, 1, most, length - 1, bytes, VERSION_MOST + 1, bytes, VERSION_MOST, bits, RECORDS_MOST, out,
        length, stored, VERSION_MOST, answer, sizeof answer), 2, 0));
    free(most), free(out), free(bits), free(zeros), free(bytes), free(stored);
}

/* 4,096 records that cover 16,777,216 bytes of 0; the choice, which commit reads and estimate writes, with a byte behind it; the areas, and the list
 * that should be written. */
static struct {
    uint8_t *list, *bits, *bytes, *out, *stored, *wanted;
} great;

enum { LENGTH = RECORDS_MOST * RECORD_BYTES, PART = VERSION_MOST / RECORDS_MOST };

static uint32_t great_estimate(uint32_t en, uint32_t em, uint32_t f, size_t length, size_t version)
{
    fill_areas();
    memset(great.bits, FILL, RECORDS_MOST + 1);
    return estimate(en, em, f, great.list, length, great.bytes, version, great.bytes, VERSION_MOST, great.bits, RECORDS_MOST, answer, sizeof answer);
}

static uint32_t great_commit(uint32_t en, uint32_t em, uint32_t f, size_t length, size_t version, size_t records)
{
    fill_areas();
    memset(great.out, FILL, LENGTH);
    memset(great.stored, FILL, VERSION_MOST);
    return commit(en, em, f, great.list, length, great.bytes, version, great.bytes, VERSION_MOST, great.bits, records, great.out, LENGTH, great.stored,
                  VERSION_MOST, answer, sizeof answer);
}

/* Matches that go on in the store or begin 3 bytes after each other; held or not. */
static void set_great(uint32_t step, uint8_t mark)
{
    for (uint32_t i = 0; i < RECORDS_MOST; i++) {
        put_record(great.list, i, KIND_MATCH, PART, step * i);
        great.list[RECORD_BYTES * i + 1] = mark;
    }
}

/* Whether all of so many bytes are the same one. */
static int all_are(const uint8_t *bytes, size_t n, uint8_t byte)
{
    return n == 0 || (bytes[0] == byte && memcmp(bytes, bytes + 1, n - 1) == 0);
}

/* An accepted estimate, which wrote the same byte for each record, and none behind them. */
static int great_choice(uint32_t number, struct values want, uint8_t byte)
{
    return answered(number, want) && untouched() && all_are(great.bits, RECORDS_MOST, byte) && great.bits[RECORDS_MOST] == FILL;
}

/* A refused estimate, which wrote none. */
static int great_unchosen(uint32_t returned, uint32_t number)
{
    return refused(returned, number, 0) && all_are(great.bits, RECORDS_MOST + 1, FILL);
}

/* An accepted commitment, which wrote the wanted list and zeros, and nothing behind them. */
static int great_list(uint32_t number, struct values want)
{
    const size_t written = RECORD_BYTES * want.entries;
    return answered(number, want) && untouched() && memcmp(great.out, great.wanted, written) == 0 && all_are(great.out + written, LENGTH - written, FILL)
        && all_are(great.stored, want.stored, 0) && all_are(great.stored + want.stored, VERSION_MOST - want.stored, FILL);
}

static int great_refusal(uint32_t returned, uint32_t number, uint32_t place)
{
    return refused(returned, number, place) && all_are(great.out, LENGTH, FILL) && all_are(great.stored, VERSION_MOST, FILL);
}

/* All kept, 4,096 entries; all stored, 1 entry and 2^32 256ths of bytes; both at the price that makes it the least. */
static void test_great_estimates(void)
{
    const struct values stored = { .cost = 16711425 + UINT64_C(4294967296), .entries = 1, .stored = VERSION_MOST };
    const struct values stored_cheaply = { .cost = 65535 + UINT64_C(4294967296), .entries = 1, .stored = VERSION_MOST };
    const struct values kept_dearly = { .cost = UINT64_C(68449996800), .entries = 4096 };
    set_great(3, 0);
    expect("estimate", "4,096 records", great_choice(great_estimate(1, 1, 1, LENGTH, VERSION_MOST), (struct values){ .cost = 4096, .entries = 4096 }, 0));
    expect("estimate", "all stored at the greatest price", great_choice(great_estimate(E_MOST, E_MOST, F_MOST, LENGTH, VERSION_MOST), stored, 1));
    expect("estimate", "all stored with the dearest matches", great_choice(great_estimate(1, E_MOST, F_MOST, LENGTH, VERSION_MOST), stored_cheaply, 1));
    expect("estimate", "all kept with the dearest new entries", great_choice(great_estimate(E_MOST, 1, F_MOST, LENGTH, VERSION_MOST),
        (struct values){ .cost = 4096 * 65535, .entries = 4096 }, 0));
    expect("estimate", "a version of 16,777,217 bytes", great_unchosen(great_estimate(1, 1, 1, LENGTH, VERSION_MOST + 1), 2));
    expect("estimate", "1 before 2", great_unchosen(great_estimate(0, 1, 1, LENGTH, VERSION_MOST + 1), 1));
    expect("estimate", "2 before 3", great_unchosen(great_estimate(1, 1, 1, LENGTH - 1, VERSION_MOST + 1), 2));
    set_great(3, MARK_HELD);
    expect("estimate", "4,096 held records at the greatest price", great_choice(great_estimate(E_MOST, E_MOST, F_MOST, LENGTH, VERSION_MOST), kept_dearly, 0));
    set_great(PART, 0);
    expect("estimate", "4,096 records that go on", great_choice(great_estimate(E_MOST, E_MOST, F_MOST, LENGTH, VERSION_MOST),
        (struct values){ .cost = 16711425, .entries = 1 }, 0));
    set_great(PART, MARK_HELD);
    expect("estimate", "4,096 held records that go on", great_choice(great_estimate(E_MOST, E_MOST, F_MOST, LENGTH, VERSION_MOST),
        (struct values){ .cost = 16711425, .entries = 1 }, 0));
}

/* One byte for all records. */
static void set_bits(uint8_t byte)
{
    memset(great.bits, byte, RECORDS_MOST + 1);
}

/* Records 1, 3, 5 and so on stored: 2,048 new entries and as many matches, whose bytes cost 2^31. */
static void set_turns(void)
{
    for (uint32_t i = 0; i < RECORDS_MOST; i++) {
        great.bits[i] = i % 2;
        memcpy(great.wanted + RECORD_BYTES * i, great.list + RECORD_BYTES * i, RECORD_BYTES);
        if (i % 2 == 1)
            put_record(great.wanted, i, KIND_NEW, PART, 0);
    }
}

static void test_great_commits(void)
{
    const struct values turns = { .cost = 4096 + UINT64_C(2147483648), .entries = 4096, .stored = VERSION_MOST / 2 };
    const struct values turns_dearly = { .cost = UINT64_C(70597480448), .entries = 4096, .stored = VERSION_MOST / 2 };
    set_great(3, 0), set_bits(0), memcpy(great.wanted, great.list, LENGTH);
    expect("commit", "4,096 records kept", great_list(great_commit(1, 1, 1, LENGTH, VERSION_MOST, RECORDS_MOST),
        (struct values){ .cost = 4096, .entries = 4096 }));
    expect("commit", "4,096 records kept at the greatest price", great_list(great_commit(E_MOST, E_MOST, F_MOST, LENGTH, VERSION_MOST, RECORDS_MOST),
        (struct values){ .cost = UINT64_C(68449996800), .entries = 4096 }));
    set_bits(1), put_record(great.wanted, 0, KIND_NEW, VERSION_MOST, 0);
    expect("commit", "4,096 records stored", great_list(great_commit(1, 1, 1, LENGTH, VERSION_MOST, RECORDS_MOST),
        (struct values){ .cost = 1 + UINT64_C(4294967296), .entries = 1, .stored = VERSION_MOST }));
    set_turns();
    expect("commit", "4,096 records in turns at the greatest price", great_list(great_commit(E_MOST, E_MOST, F_MOST, LENGTH, VERSION_MOST, RECORDS_MOST),
        turns_dearly));
    set_great(PART, 0), set_turns();
    expect("commit", "4,096 records that go on, in turns", great_list(great_commit(1, 1, 1, LENGTH, VERSION_MOST, RECORDS_MOST), turns));
    set_bits(0), put_record(great.wanted, 0, KIND_MATCH, VERSION_MOST, 0);
    expect("commit", "4,096 records that go on", great_list(great_commit(1, 1, 1, LENGTH, VERSION_MOST, RECORDS_MOST),
        (struct values){ .cost = 1, .entries = 1 }));
    great.bits[2048] = 1;
    put_record(great.wanted, 0, KIND_MATCH, 2048 * PART, 0);
    put_record(great.wanted, 1, KIND_NEW, PART, 0);
    put_record(great.wanted, 2, KIND_MATCH, 2047 * PART, 2049 * PART);
    expect("commit", "4,096 records that go on, one stored", great_list(great_commit(1, 1, 1, LENGTH, VERSION_MOST, RECORDS_MOST),
        (struct values){ .cost = 3 + 256 * PART, .entries = 3, .stored = PART }));
    set_great(PART, MARK_HELD), set_bits(0), put_record(great.wanted, 0, KIND_MATCH, VERSION_MOST, 0);
    great.wanted[1] = MARK_HELD;
    expect("commit", "4,096 held records that go on", great_list(great_commit(E_MOST, E_MOST, F_MOST, LENGTH, VERSION_MOST, RECORDS_MOST),
        (struct values){ .cost = 16711425, .entries = 1 }));
}

static void test_great_no_choices(void)
{
    set_great(3, MARK_HELD), set_bits(0);
    expect("commit", "4,095 bytes for 4,096 records", great_refusal(great_commit(1, 1, 1, LENGTH, VERSION_MOST, RECORDS_MOST - 1), 12, 0));
    expect("commit", "4,097 bytes for 4,096 records", great_refusal(great_commit(1, 1, 1, LENGTH, VERSION_MOST, RECORDS_MOST + 1), 12, 0));
    great.bits[RECORDS_MOST - 1] = 1;
    expect("commit", "1 for the last of 4,096 held records", great_refusal(great_commit(1, 1, 1, LENGTH, VERSION_MOST, RECORDS_MOST), 12, 4095));
    great.bits[RECORDS_MOST - 1] = 255;
    set_great(3, 0);
    expect("commit", "255 for the last of 4,096 records", great_refusal(great_commit(1, 1, 1, LENGTH, VERSION_MOST, RECORDS_MOST), 12, 4095));
    expect("commit", "a version of 16,777,217 bytes, 2 before 12", great_refusal(great_commit(1, 1, 1, LENGTH, VERSION_MOST + 1, RECORDS_MOST), 2, 0));
    expect("commit", "1 before 2", great_refusal(great_commit(0, 1, 1, LENGTH, VERSION_MOST + 1, RECORDS_MOST), 1, 0));
    expect("commit", "2 before 3", great_refusal(great_commit(1, 1, 1, LENGTH - 1, VERSION_MOST + 1, RECORDS_MOST), 2, 0));
}

static void test_greatest_choices(void)
{
    great.list = memory(LENGTH), great.bits = memory(RECORDS_MOST + 1), great.bytes = memory((size_t)VERSION_MOST + 1);
    great.out = memory(LENGTH), great.stored = memory(VERSION_MOST), great.wanted = memory(LENGTH);
    hand("");
    test_great_estimates();
    test_great_commits();
    test_great_no_choices();
    free(great.list), free(great.bits), free(great.bytes), free(great.out), free(great.stored), free(great.wanted);
}

/* ---- Compare: the greatest sizes, over a store that cannot be read ---- */

/* The longest store: a read of it ends the test. */
static const uint8_t *unreadable;

static void store_was_read(int signal_number)
{
    (void)signal_number;
    printf("calls: compare, a byte of the store was read\n");
    fflush(stdout);
    _Exit(1);
}

/* Over the longest store: its last bytes, and addresses that differ in one byte of the field, also behind a cut. */
static const struct pair far_pairs[] = {
    { "the last bytes of the store", "N1 M5@268435451", "a", "N1 M5@268435451", "a", YES },
    { "the last bytes of the store, cut in two", "M5@268435451", "", "M2@268435451 M3@268435453", "", YES },
    { "the last bytes of the store, held, cut in three", "H5@268435451", "", "H1@268435451 H3@268435452 H1@268435455", "", YES },
    { "the last 16,777,216 bytes, and the last one alone", "M16777216@251658240", "", "M16777215@251658240 M1@268435455", "", YES },
    { "a run across 256", "M5@254", "", "M2@254 M3@256", "", YES },
    { "a run across 65,536", "M5@65534", "", "M2@65534 M3@65536", "", YES },
    { "a run across 16,777,216", "M5@16777214", "", "M2@16777214 M3@16777216", "", YES },
    { "pieces of 65,536 bytes, and one of 131,072", "M65536@65536 M65536@131072", "", "M131072@65536", "", YES },
    { "the last bytes, and those a byte before", "M5@268435451", "", "M5@268435450", "", NO },
    { "the last bytes, and the first", "M5@268435451", "", "M5@0", "", NO },
    { "the last 16,777,216 bytes, and those a byte before", "M16777216@251658240", "", "M16777216@251658239", "", NO },
    { "the mark of the last byte of the store", "M5@268435451", "", "M4@268435451 H1@268435455", "", NO },
    { "a stored byte before the last bytes of the store", "N1 M5@268435451", "a", "N1 M5@268435451", "b", NO },
    { "1 apart", "M5@0", "", "M5@1", "", NO },
    { "256 apart", "M5@0", "", "M5@256", "", NO },
    { "65,536 apart", "M5@0", "", "M5@65536", "", NO },
    { "16,777,216 apart", "M5@0", "", "M5@16777216", "", NO },
    { "256 apart behind a cut", "M5@254", "", "M2@254 M3@0", "", NO },
    { "65,536 apart behind a cut", "M5@65534", "", "M2@65534 M3@0", "", NO },
    { "16,777,216 apart behind a cut", "M5@16777214", "", "M2@16777214 M3@0", "", NO },
    { "sizes 65,536 apart", "M5@0", "", "M65541@0", "", NO },
    { "16,777,216 bytes and a byte less", "M16777216@0", "", "M16777215@0", "", NO },
};

/* Two lists of up to 4,096 records, and a stored block for each. */
static struct {
    uint8_t *first, *second, *block, *second_block;
} beside;

static void put_beside(uint8_t *to, uint32_t i, char as, uint32_t size, uint32_t address)
{
    put_record(to, i, as == 'N' ? KIND_NEW : KIND_MATCH, size, address);
    to[RECORD_BYTES * i + 1] = as == 'H' ? MARK_HELD : 0;
}

/* The last 16,777,216 bytes of the store, in 4,096 parts. */
enum { FROM = STORE_MOST - VERSION_MOST };

static void put_parts(char as)
{
    for (uint32_t i = 0; i < RECORDS_MOST; i++)
        put_beside(beside.first, i, as, PART, FROM + PART * i);
}

/* So many records of each list, in both orders, with so many bytes of their blocks. */
static void expect_beside(const char *what, uint32_t records, uint32_t second_records, size_t stored, uint32_t same)
{
    const size_t n = RECORD_BYTES * records, m = RECORD_BYTES * second_records;
    char turned[96];
    fill_areas();
    expect("compare", what, answered(compare(beside.first, n, beside.second, m, beside.block, stored, beside.second_block, stored, unreadable,
        STORE_MOST, answer, sizeof answer), (struct values){ .entries = same }) && untouched());
    snprintf(turned, sizeof turned, "%s, in the other order", what);
    fill_areas();
    expect("compare", turned, answered(compare(beside.second, m, beside.first, n, beside.second_block, stored, beside.block, stored, unreadable,
        STORE_MOST, answer, sizeof answer), (struct values){ .entries = same }) && untouched());
}

/* 4,096 matches that go on beside one, two, three and as many; then one origin differs, in the first record, in one of the middle, or in the last. */
static void test_many_beside_few(void)
{
    put_parts('M'), put_beside(beside.second, 0, 'M', VERSION_MOST, FROM);
    expect_beside("4,096 records and one", RECORDS_MOST, 1, 0, YES);
    put_beside(beside.second, 0, 'H', VERSION_MOST, FROM);
    expect_beside("4,096 records and a held one", RECORDS_MOST, 1, 0, NO);
    put_parts('H');
    expect_beside("4,096 held records and a held one", RECORDS_MOST, 1, 0, YES);
    const uint32_t places[] = { 0, 1, 2048, RECORDS_MOST - 2, RECORDS_MOST - 1 };
    char what[96];
    for (size_t k = 0; k < sizeof places / sizeof *places; k++) {
        const uint32_t i = places[k];
        snprintf(what, sizeof what, "4,096 held records and one, without the mark of record %u", (unsigned)i);
        put_parts('H'), put_beside(beside.first, i, 'M', PART, FROM + PART * i);
        expect_beside(what, RECORDS_MOST, 1, 0, NO);
        snprintf(what, sizeof what, "4,096 held records and one, record %u a byte before", (unsigned)i);
        put_parts('H'), put_beside(beside.first, i, 'H', PART, FROM + PART * i - 1);
        expect_beside(what, RECORDS_MOST, 1, 0, NO);
    }
    put_parts('M');
    put_beside(beside.second, 0, 'M', 5000001, FROM), put_beside(beside.second, 1, 'M', VERSION_MOST - 5000001, FROM + 5000001);
    expect_beside("4,096 records and two", RECORDS_MOST, 2, 0, YES);
    put_beside(beside.second, 1, 'M', VERSION_MOST - 5000001, FROM + 5000000);
    expect_beside("4,096 records and two, the second a byte before", RECORDS_MOST, 2, 0, NO);
    put_beside(beside.second, 0, 'M', 1, FROM), put_beside(beside.second, 1, 'M', VERSION_MOST - 2, FROM + 1);
    put_beside(beside.second, 2, 'M', 1, STORE_MOST - 1);
    expect_beside("4,096 records and three", RECORDS_MOST, 3, 0, YES);
    expect_beside("4,096 records and three, less the last", RECORDS_MOST, 2, 0, NO);
    expect_beside("4,095 records and three", RECORDS_MOST - 1, 3, 0, NO);
    put_beside(beside.second, 2, 'H', 1, STORE_MOST - 1);
    expect_beside("4,096 records and three, the last byte held", RECORDS_MOST, 3, 0, NO);
    /* Every cut of the second list is in the middle of a record of the first. */
    put_beside(beside.second, 0, 'M', PART / 2, FROM);
    for (uint32_t i = 1; i < RECORDS_MOST; i++)
        put_beside(beside.second, i, 'M', i < RECORDS_MOST - 1 ? PART : PART + PART / 2, FROM + PART * i - PART / 2);
    expect_beside("4,096 records and as many, by cuts that cross", RECORDS_MOST, RECORDS_MOST, 0, YES);
    put_beside(beside.second, RECORDS_MOST - 1, 'H', PART + PART / 2, STORE_MOST - PART - PART / 2);
    expect_beside("4,096 records and as many, the last held", RECORDS_MOST, RECORDS_MOST, 0, NO);
}

/* 16,777,216 stored bytes, and half as many between matches; the last one differs, or the first, or one between. */
static void test_most_stored(void)
{
    const uint32_t half = VERSION_MOST / 2;
    for (uint32_t i = 0; i < VERSION_MOST; i++)
        beside.block[i] = beside.second_block[i] = (uint8_t)(i ^ i >> 8 ^ i >> 16);
    put_beside(beside.first, 0, 'N', VERSION_MOST, 0), put_beside(beside.second, 0, 'N', VERSION_MOST, 0);
    expect_beside("16,777,216 stored bytes", 1, 1, VERSION_MOST, YES);
    const uint32_t places[] = { 0, half - 1, half, VERSION_MOST - 1 };
    char what[96];
    for (size_t k = 0; k < sizeof places / sizeof *places; k++) {
        snprintf(what, sizeof what, "16,777,216 stored bytes, of which byte %u differs", (unsigned)places[k]);
        beside.block[places[k]] ^= 128;
        expect_beside(what, 1, 1, VERSION_MOST, NO);
        beside.block[places[k]] ^= 128;
    }
    for (uint32_t i = 0; i < RECORDS_MOST; i++) {
        put_beside(beside.first, i, i % 2 ? 'M' : 'N', PART, i % 2 ? 3 * i : 0);
        put_beside(beside.second, i, i % 2 ? 'M' : 'N', PART, i % 2 ? 3 * i : 0);
    }
    expect_beside("4,096 records in turns", RECORDS_MOST, RECORDS_MOST, half, YES);
    beside.block[half - 1] ^= 128;
    expect_beside("4,096 records in turns, of which the last stored byte differs", RECORDS_MOST, RECORDS_MOST, half, NO);
    beside.block[half - 1] ^= 128;
    put_beside(beside.second, RECORDS_MOST - 1, 'H', PART, 3 * (RECORDS_MOST - 1));
    expect_beside("4,096 records in turns, the last held", RECORDS_MOST, RECORDS_MOST, half, NO);
    /* Bytes of 0, stored by one list and drawn by the other, from a store that can be read. */
    for (uint32_t i = 0; i < RECORDS_MOST; i++)
        put_beside(beside.first, i, 'M', PART, 3 * i);
    put_beside(beside.second, 0, 'N', VERSION_MOST, 0);
    memset(beside.block, 0, VERSION_MOST);
    fill_areas();
    expect("compare", "4,096 records, and one that stores the same bytes", answered(compare(beside.first, LENGTH, beside.second, RECORD_BYTES,
        beside.block, 0, beside.block, VERSION_MOST, beside.block, VERSION_MOST, answer, sizeof answer), (struct values){ .entries = NO }) && untouched());
}

static void test_unread_store(void)
{
    unreadable = mmap(NULL, STORE_MOST, PROT_NONE, MAP_PRIVATE | MAP_ANONYMOUS | MAP_NORESERVE, -1, 0);
    if (unreadable == MAP_FAILED) {
        printf("calls: no address space for a store that cannot be read\n");
        exit(1);
    }
    beside.first = memory(LENGTH), beside.second = memory(LENGTH), beside.block = memory(VERSION_MOST), beside.second_block = memory(VERSION_MOST);
    hand("");
    signal(SIGSEGV, store_was_read);
    for (size_t i = 0; i < sizeof far_pairs / sizeof *far_pairs; i++)
        expect_pair(unreadable, STORE_MOST, &far_pairs[i]);
    /* Of a store only the length matters: so much of this one answers as ABCDEABCDEXY does. */
    for (size_t i = 0; i < sizeof pairs / sizeof *pairs; i++)
        expect_pair(unreadable, 12, &pairs[i]);
    list_of("M5@268435452", list), list_of("M5@268435451", second);
    expect("compare", "a byte beyond the store in the first", refused(compared_over(unreadable, STORE_MOST, 12, "", 12, ""), 7, 0));
    list_of("M5@268435451", list), list_of("M5@268435452", second);
    expect("compare", "a byte beyond the store in the second", refused(compared_over(unreadable, STORE_MOST, 12, "", 12, ""), 7, 0));
    test_many_beside_few();
    test_most_stored();
    signal(SIGSEGV, SIG_DFL);
    free(beside.first), free(beside.second), free(beside.block), free(beside.second_block);
    munmap((void *)unreadable, STORE_MOST);
}

/* The most records of a loose list, the list that should be written, and the area, with a guard behind each limit. */
static struct {
    uint8_t *list, *wanted, *out, *store;
} loose;

static void put_loose(uint32_t i, char as, uint32_t size, uint32_t address)
{
    put_record(loose.list, i, as == 'N' ? KIND_NEW : KIND_MATCH, size, address);
    loose.list[RECORD_BYTES * i + 1] = as == 'H' ? MARK_HELD : 0;
}

static void want(uint32_t i, char as, uint32_t size, uint32_t address)
{
    put_record(loose.wanted, i, as == 'N' ? KIND_NEW : KIND_MATCH, size, address);
    loose.wanted[RECORD_BYTES * i + 1] = as == 'H' ? MARK_HELD : 0;
}

static uint32_t loose_tidied(size_t length, size_t room)
{
    fill_areas();
    memset(loose.out, FILL, LENGTH + RECORD_BYTES);
    return tidy(loose.list, length, loose.store, VERSION_MOST, loose.out, room, answer, sizeof answer);
}

/* Both calls accept the 4,096 records; tidy writes so many, the wanted ones. */
static void expect_great(const char *what, uint32_t records)
{
    const size_t written = RECORD_BYTES * records;
    fill_areas();
    expect("check_loose", what, refused(check_loose(loose.list, LENGTH, loose.store, VERSION_MOST, answer, sizeof answer), 0, 0));
    expect("tidy", what, answered(loose_tidied(LENGTH, LENGTH), (struct values){ .entries = records }) && untouched()
        && memcmp(loose.out, loose.wanted, written) == 0 && all_are(loose.out + written, LENGTH + RECORD_BYTES - written, FILL));
}

/* Both calls refuse so many bytes of the list, in an area of so many. */
static void expect_no_great(const char *what, size_t length, size_t room, uint32_t number, uint32_t place)
{
    fill_areas();
    expect("check_loose", what, refused(check_loose(loose.list, length, loose.store, VERSION_MOST, answer, sizeof answer), number, place));
    expect("tidy", what, refused(loose_tidied(length, room), number, place) && all_are(loose.out, LENGTH + RECORD_BYTES, FILL));
}

/* 4,096 records that cover 16,777,216 bytes: new, going on, held; in turns; in halves of new records and matches. */
static void test_greatest_loose(void)
{
    loose.list = memory(LENGTH + RECORD_BYTES), loose.wanted = memory(LENGTH), loose.out = memory(LENGTH + RECORD_BYTES);
    loose.store = memory(VERSION_MOST);
    hand("");
    expect_no_great("49,152 zero bytes, which pass check 3", LENGTH, LENGTH, 4, 0);
    expect_no_great("49,164 bytes", LENGTH + RECORD_BYTES, LENGTH + RECORD_BYTES, 3, 0);
    expect_no_great("49,151 bytes", LENGTH - 1, LENGTH, 3, 0);
    expect_no_great("49,164 bytes in a shorter area", LENGTH + RECORD_BYTES, LENGTH, 3, 0);
    expect("tidy", "49,152 zero bytes in 49,151", refused(loose_tidied(LENGTH, LENGTH - 1), 9, 0)
        && all_are(loose.out, LENGTH + RECORD_BYTES, FILL));
    for (uint32_t i = 0; i < RECORDS_MOST; i++)
        put_loose(i, 'N', PART, 0);
    want(0, 'N', VERSION_MOST, 0);
    expect_great("4,096 new records", 1);
    expect("tidy", "4,096 new records in 49,151 bytes", refused(loose_tidied(LENGTH, LENGTH - 1), 9, 0)
        && all_are(loose.out, LENGTH + RECORD_BYTES, FILL));
    put_loose(RECORDS_MOST - 1, 'N', PART + 1, 0);
    expect_no_great("a byte too many in the last of 4,096 new records", LENGTH, LENGTH, 6, RECORDS_MOST - 1);
    put_loose(RECORDS_MOST - 1, 'M', PART, VERSION_MOST - PART + 1);
    expect_no_great("the last of 4,096 records beyond the store", LENGTH, LENGTH, 7, RECORDS_MOST - 1);
    for (uint32_t i = 0; i < RECORDS_MOST; i++)
        put_loose(i, 'M', PART, PART * i);
    want(0, 'M', VERSION_MOST, 0);
    expect_great("4,096 records that go on", 1);
    for (uint32_t i = 0; i < RECORDS_MOST; i++)
        put_loose(i, 'H', PART, PART * i);
    want(0, 'H', VERSION_MOST, 0);
    expect_great("4,096 held records that go on", 1);
    for (uint32_t i = 0; i < RECORDS_MOST; i++)
        put_loose(i, i % 2 ? 'H' : 'M', PART, PART * i);
    memcpy(loose.wanted, loose.list, LENGTH);
    expect_great("4,096 records that go on, every other one held", RECORDS_MOST);
    for (uint32_t i = 0; i < RECORDS_MOST; i++)
        put_loose(i, 'M', PART, 3 * i);
    memcpy(loose.wanted, loose.list, LENGTH);
    expect_great("4,096 records that do not go on", RECORDS_MOST);
    for (uint32_t i = 0; i < RECORDS_MOST; i++)
        put_loose(i, i % 2 ? 'M' : 'N', PART, i % 2 ? PART * i : 0);
    memcpy(loose.wanted, loose.list, LENGTH);
    expect_great("4,096 records in turns", RECORDS_MOST);
    for (uint32_t i = 0; i < RECORDS_MOST; i++)
        put_loose(i, i % 4 < 2 ? 'N' : 'M', PART, i % 4 < 2 ? 0 : PART * i);
    for (uint32_t i = 0; i < RECORDS_MOST / 2; i++)
        want(i, i % 2 ? 'M' : 'N', 2 * PART, i % 2 ? 2 * PART * i : 0);
    expect_great("2,048 records in halves", RECORDS_MOST / 2);
    for (uint32_t i = 1; i < RECORDS_MOST; i++)
        put_loose(i, 'N', PART, 0);
    put_loose(0, 'M', PART, 0);
    want(0, 'M', PART, 0), want(1, 'N', VERSION_MOST - PART, 0);
    expect_great("a match and 4,095 new records", 2);
    free(loose.list), free(loose.wanted), free(loose.out), free(loose.store);
}

/* ---- Pool: the greatest sizes ---- */

/* Two lists of up to 4,096 records, of 16,777,216 bytes of 0; the list that should be written; and the area, with room for all cuts of both lists. */
static struct {
    uint8_t *first, *second, *wanted, *out, *version, *store;
} pair_of;

enum { MOST_OUT = 2 * LENGTH };

static uint32_t great_pool(size_t length, size_t second_length, size_t room)
{
    fill_areas();
    memset(pair_of.out, FILL, MOST_OUT);
    return pool(pair_of.first, length, pair_of.second, second_length, pair_of.version, VERSION_MOST, pair_of.store, VERSION_MOST, pair_of.out, room,
                answer, sizeof answer);
}

/* So many records of both lists give so many wanted ones: in an area just as long, and in the longest. In one that is a byte shorter they are refused. */
static void expect_great_pool(const char *what, uint32_t records, uint32_t second_records, uint32_t entries)
{
    const size_t n = RECORD_BYTES * records, m = RECORD_BYTES * second_records, due = RECORD_BYTES * entries, rooms[] = { due - 1, due, MOST_OUT };
    char in_room[112];
    for (size_t k = 0; k < 3; k++) {
        const uint32_t number = great_pool(n, m, rooms[k]);
        const size_t written = rooms[k] < due ? 0 : due;
        snprintf(in_room, sizeof in_room, "%s, %zu bytes in an area of %zu", what, due, rooms[k]);
        expect("pool", in_room, (written == 0 ? refused(number, 9, 0) : answered(number, (struct values){ .entries = entries }) && untouched())
            && memcmp(pair_of.out, pair_of.wanted, written) == 0 && all_are(pair_of.out + written, MOST_OUT - written, FILL));
    }
}

/* So many bytes of both lists are refused, whatever the area. */
static void expect_no_great_pool(const char *what, size_t length, size_t second_length, uint32_t number, uint32_t place)
{
    const size_t rooms[] = { 0, LENGTH - 1, LENGTH, LENGTH + RECORD_BYTES, MOST_OUT };
    char in_room[112];
    for (size_t k = 0; k < sizeof rooms / sizeof *rooms; k++) {
        snprintf(in_room, sizeof in_room, "%s, in an area of %zu", what, rooms[k]);
        expect("pool", in_room, refused(great_pool(length, second_length, rooms[k]), number, place) && all_are(pair_of.out, MOST_OUT, FILL));
    }
}

/* So many records of equal size, a new one and a match in turns, or the other way; a match goes on from where the one before it would, or it does not,
 * being 3 bytes on for each record. */
static void put_in_turns(uint8_t *to, uint32_t records, char even, char odd, int going_on)
{
    const uint32_t size = VERSION_MOST / records, step = going_on ? size : 3;
    for (uint32_t i = 0; i < records; i++) {
        const char as = i % 2 ? odd : even;
        put_beside(to, i, as, size, as == 'N' ? 0 : step * i);
    }
}

/* 4,096 records of both lists that give one, or as many: area and answer go by the pooled list alone. */
static void test_pooled_turns(void)
{
    put_in_turns(pair_of.first, RECORDS_MOST, 'N', 'M', 1), put_in_turns(pair_of.second, RECORDS_MOST, 'M', 'N', 1);
    put_beside(pair_of.wanted, 0, 'M', VERSION_MOST, 0);
    expect_great_pool("4,096 records in turns and as many, going on", RECORDS_MOST, RECORDS_MOST, 1);
    put_in_turns(pair_of.second, RECORDS_MOST, 'M', 'M', 1);
    expect_great_pool("4,096 records in turns and 4,096 matches, going on", RECORDS_MOST, RECORDS_MOST, 1);
    put_beside(pair_of.second, 0, 'M', PART / 2, 0);
    for (uint32_t i = 1; i < RECORDS_MOST; i++)
        put_beside(pair_of.second, i, 'M', i < RECORDS_MOST - 1 ? PART : PART + PART / 2, PART * i - PART / 2);
    expect_great_pool("4,096 records in turns and 4,096 matches, by cuts that cross", RECORDS_MOST, RECORDS_MOST, 1);
    put_in_turns(pair_of.first, RECORDS_MOST, 'N', 'H', 1), put_in_turns(pair_of.second, RECORDS_MOST, 'H', 'N', 1);
    put_beside(pair_of.wanted, 0, 'H', VERSION_MOST, 0);
    expect_great_pool("4,096 held records in turns and as many, going on", RECORDS_MOST, RECORDS_MOST, 1);
    put_in_turns(pair_of.first, RECORDS_MOST, 'N', 'N', 0), put_in_turns(pair_of.second, RECORDS_MOST, 'N', 'N', 0);
    put_beside(pair_of.wanted, 0, 'N', VERSION_MOST, 0);
    expect_great_pool("4,096 new records and as many", RECORDS_MOST, RECORDS_MOST, 1);
    put_in_turns(pair_of.first, RECORDS_MOST, 'N', 'H', 1), put_in_turns(pair_of.second, RECORDS_MOST, 'M', 'M', 1);
    put_in_turns(pair_of.wanted, RECORDS_MOST, 'M', 'H', 1);
    expect_great_pool("4,096 records in turns, held, and as many, not held", RECORDS_MOST, RECORDS_MOST, RECORDS_MOST);
    put_in_turns(pair_of.first, RECORDS_MOST, 'M', 'M', 0), put_in_turns(pair_of.second, RECORDS_MOST, 'H', 'H', 1);
    put_in_turns(pair_of.wanted, RECORDS_MOST, 'M', 'M', 0);
    expect_great_pool("4,096 matches over as many", RECORDS_MOST, RECORDS_MOST, RECORDS_MOST);
    put_in_turns(pair_of.first, RECORDS_MOST, 'N', 'M', 0), put_beside(pair_of.second, 0, 'N', VERSION_MOST, 0);
    put_in_turns(pair_of.wanted, RECORDS_MOST, 'N', 'M', 0);
    expect_great_pool("4,096 records in turns, and a new one", RECORDS_MOST, 1, RECORDS_MOST);
    put_beside(pair_of.first, 0, 'N', VERSION_MOST, 0), put_in_turns(pair_of.second, RECORDS_MOST, 'N', 'M', 0);
    expect_great_pool("a new record, and 4,096 in turns", 1, RECORDS_MOST, RECORDS_MOST);
    put_beside(pair_of.first, 0, 'M', VERSION_MOST, 0), put_beside(pair_of.wanted, 0, 'M', VERSION_MOST, 0);
    expect_great_pool("a match, and 4,096 in turns", 1, RECORDS_MOST, 1);
}

/* A list of 4,096 records in turns; a match of one byte at the front of its first new record makes one record more, and so does one at the end of its
 * last. One that takes the place of the whole new record makes none. */
static void test_one_too_many(void)
{
    put_in_turns(pair_of.first, RECORDS_MOST, 'N', 'M', 0);
    put_beside(pair_of.second, 0, 'M', 1, 9000000), put_beside(pair_of.second, 1, 'N', VERSION_MOST - 1, 0);
    expect_no_great_pool("4,097 records, by the first byte", LENGTH, 2 * RECORD_BYTES, 13, 0);
    put_beside(pair_of.second, 0, 'N', VERSION_MOST - PART - 1, 0), put_beside(pair_of.second, 1, 'H', 1, 9000000);
    put_beside(pair_of.second, 2, 'N', PART, 0);
    expect_no_great_pool("4,097 records, by the last new byte", LENGTH, 3 * RECORD_BYTES, 13, 0);
    put_beside(pair_of.second, 0, 'M', PART, 9000000), put_beside(pair_of.second, 1, 'N', VERSION_MOST - PART, 0);
    put_in_turns(pair_of.wanted, RECORDS_MOST, 'N', 'M', 0), put_beside(pair_of.wanted, 0, 'M', PART, 9000000);
    expect_great_pool("4,096 records, of which the second draws one", RECORDS_MOST, 2, RECORDS_MOST);
    put_beside(pair_of.second, 0, 'M', PART - 1, 9000000), put_beside(pair_of.second, 1, 'M', 1, 9000000 + PART - 1);
    put_beside(pair_of.second, 2, 'N', VERSION_MOST - PART, 0);
    expect_great_pool("4,096 records, and 4,097 stretches", RECORDS_MOST, 3, RECORDS_MOST);
    put_beside(pair_of.second, 1, 'M', 1, 9000000 + PART);
    expect_no_great_pool("4,097 records, by a match that does not go on", LENGTH, 3 * RECORD_BYTES, 13, 0);
    put_beside(pair_of.second, 1, 'H', 1, 9000000 + PART - 1);
    expect_no_great_pool("4,097 records, by a mark", LENGTH, 3 * RECORD_BYTES, 13, 0);
}

/* The first list in turns; the second of matches that do not go on, cut so many times, always within a new record of the first, 1,000 bytes on each time.
 * So each cut is one of the pooled list. The second list has one record more than cuts. */
static void put_cuts(uint32_t records, uint32_t cuts)
{
    const uint32_t size = VERSION_MOST / records, news = records / 2;
    uint32_t from = 0, j = 0;
    put_in_turns(pair_of.first, records, 'N', 'M', 0);
    for (uint32_t k = 0; k < news; k++)
        for (uint32_t c = 0; c < cuts / news + (k < cuts % news); c++) {
            const uint32_t to = 2 * k * size + 1000 * (c + 1);
            put_beside(pair_of.second, j, 'M', to - from, 5000000 + 7 * j);
            from = to, j++;
        }
    put_beside(pair_of.second, j, 'M', VERSION_MOST - from, 7 * j);
}

/* 2,048 records and 2,048 cuts: of each new record three parts. The first part is the end of a match of the second list that began 2,000 bytes into the
 * new record before, but for the very first. */
static void want_cuts(void)
{
    const uint32_t size = VERSION_MOST / 2048;
    for (uint32_t k = 0; k < 1024; k++) {
        put_beside(pair_of.wanted, 4 * k, 'M', 1000, 5000000 + 7 * (2 * k) + (k == 0 ? 0 : 2 * size - 2000));
        put_beside(pair_of.wanted, 4 * k + 1, 'M', 1000, 5000000 + 7 * (2 * k + 1));
        put_beside(pair_of.wanted, 4 * k + 2, 'M', size - 2000, (k < 1023 ? 5000000 : 0) + 7 * (2 * k + 2));
        put_beside(pair_of.wanted, 4 * k + 3, 'M', size, 3 * (2 * k + 1));
    }
}

static void test_many_cuts(void)
{
    put_cuts(2048, 2048), want_cuts();
    expect_great_pool("2,048 records and 2,049, of which 4,096 are left", 2048, 2049, RECORDS_MOST);
    put_cuts(2048, 2049);
    expect_no_great_pool("2,048 records and 2,050, of which 4,097 are left", 2048 * RECORD_BYTES, 2050 * RECORD_BYTES, 13, 0);
    put_cuts(RECORDS_MOST, RECORDS_MOST - 1);
    expect_no_great_pool("4,096 records and 4,096, of which 8,191 are left", LENGTH, LENGTH, 13, 0);
}

/* 13 comes behind every check of both lists, 9 behind 13; 2 before them. The pooled list would have 4,097 records or more. */
static void test_before_13(void)
{
    const size_t three = 3 * RECORD_BYTES;
    uint8_t *const last = pair_of.first + LENGTH - RECORD_BYTES;
    put_in_turns(pair_of.first, RECORDS_MOST, 'N', 'M', 0);
    put_beside(pair_of.second, 0, 'M', 1, 9000000), put_beside(pair_of.second, 1, 'N', VERSION_MOST - 2, 0), put_beside(pair_of.second, 2, 'M', 1, 0);
    expect_no_great_pool("13", LENGTH, three, 13, 0);
    put_beside(pair_of.second, 2, 'N', 0, 0);
    expect_no_great_pool("4 at the end of the second before 13", LENGTH, three, 4, 2);
    put_beside(pair_of.second, 2, 'N', 2, 0);
    expect_no_great_pool("6 at the end of the second before 13", LENGTH, three, 6, 2);
    put_beside(pair_of.second, 2, 'M', 1, VERSION_MOST);
    expect_no_great_pool("7 at the end of the second before 13", LENGTH, three, 7, 2);
    put_beside(pair_of.second, 2, 'M', 1, VERSION_MOST - 1);
    expect_no_great_pool("8 at the end of the second before 13", LENGTH, three, 8, 2);
    expect_no_great_pool("the short end of the second before 13", LENGTH, three - RECORD_BYTES, 6, 2);
    expect_no_great_pool("3 of the second before 13", LENGTH, three - 1, 3, 0);
    put_beside(last, 0, 'M', PART, VERSION_MOST - PART);
    expect_no_great_pool("8 at the end of the first before 8 of the second", LENGTH, three, 8, RECORDS_MOST - 1);
    put_beside(last, 0, 'M', PART, VERSION_MOST - PART + 1);
    expect_no_great_pool("7 at the end of the first before the short end of the second", LENGTH, three - RECORD_BYTES, 7, RECORDS_MOST - 1);
    expect_no_great_pool("the short end of the first before 3 of the second", LENGTH - RECORD_BYTES, three - 1, 6, RECORDS_MOST - 1);
    expect_no_great_pool("49,151 bytes of the first", LENGTH - 1, three, 3, 0);
    expect_no_great_pool("49,164 bytes of the first", LENGTH + RECORD_BYTES, three, 3, 0);
    put_in_turns(pair_of.first, RECORDS_MOST, 'N', 'M', 0);
    expect_no_great_pool("49,151 bytes of the second", LENGTH, LENGTH - 1, 3, 0);
    expect_no_great_pool("49,164 bytes of the second", LENGTH, LENGTH + RECORD_BYTES, 3, 0);
}

/* 2 by the version, with lists that are sound but for its last byte, before everything else. */
static void test_pool_of_long_version(void)
{
    const struct { const char *what; size_t length, second_length; } lists[] = {
        { "a version of 16,777,217 bytes", LENGTH, LENGTH }, { "2 before 3 of the first", LENGTH - 1, LENGTH },
        { "2 before 3 of the second", LENGTH, LENGTH - 1 }, { "2 before the short end", RECORD_BYTES, RECORD_BYTES }, { "2 with no records", 0, 0 },
    };
    put_in_turns(pair_of.first, RECORDS_MOST, 'N', 'M', 0), put_in_turns(pair_of.second, RECORDS_MOST, 'N', 'M', 0);
    for (size_t i = 0; i < sizeof lists / sizeof *lists; i++)
        for (size_t room = 0; room <= LENGTH; room += LENGTH) {
            fill_areas();
            memset(pair_of.out, FILL, MOST_OUT);
            expect("pool", lists[i].what, refused(pool(pair_of.first, lists[i].length, pair_of.second, lists[i].second_length, pair_of.version,
                VERSION_MOST + 1, pair_of.store, VERSION_MOST, pair_of.out, room, answer, sizeof answer), 2, 0) && all_are(pair_of.out, MOST_OUT, FILL));
        }
}

/* The last byte of the store alone is not 0. */
static void test_greatest_pools(void)
{
    pair_of.first = memory(LENGTH + RECORD_BYTES), pair_of.second = memory(LENGTH + RECORD_BYTES), pair_of.wanted = memory(LENGTH);
    pair_of.out = memory(MOST_OUT), pair_of.version = memory((size_t)VERSION_MOST + 1), pair_of.store = memory(VERSION_MOST);
    hand("");
    test_pooled_turns();
    pair_of.store[VERSION_MOST - 1] = 1;
    test_one_too_many();
    test_many_cuts();
    test_before_13();
    test_pool_of_long_version();
    free(pair_of.first), free(pair_of.second), free(pair_of.wanted), free(pair_of.out), free(pair_of.version), free(pair_of.store);
}

/* Over the longest store, of zeros, with a version of so many: the rest of a match has an address and a size that take one byte of the field more, and
 * parts of both lists go on across such a place. */
static const struct {
    const char *what, *first, *second;
    size_t version;
    const char *pooled;
} far_pools[] = {
    { "a rest from 256 on", "M2@1000 N3", "M5@254", 5, "M2@1000 M3@256" },
    { "a rest from 65,536 on", "M2@1000 N3", "M5@65534", 5, "M2@1000 M3@65536" },
    { "a rest from 16,777,216 on", "M2@1000 N3", "M5@16777214", 5, "M2@1000 M3@16777216" },
    { "a rest to the end of the store", "M2@1000 N3", "H5@268435451", 5, "M2@1000 H3@268435453" },
    { "the last byte of the store", "M4@1000 N1", "M5@268435451", 5, "M4@1000 M1@268435455" },
    { "the last bytes of the store", "N3 M2@1000", "M5@268435451", 5, "M3@268435451 M2@1000" },
    { "going on across 256", "M2@254 N3", "N2 M3@256", 5, "M5@254" },
    { "going on across 65,536", "N2 M3@65536", "M2@65534 N3", 5, "M5@65534" },
    { "going on across 16,777,216", "M2@16777214 N3", "M1@0 N1 M3@16777216", 5, "M5@16777214" },
    { "going on to the end of the store", "H2@268435451 N3", "N2 H3@268435453", 5, "H5@268435451" },
    { "256 apart", "M2@254 N3", "N2 M3@0", 5, "M2@254 M3@0" },
    { "65,536 apart", "M2@65534 N3", "N2 M3@0", 5, "M2@65534 M3@0" },
    { "16,777,216 apart", "M2@16777214 N3", "N2 M3@0", 5, "M2@16777214 M3@0" },
    { "256 bytes covered", "M256@1000000 N256", "M512@0", 512, "M256@1000000 M256@256" },
    { "65,536 bytes covered", "M65536@1000000 N65536", "M131072@0", 131072, "M65536@1000000 M65536@65536" },
    { "8,388,608 bytes covered", "M8388608@0 N8388608", "M16777216@251658240", VERSION_MOST, "M8388608@0 M8388608@260046848" },
    { "sizes of 256 in two", "M255@0 N1", "N255 M1@255", 256, "M256@0" },
    { "sizes of 65,536 in halves", "M32768@0 N32768", "N32768 M32768@32768", 65536, "M65536@0" },
    { "sizes of 16,777,216 in halves", "M8388608@0 N8388608", "N8388608 M8388608@8388608", VERSION_MOST, "M16777216@0" },
    { "sizes of 16,777,216, new in two", "N16777215 N1", "N1 N16777215", VERSION_MOST, "N16777216" },
    { "one match of 16,777,216, drawn by the second", "N16777216", "M16777216@251658240", VERSION_MOST, "M16777216@251658240" },
    { "one match of 16,777,216, held by the first", "H16777216@251658240", "M16777216@0", VERSION_MOST, "H16777216@251658240" },
};

/* 7 for a byte beyond the longest store in either list; 2 for a store that is longer, before 3 of either, 4 and 9. */
static void test_far_pools(const uint8_t *store)
{
    uint8_t wanted[AREA];
    const size_t over = (size_t)STORE_MOST + 1;
    for (size_t i = 0; i < sizeof far_pools / sizeof *far_pools; i++) {
        const size_t n = list_of(far_pools[i].first, list), m = list_of(far_pools[i].second, second), due = list_of(far_pools[i].pooled, wanted);
        memcpy(list_before, list, AREA), memcpy(second_before, second, AREA);
        fill_areas();
        expect("pool", far_pools[i].what, wrote_pooled(pool(list, n, second, m, store, far_pools[i].version, store, STORE_MOST, list_area, due, answer,
            sizeof answer), wanted, due));
    }
    for (int in_second = 0; in_second < 2; in_second++) {
        list_of(in_second ? "N5" : "M5@268435452", list), list_of(in_second ? "M5@268435452" : "N5", second);
        fill_areas();
        expect("pool", "a byte beyond the longest store", refused(pool(list, 12, second, 12, store, 5, store, STORE_MOST, list_area, AREA, answer,
            sizeof answer), 7, 0));
        const size_t lengths[] = { 12, 11 }, rooms[] = { AREA, 0 };
        for (size_t k = 0; k < 4; k++) {
            const size_t n = in_second ? 12 : lengths[k / 2], m = in_second ? lengths[k / 2] : 12;
            fill_areas();
            expect("pool", "a store of 268,435,457 bytes", refused(pool(list, n, second, m, store, 5, store, over, list_area, rooms[k % 2], answer,
                sizeof answer), 2, 0));
        }
    }
    list_of("N0", list), list_of("N0", second);
    fill_areas();
    expect("pool", "2 before 4", refused(pool(list, 12, second, 12, store, 5, store, over, list_area, AREA, answer, sizeof answer), 2, 0));
    fill_areas();
    expect("pool", "2 with no records", refused(pool(list, 0, second, 0, store, 0, store, over, list_area, 0, answer, sizeof answer), 2, 0));
}

static void test_greatest_store(void)
{
    uint8_t *huge = memory((size_t)STORE_MOST + 1), block[10] = { 0 };
    list_of(SHEET_C, list);
    fill_areas();
    expect("check", "a store of 268,435,456 bytes", refused(check(list, 36, block, 10, huge, STORE_MOST, 0, answer, sizeof answer), 0, 0));
    fill_areas();
    expect("check", "a store of 268,435,457 bytes", refused(check(list, 36, block, 10, huge, (size_t)STORE_MOST + 1, 0, answer, sizeof answer), 2, 0));
    fill_areas();
    expect("check", "2 before 3", refused(check(list, 35, block, 10, huge, (size_t)STORE_MOST + 1, 0, answer, sizeof answer), 2, 0));
    fill_areas();
    expect("compare", "a store of 268,435,456 bytes", answered(compare(list, 36, list, 36, block, 10, block, 10, huge, STORE_MOST, answer, sizeof answer),
        (struct values){ .entries = YES }));
    fill_areas();
    expect("compare", "a store of 268,435,457 bytes", refused(compare(list, 36, list, 36, block, 10, block, 10, huge, (size_t)STORE_MOST + 1, answer,
        sizeof answer), 2, 0));
    fill_areas();
    expect("compare", "2 before 3", refused(compare(list, 35, list, 36, block, 10, block, 10, huge, (size_t)STORE_MOST + 1, answer, sizeof answer), 2, 0));
    fill_areas();
    expect("pass", "a store of 268,435,457 bytes", refused(pass(10, 10, 256, list, 36, (const uint8_t *)VERSION_C, 29, huge, (size_t)STORE_MOST + 1, choice,
        AREA, list_area, AREA, block_area, AREA, answer, sizeof answer), 2, 0));
    fill_areas();
    expect("estimate", "a store of 268,435,457 bytes", refused(estimate(10, 10, 256, list, 36, (const uint8_t *)VERSION_C, 29, huge, (size_t)STORE_MOST + 1,
        choice, AREA, answer, sizeof answer), 2, 0));
    hand("1");
    fill_areas();
    expect("commit", "a store of 268,435,457 bytes, 2 before 9 and 12", refused(commit(10, 10, 256, list, 36, (const uint8_t *)VERSION_C, 29, huge,
        (size_t)STORE_MOST + 1, handed, handed_length, list_area, 0, block_area, 0, answer, sizeof answer), 2, 0));
    /* The last bytes of the longest store; one byte more is said before 3, 9 and 4. */
    const char *const ends[] = { "N1 N1 M5@268435451", "N1 N1 M5@268435452", "N1 N1 M1@268435456" };
    const size_t over = (size_t)STORE_MOST + 1;
    uint8_t wanted[AREA];
    const size_t wanted_length = list_of("N2 M5@268435451", wanted);
    for (size_t i = 0; i < 3; i++) {
        const size_t n = list_of(ends[i], list);
        expect("check_loose", ends[i], refused_loose(checked_loose(n, (const char *)huge, STORE_MOST), i == 0 ? 0 : 7, i == 0 ? 0 : 2));
        const uint32_t number = tidied(n, (const char *)huge, STORE_MOST, n);
        expect("tidy", ends[i], i == 0 ? wrote(number, wanted, wanted_length) : refused_loose(number, 7, 2));
        expect("check_loose", "a store of 268,435,457 bytes", refused_loose(checked_loose(n, (const char *)huge, over), 2, 0));
        expect("tidy", "a store of 268,435,457 bytes", refused_loose(tidied(n, (const char *)huge, over, n), 2, 0));
    }
    list_of("N0 N0", list);
    expect("check_loose", "2 before 3", refused_loose(checked_loose(11, (const char *)huge, over), 2, 0));
    expect("tidy", "2 before 3", refused_loose(tidied(11, (const char *)huge, over, AREA), 2, 0));
    expect("check_loose", "2 before 4", refused_loose(checked_loose(24, (const char *)huge, over), 2, 0));
    expect("tidy", "2 before 4", refused_loose(tidied(24, (const char *)huge, over, AREA), 2, 0));
    expect("tidy", "2 before 9", refused_loose(tidied(24, (const char *)huge, over, 23), 2, 0));
    expect("tidy", "2 before 3 and 9", refused_loose(tidied(13, (const char *)huge, over, 0), 2, 0));
    expect("check_loose", "2 with no records", refused_loose(checked_loose(0, (const char *)huge, over), 2, 0));
    expect("tidy", "2 with no records", refused_loose(tidied(0, (const char *)huge, over, 0), 2, 0));
    test_far_pools(huge);
    free(huge);
}

int main(void)
{
    test_measure();
    test_check();
    test_rebuild();
    test_compare();
    test_accepted();
    test_rising();
    test_refused(partition, "partition");
    test_refused(estimated, "estimate");
    test_refused(committed, "commit");
    test_refused(pass, "pass");
    test_short_areas(partition, "partition", FOR_CHOICE, FOR_BLOCK, "");
    test_short_areas(estimated, "estimate", FOR_CHOICE, FOR_CHOICE, "");
    test_short_areas(committed, "commit of 101", FOR_LIST, FOR_BLOCK, "101");
    test_short_areas(committed, "commit of 111", FOR_LIST, FOR_BLOCK, "111");
    test_short_areas(pass, "pass", FOR_CHOICE, FOR_BLOCK, "");
    test_no_choice();
    test_loose_lists();
    test_bad_loose();
    test_loose_lengths();
    test_pools();
    test_bad_pools();
    test_pool_lengths();
    test_pool_areas();
    test_stretches();
    test_greatest_lists();
    test_greatest_choices();
    test_unread_store();
    test_greatest_loose();
    test_greatest_pools();
    test_greatest_store();
    printf("calls: %d cases of %d, %d wrong\n", cases, CASES, wrong);
    return cases != CASES || wrong != 0;
}
