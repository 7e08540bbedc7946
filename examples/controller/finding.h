/* finding.h - what the programs of this folder share: the way from two files and a price to the list found between them, and its estimate.
 *
 * A program defines its name and its usage, which finding.c puts into error lines. Whatever goes wrong ends the program with status 1 and one line.
 *
 * In order: errors; files; answers; a deposit; its estimate.
 */
#ifndef FINDING_H
#define FINDING_H

#include "controller.h"

/* ---- Errors ---- */

extern const char program[], usage[];

/* Writes the program's name and the line to standard error, and ends with status 1. */
_Noreturn void fail(const char *format, ...);

/* Never NULL, not even for 0 bytes: an empty area too needs a pointer. */
void *allocate(size_t length);

/* ---- Files ---- */

struct bytes {
    uint8_t *at;
    size_t length;
};

/* ---- Answers ---- */

/* The answer area's fields that are used here. */
struct answer {
    uint64_t cost;
    uint32_t entries, stored, whole;
};

/* Takes an answer area apart, where the call was accepted. */
struct answer answer_of(const char *call, const uint8_t *area);

/* A cost in disk bytes. */
double in_disk_bytes(uint64_t cost);

/* ---- A deposit ---- */

/* A list: the records that it has now, and, of a finder's list, those that were added in all. */
struct list {
    uint8_t bytes[RECORDS_MOST * RECORD_BYTES];
    size_t records, added;
};

/* What is deposited: the list of each finder, and the list found, which may be both pooled; version and store; and the price. */
struct deposit {
    struct bytes store, version;
    struct list quickly, thoroughly, found;
    int is_pooled;
    uint32_t en, em, f;
};

/* The deposit of arguments OLD NEW [EN EM [F]], of which there are 2 to 5; what is not given of the price is 12, 16 and 1024. */
struct deposit *take_deposit(int count, char **arguments);

void free_deposit(struct deposit *d);

/* A line on what the finders found. */
void print_found(const struct deposit *d);

/* ---- Its estimate ---- */

/* What partition would come to, and its choice: a byte for each record found. */
struct estimated {
    struct answer answer;
    uint8_t choice[RECORDS_MOST];
};

/* The estimate at a factor, the deposit's or another. */
struct estimated estimate_at(const struct deposit *d, uint32_t f);

#endif
