/* wrong_estimate.c - estimates that are wrong in a way that the variable WRONG names, for the test of examples/controller/curve, which is built with
 * -Destimate=wrong_estimate for it. Each answers the list of the library's estimate, at the right factor or at another, with a cost that fits the stored
 * bytes and index bytes answered; only that of no_multiple does not fit. In comes_back the choice alone is wrong, at factors above 1024. Where WRONG is
 * not set the answer is the library's.
 */
#include <stdlib.h>
#include <string.h>

#include "controller.h"

static int wrong(const char *way)
{
    const char *set = getenv("WRONG");
    return set != NULL && strcmp(set, way) == 0;
}

static uint32_t factor_for(uint32_t f)
{
    if (wrong("index_grows"))
        return 65536 - f;
    if (wrong("cost_falls") && f < 1024)
        return 1;
    if (wrong("not_least") && f == 1024)
        return 819;
    return f;
}

static void put(uint8_t *at, int bytes, uint64_t number)
{
    for (int i = 0; i < bytes; i++)
        at[i] = (uint8_t)(number >> (8 * i));
}

/* 0 for each match. */
static void keep_all(const uint8_t *list, size_t list_len, uint8_t *choice)
{
    for (size_t i = 0; RECORD_BYTES * i < list_len; i++)
        choice[i] = list[RECORD_BYTES * i] == KIND_NEW;
}

uint32_t wrong_estimate(uint32_t en, uint32_t em, uint32_t f, const uint8_t *list, size_t list_len, const uint8_t *version, size_t version_len,
                        const uint8_t *store, size_t store_len, uint8_t *choice, size_t choice_len, uint8_t *answer, size_t answer_len);

uint32_t wrong_estimate(uint32_t en, uint32_t em, uint32_t f, const uint8_t *list, size_t list_len, const uint8_t *version, size_t version_len,
                        const uint8_t *store, size_t store_len, uint8_t *choice, size_t choice_len, uint8_t *answer, size_t answer_len)
{
    const uint32_t used = factor_for(f);
    const uint32_t number = estimate(en, em, used, list, list_len, version, version_len, store, store_len, choice, choice_len, answer, answer_len);
    uint64_t stored = answer_stored(answer), index = (answer_cost(answer) - DISK_BYTE * stored) / used;
    if (f > 1024) {
        stored -= wrong("stored_falls");
        stored += wrong("stored_alone");
        index -= wrong("index_alone");
        if (wrong("comes_back"))
            keep_all(list, list_len, choice);
    }
    put(answer + 20, 4, stored);
    put(answer + 8, 8, f * index + DISK_BYTE * stored + (wrong("no_multiple") && f > 1));
    return number;
}
