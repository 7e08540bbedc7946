/* reference.h - the calls of docs/SPECIFICATION.md, section 4, a second time, in plain C.
 *
 * Scope: what the differential test compares the library with, and what the benchmark takes for its baseline. The calls have
 * the signatures of controller.h, with the prefix ref_; areas, answer area, numbers and their order are those of sections 5 to 7.
 * A length of 0 goes with any pointer, NULL too. Not here: two calls at once, since the working rows are static.
 */
#ifndef REFERENCE_H
#define REFERENCE_H

#include <stddef.h>
#include <stdint.h>

/* What a list costs. */
uint32_t ref_measure(uint32_t en, uint32_t em, uint32_t f,
                     const uint8_t *list, size_t list_len,
                     uint8_t *answer, size_t answer_len);

/* The version that a list stands for. */
uint32_t ref_rebuild(const uint8_t *list, size_t list_len,
                     const uint8_t *block, size_t block_len,
                     const uint8_t *store, size_t store_len,
                     uint8_t *area, size_t area_len,
                     uint8_t *answer, size_t answer_len);

/* Whether a list, its stored block and the store are sound, and have a record k. */
uint32_t ref_check(const uint8_t *list, size_t list_len,
                   const uint8_t *block, size_t block_len,
                   const uint8_t *store, size_t store_len,
                   uint32_t k,
                   uint8_t *answer, size_t answer_len);

/* Whether two lists, with their stored blocks and one store, give the same version, each byte from the same place. */
uint32_t ref_compare(const uint8_t *first, size_t first_len,
                     const uint8_t *second, size_t second_len,
                     const uint8_t *first_block, size_t first_block_len,
                     const uint8_t *second_block, size_t second_block_len,
                     const uint8_t *store, size_t store_len,
                     uint8_t *answer, size_t answer_len);

/* The least choice, its list and its stored block. */
uint32_t ref_partition(uint32_t en, uint32_t em, uint32_t f,
                       const uint8_t *list, size_t list_len,
                       const uint8_t *version, size_t version_len,
                       const uint8_t *store, size_t store_len,
                       uint8_t *choice, size_t choice_len,
                       uint8_t *list_area, size_t list_area_len,
                       uint8_t *block_area, size_t block_area_len,
                       uint8_t *answer, size_t answer_len);

/* What partition would come to, and its choice. */
uint32_t ref_estimate(uint32_t en, uint32_t em, uint32_t f,
                      const uint8_t *list, size_t list_len,
                      const uint8_t *version, size_t version_len,
                      const uint8_t *store, size_t store_len,
                      uint8_t *choice, size_t choice_len,
                      uint8_t *answer, size_t answer_len);

/* The list and the stored block of a choice, which is read. */
uint32_t ref_commit(uint32_t en, uint32_t em, uint32_t f,
                    const uint8_t *list, size_t list_len,
                    const uint8_t *version, size_t version_len,
                    const uint8_t *store, size_t store_len,
                    const uint8_t *choice, size_t choice_len,
                    uint8_t *list_area, size_t list_area_len,
                    uint8_t *block_area, size_t block_area_len,
                    uint8_t *answer, size_t answer_len);

/* The pass's choice, its list and its stored block. */
uint32_t ref_pass(uint32_t en, uint32_t em, uint32_t f,
                  const uint8_t *list, size_t list_len,
                  const uint8_t *version, size_t version_len,
                  const uint8_t *store, size_t store_len,
                  uint8_t *choice, size_t choice_len,
                  uint8_t *list_area, size_t list_area_len,
                  uint8_t *block_area, size_t block_area_len,
                  uint8_t *answer, size_t answer_len);

/* Whether a loose list and the store are sound. */
uint32_t ref_check_loose(const uint8_t *list, size_t list_len,
                         const uint8_t *store, size_t store_len,
                         uint8_t *answer, size_t answer_len);

/* The tidy form of a loose list. */
uint32_t ref_tidy(const uint8_t *list, size_t list_len,
                  const uint8_t *store, size_t store_len,
                  uint8_t *list_area, size_t list_area_len,
                  uint8_t *answer, size_t answer_len);

/* The pooled list of two lists of one version. */
uint32_t ref_pool(const uint8_t *first, size_t first_len,
                  const uint8_t *second, size_t second_len,
                  const uint8_t *version, size_t version_len,
                  const uint8_t *store, size_t store_len,
                  uint8_t *list_area, size_t list_area_len,
                  uint8_t *answer, size_t answer_len);

#endif
