/* controller.h - the calls of the deposit box for a controller in C.
 *
 * SCOPE. The calls take lists of records, each new or a match in the store, and say what a list
 * costs, whether it is sound, which version it rebuilds, whether two lists give the same version
 * from the same places, and which list costs least; they turn the loose list of a finder into its
 * tidy form, and pool the lists of two finders.
 * docs/SPECIFICATION.md has the rules, in numbered clauses; "clause" below is one of them.
 *
 * SURROUNDINGS. Link with libcontroller.a. Nothing is allocated and nothing is kept between calls.
 * Every call returns, on any input. A call may be made from any thread, and several at once, as
 * long as no area that one writes is used by another. The library asks for memcpy and memset, and
 * for nothing else. It has no data of its own. The stack that a call needs is said at the call.
 *
 * NAMES. The calls have plain names. Where they collide with others, rename each in the archive, as
 * by objcopy --redefine-sym measure=box_measure, and declare it so.
 *
 * AREAS. An area is a buffer: a pointer and its length in bytes. A length of 0 goes with any
 * pointer that is not NULL. No area that is lent for writing may share a byte with another area of
 * the same call. What a call writes stands at the front of an area; bytes beyond it are unchanged.
 *
 * THE ANSWER AREA. Its first 32 bytes are written by every call, accepted or refused; bytes beyond
 * them are unchanged. What a call does not give is 0. Fields are unsigned, lowest byte first:
 *
 *   OFFSET  SIZE  FIELD
 *   0       4     number (error code): 0 accepted, else why it was refused (below)
 *   4       4     place: the record concerned, counted from 0; 0 where no record is, and on
 *                 acceptance
 *   8       8     cost, in 256ths of a disk byte
 *   16      4     entries (index entries): records of the list; of compare, 1 for yes, 0 for no;
 *                 of tidy and pool, the records written
 *   20      4     stored bytes: the sizes of new records together
 *   24      4     looks
 *   28      4     whole length: all sizes together
 *
 * An answer area under 32 bytes: 9 is returned before any other check, and nothing is written
 * anywhere.
 *
 * ON REFUSAL the answer area holds number and place, and no other area changes.
 *
 * THE PRICE is three numbers:
 *
 *   EN  1 to 255     index bytes of a new entry
 *   EM  1 to 255     index bytes of a match; EN may be less, as a new entry needs no address
 *   F   1 to 65,535  the worth of one index byte in 256ths of a disk byte: 256 is one disk byte,
 *                    384 is one and a half
 *
 * A new entry costs F * EN, a match F * EM, a stored byte 256. Every cost is in this unit.
 *
 * THE LIST has 0 to 4,096 records of 12 bytes, in the order of the version. No new record stands
 * right after a new one, but in a loose list (below).
 *
 *   OFFSET  SIZE  FIELD
 *   0       1     kind: 0 new, 1 match
 *   1       1     mark: 1 where a match is held, else zero; zero in a new record
 *   2       2     zero
 *   4       4     size: bytes covered, 1 or more, lowest byte first
 *   8       4     address: where a match begins in the store; zero in a new record
 *
 * A finder of matches that would need more than 4,096 records ends its list early: the rest of the
 * version is one new record.
 *
 * A LOOSE LIST may have new records side by side (clause 1.14). Only check_loose, tidy and pool
 * take such a list; the other calls refuse it with 5. Tidy writes its tidy form, which every call
 * takes. The stored block is the same for both. What pool writes is tidy too.
 *
 * A HELD MATCH must go on being drawn from the store. Partition, estimate and pass always keep it;
 * commit refuses a choice that does not. It joins a neighbour only where that one is held too. What
 * is written carries the mark. To compare it is part of where a byte comes from. To measure,
 * rebuild, check and check_loose the mark means nothing. In pool a held match of the second list
 * gives way to a match of the first, held or not.
 *
 * THE NUMBERS, by their cause; number n is clause 5.n:
 *
 *   whoever sets up the box
 *    1  EN, EM or F is outside its range
 *   the calling program
 *    2  the version is over 16,777,216 bytes, or the store over 268,435,456
 *    9  an area is too short
 *   11  there is no record k
 *   12  the choice is not one byte for each record (place: 0); or it has a byte over 1, a 0 for a
 *       new record or a 1 for a held match (place: the first such record)
 *   the finder of matches
 *    3  the list's length is no multiple of 12, or over 49,152
 *    4  a record has a kind over 1, a byte 1 over 1, a nonzero byte 2 or 3, or size 0; or a new
 *       record has a mark or an address
 *    5  a new record stands right after a new one (place: the second); no fault in a loose list
 *    6  with this record the sizes pass the version's length (in measure, rebuild, check, compare,
 *       check_loose and tidy: 16,777,216); or, in partition, estimate, commit, pass and pool, all
 *       sizes end short of it (place: the number of records)
 *    7  a match runs beyond the store
 *    8  a match's bytes differ from the version
 *   13  the pooled list of two finders has over 4,096 records
 *   the disk
 *   10  the stored block is not as long as the new sizes together
 */
#ifndef CONTROLLER_H
#define CONTROLLER_H

#include <stddef.h>
#include <stdint.h>

#ifdef __cplusplus
extern "C" {
#endif

/* The least answer area. */
#define ANSWER_BYTES 32

/* The version of this library: it grows when a call, an answer or a number changes. */
#define CONTROLLER_VERSION 10

/* EN and EM are 1 to E_MOST, F is 1 to F_MOST. */
#define E_MOST 255
#define F_MOST 65535

/* What a disk byte costs: F and costs are in parts of it. */
#define DISK_BYTE 256

/* The kinds of a record, and the mark of a held match. */
#define KIND_NEW 0
#define KIND_MATCH 1
#define MARK_HELD 1

/* Bytes of one record, and the most records of a list. */
#define RECORD_BYTES 12
#define RECORDS_MOST 4096

/* The longest version and the longest store. */
#define VERSION_MOST 16777216
#define STORE_MOST 268435456

enum {
    ACCEPTED = 0,
    BAD_PRICE = 1,
    TOO_LONG = 2,
    BAD_LIST_LENGTH = 3,
    MALFORMED_RECORD = 4,
    ADJACENT_NEW_RECORDS = 5,
    BAD_SIZES = 6,
    OUTSIDE_STORE = 7,
    MISMATCH = 8,
    AREA_TOO_SHORT = 9,
    BAD_BLOCK_LENGTH = 10,
    NO_SUCH_RECORD = 11,
    BAD_CHOICE = 12,
    TOO_MANY_RECORDS = 13
};

/* A sentence for a number. */
static inline const char *number_text(uint32_t number)
{
    switch (number) {
    case ACCEPTED: return "accepted";
    case BAD_PRICE: return "EN, EM or F is outside its range";
    case TOO_LONG: return "the version or the store is too long";
    case BAD_LIST_LENGTH: return "the list's length is no multiple of 12, or over 49,152";
    case MALFORMED_RECORD: return "a record is malformed";
    case ADJACENT_NEW_RECORDS: return "a new record stands right after a new one";
    case BAD_SIZES:
        return "the sizes do not add up to the version's length, "
               "or pass the greatest length of one";
    case OUTSIDE_STORE: return "a match runs beyond the store";
    case MISMATCH: return "a match's bytes differ from the version";
    case AREA_TOO_SHORT: return "an area is too short";
    case BAD_BLOCK_LENGTH: return "the stored block is not as long as the new sizes together";
    case NO_SUCH_RECORD: return "there is no such record";
    case BAD_CHOICE:
        return "the choice is not one byte for each record, "
               "or has a byte that its record may not have";
    case TOO_MANY_RECORDS: return "the pooled list has over 4,096 records";
    default: return "no number of this library";
    }
}

/* The fields of an answer area. */
static inline uint32_t answer_word(const uint8_t *answer, size_t at)
{
    return (uint32_t)answer[at] | (uint32_t)answer[at + 1] << 8 | (uint32_t)answer[at + 2] << 16
        | (uint32_t)answer[at + 3] << 24;
}

static inline uint32_t answer_number(const uint8_t *answer) { return answer_word(answer, 0); }
static inline uint32_t answer_place(const uint8_t *answer) { return answer_word(answer, 4); }
static inline uint64_t answer_cost(const uint8_t *answer)
{
    return answer_word(answer, 8) | (uint64_t)answer_word(answer, 12) << 32;
}
static inline uint32_t answer_entries(const uint8_t *answer) { return answer_word(answer, 16); }
static inline uint32_t answer_stored(const uint8_t *answer) { return answer_word(answer, 20); }
static inline uint32_t answer_looks(const uint8_t *answer) { return answer_word(answer, 24); }
static inline uint32_t answer_whole(const uint8_t *answer) { return answer_word(answer, 28); }

/* measure - what a list costs (section 4.2).
 *
 * Does: adds up a list: its records, the sizes of its new records, all its sizes, and its cost,
 *   F * (EN * new entries + EM * matches) + 256 * stored bytes. Records are counted as they come:
 *   matches that partition would join count one by one.
 * Areas: list.
 * Writes: answer (cost, entries, stored bytes, whole length).
 * Refuses, in this order: 1 at 0; 3 at 0; record by record 4, 5, 6 at the record.
 * On refusal: answer holds number and place.
 * Returns: the number.
 * Stack: at most 512 bytes. */
uint32_t measure(uint32_t en, uint32_t em, uint32_t f,
                 const uint8_t *list, size_t list_len,
                 uint8_t *answer, size_t answer_len);

/* rebuild - the version that a list stands for (section 4.3).
 *
 * Does: goes through the records. It copies the next bytes of the stored block for a new record,
 *   the store's bytes for a match.
 * Areas: list; block, the stored block; store; area, at least as long as the whole length.
 * Writes: the first bytes of area, as many as the whole length; answer (whole length).
 * Refuses, in this order: 2 at 0; 3 at 0; record by record 4, 5, 6, 7 at the record; 10 at 0;
 *   9 at 0.
 * On refusal: answer holds number and place; area is unchanged.
 * Returns: the number.
 * Stack: at most 512 bytes. */
uint32_t rebuild(const uint8_t *list, size_t list_len,
                 const uint8_t *block, size_t block_len,
                 const uint8_t *store, size_t store_len,
                 uint8_t *area, size_t area_len,
                 uint8_t *answer, size_t answer_len);

/* check - whether a list, its stored block and the store are sound (section 4.4).
 *
 * Does: makes rebuild's checks, but for the area's. Then it asks that k, counted from 0, is below
 *   the number of records. So a list without records always gets 11, or a number before it: such a
 *   list is sound where check answers 11.
 * Areas: list; block, the stored block; store.
 * Writes: answer (number and place alone).
 * Refuses, in this order: 2 at 0; 3 at 0; record by record 4, 5, 6, 7 at the record; 10 at 0;
 *   11 at 0.
 * On refusal: answer holds number and place.
 * Returns: the number.
 * Stack: at most 512 bytes. */
uint32_t check(const uint8_t *list, size_t list_len,
               const uint8_t *block, size_t block_len,
               const uint8_t *store, size_t store_len,
               uint32_t k,
               uint8_t *answer, size_t answer_len);

/* compare - whether two lists give the same version from the same places (section 4.6).
 *
 * Does: goes through both lists side by side, up to the first difference. Neither version is built.
 *   Yes exactly where rebuild would make the same bytes of both and each byte has the same origin
 *   in both: it is new in both, or drawn from the same address with the same mark. Else no, also
 *   where the same bytes come from elsewhere. Into how many records a run is cut does not matter:
 *   a list and what tidy writes of it get yes, with one stored block. A list and what partition,
 *   commit or pass writes of it, each with its stored block, get yes where every match is kept, no
 *   where one is given up. To ask for the bytes alone, rebuild both.
 * Areas: first and second, two lists; first_block and second_block, the stored block of each;
 *   store, that of both, of which no byte is read: only its length counts. Areas that are only read
 *   may be the same.
 * Writes: answer (entries: 1 yes, 0 no).
 * Refuses, the first list wholly, then the second: 2 at 0; 3 at 0; record by record 4, 5, 6, 7 at
 *   the record; 10 at 0. The place counts within the list at fault. To know which list that is,
 *   call check with the first list and its block: where it answers 0 or 11, the second list is at
 *   fault.
 * On refusal: answer holds number and place.
 * Returns: the number.
 * Stack: at most 512 bytes. */
uint32_t compare(const uint8_t *first, size_t first_len,
                 const uint8_t *second, size_t second_len,
                 const uint8_t *first_block, size_t first_block_len,
                 const uint8_t *second_block, size_t second_block_len,
                 const uint8_t *store, size_t store_len,
                 uint8_t *answer, size_t answer_len);

/* partition - the list that costs least (section 4.7).
 *
 * Does: of all ways to keep each match or to store its bytes again, held ones kept, takes the one
 *   whose list costs least. Of several that cost the same it takes the one that keeps at the first
 *   record where they differ. In the list, new records that come to stand next to each other are
 *   fused. So are kept matches, where the second begins in the store where the first ends and both
 *   are held or neither is: they are one record and one entry, with the first's address and mark.
 * Areas: version, the bytes to be kept; store, the old data; list, which describes version against
 *   store; choice, at least 1 byte for each record; list_area, at least as long as list;
 *   block_area, at least as long as version.
 * Writes: the first bytes of choice, one for each record handed in (0 kept as match, 1 new); the
 *   first bytes of list_area, the new list, 12 for each of its entries; the first bytes of
 *   block_area, its stored block; answer (cost, entries and stored bytes of the new list).
 * Refuses, in this order: 1 at 0; 2 at 0; 3 at 0; 9 at 0; record by record 4, 5, 6, 7, 8 at the
 *   record; 6 at the number of records.
 * On refusal: answer holds number and place; choice, list_area and block_area are unchanged.
 * Returns: the number.
 * Stack: at most 1,024 bytes. */
uint32_t partition(uint32_t en, uint32_t em, uint32_t f,
                   const uint8_t *list, size_t list_len,
                   const uint8_t *version, size_t version_len,
                   const uint8_t *store, size_t store_len,
                   uint8_t *choice, size_t choice_len,
                   uint8_t *list_area, size_t list_area_len,
                   uint8_t *block_area, size_t block_area_len,
                   uint8_t *answer, size_t answer_len);

/* estimate - what partition would come to (section 4.8).
 *
 * Does: finds partition's choice, and gives cost, entries and stored bytes as partition would. It
 *   needs no area for list and stored block. What it answers does not shorten commit's areas: these
 *   are as long as the list handed in and the version, else commit refuses with 9.
 *   The index bytes are (cost - 256 * stored bytes) / f. At a greater f, with all else the same,
 *   there are no more of them, and no fewer stored bytes (section 8.9).
 * Areas: list, version and store as for partition; choice, at least 1 byte for each record.
 * Writes: the first bytes of choice, as partition does; answer (cost, entries and stored bytes).
 * Refuses, in this order: 1 at 0; 2 at 0; 3 at 0; 9 at 0, by choice alone; record by record 4, 5,
 *   6, 7, 8 at the record; 6 at the number of records.
 * On refusal: answer holds number and place; choice is unchanged.
 * Returns: the number.
 * Stack: at most 1,024 bytes. */
uint32_t estimate(uint32_t en, uint32_t em, uint32_t f,
                  const uint8_t *list, size_t list_len,
                  const uint8_t *version, size_t version_len,
                  const uint8_t *store, size_t store_len,
                  uint8_t *choice, size_t choice_len,
                  uint8_t *answer, size_t answer_len);

/* commit - the list and the stored block of a choice (section 4.9).
 *
 * Does: writes the list of a choice, least or not, joined as partition joins, with its stored
 *   block. After an estimate, with the bytes that it wrote and the same list, version, store and
 *   price, it gives what partition gives.
 * Areas: list, version and store as for partition; choice, which is read; list_area, at least as
 *   long as list; block_area, at least as long as version. choice has exactly 1 byte for each
 *   record (choice_len is the number of records): 1 for a new record, 0 for a held match, 0 (kept)
 *   or 1 (stored) for another match.
 * Writes: the first bytes of list_area and of block_area, as partition does; answer (cost, entries
 *   and stored bytes of the list written).
 * Refuses, in this order: 1 at 0; 2 at 0; 3 at 0; 9 at 0, by list_area and block_area; record by
 *   record 4, 5, 6, 7, 8 at the record; 6 at the number of records; 12 at 0 for a choice that is
 *   too short or too long; 12 at the first record with a byte that it may not have.
 * On refusal: answer holds number and place; list_area and block_area are unchanged.
 * Returns: the number.
 * Stack: at most 1,024 bytes. */
uint32_t commit(uint32_t en, uint32_t em, uint32_t f,
                const uint8_t *list, size_t list_len,
                const uint8_t *version, size_t version_len,
                const uint8_t *store, size_t store_len,
                const uint8_t *choice, size_t choice_len,
                uint8_t *list_area, size_t list_area_len,
                uint8_t *block_area, size_t block_area_len,
                uint8_t *answer, size_t answer_len);

/* pass - the published linear method, look by look (section 4.10).
 *
 * Does: joins matches as partition does. Then it moves a cursor over the list, one look at a record
 *   at a time, and merges a short match into new neighbours, or two short matches into a new
 *   record. It makes at most 2n - 1 looks for n records after joining. A held match is looked at
 *   and passed by. A match that stands alone is never stored, though that may be worth it where EN
 *   is less than EM. It is no faster than partition: docs/SPEED.md has the times.
 * Areas: as for partition.
 * Writes: as partition does; answer gives the looks besides. The list costs no less than
 *   partition's, and no more than the one handed in, as measure prices that.
 * Refuses: as partition does.
 * On refusal: answer holds number and place; choice, list_area and block_area are unchanged.
 * Returns: the number.
 * Stack: at most 65,536 bytes, as it holds a record of kinds and sizes; built today, 21,144. */
uint32_t pass(uint32_t en, uint32_t em, uint32_t f,
              const uint8_t *list, size_t list_len,
              const uint8_t *version, size_t version_len,
              const uint8_t *store, size_t store_len,
              uint8_t *choice, size_t choice_len,
              uint8_t *list_area, size_t list_area_len,
              uint8_t *block_area, size_t block_area_len,
              uint8_t *answer, size_t answer_len);

/* check_loose - whether a loose list and the store are sound (section 4.11).
 *
 * Does: makes check's checks, but for 5, and without a stored block and a place k. So a list
 *   without records is accepted.
 * Areas: list, which may have new records side by side; store.
 * Writes: answer (number and place alone).
 * Refuses, in this order: 2 at 0; 3 at 0; record by record 4, 6, 7 at the record.
 * On refusal: answer holds number and place.
 * Returns: the number.
 * Stack: at most 512 bytes. */
uint32_t check_loose(const uint8_t *list, size_t list_len,
                     const uint8_t *store, size_t store_len,
                     uint8_t *answer, size_t answer_len);

/* tidy - the tidy form of a loose list (section 4.12).
 *
 * Does: fuses new records that stand side by side, and joins matches as partition does: where the
 *   second begins in the store where the first ends and both are held or neither is. Every byte of
 *   the version stays new or drawn from its address, so the stored block needs no change. A list
 *   that partition, commit or pass wrote comes back as it is.
 * Areas: list, which may have new records side by side; store; list_area, at least as long as list,
 *   though the tidy form may be shorter.
 * Writes: the first bytes of list_area, 12 for each record of the tidy form; answer (entries: the
 *   records written).
 * Refuses, in this order: 2 at 0; 3 at 0; 9 at 0; record by record 4, 6, 7 at the record.
 * On refusal: answer holds number and place; list_area is unchanged.
 * Returns: the number.
 * Stack: at most 512 bytes. */
uint32_t tidy(const uint8_t *list, size_t list_len,
              const uint8_t *store, size_t store_len,
              uint8_t *list_area, size_t list_area_len,
              uint8_t *answer, size_t answer_len);

/* pool - one list of the lists of two finders (section 4.13).
 *
 * Does: byte by byte of the version, draws as the first list says where that is a match, else as
 *   the second says where that is a match; else the byte is new. What is left of a match of the
 *   second keeps its addresses and its mark. The pooled list is tidy: new bytes that stand side by
 *   side are one record, and so are matches where the second begins in the store where the first
 *   ends and both are held or neither is, of whichever list. It draws on the store wherever either
 *   list does, and partition takes it. A list pooled with itself gives its own tidy form.
 * Areas: first and second, two lists, which may have new records side by side; version, the bytes
 *   that both describe; store, the old data; list_area, at least as long as the pooled list, for
 *   which 49,152 bytes always do. Areas that are only read may be the same.
 * Writes: the first bytes of list_area, 12 for each record of the pooled list; answer (entries: the
 *   records written).
 * Refuses, in this order: 2 at 0; of the first list 3 at 0, record by record 4, 6, 7, 8 at the
 *   record, 6 at the number of records; the same of the second list; 13 at 0; 9 at 0, by the length
 *   of the pooled list. The place counts within the list at fault. To know which list that is, pool
 *   the first list with itself: where that answers 0 or 9, the second list is at fault.
 * On refusal: answer holds number and place; list_area is unchanged.
 * Returns: the number.
 * Stack: at most 512 bytes. */
uint32_t pool(const uint8_t *first, size_t first_len,
              const uint8_t *second, size_t second_len,
              const uint8_t *version, size_t version_len,
              const uint8_t *store, size_t store_len,
              uint8_t *list_area, size_t list_area_len,
              uint8_t *answer, size_t answer_len);

#ifdef __cplusplus
}
#endif

#endif
