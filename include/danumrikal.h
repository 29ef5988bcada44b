/*
 * Danumrikal: a slab allocator in a shared slice of bytes, for C99 and C++.
 *
 * A pool is a pointer and a length. `rt lib`, in crates/danumrikal, makes the
 * archive with the calls, out/libdanumrikal.a there; it needs no other library.
 * Three of them act on a gauge, which smooths a pool's number of pages in use,
 * three on a pool and a directory of records by key, all others on a pool.
 *
 * The calls are proved: whatever the bytes hold and whatever is passed, each
 * returns, stays inside the given bytes and answers. A refused call changes
 * nothing, but that a chunk refused for room is counted in its class's asks and
 * failures. No call writes a block's bytes, but dnk_convert and dnk_mend in
 * their target, and dnk_keeper_put in the block that it takes. An offset at which
 * no live block begins is never freed: a block freed twice is refused, as long as
 * its place was not handed out again. The inline functions are tested.
 * docs/SPEC.md has all rules.
 *
 * What the host program keeps:
 *
 * - pool is not null and names len bytes that stay mapped during the call:
 *   readable for dnk_validate, writable too for the others. Any alignment will
 *   do; see dnk_place for that of blocks.
 * - source and target of a conversion likewise, the source readable and the
 *   target writable too; they share no byte. So are damaged and target of
 *   dnk_mend; damaged and mended of dnk_check_mended are only read.
 * - offsets of a list are not null either, lie where a uint32_t may, and share
 *   no byte with the pool.
 * - requests and answers of a batch are not null either, lie where a uint64_t
 *   may, and share no byte with the pool or each other. So is the directory of a
 *   keeper's calls; a record to put is not null, readable, and shares no byte with
 *   pool or directory.
 * - One call at a time, and nobody else writes any of the len bytes meanwhile,
 *   blocks included: processes that share a pool need a lock. The library has
 *   none.
 * - Between calls only blocks' own bytes are written, and the bytes behind the
 *   last page. Header, records and maps are the calls' alone; where somebody
 *   wrote them nevertheless, dnk_alloc, dnk_free, dnk_free_all and dnk_batch
 *   refuse as long as the records are unsound (DNK_NOT_SOUND). Where links or
 *   counts alone were lost, dnk_mend makes a sound copy.
 * - A block belongs to whoever was answered its offset, until it is freed; its
 *   size is for the host to remember. Offsets hold in every process, wherever
 *   the pool is mapped there; pointers don't.
 */
#ifndef DANUMRIKAL_H
#define DANUMRIKAL_H

#include <stddef.h>
#include <stdint.h>

#ifdef __cplusplus
extern "C" {
#endif

#define DNK_PAGE 4096            /* bytes of a page */
#define DNK_HEADER 8             /* bytes of the header */
#define DNK_RECORD 16            /* bytes of a page's record */
#define DNK_CLASSES 9            /* chunk sizes: class c has chunks of 8 << c bytes */
#define DNK_MOST_PAGES 4096      /* pages of the largest pool */
#define DNK_LARGEST_CHUNK 2048   /* blocks of more bytes are whole pages */
#define DNK_GAUGE_ROUND 40       /* samples of a gauge, after which it restarts */
#define DNK_MOST_PLACES 64       /* places of the largest directory of records */
#define DNK_LONGEST_RECORD 65535 /* bytes of the longest record */

/*
 * The records have two editions, which differ in their class records. The first
 * byte of a pool is the number of its edition: every call looks there first, and
 * all but dnk_convert serve both. A pool of so many pages, fields most
 * significant bit first:
 *
 *                    edition 1             edition 2
 *   header           0, 8 bytes            0, 8 bytes
 *   class record c   8 + 16 * c, 16 bytes  8 + 24 * c, 24 bytes: as in edition
 *                                          1, then peak 24 bits, 40 zero bits
 *   page record p    152 + 16 * p          224 + 16 * p
 *   page 0           152 + 16 * pages      224 + 16 * pages
 *   tail             152 + 4112 * pages    224 + 4112 * pages
 *
 * The peak is the most chunks of a class that were in use at once (dnk_peak).
 */
#define DNK_EDITION_1 1
#define DNK_EDITION_2 2

/* Bytes of a class record; of header and class records, before the page records. */
#define DNK_CLASS_RECORD(edition) (8 + 8 * (size_t)(edition))                    /* 16, 24 */
#define DNK_HEAD(edition) (DNK_HEADER + DNK_CLASSES * DNK_CLASS_RECORD(edition)) /* 152, 224 */

/* The length of a pool of so many pages; a longer one has a tail that no call touches. */
#define DNK_POOL_LENGTH(edition, pages) (DNK_HEAD(edition) + (size_t)(DNK_RECORD + DNK_PAGE) * (pages))
#define DNK_SHORTEST(edition) DNK_POOL_LENGTH(edition, 1)                       /* 4,264, 4,336 */
#define DNK_LONGEST(edition) (DNK_POOL_LENGTH(edition, DNK_MOST_PAGES + 1) - 1) /* 16,847,015, 16,847,087 */

/*
 * An answer is one word: the refusal's number in the top 8 bits, 24 zero bits,
 * the value in the low 32. The number is 0 where the call was granted, and the
 * value is 0 where it was refused, but for dnk_free_all. So an answer below 2^32
 * is granted and is the value. That of dnk_keeper_find has a length too, above
 * the value.
 */
typedef uint64_t dnk_answer;

/* Why a call was refused; more may come with further calls. */
enum dnk_refusal {
    DNK_GRANTED = 0,
    DNK_TOO_SHORT = 1,
    DNK_TOO_LONG = 2,
    DNK_NOT_SOUND = 3,
    DNK_NO_ROOM = 4,
    DNK_OUTSIDE = 5,
    DNK_NOT_TAKEN = 6,
    DNK_NOT_A_START = 7,
    DNK_UNREADABLE = 8,
    DNK_NOTHING_ASKED = 10,
    DNK_ANSWERS_TOO_SHORT = 11,
    DNK_WRONG_LENGTH = 12,
    DNK_BEYOND_MENDING = 13,
    DNK_OTHER_BLOCKS = 14,
    DNK_OUT_OF_RANGE = 15,
    DNK_NO_PLACE = 17,
    DNK_NOT_HELD = 18
};

/*
 * Makes a pool of an edition of the bytes, with all pages free. The value is the
 * page count, 1 to DNK_MOST_PAGES. Bytes of pages and behind them stay as they
 * are. Refused by the first of:
 *   DNK_NOT_SOUND    the edition is neither DNK_EDITION_1 nor DNK_EDITION_2
 *   DNK_TOO_SHORT    below DNK_SHORTEST(edition): it holds no page
 *   DNK_TOO_LONG     above DNK_LONGEST(edition): more than DNK_MOST_PAGES
 */
dnk_answer dnk_format(uint8_t *pool, size_t len, uint8_t edition);

/*
 * Not an answer: 0 where the records are sound, else the number of the first
 * rule that they break. Changes nothing.
 *   1 header         an edition, a pool's length, and the header says so
 *   2 pages          runs and class pages cover the pages, each recorded as such
 *   3 free-run list  it holds each free run once, and links lead back
 *   4 class lists    each holds its class's pages with a free chunk, likewise
 *   5 in use         each class page has a chunk in use
 *   6 counts         free pages, used and total are what can be counted; in
 *                    edition 2 peak is at least used, and its zero bits are 0
 */
uint64_t dnk_validate(const uint8_t *pool, size_t len);

/*
 * Takes a block of at least size bytes. The value is its offset. Up to
 * DNK_LARGEST_CHUNK it is a chunk of the smallest power of two from 8 on that
 * holds the size, above that a run of whole pages. Refused by the first of:
 *   DNK_NOT_SOUND      the records break a rule
 *   DNK_NOTHING_ASKED  the size is 0
 *   DNK_NO_ROOM        no free chunk and no free page; no run long enough
 */
dnk_answer dnk_alloc(uint8_t *pool, size_t len, uint32_t size);

/*
 * Gives back the block that begins at offset. The value is the bytes released:
 * the chunk's size, or DNK_PAGE for each page of a run. Refused by the first of:
 *   DNK_NOT_SOUND    the records break a rule
 *   DNK_OUTSIDE      the offset lies past the pages
 *   DNK_NOT_TAKEN    the page is free
 *   DNK_NOT_A_START  no block can begin there: inside a run, off a chunk's
 *                    start, in a map
 *   DNK_NOT_TAKEN    the chunk is free
 */
dnk_answer dnk_free(uint8_t *pool, size_t len, uint32_t offset);

/*
 * Gives back the blocks at all offsets of a list, in order, or none. The value
 * is their number. Where dnk_free would refuse one of them after those before
 * it, so an offset that stands twice, nothing changes: the refusal is that of
 * the first such, and the value is its place in the list, from 0. An unsound
 * pool is refused with DNK_NOT_SOUND at place 0, also for an empty list.
 */
dnk_answer dnk_free_all(uint8_t *pool, size_t len, const uint32_t *offsets, size_t count);

/*
 * A request of a batch is one word: top bit 0 to alloc and 1 to free, 31 zero
 * bits, the size or the offset in the low 32. dnk_to_alloc and dnk_to_free make
 * it; any other word has stray bits.
 */
typedef uint64_t dnk_request;

/*
 * Makes many calls under one validation, each on the pool that the one before
 * left: answers[i] becomes the answer that dnk_alloc or dnk_free would give to
 * requests[i]. A word with stray bits is answered with DNK_UNREADABLE; it
 * changes nothing, and the next is served. Answers beyond the requests stay.
 * The value of the batch itself is 0. Refused by the first of these, and then
 * pool and answers stay as they are:
 *   DNK_ANSWERS_TOO_SHORT  fewer answers than requests
 *   DNK_NOT_SOUND          the records break a rule
 */
dnk_answer dnk_batch(uint8_t *pool, size_t len, const dnk_request *requests, size_t request_count,
                     dnk_answer *answers, size_t answer_count);

/*
 * Makes a pool of edition 2 of the target, with all that the source, a sound
 * pool of edition 1, holds: blocks keep their offsets and bytes, lists their
 * order, classes their counts. The peak of a class becomes its chunks in use.
 * Bytes behind the target's last page stay, and the source too. The value is the
 * page count. Refused by the first of these, and then the target stays as it is:
 *   DNK_NOT_SOUND     the source is no sound pool of edition 1
 *   DNK_WRONG_LENGTH  the target does not hold as many pages: it is shorter than
 *                     DNK_POOL_LENGTH(DNK_EDITION_2, pages), or longer by a page
 */
dnk_answer dnk_convert(const uint8_t *source, size_t source_len, uint8_t *target, size_t target_len);

/*
 * Whether mended, a copy of a damaged pool that anybody made, is sound and holds
 * what the damaged one shows: its live blocks, as the pages' kinds, classes, run
 * lengths and maps tell them, and every byte of the pages and behind them. The
 * value is 0, so the whole answer is 0 where the copy is accepted. Links, counts,
 * asks, failures and peaks of the damaged one are not looked at; lists of the
 * copy may have any order. Neither changes. Refused by the first of:
 *   DNK_WRONG_LENGTH    lengths or first bytes, the editions, differ
 *   DNK_BEYOND_MENDING  edition, shifts, page count, kinds, classes, run lengths
 *                       or maps of the damaged one break rule 1, 2 or 5
 *   DNK_NOT_SOUND       the records of the copy break a rule
 *   DNK_OTHER_BLOCKS    other live blocks, or another byte in the pages or behind
 */
dnk_answer dnk_check_mended(const uint8_t *damaged, size_t damaged_len, const uint8_t *mended, size_t mended_len);

/*
 * Makes the target a sound copy of a damaged pool: lists in rising page order,
 * counts made afresh, asks and failures kept, each peak the larger of what it was
 * and the chunks in use. Blocks keep their offsets and bytes, and the bytes behind
 * the last page are copied too; the damaged pool stays. The value is the page
 * count. dnk_check_mended accepts every copy made so. Refused by the first of
 * these, and then the target stays as it is:
 *   DNK_WRONG_LENGTH    the target has another length
 *   DNK_BEYOND_MENDING  as in dnk_check_mended
 */
dnk_answer dnk_mend(const uint8_t *damaged, size_t damaged_len, uint8_t *target, size_t target_len);

/*
 * A gauge: a smoothed number of pages in use, and the level above which the
 * panel trips. It is plain numbers, by value, which may be kept anywhere. Every
 * call takes any, and refuses those that are not usable: more than
 * DNK_GAUGE_ROUND samples, or a load or level that is no number from 0 to
 * DNK_MOST_PAGES. -0.0 counts as 0 and is kept.
 */
struct dnk_gauge {
    double load;
    double level;
    uint32_t samples; /* of the round so far */
};

/* What a call on a gauge answers, and the gauge afterwards. */
struct dnk_gauge_reply {
    dnk_answer answer;
    struct dnk_gauge gauge;
};

/*
 * A gauge at load 0 with this trip level; the value is 0. Refused:
 *   DNK_OUT_OF_RANGE  the level is no number from 0 to DNK_MOST_PAGES; the
 *                     gauge is all zero
 */
struct dnk_gauge_reply dnk_gauge_start(double level);

/*
 * Takes a sample, a count of pages in use: the load becomes half the old load
 * plus half the count, and samples rises by one; the value is 0. A gauge with
 * DNK_GAUGE_ROUND samples restarts at load 0 and no samples first. In a round
 * that began at 0 the load is exact. Refused:
 *   DNK_OUT_OF_RANGE  the count is above DNK_MOST_PAGES, or the gauge is not
 *                     usable; it comes back as it was, bit for bit
 */
struct dnk_gauge_reply dnk_gauge_sample(struct dnk_gauge gauge, uint32_t count);

/*
 * Whether the panel trips: the value is 1 where the load is above the level,
 * and 0 where it is not, as at the level itself. Refused:
 *   DNK_OUT_OF_RANGE  the gauge is not usable
 */
dnk_answer dnk_gauge_trips(struct dnk_gauge gauge);

/*
 * A keeper stores records by key in blocks of a pool. Its directory is a list of
 * 1 to DNK_MOST_PLACES words, which begins with all of them 0: key 16 bits,
 * length 16 bits, offset of the block 32 bits. Length 0 is an empty place, and
 * the whole word is 0 then. It is sound when it has such a size, each word of
 * length 0 is 0, and in the other places keys and offsets differ and each offset
 * is a live block with room for the length. Others may take and give blocks of
 * the pool in between; nobody else writes the words or a record, or gives its
 * block back.
 *
 * dnk_keeper_put stores a record. It takes the new block first, copies the record,
 * changes the word, and only then gives back the block of a record that stood
 * under the key: a refused put leaves the old record whole. A new key takes the
 * first empty place. The value is the new block's offset. Refused by the first of:
 *   DNK_NOT_SOUND      the pool's records break a rule, or the directory is unsound
 *   DNK_NOTHING_ASKED  the record has no byte
 *   DNK_WRONG_LENGTH   it has more than DNK_LONGEST_RECORD
 *   DNK_NO_PLACE       the key is new, and no place is empty
 *   DNK_NO_ROOM        as in dnk_alloc, asks and failures counted too
 */
dnk_answer dnk_keeper_put(uint8_t *pool, size_t len, uint64_t *directory, size_t places,
                          uint16_t key, const uint8_t *record, size_t record_len);

/*
 * Where the record of a key lies: dnk_value_of the answer is its offset, for
 * dnk_place, and dnk_length_of its length, which stands in bits 47 to 32.
 * Changes nothing. Refused by the first of:
 *   DNK_NOT_SOUND    as in dnk_keeper_put
 *   DNK_NOT_HELD     no place holds the key
 */
dnk_answer dnk_keeper_find(const uint8_t *pool, size_t len, const uint64_t *directory, size_t places, uint16_t key);

/*
 * Gives the block of a key's record back and empties its place. The value is the
 * bytes released. Refused as dnk_keeper_find, and then nothing changes.
 */
dnk_answer dnk_keeper_remove(uint8_t *pool, size_t len, uint64_t *directory, size_t places, uint16_t key);

/* The request to take a block of at least size bytes. */
static inline dnk_request dnk_to_alloc(uint32_t size)
{
    return size;
}

/* The request to give back the block that begins at offset. */
static inline dnk_request dnk_to_free(uint32_t offset)
{
    return (dnk_request)1 << 63 | offset;
}

/* The refusal of an answer. */
static inline enum dnk_refusal dnk_refusal_of(dnk_answer answer)
{
    return (enum dnk_refusal)(answer >> 56);
}

/* The value of an answer. */
static inline uint32_t dnk_value_of(dnk_answer answer)
{
    return (uint32_t)answer;
}

/* The length of a record, from dnk_keeper_find's answer; 0 in all others. */
static inline uint16_t dnk_length_of(dnk_answer answer)
{
    return (uint16_t)(answer >> 32);
}

/* The refusal in words, as "not taken". */
static inline const char *dnk_refusal_name(enum dnk_refusal refusal)
{
    switch (refusal) {
    case DNK_GRANTED: return "granted";
    case DNK_TOO_SHORT: return "too short";
    case DNK_TOO_LONG: return "too long";
    case DNK_NOT_SOUND: return "not sound";
    case DNK_NO_ROOM: return "no room";
    case DNK_OUTSIDE: return "outside";
    case DNK_NOT_TAKEN: return "not taken";
    case DNK_NOT_A_START: return "not a start";
    case DNK_UNREADABLE: return "unreadable";
    case DNK_NOTHING_ASKED: return "nothing asked";
    case DNK_ANSWERS_TOO_SHORT: return "answers too short";
    case DNK_WRONG_LENGTH: return "wrong length";
    case DNK_BEYOND_MENDING: return "beyond mending";
    case DNK_OTHER_BLOCKS: return "other blocks";
    case DNK_OUT_OF_RANGE: return "out of range";
    case DNK_NO_PLACE: return "no place";
    case DNK_NOT_HELD: return "not held";
    }
    return "unknown";
}

/*
 * Where the byte at an offset lies in a pool of either edition. Offsets count
 * from the first page, which lies behind the records; blocks begin at offsets
 * that are multiples of 8. So a block's address is a multiple of 8 where the
 * pool's is, and in general of no more.
 */
static inline size_t dnk_place(const uint8_t *pool, size_t len, uint32_t offset)
{
    const size_t head = DNK_HEAD(pool[0]);
    return head + DNK_RECORD * ((len - head) / (DNK_RECORD + DNK_PAGE)) + offset;
}

/*
 * The most chunks of 8 << c bytes that were in use at once, since dnk_format or
 * dnk_convert, in a pool of edition 2; a mended one goes on from the peak that
 * was found or the chunks then in use. c is below DNK_CLASSES.
 */
static inline uint32_t dnk_peak(const uint8_t *pool, unsigned c)
{
    const uint8_t *peak = pool + DNK_HEADER + DNK_CLASS_RECORD(DNK_EDITION_2) * c + 16;
    return (uint32_t)peak[0] << 16 | (uint32_t)peak[1] << 8 | peak[2];
}

/*
 * What a gauge samples: the value is the pages less the free ones, as the header
 * says them. Refused:
 *   DNK_NOT_SOUND    the records break a rule, so that the header may say
 *                    anything
 */
static inline dnk_answer dnk_pages_in_use(const uint8_t *pool, size_t len)
{
    if (dnk_validate(pool, len) != 0) {
        return (dnk_answer)DNK_NOT_SOUND << 56;
    }
    return (dnk_answer)((pool[2] << 8 | pool[3]) - (pool[4] << 8 | pool[5]));
}

#ifdef __cplusplus
}
#endif

#endif
