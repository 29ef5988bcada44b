/* What include/danumrikal.h says of answers, numbers and places, tried on the archive. */
#include "danumrikal.h"

#include <stdio.h>
#include <stdlib.h>
#include <string.h>

#define EXPECT(holds) \
    do { \
        if (!(holds)) { \
            printf("line %d: %s\n", __LINE__, #holds); \
            failed = 1; \
        } \
    } while (0)

static int failed = 0;
static uint8_t pool[DNK_LONGEST(DNK_EDITION_2) + 1];
static uint8_t target[DNK_POOL_LENGTH(DNK_EDITION_2, 13)];

static dnk_answer refused(enum dnk_refusal refusal)
{
    return (dnk_answer)refusal << 56;
}

static int has_name(int number, const char *name)
{
    return strcmp(dnk_refusal_name((enum dnk_refusal)number), name) == 0;
}

static void names(void)
{
    EXPECT(has_name(0, "granted"));
    EXPECT(has_name(1, "too short"));
    EXPECT(has_name(2, "too long"));
    EXPECT(has_name(3, "not sound"));
    EXPECT(has_name(4, "no room"));
    EXPECT(has_name(5, "outside"));
    EXPECT(has_name(6, "not taken"));
    EXPECT(has_name(7, "not a start"));
    EXPECT(has_name(8, "unreadable"));
    EXPECT(has_name(10, "nothing asked"));
    EXPECT(has_name(11, "answers too short"));
    EXPECT(has_name(12, "wrong length"));
    EXPECT(has_name(13, "beyond mending"));
    EXPECT(has_name(14, "other blocks"));
    EXPECT(has_name(15, "out of range"));
    EXPECT(has_name(17, "no place"));
    EXPECT(has_name(18, "not held"));
    EXPECT(has_name(16, "unknown"));
}

static void layouts(void)
{
    EXPECT(DNK_CLASS_RECORD(DNK_EDITION_1) == 16 && DNK_CLASS_RECORD(DNK_EDITION_2) == 24);
    EXPECT(DNK_HEAD(DNK_EDITION_1) == 152 && DNK_HEAD(DNK_EDITION_2) == 224);
    EXPECT(DNK_SHORTEST(DNK_EDITION_1) == 4264 && DNK_SHORTEST(DNK_EDITION_2) == 4336);
    EXPECT(DNK_LONGEST(DNK_EDITION_1) == 16847015 && DNK_LONGEST(DNK_EDITION_2) == 16847087);
    EXPECT(DNK_POOL_LENGTH(DNK_EDITION_1, 12) == 49496 && DNK_POOL_LENGTH(DNK_EDITION_2, 12) == 49568);
    EXPECT(DNK_POOL_LENGTH(0 + 1, 6 + 6) == 49496);
}

/* The edition is tried before the length. */
static void other_editions(void)
{
    for (unsigned edition = 0; edition <= 255; edition++) {
        if (edition != DNK_EDITION_1 && edition != DNK_EDITION_2) {
            EXPECT(dnk_format(pool, 49496, (uint8_t)edition) == refused(DNK_NOT_SOUND));
            EXPECT(dnk_format(pool, 0, (uint8_t)edition) == refused(DNK_NOT_SOUND));
            EXPECT(dnk_format(pool, sizeof pool, (uint8_t)edition) == refused(DNK_NOT_SOUND));
        }
    }
}

static dnk_answer refused_at(enum dnk_refusal refusal, uint32_t place)
{
    return (dnk_answer)refusal << 56 | place;
}

/* A list of up to three offsets. */
static dnk_answer free_list(size_t len, size_t count, uint32_t first, uint32_t second, uint32_t third)
{
    const uint32_t offsets[3] = {first, second, third};
    return dnk_free_all(pool, len, offsets, count);
}

/* A list is freed whole or not at all. */
static void lists(uint8_t edition)
{
    static uint8_t entry[DNK_POOL_LENGTH(DNK_EDITION_2, 12)];
    const size_t len = DNK_POOL_LENGTH(edition, 12);
    memset(pool, 0, len);
    EXPECT(free_list(len, 0, 0, 0, 0) == refused_at(DNK_NOT_SOUND, 0));
    EXPECT(free_list(len, 2, 1, 2, 0) == refused_at(DNK_NOT_SOUND, 0));
    EXPECT(dnk_format(pool, len, edition) == 12);
    EXPECT(dnk_alloc(pool, len, 2048) == 0);
    EXPECT(dnk_alloc(pool, len, 8192) == 4096);
    EXPECT(dnk_alloc(pool, len, 8) == 12288 + 64);
    memcpy(entry, pool, len);
    EXPECT(free_list(len, 3, 4096, 0, 4096) == refused_at(DNK_NOT_TAKEN, 2));
    EXPECT(free_list(len, 2, 0, 5, 0) == refused_at(DNK_NOT_TAKEN, 1));
    EXPECT(free_list(len, 2, 5, 0, 0) == refused_at(DNK_NOT_A_START, 0));
    EXPECT(free_list(len, 2, 4096, 8192, 0) == refused_at(DNK_NOT_TAKEN, 1));
    EXPECT(free_list(len, 2, 0, 8192, 0) == refused_at(DNK_NOT_A_START, 1));
    EXPECT(free_list(len, 2, 0, 12 * DNK_PAGE, 0) == refused_at(DNK_OUTSIDE, 1));
    EXPECT(free_list(len, 0, 0, 0, 0) == 0);
    EXPECT(memcmp(entry, pool, len) == 0);
    EXPECT(free_list(len, 3, 12288 + 64, 4096, 0) == 3);
    EXPECT(dnk_validate(pool, len) == 0);
    EXPECT(dnk_alloc(pool, len, 12 * DNK_PAGE) == 0);
}

static void single_calls(uint8_t edition)
{
    const size_t len = DNK_SHORTEST(edition);
    EXPECT(dnk_format(pool, len - 1, edition) == refused(DNK_TOO_SHORT));
    EXPECT(dnk_format(pool, DNK_LONGEST(edition) + 1, edition) == refused(DNK_TOO_LONG));
    EXPECT(dnk_format(pool, DNK_LONGEST(edition), edition) == DNK_MOST_PAGES);
    EXPECT(dnk_format(pool, len, edition) == 1);
    EXPECT(pool[0] == edition);
    EXPECT(dnk_validate(pool, len) == 0);
    EXPECT(dnk_place(pool, len, 0) == DNK_HEAD(edition) + 16);
    EXPECT(dnk_place(pool, DNK_POOL_LENGTH(edition, 2) - 1, DNK_PAGE - 1) == len - 1);
    EXPECT(dnk_place(pool, DNK_POOL_LENGTH(edition, 12), 12 * DNK_PAGE - 1) == DNK_POOL_LENGTH(edition, 12) - 1);

    dnk_answer answer = dnk_alloc(pool, len, 2000);
    EXPECT(dnk_refusal_of(answer) == DNK_GRANTED && dnk_value_of(answer) == 0);
    answer = dnk_alloc(pool, len, DNK_LARGEST_CHUNK);
    EXPECT(dnk_refusal_of(answer) == DNK_GRANTED && dnk_value_of(answer) == 2048);
    answer = dnk_alloc(pool, len, 1);
    EXPECT(answer == refused(DNK_NO_ROOM));
    EXPECT(dnk_refusal_of(answer) == DNK_NO_ROOM && dnk_value_of(answer) == 0);
    EXPECT(dnk_alloc(pool, len, 0) == refused(DNK_NOTHING_ASKED));
    EXPECT(dnk_free(pool, len, DNK_PAGE) == refused(DNK_OUTSIDE));
    EXPECT(dnk_free(pool, len, 1) == refused(DNK_NOT_A_START));
    answer = dnk_free(pool, len, 0);
    EXPECT(dnk_refusal_of(answer) == DNK_GRANTED && dnk_value_of(answer) == 2048);
    EXPECT(dnk_free(pool, len, 0) == refused(DNK_NOT_TAKEN));
}

static void batches(uint8_t edition)
{
    const size_t len = DNK_SHORTEST(edition);
    /* one after the other: a chunk, a word with stray bits, nothing, that chunk back and once more */
    const dnk_request requests[] = {dnk_to_alloc(64), dnk_to_alloc(64) | (dnk_request)1 << 32, dnk_to_alloc(0), dnk_to_free(0), dnk_to_free(0)};
    dnk_answer answers[] = {1, 2, 3, 4, 5, 6};
    EXPECT(dnk_format(pool, len, edition) == 1);
    EXPECT(dnk_batch(pool, len, requests, 5, answers, 4) == refused(DNK_ANSWERS_TOO_SHORT));
    EXPECT(answers[0] == 1 && answers[2] == 3);
    EXPECT(dnk_batch(pool, len, requests, 5, answers, 6) == 0);
    EXPECT(answers[0] == 0 && answers[1] == refused(DNK_UNREADABLE) && answers[2] == refused(DNK_NOTHING_ASKED));
    EXPECT(dnk_refusal_of(answers[3]) == DNK_GRANTED && answers[4] == refused(DNK_NOT_TAKEN) && answers[5] == 6);
    EXPECT(dnk_batch(pool, len, requests, 0, answers, 0) == 0);

    EXPECT(dnk_alloc(pool, len, 2048) == 0 && dnk_alloc(pool, len, 2048) == 2048);
    pool[0] = 3; /* no edition */
    EXPECT(dnk_batch(pool, len, requests, 0, answers, 0) == refused(DNK_NOT_SOUND));
    EXPECT(dnk_batch(pool, len, requests, 1, answers, 0) == refused(DNK_ANSWERS_TOO_SHORT));
    EXPECT(dnk_validate(pool, len) == 1);
    EXPECT(dnk_free(pool, len, 2048) == refused(DNK_NOT_SOUND));
    EXPECT(dnk_alloc(pool, len, 1) == refused(DNK_NOT_SOUND));
    EXPECT(dnk_alloc(pool, len, 0) == refused(DNK_NOT_SOUND));
}

/* A gauge by value, and what it samples. */
static void gauges(uint8_t edition)
{
    /* A round and one sample more, trips above the level, what is refused comes back */
    struct dnk_gauge_reply reply = dnk_gauge_start(-0.5);
    EXPECT(reply.answer == refused(DNK_OUT_OF_RANGE));
    EXPECT(reply.gauge.load == 0 && reply.gauge.level == 0 && reply.gauge.samples == 0);
    reply = dnk_gauge_start(3);
    EXPECT(reply.answer == 0 && reply.gauge.load == 0 && reply.gauge.level == 3 && reply.gauge.samples == 0);
    for (uint32_t i = 1; i <= DNK_GAUGE_ROUND; i++) {
        reply = dnk_gauge_sample(reply.gauge, 6);
        EXPECT(reply.answer == 0 && reply.gauge.samples == i);
        EXPECT(dnk_gauge_trips(reply.gauge) == (i > 1));
    }
    EXPECT(reply.gauge.load < 6);
    reply = dnk_gauge_sample(reply.gauge, 6);
    EXPECT(reply.answer == 0 && reply.gauge.load == 3 && reply.gauge.level == 3 && reply.gauge.samples == 1);
    reply = dnk_gauge_sample(reply.gauge, DNK_MOST_PAGES + 1);
    EXPECT(reply.answer == refused(DNK_OUT_OF_RANGE));
    EXPECT(reply.gauge.load == 3 && reply.gauge.level == 3 && reply.gauge.samples == 1);
    reply.gauge.samples = DNK_GAUGE_ROUND + 1;
    EXPECT(dnk_gauge_trips(reply.gauge) == refused(DNK_OUT_OF_RANGE));
    EXPECT(dnk_gauge_sample(reply.gauge, 0).gauge.samples == DNK_GAUGE_ROUND + 1);

    pool[0] = 3; /* no edition */
    EXPECT(dnk_pages_in_use(pool, DNK_SHORTEST(edition)) == refused(DNK_NOT_SOUND));
    EXPECT(dnk_format(pool, DNK_LONGEST(edition), edition) == DNK_MOST_PAGES);
    EXPECT(dnk_pages_in_use(pool, DNK_LONGEST(edition)) == 0);
    EXPECT(dnk_alloc(pool, DNK_LONGEST(edition), DNK_MOST_PAGES * DNK_PAGE) == 0);
    EXPECT(dnk_pages_in_use(pool, DNK_LONGEST(edition)) == DNK_MOST_PAGES);
}

/* Blocks of every class and of whole pages, at multiples of 8 from the pool's first byte. */
static void alignment(uint8_t edition)
{
    for (size_t pages = 1; pages <= DNK_MOST_PAGES; pages += pages < 256 ? 1 : 60) {
        const size_t len = DNK_POOL_LENGTH(edition, pages);
        for (uint32_t size = 8; size <= DNK_PAGE; size *= 2) {
            EXPECT(dnk_format(pool, len, edition) == pages);
            dnk_answer answer = dnk_alloc(pool, len, size);
            EXPECT(dnk_refusal_of(answer) == DNK_GRANTED);
            EXPECT(dnk_place(pool, len, dnk_value_of(answer)) % 8 == 0);
        }
    }
}

/* The peak rises with the chunks in use and falls never; a conversion begins it anew. */
static void peaks(void)
{
    size_t len = DNK_POOL_LENGTH(DNK_EDITION_2, 12);
    EXPECT(dnk_format(pool, len, DNK_EDITION_2) == 12);
    for (unsigned c = 0; c < DNK_CLASSES; c++) {
        EXPECT(dnk_peak(pool, c) == 0);
        dnk_answer first = dnk_alloc(pool, len, UINT32_C(8) << c);
        dnk_answer second = dnk_alloc(pool, len, UINT32_C(8) << c);
        EXPECT(dnk_free(pool, len, dnk_value_of(first)) == UINT64_C(8) << c);
        EXPECT(dnk_peak(pool, c) == 2);
        EXPECT(dnk_free(pool, len, dnk_value_of(second)) == UINT64_C(8) << c);
        EXPECT(dnk_peak(pool, c) == 2);
    }
    for (unsigned i = 0; i < 300; i++) {
        EXPECT(dnk_refusal_of(dnk_alloc(pool, len, 8)) == DNK_GRANTED);
    }
    EXPECT(dnk_peak(pool, 0) == 300);
    EXPECT(dnk_convert(pool, len, target, sizeof target) == refused(DNK_NOT_SOUND)); /* edition 2 already */

    len = DNK_POOL_LENGTH(DNK_EDITION_1, 12);
    EXPECT(dnk_format(pool, len, DNK_EDITION_1) == 12);
    const uint32_t block = dnk_value_of(dnk_alloc(pool, len, 30));
    EXPECT(dnk_refusal_of(dnk_alloc(pool, len, 30)) == DNK_GRANTED);
    memcpy(pool + dnk_place(pool, len, block), "Vega", 5);
    memset(target, 7, sizeof target);
    EXPECT(dnk_convert(pool, len, target, sizeof target) == refused(DNK_WRONG_LENGTH)); /* 13 pages */
    EXPECT(dnk_convert(pool, len, target, len) == refused(DNK_WRONG_LENGTH)); /* 11 pages */
    EXPECT(dnk_convert(pool, len - 1, target, len) == refused(DNK_NOT_SOUND));
    EXPECT(target[0] == 7 && target[sizeof target - 1] == 7);
    EXPECT(dnk_convert(pool, len, target, sizeof target - 1) == 12);
    EXPECT(dnk_validate(target, sizeof target - 1) == 0);
    EXPECT(target[0] == DNK_EDITION_2 && pool[0] == DNK_EDITION_1);
    EXPECT(dnk_peak(target, 2) == 2 && dnk_peak(target, 0) == 0);
    EXPECT(strcmp((const char *)target + dnk_place(target, sizeof target - 1, block), "Vega") == 0);
    EXPECT(dnk_free(target, sizeof target - 1, block) == 32);
    EXPECT(target[DNK_POOL_LENGTH(DNK_EDITION_2, 12)] == 7); /* the tail */
}

/* Links and counts lost come back; the blocks, their bytes and the tail are what they were. */
static void mended(uint8_t edition)
{
    const size_t len = DNK_POOL_LENGTH(edition, 12) + 5;
    memset(pool, 9, len);
    EXPECT(dnk_format(pool, len, edition) == 12);
    const uint32_t block = dnk_value_of(dnk_alloc(pool, len, 30));
    EXPECT(dnk_value_of(dnk_alloc(pool, len, 5000)) == DNK_PAGE);
    memcpy(pool + dnk_place(pool, len, block), "Vega", 5);
    EXPECT(dnk_check_mended(pool, len, pool, len) == 0);
    memset(pool + 4, 0xff, 4); /* free pages, and the first free run */
    EXPECT(dnk_validate(pool, len) == 3);
    EXPECT(dnk_check_mended(pool, len, pool, len) == refused(DNK_NOT_SOUND));

    memset(target, 7, sizeof target);
    EXPECT(dnk_mend(pool, len, target, len - 1) == refused(DNK_WRONG_LENGTH));
    EXPECT(dnk_mend(pool, len, target, len + 1) == refused(DNK_WRONG_LENGTH));
    EXPECT(dnk_check_mended(pool, len, target, len - 1) == refused(DNK_WRONG_LENGTH));
    EXPECT(dnk_check_mended(pool, len, target, len) == refused(DNK_WRONG_LENGTH)); /* no edition */
    EXPECT(target[0] == 7 && target[len - 1] == 7);
    EXPECT(dnk_mend(pool, len, target, len) == 12);
    EXPECT(target[len - 1] == 9 && target[len] == 7); /* the tail, and what is behind the target */
    EXPECT(dnk_validate(target, len) == 0);
    EXPECT(dnk_check_mended(pool, len, target, len) == 0);
    EXPECT(edition == DNK_EDITION_1 || dnk_peak(target, 2) == 1);
    target[len - 1] = 8;
    EXPECT(dnk_check_mended(pool, len, target, len) == refused(DNK_OTHER_BLOCKS));
    target[len - 1] = 9;
    EXPECT(strcmp((const char *)target + dnk_place(target, len, block), "Vega") == 0);
    EXPECT(dnk_free(target, len, block) == 32);
    EXPECT(dnk_check_mended(pool, len, target, len) == refused(DNK_OTHER_BLOCKS));

    pool[3] = 11; /* the page count */
    EXPECT(dnk_mend(pool, len, target, len) == refused(DNK_BEYOND_MENDING));
    EXPECT(dnk_check_mended(pool, len, target, len) == refused(DNK_BEYOND_MENDING));
    EXPECT(dnk_check_mended(pool, 0, target, 0) == refused(DNK_BEYOND_MENDING));
}

/* Records by key: put, replaced, found, removed; every refusal, and the words of the directory. */
static void keeper(uint8_t edition)
{
    static uint8_t longest[DNK_LONGEST_RECORD + 1];
    const size_t len = DNK_POOL_LENGTH(edition, 2);
    const uint8_t record[] = {1, 2, 3};
    uint64_t directory[DNK_MOST_PLACES + 1] = {0};
    EXPECT(dnk_format(pool, len, edition) == 2);
    EXPECT(dnk_keeper_put(pool, len, directory, 0, 7, record, 3) == refused(DNK_NOT_SOUND)); /* no place */
    EXPECT(dnk_keeper_put(pool, len, directory, DNK_MOST_PLACES + 1, 7, record, 3) == refused(DNK_NOT_SOUND));
    EXPECT(dnk_keeper_put(pool, len, directory, 1, 7, record, 0) == refused(DNK_NOTHING_ASKED));
    EXPECT(dnk_keeper_put(pool, len, directory, 1, 7, longest, sizeof longest) == refused(DNK_WRONG_LENGTH));
    EXPECT(dnk_keeper_find(pool, len, directory, 1, 7) == refused(DNK_NOT_HELD));
    EXPECT(dnk_keeper_remove(pool, len, directory, 1, 7) == refused(DNK_NOT_HELD));

    EXPECT(dnk_keeper_put(pool, len, directory, 1, 0x1234, record, 3) == 64);
    EXPECT(directory[0] == UINT64_C(0x1234000300000040) && directory[1] == 0);
    EXPECT(dnk_keeper_put(pool, len, directory, 1, 0x1334, record, 3) == refused(DNK_NO_PLACE));
    EXPECT(dnk_keeper_put(pool, len, directory, 1, 0x1234, longest, 2 * DNK_PAGE) == refused(DNK_NO_ROOM));
    dnk_answer found = dnk_keeper_find(pool, len, directory, 1, 0x1234);
    EXPECT(found == UINT64_C(0x0000000300000040));
    EXPECT(dnk_refusal_of(found) == DNK_GRANTED && dnk_value_of(found) == 64 && dnk_length_of(found) == 3);
    EXPECT(memcmp(pool + dnk_place(pool, len, dnk_value_of(found)), record, 3) == 0);
    EXPECT(dnk_keeper_put(pool, len, directory, 1, 0x1234, record, 2) == 72); /* the old block is still taken then */
    EXPECT(dnk_free(pool, len, 64) == refused(DNK_NOT_TAKEN));
    EXPECT(dnk_length_of(dnk_keeper_find(pool, len, directory, 1, 0x1234)) == 2);
    directory[0] ^= 1; /* no block begins there */
    EXPECT(dnk_keeper_find(pool, len, directory, 1, 0x1234) == refused(DNK_NOT_SOUND));
    EXPECT(dnk_keeper_remove(pool, len, directory, 1, 0x1234) == refused(DNK_NOT_SOUND));
    directory[0] ^= 1;
    EXPECT(dnk_keeper_remove(pool, len, directory, 1, 0x1234) == 8);
    EXPECT(directory[0] == 0 && dnk_pages_in_use(pool, len) == 0);
    pool[0] = 3; /* no edition */
    EXPECT(dnk_keeper_put(pool, len, directory, 1, 7, record, 0) == refused(DNK_NOT_SOUND));
    EXPECT(dnk_keeper_find(pool, len, directory, 1, 7) == refused(DNK_NOT_SOUND));
}

int main(void)
{
    names();
    layouts();
    other_editions();
    for (uint8_t edition = DNK_EDITION_1; edition <= DNK_EDITION_2; edition++) {
        single_calls(edition);
        lists(edition);
        batches(edition);
        alignment(edition);
        mended(edition);
        gauges(edition);
        keeper(edition);
    }
    peaks();
    return failed ? EXIT_FAILURE : EXIT_SUCCESS;
}
