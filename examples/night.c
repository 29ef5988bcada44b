/*
 * A night at the dome: a star list, a pointing block and a leap second table
 * share one pool. In the repository's root:
 *
 *     (cd crates/danumrikal && rt lib)
 *     cc -std=c99 -I include examples/night.c crates/danumrikal/out/libdanumrikal.a -o night
 *     ./night
 */
#include "danumrikal.h"

#include <inttypes.h>
#include <stdio.h>
#include <stdlib.h>
#include <string.h>

static uint8_t pool[DNK_POOL_LENGTH(DNK_EDITION_1, 12)];
static uint8_t next_pool[DNK_POOL_LENGTH(DNK_EDITION_2, 12)];

static char *text_at(uint32_t offset)
{
    return (char *)pool + dnk_place(pool, sizeof pool, offset);
}

/* Takes a block and keeps a text in it. */
static uint32_t keep(const char *what, const char *text, uint32_t size)
{
    dnk_answer answer = dnk_alloc(pool, sizeof pool, size);
    enum dnk_refusal refusal = dnk_refusal_of(answer);
    if (refusal != DNK_GRANTED) {
        printf("%s: %s (%d)\n", what, dnk_refusal_name(refusal), refusal);
        exit(EXIT_FAILURE);
    }
    uint32_t offset = dnk_value_of(answer);
    strcpy(text_at(offset), text);
    printf("%s: %" PRIu32 " bytes at %" PRIu32 "\n", what, size, offset);
    return offset;
}

/* Tells what became of a free. */
static void tell(const char *what, dnk_answer answer)
{
    enum dnk_refusal refusal = dnk_refusal_of(answer);
    if (refusal == DNK_GRANTED) {
        printf("%s: %" PRIu32 " bytes back\n", what, dnk_value_of(answer));
    } else {
        printf("%s: %s (%d)\n", what, dnk_refusal_name(refusal), refusal);
    }
}

static void release(const char *what, uint32_t offset)
{
    tell(what, dnk_free(pool, sizeof pool, offset));
}

/* At dawn both blocks go, and a dark frame takes their place: three calls under one validation. */
static uint32_t dawn(uint32_t pointing, uint32_t seconds)
{
    const dnk_request requests[] = {dnk_to_free(pointing), dnk_to_free(seconds), dnk_to_alloc(20000)};
    dnk_answer answers[3];
    if (dnk_refusal_of(dnk_batch(pool, sizeof pool, requests, 3, answers, 3)) != DNK_GRANTED) {
        exit(EXIT_FAILURE);
    }
    tell("pointing block", answers[0]);
    tell("leap second table", answers[1]);
    printf("dark frame: at %" PRIu32 "\n", dnk_value_of(answers[2]));
    return dnk_value_of(answers[2]);
}

/* The next night wants to know how many star lists there are at once: edition 2 keeps such peaks. */
static void next_night(uint32_t frame)
{
    dnk_answer answer = dnk_convert(pool, sizeof pool, next_pool, sizeof next_pool);
    if (dnk_refusal_of(answer) != DNK_GRANTED) {
        exit(EXIT_FAILURE);
    }
    printf("next night: %" PRIu32 " pages, edition %d\n", dnk_value_of(answer), next_pool[0]);
    tell("dark frame", dnk_free(next_pool, sizeof next_pool, frame));
    uint32_t lists[3];
    for (int i = 0; i < 3; i++) {
        lists[i] = dnk_value_of(dnk_alloc(next_pool, sizeof next_pool, 30));
    }
    tell("star list", dnk_free(next_pool, sizeof next_pool, lists[0]));
    printf("star lists at once: %" PRIu32 "\n", dnk_peak(next_pool, 2)); /* chunks of 32 bytes */
    printf("records: %s\n", dnk_validate(next_pool, sizeof next_pool) == 0 ? "sound" : "unsound");
}

int main(void)
{
    printf("pages: %" PRIu32 "\n", dnk_value_of(dnk_format(pool, sizeof pool, DNK_EDITION_1)));
    uint32_t stars = keep("star list", "Vega, Altair, Deneb", 30);
    uint32_t pointing = keep("pointing block", "azimuth 181.5, altitude 47.2", 64);
    uint32_t seconds = keep("leap second table", "2016-12-31: 37", 5000);
    release("star list", stars);
    release("star list", stars);
    printf("pointing block: %s\n", text_at(pointing));
    printf("leap second table: %s\n", text_at(seconds));
    next_night(dawn(pointing, seconds));
    return EXIT_SUCCESS;
}
