/*
 * A leap second table that is replaced under its readers, who know its key and
 * not its place. Then the night of the incident once more: a program that still
 * has the old table's offset gives its block back a second time. In the
 * repository's root:
 *
 *     (cd crates/danumrikal && rt lib)
 *     cc -std=c99 -I include examples/leap_seconds.c crates/danumrikal/out/libdanumrikal.a -o leap_seconds
 *     ./leap_seconds
 */
#include "danumrikal.h"

#include <inttypes.h>
#include <stdio.h>
#include <stdlib.h>
#include <string.h>

#define SECONDS 7 /* the table's key */

static uint8_t pool[DNK_POOL_LENGTH(DNK_EDITION_2, 12)];
static uint64_t directory[8]; /* all 0: no record yet */
static uint8_t zeros[DNK_LONGEST_RECORD + 1];

static void refuse(const char *what, dnk_answer answer)
{
    enum dnk_refusal refusal = dnk_refusal_of(answer);
    printf("%s: %s (%d)\n", what, dnk_refusal_name(refusal), refusal);
}

static dnk_answer put(const uint8_t *record, size_t len)
{
    return dnk_keeper_put(pool, sizeof pool, directory, 8, SECONDS, record, len);
}

/* Replaces the table and tells where it lies now. */
static uint32_t publish(const char *table)
{
    dnk_answer answer = put((const uint8_t *)table, strlen(table));
    if (dnk_refusal_of(answer) != DNK_GRANTED) {
        refuse("table", answer);
        exit(EXIT_FAILURE);
    }
    printf("table: %zu bytes at %" PRIu32 "\n", strlen(table), dnk_value_of(answer));
    return dnk_value_of(answer);
}

/* What a reader finds under the key. */
static void read_table(void)
{
    dnk_answer answer = dnk_keeper_find(pool, sizeof pool, directory, 8, SECONDS);
    if (dnk_refusal_of(answer) != DNK_GRANTED) {
        refuse("readers", answer);
        return;
    }
    const char *text = (const char *)pool + dnk_place(pool, sizeof pool, dnk_value_of(answer));
    printf("readers: %.*s\n", dnk_length_of(answer), text);
}

int main(void)
{
    printf("pages: %" PRIu32 "\n", dnk_value_of(dnk_format(pool, sizeof pool, DNK_EDITION_2)));
    uint32_t old = publish("2015-07-01: 36");
    read_table();
    publish("2017-01-01: 37");
    read_table();

    /* The incident: the old block once more. */
    refuse("old block back again", dnk_free(pool, sizeof pool, old));
    read_table();

    /* A refused put leaves the table that is there. */
    refuse("table of no bytes", put(zeros, 0));
    refuse("table of 65536 bytes", put(zeros, sizeof zeros));
    refuse("table of 60000 bytes", put(zeros, 60000));
    read_table();

    dnk_answer back = dnk_keeper_remove(pool, sizeof pool, directory, 8, SECONDS);
    printf("table: %" PRIu32 " bytes back\n", dnk_value_of(back));
    read_table();
    printf("records: %s\n", dnk_validate(pool, sizeof pool) == 0 ? "sound" : "unsound");
    return EXIT_SUCCESS;
}
