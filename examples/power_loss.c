/*
 * After a power loss: the pool of the night before is judged, mended into a
 * second slice, checked, and goes on. In the repository's root:
 *
 *     (cd crates/danumrikal && rt lib)
 *     cc -std=c99 -I include examples/power_loss.c crates/danumrikal/out/libdanumrikal.a -o power_loss
 *     ./power_loss
 */
#include "danumrikal.h"

#include <inttypes.h>
#include <stdio.h>
#include <stdlib.h>
#include <string.h>

static uint8_t pool[DNK_POOL_LENGTH(DNK_EDITION_2, 12)];
static uint8_t copy[sizeof pool];

/* Tells the value of an answer, or why it was refused. */
static void tell(const char *what, dnk_answer answer)
{
    enum dnk_refusal refusal = dnk_refusal_of(answer);
    if (refusal == DNK_GRANTED) {
        printf("%s: %" PRIu32 "\n", what, dnk_value_of(answer));
    } else {
        printf("%s: %s (%d)\n", what, dnk_refusal_name(refusal), refusal);
    }
}

/* Tells whether a copy is accepted, or why not. */
static void check(const char *what, const uint8_t *mended)
{
    dnk_answer answer = dnk_check_mended(pool, sizeof pool, mended, sizeof pool);
    printf("%s: %s\n", what, dnk_refusal_name(dnk_refusal_of(answer)));
}

/* Takes a block and keeps a text in it. */
static uint32_t keep(const char *text, uint32_t size)
{
    dnk_answer answer = dnk_alloc(pool, sizeof pool, size);
    if (dnk_refusal_of(answer) != DNK_GRANTED) {
        exit(EXIT_FAILURE);
    }
    strcpy((char *)pool + dnk_place(pool, sizeof pool, dnk_value_of(answer)), text);
    return dnk_value_of(answer);
}

int main(void)
{
    tell("pages", dnk_format(pool, sizeof pool, DNK_EDITION_2));
    uint32_t stars = keep("Vega, Altair, Deneb", 30);
    uint32_t pointing = keep("azimuth 181.5, altitude 47.2", 64);
    uint32_t seconds = keep("2016-12-31: 37", 5000);
    tell("star list back", dnk_free(pool, sizeof pool, stars));

    memset(pool + 4, 0xff, 4); /* the power is lost: free pages and first free run were not written */

    /* Judge. */
    printf("broken rule: %" PRIu64 "\n", dnk_validate(pool, sizeof pool));
    tell("pointing block back", dnk_free(pool, sizeof pool, pointing));
    /* Mend into a second slice. */
    tell("mended, pages", dnk_mend(pool, sizeof pool, copy, sizeof copy));
    /* Check, whoever mended it. */
    check("as it stood", pool);
    check("copy", copy);
    /* Go on. */
    memcpy(pool, copy, sizeof pool);
    printf("leap second table: %s\n", (const char *)pool + dnk_place(pool, sizeof pool, seconds));
    tell("pointing block back", dnk_free(pool, sizeof pool, pointing));
    printf("broken rule: %" PRIu64 "\n", dnk_validate(pool, sizeof pool));

    /* Where kinds, run lengths or maps are lost too, nobody can say what was in use. */
    memset(pool + DNK_HEAD(DNK_EDITION_2), 0, DNK_RECORD);
    tell("mended, pages", dnk_mend(pool, sizeof pool, copy, sizeof copy));
    return EXIT_SUCCESS;
}
