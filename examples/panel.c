/*
 * The dome's panel: the pages in use of the camera's pool, smoothed, and a trip
 * level. In the repository's root:
 *
 *     (cd crates/danumrikal && rt lib)
 *     cc -std=c99 -I include examples/panel.c crates/danumrikal/out/libdanumrikal.a -o panel
 *     ./panel
 */
#include "danumrikal.h"

#include <inttypes.h>
#include <stdio.h>
#include <stdlib.h>

#define FRAME (9 * DNK_PAGE) /* a frame has nine pages */

static uint8_t pool[DNK_POOL_LENGTH(DNK_EDITION_1, 12)];

/* The value of a call that must be granted. */
static uint32_t granted(dnk_answer answer)
{
    if (dnk_refusal_of(answer) != DNK_GRANTED) {
        exit(EXIT_FAILURE);
    }
    return dnk_value_of(answer);
}

/* Samples the pool and prints the panel's line. */
static struct dnk_gauge show(struct dnk_gauge gauge)
{
    uint32_t in_use = granted(dnk_pages_in_use(pool, sizeof pool));
    struct dnk_gauge_reply reply = dnk_gauge_sample(gauge, in_use);
    granted(reply.answer);
    const char *lamp = granted(dnk_gauge_trips(reply.gauge)) ? "TRIP" : "ok";
    printf("in use %2" PRIu32 " | load %6.3f | level %6.3f | %s\n", in_use, reply.gauge.load, reply.gauge.level, lamp);
    return reply.gauge;
}

int main(void)
{
    printf("pages: %" PRIu32 "\n", granted(dnk_format(pool, sizeof pool, DNK_EDITION_1)));
    struct dnk_gauge_reply started = dnk_gauge_start(6);
    granted(started.answer);
    struct dnk_gauge gauge = show(started.gauge);
    uint32_t frame = granted(dnk_alloc(pool, sizeof pool, FRAME));
    gauge = show(gauge);
    gauge = show(gauge);
    granted(dnk_alloc(pool, sizeof pool, 30)); /* the star list */
    gauge = show(gauge);
    granted(dnk_free(pool, sizeof pool, frame));
    gauge = show(gauge);
    struct dnk_gauge_reply refused = dnk_gauge_sample(gauge, 4097);
    enum dnk_refusal refusal = dnk_refusal_of(refused.answer);
    printf("in use 4097: %s (%d)\n", dnk_refusal_name(refusal), refusal);
    show(refused.gauge);
    return EXIT_SUCCESS;
}
