/* A box around the core: a lathe with one axis, a few observations, a servo with two alarms at once, a tool, and what
 * clients ask. */
#include <inttypes.h>
#include <stdio.h>
#include <string.h>

#include "mtcore.h"

enum { N = 4, A = 2, COMPONENTS = 2, ITEMS = 4, CONDITIONS = 1 };

static const uint8_t names[][MTCORE_NAME] = {"Device",   "Axes",     "AVAILABILITY",
                                             "POSITION", "ACTUATOR", "ASSET_CHANGED"};

static const uint32_t model[2 + COMPONENTS + ITEMS] = {
    COMPONENTS,
    ITEMS,
    MTCORE_COMPONENT(0, 0),
    MTCORE_COMPONENT(0, 1),
    MTCORE_DATA_ITEM(MTCORE_CATEGORY_EVENT, 0, 2),
    MTCORE_DATA_ITEM(MTCORE_CATEGORY_SAMPLE, 1, 3),
    MTCORE_DATA_ITEM(MTCORE_CATEGORY_CONDITION, 1, 4),
    MTCORE_DATA_ITEM(MTCORE_CATEGORY_ASSET_CHANGE, 0, 5),
};

static uint64_t observations[MTCORE_OBSERVATION_WORDS(N, ITEMS)];
static uint8_t assets[MTCORE_ASSET_BYTES(A)];
static uint64_t reply[MTCORE_REPLY_WORDS(MTCORE_CURRENT_ROWS(ITEMS, CONDITIONS))];

#define COUNT(x) (sizeof(x) / sizeof((x)[0]))
#define MODEL model, COUNT(model), names[0], sizeof names

/* 2026-09-13T07:00:00Z */
static const uint64_t seven = UINT64_C(1789282800000);

static void observe(const char *what, uint64_t item, uint64_t ms, uint64_t value) {
    uint64_t word = mtcore_observe(MODEL, observations, COUNT(observations), item, seven + ms, seven + ms, value);
    if (mtcore_refusal_of(word) != 0)
        printf("observe %-20s refused: %u\n", what, mtcore_refusal_of(word));
    else if (word == MTCORE_SAME)
        printf("observe %-20s same as before\n", what);
    else
        printf("observe %-20s number %" PRIu64 "\n", what, word);
}

static void store(const char *id, const char *body) {
    uint64_t word =
        mtcore_store_asset(MODEL, observations, COUNT(observations), assets, sizeof assets, (const uint8_t *)id,
                           strlen(id), (const uint8_t *)body, strlen(body), seven + 400);
    if (mtcore_refusal_of(word) != 0)
        printf("store   %-20s refused: %u\n", id, mtcore_refusal_of(word));
    else
        printf("store   %-20s cell %" PRIu64 "\n", id, word);
}

/* the core takes stores as they stand: item, kind and level are tested before one of them is an index */
static void print_packed(uint64_t packed) {
    static const char *const levels[] = {"normal", "warning", "fault"};
    if (!mtcore_packed_ok(ITEMS, packed)) {
        printf("damaged\n");
        return;
    }
    printf("%-14.24s ", mtcore_item_name(MODEL, mtcore_item_of(packed)));
    switch (mtcore_kind_of(packed)) {
    case MTCORE_VALUE_UNAVAILABLE: printf("unavailable\n"); break;
    case MTCORE_VALUE_SAMPLE: printf("%.3f\n", mtcore_sample_of(packed) / 1000.0); break;
    case MTCORE_VALUE_EVENT: printf("code %" PRIu32 "\n", mtcore_code_of(packed)); break;
    default: printf("%s %" PRIu32 "\n", levels[mtcore_level_of(packed)], mtcore_code_of(packed)); break;
    }
}

static void ask(const char *text) {
    mtcore_answer r = mtcore_request(MODEL, observations, COUNT(observations), assets, sizeof assets,
                                     (const uint8_t *)text, strlen(text), reply, COUNT(reply));
    printf("\n%s\n", text);
    if (r.number != 0) {
        printf("  refused: %" PRIu64 "\n", r.number);
        return;
    }
    printf("  first %" PRIu64 ", last %" PRIu64 ", next %" PRIu64 "\n", mtcore_reply_first(reply),
           mtcore_reply_last(reply), mtcore_reply_next(reply));
    for (uint64_t i = 0; i < r.count; i++) {
        mtcore_row row = mtcore_reply_row(reply, i);
        printf("  %3" PRIu64 "  07:00:00.%03u  ", row.number, (unsigned)(row.time - seven));
        print_packed(row.packed);
    }
}

int main(void) {
    mtcore_answer r = mtcore_start(MODEL, observations, COUNT(observations), assets, sizeof assets, N, A, 1, seven);
    printf("start   refusal %" PRIu64 "\n", r.number);
    observe("available", 0, 100, mtcore_event(1));
    observe("12.5 mm", 1, 200, mtcore_sample(12500));
    observe("12.5 mm", 1, 250, mtcore_sample(12500));
    observe("overheat warning", 2, 300, mtcore_condition(MTCORE_WARNING, 77));
    observe("an item too many", 9, 350, MTCORE_UNAVAILABLE);
    store("T17", "drill, 8 mm, 412 parts left");
    observe("following error", 2, 500, mtcore_condition(MTCORE_FAULT, 502));
    observe("-0.001 mm", 1, 600, mtcore_sample(-1));

    ask("/sample?from=7&count=2");
    ask("/current?path=//Axes");
    ask("/sample?from=1");

    /* each alarm is cleared by its own code, and whatever stands by 0 */
    printf("\n");
    observe("overheat is over", 2, 700, mtcore_condition(MTCORE_NORMAL, 77));
    observe("overheat is over", 2, 750, mtcore_condition(MTCORE_NORMAL, 77));
    observe("all is well", 2, 800, mtcore_condition(MTCORE_NORMAL, 0));

    /* the warning, number 7, has left the ring, and stood at number 10 all the same */
    ask("/current?at=10&path=//Axes//DataItem[@type=\"ACTUATOR\"]");
    ask("/current?at=11&path=//Axes//DataItem[@type=\"ACTUATOR\"]");
    ask("/current?path=//Axes//DataItem[@type=\"ACTUATOR\"]");

    mtcore_part p = mtcore_body(assets, sizeof assets, (const uint8_t *)"T17", 3);
    printf("\nT17: %.*s\n", (int)p.length, (const char *)assets + p.start);
    return 0;
}
