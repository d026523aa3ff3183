/* Conditions of one item, raised and cleared: prints the table of docs/HOST.md, "Several conditions on one item". */
#include <inttypes.h>
#include <stdio.h>
#include <string.h>

#include "mtcore.h"

enum { N = 32, A = 1, ITEMS = 1 };

static const uint8_t names[][MTCORE_NAME] = {"Device", "SYSTEM"};

static const uint32_t model[] = {1, ITEMS, MTCORE_COMPONENT(0, 0), MTCORE_DATA_ITEM(MTCORE_CATEGORY_CONDITION, 0, 1)};

static uint64_t observations[MTCORE_OBSERVATION_WORDS(N, ITEMS)];
static uint8_t assets[MTCORE_ASSET_BYTES(A)];
static uint64_t reply[MTCORE_REPLY_WORDS(MTCORE_CURRENT_ROWS(ITEMS, 1))];

#define COUNT(x) (sizeof(x) / sizeof((x)[0]))
#define MODEL model, COUNT(model), names[0], sizeof names

static void print_value(uint64_t packed) {
    static const char *const levels[] = {"Normal", "Warning", "Fault"};
    if (!mtcore_packed_ok(ITEMS, packed))
        printf("damaged");
    else if (mtcore_kind_of(packed) == MTCORE_VALUE_UNAVAILABLE)
        printf("Unavailable");
    else
        printf("%s %" PRIu32, levels[mtcore_level_of(packed)], mtcore_code_of(packed));
}

/* the last cell of a line */
static void print_current(void) {
    const char *text = "/current";
    mtcore_answer r = mtcore_request(MODEL, observations, COUNT(observations), assets, sizeof assets,
                                     (const uint8_t *)text, strlen(text), reply, COUNT(reply));
    for (uint64_t i = 0; i < r.count; i++) {
        mtcore_row row = mtcore_reply_row(reply, i);
        printf("%s %" PRIu64 " ", i > 0 ? ";" : "", row.number);
        print_value(row.packed);
    }
    printf(" |\n");
}

/* the values are words as the adapter gives them, so that of item 0 they are packed words too */
static void observe(uint64_t value) {
    uint64_t word = mtcore_observe(MODEL, observations, COUNT(observations), 0, 0, 1001, value);
    printf("| ");
    print_value(value);
    if (mtcore_refusal_of(word) != 0)
        printf(" | refused: %u |", mtcore_refusal_of(word));
    else if (word == MTCORE_SAME)
        printf(" | Same |");
    else
        printf(" | %" PRIu64 " |", word);
    print_current();
}

int main(void) {
    const uint64_t values[] = {
        mtcore_condition(MTCORE_NORMAL, 41),   mtcore_condition(MTCORE_NORMAL, 0),
        mtcore_condition(MTCORE_NORMAL, 0),    mtcore_condition(MTCORE_WARNING, 41),
        mtcore_condition(MTCORE_FAULT, 504),   mtcore_condition(MTCORE_FAULT, 504),
        mtcore_condition(MTCORE_FAULT, 41),    mtcore_condition(MTCORE_WARNING, 7),
        mtcore_condition(MTCORE_NORMAL, 504),  mtcore_condition(MTCORE_NORMAL, 504),
        mtcore_condition(MTCORE_WARNING, 504), mtcore_condition(MTCORE_NORMAL, 0),
        mtcore_condition(MTCORE_WARNING, 7),   mtcore_condition(MTCORE_NORMAL, 7),
        mtcore_condition(MTCORE_NORMAL, 0),    mtcore_condition(MTCORE_WARNING, 7),
        MTCORE_UNAVAILABLE,                    MTCORE_UNAVAILABLE,
        mtcore_condition(MTCORE_FAULT, 504),
    };
    printf("| observed | answer | `/current` shows |\n|---|---:|---|\n| | |");
    mtcore_start(MODEL, observations, COUNT(observations), assets, sizeof assets, N, A, 1, 1000);
    print_current();
    for (size_t i = 0; i < COUNT(values); i++)
        observe(values[i]);
    return 0;
}
