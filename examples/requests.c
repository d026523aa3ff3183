/* A mill of five items, and how requests of it are answered: prints the table of docs/HOST.md, "Requests", and with a
 * request as its argument the streams document of the reply:
 *
 *     requests /current           the document of docs/HOST.md, "A streams document" */
#include <inttypes.h>
#include <stdio.h>
#include <string.h>

#include "mtcore.h"

enum { N = 8, A = 3, COMPONENTS = 5, ITEMS = 5 };

#define COUNT(x) (sizeof(x) / sizeof((x)[0]))

static const uint8_t names[][MTCORE_NAME] = {"Device",  "Axes",         "Linear",   "Controller",
                                             "Coolant", "AVAILABILITY", "POSITION", "EXECUTION",
                                             "SYSTEM",  "ASSET_CHANGED"};

/* Linear stands below Axes, and Coolant has no items */
static const uint32_t model[2 + COMPONENTS + ITEMS] = {
    COMPONENTS,
    ITEMS,
    MTCORE_COMPONENT(0, 0),
    MTCORE_COMPONENT(0, 1),
    MTCORE_COMPONENT(1, 2),
    MTCORE_COMPONENT(0, 3),
    MTCORE_COMPONENT(0, 4),
    MTCORE_DATA_ITEM(MTCORE_CATEGORY_EVENT, 0, 5),
    MTCORE_DATA_ITEM(MTCORE_CATEGORY_SAMPLE, 2, 6),
    MTCORE_DATA_ITEM(MTCORE_CATEGORY_EVENT, 3, 7),
    MTCORE_DATA_ITEM(MTCORE_CATEGORY_CONDITION, 3, 8),
    MTCORE_DATA_ITEM(MTCORE_CATEGORY_ASSET_CHANGE, 0, 9),
};

static uint64_t observations[MTCORE_OBSERVATION_WORDS(N, ITEMS)];
static uint8_t assets[MTCORE_ASSET_BYTES(A)];
static uint64_t reply[512];
static uint8_t document[MTCORE_STREAMS_BYTES(COMPONENTS, COUNT(reply) / 3)];

#define MODEL model, COUNT(model), names[0], sizeof names

static void observe(uint64_t item, uint64_t time, uint64_t value) {
    mtcore_observe(MODEL, observations, COUNT(observations), item, time, time, value);
}

static void store(const char *id, const char *body, uint64_t time) {
    mtcore_store_asset(MODEL, observations, COUNT(observations), assets, sizeof assets, (const uint8_t *)id,
                       strlen(id), (const uint8_t *)body, strlen(body), time);
}

static void print_value(uint64_t packed) {
    static const char *const levels[] = {"Normal", "Warning", "Fault"};
    if (!mtcore_packed_ok(ITEMS, packed)) {
        printf("damaged");
        return;
    }
    switch (mtcore_kind_of(packed)) {
    case MTCORE_VALUE_UNAVAILABLE: printf("Unavailable"); break;
    case MTCORE_VALUE_SAMPLE: printf("%" PRId32, mtcore_sample_of(packed)); break;
    case MTCORE_VALUE_EVENT: printf("%" PRIu32, mtcore_code_of(packed)); break;
    default: printf("%s %" PRIu32, levels[mtcore_level_of(packed)], mtcore_code_of(packed)); break;
    }
}

static void print_observations(void) {
    printf(" %" PRIu64 " | %" PRIu64 ", %" PRIu64 ", %" PRIu64 " |", mtcore_reply_count(reply),
           mtcore_reply_first(reply), mtcore_reply_last(reply), mtcore_reply_next(reply));
    for (uint64_t i = 0; i < mtcore_reply_count(reply); i++) {
        mtcore_row row = mtcore_reply_row(reply, i);
        printf("%s %" PRIu64 " i%" PRIu64 " ", i > 0 ? ";" : "", row.number, mtcore_item_of(row.packed));
        print_value(row.packed);
    }
}

static void print_assets(void) {
    printf(" %" PRIu64 " | %" PRIu64 " of %" PRIu64 " cells |", mtcore_reply_count(reply), mtcore_reply_used(reply),
           mtcore_reply_cells(reply));
    for (uint64_t i = 0; i < mtcore_reply_count(reply); i++) {
        mtcore_asset_row row = mtcore_reply_asset(reply, i);
        mtcore_bytes id = mtcore_cell_id(assets, sizeof assets, row.cell);
        printf("%s cell %" PRIu64 " %.*s, %" PRIu64 " bytes", i > 0 ? ";" : "", row.cell, (int)id.length,
               (const char *)id.bytes, row.length);
    }
}

static mtcore_answer request(const char *text) {
    return mtcore_request(MODEL, observations, COUNT(observations), assets, sizeof assets, (const uint8_t *)text,
                          strlen(text), reply, COUNT(reply));
}

static void ask(const char *text) {
    mtcore_answer r = request(text);
    printf("| `%s` | %" PRIu64 " |", text, r.number);
    if (r.number != 0)
        printf(" | |");
    else if (strncmp(text, "/asset", 6) == 0)
        print_assets();
    else
        print_observations();
    printf(" |\n");
}

static const char *const at_start[] = {"/current?at=2"};

static const char *const later[] = {
    "/sample",
    "/sample?from=0&count=3",
    "/sample?from=6&count=3&path=//Controller",
    "/sample?from=9&count=2&path=//Controller",
    "/sample?from=14",
    "/sample?from=15",
    "/sample?from=5",
    "/sample?count=9",
    "/sample?count=8&path=//Axes",
    "/sample?path=//axes",
    "/sample?path=//Controller//DataItem[@type=\"EXECUTION\"]",
    "/sample?path=//Coolant",
    "/sample?path=//Coolant//DataItem[@type=\"EXECUTION\"]",
    "/sample?",
    "/current",
    "/current?at=7",
    "/current?at=5",
    "/current?at=0",
    "/current?at=14",
    "/current?path=//Device//DataItem[@type=\"POSITION\"]",
    "/current?interval=1000",
    "/probe",
    "/assets",
    "/asset/T17;T4;T17",
    "/asset/T17;T9",
};

static void work(void) {
    observe(0, 1001, mtcore_event(1));
    observe(1, 1002, mtcore_sample(1250));
    observe(2, 1003, mtcore_event(2));
    observe(1, 1004, mtcore_sample(1260));
    store("T17", "drill, 8 mm", 1005);
    observe(3, 1006, mtcore_condition(MTCORE_WARNING, 77));
    store("T4", "mill", 1007);
    observe(1, 1008, mtcore_sample(-1));
}

static int print_document(const char *text) {
    mtcore_answer r = request(text);
    if (r.number == 0 && mtcore_reply_next(reply) == 0) {
        printf("a reply of assets has no streams document\n");
        return 1;
    }
    if (r.number == 0)
        r = mtcore_streams(MODEL, reply, COUNT(reply), N, 1, 2000, document, sizeof document);
    if (r.number != 0)
        printf("refused: %" PRIu64 "\n", r.number);
    else
        printf("%.*s", (int)r.count, (const char *)document);
    return r.number == 0 ? 0 : 1;
}

static void print_table(void) {
    printf("| text | refusal | k | first, last, next | rows |\n|---|---:|---:|---|---|\n");
    for (size_t i = 0; i < COUNT(at_start); i++)
        ask(at_start[i]);
    work();
    for (size_t i = 0; i < COUNT(later); i++)
        ask(later[i]);
}

int main(int argc, char **argv) {
    mtcore_start(MODEL, observations, COUNT(observations), assets, sizeof assets, N, A, 1, 1000);
    if (argc > 1) {
        work();
        return print_document(argv[1]);
    }
    print_table();
    return 0;
}
