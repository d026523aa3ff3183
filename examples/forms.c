/* Adapter lines of each form, right and wrong, and what the core makes of them: prints the two tables of docs/HOST.md,
 * "Adapter lines". */
#include <inttypes.h>
#include <stdio.h>
#include <string.h>

#include "mtcore.h"

enum { N = 32, A = 1, ITEMS = 5, CONDITIONS = 1 };

static const uint8_t names[][MTCORE_NAME] = {"Device", "EXECUTION",  "POSITION",
                                             "SYSTEM", "PART_COUNT", "ASSET_CHANGED"};

static const uint32_t model[] = {
    1,
    ITEMS,
    MTCORE_COMPONENT(0, 0),
    MTCORE_DATA_ITEM(MTCORE_CATEGORY_EVENT, 0, 1),
    MTCORE_DATA_ITEM(MTCORE_CATEGORY_SAMPLE, 0, 2),
    MTCORE_DATA_ITEM(MTCORE_CATEGORY_CONDITION, 0, 3),
    MTCORE_DATA_ITEM(MTCORE_CATEGORY_DISCRETE, 0, 4),
    MTCORE_DATA_ITEM(MTCORE_CATEGORY_ASSET_CHANGE, 0, 5),
};

static uint64_t observations[MTCORE_OBSERVATION_WORDS(N, ITEMS)];
static uint8_t assets[MTCORE_ASSET_BYTES(A)];
static uint64_t reply[MTCORE_REPLY_WORDS(1)];

#define COUNT(x) (sizeof(x) / sizeof((x)[0]))
#define MODEL model, COUNT(model), names[0], sizeof names

/* 2026-09-14T06:00:01Z */
static const uint64_t host = UINT64_C(1789365601000);

static uint64_t read_line(const char *line) {
    return mtcore_read_line(MODEL, observations, COUNT(observations), (const uint8_t *)line, strlen(line), host);
}

/* the row of a number that was just given out */
static mtcore_row row_of(uint64_t number) {
    char text[64];
    snprintf(text, sizeof text, "/sample?from=%" PRIu64 "&count=1", number);
    mtcore_request(MODEL, observations, COUNT(observations), assets, sizeof assets, (const uint8_t *)text, strlen(text),
                   reply, COUNT(reply));
    return mtcore_reply_row(reply, 0);
}

static void print_value(uint64_t packed) {
    static const char *const levels[] = {"Normal", "Warning", "Fault"};
    char text[32] = "Unavailable";
    if (mtcore_kind_of(packed) == MTCORE_VALUE_SAMPLE)
        snprintf(text, sizeof text, "%" PRId32, mtcore_sample_of(packed));
    else if (mtcore_kind_of(packed) == MTCORE_VALUE_EVENT)
        snprintf(text, sizeof text, "code %" PRIu32, mtcore_code_of(packed));
    else if (mtcore_packed_ok(ITEMS, packed) && mtcore_kind_of(packed) == MTCORE_VALUE_CONDITION)
        snprintf(text, sizeof text, "%s %" PRIu32, levels[mtcore_level_of(packed)], mtcore_code_of(packed));
    printf("%-13s", text);
}

/* the line of what was recorded */
static void print_written(mtcore_row row) {
    uint8_t text[MTCORE_LINE_BYTES];
    mtcore_answer r = mtcore_write_line(MODEL, mtcore_item_of(row.packed), row.time, mtcore_value_of(row.packed), text,
                                        sizeof text);
    printf("%.*s\n", (int)r.count, (const char *)text);
}

static void print_right(const char *line) {
    uint64_t word = read_line(line);
    if (mtcore_refusal_of(word) != 0) {
        printf("%-35srefused: %u\n", line, mtcore_refusal_of(word));
    } else if (word == MTCORE_SAME) {
        printf("%-35sSame\n", line);
    } else {
        mtcore_row row = row_of(word);
        printf("%-35s%-8" PRIu64, line, word);
        print_value(row.packed);
        print_written(row);
    }
}

/* a carriage return is shown as it is written in C */
static void print_wrong(const char *line, const char *why) {
    char shown[80];
    size_t length = strlen(line);
    int returns = length > 0 && line[length - 1] == '\r';
    snprintf(shown, sizeof shown, "%.*s%s", (int)(length - (size_t)returns), line, returns ? "\\r" : "");
    printf("%-41s%-9u%s\n", shown, mtcore_refusal_of(read_line(line)), why);
}

static const char *const right[] = {
    "2026-09-14T06:00:00.250Z|1|12.5",
    "2026-09-14T06:00:00.500Z|1|12.500",
    "|1|-0.5",
    "|01|0000000005.05",
    "|1|-0",
    "1970-01-01T00:00:00.000Z|1|7",
    "|1|UNAVAILABLE",
    "|0|2",
    "|0|0002",
    "|3|1",
    "|3|1",
    "|2|WARNING:41",
    "|2|FAULT:504",
    "|2|FAULT:504",
    "|2|NORMAL:41",
    "|2|NORMAL:0",
};

static const char *const wrong[][2] = {
    {"1|12.5", "a bar is missing; without a stamp the line begins with one"},
    {"|1|12.5|3|1", "two readings: each is a line of its own"},
    {"|1|12.5\r", "the carriage return was not taken off"},
    {"|POSITION|12.5", "a name: items are numbers"},
    {"|0|ACTIVE", "a text: events are codes"},
    {"|2|WARNING", "no code"},
    {"|2|fault:504", "lower case"},
    {"|1|12,5", "a comma"},
    {"|1| 12.5", "a blank"},
    {"|1|+12.5", "only '-' may stand there"},
    {"|1|12.", "nothing behind the point"},
    {"|1|.5", "nothing before it"},
    {"|1|12.3456", "four digits behind it: round"},
    {"|1|00000000012", "eleven digits"},
    {"|1|", "no value"},
    {"2026-09-14T06:00:00Z|1|12.5", "no milliseconds"},
    {"2026-09-14T08:00:00.250+02:00|1|12.5", "another time zone than Z"},
    {"* PING", "no reading at all"},
    {"2026-02-29T06:00:00.250Z|1|12.5", "not a leap year"},
    {"2026-09-14T24:00:00.000Z|1|12.5", "hours are 00 to 23"},
    {"2026-12-31T23:59:60.000Z|1|12.5", "a leap second: seconds are 00 to 59"},
    {"2100-01-01T00:00:00.000Z|1|12.5", "behind 2099"},
    {"2026-02-29T06:00:00.250Z|1|12,5", "the form comes before the date"},
    {"2026-02-29T06:00:00.250Z|9|12.5", "and the date before the item"},
    {"|5|12.5", "the model has items 0 to 4"},
    {"|4294967296|2", "nor is this item 0"},
    {"|0|12.5", "an event takes no point"},
    {"|0|-2", "and no '-'"},
    {"|1|FAULT:504", "a condition's value for a sample"},
    {"|2|504", "and a number for a condition"},
    {"|4|1", "store-asset alone writes this item"},
    {"|1|2147483.648", "a thousandth beyond what a sample holds"},
    {"|0|4294967296", "beyond a code's 32 bits"},
    {"|2|FAULT:16777216", "beyond a native code's 24"},
};

int main(void) {
    mtcore_start(MODEL, observations, COUNT(observations), assets, sizeof assets, N, A, 1, host);
    printf("%-35s%-8s%-13s%s\n", "line", "answer", "value", "recorded, and written as a line");
    for (size_t i = 0; i < COUNT(right); i++)
        print_right(right[i]);
    printf("%-41s%-9s%s\n", "line", "refusal", "why");
    for (size_t i = 0; i < COUNT(wrong); i++)
        print_wrong(wrong[i][0], wrong[i][1]);
    return 0;
}
