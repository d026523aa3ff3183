/* A box that reads adapter lines from standard input. It cuts the stream into lines, hands each to the core, logs what
 * is refused and goes on; behind the last one it prints a summary and what stands now, as lines again.
 *
 *     lines <examples/lines.txt           a lathe's shift as its adapter sent it, some lines of it wrong
 *     lines write | lines                 the same shift from an adapter without faults, which is this program too
 *     lines compare <examples/lines.txt   whether the store is that of the shift's observes, word for word */
#include <inttypes.h>
#include <stdio.h>
#include <string.h>

#include "mtcore.h"

/* ---- the lathe ---- */

enum component { DEVICE, AXES, COMPONENTS };
enum item { AVAILABILITY, POSITION, LOAD, EXECUTION, PART_COUNT, SYSTEM, ITEMS };
enum { N = 64, A = 1, CONDITIONS = 1 };

/* types of the components, then of the items, each in the order above */
static const uint8_t names[COMPONENTS + ITEMS][MTCORE_NAME] = {
    "Device", "Axes", "AVAILABILITY", "POSITION", "LOAD", "EXECUTION", "PART_COUNT", "SYSTEM"};

#define ITEM(category, component, self) MTCORE_DATA_ITEM(MTCORE_CATEGORY_##category, component, COMPONENTS + (self))

static const uint32_t model[] = {
    COMPONENTS,
    ITEMS,
    MTCORE_COMPONENT(DEVICE, DEVICE),
    MTCORE_COMPONENT(DEVICE, AXES),
    ITEM(EVENT, DEVICE, AVAILABILITY),
    ITEM(SAMPLE, AXES, POSITION),
    ITEM(SAMPLE, AXES, LOAD),
    ITEM(EVENT, DEVICE, EXECUTION),
    ITEM(DISCRETE, DEVICE, PART_COUNT),
    ITEM(CONDITION, DEVICE, SYSTEM),
};

/* one store is filled by lines, the other by observes */
static uint64_t by_lines[MTCORE_OBSERVATION_WORDS(N, ITEMS)], by_observes[MTCORE_OBSERVATION_WORDS(N, ITEMS)];
static uint8_t assets[MTCORE_ASSET_BYTES(A)];
static uint64_t reply[MTCORE_REPLY_WORDS(MTCORE_CURRENT_ROWS(ITEMS, CONDITIONS))];

#define COUNT(x) (sizeof(x) / sizeof((x)[0]))
#define MODEL model, COUNT(model), names[0], sizeof names

/* 2026-09-14T06:00:00Z and 14:00:00Z. A box asks its clock for the host time, at every line; here it stands at the end
 * of the shift, so that each run prints the same. */
static const uint64_t six = UINT64_C(1789365600000), now = UINT64_C(1789394400000);

static void start(uint64_t *store) {
    mtcore_start(MODEL, store, COUNT(by_lines), assets, sizeof assets, N, A, 1, six);
}

/* ---- its shift, reading by reading ---- */

enum { QUARTER = 15 * 60 * 1000, SCANS = 32, WORN = 12, STUCK = 14, CHANGED = 16, LOW = 28 };
enum execution { READY, ACTIVE, INTERRUPTED };

typedef void report(uint64_t item, uint64_t time, uint64_t value);

/* the light barrier that counts the parts has no clock: its pulses have time 0, and get the box's */
static void play_scan(report *tell, unsigned scan) {
    uint64_t time = six + scan * (uint64_t)QUARTER;
    int stuck = scan >= STUCK && scan < CHANGED;
    tell(POSITION, time, stuck ? MTCORE_UNAVAILABLE : mtcore_sample((int32_t)(scan * 7919 % 400) * 250 - 50000));
    tell(LOAD, time + 20, mtcore_sample(stuck ? 0 : 40500 + 25 * (int32_t)(scan / 3)));
    tell(EXECUTION, time + 40, mtcore_event(stuck ? INTERRUPTED : ACTIVE));
    if (scan > 0 && !stuck)
        tell(PART_COUNT, 0, mtcore_event(1));
    if (scan == WORN)
        tell(SYSTEM, time + 60, mtcore_condition(MTCORE_WARNING, 41));
    if (scan == STUCK)
        tell(SYSTEM, time + 60, mtcore_condition(MTCORE_FAULT, 504));
    if (scan == LOW)
        tell(SYSTEM, time + 60, mtcore_condition(MTCORE_WARNING, 77));
    if (scan == CHANGED) {
        tell(SYSTEM, time + 60, mtcore_condition(MTCORE_NORMAL, 504));
        tell(SYSTEM, time + 60, mtcore_condition(MTCORE_NORMAL, 41));
    }
}

static void play(report *tell) {
    tell(AVAILABILITY, six, mtcore_event(1));
    tell(SYSTEM, six, mtcore_condition(MTCORE_NORMAL, 0));
    for (unsigned scan = 0; scan <= SCANS; scan++)
        play_scan(tell, scan);
    tell(EXECUTION, now, mtcore_event(READY));
}

/* ---- the adapter: each reading as a line ---- */

static void print_line(uint64_t item, uint64_t time, uint64_t value) {
    uint8_t text[MTCORE_LINE_BYTES];
    mtcore_answer r = mtcore_write_line(MODEL, item, time, value, text, sizeof text);
    if (r.number == 0)
        printf("%.*s\n", (int)r.count, (const char *)text);
    else
        printf("refused: %" PRIu64 "\n", r.number);
}

/* ---- the box: bytes into lines, lines into the core ---- */

/* A line as far as it has come. There is room for the longest that reads, its carriage return and a byte more: what
 * comes behind that is dropped, and the core refuses what is left for its length. */
static struct {
    uint8_t bytes[MTCORE_MAX_LINE + 2];
    size_t length;
} line;

static struct {
    unsigned lines, recorded, same, refused, refusals[64];
} seen;

static void log_line(const char *what) {
    printf("line %3u  %-19s%s", seen.lines, what, line.length == 0 ? "(empty)" : "");
    for (size_t i = 0; i < line.length; i++)
        putchar(line.bytes[i] >= 32 && line.bytes[i] <= 126 ? line.bytes[i] : '?');
    printf("%s\n", line.length == sizeof line.bytes ? " .." : "");
}

static const char *name_of(unsigned refusal) {
    switch (refusal) {
    case MTCORE_ITEM: return "item";
    case MTCORE_KIND: return "kind";
    case MTCORE_CROWDED: return "crowded";
    case MTCORE_LINE: return "line";
    case MTCORE_STAMP: return "stamp";
    default: return "not the adapter's";
    }
}

/* one word, as of an observe: a refused line added nothing, and the next is read as if it had not come */
static void take_word(uint64_t word) {
    unsigned refusal = mtcore_refusal_of(word);
    char what[32];
    seen.recorded += refusal == 0 && word != MTCORE_SAME;
    seen.same += word == MTCORE_SAME;
    if (refusal != 0) {
        seen.refused++;
        seen.refusals[refusal]++;
        snprintf(what, sizeof what, "refused: %u %s", refusal, name_of(refusal));
        log_line(what);
    }
}

static void end_line(void) {
    if (line.length > 0 && line.bytes[line.length - 1] == '\r')
        line.length--;
    seen.lines++;
    take_word(mtcore_read_line(MODEL, by_lines, COUNT(by_lines), line.bytes, line.length, now));
    line.length = 0;
}

static void take_byte(uint8_t byte) {
    if (byte == '\n')
        end_line();
    else if (line.length < sizeof line.bytes)
        line.bytes[line.length++] = byte;
}

/* what has no line feed when the stream ends was cut off, and isn't read: half a number is a number too */
static void read_all(void) {
    int c;
    while ((c = getchar()) != EOF)
        take_byte((uint8_t)c);
    if (line.length > 0) {
        seen.lines++;
        log_line("cut off, not read");
    }
}

static void print_summary(void) {
    const char *text = "/current";
    mtcore_answer r = mtcore_request(MODEL, by_lines, COUNT(by_lines), assets, sizeof assets, (const uint8_t *)text,
                                     strlen(text), reply, COUNT(reply));
    printf("\n%u lines: %u recorded, %u the same as before, %u refused, %u cut off\n", seen.lines, seen.recorded,
           seen.same, seen.refused, seen.lines - seen.recorded - seen.same - seen.refused);
    for (unsigned refusal = 1; refusal < COUNT(seen.refusals); refusal++)
        if (seen.refusals[refusal] > 0)
            printf("  refusal %2u, %-7s %3u\n", refusal, name_of(refusal), seen.refusals[refusal]);
    printf("\n%s\n", text);
    for (uint64_t i = 0; i < r.count; i++) {
        mtcore_row row = mtcore_reply_row(reply, i);
        printf("  %3" PRIu64 "  %-13.24s", row.number, mtcore_item_name(MODEL, mtcore_item_of(row.packed)));
        print_line(mtcore_item_of(row.packed), row.time, mtcore_value_of(row.packed));
    }
}

/* ---- the same shift without lines ---- */

static void observe(uint64_t item, uint64_t time, uint64_t value) {
    mtcore_observe(MODEL, by_observes, COUNT(by_observes), item, time, now, value);
}

static int compare(void) {
    start(by_observes);
    play(observe);
    int equal = memcmp(by_lines, by_observes, sizeof by_lines) == 0;
    printf("\nThe store filled by lines %s the one filled by observes, %u words\n", equal ? "is" : "IS NOT",
           (unsigned)COUNT(by_lines));
    return equal ? 0 : 1;
}

int main(int argc, char **argv) {
    const char *what = argc > 1 ? argv[1] : "";
    if (strcmp(what, "write") == 0) {
        play(print_line);
        return 0;
    }
    start(by_lines);
    read_all();
    print_summary();
    return strcmp(what, "compare") == 0 ? compare() : 0;
}
