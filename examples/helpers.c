/* Tries every helper of mtcore.h, as C and as C++: what goes in comes out again, and what isn't there gives
 * nothing. So does a delivery, whose records are a struct that the header lays out, a discrete item counts its equal
 * values, a condition item holds eight codes, a request beside the numbers held is late or early, lines are read and
 * written up to the bounds of their sizes and times, documents too, and a box goes on from stores of layout 1. Prints
 * the number of trials, or the first that fails. */
#include <inttypes.h>
#include <stdio.h>
#include <string.h>

#include "mtcore.h"

enum { N = 4, A = 2, ITEMS = 5 };

static const char name_texts[][MTCORE_NAME] = {"Device", "EVENT", "SAMPLE", "CONDITION", "CHANGE", "PULSE"};
static const uint8_t *const names = (const uint8_t *)name_texts[0];

static const uint32_t model[] = {
    1,
    ITEMS,
    MTCORE_COMPONENT(0, 0),
    MTCORE_DATA_ITEM(MTCORE_CATEGORY_EVENT, 0, 1),
    MTCORE_DATA_ITEM(MTCORE_CATEGORY_SAMPLE, 0, 2),
    MTCORE_DATA_ITEM(MTCORE_CATEGORY_CONDITION, 0, 3),
    MTCORE_DATA_ITEM(MTCORE_CATEGORY_ASSET_CHANGE, 0, 4),
    MTCORE_DATA_ITEM(MTCORE_CATEGORY_DISCRETE, 0, 5),
};

static uint64_t observations[MTCORE_OBSERVATION_WORDS(N, ITEMS)];
static uint8_t assets[MTCORE_ASSET_BYTES(A)];
static uint64_t reply[MTCORE_REPLY_WORDS(MTCORE_MAX_NAMED)];

#define COUNT(x) (sizeof(x) / sizeof((x)[0]))
#define MODEL model, COUNT(model), names, sizeof name_texts
#define ASSETS assets, sizeof assets

static unsigned trials, failed;

static void holds(int fact, int line) {
    trials++;
    if (!fact && failed++ == 0)
        printf("helpers.c, line %d fails\n", line);
}

#define HOLDS(fact) holds(fact, __LINE__)

static mtcore_answer ask(const char *text) {
    return mtcore_request(MODEL, observations, COUNT(observations), ASSETS, (const uint8_t *)text, strlen(text),
                          reply, COUNT(reply));
}

static uint64_t observe(uint64_t item, uint64_t value) {
    return mtcore_observe(MODEL, observations, COUNT(observations), item, 7, 7, value);
}

static uint64_t store(const char *id, const char *body) {
    return mtcore_store_asset(MODEL, observations, COUNT(observations), ASSETS, (const uint8_t *)id, strlen(id),
                              (const uint8_t *)body, strlen(body), 8);
}

/* the first row that current gives for an item */
static mtcore_row row_of(uint64_t item) {
    HOLDS(ask("/current").number == 0);
    return mtcore_reply_row(reply, mtcore_reply_find(reply, item, 0));
}

static uint64_t packed_of(uint64_t item) {
    return row_of(item).packed;
}

static int is(mtcore_bytes bytes, const char *text) {
    return bytes.length == strlen(text) && memcmp(bytes.bytes, text, bytes.length) == 0;
}

static int none(mtcore_bytes bytes) {
    return bytes.bytes == NULL && bytes.length == 0;
}

static void try_refusals(void) {
    for (uint64_t number = 1; number < 64; number++)
        HOLDS(mtcore_refusal_of(MTCORE_REFUSED + number) == number);
    HOLDS(mtcore_refusal_of(MTCORE_SAME) == 0 && mtcore_refusal_of(MTCORE_REFUSED - 1) == 0);
    HOLDS(mtcore_refusal_of(observe(ITEMS, 0)) == MTCORE_ITEM);
}

static void try_values(void) {
    static const int32_t samples[] = {0, 1, -1, INT32_MAX, INT32_MIN};
    for (size_t i = 0; i < COUNT(samples); i++) {
        HOLDS(mtcore_refusal_of(observe(1, mtcore_sample(samples[i]))) == 0);
        HOLDS(mtcore_item_of(packed_of(1)) == 1 && mtcore_kind_of(packed_of(1)) == MTCORE_VALUE_SAMPLE);
        HOLDS(mtcore_sample_of(packed_of(1)) == samples[i]);
        HOLDS(mtcore_value_of(packed_of(1)) == mtcore_sample(samples[i]));
    }
    HOLDS(mtcore_kind_of(packed_of(0)) == MTCORE_VALUE_UNAVAILABLE);
    HOLDS(mtcore_refusal_of(observe(0, mtcore_event(UINT32_MAX))) == 0);
    HOLDS(mtcore_kind_of(packed_of(0)) == MTCORE_VALUE_EVENT && mtcore_code_of(packed_of(0)) == UINT32_MAX);
    HOLDS(mtcore_refusal_of(observe(2, mtcore_condition(MTCORE_FAULT, 0xffffff))) == 0);
    HOLDS(mtcore_kind_of(packed_of(2)) == MTCORE_VALUE_CONDITION && mtcore_level_of(packed_of(2)) == MTCORE_FAULT);
    HOLDS(mtcore_code_of(packed_of(2)) == 0xffffff);
    HOLDS(mtcore_refusal_of(observe(2, mtcore_condition(MTCORE_FAULT, 0x1000000))) == MTCORE_KIND);
    HOLDS(mtcore_refusal_of(observe(2, mtcore_condition(MTCORE_NORMAL, 0x1000000))) == MTCORE_KIND);
    HOLDS(observe(2, mtcore_condition(MTCORE_NORMAL, 0xfffffe)) == MTCORE_SAME);
    HOLDS(mtcore_refusal_of(observe(2, mtcore_condition((enum mtcore_level)3, 0))) == MTCORE_KIND);
#ifndef __cplusplus
    HOLDS(mtcore_refusal_of(observe(2, mtcore_condition((enum mtcore_level)256, 0))) == MTCORE_KIND);
#endif
}

static void try_packed_ok(void) {
    const uint64_t item = UINT64_C(1) << 40, kind = UINT64_C(1) << 32;
    HOLDS(mtcore_packed_ok(ITEMS, 0) && mtcore_packed_ok(ITEMS, packed_of(2)));
    HOLDS(!mtcore_packed_ok(ITEMS, ITEMS * item) && !mtcore_packed_ok(ITEMS, UINT64_MAX));
    HOLDS(!mtcore_packed_ok(ITEMS, 4 * kind) && mtcore_packed_ok(ITEMS, 2 * kind + UINT32_MAX));
    HOLDS(mtcore_packed_ok(ITEMS, 3 * kind + 0x2ffffff) && !mtcore_packed_ok(ITEMS, 3 * kind + 0x3000000));
}

static void try_names(void) {
    static const uint32_t wide[] = {UINT32_MAX, UINT32_MAX, 0, 0}, far[] = {1, 1, 0, 255};
    HOLDS(strcmp(mtcore_item_name(MODEL, 3), "CHANGE") == 0);
    HOLDS(mtcore_item_name(MODEL, ITEMS)[0] == 0 && mtcore_item_name(MODEL, UINT64_MAX)[0] == 0);
    HOLDS(mtcore_item_name(wide, COUNT(wide), names, sizeof name_texts, 1)[0] == 0);
    HOLDS(mtcore_item_name(far, COUNT(far), names, sizeof name_texts, 0)[0] == 0);
    HOLDS(mtcore_item_name(NULL, 0, NULL, 0, 0)[0] == 0);
}

static void try_rows(void) {
    mtcore_row row, no_row;
    HOLDS(ask("/sample").number == 0 && mtcore_reply_count(reply) == N);
    row = mtcore_reply_row(reply, N - 1);
    no_row = mtcore_reply_row(reply, N);
    HOLDS(row.number == mtcore_reply_last(reply) && row.time == 7 && mtcore_item_of(row.packed) == 2);
    HOLDS(mtcore_reply_row(reply, 0).number == mtcore_reply_first(reply));
    HOLDS(mtcore_reply_next(reply) == mtcore_reply_last(reply) + 1);
    HOLDS(no_row.number == 0 && no_row.time == 0 && no_row.packed == 0);
}

static uint64_t deliver(const mtcore_record *records, size_t records_len, uint64_t *words, size_t words_len) {
    mtcore_answer r = mtcore_observe_batch(MODEL, observations, COUNT(observations), records, records_len, 9, words,
                                           words_len);
    HOLDS(r.count == (r.number == 0 ? records_len : 0));
    return r.number;
}

/* behind the last row of try_rows; what is refused leaves answers and stores */
static void try_batch(void) {
    static mtcore_record many[MTCORE_MAX_BATCH + 1];
    static uint64_t words[MTCORE_MAX_BATCH + 1];
    const mtcore_record records[] = {{1, 5, mtcore_sample(-7)},
                                     {ITEMS, 5, MTCORE_UNAVAILABLE},
                                     {0, 0, mtcore_event(3)},
                                     {1, 6, mtcore_sample(-7)},
                                     {0, 0, mtcore_sample(3)}};
    uint64_t before = mtcore_reply_last(reply);
    words[COUNT(records)] = 1;
    HOLDS(sizeof(mtcore_record) == 3 * sizeof(uint64_t));
    HOLDS(deliver(records, COUNT(records), words, COUNT(records) - 1) == MTCORE_SPACE && words[0] == 0);
    HOLDS(deliver(many, COUNT(many), words, COUNT(words)) == MTCORE_BATCH && words[0] == 0);
    HOLDS(deliver(NULL, 0, NULL, 0) == 0);
    HOLDS(ask("/sample").number == 0 && mtcore_reply_last(reply) == before);
    HOLDS(deliver(records, COUNT(records), words, COUNT(words)) == 0 && words[COUNT(records)] == 1);
    HOLDS(words[0] == before + 1 && mtcore_refusal_of(words[1]) == MTCORE_ITEM && words[2] == before + 2);
    HOLDS(words[3] == MTCORE_SAME && mtcore_refusal_of(words[4]) == MTCORE_KIND);
    HOLDS(ask("/current").number == 0 && mtcore_reply_last(reply) == before + 2);
    HOLDS(row_of(1).time == 5 && mtcore_sample_of(row_of(1).packed) == -7);
    HOLDS(row_of(0).time == 9 && mtcore_code_of(row_of(0).packed) == 3);
    HOLDS(deliver(many, MTCORE_MAX_BATCH, words, MTCORE_MAX_BATCH) == 0);
    HOLDS(words[0] == before + 3 && words[1] == MTCORE_SAME && words[MTCORE_MAX_BATCH - 1] == MTCORE_SAME);
}

/* whether current has these codes of item 2 in this order, each at Warning but for one at Fault, and then item 3 */
static int stands(const uint32_t *codes, size_t count, uint32_t at_fault) {
    uint64_t first, i;
    int right = ask("/current").number == 0;
    first = mtcore_reply_find(reply, 2, 0);
    for (i = 0; i < count; i++) {
        uint64_t packed = mtcore_reply_row(reply, first + i).packed;
        right = right && mtcore_reply_find(reply, 2, first + i) == first + i && mtcore_code_of(packed) == codes[i] &&
                mtcore_level_of(packed) == (codes[i] == at_fault ? MTCORE_FAULT : MTCORE_WARNING);
    }
    return right && mtcore_reply_find(reply, 2, first + i) == mtcore_reply_count(reply) &&
           mtcore_item_of(mtcore_reply_row(reply, first + i).packed) == 3;
}

/* Eight codes stand side by side, 0 among them, and a ninth is refused: until one is cleared, and then it stands behind
 * the others. A level replaces its code's entry in its place. */
static void try_conditions(void) {
    static const uint32_t eight[] = {0, 1, 2, 3, 4, 5, 6, 7}, without[] = {0, 1, 2, 4, 5, 6, 7, 8};
    const uint32_t no_code = UINT32_MAX;
    HOLDS(mtcore_refusal_of(observe(2, MTCORE_UNAVAILABLE)) == 0 && observe(2, MTCORE_UNAVAILABLE) == MTCORE_SAME);
    HOLDS(observe(2, mtcore_condition(MTCORE_NORMAL, 5)) == MTCORE_SAME);
    HOLDS(mtcore_kind_of(packed_of(2)) == MTCORE_VALUE_UNAVAILABLE);
    for (uint32_t code = 0; code < MTCORE_MAX_ACTIVE; code++) {
        HOLDS(mtcore_refusal_of(observe(2, mtcore_condition(MTCORE_WARNING, code))) == 0);
        HOLDS(stands(eight, code + 1, no_code));
    }
    HOLDS(observe(2, mtcore_condition(MTCORE_WARNING, 8)) == MTCORE_REFUSED + MTCORE_CROWDED);
    HOLDS(observe(2, mtcore_condition(MTCORE_WARNING, 3)) == MTCORE_SAME && stands(eight, COUNT(eight), no_code));
    HOLDS(mtcore_reply_count(reply) == MTCORE_CURRENT_ROWS(ITEMS, 1));
    HOLDS(mtcore_refusal_of(observe(2, mtcore_condition(MTCORE_FAULT, 3))) == 0 && stands(eight, COUNT(eight), 3));
    HOLDS(mtcore_refusal_of(observe(2, mtcore_condition(MTCORE_NORMAL, 3))) == 0);
    HOLDS(observe(2, mtcore_condition(MTCORE_NORMAL, 3)) == MTCORE_SAME && stands(without, COUNT(eight) - 1, no_code));
    HOLDS(mtcore_refusal_of(observe(2, mtcore_condition(MTCORE_WARNING, 8))) == 0);
    HOLDS(stands(without, COUNT(eight), no_code));
    HOLDS(mtcore_refusal_of(observe(2, mtcore_condition(MTCORE_NORMAL, 0))) == 0);
    HOLDS(observe(2, mtcore_condition(MTCORE_NORMAL, 0)) == MTCORE_SAME);
    HOLDS(mtcore_level_of(packed_of(2)) == MTCORE_NORMAL && mtcore_reply_count(reply) == ITEMS);
}

/* the refusal of a text that ends with this number, or 0 */
static uint64_t asked(const char *text, uint64_t number) {
    char whole[64];
    snprintf(whole, sizeof whole, "%s%" PRIu64, text, number);
    return ask(whole).number;
}

/* the last number that is accepted and the first that isn't, at both ends; 0 and last + 1 go for `from` alone */
static void try_late_and_early(void) {
    uint64_t first, last;
    HOLDS(ask("/current").number == 0);
    first = mtcore_reply_first(reply);
    last = mtcore_reply_last(reply);
    HOLDS(first > 1 && last == first + N - 1);
    HOLDS(asked("/sample?from=", first - 1) == MTCORE_LATE && asked("/sample?from=", 1) == MTCORE_LATE);
    HOLDS(asked("/sample?from=", 0) == 0 && asked("/sample?from=", first) == 0);
    HOLDS(asked("/sample?from=", last + 1) == 0 && asked("/sample?from=", last + 2) == MTCORE_EARLY);
    HOLDS(asked("/current?at=", first - 1) == MTCORE_LATE && asked("/current?at=", 0) == MTCORE_LATE);
    HOLDS(asked("/current?at=", first) == 0 && asked("/current?at=", last) == 0);
    HOLDS(asked("/current?at=", last + 1) == MTCORE_EARLY);
}

/* right behind start, whose Unavailable of item 4 is number ITEMS: it and every other value counts when equal, where an
 * event item has Same */
static void try_discrete(void) {
    static mtcore_record pulses[MTCORE_MAX_BATCH];
    static uint64_t words[MTCORE_MAX_BATCH];
    uint64_t before = ITEMS + 4;
    size_t counted = 0;
    HOLDS(observe(0, MTCORE_UNAVAILABLE) == MTCORE_SAME && observe(4, MTCORE_UNAVAILABLE) == ITEMS + 1);
    HOLDS(observe(4, mtcore_event(1)) == ITEMS + 2 && observe(4, mtcore_event(1)) == ITEMS + 3);
    HOLDS(observe(4, mtcore_event(UINT32_MAX)) == before && mtcore_code_of(packed_of(4)) == UINT32_MAX);
    HOLDS(mtcore_refusal_of(observe(4, mtcore_sample(1))) == MTCORE_KIND);
    HOLDS(mtcore_refusal_of(observe(4, mtcore_condition(MTCORE_NORMAL, 0))) == MTCORE_KIND);
    for (size_t i = 0; i < COUNT(pulses); i++) {
        pulses[i].item = 4;
        pulses[i].value = mtcore_event(1);
    }
    HOLDS(deliver(pulses, COUNT(pulses), words, COUNT(words)) == 0);
    while (counted < COUNT(words) && words[counted] == before + 1 + counted)
        counted++;
    HOLDS(counted == COUNT(words) && mtcore_code_of(packed_of(4)) == 1);
    HOLDS(row_of(4).number == before + counted && row_of(4).time == 9);
}

static uint64_t read_line(const char *line) {
    return mtcore_read_line(MODEL, observations, COUNT(observations), (const uint8_t *)line, strlen(line), 11);
}

/* whether the line of an observation is this, fills its room, and has none in a byte less */
static int writes(uint64_t item, uint64_t time, uint64_t value, const char *line) {
    uint8_t text[MTCORE_LINE_BYTES + 1];
    size_t length = strlen(line), room;
    int right = 1;
    for (room = 0; room <= sizeof text; room++) {
        mtcore_answer r;
        size_t kept = room < length ? 0 : length;
        memset(text, '#', sizeof text);
        r = mtcore_write_line(MODEL, item, time, value, text, room);
        right = right && r.number == (room < length ? (uint64_t)MTCORE_SPACE : 0) && r.count == kept;
        right = right && memcmp(text, line, kept) == 0;
        for (; kept < sizeof text; kept++)
            right = right && text[kept] == '#';
    }
    return right;
}

/* the refusal of a line, or 0; with this room nothing else is short */
static uint64_t written(uint64_t item, uint64_t time, uint64_t value) {
    uint8_t text[MTCORE_LINE_BYTES];
    return mtcore_write_line(MODEL, item, time, value, text, sizeof text).number;
}

static void try_written_lines(void) {
    const uint64_t widest = mtcore_condition(MTCORE_WARNING, 0xffffff);
    HOLDS(writes(1, 0, mtcore_sample(5000), "|1|5") && writes(4, 0, MTCORE_UNAVAILABLE, "|4|UNAVAILABLE"));
    HOLDS(writes(1, 1, mtcore_sample(-1), "1970-01-01T00:00:00.001Z|1|-0.001"));
    HOLDS(writes(1, MTCORE_MAX_STAMP, mtcore_sample(INT32_MIN), "2099-12-31T23:59:59.999Z|1|-2147483.648"));
    HOLDS(writes(2, MTCORE_MAX_STAMP, widest, "2099-12-31T23:59:59.999Z|2|WARNING:16777215"));
    HOLDS(writes(0, 0, mtcore_event(UINT32_MAX), "|0|4294967295"));
    HOLDS(written(2, MTCORE_MAX_STAMP + 1, widest) == MTCORE_STAMP && written(2, UINT64_MAX, widest) == MTCORE_STAMP);
    HOLDS(written(1, MTCORE_MAX_STAMP + 1, widest) == MTCORE_KIND && written(3, 0, MTCORE_UNAVAILABLE) == MTCORE_KIND);
    HOLDS(written(ITEMS, MTCORE_MAX_STAMP + 1, widest) == MTCORE_ITEM);
}

/* the longest line that there is: of item 63, the last that a model can have */
static void try_longest_line(void) {
    static uint32_t wide[2 + 1 + 64];
    uint8_t text[MTCORE_LINE_BYTES];
    size_t item;
    mtcore_answer r;
    wide[0] = 1;
    wide[1] = 64;
    for (item = 0; item < 64; item++)
        wide[3 + item] = MTCORE_DATA_ITEM(MTCORE_CATEGORY_CONDITION, 0, 3);
    r = mtcore_write_line(wide, COUNT(wide), names, sizeof name_texts, 63, MTCORE_MAX_STAMP,
                          mtcore_condition(MTCORE_WARNING, 0xffffff), text, sizeof text);
    HOLDS(r.number == 0 && r.count == MTCORE_LINE_BYTES);
}

/* what is refused leaves the store; time 0 is the host's, which is 11 here */
static void try_read_lines(void) {
    static const char longest[] = "2099-12-31T23:59:59.999Z|0000000002|WARNING:0000000007";
    static uint64_t kept[COUNT(observations)];
    char longer[sizeof longest + 1];
    snprintf(longer, sizeof longer, "%s0", longest);
    memcpy(kept, observations, sizeof kept);
    HOLDS(read_line("") == MTCORE_REFUSED + MTCORE_LINE && read_line("|1|5.") == MTCORE_REFUSED + MTCORE_LINE);
    HOLDS(read_line("|1|5\r") == MTCORE_REFUSED + MTCORE_LINE && read_line("|1|5\n") == MTCORE_REFUSED + MTCORE_LINE);
    HOLDS(strlen(longer) == MTCORE_MAX_LINE + 1 && read_line(longer) == MTCORE_REFUSED + MTCORE_LINE);
    HOLDS(read_line("2026-02-30T06:00:00.000Z|9|5") == MTCORE_REFUSED + MTCORE_STAMP);
    HOLDS(read_line("2100-01-01T00:00:00.000Z|1|5") == MTCORE_REFUSED + MTCORE_STAMP);
    HOLDS(read_line("|9|5") == MTCORE_REFUSED + MTCORE_ITEM && read_line("|0|-5") == MTCORE_REFUSED + MTCORE_KIND);
    HOLDS(memcmp(kept, observations, sizeof kept) == 0);
    HOLDS(strlen(longest) == MTCORE_MAX_LINE && mtcore_refusal_of(read_line(longest)) == 0);
    HOLDS(row_of(2).time == MTCORE_MAX_STAMP && mtcore_code_of(row_of(2).packed) == 7);
    HOLDS(mtcore_refusal_of(read_line("|1|-0.5")) == 0 && mtcore_sample_of(packed_of(1)) == -500);
    HOLDS(row_of(1).time == 11 && read_line("|1|-0.500") == MTCORE_SAME);
    HOLDS(mtcore_refusal_of(read_line("1970-01-01T00:00:00.000Z|1|2")) == 0 && row_of(1).time == 11);
    HOLDS(mtcore_refusal_of(read_line("1970-01-01T00:00:00.001Z|1|3")) == 0 && row_of(1).time == 1);
    HOLDS(mtcore_refusal_of(read_line("2099-12-31T23:59:59.999Z|4|3")) == 0 && row_of(4).time == MTCORE_MAX_STAMP);
}

static uint8_t text[MTCORE_STREAMS_BYTES(1, MTCORE_CURRENT_ROWS(ITEMS, 1))];

/* the document of a reply, in so many bytes of the text; all behind them, and all where it is refused, stays */
static mtcore_answer streams(const uint64_t *words, size_t words_len, uint64_t time, size_t room) {
    mtcore_answer r;
    size_t kept;
    memset(text, '#', sizeof text);
    r = mtcore_streams(MODEL, words, words_len, N, 1, time, text, room);
    HOLDS(r.count <= room && (r.number == 0 || r.count == 0));
    for (kept = (size_t)r.count; kept < sizeof text && text[kept] == '#'; kept++)
        ;
    HOLDS(kept == sizeof text);
    return r;
}

static int has(const char *part) {
    size_t length = strlen(part), at;
    for (at = 0; at + length <= sizeof text; at++)
        if (memcmp(text + at, part, length) == 0)
            return 1;
    return 0;
}

/* behind try_read_lines: the refusals in their order, each of them with all that come behind it */
static void try_streams(void) {
    const uint64_t late = MTCORE_MAX_STAMP + 1;
    uint64_t wrong[MTCORE_REPLY_WORDS(ITEMS)];
    uint64_t k = ask("/current").count;
    size_t words = MTCORE_REPLY_WORDS(k), bytes = (size_t)streams(reply, words, 0, sizeof text).count;
    HOLDS(k == ITEMS && bytes > 0 && bytes <= MTCORE_STREAMS_BYTES(1, k));
    HOLDS(has("<Header creationTime=\"1970-01-01T00:00:00.000Z\" sender=\"box\" instanceId=\"1\" bufferSize=\"4\" "));
    HOLDS(has("<Pulse dataItemId=\"i4\" ") && has(" timestamp=\"2099-12-31T23:59:59.999Z\">3</Pulse>\n"));
    HOLDS(has("<Warning dataItemId=\"i2\" ") && has(" type=\"CONDITION\" nativeCode=\"7\"/>\n"));
    HOLDS(streams(reply, words, MTCORE_MAX_STAMP, bytes).number == 0);
    HOLDS(streams(reply, words, 0, bytes - 1).number == MTCORE_SPACE);
    HOLDS(mtcore_streams(MODEL, reply, words, N, 1, 0, NULL, 0).number == MTCORE_SPACE);
    HOLDS(streams(reply, words, late, 0).number == MTCORE_STAMP);
    HOLDS(streams(reply, words - 1, late, 0).number == MTCORE_STORE);
    HOLDS(streams(NULL, 0, late, 0).number == MTCORE_STORE);
    HOLDS(mtcore_streams(model, 1, names, 0, NULL, 0, N, 1, late, NULL, 0).number == MTCORE_MODEL);
    memcpy(wrong, reply, sizeof wrong);
    wrong[words - 2] = late;
    HOLDS(streams(wrong, words, 0, 0).number == MTCORE_STAMP);
    wrong[words - 1] = (uint64_t)ITEMS << MTCORE_ITEM_BIT;
    HOLDS(streams(wrong, words, late, 0).number == MTCORE_STORE);
    wrong[0] = UINT64_MAX;
    HOLDS(streams(wrong, words, 0, 0).number == MTCORE_STORE);
    HOLDS(asked("/sample?from=", mtcore_reply_next(reply)) == 0 && streams(reply, 4, 0, sizeof text).number == 0);
    HOLDS(has("\n<Streams/>\n</MTConnectStreams>\n#"));
}

enum { WIDE = 21, SAMPLES = 1000, LONGEST = 3 * WIDE + SAMPLES };

/* A document whose every part is as long as it can be: components with a row of each of their three items, and samples
 * of the last of them. What is left to the bound is that an index or an item below 10 has one digit, and that an event
 * has a byte less than a sample, and a condition three. */
static void try_longest_document(void) {
    static const char long_name[MTCORE_NAME + 1] = "0abcdefghijklmnopqrstuvw";
    static uint32_t wide[2 + WIDE + 3 * WIDE] = {WIDE, 3 * WIDE};
    static uint64_t rows[MTCORE_REPLY_WORDS(LONGEST)];
    static uint8_t document[MTCORE_STREAMS_BYTES(WIDE, LONGEST)];
    const uint64_t longest[] = {mtcore_sample(INT32_MIN), MTCORE_UNAVAILABLE,
                                mtcore_condition(MTCORE_WARNING, 0xffffff)};
    static const uint32_t categories[] = {MTCORE_CATEGORY_SAMPLE, MTCORE_CATEGORY_EVENT, MTCORE_CATEGORY_CONDITION};
    uint64_t i;
    mtcore_answer r;
    for (i = 0; i < 3 * WIDE; i++)
        wide[2 + WIDE + i] = MTCORE_DATA_ITEM(categories[i % 3], i / 3, 0);
    memset(rows, 255, sizeof rows);
    rows[0] = LONGEST;
    for (i = 0; i < LONGEST; i++) {
        uint64_t item = i < 3 * WIDE ? i : 3 * WIDE - 3;
        rows[MTCORE_REPLY_HEAD + LONGEST + 2 * i] = MTCORE_MAX_STAMP;
        rows[MTCORE_REPLY_HEAD + LONGEST + 2 * i + 1] = (item << MTCORE_ITEM_BIT) + longest[item % 3];
    }
    r = mtcore_streams(wide, COUNT(wide), (const uint8_t *)long_name, MTCORE_NAME, rows, COUNT(rows), UINT64_MAX,
                       UINT64_MAX, MTCORE_MAX_STAMP, document, sizeof document);
    HOLDS(r.number == 0 && r.count + 10 + 10 + WIDE * (1 + 3) == sizeof document);
}

/* how start answers a model of two items of these categories, and no stores */
static uint64_t start_with(uint32_t one, uint32_t other) {
    const uint32_t two[] = {1, 2, MTCORE_COMPONENT(0, 0), MTCORE_DATA_ITEM(one, 0, 1), MTCORE_DATA_ITEM(other, 0, 2)};
    return mtcore_start(two, COUNT(two), names, sizeof name_texts, NULL, 0, NULL, 0, N, A, 1, 6).number;
}

static void try_categories(void) {
    for (uint32_t category = 0; category <= MTCORE_CATEGORY_DISCRETE; category++) {
        int twice = category != MTCORE_CATEGORY_ASSET_CHANGE;
        HOLDS(start_with(category, category) == (twice ? MTCORE_SIZE : MTCORE_MODEL));
        HOLDS(start_with(category, MTCORE_CATEGORY_DISCRETE) == MTCORE_SIZE);
    }
    HOLDS(start_with(MTCORE_CATEGORY_DISCRETE, MTCORE_CATEGORY_DISCRETE + 1) == MTCORE_MODEL);
}

static void try_cells(void) {
    HOLDS(none(mtcore_cell_id(ASSETS, 0)) && none(mtcore_cell_body(ASSETS, 0)));
    HOLDS(store("T1", "drill") == 0 && store("T2345678901234567890123456789012", "tap") == 1);
    HOLDS(is(mtcore_cell_id(ASSETS, 0), "T1") && is(mtcore_cell_body(ASSETS, 0), "drill"));
    HOLDS(is(mtcore_cell_id(ASSETS, 1), "T2345678901234567890123456789012") &&
          is(mtcore_cell_body(ASSETS, 1), "tap"));
    HOLDS(none(mtcore_cell_id(ASSETS, 2)) && none(mtcore_cell_body(ASSETS, UINT64_MAX)));
    HOLDS(ask("/assets").number == 0 && mtcore_reply_count(reply) == 2);
    HOLDS(mtcore_reply_used(reply) == 2 && mtcore_reply_cells(reply) == A);
    HOLDS(mtcore_reply_asset(reply, 0).cell == 1 && mtcore_reply_asset(reply, 0).length == 3);
    HOLDS(none(mtcore_cell_id(ASSETS, mtcore_reply_asset(reply, 2).cell)));
    HOLDS(mtcore_code_of(packed_of(3)) == 1);
    HOLDS(mtcore_body(ASSETS, (const uint8_t *)"T1", 2).start ==
          (uint64_t)(mtcore_cell_body(ASSETS, 0).bytes - assets));
}

static const uint32_t one_item[] = {1, 1, MTCORE_COMPONENT(0, 0),
                                    MTCORE_DATA_ITEM(MTCORE_CATEGORY_CONDITION, 0, 3)};
#define ONE_ITEM one_item, COUNT(one_item), names, sizeof name_texts

static uint64_t ask_one(const uint64_t *words, size_t words_len, const char *text) {
    return mtcore_request(ONE_ITEM, words, words_len, ASSETS, (const uint8_t *)text, strlen(text), reply, COUNT(reply))
        .number;
}

/* Stores as layout 1 had them, the observations with six words for each item and 90 as their last number: a call
 * refuses them for their length. A start behind that number makes new ones, and each tool is stored again, the oldest
 * first. A client that was level goes on, and one that was behind is late. */
static void try_layout_one(void) {
    static uint64_t old_words[4 + 2 * N + 6], new_words[MTCORE_OBSERVATION_WORDS(N, 1)];
    static uint8_t old_assets[sizeof assets];
    const uint64_t head[] = {N, 1, 1, 90};
    memcpy(old_words, head, sizeof head);
    memcpy(old_assets, assets, sizeof assets);
    HOLDS(ask_one(old_words, COUNT(old_words), "/current") == MTCORE_STORE);
    HOLDS(mtcore_start(ONE_ITEM, new_words, COUNT(new_words), ASSETS, N, A, old_words[3] + 1, 6).number == 0);
    HOLDS(none(mtcore_cell_id(ASSETS, 0)));
    for (uint64_t cell = 0; mtcore_cell_used(old_assets, sizeof old_assets, cell); cell++) {
        mtcore_bytes id = mtcore_cell_id(old_assets, sizeof old_assets, cell);
        mtcore_bytes body = mtcore_cell_body(old_assets, sizeof old_assets, cell);
        HOLDS(mtcore_store_asset(ONE_ITEM, new_words, COUNT(new_words), ASSETS, id.bytes, id.length, body.bytes,
                                 body.length, 6) == cell);
    }
    HOLDS(memcmp(old_assets, assets, sizeof assets) == 0);
    HOLDS(ask_one(new_words, COUNT(new_words), "/sample?from=91") == 0 && mtcore_reply_row(reply, 0).number == 91);
    HOLDS(ask_one(new_words, COUNT(new_words), "/sample?from=90") == MTCORE_LATE);
}

/* stores that a call would refuse */
static void try_damaged_cells(void) {
    HOLDS(none(mtcore_cell_id(NULL, 0, 0)) && none(mtcore_cell_body(assets, sizeof assets - 1, 0)));
    assets[MTCORE_BODY_PLACE(A, 0)] = 2;
    HOLDS(none(mtcore_cell_body(ASSETS, 0)));
    assets[MTCORE_BODY_PLACE(A, 0)] = 0;
    assets[MTCORE_BODY_PLACE(A, 0) + 1] = 0;
    HOLDS(none(mtcore_cell_body(ASSETS, 0)));
    assets[MTCORE_ID_PLACE(0)] = 0;
    HOLDS(none(mtcore_cell_id(ASSETS, 0)));
    assets[1] = A + 1;
    HOLDS(none(mtcore_cell_id(ASSETS, 1)) && none(mtcore_cell_body(ASSETS, 1)));
}

static void try_words(void) {
    HOLDS(mtcore_sample_words(MTCORE_MAX_N, MTCORE_MAX_N) * sizeof(uint64_t) == 3145760);
    HOLDS(mtcore_sample_words(1000, 0) == 304 && mtcore_sample_words(50, 0) == 154);
    HOLDS(mtcore_sample_words(1000, UINT64_MAX) == 3004 && mtcore_sample_words(1000, 7) == 25);
    HOLDS(mtcore_current_words(64) == 1540 && mtcore_current_words(0) == 4);
    HOLDS(MTCORE_REPLY_WORDS(MTCORE_CURRENT_ROWS(64, 64)) == 1540 && MTCORE_CURRENT_ROWS(64, 5) == 99);
    HOLDS(MTCORE_OBSERVATION_WORDS(MTCORE_MAX_N, 64) * sizeof(uint64_t) == 2121760);
    HOLDS(MTCORE_OBSERVATION_WORDS(3, 2) == 106);
    HOLDS(mtcore_assets_words(128) == 260 && mtcore_assets_words(3) == 254);
    HOLDS(MTCORE_STREAMS_BYTES(64, MTCORE_MAX_N) == 20197679 && MTCORE_STREAMS_BYTES(8, 100) == 17407);
}

int main(void) {
    mtcore_answer r = mtcore_start(MODEL, observations, COUNT(observations), ASSETS, N, A, 1, 6);
    HOLDS(r.number == 0 && r.count == 0);
    try_categories();
    try_discrete();
    try_refusals();
    try_values();
    try_packed_ok();
    try_names();
    try_rows();
    try_batch();
    try_conditions();
    try_late_and_early();
    try_written_lines();
    try_longest_line();
    try_read_lines();
    try_streams();
    try_longest_document();
    try_cells();
    try_layout_one();
    try_damaged_cells();
    try_words();
    if (failed == 0)
        printf("%u trials of the header's helpers\n", trials);
    return failed == 0 ? 0 : 1;
}
