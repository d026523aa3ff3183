/* A shift of a mill, replayed in a second: 06:00 to 14:00, a ring of 1,000, a scan every ten seconds that goes to the
 * core as one delivery, a pulse for each part, two alarms at once, a tool changed, and three clients that poll at their
 * own pace, one of them asleep until it is late. Prints the shift's page. Everything that the core delivers is compared
 * with a log of the whole shift, which a box doesn't have. */
#include <inttypes.h>
#include <stdio.h>
#include <string.h>

#include "mtcore.h"

/* ---- the mill ---- */

enum component { DEVICE, AXES, LINEAR, ROTARY, CONTROLLER, PATH, COOLANT, COMPONENTS };

enum item {
    AVAILABILITY,
    POSITION,
    SPINDLE_SPEED,
    LOAD,
    EXECUTION,
    PROGRAM,
    PART_COUNT,
    SYSTEM,
    POWER_STATE,
    ASSET_CHANGED,
    ITEMS
};

enum { NO_SUCH_ITEM = ITEMS };

/* types of the components, then of the items, each in the order above */
static const uint8_t names[COMPONENTS + ITEMS][MTCORE_NAME] = {
    "Device",  "Axes",         "Linear",   "Rotary",        "Controller",   "Path",
    "Coolant", "AVAILABILITY", "POSITION", "SPINDLE_SPEED", "LOAD",         "EXECUTION",
    "PROGRAM", "PART_COUNT",   "SYSTEM",   "POWER_STATE",   "ASSET_CHANGED"};

#define COMPONENT(parent, self) MTCORE_COMPONENT(parent, self)
#define ITEM(category, component, self) MTCORE_DATA_ITEM(MTCORE_CATEGORY_##category, component, COMPONENTS + (self))

static const uint32_t model[] = {
    COMPONENTS,
    ITEMS,
    COMPONENT(DEVICE, DEVICE),
    COMPONENT(DEVICE, AXES),
    COMPONENT(AXES, LINEAR),
    COMPONENT(AXES, ROTARY),
    COMPONENT(DEVICE, CONTROLLER),
    COMPONENT(CONTROLLER, PATH),
    COMPONENT(DEVICE, COOLANT),
    ITEM(EVENT, DEVICE, AVAILABILITY),
    ITEM(SAMPLE, LINEAR, POSITION),
    ITEM(SAMPLE, ROTARY, SPINDLE_SPEED),
    ITEM(SAMPLE, ROTARY, LOAD),
    ITEM(EVENT, PATH, EXECUTION),
    ITEM(EVENT, PATH, PROGRAM),
    ITEM(DISCRETE, PATH, PART_COUNT),
    ITEM(CONDITION, CONTROLLER, SYSTEM),
    ITEM(EVENT, COOLANT, POWER_STATE),
    ITEM(ASSET_CHANGE, DEVICE, ASSET_CHANGED),
};

static const char *const units[ITEMS] = {"", "mm", "rpm", "%", "", "", "", "", "", ""};

/* what the codes of events mean: the core stores codes, the texts are the host's */
enum execution { READY, ACTIVE, INTERRUPTED, STOPPED, EXECUTIONS };
static const char *const executions[EXECUTIONS] = {"READY", "ACTIVE", "INTERRUPTED", "STOPPED"};
static const char *const programs[] = {"O1001 FLANGE", "O1002 COVER"};
static const char *const switches[] = {"OFF", "ON"};
static const char *const availabilities[] = {"UNAVAILABLE", "AVAILABLE"};
static const char *const levels[] = {"Normal", "Warning", "Fault"};

#define COUNT(x) (sizeof(x) / sizeof((x)[0]))

/* ---- the box ---- */

enum { N = 1000, A = 4, LOG = 10000, SECOND = 1000, MINUTE = 60 * SECOND, HOUR = 60 * MINUTE, STEP = 10 * SECOND };

/* the most readings of a scan: of every item but the asset change's, and of one that the model doesn't have */
enum { SCAN = ITEMS };

static uint64_t observations[MTCORE_OBSERVATION_WORDS(N, ITEMS)];
static uint8_t assets[MTCORE_ASSET_BYTES(A)];
static uint64_t reply[MTCORE_REPLY_WORDS(N)];

/* what a scan has found so far, and room for the words that it is answered with */
static struct {
    mtcore_record records[SCAN];
    uint64_t words[SCAN];
    size_t length;
} scan;

#define MODEL model, COUNT(model), names[0], sizeof names
#define OBSERVATIONS observations, COUNT(observations)
#define ASSETS assets, sizeof assets

/* 2026-09-14T06:00:00Z; below, times are milliseconds of the shift */
static const uint64_t six = UINT64_C(1789365600000);
static const uint64_t end_of_shift = 8 * (uint64_t)HOUR;

/* everything recorded, by its number */
static struct {
    uint64_t time, item, value;
} shift_log[LOG];
static uint64_t last;

static struct {
    unsigned readings, recorded, same, refused, refusal;
} adapter;

static int faults_found;

static int agreed(int holds) {
    if (!holds)
        faults_found++;
    return holds;
}

static void log_next(uint64_t time, uint64_t item, uint64_t value) {
    last++;
    if (agreed(last < LOG)) {
        shift_log[last].time = six + time;
        shift_log[last].item = item;
        shift_log[last].value = value;
    }
}

static void start(void) {
    mtcore_answer r = mtcore_start(MODEL, OBSERVATIONS, ASSETS, N, A, 1, six);
    agreed(r.number == 0);
    for (uint64_t item = 0; item < ITEMS; item++)
        log_next(0, item, MTCORE_UNAVAILABLE);
}

static void found(uint64_t time, uint64_t item, uint64_t value) {
    if (!agreed(scan.length < SCAN))
        return;
    scan.records[scan.length].item = item;
    scan.records[scan.length].time = six + time;
    scan.records[scan.length].value = value;
    scan.length++;
}

/* one record's word: a refused record is the adapter's fault, and the others were recorded all the same */
static void take_word(uint64_t time, mtcore_record record, uint64_t word) {
    adapter.readings++;
    if (mtcore_refusal_of(word) != 0) {
        adapter.refused++;
        adapter.refusal = mtcore_refusal_of(word);
    } else if (word == MTCORE_SAME) {
        adapter.same++;
    } else {
        adapter.recorded++;
        log_next(time, record.item, record.value);
        agreed(word == last);
    }
}

/* what the scan found goes to the core in one call */
static void deliver(uint64_t time) {
    mtcore_answer r = mtcore_observe_batch(MODEL, OBSERVATIONS, scan.records, scan.length, six + time, scan.words,
                                           COUNT(scan.words));
    if (agreed(r.number == 0 && r.count == scan.length))
        for (size_t i = 0; i < scan.length; i++)
            take_word(time, scan.records[i], scan.words[i]);
    scan.length = 0;
}

/* gives the cell */
static uint64_t store(uint64_t time, const char *id, const char *body) {
    uint64_t cell = mtcore_store_asset(MODEL, OBSERVATIONS, ASSETS, (const uint8_t *)id, strlen(id),
                                       (const uint8_t *)body, strlen(body), six + time);
    agreed(mtcore_refusal_of(cell) == 0);
    log_next(time, ASSET_CHANGED, mtcore_event((uint32_t)cell));
    return cell;
}

static mtcore_answer ask(const char *text) {
    return mtcore_request(MODEL, OBSERVATIONS, ASSETS, (const uint8_t *)text, strlen(text), reply, COUNT(reply));
}

/* ---- what the mill does: one step every ten seconds, from a fixed generator ---- */

static const uint64_t worn = 3 * (uint64_t)HOUR + 20 * MINUTE;
static const uint64_t stuck = 3 * (uint64_t)HOUR + 35 * MINUTE;
static const uint64_t changed = 3 * (uint64_t)HOUR + 40 * MINUTE;
static const uint64_t pause_from = 4 * (uint64_t)HOUR + 30 * MINUTE;
static const uint64_t pause_end = 4 * (uint64_t)HOUR + 50 * MINUTE;
static const uint64_t second_program = 5 * (uint64_t)HOUR;

static uint32_t below(uint32_t bound) {
    static uint32_t state = 2026;
    state = state * UINT32_C(1664525) + UINT32_C(1013904223);
    return state / 65536 % bound;
}

static enum execution execution_at(uint64_t time) {
    if (time >= stuck && time < changed)
        return INTERRUPTED;
    if (time >= pause_from && time < pause_end)
        return STOPPED;
    return time % (6 * MINUTE) < 5 * MINUTE ? ACTIVE : READY;
}

/* what the controller reports: the newest alarm while one stands, and Normal 0 once all are reset. So the warning of
 * the worn tool stands on beside the fault, since nothing has cleared it. */
static uint64_t system_at(uint64_t time) {
    if (time >= stuck && time < changed)
        return mtcore_condition(MTCORE_FAULT, 504);
    return time >= worn && time < stuck ? mtcore_condition(MTCORE_WARNING, 41) : mtcore_condition(MTCORE_NORMAL, 0);
}

static void read_axes(uint64_t time, int moves) {
    found(time, POSITION, mtcore_sample(moves ? (int32_t)below(400000) - 200000 : 0));
    found(time, SPINDLE_SPEED, mtcore_sample(moves ? 8000000 + 5000 * (int32_t)below(3) : 0));
    found(time, LOAD, mtcore_sample(moves ? 40000 + 500 * (int32_t)below(3) + (int32_t)(time / HOUR) * 2500 : 0));
}

static unsigned parts_made;

/* the part counter's pulse: only where a part is done, since each one counts, although all have the code 1 */
static void read_pulse(uint64_t time, enum execution now) {
    if (time > 0 && execution_at(time - STEP) == ACTIVE && now == READY) {
        parts_made++;
        found(time, PART_COUNT, mtcore_event(1));
    }
}

static void step(uint64_t time) {
    enum execution now = execution_at(time);
    found(time, AVAILABILITY, mtcore_event(1));
    found(time, POWER_STATE, mtcore_event(1));
    if (time == end_of_shift)
        found(time, NO_SUCH_ITEM, MTCORE_UNAVAILABLE);
    found(time, PROGRAM, mtcore_event(time < second_program ? 0 : 1));
    found(time, EXECUTION, mtcore_event(now));
    found(time, SYSTEM, system_at(time));
    read_pulse(time, now);
    read_axes(time, now == ACTIVE);
    deliver(time);
}

/* ---- clients ---- */

struct client {
    const char *name, *path;
    uint64_t every, count;
    uint64_t sleeps, wakes; /* both 0: never */
    uint8_t wants[ITEMS];   /* what the path selects, as this program has it */
    uint64_t begin, next;
    uint64_t lost_from, lost_end, first_then; /* numbers that were gone when it woke, and the oldest that was not */
    unsigned polls, empty, rows, late;
    uint8_t got[LOG];
};

static struct client clients[] = {
    {.name = "dashboard", .path = "", .every = MINUTE, .count = 100, .wants = {1, 1, 1, 1, 1, 1, 1, 1, 1, 1}},
    {.name = "part log",
     .path = "//Path//DataItem[@type=\"PART_COUNT\"]",
     .every = 10 * MINUTE,
     .count = 100,
     .wants = {[PART_COUNT] = 1}},
    {.name = "laptop",
     .path = "//Axes",
     .every = 15 * MINUTE,
     .count = N,
     .sleeps = 2 * HOUR,
     .wakes = 5 * HOUR + 30 * MINUTE,
     .wants = {[POSITION] = 1, [SPINDLE_SPEED] = 1, [LOAD] = 1}},
};

enum { DASHBOARD, PART_LOG, LAPTOP };

static struct {
    uint64_t since, in[EXECUTIONS];
    enum execution now;
    unsigned warnings, faults, parts, tools;
    char tool[80]; /* the newest one that changed */
} seen = {.now = EXECUTIONS};

static void spend(uint64_t until) {
    if (seen.now < EXECUTIONS)
        seen.in[seen.now] += until - seen.since;
    seen.since = until;
}

/* a cell means its tool until the next one is stored: it is looked up when the event comes */
static void see_tool(uint64_t packed) {
    uint32_t cell = mtcore_code_of(packed);
    mtcore_bytes id = mtcore_cell_id(ASSETS, cell), body = mtcore_cell_body(ASSETS, cell);
    if (mtcore_kind_of(packed) != MTCORE_VALUE_EVENT || !agreed(id.bytes != NULL && body.bytes != NULL))
        return;
    seen.tools++;
    snprintf(seen.tool, sizeof seen.tool, "%.*s (%.*s)", (int)id.length, (const char *)id.bytes, (int)body.length,
             (const char *)body.bytes);
}

/* the dashboard adds the shift up from its rows */
static void add_up(mtcore_row row) {
    uint32_t code = mtcore_code_of(row.packed);
    switch (mtcore_item_of(row.packed)) {
    case EXECUTION:
        spend(row.time - six);
        seen.now = EXECUTIONS;
        if (mtcore_kind_of(row.packed) == MTCORE_VALUE_EVENT && code < EXECUTIONS)
            seen.now = (enum execution)code;
        break;
    case PART_COUNT: seen.parts += code; break;
    case ASSET_CHANGED: see_tool(row.packed); break;
    case SYSTEM:
        seen.warnings += mtcore_level_of(row.packed) == MTCORE_WARNING;
        seen.faults += mtcore_level_of(row.packed) == MTCORE_FAULT;
        break;
    default: break;
    }
}

static int is_logged(mtcore_row row) {
    return row.number >= 1 && row.number <= last && row.time == shift_log[row.number].time &&
           mtcore_item_of(row.packed) == shift_log[row.number].item &&
           mtcore_value_of(row.packed) == shift_log[row.number].value;
}

static void take_rows(struct client *c) {
    for (uint64_t i = 0; i < mtcore_reply_count(reply); i++) {
        mtcore_row row = mtcore_reply_row(reply, i);
        c->rows++;
        if (agreed(mtcore_packed_ok(ITEMS, row.packed) && is_logged(row)))
            c->got[row.number]++;
        if (c == &clients[DASHBOARD])
            add_up(row);
    }
}

/* the state of the machine, and the number to go on from */
static void take_current(struct client *c) {
    char text[MTCORE_MAX_TEXT + 1];
    snprintf(text, sizeof text, "/current%s%s", c->path[0] != 0 ? "?path=" : "", c->path);
    if (agreed(ask(text).number == 0))
        c->next = mtcore_reply_next(reply);
}

static void recover(struct client *c) {
    uint64_t missed = c->next;
    c->late++;
    take_current(c);
    c->lost_from = missed;
    c->lost_end = c->next;
    c->first_then = mtcore_reply_first(reply);
    agreed(missed < c->first_then);
}

/* Until the client is level. A count limits the numbers considered, so with a path a poll may bring no row and
 * still move on. Only late is a client's to mend; early would be a fault of this program, as every other refusal. */
static void poll(struct client *c) {
    char text[MTCORE_MAX_TEXT + 1];
    do {
        snprintf(text, sizeof text, "/sample?from=%" PRIu64 "&count=%" PRIu64 "%s%s", c->next, c->count,
                 c->path[0] != 0 ? "&path=" : "", c->path);
        mtcore_answer r = ask(text);
        c->polls++;
        if (r.number == MTCORE_LATE) {
            recover(c);
        } else if (agreed(r.number == 0)) {
            take_rows(c);
            c->empty += r.count == 0;
            c->next = mtcore_reply_next(reply);
        } else {
            return;
        }
    } while (c->next <= last);
}

static void poll_due(uint64_t time) {
    for (size_t i = 0; i < COUNT(clients); i++) {
        int asleep = time > clients[i].sleeps && time < clients[i].wakes;
        if (time > 0 && time % clients[i].every == 0 && !asleep)
            poll(&clients[i]);
    }
}

/* each number from begin to next: delivered once if it matches and was not lost, and otherwise not at all */
static int each_once(const struct client *c) {
    int right = 1;
    for (uint64_t s = c->begin; s < c->next; s++) {
        int lost = s >= c->lost_from && s < c->lost_end;
        right = right && c->got[s] == (c->wants[shift_log[s].item] && !lost);
    }
    return agreed(right);
}

/* ---- the page ---- */

/* hh:mm:ss of the shift's day */
static const char *clock_of(uint64_t time) {
    static char texts[4][16];
    static unsigned turn;
    char *text = texts[turn++ % COUNT(texts)];
    unsigned seconds = (unsigned)(time / SECOND) + 6 * 3600;
    snprintf(text, sizeof texts[0], "%02u:%02u:%02u", seconds / 3600, seconds / 60 % 60, seconds % 60);
    return text;
}

static const char *word(const char *const *words, size_t count, uint32_t code) {
    return code < count ? words[code] : "?";
}

static void print_event(uint64_t item, uint32_t code) {
    switch (item) {
    case AVAILABILITY: printf("%s", word(availabilities, COUNT(availabilities), code)); break;
    case EXECUTION: printf("%s", word(executions, COUNT(executions), code)); break;
    case PROGRAM: printf("%s", word(programs, COUNT(programs), code)); break;
    case POWER_STATE: printf("%s", word(switches, COUNT(switches), code)); break;
    case PART_COUNT: printf("%" PRIu32 " part", code); break;
    case ASSET_CHANGED: printf("cell %" PRIu32, code); break;
    default: printf("%" PRIu32, code); break;
    }
}

static void print_value(uint64_t packed) {
    uint64_t item = mtcore_item_of(packed);
    switch (mtcore_kind_of(packed)) {
    case MTCORE_VALUE_UNAVAILABLE: printf("UNAVAILABLE"); break;
    case MTCORE_VALUE_SAMPLE: printf("%.3f %s", mtcore_sample_of(packed) / 1000.0, units[item]); break;
    case MTCORE_VALUE_EVENT: print_event(item, mtcore_code_of(packed)); break;
    default: printf("%s %" PRIu32, levels[mtcore_level_of(packed)], mtcore_code_of(packed)); break;
    }
}

static const char *yes(int holds) {
    return holds ? "yes" : "NO";
}

static void print_hours(const char *what, uint64_t time) {
    printf("%s %u h %02u min", what, (unsigned)(time / HOUR), (unsigned)(time / MINUTE % 60));
}

static void print_summary(void) {
    agreed(ask("/current").number == 0);
    printf("MILL, 14 SEPTEMBER 2026, SHIFT OF 06:00 TO 14:00\n\n");
    printf("Readings    %u: %u recorded, %u the same as before, %u refused (refusal %u)\n", adapter.readings,
           adapter.recorded, adapter.same, adapter.refused, adapter.refusal);
    printf("Numbers     1 to %" PRIu64 "; the ring of %d holds %" PRIu64 " on, since %s\n",
           mtcore_reply_last(reply), N, mtcore_reply_first(reply),
           clock_of(shift_log[mtcore_reply_first(reply)].time - six));
    spend(end_of_shift);
    printf("Execution   ");
    for (size_t i = 0; i < EXECUTIONS; i++)
        print_hours(i > 0 ? (printf(", "), executions[i]) : executions[i], seen.in[i]);
    agreed(seen.parts == parts_made);
    printf("\nParts       %u, a pulse each\n", seen.parts);
    printf("Alarms      %u warning, %u fault\n", seen.warnings, seen.faults);
    printf("Tools       stored or changed %u times\n", seen.tools);
}

static void print_clients(void) {
    printf("\nCLIENTS\n\n%-11s%-38s%-8s%6s%7s%6s%6s  %s\n", "", "asks for", "every", "polls", "empty", "rows",
           "late", "each once");
    for (size_t i = 0; i < COUNT(clients); i++) {
        const struct client *c = &clients[i];
        printf("%-11s%-38s%2u min  %6u%7u%6u%6u  %s\n", c->name, c->path[0] != 0 ? c->path : "everything",
               (unsigned)(c->every / MINUTE), c->polls, c->empty, c->rows, c->late, yes(each_once(c)));
    }
    printf("\nEach once: of the numbers that a client's polls cover, every one that matches was delivered, none\n"
           "twice, and no other; number, time and value are those of the log. Empty: nothing was new, or the path\n"
           "matched none of the numbers considered. The client goes on from next either way.\n");
}

static void print_sleeper(const struct client *c) {
    uint64_t matching = 0;
    for (uint64_t s = c->lost_from; s < c->lost_end; s++)
        matching += c->wants[shift_log[s].item];
    printf("\nTHE LAPTOP SLEPT\n\n");
    printf("%s  polled up to number %" PRIu64 ", then slept\n", clock_of(c->sleeps), c->lost_from - 1);
    printf("%s  asks /sample?from=%" PRIu64 ": refusal %d, late: %" PRIu64 " is below first, %" PRIu64 "\n",
           clock_of(c->wakes), c->lost_from, MTCORE_LATE, c->lost_from, c->first_then);
    printf("%s  asks /current, takes the state over, and goes on from number %" PRIu64 "\n", clock_of(c->wakes),
           c->lost_end);
    printf("Lost: numbers %" PRIu64 " to %" PRIu64 ", of which %" PRIu64 " were of its path. Those from %" PRIu64
           " on were still held:\na client that wants them polls from there before it goes on.\n",
           c->lost_from, c->lost_end - 1, matching, c->first_then);
}

/* the tools in cell order, as a text: /assets gives the newest first */
static void list_cells(char *text, size_t size) {
    size_t used = 0;
    if (!agreed(ask("/assets").number == 0))
        return;
    for (uint64_t i = mtcore_reply_count(reply); i-- > 0 && used < size;) {
        mtcore_asset_row row = mtcore_reply_asset(reply, i);
        mtcore_bytes id = mtcore_cell_id(ASSETS, row.cell), body = mtcore_cell_body(ASSETS, row.cell);
        agreed(id.bytes != NULL && body.bytes != NULL && body.length == row.length);
        used +=
            (size_t)snprintf(text + used, size - used, "   cell %" PRIu64 " %.*s (%.*s)", row.cell, (int)id.length,
                             (const char *)id.bytes, (int)body.length, (const char *)body.bytes);
    }
}

static struct {
    char before[200], after[200];
    uint64_t cell, number;
} change;

/* at its hour the worn tool's record is stored anew */
static void change_tool(uint64_t time) {
    if (time != changed)
        return;
    list_cells(change.before, sizeof change.before);
    change.cell = store(time, "T17", "drill, 400 left");
    change.number = last;
    list_cells(change.after, sizeof change.after);
}

static void print_change(void) {
    printf("\nA TOOL CHANGED\n\n");
    printf("before  %s\nafter   %s\n", change.before, change.after);
    printf("%s  T17 stored again: cell %" PRIu64 ", event number %" PRIu64 "; the dashboard shows %s\n",
           clock_of(changed), change.cell, change.number, seen.tool);
    printf("Cells moved: the code of an older event may name another tool by now.\n");
}

/* the newest of an item numbered at or below, from the log */
static uint64_t newest_logged(uint64_t item, uint64_t at) {
    uint64_t s = at;
    while (s > 0 && shift_log[s].item != item)
        s--;
    return s;
}

static const uint64_t looked = 3 * (uint64_t)HOUR + 36 * MINUTE;

/* what stood on the controller at that time */
static struct {
    mtcore_row rows[MTCORE_MAX_ACTIVE];
    size_t count;
} alarms;

/* of a condition item every code that is active has a row: they are looked for, since row i need not be item i's */
static void look_at_alarms(uint64_t time) {
    if (time != looked || !agreed(ask("/current").number == 0))
        return;
    for (uint64_t i = mtcore_reply_find(reply, SYSTEM, 0); i < mtcore_reply_count(reply);
         i = mtcore_reply_find(reply, SYSTEM, i + 1)) {
        mtcore_row row = mtcore_reply_row(reply, i);
        if (agreed(mtcore_packed_ok(ITEMS, row.packed) && is_logged(row) && alarms.count < COUNT(alarms.rows)))
            alarms.rows[alarms.count++] = row;
    }
}

static void print_alarms(void) {
    uint64_t cleared = newest_logged(SYSTEM, last);
    printf("\nTWO ALARMS ON ONE ITEM\n\n");
    printf("%s  /current has %u rows of SYSTEM:", clock_of(looked), (unsigned)alarms.count);
    for (size_t i = 0; i < alarms.count; i++) {
        printf("%s ", i > 0 ? "," : "");
        print_value(alarms.rows[i].packed);
        printf(" since %s", clock_of(alarms.rows[i].time - six));
    }
    printf("\n%s  number %" PRIu64 ", ", clock_of(shift_log[cleared].time - six), cleared);
    print_value(((uint64_t)SYSTEM << MTCORE_ITEM_BIT) + shift_log[cleared].value);
    printf(", clears both\n");
    agreed(alarms.count == 2);
}

/* the middle of what the ring still holds of the lap before its newest; no alarm stood then, and each item has a row */
static void print_state(void) {
    char text[MTCORE_MAX_TEXT + 1];
    uint64_t lap = last - (last - 1) % N, first, at;
    agreed(ask("/current").number == 0);
    first = mtcore_reply_first(reply);
    at = (first + lap) / 2;
    snprintf(text, sizeof text, "/current?at=%" PRIu64, at);
    agreed(ask(text).number == 0 && mtcore_reply_count(reply) == ITEMS);
    printf("\nTHE STATE AT %s: %s\n\n", clock_of(shift_log[at].time - six), text);
    printf("The ring's newest lap began at number %" PRIu64
           ". What had left the ring stands in the checkpoint.\n\n",
           lap);
    for (uint64_t i = 0; i < mtcore_reply_count(reply); i++) {
        mtcore_row row = mtcore_reply_row(reply, i);
        if (!agreed(mtcore_packed_ok(ITEMS, row.packed)))
            continue;
        agreed(is_logged(row) && row.number == newest_logged(mtcore_item_of(row.packed), at));
        printf("%-15.24s number %4" PRIu64 ", %s%s  ", mtcore_item_name(MODEL, mtcore_item_of(row.packed)),
               row.number, clock_of(row.time - six),
               row.number < first ? ", before the ring" : "                 ");
        print_value(row.packed);
        printf("\n");
    }
}

int main(void) {
    start();
    for (size_t i = 0; i < COUNT(clients); i++) {
        take_current(&clients[i]);
        clients[i].begin = clients[i].next;
    }
    store(0, "T04", "face mill");
    store(0, "T17", "drill, 12 left");
    store(0, "T23", "tap");
    for (uint64_t time = 0; time <= end_of_shift; time += STEP) {
        change_tool(time);
        step(time);
        look_at_alarms(time);
        poll_due(time);
    }
    print_summary();
    print_clients();
    print_sleeper(&clients[LAPTOP]);
    print_alarms();
    print_change();
    print_state();
    printf("\nAgreed with the log of the whole shift: %s\n", yes(faults_found == 0));
    return faults_found == 0 ? 0 : 1;
}
