/*
 * mtcore.h - the core of an MTConnect agent: observations, adapter lines, tool records (assets), requests, and the
 * streams document of a reply.
 *
 * Link with libmtcore.a (x86-64 Linux). It wants memcpy, memmove and memset at link time and nothing else: any C
 * library has them, and a host without one brings its own three. The core has no heap, no threads, no global state:
 * all that it keeps stands in two stores, buffers that the caller owns and hands to every call.
 *
 * For every function:
 *
 * - A buffer is a pointer and its length in elements (not bytes). The pointer is aligned for its element:
 *   4 bytes for uint32_t, 8 for uint64_t and mtcore_record. It may be NULL only if the length is 0.
 * - No two buffers of one call overlap, unless the call only reads both.
 * - A refusal changes nothing: no store, no reply, no answers, no text. It is tested for before anything is written.
 *   Every input is answered, right or wrong; no call traps, loops for ever or reads outside the buffers.
 * - mtcore_start, mtcore_observe, mtcore_observe_batch, mtcore_read_line and mtcore_store_asset write the stores:
 *   while one of them runs, no other call may use the same stores. That lock is the caller's. mtcore_request and
 *   mtcore_body only read the stores: any number of them may run side by side, each with its own reply buffer.
 *   mtcore_write_line and mtcore_streams take no store, and run beside every call.
 * - The stores hold no pointers. Between calls they may be saved, copied and restored bytewise, also in
 *   another process, and used on without a start. Nobody else should write them: MTCORE_STORE sees a wrong
 *   head, length, item of a ring entry, form of a condition item's entries or length of a body, and no other
 *   damage. Latest and checkpoint words, kinds, levels and times are taken as they stand. A caller that
 *   restores stores keeps a checksum of its own.
 * - The same model and names go with the same stores, from mtcore_start on.
 * - The deepest call writes less than 6,100 bytes of stack.
 *
 * Times are milliseconds since 1970-01-01T00:00:00Z. docs/HOST.md says what each request means, with replies, how
 * much flash, memory, stack and time it takes, and what a host does about each refusal; docs/LIMITS.md what of
 * MTConnect is not here.
 */
#ifndef MTCORE_H
#define MTCORE_H

#include <stddef.h>
#include <stdint.h>

#ifdef __cplusplus
extern "C" {
#endif

/* ---- version ---- */

/* MAJOR moves where a host has to look at its own code, MINOR where something was added: CHANGELOG.md. Header and
 * archive are taken from the same version; the archive does not hold a number of its own. */
#define MTCORE_VERSION_MAJOR 3
#define MTCORE_VERSION_MINOR 2

/* Moves where the form of a store or of the model does. Saved stores outlive a version: save this number beside
 * them, and start anew where it differs, since refusal 2 need not see another form. docs/HOST.md, "Stores of layout
 * 1", says how such a start keeps the numbers and the tools. */
#define MTCORE_LAYOUT 2

/* ---- refusals ---- */

/* 12 is no refusal's number and will not be one again: up to version 1.3 it stood for late and early together. Towards
 * a client both are MTConnect's OUT_OF_RANGE: docs/HOST.md, "Late and early". */
enum mtcore_refusal {
    MTCORE_MODEL = 1,            /* model or names break their rules */
    MTCORE_STORE = 2,            /* a store's head or length is wrong or another model's, or an entry is damaged;
                                    streams: the words are no reply of this model's observations */
    MTCORE_SIZE = 3,             /* start: n, a or b outside its range, or a store's length */
    MTCORE_ITEM = 4,             /* the model has no such item */
    MTCORE_KIND = 5,             /* the item doesn't take this value */
    MTCORE_SPENT = 6,            /* the last sequence number, 2^63 - 1, is used */
    MTCORE_INVALID_URI = 7,      /* text: length, a byte or the first '/' wrong */
    MTCORE_INVALID_REQUEST = 8,  /* text: unknown word, bad parameter, number or id list */
    MTCORE_UNSUPPORTED = 9,      /* text: probe, or interval */
    MTCORE_TOO_MANY = 10,        /* text: count above n */
    MTCORE_INVALID_XPATH = 11,   /* text: path of another form or unknown type; the second form without items */
    MTCORE_ASSET_NOT_FOUND = 13, /* text: an id isn't stored */
    MTCORE_ASSET = 14,           /* id or body break their rules */
    MTCORE_SPACE = 15,           /* the buffer for the reply, the answers, the line or the document is too short */
    MTCORE_BATCH = 16,           /* more records than one delivery may have */
    MTCORE_LATE = 17,            /* text: from (not 0) or at is below first, the lowest number held */
    MTCORE_EARLY = 18,           /* text: from is above last + 1, or at above last, the newest number */
    MTCORE_CROWDED = 19,         /* a ninth native code for a condition item that has eight active */
    MTCORE_LINE = 20,            /* line: not of the form stamp|item|value */
    MTCORE_STAMP = 21            /* line: a date or time that there isn't, or not of 1970 to 2099; what is written,
                                    line or document: a time after 2099 */
};

/* The words of mtcore_observe, of mtcore_read_line, of mtcore_store_asset and of a delivery's answers: bit 63 marks a
 * refusal. Of an observation 0 is Same, which a discrete item never gets; mtcore_observe says when an item does. */
#define MTCORE_SAME UINT64_C(0)
#define MTCORE_REFUSED (UINT64_C(1) << 63)

/* The refusal in such a word, or 0 where the call was not refused. A later version may have numbers above 21: a
 * host treats a number that it doesn't know as a refusal all the same. */
static inline unsigned mtcore_refusal_of(uint64_t word) {
    return word >= MTCORE_REFUSED ? (unsigned)(word & 63) : 0u;
}

/* ---- sizes, in elements ---- */

#define MTCORE_MAX_N 131072      /* observations in the ring */
#define MTCORE_MAX_A 128         /* assets */
#define MTCORE_MAX_BODY 510      /* bytes of a body */
#define MTCORE_MAX_ID 32         /* bytes of an id */
#define MTCORE_NAME 24           /* bytes of a name's cell */
#define MTCORE_MAX_TEXT 256      /* bytes of a request's text */
#define MTCORE_MAX_NAMED 125     /* ids that /asset/ID;ID.. has room for */
#define MTCORE_DEFAULT_COUNT 100 /* a sample's count where the text has none */
#define MTCORE_MAX_BATCH 256     /* records of a delivery */
#define MTCORE_MAX_ACTIVE 8      /* native codes active on a condition item */

/* bytes of the longest line that mtcore_write_line makes: a stamp of 24, two bars, an item of two digits, and 16 of the
 * longest value, WARNING:16777215 (a sample has up to 12, -2147483.648; UNAVAILABLE 11; an event 10, 4294967295) */
#define MTCORE_LINE_BYTES 44

/* bytes of the longest line that mtcore_read_line reads, with leading zeros: an item of ten digits, and WARNING: with
 * ten. Every longer one gets MTCORE_LINE. A caller that cuts a stream keeps MTCORE_MAX_LINE + 2 bytes of a line: then a
 * carriage return can be taken off, and what was too long still is. */
#define MTCORE_MAX_LINE 54

/* the latest time that a line or a document can have: the last millisecond of 2099 */
#define MTCORE_MAX_STAMP UINT64_C(4102444799999)

/* uint64_t words of the observation store, for a ring of n observations and m items: of every item, whatever its
 * category, eight entries of three words for what stands now, and eight for what stood when it left the ring */
#define MTCORE_OBSERVATION_WORDS(n, m) (4 + 2 * (size_t)(n) + 48 * (size_t)(m))

/* places in an asset store of a cells: its two sizes, a ids' cells, a bodies' cells, each body behind two bytes that
 * hold its length; and its bytes in all, 2 + 544 a */
#define MTCORE_ASSET_HEAD 2
#define MTCORE_ID_PLACE(cell) (MTCORE_ASSET_HEAD + MTCORE_MAX_ID * (size_t)(cell))
#define MTCORE_BODY_PLACE(a, cell) (MTCORE_ID_PLACE(a) + (2 + MTCORE_MAX_BODY) * (size_t)(cell))
#define MTCORE_ASSET_BYTES(a) MTCORE_BODY_PLACE(a, a)

/* uint64_t words of a reply of k rows behind its four sizes: of observations, and of assets */
#define MTCORE_REPLY_HEAD 4
#define MTCORE_REPLY_WORDS(k) (MTCORE_REPLY_HEAD + 3 * (size_t)(k))
#define MTCORE_ASSET_REPLY_WORDS(k) (MTCORE_REPLY_HEAD + 2 * (size_t)(k))

/* rows of a reply to /current, at most, with m items of which so many are conditions: one for each item, and of a
 * condition item one for each code that is active */
#define MTCORE_CURRENT_ROWS(m, conditions) ((size_t)(m) + (MTCORE_MAX_ACTIVE - 1) * (size_t)(conditions))

/* uint64_t words that are enough for any reply to /sample with this count (0: the text has none), in a ring of n;
 * to /current, with m items, were all of them conditions: 8 m rows; to /assets and /asset/.., with a assets. The
 * largest, /sample?count=131072, has 3,145,760 bytes; a caller that reserves less gets MTCORE_SPACE where a reply has
 * more rows, and answers it with TOO_MANY or asks with a smaller count (docs/HOST.md, "What to reserve"). /current has
 * no count, so it gets its room; MTCORE_CURRENT_ROWS says how much is enough where few items are conditions. */
static inline size_t mtcore_sample_words(uint64_t n, uint64_t count) {
    uint64_t rows = count == 0 ? MTCORE_DEFAULT_COUNT : count;
    return MTCORE_REPLY_WORDS(rows < n ? rows : n);
}

static inline size_t mtcore_current_words(uint64_t m) {
    return MTCORE_REPLY_WORDS(MTCORE_CURRENT_ROWS(m, m));
}

static inline size_t mtcore_assets_words(uint64_t a) {
    return MTCORE_ASSET_REPLY_WORDS(a > MTCORE_MAX_NAMED ? a : MTCORE_MAX_NAMED);
}

/* bytes that are enough for the streams document of any reply of so many rows, of a model of so many components:
 * - 495 around the components: a device's name of 24 bytes, twice, a stamp of 24, five numbers of 20 digits, and 323 of
 *   the text between them;
 * - 189 for each component: its type of 24 bytes, twice, an index of two digits, and 139 of its own tags and of those
 *   of Samples, Events and Condition;
 * - 154 for each row: its element's name of 25 bytes, twice, an item of two digits, a number of 20, a stamp of 24, a
 *   value of 12 (-2147483.648) and 46 of the text between them. A condition has up to 151.
 * The largest, of 64 components and 131,072 rows, has 20,197,679 bytes; of 100 rows and 8 components 17,407. */
#define MTCORE_STREAMS_BYTES(components, rows) (495 + 189 * (size_t)(components) + 154 * (size_t)(rows))

/* ---- values, as mtcore_observe takes them: kind * 2^32 + low ---- */

/* where the fields of a packed word begin, in bits: item, kind, and the level of a condition */
#define MTCORE_ITEM_BIT 40
#define MTCORE_KIND_BIT 32
#define MTCORE_LEVEL_BIT 24

enum mtcore_value_kind {
    MTCORE_VALUE_UNAVAILABLE = 0,
    MTCORE_VALUE_SAMPLE = 1,
    MTCORE_VALUE_EVENT = 2,
    MTCORE_VALUE_CONDITION = 3
};

/* an enum mtcore_value_kind and its low word; the makers below are for use */
static inline uint64_t mtcore_value(uint64_t kind, uint32_t low) {
    return (kind << MTCORE_KIND_BIT) + low;
}

#define MTCORE_UNAVAILABLE UINT64_C(0)

/* a sample, in thousandths of the item's unit: -2,147,483.648 to 2,147,483.647; what is finer the caller rounds,
 * what is beyond it reports as MTCORE_UNAVAILABLE or as a condition (docs/HOST.md, "Values") */
static inline uint64_t mtcore_sample(int32_t thousandths) {
    return mtcore_value(MTCORE_VALUE_SAMPLE, (uint32_t)thousandths);
}

/* an event's code; what the code means, a text among them, is the caller's table */
static inline uint64_t mtcore_event(uint32_t code) {
    return mtcore_value(MTCORE_VALUE_EVENT, code);
}

enum mtcore_level { MTCORE_NORMAL = 0, MTCORE_WARNING = 1, MTCORE_FAULT = 2 };

/* a condition's level with its native code, below 2^24 at every level: MTCORE_NORMAL with a code clears that code,
 * with 0 all; 0 is a code like others for the two other levels. A code of 2^24 or more makes a word that every item
 * refuses with MTCORE_KIND. */
static inline uint64_t mtcore_condition(enum mtcore_level level, uint32_t native_code) {
    return native_code >> MTCORE_LEVEL_BIT == 0
               ? mtcore_value(MTCORE_VALUE_CONDITION, native_code) + ((uint64_t)level << MTCORE_LEVEL_BIT)
               : mtcore_value(MTCORE_VALUE_CONDITION + 1, 0);
}

/* ---- packed words, as the rows of a reply hold them: item * 2^40 + kind * 2^32 + low ---- */

/* the item, which is below m in every word of stores that only this library wrote */
static inline uint64_t mtcore_item_of(uint64_t packed) {
    return packed >> MTCORE_ITEM_BIT;
}

/* an enum mtcore_value_kind, in such words */
static inline unsigned mtcore_kind_of(uint64_t packed) {
    return (unsigned)(packed >> MTCORE_KIND_BIT & 255);
}

/* the value as mtcore_observe takes it */
static inline uint64_t mtcore_value_of(uint64_t packed) {
    return packed & ((UINT64_C(1) << MTCORE_ITEM_BIT) - 1);
}

/* of a sample: thousandths of the item's unit */
static inline int32_t mtcore_sample_of(uint64_t packed) {
    uint32_t low = (uint32_t)packed;
    return low <= (uint32_t)INT32_MAX ? (int32_t)low : -(int32_t)(UINT32_MAX - low) - 1;
}

/* of a condition: an enum mtcore_level, in such words */
static inline unsigned mtcore_level_of(uint64_t packed) {
    return (unsigned)((uint32_t)packed >> MTCORE_LEVEL_BIT);
}

/* of an event: its code, of an asset change item the cell; of a condition: its native code */
static inline uint32_t mtcore_code_of(uint64_t packed) {
    uint32_t low = (uint32_t)packed;
    return mtcore_kind_of(packed) == MTCORE_VALUE_CONDITION ? low & ((UINT32_C(1) << MTCORE_LEVEL_BIT) - 1) : low;
}

/* Whether item (of m), kind and level of the word are ones that there are. The core takes saved stores as they
 * stand, so a caller that restores them asks this of a row before it uses one of the three as an index. */
static inline int mtcore_packed_ok(uint64_t m, uint64_t packed) {
    return mtcore_item_of(packed) < m && mtcore_kind_of(packed) <= MTCORE_VALUE_CONDITION &&
           (mtcore_kind_of(packed) != MTCORE_VALUE_CONDITION || mtcore_level_of(packed) <= MTCORE_FAULT);
}

/* ---- model and names, which every call but mtcore_body takes ----
 *
 * model: word 0 is c (components, 1 to 64), word 1 is m (items, 1 to 64), then c component words, then m item
 * words; exactly 2 + c + m words. names: 1 to 256 cells of MTCORE_NAME bytes. A cell is a name, of at least one letter,
 * digit or '_', filled up with zeros. Name and component are indices, counted from 0.
 */

/* parent * 256 + name: component 0 is its own parent, and all others stand behind theirs */
#define MTCORE_COMPONENT(parent, name) ((uint32_t)((parent)*UINT32_C(256) + (name)))

/* category * 65536 + component * 256 + name; at most one item has category MTCORE_CATEGORY_ASSET_CHANGE, any number
 * each of the others */
#define MTCORE_DATA_ITEM(category, component, name) \
    ((uint32_t)((category)*UINT32_C(65536) + (component)*UINT32_C(256) + (name)))

/* What an item reports. A discrete item takes events, as one of category MTCORE_CATEGORY_EVENT does, but each counts
 * even when equal, and takes a number and a ring entry: docs/HOST.md, "Categories", says what to model so. */
enum mtcore_category {
    MTCORE_CATEGORY_SAMPLE = 0,       /* a measured value */
    MTCORE_CATEGORY_EVENT = 1,        /* a state, by its code */
    MTCORE_CATEGORY_CONDITION = 2,    /* conditions: levels with their native codes, up to eight active at once */
    MTCORE_CATEGORY_ASSET_CHANGE = 3, /* a stored asset, by its cell: mtcore_store_asset alone writes it */
    MTCORE_CATEGORY_DISCRETE = 4      /* something that happens: a part counter's pulse, a message, a bar end */
};

/* The type name of an item, at most MTCORE_NAME bytes and behind a shorter one zeros: print it with %.24s. An empty
 * text where model and names have none. */
static inline const char *mtcore_item_name(const uint32_t *model, size_t model_len, const uint8_t *names,
                                           size_t names_len, uint64_t item) {
    size_t place, cell;
    if (model_len < 2 || item >= model[1] || item >= model_len || model[0] >= model_len)
        return "";
    place = 2 + (size_t)model[0] + (size_t)item;
    if (place >= model_len)
        return "";
    cell = model[place] & 255;
    return cell < names_len / MTCORE_NAME ? (const char *)(names + MTCORE_NAME * cell) : "";
}

/* ---- replies, taken apart: only after mtcore_request has answered 0 ---- */

/* the rows of any reply: k */
static inline uint64_t mtcore_reply_count(const uint64_t *reply) {
    return reply[0];
}

/* of observations: the lowest number held, the newest number, and the number that the client goes on from */
static inline uint64_t mtcore_reply_first(const uint64_t *reply) {
    return reply[1];
}

static inline uint64_t mtcore_reply_last(const uint64_t *reply) {
    return reply[2];
}

static inline uint64_t mtcore_reply_next(const uint64_t *reply) {
    return reply[3];
}

/* a row of observations */
typedef struct {
    uint64_t number;
    uint64_t time;
    uint64_t packed;
} mtcore_row;

/* row i, counted from 0; all zeros where there is no such row */
static inline mtcore_row mtcore_reply_row(const uint64_t *reply, uint64_t i) {
    mtcore_row row = {0, 0, 0};
    uint64_t k = reply[0];
    if (i < k) {
        row.number = reply[MTCORE_REPLY_HEAD + i];
        row.time = reply[MTCORE_REPLY_HEAD + k + 2 * i];
        row.packed = reply[MTCORE_REPLY_HEAD + k + 2 * i + 1];
    }
    return row;
}

/* The place of the first row of this item, at place i or behind it; k where there is none. Of /current a condition
 * item may have several rows, one behind the other, so row i need not be item i's. */
static inline uint64_t mtcore_reply_find(const uint64_t *reply, uint64_t item, uint64_t i) {
    uint64_t k = reply[0];
    while (i < k && mtcore_item_of(mtcore_reply_row(reply, i).packed) != item)
        i++;
    return i < k ? i : k;
}

/* of assets: cells in use, and cells that there are */
static inline uint64_t mtcore_reply_used(const uint64_t *reply) {
    return reply[1];
}

static inline uint64_t mtcore_reply_cells(const uint64_t *reply) {
    return reply[2];
}

/* a row of assets */
typedef struct {
    uint64_t cell;
    uint64_t length; /* of the body */
} mtcore_asset_row;

/* row i, counted from 0; where there is no such row a cell that no store has, and length 0 */
static inline mtcore_asset_row mtcore_reply_asset(const uint64_t *reply, uint64_t i) {
    mtcore_asset_row row = {UINT64_MAX, 0};
    uint64_t k = reply[0];
    if (i < k) {
        row.cell = reply[MTCORE_REPLY_HEAD + i];
        row.length = reply[MTCORE_REPLY_HEAD + k + i];
    }
    return row;
}

/* ---- cells of the asset store, oldest asset first, counted from 0 ----
 *
 * A cell is a place, not a name: mtcore_store_asset moves the cells behind the one it gives up down by one, so the
 * cell of a reply or of an asset change event means its asset only until the next mtcore_store_asset.
 */

/* bytes of the asset store itself; NULL and 0 where there are none */
typedef struct {
    const uint8_t *bytes;
    size_t length;
} mtcore_bytes;

/* whether the store has the head and the length of one, and this cell is in use */
static inline int mtcore_cell_used(const uint8_t *assets, size_t assets_len, uint64_t cell) {
    return assets_len >= MTCORE_ASSET_HEAD && assets[0] >= 1 && assets[0] <= MTCORE_MAX_A && assets[1] <= assets[0] &&
           assets_len == MTCORE_ASSET_BYTES(assets[0]) && cell < assets[1];
}

/* the id of a cell; nothing where the cell isn't in use or its id is empty */
static inline mtcore_bytes mtcore_cell_id(const uint8_t *assets, size_t assets_len, uint64_t cell) {
    mtcore_bytes id = {NULL, 0};
    const uint8_t *bytes;
    if (!mtcore_cell_used(assets, assets_len, cell))
        return id;
    bytes = assets + MTCORE_ID_PLACE(cell);
    while (id.length < MTCORE_MAX_ID && bytes[id.length] != 0)
        id.length++;
    if (id.length > 0)
        id.bytes = bytes;
    return id;
}

/* the body of a cell; nothing where the cell isn't in use or its length isn't 1 to MTCORE_MAX_BODY */
static inline mtcore_bytes mtcore_cell_body(const uint8_t *assets, size_t assets_len, uint64_t cell) {
    mtcore_bytes body = {NULL, 0};
    const uint8_t *bytes;
    size_t length;
    if (!mtcore_cell_used(assets, assets_len, cell))
        return body;
    bytes = assets + MTCORE_BODY_PLACE(assets[0], cell);
    length = bytes[0] * (size_t)256 + bytes[1];
    if (length >= 1 && length <= MTCORE_MAX_BODY) {
        body.bytes = bytes + 2;
        body.length = length;
    }
    return body;
}

/* ---- the nine calls ---- */

/* number 0 and the count: of a request's rows, of a delivery's records, of the bytes of a line or a document, 0 for a
 * start; or the refusal's number and 0 */
typedef struct {
    uint64_t number;
    uint64_t count;
} mtcore_answer;

/* an observation of a delivery: what mtcore_observe takes for one, but for the host time */
typedef struct {
    uint64_t item;
    uint64_t time;  /* 0 where it is missing */
    uint64_t value; /* made by MTCORE_UNAVAILABLE, mtcore_sample, mtcore_event or mtcore_condition */
} mtcore_record;

/* the bytes assets[start] to assets[start + length - 1]; length 0: refused */
typedef struct {
    uint64_t start;
    uint64_t length;
} mtcore_part;

/*
 * Makes both stores anew, whatever stood in them: a ring of n observations, room for a assets, and for each item in
 * item order one Unavailable, numbered from b on, at the time `host`.
 *
 * Takes: n 1 to MTCORE_MAX_N, a 1 to MTCORE_MAX_A, b at least 1 and at most 2^63 - m; observations of exactly
 * MTCORE_OBSERVATION_WORDS(n, m) words, assets of exactly MTCORE_ASSET_BYTES(a) bytes.
 * Gives: 0 and 0.
 * Refuses, in this order: MTCORE_MODEL, MTCORE_SIZE.
 */
mtcore_answer mtcore_start(const uint32_t *model, size_t model_len, const uint8_t *names, size_t names_len,
                           uint64_t *observations, size_t observations_len, uint8_t *assets, size_t assets_len,
                           uint64_t n, uint64_t a, uint64_t b, uint64_t host);

/*
 * Records an observation of an item, unless it is Same. Of a sample or an event it is where the item's newest
 * observation has this value already. Of a discrete item each is recorded, an equal Unavailable too.
 *
 * On a condition item up to MTCORE_MAX_ACTIVE native codes are active side by side, each at Warning or Fault:
 * - Warning or Fault adds its code behind those that are active, or takes the place of the entry of its code, and ends
 *   an Unavailable;
 * - Normal with a code other than 0 clears that code;
 * - Normal with code 0 clears all, and ends an Unavailable; Unavailable clears all.
 * Same is: a Warning or Fault whose code is active at that level; a Normal with a code that isn't active, behind an
 * Unavailable too, which stays; Normal 0 where none is active, but behind an Unavailable it is recorded; an
 * Unavailable behind an Unavailable.
 *
 * Takes: item 0 to m - 1; time, or 0 where it is missing: then `host` is used (times need not rise); value, made by
 * MTCORE_UNAVAILABLE, mtcore_sample, mtcore_event or mtcore_condition. An item takes Unavailable or its category's
 * kind, a discrete item events; an asset change item takes nothing here.
 * Gives: the observation's sequence number, or MTCORE_SAME where nothing was added, the time neither; or
 * MTCORE_REFUSED + the refusal.
 * Refuses, in this order: MTCORE_MODEL, MTCORE_STORE, MTCORE_ITEM, MTCORE_KIND, MTCORE_STORE (the item is a condition
 * and its entries are damaged), (Same, unless discrete,) MTCORE_CROWDED (a code that isn't active while eight are),
 * MTCORE_SPENT, MTCORE_STORE (the entry about to be overwritten is damaged, or what its item has from before the ring).
 */
uint64_t mtcore_observe(const uint32_t *model, size_t model_len, const uint8_t *names, size_t names_len,
                        uint64_t *observations, size_t observations_len,
                        uint64_t item, uint64_t time, uint64_t host, uint64_t value);

/*
 * Records a delivery of observations. Each record is observed in its turn, as mtcore_observe does it with the same
 * `host`, on the store that the record before it left; model, names and the store's head are tested once for all.
 *
 * Takes: 0 to MTCORE_MAX_BATCH records, and at least as many words for the answers.
 * Gives: 0 and the number of records n. answers[0] to answers[n - 1] are the words of the records, each the one that
 * mtcore_observe would have given there: a sequence number, MTCORE_SAME, or MTCORE_REFUSED + the refusal. Words behind
 * them stay. A record that is refused adds nothing and doesn't stop the others: 0 and n says that every record has its
 * word, and mtcore_refusal_of says of each word whether it is a refusal.
 * Refuses, in this order: MTCORE_MODEL, MTCORE_STORE (the head), MTCORE_BATCH, MTCORE_SPACE (fewer answers than
 * records). No record is observed then, and no word is written.
 * In a word, in this order, as of mtcore_observe: MTCORE_ITEM, MTCORE_KIND, MTCORE_STORE (a condition item's entries),
 * (Same, unless discrete,) MTCORE_CROWDED, MTCORE_SPENT, MTCORE_STORE (the entry about to be overwritten).
 */
mtcore_answer mtcore_observe_batch(const uint32_t *model, size_t model_len, const uint8_t *names, size_t names_len,
                                   uint64_t *observations, size_t observations_len,
                                   const mtcore_record *records, size_t records_len, uint64_t host,
                                   uint64_t *answers, size_t answers_len);

/*
 * Records what an adapter's line says, as mtcore_observe does it of the item, time and value that the line has.
 *
 * Takes: the bytes of one line, stamp|item|value, without its line feed, and without the carriage return before it:
 * - stamp: YYYY-MM-DDThh:mm:ss.fffZ, a real date and time of 1970 to 2099 with seconds 0 to 59; or empty, which is
 *   time 0, so that `host` is used.
 * - item: its number in digits.
 * - value: UNAVAILABLE; for a sample a decimal with at most three digits behind its point, as -0.5 (thousandths are
 *   what is recorded, here -500); for an event and for a discrete item a code; for a condition NORMAL:, WARNING: or
 *   FAULT: and its native code.
 * A number has 1 to 10 digits, leading zeros among them, and 1 to 3 behind a point; '-' stands before a decimal only.
 * Case matters, and there are no blanks.
 * Gives: as mtcore_observe: the sequence number, or MTCORE_SAME; or MTCORE_REFUSED + the refusal.
 * Refuses, in this order: MTCORE_MODEL, MTCORE_STORE (the head), MTCORE_LINE (another form, whatever is wrong with it
 * besides), MTCORE_STAMP (the form is right and its date or time isn't); then as mtcore_observe: MTCORE_ITEM,
 * MTCORE_KIND (also a value of another category's form, as -5 or 5.0 for an event, and a number too large for its
 * kind), MTCORE_STORE (a condition item's entries), (Same, unless discrete,) MTCORE_CROWDED, MTCORE_SPENT,
 * MTCORE_STORE (the entry about to be overwritten).
 */
uint64_t mtcore_read_line(const uint32_t *model, size_t model_len, const uint8_t *names, size_t names_len,
                          uint64_t *observations, size_t observations_len,
                          const uint8_t *line, size_t line_len, uint64_t host);

/*
 * Writes an observation as a line, which mtcore_read_line reads back to this item, time and value. No store is taken:
 * whether the item has the value, or ever had it, is not asked.
 *
 * Takes: item, time and value as mtcore_observe does, and room for the text; MTCORE_LINE_BYTES are always enough.
 * Gives: 0 and the line's bytes, at the front of the text; there is no line feed and no zero behind them, and bytes
 * behind them stay. The stamp is empty for time 0, item and value have no needless zero and no needless point: 5000
 * thousandths are 5, 5500 are 5.5, -1 is -0.001.
 * Refuses, in this order: MTCORE_MODEL, MTCORE_ITEM, MTCORE_KIND (an asset change item whatever the value),
 * MTCORE_STAMP (a time above MTCORE_MAX_STAMP), MTCORE_SPACE.
 */
mtcore_answer mtcore_write_line(const uint32_t *model, size_t model_len, const uint8_t *names, size_t names_len,
                                uint64_t item, uint64_t time, uint64_t value, uint8_t *text, size_t text_len);

/*
 * Stores an asset as the newest: in place of the one with its id, in a free cell, or in place of the one that was
 * stored longest ago. The cells behind the one given up move down by one. If the model has an asset change item, an
 * event for it is recorded at the time `host`; its code is the asset's cell.
 *
 * Takes: id of 1 to MTCORE_MAX_ID bytes of 33..126 without ';', '/' and '?'; body of 1 to MTCORE_MAX_BODY bytes.
 * Gives: the cell that now holds it, the newest one; or MTCORE_REFUSED + the refusal.
 * Refuses, in this order: MTCORE_MODEL, MTCORE_STORE, MTCORE_ASSET and, if it records an event, MTCORE_SPENT,
 * MTCORE_STORE as mtcore_observe.
 */
uint64_t mtcore_store_asset(const uint32_t *model, size_t model_len, const uint8_t *names, size_t names_len,
                            uint64_t *observations, size_t observations_len, uint8_t *assets, size_t assets_len,
                            const uint8_t *id, size_t id_len, const uint8_t *body, size_t body_len, uint64_t host);

/*
 * Answers a request into the reply buffer.
 *
 * Takes: text, the request's path and query with percent escapes decoded, 1 to MTCORE_MAX_TEXT bytes of 33..126; case
 * matters. Every parameter may be absent, in any order, none twice:
 *
 *     /sample?from=..&count=..&path=..   The numbers from `from` (0 or absent: the lowest held) up to `count` of them
 *         (absent: 100), but not beyond the newest, are considered; the rows are those of them that the path selects,
 *         by rising number. `next` is the number behind the last one considered, so no rows with a next below
 *         last + 1 is ordinary: the client goes on from next. from = last + 1 is accepted, with no rows; one above
 *         that is early, one below the lowest held, but for 0, late.
 *     /current?at=..&path=..             The state now, or as it was at the number `at`, for each selected item in item
 *         order: of a condition item with active codes a row for each, up to eight, in the order in which the codes
 *         were added, so within an item too the rows' numbers need not rise; of every other item its newest
 *         observation. An item that has none at or below `at` is left out. `next` is last + 1 either way. An `at` below
 *         the lowest held, 0 too, is late, and one above the newest early.
 *     /asset/ID;ID..                     A row for each id, in the text's order, repeats kept.
 *     /assets                            Every asset, the newest first.
 *
 * path is //T, the items of every component of type T and of all below it, or //T//DataItem[@type="Y"], those of them
 * that have the type Y. T has to be a component's type; the second form has to select an item, the first need not.
 *
 * Gives: 0 and the number of rows k. The reply's words, of observations MTCORE_REPLY_WORDS(k):
 *     k, first, last, next; k sequence numbers; k pairs of a time and a packed value (item * 2^40 + kind * 2^32 + low)
 * and of assets MTCORE_ASSET_REPLY_WORDS(k):
 *     k, used, a, 0; k cells; k lengths of bodies
 * Words behind them stay. mtcore_sample_words, mtcore_current_words and mtcore_assets_words say how many are enough;
 * a shorter buffer is refused only where this reply doesn't fit.
 * Refuses, in this order: MTCORE_MODEL, MTCORE_STORE, MTCORE_INVALID_URI, MTCORE_INVALID_REQUEST (the word),
 * MTCORE_UNSUPPORTED (probe), MTCORE_INVALID_REQUEST, MTCORE_UNSUPPORTED (interval), MTCORE_TOO_MANY,
 * MTCORE_INVALID_XPATH, MTCORE_LATE or MTCORE_EARLY, MTCORE_STORE (damaged entries: of the ring for /sample and `at`,
 * of the selected condition items for /current and `at`), MTCORE_SPACE; for assets MTCORE_INVALID_REQUEST,
 * MTCORE_ASSET_NOT_FOUND, MTCORE_STORE, MTCORE_SPACE.
 */
mtcore_answer mtcore_request(const uint32_t *model, size_t model_len, const uint8_t *names, size_t names_len,
                             const uint64_t *observations, size_t observations_len,
                             const uint8_t *assets, size_t assets_len,
                             const uint8_t *text, size_t text_len, uint64_t *reply, size_t reply_len);

/*
 * Writes the MTConnectStreams document, of version 1.2, of a reply to /sample or /current: what a client gets as the
 * body of a response of type text/xml. No store is taken: whether the words are the reply of a request is not asked.
 *
 * Takes: the words of an observation reply, of which those behind MTCORE_REPLY_WORDS(k) are not read; for the header n,
 * the ring's places, and instance_id, both written as they come, and creation_time; and room for the text, for which
 * MTCORE_STREAMS_BYTES(components, k) are always enough. An asset reply is none, and has no document here.
 * Gives: 0 and the document's bytes, at the front of the text; each line of it ends with a line feed, there is no zero
 * behind them, and bytes behind them stay. The header has the reply's next, first and last. Components that have rows
 * follow in model order, in each of them Samples, Events (asset changes and discrete items among them) and Condition
 * where they have rows, and in these the rows in the reply's order. A row of item 7 has dataItemId i7, its number as
 * sequence and its time as timestamp, time 0 too; its element is the item's type in Pascal case (PATH_FEEDRATE is
 * PathFeedrate) and its text what a line has for the value. A condition's element is its level, or Unavailable, with
 * the type and, but for Unavailable, the nativeCode. Without rows Streams is empty. Nothing has to be escaped.
 * docs/HOST.md, "A streams document", has one.
 * Refuses, in this order, each asked of the whole reply before the next: MTCORE_MODEL, MTCORE_STORE (fewer words than
 * the reply has, or a row whose packed value no item of the model can have), MTCORE_STAMP (creation_time or the time of
 * a row above MTCORE_MAX_STAMP), MTCORE_SPACE. Not a byte of the text is written then.
 */
mtcore_answer mtcore_streams(const uint32_t *model, size_t model_len, const uint8_t *names, size_t names_len,
                             const uint64_t *reply, size_t reply_len, uint64_t n, uint64_t instance_id,
                             uint64_t creation_time, uint8_t *text, size_t text_len);

/*
 * Finds the body of an asset. It stands in the asset store itself, and stays there until the next mtcore_store_asset
 * or mtcore_start.
 *
 * Takes: the asset store and an id.
 * Gives: the part of the store that is the body; length 0 on any fault (a wrong store, no id, an id that isn't stored,
 * a damaged length).
 */
mtcore_part mtcore_body(const uint8_t *assets, size_t assets_len, const uint8_t *id, size_t id_len);

#ifdef __cplusplus
}
#endif

#endif
