/* The bench case of the specification, two items and a ring of three, and the streams document of its first sample:
 * what a client gets, byte for byte. */
#include <stdio.h>
#include <string.h>

#include "mtcore.h"

enum { N = 3, A = 1, COMPONENTS = 2, ITEMS = 2 };

static const uint8_t names[][MTCORE_NAME] = {"Device", "Axes", "AVAILABILITY", "POSITION"};

static const uint32_t model[2 + COMPONENTS + ITEMS] = {
    COMPONENTS,
    ITEMS,
    MTCORE_COMPONENT(0, 0),
    MTCORE_COMPONENT(0, 1),
    MTCORE_DATA_ITEM(MTCORE_CATEGORY_EVENT, 0, 2),
    MTCORE_DATA_ITEM(MTCORE_CATEGORY_SAMPLE, 1, 3),
};

static uint64_t observations[MTCORE_OBSERVATION_WORDS(N, ITEMS)];
static uint8_t assets[MTCORE_ASSET_BYTES(A)];
static uint64_t reply[MTCORE_REPLY_WORDS(N)];
static uint8_t text[MTCORE_STREAMS_BYTES(COMPONENTS, N)];

#define COUNT(x) (sizeof(x) / sizeof((x)[0]))
#define MODEL model, COUNT(model), names[0], sizeof names
#define OBSERVATIONS observations, COUNT(observations)

int main(void) {
    const char *request = "/sample";
    const uint64_t instance = 1, now = 2000;
    mtcore_answer r = mtcore_start(MODEL, OBSERVATIONS, assets, sizeof assets, N, A, 1, 1000);
    mtcore_observe(MODEL, OBSERVATIONS, 1, 1010, 1010, mtcore_sample(5000));
    mtcore_observe(MODEL, OBSERVATIONS, 1, 1030, 1030, mtcore_sample(-1));
    if (r.number == 0)
        r = mtcore_request(MODEL, OBSERVATIONS, assets, sizeof assets, (const uint8_t *)request, strlen(request), reply,
                           COUNT(reply));
    if (r.number == 0)
        r = mtcore_streams(MODEL, reply, COUNT(reply), N, instance, now, text, sizeof text);
    fwrite(text, 1, (size_t)r.count, stdout);
    return r.number == 0 ? 0 : 1;
}
