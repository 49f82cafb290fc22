/* A donor screen beside the rule of shelf.c: it thanks for a lot that was seen before. Each lot is looked up before its event is
 * judged, and the event's answer tells how many lots it newly numbered. What this prints stands in donor.out. */
#include "moheguzari.h"

#include <stdio.h>

enum { K = 2, C = 64 };

enum { CONFIRMED = 1, QUESTIONED = 2, SHELVED = 3 };

enum { LOT = 0 }; /* the variable */

static const uint32_t rows[] = {
    2, SHELVED,    1, 0, LOT, 0, 0, 0, 0, /* 0: the lot is shelved */
    2, QUESTIONED, 1, 0, LOT, 0, 0, 0, 0, /* 1: it is questioned */
    4, 1,          0, 0, 0,   0, 0, 0, 0, /* 2: it is not questioned */
    2, CONFIRMED,  1, 0, LOT, 0, 0, 0, 0, /* 3: it is confirmed */
    5, 2,          3, 0, 0,   0, 0, 0, 0, /* 4: not questioned since it was confirmed */
    4, 4,          0, 0, 0,   0, 0, 0, 0, /* 5: not 4 */
    3, 0,          5, 0, 0,   0, 0, 0, 0, /* 6: shelved all the same */
    7, LOT,        6, 0, 0,   0, 0, 0, 0, /* 7: there is such a lot */
    4, 7,          0, 0, 0,   0, 0, 0, 0, /* 8: there is none */
};

static uint32_t nodes[MOHEGUZARI_NODES(C)];
static uint32_t values[MOHEGUZARI_VALUES(K)];
static uint32_t work[MOHEGUZARI_WORK(C)];
static uint32_t state[MOHEGUZARI_STATE];
static uint32_t answer[MOHEGUZARI_ANSWER];

#define SLICE(array) array, sizeof array / sizeof *array

static const struct {
    uint32_t predicate, lot;
} events[] = {
    {CONFIRMED, 4001}, {CONFIRMED, 4002}, {SHELVED, 4001}, {CONFIRMED, 4003}, {QUESTIONED, 4002}, {CONFIRMED, 4004}, {SHELVED, 4003},
};

/* What the screen says of a lot. */
static bool screen(uint32_t lot) {
    uint32_t found[MOHEGUZARI_FOUND];
    if (!moheguzari_lookup(SLICE(values), SLICE(state), LOT, lot, SLICE(found))) return false;
    switch (found[0]) {
    case MOHEGUZARI_HAS: printf("lot %u: thank you again (number %u)\n", lot, found[1]); return true;
    case MOHEGUZARI_ONE_LEFT: printf("lot %u: welcome\n", lot); return true;
    case MOHEGUZARI_NONE_LEFT: printf("lot %u: new, and the list is full\n", lot); return true;
    default: return false;
    }
}

int main(void) {
    if (!moheguzari_start(K, SLICE(rows), SLICE(nodes), SLICE(values), SLICE(state), SLICE(answer)) || answer[0] != 0) return 1;
    for (size_t i = 0; i < sizeof events / sizeof *events; i++) {
        const uint32_t fact[MOHEGUZARI_FACTS(1)] = {events[i].predicate, 1, events[i].lot};
        if (!screen(events[i].lot)) return 1;
        if (!moheguzari_event(SLICE(rows), SLICE(nodes), SLICE(values), SLICE(work), SLICE(fact), SLICE(state), SLICE(answer)))
            return 1;
        if (answer[0] != 0)
            printf("  refused %u %u\n", answer[0], answer[1]);
        else
            printf("  %s, lots newly numbered: %u\n", answer[1] ? "yes" : "no", answer[6 + LOT]);
    }
    return 0;
}
