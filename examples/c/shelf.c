/* No lot goes on the people's shelf unless it was confirmed and not questioned since: the rule is judged after each event, in C.
 * Every event here is one fact; scale.c has several in one moment. Every table is an array of this program. What it prints stands in
 * shelf.out. */
#include "moheguzari.h"

#include <stdio.h>

enum { K = 2, C = 64 };

enum { CONFIRMED = 1, QUESTIONED = 2, SHELVED = 3 };

/* kind, p, q, and three arguments as mark and value. The variable is the lot. */
static const uint32_t rows[] = {
    2, SHELVED,    1, 0, 0, 0, 0, 0, 0, /* 0: the lot is shelved */
    2, QUESTIONED, 1, 0, 0, 0, 0, 0, 0, /* 1: it is questioned */
    4, 1,          0, 0, 0, 0, 0, 0, 0, /* 2: it is not questioned */
    2, CONFIRMED,  1, 0, 0, 0, 0, 0, 0, /* 3: it is confirmed */
    5, 2,          3, 0, 0, 0, 0, 0, 0, /* 4: not questioned since it was confirmed */
    4, 4,          0, 0, 0, 0, 0, 0, 0, /* 5: not 4 */
    3, 0,          5, 0, 0, 0, 0, 0, 0, /* 6: shelved all the same */
    7, 0,          6, 0, 0, 0, 0, 0, 0, /* 7: there is such a lot */
    4, 7,          0, 0, 0, 0, 0, 0, 0, /* 8: there is none */
};

static uint32_t nodes[MOHEGUZARI_NODES(C)];
static uint32_t values[MOHEGUZARI_VALUES(K)];
static uint32_t work[MOHEGUZARI_WORK(C)];
static uint32_t state[MOHEGUZARI_STATE];
static uint32_t answer[MOHEGUZARI_ANSWER];

#define SLICE(array) array, sizeof array / sizeof *array

static const struct {
    uint32_t predicate, count, lot;
} events[] = {
    {CONFIRMED, 1, 7}, {SHELVED, 1, 7}, {SHELVED, 1, 8}, {QUESTIONED, 1, 7}, {SHELVED, 1, 7},
    {CONFIRMED, 1, 9}, {CONFIRMED, 1, 10}, {SHELVED, 2, 9}, {SHELVED, 1, 9},
};

int main(void) {
    if (!moheguzari_start(K, SLICE(rows), SLICE(nodes), SLICE(values), SLICE(state), SLICE(answer))) return 1;
    if (answer[0] != 0) {
        printf("no start %u %u\n", answer[0], answer[1]);
        return 1;
    }
    puts("event verdict kept room");
    for (size_t i = 0; i < sizeof events / sizeof *events; i++) {
        const uint32_t fact[MOHEGUZARI_FACTS(1)] = {events[i].predicate, events[i].count, events[i].lot};
        if (!moheguzari_event(SLICE(rows), SLICE(nodes), SLICE(values), SLICE(work), SLICE(fact), SLICE(state), SLICE(answer)))
            return 1;
        if (answer[0] != 0)
            printf("%zu refused %u %u\n", i + 1, answer[0], answer[1]);
        else
            printf("%zu %s %u %u\n", i + 1, answer[1] ? "yes" : "no", answer[2], answer[3]);
    }
    return 0;
}
