/* The scale and the reader report together: an event is the facts of one moment, and the rule "weighed and scanned at once" holds after
 * an event that has both of one lot, and after no other. What it prints stands in scale.out. */
#include "moheguzari.h"

#include <stdio.h>

enum { K = 2, C = 16 };

enum { WEIGHED = 1, SCANNED = 2 };

/* kind, p, q, and three arguments as mark and value. The variable is the lot. */
static const uint32_t rows[] = {
    2, WEIGHED, 1, 0, 0, 0, 0, 0, 0, /* 0: the lot is weighed */
    2, SCANNED, 1, 0, 0, 0, 0, 0, 0, /* 1: it is scanned */
    3, 0,       1, 0, 0, 0, 0, 0, 0, /* 2: both at once */
    7, 0,       2, 0, 0, 0, 0, 0, 0, /* 3: there is such a lot */
};

static uint32_t nodes[MOHEGUZARI_NODES(C)];
static uint32_t values[MOHEGUZARI_VALUES(K)];
static uint32_t work[MOHEGUZARI_WORK(C)];
static uint32_t state[MOHEGUZARI_STATE];
static uint32_t answer[MOHEGUZARI_ANSWER];

#define SLICE(array) array, sizeof array / sizeof *array

/* A fact is five numbers: predicate, count of values, three values. */
#define FACT(predicate, lot) predicate, 1, lot, 0, 0

static const struct {
    const char *says;
    size_t count;
    uint32_t facts[MOHEGUZARI_FACTS(MOHEGUZARI_MOST_FACTS + 1)];
} events[] = {
    {"7 is weighed", 1, {FACT(WEIGHED, 7)}},
    {"7 is scanned", 1, {FACT(SCANNED, 7)}},
    {"7 is weighed and scanned", 2, {FACT(WEIGHED, 7), FACT(SCANNED, 7)}},
    {"7 is weighed, 8 is scanned", 2, {FACT(WEIGHED, 7), FACT(SCANNED, 8)}},
    {"nothing is", 0, {0}},
    {"three lots on the scale, one before the reader", 4,
     {FACT(WEIGHED, 7), FACT(WEIGHED, 8), FACT(WEIGHED, 9), FACT(SCANNED, 9)}},
    {"nine facts", 9,
     {FACT(WEIGHED, 7), FACT(SCANNED, 7), FACT(WEIGHED, 7), FACT(SCANNED, 7), FACT(WEIGHED, 7), FACT(SCANNED, 7),
      FACT(WEIGHED, 7), FACT(SCANNED, 7), FACT(WEIGHED, 7)}},
    {"a fourth lot", 2, {FACT(WEIGHED, 9), FACT(SCANNED, 10)}},
    {"9 is scanned and weighed", 2, {FACT(SCANNED, 9), FACT(WEIGHED, 9)}},
};

int main(void) {
    if (!moheguzari_start(K, SLICE(rows), SLICE(nodes), SLICE(values), SLICE(state), SLICE(answer))) return 1;
    if (answer[0] != 0) {
        printf("no start %u %u\n", answer[0], answer[1]);
        return 1;
    }
    puts("event verdict kept room");
    for (size_t i = 0; i < sizeof events / sizeof *events; i++) {
        if (!moheguzari_event(SLICE(rows), SLICE(nodes), SLICE(values), SLICE(work), events[i].facts,
                              MOHEGUZARI_FACTS(events[i].count), SLICE(state), SLICE(answer)))
            return 1;
        if (answer[0] != 0)
            printf("%zu refused %u %u", i + 1, answer[0], answer[1]);
        else
            printf("%zu %s %u %u", i + 1, answer[1] ? "yes" : "no", answer[2], answer[3]);
        printf(": %s\n", events[i].says);
    }
    return 0;
}
