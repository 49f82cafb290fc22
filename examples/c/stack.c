/* How much stack the calls take, at most, over a run that fills a table of 4,096 nodes with k = 10: they run on a stack of their own that
 * is painted first, and what is no longer paint was used. Prints the bytes below the caller's frame, and fails above ENOUGH. */
#define _XOPEN_SOURCE 700
#include "moheguzari.h"

#include <pthread.h>
#include <stdio.h>
#include <stdlib.h>
#include <string.h>

enum { K = 10, C = 4096, EVENTS = 200, FACTS = MOHEGUZARI_MOST_FACTS, PAINT = 0xA5, STACK = 1 << 20, ENOUGH = 32 << 10 };

/* A rule over four variables: its diagrams have all 40 levels, and every walk over diagrams goes down them. */
static const uint32_t rows[] = {
    2, 1, 3, 0, 0, 0, 1, 0, 2, /* 0: p(x, y, z) */
    2, 2, 1, 0, 3, 0, 0, 0, 0, /* 1: q(w) */
    1, 0, 0, 0, 0, 0, 0, 0, 0, /* 2: true */
    5, 2, 0, 0, 0, 0, 0, 0, 0, /* 3: p once */
    5, 2, 1, 0, 0, 0, 0, 0, 0, /* 4: q once */
    3, 3, 4, 0, 0, 0, 0, 0, 0, /* 5: both: 40 levels */
    4, 5, 0, 0, 0, 0, 0, 0, 0, /* 6: not both */
    5, 6, 5, 0, 0, 0, 0, 0, 0, /* 7: 6 since 5 */
    6, 7, 0, 0, 0, 0, 0, 0, 0, /* 8: previous 7 */
    7, 0, 7, 0, 0, 0, 0, 0, 0, /* 9: exists x */
    7, 1, 9, 0, 0, 0, 0, 0, 0, /* 10: exists y */
    7, 2, 10, 0, 0, 0, 0, 0, 0, /* 11: exists z */
    7, 3, 11, 0, 0, 0, 0, 0, 0, /* 12: exists w */
};

static uint32_t nodes[MOHEGUZARI_NODES(C)];
static uint32_t values[MOHEGUZARI_VALUES(K)];
static uint32_t work[MOHEGUZARI_WORK(C)];
static uint32_t state[MOHEGUZARI_STATE];
static uint32_t answer[MOHEGUZARI_ANSWER];
static unsigned char *stack;
static size_t start_used, event_used;
static unsigned taken, lists, full;

#define SLICE(array) array, sizeof array / sizeof *array

/* What is used below this frame of the painted stack. */
static size_t below(const unsigned char *frame) {
    const unsigned char *at = stack;
    while (*at == PAINT) at++;
    return (size_t)(frame - at);
}

static void *run(void *unused) {
    unsigned char frame;
    static uint32_t facts[MOHEGUZARI_FACTS(FACTS)];
    uint32_t x = 1;
    (void)unused;
    if (!moheguzari_start(K, SLICE(rows), SLICE(nodes), SLICE(values), SLICE(state), SLICE(answer)) || answer[0] != 0) exit(1);
    start_used = below(&frame);
    for (unsigned i = 0; i < EVENTS; i++) {
        const size_t count = i % 10 == 0 ? FACTS : 1;
        for (size_t j = 0; j < count; j++) {
            x = x * 1664525u + 1013904223u;
            const uint32_t fact[] = {1 + (i + j) % 2, (i + j) % 2 ? 1 : 3, x >> 8, x >> 4, x >> 12};
            memcpy(facts + MOHEGUZARI_FACTS(j), fact, sizeof fact);
        }
        if (!moheguzari_event(SLICE(rows), SLICE(nodes), SLICE(values), SLICE(work), facts, MOHEGUZARI_FACTS(count), SLICE(state),
                              SLICE(answer)))
            exit(1);
        if (answer[0] == 0) taken++;
        if (answer[0] == 0 && count == FACTS) lists++;
        if (answer[0] == MOHEGUZARI_NO_ROOM) full++;
    }
    event_used = below(&frame);
    return NULL;
}

int main(void) {
    pthread_t thread;
    pthread_attr_t attributes;
    if ((stack = aligned_alloc(4096, STACK)) == NULL) return 1;
    memset(stack, PAINT, STACK);
    if (pthread_attr_init(&attributes) != 0 || pthread_attr_setstack(&attributes, stack, STACK) != 0) return 1;
    if (pthread_create(&thread, &attributes, run, NULL) != 0 || pthread_join(thread, NULL) != 0) return 1;
    printf("start %zu\nevent %zu\n", start_used, event_used);
    return taken == 0 || lists == 0 || full == 0 || event_used > ENOUGH;
}
