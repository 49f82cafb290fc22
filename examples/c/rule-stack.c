/* How much stack a translation takes, at most: on a stack of its own that is painted first, texts of 4,096 bytes that go through every pass.
 * Prints the bytes below the caller's frame, and fails above ENOUGH. */
#define _XOPEN_SOURCE 700
#include "moheguzari_rule.h"

#include <pthread.h>
#include <stdio.h>
#include <stdlib.h>
#include <string.h>

enum { PAINT = 0xA5, STACK = 1 << 20, ENOUGH = 32 << 10 };

static uint32_t rows[MOHEGUZARI_RULE_ROWS], told[MOHEGUZARI_RULE_ANSWER];
static uint8_t text[MOHEGUZARI_RULE_TEXT];
static unsigned char *stack;
static size_t used;

#define SLICE(array) array, sizeof array / sizeof *array

/* What is used below this frame of the painted stack. */
static size_t below(const unsigned char *frame) {
    const unsigned char *at = stack;
    while (*at == PAINT) at++;
    return (size_t)(frame - at);
}

static void *run(void *unused) {
    unsigned char frame;
    (void)unused;
    /* 2,047 parentheses deep, and taken; */
    memset(text, '(', 2047);
    text[2047] = 'p';
    memset(text + 2048, ')', 2047);
    text[4095] = ' ';
    if (!moheguzari_rule(SLICE(text), SLICE(rows), SLICE(told)) || told[0] != 0 || told[2] != 1) exit(1);
    /* 4,095 prefix operators deep, refused with 9; */
    memset(text, '@', 4095);
    text[4095] = 'p';
    if (!moheguzari_rule(SLICE(text), SLICE(rows), SLICE(told)) || told[0] != MOHEGUZARI_RULE_MANY_ROWS) exit(1);
    /* and 2,048 names, refused with 9. */
    for (unsigned i = 0; i < sizeof text; i++) text[i] = i % 2 ? '&' : (uint8_t)('a' + i / 2 % 26);
    text[4095] = ' ';
    if (!moheguzari_rule(SLICE(text), SLICE(rows), SLICE(told)) || told[0] != MOHEGUZARI_RULE_MANY_ROWS) exit(1);
    used = below(&frame);
    return NULL;
}

int main(void) {
    pthread_attr_t how;
    pthread_t thread;
    if (posix_memalign((void **)&stack, 4096, STACK)) return 1;
    memset(stack, PAINT, STACK);
    if (pthread_attr_init(&how) || pthread_attr_setstack(&how, stack, STACK)) return 1;
    if (pthread_create(&thread, &how, run, NULL) || pthread_join(thread, NULL)) return 1;
    printf("rule %zu\n", used);
    return used <= ENOUGH ? 0 : 1;
}
