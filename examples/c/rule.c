/* A rule typed as text, its rows and its names, and the monitor started on it. */
#include "moheguzari.h"
#include "moheguzari_rule.h"

#include <stdio.h>
#include <string.h>

#define SLICE(array) array, sizeof array / sizeof *array

int main(void) {
    static const char text[] = "!exists lot . shelved(lot) & !(!questioned(lot) S confirmed(lot))";
    static uint32_t rows[MOHEGUZARI_RULE_ROWS], told[MOHEGUZARI_RULE_ANSWER];
    static uint32_t nodes[MOHEGUZARI_NODES(64)], values[MOHEGUZARI_VALUES(4)], state[MOHEGUZARI_STATE], answer[MOHEGUZARI_ANSWER];

    if (!moheguzari_rule((const uint8_t *)text, strlen(text), SLICE(rows), SLICE(told))) return 1;
    if (told[0] != 0) {
        printf("refused %u at %u\n", (unsigned)told[0], (unsigned)told[1]);
        return 1;
    }
    for (uint32_t p = 0; p < told[3]; p++)
        printf("predicate %u is %.*s\n", (unsigned)p, (int)MOHEGUZARI_RULE_LENGTH(told, p), text + MOHEGUZARI_RULE_PLACE(told, p));
    for (uint32_t v = 0; v < told[4]; v++)
        printf("variable %u is %.*s\n", (unsigned)v, (int)MOHEGUZARI_RULE_SLOT_LENGTH(told, v), text + MOHEGUZARI_RULE_SLOT_PLACE(told, v));
    if (!moheguzari_start(4, rows, MOHEGUZARI_ROWS(told[2]), SLICE(nodes), SLICE(values), SLICE(state), SLICE(answer))) return 1;
    printf("%u rows, start says %u\n", (unsigned)told[2], (unsigned)answer[0]);
    if (!moheguzari_rule((const uint8_t *)"p &", 3, SLICE(rows), SLICE(told))) return 1;
    printf("refused %u at %u, first number of the rows %u\n", (unsigned)told[0], (unsigned)told[1], (unsigned)rows[0]);
    return 0;
}
