// Rows of a rule, and their check (refusal 2).
#ifndef RULE_H
#define RULE_H

#include <stdbool.h>
#include <stddef.h>
#include <stdint.h>

enum { VARIABLES = 4, FIELDS = 9, MOST_ROWS = 64, ARGUMENTS = 3 };
enum { TRUE = 1, ATOM, AND, NOT, SINCE, PREVIOUS, EXISTS };

// The nine numbers of a row. An argument's mark is 0 for a variable and 1 for a constant.
struct row {
    uint32_t kind, p, q;
    struct argument {
        uint32_t mark, value;
    } arguments[ARGUMENTS];
};

// The rows, and the free variables of each: bit v for variable v.
struct rule {
    const struct row *rows;
    uint32_t count;
    uint8_t free[MOST_ROWS];
};

// Reads a rule, and says whether it is one. If not, *place is the place of refusal 2.
bool rule_read(struct rule *rule, const uint32_t *numbers, size_t length, uint32_t *place);

// Whether the rule has atoms of this predicate with another count of arguments.
bool rule_disagrees(const struct rule *rule, uint32_t predicate, uint32_t count);

#endif
