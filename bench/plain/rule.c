#include "rule.h"

// Which of p, q and the arguments a kind uses, and how.
enum use { ZERO, ROW, VARIABLE, ANY };
static const struct {
    enum use p, q;
} uses[] = {
    [TRUE] = {ZERO, ZERO},   [ATOM] = {ANY, ANY},         [AND] = {ROW, ROW},          [NOT] = {ROW, ZERO},
    [SINCE] = {ROW, ROW},    [PREVIOUS] = {ROW, ZERO},    [EXISTS] = {VARIABLE, ROW},
};

static bool used_rightly(enum use use, uint32_t number, uint32_t place)
{
    switch (use) {
    case ZERO:
        return number == 0;
    case ROW:
        return number < place;
    case VARIABLE:
        return number < VARIABLES;
    default:
        return true;
    }
}

static bool arguments_right(const struct row *row)
{
    uint32_t count = row->kind == ATOM ? row->q : 0;
    if (count > ARGUMENTS)
        return false;
    for (uint32_t j = 0; j < ARGUMENTS; j++) {
        const struct argument *a = &row->arguments[j];
        if (j >= count ? a->mark != 0 || a->value != 0 : a->mark > 1 || (a->mark == 0 && a->value >= VARIABLES))
            return false;
    }
    return true;
}

static bool row_right(const struct row *row, uint32_t place)
{
    if (row->kind < TRUE || row->kind > EXISTS)
        return false;
    return used_rightly(uses[row->kind].p, row->p, place) && used_rightly(uses[row->kind].q, row->q, place) &&
           arguments_right(row);
}

static uint8_t free_in(const struct rule *rule, const struct row *row)
{
    uint8_t free = 0;
    switch (row->kind) {
    case ATOM:
        for (uint32_t j = 0; j < row->q; j++)
            if (row->arguments[j].mark == 0)
                free |= (uint8_t)(1u << row->arguments[j].value);
        return free;
    case AND:
    case SINCE:
        return rule->free[row->p] | rule->free[row->q];
    case NOT:
    case PREVIOUS:
        return rule->free[row->p];
    case EXISTS:
        return rule->free[row->q] & (uint8_t)~(1u << row->p);
    default:
        return 0;
    }
}

bool rule_disagrees(const struct rule *rule, uint32_t predicate, uint32_t count)
{
    for (uint32_t i = 0; i < rule->count; i++)
        if (rule->rows[i].kind == ATOM && rule->rows[i].p == predicate)
            return rule->rows[i].q != count;
    return false;
}

bool rule_read(struct rule *rule, const uint32_t *numbers, size_t length, uint32_t *place)
{
    *place = 0;
    if (length % FIELDS != 0 || length < FIELDS || length > MOST_ROWS * FIELDS)
        return false;
    rule->rows = (const struct row *)numbers;
    uint32_t count = (uint32_t)(length / FIELDS);
    for (uint32_t i = 0; i < count; i++) {
        const struct row *row = &rule->rows[i];
        *place = i;
        rule->count = i;
        if (!row_right(row, i) || (row->kind == ATOM && rule_disagrees(rule, row->p, row->q)))
            return false;
        rule->free[i] = free_in(rule, row);
    }
    rule->count = count;
    return rule->free[count - 1] == 0;
}
