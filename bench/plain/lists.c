#include "lists.h"

#include <string.h>

enum { SLOTS = 2048 };

static bool all_zero(const uint32_t *numbers, uint32_t count)
{
    uint32_t some = 0;
    for (uint32_t i = 0; i < count; i++)
        some |= numbers[i];
    return some == 0;
}

// Whether the values differ: an open table of places, at most half full.
static bool all_differ(const uint32_t *list, uint32_t count)
{
    uint16_t slots[SLOTS];
    uint32_t mask = 15;
    while (mask + 1 < 2 * count)
        mask = 2 * mask + 1;
    memset(slots, 0, (mask + 1) * sizeof slots[0]);
    for (uint32_t i = 0; i < count; i++) {
        uint32_t hash = list[i] * 2654435769u;
        uint32_t slot = (hash ^ hash >> 16) & mask;
        for (; slots[slot] != 0; slot = (slot + 1) & mask)
            if (list[slots[slot] - 1] == list[i])
                return false;
        slots[slot] = (uint16_t)(i + 1);
    }
    return true;
}

bool lists_right(uint32_t most, const uint32_t counts[VARIABLES], const uint32_t *values)
{
    for (uint32_t v = 0; v < VARIABLES; v++) {
        const uint32_t *list = values + v * most;
        if (counts[v] > most || !all_zero(list + counts[v], most - counts[v]) || !all_differ(list, counts[v]))
            return false;
    }
    return true;
}

bool row_matches(const struct row *row, const struct fact *fact)
{
    if (row->kind != ATOM || row->p != fact->predicate)
        return false;
    uint32_t bound[VARIABLES];
    bool is_bound[VARIABLES] = {false};
    for (uint32_t j = 0; j < row->q; j++) {
        uint32_t value = fact->values[j], a = row->arguments[j].value;
        if (row->arguments[j].mark == 1) {
            if (a != value)
                return false;
        } else if (!is_bound[a]) {
            is_bound[a] = true;
            bound[a] = value;
        } else if (bound[a] != value) {
            return false;
        }
    }
    return true;
}

static uint32_t find(const uint32_t *list, uint32_t count, uint32_t value)
{
    for (uint32_t i = 0; i < count; i++)
        if (list[i] == value)
            return i;
    return NO_NUMBER;
}

// The number of a value, which is given out if it has none.
static uint32_t number_of(struct asked *asked, uint32_t v, uint32_t before, const uint32_t *list, uint32_t value)
{
    uint32_t number = find(list, before, value);
    if (number != NO_NUMBER)
        return number;
    uint32_t fresh = asked->counts[v] - before;
    number = find(asked->fresh[v], fresh, value);
    if (number != NO_NUMBER)
        return before + number;
    asked->fresh[v][fresh] = value;
    return asked->counts[v]++;
}

// What one fact asks. `numbers` gets the number of its value j for variable v.
static void ask(struct asked *asked, uint32_t numbers[VARIABLES][ARGUMENTS], uint32_t most,
                const uint32_t counts[VARIABLES], const uint32_t *values, const struct rule *rule,
                const struct fact *fact)
{
    for (uint32_t i = 0; i < rule->count; i++) {
        const struct row *row = &rule->rows[i];
        if (!row_matches(row, fact))
            continue;
        for (uint32_t j = 0; j < row->q; j++) {
            uint32_t v = row->arguments[j].value;
            if (row->arguments[j].mark == 0 && numbers[v][j] == NO_NUMBER)
                numbers[v][j] = number_of(asked, v, counts[v], values + v * most, fact->values[j]);
        }
    }
}

void lists_ask(struct asked *asked, uint32_t most, const uint32_t counts[VARIABLES], const uint32_t *values,
               const struct rule *rule, const struct event *event)
{
    memcpy(asked->counts, counts, sizeof asked->counts);
    memset(asked->numbers, 0xff, event->count * sizeof asked->numbers[0]);
    for (size_t i = 0; i < event->count; i++)
        ask(asked, asked->numbers[i], most, counts, values, rule, &event->facts[i]);
}

void lists_write(const struct asked *asked, uint32_t most, const uint32_t before[VARIABLES], uint32_t *values)
{
    for (uint32_t v = 0; v < VARIABLES; v++)
        for (uint32_t i = before[v]; i < asked->counts[v]; i++)
            values[v * most + i] = asked->fresh[v][i - before[v]];
}
