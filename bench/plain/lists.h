// The lists of values that have numbers, and what the facts of an event ask of them (refusal 6).
#ifndef LISTS_H
#define LISTS_H

#include "rule.h"

// The five numbers of a fact.
struct fact {
    uint32_t predicate, count;
    uint32_t values[ARGUMENTS];
};

// The facts of an event, of which there are at most FACTS where none is refused.
struct event {
    const struct fact *facts;
    size_t count;
};

enum { FACTS = 8 };

#define NO_NUMBER UINT32_MAX

// What an event asks: the counts after it, each variable's new values in order, and the number that variable v has for
// value j of fact i, if an atom asked for it.
struct asked {
    uint32_t counts[VARIABLES];
    uint32_t fresh[VARIABLES][FACTS * ARGUMENTS];
    uint32_t numbers[FACTS][VARIABLES][ARGUMENTS];
};

// Whether no count is over `most`, no value stands twice in a list, and what is past the counts is 0.
bool lists_right(uint32_t most, const uint32_t counts[VARIABLES], const uint32_t *values);

// Whether a row is an atom that matches the fact. The fact's count agrees with the rule.
bool row_matches(const struct row *row, const struct fact *fact);

// What the event asks, fact by fact and the rows in order within each, whether or not there are so many numbers.
void lists_ask(struct asked *asked, uint32_t most, const uint32_t counts[VARIABLES], const uint32_t *values,
               const struct rule *rule, const struct event *event);

// Writes the new values down.
void lists_write(const struct asked *asked, uint32_t most, const uint32_t before[VARIABLES], uint32_t *values);

#endif
