/* Moheguzari: rules typed as text. One call, for programs in C: a text is translated into the rows that moheguzari_start takes, or refused.
 *
 * As in moheguzari.h the caller owns every slice and lends it for the time of one call; a slice is a pointer that is not null, aligned for its
 * numbers, and a count; no two slices of a call overlap. Whatever bytes and numbers the slices hold, and whatever their counts are, the call is
 * defined. It has a library of its own, which the monitor's does not need: libmoheguzari_rule.a (docs/LINKING.md).
 *
 * An answer is 141 numbers:
 *   0, 0, n, p, v     a text that is taken: n rows, p predicates, v variables; moheguzari_start takes the first 9 * n numbers of the row slice
 *   r, place, 0, 0, 0 a refusal with number r and its place, which is 0 for all but MOHEGUZARI_RULE_NO_TEXT
 * and after these five, where the names stand in the text: MOHEGUZARI_RULE_PLACE and MOHEGUZARI_RULE_LENGTH of each predicate, and
 * MOHEGUZARI_RULE_SLOT_PLACE and MOHEGUZARI_RULE_SLOT_LENGTH of each variable; all others are 0.
 */
#ifndef MOHEGUZARI_RULE_H
#define MOHEGUZARI_RULE_H

#include <stdbool.h>
#include <stddef.h>
#include <stdint.h>

#ifdef __cplusplus
extern "C" {
#endif

#define MOHEGUZARI_RULE_ROWS 576
#define MOHEGUZARI_RULE_ANSWER 141
#define MOHEGUZARI_RULE_TEXT 4096

/* Where predicate number p's name begins in the text, and how long it is; and the same of the variable in slot v. */
#define MOHEGUZARI_RULE_PLACE(answer, p) ((answer)[5 + (p)])
#define MOHEGUZARI_RULE_LENGTH(answer, p) ((answer)[69 + (p)])
#define MOHEGUZARI_RULE_SLOT_PLACE(answer, v) ((answer)[133 + (v)])
#define MOHEGUZARI_RULE_SLOT_LENGTH(answer, v) ((answer)[137 + (v)])

/* The refusals, of which the first that applies is given. */
enum {
    MOHEGUZARI_RULE_BAD_LENGTH = 1,  /* the row slice has not MOHEGUZARI_RULE_ROWS numbers */
    MOHEGUZARI_RULE_TOO_LONG = 2,    /* the text has more than MOHEGUZARI_RULE_TEXT bytes */
    MOHEGUZARI_RULE_NO_TEXT = 3,     /* no rule text can go on at the place: a byte, or the end */
    MOHEGUZARI_RULE_CONSTANT = 4,    /* a constant is over 2^32 - 1 */
    MOHEGUZARI_RULE_ARGUMENTS = 5,   /* an atom has more than 3 arguments */
    MOHEGUZARI_RULE_VARIABLES = 6,   /* there are more than 4 variables */
    MOHEGUZARI_RULE_TWO_COUNTS = 7,  /* one name has two counts of arguments */
    MOHEGUZARI_RULE_FREE = 8,        /* a variable is free */
    MOHEGUZARI_RULE_MANY_ROWS = 9    /* there are more than 64 rows */
};

/* Translates a text. False, with nothing written, where answer has not MOHEGUZARI_RULE_ANSWER numbers. Else true.
 *   text          the text, without an end mark; only read
 *   rows          the rows, and zeros after them; as it was where the text is refused
 *   answer        written, whatever it held */
bool moheguzari_rule(const uint8_t *text, size_t text_len,
                     uint32_t *rows, size_t rows_len,
                     uint32_t *answer, size_t answer_len);

#ifdef __cplusplus
}
#endif

#endif
