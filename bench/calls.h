// The two calls as function pointers, so that the proved library and the plain monitor are run by the same code.
#ifndef CALLS_H
#define CALLS_H

#include <stdbool.h>
#include <stddef.h>
#include <stdint.h>

typedef bool start_call(uint32_t k, const uint32_t *rows, size_t rows_len, uint32_t *nodes, size_t nodes_len,
                        uint32_t *values, size_t values_len, uint32_t *state, size_t state_len,
                        uint32_t *answer, size_t answer_len);

typedef bool event_call(const uint32_t *rows, size_t rows_len, uint32_t *nodes, size_t nodes_len,
                        uint32_t *values, size_t values_len, uint32_t *work, size_t work_len, const uint32_t *facts,
                        size_t facts_len, uint32_t *state, size_t state_len, uint32_t *answer, size_t answer_len);

struct monitor {
    const char *name;
    start_call *start;
    event_call *event;
};

// The proved library's.
start_call moheguzari_start;
event_call moheguzari_event;

#endif
