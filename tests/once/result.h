/* All that one call did: what it answered, the backend and guest memory after it, and the ring bytes that it stored. */
#ifndef ONCE_RESULT_H
#define ONCE_RESULT_H

#include "bench.h"
#include "trap.h"

enum { MOST_STORED = 2048 };

struct stored {
    unsigned at;
    uint8_t value;
};

struct result {
    struct outcome outcome;
    kh_memory memory;
    kh_guest guest;
    unsigned stored_count;
    struct stored stored[MOST_STORED];
};

/* Makes the call under the trap, on the memory and rings as they are. */
void traced_call(const struct backend *backend, const struct call *call, meddler *meddle, struct trace *trace,
                 struct result *result);

bool is_same(const struct result *one, const struct result *other);

#endif
