#include "result.h"

#include <string.h>

/* The bytes are kept in the order of their places, each with what was stored last. */
static void note_stored(struct result *result, unsigned at, uint8_t value) {
    unsigned i = result->stored_count;
    while (i > 0 && result->stored[i - 1].at > at)
        i--;
    if (i > 0 && result->stored[i - 1].at == at) {
        result->stored[i - 1].value = value;
        return;
    }
    if (result->stored_count == MOST_STORED)
        fail("a call stored more than %u ring bytes", MOST_STORED);
    memmove(result->stored + i + 1, result->stored + i, (result->stored_count - i) * sizeof *result->stored);
    result->stored[i] = (struct stored){at, value};
    result->stored_count++;
}

static void note_stores(struct result *result, const struct trace *trace) {
    result->stored_count = 0;
    for (unsigned i = 0; i < trace->count; i++) {
        const struct access *access = &trace->list[i];
        for (unsigned b = 0; access->store && b < access->size; b++)
            note_stored(result, access->at + b, access->stored[b]);
    }
}

void traced_call(const struct backend *backend, const struct call *call, meddler *meddle, struct trace *trace,
                 struct result *result) {
    memset(&result->outcome, 0, sizeof result->outcome);
    trap_begin(trace, meddle);
    call_backend(backend, call, out_of_reach, &result->outcome);
    trap_end();
    result->memory = bench.memory;
    result->guest = bench.guest;
    note_stores(result, trace);
}

static bool is_same_stored(const struct result *one, const struct result *other) {
    if (one->stored_count != other->stored_count)
        return false;
    for (unsigned i = 0; i < one->stored_count; i++)
        if (one->stored[i].at != other->stored[i].at || one->stored[i].value != other->stored[i].value)
            return false;
    return true;
}

bool is_same(const struct result *one, const struct result *other) {
    return one->outcome.refusal == other->outcome.refusal &&
           memcmp(one->outcome.answer, other->outcome.answer, sizeof one->outcome.answer) == 0 &&
           memcmp(&one->memory, &other->memory, sizeof one->memory) == 0 &&
           memcmp(&one->guest, &other->guest, sizeof one->guest) == 0 && is_same_stored(one, other);
}
