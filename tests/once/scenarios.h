/* The calls to look at: each is made ready and handed to a visitor, with what the rules say of its outcome. */
#ifndef ONCE_SCENARIOS_H
#define ONCE_SCENARIOS_H

#include "bench.h"

struct expect {
    uint32_t refusal;
    enum kind kind;
    uint32_t port, reason, status;
    unsigned entries; /* of a list */
    bool secure, notify;
};

/* Scenarios of one name and shape come one after the other; the first is the sample of them. */
struct scenario {
    const char *name;
    const struct shape *shape; /* of the ring of the port that is served or completed on */
    bool sample;
    struct call call;
    struct expect expect;
};

typedef void visitor(const struct scenario *scenario);

/* Whom calls go to. Asked whether a name is wanted, before a call is made ready, which costs more than the call. */
struct taker {
    bool (*is_wanted)(const char *name);
    void (*hand_over)(const char *name, const struct call *call, const struct expect *expect);
};

/* All of them; the samples; or of the samples with rings of two pages some, and all others. */
enum extent { ALL, SAMPLES, FEW };

/* In one shape after the other. */
void each_scenario(visitor *visit, enum extent extent);

#endif
