/* A guest that sends requests of kinds.h, and sees to it that each gets one response, with what is due on it. */
#ifndef GUEST_H
#define GUEST_H

#include "check.h"
#include "macros.h"

enum { MOST_REQUESTS = 32768 };

typedef struct {
    const halves *macros;
    uint32_t requests; /* to be sent in all */
    uint32_t sent;
    uint32_t collected;
    bool answered[MOST_REQUESTS];
} guest;

/* Sends some requests; says whether the back end wants to be notified. */
static inline bool send_some(guest *g, uint32_t port, uint32_t some) {
    for (; some > 0 && g->sent < g->requests && g->macros->put(port, g->sent); some--)
        g->sent++;
    return g->macros->push(port);
}

static inline void take_response(guest *g, uint32_t port, const response *given) {
    uint64_t number = given->id - id_of(port, 0);
    CHECK(number < g->sent && !g->answered[number % MOST_REQUESTS]);
    CHECK_EQ(given->operation, kind_of(port, (uint32_t)number)->operation);
    CHECK_EQ(given->status, status_due(port, (uint32_t)number));
    g->answered[number % MOST_REQUESTS] = true;
    g->collected++;
}

/* Collects the responses, and asks to be notified of the next one, or of one later than that. */
static inline void collect_all(guest *g, uint32_t port, uint32_t later) {
    response came[MOST_SLOTS];
    do {
        uint32_t count = g->macros->collect(port, came);
        CHECK(count <= g->macros->slots(port));
        for (uint32_t i = 0; i < count && count <= MOST_SLOTS; i++)
            take_response(g, port, &came[i]);
    } while (g->macros->ask(port, later) && running.failures == 0);
}

#endif
