#include "place.h"

#include <string.h>

void reset(void) {
    memset(&bench.memory, 0, sizeof bench.memory);
    memset(bench.ports, 0, sizeof bench.ports);
    bench.pointer = 0;
}

/* Rubbish in every byte: a ring page has no need to be clean. */
void fill_rings(void) {
    uint32_t x = 2463534242;
    for (unsigned i = 0; i < KH_RINGS_BYTES; i++) {
        x ^= x << 13;
        x ^= x >> 17;
        x ^= x << 5;
        rings[i] = (uint8_t)(x >> 11);
    }
}

static void turn_of(unsigned port, uint64_t *answer) {
    uint32_t refusal = kh_turn(&bench.memory, rings, KH_RINGS_BYTES, bench.grants, KH_GRANTS_BYTES, answer);
    if (refusal != KH_OK || answer[KH_TURN_PORT] != port)
        fail("a turn was to serve port %u", port);
    bench.pointer = (port + 1) % PORTS;
}

uint32_t serve(unsigned port, const struct request *request) {
    struct book *book = &bench.ports[port];
    uint64_t answer[KH_TURN_WORDS];
    put_request(port, book->taken, request);
    turn_of(port, answer);
    if (answer[KH_TURN_KIND] != (request->reason ? ANSWERED : STARTED))
        fail("%s on port %u: kind %u", request->name, port, (unsigned)answer[KH_TURN_KIND]);
    book->taken++;
    if (request->reason)
        book->answered++;
    return (uint32_t)answer[KH_TURN_TAG];
}

void overrun(unsigned port) {
    uint64_t answer[KH_TURN_WORDS];
    store32(rings + header_at(port, REQ_PROD), bench.ports[port].taken + slots_of(port) + 1);
    turn_of(port, answer);
    if (answer[KH_TURN_KIND] != OVERRUN)
        fail("port %u was to overrun", port);
    bench.ports[port].state = BROKEN;
}

void set_notify(unsigned port, bool notify) {
    store32(rings + header_at(port, RSP_EVENT), bench.ports[port].answered + (notify ? 1 : 2));
}

const struct shape *other_shape(unsigned port) {
    return &shapes[port % SHAPES];
}

static void close_port(unsigned port) {
    if (kh_close(&bench.memory, port) != KH_OK)
        fail("port %u does not close", port);
    bench.ports[port] = (struct book){.state = CLOSED};
}

void set_pointer(unsigned pointer) {
    unsigned before = (pointer + PORTS - 1) % PORTS;
    enum state state = bench.ports[before].state;
    if (state != OPEN) {
        if (state == BROKEN)
            close_port(before);
        open_port(before, other_shape(before), NULL);
    }
    if (state == BROKEN)
        overrun(before);
    else
        serve(before, &dummy);
    if (state == CLOSED)
        close_port(before);
}

static void prepare_others(const struct place *place) {
    for (unsigned k = 0; k < PORTS; k++) {
        if (k == place->port || place->others == ALONE)
            continue;
        open_port(k, other_shape(k), NULL);
        if (place->others == MIXED && k % 2 == 0)
            overrun(k);
    }
}

void prepare(const struct place *place, const struct shape *shape, const struct disk *disk) {
    bool last_served = (place->port + 1) % PORTS == place->pointer;
    unsigned served = place->slot;
    if (served < place->in_flight || (served == 0 && last_served))
        served += PAGE_SLOTS * shape->pages;
    reset();
    prepare_others(place);
    open_port(place->port, shape, disk);
    for (unsigned i = 0; i < served; i++)
        serve(place->port, i < served - place->in_flight ? &dummy : &held);
    if (!last_served)
        set_pointer(place->pointer);
}
