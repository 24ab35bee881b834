#include "scenarios.h"

#include <string.h>

#include "guests.h"
#include "lists.h"
#include "place.h"

static visitor *visit_next;
static const char *last_name, *asked_name;
static unsigned names_asked;
static enum extent extent;
static const struct shape *shape; /* of the rings that are looked at now */

/* Asked before a call is made ready, which costs more than the call. */
static bool is_wanted(const char *name) {
    enum { OF_SO_MANY = 4 };
    names_asked += name != asked_name;
    asked_name = name;
    if (extent == ALL)
        return true;
    if (name == last_name)
        return false;
    return extent == SAMPLES || shape->pages == 1 || names_asked % OF_SO_MANY == 0;
}

static void hand_over(const char *name, const struct call *call, const struct expect *expect) {
    if (!is_wanted(name))
        return;
    struct scenario scenario = {
        .name = name, .shape = shape, .sample = name != last_name, .call = *call, .expect = *expect};
    last_name = name;
    visit_next(&scenario);
}

static const struct call turn = {.rings_bytes = KH_RINGS_BYTES, .grants_bytes = KH_GRANTS_BYTES};

static unsigned slots(void) {
    return PAGE_SLOTS * shape->pages;
}

/* Lists of places are written for rings of one page. In one of two, a slot other than 0 is as many further on, and 31
 * or 32 in flight are all but one, or all. */
static struct place in_ring(struct place place) {
    unsigned more = slots() - PAGE_SLOTS;
    place.slot += place.slot > 0 ? more : 0;
    place.in_flight += place.in_flight >= PAGE_SLOTS - 1 ? more : 0;
    return place;
}

/* ---- turns that serve */

/* The ring has as many requests as may wait, or only the one: either way one is served. */
static void turn_on(const char *name, const struct place *place, const struct request *request, bool notify,
                    bool many) {
    struct expect expect = {.kind = request->reason ? ANSWERED : STARTED,
                            .port = place->port,
                            .reason = request->reason,
                            .status = request->status,
                            .notify = notify};
    if (!is_wanted(name))
        return;
    prepare(place, shape, request->disk);
    uint32_t taken = bench.ports[place->port].taken;
    expect.secure = is_secure(place->port, request);
    put_request(place->port, taken, request);
    if (many)
        store32(rings + header_at(place->port, REQ_PROD), taken + slots() - place->in_flight);
    set_notify(place->port, notify);
    hand_over(name, &turn, &expect);
}

static void requests_of_each_kind(void) {
    static const struct place places[] = {
        {2, 1, 1, 5, MIXED},    {7, 7, 31, 0, ALL_OPEN}, {3, 5, 31, 0, ALONE},
        {5, 2, 0, 0, ALL_OPEN}, {0, 0, 0, 0, ALONE},     {4, 4, 30, 31, MIXED},
    };
    for (unsigned r = 0; r < request_count; r++)
        for (unsigned p = 0; p < sizeof places / sizeof *places; p++) {
            struct place place = in_ring(places[p]);
            for (unsigned notify = 0; notify < (requests[r].reason ? 2 : 1); notify++)
                turn_on(requests[r].name, &place, &requests[r], notify, p % 2);
        }
}

static void overrun_on(const char *name, const struct place *place, uint32_t distance) {
    struct expect expect = {.kind = OVERRUN, .port = place->port};
    if (!is_wanted(name))
        return;
    prepare(place, shape, NULL);
    store32(rings + header_at(place->port, REQ_PROD), bench.ports[place->port].taken + distance);
    hand_over(name, &turn, &expect);
}

static void serve_from(const char *name, unsigned kind, const struct place *place) {
    if (kind == OVERRUN)
        overrun_on(name, place, slots() + 1);
    else
        turn_on(name, place, kind == STARTED ? &held : &dummy, place->port % 2, place->pointer % 2);
}

static void every_pointer_and_port(const char *name, enum kind kind) {
    for (unsigned i = 0; i < PORTS * PORTS * 3 * 2; i++) {
        struct place place = {
            .port = i % 8, .pointer = i / 8 % 8, .slot = i / 64 % 2 ? slots() - 1 : 0, .others = i / 128};
        serve_from(name, kind, &place);
    }
}

/* From the last on, in the second round: there an index modulo 32 is not the same as one modulo 64. */
static struct place nth_slot(unsigned n) {
    return (struct place){
        .port = n % PORTS, .pointer = n / 2 % PORTS, .slot = 2 * slots() - 1 - n, .others = (n + 1) % 3};
}

static void every_slot(const char *name, enum kind kind) {
    for (unsigned n = 0; n < slots(); n++) {
        struct place place = nth_slot(n);
        serve_from(name, kind, &place);
    }
}

static void overruns(void) {
    struct place alone = {0, 0, 0, 0, ALONE}, crowded = in_ring((struct place){6, 3, 31, 5, MIXED}),
                 full = in_ring((struct place){1, 1, 0, 32, ALL_OPEN});
    overrun_on("overrun: one too many", &alone, slots() + 1);
    overrun_on("overrun: with requests in flight", &crowded, slots() - 5 + 1);
    overrun_on("overrun: with all tags busy", &full, 1);
    overrun_on("overrun: req_prod behind", &crowded, UINT32_MAX);
}

/* ---- turns that are idle or refused */

static void idle_with(const char *name, unsigned open_ports) {
    static const struct expect idle = {.kind = IDLE};
    for (unsigned pointer = 0; pointer < PORTS && is_wanted(name); pointer++) {
        reset();
        for (unsigned k = 0; k < open_ports; k++)
            open_port((3 * k + pointer) % PORTS, k == 0 ? shape : other_shape(k), NULL);
        set_pointer(pointer);
        hand_over(name, &turn, &idle);
    }
}

static void idle(void) {
    static const char *const names[] = {"idle: no open port", "idle: 1 open port",  "idle: 2 open ports",
                                        "idle: 3 open ports", "idle: 4 open ports", "idle: 5 open ports",
                                        "idle: 6 open ports", "idle: 7 open ports", "idle: 8 open ports"};
    struct place crowded = in_ring((struct place){6, 3, 31, 5, MIXED});
    static const struct expect expect = {.kind = IDLE};
    for (unsigned open_ports = 0; open_ports <= PORTS; open_ports++)
        idle_with(names[open_ports], open_ports);
    prepare(&crowded, shape, NULL);
    hand_over("idle: broken ports, requests in flight", &turn, &expect);
}

static void turns_refused(void) {
    static const struct place place = {0, 0, 0, 0, ALL_OPEN};
    static const struct expect refused = {.refusal = 1};
    static const size_t wrong[][2] = {{0, KH_GRANTS_BYTES},
                                      {KH_RINGS_BYTES - 1, KH_GRANTS_BYTES},
                                      {KH_RINGS_BYTES + 1, KH_GRANTS_BYTES},
                                      {KH_RINGS_BYTES, 0},
                                      {KH_RINGS_BYTES, KH_GRANTS_BYTES - 1},
                                      {KH_RINGS_BYTES, SIZE_MAX},
                                      {PORTS * PAGE_BYTES, KH_GRANTS_BYTES}};
    for (unsigned i = 0; i < sizeof wrong / sizeof *wrong; i++) {
        struct call call = {.rings_bytes = wrong[i][0], .grants_bytes = wrong[i][1]};
        prepare(&place, shape, NULL);
        put_request(0, bench.ports[0].taken, &held);
        hand_over("turn refused 1", &call, &refused);
    }
}

/* ---- completions */

/* Starts a request, and gives the call that completes it. */
static struct call started(const struct place *place, const struct request *request) {
    prepare(place, shape, request->disk);
    uint32_t serial = bench.ports[place->port].taken;
    uint32_t tag = serve(place->port, request);
    return (struct call){.callee = CALL_COMPLETE,
                         .rings_bytes = KH_RINGS_BYTES,
                         .port = place->port,
                         .tag = tag,
                         .serial = serial,
                         .result = request->due};
}

static void complete_as(const char *name, const struct request *request, int32_t result, uint32_t status, bool broken) {
    static const struct place places[] = {
        {0, 0, 0, 0, ALONE}, {7, 2, 31, 0, ALL_OPEN}, {3, 3, 30, 31, MIXED}, {5, 6, 0, 3, ALONE}};
    for (unsigned i = 0; i < 2 * sizeof places / sizeof *places && is_wanted(name); i++) {
        struct place place = in_ring(places[i / 2]);
        struct call call = started(&place, request);
        struct expect expect = {.kind = COMPLETED, .port = place.port, .status = status, .notify = i % 2};
        if (broken)
            overrun(place.port);
        call.result = result;
        set_notify(place.port, expect.notify);
        hand_over(name, &call, &expect);
    }
}

static void complete_in_every_slot(const char *name) {
    for (unsigned n = 0; n < slots() && is_wanted(name); n++) {
        struct place place = nth_slot(n);
        struct call call = started(&place, &held);
        struct expect expect = {.kind = COMPLETED, .port = place.port, .notify = n % 2};
        set_notify(place.port, expect.notify);
        hand_over(name, &call, &expect);
    }
}

static void completions(void) {
    for (unsigned r = 0; r < request_count && requests[r].reason == 0; r++)
        complete_as("completed 0", &requests[r], requests[r].due, 0, false);
    for (unsigned r = 0; r < request_count && requests[r].reason == 0; r++)
        complete_as("completed -1: another count", &requests[r], requests[r].due - 1, 1, false);
    complete_as("completed -1: least result", &held, INT32_MIN, 1, false);
    complete_as("completed -2", &held, -95, 2, false);
    complete_as("completed 0, port broken", &held, held.due, 0, true);
    complete_as("completed -2, port broken", &held, -95, 2, true);
    complete_in_every_slot("completed: every slot");
}

static void refuse_completion(const char *name, uint32_t number, struct call call) {
    struct expect refused = {.refusal = number};
    hand_over(name, &call, &refused);
}

/* Each of them differs in one field from a completion that would be done. */
static void completions_refused(void) {
    static const struct place place = {2, 2, 4, 3, MIXED};
    struct call call = started(&place, &held);
    struct call other = call;
    static const size_t wrong[] = {0, PORTS * PAGE_BYTES, KH_RINGS_BYTES - 1, KH_RINGS_BYTES + 1, SIZE_MAX};
    for (unsigned i = 0; i < sizeof wrong / sizeof *wrong; i++) {
        other.rings_bytes = wrong[i];
        refuse_completion("completion refused 1", 1, other);
    }
    static const uint32_t ports[] = {8, UINT32_MAX};
    for (unsigned i = 0; i < 2; i++) {
        other = call;
        other.port = ports[i];
        refuse_completion("completion refused 2", 2, other);
    }
    static const uint32_t tags[] = {4, 31, 32, 63, 64, UINT32_MAX};
    for (unsigned i = 0; i < sizeof tags / sizeof *tags; i++) {
        other = call;
        other.tag = tags[i];
        refuse_completion("completion refused 6: tag", 6, other);
    }
    other = call;
    other.serial++;
    refuse_completion("completion refused 6: serial", 6, other);
    static const struct place alone = {2, 2, 4, 3, ALONE};
    other = started(&alone, &held);
    other.port = 3;
    refuse_completion("completion refused 4", 4, other);
}

static const struct taker taker = {is_wanted, hand_over};

static void each_in_shape(void) {
    last_name = asked_name = NULL;
    fill_rings();
    requests_of_each_kind();
    every_pointer_and_port("started: every pointer, port, first and last slot", STARTED);
    every_pointer_and_port("answered: every pointer, port, first and last slot", ANSWERED);
    every_pointer_and_port("overrun: every pointer, port, first and last slot", OVERRUN);
    every_slot("started: every slot", STARTED);
    every_slot("answered: every slot", ANSWERED);
    overruns();
    idle();
    completions();
    turns_refused();
    completions_refused();
    each_list(&taker, shape);
}

void each_scenario(visitor *visit, enum extent how_many) {
    visit_next = visit;
    extent = how_many;
    names_asked = 0;
    grant_frames();
    for (shape = shapes; shape < shapes + SHAPES; shape++)
        each_in_shape();
    shape = shapes; /* the only one that the guest's half has */
    reset();
    each_guest_call(&taker);
}
