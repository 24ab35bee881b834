#include "once.h"

#include <stdio.h>

#include "rules.h"

struct counts {
    unsigned calls, loads, loaded, stores, stored, published, faults;
};

static const struct backend *backend;
static struct counts of_name, of_all;
static struct scenario last;
static unsigned names_at_fault, names;

static void add(struct counts *sum, const struct counts *more) {
    sum->calls += more->calls;
    sum->loads += more->loads;
    sum->loaded += more->loaded;
    sum->stores += more->stores;
    sum->stored += more->stored;
    sum->published += more->published;
    sum->faults += more->faults;
}

/* req_prod of a put, rsp_prod of all else: what the call has stored in slots is the other side's from here on. */
static bool publishes(const struct access *access) {
    unsigned in_ring = access->at % SHARE_BYTES;
    return access->store && (in_ring == REQ_PROD || in_ring == RSP_PROD);
}

static struct counts count(const struct trace *trace) {
    struct counts counts = {.calls = 1};
    for (unsigned i = 0; i < trace->count; i++) {
        const struct access *access = &trace->list[i];
        counts.loads += access->load;
        counts.loaded += access->load ? access->size : 0;
        counts.stores += access->store;
        counts.stored += access->store ? access->size : 0;
        counts.published += publishes(access);
    }
    return counts;
}

/* A line for all scenarios of one name and shape. */
static void end_name(void) {
    if (!last.name)
        return;
    printf("%-6s %-15s %-50s %4u calls, %5u loads of %6u bytes, %4u stores of %5u bytes\n",
           of_name.faults ? "FAULT" : "once", last.shape->name, last.name, of_name.calls, of_name.loads, of_name.loaded,
           of_name.stores, of_name.stored);
    add(&of_all, &of_name);
    names++;
    names_at_fault += of_name.faults != 0;
    of_name = (struct counts){0};
}

static unsigned judge_outcome(const struct scenario *scenario, const struct outcome *outcome) {
    if (is_expected(scenario, outcome))
        return 0;
    fprintf(stderr, "%s: %s: another outcome: %u, kind %u\n", scenario->shape->name, scenario->name, outcome->refusal,
            (unsigned)outcome->answer[KH_TURN_KIND]);
    return 1;
}

static void check(const struct scenario *scenario) {
    static struct trace trace;
    struct outcome outcome;
    if (scenario->sample)
        end_name();
    last = *scenario;
    trap_begin(&trace, NULL);
    call_backend(backend, &scenario->call, out_of_reach, &outcome);
    trap_end();
    struct counts counts = count(&trace);
    counts.faults = judge(scenario, &trace) + judge_outcome(scenario, &outcome);
    add(&of_name, &counts);
}

unsigned check_accesses(const struct backend *under_test) {
    backend = under_test;
    each_scenario(check, backend == &archive ? ALL : SAMPLES);
    end_name();
    printf("%u scenarios, %u at fault: %u calls, %u loads of %u bytes, %u stores of %u bytes\n", names, names_at_fault,
           of_all.calls, of_all.loads, of_all.loaded, of_all.stores, of_all.stored);
    printf("%u calls published what they had put into slots: %s\n", of_all.published,
           of_all.faults ? "not all of them in the due order"
                         : "every byte of it was stored before the index, which was stored whole and once");
    return of_all.faults;
}
