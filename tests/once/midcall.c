/* Guest bytes changed just before each access of a call; just after one is just before the next, and after the last the
   call sees no change. What the call then does must be what it does on the old bytes, where it loads none of the new
   ones; on the new bytes, where it loads none of the old ones; and in between, what a fresh call does on the bytes as
   they were loaded. A call that checks one value and uses another has no such bytes.

   A moment is left out where the access before it does not touch the changed bytes: up to there the call is the same as
   with the change one access earlier, and so is what follows. */
#include <stdio.h>
#include <string.h>

#include "changes.h"
#include "once.h"
#include "result.h"
#include "rules.h"

struct counts {
    unsigned old, new, between, faults;
};

static const struct backend *backend;
static const struct scenario *scenario;
static const char *only_names;
static struct counts of_name, of_all;

/* The backend, the guest and the rings before the call. */
static struct {
    kh_memory memory;
    kh_guest guest;
    uint8_t rings[KH_RINGS_BYTES];
} before;

static const struct change *change;
static struct trace undisturbed; /* the call's accesses where nothing changes */
static unsigned moment;
static struct result as_old, as_new;

static void restore(void) {
    bench.memory = before.memory;
    bench.guest = before.guest;
    memcpy(rings, before.rings, sizeof before.rings);
}

static void make_change(void) {
    memcpy(rings + change->at, change->bytes, change->size);
}

static void meddle(unsigned number) {
    if (number == moment)
        make_change();
}

static bool touches_change(const struct access *access) {
    return access->at < change->at + change->size && change->at < access->at + access->size;
}

/* Whether the changed bytes were loaded on this side of the change. */
static bool is_loaded(const struct trace *trace, bool after) {
    for (unsigned i = 0; i < trace->count; i++) {
        const struct access *access = &trace->list[i];
        if (access->load && touches_change(access) && (i >= moment) == after)
            return true;
    }
    return false;
}

/* The rings as the call has loaded them; a byte loaded twice counts as it was the first time. */
static void restore_as_loaded(const struct trace *trace) {
    restore();
    for (unsigned i = trace->count; i-- > 0;) {
        const struct access *access = &trace->list[i];
        if (access->load)
            memcpy(rings + access->at, access->loaded, access->size);
    }
}

static void fault(const char *what) {
    of_name.faults++;
    fprintf(stderr, "%s: %s: %s: %s changed just before access %u of %u\n", scenario->shape->name, scenario->name, what,
            change->name, moment + 1, undisturbed.count);
}

static void judge_between(const struct trace *trace, const struct result *result) {
    static struct trace fresh_trace;
    static struct result fresh;
    of_name.between++;
    if (change->is_index)
        fault("taken in pieces");
    restore_as_loaded(trace);
    traced_call(&archive, &scenario->call, NULL, &fresh_trace, &fresh);
    if (!is_same(result, &fresh))
        fault("a mixture");
}

static void try_moment(void) {
    static struct trace trace;
    static struct result result;
    restore();
    traced_call(backend, &scenario->call, meddle, &trace, &result);
    bool old = is_loaded(&trace, false), new = is_loaded(&trace, true);
    if (old && new) {
        judge_between(&trace, &result);
        return;
    }
    of_name.new += new;
    of_name.old += !new;
    if (!old && !is_same(&result, &as_new))
        fault("not as on the new bytes");
    if (!new && !is_same(&result, &as_old))
        fault("not as on the old bytes");
}

static void try_change(const struct change *next) {
    static struct trace trace;
    change = next;
    make_change();
    traced_call(&archive, &scenario->call, NULL, &trace, &as_new);
    for (moment = 0; moment < undisturbed.count; moment++)
        if (moment == 0 || touches_change(&undisturbed.list[moment - 1]))
            try_moment();
    restore();
}

static void end_scenario(void) {
    printf("%-6s %-15s %-50s %5u changes: %5u as on the old bytes, %5u as on the new, %5u as loaded\n",
           of_name.faults ? "FAULT" : "whole", scenario->shape->name, scenario->name,
           of_name.old + of_name.new + of_name.between, of_name.old, of_name.new, of_name.between);
    of_all.old += of_name.old;
    of_all.new += of_name.new;
    of_all.between += of_name.between;
    of_all.faults += of_name.faults;
    of_name = (struct counts){0};
}

/* What shows that the check refuses a stand-in shows it with rings of one page already. */
static bool is_tried(const struct scenario *next) {
    return strncmp(next->name, only_names, strlen(only_names)) == 0 && (backend == &archive || next->shape->pages == 1);
}

static void try_scenario(const struct scenario *next) {
    static struct trace trace;
    if (!is_tried(next))
        return;
    scenario = next;
    before.memory = bench.memory;
    before.guest = bench.guest;
    memcpy(before.rings, rings, sizeof before.rings);
    traced_call(backend, &scenario->call, NULL, &undisturbed, &as_old);
    restore();
    traced_call(&archive, &scenario->call, NULL, &trace, &as_old);
    if (!is_expected(scenario, &as_old.outcome))
        fail("%s: %s: another outcome", scenario->shape->name, scenario->name);
    restore();
    each_change(scenario, try_change);
    end_scenario();
}

unsigned check_changes(const struct backend *under_test, const char *only) {
    backend = under_test;
    only_names = only;
    each_scenario(try_scenario, FEW);
    printf("%u changes in the middle of a call: %u as on the old bytes, %u as on the new, %u as loaded; %u faults\n",
           of_all.old + of_all.new + of_all.between, of_all.old, of_all.new, of_all.between, of_all.faults);
    return of_all.faults;
}
