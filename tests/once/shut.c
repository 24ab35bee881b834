#include <signal.h>
#include <stdio.h>
#include <sys/mman.h>

#include "once.h"
#include "rules.h"

static const struct backend *backend;
static const struct scenario *current; /* null between two calls */
static unsigned calls, pages, faults;

static void reach(unsigned at, unsigned bytes, bool within) {
    if (mprotect(rings + at, bytes, within ? PROT_READ | PROT_WRITE : PROT_NONE) != 0)
        fail("mprotect of ring pages");
}

/* A page that is in no ring. That of the guest's half is no port's. */
static bool is_in_no_ring(const struct call *call, unsigned at) {
    unsigned port = at / SHARE_BYTES;
    if (call->callee == CALL_PUT || call->callee == CALL_COLLECT)
        return port != bench.front.port || at % SHARE_BYTES != 0;
    return bench.ports[port].state == CLOSED || is_second_half(at);
}

static void shut(const struct call *call) {
    for (unsigned at = 0; at < KH_RINGS_BYTES; at += PAGE_BYTES)
        if (is_in_no_ring(call, at)) {
            reach(at, PAGE_BYTES, false);
            pages++;
        }
}

/* The fault is told, and the access let through. */
static void on_fault(int signal, siginfo_t *info, void *context) {
    (void)signal;
    (void)context;
    size_t at = (size_t)((uint8_t *)info->si_addr - rings);
    if (!current || at >= KH_RINGS_BYTES)
        fail("a fault that is none of the rings': address %p", info->si_addr);
    fprintf(stderr, "%s: %s: out of reach: %s\n", current->shape->name, current->name, place_name((unsigned)at));
    reach((unsigned)at / PAGE_BYTES * PAGE_BYTES, PAGE_BYTES, true);
    faults++;
}

static void call_shut(const struct scenario *scenario) {
    struct outcome outcome;
    shut(&scenario->call);
    current = scenario;
    call_backend(backend, &scenario->call, rings, &outcome);
    current = NULL;
    reach(0, KH_RINGS_BYTES, true);
    calls++;
    if (!is_expected(scenario, &outcome)) {
        fprintf(stderr, "%s: %s: another outcome\n", scenario->shape->name, scenario->name);
        faults++;
    }
}

unsigned check_shut(const struct backend *under_test) {
    struct sigaction action = {.sa_sigaction = on_fault, .sa_flags = SA_SIGINFO};
    if (sigaction(SIGSEGV, &action, NULL) != 0)
        fail("sigaction");
    backend = under_test;
    each_scenario(call_shut, backend == &archive ? ALL : SAMPLES);
    printf("%u calls with %u pages out of reach: %u faults\n", calls, pages, faults);
    return faults;
}
