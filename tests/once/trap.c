#define _GNU_SOURCE
#include "trap.h"

#include <signal.h>
#include <stdio.h>
#include <string.h>
#include <sys/mman.h>
#include <unistd.h>

#include "bench.h"
#include "decode.h"

static struct trace *current;
static bool under_way; /* the access behind the last of the trace */
static meddler *meddle_with;
static uint8_t *moved; /* the instruction under way */

/* A trace that has a gap would be worth nothing: the run ends. */
static _Noreturn void give_up(const char *why, const ucontext_t *at, const void *address) {
    const uint8_t *code = (const uint8_t *)at->uc_mcontext.gregs[REG_RIP];
    dprintf(2, "%s: address %p, instruction at %p:", why, address, (const void *)code);
    for (unsigned i = 0; i < 12; i++)
        dprintf(2, " %02x", code[i]);
    dprintf(2, "\n");
    _exit(2);
}

static bool lies_in_rings(const struct operand *operand) {
    uintptr_t from = (uintptr_t)out_of_reach;
    return from <= operand->address && operand->address + operand->size <= from + KH_RINGS_BYTES;
}

/* What a copy of the C library's loads is another thing on each machine: the accesses must be this program's own. */
static bool is_own(const ucontext_t *at) {
    extern const char __executable_start[], etext[];
    const char *code = (const char *)at->uc_mcontext.gregs[REG_RIP];
    return __executable_start <= code && code < etext;
}

/* Nobody has touched the rings since. */
static void end_access(void) {
    struct access *access = &current->list[current->count];
    if (!under_way)
        return;
    memcpy(access->stored, rings + access->at, access->size);
    current->count++;
    under_way = false;
}

static void note(const ucontext_t *at, const struct operand *operand) {
    struct access *access = &current->list[current->count];
    access->instruction = (uintptr_t)at->uc_mcontext.gregs[REG_RIP];
    access->at = (unsigned)(operand->address - (uintptr_t)out_of_reach);
    access->size = operand->size;
    access->load = operand->load;
    access->store = operand->store;
    memcpy(access->loaded, rings + access->at, access->size);
    under_way = true;
}

static void before(int signal, siginfo_t *info, void *context) {
    (void)signal;
    ucontext_t *at = context;
    struct operand operand;
    if (current && !is_own(at))
        give_up("an access by a shared library", at, info->si_addr);
    if (!current || !decode(at, &operand))
        give_up("not known", at, info->si_addr);
    if (!lies_in_rings(&operand) || operand.address != (uintptr_t)info->si_addr)
        give_up("another address than decoded", at, info->si_addr);
    end_access();
    if (current->count == MOST_ACCESSES)
        give_up("too many accesses", at, info->si_addr);
    if (meddle_with)
        meddle_with(current->count);
    note(at, &operand);
    if (!write_moved(at, &operand, (int32_t)(rings - out_of_reach), moved))
        give_up("too far away", at, info->si_addr);
    at->uc_mcontext.gregs[REG_RIP] = (greg_t)(uintptr_t)moved;
}

void trap_install(void) {
    struct sigaction action = {.sa_sigaction = before, .sa_flags = SA_SIGINFO};
    if (sigaction(SIGSEGV, &action, NULL) != 0)
        fail("sigaction");
    moved = mmap(NULL, MOST_MOVED_BYTES, PROT_READ | PROT_WRITE | PROT_EXEC, MAP_PRIVATE | MAP_ANONYMOUS, -1, 0);
    if (moved == MAP_FAILED)
        fail("no room for an instruction");
}

void trap_begin(struct trace *trace, meddler *meddle) {
    trace->count = 0;
    current = trace;
    meddle_with = meddle;
}

void trap_end(void) {
    end_access();
    current = NULL;
}
