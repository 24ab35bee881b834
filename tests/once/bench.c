#define _GNU_SOURCE
#include "bench.h"

#include <stdarg.h>
#include <stdio.h>
#include <stdlib.h>
#include <string.h>
#include <sys/mman.h>
#include <unistd.h>

/* Far from where a heap begins, with or without valgrind. lackey.awk has these numbers too. */
#define MARKERS_AT   0x100000000
#define RINGS_AT     0x100002000
#define FAULTS_AT    0x100014000
#define MAPPED_BYTES (FAULTS_AT - MARKERS_AT + KH_RINGS_BYTES + PAGE_BYTES)

const struct layout layouts[] = {
    [KH_BITS64] = {"x86_64-abi", 112, 16, 8, 16, 24},
    [KH_BITS32] = {"x86_32-abi", 108, 12, 4, 12, 20},
};

const struct shape shapes[SHAPES] = {
    {"64-bit", KH_BITS64, 1},
    {"32-bit", KH_BITS32, 1},
    {"64-bit two-page", KH_BITS64, 2},
    {"32-bit two-page", KH_BITS32, 2},
};

struct bench bench;
uint8_t *const rings = (uint8_t *)RINGS_AT;
uint8_t *const out_of_reach = (uint8_t *)FAULTS_AT;
volatile uint64_t *const markers = (volatile uint64_t *)MARKERS_AT;
const struct backend archive = {kh_turn, kh_complete, kh_complete_many, kh_guest_put, kh_guest_collect};

_Noreturn void fail(const char *format, ...) {
    va_list words;
    va_start(words, format);
    vfprintf(stderr, format, words);
    va_end(words);
    fputc('\n', stderr);
    exit(2);
}

/* The rings' bytes, in two places. */
static void map_rings(void) {
    int file = memfd_create("rings", 0);
    if (file < 0 || ftruncate(file, KH_RINGS_BYTES) != 0)
        fail("no memory for the rings");
    if (mmap(rings, KH_RINGS_BYTES, PROT_READ | PROT_WRITE, MAP_SHARED | MAP_FIXED, file, 0) != rings ||
        mmap(out_of_reach, KH_RINGS_BYTES, PROT_NONE, MAP_SHARED | MAP_FIXED, file, 0) != out_of_reach)
        fail("no room for the rings");
    close(file);
}

/* A page that nobody may touch lies on each side of the rings. */
void map_buffers(void) {
    int flags = MAP_PRIVATE | MAP_ANONYMOUS | MAP_FIXED_NOREPLACE;
    void *all = mmap((void *)MARKERS_AT, MAPPED_BYTES, PROT_NONE, flags, -1, 0);
    if (all != (void *)MARKERS_AT)
        fail("no room for the rings at their fixed address");
    if (mprotect(all, PAGE_BYTES, PROT_READ | PROT_WRITE) != 0)
        fail("mprotect of the markers");
    map_rings();
    if (kh_version() != KH_VERSION || kh_memory_words() != KH_MEMORY_WORDS)
        fail("an archive of version %u with %u words of memory", kh_version(), kh_memory_words());
    if (kh_guest_words() != KH_GUEST_WORDS)
        fail("an archive with %u words of guest memory", kh_guest_words());
}

void call_backend(const struct backend *backend, const struct call *call, uint8_t *lent, struct outcome *outcome) {
    uint8_t *page = lent + SHARE_BYTES * call->port; /* the guest's */
    switch (call->callee) {
    case CALL_TURN:
        outcome->refusal =
            backend->turn(&bench.memory, lent, call->rings_bytes, bench.grants, call->grants_bytes, outcome->answer);
        break;
    case CALL_COMPLETE:
        outcome->refusal = backend->complete(&bench.memory, lent, call->rings_bytes, call->port, call->tag,
                                             call->serial, call->result, outcome->answer);
        break;
    case CALL_LIST:
        outcome->refusal = backend->complete_many(&bench.memory, lent, call->rings_bytes, call->port, bench.entries,
                                                  call->entry_words, outcome->answer);
        break;
    case CALL_PUT:
        outcome->refusal = backend->put(&bench.guest, page, call->rings_bytes, bench.request, outcome->answer);
        break;
    case CALL_COLLECT:
        outcome->refusal = backend->collect(&bench.guest, page, call->rings_bytes, outcome->answer);
    }
}

uint32_t load32(const uint8_t *from) {
    uint32_t value;
    memcpy(&value, from, sizeof value);
    return value;
}

void store32(uint8_t *to, uint32_t value) {
    memcpy(to, &value, sizeof value);
}

void store64(uint8_t *to, uint64_t value) {
    memcpy(to, &value, sizeof value);
}

const struct layout *layout_of(unsigned port) {
    return &layouts[bench.ports[port].abi];
}

unsigned slots_of(unsigned port) {
    return bench.ports[port].pages == 2 ? 64 : 32;
}

bool is_second_half(unsigned at) {
    return at % SHARE_BYTES >= PAGE_BYTES && bench.ports[at / SHARE_BYTES].pages != 2;
}

unsigned header_at(unsigned port, unsigned field) {
    return SHARE_BYTES * port + field;
}

unsigned slot_among(unsigned port, unsigned slots, uint32_t index) {
    return SHARE_BYTES * port + FIRST_SLOT + layout_of(port)->slot_bytes * (index % slots);
}

unsigned slot_at(unsigned port, uint32_t index) {
    return slot_among(port, slots_of(port), index);
}
