/*
 * A guest in a process of its own: a front end on Xen's macros, built for 32 or for 64 bits, that shares its ring of
 * one page or two with the host of processes.c. It looks at the ring when it has something to send, and else sleeps
 * until it is notified.
 *
 *     guest PORT PAGES WAKE BELL    the last three are files: the ring pages, where it is notified, where it notifies
 */
#include "guest.h"

static uint32_t port;
static int wake, bell;

static uint32_t below(uint32_t bound) {
    static uint64_t state = 1;
    state = (state + port) * UINT64_C(6364136223846793005) + 1;
    return (uint32_t)(state >> 33) % bound;
}

static void notify_host(void) {
    uint8_t name = (uint8_t)port;
    CHECK_EQ(write(bell, &name, 1), 1);
}

/* Not for ever: when the host goes, the file ends. */
static void sleep_until_notified(void) {
    char heard[64];
    CHECK(read(wake, heard, sizeof heard) > 0);
}

static bool may_send(const guest *g) {
    return g->sent < g->requests && g->macros->outstanding(port) < g->macros->slots(port);
}

static void run(guest *g) {
    while (g->collected < g->requests && running.failures == 0) {
        if (send_some(g, port, below(12)))
            notify_host();
        collect_all(g, port, below(4));
        if (g->macros->outstanding(port) > 0 && (!may_send(g) || below(2) == 0))
            sleep_until_notified();
    }
}

int main(int words, char **word) {
    static guest g = {.macros = &as_compiled, .requests = MOST_REQUESTS};
    uint8_t *ring;
    if (words != 5)
        return 2;
    running.name = sizeof(void *) == 4 ? "32-bit guest" : "64-bit guest";
    port = (uint32_t)atoi(word[1]);
    wake = atoi(word[3]);
    bell = atoi(word[4]);
    ring = mmap(NULL, SHARE_BYTES, PROT_READ | PROT_WRITE, MAP_SHARED, atoi(word[2]), (off_t)SHARE_BYTES * port);
    if (ring == MAP_FAILED)
        return 2;
    g.macros->open_front(port, ring);
    run(&g);
    return running.failures != 0;
}
