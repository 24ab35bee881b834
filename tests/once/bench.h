/* A backend and a guest with their lent buffers, one call of them, and the books that the test keeps by itself. */
#ifndef ONCE_BENCH_H
#define ONCE_BENCH_H

#include <stdbool.h>

#include <kernelharp.h>

enum { PORTS = 8, PAGE_SLOTS = 32, PAGE_BYTES = 4096, SHARE_BYTES = 8192, INDEX_BYTES = 4 };
enum { REQ_PROD = 0, REQ_EVENT = 4, RSP_PROD = 8, RSP_EVENT = 12, FIRST_SLOT = 64 };

/* How a guest lays out a slot: its bytes, a response's, and where a request has its fields. */
struct layout {
    const char *protocol;
    unsigned slot_bytes, response_bytes, id, start, segments;
};

enum { MOST_SLOT_BYTES = 112 };
extern const struct layout layouts[]; /* by enum kh_abi */

/* What a guest's ring is like: rings of both layouts, of one page and of two. */
struct shape {
    const char *name;
    enum kh_abi abi;
    unsigned pages;
};

enum { SHAPES = 4 };
extern const struct shape shapes[SHAPES];

enum state { CLOSED, OPEN, BROKEN };

/* What the turn's answers tell of a port: C and R (rule 4.2) among it. And of its disk, the sectors of 512 bytes in one
 * of its own, and whether its discard-secure is 1. */
struct book {
    enum state state;
    enum kh_abi abi;
    unsigned pages, unit;
    bool secure;
    uint32_t taken, answered;
};

/* Of the guest: the port whose page it has, and its own indices, called as in ring.h. */
struct ledger {
    unsigned port;
    uint32_t req_prod, rsp_cons;
};

struct bench {
    kh_memory memory;
    uint8_t grants[KH_GRANTS_BYTES];
    struct book ports[PORTS];
    unsigned pointer;
    uint64_t entries[KH_ENTRY_WORDS * (KH_ENTRIES + 1)]; /* of a list of completions */
    kh_guest guest;
    uint64_t request[KH_REQUEST_WORDS];
    struct ledger front;
};

extern struct bench bench;

/* The ring buffer lies at a fixed address, so that two traces of it can be compared. */
extern uint8_t *const rings;

/* The same bytes where any access faults. */
extern uint8_t *const out_of_reach;

/* A store to the first word says that a call begins, to the second that it has ended: seen in a trace. */
extern volatile uint64_t *const markers;

/* IDLE to OVERRUN are the numbers of a turn's answer. The last three are the guest's. */
enum kind { IDLE, STARTED, ANSWERED, OVERRUN, COMPLETED, LISTED, PUT, COLLECTED, NOTHING };

enum callee { CALL_TURN, CALL_COMPLETE, CALL_LIST, CALL_PUT, CALL_COLLECT };

/* A list's entries are those of the bench. The guest's calls are lent the page alone, and `rings_bytes` is its length.
 */
struct call {
    enum callee callee;
    size_t rings_bytes, grants_bytes, entry_words;
    uint32_t port, tag, serial;
    int32_t result;
};

struct outcome {
    uint32_t refusal;
    uint64_t answer[KH_MANY_WORDS]; /* none is longer */
};

/* What is called: the archive, or a stand-in for it. */
struct backend {
    uint32_t (*turn)(kh_memory *, uint8_t *, size_t, const uint8_t *, size_t, uint64_t *);
    uint32_t (*complete)(kh_memory *, uint8_t *, size_t, uint32_t, uint32_t, uint32_t, int32_t, uint64_t *);
    uint32_t (*complete_many)(kh_memory *, uint8_t *, size_t, uint32_t, const uint64_t *, size_t, uint64_t *);
    uint32_t (*put)(kh_guest *, uint8_t *, size_t, const uint64_t *, uint64_t *);
    uint32_t (*collect)(kh_guest *, uint8_t *, size_t, uint64_t *);
};

extern const struct backend archive;

void map_buffers(void);
void call_backend(const struct backend *backend, const struct call *call, uint8_t *lent, struct outcome *outcome);

uint32_t load32(const uint8_t *from);
void store32(uint8_t *to, uint32_t value);
void store64(uint8_t *to, uint64_t value);

const struct layout *layout_of(unsigned port);
unsigned slots_of(unsigned port);

/* Whether a byte is in the second half of a port's share, and in no ring: the port has one page, or is closed. */
bool is_second_half(unsigned at);

/* Places in the ring buffer; the second in a ring of so many slots. */
unsigned header_at(unsigned port, unsigned field);
unsigned slot_among(unsigned port, unsigned slots, uint32_t index);
unsigned slot_at(unsigned port, uint32_t index);

_Noreturn void fail(const char *format, ...) __attribute__((format(printf, 1, 2)));

#endif
